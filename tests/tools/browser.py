"""A window of headless Chromium, driven by selenium."""
import base64
import json
import unittest

import programs

try:
    from selenium import webdriver
    from selenium.webdriver.chrome.service import Service
    from selenium.webdriver.support.wait import WebDriverWait
except ImportError:
    raise unittest.SkipTest("selenium is missing: Debian has it in python3-selenium") from None

CHROMIUM, DRIVER = "chromium", "chromedriver"
# how long a page may take for one answer, in seconds
PATIENCE = 120
# what every script can call
FUNCTIONS = ("const element = (id) => document.getElementById(id), "
             "elements = (selector) => [...document.querySelectorAll(selector)];")


class Browser(webdriver.Chrome):
    """A browser window of a test. `flags` are further words for Chromium."""

    def __init__(self, test, *flags, size=(900, 1400)):
        programs.need(CHROMIUM, DRIVER)
        options = webdriver.ChromeOptions()
        options.binary_location = programs.found(CHROMIUM)
        for word in ("--headless=new", "--no-sandbox", "--disable-gpu", "--disable-dev-shm-usage",
                     "--no-first-run", "--hide-scrollbars", "--window-size=%d,%d" % size, *flags):
            options.add_argument(word)
        options.set_capability("goog:loggingPrefs", {"performance": "ALL", "browser": "ALL"})
        super().__init__(service=Service(programs.found(DRIVER)), options=options)
        test.addCleanup(self.quit)
        self.set_script_timeout(PATIENCE)
        self.get("about:blank")
        self.get_log("performance")  # what the browser asked for by itself as it began

    def run(self, script, *values):
        """What a script returns: the body of a function of the values."""
        return self.execute_script(FUNCTIONS + script, *values)

    def wait_for(self, script, *values):
        """Waits until a script returns something true, and gives that."""
        return WebDriverWait(self, PATIENCE, 0.05).until(
            lambda _: self.run(script, *values), "this did not become true: " + script)

    def await_script(self, script, *values):
        """What the promise of a script resolves to: the body of an async function."""
        return self.execute_async_script(
            "const answer = arguments[arguments.length - 1];"
            "(async (...values) => {%s})(...arguments).then(it => answer({value: it}),"
            " error => answer({error: String(error)}))" % (FUNCTIONS + script), *values)

    def open_file(self, path):
        """Opens a file by its path, as a person does by a dialog."""
        self.find_element("css selector", "#files").send_keys(path)

    def press(self, *keys):
        """Presses keys of the keyboard, in turn; those of a list together."""
        actions = webdriver.ActionChains(self, 0)
        for key in keys:
            chord = key if isinstance(key, list) else [key]
            for it in chord:
                actions.key_down(it)
            for it in reversed(chord):
                actions.key_up(it)
        actions.perform()

    def command(self, name, **parameters):
        """A command of Chromium's own protocol."""
        return self.execute_cdp_cmd(name, parameters)

    def picture(self, path):
        """Writes a picture of the whole page."""
        data = self.command("Page.captureScreenshot", captureBeyondViewport=True)["data"]
        programs.write_file(path, base64.b64decode(data))

    def requests(self):
        """The address of each request that the browser has made."""
        messages = [json.loads(it["message"])["message"] for it in self.get_log("performance")]
        return [it["params"]["request"]["url"] for it in messages
                if it["method"] == "Network.requestWillBeSent"]
