"""The page of bin/build_page in headless Chromium, by its own clock, beside the program."""
import contextlib
import hashlib
import os
import sys
import unittest

import measure
import tables
from measure import HERE, ROOT, archive, output_of, read, stop

TOOLS, OTHERS, VERSIONS = ("hyperfine",), (), ("chromium",)
BEGIN = """
    document.getElementById('files').addEventListener('change', () => {
      window.begun = performance.now();
    });
    new MutationObserver(() => { window.ended = window.ended || performance.now(); }).observe(
      document.getElementById('work'), {attributes: true, attributeFilter: ['data-state']});
"""
DIGEST = """
    const make = URL.createObjectURL;
    const blob = await new Promise((resolve) => {
      URL.createObjectURL = (it) => make.call(URL, (resolve(it), it));
      document.getElementById('download').click();
    });
    const digest = await crypto.subtle.digest('SHA-256', await blob.arrayBuffer());
    return [...new Uint8Array(digest)].map(it => it.toString(16).padStart(2, '0')).join('');
"""


def seconds_of_page(test_page, browser, file):
    browser.get(test_page.need_page())
    browser.wait_for(test_page.IS_READY)
    browser.run(BEGIN)
    browser.open_file(file)
    if browser.wait_for(test_page.IS_SHOWN) != "done":
        stop("the page does not end with an export")
    return browser.run("return (window.ended - window.begun) / 1000")


def figures(given):
    sys.path.insert(0, ROOT + "/tests/tools")
    import test_page
    file = archive("annotated", given.games)
    program = measure.times({"program": [given.program, "export", file]}, given.rounds)["program"][0]
    try:
        with contextlib.ExitStack() as resources:
            # to the browser it is a test, which ends what was begun
            resources.addCleanup = resources.callback
            browser = test_page.Browser(resources)
            page = min(seconds_of_page(test_page, browser, file) for _ in range(given.rounds))
            digest = hashlib.sha256(read(output_of("program"))).hexdigest()
            if browser.await_script(DIGEST).get("value") != digest:
                stop("the page's export is not the program's")
    except (unittest.SkipTest, AssertionError) as error:
        stop(str(error))
    size = os.path.getsize(file) / 1e6
    rows = [[name, "%.2f" % took, "%.1f" % (size / took), "%.2f" % (program / took)]
            for name, took in (("program", program), ("page", page))]
    head = ["%s annotated games, %.1f MB" % (tables.whole(given.games), size), "s", "MB/s",
            "of the program's MB/s"]
    return {"table": tables.table(head, rows)}


RECORDS = ((HERE + "/README.md", tables.measured_table),)
