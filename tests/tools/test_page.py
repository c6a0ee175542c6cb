"""Tests of the page that bin/build_page writes, in headless Chromium.

Each state that is compared here is also written as a picture, to page/out/pictures.
"""
import base64
import functools
import json
import os
import random
import re
import sys
import unittest

import damage
import programs
from browser import Browser
from documents import lines_of
from programs import (PACKERS, ROOT, archive, bytes_of, need_program, output_of, run, text_of,
                      write_file)
from spellings import DOUBTFUL, LEFT, SAFE, UNSAFE
from test_fix import damaged
from test_library import c_structs
from test_sieve import BAD, sound

PAGE = ROOT + "/page/out/gillspoon.html"
PICTURES = ROOT + "/page/out/pictures"
ARCHIVE_GAMES = 12500
MEGABYTE = 1000000
# Keys, as WebDriver names them.
TAB, ENTER, CONTROL, UP, DOWN = "\ue004", "\ue007", "\ue009", "\ue013", "\ue015"
END, HOME, TO_LEFT, TO_RIGHT = "\ue010", "\ue011", "\ue012", "\ue014"
INITIAL = "rnbqkbnr/pppppppp/8/8/8/8/PPPPPPPP/RNBQKBNR w KQkq - 0 1"
# The words of a position in which only knights and pawns have moved.
PIECES = ("White: king e1; queen d1; rooks a1, h1; bishops c1, f1; knights %s; pawns %s. Black: "
          "king e8; queen d8; rooks a8, h8; bishops c8, f8; knights %s; pawns %s. %s to move.")
# What is said of a file, and of a browser.
TOO_LONG = ("%s does not fit into the memory that the browser gives to a page. Convert it in "
            "parts, or with the program pgn_tool, which takes under 3 MiB for any size.")
COMPRESSED = ("%s is compressed with %s. Unpack it, by %s -d, and choose the file that comes out. "
              "The command gillspoon fmt reads it as it is.")
UNABLE = "This browser cannot run the converter: %s. Use a newer browser, or the program pgn_tool."
# Texts at the edges of rules, beside the rows of spellings.py.
EDGES = [
    "1. e4 e5 Nf3 Nc6 3Bc4 *", "1. e4 e5 2. Nf3 Nf6 3. Be2 Be7 O - O\n",
    '[Site "x"]\n[Event "a"]\n[Event "a"]\n\n*\n',
    '[White "x"]\n[Site "a"]\n[Site "a"]\n[Bl ack "c"]\n[Round "1"]\n\n*\n',
    '[White "x"]\n[Result "*"][Result "*"]\n\n*\n',
    '[White "x"]\n[Result "*"]\n[Result "*"]\n\n*\n',
    '[Result "?"]\n\n1. e4 1-0\n\n[Result "?"]\n\n1. d4 1-0\n',
    "e4 e5 1-0\n", "\ne4 e5 1-0\n", "1. e4 *\ne4 e5 1-0\n", "1. e4 *\n\ne4 e5 1-0\n",
    "1. e2-e4 *\ne4 e5 1-0\n", "1. e2-e4 *\n\ne4 e5 1-0\n", "1. e2-e4 {e4-e5 *",
    '[ResuIt " l-0"]\n\n1. e4 1-0\n', "1. e4 e5 00002Nf3 *", "0001. e4 e5 2Nf3 *",
]
# A game with a move that is not legal.
BAD_GAME = b'[Event "x"]\n\n1. e5 *\n\n'

# Scripts that the tests run in the page.
IS_READY = ("return document.documentElement.dataset.state === 'ready' || "
            "!element('unable').hidden")
FORGET = "delete element('work').dataset.shown;"
IS_SHOWN = "return element('work').dataset.shown"
# Gives bytes to the page as files that are opened.
OPEN = FORGET + """
    const transfer = new DataTransfer();
    for (const [name, bytes] of arguments[0]) {
      transfer.items.add(new File([Uint8Array.from(atob(bytes), it => it.charCodeAt(0))], name));
    }
    element('files').files = transfer.files;
    element('files').dispatchEvent(new Event('change'));
"""
# Clicks a button of a download, and gives the name and the bytes in place of storing them.
DOWNLOAD = """
    const make = URL.createObjectURL, click = HTMLAnchorElement.prototype.click;
    const blob = await new Promise((resolve) => {
      let taken = null;
      URL.createObjectURL = (it) => make.call(URL, taken = it);
      HTMLAnchorElement.prototype.click = function () { resolve([this.download, taken]); };
      element(values[0]).click();
    });
    URL.createObjectURL = make;
    HTMLAnchorElement.prototype.click = click;
    const reader = new FileReader();
    const read = new Promise((resolve) => { reader.onload = resolve; });
    reader.readAsDataURL(blob[1]);
    await read;
    return [blob[0], reader.result.split(',')[1]];
"""
# The page's own module, and whether it takes 64-bit integers, as the one that rt builds does, and
# Cargo's does not.
MODULE = """
    const code = atob(element('module').textContent);
    const made = await WebAssembly.instantiate(Uint8Array.from(code, it => it.charCodeAt(0)), {});
    const calls = made.instance.exports, isWide = typeof calls.__heap_base.value === 'bigint';
"""
# Converts inputs by pgn_convert of the module, without the page's JavaScript. A size_t is as long
# as an address.
CONVERT = MODULE + """
    const base = Number(calls.__heap_base.value) + 16 & -16;
    const size = isWide ? BigInt : Number, message = isWide ? 48 : 44;
    calls.memory.grow(64);
    const memory = new Uint8Array(calls.memory.buffer), view = new DataView(calls.memory.buffer);
    const text = base + 512, buffer = text + (1 << 20), capacity = 1 << 20;
    return values[0].map(([mode, input]) => {
      const bytes = Uint8Array.from(atob(input), it => it.charCodeAt(0));
      memory.set(bytes, text);
      calls.pgn_convert(size(base), size(text), size(bytes.length), size(buffer), size(capacity),
        mode);
      const number = (at) => Number(view.getBigUint64(base + at, true));
      const said = memory.subarray(base + message, base + message + 104);
      return {
        status: view.getUint32(base, true), fault: view.getUint32(base + 4, true),
        place: number(8), games: number(24), plies: number(32),
        message: String.fromCharCode(...said.subarray(0, said.indexOf(0))),
        output: btoa(String.fromCharCode(
          ...memory.subarray(buffer, buffer + view.getUint32(base + 16, true)))),
      };
    });
"""
# Leaves one fix of the page's data, which writes a text for another one.
PLANT = """
    const data = JSON.parse(element('fixes').textContent);
    data.moves = data.functions = [];
    data.texts = [{name: 'planted', reasons: [33, 34], safe: true, steps: [[...arguments]]}];
    element('fixes').textContent = JSON.stringify(data);
"""
# A button of a fault, and the one that writes missing results.
BUTTON = "elements('#fault button').find(it => it.innerText === '%s')"
MARKERS_TOO = BUTTON % "Write missing results, and mend what is clear"
# The cells of a row, the state of the search for edits, and what is said above the list of games.
CELLS = "[...it.cells].map(cell => cell.innerText)"
MENDING = "return element('mending').dataset.state === '%s'"
SHOWN = "return element('shown').innerText === arguments[0]"
# Notes the longest time in which the page did nothing else, while it is called.
BEAT = """
    window.longest = 0;
    let last = performance.now();
    setInterval(() => {
      window.longest = Math.max(window.longest, performance.now() - last);
      last = performance.now();
    }, 10);
"""


def setUpModule():
    global gillspoon
    gillspoon = programs.need_package()


def as_text(value):
    return base64.b64encode(value).decode()


def need_page():
    """The address of the page; the test is left out if bin/build_page has not written it."""
    if not os.path.exists(PAGE):
        programs.not_tried("bin/build_page has not written page/out/gillspoon.html")
    return "file://" + PAGE


class Case(unittest.TestCase):
    """A test with the page in a browser."""

    @functools.cached_property
    def browser(self):
        return self.page()

    def page(self, *flags, before="", **more):
        """Opens the page in a window with these flags and this size, behind a script."""
        address = need_page()
        self.browser = Browser(self, *flags, **more)
        self.browser.command("Page.addScriptToEvaluateOnNewDocument", source=before)
        self.browser.get(address)
        self.browser.wait_for(IS_READY)
        return self.browser

    def convert(self, *files):
        """Opens files, given as names and bytes, and waits for the end."""
        self.browser.run(OPEN, [[name, as_text(text)] for name, text in files])
        return self.browser.wait_for(IS_SHOWN)

    def convert_all(self, *files):
        """Converts the sound games of files, of which others are bad."""
        self.assertEqual(self.convert(*files), "refused")
        self.assertEqual(self.converted_by("#go-on-always"), "done")

    def ended(self, begin, *words):
        """The state at the end of the conversion that a call begins."""
        self.browser.run(FORGET)
        begin(*words)
        return self.browser.wait_for(IS_SHOWN)

    def converted_from(self, path):
        return self.ended(self.browser.open_file, path)

    def converted_by(self, selector, *keys):
        """The state that a click or keys on an element lead to."""
        return self.ended(self.press_at if keys else self.click, selector, *keys)

    def paste(self, text, *keys):
        self.set("paste", text)
        return self.converted_by("#convert-paste", *keys)

    def format(self, mode):
        """The state that another format leads to."""
        return self.ended(self.set, "mode", mode)

    def focused(self):
        return self.browser.run("return document.activeElement.id")

    def at(self, selector):
        """The number of the element of a selector that has the focus."""
        return self.browser.run(
            "return elements(arguments[0]).indexOf(document.activeElement)", selector)

    def set(self, field, value):
        """Sets a field, as a person who types does."""
        self.browser.run("const field = element(arguments[0]); field.value = arguments[1];"
                         "field.dispatchEvent(new Event('input'));"
                         "field.dispatchEvent(new Event('change'));", field, value)

    def download(self, button="download"):
        answer = self.browser.await_script(DOWNLOAD, button)
        self.assertNotIn("error", answer)
        return answer["value"][0], base64.b64decode(answer["value"][1])

    def exported(self):
        return self.download()[1]

    def downloaded(self, button):
        """The bytes of a download, or none if the button is not offered."""
        script = "const it = element(arguments[0]); return it.disabled || it.hidden"
        return b"" if self.browser.run(script, button) else self.download(button)[1]

    def text(self, identity):
        return re.sub(r"\n{2,}", "\n", self.value(identity, "innerText")).strip()

    def is_visible(self, identity):
        return self.browser.run("return element(arguments[0]).offsetParent !== null", identity)

    def assertShown(self, focus=None, **texts):
        """What has the focus, and the texts of elements. One whose text is None is not shown."""
        if focus:
            self.assertEqual(self.focused(), focus)
        for name, wanted in texts.items():
            identity = name.replace("_", "-")
            if wanted is None:
                self.assertFalse(self.is_visible(identity), identity)
            else:
                self.assertEqual(self.text(identity), wanted)

    def assertEnds(self, state, wanted, **shown):
        """A conversion ended in this state, and this is shown then."""
        self.assertEqual(state, wanted)
        self.assertShown(**shown)

    def each(self, selector, expression="it.innerText"):
        """What an expression gives for each element of a selector: what it shows."""
        script = "return elements(arguments[0]).map(it => %s)" % expression
        return self.browser.run(script, selector)

    def value(self, identity, name="value"):
        """What an element has by a name: of a field its text."""
        return self.browser.run("return element(arguments[0])[arguments[1]]", identity, name)

    def press_at(self, selector, *keys):
        """Presses keys while the first element of a selector has the focus."""
        self.browser.run("document.querySelector(arguments[0]).focus()", selector)
        self.browser.press(*keys)

    def click(self, selector, number=0):
        """Clicks an element of a selector, which are counted from 0."""
        self.browser.run("elements(arguments[0])[arguments[1]].click()", selector, number)

    def open_game(self, selector="#list button", number=0):
        """Clicks a button of a list, which shows a game and has the focus go there."""
        self.click(selector, number)
        self.browser.wait_for("return document.activeElement.id === 'game-title'")

    def look(self, button="element('mend')"):
        """Clicks a button, and gives what is listed: each edit, and the sentence above."""
        self.browser.run("%s.click()" % button)
        return self.listed()

    def listed(self):
        self.browser.wait_for(MENDING % "listed")
        return self.each("#edits li", "it.textContent"), self.text("mending-text")

    def screen(self, width, height, scale=1, mobile=True):
        """Opens the page in a window of a phone, or of another screen."""
        self.page(size=(width, height))
        self.browser.command("Emulation.setDeviceMetricsOverride", width=width, height=height,
                             deviceScaleFactor=scale, mobile=mobile)

    def assertFits(self, width, selector="html"):
        """The page is as wide as its window, and no element of a selector leaves that."""
        self.assertEqual(self.browser.run("return document.documentElement.scrollWidth"), width)
        ends = self.each(selector, "[it.getBoundingClientRect().right, it.outerHTML.slice(0, 80)]")
        self.assertEqual([text for end, text in ends if end > width], [])

    def colours(self, scheme):
        """Has the page shown in dark or light colours, as its reader wants it."""
        self.browser.command("Emulation.setEmulatedMedia",
                             features=[{"name": "prefers-color-scheme", "value": scheme}])

    def picture(self, name):
        os.makedirs(PICTURES, exist_ok=True)
        self.browser.picture("%s/%s.png" % (PICTURES, name))

    def assertQuiet(self):
        """The browser has nothing to complain of, and asked for the page and its worker alone."""
        self.assertEqual(self.browser.get_log("browser"), [])
        for address in self.browser.requests():
            self.assertTrue(address == "file://" + PAGE or address.startswith("blob:"), address)


def example(name):
    return bytes_of("examples/%s.pgn" % name)


class Vectors(Case):
    def test_module(self):
        """The bytes and the verdict of each worked input, by one call of the module."""
        browser, vectors = self.page(), programs.vectors()
        inputs = [[int(it["mode"] == "reduced"), as_text(it["input"].encode())] for it in vectors]
        answer = browser.await_script(CONVERT, inputs)
        self.assertNotIn("error", answer)
        self.assertEqual(len(answer["value"]), len(vectors))
        for vector, found in zip(vectors, answer["value"]):
            with self.subTest(vector["file"]):
                self.assertEqual(base64.b64decode(found["output"]).decode(), vector["output"])
                fault = vector.get("fault")
                if fault:
                    self.assertEqual(
                        (found["status"], found["fault"], found["place"], found["message"]),
                        (1, fault["number"], fault["place"], fault["message"]))
                else:
                    self.assertEqual((found["status"], found["games"], found["plies"]),
                                     (0, vector["games"], vector["plies"]))

    def test_page(self):
        """The same through the page, which keeps nothing of the game at fault."""
        for vector in programs.vectors():
            if vector["mode"] != self.value("mode"):
                self.set("mode", vector["mode"])
            with self.subTest(vector["file"]):
                self.check(vector, vector.get("fault"))
        self.assertQuiet()

    def check(self, vector, fault):
        state = self.convert(("in.pgn", vector["input"].encode()))
        self.assertEqual(state, "refused" if fault else "done")
        games, expected = self.downloaded("download"), vector["output"].encode()
        if fault:
            told = self.text("fault").split("\n")
            place, reason = re.fullmatch(r"byte (\d+): (.*)", fault["message"]).groups()
            self.assertRegex(told[1], r"\(byte %s[,)].*: %s$" % (place, re.escape(reason)))
            self.assertTrue(expected.startswith(games))
            # the whole games: an empty line ends each tag section, and another one each game
            self.assertEqual(games.count(b"\n\n"), expected.count(b"\n\n") // 2 * 2)
            self.assertTrue(not games or games.endswith(b"\n\n"))
        else:
            self.assertShown(counts="%d %s, %d %s." % (
                                    vector["games"], "game" if vector["games"] == 1 else "games",
                                    vector["plies"], "ply" if vector["plies"] == 1 else "plies"))
            self.assertEqual(games, expected)


class States(Case):
    def test_empty(self):
        self.picture("empty")
        self.assertShown(work=None, faults=None, result=None, unable=None,
                         privacy="Nothing leaves your browser. This page makes no request. It "
                                 "works from a disk, and without a network.")
        is_of_rt = self.browser.await_script(MODULE + "return isWide")["value"]
        self.assertShown(proved=(
            "A prover has checked, for every text, that the converter inside this page keeps the "
            "promises of the library for C. That holds of the form that the Rattle toolchain "
            "wrote. Another tool then adapts it to more browsers and optimizes it. This step and "
            "the JavaScript of the page are tested, not proved." if is_of_rt else
            "Cargo compiled the converter inside this page from the proved sources, without their "
            "contracts. Nothing of this page is proved."))
        self.assertQuiet()

    def test_converted(self):
        self.convert(("annotated.pgn", example("annotated")), ("two.pgn", example("two-games")))
        self.picture("converted")
        self.assertRegex(self.text("work"), r"^Progress\nDone, after \d+\.\d s\.$")
        self.assertShown(counts="3 games, 7 plies.")
        self.assertEqual(self.each("#list tr", CELLS), [
            ["annotated.pgn"], ["1", "Silva, J.", "Nowak, A.", "1-0", "7"],
            ["two.pgn"], ["1", "Amaral, Rita", "Okafor, Ben", "1-0", "0"],
            ["2", "Silva, J.", "Nowak, A.", "1/2-1/2", "0"]])
        first = re.search(r"\$ pgn_tool export examples/annotated\.pgn\n(.*?\n\n.*?\n\n)```",
                          "\n".join(lines_of("README.md")), re.S)[1]
        shown = self.value("export", "textContent")
        self.assertTrue(shown.startswith(first))
        self.open_game()
        self.assertShown(game_title="Game 1 of annotated.pgn")
        self.assertEqual(self.value("game-text", "textContent"), first)
        self.assertEqual(self.download(), ("games.export.pgn", shown.encode()))
        # the other format converts the same files again
        self.assertEqual(self.format("reduced"), "done")
        moves = b"\n\n1. e4 e5 2. Bc4 Nc6 3. Qh5 Nf6 4. Qxf7# 1-0\n\n"
        self.assertEqual(self.exported().index(moves), self.exported().index(b"\n\n"))
        self.assertQuiet()

    def test_fault(self):
        self.convert(("one-bad-game.pgn", example("one-bad-game")))
        self.picture("fault")
        self.assertEqual(self.text("fault").split("\nThe position in words")[0], "\n".join([
            "Move is not legal",
            "one-bad-game.pgn: line 9, column 13 (byte 122): move is not legal",
            "1. e4 e5 2. Bd4 *",
            "            ^",
            "Game 2: White “Okafor, Ben”, Black “Amaral, Rita”, Event “?”",
            "No bishop of White can go to d4.",
            *"a1b2c3d4e5f6g7h8",
            "Marked squares: dotted: where the move goes.",
        ]))
        self.assertEqual(self.each("#fault svg", "it.getAttribute('aria-label')"), [PIECES % (
            "b1, g1", "a2, b2, c2, d2, f2, g2, h2, e4", "b8, g8", "e5, a7, b7, c7, d7, f7, g7, h7",
            "White")])
        self.assertShown(counts="1 game, 4 plies.", go_on="Skip this game Skip every bad game")
        self.assertEnds(self.converted_by("#go-on-once"), "done",
                        counts="2 games, 5 plies; 1 bad game set aside.")
        name, text = self.download("download-bad")
        self.assertEqual(name, "one-bad-game.bad.pgn")
        self.assertIn(b"2. Bd4", text)
        self.assertQuiet()

    def test_dark(self):
        self.page("--force-dark-mode")
        self.colours("dark")
        self.convert(("one-bad-game.pgn", example("one-bad-game")))
        self.picture("dark")
        for selector, name, shade in (("body", "backgroundColor", "rgb(27, 28, 30)"),
                                      (".board .light", "fill", "rgb(185, 171, 144)"),
                                      (".board .dark", "fill", "rgb(117, 88, 59)")):
            self.assertEqual(self.each(selector, "getComputedStyle(it)." + name)[0], shade)

    def test_unable(self):
        """A browser without one of the things that the page needs, or that refuses the module."""
        for before, lacking in (
                ("delete window.Worker", "it has no workers"),
                ("delete window.BigInt", "it has no BigInt"),
                ("WebAssembly.instantiate = () => Promise.reject(new Error('no BigInt in calls'))",
                 "its WebAssembly does not take this module (no BigInt in calls)"),
                ("delete window.WebAssembly", "it has no WebAssembly")):
            self.page(before=before)
            self.assertShown(unable=UNABLE % lacking, main=None)
        self.picture("no-module")

    def test_phone(self):
        self.screen(360, 740, 2)
        self.convert(("one-bad-game.pgn", example("one-bad-game")))
        self.picture("phone")
        self.assertFits(360, "body *:not(pre, pre *, svg, svg *, .wide, .wide *)")
        # the text of a long edit is broken
        self.paste("1. e4 {[%%cal %s]} *" % ",".join(["Ga1a8"] * 24))
        self.assertEqual(len(self.look()[0]), 1)
        self.assertFits(360)

    def test_phone_with_long_names(self):
        """The page is as wide as the window, and of each game the result and the plies are seen."""
        self.screen(390, 844)
        name = "Wolfeschlegelsteinhausenbergerdorff"
        tags = '[White "%s, Hubert Blaine"]\n[Black "%s"]\n' % (name, name)
        text = tags + '[Termination "forfeit"]\n\n1. e4 *\n\n' + 2 * (tags + "\n1. e2-e4 *\n\n")
        file = "archive-of-%s-and-others.pgn" % (3 * name)
        self.convert_all((file, text.encode()), ("a%s.zip" % file, b"PK\3\4"))
        self.look()
        self.each("details", "it.open = true")
        self.open_game()
        self.picture("phone-table")
        for part in ("chosen", "left-out", "all-faults", "mending", "notes", "list", "game"):
            self.assertTrue(self.is_visible(part), part)
        self.assertFits(390)
        ends = self.browser.run(
            "return elements('#list td').slice(-2).map(it => {"
            "const range = document.createRange(); range.selectNodeContents(it);"
            "return range.getBoundingClientRect().right; })")
        self.assertLess(0, min(ends))
        self.assertLessEqual(max(ends), 390)

    def test_borders(self):
        """Those of fields, buttons and boxes have a contrast of 3:1 (WCAG 2.2, 1.4.11)."""
        self.convert(("in.pgn", b'[Event "x"]\n\n1. e2-e4 *\n\n' * 2))
        for scheme in ("light", "dark"):
            self.colours(scheme)
            found = self.browser.run(
                "return ['textarea', 'pre', 'input[type=text]', 'select', 'button', 'fieldset',"
                " '#drop', '.box', 'th', 'h2'].map(name => {"
                "const style = (it) => getComputedStyle(document.querySelector(it));"
                "return [name, style(name).borderBottomColor, style(name).backgroundColor,"
                " style('body').backgroundColor]; })")
            for name, border, *grounds in found:
                for ground in grounds:
                    if ground != "rgba(0, 0, 0, 0)":
                        self.assertGreaterEqual(contrast(border, ground), 3, (scheme, name))

    def test_marks_on_the_board(self):
        """Each mark, or its edge, has a contrast of 3:1 with its square, and with the other."""
        self.set("fen", "4r1k1/8/8/8/8/8/4N3/4K1N1 w - - 0 1")
        self.set("move", "Nc3")
        for scheme in ("light", "dark"):
            self.colours(scheme)
            edge, *marks, light, dark = self.browser.run(
                "const style = getComputedStyle(document.documentElement);"
                "return ['edge', 'accent', 'legal', 'pinned', 'light-square', 'dark-square'].map("
                "it => 'rgb(' + style.getPropertyValue('--' + it).match(/\\w\\w/g).map("
                "it => parseInt(it, 16)).join(', ') + ')')")
            self.assertEqual(self.each(".board .edge", "getComputedStyle(it).stroke")[0], edge)
            for mark in marks:
                self.assertGreaterEqual(contrast(mark, edge), 3, (scheme, mark))
                for square in (light, dark):
                    self.assertGreaterEqual(
                        max(contrast(mark, square), contrast(edge, square)), 3, (scheme, mark))


def contrast(*colours):
    """The contrast of two colours as CSS has them, by WCAG 2.2."""
    lights = []
    for colour in colours:
        parts = [int(it) / 255 for it in re.findall(r"\d+", colour)[:3]]
        linear = [it / 12.92 if it <= 0.04045 else ((it + 0.055) / 1.055) ** 2.4 for it in parts]
        lights.append(0.2126 * linear[0] + 0.7152 * linear[1] + 0.0722 * linear[2])
    return (max(lights) + 0.05) / (min(lights) + 0.05)


class Large(Case):
    """A file of some 20 MB."""

    @classmethod
    def setUpClass(cls):
        need_page()
        cls.folder = programs.new_folder(cls)
        cls.archive = cls.folder + "/large.pgn"
        write_file(cls.archive, archive(ARCHIVE_GAMES, "annotated", 250))

    def by_program(self, *words):
        return run([need_program(), *words]).stdout

    def test_whole(self):
        """The same bytes as the program's, and the page stays alive."""
        counts = self.by_program("check", self.archive).decode().split()
        size = os.path.getsize(self.archive)
        self.assertGreater(size, 19 * MEGABYTE)
        self.browser.run(BEAT)
        self.browser.open_file(self.archive)
        self.browser.wait_for("return element('work-bar').value > 0.3")
        self.picture("large-in-work")
        self.assertRegex(self.text("work-text"), r"^Converting large\.pgn: \d+\.\d MB of %.1f MB, "
                         r"[\d,]+ games\.$" % (size / MEGABYTE))
        self.assertTrue(self.is_visible("stop"))
        self.assertEqual(self.browser.wait_for(IS_SHOWN), "done")
        self.assertLess(self.browser.run("return window.longest"), 1000)
        self.assertEqual(self.text("counts").replace(",", "").rstrip(".").split()[::2],
                         [counts[1].rstrip(","), counts[3]])
        self.click("#next")
        self.browser.wait_for(SHOWN, "Rows 51 to 100 of {:,}".format(ARCHIVE_GAMES))
        self.assertEqual(self.each("#list button")[0], "51")
        self.assertEqual(self.exported(), self.by_program("export", self.archive))
        self.assertQuiet()

    def test_stop(self):
        self.browser.open_file(self.archive)
        self.browser.wait_for("return element('work-bar').value > 0.1 && "
                              "element('work-text').innerText.startsWith('Conv')")
        self.press_at("#stop", ENTER)
        self.assertEnds(self.browser.wait_for(IS_SHOWN), "stopped", focus="result-title")
        self.assertRegex(self.text("work-text"),
                         r"^Stopped at byte [\d,]+ of large\.pgn, after \d+\.\d s\.$")
        games, export = self.exported(), self.by_program("export", self.archive)
        self.assertTrue(games and games.endswith(b"\n\n") and export.startswith(games))
        self.assertLess(len(games), len(export))

    def test_long_game(self):
        """A game that is longer than the parts in which a file is read, and one behind it."""
        path = self.folder + "/long.pgn"
        write_file(path, b"1. e4 {" + b"word " * 2000000 + b"} *\n1. d4 *\n")
        self.assertEnds(self.converted_from(path), "done", counts="2 games, 2 plies.")
        self.assertEqual(self.exported(), self.by_program("export", path))

    def test_no_memory(self):
        """A file that no memory of 32 bits holds."""
        path = self.folder + "/sparse.pgn"
        with open(path, "wb") as file:
            file.truncate(5000 * MEGABYTE)
        self.assertEnds(self.converted_from(path), "failed", work_text=TOO_LONG % "sparse.pgn")


class Files(programs.Folder, Case):
    """Files that are chosen."""

    def check_left_out(self, said, name, text):
        """A file is left out, which is the only one."""
        self.assertEnds(self.convert((name, text)), "failed", left_out=said,
                        work_text="Nothing was converted.", focus="work-title", result=None)

    def test_chosen(self):
        """The names of the first files."""
        for count, names in ((7, "0.pgn, 1.pgn, 2.pgn, 3.pgn, 4.pgn and 2 more files"),
                             (2, "0.pgn, 1.pgn")):
            self.assertEnds(self.convert(*(("%d.pgn" % it, b"1. e4 *") for it in range(count))),
                            "done", chosen="Chosen: %s." % names)
        self.assertEnds(self.paste("1. e4 *"), "done", chosen=None)

    def test_changed_file(self):
        """A file that is chosen a second time, and one that changes or goes before it is read."""
        changed = "in.pgn has changed since you chose it. Choose it again."

        def choose(text, state, **shown):
            path = self.put("in.pgn", text)
            self.assertEnds(self.converted_from(path), state, chosen="Chosen: in.pgn.", **shown)

        choose(b"1. e4 e5 2. Bd4 *\n", "refused")
        choose(b"1. e4 e5 2. Bc4 *\n", "done", counts="1 game, 3 plies.")
        self.assertIn(b"2. Bc4 *", self.exported())
        choose(b"1. e2-e4 *\n", "refused")
        self.put("in.pgn", b"1. e2-e4 e5 *\n")
        self.click("#mend")
        self.browser.wait_for(MENDING % "failed")
        self.assertShown(mending_text="The edits were not found. " + changed)
        choose(b"1. e4 *\n", "done")
        path = self.put("in.pgn", b"1. e4 e5 *\n")
        self.assertEnds(self.format("reduced"), "failed", work_text=changed)
        choose(b"1. e4 e5 *\n", "done", counts="1 game, 2 plies.")
        os.remove(path)
        self.assertEnds(self.format("full"), "failed",
                        work_text="in.pgn is no longer where it was when you chose it. Choose "
                                  "it again.")

    def test_the_last_choice_counts(self):
        """Games that are pasted while the page looks at files."""
        self.set("paste", "1. e4 e5 *")
        self.browser.run(OPEN + "element('convert-paste').click()",
                         [["in.pgn", as_text(b"1. e4 e5 2. Bd4 *")]])
        self.assertEqual(self.browser.wait_for(IS_SHOWN), "done")
        self.sleep(300)
        self.assertShown(counts="1 game, 2 plies.", chosen=None)

    def sleep(self, milliseconds):
        self.browser.await_script("await new Promise((resolve) => setTimeout(resolve, values[0]))",
                                  milliseconds)

    def test_unreadable(self):
        """A file that the browser has never read."""
        self.browser.run("Blob.prototype.arrayBuffer = async () => {"
                         "throw new DOMException('no', 'NotReadableError'); }")
        self.assertEnds(self.convert(("in.pgn", b"1. e4 *")), "failed",
                        work_text="in.pgn cannot be read.")

    def test_other_kinds(self):
        """Each is known by its first bytes, and the page says what to do."""
        game = b"1. e4 *\n"
        unpack = "Unpack it and choose the PGN files in it"
        rows = [
            (PACKERS["bz2"](game), COMPRESSED % ("a", "bzip2", "bzip2")),
            (PACKERS["xz"](game), COMPRESSED % ("a", "xz", "xz")),
            # RFC 8878, section 3.1.1: the magic number of a frame, in little-endian order
            (0xFD2FB528.to_bytes(4, "little") + bytes(8), COMPRESSED % ("a", "zstd", "zstd")),
            (PACKERS["zip"](game), "a is a zip archive or an office document. " + unpack +
             ", or paste the games as text."),
            (b"PK\5\6" + bytes(18), "a is an empty zip archive."),
            (b"7z\xbc\xaf\x27\x1c\0\4", "a is a 7z archive. " + unpack + "."),
            (b"Rar!\x1a\7\1\0", "a is a RAR archive. " + unpack + "."),
            (b"%PDF-1.7\n%\xe2\xe3\xcf\xd3\n", "a is a PDF, which has no PGN text. "
             "Choose a PGN file, or paste the games as text."),
        ]
        for text, said in rows:
            with self.subTest(said):
                self.check_left_out(said, "a", text)
        self.picture("other-kind")
        # the others of several files are converted
        (first, said_first), *_, (last, said_last) = rows
        self.assertEnds(self.convert(("a", first), ("b", game), ("a", last)), "done",
                        left_out=said_first + "\n" + said_last, chosen="Chosen: b.",
                        counts="1 game, 1 ply.")
        # an escape line, a move and a comment are none of these
        for text in (b"%PDF\n1. e4 *", b"Rd1 *", b"{PK} *"):
            self.convert(("a", text))
            self.assertFalse(self.is_visible("left-out"), text)

    def test_without_a_game(self):
        """A file that has none is named, and so is a text."""
        for text in (b"", b"\n", b"{a comment}\n% an escape\n"):
            self.assertEnds(self.convert(("a.pgn", text), ("b.pgn", b"1. e4 *")), "done",
                            left_out="a.pgn has no game.", counts="1 game, 1 ply.")
        # a bad game is one
        self.assertEnds(self.convert(("a.pgn", b"1. e5 *")), "refused", left_out=None)
        self.assertEnds(self.paste(";nothing"), "done", left_out="The text has no game.")

    def test_gzip(self):
        """It is unpacked, and places are those of the text."""
        packed = PACKERS["gz"](b"1. e4 *\n\n1. e5 *\n")
        self.assertEqual(self.convert(("in.pgn.gz", packed), ("b.pgn", b"1. d4 *")), "refused")
        self.assertIn("in.pgn.gz: line 3, column 4 (byte 12): move is not legal",
                      self.text("fault"))
        self.assertEnds(self.converted_by("#go-on-always"), "done",
                        counts="2 games, 2 plies; 1 bad game set aside.")
        self.assertEqual(self.convert(("in.pgn.gz", PACKERS["gz"](example("annotated")))), "done")
        name, text = self.download()
        self.assertEqual(name, "in.export.pgn")
        self.assertIn(b"Qxf7#", text)
        self.assertQuiet()

    def test_bad_gzip(self):
        """What cannot be unpacked is left out, whole."""
        packed = PACKERS["gz"](b"1. e4 *\n" * 100)
        wanted = ("a.gz cannot be unpacked here: it is damaged, or more data follows its end. "
                  "Unpack it, by gzip -d, and choose the file that comes out.")
        for text in (packed[:-9], packed[:30] + b"\xff\xff" + packed[32:], packed + packed,
                     packed[:3]):
            with self.subTest(text):
                self.check_left_out(wanted, "a.gz", text)
        # what comes out is said to be longer than a memory of 32 bits
        self.browser.run(
            "window.DecompressionStream = function () { return new TransformStream({"
            "transform(_, it) { it.enqueue({length: 2 ** 33}); }}); }")
        self.check_left_out(TOO_LONG % "a.gz", "a.gz", packed)
        # a browser that cannot unpack
        self.browser.run("delete window.DecompressionStream")
        self.check_left_out(COMPRESSED % ("a.gz", "gzip", "gzip"), "a.gz", packed)

    def test_stop_of_unpacking(self):
        self.browser.run(
            "const pass = TransformStream.prototype.constructor;"
            "window.TransformStream = function ({transform}) { return new pass({"
            "  async transform(bytes, it) { transform(bytes, it); window.passed = true;"
            "    await new Promise((resolve) => setTimeout(resolve, 200)); }}); }")
        self.browser.run(OPEN, [["a.gz", as_text(PACKERS["gz"](b"1. e4 *\n" * 200000))]])
        self.browser.wait_for("return window.passed")
        self.assertRegex(self.text("work-text"), r"^Unpacking a\.gz: \d+\.\d MB so far\.$")
        self.click("#stop")
        self.assertShown(work_text="Nothing was converted.")
        self.sleep(1000)
        self.assertShown(work_text="Nothing was converted.", result=None)


def names_of_fixes():
    """Those of fixes.json that no reader has to look at."""
    data = json.loads(text_of("python/gillspoon/fixes.json"))
    return [it["name"] for it in data["moves"] + data["texts"] + data["functions"]
            if it.get("safe", True)]


class Mending(Case):
    """The button that mends what is clear."""

    def check_spellings(self, rows, begin, result):
        """The edits of each row of spellings.py are found, and applied."""
        for text, edits, wanted in rows:
            with self.subTest(text):
                self.assertEqual(begin(text), "refused")
                listed, told = self.look()
                self.assertEqual(len(listed), len(edits))
                self.assertIn("in 1 game. All games are then valid.", told)
                self.assertEqual(self.converted_by("#apply"), "done")
                self.assertEqual(result(), wanted)

    def test_spellings(self):
        """The rows of tests/tools/spellings.py that need the fixes of fixes.json alone."""
        names, tried, rows = set(names_of_fixes()), set(), []
        for row in SAFE:
            needed = {name for _, _, it in row[1] for name in it.split(", ")}
            if needed <= names and "\r" not in row[0]:
                tried |= needed
                rows.append(row)
        self.assertEqual(tried, names)
        self.check_spellings(rows, self.paste, lambda: self.value("paste"))
        self.assertQuiet()

    def test_line_ends(self):
        """The rows with CR LF, of a file."""
        rows = [(text, edits, b"".join(it.text for it in gillspoon.games(wanted.encode())))
                for text, edits, wanted in SAFE if "\r" in text]
        self.assertGreater(len(rows), 0)
        self.check_spellings(rows, lambda text: self.convert(("a.pgn", text.encode())),
                             self.exported)

    def test_what_stays(self):
        """What has no single reading is left as it is, and so are tags that no safe fix touches."""
        for text in (*LEFT, *DOUBTFUL, '[Site "a"]\n[Site "b"]\n\n*\n',
                     '[Result "won"]\n\n1. e4 1-0\n', '[Result "?"]\n\n1. e4\n',
                     '[Result "0-1"]\n\n1. e4 1-0\n', "1-0\n",
                     '[FEN "4k3/8/8/8/8/8/8/4K3 w - -"]\n\n30... Kd7 *\n',
                     '[FEN "4k3/8/8/8/8/8/8/4K3 w - - 0 1 2"]\n\n*\n',
                     '[FEN "4k3/8/8/8/8/8/8/4K3 w qkx - 0 1 "]\n\n*\n'):
            with self.subTest(text):
                self.assertEqual(self.convert(("a.pgn", text.encode())), "refused")
                listed, told = self.look()
                self.assertEqual(listed, [])
                self.assertRegex(told, r"^No fix of this page applies\. (1 game stays|\d games "
                                       r"stay) bad\. gillspoon lint --fix has more fixes\.$")
                self.assertFalse(self.is_visible("apply"))

    def test_a_fix_must_go_on(self):
        """Of fixes that are planted none is kept behind which the module reads no further."""
        edit = "pasted games: line 1, column 7, planted: “K9” → “e5”"
        for new, edits in (("K8", []), ("{a", []), ("[", []), ("K9 ", []), ("e5", [edit])):
            with self.subTest(new):
                self.browser.run(PLANT, "K9", new)
                self.assertEqual(self.paste("1. e4 K9 Ka1 *"), "refused")
                listed, told = self.look()
                self.assertEqual(listed, edits)
                self.assertIn("1 game stays bad.", told)

    def test_file(self):
        """Each edit is at its place in its file, and what is left is told after the edits."""
        first = sound(b"a") + b'[Event "b"]\n\n1. e2-e4 {\xe9} e5 *\n\n' + sound(b"c")
        second = b'[Result "1/2-1/2"]\r\n\r\n1. g1f3 \xbd\r\n\r\n[Event "d"]\r\n\r\n1. e5 *\r\n'
        self.assertEqual(self.convert(("one.pgn", first), ("two.pgn", second)), "refused")
        found = self.look()
        self.picture("mending")
        self.assertEqual(found, ([
            "one.pgn: line %d, column 4, long notation: “e2-e4” → “e2e4”"
            % (sound(b"a").count(b"\n") + 3),
            "two.pgn: line 3, column 4, missing letter: “g1f3” → “Ng1f3”",
            "two.pgn: line 3, column 9, spelling of the result: “½” → “1/2-1/2”"],
            "3 edits in 2 games. 1 game stays bad. gillspoon lint --fix has more fixes."))
        self.assertEqual(self.focused(), "mending-title")
        self.assertEqual(self.converted_by("#apply"), "refused")
        self.assertIn("3 edits applied.", self.text("work-text"))
        self.assertIn("two.pgn: line 7, column 4", self.text("fault"))
        exported = self.exported()
        self.assertIn(b"1. e4 { \xe9 } 1... e5 *", exported)
        self.assertIn(b"1. Nf3 1/2-1/2", exported)
        self.assertQuiet()

    def test_missing_results(self):
        """The button at such a fault writes them, as gillspoon lint --fix --unsafe-fixes does."""
        first = (b'[Event "a"]\n[Result "0-1"]\n\n1. e4 e5\n\n[Event "b"]\n\n1. e2-e4\n\n'
                 b'[Event "c"]\n\n1. d4 *\n')
        second = b'[Result "1/2-1/2"]\r\n\r\n1. d4 d5 ; the end\r\n'
        self.assertEqual(self.convert(("one.pgn", first), ("two.pgn", second)), "refused")
        self.assertIn("Try this: The game before has no result at its end.", self.text("fault"))
        self.assertEqual(self.look(MARKERS_TOO), ([
            "one.pgn: line 4, column 9, no marker: nothing → “ 0-1”",
            "one.pgn: line 8, column 4, long notation, no marker: “e2-e4” → “e2e4 *”",
            "two.pgn: line 3, column 19, no marker: nothing → “1/2-1/2”"],
            "3 edits in 3 games. All games are then valid."))
        self.assertEnds(self.converted_by("#apply"), "done", counts="4 games, 6 plies.")
        text = self.exported()
        for line in (b"1. e4 e5 0-1\n", b"1. e4 *\n", b"1. d4 d5 { the end } 1/2-1/2\n"):
            self.assertIn(line, text)

    def test_missing_results_are_those_of_lint(self):
        """For texts whose markers are cut off at random places: each edit and its place."""
        words = ["lint", "--fix", "--unsafe-fixes", "--select",
                 ",".join([*names_of_fixes(), "no marker"]), "-"]
        rng = random.Random(78)
        games = [b'[Event "a"]\n[Result "%s"]\n\n1. e4 e5 %s' % (it, it)
                 for it in (b"1-0", b"0-1", b"1/2-1/2", b"*")]
        games += [b"1. d4 {one} *", b"1. d4 (1. c4) *", b"1. e4 e5 ;x\n*", b'[White "b"]\n\n*',
                  b'[Event "c"] {x} [Site "y"]\n\n1. e4 *', b'[Result "1-0"]\n\n1. e4 1-0!',
                  b'[Result "*"]\n\n1. e4 * $10 {x}']
        tried = 0
        for _ in range(60):
            text = b"\n\n".join(
                it[:-rng.choice((0, 0, 1, 2, 3, 4, 5, 9))] or it for it in rng.choices(games, k=3))
            if (self.convert(("a.pgn", text)) != "refused"
                    or not self.browser.run("return " + MARKERS_TOO)):
                continue
            listed, _ = self.look(MARKERS_TOO)
            ran = run([ROOT + "/bin/gillspoon", *words], input=text)
            self.assertIn(ran.returncode, (0, 1), ran.stderr)
            wanted = re.findall(r"(?m)^<stdin>:(\d+):(\d+): fixed(?: \(unsafe\))?: ([^:]*)",
                                ran.stderr.decode())
            self.assertEqual(
                [re.match(r"a\.pgn: line (\d+), column (\d+), ([^:]*):", it).groups()
                 for it in listed], wanted, text)
            tried += any("no marker" in it for it in listed)
        self.assertGreater(tried, 20)

    def test_edits_are_those_of_lint(self):
        """For all rows of spellings.py, for texts that are made of them, and for damaged games."""
        from gillspoon._texts import text_of
        rng = random.Random(80)
        rows = [row[0].encode() for row in SAFE + UNSAFE] + [
            it.encode() for it in LEFT + DOUBTFUL + EDGES]
        games = [it.text for it in damage.damaged_texts(damage.sound_games(), 400, 81)]
        for texts, least in ((rows, sum(len(edits) for _, edits, _ in SAFE)),
                             ([damaged(rng, rows) for _ in range(200)], 60), (games, 80)):
            files = [("%03d.pgn" % number, text) for number, text in enumerate(texts)]
            count = 0
            for at in range(0, len(files), 50):
                part = files[at:at + 50]
                self.assertEqual(self.convert(*part), "refused")
                wanted = ["%s: line %d, column %d, %s: %s → %s" % (
                    name, it.line, it.column, it.name, shown(text_of(it.old)),
                    shown(text_of(it.new))) for name, text in part for it in gillspoon.fixes(text)]
                self.assertEqual(self.look()[0], wanted)
                count += len(wanted)
            self.assertGreater(count, least)


# Control characters, which the page shows as signs.
SIGNS = {127: 0x2421, **{it: 0x2400 + it for it in range(32) if it != 9}}


def shown(text):
    """A text as the list of edits has it."""
    line = re.sub(r"[\r\n]+", " ", text.strip("\r\n"))
    return "“%s”" % (line or text).translate(SIGNS) if text else "nothing"


class Keyboard(Case):
    """Where the focus is, and what the keys do."""

    def selected(self):
        """Where the selection of the text field begins, and its text."""
        return self.browser.run(
            "const field = element('paste'), {selectionStart, selectionEnd} = field;"
            "return [selectionStart, field.value.slice(selectionStart, selectionEnd)];")

    def test_focus_after_each_button(self):
        """It goes to the heading of what the button results in."""
        self.assertEnds(self.paste("1. e4 *", ENTER), "done", focus="result-title")
        self.set("paste", 3 * '[Event "x"]\n\n1. e2-e4 *\n\n')
        for button, state, focus in (("#convert-paste", "refused", "faults-title"),
                                     ("#go-on-once", "refused", "faults-title"),
                                     ("#go-on-always", "done", "result-title")):
            self.assertEnds(self.converted_by(button, ENTER), state, focus=focus)
        self.press_at("#other-faults button", ENTER)
        self.assertEqual(self.focused(), "faults-title")
        self.press_at("#mend", ENTER)
        self.listed()
        self.assertEqual(self.focused(), "mending-title")
        self.assertEnds(self.converted_by("#apply", ENTER), "done", focus="result-title")
        self.assertEqual(self.paste("1. e4 1-0", ENTER), "refused")
        self.assertEnds(self.converted_by("#fault p button", ENTER), "done", focus="result-title")
        self.browser.run("element('open').focus()")
        self.convert(("in.pgn", b"1. e4 *"))
        self.assertEqual(self.focused(), "result-title")
        self.press_at("#list button", ENTER)
        self.browser.wait_for("return document.activeElement.id === 'game-title'")

    def test_what_is_seen(self):
        """Below the heading that gets the focus is room for what it is about."""
        self.screen(1280, 900, mobile=False)
        self.assertEnds(self.paste("1. e5 *", ENTER), "refused", focus="faults-title")
        top, style = self.browser.run(
            "const it = document.activeElement;"
            "return [it.getBoundingClientRect().top / innerHeight,"
            " getComputedStyle(it).outlineStyle]")
        self.assertEqual(style, "solid")
        self.assertGreater(top, 0)
        self.assertLess(top, 0.6)

    def test_focus_stays_in_an_option(self):
        """Its value changes by the arrow keys, and each one converts again."""
        for text, state in ((b"1. e4 *", "done"), (b"1. e5 *", "refused")):
            self.assertEqual(self.convert(("in.pgn", text)), state)
            for key in (DOWN, UP):
                self.assertEnds(self.converted_by("#mode", key), state, focus="mode")

    def test_focus_of_a_person_who_went_on(self):
        """A conversion that ends takes it from no other field."""
        answer = self.browser.await_script(
            OPEN + "while (element('work').hidden) {"
            "await new Promise((resolve) => setTimeout(resolve)); }"
            "element('fen').focus(); return element('work').dataset.shown || 'in work'",
            [["in.pgn", as_text(b"1. e4 *\n" * 20000)]])
        self.assertEqual(answer, {"value": "in work"})
        self.browser.wait_for(IS_SHOWN)
        self.assertEqual(self.focused(), "fen")

    def test_last_page_of_the_list(self):
        """The button that is no longer of use gives the focus to the list."""
        self.convert(("in.pgn", b"1. e4 *\n" * 120))
        for rows, focus in (("Rows 51 to 100 of 120", "next"),
                            ("Rows 101 to 120 of 120", "list-title")):
            self.press_at("#next", ENTER)
            self.browser.wait_for(SHOWN, rows)
            self.assertEqual(self.focused(), focus)

    def test_keys_in_lists(self):
        """A list is one stop of the tab key, and other keys go through it."""
        self.convert_all(("in.pgn", 3 * BAD_GAME + 3 * b'[Termination "forfeit"]\n\n1. e4 *\n\n'))
        for name in ("#other-faults button", "#notes-list button", "#list button"):
            with self.subTest(name):
                self.assertEqual(self.each(name, "it.tabIndex"), [0, -1, -1])
                self.press_at(name)
                for key, at in ((DOWN, 1), (DOWN, 2), (DOWN, 2), (UP, 1), (HOME, 0), (UP, 0),
                                (END, 2)):
                    self.browser.press(key)
                    self.assertEqual(self.at(name), at)
                self.assertEqual(self.each(name, "it.tabIndex"), [-1, -1, 0])
                self.browser.press(TAB)
                self.assertEqual(self.at(name), -1)

    def test_keys_in_the_text_field(self):
        """Ctrl and Enter convert. A fault is selected, so that typing replaces it."""
        self.press_at("#paste", *"1. e4 e5 2. Bd4 *")
        self.assertEnds(self.converted_by("#paste", [CONTROL, ENTER]), "refused", focus="paste",
                        paste_fault="Line 1, column 13: move is not legal.")
        self.assertEqual(self.selected(), [12, "Bd4"])
        self.picture("selected")
        self.browser.press(*"Bc4")
        self.assertShown(paste_fault="")
        self.assertEnds(self.converted_by("#paste", [CONTROL, ENTER]), "done", focus="result-title",
                        counts="1 game, 3 plies.")
        self.assertEqual(self.value("paste"), "1. e4 e5 2. Bc4 *")

    def test_what_is_selected(self):
        """The word at fault, or the character, in a text with characters of any length."""
        for text, selected in (
                ("1. e4 {\u00e9 \U0001f600} e9 *", [13, "e9"]), ("1. e4 & *", [6, "&"]),
                ("1. e4 \U0001f600 *", [6, "\U0001f600"]), ("1. e4\n\n1. \u265e *", [10, "\u265e"]),
                ("1. e4", [5, ""]), ("\ufeff1. e9 *", [4, "e9"]), ('[Result "won"] *', [8, '"'])):
            with self.subTest(text):
                self.assertEqual(self.paste(text), "refused")
                self.assertEqual(self.selected(), selected)

    def test_where_it_is_selected(self):
        """A button goes to it, and its line is within the field."""
        self.assertEqual(self.paste("1. e4 *\n" * 300 + "1. e5 *\n" + "1. d4 *\n" * 300), "refused")
        self.browser.run(BUTTON % "Show it in the text field" + ".focus()")
        self.browser.press(ENTER)
        self.assertEqual((self.focused(), self.selected()), ("paste", [300 * 8 + 3, "e5"]))
        line, last, *edges = self.browser.run(
            "const field = element('paste'), box = field.getBoundingClientRect(),"
            " line = parseFloat(getComputedStyle(field).lineHeight);"
            "return [300 * line - field.scrollTop, field.clientHeight - line, box.top,"
            " innerHeight - box.bottom];")
        self.assertGreater(line, 0)
        self.assertLess(line, last)
        self.assertGreaterEqual(min(edges), 0)

    def test_text_that_is_another_one(self):
        """In it nothing is selected."""
        self.assertEqual(self.paste("1. e5 *"), "refused")
        self.assertEqual(self.selected(), [3, "e5"])
        self.set("paste", "1. d4 d5 2. c4 *")
        self.browser.run("element('paste').setSelectionRange(0, 1)")
        self.assertEqual(self.format("reduced"), "refused")
        self.assertEqual((self.selected(), self.text("paste-fault")), ([0, "1"], ""))
        # a file may have the name that the page gives to the text
        self.assertEqual(self.convert(("pasted games", b"1. e5 *")), "refused")
        self.assertEqual((self.selected(), self.text("paste-fault")), ([0, "1"], ""))
        self.assertNotIn("Show it", self.text("fault"))


class PlayThrough(Case):
    """The board on which a game is played through, with its comments, NAGs and variations."""

    GAME = ('[White "x"]\n[Result "1/2-1/2"]\n\n{before all} 1. e4 {a (b) $3 c} {d} e5 '
            '(1... c5 {why} 2. Nf3 $14 (2. c3 d5) (2. f4!) d6) ({then} 1... e6) 2. Nf3! $10 $255 '
            'Nc6 1/2-1/2')
    BEGIN = ("The position before the first move (ply 0 of 4)", "before all", PIECES % (
        "b1, g1", "a2, b2, c2, d2, e2, f2, g2, h2", "b8, g8", "a7, b7, c7, d7, e7, f7, g7, h7",
        "White"))

    def open(self, text=GAME):
        self.convert(("a.pgn", text if isinstance(text, bytes) else text.encode()))
        self.open_game()

    def board(self):
        """What is said, the comments, and the position in words."""
        return (self.text("line-at"), self.text("line-comments"),
                self.each("#line-board svg", "it.getAttribute('aria-label')")[0])

    def walk(self, *steps):
        """Presses the keys of each step, and then the board is so, or begins so."""
        for keys, *wanted in steps:
            self.browser.press(*keys)
            self.assertEqual(self.board()[:len(wanted)], tuple(wanted))

    def assertVariations(self, said, *moves):
        """What is said of the variations, and each one's first moves."""
        self.assertShown(variations_title=said)
        self.assertEqual(self.each("#variations button"), [*moves])

    def test_keys_and_buttons(self):
        self.open()
        begin, end = self.BEGIN, ("After 2... Nc6 (ply 4 of 4). Result: 1/2-1/2", "", PIECES % (
            "b1, f3", "a2, b2, c2, d2, f2, g2, h2, e4", "c6, g8", "e5, a7, b7, c7, d7, f7, g7, h7",
            "White"))
        self.walk(("", *begin), (TO_RIGHT, "After 1. e4 (ply 1 of 4)", "a (b) $3 c\nd"))
        # the marks of e2 and e4: a square has 40 units, and a mark is 4 inside it
        self.assertEqual(
            sorted(self.each("#line-board .moved", "[it.getAttribute('x'), it.getAttribute('y')]")),
            [["164", "164"], ["164", "244"]])
        self.walk((TO_RIGHT, "After 1... e5 (ply 2 of 4)", ""),
                  (TO_RIGHT, "After 2. Nf3! = $255 (ply 3 of 4)"),
                  (TO_LEFT, "After 1... e5 (ply 2 of 4)"), (END, *end), (TO_RIGHT, *end),
                  (HOME, *begin), (TO_LEFT, *begin), (UP, *begin), (DOWN, *begin))
        for button, shown in (("#to-end", end), ("#forward", end), ("#to-start", begin),
                              ("#back", begin)):
            self.click(button)
            self.walk(("", *shown))
        # in texts these keys scroll
        for text in ("#game-text", "#line-words"):
            self.press_at(text, END)
            self.walk(("", *begin))
        self.assertQuiet()

    def test_variations(self):
        """They are entered where they begin, by a key or a button, and left the same way."""
        self.open()
        self.assertVariations("")
        self.browser.press(TO_RIGHT)
        before = self.board()
        self.assertVariations("Variations, in place of 1... e5:", "1... c5 2. Nf3 +/= d6",
                              "1... e6")
        self.picture("play-through")
        instead = " of a variation, in place of 1... e5)"
        of_nf3 = " of a variation, in place of 2. Nf3)"
        self.walk((DOWN, "After 1... c5 (ply 1 of 3" + instead, "why"))
        self.assertVariations("Variations, in place of 2. Nf3:", "2. c3 d5", "2. f4!")
        self.walk((END, "After 2... d6 (ply 3 of 3" + instead),
                  (TO_RIGHT, "After 2... d6 (ply 3 of 3" + instead),
                  (TO_LEFT, "After 2. Nf3 +/= (ply 2 of 3" + instead),
                  (TO_LEFT, "After 1... c5 (ply 1 of 3" + instead),
                  (DOWN, "After 2. c3 (ply 1 of 2" + of_nf3),
                  (TO_RIGHT, "After 2... d5 (ply 2 of 2" + of_nf3),
                  (UP, "After 1... c5 (ply 1 of 3" + instead), (TO_LEFT, before[0]),
                  (DOWN + HOME, *self.BEGIN), (TO_RIGHT,))
        self.click("#variations button", 0)
        self.click("#variations button", 1)
        self.walk(("", "After 2. f4! (ply 1 of 1" + of_nf3, "", PIECES % (
            "b1, g1", "a2, b2, c2, d2, g2, h2, e4, f4", "b8, g8", "c5, a7, b7, d7, e7, f7, g7, h7",
            "Black")))
        self.click("#leave")
        self.click("#leave")
        self.walk(("", *before))
        self.assertTrue(self.value("leave", "disabled"))
        self.click("#variations button", 1)
        self.walk(("", "After 1... e6 (ply 1 of 1" + instead, "then"))
        self.assertQuiet()

    def test_variations_by_keyboard(self):
        """The list is one stop of the tab key, and no button takes the focus away with it."""
        self.open()
        self.browser.press(TO_RIGHT)
        self.press_at("#line-words")
        for key, place in ((TAB, 0), (DOWN, 1), (DOWN, 1), (HOME, 0), (END, 1)):
            self.browser.press(key)
            self.assertEqual(self.at("#variations button"), place)
        for selector, key, said in (
                ("#variations button:focus", ENTER,
                 "After 1... e6 (ply 1 of 1 of a variation, in place of 1... e5)"),
                ("#leave", ENTER, "After 1. e4 (ply 1 of 4)"),
                ("#variations button", TO_RIGHT, "After 1... e5 (ply 2 of 4)")):
            self.press_at(selector, key)
            self.assertShown(line_at=said, focus="game-title")

    def test_tab_key(self):
        """It reaches each control of a game, and what scrolls, in the order of the page."""
        self.open()
        self.browser.press(TO_RIGHT, DOWN)
        for reached in ("to-start", "back", "forward", "to-end", "leave", "line-words", "2. c3 d5",
                        "game-text"):
            self.browser.press(TAB)
            self.assertEqual(self.focused() or self.browser.run(
                "return document.activeElement.innerText"), reached)

    def test_odd_variations(self):
        """One without a move, with marks and comments alone, and one that is long."""
        shuffle = " ".join(["Nf6 Ng1 Ng8 Nf3"] * 4)
        self.open("1. Nf3 d5 (! {all}) (1... %s) *" % shuffle)
        self.browser.press(TO_RIGHT)
        first = " ".join("%d. %s %s" % (it, white, black) for it, white, black in (
            (2, "Ng1", "Ng8"), (3, "Nf3", "Nf6"), (4, "Ng1", "Ng8"), (5, "Nf3", "Nf6"),
            (6, "Ng1", "Ng8")))
        self.assertEqual(self.each("#variations button"),
                         ["no move!", "1... Nf6 %s 7. Nf3 \u2026" % first])
        said = "A variation without a move, in place of 1... d5"
        self.walk((DOWN, said, "all"), (TO_RIGHT, said, "all"), (END, said, "all"),
                  (TO_LEFT, "After 1. Nf3 (ply 1 of 2)"))

    def test_games(self):
        """Of several kinds, with what a few keys lead to."""
        shuffle, long = "Nf3 Nf6 Ng1 Ng8 ", " ".join(["word"] * 60000)
        for text, *steps in (
                # a comment is shown as UTF-8 where it is that, else as Latin-1
                (b"1. e4 {caf\xe9} e5 {caf\xc3\xa9 <b>&amp;</b>} *",
                 (TO_RIGHT, "After 1. e4 (ply 1 of 2)", "caf\u00e9"),
                 (TO_RIGHT, "After 1... e5 (ply 2 of 2). Result: *", "caf\u00e9 <b>&amp;</b>")),
                # the usual signs of NAGs; others have their numbers
                ("1. e4 $0 $1 $2 $3 $4 $5 $6 $7 $8 $9 $10 $11 $12 $13 $14 $15 $16 $17 $18 $19 $20 "
                 "$146 *",
                 (TO_RIGHT, "After 1. e4 $0!?!!??!??! \u25a1 $8 $9 = $11 $12 \u221e +/= =/+ \u00b1 "
                  "\u2213 +\u2212 \u2212+ $20 N (ply 1 of 1). Result: *")),
                ('[FEN "4k3/P7/8/8/8/8/8/4K3 b - - 0 30"]\n\n30... Kd7 (Kf7) 31. a8=Q *\n'
                 '[Event "x"]\n\n*\n',
                 ("", "The position before the first move (ply 0 of 2)"),
                 (DOWN, "After 30... Kf7 (ply 1 of 1 of a variation, in place of 30... Kd7)", "",
                  "White: king e1; pawn a7. Black: king f7. White to move."),
                 (HOME + END, "After 31. a8=Q (ply 2 of 2). Result: *", "",
                  "White: king e1; queen a8. Black: king d7. Black to move.")),
                ("*\n", *((key, "The position before the first move (ply 0 of 0). Result: *")
                          for key in (TO_RIGHT, END))),
                # more items than the room for the first lines holds, and a comment that is longer
                (600 * shuffle + "e4 (d4 {%s}) {behind} *" % long,
                 (END, "After 1201. e4 (ply 2401 of 2401). Result: *", "behind"),
                 (TO_LEFT + DOWN,
                  "After 1201. d4 (ply 1 of 1 of a variation, in place of 1201. e4)", long)),
                # an export with the roster beside as many tags as a game may have has too many
                ("".join('[T%02d "x"]\n' % it for it in range(62)) +
                 '[FEN "4k3/8/8/8/8/8/4P3/4K3 w - - 0 1"]\n[Result "1-0"]\n\n1. e4 1-0\n',
                 (END, "After 1. e4 (ply 1 of 1). Result: 1-0", "",
                  "White: king e1; pawn e4. Black: king e8. Black to move."))):
            with self.subTest(text[:40]):
                self.open(text)
                self.walk(*steps)

    def test_phone(self):
        """The board, its buttons and a long comment are within the window."""
        self.screen(390, 844)
        self.open("1. e4 {%s} e5 (c5 2. Nf3 d6 3. d4 cxd4 4. Nxd4 Nf6 5. Nc3 a6) *"
                  % " ".join(40 * [79 * "w"]))
        self.browser.press(TO_RIGHT)
        self.picture("play-through-phone")
        self.assertFits(390, "#play-through *")
        seen, all_of_it = (self.value("line-words", it) for it in ("clientHeight", "scrollHeight"))
        self.assertLess(seen, 400)
        self.assertGreater(all_of_it, seen)


class Rest(programs.Folder, Case):
    def test_worker_that_reads_no_file(self):
        """A browser that lets the page alone read its files, as WebKit does with one on a disk."""
        self.page(before="""
            const make = URL.createObjectURL, refusing = "Blob.prototype.arrayBuffer = " +
              "async () => { throw new DOMException('no', 'NotReadableError'); };";
            URL.createObjectURL = (it) => make.call(URL, it.type === "text/javascript"
              ? new Blob([refusing, it], {type: it.type}) : it);""")
        self.assertEnds(self.convert(("annotated.pgn", example("annotated")),
                                     ("two.pgn", example("two-games"))), "done",
                        counts="3 games, 7 plies.")
        self.assertIn(b"Qxf7#", self.exported())

    def test_tags(self):
        """The list has numbers and plies, whatever the tags are, and Latin-1 is shown as such."""
        for text, row in (
                (b'[number "x"] [plies "y"] 1. e4 e5 *', ["1", "?", "?", "*", "2"]),
                (b'[White "Jos\xe9 \x80"] [Black "J\xc3\xb6rg"] {\xe9 \xff} 1. e4 *',
                 ["1", "José \x80", "Jörg", "*", "1"])):
            self.convert(("in.pgn", text))
            self.assertEqual(self.each("#list tr", CELLS)[0], row)
        exported = self.exported()
        self.assertIn(b'[White "Jos\xe9 \x80"]', exported)
        self.assertIn(b"{ \xe9 \xff }", exported)
        # those of a bad game are no tags of the game behind it
        self.convert(("in.pgn", b'[White "Ada"]\n\ne4 e9 *\n\n[Black "Bob"]\n\n*\n'))
        self.assertIn("Game 1: White “Ada”, Black “?”", self.text("fault"))

    def test_drop_and_paste(self):
        self.browser.run("""
            const transfer = new DataTransfer();
            transfer.items.add(new File(["1. e4 *"], "dropped.pgn"));
            document.body.dispatchEvent(
              new DragEvent("drop", {dataTransfer: transfer, bubbles: true, cancelable: true}));""")
        self.assertEnds(self.browser.wait_for(IS_SHOWN), "done", counts="1 game, 1 ply.")
        self.assertEqual(self.download()[0], "dropped.export.pgn")
        self.assertEnds(self.paste("1. e4 e5 *\n1. d4 {é} *"), "done", counts="2 games, 3 plies.")
        self.assertIn("{ é }".encode(), self.exported())

    def test_copy(self):
        """The clipboard gets the whole export, and the page says so if it may not."""
        self.browser.command("Browser.grantPermissions",
                             permissions=["clipboardReadWrite", "clipboardSanitizedWrite"])
        self.convert(("annotated.pgn", example("annotated")), ("latin.pgn", b"e4 {caf\xe9} *"))
        self.click("#copy")
        self.browser.wait_for("return element('copied').textContent")
        self.assertShown(copied="Copied as text. The download has the exact bytes.")
        found = self.browser.await_script("return navigator.clipboard.readText()")
        text = self.exported()
        self.assertIn(b"{ caf\xe9 }", text)
        self.assertEqual(found, {"value": text.decode("latin-1")})
        self.browser.run("navigator.clipboard.writeText = () => Promise.reject(new Error('no'))")
        self.click("#copy")
        self.browser.wait_for("return !element('copied').textContent.startsWith('Copied')")
        self.assertShown(copied="The browser does not let the page copy. Use the download.")

    def told_by_lint(self, files, *words, status=1):
        """What gillspoon lint writes for files: their texts by their names."""
        self.put_all(files)
        ran = run([ROOT + "/bin/gillspoon", "lint", *words, *files], cwd=self.folder)
        return output_of(ran, status).decode()

    def test_results_of_a_forfeit(self):
        """The note of gillspoon lint stands at the fault, and in the list."""
        note = ("Of a forfeit PGN 8.1.1.7 has the result alone, * if there is no winner; a "
                "Termination tag says why.")
        self.assertEqual(self.convert(("a.pgn", b'[Result "+:-"]\n\n*\n')), "refused")
        self.assertIn(note, self.text("fault").split("\n"))
        self.assertIn("Try this: Write 1-0, 0-1 or * alone, and put the reason into a Termination "
                      "tag.", self.text("fault"))
        self.convert(("a.pgn", b'[Result "won"]\n\n*\n'))
        self.assertNotIn("forfeit", self.text("fault"))
        values = ("+:-", "-:+", "+ / -", "+-", "-:-", "1-0F", "0-1f", "1F-0F", "1 - 0 F", "0-0",
                  "0:0", "1-0 forfeit", "Forfeit", "won by default", "won", "1/2", "?", "",
                  "1-0-0", "0-1-0", " +:- ", "walkover", "W.O.", "0 - 1", "1F - 0", "F", "--", "++",
                  "no show")
        text = "".join('[Event "x"]\n[Result "%s"]\n\n1. e4 *\n\n' % it for it in values).encode()
        self.convert_all(("a.pgn", text))
        lines = self.download("download-faults")[1].decode()
        self.assertEqual(lines.count("of a forfeit"), lines.count(note[3:-1]))
        self.assertEqual(lines, self.told_by_lint({"a.pgn": text}, "--quiet"))

    def test_terminations_of_a_forfeit(self):
        """Sound games with other words for it are named, as gillspoon lint does."""
        self.convert(("a.pgn", (
            b'[White "Ada"]\n[Termination "won by forfeit"]\n\n*\n'
            b'[Termination "time forfeit"]\n\n*\n')))
        self.picture("forfeit")
        self.assertShown(
            notes="Notes\nIn 1 game the Termination is not time forfeit, or another word of the "
            "standard (PGN 9.8.1).\nGame 1, “Ada” against “?” “won by forfeit”\nThe keys Up, Down, "
            "Home and End go through the list.")
        self.open_game("#notes button")
        self.assertShown(game_title="Game 1")
        values = ("won by forfeit", "Forfeit", "time forfeit of both", "default", "no show",
                  "noshow", r"a \"walkover\"", "walk-over", "abandoned", "adjudication", "death",
                  "emergency", "normal", "rules infraction", "time forfeit", "unterminated",
                  "Time forfeit", "Ada won by resignation", "", r"a \"draw\"", "DEFAULT",
                  "forfait", "time forfeit ", "caf\u00e9 forfeit")
        games = ['[Event "x"]\n[Termination "%s"]\n\n1. e4 *\n\n' % it for it in values]
        # a line of a comment is no tag, and neither is one of another name
        games += ["1. e4 {%s} *\n\n" % " ".join(['[Termination "forfeit"]'] * 9),
                  '[TERMINATION "forfeit"]\n\n*\n\n']
        text = "".join(games).encode()
        self.assertEqual(self.convert(("a.pgn", text)), "done")
        self.assertIn('\n[Termination "forfeit"]', self.value("export", "textContent"))
        listed = self.each("#notes button")
        told = self.told_by_lint({"a.pgn": text}, "--json", status=0)
        records = map(json.loads, told.splitlines())
        wanted = ["Game %d" % it["game"] for it in records if it["kind"] == "warning"
                  and it["reason"].startswith("Termination is not time forfeit")]
        self.assertGreater(len(wanted), 8)
        self.assertEqual(listed, wanted)
        self.assertEnds(self.convert(("a.pgn", b"1. e4 *")), "done", notes=None)

    def test_many_terminations(self):
        """They are counted through all parts of an export, and the first 100 games are listed."""
        one, other = b"*\n" * 25000, b'[Termination "default"]\n\n*\n'
        self.assertEqual(self.convert(("a.pgn", one + other + one), ("b.pgn", other * 100)), "done")
        size = re.search(r"of ([0-9.]+) MB", self.text("export-note"))[1]
        self.assertGreater(float(size), 4.3)
        self.assertShown(
            notes_text="In 101 games the Termination is not time forfeit, or another word of the "
            "standard (PGN 9.8.1). The first 100 are listed.")
        self.assertEqual(self.each("#notes button"), [
            "Game 25001: a.pgn", *("Game %d: b.pgn" % it for it in range(1, 100))])
        self.open_game("#notes button", 1)
        self.assertShown(game_title="Game 1 of b.pgn")

    def test_list_of_faults(self):
        """Each has its game and its players, and the download has the lines of gillspoon lint."""
        files = {
            "a.pgn": ('[White "Silva, J."]\n[Black "Nowak, A."]\n\n1. e4 e5 2. Bd4 *\n\n'
                      '[Event "b"]\n\n1. e4 *\n\n'
                      '[White "M\u00fcller"]\n\n1. e4 {\u00e9} e9 *\n').encode(),
            "b.pgn": b'[Event "x"]\n\n1. e5 *\n\n[Result "+:-"]\n[Black "J\xf6rg \\"J\\""]\n\n*\n'}
        self.assertEnds(self.convert(*files.items()), "refused", all_faults=None)
        self.assertEqual(self.converted_by("#go-on-always"), "done")
        self.picture("list-of-faults")
        self.assertEqual(self.each("#other-faults button"), [
            "Game 1, “Silva, J.” against “Nowak, A.”: a.pgn, line 4, column 13: move is not legal",
            "Game 3, “Müller” against “?”: a.pgn, line 12, column 11: not a move",
            "Game 1: b.pgn, line 3, column 4: move is not legal",
            "Game 2, “?” against “Jörg \"J\"”: b.pgn, line 5, column 9: bad result value"])
        self.assertShown(all_faults_text="4 faults.")
        self.assertEqual(self.download("download-faults"), (
            "games.faults.txt", self.told_by_lint(files, "--quiet").encode()))
        # each opens
        self.convert_all(("in.pgn", b"".join(it[1] + b"\n" for it in BAD[:3])))
        self.assertEqual([it.split(": ")[-1] for it in self.each("#other-faults button")],
                         ["stray byte", "control byte", "reserved character"])
        self.click("#other-faults button")
        self.assertShown(faults_title="Fault 1 of 3")
        self.assertTrue(self.text("fault").startswith("Stray byte\n"))

    def test_many_faults(self):
        """The first 500 are listed, in a box that is not high, and the download has all."""
        for count, listed, told in (
                (200, 200, "200 faults."),
                (501, 500, "The first 500 of 501 faults are listed. The download has all.")):
            self.convert_all(("in.pgn", BAD_GAME * count))
            self.assertEqual(len(self.each("#other-faults li", "0")), listed)
            self.assertShown(all_faults_text=told)
            self.assertEqual(self.download("download-faults")[1].decode().splitlines(), [
                "in.pgn:%d:4: move is not legal (game %d, ? – ?)" % (4 * it + 3, it + 1)
                for it in range(count)])
            height, box, apart = self.browser.run(
                "const list = element('other-faults'), top = (id) => "
                "element(id).getBoundingClientRect().top;"
                "return [list.clientHeight, list.parentElement.clientHeight,"
                " top('result-title') - top('all-faults-title')]")
            self.assertGreater(height, 5000)
            self.assertLess(box, 400)
            self.assertLess(apart, 700)

    def test_column_in_characters(self):
        for text, column in (("{é} 1. e9 *".encode(), 8), ("{é} 1. e9 *".encode("latin-1"), 8),
                             (b"\xef\xbb\xbfe9 *", 1), (b"e4\r\n e9 *", 2),
                             (b"{" + b"\xc3\xa9 " * 9000 + b"} e9 *", 18004)):
            self.convert(("in.pgn", text))
            self.assertIn("column %d " % column, self.text("fault").split("\n")[1], text)

    def test_goes_on_as_the_sieve_does(self):
        """Sound and bad games are those of gillspoon sieve."""
        need_program()
        bad = b'[Event "a"]\n\n1. e5 *\n\n'
        good = b'[Event "b"]\n\n1. e4 *\n\n'
        for text in (
                *map(example, ("one-bad-game", "no-such-move", "differing-result",
                               "no-result-tag")),
                bad, bad + good, good + bad + bad + good, b"{ never closed\n" + good + good,
                good + b"\xef\xbb\xbf" + good, bad + b"\xef\xbb\xbf" + good,
                good + b"% note\n" + bad + b"% note\n" + good,
                b'[Event "a"]\n\n1. e4 {open\n\n' + good, bad.replace(b"\n", b"\r\n") + good,
                b"1. e4 e4 *\n1. d4 *\n" + good, good + b'[Event "The "x""]\n\n1. e4 *\n\n' + good,
                good + b"1. e4 e5", b'[Event "a"]\n[Site "s"]\n\n' + good, good + b"\xa0\n" + good,
                good + b"1. e4 {x} (\n" + good,
                *(sound(b"a") + text + b"\n" + sound(b"b") for _, text, _, _ in BAD),
                sound(b"a") + b"\n".join(it[1] for it in BAD) + sound(b"b")):
            with self.subTest(text[:60]):
                run(["bin/gillspoon", "sieve", self.put("in.pgn", text),
                     *(self.folder + it for it in ("/good", "/bad"))])
                if self.convert(("in.pgn", text)) == "refused":
                    self.assertEqual(self.converted_by("#go-on-always"), "done")
                self.assertEqual(self.downloaded("download"), self.get("good"))
                notes = rb"(?m)^% (byte \d+: .*; line \d+|bytes \d+ to \d+, .*|the fault is .*)\n"
                self.assertEqual(self.downloaded("download-bad").split(),
                                 re.sub(notes, b"", self.get("bad")).split())

    def test_position(self):
        """The field for a position, and which of its rules six good fields break together."""
        broken = "each field is right by itself, but %s"
        pawn = broken % "a pawn is on %s, and none can be on the first or last rank"
        target = broken % "with %s to move the en passant target is on rank %d, and not %s"
        for fen, said in (
                (INITIAL.replace("KQkq", "QK"), "field 3, the castling rights"),
                ("8/8/8/8/8/8/8/4K3 w - - 0 1", broken % "Black has no king"),
                ("4k3/8/8/8/8/8/8/8 w - - 0 1", broken % "White has no king"),
                ("4k3/8/8/8/8/8/8/K3K3 w - - 0 1", broken % "White has 2 kings"),
                ("P3k3/8/8/8/8/8/8/4K3 w - - 0 1", pawn % "a8"),
                ("4k3/8/8/8/8/8/8/p3K3 w - - 0 1", pawn % "a1"),
                ("4k3/8/8/4pP2/8/8/8/4K3 w - e3 0 1", target % ("White", 6, "e3")),
                ("4k3/8/8/8/4P3/8/8/4K3 b - e6 0 1", target % ("Black", 3, "e6")),
                ("4k3/8/8/8/8/8/8/4RK2 w - - 0 1", broken % "Black has moved, and is in check"),
                ("4rk2/8/8/8/8/8/8/4K3 b - - 0 1", broken % "White has moved, and is in check")):
            self.set("fen", fen)
            self.assertShown(fen_answer="This FEN is no position: %s." % said)
        self.set("fen", "rnbqkbnr/pppppppp/44/8/8/8/PPPPPPPP/RNBQKBNR w KQkq - 0 01")
        self.assertShown(fen_answer="Canonical: " + INITIAL)
        self.set("fen", INITIAL)
        self.set("move", "g1e2")
        self.assertShown(move_answer="“g1e2” is not legal. No pawn of White can go to e2 from "
                                     "where “g1e2” says.")
        self.set("move", "Ng1f3")
        after = "rnbqkbnr/pppppppp/8/8/8/5N2/PPPPPPPP/RNBQKB1R b KQkq - 1 1"
        self.assertShown(move_answer="Nf3, and then " + after)
        self.click("#play")
        self.assertEqual(self.value("fen"), after)

    def test_moves(self):
        """What is said of a move, also in the notation of engines: if it is not legal, why."""
        for fen, move, said in (
                (INITIAL, "g1f3", "Nf3, and then "), (INITIAL, "e2e4", "e4, and then "),
                ("4k3/8/8/8/8/8/8/4K2R w K - 0 1", "e1g1", "O-O, and then "),
                ("r3k3/8/8/8/8/8/8/4K3 b q - 0 1", "e8c8", "O-O-O, and then "),
                ("8/P6k/8/8/8/8/8/4K3 w - - 0 1", "a7a8n", "a8=N, and then "),
                ("4k3/8/8/8/8/8/3P4/N2K1N2 w - - 0 1", "Nb3", "Nb3, and then"),
                ("4k3/8/8/8/8/5N2/8/1N2K3 w - - 0 1", "Nd2",
                 "“Nd2” is ambiguous. White’s knights on b1 and f3 can both go to d2. Write Nbd2 "
                 "or Nfd2."),
                ("4r1k1/8/8/8/8/8/4N3/4K3 w - - 0 1", "Nc3",
                 "“Nc3” is not legal. White’s knight on e2 could go to c3, but then the king would "
                 "be in check."),
                ("4k3/8/8/8/8/8/8/4K2R w - - 0 1", "O-O",
                 "“O-O” is not legal. White cannot castle on the king’s side here"),
                ("4k3/8/P7/8/8/8/8/4K3 w - - 0 1", "a7Q",
                 "“a7Q” is not legal. No pawn is promoted on a7, but on the last rank alone."),
                ("4k3/P7/8/8/8/8/8/4K3 w - - 0 1", "a8",
                 "“a8” is not legal. A pawn that reaches the last rank needs a piece: write "
                 "a8=Q.")):
            with self.subTest(move):
                self.set("fen", fen)
                self.set("move", move)
                told = self.text("move-answer")
                self.assertTrue(told.startswith(said), told)

    def test_numbers_of_games(self):
        """Those that the games have in their file, where bad ones count too."""
        good = b'[White "%d"]\n\n1. e4 *\n\n'
        self.convert_all(("a.pgn", good % 1 + BAD_GAME + BAD_GAME + good % 4),
                         ("b.pgn", BAD_GAME + good % 2))
        self.assertEqual([it[:2] for it in self.each("#list tr", CELLS)], [
            ["a.pgn"], ["1", "1"], ["4", "4"], ["b.pgn"], ["2", "2"]])
        self.open_game(number=1)
        self.assertShown(game_title="Game 4 of a.pgn")
        self.assertIn('[White "4"]', self.text("game-text"))

    def test_advice(self):
        """What a person would try next, by README's table of rejections."""
        for text, words in (
                (b"1. e4 e5 (1... -- 2. d4) *", "null move"), (b"1. e4 (1. Z0) *", "null move"),
                (b"1. Z0 *", "gillspoon lint --fix --unsafe-fixes does it."),
                (b"1. e2-e4 *", "hyphen"),
                (b"1e4 *", "“Mend what is clear” does it if the number is that of the move."),
                (b"1. e4 1-0", "no Result tag"),
                (b"1. e4 1-0", "“Mend what is clear” writes the tag, if it is clear where the game "
                 "begins and ends."),
                (b'[Site "a"][Site "a"] *', "take out the second one"),
                (b'[Result "?"] 1. e4 1-0', "A Result is one of 1-0, 0-1, 1/2-1/2"),
                (b'[FEN "4k3/8/8/8/8/8/8/4K3 w - - 0 1 "] *', "the field below"),
                (b"1. e4 e5", "The last game has no result at its end. It has to end with 1-0, "
                 "0-1, 1/2-1/2 or *. The button “Write missing results, and mend what is clear” "
                 "writes what the Result tag says, or * without one."),
                (b'1. e4\n[Event "a"]', "The game before has no result at its end."),
                (b'[White "a"] {c} [Black "b"] *', "A comment is between two tags."),
                (b'[Event "The "Open""] *', "does it if the quotes come in pairs."),
                (b"\xff\xfee\x004\x00", "UTF-16"), (b"1. e4 *\x1a", "byte 26"),
                (b"g1f3 *", "Ng1f3")):
            with self.subTest(text):
                self.assertEqual(self.convert(("in.pgn", text)), "refused")
                told = self.text("fault")
                self.assertIn("Try this: ", told)
                self.assertIn(words, told.split("Try this: ")[1])

    def test_offer(self):
        """A missing result is taken from the end of the game, as by export --checked."""
        self.convert(("in.pgn", example("no-result-tag")))
        self.assertEqual(self.converted_by("#fault p button"), "done")
        self.assertIn(b'[Result "0-1"]', self.exported())
        self.assertEqual(self.value("missing"), "fromMarker")

    def test_keyboard(self):
        """Each control is reached by the tab key, and has a name."""
        self.convert(("one-bad-game.pgn", example("one-bad-game")))
        controls = "button, input, select, textarea"
        wanted = self.each(controls, "it.offsetParent && !it.disabled && it.id || ''")
        self.browser.run("document.activeElement.blur(); scrollTo(0, 0)")
        reached = {""}
        for _ in range(60):
            self.browser.press(TAB)
            reached.add(self.focused())
        self.assertEqual(set(wanted) - reached, set())
        named = self.each(controls, "[it.outerHTML, it.innerText || it.labels?.length ||"
                                    " it.getAttribute('aria-label')]")
        self.assertEqual([text for text, name in named if not name], [])

    def test_policy(self):
        """A request is refused by the page itself."""
        answer = self.browser.await_script("await fetch('http://127.0.0.1:9/');")
        self.assertIn("Failed to fetch", answer.get("error", ""))
        said = [it["message"] for it in self.browser.get_log("browser")]
        self.assertTrue(any("Content Security Policy" in it for it in said), said)


class Builder(programs.Folder, unittest.TestCase):
    """bin/build_page, and what it puts together."""

    MODULE = b"\0asm\1\0\0\0"

    def build(self, *words, **env):
        ran = run([sys.executable, ROOT + "/bin/build_page", *words], env=env or None)
        return ran.returncode, ran.stderr.decode()

    def test_names_what_it_lacks(self):
        out = self.folder + "/page.html"
        for name, why in (
                ("rt", ", the command of the Rattle toolchain, is not on the PATH (--cargo needs "
                 "none)"),
                ("wasm-opt", " is not on the PATH: Debian has it in the package binaryen")):
            self.assertEqual(self.build(out, PATH=self.folder),
                             (127, "bin/build_page: %s%s\n" % (name, why)))
            self.assertFalse(os.path.exists(out))
            os.symlink("/bin/true", self.folder + "/" + name)

    def test_another_module(self):
        """The page then says that nothing of it is proved."""
        out = self.folder + "/page.html"
        self.assertEqual(self.build("--module", self.put("module", self.MODULE), out)[0], 0)
        text = text_of(out)
        self.assertIn("Nothing of it is proved.", text)
        self.assertIn(as_text(self.MODULE), text)
        # nothing in the page is fetched from elsewhere
        self.assertEqual(set(re.findall(r"\bhttps?://[^\s\"']*", text)),
                         {"http://www.w3.org/2000/svg"})
        elsewhere = r"<(?:link|img|iframe|object)\b|\bsrc=|@import|url\("
        self.assertEqual(re.findall(elsewhere, text), [])
        # each part of a script is behind those that it imports: constants are made of theirs
        scripts = re.findall(r'<script(?: type="text/plain" id="worker")?>(.*?)</script>', text,
                             re.S)
        orders = [re.findall(r"(?m)^// ---- (\w+)$", it) for it in scripts]
        self.assertEqual([it[-1] for it in orders if it], ["worker", "app"])
        for order in orders:
            for at, name in enumerate(order):
                imports = re.findall(r'(?m) from "\./(\w+)\.js";$', text_of("page/%s.js" % name))
                self.assertLessEqual(set(imports), set(order[:at]), name)

    def test_by_cargo(self):
        """The module is the one that Cargo builds, and the page says that nothing is proved."""
        copy = self.folder + "/copy"
        for name in ("bin/build_page", "python/gillspoon/fixes.json",
                     *("page/" + it for it in os.listdir(ROOT + "/page"))):
            if os.path.isfile(ROOT + "/" + name):
                self.put("copy/" + name, bytes_of(name))
        self.put("copy/bin/to_cargo", "import os, sys\nos.makedirs(sys.argv[1], exist_ok=True)\n")
        os.mkdir(copy + "/libraries")

        def build(libraries, cargo):
            self.put_script("copy/commands/rustc", "echo %s/%s\n" % (copy, libraries))
            self.put_script("copy/commands/cargo", cargo)
            ran = run([sys.executable, copy + "/bin/build_page", "--cargo", copy + "/page.html"],
                      env={"PATH": copy + "/commands:/usr/bin:/bin"})
            return ran.returncode, ran.stderr.decode()

        self.assertEqual(build("none", "exit 101\n"), (
            127, "bin/build_page: Rust has no target wasm32-unknown-unknown here. Where rustup "
            "installed Rust, `rustup target add wasm32-unknown-unknown` adds it. Debian 13 has it "
            "and its linker in the packages libstd-rust-dev-wasm32 and rust-llvm\n"))
        status, told = build("libraries", "exit 101\n")
        self.assertEqual(status, 1)
        self.assertIn("cargo build has failed in cargo/out", told)
        self.assertFalse(os.path.exists(copy + "/page.html"))
        status, told = build("libraries", """
            [ "$*" = "build --release --package pgn_c --target wasm32-unknown-unknown --target-dir \
target" ] && mkdir -p target/wasm32-unknown-unknown/release &&
            printf '\\0asm\\1\\0\\0\\0' >target/wasm32-unknown-unknown/release/pgn_c.wasm\n""")
        self.assertEqual(status, 0, told)
        text = text_of(copy + "/page.html")
        self.assertIn("Nothing of this page is proved.", text)
        self.assertNotIn("A prover has checked", text)
        self.assertIn(as_text(self.MODULE), text)

    def test_structs(self):
        """Those of the JavaScript are those of the header, but for calls that it does not make."""
        text = re.search(r"STRUCTS = \{(.*?)\n\};", text_of("page/module.js"), re.S)[1]
        header = c_structs()
        found = dict(re.findall(r"^  (\w+): \[(.*?)\],?$(?=\n  \w|\Z)", text, re.S | re.M))
        not_called = {"pgn_number", "pgn_plies", "pgn_result"}
        self.assertEqual(sorted(found), sorted(set(header) - not_called))
        for name, body in found.items():
            fields = ["%s %s%s" % (kind, field, "[%s]" % count if count else "") for
                      field, kind, count in re.findall(r'\["(\w+)", "(\w+)"(?:, (\d+))?\]', body)]
            self.assertEqual(fields, header[name], name)
