"""Tests of gillspoon where."""
import os
import subprocess
import sys
import unittest

from programs import PACKERS, ROOT, Gillspoon, need, need_package, output_of, run, zip_of

setUpModule = need_package
WHERE = [ROOT + "/bin/gillspoon", "where"]
TAGS = b'[Event "Cup"]\n[White "Ann"]\n[Black "Bob"]\n\n'
ANN = 'game 1: White "Ann", Black "Bob", Event "Cup"'
GAME = ANN + "\n"
KE3 = TAGS + b"1. e4 e5 2. Ke3 *\n"
KE3_LINES = "1. e4 e5 2. Ke3 *\n            ^\n"
NO_FILE = b"gillspoon: give FILE: this message names no file\n"
NAME, LATIN = '[White "José Łódź"] x', '[White "José"] x'
MARKED = b"\xef\xbb\xbfe9 *\n"
# A text, the offset of a byte, its line and its column, and the line that is shown with the caret.
PLACES = (
    # mixed line ends, and a byte order mark
    (b"a\r\nb\rc\n\rd", 8, 5, 1, "d", "^"), (b"a\n\r\nb", 4, 3, 1, "b", "^"),
    *((MARKED, at, 1, 1, "e9 *", "^") for at in range(4)), (MARKED, 4, 1, 2, "e9 *", " ^"),
    (b"\xef\xbb\xbf%1-0\ne9 *", 8, 2, 1, "e9 *", "^"),
    # inside a character, behind others, and in Latin-1
    *((NAME.encode(), 11 + inside, 1, 12, NAME, " " * 11 + "^") for inside in (0, 1)),
    (NAME.encode(), len(NAME.encode()) - 1, 1, 21, NAME, " " * 20 + "^"),
    (LATIN.encode("latin-1"), 15, 1, 16, LATIN, " " * 15 + "^"),
    # a line is of one encoding, also where what is not UTF-8 stands behind the byte
    (b"x \xe9", 0, 1, 1, "x é", "^"),
    # wide characters take two columns of the terminal, combining ones none
    ("局 x".encode(), 4, 1, 3, "局 x", "   ^"), ("e\u0301 x".encode(), 4, 1, 4, "e\u0301 x", "  ^"),
    # tabs and control bytes
    (b"\te4\te9", 4, 1, 5, "\te4\te9", "\t  \t^"),
    (b"a\x00b\x1b[31mc", 2, 1, 3, "a\ufffdb\ufffd[31mc", "  ^"),
    (b"a\x00b", 1, 1, 2, "a\ufffdb", " ^"), (b"a\x85b", 2, 1, 3, "a\ufffdb", "  ^"),
)


class WhereTest(Gillspoon, unittest.TestCase):
    def call(self, line="", *names, command="where ", **more):
        return super().call(command + line, *names, **more)

    def lines(self, text, offset):
        """The lines that are printed for a byte of a text, without the file's name."""
        self.put("a.pgn", text)
        out = output_of(self.call("a.pgn %d" % offset))
        return out.decode("utf-8").replace("a.pgn: ", "", 1).split("\n")

    def place(self, text, offset, line, column, shown, caret):
        """The caret is below the character that the caller expects."""
        lines = self.lines(text, offset)
        told = "line %d, column %d (byte %d" % (line, column, offset)
        self.assertTrue(lines[0].startswith(told), lines)
        self.assertEqual(lines[1:3], [shown, caret])
        return lines

    def test_line_ends(self):
        for end in (b"\n", b"\r", b"\r\n"):
            text = end.join((b"ab", b"", b"cde", b""))
            first = text.index(b"c")
            for n in range(3):
                self.place(text, first + n, 3, 1 + n, "cde", " " * n + "^")
            self.place(text, 1, 1, 2, "ab", " ^")
            # a line end is behind its line
            for n in range(len(end)):
                self.place(text, 2 + n, 1, 3 + n, "ab", "  ^")
            self.place(text, 2 + len(end), 2, 1, "", "^")
            self.place(text, len(text), 4, 1, "", "^")
        # a line end over the border of a block
        block = 1 << 20  # CHUNK of gillspoon._sources
        for end, lines in ((b"\r\n", 2), (b"\r", 2), (b"\n", 2), (b"\r\r", 3), (b"\n\r", 3)):
            text = b"a" * (block - 1) + end + b"x"
            self.place(text, len(text) - 1, lines, 1, "x", "^")

    def test_end_of_the_file(self):
        lines = self.place(TAGS + b"1. e4", len(TAGS) + 5, 5, 6, "1. e4", "     ^")
        self.assertIn("the end of the file", lines[0])
        self.assertEqual(lines[3], ANN)
        self.assertEqual(self.lines(TAGS + b"*\n", len(TAGS) + 2)[3],
                         "after the last game, which is game 1")
        self.assertEqual(self.lines(b"", 0),
                         ["line 1, column 1 (byte 0, the end of the file)", "", "^",
                          "there is no game", ""])

    def test_places(self):
        for row in PLACES:
            with self.subTest(row[0]):
                self.place(*row)

    def test_long_lines(self):
        text = b"e4 " * 1000 + b"Kd9" + b" e5" * 1000
        for offset in (0, 3, 300, 3000, 3001, len(text) - 1, len(text)):
            lines = self.lines(text, offset)
            self.assertIn("line 1, column %d " % (offset + 1), lines[0])
            self.assertLess(len(lines[1]), 80)
            caret = lines[2].index("^")
            self.assertEqual(lines[1][caret:caret + 3].rstrip("."),
                             text[offset:offset + 3].decode()[:len(lines[1]) - caret])
            self.assertEqual(lines[1].startswith("..."), offset > 70)
            self.assertEqual(lines[1].endswith("..."), offset < len(text) - 70)
        text = "é".encode() * 1200000 + b" Kd9 *"
        lines = self.lines(text, 2400001)
        self.assertIn("line 1, column 1200002 ", lines[0])
        self.assertEqual(lines[1][lines[2].index("^"):], "Kd9 *")

    def test_games(self):
        other = (b'[White "C"] [Black {of course} "D\\"1"]\n; 1-0\n%0-1\n'
                 b'[Event "a"b"]\n{1/2-1/2} 1. e4 1-0\n')
        text = TAGS + b"1. e4 {1-0} 0-0-0 *\n" + other + TAGS
        at = text.index(b"1. e4 1-0")
        first = ANN.replace("1", "%d")
        second = 'game 2: White "C", Black "D"1", Event "a"'
        for offset, line in ((text.index(b"0-0-0"), first % 1), (at, second), (at + 6, second),
                             (len(text), first % 3)):
            self.assertEqual(self.lines(text, offset)[3], line)
        bad = b'[Event "x"]\n\n1. e9 {1-0} e5'
        text = bad + b"\n\n" + TAGS + b"1. e4 e5 1-0\n\n" + bad + b" 0-1\n" + TAGS + b"1. d4 *\n"
        bad_line = 'game %d: White "?", Black "?", Event "x"'
        for place, line in ((b"e9", bad_line % 1), (b"e4", first % 2), (b"0-1", bad_line % 3),
                            (b"d4", first % 4)):
            self.assertEqual(self.lines(text, text.index(place))[3], line)
        # a byte order mark just behind a game
        text = b"e4 *\xef\xbb\xbf" + TAGS + b"e4 *\n"
        for place in (4, text.rindex(b"e4")):
            self.assertEqual(self.lines(text, place)[3], first % 2)

    def test_comment_that_is_not_closed(self):
        text = TAGS + b"1. e4 {why\n\n" + TAGS + b"1-0"
        self.assertEqual(self.lines(text, len(text))[3:5], [
            "in a comment that begins at line 5, column 7 (byte 49)", ANN])
        self.assertNotIn("comment", self.lines(b"{a}e9", 3)[3])
        # one that is longer than what is kept in memory
        words = (b"w" * 70 + b" ") * 100 + b"\n"
        text = TAGS + b"1. e4 {" + words * ((1 << 24) // len(words) + 100)  # LONG of _where
        self.assertEqual(self.lines(text, len(text))[3:5], [
            "in a comment that begins at line 5, column 7 (byte %d)" % (len(TAGS) + 6), ANN])
        text += b'} e5 *\n[White "C"]\n\n1. e4 {x} e9 *\n'
        self.assertEqual(self.lines(text, text.index(b"e9"))[3],
                         'game 2: White "C", Black "?", Event "?"')
        self.assertEqual(self.lines(text, text.index(b"e5"))[3], ANN)

    def test_message(self):
        self.put("a.pgn", TAGS + b"1. e4 {byte 3: no} *\n\n" + KE3)
        for task in ("check", "export", "list"):
            told = run([self.program, task, "a.pgn"], cwd=self.folder, stderr=subprocess.STDOUT)
            before, _, message = told.stdout.rpartition(b"byte ")
            self.assertEqual(message, b"120: move is not legal\n")
            out = output_of(self.call("a.pgn", input=told.stdout), 1)
            self.assertEqual(out.decode(), before.decode() + (
                "a.pgn: line 11, column 13 (byte 120): move is not legal\n") + KE3_LINES
                + GAME.replace("1", "2"))

    def test_other_lines_are_passed_on(self):
        """A sound file has no message. The status says whether a line names a failure."""
        self.put("a.pgn", TAGS + b"1. e4 *\n")
        counts = run([self.program, "check", self.folder + "/a.pgn"]).stdout
        self.assertEqual(counts, b"games: 1, plies: 1\n")
        for told in (counts, b"", b"a\xff\n\r\nb", b"x" * (1 << 21) + b"\n", b"byte 3:\n",
                     b"a byte 3: no\n", b'{"kind": "fault", "file": 1}\n',
                     b"a.pgn:3: move is not legal (game 1, A - B)\n", b"a.pgn\n",
                     b"gillspoonx: a\n", b'{"kind": "fault", \n'):
            self.check(self.call("a.pgn", input=told), 0, told)
        for told in (b"byte 0: input cannot be read\n", b"byte 3: output cannot be written\n",
                     b"output cannot be written\n", b"out of memory\n",
                     b"arguments cannot be read\n", b"gillspoon: x: No such file or directory\n",
                     b"gillspoon lint: argument --max: x\n", b"pgn_tool: x\n",
                     b"error: unexpected argument 'x' found\n"):
            self.check(self.call("a.pgn", input=told + b"more\n"), 1, told + b"more\n")

    def test_each_message_is_shown(self):
        self.put("a.pgn", TAGS + b"1. e4 *\n")
        out = output_of(self.call("a.pgn", input=b"byte 1: no\ngames: 1\nbyte 46: not a move\n"), 1)
        self.assertEqual(out.decode().split("\n"), [
            "a.pgn: line 1, column 2 (byte 1): no", '[Event "Cup"]', " ^", ANN, "games: 1",
            "a.pgn: line 5, column 4 (byte 46): not a move", "1. e4 *", "   ^", ANN, ""])
        many = b"1. e4 e5\n" * (1 << 17)  # more than is read of a line at once
        ran = self.call("a.pgn", input=many + b"byte 46: not a move\n")
        self.assertTrue(ran.stdout.startswith(many + b"a.pgn: line 5, column 4 ("))

    def messages(self, line, *names):
        """What is shown of the messages of a command."""
        told = self.call(line, *names, command="", stderr=subprocess.STDOUT).stdout
        return output_of(self.call(input=told), 1).decode()

    def test_messages_of_lint(self):
        name = "a\n: 1:2 \u00fc.pgn"
        self.put(name, KE3 + b"\n" + TAGS + b"1. e4 *\n\n" + KE3 + b"\n")
        shown = "a\\n: 1:2 \u00fc.pgn: line %d, column 13 (byte %d): move is not legal " \
            "(game %d, Ann \u2013 Bob)\n" + KE3_LINES
        wanted = shown % (5, 55, 1) + shown % (17, 169, 3)
        end = "1 file, 3 games, 2 faults in 1 file\n"
        self.assertEqual(self.messages("lint", name), wanted + end)
        self.assertEqual(self.messages("lint --quiet", name, name), 2 * wanted)
        records = self.messages("lint --json", name)
        self.assertTrue(records.startswith(wanted + '{"kind": "summary", '), records)
        # without a name
        self.put("a.pgn", b"1. e9 *\n")
        for told in (b"<stdin>:1:4: not a move (game 1, ? - ?)\n", b"byte 3: not a move\n",
                     b"gillspoon: <stdin>: byte 3: not a move\n"):
            out = output_of(self.call("a.pgn", input=told), 1)
            self.assertTrue(out.startswith(b"a.pgn: line 1, column 4 (byte 3): not a move"), out)
            self.check(self.call(input=told + b"more\n"), 2, told + b"more\n", NO_FILE)

    def test_places_of_lint(self):
        """A line and a column are found again, whatever the line ends and the encoding."""
        latin = "1. e4 {\u00e4\u00e4} e9 *".encode("latin-1")
        utf = "1. e4 {\u4e16\u00e4} e9 *".encode()
        for text, place in (
                (b"\xef\xbb\xbf1. e9 *\n", "1, column 4 (byte 6)"),
                (b"\xef\xbb\xbf" + utf, "1, column 12 (byte 17)"),
                (b"\n\r" + latin + b"\n", "3, column 12 (byte 13)"),
                (b"\r\r\n" + utf, "3, column 12 (byte 17)"),
                (b" " * ((1 << 20) - 1) + b"\r\n" + latin, "2, column 12 (byte 1048588)"),
                (b" " * ((1 << 20) - 1) + b"\r" + latin, "2, column 12 (byte 1048587)"),
                (b"\n" * (1 << 20) + utf, "1048577, column 12 (byte 1048590)"),
                (b"1. e4\n", "2, column 1 (byte 6, the end of the file)")):
            self.put("a.pgn", text)
            shown = self.messages("lint --quiet a.pgn")
            self.assertTrue(shown.startswith("a.pgn: line %s: " % place), shown)

    def test_compressed_files(self):
        need("zstd")
        for end in ("gz", "bz2", "zst", "GZ"):
            self.put("a.pgn." + end, PACKERS[end.lower()](KE3))
            text = self.messages("lint --quiet a.pgn." + end)
            self.assertEqual("".join(text.splitlines(True)[1:3]), KE3_LINES)
        self.put("b.pgn.gz", PACKERS["gz"](KE3)[:-9])
        self.assertEqual(self.call("b.pgn.gz 55").returncode, 3)

    def test_files_in_a_zip(self):
        """They are named by lint and fmt, and found by these names."""
        self.put("a: 1.zip", zip_of(("x.pgn", TAGS + b"1. e4 *\n"), ("sub/y\n:1:2.pgn", KE3)))
        shown = "a: 1.zip:sub/y\\n:1:2.pgn: line 5, column 13 (byte 55): move is not legal " \
            "(game 1, Ann \u2013 Bob)\n" + KE3_LINES
        self.assertEqual(self.messages("lint --quiet", "a: 1.zip"), shown)
        self.assertTrue(self.messages("lint --json", "a: 1.zip").startswith(shown))
        out = output_of(self.call("", "a: 1.zip:sub/y\n:1:2.pgn", "55"))
        self.assertEqual(out.decode().split("\n", 1)[1], KE3_LINES + GAME)
        told = self.call("lint --quiet", command="", input=self.get("a: 1.zip")).stdout
        ran = self.call("", "a: 1.zip", input=told)
        self.assertEqual((ran.returncode, ran.stdout.decode()), (1, shown))
        self.check(self.call(input=told), 2, told, NO_FILE)
        self.check_refused(self.call("", "a: 1.zip:none.pgn", "3"), 3)

    def test_standard_input(self):
        self.check_refused(self.call("-", input=b"byte 3: move is not legal\n"), 2)
        # also by its name
        self.put("a.pgn", TAGS + b"1. e4 e9 *\n")
        script = 'cat a.pgn | "$@" /dev/stdin %d' % (len(TAGS) + 6)
        ran = run(["sh", "-c", script, "sh", sys.executable, *WHERE], cwd=self.folder)
        self.check(ran, 0, b"/dev/stdin: line 5, column 7 (byte %d)\n1. e4 e9 *\n      ^\n%s" % (
            len(TAGS) + 6, GAME.encode()))

    def test_messages_of_fmt(self):
        self.put_all({"a b.pgn": KE3, "c.pgn": TAGS + b"1. e9 *\n", "d.pgn": TAGS + b"1. e4 *\n"})
        self.assertEqual(self.messages("fmt --check", "a b.pgn", "c.pgn", "d.pgn"), (
            "a b.pgn: line 5, column 13 (byte 55): move is not legal\n" + KE3_LINES + GAME +
            "c.pgn: line 5, column 4 (byte 46): not a move\n1. e9 *\n   ^\n" + GAME + "d.pgn\n"))

    def test_a_file_of_a_message_that_cannot_be_read(self):
        """The message is passed on as it is, and the others are shown."""
        self.put("b.pgn", b"1. e9 *\n")
        told = b"none.pgn:4:13: move is not legal (game 1, ? - ?)\n" \
            b"b.pgn:9:1: move is not legal (game 1, ? - ?)\n" \
            b"b.pgn:1:20: move is not legal (game 1, ? - ?)\n" \
            b"gillspoon: b.pgn: byte 99: not a move\n"
        shown = b"b.pgn:1:4: not a move (game 1, ? - ?)\n"
        self.check(self.call(input=told + shown), 3, told + (
            b"b.pgn: line 1, column 4 (byte 3): not a move (game 1, ? - ?)\n1. e9 *\n   ^\n"),
            b"gillspoon: none.pgn: No such file or directory\ngillspoon: b.pgn: has no line 9\n"
            b"gillspoon: b.pgn: has no line 1, column 20\n"
            b"gillspoon: b.pgn: has 8 bytes, so there is no byte 99\n")

    def test_errors(self):
        self.put("a.pgn", b"*\n")
        for line, status in (
                ("a.pgn x", 2), ("a.pgn -1", 2), ("a.pgn 1 2", 2), ("a.pgn 3", 3), ("none 3", 3),
                (". 0", 3), ("none", 3), ("/dev/null 1", 3)):
            self.check_refused(self.call(line, input=b""), status)
        ran = self.call("a.pgn 0", env=dict(os.environ, GILLSPOON_LIBRARY=self.folder + "/none"))
        self.check_refused(ran, 127)
        self.assertIn(b"in the repository run bin/build_program --library", ran.stderr)

    def test_colours(self):
        self.put("a.pgn", b"1. e9 *\n")
        for when, wanted in (("always", "\x1b[1ma.pgn:\x1b[0m line 1, column 4 (byte 3): \x1b[31mno"
                              "\x1b[0m\n1. e9 *\n\x1b[32m   ^\x1b[0m\n"),
                             ("auto", "a.pgn: line 1, column 4 (byte 3): no\n1. e9 *\n   ^\n")):
            ran = self.call("a.pgn --color " + when, input=b"byte 3: no\n")
            self.assertTrue(ran.stdout.decode().startswith(wanted), ran.stdout)

