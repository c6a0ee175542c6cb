"""Tests of compressed input: each subcommand takes each kind, by a name and as standard input."""
import os
import unittest

from programs import PACKERS, Gillspoon, need, need_package, zip_of

setUpModule = need_package
# A bad game between two sound ones; what is mended of it, its place, and what BAD says of it.
SOUND = b'[White "Ada"]\n\n1. e4 e5 *\n\n'
OLD, NEW = b"1. e2-e4 e5 *\n", b"1. e2e4 e5 *\n"
TEXT = SOUND + b'[White "Bob"]\n\n' + OLD + b"\n" + SOUND
BAD = b"""%% byte 45%s: not a move; line 7
%% bytes 27 to 57, up to the next line that begins a tag section, which is a guess
""" + TEXT[27:57]
EDIT = (b"<stdin>:7:4: %s: long notation: e2-e4 \xe2\x86\x92 e2e4\n"
        b"1 file, 3 games, 0 faults, 1 edit\n")
FAULT = 1, b"<stdin>:7:4: not a move (game 2, Bob \xe2\x80\x93 ?)\n", b""
MENDED = 0, TEXT.replace(OLD, NEW), EDIT % b"fixed"
# Words of gillspoon, with @ for a file or a hyphen, and what they give.
CALLS = {
    "lint --quiet": FAULT, "lint --quiet @": FAULT, "lint --fix": MENDED, "lint --fix -": MENDED,
    "lint --quiet --fix": (*MENDED[:2], b""),
    "lint --diff @": (1, b"--- <stdin>\n+++ <stdin> mended\n@@ -4,7 +4,7 @@\n \n"
                      b' [White "Bob"]\n \n-%s+%s \n [White "Ada"]\n \n' % (OLD, NEW),
                      EDIT % b"would fix"),
    "where @ 45": (0, b"<stdin>: line 7, column 4 (byte 45)\n%s   ^\n"
                   b'game 2: White "Bob", Black "?", Event "?"\n' % OLD, b""),
    "fmt --check @": (1, b"", b"gillspoon: <stdin>: byte 45: not a move\n"),
    "sieve @ good bad": (1, b"good: 2 games\nbad: 1 bad game set aside, 30 bytes\nThe end of a bad "
                         b"game is a guess: the next line that begins a tag section.\n", b""),
}


class Compressed(Gillspoon, unittest.TestCase):
    def setUp(self):
        need("zstd")
        super().setUp()
        self.env["TMPDIR"] = self.folder + "/tmp"
        os.mkdir(self.env["TMPDIR"])

    def call(self, line, data=b""):
        """Runs the words of a line, which leave no temporary file."""
        ran = super().call(line, input=data)
        self.assertEqual(os.listdir(self.folder + "/tmp"), [])
        return ran.returncode, ran.stdout, ran.stderr

    def as_plain(self, kind, line, data, name="<stdin>"):
        """What a call gives, in the words for the plain text on standard input."""
        status, out, told = self.call(line.replace("@", "-" if name == "<stdin>" else name), data)
        # the file in a zip is named, but by where, and --fix writes an empty line behind it
        member = ":games.pgn" if kind == "zip" and "where" not in line else ""
        out, told = (it.replace((name + member).encode(), b"<stdin>") for it in (out, told))
        return status, out[:-2] if member and "--fix" in line else out, told

    def texts(self, text=TEXT):
        """The text, and what each kind makes of it."""
        return {"plain": text, **{kind: pack(text) for kind, pack in PACKERS.items()}}.items()

    def test_each_script_reads_it(self):
        """From standard input and from a file it gives what it gives for the plain text."""
        need("diff")
        sound = SOUND * 2
        exported = self.call("fmt", sound)
        self.assertEqual(exported[0], 0)
        for kind, data in self.texts():
            self.put("a.pgn." + kind, data)
            for line, said in CALLS.items():
                for name in ("<stdin>", "a.pgn." + kind) if "@" in line else ["<stdin>"]:
                    with self.subTest(kind=kind, line=line, name=name):
                        self.assertEqual(self.as_plain(kind, line, data, name), said)
                        if "sieve" in line:
                            of = " of %s:games.pgn" % name if kind == "zip" else ""
                            self.assertEqual((self.get("good"), self.get("bad")),
                                             (exported[1], BAD % of.encode()))
        for kind, data in self.texts(sound):
            self.assertEqual(self.call("fmt", data), exported, kind)
            self.assertEqual(self.call("lint", data),
                             (0, b"1 file, 2 games, 0 faults\n", b""), kind)
            # what is sound comes out plain too
            self.assertEqual(self.as_plain(kind, "lint --fix -", data)[:2], (0, sound), kind)

    def test_what_is_cut_off_is_told_without_a_temporary_name(self):
        """The status is 3, in a first line; an output that is there stays as it is."""
        for kind, pack in PACKERS.items():
            data = pack(TEXT * 50)
            for line in ("lint -", "lint --fix -", "lint --diff -", "where - 7", "fmt -",
                         "fmt -o good -", "fmt -o good sound -", "sieve - good bad"):
                self.put_all({"good": b"old", "bad": b"old", "sound": SOUND})
                with self.subTest(kind=kind, line=line):
                    status, out, told = self.call(line, data[:len(data) * 3 // 4])
                    self.assertEqual(status, 3)
                    self.assertRegex(told, rb"\Agillspoon: <stdin>: [^\s/][^\n/]*\n")
                    if kind == "gz":
                        self.assertIn(b"ended before the end-of-stream marker was reached", told)
                    self.assertEqual((self.get("good"), self.get("bad")), (b"old", b"old"), out)

    def test_no_games(self):
        """A zip without any, and bytes that are too short for a mark, or the beginning of one."""
        held = zip_of(("readme.txt", "none"))
        for line in ("lint --quiet -", "lint --quiet --fix", "where - 7", "fmt -",
                     "sieve - good bad"):
            self.assertEqual(self.call(line, held), (
                3, b"", b"gillspoon: <stdin>: has no file *.pgn inside\n"))
        for data in (b"", b"*", b"B", b"BZ", b"\x1f", b"PK\x03", b"\x28\xb5"):
            status, out, _ = self.call("lint --fix -", data)
            self.assertEqual((status, out), (int(data not in (b"", b"*")), data))
