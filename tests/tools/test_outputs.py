"""An output that is there keeps its bytes until the input was read and understood.

Each script and option that writes a file is tried with inputs that are bad, cut off, of another
kind, or missing. bin/pgn_conform is tried by test_vectors, and bin/to_cargo by test_cargo.
"""
import os
import shlex
import unittest

import programs
from programs import (OTHER_KINDS, PACKERS, ROOT, Folder, library, need, need_program, run,
                      without_rights)

SOUND = b'[White "Ada"]\n\n1. e4 e5 *\n\n'
BAD = b'[White "Bob"]\n\n1. e4 e9 *\n\n'
OLD = b'[White "Old"]\n\n1. d4 *\n\n'
# What is no text of games.
OTHERS = ("mark.pgn", "picture.pgn", "seven.pgn", "tape.pgn", "guide.pgn", "page.pgn")
SAID = {it: OTHER_KINDS[it][1].encode() for it in OTHERS}
NO_STREAM = ["missing.pgn", "folder", "not.pgn.gz"]
UNREADABLE = NO_STREAM + ["cut.pgn." + it for it in PACKERS]
WITHOUT_LIBRARY = {"GILLSPOON_LIBRARY": "/none"}


class Kept(Folder, unittest.TestCase):
    """A test with a folder of inputs."""

    def setUp(self):
        need("zstd")
        super().setUp()
        self.env = dict(os.environ, PATH=programs.PATH, GILLSPOON_LIBRARY=library(),
                        LC_ALL="C.UTF-8")
        self.put_all({it: OTHER_KINDS[it][0] for it in OTHERS})
        self.put_all({"cut.pgn." + kind: pack(SOUND * 99)[:-30] for kind, pack in PACKERS.items()})
        self.put_all({"not.pgn.gz": SOUND, "empty.pgn": b"", "words.pgn": b"% none\n\n",
                      "bad.pgn": SOUND + BAD, "sound.pgn": SOUND})
        os.mkdir(self.folder + "/folder")

    def call(self, line, env=(), **more):
        """Runs a script of bin/, or gillspoon with a subcommand."""
        words = shlex.split(line)
        if words[0] != "build_page":
            words.insert(0, "gillspoon")
        words[0] = ROOT + "/bin/" + words[0]
        return run(words, cwd=self.folder, env={**self.env, **dict(env)}, **more)

    def stays(self, status, name, *lines, env=()):
        """Each call ends with a status and one line, each output stays, and no file is added.

        NAME is a file, whose text is standard input at the end of a line with `<`.
        """
        for line in lines:
            text = self.get(name) if line.endswith("<") else None
            outputs = {it: OLD for it in line.split() if it in ("out", "good", "bad")}
            self.put_all(outputs)
            before = sorted(os.listdir(self.folder))
            ran = self.call(line.replace("NAME", name).rstrip("<"), env, input=text)
            with self.subTest(line, name=name):
                self.check_refused(ran, status)
                self.assertEqual({it: self.get(it) for it in outputs}, outputs)
                self.assertEqual(sorted(os.listdir(self.folder)), before)

    def check_file(self, name, text, status, line, env=()):
        """A call ends so, and leaves a file with this text."""
        ran = self.call(line, env)
        self.assertEqual((ran.returncode, self.get(name)), (status, text), (line, ran.stderr))


class Format(Kept):
    """gillspoon fmt --output and --write."""

    def test_output(self):
        for name in [*UNREADABLE, *OTHERS, "bad.pgn"]:
            status = 1 if name == "bad.pgn" else 3
            self.stays(status, name, "fmt -o out NAME", "fmt -o out sound.pgn NAME",
                       "fmt --checked --output out NAME")
            if name not in NO_STREAM:
                self.stays(status, name, "fmt -o out - <", "fmt -o out <")

    def test_output_of_no_game(self):
        """A filter that failed gives none. An output that is not there is made."""
        self.stays(3, "empty.pgn", "fmt -o out NAME", "fmt -o out NAME words.pgn", "fmt -o out - <")
        self.stays(3, "words.pgn", "fmt -o out NAME")
        self.assertEqual(self.call("fmt -o out empty.pgn").stderr,
                         b"gillspoon: out: is left as it is: the input has no game\n")
        for name in ("new", "new", "/dev/null"):
            self.assertEqual(self.call("fmt -o %s empty.pgn" % name).returncode, 0)
        self.assertEqual(self.get("new"), b"")

    def test_write(self):
        for name in [*UNREADABLE[2:], *OTHERS, "bad.pgn"]:
            text, copy = self.get(name), name if name in UNREADABLE else "copy"
            self.put(copy, text)
            self.check_file(copy, text, 1 if name == "bad.pgn" else 3, "fmt --write --drop " + copy)
        # comments alone would leave an empty file
        self.put("copy", b"{only} ; this\n")
        self.check_file("copy", b"{only} ; this\n", 3, "fmt --write copy")

    def test_what_is_said_of_other_kinds(self):
        """In the words of gillspoon sieve, whatever is asked for."""
        for name, said in SAID.items():
            for words in ("", "--check", "--write", "--diff", "--checked"):
                ran = self.call("fmt %s sound.pgn %s" % (words, name))
                self.assertIn(b"gillspoon: %s: %s\n" % (name.encode(), said), ran.stderr)
                self.assertEqual(ran.returncode, 3)
            self.check(self.call("fmt --check -", input=self.get(name)),
                       3, b"", b"gillspoon: <stdin>: %s\n" % said)

    def test_the_name_of_a_packed_file_is_said_once(self):
        self.check(self.call("fmt --check not.pgn.gz"), 3, b"",
                   b"gillspoon: not.pgn.gz: Not a gzipped file (b'[W')\n")


class Sieve(Kept):
    """gillspoon sieve FILE GOOD BAD."""

    def test_what_cannot_be_read_or_is_no_text(self):
        """Also with outputs that are not there: none is made."""
        for name in [*UNREADABLE, *OTHERS]:
            self.stays(3, name, "sieve NAME good bad", "sieve --checked NAME good bad",
                       "sieve NAME good2 bad2")
            if name not in NO_STREAM:
                self.stays(3, name, "sieve - good bad <")
        for name, said in SAID.items():
            self.assertEqual(self.call("sieve %s good bad" % name).stderr,
                             b"gillspoon: %s: %s; nothing was written\n" % (name.encode(), said))
        # a file that is damaged further down has games
        self.put("torn.pgn", SOUND + b"\0" * 600 + b"\n\n" + SOUND)
        ran = self.call("sieve torn.pgn good bad")
        self.assertEqual((ran.returncode, ran.stdout.splitlines()[0]), (1, b"good: 2 games"))

    def test_no_game(self):
        for name in ("empty.pgn", "words.pgn"):
            self.stays(3, name, "sieve NAME good bad", "sieve NAME /dev/null bad",
                       "sieve - good bad <")
        self.assertEqual(self.call("sieve empty.pgn good bad").stderr,
                         b"gillspoon: empty.pgn: has no game; good is left as it is\n")
        for _ in range(2):
            self.check_file("good2", b"", 0, "sieve empty.pgn good2 bad2")
            self.assertEqual(self.get("bad2"), b"")

    def test_all_games_are_bad(self):
        """That is understood: the old text goes."""
        self.put_all({"all.pgn": BAD * 2, "good": OLD, "bad": OLD})
        self.check_file("good", b"", 1, "sieve all.pgn good bad")
        self.assertEqual(self.get("bad").count(BAD), 2)


class Rest(Kept):
    def test_lint_fix(self):
        """Its output is its input."""
        for name in [*UNREADABLE[2:], *OTHERS, "empty.pgn", "words.pgn", "sound.pgn", "bad.pgn"]:
            status = 1 if name == "bad.pgn" else 3 if name in [*UNREADABLE, *OTHERS] else 0
            for words in ("--fix", "--fix --unsafe-fixes --ignore 'trailing text'"):
                self.check_file(name, self.get(name), status, "lint --quiet %s %s" % (words, name))

    def test_without_a_library(self):
        self.stays(127, "bad.pgn", "fmt -o out sound.pgn", "sieve NAME good bad", "lint NAME",
                   env=WITHOUT_LIBRARY)
        ran = self.call("lint --fix bad.pgn", WITHOUT_LIBRARY)
        self.check_refused(ran, 127)
        self.assertIn(b"/none cannot be used", ran.stderr)
        self.check_file("bad.pgn", SOUND + BAD, 127, "lint --fix bad.pgn", WITHOUT_LIBRARY)
        self.check_file("sound.pgn", SOUND, 127, "fmt --write sound.pgn", WITHOUT_LIBRARY)

    def test_split(self):
        """pgn_tool replaces the file of a game once its movetext has begun."""
        os.mkdir(self.folder + "/out")
        self.put("letters.pgn", OTHER_KINDS["tape.pgn"][0].replace(b"2026.pgn", b"many.pgn"))
        # it takes a name for nothing: what is compressed is another text to it, and a PDF, and an
        # archive with such a name, begin with a number
        for name in [it for it in [*UNREADABLE, *OTHERS, "letters.pgn", "empty.pgn", "words.pgn"]
                     if it not in ("not.pgn.gz", "guide.pgn", "tape.pgn")]:
            self.put("out/000001.pgn", OLD)
            run([need_program(), "split", "out", name], cwd=self.folder)
            self.assertEqual((self.get("out/000001.pgn"), os.listdir(self.folder + "/out")),
                             (OLD, ["000001.pgn"]), name)

    def test_a_page_with_a_module_that_is_none(self):
        for name in ("missing.pgn", "folder", "sound.pgn", "empty.pgn"):
            self.stays(1, name, "build_page --module NAME out")

    def test_without_permission_to_read(self):
        os.chmod(self.folder, 0o777)
        os.chmod(self.folder + "/sound.pgn", 0)
        for line in ("sieve sound.pgn good bad", "fmt -o good sound.pgn"):
            for name in ("good", "bad"):
                os.chmod(self.put(name, OLD), 0o666)
            user = without_rights(self, need_program())[:-1]
            words = [*user, ROOT + "/bin/gillspoon", *line.split()]
            ran = run(words, cwd=self.folder, env=self.env)
            self.assertEqual((ran.returncode, self.get("good"), self.get("bad")), (3, OLD, OLD),
                             ran.stderr)
