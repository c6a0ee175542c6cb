"""Tests of gillspoon fmt."""
import gzip
import importlib
import os
import re
import unittest

import programs
from programs import (ROOT, Gillspoon, check_stopped, need, need_package, output_of, planted, run,
                      vectors, zip_of)

setUpModule = need_package
FMT = [ROOT + "/bin/gillspoon", "fmt"]
HEAD = programs.HEAD.replace(b'White "?"', b'White "%s"')
# Inputs, and the text that PGN 3.2 and 8 ask for.
LOOSE, TIDY = b'[White "A"] e4 e5 *', HEAD % b"A" + b"1. e4 e5 *\n\n"
BAD = b'[White "B"] e4 e9 *\n'
NO_MOVE = b"gillspoon: %s: byte 15: not a move\n"
IS_COMPRESSED = b"gillspoon: %s: is compressed, and left as it is: unpack it first\n"
# A file changes once it was read.
CHANGING = planted("""import gillspoon._fmt as fmt
found = fmt._what_is_dropped
def dropped(*words):
    open('loose.pgn', 'ab').write(b'more\\n')
    return found(*words)
fmt._what_is_dropped = dropped""")
# The export of a game without tags that White has won, by its marker.
WON = (HEAD % b"?").replace(b"*", b"1-0") + b"1. e4 1-0\n\n"


class FmtTest(Gillspoon, unittest.TestCase):
    def setUp(self):
        super().setUp()
        self.put_all({"loose.pgn": LOOSE, "tidy.pgn": TIDY, "bad.pgn": BAD})

    def call(self, line="", *names, **more):
        return super().call("fmt " + line, *names, **more)

    def piped(self, script, *words):
        """A call in a script of the shell, as "$@"."""
        return run(["sh", "-c", script, "sh", *FMT, *words], cwd=self.folder)

    def test_export(self):
        self.says("loose.pgn", 0, TIDY)
        self.says("", 0, TIDY, input=LOOSE)
        self.says("--reduced", 0, HEAD % b"?" + b"1. e4 e5 *\n\n", input=b"e4 {a} (d4) e5 *")
        # files are merged, also with a byte order mark and without an LF at the end
        self.put("mark.pgn", b"\xef\xbb\xbf" + LOOSE)
        self.says("mark.pgn loose.pgn mark.pgn", 0, TIDY * 3)
        self.says("--output all.pgn mark.pgn tidy.pgn", 0, files={"all.pgn": TIDY * 2})

    def test_compressed(self):
        """It is read by its first bytes, and --write leaves it as it is."""
        need("diff")
        self.put("packed.pgn", gzip.compress(LOOSE))
        self.says("packed.pgn", 0, TIDY)
        self.says("--checked packed.pgn", 0, TIDY)
        self.says("--check packed.pgn", 1, b"packed.pgn\n")
        self.says("--write packed.pgn", 3, b"", IS_COMPRESSED % b"packed.pgn")
        self.assertIn(b"\n+1. e4 e5 *\n", self.call("--diff packed.pgn").stdout)
        for line in ("-", "--stdin-name a", "--checked -"):
            self.says(line, 0, TIDY, input=self.get("packed.pgn"))
        self.put("packed.pgn", gzip.compress(TIDY))
        self.says("--check packed.pgn", 0)

    def test_files_of_a_zip(self):
        """Each is named, and --write leaves the zip as it is."""
        need("diff")
        names = ("loose.pgn", "bad.pgn", "tidy.pgn")
        self.put("all.zip", zip_of(*(("sub/" + it, self.get(it)) for it in names)))
        told = b"gillspoon: all.zip:sub/bad.pgn: byte 15: not a move\n"
        self.says("all.zip", 1, TIDY * 2, told)
        self.says("--check all.zip", 1, b"all.zip:sub/loose.pgn\n", told)
        self.says("--check all.zip:sub/tidy.pgn", 0)
        self.says("tidy.pgn - all.zip", 1, TIDY * 4, told, input=LOOSE)
        self.says("--write all.zip", 3, b"", IS_COMPRESSED % b"all.zip")
        self.says("-o out all.zip", 1, b"", told)
        out = output_of(self.call("--diff all.zip"), 1, told)
        self.assertTrue(out.startswith(b"--- all.zip:sub/loose.pgn\n"), out)
        self.put("none.zip", b"PK\3\4 is cut off")
        self.says("none.zip tidy.pgn", 3, TIDY, b"gillspoon: none.zip: File is not a zip file\n")

    def test_what_an_output_drops(self):
        """A line on standard error counts it, of all files together; sieve's own lines are none."""
        self.put_all({
            "a.pgn": b"{a} " + LOOSE + b"\n%b\n" + LOOSE,
            "b.pgn": b"% byte 4: bad FEN\n% bytes 0 to 7, up to the end of the file\n;c\n" + LOOSE,
            "c.pgn": LOOSE.replace(b'"]', b'"] {kept}', 1)})
        told = b"gillspoon: all.pgn: dropped "
        self.says("-o all.pgn tidy.pgn a.pgn b.pgn c.pgn", 0, b"", told + (
            b"2 comments before a game or inside a tag pair, 1 line with '%'\n"))
        self.says("-o all.pgn - c.pgn", 0, b"", told + b"5 bytes after the last game\n",
                  input=b"1. e4 * {end}")
        self.says("-o all.pgn tidy.pgn c.pgn", 0)

    def test_file_with_a_fault_adds_nothing(self):
        told = NO_MOVE % b"bad.pgn"
        self.says("loose.pgn bad.pgn tidy.pgn", 1, TIDY * 2, told)
        self.says("-o all.pgn loose.pgn bad.pgn", 1, b"", told)
        self.says("", 1, b"", NO_MOVE % b"<stdin>", input=BAD)
        self.assertEqual(sorted(os.listdir(self.folder)), ["bad.pgn", "loose.pgn", "tidy.pgn"])

    def test_output_that_is_an_input(self):
        os.symlink("loose.pgn", self.folder + "/link.pgn")
        for line in ("-o loose.pgn loose.pgn", "-o link.pgn tidy.pgn loose.pgn"):
            self.check_refused(self.call(line), 2)
        with open(self.folder + "/loose.pgn", "ab") as out:
            self.assertEqual(self.call("tidy.pgn loose.pgn", stdout=out).returncode, 2)
        self.assertEqual(self.get("loose.pgn"), LOOSE)

    def test_check(self):
        self.says("--check tidy.pgn", 0)
        self.says("--check loose.pgn tidy.pgn", 1, b"loose.pgn\n")
        # a prefix, a longer text, a mark and CRLF are not export format
        for name, text in (("short.pgn", TIDY[:-1]), ("long.pgn", TIDY + b"\n"),
                           ("mark.pgn", b"\xef\xbb\xbf" + TIDY),
                           ("crlf.pgn", TIDY.replace(b"\n", b"\r\n"))):
            self.put(name, text)
            self.says("--check %s tidy.pgn" % name, 1, name.encode() + b"\n")
        # a file that stops at a fault is no export, also where all before the fault is
        self.put("torn.pgn", TIDY + HEAD % b"A" + b"1. e4 e9\n")
        self.says("--check torn.pgn loose.pgn", 1, b"loose.pgn\n",
                  b"gillspoon: torn.pgn: byte %d: not a move\n" % (len(TIDY + HEAD) - 1 + 6))

    def test_write(self):
        before = os.stat(self.folder + "/tidy.pgn")
        self.says("--write loose.pgn bad.pgn tidy.pgn", 1, b"loose.pgn\n", NO_MOVE % b"bad.pgn",
                  files={"loose.pgn": TIDY, "bad.pgn": BAD, "tidy.pgn": TIDY})
        after = os.stat(self.folder + "/tidy.pgn")
        self.assertEqual((after.st_ino, after.st_mtime_ns), (before.st_ino, before.st_mtime_ns))
        self.says("--write loose.pgn", 0)
        self.assertEqual(sorted(os.listdir(self.folder)), ["bad.pgn", "loose.pgn", "tidy.pgn"])
        # the mode and a link stay
        far = self.put("sub/far.pgn", LOOSE)
        os.chmod(far, 0o604)
        os.symlink("sub/far.pgn", self.folder + "/near.pgn")
        self.says("-w near.pgn", 0, b"near.pgn\n", files={"sub/far.pgn": TIDY})
        self.assertEqual(os.readlink(self.folder + "/near.pgn"), "sub/far.pgn")
        self.assertEqual(os.stat(far).st_mode & 0o777, 0o604)
        self.assertEqual(os.listdir(self.folder + "/sub"), ["far.pgn"])

    def test_write_keeps_a_file_that_changed_meanwhile(self):
        ran = run([*CHANGING, "fmt", "-w", "loose.pgn"], cwd=self.folder)
        told = b"gillspoon: loose.pgn: changed while it was read; it is left as it is\n"
        self.check(ran, 3, b"", told, {"loose.pgn": LOOSE + b"more\n"})

    def test_diff(self):
        need("diff")
        self.says("--diff tidy.pgn", 0)
        self.put("near.pgn", TIDY.replace(b"1. e4", b"1.e4"))
        self.says("--diff bad.pgn", 1, b"", NO_MOVE % b"bad.pgn")
        out = self.call("--diff --color always near.pgn").stdout
        self.assertIn(b"\x1b[31m-1.e4 e5 *\x1b[0m\n\x1b[32m+1. e4 e5 *\x1b[0m\n", out)
        plain = re.sub(rb"\x1b\[\d+m", b"", out)
        for words in ("tidy.pgn", "--color auto", "--color never"):
            self.says("-d %s near.pgn" % words, 1, plain)
        self.assertEqual(self.call("--diff --color on near.pgn").returncode, 2)

    def test_checked_is_handed_on(self):
        self.put("won.pgn", b"1. e4 1-0")
        self.says("won.pgn", 1, b"",
                  b"gillspoon: won.pgn: byte 6: result differs from the Result tag\n")
        self.says("--checked won.pgn", 0, WON)
        for line in ("--checked", "--checked -"):
            self.says(line, 0, WON, input=b"1. e4 1-0")

    def test_errors(self):
        for status, lines in (
                (2, ("--check", "--write", "--diff", "--chek tidy.pgn", "--drop tidy.pgn",
                     "--check --drop tidy.pgn", "--stdin-name x tidy.pgn",
                     "--stdin-name x --write", "--stdin-name", "--check --write tidy.pgn")),
                (3, ("none.pgn", "--write none.pgn", "--check none.pgn", "--diff none.pgn",
                     "--output none/a tidy.pgn"))):
            for line in lines:
                self.check_refused(self.call(line), status)

    def test_a_lack_of_memory(self):
        """A comment is held as a whole, so that a game of any length needs memory."""
        self.put("long.pgn", b"1. e4 {" + b"a word " * (1 << 24))
        self.check(self.piped('ulimit -v 250000; exec "$@"', "--check", "long.pgn"), 3, b"",
                   b"gillspoon: out of memory\n")

    def test_streams(self):
        script = 'cat loose.pgn | "$@" /dev/stdin'
        self.check(self.piped(script), 0, TIDY)
        self.check(self.piped(script, "--check"), 1, b"/dev/stdin\n")

    def test_standard_input_by_a_name(self):
        """It can be checked and compared, and read twice for --checked."""
        need("diff")
        name = ["--stdin-name", "a b.pgn"]
        self.says("", 0, TIDY, names=name, input=LOOSE)
        self.says("--check", 0, names=name, input=TIDY)
        self.says("--check", 1, b"a b.pgn\n", names=name, input=LOOSE)
        for line in ("", "--check", "--diff"):
            self.says(line, 1, b"", NO_MOVE % b"a b.pgn", name, input=BAD)
        out = output_of(self.call("--diff", *name, input=LOOSE), 1)
        self.assertEqual(out.split(b"\n")[:2], [b"--- a b.pgn", b"+++ a b.pgn in export format"])
        self.says("--checked", 0, WON, names=name, input=b"1. e4 1-0")
        self.says("-o all.pgn", 0, names=name, input=LOOSE, files={"all.pgn": TIDY})

    def test_standard_input_among_files(self):
        self.says("tidy.pgn -", 0, TIDY * 2, input=LOOSE)
        self.says("--check - tidy.pgn", 1, b"<stdin>\n", input=LOOSE)
        self.says("--stdin-name a --check -", 1, b"a\n", input=LOOSE)
        self.says("-o all.pgn - loose.pgn", 0, input=TIDY, files={"all.pgn": TIDY * 2})
        for line in ("- -", "--write -", "--stdin-name a - tidy.pgn"):
            self.check_refused(self.call(line, input=LOOSE), 2)

    def test_write_refuses_a_read_only_file(self):
        """Also as root, whom permissions do not bind. What is in form has nothing to write."""
        for name in ("loose.pgn", "tidy.pgn"):
            os.chmod(os.path.join(self.folder, name), 0o444)
        self.says("--write loose.pgn tidy.pgn", 3, files={"loose.pgn": LOOSE},
                  told=b"gillspoon: loose.pgn: is read-only; it is left as it is\n")
        os.chmod(self.folder + "/loose.pgn", 0o644)
        self.says("--write loose.pgn", 0, b"loose.pgn\n")
        # hard links keep the old text, and are counted
        self.put("loose.pgn", LOOSE)
        os.link(self.folder + "/loose.pgn", self.folder + "/other.pgn")
        self.says("--write loose.pgn", 0, b"loose.pgn\n", (
            b"gillspoon: loose.pgn: had 2 hard links: those of other names keep the old text\n"),
            files={"loose.pgn": TIDY, "other.pgn": LOOSE})
        os.link(self.folder + "/loose.pgn", self.folder + "/third.pgn")
        self.says("--write loose.pgn", 0)

    def test_write_drops_nothing_by_itself(self):
        """What has no place in export format is counted, and dropped with --drop alone."""
        two = b"2 comments before a game or inside a tag pair"
        for text, kept, what in (
                (b"{a} [White {; b} \"A\"] e4 e5 *", b"", two),
                (b"; a\n;b\n" + LOOSE, b"", two),
                (b'[White "A"] e4\n%c\n{% d\n%e} e5 *', b" { % d %e } 1...", b"1 line with '%'"),
                (b"%a\n" + LOOSE + b"\n%b\n", b"", b"1 line with '%', 2 bytes after the last game"),
                (LOOSE + b" {ab}\n;c\n", b"", b"7 bytes after the last game")):
            with self.subTest(text):
                self.put("a.pgn", text)
                self.says("--write a.pgn", 3, b"", (
                    b"gillspoon: a.pgn: is left as it is: export format has no place for %s "
                    b"(--diff shows them, --drop drops them)\n" % what), files={"a.pgn": text})
                self.says("--write --drop a.pgn", 0, b"a.pgn\n",
                          b"gillspoon: a.pgn: dropped %s\n" % what,
                          files={"a.pgn": TIDY.replace(b"1. e4", b"1. e4" + kept)})
        # what is kept is no reason to refuse
        self.put("a.pgn", b'\xef\xbb\xbf[White "{; A"] {a} e4 ; b {\n ({c}d4) *\n\n')
        self.says("--write a.pgn", 0, b"a.pgn\n")

    def test_signal_leaves_the_file(self):
        self.put("loose.pgn", LOOSE * 200000)
        check_stopped(self, [*FMT, "-w", "loose.pgn"])

    def test_a_folder(self):
        """Its files are found as gillspoon lint finds them; names and paths can be left out."""
        for name in ("all/loose.pgn", "all/old/bad.pgn", "all/old/loose.PGN", "all/x.txt"):
            self.put(name, BAD if "bad" in name else LOOSE)
        told = NO_MOVE % b"all/old/bad.pgn"
        both = b"all/loose.pgn\nall/old/loose.PGN\n"
        self.says("all", 1, TIDY * 2, told)
        self.says("--check all", 1, both, told)
        self.says("--check --exclude bad* all", 1, both)
        for glob in ("old", "old/*", "o?d"):
            self.says("--check all --exclude " + glob, 1, b"all/loose.pgn\n")
        self.says("--check --exclude old --exclude *.pgn all tidy.pgn", 3, b"", (
            b"gillspoon: all: has no file *.pgn, also with .gz, .bz2, .xz, .zst or .zip after "
            b"it\n"))
        # what is named is read
        self.says("--check --exclude * loose.pgn", 1, b"loose.pgn\n")
        self.says("--write all", 1, both, told)
        self.says("--check all", 1, b"", told)

    def test_processes_change_nothing(self):
        need("diff")
        for at in range(5):
            self.put("all/%d.pgn" % at, LOOSE.replace(b"A", b"%d" % at) * (at + 1))
        self.put("all/3.pgn", BAD)
        before = {"all/" + it: self.get("all/" + it) for it in os.listdir(self.folder + "/all")}
        for line in ("all loose.pgn -", "--check all loose.pgn -", "--diff all loose.pgn -",
                     "-o out all loose.pgn -", "--write all all"):
            answers = []
            for jobs in "14":
                self.put_all(before)
                ran = self.call("%s -j %s" % (line, jobs), input=LOOSE)
                answers.append((ran.returncode, ran.stdout, ran.stderr))
            self.assertEqual(answers[0], answers[1], line)
            self.assertEqual(answers[0][0], 1, line)
            self.assertIn(NO_MOVE % b"all/3.pgn", answers[0][2])
        self.assertEqual(self.get("all/4.pgn"), (HEAD % b"4" + b"1. e4 e5 *\n\n") * 5)

    def test_it_is_the_export_of_the_program(self):
        """Of the worked inputs it gives the bytes and the faults of pgn_tool, which reads each."""
        from gillspoon._kinds import other_kind
        inputs = [(it["mode"], it["input"].encode()) for it in vectors()]
        for mode, words in (("full", []), ("full", ["--checked"]), ("reduced", ["--reduced"])):
            texts, told, tried = b"", b"", [0, 0]
            folder = "vectors%d" % len(words) + mode
            for at, data in enumerate(it for found, it in inputs if found == mode):
                if not other_kind(data):
                    name = "%s/%04d.pgn" % (folder, at)
                    self.put(name, data)
                    ran = run([self.program, "export", *words, name], cwd=self.folder)
                    tried[ran.returncode] += 1
                    if ran.returncode:
                        told += b"gillspoon: %s: %s" % (name.encode(), ran.stderr)
                    else:
                        texts += ran.stdout
            self.says(" ".join([*words, folder]), 1, texts, told)
            self.assertGreater(min(tried), 5)


class LeftOut(unittest.TestCase):
    """What is counted as left out, against what the export has."""

    def setUp(self):
        self.package = need_package()
        self.left_out = importlib.import_module("gillspoon._left_out").left_out

    def test_exports_have_nothing_that_is_left_out(self):
        for vector in vectors():
            if "fault" not in vector and vector["output"].count("\n[") < 64:
                is_reduced = vector["mode"] == "reduced"
                found = self.left_out(vector["output"].encode(), False, is_reduced)
                self.assertEqual(found, (0, 0, 0), vector["file"])

    def test_a_part_put_anywhere(self):
        """A comment or an escape line is put at each place of an input that stays sound with it.

        It is counted exactly if the export does not have it.
        """
        tried = {True: 0, False: 0}
        for vector in vectors():
            text = vector["input"].encode()
            if "fault" not in vector and vector["mode"] == "full" and len(text) <= 300:
                before = self.left_out(text, False, False)
                for at in range(len(text) + 1):
                    # in a comment that is left out a part is no comment of its own
                    if self.is_kept(text[:at] + b" zqz " + text[at:]) is not False:
                        for part in (b"{zqz}", b";zqz\n", b"\n%zqz\n"):
                            self.check(text[:at] + part + text[at:], part, before, tried)
        self.assertGreater(min(tried.values()), 1000)

    def is_kept(self, text):
        """Whether the export of a text has the word; None if there is no export."""
        try:
            return b"zqz" in self.package.convert(text)
        except self.package.PgnFault:
            return None

    def check(self, text, part, before, tried):
        is_kept = self.is_kept(text)
        if is_kept is None:
            return
        after = self.left_out(text, False, False)
        tried[is_kept] += 1
        self.assertEqual(after == before, is_kept, (text, before, after))
        if not is_kept and after.behind == before.behind:
            more = after.comments - before.comments, after.escapes - before.escapes
            self.assertEqual(more, (0, 1) if b"%" in part else (1, 0), (text, before, after))
