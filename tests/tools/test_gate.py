"""Tests what bin/test calls and its status, with other commands in the place of those."""
import os
import shutil
import unittest

from programs import ROOT, Folder, run

# Notes its call and ends with 3 if it is the one that has to fail. As on a server of CI, rt has no
# verdict for a part of the crates.
COMMAND = """name=${0##*/}
echo "$name $*" >>"$LOG"
for word; do
  [ "$last" = --ready ] && : >"$word"
  last=$word
done
[ "$name $#" != 'rt 2' ] || exit 2
[ "$name" != test_tools ] || echo "SKIPPED [1] test_c.py:8: cc is missing"
[ "$name" != "$FAILS" ] || exit 3
"""
SCRIPTS = ("try_edits", "build_program", "build_page", "test_tools")


class Gate(Folder, unittest.TestCase):
    def setUp(self):
        super().setUp()
        for name in ["path/rt"] + ["bin/" + it for it in SCRIPTS]:
            self.put_script(name, COMMAND)
        shutil.copy(ROOT + "/bin/test", self.folder + "/bin")
        self.put_all(dict.fromkeys(("HANDLES", "crates.txt", "crates/low/src/lib.rt"), ""))

    def call(self, *words, fails=""):
        """The status, and the calls in the order of their names."""
        log = self.put("log", "")
        env = dict(os.environ, PATH=self.folder + "/path:" + os.environ["PATH"], LOG=log, FAILS=fails)
        ran = run([self.folder + "/bin/test", *words], env=env, timeout=60)
        self.said = ran.stdout.decode().splitlines()
        return ran.returncode, sorted(self.get("log").decode().splitlines())

    def test_calls_and_what_was_skipped(self):
        """What was skipped is named by the last lines."""
        edits = "try_edits --each-change.*"
        for words, wanted, *skipped in (
                ([], ["rt ci", edits],
                 "the library for C, the page, and the tests of the scripts"),
                (["--all"], ["build_page ", "build_program --library --proved",
                             "build_program --proved", "rt ci", "test_tools --all", edits],
                 "[1] test_c.py:8: cc is missing",
                 "wrong bodies that are not tried on each change"),
                (["--quick"], [r"rt all test --jobs \d+"],
                 "proofs from nothing, wrong bodies, and the tests of the scripts")):
            status, calls = self.call(*words)
            self.assertEqual((status, len(calls)), (0, len(wanted)), words)
            for call, form in zip(calls, wanted):
                self.assertRegex(call, "^%s$" % form)
            self.assertEqual(self.said[-len(skipped):],
                             ["bin/test: skipped: " + it for it in skipped])

    def test_status(self):
        for name in ("rt", *SCRIPTS):
            self.assertEqual(self.call("--all", fails=name)[0], 3, name)
            self.assertEqual(self.call("--quick", fails=name)[0], 3 if name == "rt" else 0, name)
        self.assertEqual(self.call("--some"), (2, []))
