"""Tests of bin/test_tools, on made tests that pass, fail and are skipped."""
import os
import re
import shutil
import unittest

from programs import ROOT, Folder, run

MIXED = """
import unittest
class Mixed(unittest.TestCase):
    def test_fails(self): self.fail("because of this")
    def test_has_an_error(self): raise OSError("no such device")
    def test_passes(self): pass
    def test_skipped(self): self.skipTest("tool is missing")
    def test_parts(self):
        for part in range(3):
            with self.subTest(part=part):
                self.assertEqual(part, 1)
    def test_skipped_in_a_part(self):
        with self.subTest("part"):
            self.skipTest("part is missing")
    @unittest.expectedFailure
    def test_unexpected(self): pass
"""
SKIPPED = """
import unittest
class Class(unittest.TestCase):
    @classmethod
    def setUpClass(cls): raise unittest.SkipTest("server is missing")
    def test_one(self): pass
class Other(unittest.TestCase):
    def test_passes(self): pass
"""
MODULE = """
import os, unittest
def setUpModule():
    unittest.addModuleCleanup(os.environ.pop, "MADE_BY_A_MODULE")
    assert os.environ.setdefault("MADE_BY_A_MODULE", __name__) == __name__
class One(unittest.TestCase):
    def test_passes(self): pass
"""


class TestToolsTest(Folder, unittest.TestCase):
    def setUp(self):
        super().setUp()
        for path in ("bin/test_tools", "tests/tools/conftest.py", "tests/tools/pytest.ini"):
            shutil.copy(os.path.join(ROOT, path), self.put(path, ""))

    def call(self, *words):
        """The status, the output, and its last line without the time."""
        ran = run([self.folder + "/bin/test_tools", *words], cwd="/")
        self.assertEqual(ran.stderr, b"")
        shown = ran.stdout.decode()
        return ran.returncode, shown, re.sub("^=+ | in .*", "", shown.splitlines()[-1])

    def check_failed(self, why, *words):
        status, shown, _ = self.call(*words)
        self.assertNotEqual(status, 0)
        self.assertIn(why, shown)

    def test_counts(self):
        self.put("tests/tools/test_mixed.py", MIXED)
        status, shown, counts = self.call("-n2")
        self.assertEqual((status, counts), (1, "5 failed, 2 passed, 2 skipped"))
        for word in ("FAILED tests/tools/test_mixed.py::Mixed::test_fails",
                     "FAILED tests/tools/test_mixed.py::Mixed::test_unexpected",
                     "SUBFAIL tests/tools/test_mixed.py::Mixed::test_parts",
                     "Mixed.test_parts (part=0)", "Mixed.test_parts (part=2)",
                     "AssertionError: because of this", "OSError: no such device",
                     "tool is missing", "part is missing"):
            self.assertIn(word, shown)

    def test_a_skipped_test_is_no_success(self):
        self.put("tests/tools/test_skipped.py", SKIPPED)
        for words, wanted in ((["-n0"], 0), (["--all", "-n0"], 1),
                              (["--all", "-n2", "skipped"], 1)):
            status, shown, counts = self.call(*words)
            self.assertEqual((status, counts), (wanted, "1 passed, 1 skipped"))
            self.assertRegex(shown, r"\nSKIPPED .*: server is missing\n.*\n$")
        self.put("tests/tools/test_skipped.py",
                 "import unittest\nraise unittest.SkipTest('it is missing')\n")
        status, shown, counts = self.call("--all", "-n0")
        self.assertEqual((status, "it is missing" in shown, counts), (1, True, "1 skipped"))

    def test_names(self):
        self.put("tests/tools/test_one.py", "raise OSError('cannot be loaded')\n")
        self.put("tests/tools/test_two.py", MODULE)
        self.put("tests/tools/test_three.py", MODULE)
        self.assertEqual(self.call("--all", "two", "three", "-n0")[::2], (0, "2 passed"))
        for words in ([], ["-n2", "two", "one"]):
            self.check_failed("cannot be loaded", *words)
        self.check(run([self.folder + "/bin/test_tools", "two", "four"]),
                   2, b"", b"bin/test_tools: there is no tests/tools/test_four.py\n")

    def test_nothing_that_passes(self):
        self.check_failed("", "-n0")
        self.put("tests/tools/test_two.py", MODULE)
        self.put("tests/tools/test_none.py", "import unittest\n")
        for word in ("-n0", "-n2"):
            self.check_failed("it has no test", word)
