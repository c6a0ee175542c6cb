"""Tests of bin/try_allocations: on the program, and on one that gives wrong answers."""
import contextlib
import io
import os
import subprocess
import unittest

from programs import Folder, load, need, need_proved_program, output_of, run

# Without memory for its second block it forgets its line; without the first it says so.
FORGETFUL = """
#include <stdio.h>
#include <stdlib.h>
int main(void) {
  char *first = malloc(100), *second;
  if (!first) return fputs("out of memory\\n", stderr), 3;
  second = realloc(first, 200);
  if (second) fputs("line\\n", stdout);
  return 0;
}
"""


class AllocationsTest(Folder, unittest.TestCase):
    def setUp(self):
        need("cc")
        super().setUp()

    def test_all_calls_of_the_program_and_one(self):
        need_proved_program()
        lines = output_of(run(["bin/try_allocations"])).decode().splitlines()
        self.assertEqual(len(lines), 16)
        for line in lines:
            self.assertRegex(line, r"^.*: \d+ refusals, [1-9]\d* reported, 0 wrong$")
        out = output_of(run(["bin/try_allocations", "check"], input=b"* *"), err=None)
        self.assertRegex(out, rb"^check: \d+ refusals, \d+ reported, 0 wrong\n$")

    def test_wrong_answer_is_noticed(self):
        source, program = self.put("a.c", FORGETFUL), self.folder + "/a"
        subprocess.run(["cc", "-O0", "-o", program, source], check=True)
        module = load("bin/try_allocations")
        module.BUILT = program
        with contextlib.redirect_stdout(io.StringIO()) as text:
            call = module.Call(module.build(self.folder), self.folder, ["a"], b"")
            # one by itself, and one with all that come after it
            self.assertEqual(module.try_call(call), 2)
        for more in ("", " and all after it"):
            self.assertIn("a: wrong with allocation 2 refused%s: (0, b'', b''), files []" % more,
                          text.getvalue())

    def test_no_compiler(self):
        need_proved_program()
        ran = run(["bin/try_allocations"], env=dict(os.environ, CC="/missing/cc"))
        self.assertEqual((ran.returncode, ran.stdout), (2, b""))
        self.assertIn(b"no C compiler", ran.stderr)
