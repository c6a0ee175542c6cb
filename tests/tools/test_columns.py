"""Tests of bin/check_columns, and of the repository by it."""
import sys
import unittest

from programs import ROOT, Folder, run

URL = "https://example.org/" + "a" * 90
DEFINITIONS = "-- LONG\n-- FULL\nabbrev pub A : CODE\nA = b  -- LONG\na--CODE"
SCRIPT = ('#!/usr/bin/env python3\n"""First.\n\nLONG\n"""\n# LONG\nA = '#CODE'\ndef f():\n'
          '    """LONG"""\n    return 1  # LONG\n    return 1  # FULL\nCODE')
OTHER = "# CODE\n// CODE"
# Files, whose lines with LONG are too long.
FILES = {
    # prose, whose columns are characters
    "docs/A.md": "FULL\nLONG\n\n- LONG\n# LONG\nFULL URL\n[text](URL)\nLONG URL",
    # tables and blocks of code
    "A.md": "| CODE |\n\n    CODE\n\n```sh\nCODE\n``\n```\nLONG\n~~~\n```\nCODE\n~~~\nLONG",
    # a line that goes on is prose
    "B.md": "1. first\n    LONG",
    "crates/a/src/b/c.rt": '// LONG\n/// FULL\n    //! LONG\nconst A: &[u8] = b"// CODE";\n'
                           "let a = 1; // LONG\nghost use Rattle.CODE;\nfn CODE() {}",
    "crates/a/src/a.rt": "fn a() -> u8\n    requires some { LONG }\n    ensures { result\n"
                         "        LONG }\n    ensures* after { P }\n{\n    CODE\n}\n"
                         "    ghost view = { λ c. record {\n      LONG\n    } LONG };\n    CODE",
    "crates/a/specs/A.antt": DEFINITIONS,
    "crates/a/proofs/b/A.antt": DEFINITIONS,
    "bin/tool": SCRIPT,
    "tests/b/c.py": SCRIPT,
    "tests/d.py": '"""LONG"""',
    "bench/run": "#!/bin/sh\n# LONG\necho CODE\na  # LONG",
    # other files
    "bin/sample": OTHER, "edits/a.edits": OTHER, "crates/a/out/src/a.rt": OTHER, "out/B.md": OTHER,
    "bench/out/a.sh": OTHER, "share/a.sh": OTHER, "a.txt": OTHER,
}


def filled(line):
    """The line with FULL, LONG and CODE as words up to 100, 101 and 150 columns before a URL."""
    line, *url = line.split("URL")
    for word, columns in ("FULL", 100), ("LONG", 101), ("CODE", 150):
        line = line.replace(word, ("wörd " * 30)[:columns - len(line) + len(word)])
    return URL.join([line, *url])


class Columns(Folder, unittest.TestCase):
    def check(self, *words):
        ran = run([sys.executable, ROOT + "/bin/check_columns", *words])
        return ran.returncode, ran.stdout.decode(), ran.stderr.decode()

    def test_the_long_lines_of_each_file(self):
        self.put("bin/bytes", b"#!/bin/sh\n\xff")
        places = ""
        for name, text in sorted(FILES.items()):
            lines = text.split("\n")
            self.put(name, "\n".join(map(filled, lines)))
            places += "".join("%s:%d: 101 columns\n" % (name, number)
                              for number, line in enumerate(lines, 1) if "LONG" in line)
        self.assertEqual(self.check(self.folder), (1, places, ""))

    def test_nothing_is_too_long(self):
        """In the repository, and in an empty folder."""
        self.assertEqual(self.check(), (0, "", ""))
        self.assertEqual(self.check(self.folder), (0, "", ""))

    def test_the_words_of_the_call(self):
        for words in (("a", "b"), (self.folder + "/none",), ("--check",)):
            status, shown, said = self.check(*words)
            self.assertEqual((status, shown), (2, ""), words)
            self.assertIn("check_columns: error: ", said)
        status, shown, said = self.check("--help")
        self.assertEqual((status, said), (0, ""))
        self.assertIn("100 columns", shown)
