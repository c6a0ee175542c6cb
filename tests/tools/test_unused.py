"""Tests of bin/unused."""
import os
import re
import shutil
import sys
import unittest

from programs import ROOT, Folder, bytes_of, need, need_module, run

TOKEN = "crates/pgn_lexer/src/token.rt"
TOKENS = "crates/pgn_lexer/specs/Tokens.antt"
SUMS = "crates/pgn_lexer/proofs/Sums.antt"
ANSWERS = "crates/pgn_lexer/proofs/token/sum_of/Answers.antt"
WORDS = "crates/pgn_lexer/proofs/Words.antt"
# A small repository in which everything is used.
FILES = {
    "crates/pgn_lexer/src/lib.rt": "mod token;\npub use token::{Token, count_of};\n",
    "crates/pgn_tool/src/main.rt": "checked!(ROOM);\n\nconst ROOM: u8 = 1;\n\n"
                                   "fn main() {\n    start()\n}\n\nfn start() {}\n\n"
                                   "#[test]\nfn it_starts() {}\n",
    TOKEN: """ghost use Rattle.pgn_lexer.specs.Tokens.{Token as Seen, total};

pub struct Token {
    len: usize,
}

impl Model for Token {
    ghost Value = { Seen };
}

impl Token {
    pub fn len(&self) -> usize {
        self.len.min(MOST)
    }
}

const MOST: usize = 255;

pub fn count_of(tokens: &[Token]) -> usize
    ensures { result ≡ total tokens.now }
{
    sum_of(tokens)
}

#[tactic(auto, using(crate::proofs::Sums::sums))]
fn sum_of(tokens: &[Token]) -> usize {
    tokens.iter().map(|it| it.len()).sum()
}
""",
    TOKENS: """use Rattle.std.specs.Prelude.{ℕ, List}

pub record Token : Type 0 where
  pub len : ℕ

abbrev pub total : List Token → ℕ
total [] = 0
total (t ∷ ts) = t.len ⊕ total ts

◌⊕◌ : ℕ → ℕ → ℕ
m ⊕ n = m + n
""",
    SUMS: """use Rattle.pgn_lexer.specs.Tokens.{Token, total}

nothing : (n : ℕ) → 0 + n ≡ n
nothing n = omega arith

-- a set of lemmas that an attribute names
nothing_behind : (n : ℕ) → n + 0 ≡ n
nothing_behind n = omega arith

pub ruleset sums = (nothing_behind, arith)

module _ (ts : List Token)
    (small : total ts < 9) where
  pub total_small : total ts < 10
  total_small = omega (arith, small, nothing (total ts))
""",
    ANSWERS: """use Rattle.pgn_lexer.proofs.Sums.{total_small}
use Rattle.pgn_lexer.proofs.token.sum_of.Goals as goal

pub returns : goal.returns
returns c = small c

small : (c : goal.Context) → total c.ts < 10
small c = total_small c.ts c.is
""",
    "bin/tool": """#!/usr/bin/env python3
import shared
print(shared.value())
""",
    "bin/shared.py": """WORDS = 3

def value():
    return Made().size()

class Made:
    def size(self):
        return WORDS
""",
    "bin/shell": '#!/bin/sh\nsay() {\n  echo "$1"\n}\nsay yes\n',
}
# Additions to files, and what is then listed, where that name is first.
ADDED = (
    (TOKENS, "abbrev pub spare : ℕ\nspare = 3\n", "definition spare"),
    (TOKENS, "pub record Spare : Type 0 where\n", "definition Spare"),
    (SUMS, "spare : 1 ≡ 1\nspare = refl\n", "lemma spare"),
    (SUMS, "  -- one\n  spare : 1 ≡ 1\n  spare = refl\n", "lemma spare"),
    (TOKEN, "fn spare() -> usize {\n    1\n}\n", "fn spare"),
    (TOKEN, "const SPARE: [u8; 2] = [1, 2];\n", "const SPARE"),
    (TOKEN, "pub(crate) enum Spare {\n    One,\n}\n", "enum Spare"),
    # a public call of a type that the root shows is for others
    (TOKEN, "impl Token {\n    pub fn spare(&self) {}\n\n    fn left(&self) {}\n}\n", "fn left"),
    ("bin/tool", "def spare():\n    return 1\n", "function spare"),
    ("bin/shared.py", "    def spare(self):\n        return 1\n", "method spare"),
    ("bin/shared.py", "SPARE = 4\n", "variable SPARE"),
    ("bin/shell", "spare() {\n  echo no\n}\n", "function spare"),
    # what is passed on to no file
    (WORDS, "pub use Rattle.pgn_lexer.specs.Tokens.{total}\n", "import total"),
)
BY_IMPORT = "use Rattle.pgn_lexer.proofs.Sums.{total_small}\n"
USE = "total_small c.ts c.is"
# Changes of files, (file, old, new), and what is then listed. What has no old text is added.
CHANGED = (
    # what only itself or an import names
    ([(TOKENS, "", "\npub spare : List ℕ → ℕ\nspare [] = 0\nspare (n ∷ l) = spare l\n"),
      (TOKEN, "total}", "total, spare}"), (SUMS, "{Token,", "{Token, spare,"),
      (ANSWERS, "", "\nuse Rattle.pgn_lexer.specs.Tokens.{spare}\n")], ["definition spare"]),
    # a name by its whole path is a use
    ([(ANSWERS, BY_IMPORT, "")], ["lemma nothing", "lemma total_small"]),
    ([(ANSWERS, BY_IMPORT, ""), (ANSWERS, USE, "Rattle.pgn_lexer.proofs.Sums." + USE)], []),
    # what a later file passes on is used
    ([(WORDS, "", "pub use Rattle.pgn_lexer.specs.Tokens.{Token, total}\n"),
      (SUMS, "pgn_lexer.specs.Tokens.", "pgn_lexer.proofs.Words.")], []),
    # what only unused things name
    ([(ANSWERS, USE, "omega arith")], ["lemma nothing", "lemma total_small"]),
    ([(ANSWERS, USE, "omega arith"), (TOKEN, "    sum_of(tokens)\n", "    0\n")],
     ["lemma nothing", "lemma nothing_behind", "lemma sums", "lemma total_small", "lemma small",
      "fn sum_of"]),
    # a word in a comment or a text is no use
    ([(TOKEN, "self.len.min(MOST)", 'self.len // MOST\n            .min(count("MOST"))')],
     ["const MOST"]),
    ([("bin/shared.py", "return WORDS", 'return "WORDS"  # WORDS')], ["variable WORDS"]),
)


class Unused(Folder, unittest.TestCase):
    def setUp(self):
        need_module("vulture", "vulture")
        super().setUp()

    def listed(self, *words):
        ran = run([sys.executable, "bin/unused", *words])
        self.assertEqual((ran.returncode, ran.stderr), (1 if ran.stdout else 0, b""))
        return ran.stdout.decode().splitlines()

    def listed_with(self, *changes):
        """What is listed of the small repository with these changes."""
        texts = dict(FILES)
        for name, old, new in changes:
            text = texts.get(name, "")
            self.assertTrue(not old or text.count(old) == 1, old)
            texts[name] = text.replace(old, new) if old else text + new
        # without a file of the row before
        shutil.rmtree(self.folder)
        self.put_all(texts)
        return self.listed("--root", self.folder)

    def test_nothing_is_unused_in_the_repository(self):
        self.assertEqual(self.listed(), [])

    def test_what_is_added_is_listed_with_its_place(self):
        self.assertEqual(self.listed_with(), [])
        for name, added, item in ADDED:
            with self.subTest(added):
                before = FILES.get(name, "") + "\n" + added.split(item.split()[1])[0]
                self.assertEqual(self.listed_with((name, "", "\n" + added)),
                                 ["%s:%d: %s" % (name, before.count("\n") + 1, item)])

    def test_the_changes_of_each_row(self):
        for changes, expected in CHANGED:
            with self.subTest(changes):
                self.assertEqual([it.split(": ")[1] for it in self.listed_with(*changes)], expected)

    def test_pyflakes(self):
        """No file of Python imports or assigns what it does not use."""
        need("pyflakes3")
        listed = run(["git", "ls-files", "--cached", "--others", "--exclude-standard"]).stdout
        files = [it for it in listed.decode().split("\n") if os.path.isfile(os.path.join(ROOT, it))
                 and (it.endswith(".py") or re.match(rb"#!.*python3\n", bytes_of(it)))]
        self.assertGreater(len(files), 50)
        ran = run(["pyflakes3", *files], cwd=ROOT)
        self.assertEqual((ran.returncode, ran.stdout.decode()), (0, ""))
