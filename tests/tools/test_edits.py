"""The wrong bodies of edits/ fit the sources, each function that docs/PROVED.md names has one, and
bin/try_edits reads what a check says of an edit."""
import collections
import contextlib
import glob
import io
import itertools
import os
import re
import threading
import unittest

from edit_names import missing_names
from programs import ROOT, Folder, load, output_of, run, text_of

SCRIPT = load("bin/try_edits")
# Rows of docs/PROVED.md that the proof alone holds, by some of their names. Those with conditions
# of callers are others: what a caller proves has no wrong body.
PROOF_ALONE = (
    "convert, convert_slice, IsTotalled.short", "convert_checked, AreRefused, AreConverted",
    "split_to, SplitStops.unread", "pgn_next_game, NextGameIn", "pgn_next_game, IsGame.settled",
    "pgn_next_game, IsRejected", "pgn_read_game, ReadGameIn",
)


def printed(*words):
    """The output of a call that finds no fault, as one of --list where an edit does not fit."""
    return output_of(run(["bin/try_edits", *words])).decode()


def names_in(text):
    """The names of edits that a text has in backticks."""
    return set(re.findall("`(%s)`" % SCRIPT.NAME, text))


def edit_of(name, *changes, crate="low"):
    edit = SCRIPT.Edit(crate, name, "low.edits:1")
    edit.changes = list(changes)
    return edit


def files_of(pattern):
    return glob.glob(pattern, root_dir=ROOT, recursive=True)


class Edits(unittest.TestCase):
    def setUp(self):
        self.by_crate = SCRIPT.guards_by_crate(SCRIPT.Edit)
        self.edits = list(itertools.chain(*self.by_crate.values()))
        self.each = [it for it in self.edits if it.each_change]
        self.guards = list(itertools.chain(*SCRIPT.guards_by_crate().values()))

    def test_each_fits_its_source_and_is_listed(self):
        names = [it.name for it in self.edits]
        self.assertEqual(sorted(set(names)), sorted(names))
        self.assertGreater(len(self.edits), 200)
        self.assertTrue(self.each)
        path = "{0.crate}/{0.name}".format
        for words, wanted in (
                ([], map(path, self.edits)), (["--each-change"], map(path, self.each)),
                (["--only", "flush-counts"], ["pgn_layout/outlet-flush-counts-no-failure"])):
            lines = printed("--list", *words).split("\n")
            self.assertEqual(lines[:-3], list(wanted))
            self.assertRegex(lines[-3], r"^\d+ edits, ")

    def test_a_file_has_the_edits_of_a_crate_by_function(self):
        self.assertEqual(set(os.listdir(ROOT + "/edits")),
                         {"README.md"} | {it + ".edits" for it in self.by_crate})
        for crate, edits in self.by_crate.items():
            self.assertTrue(os.path.isdir(os.path.join(ROOT, "crates", crate)), crate)
            # the second one of a function costs less right after the first
            groups = [(them[0].file, them[0].function) for them in SCRIPT.by_function(edits)]
            self.assertEqual([it for it in groups if groups.count(it) > 1], [], crate)

    def test_each_function_that_a_row_names_has_an_edit(self):
        self.assertEqual(printed("--guards", "--check"), "")

    def test_each_row_is_guarded_but_those_that_the_proof_alone_holds(self):
        rows = SCRIPT.rows_of(text_of("docs", "PROVED.md"))
        bare = [row for row, them in SCRIPT.guards_by_row(rows, self.guards).items()
                if not them and not row.words.endswith(": `requires`")]
        alone = [set(it.split(", ")) for it in PROOF_ALONE]
        unnamed = [row.words for row in bare if not any(it <= row.names for it in alone)]
        self.assertEqual(unnamed, [])
        self.assertEqual([it for it in alone if not any(it <= row.names for row in bare)], [])

    def test_an_edit_without_a_row_is_of_a_file_that_shows_nothing(self):
        private = [it for it in self.edits if not it.guards]
        self.assertGreater(len(private), 30)
        for it in private:
            root = text_of("crates", it.crate, "src", "lib.rt")
            self.assertNotRegex(root, r"pub (use|mod) %s\b" % it.file, it.name)

    def test_the_page_names_each(self):
        page, names = names_in(printed("--guards")), {it.name for it in self.edits}
        self.assertEqual(sorted(page ^ names), [])
        named = names_in(text_of("edits", "README.md"))
        self.assertEqual(sorted(named - names), [])
        self.assertTrue(named)

    def test_each_test_and_file_of_rows_is_there(self):
        sources = "".join(text_of(it) for pattern in ("crates/*/src/**/*.rt", "tests/tools/*.py")
                          for it in files_of(pattern))
        named = collections.defaultdict(list)
        for it in self.guards:
            named[it.kind] += it.texts
        self.assertEqual(set(named), {"edit", "test", "rows", "noticed"})
        gone = [it for it in named["test"] if not re.search(r"\b(fn|def) %s\(" % it, sources)]
        rows = "crates/*/proofs/**/%s.antt"
        gone += [it for it in named["rows"] if len(files_of(rows % it)) != 1]
        self.assertEqual(gone, [])

    def test_the_mistakes_that_matter_most_are_tried_on_each_change(self):
        tried = {it.name for it in self.each}
        table = text_of("edits", "README.md").partition("## The mistakes that matter most")[2]
        rows = [it for it in table.split("\n") if it.startswith("|")][2:]
        self.assertGreater(len(rows), 20)
        sources = "".join(map(text_of, files_of("crates/pgn_vectors/src/tests/*")))
        for row in rows:
            said, files = names_in(row), re.findall("`(crates/[^`]+)`", row)
            self.assertTrue(said or files, row)
            self.assertEqual(sorted(said - tried), [], row)
            for it in files:
                self.assertTrue(os.path.isfile(os.path.join(ROOT, it)), it)
            for it in re.findall("`([a-z]+_[a-z_]+)`", row):
                self.assertTrue("fn %s(" % it in sources, it)

    def test_counts(self):
        rows = [names_in(it) for it in printed("--guards").partition("## Private")[0].split("\n- ")]
        each = {it.name for it in self.each}
        self.assertEqual(printed("--list").split("\n")[-3:], [
            "%d edits, %d of them tried on each change" % (len(self.edits), len(each)),
            "%d rows of docs/PROVED.md have edits, %d of them one that is tried on each change"
            % (sum(bool(it) for it in rows), sum(bool(it & each) for it in rows)), ""])

    def test_words_without_an_edit(self):
        for words, why in ((["no_such_crate"], "there is no file edits/no_such_crate.edits"),
                           (["--list", "--only", "no such text"], "there is no such edit")):
            ran = run(["bin/try_edits", *words])
            self.assertEqual((ran.returncode, ran.stdout, ran.stderr.decode()),
                             (2, b"", "bin/try_edits: %s\n" % why))


class Names(unittest.TestCase):
    def missing(self, edit):
        used = SCRIPT.uses_of(edit.crate, ROOT)
        crates = (it for it in used if os.path.isdir(os.path.join(ROOT, "crates", it)))
        return missing_names(edit, tuple(sorted(set(crates))))

    def test_each_uses_what_is_there(self):
        for it in itertools.chain(*SCRIPT.guards_by_crate(SCRIPT.Edit).values()):
            self.assertEqual(self.missing(it), [], it.name)

    def test_what_is_gone_is_noticed(self):
        arm = "pgn_game", "section.rt", "        Mode::Reduced => end_tags(out),"
        section, mode = (*arm, "Mode::Reduced => %s,"), (*arm, "Mode::%s => end_tags(out),")
        reader = "pgn_game", "reader.rt", "        self.levels.depth()\n", "        %s\n"
        variant = "pgn_lexer", "class.rt", "is_in(byte, Set::LineEnd)", "is_in(byte, Set::%s)"
        for (crate, path, old, new), word, missing in (
                (section, "end_tags(out)", []),
                (section, "if pairs.len() == 0 { Ok(()) } else { end_tags(out) }", []),
                # types have a method of this name, but not this one
                (section, "if pairs.is_empty() { Ok(()) } else { end_tags(out) }",
                 ["is_empty of OrderedPairs"]),
                (mode, "Nothing", ["Nothing of Mode"]),
                (section, "out.close()", ["close of Sink"]),
                (section, "{ pairs.stored.is_full(); end_tags(out) }", []),
                (section, "put_word(out)", ["put_word"]),
                (section, "crate::number::put_word(out)", ["crate::number::put_word"]),
                (section, "pgn_layout::end_tags(out)", []),
                (section, "pgn_layout::end_section(out)", ["pgn_layout::end_section"]),
                (section, "write(NAMELESS, out)", ["write", "NAMELESS"]),
                (section, "{ let end = |it| it; end(end_tags(out)) }", []),
                (section, '{ let _ = b"a.gone()"; end_tags(out) }', []),
                (section, "end_tags(out.no_such_word())", ["no_such_word of Sink", "no_such_word"]),
                (reader, "self.levels.around()", ["around of Levels"]),
                (reader, "self.level.depth()", ["level of Reader"]),
                (reader, "Self::nothing(self.levels)", ["nothing of Reader"]),
                # a variant with its number
                (variant, "Space", []), (variant, "Nothing", ["Nothing of Set"])):
            edit = edit_of("a-f-x", ("src/" + path, old, new % word), crate=crate)
            self.assertEqual(SCRIPT.edited(edit, os.path.join(ROOT, "crates", crate))[1], None)
            self.assertEqual(self.missing(edit), missing, word)


HEAD = "edit: lib-f-is-wrong\nguards: f, text\n"
EACH_CHANGE = "edit: lib-f-is-wrong (on each change)\n"


class Reading(Folder, unittest.TestCase):
    def read(self, text):
        return SCRIPT.read_guards(self.put("low.edits", text), "low")

    def test_lines_of_an_edit(self):
        edits = self.read("# low\n\n" + HEAD + "# a reason\nold:  a\nnew:  b: c\nold: d\nnew:\n\n\n"
                          + EACH_CHANGE + "guards: f, text; h\nguards: g\nold: e\nnew: f")
        self.assertEqual([(it.name, it.file, it.function, it.guards, it.changes, it.each_change)
                          for it in edits], [
            ("lib-f-is-wrong", "lib", "f", [{"f", "text"}],
             [("src/lib.rt", " a", " b: c"), ("src/lib.rt", "d", "")], False),
            ("lib-f-is-wrong", "lib", "f", [{"f", "text"}, {"h"}, {"g"}],
             [("src/lib.rt", "e", "f")], True)])
        self.assertRegex(edits[1].place, r"low\.edits:12$")

    def test_the_files_of_an_edit(self):
        """A file holds until the next one. A private function has no row."""
        pair, other = "old: a\nnew: b\n", "file: specs/A.antt\n"
        edits = self.read(HEAD + pair + other + pair + pair + "file: src/lib.rt\n" + pair + "\n"
                          + HEAD + other + pair + "\nedit: lib-f-is-wrong\n" + pair)
        self.assertEqual([[it[0] for it in edit.changes] for edit in edits], [
            ["src/lib.rt", "specs/A.antt", "specs/A.antt", "src/lib.rt"], ["specs/A.antt"],
            ["src/lib.rt"]])
        self.assertEqual((edits[2].guards, edits[2].changes), ([], [("src/lib.rt", "a", "b")]))

    def test_what_else_guards_a_row(self):
        found = self.read("test: a_b, c\nguards: f, text\nguards: g\n\nrows: ARows\nguards: h; i, j"
                          "\n\nnoticed: a word: `b`, c\n# why\nguards: i\n")
        self.assertEqual([(it.kind, it.texts, it.guards) for it in found], [
            ("test", ["a_b", "c"], [{"f", "text"}, {"g"}]),
            ("rows", ["ARows"], [{"h"}, {"i", "j"}]), ("noticed", ["a word: `b`, c"], [{"i"}])])

    def test_what_cannot_be_read(self):
        for why, rows in (
            ("an `old:` line is followed by its `new:` line", (
                (HEAD + "old: a\n", 4), (HEAD + "old: a\n\nnew: b\n", 4), (HEAD + "new: a\n", 3),
                (HEAD + "old: a\nold: b\nnew: c\n", 4))),
            ("an edit changes something, and all else has a `guards:` line", (
                (HEAD, 1), (EACH_CHANGE, 1), (EACH_CHANGE + "file: a\n", 1), ("test: a_b\n", 1))),
            ("a name is a file, a function and what is wrong", (
                ("edit: is wrong\n", 1), ("edit: lib-f\n", 1), (EACH_CHANGE[:-1] + " x\n", 1),
                ("edit: lib-f-is-wrong (now)\n", 1))),
            ("this line is out of place: LINE", (
                ("test:\n", 1), ("test: a_b\nfile: a\n", 2), ("noticed: a\nold: a\n", 2),
                ("noticed: a\ntried: on each change\n", 2), ("guards: f\n", 1),
                (HEAD + "edit: lib-g\n", 3), (HEAD + "file:\nold: a\n", 4), (HEAD + "old:\n", 3),
                (HEAD + "tried: now\n", 3))),
            ("the name or a line above says this: LINE", (
                (HEAD + "file: src/lib.rt\nold: a\nnew: b\n", 3),
                (EACH_CHANGE + "file: src/lib.rt\n", 2),
                (HEAD + "file: a\nold: a\nnew: b\nfile: a\n", 6))),
        ):
            for text, number in rows:
                said = re.escape(why.replace("LINE", text.split("\n")[number - 1]))
                with self.assertRaisesRegex(SCRIPT.Mistake, r"low\.edits:%d: %s$" % (number, said)):
                    self.read(text)

    def test_pairs_apply_in_turn_if_they_fit(self):
        self.put_all({"src/lib.rt": "one\ntwo\ntwo\n", "other": "one\n"})
        lib, no_file = "src/lib.rt", "there is no file %s in src/, specs/ or proofs/"
        for changes, found in (
                ([(lib, "one", "three"), (lib, "three", "")], ({lib: "\ntwo\ntwo\n"}, None)),
                ([(lib, "two", "x")], ({}, "the text 'two' is there 2 times")),
                ([(lib, "four", "x")], ({}, "the text 'four' is there 0 times")),
                ([("other", "one", "x")], ({}, no_file % "other")),
                ([("src/../other", "one", "x")], ({}, no_file % "src/../other")),
                ([("src/a.rt", "one", "x")], ({}, no_file % "src/a.rt"))):
            edit = edit_of("lib-f-is-wrong", *changes)
            self.assertEqual(SCRIPT.edited(edit, self.folder), found)


class Guards(unittest.TestCase):
    """The page of --guards, and what --check misses, from rows of a made ledger."""

    LEDGER = """## `low`

| What holds | Function: clause |
|---|---|
| text | `put`, `g`: `text` (`Puts`) |
| line | `put`: `text` |

| Words | Meaning |
|---|---|
| `put` | `text` |

## `top`

| What holds | Function: clause |
|---|---|
| last | `end` (`all of it`) |
| never | `end`: `never` |
| asked | `T::g`, `off`: `requires` |
"""

    def page(self, *guards):
        """The page from where the rows begin."""
        text = SCRIPT.guards_page(self.LEDGER, list(itertools.starmap(self.guard, guards)))
        return text[text.index("## `low`"):]

    def guard(self, kind, name, *rows):
        other = SCRIPT.Guard("low", kind, [name], "low.edits:1")
        found = edit_of(name) if kind == "edit" else other
        found.guards = [frozenset(it.split(", ")) for it in rows]
        return found

    def test_a_function_has_an_edit(self):
        """A test alone is none, and what a caller has to keep needs none."""
        puts = "edit", "lib-put-a", "Puts"
        for guards, missing in (
                ([], ["end", "g", "put"]), ([("edit", "lib-put-a", "put, text")], ["end", "g"]),
                ([puts, ("test", "a", "all of it")], ["end"]),
                ([puts, ("edit", "lib-end-a", "never")], [])):
            found = list(itertools.starmap(self.guard, guards))
            known = {"put", "g", "end", "off", "other"}
            self.assertEqual(SCRIPT.without_edit(self.LEDGER, found, known), missing)

    def test_laws_are_no_functions_with_a_body(self):
        known = SCRIPT.functions()
        self.assertTrue({"put_parts", "resolve", "main"} <= known)
        self.assertFalse({"lexes_once", "unique_reading", "promotions_are_alike"} & known)

    def test_a_row_has_its_edits_and_then_the_rest(self):
        page = self.page(
            ("edit", "lib-put-b", "put, Puts", "put, text"), ("edit", "lib-put-a", "g, text"),
            ("noticed", "all tests", "g, text"), ("rows", "PutRows", "Puts"),
            ("test", "puts_b", "Puts"), ("test", "puts_a", "Puts"), ("test", "puts_a", "all of it"))
        self.assertEqual(page, """## `low`

- `put`, `g`: `text` (`Puts`)
  - `lib-put-a`, `lib-put-b`
  - tests `puts_a`, `puts_b`; worked rows `PutRows`; all tests
- `put`: `text`
  - `lib-put-b`

## `top`

- `end` (`all of it`)
  - test `puts_a`

No edit and no test is named for:

- `end`: `never`
- `T::g`, `off`: `requires`
""")

    def test_edits_of_private_functions_come_last(self):
        page = self.page(("edit", "lib-f-a"), ("edit", "lib-end-a", "all of it"),
                         ("edit", "lib-f-b"), ("edit", "a_b-f-a"))
        self.assertEqual(page.partition("\n## Private functions\n\n")[2],
                         "- `lib::f` of `low`\n  - `lib-f-a`, `lib-f-b`\n"
                         "- `a_b::f` of `low`\n  - `a_b-f-a`\n")

    def test_its_lines_are_short_and_break_in_no_name(self):
        names = ["lib-put-%s" % ("ab" * number) for number in range(1, 40)]
        page = self.page(*(("edit", it, "put, text") for it in names))
        self.assertLessEqual(max(map(len, page.split("\n"))), 100)
        self.assertEqual(sorted(re.findall("`(lib-put-[a-b]+)`", page)), sorted(names))
        lines = SCRIPT.wrapped("`%s`, `a b`" % ("c" * 90), "")
        self.assertEqual(lines, ["- `%s`," % ("c" * 90), "  `a b`"])

    def test_a_row_with_numbers_has_several_statements(self):
        rows = SCRIPT.rows_of(
            "| What holds | Function: clause |\n|---|---|\n"
            "| 1. a<br>2. b | `f`, `g`: 1. `x` (`X`)<br>2. `y`, of 3. |\n| c | `h`: `z` |\n")
        self.assertEqual([(it.words, it.names) for it in rows], [
            ("`f`, `g`: `x` (`X`)", {"f", "g", "x", "X"}),
            ("`f`, `g`: `y`, of 3.", {"f", "g", "y"}), ("`h`: `z`", {"h", "z"})])

    def test_a_guard_names_one_row(self):
        for guard, count in (("Puts, all of it", 0), ("text, put, other", 0), ("end", 2)):
            said = "^low.edits:1: %d rows of docs/PROVED.md have %s as function and clause$" % (
                count, ", ".join(sorted(guard.split(", "))))
            with self.assertRaisesRegex(SCRIPT.Mistake, said):
                self.page(("edit", "lib-put-a", guard))


SOURCE = """const A: u8 = 1;

impl T {
    // one
    pub(crate) fn one(
        self,
    ) -> u8
        ensures { result ≡ 1 }
    {
        if self.is {
            1
        }
    }

    const B: u8 = 2;

    #[inline]
    fn two(self) -> u8 {
        self.one()
    }
}
"""


class Checks(Folder, unittest.TestCase):
    """What a check says of an edit, and which edits share a check."""

    def check_word(self, word, *lines, status=1, last="logic=not-proved"):
        told = "\n".join(["checked a::f, 1 of 2", *lines, last, ""])
        self.assertEqual(SCRIPT.verdict(status, told, ["proofs/B.antt"])[0], word, told)

    def test_refused(self):
        for line in (
                "note: src/a.rt:3:1: it is not proved that what the function ensures holds",
                "./proofs/A.antt:4:2: error: `returns`: expected type `a`, but this has type `b`",
                "fn a::f: no proof: expected answers in ./proofs/f/Answers.antt"):
            self.check_word("refused", line, last="logic=not-proved\nrt: rt lemma WORD.. finds one")
            # what a check of one function says
            self.check_word("refused", line, "fn a::f: not proved", last="only=2 proved=1")

    def test_only_a_proof_names_what_is_gone(self):
        """A message goes on on indented lines, which say of what it is, not of the line after it.

        The prover prints a term with a variable that the text binds as `_`: that is not gone.
        """
        place, note = "./proofs/A.antt:4:2: error: ", "note: src/a.rt:3:1: it is not proved that"
        gone = place + "`returns`: `x` is not in scope"
        cites = ["./proofs/A.antt:9:1: error: 1 declaration that depends on `returns`, which was "
                 "rejected, was not checked: b",
                 "./proofs/C.antt:1:1: error: 2 declarations that depend on `b`, which was not "
                 "admitted, were not checked: c, d"]
        field = [place + "`returns`: the record `a → (b : c) × d` of", "  `in-B` has no field",
                 "    `step`", "./proofs/C.antt:1:1: error: 1 declaration that depends on `A`, which",
                 "  was not admitted, was not checked: b"]
        shown = ("error: `returns`: computed as a goal is, one side reads `a` (expected)\n"
                 "  but this has type `b out`\n"
                 "  `out` is not in scope here, so what is shown does not paste back as it stands")
        for word, *lines in (
                ("refused, but", gone, *cites),
                ("refused", gone, *cites, note + " the index is in range"),
                ("refused", place + "`a`: expected type `b`, but this has type `c`", *cites),
                ("refused, but", *field),
                ("refused", *field, note, "  the index is in range"),
                ("refused", place + "`returns`: expected type", "  `a`, but this has `b`",
                 "a line that has no field"),
                ("BAD EDIT", "src/a.rt:3:1: error: `f`: the record `a`", "  has no field"),
                ("refused", "src/a.rt:4:2: " + shown),
                ("refused", "./proofs/A.antt:4:2: " + shown)):
            self.check_word(word, *lines)

    def test_nothing_was_tried_or_refused(self):
        unread = "1:1: error: expected the end of the item"
        cites = "error: 1 declaration that depends on `f`, which was rejected, was not checked: g"
        for word, *lines in (
            # a source, a definition and what the edit changes are to be read
            ("BAD EDIT", "src/a.rt:" + unread), ("BAD EDIT", "./specs/A.antt:" + unread),
            ("BAD EDIT", "./proofs/B.antt:" + unread),
            # another proof may not be
            ("refused", "./proofs/A.antt:" + unread),
            ("BAD EDIT", "src/a.rt:1:1: error: `f`: `x` is not in scope"),
            ("refused", "./specs/A.antt:1:1: error: `f`: expected type `a`"),
            ("refused", "./proofs/B.antt:1:1: error: `f`: expected type `a`",
             "./proofs/B.antt:9:1: " + cites),
            ("BAD EDIT", "error: module `Rattle-low-a` has changed. Run the lower steps again"),
        ):
            self.check_word(word, *lines)
        for status, last in ((1, "logic=proved functions=2 sum=1"), (2, "logic=not-proved"),
                             (-9, "logic=not-proved"), (1, "error[E0308]"), (0, "")):
            self.check_word("BAD EDIT", status=status, last=last)
        self.check_word("NOT REFUSED", status=0,
                   last="logic=proved functions=2 sum=1 incremental=trusted")

    def test_the_function_at_a_place(self):
        for text, found in (
            ("const A", ("", False)), ("impl T", ("", False)), ("// one", ("", False)),
            ("fn one", ("one", False)), ("result", ("one", False)), ("self.is", ("one", True)),
            ("        1\n", ("one", True)), ("const B", ("", False)), ("inline", ("two", False)),
            ("fn two", ("two", False)), ("self.one", ("two", True)),
        ):
            place = SOURCE.index(text)
            self.assertEqual(SCRIPT.function_at(SOURCE, place), found, text)

    def test_edits_of_bodies_alone_share_a_check(self):
        self.put_all(dict.fromkeys(("src/lib.rt", "specs/A.antt"), SOURCE))
        body, other = ("src/lib.rt", "self.is", "true"), ("src/lib.rt", "self.one()", "2")
        for changes, does in (
                ([body], True), ([other], False), ([body, other], False),
                ([("src/lib.rt", "result ≡ 1", "result ≡ 2")], False),
                ([("src/lib.rt", "A: u8 = 1", "A: u8 = 2")], False),
                ([("specs/A.antt", "self.is", "true")], False),
                ([("src/lib.rt", "u8", "u16")], False), ([("src/no.rt", "u8", "u16")], False)):
            edit = edit_of("lib-one-is-wrong", *changes)
            self.assertEqual(SCRIPT.changes_a_body(edit, self.folder), does, changes)

    def test_the_functions_of_an_edit(self):
        paths = ["low::a::T::one", "low::a::U::one", "low::b::T::one", "low::ab::one", "low::alone"]
        for path, found in (
                ("src/a.rt", paths[:2]), ("src/b.rt", paths[2:3]), ("src/ab.rt", paths[3:4]),
                ("src/c.rt", paths[:4]), ("specs/A.antt", paths[:4])):
            edit = edit_of("file-one-is-wrong", (path, "", ""))
            self.assertEqual(SCRIPT.functions_of(edit, paths), found, path)
        self.assertEqual(SCRIPT.functions_of(edit, paths[4:]), ["one"])

    def tried(self, checks, *groups):
        """The edits of each check, of which these refuse those that they are called with."""
        script, seen = load("bin/try_edits"), []
        script.changes_a_body = lambda edit, folder: edit.function != "x"
        trial = script.Trial("", None)
        trial.paths["low"] = ["low::" + it for it in "abcx"]

        def together(crate, edits, folder):
            seen.append(" ".join(it.name[4:] for it in edits))
            return [it for it in edits if it.name[4:] in checks.get(seen[-1], "")]

        trial.try_together = together
        trial.try_edit = lambda crate, edit, folder: seen.append(edit.name[4:]) or [edit.function]
        groups = [[edit_of("lib-" + it, ("src/lib.rt", "", "")) for it in them.split()]
                  for them in groups]
        return seen, trial.try_groups("low", groups, "")

    def test_one_that_is_not_refused_for_sure_is_tried_again(self):
        for checks, groups, seen in (
            ({"a-1 b-1": "a-1 b-1"}, ("a-1", "b-1"), ["a-1 b-1"]),
            # those that are left go on with the next of the other functions
            ({"a-1 b-1": "b-1", "a-1 b-2": "a-1 b-2"}, ("a-1", "b-1 b-2"), ["a-1 b-1", "a-1 b-2"]),
            ({"a-1 b-1": "b-1"}, ("a-1", "b-1"), ["a-1 b-1", "a-1"]),
            # a check that refuses none says nothing of any
            ({}, ("a-1", "b-1 b-2"), ["a-1 b-1", "a-1", "b-1", "b-2"]),
            # what changes more than a body shares no check
            ({"a-1 b-1": "a-1 b-1"}, ("x-1", "a-1", "b-1"), ["a-1 b-1", "x-1"]),
        ):
            self.assertEqual(self.tried(checks, *groups)[0], seen)
        functions = self.tried({"a-1 b-1": "b-1"}, "a-1", "b-1")[1]
        self.assertEqual(functions, {"a", "low::b"})

    def reason(self, *lines):
        edit = edit_of("lib-one-is-wrong", ("src/lib.rt", "self.is", "true"))
        said = "".join(it + "\n" for it in lines)
        return SCRIPT.reason_in(said, edit, ["low::T::one"], {"src/lib.rt": SOURCE})

    def test_what_refuses_a_function_for_sure(self):
        no_proof = "fn low::T::one: no proof: expected answers in ./proofs/T/one/Answers.antt"
        calls = "fn low::T::one: no proof: it calls `low::T::two`, which is not proved"
        for line in (
                "note: src/lib.rt:5:5: it is not proved that what the function ensures holds",
                "note: src/lib.rt:11:9: it is not proved that the index is in range",
                "./proofs/T/one/Answers.antt:4:2: error: `returns`: expected type `a`"):
            self.assertEqual(self.reason(line, no_proof), line)
            self.assertEqual(self.reason("checked low::T::two, 1 of 2", line, no_proof), line)
            for more in [], [no_proof.replace("one", "two")], [calls]:
                self.assertEqual(self.reason(line, *more), None)
        # what is said of another function
        for line in (
                "note: src/lib.rt:19:9: it is not proved that what `one` requires holds",
                "note: src/other.rt:5:5: it is not proved that what the function ensures holds",
                "./proofs/T/two/Answers.antt:4:2: error: `returns`: expected type `a`",
                "./proofs/one/two/Answers.antt:4:2: error: `returns`: expected type `a`",
                "./proofs/T/one/Answers.antt:4:2: error: `returns`: `x` is not in scope",
                "src/lib.rt:11:9: help: write a proof"):
            self.assertEqual(self.reason(line, "fn low::T::one: not proved"), None, line)

    def test_functions_share_checks_where_lanes_have_enough_of_them(self):
        """There is a lane for each processor that has 4 GB. Edits of one function stay together."""
        for given, lanes in ((4, 24000000), 4), ((8, 15999999), 3), ((4, 1000000), 1):
            self.assertEqual(SCRIPT.lanes_for(*given), lanes)
        edits = [edit_of(it) for it in ("a-f-x", "a-f-y", "a-g-x", "b-g-x")]
        self.assertEqual(SCRIPT.by_function(edits), [edits[:2], edits[2:3], edits[3:]])
        self.assertEqual(SCRIPT.sharing(list("abcde"), 4), [["a", "b"], ["c", "d"], ["e"]])
        self.assertEqual(SCRIPT.sharing(["a", "bb"], 4), [["bb"], ["a"]])
        sizes = [len(it) for it in SCRIPT.sharing(["a"] * 100, 3)]
        self.assertEqual((max(sizes), sum(sizes)), (SCRIPT.TOGETHER, 100))

    def proved(self, said):
        """The calls of `check`, where it says this of a crate, and what `try_all` does."""
        script, calls, is_begun = load("bin/try_edits"), [], threading.Event()

        def check(folder, *flags):
            crate = os.path.basename(folder)
            calls.append(crate + " begins")
            if crate == "pgn_layout":
                is_begun.set()
            # the two are proved side by side
            self.assertTrue(crate != "chess_rules" or is_begun.wait(20))
            self.assertEqual(flags, ("--jobs", "1"))
            calls.append(crate + " ends")
            return 0, said[crate]

        def try_groups(trial, crate, groups, folder):
            calls.append(crate + " is tried")
            trial.counts["refused"] += sum(map(len, groups))
            return []

        script.check, script.Trial.try_groups = check, try_groups
        script.copy_repository = lambda *given: None
        script.check_copy = lambda *given: (0, "logic=proved \n")
        edits = {it: [edit_of("a-f-x", crate=it)] for it in said}
        with contextlib.redirect_stdout(io.StringIO()) as out:
            is_well = script.try_all(edits, 2, None, None)
        return calls, is_well, out.getvalue()

    def test_crates_are_proved_side_by_side_behind_their_libraries(self):
        said = dict.fromkeys(("chess_text", "chess_rules", "pgn_layout"), "logic=proved \n")
        calls, is_well, out = self.proved(said)
        self.assertTrue(is_well, out)
        at = {it: calls.index(it) for it in calls}
        self.assertLess(at["chess_rules ends"], at["chess_text begins"])
        for it in said:
            self.assertLess(at[it + " ends"], at[it + " is tried"])
        calls, is_well, out = self.proved(said | {"chess_text": "logic=not-proved\n"})
        self.assertFalse(is_well)
        self.assertIn("chess_text is not proved, so its edits show nothing", out)
        self.assertRegex(out, r" 2 lanes: 2 refused, 1 NOT TRIED\n")
        self.assertNotIn("chess_text is tried", calls)

    def test_a_copy_has_the_work_that_a_check_needs(self):
        kept = [
            "HANDLES", "crates.txt", "crates/low/out/rlib/low", "crates/low/src/lib.rt",
            "crates/other/src/lib.rt", "crates/top/out/incremental/b", "crates/top/src/lib.rt",
        ]
        for name in (*kept, "crates/low/out/incremental/a", "crates/top/out/rlib/top",
                     "crates/other/out/rlib/other"):
            self.put("a/" + name, "low:\nother:\ntop staticlib: low std\n")
        copy = self.folder + "/b"
        SCRIPT.copy_repository("top", self.folder + "/a", copy)
        there = [os.path.relpath(os.path.join(at, it), copy)
                 for at, _, found in os.walk(copy) for it in found]
        self.assertEqual(sorted(there), kept)
