"""Tests of bin/write_vectors, of what it writes, and of bin/pgn_conform."""
import glob
import json
import os
import re
import shutil
import sys
import unittest

import programs
from programs import ROOT, Folder, bytes_of, run, text_of

DATA = ("vectors/*.*", "crates/pgn_vectors/src/**/*.rt", "crates/pgn_game/src/reason.rt",
        "bin/write_vectors", "bin/pgn_conform", "bin/build_program", "python/gillspoon/*.*",
        "bench/tables.py")
# PGN 3.2.4: the export of the game of the standard, as its printed text has it.
SAMPLE_END = "40. Rd6 Kc5 41. Ra6 Nf2 42. g4 Bd3 43. Re6 1/2-1/2\n\n"
HEAD = programs.HEAD.decode()[:-1]
# A row of main_lines.toml, and one that a test adds behind it.
ROW = '[[few_tokens.rows]]\nname = "%s"\ninput = "%s"\nplies = %d\nmovetext = "%s"\n'
MARKER = ROW % ("marker-alone", "*", 0, "*")
ONE_MORE = ROW % ("one more", "d4 *", 1, "1. d4 *")


def by_file():
    return {it["file"]: it for it in programs.vectors()}


def of_theme(*themes):
    return [it for it in programs.vectors() if it["theme"] in themes]


class Copy(Folder):
    """A copy of the data and of what is written from it, in which a text is another one."""

    def __init__(self, test, *change):
        self.folder = programs.new_folder(test)
        for form in DATA:
            for name in glob.glob(form, root_dir=ROOT, recursive=True):
                shutil.copymode(os.path.join(ROOT, name), self.put(name, bytes_of(name)))
        for file, old, new in [change] if change else []:
            text = self.text(file)
            assert old in text, (file, old)
            self.put(file, text.replace(old, new, 1))

    def text(self, file):
        return self.get(file).decode()

    def run(self, *words):
        ran = run([sys.executable, "bin/write_vectors", *words], cwd=self.folder)
        return ran.returncode, (ran.stdout + ran.stderr).decode()

    def vectors(self):
        return {it["file"]: it for it in json.loads(self.text("vectors/vectors.json"))["vectors"]}


class Files(unittest.TestCase):
    def test_what_is_written_is_what_the_data_gives(self):
        ran = run(["bin/write_vectors", "--check"])
        self.assertEqual(programs.output_of(ran), b"%d vectors\n" % len(programs.vectors()))
        rows = []
        for file in glob.glob(ROOT + "/vectors/*.toml"):
            theme = os.path.basename(file)[:-5]
            rows += [theme] * text_of(file).count(".rows]]\nname = ")
        self.assertGreater(len(rows), 250)
        self.assertEqual(sorted(rows), sorted(it["theme"] for it in programs.vectors()))

    def test_numbers_and_words_are_those_of_the_fault_table(self):
        rows = re.findall(r"(?m)^\| (\d+) \|.*?\|.*?\| `([^`]+)` \|", text_of("docs/PROFILE.md"))
        words = {int(number): text for number, text in rows}
        self.assertGreater(len(words), 35)
        for fault in [it["fault"] for it in programs.vectors() if "fault" in it]:
            text = re.sub("N$", str(fault.get("field", "")), words[fault["number"]])
            self.assertEqual(fault["message"], "byte %d: %s" % (fault["place"], text))

    def test_worked_rows(self):
        vectors = by_file()
        sample = vectors["main_lines.sample-game"]
        self.assertEqual((sample["games"], sample["plies"]), (1, 85))
        self.assertTrue(sample["output"].endswith(SAMPLE_END))
        movetext = sample["output"].split("\n\n")[1].split("\n")
        self.assertEqual([len(line) for line in movetext], [77, 76, 76, 78, 77, 78, 50])
        self.assertEqual(vectors["variations.reduced-mode"]["mode"], "reduced")
        mark = vectors["tag_pairs.byte-order-mark"]["input"].encode()
        self.assertTrue(mark.startswith(b"\xef\xbb\xbf%x\r\n;c\r\n"))
        self.assertEqual(vectors["faults.2-in-movetext"]["input"], "e4 \x01")
        name = vectors["position_faults.26-field-6-4k3-8-8-8-8-8-8-4k3-w-0-1"]["name"]
        self.assertTrue(name.endswith("0 1 "))

    def test_each_short_form(self):
        vectors = by_file()
        for name, *row in (
                ("main_lines.empty-input", "", "", 0, 0),
                ("main_lines.two-games", "1. e4 *1. d4 d5 *",
                 HEAD + "\n1. e4 *\n\n" + HEAD + "\n1. d4 d5 *\n\n", 2, 3),
                ("tag_pairs.tag-order", '[b "2"][Site "x\\"y\\\\z\\q"][A "1"] *', HEAD.replace(
                    '[Site "?"]', '[Site "x\\"y\\\\z\\\\q"]') + '[A "1"]\n[b "2"]\n\n*\n\n', 1, 0),
                ("positions.stalemate", '[FEN "7k/5K2/8/8/8/8/8/6Q1 w - - 0 1"]\nQg6 *', HEAD +
                 '[FEN "7k/5K2/8/8/8/8/8/6Q1 w - - 0 1"]\n[SetUp "1"]\n\n1. Qg6 *\n\n', 1, 1),
                ("limits.long-word", "1. e4 {%s} *" % (79 * "w"),
                 HEAD + "\n1. e4 {\n%s\n} *\n\n" % (79 * "w"), 1, 1),
                # refused ones have no counts
                ("faults.1", " % *", ""), ("faults.3-in-movetext", "e4 <1> *", HEAD + "\n"),
                ("faults.34-in-a-second-game", "* 1. e4 e5 2. Ke3 *",
                 HEAD + "\n*\n\n" + HEAD + "\n"),
                ("faults.41-in-a-second-game", "* 1-0", HEAD + "\n*\n\n"),
                ("limits.a-line-that-is-full-before-the-fault", "e4 {%s x} e5 Ke3 *" % (72 * "w"),
                 HEAD + "\n1. e4 {\n%s x }\n" % (72 * "w"))):
            shown = ("input", "output", "games", "plies")
            self.assertEqual([vectors[name][it] for it in shown if it in vectors[name]], row, name)


class Writer(unittest.TestCase):
    def test_one_row_is_added_in_one_place(self):
        copy = Copy(self, "vectors/main_lines.toml", MARKER, MARKER + "\n" + ONE_MORE)
        before = copy.vectors()
        self.assertEqual(copy.run(), (0, "%d vectors\n" % (len(before) + 1)))
        self.assertEqual(copy.run("--check")[0], 0)
        more = copy.vectors()
        row = more.pop("main_lines.one-more")
        self.assertEqual(more, before)
        self.assertEqual((row["output"], row["plies"]), (HEAD + "\n1. d4 *\n\n", 1))
        table = copy.text("crates/pgn_vectors/src/themes/main_lines.rt")
        self.assertIn('        Vector { name: "one more", mode: Mode::Full, input: "', table)

    def test_a_theme_and_a_table_are_added_in_one_place(self):
        copy = Copy(self)
        text = 'shows = "More."\n\n[words]\nshows = "Words."\n\n' + ONE_MORE
        more = copy.put("vectors/more.toml", text.replace("few_tokens", "words"))
        self.assertEqual(copy.run()[0], 0)
        self.assertIn("more.one-more", copy.vectors())
        themes = copy.text("crates/pgn_vectors/src/themes.rt")
        self.assertIn("mod more;\n", themes)
        self.assertIn("        more::words(),\n", themes)
        wanted = len(re.findall(r"^ {8}\w+::\w+\(\),$", themes, re.MULTILINE))
        self.assertIn("pub fn tables() -> [&'static [Vector]; %d] {" % wanted, themes)
        os.remove(more)
        file = "crates/pgn_vectors/src/themes/more.rt"
        self.assertIn(file + ": not what the data gives\n", copy.run("--check")[1])
        self.assertEqual(copy.run()[0], 0)
        self.assertFalse(os.path.exists(os.path.join(copy.folder, file)))

    def test_each_file_that_differs_is_named(self):
        count = len(programs.vectors())
        for file, old, new, differ in (
                ("vectors/main_lines.toml", '"1. e4 *1. d4', '"1. e4 *1. c4',
                 ["crates/pgn_vectors/src/themes/main_lines.rt", "vectors/vectors.json"]),
                ("crates/pgn_game/src/reason.rt", "Reason::TooDeep => 38", "Reason::TooDeep => 98",
                 ["vectors/vectors.json"]),
                ("crates/pgn_vectors/src/runs.rt", "Converter<64, 33>", "Converter<64, 34>",
                 ["vectors/vectors.json"]),
                ("vectors/vectors.json", '"plies": 85', '"plies": 84', ["vectors/vectors.json"]),
                ("crates/pgn_vectors/src/themes.rt", "        faults::tokens(),\n", "",
                 ["crates/pgn_vectors/src/themes.rt"]),
                ("crates/pgn_vectors/src/themes/faults.rt", "Refused(1,", "Refused(2,",
                 ["crates/pgn_vectors/src/themes/faults.rt"])):
            copy = Copy(self, file, old, new)
            lines = ["%s: not what the data gives\n" % it for it in differ]
            self.assertEqual(copy.run("--check"), (1, "".join(lines) + "%d vectors\n" % count))
            self.assertEqual(copy.run()[0], 0)
            self.assertEqual(copy.run("--check")[0], 0)

    def test_a_row_that_is_not_understood_stops_it(self):
        more = MARKER.replace("marker-alone", "one more")
        for new, why in (
                *((more.replace(it, ""), "no '%s'" % it.split()[0])
                  for it in ("plies = 0\n", 'input = "*"\n', 'name = "one more"\n')),
                (more.replace("plies", "moves"), "no 'plies'"),
                *((more + it, "not expected here: " + it.split()[0])
                  for it in ("moves = 1\n", "at = 1\n", "games = 1\n", "lines = []\n")),
                (more + 'output = "*"\ngames = 1\n', "not expected here: movetext"),
                (more.replace("movetext", "output"), "no 'games'"),
                (more.replace("movetext", "games = 1\noutput").replace(
                    "plies = 0", 'fault = "NotAMove"\nat = 0'), "not expected here: games"),
                (more.replace("plies = 0", 'plies = "0"'), "plies is a number"),
                (more + 'fault = "NoSuchFault"\nat = 0\n', "no 'NoSuchFault'"),
                (more + 'fault = "NotAMove"\nat = 0\n', "not expected here: plies"),
                (more.replace("plies = 0", 'fault = "NotAMove"'), "no 'at'"),
                (more.replace("plies = 0", 'fault = "BadFen"\nat = 0'), "no 'field'"),
                (more.replace('movetext = "*"', 'tags = []'), "not expected here: tags"),
                (more.replace('input = "*"', 'input = "*"\nmode = "short"'), "full or reduced"),
                (more.replace('input = "*"', 'input = 1'), "not iterable"),
                (more.replace("one more", "one-move"), "another row has this name"),
                (more.replace("one more", "Stalemate!"),
                 "not understood: positions.toml: en_passant"),
                (15 * more, "1 to 15 rows"),
                (more.replace("few_tokens", "mine"), "main_lines.toml: mine: no 'shows'"),
                ("[mine]\nshows = 1\n" + more.replace("few_tokens", "mine"), "shows is a text"),
                (more + "plies = 1\n", "Cannot overwrite a value"),
                ("[[few_tokens.rows]\n", "main_lines.toml")):
            copy = Copy(self, "vectors/main_lines.toml", MARKER, MARKER + "\n" + new)
            before = copy.text("vectors/vectors.json")
            status, said = copy.run()
            self.assertEqual(status, 1, (new, said))
            self.assertIn("not understood: ", said)
            self.assertIn(why, said, new)
            self.assertEqual(copy.text("vectors/vectors.json"), before)

    def test_reasons_that_are_not_understood_stop_it(self):
        for old, new in (("Reason::TooDeep => 38", "Reason::TooDeep => deep()"),
                         ('Reason::TooDeep => b"', 'Reason::TooDeep => "')):
            status, said = Copy(self, "crates/pgn_game/src/reason.rt", old, new).run("--check")
            self.assertEqual(status, 1)
            self.assertIn("not each reason has a number and words", said)


class Conform(Folder, unittest.TestCase):
    def conform(self, *words):
        ran = run(["bin/pgn_conform", *words])
        row = rb"^\| ([\w-]+) " + rb"\| (\d+) " * 5 + rb"\|$"
        rows = re.findall(row, ran.stdout, re.MULTILINE)
        totals = [tuple(int(it) for it in row[1:]) for row in rows if row[0] == b"all"]
        return ran.returncode, totals, ran

    def test_our_program_passes(self):
        words = ["--counts", self.program + " check", self.program, "export"]
        status, totals, ran = self.conform(*words)
        self.assertEqual(status, 0, ran.stdout)
        count = len(programs.vectors())
        self.assertEqual(totals[0], (count, count, 0, 0, 0))
        self.assertEqual(totals[1][0], totals[1][1])
        self.assertGreater(totals[1][0], 240)

    def test_our_program_by_file(self):
        full, reduced = (self.program + it for it in (" export {}", " export --reduced {}"))
        found = self.conform("--theme", "variations", "--full", full, "--reduced", reduced)
        count = len(of_theme("variations"))
        self.assertEqual(found[:2], (0, [(count, count, 0, 0, 0)]))

    def test_other_lines_are_layout(self):
        script = '%s export "$@" | sed "/^[^[]/s/ /  /g;s/( /(/g"' % self.program
        words = ["--theme", "main_lines", "--", "bash", "-o", "pipefail", "-c", script, "sh"]
        status, totals, _ = self.conform(*words)
        count = len(of_theme("main_lines"))
        self.assertEqual((status, totals[0][0], totals[0][4]), (1, count, 0))
        # Outputs without a blank between two words are not changed: of no game, and of no move.
        plain = [it for it in of_theme("main_lines") if not it["plies"]]
        self.assertEqual(totals[0][1:3], (len(plain), count - len(plain)))

    def test_a_copy_of_the_input_fails(self):
        found = self.conform("--full", "cat", "--reduced", "", "--theme", "main_lines",
                             "--theme", "faults")
        full = [it for it in of_theme("main_lines", "faults") if it["mode"] == "full"]
        # An empty input alone is its own export.
        self.assertEqual(found[:2], (1, [(len(full), 1, 0, 0, len(full) - 1)]))

    def test_a_program_that_refuses_all(self):
        vectors = of_theme("variations")
        faults = sum("fault" in it for it in vectors)
        self.assertGreater(faults, 10)
        wanted = [(len(vectors), 0, 0, faults, len(vectors) - faults)]
        self.assertEqual(self.conform("--theme", "variations", "false")[1], wanted)
        # A refusal by a line on standard error, with status 0.
        words = ["--refusal", "^bad", "sh", "-c", 'cat >/dev/null; echo "bad thing" >&2']
        self.assertEqual(self.conform("--theme", "variations", *words)[1], wanted)

    def test_the_files(self):
        self.check(run(["bin/pgn_conform", "--files", self.folder]), 0, b"")
        wanted = {"%s.%s" % (it["file"], end): it[field].encode() for it in programs.vectors()
                  for end, field in (("in", "input"), ("out", "output"))}
        found = {it: self.get(it) for it in os.listdir(self.folder)}
        self.assertEqual(found, wanted)
        self.assertEqual(found["faults.2-in-movetext.in"], b"e4 \x01")

    def test_the_table_of_pgn_extract(self):
        programs.need("pgn-extract")
        said = run(["pgn-extract", "--version"])
        if b"v19-04" not in said.stdout + said.stderr:
            programs.not_tried("the table of pgn-extract is that of another version")
        text = text_of("vectors/README.md")
        command = re.search(r"^bin/pgn_conform --refusal (?:.*\\\n)*.*$", text, re.MULTILINE)[0]
        table = programs.output_of(run(["sh", "-c", command]), 1, err=None).decode()
        self.assertIn("| all | %d |" % len(programs.vectors()), table)
        self.assertIn("\n\n" + table + "\n", text, "--record writes it anew")

    def test_the_table_is_recorded(self):
        copy = Copy(self)
        before = copy.text("vectors/README.md")
        ran = run([copy.folder + "/bin/pgn_conform", "--record", "--theme", "limits", "cat"])
        table = programs.output_of(ran, 1).decode()
        self.assertIn("\n| limits | ", table)
        begin, end = ("<!-- bin/pgn_conform --record: %s -->" % it for it in ("begin", "end"))
        head, tail = before.split(begin)[0] + begin, end + before.split(end)[1]
        self.assertEqual(copy.text("vectors/README.md"), head + "\n\n" + table + "\n" + tail)

    def test_one_vector_is_shown_if_it_is_there(self):
        vector = by_file()["main_lines.two-games"]
        given, wanted = vector["input"].encode(), vector["output"].encode()
        for words in (["cat"], ["--theme", "main_lines", "cat"]):
            said = self.conform("--show", vector["file"], *words)[2].stdout.decode()
            self.assertIn("%s: fails\n  input %r\n  wanted %r\n  output %r\n" % (
                vector["file"], given, wanted, given), said)
        for name, words in (("main_lines.x", []), ("main-lines.two-games", []), ("", []),
                            ("main_lines.two-games", ["--theme", "faults"])):
            self.check(self.conform("--show", name, *words, "cat")[2], 2, b"",
                       b"pgn_conform: there is no vector %s\n" % name.encode())

    def test_a_closed_pipe_ends_it_quietly(self):
        with programs.closed_pipe() as closed:
            ran = run(["bin/pgn_conform", "--theme", "limits", "cat"], stdout=closed)
        programs.output_of(ran, 3)

    def test_a_dash_is_a_word_of_the_converter(self):
        for words in (["cat", "-"], ["--", "cat", "-"], ["--full", "cat -"]):
            found, plain = (self.conform("--theme", "main_lines", "--reduced", "", *it)[:2]
                            for it in (words, ["cat"]))
            self.assertEqual(found, plain)

    def test_files_that_cannot_be_written(self):
        """The status is 3, and what is there stays as it is."""
        old = self.put("limits.tag-pairs.in", "old")
        words = ["bin/pgn_conform", "--files"]
        ran = run([*words, self.folder], preexec_fn=programs.files_up_to(64))
        self.check_refused(ran, 3)
        self.assertEqual((os.listdir(self.folder), text_of(old)), (["limits.tag-pairs.in"], "old"))
        self.check_refused(run([*words, old]), 3)

    def test_a_table_that_has_no_place_changes_nothing(self):
        """The status is 3 too if the vectors cannot be read."""
        copy = Copy(self, "vectors/README.md", "<!-- bin/pgn_conform --record: end -->", "")
        before = copy.text("vectors/README.md")
        words = [copy.folder + "/bin/pgn_conform", "--record", "--theme", "limits", "cat"]
        ran = run(words)
        self.assertEqual((ran.returncode, ran.stderr.count(b"\n")), (3, 1))
        os.remove(copy.folder + "/vectors/vectors.json")
        self.check_refused(run(words), 3)
        self.assertEqual(copy.text("vectors/README.md"), before)
