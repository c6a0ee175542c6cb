"""Tests of bench/run: its words, its readers of other tools' output, and its tables. No timing."""
import contextlib
import copy
import glob
import io
import os
import re
import shutil
import sys
import unittest
from unittest import mock

import documents
from programs import ROOT, Folder, load, need, new_folder, not_tried, output_of, run, text_of

sys.dont_write_bytecode = True
sys.path.insert(0, ROOT + "/bench")
import measure
import program
import tables

# The loop has 100 instructions of its own, 30 in memcpy, and calls named_move, which has 50 of its
# own and 20 in allows, of which 5 are in memcpy. The start has 7, and main 3.
CALLGRIND = """# callgrind format
version: 1
creator: by hand
positions: line
events: Ir Bc Bcm Bi Bim
summary: 215 40 6 3 2

ob=(1) /lib/libc.so.6
fl=(1) start.c
fn=(1) (below main)
4 7
cfn=(2) main
calls=1 9
+1 208 40 6 3 2

fl=(2) ???
fn=(2)
0 3
cfn=(3) pgn_game::converter::Converter::feed::<#12ab>
calls=2 0
* 205 40 6 3 2

fn=(3)
0 90 20 2
+2 10
cob=(1)
cfi=(1)
cfn=(4) memcpy
calls=3 5
-1 30 4
cfn=(5) pgn_game::find::named_move
calls=1 0
0 75 10 4 3 2

fn=(5)
0 50 8 3
cfn=(6) chess_rules::legal::allows
calls=4 0
0 25 2 1 3 2

fn=(6)
0 20 2 1 3 2
cfn=(4)
calls=1 5
0 5

fn=(4)
5 35 4
"""
STRACE = """% time     seconds  usecs/call     calls    errors syscall
------ ----------- ----------- --------- --------- ----------------
 60.00    0.000120           3        40           read
 40.00    0.000080           2        44         1 access
------ ----------- ----------- --------- --------- ----------------
100.00    0.000200           2        84         1 total
"""


def figures(wall, instructions, memory=0, mispredictions=0):
    return {"wall": wall, "memory": memory, "instructions": instructions,
            "mispredictions": mispredictions, "parts": {"lexer": 50, "find": 150},
            "inlined": {"lexer": ["Lexer::whole_token"]}}


def archive(name, wall):
    """A made-up result: ours beside figures of 1 s, 4 MiB and 1,000 instructions."""
    return {"name": name, "games": 2000, "bytes": 3_000_000,
            "converters": {"pgn_tool": figures(wall, 200, 1.5, 30),
                           "pgn-extract": figures(1, 1000, 4, 60)},
            "split": {"export": {"wall": 0.5, "calls": 0.25}, "split": {"wall": 4, "calls": 20}},
            "checked": {"export": figures(0.5, 200), "export --checked": figures(1, 390),
                        "check": figures(0.4, 150), "list": figures(0.8, 160)},
            "sizes": [{"bytes": 1_000_000, "wall": 0.05, "instructions": 2_000_000, "memory": 1.5}]}


RESULT = {
    "date": "2001-02-03", "program": "pgn_tool 1.2", "rounds": 4, "other": 0.032,
    "machine": {"processors": 8, "model": "a processor", "debian": "99.1",
                "versions": {"pgn-extract": "1.2-3", "valgrind": "4.5"}},
    "archives": [archive("plain", 0.15), archive("annotated", 0.25)],
    "builds": {("proved", "plain"): 2000, ("Cargo", "plain"): 2300.4, ("dependent", "plain"): 2100,
               ("proved", "server"): 1000, ("Cargo", "server"): 1009, ("dependent", "server"): 1081},
    "stack": {"export": 128, "export --checked": 180, "check": 124, "list": 132},
}
REPORT = """\
- Date: 2001-02-03; the least of 4 rounds
- Program: pgn_tool 1.2
- Machine: 8 processors, a processor; Debian 99.1
- Versions: pgn-extract 1.2-3, valgrind 4.5
- Other work: kept 0.03 of 8 processors busy, on average
| wall time | plain | 0.20 | 0.150 | met |
| wall time | annotated | 0.20 | 0.250 | NOT MET |
| instructions | plain | 0.19 | 0.200 | NOT MET |
| instructions | annotated | 0.22 | 0.200 | met |
| least stack | export | 128 KiB | 128 KiB | met |
| least stack | list | 128 KiB | 132 KiB | NOT MET |
| least stack | export --checked | 192 KiB | 180 KiB | met |
| --checked to export | plain | 2.2 | 2.00 | met |
| Cargo to proved | server | 1.01 | 1.009 | met |
| dependent to proved | plain | 1.08 | 1.050 | met |
### Plain: 2,000 games, 3.0 MB
| pgn_tool | 0.15 | 13333 | 20.0 | 1.5 | 200 | 30 |
| lexer, without `Lexer::whole_token` | 50 | 25.0 % |
| split | 500 | 20.00 |
| export --checked | 2000 | 390 |
| check | 5000 | 150 |
| 1.0 | 0.05 | 50.0 | 2.0 | 1.5 |
### The builds
| instructions a game | plain | ratio | server | ratio |
| proved | 2,000 | 1.000 | 1,000 | 1.000 |
| Cargo | 2,300 | 1.150 | 1,009 | 1.009 |
| dependent | 2,100 | 1.050 | 1,081 | 1.081 |
"""
# A crate of crates.txt: its name, what kind of crate it is, and what it uses.
CRATE = re.compile(r"(?m)^(\w+)(?: \w+)?:(.*)$")


def imported(text):
    """What a source file takes from other crates: pairs of a crate and a name."""
    for crate, names in re.findall(r"\b(\w+)::(\w+|\{[^}]*\}|\*)", re.sub(r"//.*", "", text)):
        for name in names.strip("{}").split(","):
            if name.strip():
                yield crate, name.split()[0]


def shown(root):
    """The names that a crate shows at its root, by its lib.rt."""
    names = re.findall(r"(?m)^pub (?:fn|struct|enum|trait|const|type|mod) (\w+)", root)
    for listed in re.findall(r"(?m)^pub use [\w:]*?(\w+|\{[^}]*\});", root):
        names += [it.split()[-1] for it in listed.strip("{}").split(",") if it.strip()]
    return set(names)


class TheStart(unittest.TestCase):
    """The block of docs/PERF.md that builds the start beside a clone, up to the first build."""

    @classmethod
    def setUpClass(cls):
        need("git", "tar")
        if run(["git", "rev-parse", "HEAD"]).returncode:
            not_tried("this is no repository of git")
        lines = documents.lines_of("docs/PERF.md")
        cls.block = next(inner for _, _, inner in documents.blocks_of(lines)
                         if inner[-1].startswith("bench/run "))
        cls.build = next(at for at, it in enumerate(cls.block) if "rt run" in it)
        cls.start = re.search(r"\b[0-9a-f]{40}\b", lines[0])[0]
        assert run(["git", "cat-file", "-e", cls.start + "^{commit}"]).returncode == 0, \
            "this clone lacks the start, commit %s: git fetch --unshallow" % cls.start
        folder = new_folder(cls)
        cls.new, cls.old = folder + "/new", folder + "/old"
        for words, place in ((["git", "clone", "-q", ROOT, cls.new], ROOT),
                             (["sh", "-ec", "\n".join(cls.block[:cls.build])], cls.new)):
            assert output_of(run(words, cwd=place)) == b"", words

    def test_it_is_the_start(self):
        ran = run(["git", "rev-parse", "HEAD"], cwd=self.old)
        self.assertEqual(ran.stdout.decode(), self.start + "\n")
        for name in ("/bench/run", "/bench/workloads.txt"):
            self.assertEqual(text_of(self.old + name), text_of(self.new + name))

    def test_each_crate_of_its_list_is_there(self):
        listed = dict(CRATE.findall(text_of(self.old + "/crates.txt")))
        self.assertIn("workloads", listed)
        self.assertGreater(len(listed), 10)
        for name in listed:
            self.assertTrue(os.path.isdir("%s/crates/%s/src" % (self.old, name)), name)
        used = {it for name, uses in listed.items() if name != "workloads" for it in uses.split()}
        self.assertLessEqual(set(listed["workloads"].split()), used | set(listed))

    def lacking(self, names):
        """Those of the pairs of a crate and a name that the start does not have at its root."""
        roots = {crate: shown(text_of("%s/crates/%s/src/lib.rt" % (self.old, crate)))
                 for crate in {it for it, _ in names}}
        return [it for it in names if it[1] not in roots[it[0]]]

    def test_the_jobs_call_nothing_that_it_lacks(self):
        uses = dict(CRATE.findall(text_of("crates.txt")))["workloads"].split()
        libraries = [it for it in uses if os.path.isdir("%s/crates/%s" % (ROOT, it))]
        files = glob.glob(ROOT + "/crates/workloads/src/*")
        names = sorted({it for file in files for it in imported(text_of(file))
                        if it[0] in libraries})
        self.assertGreater(len(names), 15)
        self.assertEqual({crate for crate, _ in names}, set(libraries))
        self.assertEqual(self.lacking(names), [])
        # what came later, and a name that nothing has
        later = [("chess_text", "read_uci"), ("pgn_game", "Convert")]
        self.assertEqual(self.lacking([*later, *names]), later)

    def test_the_builds(self):
        """The lines behind: a build in each of the two checkouts, and one comparison."""
        *builds, last = self.block[self.build:]
        self.assertEqual(last, "bench/run ../old . 1")
        found = [re.match(r"\(cd (\S+) && rt run -- [\w ]+ <(\S+)\)$", it) for it in builds]
        self.assertEqual([it and it[1] for it in found],
                         ["../old/crates/workloads", "crates/workloads"])
        for it in found:
            self.assertTrue(os.path.exists(os.path.join(self.new, it[1], it[2])), it[0])


class Words(Folder, unittest.TestCase):
    def test_help(self):
        self.assertIn(b"--record", output_of(run([ROOT + "/bench/run", "--help"])))
        self.assertFalse(os.path.exists(ROOT + "/bench/__pycache__"))

    def test_two_builds_and_words_that_are_rejected(self):
        """Programs that print their words and what they read stand for the builds."""
        for build, prints in (("old", "cat -"), ("new", "cat -"), ("other", "echo other")):
            self.put(build + "/bench/workloads.txt", "# a\nfirst jobs a SEED <in.txt\nnext jobs b\n")
            self.put(build + "/bench/in.txt", "read\n")
            self.put_script(build + "/crates/jobs/out/jobs", "echo $*\n%s\n" % prints)
        call = lambda words: run([ROOT + "/bench/run", *words.split()], cwd=self.folder)
        ran = call("old new 7")
        self.assertEqual((ran.returncode, ran.stderr.split()), (0, [b"a", b"7", b"read", b"b"]))
        rows = [re.match(r"\| (\w+) \| [0-9.]+ \| [0-9.]+ \| [0-9.]+ \|$", it)
                for it in ran.stdout.decode().splitlines()[2:]]
        self.assertEqual([it and it[1] for it in rows], ["first", "next"])
        for status, words, said in (
                (1, "old other", b"first: the two builds print different results"),
                (1, "old none", b"none"), (1, "old new x", b"usage"),
                (1, "old old", b"the same folder"), (2, "speed", b"invalid choice: 'speed'"),
                (2, "--record --program /bin/true", b"leave out --program"),
                (2, "parallel --record --program x", b"leave out --program")):
            ran = call(words)
            is_begun = words in ("old other", "old none")
            self.assertEqual((ran.returncode, bool(ran.stdout)), (status, is_begun), words)
            self.assertIn(said, ran.stderr)

    def test_nothing_is_installed(self):
        """Of the tools only apt-get is there, which would fail, and bench/run does not call it."""
        for name in ("strace", "apt-get"):
            self.put_script(name, "touch %s/called\n" % self.folder)
        with mock.patch.object(measure, "found", lambda it: shutil.which(it, path=self.folder)), \
                mock.patch.dict(os.environ, PATH=self.folder), \
                contextlib.redirect_stderr(io.StringIO()) as told, \
                self.assertRaises(SystemExit) as stopped:
            measure.check_tools(("strace",), ("hyperfine",))
            measure.check_tools(("time", "strace"), ("hyperfine",))
        said = "bench/run: %s; to install: apt-get install --no-install-recommends %s"
        self.assertEqual(told.getvalue(), said % ("hyperfine is missing", "hyperfine")
                         + "; goes on without these figures\n")
        self.assertEqual(stopped.exception.code,
                         said % ("time, hyperfine are missing", "time hyperfine"))
        self.assertFalse(os.path.exists(self.folder + "/called"))


class Measure(unittest.TestCase):
    def test_callgrind(self):
        totals, own, by_call = costs = measure.read_callgrind(CALLGRIND.splitlines(True))
        self.assertEqual(totals, {"Ir": 215, "Bc": 40, "Bcm": 6, "Bi": 3, "Bim": 2})
        loop = "pgn_game::converter::Converter::feed::<#12ab>"
        self.assertEqual(own, {"(below main)": 7, "main": 3, loop: 100, "memcpy": 35,
                               "pgn_game::find::named_move": 50, "chess_rules::legal::allows": 20})
        calls = ((loop, "memcpy"), ("main", loop), ("chess_rules::legal::allows", "memcpy"))
        self.assertEqual([by_call[it] for it in calls], [30, 205, 5])
        spent = {part: it for part, it in measure.by_part(costs).items() if it}
        self.assertEqual(spent, {"converter's loop": 130, "find": 75, "rest": 10})
        missing = measure.inlined(costs)
        self.assertEqual((missing["lexer"], "find" in missing), (["Lexer::whole_token"], False))

    def test_the_difference_of_two_archives(self):
        small = ({"Ir": 1000, "Bcm": 8, "Bim": 2}, {"pgn_lexer::lexer::Lexer::whole_token": 400}, {})
        large = ({"Ir": 3000, "Bcm": 20, "Bim": 6}, {"pgn_lexer::lexer::Lexer::whole_token": 1400}, {})
        spent = measure.difference(small, large, 4)
        self.assertEqual([spent[it] for it in ("Ir", "Bcm", "Bim", "lexer", "find", "rest")],
                         [500, 3, 1, 250, 0, 250])

    def test_the_room_in_memory(self):
        folder = new_folder(self)
        for place, games, has_room in ((folder, 1, True), (folder, 10 ** 15, False),
                                       (folder + "/none", 1, False)):
            with mock.patch.object(program, "IN_MEMORY", place):
                self.assertEqual(program.has_room(__file__, games), has_room)

    def test_strace(self):
        self.assertEqual(measure.read_strace(STRACE.splitlines(True)), 84)

    def test_a_call_that_ends_its_words_with_a_carriage_return(self):
        """Behind these is what `time` says of it."""
        spent = measure.memory(["sh", "-c", "printf 'Games: 1000\\r' >&2"])
        self.assertTrue(0.1 < spent < 100, spent)

    def test_how_much_other_work_there_is(self):
        for after, other in (((10, 27, 9), 0.8), ((10, 17, 7), 0), ((20, 20, 0), 0.5)):
            self.assertEqual(measure.other_work((0, 10, 0), after), other)
        self.assertEqual(measure.other_work((5, 10, 2), (15, 20, 3)), 0.9)

    def test_the_clocks_go_on(self):
        before, after = measure.work(), measure.work()
        self.assertEqual(len(before), 3)
        self.assertTrue(all(a <= b for a, b in zip(before, after)), (before, after))

    def test_other_work_that_stops_it(self):
        for other in (0, 0.19, 0.21, 3):
            measure.check_quiet(other, True)
            said = "other work keeps %.1f processors busy.*--busy" % other
            stops = self.assertRaisesRegex(SystemExit, said)
            with stops if other > 0.2 else contextlib.nullcontext():
                measure.check_quiet(other, False)

    @mock.patch.object(measure, "SECONDS", 0)
    def test_other_work_before_it_begins(self):
        for busy, expected in ((1.9, contextlib.nullcontext()),
                               (2.1, self.assertRaises(SystemExit))):
            answers = [(0, 10, 1), (10, 10 + busy, 1)]
            with mock.patch.object(measure, "work", side_effect=answers) as work, expected:
                measure.wait_for_quiet(False)
            self.assertEqual(work.call_count, 2)


class Tables(unittest.TestCase):
    def test_goals_not_met(self):
        missed = [it[2:] for it in tables.goals(RESULT) if it.startswith("- ")]
        self.assertEqual(missed, ["wall time, annotated: 0.250 instead of 0.20",
                                  "instructions, plain: 0.200 instead of 0.19",
                                  "least stack, list: 132 KiB instead of 128 KiB",
                                  "Cargo to proved, plain: 1.150 instead of 1.01",
                                  "dependent to proved, server: 1.081 instead of 1.08"])

    def test_all_goals_met(self):
        builds = {("Cargo", "plain"): 9, ("dependent", "plain"): 9}
        result = {**RESULT, "archives": [archive("annotated", 0.2)], "stack": {"check": 96},
                  "builds": builds}
        self.assertIn("All goals are met.", tables.goals(result))
        result = {**result, "archives": [archive("archive", 0.9)], "stack": {}}
        self.assertEqual(tables.goals(result), [])

    def test_the_report(self):
        lines = tables.report(RESULT)
        for line in REPORT.splitlines():
            self.assertIn(line, lines)
        self.assertEqual([line for line in lines if len(line) > 100 and line[0] != "|"], [])

    def test_what_could_not_be_measured(self):
        result = {**copy.deepcopy(RESULT), "builds": {}}
        for it in result["archives"]:
            it["sizes"] = []
        result["archives"][0]["split"] = {}
        result["archives"][1]["split"]["split"]["calls"] = None
        text = "\n".join(tables.report(result))
        self.assertNotIn("Cost against size", text)
        self.assertEqual(text.count("| split |"), 1)
        self.assertIn("| split | 500 |  |", text)
        self.assertNotIn("| proved |", text)
        self.assertIn("\n### The builds\n\nThe builds are not compared", text)

    def test_the_summary(self):
        lines = tables.summary(RESULT)
        self.assertEqual(lines, [
            "Measured on 2001-02-03, beside pgn-extract 1.2-3:", "",
            "|  | games a second | wall time | instructions | memory |", "|---|---:|---:|---:|---:|",
            "| plain, 2,000 games, 3.0 MB | 13,300 | 0.15 | 0.20 | 1.5 MiB |",
            "| annotated, 2,000 games, 3.0 MB | 8,000 | 0.25 | 0.20 | 1.5 MiB |"])

    def test_cargo_s_program_beside_the_proved_one(self):
        result = copy.deepcopy(RESULT)
        for it in result["archives"]:
            it["converters"][tables.BY_CARGO] = figures(0.3, 210, 2, 30)
        row = "| pgn_tool by Cargo to pgn-extract | 0.300 |  |  | 0.50 | 0.210 | 0.500 |"
        self.assertEqual(tables.report(result).count(row), 2)
        lines = tables.summary(result)
        self.assertEqual(lines[2], "|  | games a second | wall time | instructions | memory "
                                   "| wall time, by Cargo |")
        self.assertTrue(lines[-1].endswith("| 0.25 | 0.20 | 1.5 MiB | 0.30 |"), lines[-1])

    def test_the_sentence_of_the_manual(self):
        self.assertEqual(tables.least_stack(RESULT)[0],
                         "The least that was measured is 132 KiB, and 180 KiB with --checked,")


class Builds(Folder, unittest.TestCase):
    """How calls are compared, with small programs in place of those that cargo builds."""

    def setUp(self):
        super().setUp()
        patched = mock.patch.multiple(
            measure, archive=self.archive,
            callgrind=lambda words, file: ({"Ir": os.path.getsize(file)}, {}, {}),
            output_of=lambda name: "%s/%s" % (self.folder, name))
        patched.start()
        self.addCleanup(patched.stop)

    def archive(self, style, games):
        return self.put("%s-%d" % (style, games), games * 10 * "a")

    def test_the_instructions_of_a_game(self):
        """What a call must write is a part of what the first one writes."""
        calls = lambda part: {"one": (["cat"], measure.same, measure.same),
                              "two": (["head", "-c", "7"], measure.same, part)}
        spent = measure.instructions(calls(lambda text: text[:7]), ("plain", "server"))
        self.assertEqual(spent, {(name, style): 10 for name in ("one", "two")
                                 for style in ("plain", "server")})
        with self.assertRaisesRegex(SystemExit, "two does not write what it should"):
            measure.instructions(calls(measure.same), ("plain",))

    def test_without_a_cargo(self):
        with mock.patch.object(program, "found", lambda name: None):
            self.assertEqual(program.calls_of_builds(), {})

    def test_a_cargo_that_fails(self):
        with mock.patch.multiple(program, WORKSPACE=self.folder + "/workspace",
                                 found=lambda name: "/bin/false"), \
                contextlib.redirect_stderr(io.StringIO()) as said:
            self.assertEqual(program.calls_of_builds(), {})
        self.assertIn("cargo failed; goes on without", said.getvalue())


class Records(Folder, unittest.TestCase):
    def record(self, name, text, lines, script="bench/run"):
        """The text of the file afterwards, which is the only one in the folder."""
        path = self.put(name, text)
        try:
            tables.record(path, lines, script)
        finally:
            self.assertEqual(os.listdir(self.folder), [name])
        return text_of(path)

    def test_a_document(self):
        form = "Before.\n\n<!-- bench/run --record: begin -->\n%s<!-- bench/run --record: end -->\nAfter.\n"
        for old in ("", "\nan old line\n\n"):
            self.assertEqual(self.record("A.md", form % old, ["| a |", "b"]), form % "\n| a |\nb\n\n")

    def test_the_manual(self):
        form = '.It stack\n.\\" bench/run --record: begin\n%s\n.\\" bench/run --record: end\n.El\n'
        self.assertEqual(self.record("a.1", form % "old", ["new", "lines"]), form % "new\nlines")

    def test_markers_that_do_not_fit(self):
        begin, end = ("<!-- bench/run --record: %s -->\n" % it for it in ("begin", "end"))
        # each table has its own
        others = (begin + end).replace("run", "run calls")
        self.assertIn("\nb\n", self.record("A.md", others, ["b"], "bench/run calls"))
        for text in ("", begin, end, end + begin, begin + begin + end, begin + end + end, others):
            self.assertRaises(ValueError, self.record, "A.md", text, ["b"])
            self.assertEqual(self.get("A.md").decode(), text)

    def test_the_documents_have_their_markers(self):
        script = load("bench/run")
        for name, table in script.TABLES.items():
            for path, _ in table.RECORDS:
                self.folder = new_folder(self)
                after = self.record(os.path.basename(path), text_of(path), ["one new line"],
                                    script.marker_of(name))
                self.assertIn("\none new line\n", after)
