"""Runs the console blocks of the documents, and compares all that they show. Tests links too.

A console block is a fenced block with a line that begins with '$ '. docs/CONTRIBUTING.md says what
such a block may have ("Change a document"). One that needs a network, another machine, a file of
the reader or minutes is not run.
"""
import difflib
import glob
import os
import re
import shlex
import shutil
import unittest

import programs
from documents import blocks_of, code_of, documents, is_console, lines_of, prose_of, table
from programs import ROOT, bytes_of, on_a_terminal, output_of, run, text_of

MARK = re.compile(r"<!-- *not run\b:? *(.*?) *-->")
LINK = re.compile(r"\[(?:[^\]`]|`[^`]*`)*\]\(([^)\s]+)\)")
BUILT = ["%s/%s" % (ROOT, it) for it in (
    "crates/pgn_tool/out/pgn_tool", "crates/pgn_c/out/libpgn_c.a", "crates/pgn_c/out/libpgn_c.so",
    "cargo/out/pgn_tool", "cargo/out/libpgn_c.a", "cargo/out/libpgn_c.so")]
# What each crate uses, by crates.txt.
USES = {it.split(":")[0].split()[0]: it.split(":")[1].split()
        for it in lines_of("crates.txt") if it and not it.startswith("#")}
# Shows a command, and leaves the status of the one before as it is.
SAY = 'say() { set -- "$?" "$1"; printf "%s\\n" "$2"; return "$1"; }'


def script_of(lines):
    """The commands, each of which is shown before it runs."""
    words, command = [SAY], []
    for line in lines:
        if line.startswith("$ ") or command:
            command.append(line)
        if command and not line.endswith("\\"):
            words.append("say " + shlex.quote("\n".join(command)))
            words.append("\n".join(command)[2:])
            command = []
    return "\n".join(words) + "\n"


def agrees(lines, shown):
    """Whether a terminal that shows this text shows what the lines say."""
    form = ""
    for line in lines:
        if line == "...":
            form += r"(?:.*\n)*?"
        elif line.endswith(" ..."):
            form += re.escape(line[:-3]) + r".*\n"
        else:
            form += re.escape(line + "\n")
    return re.fullmatch(form, shown) is not None


class Home:
    """A home folder with a copy of the repository, and what is built of it."""

    def __init__(self, test):
        folder = programs.new_folder(test)
        self.path, self.copy = folder + "/me", folder + "/me/gillspoon"
        skipped = shutil.ignore_patterns(".git", "out", "__pycache__")
        shutil.copytree(ROOT, self.copy, ignore=skipped, symlinks=True)
        shutil.copy(self.copy + "/examples/two-games.pgn", self.copy + "/games.pgn")
        for options, what in (([], "program"), (["--library"], "library")):
            if not programs.printed_by_build(*options):
                programs.not_tried("the %s cannot be built" % what)
        for file in filter(os.path.exists, BUILT):
            to = os.path.join(self.copy, os.path.relpath(file, ROOT))
            os.makedirs(os.path.dirname(to), exist_ok=True)
            shutil.copy2(file, to)  # as old as it is: one that is older than a source is not run

    def shown(self, lines):
        """What a terminal shows of the commands of a console block."""
        real = os.path.expanduser("~")
        env = dict(os.environ, HOME=self.path, PATH=self.copy + "/bin:" + programs.PATH,
                   TERM="dumb", LC_ALL="C.UTF-8")
        env.pop("PGN_TOOL", None)
        for name in ("cargo", "rustup"):  # they keep their own files in the real home folder
            env.setdefault(name.upper() + "_HOME", real + "/." + name)
        words = ["timeout", "300", "sh", "-c", script_of(lines)]
        return on_a_terminal(words, cwd=self.copy, env=env).replace(self.path, "/home/me")


class Console(unittest.TestCase):
    def test_blocks(self):
        for document in documents():
            blocks = [it for it in blocks_of(lines_of(document)) if is_console(it[2])]
            home = Home(self) if blocks else None
            for number, _, lines in (it for it in blocks if not MARK.fullmatch(it[1].strip())):
                with self.subTest("%s:%d" % (document, number)):
                    if any("examples/build" in it for it in lines):
                        programs.need("cc")
                    if any("bin/try_allocations" in it for it in lines):
                        programs.need_proved_program()
                    shown = home.shown(lines)
                    differences = difflib.unified_diff(lines, shown.split("\n")[:-1],
                                                       "the document", "the terminal", lineterm="")
                    self.assertTrue(agrees(lines, shown), "\n" + "\n".join(differences))

    def test_marks(self):
        """Each has a reason, and is on the line before a console block, of which there are some."""
        found = [it for document in ("README.md", "docs/TOOLS.md")
                 for it in blocks_of(lines_of(document)) if is_console(it[2])]
        self.assertGreater(len(found), 5)
        for document in documents():
            lines = lines_of(document)
            starts = {number for number, _, inner in blocks_of(lines) if is_console(inner)}
            for number, line in enumerate(prose_of(lines), 1):
                if re.search(r"<!--.*not.run", line):
                    with self.subTest("%s:%d" % (document, number)):
                        found = MARK.fullmatch(line.strip())
                        self.assertTrue(found and found[1], "a mark without a reason")
                        self.assertIn(number + 1, starts, "a mark without a console block")


class Itself(unittest.TestCase):
    """The reader of this test, on made documents."""

    TEXT = ["a", "```sh", "$ no output", "```", "<!-- not run: why -->", "```", "b", "```", "$ c"]

    def test_blocks(self):
        self.assertEqual(list(blocks_of(self.TEXT)), [(2, "a", ["$ no output"]),
                                                      (6, "<!-- not run: why -->", ["b"])])
        self.assertEqual(prose_of(self.TEXT),
                         ["a", "", "", "", "<!-- not run: why -->", "", "", "", "$ c"])
        self.assertEqual([is_console(it[2]) for it in blocks_of(self.TEXT)], [True, False])

    def test_what_agrees(self):
        lines = ["$ a", "b", "...", "c ...", "d"]
        for shown in ("$ a\nb\nc \nd\n", "$ a\nb\nx\n\ny\nc z\nd\n"):
            self.assertTrue(agrees(lines, shown), shown)
        for shown in ("$ a\nb\nc \nd", "$ a\nb\nc \nd\n\n", "$ a\nx\nb\nc \nd\n", "$ a\nb\nc\nd\n",
                      "$ a\nb\nc x\n", ""):
            self.assertFalse(agrees(lines, shown), shown)
        self.assertFalse(agrees(["1. e4 e5 2. d4... *"], "1. e4 e5 2. d4 exd4 *\n"))

    def test_what_is_shown(self):
        for lines in (["$ echo a; echo b >&2", "a", "b", "$ false", "$ echo $?", "1"],
                      ["$ echo a \\", "    b", "a b", "$ cd /", "$ pwd", "/"],
                      ["$ printf 'a\\r\\n'", "a\r"], ["$ test -t 1 && test -t 2 && echo yes", "yes"],
                      ["$ echo $?", "0", "$ (exit 7)", "$ echo $?", "7"],
                      ["$ '%s' \"'\" 2>/dev/null; echo $?", "127"]):
            shown = on_a_terminal(["sh", "-c", script_of(lines)])
            self.assertEqual(shown.split("\n"), [*lines, ""])
        # prose is not run
        self.assertEqual(on_a_terminal(["sh", "-c", script_of(["echo a", "b"])]), "")

    def test_anchors_and_links(self):
        lines = ["# A `b_c`, d!", "## [E-f](g) / h", "```", "# i", "```", "## A b_c d", "##### É. 1"]
        self.assertEqual(anchors_of(lines), {"a-b_c-d", "e-f--h", "a-b_c-d-1", "é-1"})
        lines = ["[a](b) and [`[c](d)`](e#f)", "`[g](h)` [i", "j](k)", "```", "[l](m)", "```", "(n)"]
        self.assertEqual(links_of(lines), ["b", "e#f", "k"])


def anchors_of(lines):
    """The anchors of the headings, by the rule of GitHub."""
    found, counts = set(), {}
    for line in prose_of(lines):
        heading = re.match(r"#{1,6} +(.*?)[ #]*$", line)
        if heading:
            text = re.sub(r"\[([^\]]*)\]\([^)]*\)", r"\1", heading[1]).lower()
            name = re.sub(r"[^\w -]", "", text).replace(" ", "-")
            count = counts[name] = counts.get(name, -1) + 1
            found.add("%s-%d" % (name, count) if count else name)
    return found


def links_of(lines):
    """The targets of the links, of which none in code is one."""
    text = "\n".join(prose_of(lines))
    found = LINK.findall(text)
    in_code = {it for code in re.findall(r"`[^`]+`", text) for it in LINK.findall(code)}
    return [it for it in found if it not in in_code]


class Links(unittest.TestCase):
    def test_files_and_anchors(self):
        links = [(document, it) for document in documents()
                 for it in links_of(lines_of(document)) if not re.match(r"[a-z]+:", it)]
        self.assertGreater(len(links), 50)
        for document, link in links:
            path, _, anchor = link.partition("#")
            place = os.path.join(os.path.dirname(document), path)
            file = os.path.normpath(place) if path else document
            with self.subTest("%s: %s" % (document, link)):
                self.assertFalse(file.startswith(".."), "it leaves the repository")
                self.assertTrue(os.path.exists(os.path.join(ROOT, file)), "there is no such file")
                if anchor:
                    self.assertIn(anchor, anchors_of(lines_of(file)), "there is no such heading")


class Names(unittest.TestCase):
    """What the documents name in code is in the repository, and what they list is all of it."""

    def words(self, *folders):
        """Every word of the files below the folders, and of the names of these files."""
        ran = run(["git", "ls-files", "--cached", "--others", "--exclude-standard", "--", *folders])
        found, listed = set(), ran.stdout.decode()
        for name in listed.split("\n")[:-1]:
            path = os.path.join(ROOT, name)
            if os.path.isfile(path) and not name.endswith(".md"):
                found.update(re.findall(r"\w+", name))
                found.update(re.findall(r"\w+", bytes_of(path).decode(errors="replace")))
        return found

    def test_names_are_of_the_repository(self):
        # the last is of the toolchain's std
        known = self.words(".") | {"BufWriter"}
        for document in ("ARCHITECTURE", "DECISIONS", "GLOSSARY", "LIBRARY", "PERF", "PROVED"):
            lines = prose_of(lines_of("docs/%s.md" % document))
            unknown = [(number, it) for number, line in enumerate(lines, 1)
                       for it in code_of(line) if it not in known]
            self.assertEqual(unknown, [], document)

    def test_rows_name_what_their_crate_has(self):
        """Functions and clauses of a row of the ledger are of its crates, or of those they use."""
        crates, found, unknown = [], 0, []
        for number, line in enumerate(lines_of("docs/PROVED.md"), 1):
            if line.startswith("## "):
                crates = code_of(line)
                used = {it for crate in crates for it in [crate, *USES[crate]]}
                known = self.words(*("crates/" + it for it in used))
            elif crates and line.startswith("| "):
                found += 1
                names = code_of(line.rsplit(" | ", 1)[1])
                unknown += [(number, it) for it in names if it not in known]
        self.assertEqual(unknown, [])
        self.assertGreater(found, 100)

    def test_crates(self):
        rows = table("docs/ARCHITECTURE.md", "Crate", "What it does", "Uses")
        self.assertEqual({code_of(it[0])[0]: code_of(it[2]) for it in rows}, USES)
        # those of a crate that uses the library
        lines = [it for _, _, inner in blocks_of(lines_of("docs/LIBRARY.md")) for it in inner]
        for name in ("chess_rules", "chess_text", "pgn_layout", "pgn_lexer", "pgn_game"):
            self.assertIn(" ".join([name + ":", *USES[name]]), lines)

    def test_the_first_line_of_a_file_says_what_it_has(self):
        """ARCHITECTURE lists no files for that reason. Specs are definitions or bookkeeping."""
        for files, least, form in (
                ("crates/*/src/**/*.rt", 100, r"^//!? [A-Z]\w*\W+\w"),
                ("crates/*/specs/**/*.antt", 50, r"^-- \*\*(Definition|Bookkeeping)\*\*")):
            paths = glob.glob(files, root_dir=ROOT, recursive=True)
            self.assertGreater(len(paths), least)
            wrong = [it for it in paths if not re.search(form, lines_of(it)[0])]
            self.assertEqual([it for it in wrong if os.path.basename(it) != "Lib.antt"], [])

    def test_the_tables_are_what_their_sources_give(self):
        output_of(run(["bin/write_tables", "--check"]))

    def test_the_first_page_is_short(self):
        self.assertLessEqual(len(lines_of("README.md")) - 1, 200)


class Way(unittest.TestCase):
    """The calls from `main` to a written letter, as ARCHITECTURE draws them."""

    def functions(self):
        """For each function, by its crate and name, the words of its text that call something."""
        found = {}
        for path in glob.glob(ROOT + "/crates/*/src/**/*.rt", recursive=True):
            crate = os.path.relpath(path, ROOT).split(os.sep)[1]
            parts = re.split(r"\bfn (\w+)", text_of(path))
            for name, text in zip(parts[1::2], parts[2::2]):
                calls = set(re.findall(r"(\w+)(?:::<[^>]*>)?\(", text))
                found.setdefault((crate, name), set()).update(calls)
        return found

    def drawn(self):
        """The depth, the name and the crate of each line of the drawing."""
        lines = next(inner for _, _, inner in blocks_of(lines_of("docs/ARCHITECTURE.md"))
                     if inner[0].startswith("main "))
        for line in lines:
            name = re.search(r"\w+", line)
            yield name.start() // 3, name[0], line[name.end():].split()[0]

    def test_each_calls_those_below_it(self):
        functions, above, count = self.functions(), [], 0
        for depth, name, crate in self.drawn():
            with self.subTest(name):
                self.assertIn((crate, name), functions)
                reached = {above[depth - 1]} if depth else {(crate, name)}
                for _ in range(6):  # five functions may only pass a call on
                    reached |= {(there, call) for here, it in reached
                                for call in functions[here, it]
                                for there in [here, *USES[here]] if (there, call) in functions}
                self.assertIn((crate, name), reached)
            above[depth:] = [(crate, name)]
            count += 1
        self.assertLess(12, count)
