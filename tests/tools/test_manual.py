"""Tests of the manual pages and of the completions: against the programs and their sources."""
import glob
import os
import re
import unittest

import programs
import test_library
from programs import ROOT, Folder, output_of, run, text_of

PAGE, COMMAND_PAGE, LIBRARY_PAGE = (ROOT + "/share/man/man%s" % it for it in (
    "1/pgn_tool.1", "1/gillspoon.1", "3/pgn_c.3"))
COMMAND_PAGES = {"pgn_tool": PAGE, "gillspoon": COMMAND_PAGE}
SUBCOMMANDS = ("lint", "fmt", "where", "sieve")
# What has completions beside pgn_tool; pgn_conform is not installed, so it has no page.
COMPLETED = (("gillspoon",), *(("gillspoon", it) for it in SUBCOMMANDS), ("pgn_conform",))
COMPLETIONS = ROOT + "/share/completions/"
# What zsh reads first: each word that it offers goes to a file.
ZSHRC = r"""fpath=(%s $fpath)
autoload -Uz compinit
compinit -u -d dump
compadd() {
    local -a words
    if [[ ${@[1,(i)(-|--)]} != *-(O|A|D)\ * ]]; then
        builtin compadd -A words "$@"
        print -rl -- $words >>words
    fi
    builtin compadd "$@"
}
"""
GAMES = "for n in $(seq 9000); do echo '1. e4 *'; done"
# What a shell says of a process that a signal ended: 11, or 6, which Rust sends itself.
KILLED = (-11, 128 + 11, -6, 128 + 6)


def section(page, name):
    return re.search(r"^\.Sh %s\n(.*?)(?=^\.Sh |\Z)" % name, text_of(page), re.M | re.S)[1]


def help_of(name, *words):
    program = programs.need_program() if name == "pgn_tool" else "bin/" + name
    return output_of(run([program, *words, "--help"])).decode()


def rows_of(text, head):
    return re.search(r"^%s:\n((?:  .*\n?)+)" % head, text, re.M)[1]


def commands():
    return re.findall(r"^  (\w+)", rows_of(help_of("pgn_tool"), "Commands"), re.M)


def options(name, *words):
    """The options that the help lists, `--help` too: the long ones of pgn_tool, else all."""
    text = help_of(name, *words)
    if name == "pgn_tool":
        return sorted(re.findall(r"--[\w-]+", rows_of(text, "Options")))
    listed = re.findall(r"^  (-.*?)(?:  .*)?$", rows_of(text, "options"), re.M)
    return sorted(re.findall(r"(?<![\w-])--?[\w-]+", "\n".join(listed)))


def blocks_of(text):
    return re.findall(r"^\.Bd -literal.*?\n(.*?)^\.Ed", text, re.M | re.S)


class Shell(Folder, unittest.TestCase):
    def shell(self, script, run=run):
        return super().shell(script, run, "bash", NO_COLOR="1", LC_ALL="C.UTF-8")


class Page(Shell):
    def test_every_fault_is_there(self):
        rows = re.findall(r"^\.It (\d+) Em (.*)$", section(PAGE, "DIAGNOSTICS"), re.M)
        reasons = programs.load("bin/write_vectors").reasons().values()
        wanted = {number: words + "N" * (number == 26) for _, number, words in reasons}
        self.assertEqual([(int(number), words) for number, words in rows], sorted(wanted.items()))

    def test_every_command_and_option_is_there_and_what_the_help_says_of_it(self):
        page = text_of(PAGE)
        words = re.sub(r"\s+", " ", re.sub(r"^\.(?:Nm|Pa) ?", "", page, flags=re.M))
        text = help_of("pgn_tool")
        helped = dict(re.findall(r"^  (\w+) +(.*)$", rows_of(text, "Commands"), re.M))
        self.assertEqual(list(helped), commands())
        self.assertEqual(re.findall(r"^\.Cm (\w+)", section(PAGE, "SYNOPSIS"), re.M), commands())
        for command, about in helped.items():
            row = re.search(r"^\.It Cm %s (.*)$" % command, page, re.M)[1]
            said = ["-" + it for it in re.findall(r"Fl (-[\w-]+)", row)]
            self.assertEqual(sorted([*said, "--help"]), options("pgn_tool", command), command)
            self.assertIn(about, words)
            self.assertEqual(help_of("pgn_tool", command).split("\n")[0], about)
        about = text.split("\n")[0]
        self.assertIn(about[0].lower() + about[1:] + ".", words)

    def test_the_version(self):
        said = re.search(r"^\.Ql (pgn_tool [\d.]+) \.$", text_of(PAGE), re.M)[1]
        for word in ("-V", "--version"):
            self.check(run([programs.need_program(), word]), 0, said.encode() + b"\n", b"")

    def test_no_warnings_of_mandoc(self):
        programs.need("mandoc")
        for path in (PAGE, COMMAND_PAGE, LIBRARY_PAGE):
            ran = run(["mandoc", "-Tlint", path])
            lines = (ran.stdout + ran.stderr).decode().splitlines()
            # What is installed on this machine, and its index, are no matter of this page.
            elsewhere = ("mandoc.db", "referenced manual not found")
            self.assertEqual([it for it in lines if not any(say in it for say in elsewhere)], [])

    def test_no_warnings_of_groff(self):
        programs.need("groff")
        if b"DIAGNOSTICS" not in run(["groff", "-P-cbu", "-mandoc", "-Tascii", PAGE]).stdout:
            programs.not_tried("groff has no mdoc macros")
        for path in (PAGE, COMMAND_PAGE, LIBRARY_PAGE):
            for device in ("ascii", "utf8"):
                output_of(run(["groff", "-ww", "-mandoc", "-T" + device, path]))

    def test_man_shows_each_page(self):
        programs.need("man")
        for page in COMMAND_PAGES.values():
            self.assertIn(b"EXIT STATUS", output_of(run(["man", "-l", page])))

    def test_the_pages_name_one_another_and_no_file_that_is_not_installed(self):
        for name, page in COMMAND_PAGES.items():
            named = re.findall(r"^\.Xr (pgn_tool|gillspoon) 1", section(page, "SEE ALSO"), re.M)
            self.assertEqual(named, sorted({*COMMAND_PAGES} - {name}))
            text = re.sub(r'^\.\\".*', "", text_of(page), flags=re.M)
            self.assertNotRegex(text, r"\b(?:bin|docs|examples|vectors|crates)(?:/|\n)")

    def test_the_examples_are_real(self):
        """Each block is run as a script, and shows what a terminal would."""
        tried = 0
        for page in COMMAND_PAGES.values():
            for block in blocks_of(section(page, "EXAMPLES")):
                block = block.replace("\\e", "\\").replace("\\(en", "\u2013")
                if block.startswith("$ parallel"):
                    continue
                script = "".join(re.findall(r"^\$ (.*\n)", block, re.M))
                shown = "".join(re.findall(r"^(?!\$ ).*\n", block, re.M))
                self.assertEqual(self.shell(script, programs.on_a_terminal), shown, script)
                tried += 1
        self.assertEqual(tried, 6)

    def test_the_example_of_a_compressed_archive(self):
        programs.need("zstd")
        self.shell("zstd -q %s/examples/two-games.pgn -o games.pgn.zst" % ROOT)
        ran = self.shell(re.search(r"^\.Dl \$ (zstd .*)$", text_of(PAGE), re.M)[1])
        self.assertRegex(ran.stdout, rb"\A(\S+ [wb] \S+ \S+ \d+ \d+\n){2}\Z")

    def test_the_example_of_parallel(self):
        programs.need("parallel")
        block = re.search(r"^\$ (parallel .*?)^\.Ed", text_of(PAGE), re.M | re.S)[1]
        self.put("games.pgn", '[Event "x"]\n\n1. e4 {a word} e5 *\n\n' * 2000)
        ran = self.shell(block.replace("\\e", "\\").replace("10M", "10k"))
        self.assertEqual((ran.returncode, ran.stdout), (0, b""), ran.stderr)
        output_of(self.shell("pgn_tool export games.pgn | cmp - export.pgn"))
        self.assertGreater(os.path.getsize(self.folder + "/export.pgn"), 100000)

    def test_statuses(self):
        self.assertEqual(self.shell("pgn_tool check --reduced").returncode, 2)
        self.put("games", "*\n")
        for words in ("export missing", "check .", "check - <games"):
            self.check(self.shell("pgn_tool " + words), 1, b"", b"byte 0: input cannot be read\n")

    def test_caveats_of_the_file_that_is_read(self):
        ran = self.shell("echo '1. e4 *' > F; pgn_tool export F > F")
        self.assertEqual((ran.returncode, self.get("F")), (0, b""))
        grown = self.shell(GAMES + " > F; ulimit -f 20000; trap '' XFSZ; pgn_tool export F >> F")
        self.assertEqual(grown.returncode, 1)
        self.assertIn(b"output cannot be written", grown.stderr)
        # One export of these games has less than a megabyte.
        self.assertGreater(os.path.getsize(self.folder + "/F"), 19000 * 1024)

    def test_caveats_of_output(self):
        ran = self.shell(GAMES + " | pgn_tool export > /dev/full")
        self.assertEqual(ran.returncode, 1)
        # The first block of 64 KiB of output is that of some 700 games, 8 bytes of input each.
        place = int(re.fullmatch(rb"byte (\d+): output cannot be written\n", ran.stderr)[1])
        self.assertTrue(600 * 8 < place < 800 * 8, place)
        ran = self.shell("set -o pipefail; (%s | pgn_tool export) | head -n 1" % GAMES)
        self.assertEqual(ran.returncode, 1)
        self.assertIn(b"output cannot be written", ran.stderr)

    def test_the_stack(self):
        size = int(re.search(r"^\.It stack\n(\d+) KiB", text_of(PAGE), re.M)[1])
        output_of(run(["bin/pgn_conform", "--files", self.folder]))
        self.assertEqual(len(glob.glob(self.folder + "/*.in")), len(programs.vectors()))
        script = "ulimit -s %d; for file in *.in; do" \
            " for words in export 'export --checked' check list; do" \
            " pgn_tool $words $file >/dev/null 2>&1; [ $? -le 1 ] || exit 1; done; done"
        self.assertEqual(self.shell(script % size).returncode, 0)
        self.assertIn(self.shell("ulimit -s 24; echo '*' | pgn_tool export").returncode, KILLED)

    def test_the_memory(self):
        programs.need("time")
        game = '[Event "x"]\\n\\n1. e4 {a word} e5 *\\n\\n'
        ran = self.shell("for n in $(seq 40000); do printf '%s'; done > F;"
                         " $(type -P time) -f %%M pgn_tool export F >/dev/null" % game)
        self.assertEqual(ran.returncode, 0)
        self.assertLess(int(ran.stderr.split()[-1]), 3000)


class LibraryPage(Folder, unittest.TestCase):
    def test_every_call_and_every_status_is_there(self):
        calls, declared = {}, test_library.declared()
        for result, text in re.findall(r"^\.Ft (\w+)\n(.*(?:\n\.Fa .*|\n\.Fc)*)",
                                       section(LIBRARY_PAGE, "SYNOPSIS"), re.M):
            name = re.match(r"\.F[no] (\w+)", text)[1]
            calls[name] = (result, test_library.types_of(re.findall('"(.*?)"', text)))
        self.assertEqual(calls, declared)
        enum = re.search(r"enum \{\s*(PGN_OK.*?)\}", test_library.bare_header(), re.S)[1]
        for form, part, names in ((r"^\.Nm (\w+)", "NAME", calls),
                                  (r"^\.It Fn (\w+)", "DESCRIPTION", calls),
                                  (r"^\.It Dv (\w+)", "RETURN VALUES",
                                   re.findall(r"PGN_\w+", enum))):
            self.assertEqual(re.findall(form, section(LIBRARY_PAGE, part), re.M), list(names), part)

    def test_the_example(self):
        programs.need("cc")
        text, said = blocks_of(section(LIBRARY_PAGE, "EXAMPLES"))
        self.put("example.c", text)
        words = ["cc", "-std=c99", "-Wall", "-Wextra", "-Werror", "example.c", "-o", "example"]
        output_of(run([*words, "-I%s/crates/pgn_c" % ROOT, programs.need_library("--cargo")],
                      cwd=self.folder))
        self.check(run([self.folder + "/example"]), 0, said.encode())


class Command(Folder, unittest.TestCase):
    """What the help of gillspoon says is in its page, and the other way round."""

    def test_options(self):
        parts = re.split(r"^\.Ss (\w+)\n", section(COMMAND_PAGE, "DESCRIPTION"), flags=re.M)
        described = dict(zip(parts[1::2], parts[2::2]))
        self.assertEqual(list(described), list(SUBCOMMANDS))
        synopsis = re.split(r"^\.Nm\n", section(COMMAND_PAGE, "SYNOPSIS"), flags=re.M)
        shared = self.rows(parts[0])
        for name in SUBCOMMANDS:
            text = help_of("gillspoon", name)
            listed = re.findall(r"^  (-.*?)(?:  .*)?$", rows_of(text, "options"), re.M)
            # one row can have two options
            helped = {word for it in listed for word in it.split(", ")}
            own = self.rows(described[name])
            self.assertTrue(own <= helped, (name, own - helped))
            self.assertEqual(helped - own - shared, set(), name)
            usage = re.search(r"usage: (.*?)\n\n", text, re.S)[1]
            mine = "".join(it for it in synopsis if it.startswith(".Cm %s\n" % name))
            self.assertEqual(
                sorted(set(re.findall(r"Fl (-?[\w-]+)", mine))),
                sorted(set(re.findall(r"(?<![\w-])-(-?[\w-]+)", usage)) - {"h", "-version"}), name)
            for word in re.findall(r"\b[A-Z]+\b", usage):
                self.assertIn(word, mine)
        known = {it for name in SUBCOMMANDS for it in options("gillspoon", name)}
        self.assertLessEqual({it.split()[0] for it in shared}, known)

    def rows(self, text):
        """The options that rows of a page describe, each with its word."""
        named = re.findall(r"^\.It (Fl .*)$", text, re.M)
        rows = [it.replace("Fl ", "-").replace("Ar ", "") for it in named]
        return {word for it in rows for word in it.split(" , ")}

    def test_versions(self):
        wanted = run([programs.need_program(), "--version"]).stdout.split()[1]
        for name, *words in COMPLETED:
            said = b"%s %s\n" % (name.encode(), wanted)
            self.check(run(["bin/" + name, *words, "--version"]), 0, said)

    def test_statuses_and_environment(self):
        for name, row, text in (
                ("status", r"^\.It (\d+)$", section(COMMAND_PAGE, "EXIT STATUS")),
                ("environment", r"^\.It Ev (\w+)$", text_of(COMMAND_PAGE))):
            for words in COMPLETED[:-1]:
                helped = re.findall(r"^  (\w+)  ", rows_of(help_of(*words), name), re.M)
                self.assertEqual(re.findall(row, text, re.M), helped, words)


class Completions(Shell):
    """The words that a shell completes as the last one of a line."""

    FILE = ["some games.pgn"]

    def setUp(self):
        super().setUp()
        self.put(self.FILE[0], "")

    def check_words(self, completed, *rows):
        """Each row has words, and lines that are completed so."""
        for wanted, *lines in rows:
            for line in lines:
                self.assertEqual(completed(line), wanted, line)

    def check_options(self, completed, calls, begin):
        for words in calls:
            line = " ".join([*words, begin])
            self.assertEqual(completed(line), options(*words), line)

    def bash(self, line):
        words = line.split(" ")
        script = 'source %s%s.bash; COMP_WORDS=("$@"); COMP_CWORD=$(($# - 1)); _%s;' \
            ' printf "%%s\\n" "${COMPREPLY[@]}"' % (COMPLETIONS, words[0], words[0])
        ran = run(["bash", "-c", script, "sh", *words], cwd=self.folder)
        return sorted(it for it in output_of(ran).decode().split("\n") if it)

    def test_bash(self):
        programs.need("bash")
        calls = [["pgn_tool", it] for it in commands()]
        self.check_options(self.bash, [["pgn_tool"], *calls], "--")
        self.check_options(self.bash, COMPLETED, "-")
        for words in COMPLETED:
            self.assertIn("--version", options(*words))
            if words != ("gillspoon",):
                self.check_words(self.bash, (self.FILE, " ".join(words) + " some"))
        self.assertIn("--sarif", options("gillspoon", "lint"))
        self.check_words(
            self.bash, (sorted(commands()), "pgn_tool "), (sorted(SUBCOMMANDS), "gillspoon "),
            (self.FILE, "pgn_tool check some", "pgn_tool export --reduced s",
             "gillspoon lint --board some", "gillspoon fmt --output s", "gillspoon sieve --good s",
             "gillspoon sieve a --bad s", "pgn_conform --files s", "pgn_conform cat s",
             "pgn_conform --theme x --list cat s", "pgn_conform cat - s"),
            ([], "gillspoon lint --max s", "gillspoon fmt --stdin-name s", "gillspoon sieve -j s",
             "gillspoon fmt --exclude s", "pgn_conform --full s", "pgn_conform --list --theme ",
             "pgn_conform cat --th"),
            (["always", "auto"], "gillspoon where --color a"))

    def fish(self, line):
        script = "source %s%s.fish; complete -C '%s'" % (COMPLETIONS, line.split()[0], line)
        env = dict(os.environ, HOME=self.folder, XDG_CONFIG_HOME=self.folder)
        ran = run(["fish", "-c", script], cwd=self.folder, env=env)
        return sorted(it.split("\t")[0] for it in ran.stdout.decode().splitlines())

    def test_fish(self):
        programs.need("fish")
        self.put("games.pgn", "")
        self.check_options(self.fish, [["pgn_tool", it] for it in commands()], "--")
        self.check_options(self.fish, COMPLETED, "-")
        self.check_words(
            self.fish, (sorted(commands()), "pgn_tool "), (sorted(SUBCOMMANDS), "gillspoon "),
            (["games.pgn"], "pgn_tool list ga", "gillspoon sieve --bad ga", "gillspoon fmt ga"))

    def zsh(self, line):
        """It runs on a terminal, in a new folder."""
        folder = programs.new_folder(self)
        for name, text in (("some games.pgn", ""), ("words", ""), (".zshrc", ZSHRC % COMPLETIONS)):
            programs.write_file(folder + "/" + name, text)
        # when it edits a line
        begin = b"\x1b[?2004h"
        programs.on_a_terminal(["zsh", "-d", "-i"], line.encode() + b"\t\x15exit\n", begin,
                               env=dict(os.environ, ZDOTDIR=folder, TERM="xterm"), cwd=folder,
                               start_new_session=True)
        return sorted(set(text_of(folder + "/words").split("\n")) - {""})

    def test_zsh(self):
        programs.need("zsh")
        for name in ("pgn_tool", "gillspoon", "pgn_conform"):
            output_of(run(["zsh", "-n", COMPLETIONS + "_" + name]))
        text = text_of(COMPLETIONS + "_pgn_tool")
        self.assertEqual(re.findall(r"^ +'([a-z]+):[a-z]", text, re.M), commands())
        for option in {*options("pgn_tool"), *options("pgn_tool", "export")} - {"--help"}:
            self.assertIn(option, text)
        for words in COMPLETED:
            line = " ".join(words)
            self.assertEqual([it for it in self.zsh(line + " -") if it != "-"], options(*words))
            # options are not left out because others begin so
            self.assertEqual(self.zsh(line + " --vers"), ["--version"])
        self.check_words(
            self.zsh,
            (["some\\ games.pgn"], "gillspoon lint s", "gillspoon lint --fix s",
             "gillspoon fmt --output s", "gillspoon where s", "gillspoon sieve a s",
             "gillspoon sieve --bad s", "pgn_conform cat - s"),
            ("de es fr it nl ru".split(), "gillspoon lint --language "),
            (["where"], "gillspoon wh"))
