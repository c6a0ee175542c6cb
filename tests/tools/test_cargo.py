"""Tests of bin/to_cargo, and of what cargo builds from it."""
import collections
import glob
import itertools
import os
import re
import shutil
import signal
import sys
import tarfile
import tempfile
import unittest

import programs
from documents import blocks_of, code_of, lines_of, printed_by, table
from programs import ROOT, Folder, need_cargo, output_of, run, text_of, write_file

TO_CARGO = programs.load("bin/to_cargo")
# One folder for all runs, so that only the first one builds everything.
OUT = os.path.join(ROOT, "cargo/out")
# What follows a sample that is the function NAME: it converts a game.
CALL = """
fn main() {
    let mut text = Vec::new();
    let Ok(totals) = NAME(b"e4 {a word} e5 *", &mut text) else { panic!() };
    print!("{}", String::from_utf8(text).unwrap());
    assert_eq!((totals.games, totals.plies), (1, 2));
}
"""
# What follows a sample that is the reader NAME, which tries an interrupted read again.
READS = """
/// Is interrupted before each byte, and breaks behind the last one.
struct Interrupted(&'static [u8], bool);

impl Read for Interrupted {
    fn read(&mut self, buffer: &mut [u8]) -> Result<usize> {
        self.1 = !self.1;
        match (self.1, self.0) {
            (true, _) => Err(ErrorKind::Interrupted.into()),
            (_, []) => Err(ErrorKind::TimedOut.into()),
            _ => self.0.read(&mut buffer[..1]),
        }
    }
}

fn main() {
    use pgn_game::{Games, Inlet, Mode, Nowhere};
    let source = || Interrupted(b"e4 * d4 e5 *", false);
    let mut games = Games::<64, 33>::new(Mode::Full);
    let fault = games.next(&mut Inlet::new(source()), &mut Nowhere).unwrap_err();
    assert_eq!(fault.to_string(), "byte 0: input cannot be read");
    let (mut games, mut source) = (Games::<64, 33>::new(Mode::Full), Inlet::new(NAME(source())));
    for plies in [1, 2] {
        assert_eq!(games.next(&mut source, &mut Nowhere), Ok(true));
        assert_eq!(games.plies(), plies);
    }
    let fault = games.next(&mut source, &mut Nowhere).unwrap_err();
    assert_eq!(fault.to_string(), "byte 12: input cannot be read");
}
"""
BARE_PACKAGE = ('[package]\nname = "bare"\nversion = "0.1.0"\nedition = "2021"\n'
                '[lib]\ncrate-type = ["staticlib"]\n[profile.dev]\npanic = "abort"\n'
                '[dependencies]\n')
# A library with a panic handler of its own, so that it has to have nothing of std.
BARE = """#![no_std]
use chess_rules::{Move, Position, TextFault};
use core::fmt::{self, Write};
use core::panic::PanicInfo;
use pgn_layout::{Layout, Sink, WriteFault};
use pgn_lexer::{Lexer, Outcome};

#[panic_handler]
fn panicked(_: &PanicInfo) -> ! {
    loop {}
}

pub struct Line(u8);

impl Sink for Line {
    fn write_some(&mut self, bytes: &[u8]) -> Result<usize, WriteFault> {
        self.0 = *bytes.first().ok_or(WriteFault)?;
        Ok(1)
    }

    fn flush(&mut self) -> Result<(), WriteFault> {
        Ok(())
    }
}

impl Write for Line {
    fn write_str(&mut self, text: &str) -> fmt::Result {
        pgn_layout::write_all(self, text.as_bytes()).map_err(|_| fmt::Error)
    }
}

pub fn show(out: &mut Line, fen: &str, text: &str) -> Result<(), TextFault> {
    let (position, played) = (fen.parse::<Position>()?, text.parse::<Move>()?);
    let is_same = chess_text::read_fen(fen.as_bytes()) == Ok(position);
    let _ = write!(out, "{position} {played} {is_same}");
    let mut lexer = Lexer::new();
    if let Outcome::Fault(fault) = lexer.next(text.as_bytes()).outcome {
        let _ = write!(out, "{fault}");
    }
    let _ = Layout::new().put(b"e4", out);
    Ok(())
}
"""
# Prints of each reason its number, and the line of a fault at byte 7, which ends in its words.
SAMPLE_OF_REASONS = """use pgn_game::{Fault, LexReason, Reason};
fn main() {
    for reason in [%(values)s] {
        match reason { %(cases)s => {} %(others)s }
        let fault = Fault { at: 7, reason };
        assert_eq!(fault.to_string(), format!("byte 7: {reason}"));
        println!("{}: {}", reason.number(), fault);
    }
}
"""
# Calls each function that counts pairs with too little room, and then with enough. Only chess_rules
# can make such a count, so this does what the libraries forbid.
SAMPLE_OF_ROOM = """use chess_rules::{has_legal_move, try_pair, LegalMoves, Position, Probes};
use chess_text::{origins_of_form, read_form, read_uci, resolve, resolve_move};
use chess_text::{write_position_key, write_san};
use pgn_game::{find_move, read_move, Notation};
use std::panic::{catch_unwind, set_hook};
fn with_room_for(pairs: u32) -> Probes {
    unsafe { std::mem::transmute(u32::MAX - pairs) }
}
macro_rules! refused {
    ($($call:expr;)*) => { [$(catch_unwind(|| { let _ = $call; }).is_err()),*] };
}
fn main() {
    set_hook(Box::new(|panic| println!("{panic}")));
    let position = Position::initial();
    let form = read_form(b"e4").unwrap();
    let played = resolve(&position, &form, &mut with_room_for(8)).unwrap();
    for room in [7, 8] {
        let is_refused = refused! {
            try_pair(&position, played.mv, &mut with_room_for(room - 7));
            has_legal_move(&position, &mut with_room_for(1016 + room));
            LegalMoves::new(&position).next(&mut with_room_for(4088 + room));
            resolve(&position, &form, &mut with_room_for(room));
            resolve_move(&position, &form, &mut with_room_for(room));
            origins_of_form(&position, &form, &mut with_room_for(room));
            write_san(&position, &played, &mut with_room_for(1024 + room));
            read_uci(&position, b"e2e4", &mut with_room_for(room - 7));
            write_position_key(&position, &mut with_room_for(room - 6));
            find_move(&position, b"e4", &mut with_room_for(room));
            read_move(&position, b"e4", Notation::San, &mut with_room_for(room));
        };
        assert_eq!(is_refused, [room == 7; 11]);
    }
}
"""
LIBRARIES = ("chess_rules", "chess_text", "pgn_lexer", "pgn_layout", "pgn_game", "pgn_sections")
WITHOUT_STD = LIBRARIES[:4]
# What stands in a line of the program that is not one of the source.
OF_STANDARD = re.compile(
    r"rattle_std|let rt = HostRuntime;|fn (main|\w+)\(\)|rt\.words\(\)|assert\w*!\(|AllocError>\("
    r"|dead_code|File::\w+\(|(String|Vec|VecDeque)::new\(\)|\.try_\w+\(|PhantomData;")


def cargo(*words, folder=OUT, target="target", **env):
    # nothing here needs what a debugger reads, and it takes two fifths of the time
    env = dict(os.environ, PATH=programs.PATH, CARGO_TARGET_DIR="%s/%s" % (OUT, target),
               CARGO_NET_OFFLINE="true", CARGO_PROFILE_DEV_DEBUG="0", **env)
    return run(["cargo", *words], cwd=folder, env=env, timeout=500)


def write_out(out=OUT):
    output_of(run([sys.executable, "bin/to_cargo", out]), err=None)


def built():
    """The program that cargo builds; the test is left out without a cargo."""
    need_cargo()
    write_out()
    ran = cargo("build", "--package", "pgn_tool")
    assert ran.returncode == 0 and b"warning" not in ran.stderr, ran.stderr
    return OUT + "/target/debug/pgn_tool"


# What bin/to_cargo does not understand: a file, a line there, and changes of that line.
NOT_UNDERSTOOD = (
    ("crates/pgn_layout/src/nowhere.rt", "        ensures done { result ≡ Ok tt }\n",
     (" }", ""), ("}", "} more"), ("ensures", "promises")),
    ("crates/pgn_layout/src/nowhere.rt", "    ghost failures = { λ _. 0 };",
     ("    ", "    /// A count.\n    "), (";", "; fn f() {}")),
    ("crates/pgn_arguments/src/arguments.rt", "        .version(VERSION)\n",
     ("\n", "\n        .author(rt; VERSION)\n"), ("\n", "\n        .author(std::alloc::NAME)\n")),
    ("crates/pgn_arguments/src/arguments.rt", 'matches.get_str("file") {', ('"file") {', "\n")),
    ("crates/chess_rules/src/square.rt", "        self.index as usize\n",
     ("usize", "usize + 0"), ("\n", "\n        self.index as usize\n")),
    ("crates/pgn_game/src/find.rt", '    // Cargo: assert!(u32::MAX - probes.count() >= 8, "',
     (', "', ": "), ("assert", "is")),
)


def answer(program, words):
    """How a call ends, and the files that it leaves."""
    with tempfile.TemporaryDirectory() as folder:
        ran = run([program, *words], cwd=folder)
        files = {it: text_of(folder, it) for it in os.listdir(folder)}
        return ran.returncode, ran.stdout, ran.stderr, files


def packages(names):
    return ["--package=" + it for it in names]


def passed_in(said):
    return sum(map(int, re.findall(r"(\d+) passed; 0 failed", said)))


def count_of_tests(files, mark="#[test]"):
    return sum(text_of(it).count(mark) for it in files)


class CargoTest(Folder, unittest.TestCase):
    def setUp(self):
        need_cargo()
        super().setUp()
        write_out()

    def passed(self, *words, **env):
        """What cargo says, which has no warning."""
        ran = cargo(*words, **env)
        said = (ran.stdout + ran.stderr).decode()
        self.assertEqual(ran.returncode, 0, said)
        self.assertNotIn("warning", said)
        return said


class Built(CargoTest):
    def test_the_tests_of_each_crate_pass(self):
        """Those in these files, of which there are so many at least."""
        for least, words, files in (
                (28, "pgn_vectors --lib", "crates/pgn_vectors/src/tests/*.rt"),
                (1, "pgn_vectors --test=missing_results", "cargo/pgn_vectors/tests/*.rs"),
                (18, "pgn_device_tests --lib", "crates/pgn_device_tests/src/tests/*.rt"),
                (18, "pgn_tool", "crates/pgn_tool/src/*_tests.rt")):
            with self.subTest(words):
                wanted = count_of_tests(glob.glob(ROOT + "/" + files))
                self.assertGreaterEqual(wanted, least)
                said = self.passed("test", "--package", *words.split())
                self.assertIn("test result: ok. %d passed; 0 failed" % wanted, said)

    def test_the_examples_of_the_docstrings_pass(self):
        files = [it for name in LIBRARIES for it in glob.glob("%s/crates/%s/src/*.rt" % (ROOT, name))]
        pages = glob.glob(ROOT + "/cargo/*/lib.md")
        self.assertEqual(len(pages), len(WITHOUT_STD))
        files += glob.glob(ROOT + "/cargo/*/*.rs")
        fences = sum(len(re.findall("(?m)^(?: *//[/!] )?```", text_of(it))) for it in files + pages)
        self.assertGreaterEqual(fences, 52)
        said = self.passed("test", "--doc", *packages(LIBRARIES))
        self.assertEqual(2 * passed_in(said), fences)

    def test_a_call_that_breaks_a_condition_panics(self):
        """By the tests that are written for Cargo: of the libraries, and of pgn_c."""
        names = ("pgn_c", *LIBRARIES)
        files = [it for name in names for it in glob.glob("%s/cargo/%s/*/*.rs" % (ROOT, name))]
        wanted = count_of_tests(files)
        self.assertGreaterEqual(wanted, 18)
        call = ("test", *packages(names), "--lib", "--tests")
        self.assertEqual(passed_in(self.passed(*call)), wanted)
        # In release builds all but those of debug_assert!.
        checked_in_debug = count_of_tests(files, "#[cfg(debug_assertions)]\nfn ")
        self.assertEqual(checked_in_debug, 5)
        said = self.passed(*call, CARGO_PROFILE_DEV_DEBUG_ASSERTIONS="false")
        self.assertEqual(passed_in(said), wanted - checked_in_debug)

    def test_four_libraries_build_without_std(self):
        """For this machine, and for each target without std that is installed."""
        word = "clippy" if programs.found("cargo-clippy") else "check"
        for words in ([word], ["doc", "--no-deps"]):
            self.passed(*words, "--no-default-features", *packages(WITHOUT_STD))
        root = run(["rustc", "--print=sysroot"]).stdout.decode().strip() + "/lib/rustlib/"
        with_core, with_std = ({os.path.relpath(it, root).split("/")[0]
                                for it in glob.glob("%s*/lib/lib%s-*.rlib" % (root, name))}
                               for name in ("core", "std"))
        for words in ([], *(["--target=" + it] for it in sorted(with_core - with_std))):
            output_of(self.bare("default-features = false", *words))
        ran = self.bare("default-features = true")
        self.assertIn("error[E0152]: found duplicate lang item `panic_impl`", ran.stderr.decode())

    def bare(self, features, *words):
        """What cargo says of a library that has std only if its dependencies have it."""
        shutil.copytree(OUT + "/.cargo", self.folder + "/.cargo", dirs_exist_ok=True)
        needs = "".join('%s = { path = "%s/crates/%s", %s }\n' % (it, OUT, it, features)
                        for it in WITHOUT_STD)
        self.put("Cargo.toml", BARE_PACKAGE + needs)
        self.put("src/lib.rs", BARE)
        return cargo("build", "--quiet", *words, folder=self.folder, target="bare")

    def test_a_call_needs_room_for_its_pairs(self):
        self.build_libraries()
        said = output_of(self.run_sample(SAMPLE_OF_ROOM)).decode()
        lines = [str(number) for number, line in enumerate(SAMPLE_OF_ROOM.split("\n"), 1)
                 if re.search(r"with_room_for\(.*;$", line) and "played =" not in line]
        self.assertEqual(re.findall(r"sample\.rs:(\d+):", said), lines)
        rooms = re.findall(r"the count of Probes has room for ([\d,]+) more", said)
        self.assertEqual(rooms, ["1", "1,024", "4,096", "8", "8", "8", "1,032", "1", "2", "8", "8"])

    def build_libraries(self):
        self.passed("build", "--lib", *packages(LIBRARIES))

    def test_each_reason_has_the_words_of_the_fault_table(self):
        rows = table("docs/PROFILE.md", "No", "Rejected", "Place", "In words", "Name")
        reasons = [code_of(row[4])[0] for row in rows]
        self.assertEqual(len(rows), 38)
        cases = []
        for file in ("pgn_lexer/src/token.rt", "pgn_game/src/reason.rt"):
            enum = re.search(r"(?s)\npub enum \w*Reason \{\n(.*?)\n\}", text_of("crates", file))
            cases.append(re.findall(r"(?m)^    (\w+)(?:\(\w+\))?,$", enum[1]))
        lexical, others = cases
        self.assertEqual(others[0], "Lexical")
        self.assertEqual(reasons, lexical + others[1:])
        self.assertEqual([int(row[0]) < 20 for row in rows], [it in lexical for it in reasons])
        arms = ["Reason::Lexical(LexReason::%s)" % it for it in lexical]
        arms += ["Reason::" + it + "(_)" * (it == "BadFen") for it in others[1:]]
        text = {"values": ", ".join(arms).replace("(_)", "(3)"), "cases": " | ".join(arms),
                "others": "_ => {}"}
        self.build_libraries()
        # More reasons may come: a match that has all of them needs a wildcard all the same.
        said = self.compiled(SAMPLE_OF_REASONS % {**text, "others": ""}).stderr.decode()
        self.assertIn("error[E0004]: non-exhaustive patterns: `_` not covered", said)
        self.assertEqual(said.count("error["), 1)
        ran = self.run_sample(SAMPLE_OF_REASONS % text)
        words = [row[3].strip("`").replace("field N", "field 3") for row in rows]
        wanted = ["%s: byte 7: %s" % (row[0], it) for row, it in zip(rows, words)]
        self.assertEqual(ran.stdout.decode().splitlines(), wanted)

    def test_the_program_converts_each_vector_and_passes_the_tests_of_devices(self):
        program = built()
        ran = run(["bin/pgn_conform", "--counts", program + " check", program, "export"])
        row = b"| all | %d | %d | 0 | 0 | 0 |\n" % (2 * (len(programs.vectors()),))
        self.assertIn(row, output_of(ran, err=None))
        # Those of files, pipes and devices, which are tests of the proved program too.
        names = ["program", "split", "checked", "streams", "interrupted"]
        env = dict(os.environ, PGN_TOOL=program)
        output_of(run(["bin/test_tools", *names], env=env, timeout=500), err=None)

    def test_the_program_does_what_the_proved_one_does(self):
        proved, program = programs.need_proved_program(), built()
        files = sorted(glob.glob(ROOT + "/examples/*.pgn"))
        files += [self.put(it, programs.archive(60, it, 60)) for it in ("plain", "annotated")]
        calls = ("export", "export --reduced", "export --checked", "check", "list", "split .")
        for words in [[*it.split(), file] for file in files + ["none"] for it in calls]:
            self.assertEqual(answer(proved, words), answer(program, words), words)

    def compiled(self, text):
        write_file(OUT + "/target/sample.rs", text)
        words = ["rustc", "--edition=2021", "-Dwarnings", "-Ltarget/debug/deps", "target/sample.rs",
                 "-otarget/sample"]
        words += ["--extern=%s=target/debug/lib%s.rlib" % (it, it) for it in LIBRARIES]
        return run(words, cwd=OUT)

    def run_sample(self, text):
        for form, more in ((r"fn (\w+)\(input: &\[u8\], text: &mut Vec<u8>\)", CALL),
                           (r"impl<R: Read> Read for (\w+)<R>", READS)):
            named = re.search(form, text)
            if named and "fn main(" not in text:
                text += more.replace("NAME", named[1])
        if "fn main(" not in text:
            text = "fn main() {\n%s}\n" % text
        output_of(self.compiled(text), err=None)
        return run([OUT + "/target/sample"])

    def test_samples_of_the_documents(self):
        self.build_libraries()
        shown = printed_by(self, "rust", self.run_sample)
        self.assertIn(b'\n[Result "*"]\n\n1. e4 { a word } 1... e5 *\n\n', shown)

    def test_a_program_in_another_folder(self):
        """The one of LIBRARY, which depends on the crates by their paths."""
        mine = self.folder + "/mine"
        os.symlink(OUT, self.folder + "/gillspoon-cargo")
        shutil.copytree(OUT + "/.cargo", mine + "/.cargo")
        lines = lines_of("docs/LIBRARY.md")
        begin = lines.index("### A program of your own")
        blocks = [it for number, _, it in blocks_of(lines) if number > begin]
        for name, block in zip(("Cargo.toml", "src/main.rs"), blocks):
            self.put("mine/" + name, "\n".join(block) + "\n")
        words = "run", "--quiet", "--"
        ran = cargo(*words, ROOT + "/examples/two-games.pgn", folder=mine, target="dependent")
        plies = output_of(ran).decode().splitlines()
        listed = run([built(), "list", "examples/two-games.pgn"]).stdout.decode().splitlines()
        self.assertEqual(plies, ["%s plies: %s" % tuple(it.split("\t")[-2:]) for it in listed])
        bad = ROOT + "/examples/no-such-move.pgn"
        ran = cargo(*words, bad, folder=mine, target="dependent")
        self.check(ran, 0, b"", b"%s: byte 77: move is not legal\n" % os.fsencode(bad))

    def test_want_of_memory_has_status_3_where_the_program_asks_for_it(self):
        programs.need("cc")
        tries = programs.load("bin/try_allocations")
        tries.BUILT = built()
        library = tries.build(self.folder)
        # The name of FILE or DIR, the buffer of standard output, and the path of each file.
        for words, asks in ((["export", "GAMES"], 2), (["check"], 1), (["split", "FOLDER"], 4)):
            call = tries.Call(library, self.folder, words, tries.GAMES)
            right, whole, _ = call.run()
            reported = 0
            for number in itertools.count(1):
                answer, files, met = call.run(number, number)
                if answer[0] == -signal.SIGABRT:
                    self.assertEqual(answer[1], b"", (words, number))
                    self.assertRegex(answer[2], rb"memory allocation of \d+ bytes failed")
                elif answer == (3, b"", b"out of memory\n"):
                    self.assertTrue(tries.is_front(files, whole), (words, number))
                    reported += 1
                else:
                    self.assertEqual((answer, files), (right, whole), (words, number))
                if not met:
                    break
            self.assertGreaterEqual(reported, asks, words)


class Release(CargoTest):
    """What bin/dist writes."""

    def test_a_package_for_each_crate(self):
        """In a repository of git, where cargo would package what is committed alone."""
        programs.need("git")
        run(["git", "init", "--quiet", self.folder])
        out, parts = self.folder + "/out", ["--part", "cargo", "--part", "python"]
        said = output_of(run([sys.executable, "bin/dist", *parts, out], timeout=500), err=None)
        version = TO_CARGO.version()
        workspace = "%s/gillspoon-%s" % (out, version)
        crates = os.listdir(workspace + "/crates")
        packages = ["%s-%s.crate" % (it, version) for it in crates]
        ours = ["gillspoon-" + version, "gillspoon-%s.tar.gz" % version]
        wheel = "gillspoon-%s-py3-none-linux_%s.whl" % (version, os.uname().machine)
        self.assertEqual(sorted(os.listdir(out)), sorted([*packages, *ours, wheel]))
        for name in crates:
            with tarfile.open("%s/%s-%s.crate" % (out, name, version)) as package:
                names = {it.split("/", 1)[1] for it in package.getnames()}
            self.assertLessEqual({"Cargo.toml", "README.md", "LICENSE-MIT"}, names, name)
            self.assertNotIn(".cargo_vcs_info.json", names)
        # nothing of this machine
        self.assertEqual(sorted(os.listdir(workspace)),
                         ["CHANGELOG.md", "Cargo.toml", "LICENSE-MIT", "README.md", "crates"])
        self.assertIn("gillspoon-%s: " % version, said.decode())

    def test_the_page_of_changes_has_the_version(self):
        version = TO_CARGO.version()
        heads = re.findall(r"^## (\S+?),? ", text_of("CHANGELOG.md"), re.MULTILINE)
        self.assertEqual(heads[0], version)
        changes = programs.load("bin/dist").check_changes
        for text in ("# Changes\n\n## 9.8.7\n", "# Changes\n"):
            self.assertRaises(SystemExit, changes, text, version)
        changes("# Changes\n\n## %s, later\n\n## 0.0.9\n" % version, version)

    def test_clippy_and_the_documentation_have_no_warning(self):
        self.passed("doc", "--workspace", "--no-deps", "--lib")
        programs.need("cargo-clippy")
        self.passed("clippy", "--workspace", "--all-targets")


class Workspace(unittest.TestCase):
    """What bin/to_cargo writes, without cargo."""

    @classmethod
    def setUpClass(cls):
        cls.out = programs.new_folder(cls) + "/out"
        write_out(cls.out)

    def pairs(self, crates=(*LIBRARIES, "pgn_tool", "pgn_arguments", "pgn_c")):
        """Each file that is written from one of ours, and that one, which its first line names."""
        for crate in crates:
            folder = "%s/crates/%s/src/" % (self.out, crate)
            for path in glob.glob(folder + "**/*.rs", recursive=True):
                first, text = text_of(path).split("\n", 1)
                if first.startswith("// From "):
                    name = path[len(folder) : -3]
                    other, copied = TO_CARGO.COPIED.get(crate, (None, ()))
                    source = "crates/%s/src/%s.rt" % (other if name in copied else crate, name)
                    self.assertTrue(first.startswith("// From %s, without its " % source), first)
                    yield path, text.split("\n"), text_of(source)

    def test_lines_only_go(self):
        """But for the assertions and the modules that are written for Cargo."""
        count = 0
        for path, lines, source in self.pairs((*LIBRARIES, "pgn_tool", "pgn_c")):
            is_renamed = "/pgn_tool/" in path or "/pgn_c/" in path
            left = [forms_of(it) for it in source.split("\n")]
            lines = without_added(path, lines, source)
            for line in lines:
                at = [n for n, it in enumerate(left) if line in it]
                if not at and is_renamed and (OF_STANDARD.search(line) or not line):
                    continue
                self.assertTrue(at, (path, line))
                left = left[at[0] + 1 :]
            count += 1
        self.assertGreater(count, 60)

    def test_no_function_goes_and_no_contract_is_left(self):
        head = re.compile(r"^ *(?:pub(?:\(crate\))? )?(?:const )?fn \w+", re.MULTILINE)
        count = 0
        for path, lines, source in self.pairs():
            source = source.replace('pub extern "C" fn', "pub fn")
            source = source.replace("pub(crate) fn add_one(", "pub fn add_one(")
            text = "\n".join(lines)
            self.assertEqual(head.findall(text), head.findall(source), path)
            self.assertNotRegex(text, r"(?m)^\s*(?:ghost|requires|ensures)\b", path)
            count += len(head.findall(source))
        self.assertGreater(count, 400)

    def test_each_exception_of_clippy_has_its_reason(self):
        text = text_of(self.out + "/Cargo.toml")
        lints = text.split("[workspace.lints.clippy]\n")[1]
        for line in lints.split("\n\n")[0].split("\n"):
            self.assertRegex(line, r'^\w+ = "allow" # .')
        # With a warning the tests of what Cargo builds fail. bin/unused does not look for it.
        self.assertNotIn("dead_code", text)

    def test_what_is_not_proved_says_so_and_the_header_is_the_same(self):
        for file in ("rattle_std/src/lib.rs", "pgn_c/src/ffi.rs", "pgn_c/build.rs"):
            self.assertRegex(text_of(self.out + "/crates/" + file), r"\A.*\*\*Not proved\.\*\*")
        self.assertLess(text_of(self.out + "/crates/rattle_std/src/lib.rs").count("\n"), 110)
        header = "/crates/pgn_c/pgn.h"
        self.assertEqual(text_of(self.out + header), text_of(ROOT + header))
        self.assertIn("**Nothing in this folder is proved", text_of(self.out + "/README.md"))

    def test_one_file_has_unsafe_code(self):
        files = glob.glob(self.out + "/crates/**/*.rs", recursive=True)
        found = [it for it in files if re.search(r"(?m)^[^/]*\bunsafe\b", text_of(it))]
        self.assertEqual(found, [self.out + "/crates/pgn_c/src/ffi.rs"])
        self.assertIn('unsafe_code = "forbid"', text_of(self.out + "/Cargo.toml"))
        for file in glob.glob(self.out + "/crates/*/Cargo.toml"):
            is_face = "/pgn_c/" in file
            self.assertEqual("[lints]\nworkspace = true\n" in text_of(file), not is_face, file)
            self.assertEqual('unsafe_code = "deny"' in text_of(file), is_face, file)

    def test_each_line_that_is_another_has_its_row(self):
        """In the README of the workspace, with the reason."""
        rows = table("cargo/README.md", "Function", "In", "The source has", "Cargo has")
        for _, file, line, other, reason in ([it.strip("`") for it in row] for row in rows):
            text = " ".join(text_of(self.out + "/crates/" + file).split())
            self.assertIn("// Written for Cargo. The source has `%s` %s" % (line, other), text)
            self.assertRegex(reason, r"\w+ \w+")
        files = glob.glob(self.out + "/crates/*/src/**/*.rs", recursive=True)
        self.assertEqual(sum(text_of(it).count("// Written for Cargo. The source") for it in files),
                         len(rows))

    def test_laws_are_not_in_the_documents(self):
        """They are functions without a body, which say something to the prover alone."""
        files = glob.glob(self.out + "/crates/*/src/laws.rs")
        self.assertEqual(len(files), 5)
        for file in files:
            root = text_of(os.path.dirname(file) + "/lib.rs")
            self.assertIn("\n#[doc(hidden)]\npub mod laws;\n", root, file)

    def test_each_function_of_the_libraries_has_a_hint(self):
        """Whether it may be inlined; laws do nothing, and what a trait asks for has no body."""
        head = re.compile(
            r"(?m)^((?: *#\[.*\]\n)*) *(?:pub(?:\(crate\))? )?(?:const )?fn (?s:.*?)([{;])$")
        count = 0
        for path, lines, _ in self.pairs(LIBRARIES):
            for found in head.finditer("" if path.endswith("/laws.rs") else "\n".join(lines)):
                has_body = found[2] == "{"
                self.assertEqual(found[1].count("#[inline"), int(has_body), (path, found[0]))
                count += has_body
        self.assertGreater(count, 400)


class Written(Folder, unittest.TestCase):
    """What bin/to_cargo does in a folder of its own, and with sources that are changed."""

    def write(self, *words):
        out = self.folder + "/out"
        ran = run([sys.executable, *(words or ["bin/to_cargo"]), out])
        return out, ran.returncode, (ran.stdout + ran.stderr).decode()

    def test_another_folder_is_left_alone(self):
        self.put("out/Cargo.toml", "[package]\n")
        out, status, said = self.write()
        self.assertEqual(status, 2)
        self.assertIn("was not written by this script", said)
        self.assertEqual(os.listdir(out), ["Cargo.toml"])

    def test_a_second_run_writes_nothing_anew_and_removes_what_is_gone(self):
        out, _, _ = self.write()
        before = {it: os.stat(it).st_mtime_ns for it in glob.glob(out + "/**", recursive=True)}
        self.assertEqual(self.write()[1], 0)
        after = {it: os.stat(it).st_mtime_ns for it in glob.glob(out + "/**", recursive=True)}
        self.assertEqual(before, after)
        extra = self.put("out/crates/pgn_game/src/extra.rs", "")
        self.write()
        self.assertFalse(os.path.exists(extra))

    def test_another_source_of_crates_begins_anew(self):
        """Cargo.lock has the versions of one source of crates, which another may not have."""
        out, _, _ = self.write()
        config, lock = out + "/.cargo/config.toml", out + "/Cargo.lock"
        is_offline = os.path.exists(config)
        for is_same in (True, False):
            self.put("out/Cargo.lock", "")
            if not is_same and is_offline:
                os.remove(config)
            elif not is_same:
                self.put("out/.cargo/config.toml", "")
            self.write()
            self.assertEqual(os.path.exists(config), is_offline)
            self.assertEqual(os.path.exists(lock), is_same)

    def test_source_that_is_not_understood_stops_it(self):
        """In a copy of all that bin/to_cargo reads, with a change in one file."""
        for form in ("bin/to_cargo", "crates.txt", "LICENSE-MIT", "CHANGELOG.md", "cargo/README.md",
                     "crates/pgn_c/pgn.h", "cargo/[!o]*/**/*.*", "crates/*/src/**/*.rt"):
            for name in glob.glob(form, root_dir=ROOT, recursive=True):
                self.put(name, text_of(name))
        for file, line, *changes in NOT_UNDERSTOOD:
            text = text_of(file)
            self.assertEqual(text.count(line), 1, line)
            why = " not there once: self.index as usize" if file.endswith("square.rt") else ""
            for old, new in changes:
                self.put(file, text.replace(line, line.replace(old, new)))
                _, status, said = self.write(self.folder + "/bin/to_cargo")
                self.assertEqual(status, 1, (new, said))
                self.assertIn("not understood: " + file + ":" + why, said)
                self.assertFalse(os.path.exists(self.folder + "/out"))
            self.put(file, text)
        self.assertEqual(self.write(self.folder + "/bin/to_cargo")[1], 0)


def without_added(path, lines, source):
    """The lines of a file without those that bin/to_cargo adds, each of which has to be there."""
    file = "crates/%s.rt" % path.split("/crates/")[1][:-3]
    crate, left = file.split("/")[1], []
    added = collections.Counter(it.strip() for it in added_to(file, crate, lines, source))
    hints = ["#[track_caller]"] + ["#[inline]"] * (crate in LIBRARIES)
    # from the end, where a page has lines that the documentation before it has too
    for line in reversed(lines):
        if added[line.strip()]:
            added[line.strip()] -= 1
        elif line.strip() not in hints:
            left.insert(0, line)
    assert not any(added.values()), (path, added)
    while left[-2:] == ["", ""]:
        left.pop()
    return left


def added_to(file, crate, lines, source):
    joined = re.sub(r"\n *// (?!Cargo: )", " ", source)
    for words in re.findall(r'// Cargo: (\w+)!\((.*), "(.*)"\)', joined):
        yield from TO_CARGO.assertion(*words)
    for _, line, others in TO_CARGO.other_lines(file):
        yield from (TO_CARGO.SOURCE_HAS % line, *others)
    for mark, modules in (
            ("// Written for Cargo, not proved.", ("traits", "text", "played_moves", "ffi")),
            ("#[cfg(test)]", ("conditions", "own_pair"))):
        for module in ("mod %s;" % it for it in modules):
            if module in lines and module not in source.split("\n"):
                yield from (mark, module)
    if file == "crates/pgn_game/src/reason.rt":
        yield "#[non_exhaustive]"
    if not file.endswith("/lib.rt"):
        return
    if "pub mod laws;" in lines:
        yield "#[doc(hidden)]"
    if crate in TO_CARGO.COPIED:
        yield "// What reads and writes a FEN is also in chess_text."
        yield from ("mod %s;" % it for it in TO_CARGO.COPIED[crate][1])
    if crate == "chess_rules":
        yield "pub use text::TextFault;"
    if "mod played_moves;" in lines:
        yield "pub use played_moves::PlayedMoves;"
    if crate in TO_CARGO.WITHOUT_STD:
        yield from (TO_CARGO.NO_STD, *TO_CARGO.OTHER_LINKS.get(crate, []))
        yield from ['#[cfg(feature = "std")]'] * (2 * (crate == "pgn_layout"))
        # The page of cargo/CRATE/lib.md ends the documentation of the crate.
        page, own = TO_CARGO.first_page(crate), text_of("cargo/%s/lib.md" % crate)
        assert "\n".join(it[4:] for it in page).startswith("\n" + own.rstrip()), crate
        end = max(at for at, it in enumerate(lines) if it.startswith("//!")) + 1
        assert lines[end - len(page) : end] == page and "//! # Without std" in page, crate
        yield from page


# What a line of the source has, and what may stand for it in Cargo's.
CHANGED = ((", Drop", ""), (" + Drop", ""), ("#[rattlefmt::", "#[rustfmt::"),
           ("{Brand, PhantomData}", "PhantomData"), ('pub extern "C" fn', "pub fn"),
           ("use chess_rules::", "use crate::"), ("use std::", "use core::"),
           (", Eq", ", Eq, Hash"), ("(Clone, Copy)", "(Clone, Copy, PartialEq, Eq, Hash)"))


def forms_of(source):
    """The source's line, perhaps changed, and the same with what is behind a contract."""
    forms = {source}
    for words in CHANGED:
        forms |= {it.replace(*words) for it in forms}
    return {it + end for it in forms for end in ("", " {", " {}", ";")}
