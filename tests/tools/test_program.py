"""Tests of bin/pgn_tool and bin/build_program, with commands that build nothing, and of helps."""
import os
import shlex
import shutil
import unittest

from programs import HEAD, Folder, output_of, run
from small_repository import CARGO, MAIN, Repository


class Examples(Folder, unittest.TestCase):
    def test_examples(self):
        ran = run([self.program, "check", "examples/two-games.pgn"])
        self.check(ran, 0, b"games: 2, plies: 0\n")
        # pairs before a space and the marker
        fen, code = b'[FEN "4k3/8/8/8/8/8/8/4K3 w - - 0 1"]', b'[ECO "A00"]'
        ran = run([self.program, "export"], input=b'[Zeta "z"] %s %s *' % (fen, code))
        pairs = b'%s\n%s\n[SetUp "1"]\n[Zeta "z"]\n' % (code, fen)
        self.check(ran, 0, HEAD[:-1] + pairs + b"\n*\n\n")


class EachBuild(Repository):
    def check_call(self, builds, *words, program="one", **more):
        """What a call of the program says on standard error, which does or does not build it."""
        status, out, told = self.told(*words, **more)
        builder = self.commands[0]
        text = "%s built %s, called with %s\n" % (builder, program, " ".join(words))
        self.assertEqual((status, out), (0, text), told)
        self.assertEqual((builder + " builds" in told, bool(told)), (builds, builds))
        return told

    def test_builds_once(self):
        self.assertIn("the program is missing: ", self.check_call(True, "check", "a b"))
        self.check_call(False, "list")

    def test_builds_anew_when_a_source_is_newer(self):
        self.told()
        for builders, *paths in (
                (("rt", "cargo"), "crates/pgn_game/src/lib.rt", "crates/pgn_game/src/new.rt",
                 "crates/pgn_tool/src/lib.rt", "crates.txt"),
                (("rt",), "crates/pgn_tool/specs/a.antt", "crates/pgn_tool/proofs/a.antt"),
                (("cargo",), "cargo/rattle_std/lib.rs", "cargo/README.md", "bin/to_cargo"),
                ((), "crates/pgn_vectors/src/lib.rt", "README.md")):
            builds = self.commands[0] in builders
            for path in paths:
                self.make_older()
                self.add(path)
                told = self.check_call(builds)
                self.assertEqual(" is newer than the program" in told, builds)
                self.check_call(False)
        self.make_older()
        os.unlink(self.folder + "/crates/pgn_game/src/new.rt")
        self.check_call(True)
        self.make_older()
        self.put(MAIN, "two")
        self.check_call(True, program="two")

    def test_a_source_that_changes_during_a_build_is_newer(self):
        self.put("meanwhile", "")
        self.check_call(True)
        os.unlink(self.folder + "/meanwhile")
        told = self.check_call(True)
        self.assertIn("crates/pgn_tool/src/lib.rt is newer than the program", told)
        self.check_call(False)

    def test_a_build_that_fails_runs_no_stale_program_and_leaves_no_file(self):
        folder = self.folder + "/temporary"
        os.mkdir(folder)
        self.check_call(True, env={"TMPDIR": folder})
        self.assertEqual(os.listdir(folder), [])
        self.make_older()
        self.put(MAIN, "broken")
        for _ in range(2):
            told = self.said(status=127, env={"TMPDIR": folder})
            self.assertTrue(told.endswith("bin/build_program: the program was not built\n"))
        self.assertEqual(os.listdir(folder), [])

    def test_symbolic_links_and_a_folder_with_a_space(self):
        root = self.folder
        spaced = root + "/with a space"
        os.rename(shutil.copytree(root, root + "-copy", symlinks=True), spaced)
        self.check_call(True, "x", script=spaced + "/bin/pgn_tool")
        os.makedirs(root + "/far/er")
        for script, target in (("far/er/one", "../../bin/pgn_tool"), ("far/two", "er/one"),
                               ("three", root + "/far/two"), ("far/bin", root + "/bin")):
            os.symlink(target, os.path.join(root, script))
        for script in ("far/er/one", "far/two", "three", "far/bin/pgn_tool"):
            self.check_call(script == "far/er/one", "x", script=script, cwd="/")

    def test_long_build_says_so(self):
        self.put("slow", "")
        self.assertIn("still building, for 30 seconds so far", self.check_call(True))


class ByRt(EachBuild, unittest.TestCase):
    commands = ("rt",)


class ByCargo(EachBuild, unittest.TestCase):
    commands = ("cargo", "rustc")


class Choice(Repository, unittest.TestCase):
    commands, script = ("cargo", "rustc", "rt"), "bin/build_program"

    def setUp(self):
        super().setUp()
        self.by_rt = self.folder + "/crates/pgn_tool/out/pgn_tool\n"
        self.by_cargo = self.folder + "/cargo/out/pgn_tool\n"

    def check_built(self, built, path, *told):
        self.assertEqual(built[:2], (0, path), built)
        for it in told:
            self.assertIn(it, built[2])

    def test_cargo_builds_where_both_are(self):
        """What is proved is asked for, and taken from then on, until a source is newer."""
        self.check_built(self.told(), self.by_cargo,
                         "Cargo builds it, which takes about half a minute")
        self.check_built(self.told("--built"), self.by_cargo)
        self.assertEqual(self.told("--built", "--proved"), (1, "", ""))
        self.check_built(self.told("--proved"), self.by_rt, "rt proves and builds it")
        self.assertEqual(self.told(), (0, self.by_rt, ""))
        self.make_older()
        self.put(MAIN, "two")
        self.check_built(self.told(), self.by_cargo, "main.rt is newer than the program")
        self.assertEqual(self.told(), (0, self.by_cargo, ""))
        self.assertEqual(self.told("--built", "--proved"), (0, self.by_rt, ""))
        self.check_built(self.told("--proved"), self.by_rt, "main.rt is newer than the program")

    def test_proved_without_rt(self):
        self.remove_commands("rt")
        self.assertEqual(self.told("--proved"), (
            127, "", "bin/build_program: --proved needs rt, the command of the Rattle toolchain, "
            "which is not on the PATH\n"))

    def test_what_is_too_old(self):
        for name, version in (("cargo", "1.73.9"), ("rustc", "1.9.0"), ("rustc", "0.99.0")):
            env = {name.upper() + "_VERSION": version}
            lack = "%s/path/%s is %s, and 1.74 is needed\n" % (self.folder, name, version)
            self.check_built(self.told(env=env), self.by_rt, lack, "rt proves and builds it")
            os.unlink(self.by_rt.strip())
        for version in ("1.74.0", "1.100.0", "2.0.0"):
            env = {"RUSTC_VERSION": version, "CARGO_VERSION": version}
            self.check_built(self.told(env=env), self.by_cargo)
            os.unlink(self.by_cargo.strip())
        self.put_command("rustc", "echo 'no default toolchain' >&2\nexit 1\n")
        self.check_built(self.told(), self.by_rt, "/rustc does not say its version")

    def test_nothing_to_build_with(self):
        self.remove_commands("rt", "cargo", "python3")
        told = self.said(status=127)
        lines = [it.split(": ", 1)[1] for it in told.splitlines()]
        self.assertEqual(lines[:3], ["cargo is not on the PATH", "python3 is not on the PATH",
                                     "so the program cannot be built; do one of these:"])
        self.assertIn("bin/install --deps", lines[3])
        self.assertIn("Rust 1.74 or newer", lines[4])
        self.assertEqual(self.told("check", script="bin/pgn_tool"), (127, "", told))

    def test_no_crates(self):
        self.put("no-registry", "")
        told = "Cargo could not get these crates from its registry: arrayvec itoa clap"
        self.check_built(self.told(), self.by_rt, told, "rt proves and builds it")
        os.unlink(self.by_rt.strip())
        self.remove_commands("rt")
        said = self.said(status=127)
        for it in (told, "to install these, as root: bin/install --deps\n",
                   "the program was not built"):
            self.assertIn(it, said)

    def test_deps(self):
        self.put_apt(cargo=CARGO)
        self.put("size", "Reading package lists...\n0 upgraded, 172 newly installed, 0 to remove "
                 "and 0 not upgraded.\nNeed to get 161 MB of archives.\nAfter this operation, "
                 "780 MB of additional disk space will be used.\n")
        self.check_built(self.told("--deps"), self.by_cargo, "installs cargo",
                         "that is 172 packages in all\n", "161 MB to download\n",
                         "780 MB on the disk\n")
        update, asked, install = self.get("asked").decode().splitlines()
        self.assertEqual(update, "update -q")
        # the size is asked for before
        self.assertEqual(asked, install.replace(" -y ", " --assume-no "))
        self.assertRegex(install, r"^install -q -y --no-install-recommends cargo\b")
        # nothing is installed for a program that is there
        self.check_built(self.told("--deps"), self.by_cargo)
        self.assertEqual(self.get("asked").count(b"\n"), 3)

    def test_the_package_of_cargo(self):
        """The one by another name is taken where the usual one is too old."""
        self.put_apt()
        self.remove_commands("rt")
        self.put("cargo-web", "")
        for version, package in (("0.66.0+ds1-1", "cargo-web"), ("(none)", "cargo-web"),
                                 ("1.74.0+dfsg1-1", "cargo"), ("1.85.1+dfsg1-1", "cargo")):
            self.put("policy", "cargo:\n  Installed: (none)\n  Candidate: %s\n" % version)
            self.assertRegex(self.told("--deps")[2], "installs %s( |\\n)" % package)
        os.unlink(self.folder + "/cargo-web")
        self.put("policy", "")
        self.assertRegex(self.told("--deps")[2], "installs cargo( |\\n)")

    def test_deps_that_are_not_had(self):
        self.put_apt()
        self.put("broken", "")
        self.assertIn("apt-get could not install them", self.said("--deps", status=127))

    def test_deps_without_root(self):
        """Root installs packages and nothing else: what root builds, only root can replace."""
        self.put_apt(user="1000")
        self.remove_commands("rt")
        told = self.said("--deps", status=127)
        self.assertRegex(told, "--deps needs root on Debian: there it installs cargo\\b")
        # so it is said where --deps is not given
        for told, again in ((told, ""), (self.told()[2], ""), (
                self.told(env={"INSTALL_PREFIX": "/to there"})[2], ': bin/install "/to there"')):
            self.assertRegex(
                told, r"as root: apt-get install --no-install-recommends cargo\b.*\n"
                r"bin/build_program: +then again, without root%s\n" % again)
            self.assertNotIn("bin/install --deps", told)
        self.assertFalse(os.path.exists(self.folder + "/asked"))


class Words(Folder, unittest.TestCase):
    def test_words_that_are_rejected(self):
        """One line begins with the name of the script, and mostly ends with where the usage is."""
        for script, name, calls in (
                ("bin/build_program", "bin/build_program: ", ("--no", "--proved x")),
                ("bin/install", "bin/install: ", ("--no", "a b", "--cargo --proved")),
                ("bin/uninstall", "bin/uninstall: ", ("--no", "a b", "--cargo --proved")),
                ("examples/build", "examples/build: ", ("--no", "a b")),
                ("bin/gillspoon", "gillspoon", (
                    "", "lnt", "--none", "lint --none", "fmt --none", "where --none",
                    "sieve --none", "sieve a b")),
                ("bin/pgn_conform", "pgn_conform: ", (
                    "", "--full cat cat", "--files out cat", "--files -", "--full \"'\"",
                    "--full ' '", "--counts ' ' cat", "--refusal '(' cat", "--seconds x cat",
                    "--none", "no-such-converter", "--theme x cat"))):
            for words in calls:
                ran = run([script, *shlex.split(words)], env=dict(os.environ, DESTDIR=self.folder))
                with self.subTest(script + " " + words):
                    self.check_refused(ran, 2)
                    self.assertTrue(ran.stderr.decode().startswith(name), ran.stderr)
                    is_of_usage = words not in ("no-such-converter", "--theme x cat")
                    self.assertEqual(ran.stderr.endswith(b" (--help shows the usage)\n"),
                                     is_of_usage, ran.stderr)

    def test_help(self):
        for script in ("bin/gillspoon", "bin/gillspoon lint", "bin/gillspoon fmt",
                       "bin/gillspoon where", "bin/gillspoon sieve", "bin/install",
                       "bin/uninstall", "bin/test_tools", "bin/build_program",
                       "bin/try_allocations"):
            out = output_of(run([*script.split(), "--help"]))
            without_examples = ("bin/test_tools", "bin/build_program")
            for word in (b"xample", b"tatus") if script not in without_examples else (b"tatus",):
                self.assertIn(word, out)
        for word in ("-h", "--help"):
            self.assertIn(b"usage: examples/build [--proved | --cargo] [FOLDER]",
                          output_of(run(["examples/build", word])))
