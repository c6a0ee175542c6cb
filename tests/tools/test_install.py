"""Tests of bin/install and bin/uninstall, and of what they put in place."""
import os
import re
import unittest

import programs
from programs import ROOT, run, text_of
from small_repository import CARGO, MAIN, Repository

INSTALL, UNINSTALL, LIST = "bin/install", "bin/uninstall", "share/pgn_tool/files"
MODULES = ROOT + "/python/gillspoon"
PAGES = ("pgn_tool", "gillspoon")
FILES = sorted([
    LIST, "include/pgn.h", "lib/libpgn_c.a", "lib/libpgn_c.so", "lib/libpgn_c.so.1.2",
    "lib/pkgconfig/pgn_c.pc", "share/man/man3/pgn_c.3",
    *(form % it for it in PAGES for form in (
        "bin/%s", "share/bash-completion/completions/%s", "share/fish/vendor_completions.d/%s.fish",
        "share/man/man1/%s.1", "share/zsh/site-functions/_%s")),
    *("share/pgn_tool/gillspoon/" + it for it in {*os.listdir(MODULES), "VERSION"}
      if it != "__pycache__"),
])


def below(folder, are_folders=False):
    """The files and links below a folder, or the folders."""
    return sorted(os.path.relpath(os.path.join(at, it), folder) for at, *names in os.walk(folder)
                  for it in names[0 if are_folders else 1])


class Small(Repository, unittest.TestCase):
    script = INSTALL

    def setUp(self):
        super().setUp()
        self.prefix = self.folder + "/to there"

    def test_everything_in_place(self):
        for _ in range(2):
            status, out, told = self.told(self.prefix)
            self.assertEqual(status, 0, told)
            self.assertEqual(below(self.prefix), FILES)
            listed = text_of(self.prefix, LIST).splitlines()
            self.assertEqual(sorted(listed), FILES)
            self.assertEqual(out.splitlines(), [self.prefix + "/" + it for it in listed])
        ran = run([self.prefix + "/bin/pgn_tool", "x"])
        self.check(ran, 0, b"cargo built one, called with x\n")

    def test_what_is_installed_is_said_and_the_library_is_built_as_the_program(self):
        by_cargo = (b"cargo", "cargo built static", "cargo built shared", "-lpthread")
        for options, first, kind, (program, static, shared, needs) in (
                ([], "Cargo builds it, which takes about half a minute",
                 "built by Cargo from the proved sources; not proved itself\n", by_cargo),
                (["--proved"], "rt proves and builds it, which takes 12 to 25 minutes",
                 "proved and built by rt\n", (b"rt", "rt built static", "cc built shared", "")),
                (["--cargo"], "", "built by Cargo", by_cargo)):
            told = self.said(*options, self.prefix)
            self.assertIn(first, told)
            self.assertRegex(told, "is installed under %s: %s" % (self.prefix, kind))
            ran = run([self.prefix + "/bin/pgn_tool", "x"])
            self.assertEqual(ran.stdout.split()[0], program)
            built = [text_of(self.prefix, "lib/libpgn_c" + it).strip() for it in (".a", ".so")]
            self.assertEqual(built, [static, shared], options)
            self.assertEqual(os.readlink(self.prefix + "/lib/libpgn_c.so"), "libpgn_c.so.1.2")
            # the file for pkg-config
            lines = text_of(self.prefix, "lib/pkgconfig/pgn_c.pc").splitlines()
            self.assertEqual(lines[0], "prefix=" + self.prefix)
            self.assertRegex(lines[-1], r"^Libs.private:.*" + needs)
            self.assertNotIn("libpgn_c is", told)

    def test_each_build_is_said_where_they_differ(self):
        self.said("--proved", script="bin/build_program")
        told = self.said(self.prefix)
        self.assertIn("is installed under %s: proved and built by rt\n" % self.prefix, told)
        self.assertIn("libpgn_c is built by Cargo from the proved sources; not proved itself", told)

    def test_a_newer_source_of_the_library_builds_it_anew(self):
        self.said(self.prefix)
        path = self.folder + "/cargo/out/libpgn_c.a"
        for source in ("crates/pgn_c/src/lib.rt", "cargo/pgn_c/ffi.rs", "crates/pgn_game/src/lib.rt"):
            self.make_older()
            before = os.stat(path).st_ino
            self.said(self.prefix)
            self.assertEqual(os.stat(path).st_ino, before)
            self.add(source)
            self.assertIn("newer than the library", self.said(self.prefix))
            self.assertNotEqual(os.stat(path).st_ino, before)

    def test_the_proved_library_needs_a_c_compiler(self):
        self.remove_commands("cc")
        self.assertIn("the shared library needs a C compiler, and cc is not on the PATH",
                      self.said("--proved", self.prefix, status=127))
        self.said("--proved", self.prefix, env={"CC": "rt"}, status=127)

    def test_the_command_says_what_to_run_without_the_library(self):
        self.said(self.prefix)
        env = {"PATH": self.folder + "/path"}
        for is_there in (True, False):
            if not is_there:
                os.unlink(self.prefix + "/lib/libpgn_c.so")
            ran = run([self.prefix + "/bin/gillspoon", "where", "games.pgn", "0"], cwd="/", env=env)
            self.assertEqual((ran.returncode, ran.stdout), (127, b""))
            said = "%s/lib/libpgn_c.so cannot be used" % self.prefix
            self.assertIn(said if is_there else "there is no libpgn_c.so", ran.stderr.decode())
            self.assertTrue(ran.stderr.endswith(b": run bin/install again\n"), ran.stderr)

    def test_package(self):
        package = self.folder + "/package"
        env = {"DESTDIR": package}
        # where the package goes, no shell looks
        self.assertNotIn("completes", self.said("/usr", env=env))
        self.assertIn("prefix=/usr\n", text_of(package, "usr/lib/pkgconfig/pgn_c.pc"))
        self.assertEqual(below(package + "/usr"), FILES)
        self.assertEqual(self.said("/usr", script=UNINSTALL, env=env), "")
        self.assertEqual((below(package), below(package, True)), ([], ["usr"]))

    def test_uninstall_removes_exactly_what_was_installed(self):
        own = ["bin/mine", "share/man/man1/mine.1", "share/pgn_tool/mine"]
        for name in own:
            self.put(os.path.join(self.prefix, name), "mine")
        self.said(self.prefix)
        self.assertEqual(below(self.prefix), sorted(FILES + own))
        status, out, told = self.told(self.prefix, script=UNINSTALL)
        self.assertEqual((status, told), (0, ""))
        self.assertEqual(sorted(out.splitlines()), [self.prefix + "/" + it for it in FILES])
        self.assertEqual(below(self.prefix), own)
        self.assertEqual(below(self.prefix, True),
                         ["bin", "share", "share/man", "share/man/man1", "share/pgn_tool"])
        self.assertIn("so bin/install put nothing there",
                      self.said(self.prefix, script=UNINSTALL, status=1))

    def test_the_list_of_an_older_installation(self):
        """A file in it goes, and one that is not below the prefix stays."""
        self.said(self.prefix)
        for name in ("share/pgn_tool/old", "share/pgn_tool/mine", "../other"):
            self.put(os.path.join(self.prefix, name), "text")
        self.add(self.prefix + "/" + LIST, "share/pgn_tool/old\n")
        self.said(self.prefix)
        self.assertEqual(below(self.prefix), sorted(FILES + ["share/pgn_tool/mine"]))
        self.add(self.prefix + "/" + LIST, "../other\n")
        status, _, told = self.told(self.prefix, script=UNINSTALL)
        self.assertEqual(status, 1)
        self.assertIn("names ../other, which bin/install does not write", told)
        self.assertTrue(os.path.exists(self.folder + "/other"))

    def test_a_folder_that_cannot_be_written_is_refused_before_any_build(self):
        file = self.put("file", "text")
        for prefix, at in ((file, "/file"), (file + "/below", "/file"),
                           ("/dev/null/x", "/dev/null")):
            told = self.said(prefix, status=1)
            self.assertRegex(told, "%s is not a folder that you can write to\n" % at)
            self.assertIn('bin/install "$HOME/.local"', told)
            self.assertIn('or as root: bin/install "%s"\n' % prefix, told)
            self.said("--built", script="bin/build_program", status=1)
        self.assertIn('bin/install --cargo --deps "$HOME/.local"',
                      self.told("--cargo", "--deps", "/dev/null/x")[2])

    def test_a_folder_of_another_user_is_refused_before_any_build(self):
        os.makedirs(self.prefix + "/share/man")
        os.chmod(self.prefix + "/share/man", 0o555)
        words = [self.folder + "/" + INSTALL, self.prefix]
        if os.geteuid() == 0:
            programs.need("setpriv")
            os.chmod(self.folder, 0o755)
            words = [programs.found("setpriv"), "--reuid", "65534", "--clear-groups", *words]
            os.chown(self.prefix, 65534, -1)
        else:
            self.addCleanup(os.chmod, self.prefix + "/share/man", 0o755)
        ran = run(words, env={"PATH": self.folder + "/path", "HOME": self.folder})
        self.assertEqual((ran.returncode, ran.stdout), (1, b""))
        self.assertIn(b"is not a folder that you can write to", ran.stderr)
        self.said("--built", script="bin/build_program", status=1)

    def test_a_build_that_fails(self):
        for source, what, options in (("crates/pgn_c/src/lib.rt", "library", []),
                                      ("crates/pgn_c/src/lib.rt", "library", ["--proved"]),
                                      (MAIN, "program", [])):
            self.put(source, "broken")
            told = self.said(*options, self.prefix, status=127)
            self.assertIn("the %s was not built" % what, told)
            self.assertFalse(os.path.exists(self.prefix))

    def test_neither_cargo_nor_rt(self):
        self.remove_commands(*self.commands)
        told = self.said(self.prefix, status=127)
        self.assertIn("cargo is not on the PATH", told)
        self.assertIn('on Debian, as root: bin/install --deps "%s"\n' % self.prefix, told)
        self.assertFalse(os.path.exists(self.prefix))

    def test_an_old_cargo(self):
        told = self.said(self.prefix, env={"RUSTC_VERSION": "1.63.0"})
        self.assertIn("/path/rustc is 1.63.0, and 1.74 is needed", told)
        self.assertIn("proved and built by rt", told)

    def test_deps(self):
        self.put_apt(cargo=CARGO)
        self.assertIn("built by Cargo", self.said("--deps", self.prefix))

    def test_advice(self):
        told = self.said(self.prefix)
        self.assertIn('export PATH="%s/bin:$PATH"' % self.prefix, told)
        self.assertIn("bash completes them with this line in ~/.bashrc: . '%s" % self.prefix, told)
        env = {"PATH": "%s/bin:%s/path" % (self.prefix, self.folder),
               "XDG_DATA_HOME": self.prefix + "/share"}
        self.assertEqual(self.said(self.prefix, env=env).count("\n"), 1)

    def test_ldconfig(self):
        """It is asked for where the loader knows the folder, and not yet the library there."""
        known = "echo '%s/lib: (from /etc/ld.so.conf.d/libc.conf:2)'" % self.prefix
        cached = "echo '\tlibpgn_c.so.1.2 (libc6,x86-64) => %s/lib/libpgn_c.so.1.2'" % self.prefix
        script = "case $* in '-N -X -v') %s ;; -p) %s ;; *) exit 9 ;; esac\n"
        for *said, asks in ((known, ":", True), (known, cached, False), (":", ":", False)):
            self.put_command("ldconfig", script % tuple(said))
            told = self.said(self.prefix)
            self.assertEqual("as root: ldconfig\n" in told, asks, told)


class Installed(unittest.TestCase):
    """The program and the command as they are installed, with bin/ of the prefix on the PATH."""

    @classmethod
    def setUpClass(cls):
        programs.need_program()
        cls.folder = programs.new_folder(cls)
        cls.prefix = cls.folder + "/there"
        cls.env = {"PATH": cls.prefix + "/bin:/usr/bin:/bin", "HOME": cls.folder,
                   "LC_ALL": "C.UTF-8"}
        cls.ran = run([ROOT + "/" + INSTALL, cls.prefix], timeout=None)
        assert cls.ran.returncode == 0, cls.ran.stderr

    def shell(self, script, name="sh", words=("-c",), **env):
        programs.need(name)
        return run([programs.found(name), *words, script], cwd=self.folder,
                   env=dict(self.env, **env))

    def test_they_work_from_another_folder(self):
        ran = self.shell("printf '1. e4 *\\n\\n[White \"Ann\"]\\n\\n1. Ke2 *\\n' >games.pgn\n"
                         "pgn_tool check games.pgn 2>&1 | gillspoon where games.pgn\n"
                         "gillspoon lint games.pgn\n"
                         "gillspoon sieve games.pgn good.pgn bad.pgn >/dev/null\n"
                         "gillspoon fmt good.pgn | tail -n 2; gillspoon fmt --check bad.pgn")
        self.assertEqual(ran.stdout.decode().splitlines(), [
            "games.pgn: line 5, column 4 (byte 27): move is not legal", "1. Ke2 *", "   ^",
            'game 2: White "Ann", Black "?", Event "?"',
            "games.pgn:5:4: move is not legal (game 2, Ann \u2013 ?)",
            "1 file, 2 games, 1 fault in 1 file", "1. e4 *", ""])
        self.assertRegex(ran.stderr, rb"\Agillspoon: bad.pgn: byte \d+: move is not legal\n\Z")

    def test_no_path_of_the_repository_is_named(self):
        texts = {it: self.shell("gillspoon %s --help" % it).stdout.decode()
                 for it in ("", "lint", "fmt", "where", "sieve")}
        for page in PAGES:
            source = text_of("%s/share/man/man1/%s.1" % (self.prefix, page))
            texts[page + ".1"] = re.sub(r'(?m)^\.\\".*', "", source)
        folders = [it for it in os.listdir(ROOT) if os.path.isdir(os.path.join(ROOT, it))]
        named = r"(?<![\w/])(%s)/\w+" % "|".join(map(re.escape, folders))
        for name, text in texts.items():
            self.assertGreater(len(text), 500)
            self.assertNotRegex(text, named, name)

    def test_the_manual_is_found(self):
        programs.need("man")
        for page in PAGES:
            wanted = "%s/share/man/man1/%s.1\n" % (self.prefix, page)
            self.assertEqual(self.shell("man -w " + page).stdout.decode(), wanted)

    def test_bash_completes(self):
        """By the line that is advised."""
        line = re.search(rb"in ~/.bashrc: (.*)", self.ran.stderr)[1].decode()
        ran = self.shell(line + "; complete -p pgn_tool gillspoon", "bash")
        self.assertEqual(ran.stdout, b"complete -F _pgn_tool pgn_tool\n"
                         b"complete -F _gillspoon gillspoon\n", ran.stderr)

    def test_fish_completes(self):
        ran = self.shell("complete -C 'pgn_tool exp'", "fish",
                         XDG_DATA_DIRS=self.prefix + "/share:/usr/share")
        self.assertEqual(ran.stdout.split(b"\t")[0], b"export", ran.stderr)

    def test_zsh_completes_after_the_line_that_is_advised(self):
        programs.need("zsh")
        line = re.search(rb"above compinit in ~/.zshrc: (.*)", self.ran.stderr)[1].decode()
        script = ("zmodload zsh/zpty; zpty shell zsh -f -i\n"
                  "zpty -w shell \"PS1=; %s; autoload -Uz compinit; compinit -u -d dump\"\n"
                  "zpty -w shell \"bindkey '^I' complete-word; print ready\"\n"
                  "zpty -r shell out '*ready*ready*'\n"
                  "zpty -n -w shell $'pgn_tool export --red\\t'\n"
                  "zpty -r shell out '*--reduced*' && print found\n"
                  "zpty -d shell" % line)
        ran = self.shell(script, "zsh", ("-f", "-c"), TERM="dumb")
        self.assertEqual(ran.stdout, b"found\n", ran.stderr)
