"""Tests of Debian's packages, and of what bin/dist writes beside the packages for Cargo."""
import glob
import hashlib
import os
import re
import subprocess
import sys
import tarfile
import unittest
import zipfile

import programs
from programs import ROOT, Folder, bytes_of, output_of, run, text_of, write_file

DIST = programs.load("bin/dist")
PACKAGES = ("libpgn-c-dev", "libpgn-c0", "pgn-tool", "python3-gillspoon")
# A game, and what PGN 3.2 and 8 ask for.
LOOSE = b'[White "A"] e4 e5 *'
TIDY = programs.HEAD.replace(b'White "?"', b'White "A"') + b"1. e4 e5 *\n\n"


class Debian(unittest.TestCase):
    """The packages, unpacked into an empty root."""

    @classmethod
    def setUpClass(cls):
        programs.need("dpkg-buildpackage", "dh", "lintian", "pkg-config", "cc")
        programs.need_cargo()
        cls.folder = programs.new_folder(cls)
        ran = run([ROOT + "/bin/dist", "--part", "debian", cls.folder], timeout=None)
        assert ran.returncode == 0, ran.stderr.decode()
        cls.said = ran.stdout.decode().split()
        cls.root = cls.folder + "/root"
        for file in glob.glob(cls.folder + "/*.deb"):
            subprocess.run(["dpkg-deb", "-x", file, cls.root], check=True)
        cls.libraries, = glob.glob(cls.root + "/usr/lib/*/pkgconfig")

    def env(self, **more):
        """The environment of a program in that root; nothing of the repository is in it."""
        return dict({"PATH": self.root + "/usr/bin:/usr/bin:/bin", "HOME": self.folder,
                     "LD_LIBRARY_PATH": os.path.dirname(self.libraries)}, **more)

    def test_each_package_is_there(self):
        names = sorted(it.split("_")[:2] for it in os.listdir(self.folder) if it.endswith(".deb"))
        version = programs.load("bin/to_cargo").version()
        self.assertEqual(names, [[it, version] for it in PACKAGES])
        self.assertEqual(sorted(self.said), sorted(
            it for it in os.listdir(self.folder) if it.endswith(".deb")))

    def test_lintian_has_no_error(self):
        env = dict(os.environ, PATH=programs.PATH)
        output_of(run(["lintian", "--fail-on", "error,warning", "--allow-root",
                       *glob.glob(self.folder + "/*.deb")], env=env, timeout=None), err=None)

    def test_a_program_depends_on_the_minor_version_of_the_library(self):
        """Which is in the name of the shared library; until 1.0 another may change a call."""
        file, = glob.glob(self.folder + "/libpgn-c0_*.deb")
        ran = run(["dpkg-deb", "-I", file, "shlibs"])
        major, minor, _ = programs.load("bin/to_cargo").version().split(".")
        self.assertEqual(ran.stdout.decode(), "libpgn_c {0}.{1} libpgn-c0 (>= {0}.{1}), "
                         "libpgn-c0 (<< {0}.{2}~)\n".format(major, minor, int(minor) + 1))

    def test_the_program(self):
        ran = run(["pgn_tool", "export"], input=LOOSE, env=self.env(), cwd=self.folder)
        self.assertEqual(output_of(ran), TIDY)

    def test_the_command(self):
        env = self.env(PYTHONPATH=self.root + "/usr/lib/python3/dist-packages")
        ran = run([self.root + "/usr/bin/gillspoon", "fmt"], input=LOOSE, env=env, cwd=self.folder)
        self.assertEqual(output_of(ran), TIDY)
        script = "import gillspoon; print(gillspoon._library.path(), gillspoon.__version__)"
        ran = run(["/usr/bin/python3", "-c", script], env=env, cwd=self.folder)
        path, version = ran.stdout.decode().split()
        self.assertTrue(os.path.realpath(path).startswith(os.path.dirname(self.libraries)), path)
        wanted = run(["pgn_tool", "--version"], env=self.env()).stdout
        self.assertEqual(wanted.decode(), "pgn_tool %s\n" % version)

    def test_a_program_in_c(self):
        """It is built by what pkg-config says, with the shared library and with the static one."""
        write_file(self.folder + "/a.pgn", LOOSE)
        env = dict(os.environ, PKG_CONFIG_LIBDIR=self.libraries, PKG_CONFIG_SYSROOT_DIR=self.root)
        for number, static in enumerate(([], ["--static"])):
            words = run(["pkg-config", "--cflags", "--libs", *static, "pgn_c"], env=env).stdout
            program = "%s/program%d" % (self.folder, number)
            subprocess.run(["cc", ROOT + "/examples/c/pgn_check.c", "-o", program,
                            *words.decode().split(), *(["-static"] if static else [])], check=True)
            ran = run([program, "--export", "a.pgn"], env={} if static else self.env(),
                      cwd=self.folder)
            self.assertEqual(output_of(ran), TIDY)

    def test_manuals_and_completions(self):
        usr = self.root + "/usr/share/"
        for name in ("pgn_tool", "gillspoon"):
            for path in ("man/man1/%s.1.gz", "bash-completion/completions/%s",
                         "fish/vendor_completions.d/%s.fish", "zsh/vendor-completions/_%s"):
                self.assertTrue(os.path.isfile(usr + path % name), path % name)
        self.assertTrue(os.path.isfile(usr + "man/man3/pgn_c.3.gz"))


class Others(Folder, unittest.TestCase):
    """What debian/ says beside what is built, and what else bin/dist writes."""

    def test_the_build_depends_on_what_the_build_by_cargo_needs(self):
        control = text_of("debian/control")
        named = re.search(r"^Build-Depends:\n((?: .*\n)+)", control, re.MULTILINE)[1]
        names = [it.strip().rstrip(",") for it in named.splitlines()]
        oldest = "%d.%d" % programs.OLDEST_CARGO
        self.assertIn("cargo-web | cargo (>= %s)" % oldest, names)
        for crate in programs.CRATES:
            self.assertIn("librust-%s-dev" % crate, names)

    def test_git_ignores_what_the_build_leaves(self):
        programs.need("git")
        left = [".debhelper/x", "pgn-tool.debhelper.log", "libpgn-c0.substvars",
                "debhelper-build-stamp", "files", "tmp/usr/bin/pgn_tool",
                *(it + "/DEBIAN/control" for it in PACKAGES)]
        kept = ["control", "rules", "pgn-tool.install"]
        ran = run(["git", "check-ignore", *("debian/" + it for it in left + kept)], cwd=ROOT)
        self.assertEqual(ran.stdout.decode().split(), ["debian/" + it for it in left])

    def test_what_is_missing_for_a_part_that_was_asked_for(self):
        old_cargo = "echo '      --no-verify  Do not verify the contents'\n"  # as Debian 12's
        for scripts, part, why in (
                ({}, "cargo", r"cargo is missing\n\Z"),
                ({}, "debian", r"of Debian's package dpkg-dev\n\Z"),
                ({}, "proved", r"rt is not on the PATH\n\Z"),
                (dict.fromkeys(("dpkg-buildpackage", "dh"), "exit 9\n"), "debian",
                 r"of Debian's package dh-python\n"),
                ({"cargo": old_cargo}, "cargo", "this cargo is too old to write packages")):
            for name, text in scripts.items():
                self.put_script("bin/" + name, text)
            ran = run([sys.executable, "bin/dist", "--part", part, self.folder + "/out"],
                      env={"PATH": self.folder + "/bin"})
            self.assertEqual((ran.returncode, ran.stdout), (127, b""), why)
            self.assertRegex(ran.stderr.decode(), r"\Abin/dist: .*" + why)

    def test_the_proved_program(self):
        """It is in a tar file, whose SHA-256 is beside it in the form of sha256sum."""
        DIST.pack(self.program, self.folder, "1.2.3")
        path, = glob.glob(self.folder + "/*.tar.gz")
        name = "pgn_tool-1.2.3-proved-" + os.uname().machine
        self.assertEqual(os.path.basename(path), name + ".tar.gz")
        with tarfile.open(path) as archive:
            self.assertEqual(sorted(archive.getnames()), sorted(
                name + it for it in ("/pgn_tool", "/pgn_tool.1", "/LICENSE-MIT")))
            packed = archive.extractfile(name + "/pgn_tool").read()
            self.assertTrue(packed == bytes_of(self.program))
            self.assertTrue(archive.getmember(name + "/pgn_tool").mode & 0o111)
        programs.need("sha256sum")
        output_of(run(["sha256sum", "-c", path + ".sha256"], cwd=self.folder), err=None)
        self.assertIn(hashlib.sha256(bytes_of(path)).hexdigest(),
                      self.get(os.path.basename(path) + ".sha256").decode())

    def test_the_wheel(self):
        name = DIST.loaded("python/build_wheel.py").build_wheel(self.folder)
        with zipfile.ZipFile(os.path.join(self.folder, name)) as archive:
            names = archive.namelist()
            entry, = [it for it in names if it.endswith("/entry_points.txt")]
            self.assertEqual(archive.read(entry), b"[console_scripts]\n"
                             b"gillspoon = gillspoon._command:main\n")
        self.assertIn("gillspoon/libpgn_c.so", names)
