"""A small repository for tests of the scripts that build: its commands build nothing real."""
import os
import shutil
import sys
import time

from programs import ROOT, Folder, run

# What both toolchains do. What they build says which text its source had.
BUILD = """root=../..
source=$root/crates/$package/src
mkdir -p $out
if [ $package = pgn_c ]; then
  grep -q broken $source/lib.rt && exit 101
  echo "$builder built static" >$out/libpgn_c.a
  [ $builder = rt ] || echo "cargo built shared" >$out/libpgn_c.so
  exit
fi
echo "$builder builds" >&2
[ -e $root/slow ] && sleep 32
[ -e $root/meanwhile ] && sleep 0.1 && touch $source/lib.rt
grep -q broken $source/main.rt && exit 101
printf '#!/bin/sh\\n%s\\necho "%s built %s, called with $*"\\n' \\
  '[ "$1" = --version ] && echo pgn_tool 1.2.3 && exit' $builder "$(cat $source/main.rt)" \\
  >$out/pgn_tool
chmod 755 $out/pgn_tool
"""
RT = """builder=rt out=out
case $* in
  lib) package=pgn_c ;;
  'run -- --version') package=pgn_tool ;;
  *) exit 9 ;;
esac
""" + BUILD
CARGO = """builder=cargo out=target/release package=$4
case $1 in
  --version)
    echo "cargo ${CARGO_VERSION:-1.74.0} (0123abcd 2023-11-16)"
    exit ;;
  fetch)
    [ ! -e ../../no-registry ]
    exit ;;
  build) ;;
  *) exit 9 ;;
esac
""" + BUILD
# The C compiler makes one library of another: its last word is the file.
COMMANDS = {
    "rt": RT, "cargo": CARGO,
    "rustc": 'echo "rustc ${RUSTC_VERSION:-1.74.0} (0123abcd 2023-11-16)"\n',
    "cc": 'for word; do last=$word; done\necho "cc built shared" >"$last"\n',
}
# Has the line that bin/build_program reads.
TO_CARGO = """: '
rust-version = "1.74"
'
mkdir -p "$1"
"""
# What the scripts call of a system. Nothing else is on their PATH, so neither cargo nor rt.
SYSTEM = ("basename cat chmod cp dirname env find grep head id ln ls mkdir mktemp mv readlink rm"
          " rmdir sed sh sleep sort touch").split()
# Debian's commands. policy: the version of cargo; show: whether there is a cargo-web.
APT_CACHE = """cd %s
case $* in
  'policy cargo') [ ! -e policy ] || cat policy ;;
  'show cargo-web') [ -e cargo-web ] ;;
  *) exit 9 ;;
esac
"""
APT_GET = """here=%s
echo "$*" >>$here/asked
[ $1 = update ] && exit
[ ! -e $here/broken ] || exit 100
case $* in *--assume-no*) cat $here/size; exit 1 ;; esac
cp $here/cargo-of-debian $here/path/cargo
chmod 755 $here/path/cargo
"""
MAIN = "crates/pgn_tool/src/main.rt"
FILES = ("crates/pgn_tool/src/lib.rt", "crates/pgn_tool/specs/a.antt",
         "crates/pgn_tool/proofs/a.antt", "crates/pgn_game/src/lib.rt",
         "crates/pgn_vectors/src/lib.rt", "crates/pgn_c/src/lib.rt", "crates/pgn_c/pgn.h",
         "cargo/pgn_c/ffi.rs", "cargo/rattle_std/lib.rs")


class Repository(Folder):
    """A test in a copy of the scripts among crates that have one source each."""

    # on the PATH, and what a call is of
    commands, script = tuple(COMMANDS), "bin/pgn_tool"

    def setUp(self):
        super().setUp()
        for folder in ("bin", "python", "share"):
            shutil.copytree(ROOT + "/" + folder, self.folder + "/" + folder,
                            ignore=shutil.ignore_patterns("__pycache__"))
        self.put_script("bin/to_cargo", TO_CARGO)
        self.put_all(dict.fromkeys(FILES, "text"))
        self.put(MAIN, "one")
        self.put("crates/pgn_arguments/src/arguments.rt", 'const VERSION: &str = "1.2.3";\n')
        self.put("crates.txt", "# crates\npgn_tool: pgn_game std # more\npgn_game:\n"
                 "pgn_vectors: pgn_game\npgn_c staticlib: pgn_game\n")
        self.put_command("python3", 'exec %s "$@"\n' % sys.executable)
        for name in SYSTEM:
            os.symlink(shutil.which(name), self.folder + "/path/" + name)
        for name in self.commands:
            self.put_command(name, COMMANDS[name])
        self.make_older()

    def add(self, name, text="\n"):
        """Adds a text, or an empty line, to a file, which may be missing."""
        with open(os.path.join(self.folder, name), "a", encoding="ascii") as file:
            file.write(text)

    def put_command(self, name, text):
        self.put_script("path/" + name, text)

    def remove_commands(self, *names):
        for name in names:
            os.unlink(self.folder + "/path/" + name)

    def put_apt(self, user="0", cargo=""):
        """Puts commands of Debian there in the place of cargo, which keep a list of their calls."""
        self.remove_commands("id", "cargo")
        self.put_command("id", "echo %s\n" % user)
        self.put_command("apt-cache", APT_CACHE % self.folder)
        self.put_command("apt-get", APT_GET % self.folder)
        self.put_script("cargo-of-debian", cargo)

    def make_older(self):
        """Dates every file a minute back, so that an edit is newer."""
        then = time.time() - 60
        for folder, folders, files in os.walk(self.folder):
            for name in folders + files:
                os.utime(os.path.join(folder, name), (then, then), follow_symlinks=False)

    def told(self, *words, script=None, env=(), **more):
        """The status, the output and the errors of a call."""
        words = [os.path.join(self.folder, script or self.script), *words]
        env = dict({"PATH": self.folder + "/path", "HOME": self.folder}, **dict(env))
        ran = run(words, env=env, **more)
        return ran.returncode, ran.stdout.decode(), ran.stderr.decode()

    def said(self, *words, status=0, **more):
        """The errors of a call that has this status; if that is not 0, it has no output."""
        ended, out, told = self.told(*words, **more)
        self.assertEqual((ended, bool(status and out)), (status, False), told)
        return told
