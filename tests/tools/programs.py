"""What several tests of the tools need: the program, and other programs that may be missing."""
import bz2
import fcntl
import functools
import glob
import gzip
import importlib
import importlib.machinery
import importlib.util
import io
import json
import lzma
import os
import pathlib
import pty
import re
import resource
import shutil
import signal
import subprocess
import sys
import tempfile
import termios
import time
import unittest
import zipfile

ROOT = os.path.dirname(os.path.dirname(os.path.dirname(os.path.realpath(__file__))))
PACKAGE = ROOT + "/python"
# The export of a game of nothing, up to the marker.
HEAD = (b'[Event "?"]\n[Site "?"]\n[Date "????.??.??"]\n[Round "?"]\n[White "?"]\n[Black "?"]\n'
        b'[Result "*"]\n\n')
UNKNOWN = HEAD + b"*\n\n"
NO_TEXT = "is not a text of games: UTF-16 has to be converted, and another archive unpacked"
PAGE = "is a page of HTML or XML, and no text of games"
PDF = "is a PDF, and no text of games"
# Files of other kinds by a name, with what is said of them.
OTHER_KINDS = {
    "mark.pgn": (HEAD.decode().encode("utf-16"), NO_TEXT),
    "big-endian.pgn": (("\ufeff" + HEAD.decode()).encode("utf-16-be"), NO_TEXT),
    "no-mark.pgn": (HEAD.decode().encode("utf-16-le"), NO_TEXT),
    "no-mark-big-endian.pgn": (HEAD.decode().encode("utf-16-be"), NO_TEXT),
    "no-latin-letter.pgn": ("\u4e16\u754c".encode("utf-16"), NO_TEXT),
    "seven.pgn": (b"7z\xbc\xaf\x27\x1c\0\4" + bytes(range(256)), NO_TEXT),
    "tape.pgn": (b"2026.pgn".ljust(257, b"\0") + b"ustar\0" + UNKNOWN, NO_TEXT),
    "tape.pgn.gz": (gzip.compress(b"[1].pgn".ljust(257, b"\0") + b"ustar\0" + UNKNOWN), NO_TEXT),
    "picture.pgn": (b"\x89PNG\r\n\x1a\n\0\0\0\rIHDR\0\0\1\0", NO_TEXT),
    "nothing.pgn": (b"\0" * 2000, NO_TEXT),
    "page.pgn": (b"\xef\xbb\xbf\r\n<!DOCTYPE html>\n<html>404 Not Found</html>\n", PAGE),
    "tag.pgn": (b"<HTML><BODY>Too many requests\n", PAGE),
    "feed.pgn": (b"<?xml version='1.0'?>\n<games/>\n", PAGE),
    "guide.pgn": (b"%PDF-1.4\n%\xe2\xe3\xcf\xd3\n1 0 obj\n<</Type/Catalog>>\nendobj\n", PDF),
}
# Debian keeps games apart.
PATH = os.environ.get("PATH", "") + ":/usr/games:/usr/sbin"
DEBIAN = "/usr/share/cargo/registry"
CRATES = ("arrayvec", "itoa", "clap")
OLDEST_CARGO = (1, 74)


def found(name):
    return shutil.which(name, path=PATH)


def not_tried(why):
    """Leaves a test out, which then counts as skipped for this reason."""
    raise unittest.SkipTest(why)


def need(*names):
    """Leaves a test out if one of these programs is missing."""
    for name in names:
        if not found(name):
            not_tried(name + " is missing")


def need_module(name, package):
    """A module of Python; the test is left out without it, which a package of Debian has."""
    try:
        return importlib.import_module(name)
    except ImportError:
        return not_tried(package + " is missing")


@functools.lru_cache(maxsize=None)
def printed_by_build(*options):
    """The path that bin/build_program prints, or an empty text. One process at a time builds."""
    with open(os.path.join(ROOT, "bin/build_program"), "rb") as script:
        fcntl.flock(script, fcntl.LOCK_EX)
        ran = subprocess.run([script.name, *options], stdout=subprocess.PIPE, check=False)
    return os.fsdecode(ran.stdout).rstrip("\n")


def need_program():
    """The program that PGN_TOOL names, else that of the repository, which is built if need be.

    That is the proved one if it is there, else Cargo's. The test is left out if none can be built.
    """
    program = os.environ.get("PGN_TOOL") or printed_by_build()
    return program or not_tried("the program cannot be built")


def opens_closed_streams(program):
    """Whether a program has /dev/null in the place of a closed standard stream.

    Rust opens it before main, so Cargo's program does not notice that a stream is closed.
    """
    return os.path.realpath(program).startswith(os.path.join(ROOT, "cargo", ""))


def need_proved_program(*options):
    """The program or `--library` that rt built; the test is left out if a source is newer."""
    path = printed_by_build(*options, "--built", "--proved")
    if not path or path != printed_by_build(*options):
        not_tried("%s has not built it" % " ".join(["bin/build_program", *options, "--proved"]))
    return path


def need_cargo():
    """Leaves a test out without a cargo that is new enough, or without the crates."""
    need("cargo")
    said = run(["cargo", "--version"]).stdout.decode()
    version = re.match(r"cargo (\d+)\.(\d+)", said)
    if not version or tuple(map(int, version.groups())) < OLDEST_CARGO:
        not_tried("cargo is older than %d.%d: %s" % (*OLDEST_CARGO, said.strip()))
    for name in CRATES:
        if not glob.glob("%s/%s-[0-9]*" % (DEBIAN, name)):
            not_tried("Debian's crate librust-%s-dev is missing" % name)


def need_library(build):
    """The static library of a build, `--cargo` or `--proved`; the shared one is beside it.

    The test is left out if it cannot be built by Cargo, or if rt has not built it.
    """
    need("cc")
    if build == "--proved":
        return need_proved_program("--library")
    need_cargo()
    return printed_by_build("--library", build) or not_tried("the library cannot be built")


def library():
    """The shared library that GILLSPOON_LIBRARY names, or the one that is built if need be.

    The test is left out if it cannot be built.
    """
    named = os.environ.get("GILLSPOON_LIBRARY")
    static = named or printed_by_build("--library") or not_tried("the library cannot be built")
    return named or os.path.join(os.path.dirname(static), "libpgn_c.so")


def need_package():
    """The Python package over that library, for the tests of a module."""
    if not os.environ.get("GILLSPOON_LIBRARY"):
        os.environ["GILLSPOON_LIBRARY"] = library()
        unittest.addModuleCleanup(os.environ.pop, "GILLSPOON_LIBRARY")
    if PACKAGE not in sys.path:
        sys.path.insert(0, PACKAGE)
    return importlib.import_module("gillspoon")


def zip_of(*members):
    """A zip with files: their names and texts."""
    held = io.BytesIO()
    with zipfile.ZipFile(held, "w", zipfile.ZIP_DEFLATED) as packed:
        for name, text in members:
            packed.writestr(name, text)
    return held.getvalue()


# How a text is compressed, by the end of a name.
PACKERS = {"gz": gzip.compress, "bz2": bz2.compress, "xz": lzma.compress,
           "zst": lambda text: output_of(run(["zstd", "-qc"], input=text)),
           "zip": lambda text: zip_of(("games.pgn", text))}


def text_of(*path):
    """The text of a file, by its path from the root of the repository, or by its whole path."""
    return pathlib.Path(ROOT, *path).read_text(encoding="utf-8")


def bytes_of(*path):
    """The bytes of a file, by its path as `text_of` takes it."""
    return pathlib.Path(ROOT, *path).read_bytes()


def write_file(path, data):
    """Writes bytes, or a text as UTF-8, to a file."""
    with open(path, "wb") as file:
        file.write(data if isinstance(data, bytes) else data.encode())


def vectors():
    """The worked inputs, as vectors/vectors.json has them."""
    return json.loads(text_of("vectors", "vectors.json"))["vectors"]


def archive(games, style, lines=20):
    """The bytes of an archive of bench/make_archive.py."""
    return run([sys.executable, "bench/make_archive.py", "--games", str(games), "--lines",
                str(lines), "--style", style], timeout=300).stdout


def mutated(text, rng, parts, most):
    """A text with at most so many random changes.

    One of some parts is put in or replaces a byte, some bytes go, or they are doubled elsewhere.
    """
    text = bytearray(text)
    for _ in range(rng.randint(0, most)):
        at, kind = rng.randint(0, len(text)), rng.random()
        if kind < 0.5:
            text[at:at] = rng.choice(parts)
        elif kind < 0.6:
            text[at:at + 1] = rng.choice(parts)
        elif kind < 0.8:
            del text[at:at + rng.randint(1, 6)]
        else:
            begin = rng.randint(0, len(text))
            text[at:at] = text[begin:begin + rng.randint(1, 30)]
    return bytes(text)


def run(words, **more):
    """Runs words from the root of the repository."""
    more = {"cwd": ROOT, "stdout": subprocess.PIPE, "stderr": subprocess.PIPE, "timeout": 100,
            "env": dict(os.environ, PATH=PATH), **more}
    return subprocess.run(words, check=False, **more)


def output_of(ran, status=0, err=b""):
    """What a program wrote on standard output, if it ended with this status.

    It also said exactly `err` on standard error, or anything if that is None.
    """
    if (ran.returncode, ran.stderr if err is not None else None) != (status, err):
        raise AssertionError((ran.args, ran.returncode, ran.stdout, ran.stderr))
    return ran.stdout


def new_folder(test):
    """A new folder, which is removed behind a test, or behind all tests of a class."""
    folder = os.path.realpath(tempfile.mkdtemp())
    clean = test.addClassCleanup if isinstance(test, type) else test.addCleanup
    clean(shutil.rmtree, folder, True)
    return folder


class Folder:
    """What a test has that works in a folder of its own."""

    def setUp(self):
        self.folder = new_folder(self)

    @functools.cached_property
    def program(self):
        """The program; the test is left out without one."""
        return need_program()

    def put(self, name, data):
        """Writes a file, perhaps in a new folder of that one, and gives its path."""
        path = os.path.join(os.fsencode(self.folder), os.fsencode(name))
        os.makedirs(os.path.dirname(path), exist_ok=True)
        write_file(path, data)
        return os.fsdecode(path)

    def put_script(self, name, text):
        """Writes a script of the shell that can be called, and gives its path."""
        path = self.put(name, "#!/bin/sh\n" + text)
        os.chmod(path, 0o755)
        return path

    def shell(self, script, run=run, shell="sh", **env):
        """Runs a script in the folder, where the program and the scripts of bin/ are commands."""
        path = ":".join([os.path.dirname(self.program), ROOT + "/bin", PATH])
        env = dict(os.environ, PATH=path, PGN_TOOL=self.program, **env)
        return run([shell, "-c", script], cwd=self.folder, env=env)

    def put_all(self, files):
        """Writes files: their texts by their names."""
        for name, data in files.items():
            self.put(name, data)

    def get(self, name):
        return bytes_of(self.folder, name)

    def files(self, folder=""):
        """The bytes of the files of that folder, or of one in it, by their names."""
        path = os.path.join(self.folder, folder)
        return {it: bytes_of(path, it) for it in os.listdir(path)}

    def check(self, ran, status, out=b"", err=b"", files=()):
        """A program ended so, and these files have these texts."""
        self.assertEqual((ran.returncode, ran.stdout, ran.stderr), (status, out, err), ran.args)
        self.assertEqual({it: self.get(it) for it in files}, dict(files))

    def check_refused(self, ran, status):
        """A program wrote nothing, and ended so with a line on standard error."""
        self.assertEqual((ran.returncode, ran.stdout, ran.stderr.count(b"\n")), (status, b"", 1),
                         (ran.args, ran.stderr))


class Gillspoon(Folder):
    """What a test has that calls gillspoon in its folder, by a line of words and by names."""

    def setUp(self):
        super().setUp()
        self.env = dict(os.environ, PATH=ROOT + "/bin:" + PATH, LC_ALL="C.UTF-8", COLUMNS="80",
                        PYTHONDONTWRITEBYTECODE="1")
        for name in ("NO_COLOR", "INSIDE_EMACS"):
            self.env.pop(name, None)

    def call(self, line, *names, of=None, **more):
        """Runs these words. A text `of` a file is first written to the last of them."""
        words = [*line.split(), *names]
        if of is not None:
            self.put(words[-1], of)
        if "input" not in more:
            more.setdefault("stdin", subprocess.DEVNULL)
        return run([sys.executable, ROOT + "/bin/gillspoon", *words],
                   **{"cwd": self.folder, "env": self.env, **more})

    def says(self, line, status, out=b"", told=b"", names=(), files=(), **more):
        """A call ends so, and these files then have these texts."""
        self.check(self.call(line, *names, **more), status, out, told, files)


def load(script):
    """The module that a script without a suffix is, by its path in the repository."""
    loader = importlib.machinery.SourceFileLoader(os.path.basename(script),
                                                  os.path.join(ROOT, script))
    module = importlib.util.module_from_spec(importlib.util.spec_from_loader(loader.name, loader))
    loader.exec_module(module)
    return module


def planted(change):
    """The words that call gillspoon after a piece of Python that changes it."""
    return [sys.executable, "-c", "import sys; sys.path.insert(0, %r)\n%s\n"
            "from gillspoon._command import main\nsys.exit(main())" % (PACKAGE, change)]


def without_rights(test, program):
    """The words that call a program as a user whom permissions bind: for root, as another one."""
    if os.geteuid() != 0:
        return [program]
    need("setpriv")
    folder = new_folder(test)
    os.chmod(folder, 0o755)
    copy = shutil.copy(program, folder + "/program")
    return ["setpriv", "--reuid=65534", "--clear-groups", copy]


def on_a_terminal(words, typed=b"", begin=b"", **more):
    """What a terminal shows of a program. This is typed there once the program has shown that."""
    ours, its = pty.openpty()
    mode = termios.tcgetattr(its)
    mode[1] &= ~termios.OPOST  # a line then ends as the program ends it
    termios.tcsetattr(its, termios.TCSANOW, mode)
    shown, stdin = b"", its if typed else subprocess.DEVNULL
    with subprocess.Popen(words, stdin=stdin, stdout=its, stderr=its, **more):
        os.close(its)
        while True:
            try:
                shown += os.read(ours, 4096)
            except OSError:  # the last process has closed its end
                break
            if typed and begin in shown:
                os.write(ours, typed)
                typed = b""
    os.close(ours)
    return shown.decode(errors="replace")


def run_on_a_disk(size, script, folder, *words, **more):
    """Runs a script of the shell with words, of which the first is a folder: a disk of this size.

    The test is left out if none can be mounted.
    """
    need("unshare", "mount")
    # root needs no other rights for this, and a chroot has no others
    unshare = ["unshare", "-m" if os.geteuid() == 0 else "-rm"]
    script = 'mount -t tmpfs -o size=%s none "$0" || exit 77; %s' % (size, script)
    ran = run([*unshare, "sh", "-c", script, folder, *words], **more)
    if ran.returncode == 77 or b"unshare" in ran.stderr:
        not_tried("no file system can be mounted here")
    return ran


def closed_pipe():
    """The end of a pipe to write into, as a file. The other end is closed."""
    ours, its = os.pipe()
    os.close(ours)
    return open(its, "wb")


def full_device():
    """A device that has no room, as a file; the test is left out without one."""
    if not os.path.exists("/dev/full"):
        not_tried("/dev/full is missing")
    return open("/dev/full", "wb")


def files_up_to(size):
    """What limits the files of a child to so many bytes, as `preexec_fn`: as a full disk does."""
    def limit():
        signal.signal(signal.SIGXFSZ, signal.SIG_IGN)
        resource.setrlimit(resource.RLIMIT_FSIZE, (size, size))

    return limit


def signalled(words, number, folder, files=1, text=None, **more):
    """The status and the streams of a child that gets a signal once files are added to a folder.

    Temporary files there show that it is at work. It gets the signal as from a shell, and then the
    text.
    """
    added = len(os.listdir(folder)) + files
    words = ["env", "--default-signal=INT", "--default-signal=HUP", *words]
    more = {"cwd": folder, "stdout": subprocess.PIPE, "stderr": subprocess.PIPE, **more}
    with subprocess.Popen(words, **more) as child:
        until = time.monotonic() + 60
        while len(os.listdir(folder)) < added and child.poll() is None \
                and time.monotonic() < until:
            time.sleep(0.01)
        child.send_signal(number)
        out, told = child.communicate(text, timeout=20)
    return child.returncode, out, told


def check_stopped(test, words, **more):
    """A signal ends a program, and each file of the folder stays; none is added."""
    before = test.files()
    for number in (signal.SIGTERM, signal.SIGHUP, signal.SIGINT):
        test.assertEqual(signalled(words, number, test.folder, **more)[:2], (-number, b""))
        test.assertEqual(test.files(), before)
