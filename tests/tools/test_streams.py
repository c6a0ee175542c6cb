"""Tests of bin/pgn_tool and bin/gillspoon with pipes, and with closed, full or broken streams."""
import os
import signal
import subprocess
import threading
import unittest

from programs import (HEAD, UNKNOWN, Folder, Gillspoon, closed_pipe, full_device, need_package,
                      opens_closed_streams, output_of, run, run_on_a_disk, without_rights)

TWO = b"1. e4 e5 2. Nf3 * *\n"
UNREAD = b"byte 0: input cannot be read\n"
UNWRITTEN = b"output cannot be written\n"
NO_MOVE = b"byte 2: not a move\n"
# What each task writes for TWO.
WRITTEN = {
    "export": HEAD + b"1. e4 e5 2. Nf3 *\n\n" + UNKNOWN,
    "check": b"games: 2, plies: 3\n",
    "list": b"1\t?\t?\t*\t3\trnbqkbnr/pppp1ppp/8/4p3/4P3/5N2/PPPP1PPP/RNBQKB1R b KQkq - 1 2\n"
            b"2\t?\t?\t*\t0\trnbqkbnr/pppppppp/8/8/8/8/PPPPPPPP/RNBQKBNR w KQkq - 0 1\n",
}


class StreamTest(Folder, unittest.TestCase):
    def closing(self, stream, *words, **more):
        """Calls the program with a standard stream closed, as a shell closes it."""
        return run(["sh", "-c", 'exec "$@" %s' % stream, "sh", self.program, *words], **more)

    def test_pipe_that_gives_a_byte_at_a_time(self):
        for task, text in WRITTEN.items():
            with subprocess.Popen([self.program, task], stdin=subprocess.PIPE,
                                  stdout=subprocess.PIPE, bufsize=0) as process:
                for at in range(len(TWO)):
                    process.stdin.write(TWO[at:at + 1])
                process.stdin.close()
                self.assertEqual((process.stdout.read(), process.wait()), (text, 0))

    def test_named_pipe_as_file(self):
        path = os.path.join(self.folder, "pipe")
        os.mkfifo(path)
        for task, text in WRITTEN.items():
            writer = threading.Thread(target=self.put, args=("pipe", TWO))
            writer.start()
            ran = run([self.program, task, path], input=b"* * *")
            writer.join()
            self.check(ran, 0, text)

        # a file that is named as a hyphen
        self.put("-", TWO)
        ran = run([self.program, "check", "-"], input=b"*", cwd=self.folder)
        self.check(ran, 0, WRITTEN["check"])

    def test_file_that_cannot_be_read(self):
        """It is a broken link or a folder, or a user may not."""
        link, path = self.folder + "/link", self.put("hidden.pgn", TWO)
        os.symlink("nowhere", link)
        for task in WRITTEN:
            for name in (link, self.folder, "/missing/file"):
                self.check(run([self.program, task, name], input=TWO), 1, b"", UNREAD)
        os.chmod(path, 0)
        os.chmod(self.folder, 0o755)
        words = without_rights(self, self.program)
        for task in WRITTEN:
            self.check(run([*words, task, path], input=TWO), 1, b"", UNREAD)

    def test_closed_standard_input(self):
        path = self.put("two.pgn", TWO)
        for task, text in WRITTEN.items():
            self.check(self.closing("<&-", task, path), 0, text)
            # without a file it is what is read
            answer = (1, b"", UNREAD)
            if opens_closed_streams(self.program):
                answer = (0, b"games: 0, plies: 0\n" if task == "check" else b"", b"")
            self.check(self.closing("<&-", task), *answer)

    def test_closed_standard_output(self):
        path = self.put("two.pgn", TWO)
        status, told = (0, b"") if opens_closed_streams(self.program) else (1, UNWRITTEN)
        for words in (["--help"], ["--version"], *[[it] for it in WRITTEN],
                      *[[it, path] for it in WRITTEN]):
            self.check(self.closing(">&-", *words, input=TWO), status, b"", told)
        # nothing is written for an input without games
        for task in ("export", "list"):
            self.check(self.closing(">&-", task, input=b""), 0, b"", b"")
        # a fault comes before what could not be written
        self.check(self.closing(">&-", "export", input=b"* 1-0"), 1, b"",
                   b"byte 2: result differs from the Result tag\n")

    def test_closed_standard_error(self):
        path = self.put("bad.pgn", b"* 1. e4")
        for words, status in ((["export"], 1), (["check"], 1), (["list"], 1), (["convert"], 2),
                              (["check", self.folder + "/missing"], 1)):
            for stream in ("2>&-", "2>/dev/full"):
                self.check(self.closing(stream, *words, input=b"1-0"), status)
        # The fault is not written to a file that has the number of the closed stream.
        os.mkdir(self.folder + "/games")
        self.check(self.closing("2>&-", "split", self.folder + "/games", path), 1,
                   files={"games/000001.pgn": UNKNOWN, "games/000002.pgn": HEAD})

    def test_reader_that_stops_early(self):
        text = b"*\n" * 20000
        for before in (signal.SIG_DFL, signal.SIG_IGN):
            with subprocess.Popen([self.program, "export"], stdin=subprocess.PIPE,
                                  stdout=subprocess.PIPE, stderr=subprocess.PIPE,
                                  restore_signals=False,
                                  preexec_fn=lambda it=before: signal.signal(signal.SIGPIPE, it)
                                  ) as process:
                process.stdout.close()
                _, err = process.communicate(text, timeout=100)
            if process.returncode == -signal.SIGPIPE:
                self.assertEqual(err, b"")
            else:
                self.assertEqual(process.returncode, 1)
                self.assertRegex(err, rb"^byte \d+: output cannot be written\n$")

    def test_full_standard_output_before_the_end(self):
        text = b"*\n" * 20000
        with full_device() as full:
            ran = run([self.program, "export"], input=text, stdout=full)
        place = int(ran.stderr.split(b":")[0].split()[1])
        self.assertEqual((ran.returncode, ran.stderr), (1, b"byte %d: " % place + UNWRITTEN))
        # the buffer holds more than this many games, and less than all
        self.assertTrue(100 < place < len(text) and place % 2 == 0, place)

    def test_full_standard_output_at_the_end(self):
        """What fits into the buffer is written by the last flush."""
        path = self.put("two.pgn", TWO)
        calls = [(words, text, UNWRITTEN) for text in (TWO, b"*") for words in (
            ["--help"], ["--version"], ["export", "--checked", path], *([it] for it in WRITTEN),
            *([it, path] for it in WRITTEN))]
        # a fault comes first, and the flush behind it tells nothing more
        for words, text, told in calls + [([task], b"* e9", NO_MOVE) for task in WRITTEN]:
            with full_device() as full:
                output_of(run([self.program, *words], input=text, stdout=full), 1, told)

    def test_output_goes_out_before_the_report(self):
        path = self.put("bad.pgn", b"* e9")
        listed = WRITTEN["list"].splitlines(True)[1].replace(b"2", b"1", 1)
        for words, text in (("export", UNKNOWN), ("export --checked", UNKNOWN), ("check", b""),
                            ("list", listed)):
            self.check(self.closing("2>&1", *words.split(), path), 1, text + NO_MOVE)

    def test_full_file_system(self):
        script = '"$1" split "$0"; echo "status $?"; cat "$0/000001.pgn"'
        text = b"* 1. e4 {" + b"word " * 20000 + b"} *"
        ran = run_on_a_disk("16k", script, self.folder, self.program, input=text)
        self.assertEqual(ran.stdout, b"status 1\n" + UNKNOWN)
        self.assertRegex(ran.stderr, rb"^byte \d+: output cannot be written\n$")

    def test_words_that_are_not_utf8(self):
        for words in ((b"check", b"a\xff.pgn"), (b"split", b"\xff"), (b"\xff",)):
            self.check(run([self.program.encode(), *words], input=TWO), 2, b"",
                       b"arguments cannot be read\n")


class GillspoonTest(Gillspoon, unittest.TestCase):
    """The commands of gillspoon with standard streams that are closed, full, or read by nobody."""

    CALLS = ("lint a.pgn", "lint a.pgn --json", "lint a.pgn --sarif", "lint a.pgn -j 2 a.pgn",
             "fmt b.pgn", "fmt --check b.pgn", "where a.pgn 0", "where a.pgn",
             "sieve a.pgn good bad")
    GAMES = b"1. e4 *\n" * 3000

    def setUp(self):
        need_package()
        super().setUp()
        self.put_all({"a.pgn": b"1. e9 *\n", "b.pgn": self.GAMES})

    def test_standard_output(self):
        more = {"input": b"byte 3: no\nmore\n"}
        for line in (*self.CALLS, "fmt --write b.pgn"):
            self.says(line, 3, b"", b"gillspoon: standard output is closed\n",
                      files={"b.pgn": self.GAMES}, preexec_fn=lambda: os.close(1), **more)
        for line in self.CALLS:
            with self.subTest(line), full_device() as full, closed_pipe() as closed:
                output_of(self.call(line, stdout=closed, **more), 3)
                output_of(self.call(line, stdout=full, **more), 3, (
                    b"gillspoon: output cannot be written: No space left on device\n"))

    def test_closed_standard_input(self):
        for line, told in (("where", b"standard input is closed"),
                           ("fmt -", b"<stdin>: Bad file descriptor")):
            self.says(line, 3, b"", b"gillspoon: %s\n" % told, preexec_fn=lambda: os.close(0))
