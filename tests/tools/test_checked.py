"""Tests of `pgn_tool export --checked` with real files, pipes and devices."""
import os
import subprocess
import time
import unittest

import programs
from programs import Folder, output_of, run, vectors

HEAD = programs.HEAD.replace(b"*", b"%s")
DIFFERS = b"byte %d: second reading differs\n"


def game(moves, result=b"*"):
    return HEAD % result + moves + b"\n\n"


class CheckedTest(Folder, unittest.TestCase):
    def write(self, text):
        return self.put("games.pgn", text)

    def export(self, *words, **more):
        return run([self.program, "export", "--checked", *words], **more)

    def test_missing_result_takes_the_marker(self):
        path = self.write(b"1. e4 e5 1-0\n0-1 {end}")
        wanted = game(b"1. e4 e5 1-0", b"1-0") + game(b"0-1", b"0-1")
        self.check(self.export(path), 0, wanted)
        # the export has its Result tags, and is written again as it is
        self.write(wanted)
        self.check(run([self.program, "export", path]), 0, wanted)
        self.check(self.export(path), 0, wanted)

        # a result that differs
        self.check(self.export(self.write(b'[Result "1-0"] 0-1')), 1, b"",
                   b"byte 15: result differs from the Result tag\n")

    def test_nothing_of_a_game_with_a_fault(self):
        path = self.write(b"1. d4 1-0 1. e4 e5 2. Ke3 *")
        self.check(self.export(path), 1, game(b"1. d4 1-0", b"1-0"),
                   b"byte 22: move is not legal\n")
        # without it the tag section of the second game is written
        ran = run([self.program, "export", self.write(b"1. d4 * 1. e4 e5 2. Ke3 *")])
        self.check(ran, 1, game(b"1. d4 *") + HEAD % b"*", b"byte 20: move is not legal\n")

    def test_reduced(self):
        path = self.write(b'[ECO "C20"] 1. e4 $1 {good} (1. d4) e5 1-0')
        wanted = game(b"1. e4 e5 1-0", b"1-0")
        for words in (["--reduced", path], [path, "--reduced"]):
            self.check(self.export(*words), 0, wanted)

    def test_long_games(self):
        # each has more bytes than are read at once
        text = (b"1. e4 {" + b"word " * 3000 + b"} e5 1-0\n") * 5
        out = output_of(self.export(self.write(text)))
        self.assertEqual(out.count(b'[Result "1-0"]\n'), 5)
        self.assertEqual(out.count(b"word"), 15000)

    def test_each_vector_without_a_fault(self):
        tried = 0
        for vector in vectors():
            path = self.write(vector["input"].encode())
            plain, twice = run([self.program, "export", path]), self.export(path)
            if plain.returncode == 0:
                self.check(twice, 0, plain.stdout)
                tried += 1
            elif b"result differs" not in plain.stderr:
                self.check(twice, 1, twice.stdout, plain.stderr)
                self.assertTrue(plain.stdout.startswith(twice.stdout), vector["name"])
        self.assertGreater(tried, 100)

    def test_what_is_refused(self):
        """No file, another task, and a file that cannot be opened."""
        for words in ([], ["--reduced"]):
            self.check(self.export(*words, input=b"*"), 2, b"", b"--checked needs FILE\n")
        for task in ("check", "list", "split"):
            ran = run([self.program, task, "--checked", "x"])
            self.assertEqual((ran.returncode, ran.stdout), (2, b""), task)
        for path in (self.folder + "/missing", self.folder):
            self.check(self.export(path), 1, b"", b"byte 0: input cannot be read\n")

    def test_standard_input_by_its_name(self):
        # a pipe gives its bytes once: the first reading has them all
        for text in (b"1. e4 1-0", b"1-0 0-1"):
            self.check(self.export("/dev/stdin", input=text), 1, b"", DIFFERS % 0)

    def running(self, path, **more):
        return subprocess.Popen([self.program, "export", "--checked", path], stdout=subprocess.PIPE,
                                stderr=subprocess.PIPE, **more)

    def test_named_pipe(self):
        path = os.path.join(self.folder, "pipe")
        os.mkfifo(path)
        with self.running(path) as process:
            with open(path, "wb") as pipe:
                self.wait_for_both(process, path)
                pipe.write(b"1. e4 1-0 1. d4 0-1")
            out, err = process.communicate(timeout=60)
        self.assertEqual((process.returncode, out, err), (1, b"", DIFFERS % 0))

    def wait_for_both(self, process, path):
        """Waits until the program has opened the pipe twice."""
        folder = "/proc/%d/fd" % process.pid
        for _ in range(600):
            links = [os.path.join(folder, it) for it in os.listdir(folder)]
            if sum(os.path.realpath(it) == os.path.realpath(path) for it in links) == 2:
                return
            time.sleep(0.1)
        self.fail("the pipe was not opened twice")

    def test_file_that_changes_between_the_readings(self):
        # The game is read whole before any of it is written. Then its second reading has to wait:
        # the output is longer than the program's buffer and the pipe.
        text = b"1. e4 {" + b"word " * 100000 + b"} "
        path = self.write(text + b"1-0")
        whole = self.export(path).stdout
        with self.running(path, bufsize=0) as process:
            begun = process.stdout.read(1)
            with open(path, "r+b") as file:
                file.seek(len(text))
                file.write(b"0-1")
            out, err = process.communicate(timeout=60)
        self.assertEqual((process.returncode, err), (1, DIFFERS % len(text)))
        # the complete lines of the game
        self.assertTrue(whole.startswith(begun + out) and len(out) > 100000, len(out))
        self.assertTrue((begun + out).startswith(HEAD % b"1-0"))
