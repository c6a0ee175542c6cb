"""Tests of the program with calls of the system that are interrupted once each."""
import os
import subprocess
import unittest

from programs import UNKNOWN, Folder, need, run, write_file

# Interrupts one call of read, of write, or of open for a file of games: CALL is its name, AT its
# number from 1. The folder MET is made when that happens. Standard error is left alone.
SOURCE = r"""
#define _GNU_SOURCE
#include <errno.h>
#include <linux/fcntl.h>
#include <stdlib.h>
#include <string.h>
#include <sys/stat.h>
#include <sys/syscall.h>
#include <unistd.h>

static int is_interrupted(const char *call) {
  static long calls;
  const char *wanted = getenv("CALL");
  if (!wanted || strcmp(wanted, call) || ++calls != atol(getenv("AT"))) return 0;
  mkdir(getenv("MET"), 0700);
  errno = EINTR;
  return 1;
}

ssize_t read(int file, void *to, size_t size) {
  return is_interrupted("read") ? -1 : syscall(SYS_read, file, to, size);
}

ssize_t write(int file, const void *from, size_t size) {
  return file != 2 && is_interrupted("write") ? -1 : syscall(SYS_write, file, from, size);
}

int open(const char *path, int flags, int mode) {
  if (strstr(path, ".pgn") && is_interrupted("open")) return -1;
  return syscall(SYS_openat, AT_FDCWD, path, flags, mode);
}

int open64(const char *, int, int) __attribute__((alias("open")));
"""

UNREAD = b"byte %d: input cannot be read\n"
UNWRITTEN = b"output cannot be written\n"


class InterruptedTest(Folder, unittest.TestCase):
    def setUp(self):
        need("cc")
        super().setUp()
        source = self.put("interrupt.c", SOURCE)
        self.library, self.met = self.folder + "/interrupt.so", self.folder + "/met"
        subprocess.run(["cc", "-shared", "-fPIC", "-o", self.library, source], check=True)
        self.file = self.put("games.pgn", b"* *")

    def call(self, call, at, *words):
        """A run in which this call is interrupted; whether it came to that call is told too."""
        if os.path.exists(self.met):
            os.rmdir(self.met)
        env = dict(os.environ, CALL=call, AT=str(at), MET=self.met, LD_PRELOAD=self.library)
        ran = run([self.program, *words], env=env)
        return os.path.exists(self.met), (ran.returncode, ran.stdout, ran.stderr)

    def test_a_read_is_not_tried_again(self):
        text = b"*\n" * 5000
        write_file(self.file, text)
        answers = []
        for at in range(1, 9):
            is_met, answer = self.call("read", at, "check", self.file)
            if is_met:
                answers.append(answer)
            else:
                self.assertEqual(answer, (0, b"games: 5000, plies: 0\n", b""))
        # three blocks of 4,096 bytes, and the end
        self.assertEqual(answers, [(1, b"", UNREAD % it) for it in (0, 4096, 8192, 10000)])

    def test_a_write_is_not_tried_again(self):
        for task, text in (("check", b"games: 2, plies: 0\n"), ("export", 2 * UNKNOWN)):
            self.assertEqual(self.call("write", 1, task, self.file), (True, (1, b"", UNWRITTEN)))
            self.assertEqual(self.call("write", 2, task, self.file), (False, (0, text, b"")))

    def test_the_last_flush_writes_the_block_in_hand_once_more(self):
        text = 1000 * UNKNOWN
        write_file(self.file, 1000 * b"* ")
        is_met, (status, out, err) = self.call("write", 1, "export", self.file)
        self.assertTrue(is_met and text.startswith(out))
        # the block of 64 KiB, which has no room for the next line
        self.assertTrue(2**16 - 80 < len(out) <= 2**16, len(out))
        # the place is that of the first token with text missing: games are two bytes apart
        place = 2 * (len(out) // len(UNKNOWN))
        self.assertEqual((status, err), (1, b"byte %d: " % place + UNWRITTEN))

    def test_opening_and_making_a_file_is_tried_again(self):
        """A write of split is not."""
        folder = self.folder + "/one"
        os.mkdir(folder)
        split = ("split", folder, self.file)
        self.assertEqual(self.call("write", 1, *split), (True, (1, b"", b"byte 0: " + UNWRITTEN)))
        self.assertEqual(os.listdir(folder), ["000001.pgn"])
        self.assertEqual(os.path.getsize(folder + "/000001.pgn"), 0)
        for at in (1, 2, 3):  # the file that is read, then those that are made
            self.assertEqual(self.call("open", at, *split), (True, (0, b"", b"")))
            self.assertEqual(sorted(os.listdir(folder)), ["000001.pgn", "000002.pgn"])
        for at in (1, 2):
            answer = self.call("open", at, "export", "--checked", self.file)
            self.assertEqual(answer, (True, (0, 2 * UNKNOWN, b"")))
