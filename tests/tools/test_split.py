"""Tests of `pgn_tool split` with real files, folders and devices."""
import os
import resource
import subprocess
import tempfile
import unittest

from programs import (HEAD, UNKNOWN, Folder, files_up_to, full_device, output_of, run,
                      without_rights)

UNWRITTEN = b"byte %d: output cannot be written\n"


class SplitTest(Folder, unittest.TestCase):
    def split(self, text, *words, folder=None, **more):
        return run([self.program, "split", folder or self.folder, *words], input=text, **more)

    def check(self, ran, status, err, files):
        super().check(ran, status, b"", err)
        self.assertEqual(self.files(), files)

    def test_games_and_faults(self):
        """The text, the status, the message, and the files."""
        one, two = {"000001.pgn": UNKNOWN}, {"000001.pgn": UNKNOWN, "000002.pgn": UNKNOWN}
        for text, status, err, files in (
                (b"* *", 0, b"", two),
                (b"* 1. e4", 1, b"byte 7: unexpected end of input\n", {**one, "000002.pgn": HEAD}),
                # a fault before movetext
                (b"* 1-0", 1, b"byte 2: result differs from the Result tag\n", one)):
            self.check(self.split(text), status, err, files)
            for name in files:
                os.remove(self.folder + "/" + name)

    def test_file(self):
        path = self.put("../%s.pgn" % os.path.basename(self.folder), b"1. e4 e5 *")
        self.addCleanup(os.remove, path)
        self.check(self.split(b"* * *", path), 0, b"", {"000001.pgn": HEAD + b"1. e4 e5 *\n\n"})

    def test_nothing_is_written(self):
        """The input cannot be read, it has no game, or there is no folder."""
        missing = self.folder + "/missing"
        for path in (missing, self.folder):
            self.check(self.split(b"*", path), 1, b"byte 0: input cannot be read\n", {})
        for folder in (self.folder, missing):
            self.check(self.split(b"{nothing}\n", folder=folder), 0, b"", {})
        with tempfile.NamedTemporaryFile() as other:
            for folder, text in ((missing, b" *"), (other.name, b"*")):
                self.check(self.split(text, folder=folder), 1, UNWRITTEN % (len(text) - 1), {})

    def test_old_files(self):
        old = b"old " * 100
        self.put_all(dict.fromkeys(("000001.pgn", "000003.pgn", "other"), old))
        self.check(self.split(b"* *"), 0, b"", {"000001.pgn": UNKNOWN, "000002.pgn": UNKNOWN,
                                                "000003.pgn": old, "other": old})

    def test_folder_that_is_not_writable(self):
        os.chmod(self.folder, 0o555)
        words = without_rights(self, self.program)
        ran = run([*words, "split", self.folder], input=b"*")
        self.check(ran, 1, UNWRITTEN % 0, {})

    def test_second_file_is_refused(self):
        os.mkdir(self.folder + "/000002.pgn")
        super().check(self.split(b"* * *"), 1, b"", UNWRITTEN % 2)
        self.assertEqual(sorted(os.listdir(self.folder)), ["000001.pgn", "000002.pgn"])
        # a full device
        os.rmdir(self.folder + "/000002.pgn")
        with full_device() as full:
            os.symlink(full.name, self.folder + "/000002.pgn")
        ran = self.split(b"* 1. e4 *")
        self.assertEqual((ran.returncode, ran.stderr), (1, UNWRITTEN % 2))

    def test_limit_of_a_file(self):
        # a signal would end the program: it is ignored, and the write fails
        ran = self.split(b"* 1. e4 {" + b"word " * 300 + b"} *", preexec_fn=files_up_to(512))
        self.assertEqual(ran.returncode, 1)
        self.assertTrue(ran.stderr.endswith(b": output cannot be written\n"), ran.stderr)
        files = self.files()
        self.assertEqual(files["000001.pgn"], UNKNOWN)
        self.assertEqual(len(files["000002.pgn"]), 512)

    def test_each_file_is_closed(self):
        limits = resource.RLIMIT_NOFILE, (64, 64)
        ran = self.split(b"*\n" * 200, preexec_fn=lambda: resource.setrlimit(*limits))
        self.check(ran, 0, b"", {"%06d.pgn" % it: UNKNOWN for it in range(1, 201)})

    def test_closed_standard_streams(self):
        output_of(subprocess.run(["sh", "-c", 'exec "$@" >&- 2>&-', "sh", self.program, "split",
                                  self.folder], input=b"*", check=False), err=None)
        self.assertEqual(self.files(), {"000001.pgn": UNKNOWN})
