"""Tests of the recipe of docs/PARALLEL.md, which uses all processors, also over ssh."""
import getpass
import os
import socket
import subprocess
import unittest

import programs
from programs import ROOT, Folder, output_of, run
from test_recipes import sections

SHORT, WHOLE, STREAM, REMOTE, COUNTS = range(5)
# What is in a comment and looks like the place of a cut.
LOOKALIKE = '{ a comment\n\n[Event "x"]\n\nthat holds a tag line }\n'


def blocks():
    found = sections(ROOT + "/docs/PARALLEL.md").values()
    # the files are small, and so are the blocks: about 50 games
    return [it.replace("10M", "8k") for blocks in found for it in blocks]


def archive(games=600):
    """Games as someone might have typed them, of different lengths."""
    moves = ["1. e4 e5 {a word}", "d4 d5 (Nf6 c4)", "1.c4! Nf6 $1 2. Nc3", "f4 ;rest\ne5 fxe5"]
    text = '[Event "%d"]\n[Round "%d"]\n\n%s *\n\n'
    return "".join(text % (it, it * it, moves[it % 4]) for it in range(games))


def put_before(text, added, *events):
    """The text with this before these games."""
    for event in events:
        text = text.replace('[Event "%d"]' % event, added + '[Event "%d"]' % event, 1)
    return text


def with_comment(event):
    """An archive whose game has a long comment of what looks like the place of a cut."""
    text = archive()
    at = text.index("\n\n", text.index('[Event "%d"]' % event)) + 2
    return text[:at] + LOOKALIKE * 300 + text[at:]


class Spread(Folder, unittest.TestCase):
    """Runs blocks of the recipe on archives, beside one run of the program."""

    def setUp(self):
        programs.need("parallel")
        super().setUp()

    def script(self, kind):
        """The script that is right in all cases, with the two functions of this kind."""
        whole, other = blocks()[WHOLE], blocks()[kind]
        ours, theirs = (it[: it.index("\n}\n") + 3] for it in (whole, other))
        return whole.replace(ours, theirs)

    def agrees(self, text, kind=WHOLE, status=0, **more):
        """The script and one run write the same bytes and messages, with this status."""
        self.put("games.pgn", text)
        self.shell("rm -f export.pgn games.pgn.zst")
        if kind == STREAM:
            self.shell("zstd -q games.pgn")
        one = self.shell("pgn_tool export games.pgn")
        self.assertEqual(one.returncode, status, one.stderr)
        ran = self.shell(self.script(kind), **more)
        self.check(ran, status, b"", one.stderr)
        self.assertTrue(self.get("export.pgn") == one.stdout, "other bytes")
        return [line.split(b"\t") for line in self.get("blocks.log").splitlines()[1:]]

    def check_refused_block(self, jobs):
        """A block really ended inside a comment, or on a machine without the program."""
        self.assertTrue(any(job[6] != b"0" for job in jobs))


class OneMachine(Spread):
    def test_every_block_has_a_test(self):
        self.assertEqual(len(blocks()), COUNTS + 1)

    def test_the_short_form(self):
        """Also of lines of DOS, where the cut is said otherwise."""
        for text, block in ((archive(), blocks()[SHORT]), (
                archive().replace("\n", "\r\n"),
                blocks()[SHORT].replace(r"'\n\n'", r"'\r\n\r\n'"))):
            self.put("games.pgn", text)
            output_of(self.shell(block))
            output_of(self.shell("pgn_tool export games.pgn | cmp - export.pgn"))

    def test_a_plain_file(self):
        jobs = self.agrees(archive())
        self.assertGreater(len(jobs), 3)
        self.assertTrue(all(job[6:8] == [b"0", b"0"] for job in jobs))

    def test_small_files(self):
        for text in ("", "1. e4 *", '[Event "a"]\n\n1. e4 *\n\n[Event "b"]\n\n1. d4 *'):
            self.agrees(text)

    def test_faults_at_their_places(self):
        """One fault, two, and an input that breaks off."""
        text = archive()
        bad = [put_before(text, fault, it) for it in (0, 250, 599) for fault in ("e9 ", '[Event "')]
        bad += [put_before(text, "] ", 500, 200), text + '[Event "x"]\n\n1. e4', text[:-4]]
        for it in bad:
            self.agrees(it, status=1)

    def test_a_cut_inside_a_comment(self):
        for event in (1, 599):
            self.check_refused_block(self.agrees(with_comment(event)))
        self.agrees(with_comment(300) + "e9", status=1)

    def test_games_without_an_event(self):
        self.agrees(archive().replace("[Event", "[Annotator"))

    def test_a_full_disk(self):
        self.put("games.pgn", archive(4000))
        os.symlink("/dev/full", self.folder + "/export.pgn")
        self.check(self.shell(self.script(WHOLE)), 1, b"", b"output cannot be written\n")

    def test_counts_and_lists(self):
        self.put("games.pgn", archive())
        self.shell("pgn_tool export games.pgn > export.pgn")
        lines = output_of(self.shell(blocks()[COUNTS])).splitlines(True)
        # Moves outside variations: 2, 2, 3 and 3 in turn.
        self.assertEqual(lines[:2], [b"games: 600, plies: 1500\n"] * 2)
        one = self.shell("pgn_tool list games.pgn")
        self.assertEqual(b"".join(lines[2:]), one.stdout)
        self.assertGreater(len(self.get("counts.txt").splitlines()), 3)
        # The output before a fault is counted, and the blocks are not.
        self.put("games.pgn", archive() + "e9")
        self.shell("pgn_tool export games.pgn > export.pgn")
        ran = self.shell(blocks()[COUNTS])
        self.assertNotEqual(ran.returncode, 0)
        self.assertEqual(ran.stdout, b"games: 600, plies: 1500\n")


    def test_a_compressed_file(self):
        """Also with faults, and with a cut inside a comment."""
        programs.need("zstd")
        text = archive()
        self.assertGreater(len(self.agrees(text, STREAM)), 3)
        for it in (*(put_before(text, "e9 ", event) for event in (0, 300, 599)), text[:-4]):
            self.agrees(it, STREAM, 1)
        self.check_refused_block(self.agrees(with_comment(300), STREAM))


SERVER = """ListenAddress 127.0.0.1
Port %(port)d
HostKey %(folder)s/host
AuthorizedKeysFile %(folder)s/user.pub
StrictModes no
UsePAM no
PidFile none
SetEnv PATH=%(path)s
"""
CLIENT = """Host alpha beta
  HostName 127.0.0.1
  Port %(port)d
  ConnectionAttempts 20
  User %(user)s
  IdentityFile %(folder)s/user
  IdentitiesOnly yes
  BatchMode yes
  StrictHostKeyChecking no
  UserKnownHostsFile %(folder)s/known
  LogLevel ERROR
"""


class SeveralMachines(Spread):
    """With a server of ssh on this machine alone, and with keys made for one test."""

    def setUp(self):
        super().setUp()
        programs.need("ssh", "sshd", "ssh-keygen")
        for name in ("host", "user"):
            run(["ssh-keygen", "-q", "-t", "ed25519", "-N", "", "-f", self.folder + "/" + name])
        with socket.socket() as probe:
            probe.bind(("127.0.0.1", 0))
            port = probe.getsockname()[1]
        path = os.path.dirname(self.program) + ":/usr/local/bin:/usr/bin:/bin"
        names = {"port": port, "folder": self.folder, "user": getpass.getuser(), "path": path}
        words = [programs.found("sshd"), "-D", "-f", self.put("server", SERVER % names)]
        self.client = "ssh -F " + self.put("client", CLIENT % names)
        if run(words + ["-t"]).returncode:
            programs.not_tried("a server of ssh does not start here")
        with open(self.folder + "/log", "wb") as log:
            process = subprocess.Popen(words, stdin=subprocess.DEVNULL, stdout=log, stderr=log)
        self.addCleanup(process.wait)
        self.addCleanup(process.terminate)
        if run(self.client.split() + ["alpha", "pgn_tool", "--version"]).returncode:
            programs.not_tried("a server of ssh does not start here")

    def test_over_ssh(self):
        jobs = self.agrees(archive(), REMOTE, PARALLEL_SSH=self.client)
        self.assertTrue({b"alpha", b"beta"} & {job[1] for job in jobs})
        self.agrees(put_before(archive(), "e9 ", 300), REMOTE, 1, PARALLEL_SSH=self.client)

    def test_a_machine_without_the_program(self):
        script = self.client + ' "$@"; case $* in *beta*) exit 127;; esac\n'
        lacking = self.put_script("lacking", script)
        self.check_refused_block(self.agrees(archive(), REMOTE, PARALLEL_SSH=lacking))
