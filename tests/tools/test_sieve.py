"""Tests of gillspoon sieve."""
import os
import random
import re
import signal
import subprocess
import sys
import unittest

import programs
from programs import PACKAGE, ROOT, need_package, need_program, output_of, run

setUpModule = need_package
SIEVE = [ROOT + "/bin/gillspoon", "sieve"]
NOTE = re.compile(
    rb"% byte (\d+): (.*); line (\d+)\n"
    rb"% bytes (\d+) to (\d+), up to [^\n]*\n(% the fault[^\n]*\n)?")


def sound(name, movetext=b"1. e4 e5 2. Nf3 *"):
    return b'[Event "%s"]\n[White "White of %s"]\n\n%s\n\n' % (name, name, movetext)


X, SITE, WORD = b'[Event "x"]\n', b'[Site "y"]\n\n1. e4 *\n', b"w" * 80
# (what is wrong, the text of the game, the reason of the fault table, the bytes where the fault is)
BAD = [
    ("stray byte", X + b"\n1. e4 & e5 *\n", b"stray byte", b"& e5"),
    ("control byte", X + b"\n1. e4 \x01 e5 *\n", b"control byte", b"\x01"),
    ("reserved", X + b"\n1. e4 <2> e5 *\n", b"reserved character", b"<2>"),
    ("dollar", X + b"\n1. e4 $ e5 *\n", b"dollar sign without a number", b"$ "),
    ("glyph", X + b"\n1. e4 $256 e5 *\n", b"glyph is above 255", b"$256"),
    ("suffix", X + b"\n1. e4!!! e5 *\n", b"unknown move suffix", b"!!!"),
    ("brace", X + b"\n1. e4 ;a } b\n e5 *\n", b"closing brace in a line comment", b"} b"),
    ("long word", X + b"\n1. e4 {" + WORD + b"} e5 *\n", b"comment word is too long", WORD),
    ("open string", b'[Event "x]\n' + SITE, b"string is not closed", b'"x]'),
    ("broken string", b'[Event "x\nz"]\n' + SITE, b"string is not closed", b'"x\n'),
    ("inner quote", b'[Event "a"b"]\n' + SITE, b"closing bracket expected", b'b"]'),
    ("tag without a name", b'["A"]\n' + SITE, b"tag name expected", b'"A"'),
    ("bad tag name", b'[Event-x "x"]\n' + SITE, b"bad tag name", b"Event-x"),
    ("tag twice", X + b'[Site "y"]\n[Site "z"]\n\n1. e4 *\n', b"tag is given twice", b'Site "z"'),
    ("no value", b"[Event]\n" + SITE, b"tag value expected", b"]\n[Site"),
    ("bad result", X + b'[Result "won"]\n\n1. e4 1-0\n', b"bad result value", b'"won"'),
    ("bad FEN", X + b'[FEN "x"]\n' + SITE, b"bad FEN, field 1", b'"x"]\n[Site'),
    ("open bracket", b'[Event "x"\n' + SITE, b"closing bracket expected", b"[Site"),
    ("comment among tags", X + b"; a note\n" + SITE, b"tag in movetext", b'[Site "y"'),
    ("SetUp", X + b'[SetUp "1"]\n\n1. e4 *\n', b"SetUp 1 without a FEN tag", b"1. e4 *"),
    ("not a move", X + b"\n1. e4 e9 *\n", b"not a move", b"e9"),
    ("null move", X + b"\n1. e4 Z0 *\n", b"not a move", b"Z0"),
    ("illegal move", X + b"\n1. e4 e5 2. Ke3 *\n", b"move is not legal", b"Ke3"),
    ("ambiguous", X + b"\n1. Nf3 e6 2. d3 e5 3. Nd2 *\n", b"move is ambiguous", b"Nd2"),
    ("early variation", X + b"\n(1. e4) *\n", b"variation without a move before it", b"(1."),
    ("parenthesis", X + b"\n1. e4 ) *\n", b"closing parenthesis without an open one", b")"),
    ("open variation", X + b"\n1. e4 (1. d4 *\n", b"result inside a variation", b"*\n"),
    ("result", b'[Result "1-0"]\n\n1. e4 0-1\n', b"result differs from the Result tag", b"0-1"),
    ("no left bracket", b'Event "x"]\n' + SITE, b"not a move", b"Event"),
    ("words before a tag", b'Game [Event "x"]\n' + SITE, b"not a move", b"Game"),
    ("no tags", b"1. e4 e9 *\n", b"not a move", b"e9"),
]


A, B, C, D = (sound(it) for it in (b"A", b"B", b"C", b"D"))
CLOSING = [sound(it, b"1. d4 d5 {yes} 2. c4 *") for it in (b"B", b"C")]
OPEN = b'[Event "x"]\n\n1. e4 {never closed e5 *\n'
BRACE = b'[Event "x"]\n[Si{te "y"]\n[Date "?"]\n[Round "1"]\n\n1. e4 e5 *\n'
BARE, BARE_BAD = b'[Event "A"]\n1. e4 e5 *\n', b'[Event "x"]\n1. e4 e9 *\n'
BRACKETS = (b'[Event "x"]\n\n1. e4 {[%clk 1:00]\n[%eval 0.1]\n[x]} e5 {a\n\nb}\n'
            b"2. e9 {[%clk 1:00]\n[x]} *\n")
NOTED, PROSE = b'{a note}\n[Event "x"]\n\n1. e9 *\n', b"Games of the club,\n"
NO_MARKER = [X + b'[Site "y"]\n\n%s\n' % it for it in (b"1. e4 e5", b"1. e4 e5 {why}", b"")]
ILLEGAL, ESCAPE = b'[Event "x"]\n\n1. e9 *\n\n', b"% a line of the next one\n"
MANY = b"".join(b'[T%02d "v"]\n' % n for n in range(64))
# What is sieved, what is set aside of it, and its sound games, if they are compared; then what BAD
# or the summary says too.
ROWS = (
    ("sound games", A + B, [], None, b"good.pgn: 2 games\n", b"bad.pgn: 0 bad games set aside"),
    ("joined files with byte order marks", (b"\xef\xbb\xbf" + A) * 3, [], A * 3,
     b"dropped between games: 2 byte order marks"),
    *(("no marker", A + bad + b"\n" + B + bad, [bad, bad], A + B,
       b"byte %d: unexpected end of input" % (len(A + B + bad + bad) + 1)) for bad in NO_MARKER),
    # 64 tag pairs and the roster: 71 tag lines, more than the program reads
    ("many tag pairs", A + MANY + b"\n*\n" + BAD[0][1] + b"\n" + B, [BAD[0][1]], None,
     b"good.pgn: 1 game with more than 64 tag lines", b"first game 2"),
    ("no empty lines", BARE + BARE_BAD + BARE + BARE_BAD * 2 + BARE, [BARE_BAD] * 3, BARE * 3),
    # the comment ends with the file, or in a comment of the next game, or of a later one
    *(("open comment", A + OPEN + b"\n" + rest, [OPEN], A + rest,
       b"% the fault is after these bytes") for rest in (B, CLOSING[0] + C, B + CLOSING[1] + D)),
    # the rest of the tag section is no game of its own
    *(("brace in a tag section", A + BRACE + b"\n" + rest, [BRACE], A + rest)
      for rest in (B, CLOSING[0] + C)),
    ("two open comments", OPEN + b"\n" + OPEN + b"\n" + CLOSING[0] + OPEN, [OPEN] * 3, None),
    ("brackets in comments begin no game",
     A + BRACKETS + sound(b"B", b"1. e4 {\n[%clk 1:00]\n} e5 *"), [BRACKETS], None),
    # comments between games go with a bad one
    ("comment before a bad game", A + NOTED + B, [NOTED], None),
    ("junk before the first game", PROSE + A, [PROSE], None),
    ("escapes go with the next game", ILLEGAL + ESCAPE + ILLEGAL, [ILLEGAL, ESCAPE + ILLEGAL],
     None),
)


def call(words, **more):
    return run([sys.executable, *SIEVE, *words], **more)


def export(text):
    return output_of(run([need_program(), "export"], input=text))


class Sieved(programs.Folder):
    """A run of the sieve on a text, and its two outputs."""

    def __init__(self, test, text, *options):
        self.folder = programs.new_folder(test)
        self.paths = [self.folder + it for it in ("/in.pgn", "/good.pgn", "/bad.pgn")]
        self.put("in.pgn", text)
        self.text = text
        self.ran = call([*options, *self.paths])
        self.good, self.bad = (self.get(it) for it in self.paths[1:])
        found = list(NOTE.finditer(self.bad))
        ends = [it.start() for it in found[1:]] + [len(self.bad)]
        # (offset, reason, line, begin, end) as BAD tells, and the text that it has there
        self.notes = [(int(it[1]), it[2], int(it[3]), int(it[4]), int(it[5])) for it in found]
        self.pieces = [self.bad[it.end():end] for it, end in zip(found, ends)]

    def left(self):
        """The input without what is in BAD, and without marks that joining left."""
        begins, ends = [0, *(it[4] for it in self.notes)], [*(it[3] for it in self.notes), None]
        parts = [self.text[begin:end] for begin, end in zip(begins, ends)]
        return b"\n".join(parts).replace(b"\xef\xbb\xbf", b"")


class SieveTest(programs.Folder, unittest.TestCase):
    def sieved(self, text, bad, dropped="", good=None):
        """A run, where nothing is lost: what is not in BAD is sound, and its export is GOOD."""
        done = Sieved(self, text)
        told = done.ran.stderr.partition(b"good.pgn: dropped ")[2]
        self.assertEqual((told.decode().rstrip(), not told), (dropped, not done.ran.stderr))
        self.assertEqual((done.ran.returncode, done.bad != b""), (1 if bad else 0, bad != []))
        self.assertEqual(done.good, export(done.left()))
        self.assertEqual([it.rstrip(b"\r\n") for it in done.pieces],
                         [it.rstrip(b"\r\n") for it in bad])
        for (at, _, line, begin, end), piece in zip(done.notes, done.pieces):
            self.assertTrue(piece.startswith(text[begin:end]), piece)
            self.assertEqual(line, len(re.findall(rb"\r\n?|\n", text[:at])) + 1)
        if good is not None:
            self.assertEqual(done.good, export(good))
        return done

    def outputs(self, done, *paths):
        """Another run wrote to these two what that one wrote."""
        self.assertEqual([done.get(it) for it in paths], [done.good, done.bad])

    def test_each_way_to_be_bad(self):
        """Between sound games, and as the first and the last one."""
        for name, text, reason, place in BAD:
            with self.subTest(name):
                done = self.sieved(A + B + text + b"\n" + C, [text], good=A + B + C)
                self.assertEqual(done.notes[0][:2], (len(A + B) + text.index(place), reason))
                done = self.sieved(text + b"\n" + A + text, [text, text], good=A)
                self.assertEqual([it[1] for it in done.notes], [reason, reason])

    def test_all_ways_in_a_row(self):
        games = [it[1] for it in BAD if it[0] != "no tags"]
        self.sieved(b"\n".join(games), games, good=b"")
        self.sieved(b"".join(sound(b"%d" % n) + it + b"\n" for n, it in enumerate(games)), games)

    def test_line_ends(self):
        games = [it[1] for it in BAD if it[0] not in ("no tags", "open string")]
        text = b"".join(sound(b"%d" % n) + it + b"\n" for n, it in enumerate(games))
        for end in (b"\r\n", b"\r"):
            done = self.sieved(text.replace(b"\n", end), [it.replace(b"\n", end) for it in games])
            self.assertEqual(done.good.count(b"[Event"), len(games))

    def test_each_row(self):
        for name, text, bad, good, *said in ROWS:
            with self.subTest(name):
                done = self.sieved(text, bad, good=good)
                for it in said:
                    self.assertIn(it, done.bad + done.ran.stdout)

    def test_between_games(self):
        # junk alone is set aside, comments are dropped before a sound game
        self.sieved(A + b"\x1a" + B + b"{a note}\n" + C + b"\x1a", [b"\x1a", b"\x1a"],
                    "1 comment before a game or inside a tag pair", good=A + B + C)

    def test_what_is_dropped(self):
        """Comments and escape lines of valid games that the export has not are counted."""
        bad = b'{a}\n[Event {b} "x"]\n%c\n\n1. e9 *\n\n'
        kept = b'[Event "y"]\n\n1. e4 {c} ; d\n {\n%e\n} *\n\n'
        where = " before a game or inside a tag pair"
        for text, told in (
                (kept + bad, ""), (kept, ""),
                (b'[Event {b} "x"]\n\n1. e4 *\n\n' + bad + kept, "1 comment" + where),
                (kept + b"%c\n" + kept + bad, "1 line with '%'"),
                (b'{a} ;b\n[Event {c} "x"]\n\n1. e4\n%c\n%d\n*\n' + bad,
                 "3 comments" + where + ", 2 lines with '%'"),
                (kept + b"{end}\n", "5 bytes after the last game")):
            done = self.sieved(text, [bad] if bad in text else [], told)
            self.assertEqual(done.ran.stderr.count(b"\n"), bool(told), text)

    def test_repaired_pieces_are_sound(self):
        bad = b'[Event "x"]\n\n1. e4 e9 *\n'
        done = Sieved(self, (A + bad + b"\n") * 3)
        self.sieved(done.bad.replace(b"e9 *", b"e5 *"), [], good=bad.replace(b"e9", b"e5") * 3)

    def test_random_damage(self):
        rng = random.Random(7)
        base = b"".join(sound(b"%d" % n, it) for n, it in enumerate([
            b"1. e4 {a [%clk 1:00] b} e5 (1... c5 2. Nf3) 2. Nf3 $1 *",
            b"; note\n1. d4! d5 2. c4 *",
            b"%skipped 1-0\n1. Nf3 *", b"{x} *", b"1. e4 e5 2. Bc4 Nc6 3. Qh5 Nf6 4. Qxf7# *"])) * 3
        bits = (b"{", b"}", b'"', b"[", b"]", b"\n\n", b"\n[", b"*", b"1-0 ", b"\x01", b"", b";",
                b"%", b"(", b'[Event "z"]\n')
        for _ in range(60):
            text = programs.mutated(base, rng, bits, 5)
            done = Sieved(self, text)
            self.assertRegex(done.ran.stderr, rb"\A(gillspoon: \S+/good\.pgn: dropped .+\n)?\Z", text)
            self.assertEqual(done.good, export(done.left()), text)
            self.assertEqual(done.ran.returncode, 1 if done.notes else 0)
            for (_, _, _, begin, end), piece in zip(done.notes, done.pieces):
                self.assertTrue(piece.startswith(text[begin:end]), text)

    def test_comment_and_string_across_blocks(self):
        # blocks are of 2^20 bytes; the shift moves the marks over the edge
        bad = b'[Event "x"]\n\n1. e9 *\n'
        for shift in range(0, 30, 3):
            filler = b"{" + (b"w" * 70 + b" 1-0 ") * 14000 + b"w" * shift + b"}"
            text = sound(b"A", filler + b" 1. e4 *") + sound(b"B", b"1. e4 {1-0} *") * 4
            self.assertIn(b": 5 games", self.sieved(text + bad, [bad]).ran.stdout)

    def test_refused_files(self):
        folder, file = self.folder, self.put("a.pgn", A)
        link, other = folder + "/link.pgn", folder + "/b.pgn"
        os.link(file, link)
        for words in ([file, file, other], [file, other, link], [file, other, other], [file],
                      [file, other, folder], [file, other, "-"], [file, "-", other],
                      [file, "/dev/zero", other]):
            self.check_refused(call(words), 2)
        for words in ([folder + "/none", other, other + "2"], [file, folder + "/none/g", other]):
            self.check_refused(call(words), 3)
        self.assertEqual(sorted(os.listdir(folder)), ["a.pgn", "link.pgn"])
        self.assertEqual(self.get("a.pgn"), A)

    def test_many_files(self):
        """Folders, zips and standard input too; BAD names the file of each bad game."""
        bad = b'[White "Bo"]\n\n1. e4 e9 *\n'
        done = Sieved(self, A + bad)
        folder = done.folder + "/all"
        done.put_all({"all/a.pgn": A + bad, "all/sub/b\n.pgn": B,
                      "all/c.zip": programs.zip_of(("x.pgn", bad), ("y.pgn", sound(b"Y"))),
                      "all/left.pgn": b"<!DOCTYPE html>"})
        good = export(A + sound(b"Y") + B + sound(b"S"))
        wanted = b"".join(
            b"%% byte %d of %s: not a move; line %d\n"
            b"%% bytes %d to %d, up to the end of the file\n%s\n"
            % (begin + 20, (folder + name).encode(), line, begin, begin + len(bad), bad)
            for name, line, begin in (("/a.pgn", 8, len(A)), ("/c.zip:x.pgn", 3, 0)))
        outputs = ["--good", done.folder + "/g", "--bad", done.folder + "/b"]
        for jobs in "13":
            ran = call(["--exclude", "left*", "-j", jobs, *outputs, folder, "-"], input=sound(b"S"))
            self.assertIn(b"/g: 4 games\n%s/b: 2 bad games set aside, 50 bytes" %
                          done.folder.encode(), output_of(ran, 1))
            self.assertEqual((done.get("g"), done.get("b")), (good, wanted))
            # one that is no text of games leaves the outputs as they are
            self.check(call(["-j", jobs, *outputs, folder]), 3, b"", (
                "gillspoon: %s/left.pgn: is a page of HTML or XML, and no text of games; "
                "nothing was written\n" % folder).encode())
            self.assertEqual(done.get("g"), good)

    def test_one_output_alone(self):
        done = Sieved(self, A + BAD[0][1])
        for option, wanted in (("--good", done.good), ("--bad", done.bad)):
            output_of(call([option, done.folder + "/it", done.paths[0]]), 1)
            self.assertEqual(done.get(done.folder + "/it"), wanted)

    def test_standard_input(self):
        """It is a file, or a pipe; test_compressed has more."""
        done = Sieved(self, A + BAD[0][1] + b"\n" + B + BAD[-1][1])
        for script, *outputs in (('"$@" - a b <in.pgn', "a", "b"),
                                 ('cat in.pgn | "$@" /dev/stdin c d', "c", "d")):
            output_of(run(["sh", "-c", script, "sh", sys.executable, *SIEVE], cwd=done.folder), 1)
            self.outputs(done, *outputs)
        self.assertEqual(call(["-", *done.paths[1:]], input=A).returncode, 0)

    def test_dev_null_as_an_output(self):
        done, null = Sieved(self, A + BAD[0][1] + b"\n" + B + BAD[-1][1]), "/dev/null"
        before = os.stat(null)
        for good, bad in ((null, done.folder + "/b"), (done.folder + "/g", null), (null, null)):
            said = done.ran.stdout.decode().replace(done.paths[1], good).replace(done.paths[2], bad)
            if bad == null:
                said = said.replace("games set aside", "games dropped")
            self.assertEqual(output_of(call([done.paths[0], good, bad]), 1).decode(), said)
        self.outputs(done, "g", "b")
        after = os.stat(null)
        self.assertEqual((before.st_ino, before.st_rdev), (after.st_ino, after.st_rdev))

    def test_checked(self):
        """A missing Result takes the marker; one that is there is compared as ever."""
        won = b'[Event "w"]\n\n1. e4 {a} e5 1-0\n\n'
        tagged = won.replace(b"\n\n", b'\n[Result "1-0"]\n\n', 1)
        text = won + A + b'[Result "0-1"]\n\n1. d4 1-0\n\n' + won
        done = Sieved(self, text)
        self.assertEqual([it[1] for it in done.notes], [b"result differs from the Result tag"] * 3)
        done = Sieved(self, text, "--checked")
        self.assertEqual((done.ran.returncode, done.ran.stderr), (1, b""))
        self.assertEqual(done.good, export(tagged + A + tagged))
        self.assertEqual(done.pieces, [b'[Result "0-1"]\n\n1. d4 1-0\n\n'])
        self.assertIn(b"good.pgn: 3 games\nbad.pgn: 1 bad game",
                      re.sub(rb"(?m)^.*/", b"", done.ran.stdout))
        self.assertEqual(export(done.good), done.good)
        done = Sieved(self, won, "--checked")
        self.assertEqual((done.ran.returncode, done.good, done.bad),
                         (0, export(tagged), b""))

    def test_checked_finds_the_same_bad_games(self):
        """Where each result is that of its tag or `*`, it changes nothing."""
        text = b"".join(sound(b"%d" % n) + it[1] + b"\n" for n, it in enumerate(BAD))
        one, other = self.sieved(text, [it[1] for it in BAD]), Sieved(self, text, "--checked")
        self.assertEqual((one.good, one.bad, one.ran.returncode),
                         (other.good, other.bad, other.ran.returncode))

    def test_faults_on_a_terminal(self):
        bad = b'[White "M\xc3\xbcller"]\n[Black "\x1b[2J"]\n\n1. e4 {\xc3\xa4} e9 *\n\n'
        done = Sieved(self, A + bad.replace(b"\x1b[2J", b"Bob") + bad)
        self.assertNotIn(b"not a move", done.ran.stdout)
        env = dict(os.environ, NO_COLOR="1", LC_ALL="C.UTF-8")
        for words, name in ((done.paths[:1], done.paths[0]), (["-"], "<stdin>")):
            words = [sys.executable, *SIEVE, *words, *done.paths[1:]]
            script = " ".join(words) + " <" + done.paths[0]
            shown = programs.on_a_terminal(["sh", "-c", script], env=env)
            self.assertEqual(shown.split("\n")[:2], [
                name + ":9:11: not a move (game 2, M\u00fcller \u2013 Bob)",
                name + ":12:9: control byte (game 3, M\u00fcller \u2013 ?)"])
            self.assertEqual(len(shown.split("\n")), 6)

    def test_outputs_keep_their_mode_and_follow_links(self):
        done = Sieved(self, A)
        os.chmod(done.paths[1], 0o640)
        os.symlink("bad.pgn", done.folder + "/link.pgn")
        output_of(call([*done.paths[:2], done.folder + "/link.pgn"]), err=None)
        self.assertEqual(os.stat(done.paths[1]).st_mode & 0o777, 0o640)
        self.assertTrue(os.path.islink(done.folder + "/link.pgn"))


class StoppedTest(programs.Folder, unittest.TestCase):
    """A pipe that is not closed stands for a long file."""

    OUTPUTS = ["good.pgn", "bad.pgn"]

    def test_signals_leave_the_old_files(self):
        self.put_all(dict.fromkeys(self.OUTPUTS, b"old"))
        programs.check_stopped(self, [*SIEVE, "-", *self.OUTPUTS], files=2, stdin=subprocess.PIPE)

    def test_an_ignored_signal_does_not_end_it(self):
        """As nohup has it."""
        words = ["sh", "-c", 'trap "" HUP; exec "$@"', "sh", *SIEVE, "-", *self.OUTPUTS]
        ran = programs.signalled(words, signal.SIGHUP, self.folder, files=2, text=A,
                                 stdin=subprocess.PIPE)
        self.assertEqual((ran[0], sorted(os.listdir(self.folder))), (0, sorted(self.OUTPUTS)))

    def test_a_signal_while_a_temporary_file_is_made_leaves_none(self):
        script = """
import os, signal, sys, tempfile
sys.path.insert(0, sys.argv[1])
from gillspoon import _command, _replacement
made = tempfile.mkstemp
def stopped(**more):
    pair = made(**more)
    os.kill(os.getpid(), signal.SIGTERM)
    return pair
tempfile.mkstemp = stopped
_command.run(lambda out: _replacement.Replacement(sys.argv[2]))
"""
        ran = run([sys.executable, "-c", script, PACKAGE, self.folder + "/good.pgn"])
        self.assertEqual(ran.returncode, -signal.SIGTERM)
        self.assertEqual(os.listdir(self.folder), [])

    def test_a_file_that_is_overwritten_in_place(self):
        """Its size stays the same, and so does its name."""
        words = programs.planted("""
import time
from gillspoon import _sieve
run = _sieve.Part.run
def changed(part):
    counts = run(part)
    time.sleep(0.05)
    with open(part.name, "r+b") as file:
        file.write(b"new")
    return counts
_sieve.Part.run = changed
""")
        paths = [self.put(it, b"old") for it in ("in.pgn", *self.OUTPUTS)]
        ran = run([*words, "sieve", *paths])
        self.assertEqual((ran.returncode, ran.stdout, ran.stderr.decode()), (
            3, b"", "gillspoon: %s: changed while it was read; nothing was written\n" % paths[0]))
        self.assertEqual([self.get(it) for it in paths], [b"new", b"old", b"old"])

    def test_progress_on_a_terminal_alone(self):
        """It is shown after a second, which a program on the way to standard input takes."""
        paths = [self.put("in.pgn", A * 1000),
                 *(os.path.join(self.folder, it) for it in self.OUTPUTS)]
        words = [*programs.planted("""from gillspoon import _reports
times = iter(range(1000000))
_reports.time.monotonic = lambda: next(times)"""), "sieve", *paths]
        shown = programs.on_a_terminal(words)
        self.assertRegex(shown, r"gillspoon: file 1 of 1, 1,000 games, 0\.1 of 0\.1 MB, about 0:00 left")
        self.assertEqual(run(words).stderr, b"")
