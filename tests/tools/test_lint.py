"""Tests of gillspoon lint: what it says of bad games, its options and statuses, who reads it."""
import contextlib
import glob
import gzip
import json
import os
import random
import re
import signal
import subprocess
import sys
import time
import unittest

import programs
from documents import blocks_of, lines_of
from programs import (NO_TEXT, OTHER_KINDS, PACKAGE, PACKERS, ROOT, Gillspoon, bytes_of, need,
                      need_module, need_package, not_tried, output_of, run, text_of, vectors,
                      without_rights, zip_of)
from test_python import REAL

setUpModule = need_package
LINT = [ROOT + "/bin/gillspoon", "lint"]
INITIAL = "rnbqkbnr/pppppppp/8/8/8/8/PPPPPPPP/RNBQKBNR w KQkq - 0 1"
AFTER_E4_E5 = "rnbqkbnr/pppp1ppp/8/4p3/4P3/8/PPPP1PPP/RNBQKBNR w KQkq e6 0 2"
PLAYERS = b'[White "Ada"]\n[Black "Bob"]\n'
GOOD = PLAYERS + b"\n1. e4 e5 *\n"
BAD = PLAYERS + b"\n1. e4 e5 2. Ke3 *\n"
# Whose game it is: of nobody who is named, and of these.
NOBODY, ADA, BOTH = (" (game 1, %s \u2013 %s)" % it
                     for it in (("?", "?"), ("Ada", "?"), ("Ada", "Bob")))
BAD_LINE = "4:13: move is not legal" + BOTH
FIVE_GAMES = b"\n".join((GOOD, BAD, BAD, GOOD, BAD))
# Each way to be bad: its name, the text, and the lines about it without the name of the file, and
# without the players if nobody is named.
WAYS = {name: (text, [it if "(game " in it else it + NOBODY for it in lines])
        for name, text, *lines in (
    ("no such move", BAD, BAD_LINE),
    ("an exposed king", b'[FEN "4r2k/8/8/8/8/8/4R3/4K3 w - - 0 1"]\n' + PLAYERS + b"\nRd2 *\n",
     "5:1: move is not legal" + BOTH),
    ("two knights", b'[FEN "4k3/8/8/8/1N3N2/8/8/4K3 w - - 0 1"]\n\n1. Nd3 *\n',
     "3:4: move is ambiguous"),
    ("no move", b"1. e4 e9 *\n", "1:7: not a move"),
    ("a null move", b"1. e4 -- *\n", "1:7: stray byte: - (U+002D)"),
    ("a move in a variation", b"1. e4 (1. Ke3) *\n", "1:11: move is not legal"),
    ("a parenthesis", PLAYERS + b"1. e4 ) *\n",
     "3:7: closing parenthesis without an open one" + BOTH),
    ("no result", b'[White "Ada"]\n\n1. e4\n\n[White "Bob"]\n\n1. d4 *\n',
     "5:1: tag in movetext: the game before may have no result at its end" + ADA),
    ("a comment between tags", b'[White "Ada"]\n{a}\n[Black "Bob"]\n\n1. e4 *\n',
     "3:1: tag in movetext: a comment behind a tag pair begins the movetext" + BOTH),
    ("no result at the end", b"1. e4\n",
     "2:1: unexpected end of input: the last game has no result at its end"),
    ("no closing brace", b"1. e4 {a} {b\nc ; {\n",
     "3:1: comment is not closed: it begins at line 1, column 11"),
    ("no closing quote", b'[White "Ada\n\n1. e4 *\n', "1:8: string is not closed"),
    ("quotes in a tag", b'[Event "a "b""]\n' + GOOD, "1:12: closing bracket expected" + BOTH),
    ("a curly quote", "[White \u201ca\n".encode(), "1:8: stray byte: \u201c (U+201C)"),
    ("a fraction of Latin-1", b"1. e4 \xbd", "1:7: stray byte: \xbd (U+00BD)"),
    ("an angle bracket", b"1. e4 <2> *\n",
     "1:7: reserved character: PGN 7 keeps < and > for later"),
    ("tags alone", b'\n\n[White "Ada"]\n\n[White "Bob"]\n\n1. e4 *\n',
     "5:2: the game before may have tags alone, without moves and a result" + ADA),
    ("a tag twice", b'[White "Ada"]\n[White "Bob"]\n\n1. e4 *\n', "2:2: tag is given twice" + ADA),
    ("a bad result", b'[White "Ada"]\n[Result "1"]\n[Black "Bob"]\n\n1. e4 *\n',
     "2:9: bad result value" + BOTH),
    ("a bad FEN", b'[FEN "x"]\n\n*\n', "1:6: bad FEN, field 1"),
    ("another result", b'[Result "0-1"]\n\n1. e4 1-0\n', "3:7: result differs from the Result tag"),
    ("no Result tag", b"1. e4 1-0\n",
     "1:7: result differs from the Result tag: there is no Result tag, which counts as *; "
     "--checked takes the result at the end"),
    ("CR LF", BAD.replace(b"\n", b"\r\n"), BAD_LINE), ("CR", BAD.replace(b"\n", b"\r"), BAD_LINE),
    ("a byte order mark", b"\xef\xbb\xbf1. Ke3 *\n", "1:4: move is not legal"),
    ("UTF-8", '[White "M\u00fcller"]\n\n1. e4 {\u00e4\u4e16} Ke3 *\n'.encode(),
     "3:12: move is not legal (game 1, M\u00fcller \u2013 ?)"),
    ("Latin-1", '[White "M\u00fcller"]\n\n1. e4 {\u00e4\u00e4} Ke3 *\n'.encode("latin-1"),
     "3:12: move is not legal (game 1, M\u00fcller \u2013 ?)"),
    ("three bad games of five", FIVE_GAMES, *(
        "%d:13: move is not legal (game %d, Ada \u2013 Bob)" % it
        for it in ((9, 2), (14, 3), (24, 5)))),
    ("an escape sequence in a name", b'[White "a\x1b[2J"]\n\n1. e4 *\n', "1:10: control byte"))}
# What is below a line with --board: the line, where the caret is, and for a rejected move the
# position and what is said of it.
BOARDS = {
    "no such move": ("1. e4 e5 2. Ke3 *", 12, AFTER_E4_E5, "The white king cannot go to e3."),
    "an exposed king": ("Rd2 *", 0, "4r2k/8/8/8/8/8/4R3/4K3 w - - 0 1",
                        "A white rook can go to d2 from e2, but its king would then be in check."),
    "two knights": ("1. Nd3 *", 3, "4k3/8/8/8/1N3N2/8/8/4K3 w - - 0 1",
                    "2 white knights may go to d3, from b4 and f4: write Nbd3 or Nfd3."),
    "a move in a variation": ("1. e4 (1. Ke3) *", 10, INITIAL, "The white king cannot go to e3."),
    "UTF-8": (
        "1. e4 {\u00e4\u4e16} Ke3 *", 12,
        "rnbqkbnr/pppppppp/8/8/4P3/8/PPPP1PPP/RNBQKBNR b KQkq e3 0 1",
        "The black king cannot go to e3."),
    "no closing quote": ('[White "Ada', 7), "no result at the end": ("", 0),
}


def board_of(fen, said):
    """The lines that --board shows of a rejected move."""
    ranks, side = fen.split()[:2]
    for number, rank in zip(range(8, 0, -1), ranks.split("/")):
        squares = re.sub(r"\d", lambda empty: int(empty[0]) * ".", rank)
        yield "%d  %s" % (number, " ".join(squares))
    yield "   a b c d e f g h   %s to move" % ("White" if side == "w" else "Black")
    yield from (fen, said)


def indented(lines):
    return "".join("  %s\n" % it if it else "\n" for it in lines)


WAYS_IN_A_FOLDER = {"ways/%s.pgn" % name: text for name, (text, _) in WAYS.items()}
PACKED = ("gz", "bz2", "zst")
NO_FILE = "has no file *.pgn, also with .gz, .bz2, .xz, .zst or .zip after it"
CASTLING = ("White may not castle by %s here: the right is lost, a square between is occupied, "
            "or the king is in check, or passes or reaches an attacked square.")
KING, PAWN = "The %s king cannot go to %s.", "No white pawn can go to %s."
# For each vector in which a move is rejected the position before it, if that is not the first one
# of the game, and the sentence.
VECTORS = {
    "faults.34": (None, KING % ("white", "e2")),
    "faults.34-a-number-joined-to-a-move": (
        None, "No white pawn can go to e4 as 1e4 says, but one may from e2."),
    "faults.34-no-letter": (
        None, "A move without a letter is a pawn's: for the knight on g1 write Nf3."),
    "faults.34-illegal-king-move": (AFTER_E4_E5, KING % ("white", "e3")),
    "faults.34-castling": (AFTER_E4_E5, CASTLING % "O-O"),
    "faults.34-castling-after-the-king-moved": (
        "rnbq1bnr/ppppkppp/8/4p3/4P3/8/PPPPKPPP/RNBQ1BNR w - - 2 3", CASTLING % "O-O-O"),
    "faults.35": ("rnbqkbnr/pppp1ppp/8/8/3N4/N1P1p3/PP1PPPPP/R1BQKB1R w KQkq - 0 5",
                  "2 white knights may go to c2, from a3 and d4: write Nac2 or Ndc2."),
    "faults.34-in-a-second-game": (AFTER_E4_E5, KING % ("white", "e3")),
    "limits.a-line-that-is-full-before-the-fault": (AFTER_E4_E5, KING % ("white", "e3")),
    "position_faults.35-three-queens": (
        None, "3 white queens may go to e1, from h1, e4 and h4: write Q1e1, Qee1 or Qh4e1."),
    "position_faults.35-three-queens-a-file": (
        None, "2 white queens may go to e1, from h1 and h4: write Q1e1 or Qh4e1."),
    "position_faults.35-three-queens-a-rank": (
        None, "2 white queens may go to e1, from e4 and h4: write Qee1 or Qh4e1."),
    "position_faults.34-en-passant-discovers": (
        None, "A white pawn can go to d6 from e5, but its king would then be in check."),
    "position_faults.34-castling-through-an-attack": (None, CASTLING % "O-O"),
    "position_faults.34-castling-as-a-king-s-move": (None, KING % ("white", "g1")),
    "position_faults.34-bare-promotion": (None, "A white pawn is promoted on a8: write a8=Q."),
    "position_faults.36-number-limit": (None, "No FEN has a move number above 99,999."),
    "position_faults.34-no-such-move-at-the-limit": (None, KING % ("black", "d6")),
    "position_faults.34-the-side-not-to-move": (None, KING % ("white", "d8")),
    "position_faults.34-a-king-beside-a-king": (
        None, "The white king can go to e7, but would be in check there."),
    "variations.a-move-from-the-position-after-the-variation": (AFTER_E4_E5, PAWN % "d5"),
    "variations.a-move-from-the-position-after-the-variation-reduced": (AFTER_E4_E5, PAWN % "d5"),
    "variations.a-move-of-the-side-not-to-move-in-a-variation": (None, PAWN % "e5"),
    "variations.a-move-of-the-side-not-to-move-in-a-variation-reduced": (None, PAWN % "e5"),
}
FIELDS = ["kind", "file", "line", "column", "offset", "number", "reason", "note", "game", "white",
          "black", "begin", "end", "text", "before", "fen", "move", "legal", "exposing",
          "explanation", "fixes"]
TEXT = {"type": "object", "required": ["text"], "properties": {"text": {"type": "string"}}}


def record(required, **others):
    """A schema of an object that has these properties, perhaps some of the others, and no more."""
    return {"type": "object", "required": [*required], "properties": {**required, **others},
            "additionalProperties": False}


def array(items, **more):
    return {"type": "array", "items": items, **more}


# What RFC 3986 lets a reference have: letters, digits, some signs, and bytes in hexadecimal.
URI = {"type": "string", "pattern": r"^(?:[\w.~:/?#@!$&'()*+,;=-]|%[0-9A-F]{2})+$"}
RULE = {"type": "string", "pattern": r"^PGN\d\d$"}
LEVEL = {"enum": ["none", "note", "warning", "error"]}
FROM_0, FROM_1 = ({"type": "integer", "minimum": it} for it in (0, 1))
FILE = record({"uri": URI})
# What SARIF 2.1.0 requires of a log, of those properties that are used here.
DELETED = record({"byteOffset": FROM_0, "byteLength": FROM_0})
REPLACEMENT = record({"deletedRegion": DELETED}, insertedContent=TEXT)
CHANGE = record({"artifactLocation": FILE, "replacements": array(REPLACEMENT, minItems=1)})
FIX = record({"artifactChanges": array(CHANGE, minItems=1)}, description=TEXT)
REGION = record({"startLine": FROM_1}, startColumn=FROM_1, byteOffset=FROM_0)
PLACE = record({"artifactLocation": FILE}, region=REGION)
RESULT = record({"message": TEXT}, ruleId=RULE, level=LEVEL, fixes=array(FIX, minItems=1),
                locations=array(record({}, physicalLocation=PLACE)))
RULES = array(record({"id": RULE}, shortDescription=TEXT), uniqueItems=True)
DRIVER = record({"name": {"type": "string"}}, rules=RULES)
TOLD = array(record({"message": TEXT}, level=LEVEL))
INVOCATION = record({"executionSuccessful": {"type": "boolean"}}, toolExecutionNotifications=TOLD)
RUN = record({"tool": record({"driver": DRIVER})}, invocations=array(INVOCATION),
             columnKind={"enum": ["utf16CodeUnits", "unicodeCodePoints"]}, results=array(RESULT))
SARIF = record({"version": {"enum": ["2.1.0"]}, "runs": array(RUN, minItems=1)}, **{"$schema": URI})


class Lint(Gillspoon, unittest.TestCase):
    def lint(self, line="", *names, **more):
        """The status, the output and the errors of a call."""
        ran = self.call("lint " + line, *names, **more)
        return ran.returncode, ran.stdout.decode(), ran.stderr.decode()

    def says(self, line, status, out="", told="", **more):
        """As `Gillspoon.says` has it. The output is given as a text, or as its lines."""
        out = out if isinstance(out, str) else "".join("%s\n" % it for it in out)
        super().says("lint " + line, status, out.encode(), told.encode(), **more)

    def written(self, line, status, told="", **more):
        """The lines of the output of a call that ends so, and says this on standard error."""
        ended, out, said = self.lint(line, **more)
        self.assertEqual((ended, said), (status, told), (line, out))
        return out.splitlines()

    def records(self, line, *names, **more):
        return list(map(json.loads, self.lint("--json " + line, *names, **more)[1].splitlines()))


class Faults(Lint):
    def test_each_way_to_be_bad(self):
        self.put_all(WAYS_IN_A_FOLDER)
        wanted = {}
        for name, (_, lines) in WAYS.items():
            path = "ways/%s.pgn" % name
            wanted[path] = ["%s:%s" % (path, it) for it in lines]
            with self.subTest(name):
                self.says("--quiet", 1, wanted[path], names=[path])
        # 29 files have a game each, but one has a second game, and one has five
        lines = [it for path in sorted(wanted) for it in wanted[path]]
        for line in ("ways", "ways -j 3"):
            self.says(line, 1, [*lines, "29 files, 34 games, 31 faults in 29 files"])

    def test_sentences(self):
        from gillspoon._findings import explained
        castles = "r3k2r/8/8/8/8/8/8/R3K2R w KQkq - 0 1"
        mated = "r1bqkb1r/pppp1Qpp/2n2n2/4p3/2B1P3/8/PPPP1PPP/RNB1K1NR b KQkq - 0 4"
        white = "1r2k3/P1P5/8/8/8/8/8/4K3 w - - 0 1"
        lower = "A move without a letter is a pawn's: for the %s write %s."
        over = "Black has no legal move: the game is over before this one."
        takes = "2 white pawns may go to b8, from a7 and c7: write axb8=%s or cxb8=%s."
        for fen, move, sentence in (
                (castles, "e1g1", lower % ("king on e1", "O-O")),
                (castles, "e1c1", lower % ("king on e1", "O-O-O")),
                (castles, "a1a8", lower % ("rook on a1", "Rxa8+")),
                (mated, "Ke7", over), ("7k/5Q2/6K1/8/8/8/8/8 b - - 0 1", "Kg8", over),
                # promotions that are none
                (AFTER_E4_E5, "d4Q", "No pawn is promoted on d4: write d4."),
                (AFTER_E4_E5, "Nf3=Q+", "No pawn is promoted on f3: write Nf3."),
                (AFTER_E4_E5, "exd5N", PAWN % "d5"), (AFTER_E4_E5, "a8N", PAWN % "a8"),
                (white, "Pa8", "A white pawn is promoted on a8: write Pa8=Q."),
                (white, "xb8R", takes % ("R+", "R+")), (white, "xb8=N+", takes % ("N", "N"))):
            with self.subTest(move):
                self.assertEqual(explained(34, fen, move)[2], sentence)

    def test_names_further_down(self):
        for tags in ('[Event "a "b""]\n\n', '{a}\n[A-B "x"]\n', '[Event "\x01"]\n;x\n'):
            self.assertIn("(game 1, Ada \u2013 Bob)", self.lint(
                "a.pgn", of=tags.encode() + PLAYERS + b"\n1. e4 *\n")[1])
        # the names of the next game are not those of this one
        text = b'[White "Cy"\n\n[Event "x"]\n' + PLAYERS + b"\n1. e4 *\n"
        self.assertNotIn("Ada", self.lint("a.pgn", of=text)[1].splitlines()[0])

    def test_boards(self):
        for name, shown in BOARDS.items():
            with self.subTest(name):
                text, lines = WAYS[name]
                _, out, _ = self.lint("--board --quiet a.pgn", of=text)
                line, column, *board = shown
                board = board_of(*board) if board else []
                self.assertEqual(out, "a.pgn:%s\n%s\n" % (
                    lines[0], indented([line, " " * column + "^", *board])))
        # a check mark behind a pawn's move belongs to no promotion that is proposed
        promotes = b'[FEN "8/P6k/8/8/8/8/8/K7 w - - 0 1"]\n[SetUp "1"]\n\n1. a8+ *\n'
        for text, said in ((promotes, "A white pawn is promoted on a8: write a8=Q."),
                           (b"1. e4 e5 2. Ke2 e4xh1+ *\n", "No black pawn can go to h1.")):
            last = self.written("--board --quiet a.pgn", 1, of=text)[-2:]
            self.assertEqual(last, ["  " + said, ""])
        # a long line is cut around the caret
        text = b"1. e4 {" + b"w " * 200 + b"} Ke3 {" + b"w " * 200 + b"} *\n"
        lines = self.written("--board a.pgn", 1, of=text)
        self.assertEqual(lines[1][2:], "..." + "w " * 29 + "} " + "Ke3 {" + "w " * 27 + "w...")
        self.assertEqual(lines[2][2:], " " * 63 + "^")

    def test_vectors(self):
        """Each vector with a fault of a move: its position, the board of it, and the sentence."""
        wanted = {it["file"]: it for it in vectors()
                  if it.get("fault", {}).get("number") in (34, 35, 36)}
        self.assertEqual(set(wanted), set(VECTORS))
        self.put_all({"all/%s.pgn" % name: it["input"] for name, it in wanted.items()})
        found, boards = {}, self.lint("--board --quiet all")[1]
        for it in self.records("all"):
            found.setdefault(it.get("file"), it)
        for name, vector in wanted.items():
            with self.subTest(name):
                first = found["all/%s.pgn" % name]
                self.assertEqual((first["number"], first["offset"]),
                                 (vector["fault"]["number"], vector["fault"]["place"]))
                fen, said = VECTORS[name]
                tag = re.search(r'\[FEN "(.*)"\]', vector["input"])
                fen = fen or (tag[1] if tag else INITIAL)
                self.assertEqual((first["fen"], first["explanation"]), (fen, said))
                shown = boards.partition("all/%s.pgn:" % name)[2].split("\n", 3)[3]
                self.assertTrue(shown.startswith(indented(board_of(fen, said)) + "\n"), shown)


# What stands in the place of a token: texts of moves that are none, and what is near other tokens.
JUNK = """e4Q e5N exd5N a8N a8Q+ axb8R h1=N Pe4=B K=Q Kxe9 N Nf N3 Nf3N Nf3=Q+ Qa1a1=R# O-O=Q O O-
0-0N o-o-o b-c4 bxB3 xx x e e.p. ep ch mate +- -+ = (=) $ $256 $1x 1 9e4 8b6+ 12Nf3N 99999 1) ( )
(( )) [ ] [White "x"] [x] " "x { } ; % < > -- Z0 null 1/2 1:0 0-0-0-0
\ufeff \u200b \xa0 \u2655h5 \u265f \xbd
\x00 \x1a \xff a8=\u2655 N\u200bf3 D RR1d1 e8= exd6e.p. Ng1f3g5 aaa8Q K@e4 * 1-0""".split()
LETTERS = "KQRBNPabcdefgh12345678xO0-=+#!?.NQRB"
MODES = ("", "--board", "--json", "--sarif", "--json --unsafe-fixes", "--diff",
         "--diff --unsafe-fixes", "--fix")
# Plants an error in a function of the package.
FAILING = """from gillspoon import _findings, _mend, _reports
def failing(*words): raise KeyError('planted')
%s = failing"""


class NoTraceback(Lint):
    def games(self, seed):
        """1,200 games of bench/games.txt, of which each has one token that is junk."""
        rng, games = random.Random(seed), []
        lines = text_of("bench/games.txt").splitlines()
        for number in range(1200):
            words = rng.choice(lines).split()[:rng.randint(2, 60)]
            junk = rng.choice(JUNK) if rng.random() < 0.5 else "".join(
                rng.choice(LETTERS) for _ in range(rng.randint(1, 7)))
            words[rng.randrange(1, len(words))] = junk
            games.append('[White "%d"]\n[Result "%s"]\n\n%s %s\n' % (
                number, words[0], " ".join(words[1:]), words[0]))
        return "\n".join(games)

    def test_worked_inputs_and_junk_in_the_place_of_a_token(self):
        inputs = vectors()
        self.put_all({"all/%s.pgn" % it["file"]: it["input"] for it in inputs})
        self.assertGreater(len(inputs), 250)
        self.put_all({"all/%s.pgn" % it: self.games(it) for it in range(2)})
        for line in MODES:
            status, out, told = self.lint("-j 2 %s all" % line)
            self.assertEqual(status, 1, line)
            for said in ("Traceback", "an error of gillspoon"):
                self.assertNotIn(said, told)
            if "--diff" not in line:
                self.assertEqual(told, "", line)
            self.assertGreater(len(out), 100, line)

    def test_an_error_of_its_own(self):
        """An error that is planted gives the faults without what failed, and status 3."""
        self.put_all({"a.pgn": BAD, "b.pgn": BAD.replace(b"Ke3", b"Ke4") + GOOD})
        said = "an error of gillspoon, please report it: KeyError: 'planted'"
        wanted = ["gillspoon: %s.pgn:4:13: %s" % (it, said) for it in "ab"]
        for planted, words in (
                ("_findings.explained", ["--board"]), ("_findings.explained", ["--json"]),
                ("_findings.line_around", []), ("_reports.board", ["--board"]),
                *(("_mend.SectionMender.section", [it]) for it in ("--json", "--diff", "--sarif"))):
            for jobs in "12":
                ran = run([*programs.planted(FAILING % planted), "lint", *words, "-j", jobs,
                           "a.pgn", "b.pgn"], cwd=self.folder, env=self.env)
                with self.subTest(planted, words=words, jobs=jobs):
                    told = ran.stderr.decode().splitlines()
                    own = [it for it in told if said in it]
                    self.assertEqual((ran.returncode, told[-2:], own), (3, own, wanted))
                    if words == ["--board"]:
                        out = ran.stdout.decode()
                        self.assertTrue(out.startswith("a.pgn:%s\n" % BAD_LINE))
                        self.assertIn("2 files, 3 games, 2 faults in 2 files", out)

    def test_many_braces(self):
        """Comments among tags have one reading: a search that fails then ends."""
        self.put_all({"a.pgn": b"1. e4 [" + b"{ ; " * 500 + b"\n",
                      "b.pgn": b"[" + b"{ " * 500 + b"\n"})
        self.says("--quiet a.pgn b.pgn", 1, [
            "a.pgn:1:7: tag in movetext: the game before may have no result at its end" + NOBODY,
            "b.pgn:2:1: comment is not closed: it begins at line 1, column 2" + NOBODY])


class Files(Lint):
    def test_real_files(self):
        """58 files in a folder: of each the faults that gillspoon sieve finds."""
        need("zstd")
        paths = sorted(glob.glob(REAL, recursive=True)) or not_tried("pychess is missing")
        paths += glob.glob("/usr/share/pgn-extract/eco.pgn") or not_tried("pgn-extract is missing")
        plain = {"real/%02d.pgn" % at: bytes_of(path) for at, path in enumerate(paths)}
        # the rest of the 58 are some of them once more, compressed
        packed = {"%s.%s" % (name, PACKED[at % len(PACKED)]): name
                  for at, name in enumerate(list(plain)[:58 - len(plain)])}
        self.put_all(plain)
        for name, of_plain in packed.items():
            self.put(name, PACKERS[name.rpartition(".")[2]](plain[of_plain]))
        names = sorted([*plain, *packed])
        self.assertEqual(len(names), 58)
        *found, summary = self.records("real")
        summary.pop("warnings", None)
        sieved = {name: self.sieved(name, text) for name, text in plain.items()}
        games = sum(sieved[packed.get(it, it)][0] for it in names)
        wanted = [(name, *it) for name in names for it in sieved[packed.get(name, name)][1]]
        self.assertEqual([(it["file"], it["offset"], it["reason"], it["line"])
                          for it in found if it["kind"] == "fault"], wanted)
        self.assertEqual(summary, {
            "kind": "summary", "files": 58, "games": games, "faults": len(wanted),
            "bad_files": len({it[0] for it in wanted})})
        self.assertGreater(len(wanted), 5)
        self.assertGreater(games, 3000)
        words = self.lint("-j 4 real")[1].splitlines()[-1]
        self.assertTrue(words.startswith("58 files, %s games, %d faults in %d files" % (
            format(games, ","), len(wanted), summary["bad_files"])), words)

    def sieved(self, name, text):
        """How many games gillspoon sieve finds, and their faults: offset, reason and line."""
        ran = run([LINT[0], "sieve", name, "/dev/null", "bad"], cwd=self.folder, env=self.env)
        self.assertEqual(ran.stderr, b"")
        good, bad = map(int, re.findall(rb"(?m)^[\w/.]+: (\d+) (?:bad )?games?\b", ran.stdout))
        notes = re.findall(r"(?m)^% byte (\d+): (.*); line \d+$", self.get("bad").decode("latin-1"))
        self.assertEqual(len(notes), bad)
        return good + bad, [(int(at), reason, 1 + len(re.findall(rb"\r\n?|\n", text[:int(at)])))
                            for at, reason in notes]

    def test_a_folder(self):
        need("zstd")
        self.put_all({"all/b.pgn": GOOD, "all/a.PGN": BAD})
        for name, kind in zip(("c.pgn.GZ", "d.pgn.bz2", "e.pgn.zst"), PACKED):
            self.put("all/below/" + name, PACKERS[kind](BAD))
        for name in ("all/.hidden.pgn", "all/.git/f.pgn", "all/readme.txt", "all/pgn"):
            self.put(name, BAD)
        wanted = ["all/%s:%s" % (it, BAD_LINE) for it in (
            "a.PGN", "below/c.pgn.GZ", "below/d.pgn.bz2", "below/e.pgn.zst")]
        for line in ("all", "-j2 all"):
            self.says(line, 1, [*wanted, "5 files, 5 games, 4 faults in 4 files"])

    def test_names(self):
        shown = {"a b.pgn": "a b.pgn", "a\nb.pgn": "a\\nb.pgn", "-c.pgn": "-c.pgn",
                 "\x1b[2J.pgn": "\\x1b[2J.pgn", "\u00fc\u4e16.pgn": "\u00fc\u4e16.pgn"}
        for name, wanted in shown.items():
            name = "names/" + name
            self.put(name, BAD)
            self.says("--quiet", 1, "names/%s:%s\n" % (wanted, BAD_LINE), names=[name])
            self.assertEqual(self.records("", name)[0]["file"], name)
        self.assertEqual(len(self.written("names", 1)), len(shown) + 1)
        # a leading dash
        self.put("-c.pgn", BAD)
        self.says("d.pgn --quiet -- -c.pgn d.pgn", 1, of=BAD, out=[
            "%s.pgn:%s" % (it, BAD_LINE) for it in ("d", "-c", "d")])
        self.says("--quiet -- -c.pgn", 1, "-c.pgn:%s\n" % BAD_LINE)
        # a name that is no UTF-8
        self.put(b"\xff.pgn", BAD)
        ran = run([*LINT, "--quiet", b"\xff.pgn"], cwd=self.folder, env=self.env)
        self.assertEqual(ran.stdout, b"\xff.pgn:" + BAD_LINE.encode() + b"\n")
        self.assertIn("%FF.pgn", self.lint("--sarif", b"\xff.pgn")[1])

    def test_another_encoding_of_the_output(self):
        env = dict(self.env, LC_ALL="C", PYTHONIOENCODING="ascii", PYTHONUTF8="0")
        text = BAD.replace(b"Ada", "Ad\u00e4".encode())
        self.assertEqual(self.lint("--quiet a.pgn", of=text, env=env)[1],
                         "a.pgn:4:13: move is not legal (game 1, Ad? - Bob)\n")

    def test_what_cannot_be_read(self):
        self.put_all({"good.pgn": GOOD, "bad.pgn": BAD,
                      "cut.pgn.gz": gzip.compress(GOOD * 100)[:-20]})
        os.mkdir(self.folder + "/empty")
        for name, reason in (
                ("missing.pgn", "No such file or directory"), ("good.pgn/x", "Not a directory"),
                ("empty", NO_FILE),
                ("cut.pgn.gz",
                 "Compressed file ended before the end-of-stream marker was reached")):
            for line in ("", "-j 2"):
                with self.subTest(name):
                    bad, *_, last = self.written("%s good.pgn %s bad.pgn" % (line, name), 3,
                                                 "gillspoon: %s: %s\n" % (name, reason))
                    self.assertEqual((bad, last[:9]), ("bad.pgn:" + BAD_LINE, "2 files, "))

    def test_a_file_without_permission(self):
        self.put("a.pgn", GOOD)
        os.chmod(self.folder + "/a.pgn", 0)
        os.chmod(self.folder, 0o755)
        words = [*without_rights(self, LINT[0])[:-1], *LINT, "a.pgn"]
        ran = run(words, cwd=self.folder, env=self.env)
        if b"build" in ran.stderr or b"cannot be used" in ran.stderr:
            not_tried("another user cannot read the library")
        self.assertEqual((ran.returncode, ran.stderr),
                         (3, b"gillspoon: a.pgn: Permission denied\n"))


class OtherKinds(Lint):
    """Files that are no text of games are refused, and stay as they are."""

    def setUp(self):
        super().setUp()
        self.texts = {name: text for name, (text, _) in OTHER_KINDS.items()}
        self.put_all({"all/" + name: text for name, text in self.texts.items()})

    def test_each_kind(self):
        for line in ("", "--board", "--json", "--sarif", "--quiet", "--checked", "--fix",
                     "--fix --unsafe-fixes", "--diff --unsafe-fixes"):
            reasons = {name: reason for name, (_, reason) in OTHER_KINDS.items()}
            if "--fix" in line:
                reasons["tape.pgn.gz"] = "is compressed: unpack it, or give it to --fix -"
            status, out, told = self.lint(line + " all")
            lines = [it for it in told.splitlines() if it.startswith("gillspoon: ")]
            with self.subTest(line):
                self.assertEqual((status, lines), (
                    3, ["gillspoon: all/%s: %s" % it for it in sorted(reasons.items())]))
                self.assertNotIn("move", out)
                self.assertEqual(self.files("all"), self.texts)

    def test_standard_input(self):
        for name in ("mark.pgn", "tape.pgn", "tape.pgn.gz", "page.pgn", "guide.pgn"):
            text, reason = OTHER_KINDS[name]
            for line in ("-", "--json", "--fix --unsafe-fixes", "--diff -"):
                self.says(line + " --quiet", 3, told="gillspoon: <stdin>: %s\n" % reason,
                          input=text)

    def test_the_other_files_are_read(self):
        self.put_all({"all/a.pgn": BAD, "all/z.pgn": BAD})
        told = "".join("gillspoon: all/%s: %s\n" % (name, reason)
                       for name, (_, reason) in sorted(OTHER_KINDS.items()))
        for line in ("all", "all -j 2"):
            self.says(line, 3, ["all/a.pgn:" + BAD_LINE, "all/z.pgn:" + BAD_LINE,
                                "2 files, 2 games, 2 faults in 2 files"], told)

    def test_damaged_games_are_no_other_kind(self):
        for text, reason in (
                (b'[White "A\0"]\n\n*\n', "1:10: control byte"),
                (b'\xef\xbb\xbf\n[ White "A"]\n\n1. e4 \0\0 *\n', "4:7: control byte"),
                (b"<1> *\n", "1:1: reserved character"), (b"<", "1:1: reserved character"),
                (b"%PDF is an escape line\n1. e9 *\n", "2:4: not a move")):
            out, = self.written("--quiet a.pgn", 1, of=text)
            self.assertTrue(out.startswith("a.pgn:%s" % reason), out)

    def test_what_comes_in_pieces(self):
        """A pipe may give fewer bytes than the kind is known by."""
        for text, status in ((GOOD, 0), (BAD, 1), (OTHER_KINDS["no-mark.pgn"][0], 3),
                             (b" " * 400 + OTHER_KINDS["tag.pgn"][0], 3)):
            with subprocess.Popen([*LINT, "-"], env=self.env, stdin=subprocess.PIPE, bufsize=0,
                                  stdout=subprocess.DEVNULL, stderr=subprocess.DEVNULL) as child:
                with contextlib.suppress(BrokenPipeError):
                    for at in range(len(text)):
                        child.stdin.write(text[at:at + 1])
                child.stdin.close()
                self.assertEqual(child.wait(timeout=20), status)


class Zips(Lint):
    """Each file *.pgn of a zip is one of its own."""

    def setUp(self):
        super().setUp()
        self.put("a.zip", zip_of(("sub/x.pgn", GOOD), ("y.PGN", b"\n" + BAD), ("readme", b"none"),
                                 ("b\n: 1:2.pgn", GOOD + BAD)))
        lines = BAD_LINE.replace("4:", "5:"), BAD_LINE.replace("4:", "8:").replace("1,", "2,")
        self.lines = [":y.PGN:" + lines[0], ":b\\n: 1:2.pgn:" + lines[1]]

    def test_members_are_named(self):
        wanted = ["a.zip" + it for it in self.lines]
        self.says("--quiet a.zip", 1, wanted)
        self.says("--quiet a.zip -j 2 a.zip", 1, wanted * 2)
        self.assertEqual(self.written("a.zip", 1)[-1], "3 files, 4 games, 2 faults in 2 files")
        *found, summary = self.records("a.zip")
        self.assertEqual([(it["file"], it["line"], it["offset"], it["game"]) for it in found],
                         [("a.zip:y.PGN", 5, 42, 1), ("a.zip:b\n: 1:2.pgn", 8, 81, 2)])
        self.assertEqual((summary["files"], summary["bad_files"]), (3, 2))
        self.assertIn('"a.zip%3Ay.PGN"', self.lint("--sarif a.zip")[1])
        for line in ("-", ""):
            self.says("--quiet " + line, 1, ["<stdin>" + it for it in self.lines],
                      input=self.get("a.zip"))

    def test_a_member_is_given_by_its_name(self):
        self.says("--quiet a.zip:sub/x.pgn a.zip:y.PGN", 1, "a.zip%s\n" % self.lines[0])
        for name, told in (
                ("a.zip:none.pgn", "There is no item named 'none.pgn' in the archive"),
                ("none.zip:a.pgn", "No such file or directory")):
            self.says("--quiet " + name, 3, told="gillspoon: %s: %s\n" % (name, told))
        # the name of a file comes first
        self.says("--quiet a.zip:y.PGN", 0, of=GOOD)

    def test_members_beside_a_bad_one(self):
        # hidden members are passed over
        hidden = "__MACOSX/._y.pgn", b"\0\5\26\7\0\2Mac OS X"
        bad = "b.zip:y.pgn:%s\n" % BAD_LINE
        self.says("--quiet b.zip", 1, bad, of=zip_of(("y.pgn", BAD), hidden))
        # one of another kind
        self.put("b.zip", zip_of(("u.pgn", OTHER_KINDS["mark.pgn"][0]), ("y.pgn", BAD)))
        for line in ("b.zip", "-j2 b.zip a.zip:sub/x.pgn"):
            self.says("--quiet " + line, 3, bad, "gillspoon: b.zip:u.pgn: %s\n" % NO_TEXT)
        # a damaged one
        data = bytearray(zip_of(("x.pgn", GOOD * 50), ("y.pgn", BAD)))
        data[60] ^= 255
        status, out, told = self.lint("--quiet b.zip", of=bytes(data))
        self.assertEqual((status, out), (3, bad))
        self.assertRegex(told, r"\Agillspoon: b\.zip:x\.pgn: (?!b\.zip).+\n\Z")

    def test_fix(self):
        need("diff")
        old = BAD.replace(b"e4 e5 2. Ke3", b"e2-e4 e5")
        new = old.replace(b"e2-e4", b"e2e4").decode()
        packed = zip_of(("x.pgn", GOOD), ("y.pgn", old))
        self.put("b.zip", packed)
        line = "b.zip:y.pgn:4:4: fixed: long notation: e2-e4 \u2192 e2e4\n"
        self.says("--fix -", 0, GOOD.decode() + "\n\n" + new + "\n\n", line.replace(
            "b.zip", "<stdin>") + "2 files, 2 games, 0 faults, 1 edit\n", input=packed)
        status, out, told = self.lint("--diff b.zip")
        self.assertEqual((status, out.splitlines()[:2], told.splitlines()[0] + "\n"), (
            1, ["--- b.zip:y.pgn", "+++ b.zip:y.pgn mended"], line.replace("fixed", "would fix")))
        for words in ("b.zip", "-j2 b.zip b.zip:x.pgn"):
            status, out, told = self.lint("--fix " + words)
            self.assertEqual((status, told.splitlines()[0]), (
                3, "gillspoon: b.zip: is compressed: unpack it, or give it to --fix -"))
        self.assertEqual(self.get("b.zip"), packed)

    def test_in_a_folder(self):
        """A zip with games is read whatever its name is, and one without is named."""
        bad, none = zip_of(("y.pgn", BAD)), zip_of(("readme", b"none"))
        self.put_all({"all/a.pgn": GOOD, "all/games.ZIP": bad, "all/photos.zip": none,
                      "all/.hidden.zip": bad})
        passed = "gillspoon: all/photos.zip: is passed over: it has no file *.pgn inside\n"
        found = "all/games.ZIP:y.pgn:" + BAD_LINE
        for line in ("all", "all -j 2"):
            self.says(line, 1, [found, "2 files, 2 games, 1 fault in 1 file"], passed)
        self.says("--quiet all", 1, [found])
        # one that is given, or is said to have games, cannot be read
        self.says("--quiet all/photos.zip", 3,
                  told="gillspoon: all/photos.zip: has no file *.pgn inside\n")
        self.put_all({"all/b.pgn.zip": none, "all/c.zip": b"none", "none/photos.zip": none})
        self.written("all", 3, "gillspoon: all/b.pgn.zip: has no file *.pgn inside\n"
                     "gillspoon: all/c.zip: File is not a zip file\n" + passed)
        # a folder of such a zip alone
        self.written("none", 3, passed.replace("all", "none") + "gillspoon: none: %s\n" % NO_FILE)


class Options(Lint):
    def test_sound(self):
        self.says("a.pgn", 0, "1 file, 1,200 games, 0 faults\n", of=GOOD * 1200)
        self.says("--quiet a.pgn", 0)
        status, out, _ = self.lint("--sarif a.pgn")
        self.assertEqual((status, json.loads(out)["runs"][0]["results"]), (0, []))

    def test_checked(self):
        self.says("--checked a.pgn", 0, "1 file, 2 games, 0 faults\n",
                  of=b"1. e4 1-0\n[White \"Ada\"]\n1. d4 0-1\n")
        self.says("--checked --quiet a.pgn", 1,
                  ["a.pgn:3:7: result differs from the Result tag" + NOBODY],
                  of=b'[Result "0-1"]\n\n1. e4 1-0\n')

    def test_max(self):
        self.put_all({name + ".pgn": (BAD + b"\n") * 3 for name in "abc"})
        lines = ["./%s.pgn:%d:13: move is not legal (game %d, Ada \u2013 Bob)" % it for it in (
            ("a", 4, 1), ("a", 9, 2), ("a", 14, 3), ("b", 4, 1))]
        for jobs in "12":
            self.says("--max 4 . -j " + jobs, 1, [*lines, "3 files, 9 games, 9 faults in 3 files"])

    def test_json(self):
        fault, summary = self.records("a.pgn", of=WAYS["an exposed king"][0])
        self.assertEqual(list(fault), FIELDS)
        self.assertEqual(list(fault.values()), [
            "fault", "a.pgn", 5, 1, 70, 34, "move is not legal", "", 1, "Ada", "Bob", 0, 76,
            "Rd2 *", 0, "4r2k/8/8/8/8/8/4R3/4K3 w - - 0 1", "Rd2", [], ["e2"],
            "A white rook can go to d2 from e2, but its king would then be in check.", []])
        self.assertEqual(summary, {"kind": "summary", "files": 1, "games": 1, "faults": 1,
                                   "bad_files": 1})
        rows = re.findall(r"(?m)^\.It Cm (.*)$", text_of("share/man/man1/gillspoon.1"))
        self.assertEqual([it.replace("Cm ", "") for row in rows for it in row.split(" , ")],
                         FIELDS[1:])

    def test_tags_alone(self):
        """A line has the note in place of a reason that would mislead; a record has both."""
        note = "the game before may have tags alone, without moves and a result"
        reason = "tag is given twice"
        fault = self.records("a.pgn", of=WAYS["tags alone"][0])[0]
        self.assertEqual((fault["number"], fault["reason"], fault["note"]), (22, reason, note))
        ran, = json.loads(self.lint("--sarif a.pgn")[1])["runs"]
        self.assertEqual(ran["results"][0]["message"]["text"], note + ADA)
        self.assertEqual(ran["tool"]["driver"]["rules"][0]["shortDescription"]["text"], reason)

    def test_sarif(self):
        jsonschema = need_module("jsonschema", "python3-jsonschema")
        self.put("my games/a:b.pgn", BAD + b"\n" + WAYS["an exposed king"][0]
                 + b'\n[White "Cy"]\n\n1. e4 &\n')
        status, out, _ = self.lint("--sarif", "my games", "missing")
        log = json.loads(out)
        jsonschema.validate(log, SARIF)
        self.assertEqual(status, 3)
        ran, = log["runs"]
        self.assertEqual(ran["invocations"][0], {
            "executionSuccessful": False, "toolExecutionNotifications": [
                {"level": "error", "message": {"text": "missing: No such file or directory"}}]})
        self.assertEqual(ran["tool"]["driver"]["rules"], [
            {"id": "PGN01", "shortDescription": {"text": "stray byte"}},
            {"id": "PGN34", "shortDescription": {"text": "move is not legal"}}])
        self.assertEqual([it["locations"][0]["physicalLocation"] for it in ran["results"]], [
            {"artifactLocation": {"uri": "my%20games/a%3Ab.pgn"},
             "region": {"startLine": line, "startColumn": column, "byteOffset": offset}}
            for line, column, offset in ((4, 13, 41), (10, 1, 118), (14, 7, 145))])
        self.assertEqual(ran["results"][0]["message"]["text"],
                         BAD_LINE[6:] + ". The white king cannot go to e3.")
        self.check_that_the_schema_refuses(log, jsonschema)

    def check_that_the_schema_refuses(self, log, jsonschema):
        """Each place of the log with another value, and without what has to be there."""
        run, result = "runs 0 ", "runs 0 results 0 "
        place = result + "locations 0 physicalLocation "
        rules = log["runs"][0]["tool"]["driver"]["rules"]
        missing = ["version", "runs", *(run + it for it in (
            "tool", "tool driver name", "tool driver rules 0 id",
            "invocations 0 executionSuccessful")), result + "message", result + "message text"]
        for path, value in (
                *dict.fromkeys(missing).items(), ("version", "2"), ("runs", []),
                (run + "tool driver rules 1", rules[0]), (run + "columnKind", "bytes"),
                (result + "level", "bad"), (result + "ruleId", "34"),
                (place + "artifactLocation uri", "a b.pgn"), (place + "region startLine", 0),
                (place + "region startColumn", 0), (place + "region endline", 1)):
            at = broken = json.loads(json.dumps(log))
            *path, last = (int(it) if it.isdigit() else it for it in path.split())
            for it in path:
                at = at[it]
            if value is None:
                del at[last]
            else:
                at[last] = value
            with self.assertRaises(jsonschema.ValidationError, msg=[*path, last]):
                jsonschema.validate(broken, SARIF)

    def test_sarif_of_each_way_to_be_bad(self):
        jsonschema = need_module("jsonschema", "python3-jsonschema")
        self.put_all({**WAYS_IN_A_FOLDER, "ways/a\n%\u00fc.pgn": BAD})
        log = json.loads(self.lint("--sarif ways")[1])
        jsonschema.validate(log, SARIF)
        ran, = log["runs"]
        self.assertEqual(len(ran["results"]), 32)
        rules = {it["id"] for it in ran["tool"]["driver"]["rules"]}
        self.assertEqual({it["ruleId"] for it in ran["results"]}, rules)
        self.assertIn("ways/a%0A%25%C3%BC.pgn", json.dumps(ran["results"]))

    def test_words(self):
        for line in ("--no", "--max 0 a", "--max x a", "-j -1 a", "--json --sarif a",
                     "--board --json a", "--fix --diff a", "--fix --sarif a", "--fix - a",
                     "--unsafe-fixes a", "--quiet --verbose --fix a", "--verbose a",
                     "--statistics a --quiet", "--statistics a --sarif"):
            status, out, told = self.lint(line)
            self.assertEqual((status, out), (2, ""), line)
            self.assertRegex(told, r"\A.*\(--help shows the usage\)\n\Z")
        # as a module
        self.put("a.pgn", BAD)
        ran = run([sys.executable, "-m", "gillspoon", "lint", "--quiet", "a.pgn"], cwd=self.folder,
                  env=dict(self.env, PYTHONPATH=PACKAGE))
        self.assertEqual((ran.returncode, ran.stdout.decode()), (1, "a.pgn:%s\n" % BAD_LINE))


class Streams(Lint):
    def piped(self, line, **more):
        """The first line of a call, as a pipe that is closed then has it, its status and errors."""
        script = "gillspoon lint %s | head -n 1; echo ${PIPESTATUS[0]}" % line
        ran = run(["bash", "-c", script], cwd=self.folder, env=self.env, **more)
        return *ran.stdout.decode().splitlines(), ran.stderr

    def test_a_closed_pipe_ends_it_silently(self):
        self.put("a.pgn", (BAD + b"\n") * 3000)
        for line in ("a.pgn", "--json a.pgn", "-j2 a.pgn a.pgn", "--board a.pgn"):
            first, *rest = self.piped(line)
            self.assertIn("move is not legal", first)
            self.assertEqual(rest, ["3", b""])
        # processes say more than a pipe holds, so that some end in the midst of it
        self.put("a.pgn", (BAD + b"\n") * 1000)
        for _ in range(6):
            self.assertEqual(self.piped("-j4" + 8 * " a.pgn", timeout=20),
                             ("a.pgn:" + BAD_LINE, "3", b""))

    @contextlib.contextmanager
    def reading(self, line):
        """A call that waits for the pipe pipe.pgn, and the pipe."""
        os.mkfifo(self.folder + "/pipe.pgn")
        # a shell has background jobs ignore the signal, so the tests may do so too
        words = ["env", "--default-signal=INT", *LINT, *line.split()]
        with subprocess.Popen(words, cwd=self.folder, env=self.env,
                              stdout=subprocess.PIPE, stderr=subprocess.PIPE) as child:
            # once this opens, the other end is open in the process that reads
            with open(self.folder + "/pipe.pgn", "wb", buffering=0) as pipe:
                pipe.write(b"1. e4 ")
                yield child, pipe
        os.remove(self.folder + "/pipe.pgn")

    def test_an_interrupt(self):
        self.put("b.pgn", GOOD)
        for line in ("pipe.pgn", "-j 2 pipe.pgn b.pgn"):
            with self.reading(line) as (child, pipe):
                time.sleep(0.2)
                child.send_signal(signal.SIGINT)
                _, told = child.communicate(timeout=20)
                with self.assertRaises(BrokenPipeError, msg="a process still reads"):
                    for _ in range(100):
                        pipe.write(b" ")
                        time.sleep(0.05)
            self.assertEqual((child.returncode, told), (-signal.SIGINT, b""))

    def test_lost_processes(self):
        """They are no fault of a file, and leave no traceback. None outlives the call.

        They may be killed for lack of memory. A stopped one does not end when asked, and would
        keep standard error open.
        """
        self.put("b.pgn", GOOD)
        for signals in ((signal.SIGKILL, signal.SIGKILL), (signal.SIGSTOP, signal.SIGKILL)):
            with self.reading("-j 2 b.pgn pipe.pgn") as (child, _):
                children = text_of("/proc/%d/task/%d/children" % (child.pid, child.pid)).split()
                for process, number in zip(children, signals):
                    os.kill(int(process), number)
                _, told = child.communicate(timeout=20)
            self.assertEqual((child.returncode, told), (
                3, b"gillspoon: a process ended before its file was read; try again without -j\n"))

    def shown(self, name, **more):
        """What a terminal shows of a call."""
        return programs.on_a_terminal([*LINT, name], cwd=self.folder, env=dict(self.env, **more))

    def test_colours_on_a_terminal_alone(self):
        self.put("a.pgn", BAD)
        self.assertEqual(self.shown("a.pgn", TERM="xterm"), (
            "\x1b[1ma.pgn:4:13:\x1b[0m \x1b[31mmove is not legal\x1b[0m (game 1, Ada \u2013 Bob)\n"
            "1 file, 1 game, 1 fault in 1 file\n"))
        for more in ({"NO_COLOR": "1"}, {"TERM": "dumb"}):
            self.assertNotIn("\x1b", self.shown("a.pgn", **more))

    def test_progress_on_a_terminal(self):
        """A second and more is needed until it is shown, and it goes before a line."""
        os.mkfifo(self.folder + "/pipe.pgn")
        self.put_all({"a": GOOD * 600, "b": BAD})
        with subprocess.Popen(["sh", "-c", "exec >pipe.pgn; cat a; sleep 1.2; cat a b"],
                              cwd=self.folder):
            self.assertRegex(self.shown("pipe.pgn", NO_COLOR="1"), (
                "\\A(\r\x1b\\[Kgillspoon: file 1 of 1, [0-9,]+ games)+\r\x1b\\[K"
                "pipe.pgn:[0-9]+:13: move is not legal \\(game 1201, .*\n"
                "1 file, 1,201 games, 1 fault in 1 file\n\\Z"))


class Others(Lint):
    """What reads the lines: editors, code hosts, hooks."""

    def recipe(self, language):
        """The block of a language in the recipe of gillspoon lint."""
        lines = lines_of("docs/RECIPES.md")
        begin = lines.index("## Check games in CI and in an editor")
        return ["\n".join(inner) + "\n" for number, _, inner in blocks_of(lines)
                if number > begin and lines[number - 1].strip() == "```" + language]

    def test_vim(self):
        need("vim")
        text = WAYS["UTF-8"][0].decode().replace("\u4e16", "\u00e4")
        self.put("a b.pgn", text.encode() + b"\n" + BAD)
        option = re.search(r"errorformat=\S+ %m", self.recipe("vim")[0])[0]
        self.put("found", self.lint("", "a b.pgn")[1])
        place = " | echo line('.') getline('.')[col('.') - 1 : col('.') + 1]"
        commands = ("set encoding=utf-8 " + option, "cfile found", "redir! > seen",
                    "for it in filter(getqflist(), 'v:val.valid') | exe 'cc' |"
                    " echo bufname('%') it.lnum it.text | endfor",
                    "cfirst" + place, "cnext" + place, "qa!")
        run(["vim", "-u", "NONE", "-N", "-es", *(word for it in commands for word in ("-c", it))],
            cwd=self.folder, env=self.env)
        lines = [it for it in text_of(self.folder + "/seen").split("\n") if it]
        self.assertIn("a b.pgn 3 move is not legal (game 1, M\u00fcller \u2013 ?)", lines)
        self.assertEqual([it for it in lines if it.endswith("Ke3")], ["3 Ke3", "8 Ke3"])

    def test_emacs(self):
        need("emacs")
        self.put("a.pgn", WAYS["UTF-8"][0] + b"\n" + BAD)
        setting = self.recipe("elisp")[0]
        script = """(progn (require 'compile) %s
          (find-file "a.pgn")
          (with-current-buffer (compile "%s --quiet a.pgn")
            (while (get-buffer-process (current-buffer)) (accept-process-output nil 0.1)))
          (dotimes (_ 2) (next-error)
            (with-current-buffer "a.pgn" (message "at %%d %%s" (line-number-at-pos)
              (buffer-substring (point) (+ 3 (point)))))))""" % (setting, " ".join(LINT))
        ran = run(["emacs", "-Q", "--batch", "--eval", script], cwd=self.folder, env=self.env)
        self.assertEqual(re.findall("(?m)^at .*", ran.stderr.decode()), ["at 3 Ke3", "at 8 Ke3"],
                         ran.stderr)

    def test_the_hook(self):
        need("pre-commit", "git")
        if run(["git", "rev-parse", "HEAD"]).returncode:
            not_tried("this is no repository of git")
        self.put_all({"good games.pgn": GOOD, "-c.pgn": BAD, "bad.txt": BAD})
        env = dict(self.env, PRE_COMMIT_HOME=self.folder + "/.home", HOME=self.folder,
                   GIT_CONFIG_COUNT="1", GIT_CONFIG_KEY_0="safe.directory", GIT_CONFIG_VALUE_0="*")

        def said(status, *words):
            return output_of(run(words, cwd=self.folder, env=env), status, err=None).decode()

        hook = "pre-commit", "try-repo", "--all-files", "--color", "never", ROOT
        said(0, "git", "init", "-q")
        said(0, "git", "add", "--", "good games.pgn", "-c.pgn", "bad.txt")
        lines = said(1, *hook, "gillspoon-lint").splitlines()
        self.assertEqual([it for it in lines if ".pgn" in it or ".txt" in it],
                         ["-c.pgn:" + BAD_LINE])
        said(0, "git", "rm", "-qf", "--", "-c.pgn")
        said(0, *hook, "gillspoon-lint")
        self.assertIn("\ngood games.pgn\n", said(1, *hook, "gillspoon-fmt"))

    def test_the_configuration_of_the_hook(self):
        """What the recipe says of pre-commit names the hooks of this repository."""
        said = text_of(".pre-commit-hooks.yaml")
        names = re.findall(r"(?m)^- id: ([\w-]+)$", said)
        text = next(it for it in self.recipe("yaml") if "repos:" in it)
        self.assertEqual(re.findall(r"- id: ([\w-]+)", text), names)
        for pattern in re.findall(r"(?m)^  files: '(.*)'$", said):
            for name in ("a.pgn", "a/B.PGN", "c.Pgn"):
                self.assertTrue(re.search(pattern, name), (pattern, name))
            for name in ("a.pgn.txt", "apgn", "a.pgnx"):
                self.assertFalse(re.search(pattern, name), (pattern, name))

    def test_the_workflow(self):
        """Its commands are run, but those that fetch and install."""
        text = next(it for it in self.recipe("yaml") if "runs-on" in it)
        self.assertLessEqual(text.count("\n"), 12)
        commands = re.findall(r"(?m)^ +- run: (.*)$", text)
        lint, = [it for it in commands if "gillspoon lint" in it]
        self.put("games/a.pgn", BAD)
        output_of(run(["sh", "-ec", lint], cwd=self.folder, env=self.env), 1, err=None)
        name = re.search(r"sarif_file: ([\w.]+)", text)[1]
        result, = json.loads(self.get(name))["runs"][0]["results"]
        place = result["locations"][0]["physicalLocation"]
        self.assertEqual(place["artifactLocation"]["uri"], "games/a.pgn")
