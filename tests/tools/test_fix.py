"""Tests of the fixes: gillspoon lint --fix and --diff, gillspoon.fixes, the table of spellings."""
import contextlib
import glob
import gzip
import json
import os
import random
import re
import shutil
import signal
import stat
import subprocess
import sys
import unittest

from programs import (HEAD, PACKAGE, ROOT, bytes_of, check_stopped, files_up_to, mutated, need,
                      need_package, output_of, run, run_on_a_disk, signalled, text_of)
from spellings import DOUBTFUL, LEFT, SAFE, UNSAFE
from test_lint import LINT, Lint

BAD = b'[White "Ada"]\n[Black "Bob"]\n\n1. e2-e4 e5 *\n'
MENDED = b'[White "Ada"]\n[Black "Bob"]\n\n1. e2e4 e5 *\n'


def setUpModule():
    global gillspoon
    gillspoon = need_package()


def applied(text, edits):
    """A text after its edits."""
    out, at = b"", 0
    for it in edits:
        if it.offset < at or text[it.offset:it.offset + len(it.old)] != it.old:
            raise AssertionError("%r is not at its place" % (it,))
        out += text[at:it.offset] + it.new
        at = it.offset + len(it.old)
    return out + text[at:]


def moves_of(text):
    """For each game its result, its moves, and its text without what the spelling of signs adds."""
    added = rb"\s*(?:\$16|\{ \(=\) \}|[0-9]+\.+(?=\s))"
    return [(game.result, str(game.moves().plies),
             re.sub(added, b"", re.sub(rb"\s+", b" ", game.text.partition(b"\n\n")[2])))
            for game in gillspoon.games(text, checked=True)]


class Spellings(unittest.TestCase):
    def each(self, rows, unsafe):
        for text, edits, wanted in rows:
            with self.subTest(text):
                data = text.encode()
                found = list(gillspoon.fixes(data, unsafe=unsafe))
                said = [(it.old.decode(), it.new.decode(), it.name) for it in found]
                self.assertEqual(said, edits)
                self.assertEqual(applied(data, found), wanted.encode())
                self.assertEqual(list(gillspoon.fixes(wanted.encode(), unsafe=True)), [])
                gillspoon.check(wanted.encode())

    def test_safe(self):
        self.each(SAFE, False)
        self.assertTrue(all(edit.safe for text, _, _ in SAFE
                            for edit in gillspoon.fixes(text.encode())))

    def test_unsafe(self):
        self.each(UNSAFE, True)
        for text in [row[0] for row in UNSAFE] + LEFT:
            self.assertEqual(list(gillspoon.fixes(text.encode())), [], text)

    def test_doubtful(self):
        for text in DOUBTFUL:
            with self.subTest(text):
                self.assertEqual(list(gillspoon.fixes(text.encode(), unsafe=True)), [])
                self.assertRaises(gillspoon.PgnFault, gillspoon.check, text.encode())

    def test_each_fix_has_a_spelling(self):
        from gillspoon._fixes import NAMES
        tried = {name for _, edits, _ in SAFE + UNSAFE for edit in edits
                 for name in edit[2].split(", ")}
        # the last one has a test of its own
        self.assertEqual(tried, set(NAMES) - {"letters of a language"})

    def test_comments_have_one_reading(self):
        """Many braces in a comment take no time, where a result would have to end the game."""
        for comment in ("{%s}" % ("{ " * 1000), ";%s\n" % ("; " * 1000)):
            text = "1. e4 e5 1/2 %s 2. d4 *" % comment
            self.assertEqual(list(gillspoon.fixes(text.encode())), [])

    def test_like_tokens_end_with_their_game(self):
        """What is joined to a marker is no token of its game."""
        text = "1. e4 e5 2. \u2655h5 *\u2655h5 *".encode()
        self.assertEqual([(it.offset, it.new) for it in gillspoon.fixes(text)], [(12, b"Qh5")])

    def test_latin_1(self):
        for old, new in ((b"1. e4 \xbd\n", b'[Result "1/2-1/2"]\n\n1. e4 1/2-1/2\n'),
                         (b"1. e4 \xb1 e5 *", b"1. e4 $16 e5 *"), (b"1. e4\xa0e5 *", b"1. e4 e5 *"),
                         (b"1. e4 e5 2. Nf3 N\xa0c6 *", b"1. e4 e5 2. Nf3 N\xa0c6 *"),
                         (b"1. e4 d5 2. e\xd7d5 *", b"1. e4 d5 2. exd5 *")):
            self.assertEqual(applied(old, gillspoon.fixes(old)), new)


# What a program may write for a token of a sound game: a pattern, and the spelling of a match.
SPOILT = (
    (rb"([KQRBN]?[a-h][1-8])([a-h][1-8])", rb"\1-\2"),
    (rb"([KQRBN]?[a-h]?[1-8]?)x([a-h][1-8])", rb"\1:\2"),
    (rb"([KQRBN]?[a-h]?[1-8]?)x([a-h][1-8])", rb"\1X\2"),
    (rb"O-O", b"o-o"), (rb"O-O-O", b"0-O-O"), (rb"O-O", b"OO"), (rb"O-O-O", b"O - O - O"),
    (rb"N([a-h1-8x]+)", rb"n\1"), (rb"Q([a-h1-8x]+)", rb"q\1"), (rb"R([a-h1-8x]+)", rb"r\1"),
    (rb"N([a-h1-8x]+)", "\u2658\\1".encode()), (rb"B([a-h1-8x]+)", "\u265d\\1".encode()),
    (rb"(\w*[a-h][18])=([QRBN])", rb"\1(\2)"), (rb"(\w*[a-h][18])=([QRBN])", rb"\1/\2"),
    (rb"(\w+)\+", rb"\1ch"), (rb"(\w+)\+", rb"\1 ch."), (rb"(\w+)#", rb"\1 mate"),
    (rb"([a-h][1-8])", rb"\1,"), (rb"([a-h][1-8])", rb"\1 +/-"), (rb"([a-h][1-8])", rb"\1 (=)"),
    (rb"(1)/2-1/2", rb"\1/2"), (rb"1/2-1/2", "\u00bd-\u00bd".encode()),
    (rb"1-0", b"1:0"), (rb"0-1", b"0 - 1"), (rb"1-0", "1\u20130".encode()),
)
PATTERNS = [(re.compile(rb"(?:%s)(?![\w+#=-])" % pattern), new) for pattern, new in SPOILT]


def spoilt(text, rng):
    """A game with one to five tokens in another spelling."""
    words = text.split(b" ")
    places, depth = [], 0
    for at, word in enumerate(words):
        # in a comment a brace means nothing but its end
        depth = (depth or word == b"{") and word != b"}"
        places += [] if depth else [at]
    rng.shuffle(places)
    wanted, count = rng.randint(1, 5), 0
    for at in places:
        for pattern, new in rng.sample(PATTERNS, len(PATTERNS)):
            match = pattern.fullmatch(words[at])
            if match and count < wanted:
                words[at] = match.expand(new)
                count += 1
                break
    return b" ".join(words), count


def bench_games(count):
    """Games of bench/games.txt with a Result tag, each in one line of movetext."""
    for line in bytes_of("bench/games.txt").splitlines()[:count]:
        result, _, moves = line.partition(b" ")
        text = b'[Result "%s"]\n\n%s %s\n' % (result, moves, result)
        yield next(gillspoon.games(text)).text.replace(b"\n", b" ").replace(b"]  ", b"]\n\n")


def has_doubtful_pawn(line):
    """Whether a pawn's move of a line begins with b, and is a bishop's move with B."""
    fen = getattr(line.start, "fen", line.start)
    for ply in line.plies:
        if ply.san[0] == "b":
            with contextlib.suppress(gillspoon.MoveFault):
                return bool(gillspoon.san(fen, "B" + ply.san[1:]))
        if any(isinstance(it, gillspoon.Line) and has_doubtful_pawn(it) for it in ply.notes):
            return True
        fen = ply.fen
    return False


class Spoilt(unittest.TestCase):
    """Games that are spoilt have the moves of the unspoilt ones after --fix."""

    def compare(self, texts, seed):
        rng, tried = random.Random(seed), 0
        for sound in texts:
            head, _, moves = sound.partition(b"\n\n")
            bad, count = spoilt(moves.replace(b"\n", b" "), rng)
            text = head + b"\n\n" + bad
            mended = applied(text, gillspoon.fixes(text))
            if re.search(rb"[\s.][nqr][a-h1-8x]", bad) and any(
                    has_doubtful_pawn(it.moves()) for it in gillspoon.games(sound, checked=True)):
                # small letters of such a game stay
                self.assertRegex(mended, rb"[\s.][nqr][a-h1-8x]")
                continue
            with self.subTest(text):
                self.assertEqual(moves_of(mended), moves_of(sound))
            tried += count > 0
        return tried

    def test_games_of_the_bench(self):
        self.assertGreater(self.compare(bench_games(2000), 77), 1900)

    def test_games_of_the_corpus(self):
        texts = [it.text for path in sorted(glob.glob(ROOT + "/fuzz/corpus/*"))
                 for it in gillspoon.games(bytes_of(path), checked=True, on_fault=str) if it.plies]
        self.assertGreater(len(texts), 30)
        self.assertGreater(self.compare(texts * 30, 78), 500)


BITS = (b"{", b"}", b"(", b")", b"[", b"]", b'"', b";", b"\n", b"%", b"*", b"1-0", b"--", b"e4",
        b"\xef\xbb\xbf", b"\0", b"1/2", b"N ", b"$", b"!!!", b" = ", b"\\")


def damaged(rng, pool):
    """Some texts of a pool in one, with random damage."""
    texts = [rng.choice(pool) for _ in range(rng.randint(1, 4))]
    return mutated(b"\n\n".join(texts), rng, BITS, 6)


class Damaged(unittest.TestCase):
    """Texts with random damage: no sound game is lost, and no edit is out of its place."""

    def test_sound_games_stay(self):
        rng = random.Random(79)
        pool = [it.encode() for it in [row[0] for row in SAFE + UNSAFE] + LEFT]
        pool += map(bytes_of, sorted(glob.glob(ROOT + "/examples/*.pgn")))
        for _ in range(1500):
            text = damaged(rng, pool)
            applied(text, gillspoon.fixes(text, unsafe=True))
            mended = applied(text, gillspoon.fixes(text))
            before, after = [], []
            sound = [it.text for it in gillspoon.games(text, on_fault=before.append)]
            found = [it.text for it in gillspoon.games(mended, on_fault=after.append)]
            games = iter(found)
            with self.subTest(text):
                self.assertTrue(all(any(it == other for other in games) for it in sound))
                # behind a game that is mended there may be another bad one
                self.assertLessEqual(len(after) - len(before), len(found) - len(sound))


class Kept(unittest.TestCase):
    """What decides whether an edit is kept."""

    def mended(self, text, *edit):
        """A text after a planted fix, which proposes this edit wherever a fault is."""
        from gillspoon import _fixes, _here, _mend, _reading
        fix = _fixes.Fix("planted", frozenset(range(60)), True, ("", ""),
                         lambda here: _here.Change(*edit))
        around = _here.Around(True, True, True)
        mending = _mend.Mending(text, [fix], _reading.GameReader(), False, around)
        return mending.run().changes.text

    def test_a_fix_that_makes_another_game_is_refused(self):
        """Each would mend the fault, and changes a move or the first position before it."""
        text = b'[FEN "4k3/8/8/8/8/8/8/4K2R w K - 0 1"]\n\n1. Rh2 Kd7 2. Kd2 Kc6 3. 1/2 *\n'
        wrong = text[:text.index(b" 3. 1/2")] + b" Rh8 *\n"
        for old, new in ((b"Rh2", b"Rh3"), (b"Kd7", b"Kd8"), (b"Kd2", b"Rh8"),
                         (b"4K2R w", b"4K1R1 w"), (b"Rh2 ", b"O-O "), (b"1. Rh2 Kd7 2. ", b"")):
            bad = wrong.replace(b"Rh8 *", b"Rb6+ *" if old == b"Kd2" else b"3. K9 *")
            at = wrong.index(old)
            self.assertEqual(self.mended(bad, at, at + len(old), new), bad, (old, new))
        # a tag before the moves is changed, and the game is another one
        tag = b'[Result "0-1"]\n\n1. e4 e5 1-0\n'
        other = b'[FEN "4k3/4p3/8/8/8/8/4P3/K7 w - - 0 1"]\n[Result "1-0"]'
        self.assertEqual(self.mended(tag, 0, 14, other), tag)
        self.assertEqual(self.mended(tag, 9, 12, b"1-0"), tag.replace(b"0-1", b"1-0"))

    def test_a_fix_must_go_on(self):
        text = b"1. e4 K9 Ka1 *\n"
        for new in (b"K9", b"K8", b"Ke2", b"{a", b"["):
            self.assertEqual(self.mended(text, 6, 8, new), text)
        self.assertEqual(self.mended(text, 6, 8, b"e5"), text.replace(b"K9", b"e5"))


SWALLOWED = b'[White "Ada"]\n\n1. e4 {Black resigns\n\n[White "Bob"]\n\n1. d4 {good} *\n'
FORFEIT = "Termination is not time forfeit, or another word of the standard (PGN 9.8.1)"


class Warnings(Lint):
    """What gillspoon lint says of games that are sound."""

    def warned(self, text, *lines):
        """A text has these warnings, and no fault."""
        *found, last = self.written("a.pgn", 0, of=text)
        self.assertEqual(found, ["a.pgn:" + it for it in lines])
        self.assertEqual(last.endswith("%d warning%s" % (len(lines), "s"[len(lines) == 1:])),
                         bool(lines))

    def warned_of_game(self, text, place, reason):
        """A text has this warning of its first game."""
        white = "a" if '[White "a"' in text else "?"
        self.warned(text, "%s: warning: %s (game 1, %s \u2013 ?)" % (place, reason, white))

    def test_a_game_in_a_comment(self):
        line = ("5:1: warning: a comment holds a line that begins a tag section: perhaps it was "
                "never closed (game 1, Ada \u2013 ?)")
        self.warned(SWALLOWED, line)
        self.warned(SWALLOWED.replace(b"\n", b"\r\n"), line)
        self.warned('1. e4 {a\n[%clk 1:2]\n["x"]\n\n[a] "b"} *\n')
        self.warned('1. e4 {[White "Ada"] "x"} *\n')
        # it is closed
        self.says("--fix", 0, SWALLOWED.decode(), (
            "1 file, 1 game, 0 faults, 1 warning, 0 edits, 1 more with --unsafe-fixes\n"),
            input=SWALLOWED)
        wanted = SWALLOWED.replace(b"resigns\n", b"resigns} *\n").decode()
        self.says("--fix --unsafe-fixes", 0, wanted, (
            "<stdin>:3:21: fixed (unsafe): comment never closed, no marker: added } *\n"
            "1 file, 2 games, 0 faults, 1 edit\n"), input=SWALLOWED)

    def test_what_export_drops(self):
        drops = "which export drops"
        self.warned_of_game("{a} 1. e4 *\n", "1:1", "comment before a game, " + drops)
        self.warned("1. e4 * {a}\n", "1:9: warning: comment after the last game, " + drops)
        # the others are counted, once a file
        game = '%a\n[White {%x} "a"]\n\n1. e4 {\n%b} e5\n%c\n*\n'
        line = "warning: 1 line begins with %, and export drops it"
        comment = "1:8: warning: 1 comment is inside a tag pair, and export drops it"
        for text, *lines in (
                ("%a\n1. e4 *\n", "1:1: " + line), ("1. e4 *\r\n%a\r\n", "2:1: " + line),
                ('[White {x} "a"]\n\n1. e4 *\n', comment), ('[White {x} "a"] 1. e4 *\n', comment),
                ('[White "a"]\n%a\n[Black "b"]\n\n1. e4 *\n', "2:1: " + line),
                (HEAD.decode() + "1. e4\n%a\n{%b} e5 *\n", "10:1: " + line),
                (3 * game + "%d\n", "1:1: warning: 7 lines begin with %, and export drops them",
                 "2:8: warning: 3 comments are inside tag pairs, and export drops them"),
                ("1. e4 {\n%a} e5 *\n",), ('[White "{x} ; %"]\n\n1. e4 {%} *\n',),
                ('[White "a"] {x}\n\n1. e4 *\n',),
                # of gillspoon sieve
                ("% byte 9: move is not legal; line 1\n% bytes 0 to 9, up to the end\n1. e4 *\n",)):
            self.warned(text, *lines)

    def test_forms_and_names_of_tags(self):
        for reason, *tags in (
                ("Date is not YYYY.MM.DD (PGN 8.1.1.3)", 'Date "2020-01-02"'),
                ("Round is not a number, ? or - (PGN 8.1.1.4)", 'Round "one"'),
                ("WhiteElo is not a number or - (PGN 9.1.2)", 'WhiteElo "about 2000"'),
                ("BlackElo is not a number or - (PGN 9.1.2)", 'BlackElo ""'),
                ("ECO is not a letter and two digits (PGN 9.4.1)", 'ECO "X99"'),
                (FORFEIT, *('Termination "%s"' % it for it in (
                    "won by forfeit", "Forfeit", "time forfeit of both", "default", "no show",
                    r"a \"walkover\""))),
                ("Variant tag: the moves are checked by the rules of ordinary chess",
                 'Variant "Atomic"'),
                # perhaps a name is misspelled
                *(("tag %s: perhaps %s is meant" % names, names[0] + ' "x"') for names in (
                    ("event", "Event"), ("fen", "FEN"), ("Setup", "SetUp"), ("RESULT", "Result"),
                    ("Evnt", "Event"), ("Rounds", "Round"), ("Whitt", "White"), ("Dat", "Date")))):
            for tag in tags:
                self.warned_of_game("[%s]\n\n*\n" % tag, "1:1", reason)
        for tag in ('Date "????.??.??"', 'Date "2020.01.??"', 'Round "1.2"', 'Round "-"',
                    'Event "x"]\n[Evnt "y"', 'Wihte "a"', 'Opening "x"', 'SetUpp "x"',
                    'Dates "x"]\n[Date "????.??.??"', 'WhiteElo "-"',
                    'Variant "Standard"', 'WhiteElo "2700"', 'BlackElo "-"', 'ECO "B12/13"',
                    'ECO "B12"', *('Termination "%s"' % it for it in (
                        # PGN 9.8.1 lists these; lichess.org writes some with a capital
                        "abandoned", "adjudication", "death", "emergency", "normal",
                        "rules infraction", "time forfeit", "unterminated", "Time forfeit",
                        # it says nothing of a forfeit
                        "Ada won by resignation", "", r"a \"draw\""))):
            self.warned("[%s]\n\n*\n" % tag)

    def test_doubts(self):
        """What is read without a word and may mean something else, and what is like it."""
        number = "move number %d after %d: perhaps a marker or moves are missing"
        lower, marks = number % (1, 2), "a variation has marks and no move"
        null = "0000 is read as a move number: PGN has no null move"
        line = "a comment from ; to the end of the line begins with the next moves"
        for text, place, reason in (
                ("1. e4 e5 2. Nf3 Nc6 1. d4 d6 *", "1:21", lower),
                ("1. e4 e5 2. Nf3 Nc6 {9.} (2... d6) 1. d4 d6 2. c4 *", "1:36", lower),
                ('[White "a"]\n\n1.e4 e5 2.Nf3 Nc6\n\n1.d4 d6 *', "5:1", lower),
                ("1. e4 e5 4. Nf3 Nc6 5. d4 *", "1:10", number % (4, 1)),
                # also if the last number is right
                ("1. e4 e5 7. Nf3 Nc6 3. d4 *", "1:10", number % (7, 1)),
                ("1. e4 0000 2. d5 *", "1:7", null), ("1. e4 (1. d4 0000 2. d5) *", "1:14", null),
                ("1. e4 (!) e5 *", "1:7", marks), ("1. e4 ( $1 !?) e5 *", "1:7", marks),
                ("1. e4 ; e5 2. Nf3 Nc6\n *", "1:7", line),
                ("1. e4 e5 ; 2. Nf3! Nc6 3. Bb5 was played\n *", "1:10", line),
                ("1. e4 {a; b} {c} e5 ; 2. Nf3 Nc6 3. Bb5\n *", "1:21", line),
                ("1. e4 {a} ; e5 2. Nf3 Nc6\n {b; c} *", "1:11", line),
                ("1. e4 (1. d4 ;d5 c4 e6\n ) *", "1:14", line),
                ("1. Pf3 *", "1:4", "Pf3 is read as a pawn's move, and Nf3 is legal too")):
            self.warned_of_game(text, place, reason)
        for text in (
                # the numbers run, or there are none with a period
                "e4 e5 Nf3 *", "1 e4 e5 1 Nf3 *", "1. e4 e5 {7.} (1... c5 9. d4) 2. Nf3 *",
                '[FEN "4k3/8/8/8/8/8/8/4K3 w - - 0 30"]\n\n30. Kd2 Kd7 31. Kd3 *',
                '[FEN "4k3/8/8/8/8/8/8/4K3 b - - 0 30"]\n\n1... Kd7 2. Kd2 Kc6 3. Kd3 *',
                "1. e4 2. e5 3. Nf3 4. Nc6 *", "1. e4 e5 Nf3 Nc6 3. d4 *",
                "1. e4 1... e5 2. Nf3 2... Nc6 3. d4 (3. c3 a6 4. d4) *",
                "1. e4 {0000} *", '[White "0000"]\n\n1. e4 *', "1. e4 00000 e5 *",
                "1. e4 (1. d4!) {(!)} *", "1. e4 () *", "1. e4 ({!}) *",
                # too few plies, other numbers, no legal moves, words, or no such comment
                *("1. e4 ; %s\n *" % it for it in (
                    "e5 2. Nf3", "e5 3. Nf3 Nc6", "1. e5 2. Nf3 Nc6", "e5 2. Nf3 Nf3",
                    "best by test")), "1. e4 {; e5 2. Nf3 Nc6} *", "1. Pe4 *",
                "1. e4 {a {; e5} {; e5 2. Nf3 Nc6} e5 {; 2. Nf3 Nc6 3. Bb5} *"):
            self.warned(text)

    def test_a_game_of_nothing(self):
        nothing = "warning: a game without tags and moves after a marker (game %d, ? \u2013 ?)"
        self.warned("****\n", *("1:%d: %s" % (at, nothing % at) for at in (2, 3, 4)))
        self.warned("1. e4 *\n\n*\n1. d4 *\n", "3:1: " + nothing % 2)
        for text in ("*\n", '*\n\n[White "?"]\n\n*\n', "* 1. e4 *\n"):
            self.warned(text)

    def test_results_of_a_forfeit(self):
        """They are no Result of PGN 8.1.1.7, and the message says which one there is."""
        for note, values in (
                (": of a forfeit PGN 8.1.1.7 has the result alone, * if there is no winner; a "
                 "Termination tag says why",
                 ("+:-", "-:+", "+ / -", "+-", "-:-", "1-0F", "0-1f", "1F-0F", "1 - 0 F", "0-0",
                  "0:0", "1-0 forfeit", "Forfeit", "won by default")),
                ("", ("won", "1/2", "?", "", "1-0-0", "0-1-0"))):
            for value in values:
                self.says("--quiet a.pgn", 1,
                          ["a.pgn:1:9: bad result value%s (game 1, ? \u2013 ?)" % note],
                          of='[Result "%s"]\n\n1. e4 *\n' % value)

    def test_files(self):
        for text, line in ((b"", 1), (b"\n \n", 3), (b"%x\n", 1)):
            self.says("--strict a.pgn", 1, ["a.pgn:%d:1: warning: there is no game" % line,
                                            "1 file, 0 games, 0 faults, 1 warning"], of=text)
        game = '[White "M\u00fcller"]\n\n*\n'
        self.warned(game.encode() + b"\n" + game.encode("latin-1"),
                    "5:10: warning: another encoding than that of the games before: a file is "
                    "UTF-8 or it is not (game 2, M\u00fcller \u2013 ?)")
        for encoding in ("utf-8", "latin-1"):
            self.warned(game.encode(encoding) * 2)

    def test_options(self):
        self.put_all({"a.pgn": SWALLOWED, "b.pgn": SWALLOWED})
        self.says("--quiet a.pgn", 0)
        self.assertEqual(self.lint("--strict a.pgn")[0], 1)
        self.assertEqual(self.lint("--strict -j 2 a.pgn b.pgn"), self.lint("--strict a.pgn b.pgn"))
        warning, summary = self.records("a.pgn")
        self.assertEqual(warning, {
            "kind": "warning", "file": "a.pgn", "line": 5, "column": 1, "offset": 37,
            "reason": "a comment holds a line that begins a tag section: perhaps it was never "
                      "closed", "game": 1, "white": "Ada", "black": "?"})
        self.assertEqual(summary["warnings"], 1)
        log = json.loads(self.lint("--sarif a.pgn")[1])
        self.assertEqual([it["level"] for it in log["runs"][0]["results"]], ["warning"])


class Counted(Lint):
    """With --fix and --diff the warnings that are left are counted, with --statistics all."""

    def count(self, text, line=""):
        """How many warnings the summary has, in words and in its record, and the lines before."""
        stream = 2 if "--diff" in line else 1
        *lines, summary = self.lint(line + " a.pgn", of=text)[stream].splitlines()
        found = re.search(r"(\d+) warnings?\b", summary)
        record = json.loads(self.lint(line + " --json a.pgn", of=text)[stream].splitlines()[-1])
        self.assertEqual(record.get("warnings", 0), int(found[1]) if found else 0)
        return record.get("warnings", 0), [it for it in lines if "warning" in it]

    def test_they_are_those_without_fix(self):
        need("diff")
        bad_round = MENDED.replace(b"\n\n", b'\n[Round "one"]\n\n')
        for text, count in (
                (MENDED, 0), (bad_round, 1), (b"%a\n", 1), (bad_round + b"\n;x\n", 2),
                (BAD + b"\n" + bad_round * 3, 3), (bad_round + b"\n1. e4 -- *\n", 1),
                # the game that was mended has one too
                (BAD.replace(b"\n\n", b'\n[Date "today"]\n\n') + b"\n" + bad_round, 2),
                (b"{a} 1. e4 *\n" + SWALLOWED, 2)):
            for line in ("--fix", "--diff", "--fix --verbose"):
                self.assertEqual(self.count(text, line), (count, []), (text, line))
        self.assertEqual(self.count(bad_round)[0], 1)
        # one that a fix takes away
        for line, count in (("--fix", 1), ("--fix --unsafe-fixes", 0)):
            self.assertEqual(self.count(SWALLOWED, line)[0], count)

    def test_in_several_files(self):
        for name in "abc":
            self.put("all/%s.pgn" % name, b'{x}[Round "one"]\n\n1. e4 *\n' + BAD)
        for line in ("-j 2", ""):
            self.assertEqual(self.lint("--diff all " + line)[2].splitlines()[-1],
                             "3 files, 6 games, 0 faults, 6 warnings, 3 edits")

    def test_statistics(self):
        """--statistics says how many faults each reason has, and edits each fix."""
        self.put_all({"all/a.pgn": b"1. e2-e4 e7-e5 2. Ke3 *\n",
                      "all/b.pgn": b"1. e2-e4 e5 *\n[White \"a\"]\n\n1. e2-e4, -- *\n"})
        for line in ("", "-j 2", "--max 1"):
            out = self.lint("--statistics all " + line)[1]
            self.assertEqual(out.splitlines()[-2:], [
                "      3  not a move", "2 files, 3 games, 3 faults in 2 files"], line)
            out = self.lint("--statistics --diff all " + line)[2]
            self.assertEqual(out.splitlines()[-5:-1], [
                "      1  move is not legal", "      1  stray byte", "      4  fix: long notation",
                "      1  fix: comma"], line)
        self.assertNotIn("  3  not a move", self.lint("all")[1])

        # in records
        self.put("a.pgn", b"1. e2-e4 e7-e5 2. Ke3 *\n")
        summary = self.records("--statistics a.pgn")[-1]
        self.assertEqual(summary["reasons"], {"not a move": 1})
        self.assertNotIn("fixes", summary)
        self.assertNotIn("reasons", self.records("a.pgn")[-1])
        summary = self.records("--statistics --fix a.pgn")[-1]
        self.assertEqual((summary["reasons"], summary["fixes"]),
                         ({"move is not legal": 1}, {"long notation": 2}))


class Command(Lint):
    def test_fix(self):
        self.says("--fix a.pgn", 0, ["a.pgn:4:4: fixed: long notation: e2-e4 \u2192 e2e4",
                                     "1 file, 1 game, 0 faults, 1 edit"],
                  of=BAD, files={"a.pgn": MENDED})
        before = os.stat(self.folder + "/a.pgn").st_ino
        self.says("--fix a.pgn", 0, "1 file, 1 game, 0 faults, 0 edits\n")
        self.assertEqual(os.stat(self.folder + "/a.pgn").st_ino, before)

    def test_what_is_left(self):
        """It is reported by the lines of the new text, and unsafe edits are counted."""
        self.says("--fix a.pgn", 1, [
            "a.pgn:1:1: fixed: missing Result tag: added [Result \"1-0\"]",
            "a.pgn:1:4: fixed: long notation: e2-e4 \u2192 e2e4",
            "a.pgn:6:4: fixed: long notation: e2-e4 \u2192 e2e4",
            "a.pgn:8:9: stray byte: - (U+002D) (game 2, Ada \u2013 Bob)",
            "1 file, 2 games, 1 fault in 1 file, 3 edits, 1 more with --unsafe-fixes"],
            of=b"1. e2-e4 1-0\n\n" + BAD.replace(b"e5", b"-- 2. d4"), files={"a.pgn": (
                b'[Result "1-0"]\n\n1. e2e4 1-0\n\n' + MENDED.replace(b"e5", b"-- 2. d4"))})
        self.says("--fix --unsafe-fixes a.pgn", 0, [
            "a.pgn:8:9: fixed (unsafe): null move: -- 2. d4 \u2192 {-- 2. d4}",
            "1 file, 2 games, 0 faults, 1 edit"])

    def test_names(self):
        self.assertEqual(self.lint("--fix --ignore long-notation a.pgn", of=BAD)[0], 1)
        self.assertEqual(self.lint("--fix --select", "castling,small letter", "a.pgn")[0], 1)
        self.assertEqual(self.get("a.pgn"), BAD)
        self.assertEqual(self.lint("--fix --select", "long notation", "a.pgn")[0], 0)
        self.says("--fix --select none a.pgn", 2, told=(
            "gillspoon lint: argument --select: there is no fix none; --fixes lists them "
            "(--help shows the usage)\n"))

    def test_languages(self):
        promoted = '[FEN "7k/P7/8/8/8/8/8/K7 w - - 0 1"]\n\n1. %s Kg7 2. %s *\n'
        for code, text, wanted in (
                ("de", "1. e4 e5 2. Sf3 Sc6 3. Lb5 a6 4. Lxc6 {Lc6} dxc6 5. De2 Kd7 *\n",
                 "1. e4 e5 2. Nf3 Nc6 3. Bb5 a6 4. Bxc6 {Lc6} dxc6 5. Qe2 Kd7 *\n"),
                ("fr", "1. e4 e5 2. Cf3 Cc6 3. Fb5 a6 4. Re2 *\n",
                 "1. e4 e5 2. Nf3 Nc6 3. Bb5 a6 4. Ke2 *\n"),
                ("es", "1. e4 e5 2. Cf3 Cc6 3. Ab5 a6 4. Tg1 *\n",
                 "1. e4 e5 2. Nf3 Nc6 3. Bb5 a6 4. Rg1 *\n"),
                ("ru", "1. e4 e5 2. \u041af3 \u041ac6 3. \u0421b5 a6 4. \u041a\u0440e2 *\n",
                 "1. e4 e5 2. Nf3 Nc6 3. Bb5 a6 4. Ke2 *\n"),
                ("nl", promoted % ("a8D+", "Dg8+"), promoted % ("a8=Q+", "Qg8+")),
                # with the signs of long moves and captures, and promotions in parentheses
                ("de", "1. e2-e4 d7-d5 2. e4:d5 Dd8:d5 3. Sb1-c3 {Sc3-b1} D:d2+ *\n",
                 "1. e2e4 d7d5 2. e4xd5 Qd8xd5 3. Nb1c3 {Sc3-b1} Qxd2+ *\n"),
                ("es", "1. e4 d5 2. e:d5 D:d5 3. Cb1\u2013c3 (3. A-e2) Dd8 *\n",
                 "1. e4 d5 2. exd5 Qxd5 3. Nb1c3 (3. Be2) Qd8 *\n"),
                *(("de", promoted % (it, "Da8-g8+"), promoted % ("a8=Q+", "Qa8g8+"))
                  for it in ("a8(D)+", "a8=(D)+", "a8/D+", "a8=D+")),
                ("fr", promoted % ("a7-a8(T)+", "Ta8-g8+"), promoted % ("a7a8=R+", "Ra8g8+")),
                # a Dutch knight, also where P is a pawn's letter before the fault
                ("nl", "1. e4 e5 2. Pf3 Pc6 3. Lb5 a6 *\n", "1. e4 e5 2. Nf3 Nc6 3. Bb5 a6 *\n"),
                ("nl", "1. Pf3 d5 2. Pe5 *\n", "1. Nf3 d5 2. Ne5 *\n")):
            line = "--fix --language " + code
            self.assertEqual(self.lint(line, input=text.encode())[:2], (0, wanted))
            # English games stay, and so does a game without its language
            self.assertEqual(self.lint(line, input=wanted.encode())[1], wanted)
            with self.subTest(text):
                self.assertNotEqual(self.lint("--fix", input=text.encode())[1], wanted)
        # a sound game with pawns' letters stays, and one that the letters do not mend
        for text in ("1. Pe4 Pe5 2. Pf3 Pc6 *\n", "1. Pe4 e5 2. Pf3 Pe9 *\n"):
            self.assertEqual(self.lint("--fix --language nl", input=text.encode())[1], text)

    def test_table(self):
        """It has each fix, is that of the document, and gives names that are taken."""
        from gillspoon._fixes import LISTED
        status, out, told = self.lint("--fixes")
        rows = [line.split(" | ") for line in out.splitlines()[2:]]
        self.assertEqual((status, told), (0, ""))
        self.assertEqual([(row[0][2:], row[2]) for row in rows],
                         [(it.name, "yes" if it.is_safe else "no") for it in LISTED])
        found = re.search(r"<!-- gillspoon lint --fixes: begin -->\n\n(.*?)\n<!--",
                          text_of("docs/TOOLS.md"), re.S)
        self.assertEqual(found[1], out)
        names = ",".join(row[0][2:] for row in rows)
        self.assertIn("look-alike letter", names)
        for text in (names, names.replace(" ", "-")):
            self.says("--quiet --diff --select", 0, names=[text, "a.pgn"], of=MENDED)

    def test_json(self):
        self.put("a.pgn", BAD)
        fix = {"game": 1, "line": 4, "column": 4, "offset": 32, "old": "e2-e4", "new": "e2e4",
               "name": "long notation", "safe": True}
        self.assertEqual(self.records("a.pgn")[0]["fixes"], [fix])
        log = json.loads(self.lint("--sarif a.pgn")[1])
        self.assertEqual(log["runs"][0]["results"][0]["fixes"], [{
            "description": {"text": "long notation"}, "artifactChanges": [{
                "artifactLocation": {"uri": "a.pgn"},
                "replacements": [{"deletedRegion": {"byteOffset": 32, "byteLength": 5},
                                  "insertedContent": {"text": "e2e4"}}]}]}])
        self.assertEqual(self.records("--fix a.pgn"), [
            {"kind": "fix", "file": "a.pgn", **fix},
            {"kind": "summary", "files": 1, "games": 1, "faults": 0, "bad_files": 0, "fixed": 1,
             "more": 0}])

    def test_modes_links_and_read_only_files(self):
        self.put("a.pgn", BAD)
        os.chmod(self.folder + "/a.pgn", 0o640)
        os.symlink("a.pgn", self.folder + "/link.pgn")
        os.link(self.folder + "/a.pgn", self.folder + "/hard.txt")
        self.assertEqual(self.lint("--fix link.pgn")[::2], (
            0, "gillspoon: link.pgn: had 2 hard links: those of other names keep the old text\n"))
        self.assertTrue(os.path.islink(self.folder + "/link.pgn"))
        self.assertEqual(stat.S_IMODE(os.stat(self.folder + "/a.pgn").st_mode), 0o640)
        self.assertEqual((self.get("a.pgn"), self.get("hard.txt")), (MENDED, BAD))
        self.put("b.pgn", BAD)
        os.chmod(self.folder + "/b.pgn", 0o444)
        self.assertEqual(self.lint("--fix b.pgn")[::2], (
            3, "gillspoon: b.pgn: is read-only; it is left as it is\n"))
        self.assertEqual((self.get("b.pgn"), sorted(os.listdir(self.folder))),
                         (BAD, ["a.pgn", "b.pgn", "hard.txt", "link.pgn"]))
        # names with line ends
        self.put("a\nb.pgn", BAD)
        self.says("--fix --quiet", 3, "", "gillspoon: none\\nx.pgn: No such file or directory\n",
                  names=["a\nb.pgn", "none\nx.pgn"], files={"a\nb.pgn": MENDED})

    def test_a_full_disk(self):
        """A limit on the size of files stands for it."""
        text = BAD + MENDED * 4000
        self.put("a.pgn", text)
        for line in ("", "--verbose", "--json"):
            lines = self.written("--fix a.pgn " + line, 3, preexec_fn=files_up_to(1 << 16),
                                 told="gillspoon: a.pgn: File too large; it is left as it is\n")
            self.assertNotIn("fix", "".join(lines).replace("fixed\": 0", ""))
            self.assertEqual((self.get("a.pgn"), os.listdir(self.folder)), (text, ["a.pgn"]))

    def test_a_full_file_system(self):
        """Files that have room are mended all the same."""
        self.put_all({"text": BAD * 900, "small": BAD})
        os.mkdir(self.folder + "/disk")
        # 64 KiB, of which the first file has 40 and the second one 4
        script = 'cp text disk/a.pgn; cp small disk/b.pgn; "$@" --fix disk/a.pgn disk/b.pgn; ' \
            'echo "status $?"; ls -A disk; cmp text disk/a.pgn && cat disk/b.pgn'
        for words in ([], ["-j", "2"], ["--unsafe-fixes", "--verbose"]):
            ran = run_on_a_disk("64k", script, "disk", *LINT, *words, cwd=self.folder, env=self.env)
            self.assertEqual(ran.stdout.decode(), (
                "disk/b.pgn:4:4: fixed: long notation: e2-e4 \u2192 e2e4\n"
                "1 file, 1 game, 0 faults, 1 edit\nstatus 3\na.pgn\nb.pgn\n" + MENDED.decode()))
            self.assertEqual(ran.stderr.decode(), (
                "gillspoon: disk/a.pgn: No space left on device; it is left as it is\n"))

    def test_a_kill(self):
        words = [*LINT, "--fix", self.put("a.pgn", BAD * 20000)]
        check_stopped(self, words, env=self.env)
        ran = signalled(words, signal.SIGKILL, self.folder, env=self.env)
        self.assertEqual((*ran[:2], self.get("a.pgn")), (-signal.SIGKILL, b"", BAD * 20000))


class ManyEdits(Lint):
    """Of a file with many edits 200 are written, and the number of the others."""

    def fill(self, count, name="a.pgn"):
        """A file with so many edits, and the lines about them: each game has five lines."""
        self.put(name, b"\n".join([BAD] * count))
        return ["%s:%d:4: fixed: long notation: e2-e4 \u2192 e2e4" % (name, 5 * it + 4)
                for it in range(count)]

    def summary(self, count):
        return "1 file, {0:,} games, 0 faults, {0:,} edits".format(count)

    def mended(self, count):
        return {"a.pgn": b"\n".join([MENDED] * count)}

    def test_the_rest_is_a_count(self):
        for count, more in ((200, []), (201, ["a.pgn: ... and 1 more edit (--verbose shows all)"]),
                            (1500, ["a.pgn: ... and 1,300 more edits (--verbose shows all)"])):
            lines = self.fill(count)
            self.says("--fix a.pgn", 0, [*lines[:200], *more, self.summary(count)],
                      files=self.mended(count))

    def test_verbose_and_json_have_all(self):
        lines = self.fill(250)
        self.says("--fix --verbose a.pgn", 0, [*lines, self.summary(250)])
        for line in ("", "--quiet", "--verbose"):
            self.fill(250)
            found = [it for it in self.records("--fix a.pgn " + line) if it["kind"] == "fix"]
            self.assertEqual([it["line"] for it in found], [5 * it + 4 for it in range(250)])

    def test_quiet_has_none(self):
        need("diff")
        for count in (1, 250):
            self.fill(count)
            self.assertEqual(self.lint("--diff --quiet a.pgn")[2], "")
            self.says("--fix --quiet a.pgn", 0, files=self.mended(count))
        # what is left is written all the same
        self.says("--fix --quiet a.pgn", 1, ["a.pgn:4:9: not a move (game 1, Ada \u2013 Bob)"],
                  of=BAD.replace(b"e5", b"e9"))

    def test_standard_input_and_processes(self):
        more = "%s: ... and 2 more edits (--verbose shows all)"
        lines = self.fill(202)
        said = [it.replace("a.pgn", "<stdin>") for it in lines[:200]]
        said += [more % "<stdin>", self.summary(202), ""]
        self.says("--fix", 0, "\n".join([MENDED.decode()] * 202), "\n".join(said),
                  input=self.get("a.pgn"))
        for jobs in "12":
            wanted = [it for name in ("a.pgn", "b.pgn")
                      for it in (*self.fill(202, name)[:200], more % name)]
            wanted.append("2 files, 404 games, 0 faults, 404 edits")
            self.assertEqual(self.lint("--fix a.pgn b.pgn -j " + jobs)[1].splitlines(), wanted)

    def test_lines_come_behind_the_file(self):
        """Whoever reads a line of an edit finds the new text."""
        self.fill(3)
        with subprocess.Popen([*LINT, "--fix", "a.pgn"], cwd=self.folder, env=self.env,
                              stdout=subprocess.PIPE) as running:
            running.stdout.read(1)
            self.assertEqual(self.get("a.pgn"), self.mended(3)["a.pgn"])
            running.stdout.read()

    def test_memory(self):
        """What is held until the file is replaced does not grow with the number of edits."""
        import tracemalloc
        from gillspoon._edits import Edit
        from gillspoon._fixing import HeldEdits
        for most, count in ((None, 20000), (200, 20000), (0, 20000), (200, 7)):
            tracemalloc.start()
            try:
                held = HeldEdits(most)
                for it in range(count):
                    held.add(Edit(it, it, 4, it, b"e2-e4", b"e2e4", "long notation", True))
                shown = count if most is None else min(most, count)
                self.assertEqual(([it.game for it in held], held.more),
                                 (list(range(shown)), count - shown))
                self.assertLess(tracemalloc.get_traced_memory()[1], 4 << 20)
            finally:
                tracemalloc.stop()


class Processes(Lint):
    """With -j the files and all that is said are those of one process."""

    def fill(self):
        """Puts the same files again: sound, mended, left, read-only, compressed, linked."""
        for number in range(12):
            self.put("all/%02d.pgn" % number, b"\n".join(
                [BAD, MENDED, BAD.replace(b"e5", b"Ke5"), b"1. e4 -- *\n"][:number % 5]))
        self.put_all({"all/packed.pgn.gz": gzip.compress(BAD, mtime=0), "all/locked.pgn": BAD})
        os.chmod(self.folder + "/all/locked.pgn", 0o444)
        self.put("all/one.pgn", BAD)
        os.link(self.folder + "/all/one.pgn", self.folder + "/all/two.pgn")
        os.symlink("one.pgn", self.folder + "/all/three.pgn")

    def test_they_change_nothing(self):
        need("diff")
        for line in ("--fix", "--diff -", "--fix --json", "--fix --unsafe-fixes", "--fix --max 2",
                     "--diff --quiet -", "--fix --board", "--board -", "--json -", "--sarif -",
                     "--quiet -", "--max 7 -"):
            said = []
            for jobs in "13":
                shutil.rmtree(self.folder + "/all", ignore_errors=True)
                self.fill()
                ran = self.lint("-j %s %s all missing all/01.pgn" % (jobs, line), input=BAD)
                said.append((ran, self.files("all")))
            with self.subTest(line):
                self.assertEqual(said[0], said[1])
                (status, out, _), texts = said[0]
                wanted = MENDED if "--fix" in line else BAD
                # the locked one stays, and standard input is one of the files
                self.assertEqual((status, texts["locked.pgn"], texts["01.pgn"], texts["one.pgn"]),
                                 (3, BAD, wanted, wanted))
                self.assertEqual("stdin" in out, line.endswith(" -"))

    def test_a_signal_leaves_no_file(self):
        """Each process removes the file that it writes. What was mended stays mended."""
        text, names = BAD * 20000, ["a.pgn", "b.pgn", "c.pgn"]
        for number in (signal.SIGTERM, signal.SIGHUP, signal.SIGINT):
            self.put_all(dict.fromkeys(names, text))
            ran = signalled([*LINT, "--fix", "-j", "2", *names], number, self.folder, env=self.env)
            self.assertEqual(ran[::2], (-number, b""))
            self.assertEqual(sorted(os.listdir(self.folder)), names)
            for name in names:
                self.assertIn(self.get(name), (text, MENDED * 20000))

    def test_sound_files_import_no_fix(self):
        """They cost what gillspoon lint costs."""
        script = "; ".join((
            "import sys", "sys.path.insert(0, %r)" % PACKAGE,
            "from gillspoon._command import main", "main()",
            "print(*sorted(it for it in sys.modules if it.startswith('gillspoon._')))"))
        for text, is_there in ((MENDED, False), (BAD, True)):
            self.put("a.pgn", text)
            for words in (["--fix"], ["--diff"], ["--json"]):
                call = [sys.executable, "-c", script, "lint", *words, "a.pgn"]
                out = output_of(run(call, cwd=self.folder, env=self.env), err=None)
                loaded = set(out.decode().splitlines()[-1].split())
                found = loaded & {"gillspoon._fixes", "gillspoon._mend", "gillspoon._here"}
                self.assertEqual(len(found), 3 * is_there, (words, found))
                self.put("a.pgn", text)
