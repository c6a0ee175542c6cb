"""Tests of the Python package (python/gillspoon): its calls, its wheel, and docs/PYTHON.md."""
import ast
import copy as copies
import ctypes
import doctest
import glob
import gzip
import importlib
import io
import itertools
import json
import mmap
import operator
import os
import pathlib
import pickle
import pydoc
import random
import re
import shutil
import subprocess
import sys
import tarfile
import tempfile
import threading
import time
import unittest
from concurrent.futures import ThreadPoolExecutor
from operator import attrgetter
from unittest import mock

import programs
import test_c
from documents import samples, table
from programs import (PACKAGE, PACKERS, ROOT, archive, bytes_of, library, need, need_program,
                      not_tried, output_of, run, text_of, vectors, zip_of)
from test_sieve import BAD, sound

# Debian's, which has the modules of Debian's packages.
PYTHON = "/usr/bin/python3" if os.path.exists("/usr/bin/python3") else sys.executable
INITIAL = "rnbqkbnr/pppppppp/8/8/8/8/PPPPPPPP/RNBQKBNR w KQkq - 0 1"
E4 = "rnbqkbnr/pppppppp/8/8/4P3/8/PPPP1PPP/RNBQKBNR b KQkq e3 0 1"
REAL = "/usr/share/pychess/learn/**/*.pgn"
RANDOM_GAMES = 100000
COPIES = copies.copy, copies.deepcopy
DAMAGED_FILES = 60


def setUpModule():
    global gillspoon
    gillspoon = programs.need_package()


def environment(**more):
    """The environment of a program that imports the package from here."""
    return dict(os.environ, PATH=programs.PATH, PYTHONPATH=PACKAGE, PYTHONDONTWRITEBYTECODE="1",
                **more)


def seen(source, **options):
    """The games and the faults of a source, in the order in which they come: 7 values and 13."""
    of_game = attrgetter("number", "offset", "end", "result", "plies", "fen", "text")
    of_fault = attrgetter("end", "text", "move", "white", "black")
    found = []
    for game in gillspoon.games(source, **options,
                                on_fault=lambda it: found.append(it.args + of_fault(it))):
        found.append(of_game(game))
    return found


def each(values, *names):
    """What each value has by a name, or by several."""
    return list(map(attrgetter(*names), values))


def pairs_of(texts):
    """The tag pairs of each export text."""
    found = (re.findall(r'(?m)^\[(\w+) "(.*)"\]$', it.decode()) for it in texts)
    return [[(name, re.sub(r"\\(.)", r"\1", value)) for name, value in it] for it in found]


def first_game(data, **options):
    return next(gillspoon.games(data, **options))


def first_line(data):
    """The moves of the first game of a source."""
    return first_game(data).moves()


def last_fen(line):
    """The position after a line."""
    return line.plies[-1].fen if line.plies else line.fen


def built(moves):
    """A line of these moves."""
    line = gillspoon.Line()
    for move in moves.split():
        line.append(move)
    return line


class Pieces(io.RawIOBase):
    """A binary file that gives the bytes in these parts, as `cut` makes them of data and sizes."""

    def __init__(self, parts, sizes=None):
        self.parts, self.rest = cut(parts, sizes) if sizes else iter(parts), b""

    def read(self, size=-1):
        self.rest = self.rest or next(self.parts, b"")
        data, self.rest = self.rest[:size], self.rest[size:]
        return data


def fault_of(error, call, *words, **options):
    """The error of this type that a call ends with."""
    try:
        call(*words, **options)
    except error as fault:
        return fault
    raise AssertionError("no %s: %s" % (error.__name__, words))


def pickled(value):
    return pickle.loads(pickle.dumps(value))


def watched(module, name):
    """A patch that counts the calls of a function."""
    return mock.patch.object(module, name, wraps=getattr(module, name))


def cut(data, sizes):
    """The data in parts of one size, or of these sizes in turn."""
    sizes = itertools.repeat(sizes) if isinstance(sizes, int) else sizes
    file = io.BytesIO(data)
    return iter(lambda: file.read(next(sizes)), b"")


def tree(line):
    """What is known of a line: its first position, and of each ply its text, position and notes."""
    return line.fen, notes_of(line), [(ply.number, ply.san, ply.fen, notes_of(ply)) for ply in line]


def noted_in(line):
    """What has notes: a line, its plies, and in turn each variation behind its ply."""
    yield line
    for ply in line:
        yield ply
        for variation in ply.variations:
            yield from noted_in(variation)


def steps(line):
    """The plies of a line and of its variations, each with the FEN before it."""
    fen = line.fen
    for ply in line:
        yield fen, ply
        for variation in ply.variations:
            yield from steps(variation)
        fen = ply.fen


def notes_of(noted):
    """The notes of a line or a ply, with trees in place of lines."""
    return [tree(it) if isinstance(it, gillspoon.Line) else it for it in noted.notes]


def damaged(source, data):
    """The data with some bytes taken out, and others put in."""
    data = bytearray(data)
    for _ in range(source.randint(1, 12)):
        at, size = source.randrange(len(data)), source.choice((1, 1, 3, 40, 400))
        data[at:at + size] = source.choice((
            b"", b"", b"{", b"}", b'"', b"[", b"]", b"(", b"\n", b"\r\n", b"\n\n", b"%", b"\n%",
            b";", b"*", b"1-0", b"\x00", b"\xef\xbb\xbf", b"\xc3", b"Ke9 ", b"--", b'\n[Event "'))
    return bytes(data)


class Test(unittest.TestCase):
    def has(self, it, message=None, **wanted):
        """The attributes of a value are these."""
        self.assertEqual({name: getattr(it, name) for name in wanted}, wanted, message)

    def fails(self, error, call, *words, options=None, **wanted):
        """A call ends with an error of this type, whose attributes are these."""
        self.has(fault_of(error, call, *words, **options or {}), words, **wanted)


class Folder(programs.Folder, Test):
    def sources_of(self, data):
        """Data as sources of each kind, which are closed after their use; none has a suffix."""
        path = self.put("source", data)
        yield from (path, pathlib.Path(path), type("P", (), {"__fspath__": lambda self: path})(),
                    data, bytearray(data), memoryview(data), io.BytesIO(data),
                    Pieces(data, 4000), Pieces(data, 400))
        with open(path, "rb") as file, open(path, "rb", buffering=0) as raw:
            yield from (file, raw)
            if data:  # of nothing there is no map
                with mmap.mmap(file.fileno(), 0, access=mmap.ACCESS_READ) as mapped:
                    yield mapped
        for source in (lambda pipe: pipe, lambda pipe: "/dev/fd/%d" % pipe.fileno()):
            with subprocess.Popen(["cat", path], stdout=subprocess.PIPE) as child:
                yield source(child.stdout)


class Games(Test):
    TEXT = (b'{a word} [White "M\xc3\xbcller \\"x\\""] [Black "a\\\\b"] [Result "1-0"] [A "1"]\n'
            b"{first} $3 1. e4! e5 (1... c5 2. Nf3 {good} (2. c3) $14 {}) (1... e6) 2. Ke2 1-0\n"
            b'[FEN "4k3/8/8/8/8/8/4P3/4K3 w - - 5 9"] e4 Kd7 *')

    def test_values(self):
        one, other = gillspoon.games(self.TEXT)
        self.has(one, number=1, offset=0, end=self.TEXT.index(b"1-0\n") + 3, result="1-0", plies=3,
                 fen="rnbqkbnr/pppp1ppp/8/4p3/4P3/8/PPPPKPPP/RNBQ1BNR b kq - 1 2", encoding="utf-8")
        self.assertEqual(list(one.tags.items()), [
            ("Event", "?"), ("Site", "?"), ("Date", "????.??.??"), ("Round", "?"),
            ("White", 'M\xfcller "x"'), ("Black", "a\\b"), ("Result", "1-0"), ("A", "1")])
        self.assertEqual([one.position_at(it) for it in (0, 1, 3)], [INITIAL, E4, one.fen])
        for ply in (-1, 4):
            self.assertRaises(IndexError, one.position_at, ply)
        self.has(other, number=2, offset=self.TEXT.index(b"[FEN"), end=len(self.TEXT), result="*",
                 plies=2)
        self.assertEqual([other.position_at(0), *(it.fen for it in other.mainline())], [
            "4k3/8/8/8/8/8/4P3/4K3 w - - 5 9", "4k3/8/8/8/4P3/8/8/4K3 b - e3 0 9",
            "8/3k4/8/8/4P3/8/8/4K3 w - - 1 10"])
        self.assertTrue(other.text.endswith(b'[SetUp "1"]\n\n9. e4 Kd7 *\n\n'))

    def test_tree(self):
        line = first_line(self.TEXT)
        self.assertEqual((line.notes, line.fen), (["first", 3], INITIAL))
        e4, e5, king = line
        self.assertEqual((e4.number, e4.notes, e5.nags, e5.comments, king.notes),
                         (1, [1], [], [], []))
        sicilian, french = e5.variations
        lines = line, sicilian, french
        self.assertEqual([[(ply.number, ply.san) for ply in it] for it in lines], [
            [(1, "e4"), (2, "e5"), (3, "Ke2")], [(2, "c5"), (3, "Nf3")], [(2, "e6")]])
        knight = sicilian.plies[1]
        self.assertEqual((knight.comments, knight.nags), (["good", ""], [14]))
        self.assertEqual([type(it) for it in knight.notes], [str, gillspoon.Line, int, str])
        inner = knight.variations[0]
        self.assertEqual((inner.plies[0].fen, inner.fen), (
            "rnbqkbnr/pp1ppppp/8/2p5/4P3/2P5/PP1P1PPP/RNBQKBNR b KQkq - 0 2",
            "rnbqkbnr/pp1ppppp/8/2p5/4P3/8/PPPP1PPP/RNBQKBNR w KQkq c6 0 2"))

    def test_a_changed_game(self):
        game = first_game(self.TEXT)
        line = game.moves()
        for ply in line:
            ply.notes = [it for it in ply.notes if not isinstance(it, gillspoon.Line)]
        line.notes = ["a\n%b", 7]
        del line.plies[2:]
        tags = {"White": 'x"y', "Result": "0-1", "Zz": "\\"}
        self.assertEqual(gillspoon.write_game(tags, line).decode(), (
            '[Event "?"]\n[Site "?"]\n[Date "????.??.??"]\n[Round "?"]\n[White "x\\"y"]\n'
            '[Black "?"]\n[Result "0-1"]\n[Zz "\\\\"]\n\n{ a %b } $7 1. e4 $1 1... e5 0-1\n\n'))
        line.notes = ["a } b"]
        self.assertRaises(ValueError, gillspoon.write_game, tags, line)
        line.notes, line.plies[1].san = [], "Ke3"
        self.assertRaises(gillspoon.PgnFault, gillspoon.write_game, tags, line)

    def test_a_game_is_read_again_by_its_place(self):
        data = b"\xef\xbb\xbf% a\n" + self.TEXT + b"\n% b\n{c} * ;d\n\n" + archive(30, "annotated")
        games = list(gillspoon.games(data))
        self.assertEqual(len(games), 33)
        for game in games:
            again, = gillspoon.games(data[game.offset:game.end])
            self.has(again, offset=0, end=game.end - game.offset, text=game.text, fen=game.fen)

    def test_latin_1_and_odd_spaces(self):
        data = '[White "M\xfcller"] 1. e4 {a\xa0b\x85c d} e5 *'.encode("latin-1")
        game = first_game(data)
        self.assertEqual((game.encoding, game.tags["White"]), ("latin-1", "M\xfcller"))
        for text in (data, data.decode("latin-1").encode()):
            self.assertEqual(first_line(text).plies[0].comments, ["a\xa0b\x85c d"])

    def test_tags_cannot_be_changed(self):
        """Each call that would change them says what to do; a copy is a dict like any other."""
        game = first_game(self.TEXT)
        tags, wanted = game.tags, dict(game.tags)
        for change in (lambda: operator.setitem(tags, "A", "2"), tags.clear, tags.popitem,
                       lambda: operator.delitem(tags, "White"), lambda: tags.pop("A"),
                       lambda: operator.ior(tags, {"A": "2"}), lambda: tags.update(A="2"),
                       lambda: tags.setdefault("B", "2")):
            with self.assertRaisesRegex(TypeError, r"write_game a changed copy, as {\*\*game.tags"):
                change()
        self.assertEqual((game.tags, list(game.tags)), (wanted, list(wanted)))
        changed = {**game.tags, "A": "2"}
        for copy in (dict(tags), tags.copy(), tags | {}, json.loads(json.dumps(tags))):
            copy["A"] = "2"
            self.assertEqual((type(copy), copy), (dict, changed))
        self.assertEqual(pickled(tags), wanted)
        again = gillspoon.write_game(changed, game.moves())
        self.assertEqual(again, game.text.replace(b'[A "1"]', b'[A "2"]'))

    def test_options(self):
        data = b"1. e4 (1. d4) e5 1-0"
        self.fails(gillspoon.PgnFault, list, gillspoon.games(data), number=41)
        game = first_game(data, checked=True, reduced=True)
        self.assertEqual((game.result, game.tags["Result"]), ("1-0", "1-0"))
        self.assertTrue(game.text.endswith(b"\n\n1. e4 e5 1-0\n\n"))
        self.assertEqual(gillspoon.convert(data, checked=True, reduced=True), game.text)
        self.assertEqual(gillspoon.check(data, checked=True), (1, 2))
        self.fails(gillspoon.PgnFault, gillspoon.convert, b'[FEN "%s"] *' % INITIAL.encode(),
                   options={"reduced": True}, number=31)

    def test_long_game(self):
        """It is longer than a chunk, and its export than the first buffer."""
        comment = " ".join(["word"] * 700000)
        data = b"1. e4 {%s} *\n1. d4 *" % comment.encode()
        for parts in (Pieces([data]), Pieces(data, 65536)):
            one, other = gillspoon.games(parts)
            self.assertEqual(one.moves().plies[0].comments, [comment])
            self.assertEqual((other.number, other.offset), (2, data.rindex(b"1. d4")))


class LateTexts(Folder):
    """A game keeps its bytes of the source, and its text is made of them when it is asked for."""

    ARCHIVES = {
        "comments": b"{a % b} ; c {\n{d}\n[White {e} \"Ada\"] ;f\n{g} 1. e4 {h ; i} e5 ;j\n*{k}\n"
                    b"{l}\n1. d4 ! $7 {m\n%n} *",
        "variations": b"1. e4 (1. d4 (1. c4) {a} (1. Nf3 e5) d5) e5 (1... c5 $1) 2. Nf3 * e4 (d4) *",
        "positions": b'[FEN "4k3/8/8/8/8/8/4P3/4K3 w - - 5 9"] e4 Kd7 *\n[Event "x"]\n'
                     b'[SetUp "1"] [FEN "4k3/8/8/8/8/8/4P3/4K3 b - - 00 01"] *1. e4 *',
        "line ends": b'\r\n[White "Ada"]\r\n\r\n1. e4 ; a\r\n{b\r\nc} e5\r\n*\r\n% d\r\n\r\n* e4\r*',
        "escapes": b"%\n% { a\n1. e4 *\n%b\n%c {\n \n% d\r% 1. e4 *\r\n*  e4\n%e }\n{\n%f\n} e5 *\n%\n%",
        "comments, escapes and line ends": b'{a}\n%b\r\n1. e4 ; c\r\n (1. d4) *[White "a\\"b"] e4 *'
                                           b"\n%\n\re4 *",
        "byte order mark": b"\xef\xbb\xbf1. e4 *\n1. d4 *",
        "byte order mark and a game in an escape": b"\xef\xbb\xbf% 1. d4 *\n1. e4 *",
        "byte order mark and escape": b"\xef\xbb\xbf%a\n\n1. e4 *1. d4 *",
        "joined": b"e4**{a}*;b\n*e4 e5*",
        "results": b'[Result "1-0"] e4 1-0 [Result "0-1"] 0-1 [Result "1/2-1/2"]1/2-1/2 e4 *',
        "missing results": b'e4 1-0 [White "a"] e4 0-1\n[Result "1/2-1/2"] e4 1/2-1/2 e4 *',
        "one": b"*", "none": b"", "no game": b"% a\n{b}\n",
        "tags": b"".join(b'[A%02d "%s"]\n' % (it, b"x" * 240) for it in range(57)) + b"1. e4 **",
        "a text of more than twice its bytes": b"Nf3!Nf6!Ng1!Ng8!" * 500 + b"* e4 *",
    }

    def texts(self, data, **options):
        """The export texts of the games, by calls of pgn_next_game on the whole source."""
        return [text for _, text in self.answers(data, **options)]

    def answers(self, data, reduced=False, checked=False):
        """What the library says of each game, and the text."""
        *answers, (end, _) = test_c.Library(library()).games(data, int(reduced), int(checked))
        self.assertEqual(end.status, test_c.NO_GAME, (data, end.message))
        return answers

    def sources(self, data):
        yield from self.sources_of(data)
        yield self.put("a.pgn.gz", gzip.compress(data))
        yield from (Pieces(data, size) for size in (1, 3, 50))

    def test_archives(self):
        options = ({}, {"checked": True}, {"reduced": True})
        for (name, data), options in itertools.product(self.ARCHIVES.items(), options):
            # these are faults
            if (name, *options) in (("positions", "reduced"), ("missing results", "reduced"),
                                    ("missing results",)):
                continue
            answers = self.answers(data, **options)
            wanted = [text for _, text in answers]
            if "checked" not in options:
                self.assertEqual(b"".join(wanted), gillspoon.convert(data, **options), name)
            for source in self.sources(data):
                held = list(gillspoon.games(source, **options))
                self.assertEqual([list(it.tags.items()) for it in held], pairs_of(wanted), name)
                self.assertEqual(each(reversed(held), "text"), wanted[::-1], name)
                self.assertEqual(each(held, "end", "plies", "fen", "result"), [
                    (it.end, it.plies, it.fen.decode(), text.split()[-1].decode())
                    for it, text in answers], name)

    def test_small_buffers(self):
        """Sections and texts that do not fit are written to a larger buffer."""
        for (name, data), size in itertools.product(self.ARCHIVES.items(), (1, 100, 400)):
            wanted = self.texts(data, checked=True)
            with mock.patch.object(gillspoon._games, "_CAPACITY", size):
                held = list(gillspoon.games(data, checked=True))
                self.assertEqual(each(held, "text"), wanted, name)
                self.assertEqual(each(gillspoon.games(data, checked=True), "text"), wanted, name)

    def test_faults_between_games(self):
        """The sound games have the texts that they have by themselves."""
        good, parts = archive(3, "annotated"), [sound(it) for it in (b"a", b"b", b"c")]
        wanted = [gillspoon.convert(it) for it in parts]
        for (name, text, _, _), end in itertools.product(BAD, (b"\n", b"\r\n")):
            data = b"\xef\xbb\xbf" + text.replace(b"\n", end).join(parts) + good
            for source in (data, Pieces(data, 50)):
                faults = []
                texts = each(list(gillspoon.games(source, on_fault=faults.append)), "text")
                self.assertTrue(faults, name)
                self.assertEqual([it for it in texts if it in wanted], wanted, name)
                self.assertEqual(b"".join(texts[-3:]), gillspoon.convert(good), name)

    def test_random_archives(self):
        """Whichever games are asked for their texts while others are read, all are the same."""
        for style in ("plain", "annotated"):
            data = archive(60, style)
            wanted = self.texts(data)
            self.assertEqual(b"".join(wanted), gillspoon.convert(data))
            for seed in range(4):
                source, held = random.Random(seed), []
                for game in gillspoon.games(Pieces(data, 700)):
                    held.append(game)
                    asked = source.sample(held, source.choice((0, 0, 1)))
                    for chosen in asked + [game] * (source.random() < 0.5):
                        self.assertEqual(chosen.text, wanted[chosen.number - 1])
                tags = [dict(it.tags) for it in held]
                self.assertEqual(each(held, "text"), wanted)
                self.assertEqual([list(it.items()) for it in tags], pairs_of(wanted))
                self.assertEqual([gillspoon.write_game(it.tags, it.moves()) for it in held], wanted)

    def test_when_the_source_is_closed(self):
        data = archive(20, "annotated")
        with open(self.put("a.pgn", data), "rb") as file:
            held = list(gillspoon.games(file))
        os.remove(file.name)
        self.assertTrue(b"".join(each(held, "text")) == gillspoon.convert(data))
        changed = bytearray(data)
        games = gillspoon.games(changed)
        held = [next(games), next(games)]
        games.close()
        changed[:] = b"x" * len(data)
        self.assertEqual(each(held, "text"), self.texts(data)[:2])

    def test_pickled_before_and_after(self):
        data = b'e4 (d4) e5 1-0 [FEN "4k3/8/8/8/8/8/4P3/4K3 w - - 5 9"] {a} e4 {b} Kd7 1/2-1/2'
        for make, data in itertools.product((pickled, *COPIES), (data, Games.TEXT)):
            wanted = self.texts(data, checked=True)
            for game, text in zip(gillspoon.games(data, checked=True), wanted):
                before = make(game)
                self.assertEqual((before.text, game.text), (text, text))
                for it in (before, make(game)):
                    self.assertIs(type(it), gillspoon.Game)
                    self.has(it, **{name: getattr(game, name) for name in Views.GAME})
                    self.assertEqual((repr(it), each(it.mainline(), "fen")),
                                     (repr(game), each(game.mainline(), "fen")))

    def test_encodings(self):
        """The whole text decides on it, whatever is asked for first."""
        utf, latin = "M\xfcller", "M\xc3\xbcller"
        for data, encoding, name in (
                (b'[White "M\xc3\xbcller"] e4 *', "utf-8", utf),
                (b'[White "M\xfcller"] e4 *', "latin-1", utf),
                (b'[White "M\xc3\xbcller"] e4 {\xfc} *', "latin-1", latin),
                (b'[White "M\xfcller"] e4 {\xc3\xbc} *', "latin-1", utf),
                (b'[White "Muller"] e4 {\xfc} *', "latin-1", "Muller"),
                (b'{\xfc} [White {\xfc} "M\xc3\xbcller"]\n%\xfc\ne4 *', "utf-8", utf),
                (b'\xef\xbb\xbf[White "M\xc3\xbcller"] e4 {\xc3\xbc} *', "utf-8", utf)):
            for before in (*map(attrgetter, ("tags", "encoding", "text")),
                           attrgetter("encoding", "tags"), gillspoon.Game.moves):
                # the second one is read with its text, if that of the first was asked for
                for game in gillspoon.games(data + b"\n" + data.replace(b"\xef\xbb\xbf", b"")):
                    before(game)
                    self.assertEqual((game.encoding, game.tags["White"]), (encoding, name), data)

    def test_a_game_that_is_made(self):
        made = gillspoon.Game(1, 0, 4, "*", 1, "", gillspoon.convert(b'[White "Ada"] c4 *'))
        self.assertEqual((made.tags["White"], len(made.moves())), ("Ada", 1))

    def test_calls(self):
        """An index makes no text, and who asks for every text has each made as its game is read."""
        data, count, library = archive(20, "annotated"), 20, gillspoon._library
        with watched(library, "read_game") as read, watched(library, "next_game") as made:
            for game in gillspoon.games(data):
                self.assertTrue(repr(game) and game.fen and game.position_at(0) and game.tags)
            self.assertEqual(gillspoon.check(data).games, count)
            self.assertEqual(made.call_count, 0)
            self.assertGreater(read.call_count, 2 * count - 1)
            read.reset_mock()
            self.assertEqual(len(each(gillspoon.games(data), "text")), count)
            # one for each game, and those that found that more had to be read
            self.assertLess(read.call_count, 4)
            self.assertLess(made.call_count, count + 4)
            made.reset_mock()
            for game in gillspoon.games(data):
                if game.number % 10 == 5:
                    self.assertEqual(game.text, game.text)
            self.assertEqual(made.call_count, 4)


class Positions(Test):
    """The positions, the UCI, the sides, the numbers and the keys of plies."""

    # of White and of Black, moves that may come in any order
    OPENING = (("d4", "c4", "Nf3"), ("Nf6", "e6", "b6"))

    def check_fens(self, line):
        """Each position is that after the move."""
        for fen, ply in steps(line):
            self.assertEqual(each(ply.variations, "fen"), [fen] * len(ply.variations))
            self.assertEqual(ply.fen, gillspoon.san(fen, ply.san).fen)

    def check(self, game, line=None):
        """Each ply of a game is what `san` says of its move. Gives the number of variations."""
        line, count = line or game.moves(), 0
        for fen, ply in steps(line):
            self.assertEqual((ply.san, ply.fen, ply.uci), gillspoon.san(fen, ply.san))
            self.assertEqual(gillspoon.san(fen, ply.uci, uci=True).san, ply.san)
            _, side, _, _, _, number = fen.split()
            self.assertEqual((ply.side[0], ply.move_number), (side, int(number)))
            count += len(ply.variations)
        self.check_fens(line)
        self.assertEqual(last_fen(line), game.fen)
        return count

    def test_archives(self):
        for style, variations in (("plain", 0), ("annotated", 50)):
            count = plies = 0
            for game in gillspoon.games(archive(50, style)):
                self.assertEqual(each(game.mainline(), "number"), list(range(1, game.plies + 1)))
                count += self.check(game)
                plies += game.plies
            self.assertGreaterEqual(count, variations)
            self.assertGreater(plies, 1000)

    def test_other_first_positions(self):
        for side, text, sans in (("w", "e4 Kd7 e5", ["e4", "Kd7", "e5"]), ("b", "Kd7", ["Kd7"]),
                                 ("b", "Kd7 e4 Kd6 e5+ Kd5", ["Kd7", "e4", "Kd6", "e5+", "Kd5"]),
                                 ("b", "", []), ("b", "Kd7 $1 (Kf7 e3)", ["Kd7"])):
            fen = "4k3/8/8/8/8/8/4P3/4K3 %s - - 5 99" % side
            game = first_game(('[FEN "%s"] %s *' % (fen, text)).encode())
            line = game.moves()
            self.assertEqual((line.fen, each(line, "number", "san")), (fen, [*enumerate(sans, 1)]))
            self.check(game, line)
        self.check(first_game(b'[FEN "r3k3/6P1/8/8/8/8/8/4K2R w Kq - 0 1"] O-O O-O-O g8=N *'))

    def test_a_call_for_each_line(self):
        game = first_game(b"e4 e5 (c5 Nf3 (c3) Nc6) Nf3 *")
        with watched(gillspoon._calls, "_line") as line:
            plies = list(game.mainline())
            self.assertEqual(each(plies, "san"), ["e4", "e5", "Nf3"])
            self.assertEqual(line.call_count, 0)
            self.assertEqual(each(plies, "uci"), ["e2e4", "e7e5", "g1f3"])
            self.assertEqual((plies[2].fen, plies[0].fen), (game.fen, game.position_at(1)))
            self.assertEqual(line.call_count, 1)
            # where positions are asked for before the UCI, this is a second call, the first time
            self.check(game)
            self.assertEqual(line.call_count, 4)

    def test_a_call_for_positions_alone(self):
        """Who asks for positions first has no UCI made; that takes another call, the first time.

        They are foreseen while they are asked for.
        """
        fens, both = gillspoon._library.SAN_FEN, gillspoon._library.SAN
        for asked, wanted in (
                ([["san", "number", "notes"]] * 4, []), ([["fen"]] * 4, [fens] * 4),
                ([["uci", "fen"]] * 4, [both] * 4), ([["fen", "uci"]] * 4, [fens, *[both] * 4]),
                ([["fen"], [], ["san"], ["san"]], [fens] * 2)):
            games = gillspoon.games(b"e4 e5 Nf3 * d4 {good} d5 * Nf3 Nf6 * c4 c5 b3 *")
            with watched(gillspoon._calls, "_line") as line:
                for game, names in zip(games, asked):
                    for ply, name in itertools.product(game.mainline() if names else (), names):
                        self.assertTrue(getattr(ply, name) or name == "notes")
            self.assertEqual([it.args[4] for it in line.mock_calls], wanted, asked)

    def test_positions_that_are_foreseen(self):
        """Where positions were asked for, the next game has its plies made with theirs."""
        for data, is_foreseen in (
                (archive(8, "plain"), True), (archive(8, "annotated"), False),
                (b'* [FEN "4k3/8/8/8/8/8/4P3/4K3 b - - 5 9"] Kd7 e4 Kd6 * e4 e5 * e4 * *', True)):
            wanted = []
            for game in gillspoon.games(data):
                game._habit = None
                wanted.append(each(game.mainline(), "number", "san", "fen", "uci"))
            foreseen = 0
            for game, plies in zip(gillspoon.games(data), wanted):
                line = game.moves()
                foreseen += any(isinstance(it, gillspoon._moves._PlacedPly) for it in line)
                for make in (lambda it: it, pickled, *COPIES):
                    self.assertEqual(each(make(line), "fen"), [it[2] for it in plies])
                    self.assertEqual(each(map(make, line), "number", "san", "fen"),
                                     [it[:3] for it in plies])
                self.assertEqual(game.position_at(game.plies), game.fen)
            self.assertEqual(bool(foreseen), is_foreseen)

    def test_positions_in_variations_are_foreseen(self):
        """Where these were asked for, the next game with notes is read by its items."""
        one = ('{first} e4 {\xfc} $1 (e3 {a  b} (d3 d5 $2) e5) (c4) {} e5 *'.encode(encoding)
               for encoding in ("utf-8", "latin-1"))
        start = b'[FEN "4k3/8/8/8/8/8/4P3/4K3 w - - 5 99"] e4 (e3 Kd7 (Ke7)) Kd7 Kd2 *'
        for data in (archive(20, "annotated"), b"\n".join([*one, start, start]),
                     b"\n".join(RandomGames(9).source(200))):
            wanted = []
            for game in gillspoon.games(data):
                game._habit = None
                wanted.append((tree(game.moves()), game.text))
            with watched(gillspoon._library, "items") as items:
                for game, (its_tree, text) in zip(gillspoon.games(data), wanted):
                    line = game.moves()
                    for make in (lambda it: it, copies.copy, pickled):
                        self.assertEqual(tree(make(line)), its_tree)
                    self.assertEqual(last_fen(line), game.fen)
                    self.assertEqual(gillspoon.write_game(game.tags, line, encoding=game.encoding),
                                     text)
            self.assertGreater(items.call_count, 0)

    def test_a_call_for_all_lines(self):
        """Of a game with notes, where positions in variations are asked for; else there is none."""
        data = b"e4 (d4 d5 (e5)) e5 * e4 (d4) e5 (c5 Nf3 (c3) Nc6) Nf3 * c4 c5 (e5) * Nf3 (d4 d5) *"
        found, rest = [], gillspoon.games(data)
        with watched(gillspoon._calls, "_line") as line, \
                watched(gillspoon._library, "items") as items:
            # those of the last two are not asked for, but found
            for ask, counts in ((self.check_fens, (3, 0)), (self.check_fens, (3, 1)),
                                (found.append, (3, 2)), (found.append, (3, 2))):
                game = next(rest)
                ask(game.moves())
                self.assertEqual((line.call_count, items.call_count), counts)
            for game in gillspoon.games(data):
                self.assertTrue(each(game.mainline(), "fen"))
            self.assertEqual((line.call_count, items.call_count), (7, 2))
        for game, line in zip(list(gillspoon.games(data))[2:], found):
            self.check(game, line)

    def test_no_text_for_positions_in_variations(self):
        """Where these are asked for, the items are those of the source, unless it is Latin-1."""
        text = '{first} e4 {\xfc} e5 (c5 {a  b} (d5! e5) Nf3) Nf3 *'
        # the second game is read with its text, which the first one was asked for
        for data, count in ((text.encode("utf-8"), 1), (text.encode("latin-1"), 2)):
            with watched(gillspoon._games, "_export_text") as exported:
                trees = [tree(it.moves()) for it in gillspoon.games(b"\n".join([data] * 4))]
            self.assertEqual((trees, exported.call_count), ([trees[0]] * 4, count))
            self.assertEqual(trees[0][2][0][3][0], "\xfc")

    def test_lines_that_are_longer_than_the_buffer_that_is_kept(self):
        data = b"e4 (d4 {" + b"a word " * 3000 + b"}) " + b"e5 Nf3 Nf6 Ng1 Ng8 Nc3 Nc6 Nb1 Nb8 *"
        trees = [tree(it.moves()) for it in gillspoon.games(data * 2)]
        self.assertEqual(trees[0], trees[1])
        self.assertEqual(trees[0][2][0][3][0][2][0][3], [" ".join(["a word"] * 3000)])
        data = b"Nf3 Nf6 Ng1 Ng8 " * 1000 + b"*"
        game = first_game(data)
        plies = list(game.mainline())
        self.assertEqual((len(plies), plies[-1].fen), (4000, game.fen))
        self.assertEqual({it.uci for it in plies}, {"g1f3", "g8f6", "f3g1", "f6g8"})
        self.assertEqual([it.fen for it in first_game(data).mainline()], each(plies, "fen"))

    def test_sans_beside_foreseen_positions(self):
        """They are found where one is asked for, and then for all games behind that."""
        counts = []
        with watched(gillspoon._moves, "_sans_of") as sans_of:
            for game in gillspoon.games(b"e4 e5 * d4 d5 Nf3 * Nf3 Nf6 g3 * c4 c5 *"):
                plies = list(game.mainline())
                self.assertEqual(each(plies, "fen")[-1], game.fen)
                if game.number == 3:
                    plies[1].san = "d5"
                    for these in (plies, copies.deepcopy(plies), pickled(plies)):
                        self.assertEqual(each(these, "san", "uci"), [
                            ("Nf3", "g1f3"), ("d5", "g8f6"), ("g3", "g2g3")])
                counts.append(sans_of.call_count)
        self.assertEqual(counts, [1, 1, 2, 3])

    def test_notes_are_of_one_ply(self):
        one, other = first_line(b"e4 e5 *")
        one.notes.append("best")
        self.assertEqual((one.comments, other.comments), (["best"], []))
        self.assertRaises(AttributeError, setattr, one, "note", "good")

    def test_a_changed_san(self):
        """Positions are those of the game as it was read."""
        game = first_game(b"e4 e5 Nf3 *")
        line = game.moves()
        line.plies[1].san = "c5"
        for plies in (line.plies, copies.deepcopy(line).plies, copies.deepcopy(line.plies)):
            self.assertEqual(each(plies, "san", "uci"), [
                ("e4", "e2e4"), ("c5", "e7e5"), ("Nf3", "g1f3")])
            self.assertEqual(plies[2].fen, game.fen)

    def test_sides_and_numbers(self):
        sicilian, = first_line(b"1. e4 e5 (1... c5 2. Nf3 (2. c3 d5)) 2. Ke2 *").plies[1].variations
        inner, = sicilian.plies[1].variations
        for line in (inner, pickled(inner), copies.deepcopy(inner)):
            self.assertEqual(each(line, "number", "side", "move_number"),
                             [(3, "white", 2), (4, "black", 2)])

    def orders(self, white, black):
        """A line for each order of the moves."""
        for first, second in itertools.product(*map(itertools.permutations, (white, black))):
            yield built(" ".join(itertools.chain.from_iterable(zip(first, second))))

    def test_keys_of_each_order(self):
        """The last move of some orders is a double step, so that FENs have a target."""
        white, black = self.OPENING
        lines = list(self.orders(white, black[:2] + ("d5",)))
        self.assertEqual(len(lines), 36)
        self.assertEqual(len({line.plies[-1].key for line in lines}), 1)
        self.assertGreater(len({" ".join(line.plies[-1].fen.split()[:4]) for line in lines}), 1)

    def test_keys_of_searched_games(self):
        """By the keys of a text's games each game of the opening is found, and no other one."""
        wanted = [" ".join(it.san for it in line) for line in self.orders(*self.OPENING)]
        others = ["d4 Nf6 c4 e6 Nc3 b6", "Nf3 Nf6 c4 e6 d3 b6", "d4 Nf6 c4 e6 Nf3 Bb4+"]
        moves = [it for pair in zip(wanted, others * len(wanted)) for it in pair]
        text = "\n".join('[White "%d"]\n\n%s *\n' % it for it in enumerate(moves)).encode()
        key = next(self.orders(*self.OPENING)).plies[-1].key
        found = [int(game.tags["White"]) for game in gillspoon.games(text)
                 if any(ply.key == key for ply in game.mainline())]
        self.assertEqual(found, list(range(0, 72, 2)))
        self.assertEqual(key, "rnbqkb1r/p1pp1ppp/1p2pn2/8/2PP4/5N2/PP2PPPP/RNBQKB1R w KQkq -")

    def test_keys_of_variations(self):
        line = first_line(b"1. e4 e5 ( 1... c5 2. Nf3 ) 2. Nf3 *")
        others = built("e4 e5 Ke2 Ke7 Ke1 Ke8"), built("e4 a6 e5 d5"), built("e3 d6 e4 a6 e5 d5")
        for _, ply in itertools.chain.from_iterable(map(steps, (line, *others))):
            self.assertEqual(ply.key, gillspoon.position_key(ply.fen))
        self.assertEqual(line.plies[1].variations[0].plies[0].key,
                         "rnbqkbnr/pp1ppppp/8/2p5/4P3/8/PPPP1PPP/RNBQKBNR w KQkq -")
        self.assertRaises(AttributeError, setattr, line.plies[0], "key", "")
        self.fails(gillspoon.FenFault, gillspoon.position_key, "x", field=1)


class Views(unittest.TestCase):
    """What is a view of what was read cannot be set, and the error says what to do instead."""

    GAME = ("number", "offset", "end", "result", "plies", "fen", "text", "encoding", "tags")
    LISTS = ("nags", "comments", "variations", "arrows", "squares")
    PLY = ("number", "side", "move_number", "fen", "uci", "clock", "emt", "eval", *LISTS)

    def test_attributes(self):
        """None of them can be set, also not to its value, and all values stay."""
        line, foreseen = first_line(b"e4 {[%clk 0:00:01]} (d4) $1 e5 *"), []
        # where positions were asked for, the plies of the next game are made with theirs
        for text in (b"e4 e5 Nf3 * ", b"e4 (d4 d5 (c5)) e5 {best} Nf3 * "):
            first, second = ([ply for _, ply in steps(it.moves())]
                             for it in gillspoon.games(text * 2))
            self.assertGreater(sum(hasattr(it, "_fen") for it in second), 1)
            self.assertEqual(each(first, "fen"), each(second, "fen"))
            foreseen += second
        for it in (*gillspoon.games(b"e4 e5 1-0 d4 d5 1-0", checked=True), *line, *foreseen,
                   line.plies[0].variations[0].plies[0], gillspoon.Line().append("c4")):
            names, advice = (self.GAME, "give write_") if isinstance(it, gillspoon.Game) else (
                self.PLY, "change the no")
            before = attrgetter(*names)(it)
            for name in names:
                self.assertRaisesRegex(AttributeError, name + " cannot be set: " + advice,
                                       setattr, it, name, getattr(it, name))
            self.assertEqual(attrgetter(*names)(it), before)
        self.assertRaisesRegex(TypeError, r'line\.append\("Nf3"\) makes one', gillspoon.Ply)

    def test_the_lists_of_a_ply(self):
        """Each change of one is refused, and a copy is a list like any other."""
        ply = first_line(b"e4 {[%csl Ga1][%cal Ge2e4]} (d4) $1 {b} *").plies[0]
        for name, (change, *words) in itertools.product(self.LISTS, (
                ("__setitem__", 0, 1), ("__delitem__", 0), ("__iadd__", [1]), ("__imul__", 2),
                ("append", 1), ("extend", [1]), ("pop",), ("insert", 0, 1), ("remove", 1),
                ("clear",), ("reverse",), ("sort",))):
            self.assertRaisesRegex(TypeError, r"ply\.notes\.append",
                                   getattr(getattr(ply, name), change), *words)
        comments = ["[%csl Ga1][%cal Ge2e4]", "b"]
        self.assertEqual((ply.nags, ply.comments), ([1], comments))
        for copy in (ply.comments.copy(), ply.comments + [], list(ply.comments),
                     pickled(ply.comments), copies.deepcopy(ply.comments)):
            copy.append("c")
            self.assertEqual((type(copy), copy), (list, [*comments, "c"]))


class Built(Test):
    """Lines that are built move by move: the library checks each move when it is put in."""

    def movetext(self, line, **tags):
        return gillspoon.write_game(tags, line).decode().partition("\n\n")[2]

    def test_a_line(self):
        line = gillspoon.Line()
        e4 = line.append("e2e4", nags=[1, 14], comment="best")
        line.append("e7e5", uci=True)
        line.append("Ng1f3", comment="")
        line.notes.append("first")
        self.has(e4, number=1, san="e4", uci="e2e4", notes=[1, 14, "best"], fen=E4)
        self.assertEqual(each(line, "number", "san", "uci")[1:],
                         [(2, "e5", "e7e5"), (3, "Nf3", "g1f3")])
        self.assertEqual((line.fen, len(line)), (INITIAL, 3))
        self.assertEqual(self.movetext(line, Result="1-0"), (
            "{ first } 1. e4 $1 $14 { best } 1... e5 2. Nf3 { } 1-0\n\n"))

    def test_variations(self):
        line = gillspoon.Line()
        e4, e5 = line.append("e4"), line.append("e5")
        first = e4.add_variation("d2d4", uci=True, nags=(5,), comment="or so")
        knight = first.append("Nf6")
        inner = knight.add_variation("d5")
        inner.append("c4").notes.append(3)
        e5.add_variation("c5")
        e5.add_variation("e6")
        self.assertEqual([it.number for it in (*first, *inner)], [1, 2, 2, 3])
        self.assertEqual((first.fen, inner.fen, e5.variations[1].fen),
                         (INITIAL, first.plies[0].fen, e4.fen))
        self.assertEqual(self.movetext(line), (
            "1. e4 ( 1. d4 $5 { or so } 1... Nf6 ( 1... d5 2. c4 $3 ) ) 1... e5 ( 1... c5 )\n"
            "( 1... e6 ) *\n\n"))
        for copy in (pickled(line), copies.deepcopy(line)):
            self.assertEqual(self.movetext(copy), self.movetext(line))

    def test_from_a_position(self):
        line = gillspoon.Line("4k3/8/8/8/8/8/4P3/4K3 b - - 05 99")
        self.assertEqual(line.fen, "4k3/8/8/8/8/8/4P3/4K3 b - - 5 99")
        line.append("Kd7").add_variation("Kf7")
        self.assertEqual((line.plies[0].side, line.append("e4").move_number), ("black", 100))
        self.assertEqual(gillspoon.write_game({}, line).decode().partition("[Result ")[2], (
            '"*"]\n[FEN "4k3/8/8/8/8/8/4P3/4K3 b - - 5 99"]\n[SetUp "1"]\n\n'
            "99... Kd7 ( 99... Kf7 ) 100. e4 *\n\n"))
        self.assertEqual(gillspoon.Line(INITIAL).fen, gillspoon.Line().fen)

    def test_what_is_refused(self):
        """The line stays as it was."""
        line, move = gillspoon.Line(), gillspoon.MoveFault
        ply = line.append("e4")
        for word, options, error, said in (
                ("Ke3", {}, move, "move is not legal: Ke3"), ("e9", {}, move, "not a move: e9"),
                ("Nf6 d4", {}, move, "not a move"), ("", {}, move, "not a move"),
                ("O-O", {"uci": True}, move, "not a move"),
                (7, {}, TypeError, "a move is a str, not int"),
                (b"e5", {}, TypeError, "a move is a str, not bytes"),
                ("Nf6", {"nags": "!"}, TypeError, "a NAG is an int such as 1, not str"),
                ("Nf6", {"nags": [256]}, ValueError, "from 0 to 255, not 256"),
                ("Nf6", {"nags": [-1]}, ValueError, "from 0 to 255, not -1"),
                ("Nf6", {"comment": 7}, TypeError, "a comment is a str, not int"),
                ("Nf6", {"comment": "a}"}, ValueError, "closing brace")):
            for call in (line.append, ply.add_variation):
                self.assertRaisesRegex(error, said, call, word, **options)
        self.assertEqual((len(line), ply.notes), (1, []))
        self.fails(move, line.append, "e4", fen=ply.fen)
        self.fails(move, ply.add_variation, "e5", fen=INITIAL)
        self.assertRaises(gillspoon.FenFault, gillspoon.Line, "4k3/8 w")
        self.assertRaisesRegex(TypeError, "a FEN is a str, not Ply", gillspoon.Line, ply)

    def test_a_line_that_was_read_goes_on(self):
        """Also one whose positions were foreseen, and a variation."""
        for game in gillspoon.games(b"e4 e5 (c5 Nf3) * e4 e5 *"):
            self.assertTrue(each(game.mainline(), "fen"))
            line = game.moves()
            self.assertEqual((line.append("Nc3").number, line.append("Nc6").number), (3, 4))
            line.plies[1].add_variation("e6").append("d4")
            for variation in line.plies[1].variations:
                variation.append(variation.plies[0].san.replace("c5", "Nc6").replace("e6", "d5"))
            sicilian = "( 1... c5 2. Nf3 Nc6 ) " if game.number == 1 else ""
            self.assertEqual(self.movetext(line).replace("\n", " "), (
                "1. e4 e5 %s( 1... e6 2. d4 d5 ) 2. Nc3 Nc6 *  " % sicilian))

    def build(self, plies, line):
        """Appends the same plies to a line, with their notes and variations."""
        for ply in plies:
            self.note(ply.notes, line.append(ply.san))

    def note(self, notes, ply):
        for it in notes:
            if isinstance(it, gillspoon.Line):
                first, *others = it
                variation = ply.add_variation(first.uci, uci=True)
                self.note(first.notes, variation.plies[0])
                self.build(others, variation)
            else:
                ply.notes.append(it)

    def test_games_are_built_again(self):
        variations = 0
        for game in gillspoon.games(archive(40, "annotated")):
            read, line = game.moves(), gillspoon.Line()
            line.notes += read.notes
            self.build(read, line)
            self.assertEqual(gillspoon.write_game(game.tags, line), game.text)
            variations += sum(len(it.variations) for it in line)
        self.assertGreater(variations, 50)


class Commands(Test):
    """Clocks, evaluations, arrows and marked squares in comments."""

    def ply(self, *comments):
        """A ply with these comments behind it."""
        text = "1. e4 %s *" % " ".join("{%s}" % it for it in comments)
        return first_line(text.encode()).plies[0]

    def test_times(self):
        for text, seconds in (
                ("0:05:00", 300), ("1:02:03.5", 3723.5), ("0:00:09.", 9), ("12:00:00", 43200),
                ("0:75:61", 4561), ("\n0:05:00", 300), ("5:00", None), ("300", None),
                ("-0:05:00", None), ("0:05:00,1", None), ("0:0x:00", None), ("0:05:", None)):
            ply = self.ply("good [%%clk %s] move[%%emt %s]" % (text, text))
            self.assertEqual((ply.clock, ply.emt), (seconds, seconds), text)
            self.assertIs(type(ply.clock), float if seconds else type(None))
            self.assertEqual(self.ply("[%%emt %s]" % text).clock, None)
            self.assertEqual(self.ply("[%%clk %s]" % text).emt, None)

    def test_the_first_counts(self):
        ply = self.ply("[%clk 0:00]", "[%clk 0:00:02][%clk 0:00:01]", "[%eval x] [%eval 1]",
                       "[%eval 2]")
        self.assertEqual((ply.clock, ply.eval), (2.0, (100, None, None)))

    def test_evaluations(self):
        for text, wanted in (
                ("0.17", (17, None, None)), ("-1.5", (-150, None, None)), ("+.5", (50, None, None)),
                ("3", (300, None, None)), ("3.", (300, None, None)), ("-0.29,18", (-29, None, 18)),
                ("0.0", (0, None, None)), ("#3", (None, 3, None)), ("#-2,7", (None, -2, 7)),
                ("#+1", (None, 1, None)), ("#0", (None, 0, None)), ("0.285", None), ("0.1,", None),
                ("--1", None), ("1e5", None), ("", None), ("#", None), ("M3", None)):
            self.assertEqual(self.ply("[%%eval %s]" % text).eval, wanted, text)
        self.assertEqual(self.ply("[%eval 0.17,20]").eval._asdict(),
                         {"centipawns": 17, "mate": None, "depth": 20})

    def test_drawings(self):
        for text, arrows, squares in (
                ("[%cal Ge2e4,Rd1h5]", [("green", "e2", "e4"), ("red", "d1", "h5")], []),
                ("[%csl Ya1,Bh8]", [], [("yellow", "a1"), ("blue", "h8")]),
                ("[%csl Ya1] [%cal Bh8a1]x[%csl Gb2]", [("blue", "h8", "a1")],
                 [("yellow", "a1"), ("green", "b2")]),
                ("[%cal Ga1,Gb1b2,Gc1c1]", [("green", "b1", "b2")],
                 [("green", "a1"), ("green", "c1")]),
                ("[%csl Gb1b2]", [("green", "b1", "b2")], []),
                *((it, [], []) for it in (
                    "[%cal Ge2e4,Xd1h5]", "[%cal Ge2e9]", "[%cal Ge2e4, Gd2d4]", "[%cal]",
                    "[%csl ga1]", "[%cal Ge2e4e5]"))):
            self.has(self.ply(text), text, arrows=arrows, squares=squares)
        arrow, = self.ply("[%cal Ge2e4]").arrows
        self.has(arrow, colour="green", origin="e2", target="e4")
        mark, = self.ply("[%csl Rh7]").squares
        self.has(mark, colour="red", square="h7")

    def test_where_they_are(self):
        """They are behind the move that they are about, also in a variation."""
        e4, e5 = first_game(b"{[%clk 0:00:09]} e4 (d4 {[%clk 0:00:03]}) {[%clk 0:00:02]} "
                            b"{[%csl Ga1]} e5 $1 *").mainline()
        self.has(e4, clock=2.0, squares=[("green", "a1")])
        self.assertEqual(e4.variations[0].plies[0].clock, 3.0)
        self.has(e5, clock=None, emt=None, eval=None, arrows=[], squares=[])


class Pickled(Test):
    """Plies and lines that pickle and copy make again."""

    def same(self, one, other):
        """Whether two lines have the same moves, positions and notes."""
        self.assertEqual(tree(one), tree(other))
        self.assertEqual(*([type(note) for noted in noted_in(line) for note in noted.notes]
                           for line in (one, other)))

    def test_a_long_game(self):
        """It has more plies than Python's stack has frames."""
        game = first_game(b"Nf3 Nf6 Ng1 Ng8 " * 400 + b"{end} (Ng4 h3) *")
        last = game.moves().plies[-1]
        self.assertEqual((game.plies, last.number), (1600, 1600))
        self.assertGreater(1600, sys.getrecursionlimit())
        for make in (pickled, *COPIES):
            copy = make(last)
            self.has(copy, number=1600, san="Ng8", fen=game.fen, comments=["end"])
            self.same(copy.variations[0], last.variations[0])
        for copy in (pickled(game.moves()), copies.deepcopy(game.moves()), pickled(game).moves()):
            self.same(copy, game.moves())
            # each begins with the move before, as the reader makes it
            self.assertIs(copy.plies[-1].variations[0].start, copy.plies[-2])

    def test_positions_that_were_not_asked_for(self):
        """A variation by itself has the position before it."""
        for text in (b"e4 e5 (c5 Nf3 (c3)) Nf3 *", b"e4 e5 (c5 {good} Nf3 (c3)) Nf3 *"):
            copy = pickled(first_line(text))
            self.same(copy, first_line(text))
            inner, = copy.plies[1].variations[0].plies[1].variations
            self.assertIs(inner.start, copy.plies[1].variations[0].plies[0])
            game = first_game(text)
            line = game.moves().plies[1].variations[0]
            copy = pickled(line)
            self.same(copy, line)
            self.assertEqual(copy.start, game.position_at(1))
            self.assertIs(copy.plies[1].variations[0].start, copy.plies[0])

    def test_a_changed_line(self):
        """A ply whose predecessor is in no list of plies keeps its position."""
        line = first_line(b"e4 e5 Nf3 (Nc3) Nc6 *")
        wanted = each(line, "fen")[2:]
        del line.plies[:2]
        copy = pickled(line)
        self.assertEqual(each(copy, "fen"), wanted)
        self.assertEqual(copy.plies[0].variations[0].plies[0].fen.split()[0],
                         "rnbqkbnr/pppp1ppp/8/4p3/4P3/2N5/PPPP1PPP/R1BQKBNR")

    def test_archive(self):
        count = 0
        for game in gillspoon.games(archive(50, "annotated")):
            copy = pickled(game.moves())
            self.same(copy, game.moves())
            self.assertEqual(gillspoon.write_game(game.tags, copy), game.text)
            for line in itertools.chain.from_iterable(it.variations for it in game.mainline()):
                count += 1
                self.same(pickled(line), line)
        self.assertGreater(count, 100)


class Faults(Folder):
    def test_attributes(self):
        data = bytes_of("examples/no-such-move.pgn")
        fault = fault_of(gillspoon.PgnFault, list, gillspoon.games(data))
        self.assertEqual(str(fault), "line 4, column 37: move is not legal: Bd4 "
                                     "(game 1, Nowak, A. - Silva, J.)")
        self.has(fault, number=34, reason="move is not legal", offset=77, line=4, column=37, game=1,
                 begin=0, end=None, move="Bd4", white="Nowak, A.", black="Silva, J.", file=None,
                 text=None)
        self.assertEqual(data[77:].split()[0], b"Bd4")
        self.assertRaises(gillspoon.MoveFault, gillspoon.san, fault.fen, "Bd4")

    def test_places(self):
        """Lines and columns are those of gillspoon where, however the text comes."""
        places = importlib.import_module("gillspoon._places")
        source = random.Random(3)
        units = [b"a", b" ", b"\n", b"\r", b"\r\n", b"\n\n", "\xfc".encode(), b"\xfc", b"\x80",
                 "\u20ac".encode(), "\U0001f600".encode(), b"word " * 3, b"\xef\xbb\xbf"]
        for number in range(60):
            data = b"".join(source.choices(units, k=source.randint(0, 30)))
            data = source.choice((b"", b"\xef\xbb\xbf", b"\xef")) + data
            path = self.put("a", data)
            offset = source.randint(0, len(data))
            said = run([ROOT + "/bin/gillspoon", "where", path, str(offset)]).stdout
            said = said.decode("utf-8", "replace")
            line, column = re.search(r": line (\d+), column (\d+) ", said).groups()
            counter, sizes = places.LineCounter(), iter(lambda: source.randint(1, 4), 0)
            for part in cut(data[:offset], sizes):
                counter.feed(part)
            self.assertEqual(counter.place(data[offset:]), (int(line), int(column)),
                             (number, data, offset))

    def test_the_file(self):
        """Its name is the path that was given, or that of an open file."""
        path = self.put("a\n.pgn", b"1. e4 e9 *")
        said = "%s: line 1, column 7: not a move: e9 (game 1)" % path.replace("\n", "\\n")
        with open(path, "rb") as file, os.fdopen(os.open(path, os.O_RDONLY), "rb") as other:
            named = type("P", (), {"__fspath__": lambda self: path})()
            sources = (named, path), (file, path), (other, None)
            for call, (source, name) in itertools.product(
                    (gillspoon.check, gillspoon.convert), sources):
                file.seek(0)
                other.seek(0)
                fault = fault_of(gillspoon.PgnFault, call, source)
                self.assertEqual(fault.file, name, (source, call))
                self.assertEqual(str(fault), said if name else said[said.index("line 1"):])

    def test_the_move(self):
        """It is the text of what was rejected as a move, and of nothing else."""
        for text, move in ((b"1. e4 e2-e5!? *", "e2-e5"), (b"1. e4 (1. Nd2) *", "Nd2"),
                           (b"e4 Ra1=Q+ *", "Ra1=Q+"), (b"e4 ] *", None), (b'e4 "e5" *', None),
                           (b"e4 & *", None), (b"e4 )", None), (b"e4 1-0", None), (b"e4", None),
                           (b"Nf3 e6 Nd4 e5 c3 e4 Na3 e3 Nc2 *", "Nc2")):
            fault = fault_of(gillspoon.PgnFault, gillspoon.check, text)
            self.assertEqual(fault.move, move, text)
            self.assertEqual(": %s (game 1)" % move in str(fault), move is not None)
        # its position is there for a move that is not legal
        for text, fen in ((b"1. e4 e5 (1... e6 2. Ke3) *",
                           "rnbqkbnr/pppp1ppp/4p3/8/4P3/8/PPPP1PPP/RNBQKBNR w KQkq - 0 2"),
                          (b"1. e4 e9 *", None), (b"1. e4 & *", None)):
            self.fails(gillspoon.PgnFault, gillspoon.convert, text, fen=fen)

    def test_the_players(self):
        white, black = '[White "M\xfcller \\"x\\""]\n', '[Black "\x9b2J"]\n'
        for text, names in ((white + black + "1. e5 *", ('M\xfcller "x"', "\x9b2J")),
                            (white + "1. e5 *", ('M\xfcller "x"', "?")),
                            ('[A-B "x"]\n' + black + "1. e5 *", ("?", "\x9b2J")),
                            ('[A-B "x"]\n' + white + black, ('M\xfcller "x"', "\x9b2J")),
                            ('[A-B "x"]\n\n[Event "y"]\n' + white + "1. e5 *", ("?", "?")),
                            ("1. e5 * " + white, ("?", "?"))):
            for end in ("\n", "\r\n", "\r"):
                data = text.replace("\n", end).encode()
                for source in (data, Pieces(data, 1)):
                    fault = fault_of(gillspoon.PgnFault, gillspoon.check, source)
                    self.assertEqual((fault.white, fault.black), names, data)
                    said = " - ".join(names).replace("\x9b", "\ufffd")
                    self.assertEqual(", %s)" % said in str(fault), names != ("?", "?"), data)

    def test_what_is_skipped(self):
        """The texts of the games and of the faults are the source, but for white space."""
        for name, text, _, _ in BAD:
            faults, data = [], sound(b"a") + text + sound(b"b") + text
            ends = [(it.offset, it.end) for it in gillspoon.games(data, on_fault=faults.append)]
            left = bytearray(data)
            for begin, end in ends + each(faults, "begin", "end"):
                left[begin:end] = b" " * (end - begin)
            self.assertEqual(each(faults, "text"), [data[it.begin:it.end] for it in faults], name)
            self.assertEqual(left.strip(), b"", name)

    def test_pickle(self):
        faults = []
        path = self.put("a.pgn", b'[White "Ada"]\n1. e4 e9 *\n')
        self.assertEqual(list(gillspoon.games(path, on_fault=faults.append)), [])
        for fault, names in (
                (faults[0], (*gillspoon.PgnFault.__slots__, "args")),
                (fault_of(gillspoon.MoveFault, gillspoon.san, INITIAL, "e5"), ("fen",)),
                (fault_of(gillspoon.FenFault, gillspoon.san, "x", "e5"), ("fen",))):
            copy = pickled(fault)
            self.has(copy, **{name: getattr(fault, name) for name in names})
            self.assertEqual(str(copy), str(fault))

    def test_moves_before(self):
        """Those of games from a position, with a fault in notes, in variations, and between."""
        start = "4k3/8/8/8/8/8/4P3/4K3 w - - 0 30"
        after = ["4k3/8/8/8/4P3/8/8/4K3 b - e3 0 30", "8/3k4/8/8/4P3/8/8/4K3 w - - 1 31",
                 "8/4k3/8/8/4P3/8/8/4K3 w - - 1 31", "4k3/8/8/8/8/4P3/8/4K3 b - - 0 30"]
        e4, kd7 = (1, "e4", after[0]), (2, "Kd7", after[1])
        ke7, e3 = (2, "Ke7", after[2]), (1, "e3", after[3])
        for movetext, notes, plies in (
                ("{first} e4 Kd7 Kf9 *", ["first"], [(*e4, []), (*kd7, [])]),
                ("{first} $7 e4 {a\n b} Kf9 *", ["first", 7], [(*e4, ["a b"])]),
                ("e4 (e3! Kf9) Kd7 *", [], [(*e4, [(start, [], [(*e3, [1])])])]),
                ("e4 (e3) Kd7 {one} (Ke7 {two} $2 (Kf9)) *", [], [
                    (*e4, [(start, [], [(*e3, [])])]),
                    (*kd7, ["one", (after[0], [], [(*ke7, ["two", 2, (after[0], [], [])])])])]),
                ("e4 $256 Kd7 *", [], [(*e4, [])]),
                ("e4 Kd7 {open", [], [(*e4, []), (*kd7, ["open"])]),
                ("e4 ({open", [], [(*e4, [(start, ["open"], [])])]),
                ("e4 Kd7 1-0", [], [(*e4, []), (*kd7, [])]), ("{first} *)", ["first"], []),
                ("e4", [], [(*e4, [])]), ("e4 ; a\x01b\n *", [], [(*e4, ["a"])])):
            data = ('[White "Ada"] [FEN "%s"] [Result "%s"] %s' % (
                start, "0-1" if "*)" in movetext else "*", movetext)).encode()
            for before in (b"", b"*\n\n"):
                bad = []
                list(gillspoon.games(before + data, on_fault=bad.append))
                raised = fault_of(gillspoon.PgnFault, list, gillspoon.games(before + data))
                for fault in (bad[0], raised, pickled(bad[0]), pickled(raised)):
                    self.assertEqual(tree(fault.moves_before), (start, notes, plies), data)
        for data in (b'[White "Ada"] Kf9 *', b"1. (e4) *", b'[White "a', b'[FEN "x"] e4 *', b"&"):
            fault = fault_of(gillspoon.PgnFault, list, gillspoon.games(data))
            self.assertIsNone(fault.moves_before, data)

    def test_moves_before_in_damaged_games(self):
        """They are those of the game that ends at the fault."""
        source, count, bad = random.Random(8), 0, []
        for text in RandomGames(3).source(3000):
            list(gillspoon.games(damaged(source, text), on_fault=bad.append))
        for fault in bad:
            game = self.ended_at(fault.text[:fault.offset - fault.begin])
            line = game.moves() if game else None
            if line is not None and (line.plies or line.notes):
                self.assertEqual(tree(fault.moves_before), tree(line), fault.text)
                count += 1
            else:
                self.assertIsNone(fault.moves_before, fault.text)
        self.assertGreater(count, 20)

    def ended_at(self, front):
        """The game that a text becomes where all that is open at its end is closed."""
        for comment_end, depth, result in itertools.product(
                (b"", b"}", b"\n"), range(7), (b"*", b"1-0", b"0-1", b"1/2-1/2")):
            try:
                game, = gillspoon.games(front + comment_end + b" " + b")" * depth + b" " + result)
            except ValueError:
                continue
            return game
        return None

    def test_words_are_those_of_the_fault_table(self):
        rows = {int(row[0]): row[3].strip("`")
                for row in table("docs/PROFILE.md", "No", "Rejected")}
        words = importlib.import_module("gillspoon._faults").MOVE_FAULTS
        self.assertEqual(words, {number: rows[number] for number in (33, 34, 35, 36)})

    def test_vectors(self):
        """Each gives the games before its fault, and the fault."""
        faults = 0
        for vector in vectors():
            data, output = vector["input"].encode(), vector["output"].encode()
            options, texts = {"reduced": vector["mode"] == "reduced"}, []
            games, told = gillspoon.games(data, **options), vector.get("fault")
            with self.subTest(vector["file"]):
                if told:
                    faults += 1
                    fault = fault_of(gillspoon.PgnFault,
                                     lambda: [texts.append(it.text) for it in games])
                    self.has(fault, number=told["number"], offset=told["place"])
                    self.assertEqual("byte %d: %s" % (fault.offset, fault.reason), told["message"])
                    self.assertTrue(output.startswith(b"".join(texts)))
                    continue
                self.assertEqual(b"".join(each(games, "text")), output)
                self.assertEqual(gillspoon.convert(data, **options), output)
                if not options["reduced"]:
                    self.assertEqual(gillspoon.check(data), (vector["games"], vector["plies"]))
        self.assertGreater(faults, 50)


class Calls(Test):
    def test_threads(self):
        """Conversions, and positions of games, in threads side by side."""
        text, few = archive(200, "plain"), archive(30, "plain")

        def convert(is_reduced):
            return gillspoon.convert(text, reduced=is_reduced)

        def fens(data):
            return [each(game.mainline(), "fen") for game in gillspoon.games(data)]

        for call, values in (convert, [False, True]), (fens, [few, few]):
            with ThreadPoolExecutor(4) as pool:
                self.assertTrue(list(pool.map(call, values * 2)) == [*map(call, values)] * 2)

    def test_fen(self):
        self.assertEqual(gillspoon.normalize_fen("4k3/44/8/8/8/8/8/4K3 w - - 00 01"),
                         "4k3/8/8/8/8/8/8/4K3 w - - 0 1")
        fens = [("x", 1), (INITIAL.replace(" w ", " x "), 2), ("\xfc", 1),
                ("8/8/8/8/8/8/8/8 w - - 0 1", 7)]
        for field, wrong in enumerate(("9/8", "x", "KK", "e5", "x", ""), 1):
            fields = INITIAL.split(" ")
            fields[field - 1] = wrong
            fens.append((" ".join(fields), field))
        for fen, field in fens:
            self.fails(gillspoon.FenFault, gillspoon.normalize_fen, fen, field=field, fen=fen)
            for call in (gillspoon.san, gillspoon.explain):
                self.assertRaises(gillspoon.FenFault, call, fen, "e4")
        self.fails(gillspoon.PgnFault, gillspoon.convert, b'[FEN "8/8/8/8/8/8/8/8 x - - 0 1"] *',
                   number=26, reason="bad FEN, field 2")

    def test_san(self):
        fen = "6k1/5ppp/8/8/8/8/8/R3K2R w KQ - 0 1"
        self.assertEqual(gillspoon.san(fen, "Ra1a8"),
                         ("Ra8#", "R5k1/5ppp/8/8/8/8/8/4K2R b K - 1 1", "a1a8"))
        self.assertEqual(gillspoon.san(fen, "0-0").san, "O-O")
        for fen, move, number, reason in (
                (fen, "e9", 33, "not a move"), (fen, "Ke3", 34, "move is not legal"),
                (fen, "", 33, "not a move"),
                ("1k6/8/8/8/8/8/4K3/R6R w - - 0 1", "Rd1", 35, "move is ambiguous"),
                ("7k/8/8/8/8/8/8/R4R1K b - - 0 99999", "Kg7", 36, "move number limit")):
            self.fails(gillspoon.MoveFault, gillspoon.san, fen, move, number=number, reason=reason)
        for words in ((b"x", "e4"), (INITIAL, b"e4"), (INITIAL, None)):
            self.assertRaises(TypeError, gillspoon.san, *words)

    def test_uci(self):
        fen = "r3k3/6P1/8/8/8/8/8/4K2R w Kq - 0 1"
        for move, san in (("e1g1", "O-O"), ("g7g8q", "g8=Q+"), ("g7g8n", "g8=N"), ("h1h8", "Rh8+")):
            played = gillspoon.san(fen, move, uci=True)
            self.assertEqual((played.san, played.uci), (san, move))
            self.assertEqual(gillspoon.san(fen, san), played)
        for move, number in (("O-O", 33), ("E1G1", 33), ("e1g1 ", 33), ("0000", 33), ("", 33),
                             ("g7g8", 34), ("e1c1", 34)):
            self.fails(gillspoon.MoveFault, gillspoon.san, fen, move, options={"uci": True},
                       number=number, move=move)

    def test_explain(self):
        fen = "k3r3/8/8/8/8/8/N3N3/4K2R w K - 0 1"
        for move, said in (("Nc3", ("N", "c3", "", ("a2",), ("e2",))),
                           ("Qd4", ("Q", "d4", "", (), ())),
                           ("O-O", ("K", "g1", "O-O", ("e1",), ()))):
            self.assertEqual(gillspoon.explain(fen, move), said)
        self.assertEqual(gillspoon.explain(fen, "Nec3")[3:], ((), ("e2",)))
        self.assertRaises(gillspoon.MoveFault, gillspoon.explain, fen, "hello")


class Sources(Folder):
    def setUp(self):
        super().setUp()
        self.data = archive(300, "annotated")
        self.wanted = seen(self.data)

    def test_kinds(self):
        """One that is compressed is known by its first bytes, by all calls that read it."""
        bad = b"[White \"Ada\"]\n\n1. e2-e4 *\n" + sound(b"b")
        edits, wanted = list(gillspoon.fixes(bad)), gillspoon.convert(self.data)
        fault = fault_of(gillspoon.PgnFault, list, gillspoon.games(self.data + bad))
        self.assertEqual((len(self.wanted), len(edits)), (300, 1))
        self.assertEqual(fault.offset, len(self.data) + bad.index(b"e2"))
        for name, pack in {"plain": bytes, **PACKERS}.items():
            if name == "zst":
                need("zstd")
            for data, call, found in (
                    (self.data, seen, self.wanted), (self.data, gillspoon.convert, wanted),
                    (bad, lambda it: list(gillspoon.fixes(it)), edits),
                    # a fault is found again, though a pipe can be read only once
                    (self.data + bad, lambda it: fault_of(
                        gillspoon.PgnFault, gillspoon.convert, it).args, fault.args)):
                named = self.put("a.pgn." + name, pack(data))
                for source in itertools.chain(self.sources_of(pack(data)), [named]):
                    self.assertTrue(call(source) == found, (name, type(source)))
        for source in (b"", bytearray(), self.put("empty.pgn", b"")):
            self.assertEqual(seen(source), [])

    def test_a_pipe(self):
        """It is read when the first game is asked for, and a game comes before the pipe ends."""
        for front, plies, rest, left in ((b"1. e4 *\n1. d4 *\n1.", [1, 1], b" c4 *\n", 1),
                                         (b"*\n", [0], b"", 0)):
            begin, end = os.pipe()
            with os.fdopen(begin, "rb") as file:
                games = gillspoon.games(file)
                os.write(end, front)
                self.assertEqual([next(games).plies for _ in plies], plies)
                os.write(end, rest)
                os.close(end)
                self.assertEqual(len(list(games)), left)

    def compressed(self, name):
        """The data in two parts, one behind the other."""
        need("zstd")
        return b"".join(PACKERS[name](it) for it in (self.data[:1000], self.data[1000:]))

    def test_compressed(self):
        for name in ("gz", "bz2", "zst"):
            whole = self.compressed(name)
            path = self.put("a.pgn." + name, whole)
            self.assertEqual(seen(path), self.wanted, name)
            self.assertEqual([gillspoon.check(it).games for it in (path, self.put("a.PGN", whole))],
                             [300] * 2)
            # it can be left at any time
            self.assertEqual(next(gillspoon.games(path)).number, 1)
            for damaged in (whole[:-7], whole[:200] + b"\0\0\0\0" + whole[204:], b"no"):
                fault = fault_of(OSError, gillspoon.check, self.put("b.pgn." + name, damaged))
                self.assertIn("b.pgn." + name, str(fault))

    def test_files_in_a_zip(self):
        """Two games without a line end between them, and a file that is no PGN."""
        text = b"1. e4 *"
        members = ("x/a.PGN", text), ("read.me", b"&"), ("b.pgn", text)
        path = self.put("c.bin", zip_of(*members))
        self.assertEqual(gillspoon.check(path).games, 2)
        self.put("c.bin", zip_of(members[1]))
        for bad in (path, self.put("d.xz", PACKERS["xz"](text)[:-4]), self.put("e.zip", b"no")):
            self.assertIn(bad, str(fault_of(OSError, gillspoon.check, bad)))

    def test_compressed_data_that_is_cut_off(self):
        """The error names no temporary file, and none is left."""
        need("zstd")
        folder = self.folder + "/tmp"
        os.mkdir(folder)
        with mock.patch.object(tempfile, "tempdir", folder):
            for name, pack in PACKERS.items():
                data = pack(self.data)
                half = data[:len(data) // 2]
                for call in (gillspoon.check, gillspoon.convert):
                    for source in (half, Pieces([half])):
                        self.assertNotIn("/", str(fault_of(OSError, call, source)), name)
                # it can be left at any time
                self.assertEqual(next(gillspoon.games(data)).number, 1)
            self.assertEqual(os.listdir(folder), [])

    def test_a_few_bytes(self):
        """They are too few for a mark, or the beginning of one."""
        for data in (b"", b"*", b"B", b"BZ", b"\x1f", b"PK\x03", b"(\xb5", b"\xfd7zXZ", b"Be2 *"):
            for source in (data, io.BytesIO(data), Pieces(data, 1)):
                found = [len(it) for it in seen(source)]
                self.assertEqual(found, [] if not data else [7] if data == b"*" else [13], data)

    def test_zstandard_in_place_of_the_program(self):
        if run([PYTHON, "-c", "import zstandard"]).returncode:
            not_tried("python3-zstandard is missing")
        whole = self.compressed("zst")
        text = ("import gillspoon, sys\n"
                "try: print(gillspoon.check(sys.argv[1]).games)\n"
                "except OSError as error: print(error)\n")
        env = dict(environment(), PATH="/nowhere")
        for data, said in ((whole, "300\n"), (whole[:-7], "ends inside a frame"), (b"no", "zst: ")):
            ran = run([PYTHON, "-c", text, self.put("a.pgn.zst", data)], env=env)
            self.assertIn(said, ran.stdout.decode() + ran.stderr.decode())

    def test_what_is_no_source(self):
        with open(self.put("a.pgn", b"e4 *"), encoding="ascii") as file:
            for source in (file, io.StringIO("e4 *")):
                self.assertRaisesRegex(TypeError, "binary mode", gillspoon.games, source)
        self.assertRaisesRegex(TypeError, "as bytes", gillspoon.check, '[White "x"]\n1. e4 *\n')
        for source in (7, None, ["e4 *"]):
            self.assertRaisesRegex(TypeError, "path, bytes", gillspoon.games, source)
        for call in (gillspoon.games, gillspoon.check, gillspoon.convert):
            self.assertRaises(FileNotFoundError, call, self.folder + "/missing.pgn")


class InPieces(unittest.TestCase):
    """However a text is cut, the games, the faults, their places and the export are the same."""

    def check(self, data, count=3, **options):
        whole = seen(data, **options)
        for seed in range(count):
            source = random.Random(seed)
            # with tiny chunks the window lets go what it has read
            with mock.patch.object(gillspoon._sources, "CHUNK", source.choice((1, 7, 64, 4096))):
                most = source.choice((1, 2, 9, 100))
                pieces = Pieces(data, iter(lambda: source.randint(1, most), 0))
                self.assertEqual(seen(pieces, **options), whole, (data, seed))
        return whole

    def either(self, call, *words, **options):
        """What a call gives, or what its fault says."""
        try:
            return call(*words, **options)
        except gillspoon.PgnFault as fault:
            return fault.args

    def check_converted(self, data, sizes=(1, 50, 400, 5000), **options):
        """Compares `convert` with what `games` gives, for pieces of several sizes."""
        wanted = self.either(lambda: b"".join(each(gillspoon.games(data, **options), "text")))
        for size in sizes:
            with mock.patch.object(gillspoon._games, "PIECE", size):
                found = self.either(gillspoon.convert, data, **options)
                self.assertEqual(found, wanted, (data, size))
        return wanted

    def test_vectors(self):
        for vector in vectors():
            data, options = vector["input"].encode(), {"reduced": vector["mode"] == "reduced"}
            if len(data) < 5000:
                self.check(data, **options)
                for text in (data, sound(b"a") + data + b"\n" + sound(b"b")):
                    self.check_converted(text, **options)

    def test_bad_games(self):
        for _, text, _, _ in BAD:
            other = text.replace(b"\n", b"\r\n")
            self.check(sound(b"a") + text + sound(b"b") + other + sound(b"c"))
        for more in (b"", b"1. e4 e5 2. Ke3 *\n" + sound(b"b")):
            got = self.check_converted(archive(10, "plain") + more)
            self.assertEqual(isinstance(got, tuple), more != b"")

    def test_random_damage(self):
        source, whole, faults = random.Random(5), archive(10, "annotated"), 0
        for _ in range(DAMAGED_FILES):
            data = damaged(source, whole)
            self.check(data, 1, checked=source.random() < 0.5)
            got = self.check_converted(data, reduced=source.random() < 0.5)
            faults += isinstance(got, tuple)
        self.assertGreater(faults, DAMAGED_FILES // 2)

    def test_between_games(self):
        between = b"  ; a { b\n% 1-0 {\r{ c ; d\n\n% e }\n% f\r\n ;\r\n%\n{}\n\n \r\r\n\t\r"
        data = b"\xef\xbb\xbf% a\n" + between + b"1. e4 *" + between + b"% 0-1\n*" + between
        whole = self.check(data, 30)
        self.assertEqual([(it[4], data[it[2] - 1:it[2]]) for it in whole], [(1, b"*"), (0, b"*")])

    def test_a_gap_is_let_go(self):
        """Megabytes of empty lines between games do not stay in memory."""
        parts = [b"1. e4 *\n"] + [b" " * 1000 + b"\n\r"] * 9000 + [b"1. d4 *"]
        games, most = self.held(seen, parts)
        self.assertEqual(len(games), 2)
        self.assertLess(most, 1 << 16)

    def test_a_bad_game_is_let_go(self):
        """gillspoon lint does not need its text. For `on_fault` it stays as a whole."""
        lines = [b"1. e4 e9\n", *[b"e9 " * 300 + b"\n"] * 3000]
        bad, parts = b"".join(lines), [*lines, sound(b"b")]
        linter = importlib.import_module("gillspoon._findings").Linter
        found, most = self.held(lambda source: list(linter(source, "a", False).findings()), parts)
        self.assertEqual([it.end - it.begin for it in found], [len(bad)])
        self.assertLess(most, 1 << 16)
        (fault, game), most = self.held(seen, parts)
        self.assertTrue(fault[9] == bad and game[4] == 3)
        self.assertLess(most, 4 << 20)

    def held(self, call, parts):
        """What a call gives for a source in parts, and the most bytes of that in memory."""
        window, sizes = gillspoon._sources.Window, [0]
        more = window.more

        def measured(self, keep):
            got = more(self, keep)
            sizes.append(len(self.data))
            return got

        with mock.patch.object(window, "more", measured):
            return call(Pieces(parts)), max(sizes)

    def test_memory(self):
        """It stays within some MiB, also for a large input, and for one with bad games."""
        # a child's resource.getrusage would have the memory of this process too
        text = ("import gillspoon, re, sys\n"
                "count = 0\n"
                "for game in gillspoon.games(sys.stdin.buffer, on_fault=str):\n"
                "    count += len(game.tags) > 0\n"
                "with open('/proc/self/status') as file:\n"
                "    print(count, re.search(r'VmHWM:\\s*([0-9]+) kB', file.read())[1])\n")
        data = archive(1000, "plain") + b"1. e4 e5 2. Ke3 *\n\n"
        peaks = []
        for rounds in (4, 60):
            ran = run([PYTHON, "-c", text], input=data * rounds, env=environment())
            count, peak = ran.stdout.split()
            self.assertEqual(int(count), 1000 * rounds, ran.stderr)
            peaks.append(int(peak))
        self.assertLess(peaks[1], peaks[0] + 4096)

    def test_an_event_tag_that_begins_no_game(self):
        for text in (b"1. e4 {\n[Event 1\n} *\n", b"{\n[Event \n} 1. e4 ;\n*\n", b"%\n[Event {\n\n",
                     b'% [Event "x"]\n[White "y"] *\n', b'; [Event "x"]\n[White "y"] *\n',
                     b'[White "x"]\n[Event "y"]\n*\n', b'*\n[Event "x"]\n\n', b"\xef\xbb\xbf",
                     b"1. e4\n[Event 1 *\n", b"1. e4 e5 2. Ke3 *\n"):
            data = sound(b"a") + text + sound(b"b") + text + sound(b"c")
            for data in (data, data.replace(b"\n", b"\r\n")):
                self.check_converted(data, range(1, len(data)))

    def test_sound_games_are_not_read_one_by_one(self):
        """Also short texts with a long export, as one piece or as several."""
        texts = (archive(30, "annotated"), archive(30, "plain"), b"1. e4 *\n" * 999, b"*" * 999,
                 b"*" * 3000, b"*", b"")
        wanted = [b"".join(each(gillspoon.games(it), "text")) for it in texts]
        for size in (2000, gillspoon._games.PIECE):
            with mock.patch.object(gillspoon._games, "PIECE", size), \
                    mock.patch.object(gillspoon._games, "_each", side_effect=AssertionError):
                self.assertEqual([gillspoon.convert(it) for it in texts], wanted)

    def test_threads_convert_at_the_same_time(self):
        """Each of the first two calls of the library waits for the other."""
        module, threads = gillspoon._games, []
        real, both = module._library.convert, threading.Barrier(2)

        def convert(*words):
            threads.append(threading.get_ident())
            if len(threads) <= 2:
                both.wait(60)
            return real(*words)

        data = archive(30, "plain")
        wanted = gillspoon.convert(data)
        with mock.patch.object(module, "PIECE", len(data) // 5), \
                mock.patch.object(module.os, "cpu_count", return_value=2), \
                mock.patch.object(module._library, "convert", convert):
            self.assertEqual(gillspoon.convert(data), wanted)
        self.assertGreater(len(threads), 4)
        self.assertEqual(len(set(threads)), 2)


class Sieve(Folder):
    """A caller with on_fault gets the games that gillspoon sieve keeps."""

    def compare(self, data):
        path, faults = self.put("a.pgn", data), []
        ran = run([ROOT + "/bin/gillspoon", "sieve", path, self.folder + "/good",
                   self.folder + "/bad"], env=dict(os.environ, PGN_TOOL=self.program))
        self.assertLessEqual(ran.returncode, 1, ran.stderr)
        texts = each(gillspoon.games(path, on_fault=faults.append), "text")
        self.assertEqual(b"".join(texts), self.get("good"))
        self.assertEqual(each(faults, "text"), [data[it.begin:it.end] for it in faults])
        notes = re.findall(rb"(?m)^% byte (\d+): (.*); line (\d+)\n% bytes (\d+) to (\d+),",
                           self.get("bad"))
        # a byte order mark between games is a fault, and no bad game
        self.assertEqual([(it.offset, it.reason, it.line, it.begin, it.end) for it in faults
                          if it.text not in (b"", b"\xef\xbb\xbf")],
                         [(int(offset), reason.decode(), int(line), int(begin), int(end))
                          for offset, reason, line, begin, end in notes])
        return len(texts), len(faults)

    def test_bad_games(self):
        for name, text, reason, _ in BAD:
            with self.subTest(name):
                _, faults = self.compare(sound(b"a") + text + sound(b"b") + sound(b"c"))
                self.assertGreater(faults, 0)

    def test_parts_that_are_no_games(self):
        """What is behind a game is the text itself, also if it begins as a compressed one."""
        mark, a, b = b"\xef\xbb\xbf", sound(b"a"), sound(b"b")
        for data, counts in (
                *((a.rstrip() + begin + b" e4 *\n" + b, (2, 1))
                  for begin in (b"BZh9", b"PK\x03\x04", b"\x1f\x8b")),
                (mark + a + mark + b + mark, (2, 2)), (a + b"\x1a" + b + b"\x00", (2, 2))):
            self.assertEqual(self.compare(data), counts)

    def test_escape_lines(self):
        """Those just before the next game are its own."""
        bad = b'[Event "x"]\n\n1. e5 *\n'
        for lines in (b"% one\n% two\n", b"% one\n\n% two\n\n", b"% one\nrest *\n% two\n"):
            data = sound(b"a") + bad + lines + sound(b"b")
            self.assertEqual(self.compare(data), (2, 1))
            fault, = [it for it in seen(data) if len(it) == 13]
            own = lines[lines.index(b"% two"):] if b"rest" in lines else lines
            self.assertEqual(fault[8], data.index(own + sound(b"b")))

    def test_numbers(self):
        faults, bad, mark = [], b'[Event "x"]\n\n1. e5 *\n\n', b"\xef\xbb\xbf"
        data = sound(b"a") + bad + sound(b"b") + mark + sound(b"c")
        self.assertEqual([(it.number, it.tags["Event"]) for it in gillspoon.games(
            data, on_fault=faults.append)], [(1, "a"), (3, "b"), (4, "c")])
        self.assertEqual(each(faults, "game"), [2, 4])

    def test_random_damage(self):
        source, whole = random.Random(7), archive(30, "annotated") + archive(30, "plain")
        counts = [self.compare(damaged(source, whole)) for _ in range(DAMAGED_FILES)]
        self.assertGreater(min(map(sum, zip(*counts))), 2 * DAMAGED_FILES)


class RandomGames:
    """Random games: legal moves of a small tree of positions, with all that movetext can have."""

    WORDS = ["good", "{", "(x", "1-0", "%", ";", "$1", "\xfc\u20ac", "\xa0", "[%clk", "e4", "1.",
             "*"]

    def __init__(self, seed):
        self.random = random.Random(seed)
        self.followers = {}
        starts = [INITIAL, "r3k2r/pPppp1pp/8/5pP1/8/8/P1PPPP1P/R3K2R w KQkq f6 0 9",
                  "4k3/P6p/8/8/8/8/p6P/4K3 b - - 99 99000"]
        self.starts = [(INITIAL, "")] + [(it, '[FEN "%s"]' % it) for it in starts[1:]]
        level = starts
        for _ in range(10):
            level = [after for fen in level for _, after in self.moves_from(fen)]
            self.random.shuffle(level)
            del level[90:]

    def moves_from(self, fen):
        """At most three legal moves with the positions after them."""
        if fen not in self.followers:
            found = {}
            for _ in range(200):
                text = "".join(map(self.random.choice, ("PPNBRQK", "abcdefgh", "12345678")))
                for origin in gillspoon.explain(fen, text).legal:
                    played = gillspoon.san(fen, text[0] + origin + text[1:])
                    found[played.san] = played.fen
                if len(found) > 2:
                    break
            self.followers[fen] = list(found.items())[:3]
        return self.followers[fen]

    def notes(self):
        while self.random.random() < 0.3:
            words = self.random.choices(self.WORDS, k=self.random.randint(0, 6))
            yield self.random.choice((
                "$%d" % self.random.randint(0, 255), "!?", "{%s}" % " ".join(words),
                "{%s\n}" % "\n".join(words), "; %s\n" % " ".join(words)))

    def line(self, fen, depth, words):
        """Adds the words of a line from a position."""
        is_begin = True
        while True:
            moves = self.followers.get(fen)
            if not moves or not is_begin and self.random.random() < 0.12:
                return
            san, after = self.random.choice(moves)
            words.append(self.random.choice((san, san + "+", "7. " + san, "..." + san)))
            words.extend(self.notes())
            while depth < 4 and self.random.random() < 0.12:
                words.extend(["(", *self.notes()])
                self.line(fen, depth + 1, words)
                words.extend([")", *self.notes()])
            fen, is_begin = after, False

    def game(self):
        """The text of a game, in import format."""
        fen, tags = self.random.choice(self.starts)
        result = self.random.choice(("1-0", "0-1", "1/2-1/2", "*"))
        values = ["a", "", 'x\\"y', "\\\\", "\xfc \u20ac", "\\n"]
        names = ("White", "Zz", "a", "Event", "1_b")
        for name in self.random.sample(names, self.random.randint(0, 3)):
            tags += '[%s "%s"]' % (name, self.random.choice(values))
        words = [*self.notes()] if self.random.random() < 0.1 else []
        if self.random.random() < 0.95:
            self.line(fen, 0, words)
        return '%s[Result "%s"]\n%s %s\n' % (tags, result, " ".join(words), result)

    def source(self, count):
        for _ in range(count // 100):
            yield "".join(self.game() for _ in range(100)).encode(
                self.random.choice(("utf-8", "utf-8", "cp1252")))


class Written(Test):
    """Games of tags and of the text of their moves, or of lines that were read."""

    FEN = "4k3/8/8/8/8/8/4P3/4K3 w - - 5 9"

    def test_moves_as_text(self):
        for moves, result, movetext, tags in (
                ("1. e4 e5", "*", "1. e4 e5 *", {}),
                ("e2e4 (d4) $1 {best} e5!", "*", "1. e4 ( 1. d4 ) $1 { best } 1... e5 $1 *", {}),
                ("1. e4\n1... e5", "1-0", "1. e4 e5 1-0", {"Result": "1-0"}),
                ("", "1/2-1/2", "1/2-1/2", {"Result": "1/2-1/2"}),
                ("e4 ; all * of it", "*", "1. e4 { all * of it } *", {}),
                ("1. e4 e5 0-1", "0-1", "1. e4 e5 0-1", {}), ("*", "*", "*", {}),
                ("1. e4 e5 0-1 \n", "0-1", "1. e4 e5 0-1", {"Result": "0-1"})):
            text = gillspoon.write_game(tags, moves).decode()
            self.assertEqual(text.count("[Event "), 1, moves)
            self.assertEqual(text.partition("[Result ")[2], '"%s"]\n\n%s\n\n' % (result, movetext))
        for moves, number in (("e4 1-0", 41), ("e4 {", 12), ("e4 Ke3", 34), ("e4 [A", 32)):
            self.fails(gillspoon.PgnFault, gillspoon.write_game, {"Result": "0-1", "White": "Ada"},
                       moves, number=number, white="Ada")

    def test_what_is_refused(self):
        """More than one game; and what is no text, where the TypeError says what to pass."""
        line, noted, longer = (first_line(b"e4 e5 *") for _ in range(3))
        longer.plies[1].san = "e5 * d4"
        for moves in ("e4 * d4", "e4 * *", "e4 1-0 {end}", "* [White \"Bob\"]", longer):
            with self.assertRaisesRegex(ValueError, "more after the result|not a move|input"):
                gillspoon.write_game({}, moves)
        noted.plies[0].notes.append(3.5)
        line.plies[1].san = b"e5"
        for tags, moves, said in (
                ({"WhiteElo": 2500}, "", "the tag WhiteElo is a str such as '2500', not int"),
                ({"A": None}, "", "the tag A is a str, not None: leave the tag out"),
                ({"A": b"x"}, "", r"the tag A is a str, not bytes: pass value.decode\(\)"),
                ({7: "x"}, "", "the name of a tag is a str such as 'White', not int"),
                ([("A", "x")], "", "the tags are a dict such as .*, not list"),
                ({}, ["e4"], "a str such as '1. e4 e5', not list: .* pass ' '.join"),
                ({}, b"e4", "game.moves.. gives it, or a str .*, not bytes"),
                ({}, line.plies[0], "not Ply"),
                ({}, line, "the san of a ply is a str such as 'Nf3', not bytes"),
                ({}, noted, "a note is an int .*, a str .* or a Line .*, not float")):
            self.assertRaisesRegex(TypeError, said, gillspoon.write_game, tags, moves)

    def check_variations(self, source):
        """Each variation becomes a game with its moves and positions."""
        count = 0
        for game in gillspoon.games(source):
            tags = {name: it for name, it in game.tags.items() if name not in ("FEN", "SetUp")}
            _, *noted = noted_in(game.moves())
            for line in [it for it in noted if isinstance(it, gillspoon.Line)]:
                count += 1
                text = gillspoon.write_game(tags, line, encoding=game.encoding)
                written, = gillspoon.games(text)
                self.assertEqual(written.position_at(0), line.fen)
                self.assertEqual(each(written.mainline(), "san", "fen"), each(line, "san", "fen"))
                self.assertEqual("FEN" in written.tags, line.fen != INITIAL)
        return count

    def test_variations(self):
        self.assertGreater(self.check_variations(archive(60, "annotated")), 300)
        self.assertGreater(self.check_variations(Pieces(RandomGames(2).source(1000))), 500)

    def test_tags_of_positions(self):
        line, initial = gillspoon.Line(self.FEN), built("e4")
        line.append("e4")
        wanted = gillspoon.write_game({"FEN": self.FEN}, "e4")
        self.assertIn(b'[FEN "%s"]\n[SetUp "1"]\n\n9. e4 *' % self.FEN.encode(), wanted)
        for tags in ({}, {"FEN": self.FEN}, {"SetUp": "1"}, {"FEN": self.FEN, "SetUp": "1"}):
            self.assertEqual(gillspoon.write_game(tags, line), wanted)
        spelled = {"FEN": self.FEN.replace("5 9", "05 009")}
        self.assertEqual(gillspoon.write_game(spelled, line), gillspoon.write_game(spelled, "e4"))
        for tags, moves, error, said in (
                ({"FEN": INITIAL}, line, ValueError, "FEN tag is not the position of the line, 4"),
                ({"FEN": self.FEN}, gillspoon.Line(), ValueError, "FEN tag is not the position"),
                ({"FEN": self.FEN.replace("w", "b")}, line, ValueError, "FEN tag is not"),
                ({"FEN": self.FEN.replace("5 9", "5 8")}, line, ValueError, "FEN tag is not"),
                ({"SetUp": "0"}, line, ValueError, "has the SetUp tag '1', not '0'"),
                ({"FEN": self.FEN, "SetUp": ""}, line, ValueError, "has the SetUp tag '1', not ''"),
                ({"FEN": "4k3"}, line, gillspoon.FenFault, "4k3"),
                ({"FEN": 7}, line, TypeError, "the tag FEN is a str"),
                ({"SetUp": "1"}, gillspoon.Line(), gillspoon.PgnFault, "without a FEN")):
            self.assertRaisesRegex(error, said, gillspoon.write_game, tags, moves)
        self.assertNotIn(b"FEN", gillspoon.write_game({"SetUp": "0"}, initial))
        self.assertIn(b'[SetUp "1"]', gillspoon.write_game({"FEN": INITIAL}, initial))

    def test_plies_in_another_place(self):
        """A ply or a variation that was played in another position is refused, not replayed."""
        def line():
            return first_line(b"Nf3 (Nc3) Nf6 Ng1 (Nc3) Ng8 Nf3 *")

        for removed, said in ((slice(1), "Nf6"), (slice(2), "Ng1"), (slice(4), "Nf3"),
                              (slice(1, 4), "Nf3")):
            shorter = line()
            del shorter.plies[removed]
            self.assertRaisesRegex(ValueError, said + " was played in another position",
                                   gillspoon.write_game, {}, shorter)
        moved = line()
        moved.plies[4].notes.append(moved.plies[0].variations[0])
        self.assertRaisesRegex(ValueError, "a variation of Nf3 begins in another position",
                               gillspoon.write_game, {}, moved)
        # a variation in place of the line's own moves, also after pickle
        for make in (lambda it: it, copies.deepcopy, pickled):
            longer = make(line())
            longer.plies[2:] = longer.plies[2].variations[0].plies
            longer.append("e5")
            self.assertTrue(gillspoon.write_game({}, longer).endswith(
                b"\n\n1. Nf3 ( 1. Nc3 ) 1... Nf6 2. Nc3 e5 *\n\n"))

    def check(self, source, **options):
        """Each game is written again as the same bytes. Gives the number of games."""
        count = 0
        for count, game in enumerate(gillspoon.games(source, **options), 1):
            again = gillspoon.write_game(game.tags, game.moves(), encoding=game.encoding)
            self.assertEqual(again, game.text)
            self.assertEqual(sum(1 for _ in game.mainline()), game.plies)
        return count

    def test_vectors(self):
        count = 0
        for vector in vectors():
            # an export with more tag pairs than are read is refused, and so not written again
            if "fault" not in vector and vector["output"].count('\n[') < 64:
                count += self.check(vector["input"].encode(), reduced=vector["mode"] == "reduced")
        self.assertGreater(count, 100)

    def test_archives_and_real_files(self):
        for style in ("plain", "annotated"):
            self.assertEqual(self.check(archive(300, style)), 300)
        paths = glob.glob(REAL, recursive=True) or not_tried("pychess is missing")
        count = sum(self.check(path, checked=True, on_fault=str) for path in paths)
        self.assertGreater(count, 1000)

    def test_random_games(self):
        made = RandomGames(1)
        self.assertGreater(len(made.followers), 500)
        self.assertEqual(self.check(Pieces(made.source(RANDOM_GAMES))), RANDOM_GAMES)


class Binding(Folder):
    TEXT = ("import sys, gillspoon\n"
            "path, reduced = sys.argv[1], sys.argv[2:] == ['--reduced']\n"
            "text = gillspoon.convert(path, reduced=reduced)\n"
            "games = list(gillspoon.games(path, reduced=reduced))\n"
            "assert b''.join(it.text for it in games) == text\n"
            "count, plies = gillspoon.check(path)\n"
            "assert (count, plies) == (200, sum(it.plies for it in games)), count\n"
            "sys.stdout.buffer.write(text)\n")

    def test_each_build(self):
        """By Cargo and by rt: the package converts what the program exports."""
        for build, style in itertools.product(("--cargo", "--proved"), ("plain", "annotated")):
            with self.subTest((build, style)):
                static = programs.need_library(build)
                env = environment(GILLSPOON_LIBRARY=os.path.dirname(static) + "/libpgn_c.so")
                path = self.put(style, archive(200, style))
                for words in ([], ["--reduced"]):
                    out = output_of(run([PYTHON, "-c", self.TEXT, path, *words], env=env), err=None)
                    wanted = run([self.program, "export", *words, path]).stdout
                    self.assertTrue(wanted)
                    self.assertTrue(out == wanted, words)

    def test_structs_are_those_of_the_header(self):
        structs = [it for it in vars(gillspoon._library).values()
                   if isinstance(it, type) and issubclass(it, ctypes.Structure)]
        self.assertEqual(len(structs), 10)
        for it in structs:
            self.assertEqual(it._fields_, test_c.STRUCTS[it.__doc__.split()[-1]]._fields_, it)

    def imported(self, path, **more):
        env = {name: it for name, it in os.environ.items() if name != "GILLSPOON_LIBRARY"}
        return run([PYTHON, "-c", "import gillspoon; print(gillspoon._library.path())"],
                   env={**env, "PYTHONPATH": path, **more})

    def test_where_the_library_is(self):
        for module, place in (("a/here", "a/here/gillspoon"), ("b/share/pgn_tool", "b/lib"),
                              ("c/python", "c/crates/pgn_c/out"), ("d/python", "d/cargo/out")):
            path = os.path.join(self.folder, module)
            shutil.copytree(PACKAGE + "/gillspoon", path + "/gillspoon",
                            ignore=shutil.ignore_patterns("__pycache__", "*.so"))
            ran = self.imported(path)
            self.assertNotEqual(ran.returncode, 0)
            said = (b"run bin/install again" if place == "b/lib" else b"in the repository run "
                    b"bin/build_program --library, or pip install ./python")
            self.assertIn(b"ImportError: gillspoon: there is no libpgn_c.so: " + said, ran.stderr)
            os.makedirs(os.path.join(self.folder, place), exist_ok=True)
            file = shutil.copy(library(), os.path.join(self.folder, place, "libpgn_c.so"))
            ran = self.imported(path)
            self.assertEqual(os.path.realpath(ran.stdout.decode().strip()), os.path.realpath(file))
            other = shutil.copy(library(), self.folder + "/other.so")
            ran = self.imported(path, GILLSPOON_LIBRARY=other)
            self.assertEqual(ran.stdout.decode().strip(), other)

    def test_a_library_that_cannot_be_used(self):
        libc = glob.glob("/lib/*/libc.so.6")[0]
        for path in (self.put("x.so", b"no library"), self.folder + "/missing.so", libc):
            ran = self.imported(PACKAGE, GILLSPOON_LIBRARY=path)
            self.assertNotEqual(ran.returncode, 0)
            self.assertIn(("ImportError: gillspoon: %s cannot be used" % path).encode(), ran.stderr)

    def test_fast_start(self):
        """Nothing is imported that only some callers need."""
        text = "import sys, gillspoon; print(*sorted(sys.modules))"
        loaded = set(run([PYTHON, "-c", text], env=environment()).stdout.decode().split())
        self.assertEqual(loaded & {"subprocess", "gzip", "bz2", "zstandard", "argparse", "tempfile",
                                   "dataclasses", "inspect", "multiprocessing"}, set())


class Wheel(Folder):
    """In a fresh virtual environment, without any index."""

    def test_install(self):
        programs_of = self.fresh()
        python, pip = programs_of + "/python", programs_of + "/pip"
        before = run(["git", "status", "--short"]).stdout
        for words in (["--no-build-isolation"], ["--no-index", "--force-reinstall"]):
            output_of(run([pip, "install", *words, "./python"],
                          env=dict(os.environ, PIP_NO_INDEX="1", PATH=programs.PATH)), err=None)
        self.assertEqual(run(["git", "status", "--short"]).stdout, before)
        self.assertIn("import gillspoon\nfor game in gillspoon.games(", text_of("README.md"))
        self.check_installed(python, os.path.dirname(programs_of) + "/lib")
        ran = run([programs_of + "/gillspoon", "lint", "-"], input=b"1. e4 *\n1. d4 *\n",
                  env={"PATH": "/usr/bin:/bin", "HOME": self.folder})
        self.assertEqual(ran.stdout, b"1 file, 2 games, 0 faults\n", ran.stderr)

    def check_installed(self, python, folder):
        """The package and its library are below a folder, and work."""
        text = ("import gillspoon, os\n"
                "print(gillspoon.__file__, gillspoon._library.path(), gillspoon.__version__)\n"
                "print(gillspoon.check(%r))\n"
                "print(*sorted(os.listdir(os.path.dirname(gillspoon.__file__))))\n"
                % (ROOT + "/examples/annotated.pgn"))
        ran = run([python, "-B", "-c", text], env={"PATH": "/usr/bin:/bin"}, cwd=self.folder)
        places, counts, names = output_of(ran).decode().splitlines()
        self.assertRegex(places, "^{0}/.*/__init__.py {0}/.*/libpgn_c.so {1}$".format(
            folder, gillspoon.__version__))
        self.assertEqual(counts, "Totals(games=1, plies=7)")
        ours = {it for it in os.listdir(PACKAGE + "/gillspoon") if "." in it}
        self.assertEqual(set(names.split()) - {"__pycache__"}, ours | {"VERSION", "libpgn_c.so"})

    def fresh(self):
        """The folder of the programs of a new virtual environment."""
        if not os.path.exists(PYTHON) or run([PYTHON, "-c", "import ensurepip"]).returncode:
            not_tried("python3-venv is missing")
        folder = tempfile.mkdtemp(dir=self.folder)
        self.assertEqual(run([PYTHON, "-m", "venv", folder]).returncode, 0)
        return folder + "/bin"

    def sdist(self, package):
        """Builds the source distribution of a folder, and gives its path."""
        out = tempfile.mkdtemp(dir=self.folder)
        text = "import build_wheel, sys; print(build_wheel.build_sdist(sys.argv[1]))"
        shown = output_of(run([PYTHON, "-B", "-c", text, out], cwd=package), err=None)
        self.assertEqual(os.listdir(out), [shown.decode().strip()])
        return os.path.join(out, os.listdir(out)[0])

    def test_source_distribution(self):
        """It has all that its build needs: Cargo builds it outside the repository."""
        programs.need_cargo()
        programs_of, path = self.fresh(), self.sdist(PACKAGE)
        python, pip = programs_of + "/python", programs_of + "/pip"
        self.assertEqual(os.path.basename(path), "gillspoon-%s.tar.gz" % gillspoon.__version__)
        with tarfile.open(path) as archive:
            archive.extractall(self.folder)
        unpacked = os.path.join(self.folder, os.path.basename(path)[:-7])
        self.assertTrue(bytes_of(path) == bytes_of(self.sdist(unpacked)))
        env = dict(os.environ, PATH=programs.PATH, PIP_NO_INDEX="1", HOME=os.path.expanduser("~"))
        del env["GILLSPOON_LIBRARY"]
        ran = run([pip, "install", path], env=dict(env, PATH="/nowhere"), cwd=self.folder)
        self.assertNotEqual(ran.returncode, 0)
        self.assertIn(b"cargo is not on the PATH", ran.stdout + ran.stderr)
        for words in ([path], ["--force-reinstall", "--editable", unpacked]):
            ran = run([pip, "install", *words], env=env, cwd=self.folder, timeout=500)
            self.assertEqual(ran.returncode, 0, ran.stderr)
            self.check_installed(python, self.folder)

    def test_tag(self):
        output_of(run([PYTHON, "-m", "pip", "wheel", "--no-index", "--no-deps", "-w", self.folder,
                       "./python"]), err=None)
        name, = os.listdir(self.folder)
        machine = os.uname().machine
        self.assertRegex(name, r"^gillspoon-[0-9.]+-py3-none-linux_%s\.whl$" % machine)


CALLER = """\
import gzip, io, mmap, pathlib, subprocess, sys
import gillspoon
from typing import Dict, List
child = subprocess.Popen(['cat'], stdout=subprocess.PIPE)
assert child.stdout
def read(source: gillspoon.Source, on_fault: gillspoon.OnFault) -> List[bytes]:
    return [it.text for it in gillspoon.games(source, on_fault=on_fault)]
bad: List[gillspoon.PgnFault] = []
path: str = gillspoon.__version__
gillspoon.write_game({'White': 'Ada'}, '1. e4').decode()
line = gillspoon.Line()
ply = line.append('e4', nags=[1], comment='a', uci=False)
ply.add_variation('d4').append('d5')
side: str = line.plies[0].side
number: int = line.plies[0].move_number"""


class Typed(Folder):
    def test_mypy(self):
        need("mypy")
        words = ["mypy", "--strict", "--cache-dir", self.folder, "gillspoon"]
        output_of(run(words, cwd=PACKAGE))

    def test_mypy_of_a_caller(self):
        """It checks the kinds of sources, and that what is no source and a change are refused."""
        need("mypy")
        good = ("path", "pathlib.Path(path)", "b''", "bytearray()", "memoryview(b'')",
                "mmap.mmap(0, 0)", "io.BytesIO()", "open(path, 'rb')", "gzip.open(path)",
                "sys.stdin.buffer", "child.stdout")
        bad = ("open(path)", "sys.stdin", "io.StringIO()", "7", "None", "['e4 *']")
        changes = ("next(gillspoon.games(path)).tags['A'] = 'b'",
                   "next(gillspoon.games(path)).result = '1-0'", "line.plies[0].nags = [1]")
        read = "read(%s, bad.append)"
        lines = CALLER.split("\n") + [read % it for it in good]
        refused = [*changes, *(read % it for it in bad)]
        caller = self.put("caller.py", "\n".join([*lines, *refused]) + "\n")
        ran = run(["mypy", "--strict", "--cache-dir", self.folder + "/cache", caller],
                  env=dict(os.environ, PATH=programs.PATH, MYPYPATH=PACKAGE))
        told = re.findall(r"(?m)^.*caller\.py:(\d+): error", ran.stdout.decode())
        self.assertEqual({int(it) - len(lines) for it in told}, set(range(1, len(refused) + 1)),
                         ran.stdout)

    def test_examples_of_docstrings(self):
        names = ["gillspoon"] + ["gillspoon." + os.path.basename(it)[:-3]
                                 for it in glob.glob(PACKAGE + "/gillspoon/_[a-z]*.py")]
        attempted = 0
        for name in names:
            failed, count = doctest.testmod(importlib.import_module(name))
            self.assertEqual(failed, 0, name)
            attempted += count
        self.assertGreater(attempted, 15)

    def test_what_is_public_has_a_docstring(self):
        """And help says what each attribute is."""
        count = 0
        for name in gillspoon.__all__:
            it = getattr(gillspoon, name)
            if name in ("Note", "OnFault", "Source"):
                self.assertRegex(gillspoon.__doc__, r"\n    %s +[a-z]" % name)
            else:
                self.assertTrue(it.__doc__, name)
            shown = pydoc.plain(pydoc.render_doc(it)) if isinstance(it, type) else ""
            for attribute in vars(it) if shown else ():
                if not attribute.startswith("_"):
                    count += 1
                    said = r"(?m)^ \|  %s(\(.*)?\n \|      [A-Z`].*\.$" % attribute
                    self.assertRegex(shown, said)
        self.assertGreater(count, 50)

    def test_version(self):
        said = run([need_program(), "--version"]).stdout.decode()
        self.assertEqual("pgn_tool %s\n" % gillspoon.__version__, said)


# What the sample below a heading of docs/PYTHON.md prints.
PRINTED = {
    "Count the openings by their first moves": "1 e4 e5 Bc4 Nc6\n1 d4 d5 Nf3 Nc6\n1 c4\n",
    "Collect the positions in a set": "12 positions\n",
    "Find the games that reach a position": "1 Silva, J. Nowak, A.\n",
    "Go back to a game by its place": "Nowak, A. * 4\n",
    "Visit every variation":
        "1 10 moves, to depth 1\n2 4 moves, to depth 0\n4 1 moves, to depth 0\n",
    "Build a game of moves":
        '[Event "?"]\n[Site "?"]\n[Date "????.??.??"]\n[Round "?"]\n[White "Silva, J."]\n'
        '[Black "Nowak, A."]\n[Result "1-0"]\n[WhiteElo "1850"]\n\n'
        "1. e4 e5 2. Bc4 Nc6 3. Qh5 Nf6 4. Qxf7# 1-0\n\n"
        "1. e4 e5 2. Bc4 Nc6 3. Qh5 Nf6 $4 ( 3... g6 $1 { defends } 4. Qf3 ) 4. Qxf7#\n1-0\n"
        "4 white Qxf7# h5f7\nmove is not legal: Kxf7\n",
}
# What is said of the bad game of the samples.
FAULT = "line 14, column 13: move is not legal: Bd4 (game 3, Okafor, Ben - Amaral, Rita)"


class Documents(Folder):
    """The samples in Python of all documents, each in a folder with games.pgn."""

    def setUp(self):
        super().setUp()
        text = b"".join(bytes_of("examples/%s.pgn" % it) for it in ("annotated", "one-bad-game"))
        need("zstd")
        self.assertEqual(run(["zstd", "-q", self.put("games.pgn", text)]).returncode, 0)
        shutil.copytree(ROOT + "/examples", self.folder + "/examples")

    def ran(self, text, *words):
        path = self.put("sample.py", text.encode())
        return run([PYTHON, path, *words], cwd=self.folder, env=environment())

    def sample(self, heading, *words, without="games.pgn: %s\n" % FAULT):
        """What the sample below a heading of docs/PYTHON.md prints, but the line of the fault."""
        shown = output_of(self.ran(self.text_of(heading), *words)).decode()
        return shown.replace("pgn.zst: ", "pgn: ").replace(without, "")

    def text_of(self, heading):
        """The sample below a heading."""
        sample = r"(?ms)^#+ %s$.*?^```python\n(.*?)^```$" % re.escape(heading)
        return re.search(sample, text_of("docs/PYTHON.md"))[1]

    def test_the_five_lines(self):
        shown = self.sample("The Python package")
        self.assertTrue(shown.startswith("1 Silva, J. 1-0 7\n1 e4 rnbqkbnr/pppppppp/8/8/4P3/"))
        self.assertEqual(shown.count("\n"), 3 + 12)

    def test_each_sample_of_other_documents(self):
        """And the one that prints the moves before a fault."""
        places = []
        for place, text, said in samples("python"):
            if not place.startswith("docs/PYTHON.md") or "moves_before" in text:
                places.append(place)
                with self.subTest(place):
                    shown = output_of(self.ran(text)).decode()
                    self.assertTrue(shown)
                    if said is not None or "moves_before" in text:
                        self.assertEqual(shown, said)
        ours = [it for it in places if it.startswith("docs/PYTHON.md")]
        self.assertTrue(ours and len(places) - len(ours) > 1, places)

    def test_there_are_ten_recipes(self):
        headings = re.findall(r"(?m)^### (.*)$", text_of("docs/PYTHON.md"))
        self.assertGreaterEqual(len(headings), 10)
        tested = set(re.findall(r'self\.sample\("(.*?)"', text_of(__file__)))
        self.assertEqual(set(headings) - tested - set(PRINTED), set())

    def test_what_samples_print(self):
        for heading, printed in PRINTED.items():
            with self.subTest(heading):
                self.assertEqual(self.sample(heading), printed)

    def test_what_samples_write(self):
        self.sample("Filter by player")
        text = self.get("chosen.pgn")
        self.assertEqual((text.count(b"[Event "), text.count(b'[White "Silva, J."]')), (3, 2))
        self.sample("Take out comments and variations")
        text = self.get("bare.pgn")
        self.assertIn(b"\n\n1. e4 e5 2. Bc4 Nc6 3. Qh5 Nf6 $2 4. Qxf7# 1-0\n\n", text)
        self.assertEqual(text.count(b'[Annotator "none"]'), 3)

    def test_an_older_output_is_kept(self):
        """Every sample that writes a file does so when its input was read."""
        parts = re.split(r"(?m)^### (.*)$", text_of("docs/PYTHON.md"))
        writing = {head: re.findall(r'"(\w+\.pgn)"[,)]', text) for head, text
                   in zip(parts[1::2], parts[2::2]) if '"wb"' in text}
        self.assertGreater(len(writing), 2)
        damaged = gzip.compress(self.get("games.pgn") * 1000)[:-100]
        for head, names in writing.items():
            for name, data in itertools.product(set(names) - {"games.pgn"}, (damaged, None)):
                self.put(name, b"old")
                os.remove(self.put("games.pgn", b""))
                if data:
                    self.put("games.pgn", data)
                ran = self.ran(self.text_of(head))
                self.assertNotEqual(ran.returncode, 0, head)
                self.assertIn(b"Error: ", ran.stderr)
                self.assertEqual(self.get(name), b"old", head)

    def test_report(self):
        self.assertEqual(
            self.sample("Report what is rejected", without=""),
            "games.pgn: " + FAULT + "\n    in "
            "rnbqkbnr/pppp1ppp/8/4p3/4P3/8/PPPP1PPP/RNBQKBNR w KQkq e6 0 2\n")
        self.assertEqual(self.get("bad.pgn"), b'[White "Okafor, Ben"]\n[Black "Amaral, Rita"]\n\n'
                                              b"1. e4 e5 2. Bd4 *\n\n")

    def test_pandas(self):
        if run([PYTHON, "-c", "import pandas"]).returncode:
            not_tried("python3-pandas is missing")
        shown = self.sample("A table for pandas").split()
        self.assertEqual(shown, "count mean result * 2 2.5 1-0 1 7.0".split())

    def archives(self):
        """Some more files, and the counts of all by one process."""
        for number in range(5):
            self.put("a%d.pgn" % number, archive(20, "plain") + self.get("games.pgn"))
        counts, bad = {"bad": 0}, []
        for path in glob.glob(self.folder + "/*.pgn"):
            for game in gillspoon.games(path, on_fault=bad.append):
                counts[game.result] = counts.get(game.result, 0) + 1
        counts["bad"] = len(bad)
        self.assertEqual((len(bad), sum(counts.values())), (6, 5 * 24 + 4))
        return counts

    def test_processes(self):
        counts = self.archives()
        self.assertEqual(ast.literal_eval(self.sample("Many files by all processors")), counts)

    def test_dask(self):
        """A scheduler and two workers on the loopback of this machine."""
        need("dask-scheduler", "dask-worker")
        counts, place = self.archives(), self.folder + "/scheduler.json"
        env, log = environment(), open(self.folder + "/log", "wb")
        self.addCleanup(log.close)

        def start(*words):
            child = subprocess.Popen([*words, "--no-dashboard", "--scheduler-file", place], env=env,
                                     cwd=self.folder, stdout=log, stderr=log)
            self.addCleanup(child.wait)
            self.addCleanup(child.terminate)

        start("dask-scheduler", "--host", "127.0.0.1", "--port", "0")
        for _ in range(2):
            start("dask-worker", "--nthreads", "1", "--no-nanny")
        begun = time.monotonic()
        while not os.path.exists(place) and time.monotonic() < begun + 60:
            time.sleep(0.1)
        address = json.loads(text_of(place))["address"]
        self.assertTrue(address.startswith("tcp://127.0.0.1:"), address)
        shown = self.sample("Many machines by Dask", address)
        self.assertEqual(ast.literal_eval(shown), counts)
