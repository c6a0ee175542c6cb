"""Tests of the library for C as it is installed, by Cargo and by rt: one call for each game."""
import ctypes
import glob
import itertools
import os
import re
import unittest
from ctypes import c_char, c_size_t, c_uint8, c_uint32, c_uint64, c_void_p

import test_library
from documents import samples
from programs import (ROOT, archive, bytes_of, need, need_library, need_program,
                      need_proved_program, new_folder, output_of, run, text_of, vectors, write_file)

OK, FAULT, FULL, NO_MODE, NO_GAME, MORE, BAD_PLACE = range(7)
SAN, UCI, SAN_FEN, UCI_FEN, SAN_KEY, UCI_KEY = range(6)
# The fields of a line of a move, for pgn_items, and all of them.
ITEM_SAN, ITEM_UCI, ITEM_FEN, ITEM_KEY = 1, 2, 4, 8
ALL_FIELDS = ITEM_SAN + ITEM_UCI + ITEM_FEN + ITEM_KEY
MARKERS = {1: b"1-0", 2: b"0-1", 3: b"1/2-1/2", 4: b"*"}
# As 1. e4 e5 leave it.
OPEN_GAME = b"rnbqkbnr/pppp1ppp/8/4p3/4P3/8/PPPP1PPP/RNBQKBNR w KQkq e6 0 2"
INITIAL = b"rnbqkbnr/pppppppp/8/8/8/8/PPPPPPPP/RNBQKBNR w KQkq - 0 1"
# As 1. Nf3 and Nf6 leave it.
KNIGHTS = (b"rnbqkbnr/pppppppp/8/8/8/5N2/PPPPPPPP/RNBQKB1R b KQkq - 1 1\n"
           b"rnbqkb1r/pppppppp/5n2/8/8/5N2/PPPPPPPP/RNBQKB1R w KQkq - 2 2\n")
TEXT = b'[White "A \\"B\\""] [Result "1-0"] e4 (d4 d5) e5 {a word} 1-0\n% a line\n[A "b"] Nf3 *'
EXAMPLES = sorted(glob.glob(ROOT + "/examples/*.pgn"))
KINDS = {"uint32_t": c_uint32, "uint64_t": c_uint64, "size_t": c_size_t}


def field(text):
    """A field as the header has it. Bytes are a text that a zero ends, or a number a square."""
    kind, name, size = re.fullmatch(r"(\w+) (\w+)(?:\[(\d+)\])?", text).groups()
    byte = c_uint8 if name == "origins" else c_char
    return name, byte * int(size) if size else KINDS[kind]


STRUCTS = {name: type(name, (ctypes.Structure,), {"_fields_": [*map(field, fields)]})
           for name, fields in test_library.c_structs().items()}


def in_turn(call, end="end"):
    """What a call gives from the place 0 on, and then in turn from the end of each game or tag."""
    at = 0
    while True:
        found = call(at)
        yield found
        if found[0].status != OK:
            return
        assert getattr(found[0], end) > at
        at = getattr(found[0], end)


class Library:
    """The calls of a shared library, as the header declares them."""

    def __init__(self, path):
        self.calls = ctypes.CDLL(path)
        for name, (result, words) in test_library.declared().items():
            function = getattr(self.calls, name)
            function.restype = {**STRUCTS, **KINDS}[result]
            function.argtypes = [KINDS.get(it, c_void_p) for it in words.split(", ") if it]

    def call(self, name, *words):
        """The result of a call. A text is handed over as its address and its length, or as none."""
        parts = [(it, len(it or b"")) if isinstance(it, (bytes, type(None))) else (it,)
                 for it in words]
        return getattr(self.calls, name)(*itertools.chain(*parts))

    def filled(self, name, words, capacity, more=(), may_be_used=False):
        """The result of a call that gets a buffer behind words, and what it wrote there.

        All behind that stays. Without a capacity there is room for all that comes of the texts.
        """
        if capacity is None:
            capacity = 65536 + sum(64 * len(it) for it in words if isinstance(it, bytes))
        buffer = ctypes.create_string_buffer(b"\xAA" * (capacity + 8), capacity + 8)
        result = self.call(name, *words, buffer, capacity, *more)
        assert result.written <= capacity
        behind = capacity if may_be_used else result.written
        assert buffer.raw[behind:] == b"\xAA" * (capacity + 8 - behind)
        return result, buffer.raw[: result.written]

    def convert(self, data, mode=0, capacity=None):
        """The result for the whole text, and what was written."""
        return self.filled("pgn_convert", [data], capacity, [mode])

    def next_game(self, data, at=0, mode=0, missing=0, capacity=None, name="pgn_next_game"):
        """The result for the game behind a place, and what was written."""
        return self.filled(name, [data, at, mode, missing], capacity)

    def read_game(self, *words):
        """The same, but the tag section alone was written."""
        return self.next_game(*words, name="pgn_read_game")

    def line(self, fen, data, line_format=0, capacity=None):
        """The result for a line of play, and the lines that were written."""
        result, text = self.filled("pgn_line", [fen, data, line_format], capacity)
        assert text.count(b"\n") == result.plies
        return result, text

    def items(self, data, at=0, first=0, fields=ALL_FIELDS, capacity=None):
        """The result for the items of the game behind a place, and the lines that were written."""
        return self.filled("pgn_items", [data, at, first, fields], capacity, may_be_used=True)

    def fen_by(self, name, fen, capacity=96):
        """The result of a call that writes a form of a FEN, and what it wrote."""
        buffer = ctypes.create_string_buffer(b"\xAA" * 96, 96)
        return self.call(name, fen, buffer, capacity), buffer.raw.rstrip(b"\xAA")

    def games(self, data, mode=0, missing=0):
        """The results for the games of a text in turn, each with what was written."""
        return in_turn(lambda at: self.next_game(data, at, mode, missing))

    def games_in_chunks(self, data, size, mode, missing):
        """The same for a caller who has the text in chunks, and gives more where that is asked."""
        at, known = 0, 0
        while True:
            game, text = self.next_game(data[:known], at, mode, missing)
            is_open = game.status in (MORE, NO_GAME) or game.status == OK and game.end == known
            if is_open and known < len(data):
                known = min(len(data), known + size)
                continue
            yield game, text
            if game.status != OK:
                return
            at = game.end


def fields(game):
    return tuple(getattr(game, name) for name, _ in game._fields_)


def chosen(result, *names):
    """Some fields of a result."""
    return {it: getattr(result, it) for it in names}


def tag_section(library, text):
    """The tag pairs of an export text, as they are written, and the place behind them."""
    *tags, _ = [it for it, in in_turn(lambda at: [library.call("pgn_tag_at", text, at)], "next")]
    pairs = [(text[it.name_at : it.name_at + it.name_length],
              text[it.value_at : it.value_at + it.value_length]) for it in tags]
    return pairs, tags[-1].next if tags else 0


def lines_that_fit(texts, first, capacity):
    """What a buffer holds of the lines of items from a number on, and the number of the next item.

    The texts are those of the items in turn. All of it is there if its end is, whole lines or not.
    """
    fronts = enumerate(itertools.accumulate(texts[first:]), first + 1)
    fitting = [(front, number) for number, front in fronts if len(front) <= capacity
               and (number == len(texts) or not front or front.endswith(b"\n"))]
    return fitting[-1] if fitting else (b"", first)


class Replay:
    """The items of an export text, by a call of pgn_san for each of its moves."""

    def __init__(self, library):
        self.library, self.moves = library, {}

    def move(self, fen, word):
        """The UCI of the move that a SAN names, the position after it, and its key."""
        if (fen, word) not in self.moves:
            move = self.library.call("pgn_san", fen, word, SAN)
            assert (move.status, move.san) == (OK, word), (fen, word)
            _, key = self.library.fen_by("pgn_key", move.fen)
            self.moves[fen, word] = move.uci, move.fen, key
        return self.moves[fen, word]

    def texts(self, export, fields=ALL_FIELDS):
        """The texts of the items in turn. The first one is that of the tags."""
        pairs, behind = tag_section(self.library, export)
        _, fen = self.library.fen_by("pgn_fen_normalize", dict(pairs).get(b"FEN", INITIAL))
        before, texts, opened, words = fen, [b""], [], iter(export[behind:].split())
        for word in words:
            if word == b"(":
                opened.append((before, fen))
                fen = before
                texts.append(b"(\n")
            elif word == b")":
                before, fen = opened.pop()
                texts.append(b")\n")
            elif word == b"{":
                texts += [b"C", *(b"\t" + it for it in iter(words.__next__, b"}")), b"\n"]
            elif word.startswith(b"$"):
                texts.append(b"G\t%s\n" % word[1:])
            elif word in MARKERS.values():
                texts.append(b"R\t%s\n" % word)
            elif not word.endswith(b"."):
                _, side, _, _, _, number = fen.split()
                uci, after, key = self.move(fen, word)
                before, fen = fen, after
                shown = [it for at, it in enumerate((word, uci, after, key)) if fields >> at & 1]
                number += b"." if side == b"w" else b"..."
                texts.append(b"\t".join([b"M", number, *shown]) + b"\n")
        assert not opened
        return texts


class Installed:
    """The tests of one build."""

    build = None

    @classmethod
    def setUpClass(cls):
        need_library(cls.build)
        if cls.build == "--proved":
            need_proved_program()
        cls.folder = new_folder(cls)
        cls.prefix = cls.folder + "/prefix"
        output_of(run([ROOT + "/bin/install", cls.build, cls.prefix], timeout=300), err=None)
        cls.library = Library(cls.prefix + "/lib/libpgn_c.so")

    def check(self, result, about=None, **wanted):
        """These fields of a result."""
        self.assertEqual(chosen(result, *wanted), wanted, about)

    def check_nothing(self, found, status):
        """The status, and nothing else."""
        result, text = found
        self.assertEqual((fields(result), text), ((status, *fields(type(result)())[1:]), b""))

    # ---- a program in C

    def compiled(self, source, *words):
        """The path of a program in C, compiled with these words."""
        program = self.folder + "/program"
        output_of(run(["cc", "-std=c99", "-Wall", "-Wextra", "-Werror", "-O2", source, *words, "-o",
                       program]))
        return program

    def check_loop(self, words):
        """The program of LIBRARY that loops over the games. Gives what ldd says of it."""
        program, env = need_program(), dict(os.environ, LD_LIBRARY_PATH=self.prefix + "/lib")
        text = next(it for _, it, _ in samples("c") if "pgn_next_game" in it)
        write_file(self.folder + "/loop.c", text)
        loop = self.compiled(self.folder + "/loop.c", *words)
        texts = [archive(30, style, 30) for style in ("plain", "annotated")]
        texts += map(bytes_of, EXAMPLES)
        self.assertGreater(len(texts), 7)
        for text in [*texts, b"", b"\n\n; nothing\n"]:
            ours, theirs = run([loop], input=text, env=env), run([program, "export"], input=text)
            self.assertEqual((ours.stdout, ours.stderr, ours.returncode),
                             (theirs.stdout, theirs.stderr, theirs.returncode))
        ran = run(["ldd", loop])
        return ran.stdout + ran.stderr

    def flags(self, *words):
        """What pkg-config says of the library that is installed."""
        need("pkg-config")
        env = dict(os.environ, PKG_CONFIG_PATH=self.prefix + "/lib/pkgconfig")
        out = output_of(run(["pkg-config", "--cflags", "--libs", *words, "pgn_c"], env=env))
        return out.decode().split()

    @property
    def static(self):
        """The words for the static library."""
        return ["-I%s/include" % self.prefix, self.prefix + "/lib/libpgn_c.a"]

    def test_a_program_with_each_library(self):
        """With the shared one, and with the static one: alone, as pkg-config says, all static."""
        shared, static = self.flags(), self.flags("--static")
        self.assertEqual(shared, [self.static[0], "-L%s/lib" % self.prefix, "-lpgn_c"])
        named = [self.static[1] if it == "-lpgn_c" else it for it in static]
        for words, said, is_said in (
                (shared, b"libpgn_c.so", True), (self.static, b"libpgn_c", False),
                (named, b"libpgn_c", False), ([*static, "-static"], b"not a dynamic exe", True)):
            with self.subTest(words):
                self.assertEqual(said in self.check_loop(words), is_said)

    def test_version(self):
        """That of the header, which is in the name of the shared library too."""
        minor, number = re.search(r'PGN_VERSION "(\d+\.\d+).*"\n.*_NUMBER (\d+)',
                                  text_of(self.prefix + "/include/pgn.h")).groups()
        self.assertEqual(self.library.calls.pgn_version(), int(number))
        self.assertEqual(os.readlink(self.prefix + "/lib/libpgn_c.so"), "libpgn_c.so." + minor)

    def test_a_small_stack(self):
        """Half of what is asked for, for each way to convert: bench/calls.c has them."""
        program = self.compiled(ROOT + "/bench/calls.c", *self.static)
        data = archive(10, "annotated")
        _, wanted = self.library.convert(data)
        items = b"".join(it for _, it in self.items_of_games(data, ITEM_SAN + ITEM_UCI + ITEM_FEN))
        for way, text in (("whole", wanted), ("games", wanted), ("from-marker", wanted),
                          ("items", items)):
            ran = run(["sh", "-c", 'ulimit -s 128 && exec "$@"', "sh", program, way], input=data)
            self.assertEqual((ran.returncode, ran.stdout, ran.stderr), (0, text, b""), way)

    # ---- the worked inputs

    def check_verdict(self, vector, last, games):
        told = vector.get("fault")
        if told:
            message = told["message"].encode()
            self.check(last, fault=told["number"], place=told["place"], message=message)
            self.assertIn(last.status, (FAULT, MORE))
            self.assertEqual(message[last.reason_at :], message.split(b": ", 1)[1])
        else:
            self.assertEqual(last.status, NO_GAME)
            self.assertEqual((len(games), sum(it.plies for it in games)),
                             (vector["games"], vector["plies"]))

    def test_each_vector(self):
        """The games one by one are the export, in both modes, and their end is the verdict."""
        for vector, (mode, name) in itertools.product(vectors(), enumerate(("full", "reduced"))):
            with self.subTest((vector["file"], name)):
                data = vector["input"].encode()
                whole, text = self.library.convert(data, mode)
                found = list(self.library.games(data, mode))
                last = self.check_games(data, found)
                self.assertEqual(b"".join(it for _, it in found), text)
                self.check(last, **chosen(whole, "fault", "place", "message"))
                if whole.status == OK:
                    self.assertEqual(len(found) - 1, whole.games)
                if vector["mode"] == name:
                    self.assertEqual(text, vector["output"].encode())
                    self.check_verdict(vector, last, [it for it, _ in found[:-1]])

    def test_each_vector_as_checked(self):
        """As `export --checked` has the same file."""
        program, path = need_program(), self.folder + "/checked.pgn"
        for vector in vectors():
            data = vector["input"].encode()
            write_file(path, data)
            for mode, option in ((0, []), (1, ["--reduced"])):
                ran = run([program, "export", "--checked", *option, path])
                found = list(self.library.games(data, mode, 1))
                last = self.check_games(data, found)
                self.assertEqual(b"".join(it for _, it in found), ran.stdout, vector["file"])
                self.assertEqual((last.message + b"\n" * bool(last.message), last.status == NO_GAME),
                                 (ran.stderr, ran.returncode == 0), vector["file"])

    def check_games(self, data, found):
        """Where each game ends, its marker, and where that is. Gives the result at the end."""
        *games, (last, _) = found
        self.check(last, end=0, marker_at=0, plies=0, marker=0)
        for game, text in games:
            marker = MARKERS[game.marker]
            self.assertEqual(data[game.marker_at : game.end], marker)
            self.check(game, fault=0, place=0, message=b"")
            self.assertTrue(text.endswith(marker + b"\n\n"), text)
            self.assertEqual(dict(tag_section(self.library, text)[0])[b"Result"], marker)
        return last

    def test_games_of_archives(self):
        """Plies and the last position are those of `list`."""
        program = need_program()
        for style in ("plain", "annotated"):
            data = archive(40, style, 30)
            rows = run([program, "list"], input=data).stdout.splitlines()
            found = list(self.library.games(data))
            self.assertEqual((found[-1][0].status, len(found)), (NO_GAME, 41))
            for row, (game, _) in zip(rows, found):
                self.assertEqual([MARKERS[game.marker], b"%d" % game.plies, game.fen],
                                 row.split(b"\t")[-3:])

    def test_a_text_in_chunks(self):
        """Chunks of each size give the same games and the same end."""
        for vector, missing in itertools.product(vectors(), (0, 1)):
            data = vector["input"].encode()
            whole = [(fields(game), text) for game, text in self.library.games(data, 0, missing)]
            for size in (1, 7) if len(data) < 400 else (97,):
                found = self.library.games_in_chunks(data, size, 0, missing)
                self.assertEqual([(fields(game), text) for game, text in found], whole,
                                 (vector["file"], size, missing))

    # ---- places, modes, buffers

    def test_places(self):
        """All bytes before the place count as white space."""
        length = len(TEXT)
        for call in (self.library.next_game, self.library.read_game, self.library.items):
            for text, place in ((TEXT, length), (b"", 0), (b" {a} ; b\n", 0)):
                self.check_nothing(call(text, place), NO_GAME)
            for place in (length + 1, 1 << 62, (1 << 62) + 1, (1 << 64) - 1):
                self.check_nothing(call(TEXT, place), BAD_PLACE)
        first, second = [game for game, _ in self.library.games(TEXT)][:2]
        self.assertEqual((first.plies, second.plies, second.end), (2, 1, length))
        # any place between the two games
        for place in range(first.end, TEXT.index(b"% a")):
            self.assertEqual(fields(self.library.next_game(TEXT, place)[0]), fields(second))
        for place in range(length + 1):
            game, export = self.library.next_game(TEXT, place)
            lines, text = self.library.items(TEXT, place)
            self.check(lines, place, **chosen(game, "fault", "place", "message", "end"))
            if game.status == OK:
                self.assertEqual(text, b"".join(Replay(self.library).texts(export)))

    def test_unknown_modes(self):
        for call in (self.library.next_game, self.library.read_game):
            for mode, missing in ((2, 0), (0, 2), (1 << 31, 1), (1, (1 << 32) - 1), (2, 2)):
                self.check_nothing(call(TEXT, 0, mode, missing), NO_MODE)
            # before the place
            self.check_nothing(call(TEXT, len(TEXT) + 1, 2), NO_MODE)

    def test_conversions(self):
        all_games, whole = self.library.convert(TEXT)
        self.check(all_games, status=OK, games=2, plies=3, message=b"")
        none, text = self.library.convert(TEXT, 2)
        self.assertEqual((none.status, text), (NO_MODE, b""))
        reduced, text = self.library.convert(TEXT, 1)
        self.assertEqual(reduced.status, OK)
        self.assertLess(len(text), len(whole))

    def test_buffers_of_each_size(self):
        """A front is written of all games, of a game, and of its tag section alone."""
        read, game = self.library.read_game, {"end": 0, "marker": 0, "plies": 0, "fen": b""}
        for call, words, nothing in ((self.library.convert, [0], {"games": 0}),
                                     (self.library.next_game, [0, 0, 0], game),
                                     (self.library.next_game, [0, 0, 1], game),
                                     (read, [0, 0, 0], game), (read, [0, 0, 1], game)):
            result, whole = call(TEXT, *words)
            self.assertEqual((result.status, result.written), (OK, len(whole)))
            for capacity in range(len(whole)):
                short, text = call(TEXT, *words, capacity)
                self.check(short, status=FULL, fault=51, **nothing,
                           message=b"byte %d: output cannot be written" % short.place)
                self.assertEqual(text, whole[:capacity])
                self.assertLessEqual(short.place, getattr(result, "end", len(TEXT)))
                if call == read:
                    self.assertEqual(short.place, result.marker_at)
            for capacity in range(len(whole), len(whole) + 3):
                same, text = call(TEXT, *words, capacity)
                self.assertEqual((fields(same), text), (fields(result), whole))

    def test_tag_sections_alone(self):
        """The result is that of the conversion, and the section its text up to the empty line."""
        for data, mode, missing in itertools.product(
                (TEXT, b"e4 1-0", b"[Result \"0-1\"] e4 1-0", b"e4 e5 Bd4 *", b"e4", b"d4 0-1 ",
                 b"e4 1/2-1/2", b"", b"[Black \"B\"]", b"% *"), (0, 1), (0, 1)):
            game, text = self.library.next_game(data, 0, mode, missing)
            read, tags = self.library.read_game(data, 0, mode, missing)
            section = text[: text.index(b"]\n\n") + 3] if game.status == OK else b""
            game.written = len(section)
            self.assertEqual((fields(read), tags), (fields(game), section), (data, mode, missing))

    def test_escape_lines(self):
        """`%` begins one in the first column of the text, whatever the place of the call."""
        lines_begin = b"*\n", b"*\r", b"*\r\n", b"", b"\xEF\xBB\xBF", b"\n\n"
        for before in (*lines_begin, b"* ", b"*", b"*\n ", b"\xBB\xBF", b"*\xEF\xBB\xBF",
                       b"\n\xEF\xBB\xBF"):
            at = len(before)
            game, _ = self.library.next_game(before + b"% 1-0\n*", at)
            lines, written = self.library.items(before + b"% 1-0\n*", at)
            if before in lines_begin:
                self.check(game, before, status=OK, marker=4, end=at + 7)
                self.assertEqual((lines.status, written), (OK, b"R\t*\n"), before)
            else:
                fault = {"status": FAULT, "fault": 1, "place": at}
                self.check(game, before, **fault, message=b"byte %d: stray byte" % at)
                self.check(lines, before, **fault, written=0)

    # ---- what else is said

    def test_the_position_in_which_a_move_was_rejected(self):
        d4 = b"rnbqkbnr/ppp1pppp/8/3p4/3P4/8/PPP1PPPP/RNBQKBNR w KQkq d6 0 2"
        rooks = b"7k/8/8/8/8/8/8/R4R1K w - - 0 1"
        last = b"7k/8/8/8/8/8/8/R4R1K b - - 0 99999"
        start = b'[SetUp "1"] [FEN "%s"] '
        for text, fault, fen in (
                (b"e4 e5 Bd4 *", 34, OPEN_GAME), (b"e4 (d4 d5 Bd4) *", 34, d4),
                (b"e4 (d4 d5) e5 (c5) Bd4 *", 34, OPEN_GAME),
                (b"e4 e5 (c5 Nf3) (e6) Bd4 *", 34, OPEN_GAME),
                (start % rooks + b"Rc1 *", 35, rooks), (start % last + b"Kg7 *", 36, last),
                (b"e4 e5 Bd9 *", 33, b""), (b"e4 e5 ) *", 39, b""), (b"(e4) *", 37, b"")):
            for missing in (0, 1):
                game, _ = self.library.next_game(text, 0, 0, missing)
                self.check(game, text, status=FAULT, fault=fault, fen=fen)
        # at the end of the text more bytes could make another move of it
        game, _ = self.library.next_game(b"e4 e5 Bd4", 0)
        self.check(game, status=MORE, fault=34, fen=OPEN_GAME)

    def test_tag_pairs(self):
        _, text = self.library.next_game(TEXT, 0)
        pairs, behind = tag_section(self.library, text)
        wanted = re.findall(rb'(?m)^\[(\w+) "(.*)"\]$', text)
        self.assertEqual((pairs, len(pairs)), (wanted, 7))
        self.assertEqual(dict(pairs)[b"White"], rb"A \"B\"")
        self.assertTrue(text[behind:].startswith(b"\n1. e4"), text)
        for at in (behind, 1, len(text), len(text) + 1, (1 << 64) - 1):
            tag = self.library.call("pgn_tag_at", text, at)
            self.assertEqual(fields(tag), (FAULT, 0, 0, 0, 0, 0))

    def test_move_numbers(self):
        """The first number that does not run, with its place; and what is no such number."""
        for text, *wanted in (
                (b"1. e4 e5 2. Nf3 Nc6 1. d4 *", 20, 1, 2),
                (b"1. e4 e5 4. Nf3 5. d4 9. c4 *", 9, 4, 1),
                (b"1. e4 e5 3. Nf3 Nc6 3. d4 *", 9, 3, 1), (b"30. Kd2 Kd7 29. Kd3 *", 12, 29, 30),
                (b"1. e4 (1. d4 9. c4) e5 {9. a} 3. Nf3 *", 30, 3, 1),
                (b'[White "2. a"]\n\n1. e4 e5 ; 2. Nf3\n\n3 . Nf3 *', 35, 3, 1),
                (b"\xef\xbb\xbf%9.\n1. e4 5. Nf3 *", 13, 5, 1),
                (b"1. e4 5000000000. e5 *", 6, (1 << 32) - 1, 1)):
            found = self.library.call("pgn_check_numbers", text)
            # a number that does not run is unusual
            self.assertEqual([found.status, found.place, found.number, found.before, found.unusual],
                             [FAULT, *wanted, 1], text)
        for text in (b"", b"e4 e5 Nf3 *", b"1 e4 e5 9 Nf3 *", b"1. e4 1... e5 2. Nf3 2... Nc6 *",
                     b"1. e4 e5 Nf3 Nc6 3. d4 *", b"1. e4 2. e5 3. Nf3 4. Nc6 *",
                     b"30. Kd2 Kd7 31. Kd3 *",
                     b"1. e4 (1. d4 (9. a)) e5 $9 {7. ( 8.} ! 2. Nf3 ; 9.\n%9.\nNc6 3. d4 *"):
            self.check(self.library.call("pgn_check_numbers", text), text, status=OK, place=0,
                       number=0, before=0)

    def test_unusual_parts_of_a_game(self):
        """Whether a closer look pays: outside comments, strings and escape lines."""
        for unusual, texts in (
                (1, (b"1. Pe4 *", b"1. e4 (1. Pd4) *", b"1. e4 0000 *", b"1. e4 (1. d4 0000) *",
                     b"1. e4 ;a\n*", b"1. e4;", b"%a\n*", b"1. e4\n%a\n*", b"\xef\xbb\xbf%a\n*",
                     b"1. e4 (!) *", b"1. e4 ( \n\t$1) *", b"1. e4 (?", b"1. e4 {a} ;b\n*",
                     b'[White "a"] ; b\n*', b"1. e4 e5 1. d4 2. c4 0. b4 *")),
                (0, (b"", b"*", b"1. e4! (1. d4 $1) e5 2. O-O 1/2-1/2", b"00000 000 1000 *",
                     b"e8=P *", b"aP0000 *", b"1. e4 {P ; % (! 0000 \n%a} *", b"1. e4 () *",
                     b"1. e4 (", b"1. e4 ({!}) *", b'[White "P ; % (! 0000 \\" ;"] 1. e4 *',
                     b"\xef\xbb\xbf1. e4 *", b"1. e4 $1 ! (1. d4) *"))):
            for text in texts:
                self.check(self.library.call("pgn_check_numbers", text), text, unusual=unusual)

    # ---- moves, and lines of play

    def san(self, fen, text, notation=0):
        return self.library.call("pgn_san", fen, text, notation)

    def check_line(self, wanted, *words):
        """The lines of a line of play that has no fault."""
        result, text = self.library.line(*words)
        self.assertEqual((fields(result), text),
                         ((OK, 0, 0, 0, len(wanted), wanted.count(b"\n")), wanted), words)

    def test_notations(self):
        castles = b"r3k3/6P1/8/8/8/8/8/4K2R w Kq - 0 1"
        for fen, text, notation, san, uci in (
                (INITIAL, b"Nf3", SAN, b"Nf3", b"g1f3"), (INITIAL, b"g1f3", UCI, b"Nf3", b"g1f3"),
                (INITIAL, b"e2e4", SAN, b"e4", b"e2e4"), (INITIAL, b"e2e4", UCI, b"e4", b"e2e4"),
                (castles, b"O-O", SAN, b"O-O", b"e1g1"), (castles, b"e1g1", UCI, b"O-O", b"e1g1"),
                (castles, b"g8=Q+", SAN, b"g8=Q+", b"g7g8q"),
                (castles, b"g7g8n", UCI, b"g8=N", b"g7g8n")):
            self.check(self.san(fen, text, notation), text, status=OK, fault=0, san=san, uci=uci)
        for fen, text, notation, fault in (
                (INITIAL, b"Nf3", UCI, 33), (INITIAL, b"G1F3", UCI, 33),
                (INITIAL, b"0000", UCI, 33), (INITIAL, b"g1f3", SAN, 34),
                (INITIAL, b"g1g3", UCI, 34), (castles, b"g7g8", UCI, 34), (b"x", b"g1f3", UCI, 26),
                (b"7k/8/8/8/8/8/8/R4R1K b - - 0 99999", b"h8g7", UCI, 36)):
            self.check(self.san(fen, text, notation), text, status=FAULT, fault=fault, san=b"",
                       uci=b"", fen=b"")
        for notation in (2, (1 << 32) - 1):
            self.check_nothing((self.san(INITIAL, b"e4", notation), b""), NO_MODE)

    def test_lines_of_archives(self):
        """They are what pgn_san says of each move, and end in the last position of the game."""
        for game, export in list(self.library.games(archive(40, "plain", 30)))[:-1]:
            movetext = export.partition(b"\n\n")[2][: -len(MARKERS[game.marker]) - 2]
            words = [it for it in movetext.split() if not it.endswith(b".")]
            _, text = self.library.line(INITIAL, movetext)
            rows, fen = [it.split(b"\t") for it in text.splitlines()], INITIAL
            self.assertEqual(len(rows), len(words))
            for word, row in zip(words, rows):
                move = self.san(fen, word)
                self.assertEqual(row, [move.san, move.uci, move.fen])
                fen = move.fen
            self.assertEqual((fen, len(rows)), (game.fen, game.plies))
            moves = b" ".join(it[1] for it in rows)
            fens = b"".join(it[2] + b"\n" for it in rows)
            for wanted, data, line_format in ((text, movetext, SAN), (text, moves, UCI),
                                              (fens, movetext, SAN_FEN), (fens, moves, UCI_FEN)):
                self.check_line(wanted, INITIAL, data, line_format)

    def test_lines_of_play(self):
        for fen, data, line_format, plies, fault, field, place in (
                (INITIAL, b"1. e4 e5 2. Ke3 Nc6", SAN, 2, 34, 0, 12),
                (INITIAL, b"1. e4 {best} e5", SAN, 1, 33, 0, 6),
                (INITIAL, b"e4 1-0", SAN, 1, 33, 0, 3), (INITIAL, b"e2e4 Nf6", UCI, 1, 33, 0, 5),
                (INITIAL, b" 1.e4", SAN, 0, 33, 0, 1),
                (b"7k/8/8/8/8/8/8/R4R1K w - - 0 1", b"Kg2 Kg8\nRc1", SAN, 2, 35, 0, 8),
                (b"4k3/8/8/8/8/8/8/4K3 w - - 0 99999", b"Kd1 Kd8", SAN, 1, 36, 0, 4),
                (b"x", b"e4", SAN, 0, 26, 1, 0), (INITIAL[:-2], b"e4", SAN, 0, 26, 6, 0),
                (INITIAL, b"Nf3 Nf6 Nf4", SAN_FEN, 2, 34, 0, 8),
                (INITIAL, b"g1f3 Nf6", UCI_FEN, 1, 33, 0, 5),
                (INITIAL, b"Nf3 g8f6", SAN_FEN, 1, 34, 0, 4),
                (b"x", b"Nf3", SAN_FEN, 0, 26, 1, 0), (INITIAL[:-2], b"", UCI_FEN, 0, 26, 6, 0)):
            result, text = self.library.line(fen, data, line_format)
            self.assertEqual(fields(result), (FAULT, fault, field, place, len(text), plies), data)
            if line_format in (SAN_FEN, UCI_FEN):
                self.assertEqual(text, b"".join(KNIGHTS.splitlines(keepends=True)[:plies]), data)
        for data in (b"", b" \t\r\n", b"1. 2. ... 12"):
            self.check_line(b"", INITIAL, data, SAN)
        for line_format in (6, (1 << 32) - 1):
            self.check_nothing(self.library.line(b"x", b"e4", line_format), NO_MODE)

    def test_fens_and_keys_of_plies(self):
        """With four formats the line of a ply is the FEN alone, or the key."""
        castles = b"r3k3/6P1/8/8/8/8/8/4K2R w Kq - 7 30"
        castled = (b"r3k3/6P1/8/8/8/8/8/5RK1 b q - 8 30\n2kr4/6P1/8/8/8/8/8/5RK1 w - - 9 31\n"
                   b"2kr2Q1/8/8/8/8/8/8/5RK1 b - - 0 31\n")
        keys = (b"rnbqkbnr/pppppppp/8/8/4P3/8/PPPP1PPP/RNBQKBNR b KQkq -\n"
                b"rnbqkbnr/1ppppppp/p7/8/4P3/8/PPPP1PPP/RNBQKBNR w KQkq -\n"
                b"rnbqkbnr/1ppppppp/p7/4P3/8/8/PPPP1PPP/RNBQKBNR b KQkq -\n"
                b"rnbqkbnr/1pp1pppp/p7/3pP3/8/8/PPPP1PPP/RNBQKBNR w KQkq d6\n")
        for row in (
                (KNIGHTS, INITIAL, b"1. Ng1f3 Nf6", SAN_FEN),
                (KNIGHTS, INITIAL, b"g1f3\ng8f6 ", UCI_FEN),
                (castled, castles, b"30. O-O O-O-O 31. g8=Q", SAN_FEN),
                (castled, castles, b"e1g1 e8c8 g7g8q", UCI_FEN),
                (b"", INITIAL, b"1.", SAN_FEN), (b"", INITIAL, b"", UCI_FEN),
                (keys, INITIAL, b"1. e4 a6 2. e5 d5", SAN_KEY),
                (keys, INITIAL, b"e2e4 a7a6 e4e5 d7d5", UCI_KEY)):
            self.check_line(*row)

    def test_keys(self):
        """A target only if a pawn may take there, and rights only with king and rook at home."""
        long = b"rnbqkbnr/p1p1p1p1/1p1p1p1p/p1p1p1p1/1P1P1P1P/P1P1P1P1/1P1P1P1P/RNBQKBNR w KQkq"
        for fen, key in (
                (b"4k3/8/8/8/3Pp3/8/8/4K3 b - d3 0 1", b"4k3/8/8/8/3Pp3/8/8/4K3 b - d3"),
                (b"4k3/8/8/8/3P4/8/8/4K3 b - d3 0 1", b"4k3/8/8/8/3P4/8/8/4K3 b - -"),
                (b"8/8/8/8/k2Pp2Q/8/8/3K4 b - d3 0 1", b"8/8/8/8/k2Pp2Q/8/8/3K4 b - -"),
                (b"r3k2r/8/8/8/8/8/8/1R2K2R w KQkq - 3 20", b"r3k2r/8/8/8/8/8/8/1R2K2R w Kkq -"),
                (long + b" - 0 1", long + b" -")):
            for capacity, status, written in ((81, OK, key), (len(key) - 1, FULL, b"")):
                result, text = self.library.fen_by("pgn_key", fen, capacity)
                self.assertEqual((fields(result), text), ((status, 0, len(key)), written))
        result, text = self.library.fen_by("pgn_key", b"x", 81)
        self.assertEqual((fields(result), text), ((FAULT, 1, 0), b""))

    def test_lines_in_buffers_of_each_size(self):
        """Whole lines are written, and reading goes on behind them."""
        data, places = b"1. e4 e5 2. Nf3", (3, 6, 12)
        for line_format in (SAN, SAN_FEN):
            _, whole = self.library.line(INITIAL, data, line_format)
            lines = whole.splitlines(keepends=True)
            ends = [sum(map(len, lines[:count])) for count in range(4)]
            for capacity in range(len(whole)):
                result, text = self.library.line(INITIAL, data, line_format, capacity)
                plies = max(it for it in range(3) if ends[it] <= capacity)
                self.assertEqual(text, whole[: ends[plies]])
                self.assertEqual(fields(result), (FULL, 51, 0, places[plies], ends[plies], plies))
                if plies:
                    fen = text.splitlines()[-1].split(b"\t")[-1]
                    _, rest = self.library.line(fen, data[result.place :], line_format)
                    self.assertEqual(text + rest, whole)
            for capacity in (len(whole), len(whole) + 1):
                self.check_line(whole, INITIAL, data, line_format, capacity)

    # ---- items

    def items_of_games(self, data, fields):
        """The results for the games of a text in turn, each with its lines."""
        return in_turn(lambda at: self.library.items(data, at, 0, fields))

    def texts_with_items(self):
        """Inputs of vectors and examples, archives, and games from positions."""
        yield from ((it["file"], it["input"].encode()) for it in vectors())
        yield from ((style, archive(20, style)) for style in ("plain", "annotated"))
        yield from ((os.path.basename(path), bytes_of(path)) for path in EXAMPLES)
        for name in ("puzzles", "queens"):
            rows = [it.split(b" ", 4) for it in bytes_of("bench/%s.txt" % name).splitlines()[:100]]
            yield name, b"\n".join(b'[FEN "%s 0 1"]\n%s *' % (b" ".join(it[:4]), it[4])
                                   for it in rows)

    def test_items_of_each_text(self):
        """The lines are what pgn_san says of each move of the export text, with all fields."""
        replay, games, faults = Replay(self.library), 0, 0
        for name, data in self.texts_with_items():
            with self.subTest(name):
                exports = self.library.games(data)
                for (lines, text), (game, export) in zip(self.items_of_games(data, 15), exports):
                    self.check(lines, end=game.end, written=len(text),
                               status=FAULT if game.status == MORE else game.status,
                               **chosen(game, "fault", "place", "message", "reason_at"))
                    texts = self.wanted(replay, data, game, export)
                    self.assertEqual(text, b"".join(texts))
                    # tags without movetext may be an item or not
                    if text or game.status == NO_GAME:
                        self.assertEqual(lines.next_item, len(texts))
                    games += game.status == OK
                    faults += game.fault > 0 and text > b""
                self.assertIsNone(next(exports, None))
        self.assertGreater(games, 350)
        self.assertGreater(faults, 50)

    def wanted(self, replay, data, game, export, fields=ALL_FIELDS):
        """The texts of the items of a game, by what pgn_next_game says of it."""
        if game.status in (OK, NO_GAME):
            return replay.texts(export, fields) if export else []
        mended = self.mended(data[: game.place], game.place == len(data))
        return mended and replay.texts(mended[0], fields)[: mended[1]]

    def mended(self, front, is_all):
        """The export of a game that begins with a text, and where in its items the text ends.

        If that is all, a comment of a line ends with it.
        """
        at = max([0] + [game.end for game, _ in self.library.games(front)])
        for comment_end, depth, marker in itertools.product((b"", b"}", b"\n"), range(33),
                                                            MARKERS.values()):
            end = comment_end + b" " + b")" * depth + b" " + marker
            game, export = self.library.next_game(front + end, at)
            if game.status == OK and game.end == len(front + end):
                is_closed = is_all and comment_end == b"\n"
                return export, -1 - depth - (len(comment_end) if not is_closed else 0)
        # no item of movetext
        return []

    def test_items_of_each_field(self):
        """Each sum of fields, and others."""
        replay = Replay(self.library)
        king = b'[FEN "4k3/8/8/8/8/8/4P3/4K3 b - - 7 30"] Kd7 *'
        for data in (TEXT, archive(3, "annotated"), king):
            _, export = self.library.next_game(data)
            for sum_of_fields in range(16):
                result, text = self.library.items(data, 0, 0, sum_of_fields)
                self.assertEqual(result.status, OK)
                self.assertEqual(text, b"".join(replay.texts(export, sum_of_fields)))
            for sum_of_fields in (16, 17, 31, 1 << 16, (1 << 32) - 1):
                for at in (0, len(data) + 1):
                    self.check_nothing(self.library.items(data, at, 0, sum_of_fields), NO_MODE)

    def test_literal_items(self):
        """A game from a position, nested variations, a comment over two lines, an empty one."""
        start = b'[FEN "4k3/8/8/8/8/8/4P3/4K3 w - - 0 30"]\n'
        moves = (b"e4 {keeps\n the pawn}{} Kd7 $1 (30... Kf7 ; (not one\n (Ke7) 31. Kf2?) "
                 b"Kd2 1/2-1/2")
        items = [b"", b"M\t30.\te4\te2e4\t4k3/8/8/8/4P3/8/8/4K3 b - e3 0 30\n",
                 b"C", b"\tkeeps", b"\tthe", b"\tpawn", b"\n", b"C", b"\n",
                 b"M\t30...\tKd7\te8d7\t8/3k4/8/8/4P3/8/8/4K3 w - - 1 31\n", b"G\t1\n",
                 b"(\n", b"M\t30...\tKf7\te8f7\t8/5k2/8/8/4P3/8/8/4K3 w - - 1 31\n",
                 b"C", b"\t(not", b"\tone", b"\n",
                 b"(\n", b"M\t30...\tKe7\te8e7\t8/4k3/8/8/4P3/8/8/4K3 w - - 1 31\n", b")\n",
                 b"M\t31.\tKf2\te1f2\t8/5k2/8/8/4P3/8/5K2/8 b - - 2 31\n", b"G\t2\n", b")\n",
                 b"M\t31.\tKd2\te1d2\t8/3k4/8/8/4P3/8/3K4/8 b - - 2 31\n", b"R\t1/2-1/2\n"]
        whole = b"".join(items)
        for before in (b"", b"*\n"):
            data = before + start + b'[Result "1/2-1/2"]' + moves + b" e4"
            result, text = self.library.items(data, len(before), 0, 7)
            self.assertEqual((fields(result), text),
                             ((OK, 0, 0, len(whole), len(items), len(data) - 3, 0, b""), whole))

    def test_items_in_buffers_of_each_size(self):
        """Whole lines are written, and the next call goes on behind them."""
        replay = Replay(self.library)
        for data in (TEXT, archive(1, "annotated")[:1600] + b"\n* ",
                     b"1. e4 {one two} (1. d4 {a b"):
            result, whole = self.library.items(data, 0, 0, ITEM_SAN)
            texts = self.wanted(replay, data, *self.library.next_game(data), ITEM_SAN)
            self.assertEqual((whole, result.next_item), (b"".join(texts), len(texts)))
            for capacity in range(len(whole) + 2):
                first, joined, last = 0, b"", None
                while first != last:
                    last = first
                    part, text = self.library.items(data, 0, first, ITEM_SAN, capacity)
                    wanted, next_item = lines_that_fit(texts, first, capacity)
                    self.assertEqual((text, part.next_item), (wanted, next_item))
                    joined, first = joined + text, next_item
                    if part.status != FULL:
                        self.check(part, **chosen(result, "status", "fault", "place", "end"))
                        self.assertEqual(joined, whole)
                        break
                    self.check(part, fault=51, place=0, end=0, message=b"")
                else:
                    self.assertLess(capacity, max(map(len, whole.splitlines(keepends=True))))

    def test_items_from_each_number(self):
        replay = Replay(self.library)
        for data in (TEXT, archive(1, "annotated"), b"e4 (d4 {a word} d5 (c5)) e5 {one two"):
            result, _ = self.library.items(data)
            texts = self.wanted(replay, data, *self.library.next_game(data))
            for first in (*range(len(texts) + 3), 1 << 32, (1 << 64) - 1):
                same, text = self.library.items(data, 0, first)
                self.assertEqual(text, b"".join(texts[first:]))
                result.written = len(text)
                self.assertEqual(fields(same), fields(result))

    def test_items_before_a_fault(self):
        """The lines before it, and where it is. A comment that is open has no line feed."""
        e4 = b"M\t1.\te4\n"
        for data, fault, place, text in (
                (b"e4 Ke3 *", 34, 3, e4), (b"e4 (d4 d5 Bd9) *", 33, 10,
                                          e4 + b"(\nM\t1.\td4\nM\t1...\td5\n"),
                (b"e4 (() *", 37, 4, e4 + b"(\n"), (b"e4 {a b", 12, 7, e4 + b"C\ta\tb"),
                (b"e4 {", 12, 4, e4 + b"C"), (b"e4 {a b} $1", 42, 11, e4 + b"C\ta\tb\nG\t1\n"),
                (b"e4", 42, 2, e4), (b"e4 ) *", 39, 3, e4), (b"(e4) *", 37, 0, b""),
                (b'[Result "1-0"] e4 0-1', 41, 18, e4),
                (b'[White "a"] [White "b"] e4 *', 22, 13, b""),
                (b'[FEN "x"] e4 *', 26, 5, b""), (b"e4 [White \"a\"] *", 32, 3, e4)):
            lines, written = self.library.items(data, 0, 0, ITEM_SAN)
            self.check(lines, data, status=FAULT, fault=fault, place=place, end=0,
                       written=len(text))
            self.assertEqual(written, text, data)
            game, _ = self.library.next_game(data)
            self.check(game, data, **chosen(lines, "fault", "place", "message", "reason_at"))

    def test_explanations(self):
        pinned = b"4r2k/8/8/8/8/8/N3N3/4K3 w - - 0 1"
        castles = b"4k3/8/8/8/8/8/8/R3K2R w KQ - 0 1"
        attacked = b"4k1r1/8/8/8/8/8/8/R3K2R w KQ - 0 1"
        for fen, text, form, piece, target, origins, *refused in (
                (INITIAL, b"Nf3", 1, b"N", 21, {6: 2}), (INITIAL, b"e4", 1, b"P", 28, {12: 2}),
                (INITIAL, b"Bd4", 1, b"B", 27, {}), (OPEN_GAME, b"Nge2", 1, b"N", 12, {6: 2}),
                (pinned, b"Nc3", 1, b"N", 18, {8: 2, 12: 1}),
                (pinned, b"Nac3", 1, b"N", 18, {8: 2}), (pinned, b"Nec3", 1, b"N", 18, {12: 1}),
                (castles, b"O-O", 2, b"K", 6, {4: 2}), (castles, b"O-O-O", 3, b"K", 2, {4: 2}),
                # castling to an attacked square is no step (FIDE Laws 3.8.2)
                (attacked, b"O-O", 2, b"K", 6, {}), (castles, b"Kf1", 1, b"K", 5, {4: 2}),
                # refused, by this fault and in this field
                (b"x", b"e4", 0, 0, 0, {}, 26, 1), (INITIAL[:-2], b"e4", 0, 0, 0, {}, 26, 6),
                (INITIAL, b"--", 0, 0, 0, {}, 33, 0), (INITIAL, b"", 0, 0, 0, {}, 33, 0)):
            *found, steps = fields(self.library.call("pgn_explain", fen, text))
            status = (FAULT, *refused) if refused else (OK, 0, 0)
            self.assertEqual(found, [*status, form, piece and ord(piece), target], text)
            self.assertEqual({at: it for at, it in enumerate(steps) if it}, origins, text)


class InstalledByCargo(Installed, unittest.TestCase):
    build = "--cargo"

    def test_null_pointers_with_no_length(self):
        bad = STRUCTS["pgn_bad_game"]()
        for field, wanted, rows in (
                ("status", OK, (("check", None), ("convert", None, None, 0),
                                ("check_numbers", None), ("line", INITIAL, None, 0, None))),
                ("status", NO_GAME, (("next_game", None, 0, 0, 0, None),
                                     ("items", None, 0, 0, 0, None),
                                     ("next_section", ctypes.addressof(bad), None, 1))),
                ("status", FULL, (("next_game", b"*", 0, 0, 0, None),
                                  ("items", b"*", 0, 0, 0, None),
                                  ("fen_normalize", INITIAL, None), ("key", INITIAL, None))),
                ("status", FAULT, (("tag_at", None, 0),)),
                ("fault", 26, (("san", None, None, 0), ("line", None, None, 0, None),
                               ("explain", None, None))),
                ("field", 1, (("fen_normalize", None, None), ("key", None, None)))):
            for name, *words in rows:
                self.check(self.library.call("pgn_" + name, *words), name, **{field: wanted})

    def test_null_pointers_with_a_length(self):
        """Each pointer of each call in turn: `PGN_NO_MODE`, and nothing is written."""
        text = b'[A "b"]\n\n1. e4 *\n\n[A "b"]\n\n1. d4 *\n'
        fen, move = (INITIAL, len(INITIAL)), (b"e4", 2)
        buffer = ctypes.create_string_buffer(b"\xAA" * 999, 999)
        bad = STRUCTS["pgn_bad_game"](fault=9)
        room, game, text = (ctypes.addressof(buffer), 999), ctypes.addressof(bad), (text, len(text))
        pointers = (INITIAL, move[0], text[0], room[0], game)
        calls = {"pgn_check": text, "pgn_check_numbers": text, "pgn_convert": (*text, *room, 0),
                 "pgn_fen_normalize": (*fen, *room), "pgn_key": (*fen, *room),
                 "pgn_san": (*fen, *move, 0), "pgn_line": (*fen, *move, 0, *room),
                 "pgn_next_game": (*text, 0, 0, 0, *room), "pgn_tag_at": (*text, 0),
                 "pgn_read_game": (*text, 0, 0, 0, *room), "pgn_items": (*text, 0, 0, 1, *room),
                 "pgn_explain": fen + move, "pgn_next_section": (game, *text, 1)}
        self.assertEqual({*calls, "pgn_version"}, set(test_library.declared()))
        before, tried = (buffer.raw, bytes(bad)), 0
        for name, words in calls.items():
            call = getattr(self.library.calls, name)
            for at in (it for it, word in enumerate(words) if word in pointers):
                status, *others = fields(call(*words[:at], None, *words[at + 1:]))
                self.assertEqual(status, NO_MODE, (name, at))
                # an array of numbers is bytes here
                filled = [it for it in others if (it if isinstance(it, int) else any(bytes(it)))]
                self.assertEqual(filled, [], (name, at))
                tried += 1
        self.assertEqual((buffer.raw, bytes(bad)), before)
        self.assertEqual(tried, 24)
        for name, words in calls.items():
            self.assertEqual(getattr(self.library.calls, name)(*words).status, OK, name)


class InstalledByRt(Installed, unittest.TestCase):
    build = "--proved"
