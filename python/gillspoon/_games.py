"""The games of a source, one at a time."""
import ctypes
import io
import os
import re
from collections import deque
from functools import cached_property
from itertools import chain
from typing import (Callable, Deque, Final, Iterator, List, Mapping, NamedTuple, Optional, Tuple,
                    Union)

from . import _calls, _library
from ._bad_games import move_at, players_of
from ._described import described
from ._faults import PgnFault
from ._moves import INITIAL_FEN, Habit, Line, Ply, read_items, read_moves, write_moves
from ._places import BYTE_ORDER_MARK
from ._reading import GameReader
from ._sections import end_of
from ._sources import Input, Source, Window, name_of, readable_again
from ._tags import Tags, read_tags, type_of, write_tags
from ._texts import is_utf_8, text_of
from ._views import view, view_of

OnFault = Callable[[PgnFault], object]
# The first size of a buffer for the tag section of a game, or for its export text.
_CAPACITY = 1 << 14
# How many bytes `convert` reads at once: with their export they stay in the processor's cache.
PIECE = 1 << 17
# The most threads in which it converts: a call of the library lets others run.
_MOST_THREADS = 4
# Most games begin behind this line end. Where it is in a comment or a game, the piece has a fault.
EVENT_LINE = b"\n[Event "
# Empty lines, of which the last one's end is no first half of CR LF.
_EMPTY_LINES = re.compile(rb"[\t-\r ]*(?:\n|\r(?=[^\n]))")
_TEXT = re.compile(rb"[^\t-\r ]")


@described(games="How many games the source has.",
           plies="How many plies these have, without variations.")
class Totals(NamedTuple):
    """How many games a source has, and how many plies."""

    games: int
    plies: int


def _export_text(source: bytes, mode: int, missing: int) -> bytes:
    """The export text of a game, in a mode; `missing` says what a missing Result counts as.

    `source` is all of the game, from its first byte on that is no white space. A `%` there was in
    the first column, or the game would have had a fault. So it is an escape line in these bytes by
    themselves too.
    """
    size = max(_CAPACITY, 2 * len(source))
    while True:
        buffer = ctypes.create_string_buffer(size)
        found = _library.next_game(source, len(source), 0, mode, missing, buffer, size)
        if found.status != _library.FULL:
            break
        size *= 2
    assert found.status == _library.OK and found.end == len(source), found.message
    return _library.front_of(buffer, found.written)


def _has_its_items(source: bytes, mode: int, missing: int) -> bool:
    """Whether the items of these bytes of a source are those of the export text of its game.

    In reduced format that has no notes, and a missing Result may be another one. A text in another
    encoding may have bytes that the export leaves out.
    """
    return mode == _library.FULL_FORMAT and missing == _library.RESULT_UNKNOWN and is_utf_8(source)


class Game:
    """A game: its export text, and what the library says of it. Its attributes cannot be set.

    >>> from gillspoon import games
    >>> for game in games(b'[White "Ada"] 1. e4 {best} e5 1-0 [Result "1-0"] d4 1-0', checked=True):
    ...     print(game.number, game.tags["White"], game.result, game.plies)
    1 Ada 1-0 2
    2 ? 1-0 1
    """

    __slots__ = {
        "_number": None,
        "_offset": None,
        "_end": None,
        "_result": None,
        "_plies": None,
        "_fen": None,
        "_text": None,
        "_section": None,
        "_unwritten": None,
        "_is_used": None,
        "_habit": None,
        "_tags": None,
        "_moves": None,
    }
    _advice = ("give write_game changed tags or moves, as {**game.tags, 'Result': '1-0'} and "
               "game.moves()")

    def __init__(self, number: int, offset: int, end: int, result: str, plies: int, fen: str,
                 text: bytes) -> None:
        self._number, self._offset, self._end = number, offset, end
        self._result, self._plies, self._fen, self._text = result, plies, fen, text
        # where the text is not made yet: the tag section, and what `_export_text` makes it of
        self._section: Optional[bytes] = None
        self._unwritten: Optional[Tuple[bytes, int, int]] = None
        # whether the text was asked for
        self._is_used = False
        # what is asked of the plies of games from the same source
        self._habit: Optional[Habit] = None
        self._tags: Optional[Tags] = None
        self._moves: Optional[Line] = None

    def __repr__(self) -> str:
        return "<Game %d at %d: %s - %s, %s, %d plies>" % (
            self.number, self.offset, self.tags["White"], self.tags["Black"], self.result,
            self.plies)

    number: Final[int] = view_of(
        "_number", "The number of the game in its source, from 1; bad games count too.")
    offset: Final[int] = view_of(
        "_offset", "How many bytes of the source are before it.\n\n"
        "Comments just before it, and lines that begin with `%`, are its own.")
    end: Final[int] = view_of(
        "_end", "How many bytes of the source there are up to its end, with its marker.")
    result: Final[str] = view_of(
        "_result", "The result, which is the termination marker at its end.")
    plies: Final[int] = view_of("_plies", "How many plies the game has, without variations.")
    fen: Final[str] = view_of("_fen", "The FEN of its last position.")

    @view
    def text(self) -> bytes:
        """The game in export format, as bytes, with an empty line at its end."""
        unwritten = self._unwritten
        if unwritten is not None:
            # in this order, since other threads may ask for it
            self._text = _export_text(*unwritten)
            self._unwritten = self._section = None
        self._is_used = True
        return self._text

    @view
    def encoding(self) -> str:
        """The encoding of its text: `utf-8` if the text is UTF-8, else `latin-1`."""
        unwritten = self._unwritten
        # no word and no value is cut: where the source is UTF-8, the text is
        if is_utf_8(self._text if unwritten is None else unwritten[0]):
            return "utf-8"
        return "utf-8" if is_utf_8(self.text) else "latin-1"

    @view
    def tags(self) -> Mapping[str, str]:
        """The tag pairs by their names, in the order of export format: the roster comes first.

        It is a dict that cannot be changed: give `write_game` a changed copy, as
        `{**game.tags, "Annotator": "Ada"}`.
        """
        if self._tags is None:
            self._tags = read_tags(self._tag_section())
        return self._tags

    def mainline(self) -> Iterator[Ply]:
        """The moves of the main line in turn.

        >>> from gillspoon import games
        >>> for ply in next(games(b"1. e4 (1. d4) e5 $1 *")).mainline():
        ...     print(ply.number, ply.san, ply.nags, ply.fen)
        1 e4 [] rnbqkbnr/pppppppp/8/8/4P3/8/PPPP1PPP/RNBQKBNR b KQkq e3 0 1
        2 e5 [1] rnbqkbnr/pppp1ppp/8/4p3/4P3/8/PPPP1PPP/RNBQKBNR w KQkq e6 0 2
        """
        return iter(self.moves().plies)

    def moves(self) -> Line:
        """The moves as a tree: each ply has its NAGs, its comments and its variations.

        >>> from gillspoon import games
        >>> line = next(games(b"1. e4 {best} (1. d4 d5) e5 *")).moves()
        >>> line
        Line(e4 e5)
        >>> line.plies[0].comments, line.plies[0].variations
        (['best'], [Line(d4 d5)])
        """
        if self._moves is None:
            habit = self._habit or Habit()
            # most games have no such tag, and then no tag is read for it
            fen = self._first_fen() if b'[FEN "' in section_of(self) else INITIAL_FEN
            unwritten = self._unwritten
            if habit.trees and unwritten is not None and _has_its_items(*unwritten):
                self._moves = read_items(unwritten[0], fen, habit)
                return self._moves
            # without a call of the property, if the text is there
            text = self._text if unwritten is None else self.text
            if not habit.trees:
                self._is_used = True
            movetext = text_of(text).partition("\n\n")[2]
            self._moves = read_moves(movetext, fen, habit, text)
        return self._moves

    def position_at(self, ply: int) -> str:
        """The FEN after so many plies of the main line; 0 is the first position.

        Raises IndexError if the game has fewer plies.
        """
        if not 0 <= ply <= self.plies:
            raise IndexError("the game has %d plies, and no position %d" % (self.plies, ply))
        if ply == self.plies:
            return self.fen
        return self.moves().plies[ply - 1].fen if ply else self._first_fen()

    def _first_fen(self) -> str:
        fen = self.tags.get("FEN")
        return INITIAL_FEN if fen is None else _calls.normalize_fen(fen)

    def _tag_section(self) -> str:
        """The tag section, in the encoding of the whole text."""
        section = section_of(self)
        if section.isascii():
            return section.decode()
        return section.decode(self.encoding if is_utf_8(section) else "latin-1")


def section_of(game: Game) -> bytes:
    """The tag section of a game, for which its text is not made."""
    section = game._section
    return game._text.partition(b"\n\n")[0] if section is None else section


class Reader:
    """Reads a source game by game. A bad one is in memory as a whole if a fault `keeps_text`."""

    def __init__(self, window: Window, checked: bool, reduced: bool,
                 keeps_text: bool = False) -> None:
        self.window, self._keeps_text = window, keeps_text
        self.mode = _library.REDUCED_FORMAT if reduced else _library.FULL_FORMAT
        self.missing = _library.RESULT_FROM_MARKER if checked else _library.RESULT_UNKNOWN
        # the number of the next game, and the offset from where it is read
        self.number, self.at = 1, 0
        self._habit = Habit()

    def games(self, on_fault: Optional[OnFault]) -> Iterator[Game]:
        """The games in turn; a fault is raised, or given to `on_fault`."""
        window, call, size = self.window, _library.read_game, _CAPACITY
        buffer, base, data = ctypes.create_string_buffer(size), window.base, window.data
        length, address_of = len(data), _library.address_of
        # arguments that stay the same are made once
        mode, missing = ctypes.c_uint32(self.mode), ctypes.c_uint32(self.missing)
        limit, room = ctypes.c_size_t(length), ctypes.c_size_t(size)
        text, target, at = address_of(data), address_of(buffer), ctypes.c_size_t()
        while True:
            at.value = self.at - base
            found = call(text, limit, at, mode, missing, target, room)
            status, end = found.status, found.end
            if status == _library.OK and (end < length or window.is_whole):
                game = self._game(found, end)
                if call is _library.read_game:
                    # without the empty line behind it
                    game._section = buffer[:found.written - 2]  # type: ignore[assignment]
                else:
                    game._text = buffer[:found.written]  # type: ignore[assignment]
                    game._unwritten = None
                yield game
                # who has asked for the text of this game may ask for that of the next one too
                call = _library.next_game if game._is_used else _library.read_game
                del game
                continue
            if status == _library.FULL:
                size *= 2
                buffer, room = ctypes.create_string_buffer(size), ctypes.c_size_t(size)
                target = address_of(buffer)
                continue
            if status == _library.FAULT or status == _library.MORE and window.is_whole:
                self._go_on(self._fault(found), on_fault)
            else:
                if status == _library.NO_GAME:
                    self._skip_empty_lines()
                if window.is_whole:
                    return
                window.more(self.at)
            base, data = window.base, window.data
            length, text = len(data), address_of(data)
            limit = ctypes.c_size_t(length)

    def _game(self, found: _library.NextGame, end: int) -> Game:
        """The game that was found up to an index of the data, without its text."""
        window, number = self.window, self.number
        base = window.base
        source = window.data[self.at - base:end].lstrip()
        self.number, self.at = number + 1, base + end
        game = Game(number, base + end - len(source), base + end, _library.RESULTS[found.marker],
                    found.plies, found.fen.decode(), b"")
        game._unwritten, game._habit = (source, self.mode, self.missing), self._habit
        return game

    def _text_at(self) -> int:
        """The offset of the first byte from `at` on that is no white space."""
        begin = self.at - self.window.base
        found = _TEXT.search(self.window.data, begin)
        return self.window.base + found.start() if found else self.at

    def _skip_empty_lines(self) -> None:
        """Goes on behind empty lines. Comments before a game stay in memory with it."""
        found = _EMPTY_LINES.match(self.window.data, self.at - self.window.base)
        self.at = self.window.base + found.end() if found else self.at

    @cached_property
    def reader(self) -> GameReader:
        """Reads a text that is in memory, such as a part of a bad game."""
        return GameReader()

    def _fault(self, found: _library.NextGame) -> PgnFault:
        window, base, place = self.window, self.window.base, found.place
        offset, begin = base + place, self._text_at()
        line, column = window.place(offset)
        move, before = move_at(window.data, place, found.fault), window.data[self.at - base:place]
        lines = (it for _, it in window.lines(begin, lambda: self.at))
        white, black = players_of(self.reader, before, lines, found.fault)
        reason = found.message[found.reason_at:].decode("ascii")
        return PgnFault(found.fault, reason, offset, line, column, self.number,
                        found.fen.decode("ascii") or None, begin, move=move, white=white,
                        black=black, file=window.name)

    def _go_on(self, fault: PgnFault, on_fault: Optional[OnFault]) -> None:
        """Goes on behind the game at fault, or raises the fault."""
        window, begin = self.window, fault.begin - self.window.base
        if on_fault is None:
            fault._before = window.data[begin:fault.offset - window.base]
            raise fault
        head = window.data[begin:begin + 4]
        bad = _library.BadGame(begin=self.at, fault=fault.offset, at=self.at)
        end = end_of(bad, window, fault.begin if self._keeps_text else None)
        at = window.base + len(window.data) if end is None else end
        is_mark = window.data.startswith(BYTE_ORDER_MARK, at - window.base)
        if at <= self.at and end is not None and not is_mark:
            raise fault
        # byte order marks of joined files are no game
        if head[:max(at - fault.begin, 0)] not in (b"", BYTE_ORDER_MARK):
            self.number += 1
        self.at = at
        fault.end = at
        if self._keeps_text:
            fault.text = window.data[fault.begin - window.base:at - window.base]
        on_fault(fault)
        if is_mark:
            self.at += 3


def games(source: Source, *, checked: bool = False, reduced: bool = False,
          on_fault: Optional[OnFault] = None) -> Iterator[Game]:
    """Reads the games of a source, one at a time.

    A source is a path, bytes or an mmap, or an open binary file. Each may be compressed: gz, bz2,
    xz, zst or zip, known by its first bytes. Memory grows with the longest game, valid or bad, and
    not with the source.

    `checked`: a game without a Result tag takes its termination marker. Else a missing Result
    counts as `*`, and another marker is a fault.
    `reduced`: the games have the roster and the main line alone. A FEN tag is then a fault.
    `on_fault`: is called with each PgnFault, and reading goes on after the bad game. Without it
    the first fault is raised.

    >>> text = b"1. e4 e5 2. Ke3 *\\n[White \\"Ada\\"] 1. d4 *"
    >>> [game.plies for game in games(text, on_fault=print)]
    line 1, column 13: move is not legal: Ke3 (game 1)
    [1]
    """
    return _each(Window(source), checked, reduced, on_fault)


def _each(window: Window, checked: bool, reduced: bool,
          on_fault: Optional[OnFault]) -> Iterator[Game]:
    try:
        yield from Reader(window, checked, reduced, keeps_text=True).games(on_fault)
    finally:
        window.close()


def check(source: Source, *, checked: bool = False) -> Totals:
    """Counts the games of a source and their plies; raises PgnFault at the first fault.

    >>> check(b"1. e4 (1. d4) e5 * 1. c4 *")
    Totals(games=2, plies=3)
    """
    count = plies = 0
    for game in games(source, checked=checked):
        count, plies = count + 1, plies + game.plies
    return Totals(count, plies)


def convert(source: Source, *, checked: bool = False, reduced: bool = False) -> bytes:
    """Returns the games of a source in export format; raises PgnFault at the first fault.

    It holds the export in memory, and a pipe or an open file too: for more, write the `text` of
    `games`. Up to four threads convert what is longer than 128 KiB.

    >>> print(convert(b"e4 e5 Nf3 *").decode().split("\\n\\n")[1])
    1. e4 e5 2. Nf3 *
    """
    name, source = name_of(source), readable_again(source)
    export = None if checked else _export(source, reduced)
    if export is not None:
        return export
    # a fault is found again, with its game and its position
    found = _each(Window(source, name), checked, reduced, None)
    return b"".join(game.text for game in found)


def _export(source: Source, reduced: bool) -> Optional[bytes]:
    """The export of a source, or None if one of its pieces has a fault.

    A piece that is accepted ends outside games, comments and `%` lines. So the pieces have the
    games of the source, and several can be converted at once.
    """
    conversion = Conversion(reduced)
    export, opened = io.BytesIO(), Input(source)
    try:
        for found in _each_converted(conversion, _pieces(opened)):
            if found is None:
                return None
            export.write(memoryview(found.buffer)[:found.length])
            conversion.buffers.append(found.buffer)
    finally:
        opened.close()
    return export.getvalue()


class Piece(NamedTuple):
    """The first bytes of `data`, up to `end`."""

    data: bytes
    end: int


class Export(NamedTuple):
    """The export of a piece: the first bytes of a buffer, and how many games it has."""

    buffer: _library.Buffer
    length: int
    games: int

    def text(self) -> bytes:
        """Its bytes."""
        return _library.front_of(self.buffer, self.length)


class Conversion:
    """Converts pieces. Threads may call it at the same time: each call has a buffer of its own."""

    def __init__(self, reduced: bool) -> None:
        self._mode = _library.REDUCED_FORMAT if reduced else _library.FULL_FORMAT
        self.buffers: List[_library.Buffer] = []
        """Buffers for further calls."""

    def __call__(self, piece: Piece) -> Optional[Export]:
        """The export of a piece, or None if it has a fault."""
        try:
            buffer = self.buffers.pop()
        except IndexError:
            buffer = ctypes.create_string_buffer(2 * piece.end + 4096)
        found = _library.convert(*piece, buffer, len(buffer), self._mode)
        while found.status == _library.FULL:
            buffer = ctypes.create_string_buffer(2 * len(buffer))
            found = _library.convert(*piece, buffer, len(buffer), self._mode)
        if found.status != _library.OK:
            return None
        return Export(buffer, found.written, found.games)


def _each_converted(conversion: Conversion,
                    pieces: Iterator[Piece]) -> Iterator[Optional[Export]]:
    """Yields the exports of the pieces in their order, while threads convert those behind."""
    first, second = next(pieces), next(pieces, None)
    if second is None:
        yield conversion(first)
        return
    from concurrent.futures import Future, ThreadPoolExecutor
    threads = min(_MOST_THREADS, os.cpu_count() or 1)
    with ThreadPoolExecutor(threads) as pool:
        waiting: "Deque[Future[Optional[Export]]]" = deque()
        for piece in chain((first, second), pieces):
            waiting.append(pool.submit(conversion, piece))
            if len(waiting) > 2 * threads:
                yield waiting.popleft().result()
        for found in waiting:
            yield found.result()


def _pieces(opened: Input) -> Iterator[Piece]:
    """Yields the source in pieces, of which each but the last ends before a line with an Event tag.

    The bytes behind a piece's end come again with those that follow.
    """
    data, size = b"", PIECE
    while True:
        part = opened.read_at_least(size)
        data += part
        if len(part) < size:
            yield Piece(data, len(data))
            return
        end = data.rfind(EVENT_LINE) + 1
        yield Piece(data, end)
        data = data[end:]
        # where no Event tag was met, twice as many
        size = max(PIECE, len(data))


def write_game(tags: Mapping[str, str], moves: Union[Line, str], *,
               encoding: str = "utf-8") -> bytes:
    """Returns a game in export format, of its tags and moves.

    `moves` is a Line, or the text of the moves. This may have all that movetext has: numbers or
    none, NAGs, comments and variations. The result is that of the Result tag; without one that at
    the end of the text, else `*`. A Line that does not begin from the initial position brings its
    FEN pair, and SetUp.

    Raises PgnFault if the library rejects the game; TypeError for what is no text, such as a number
    as the value of a tag; and ValueError if the text has more than one game, if a FEN or SetUp tag
    says another position than the line begins from, or if a ply or a variation of the line was
    played in another position.

    >>> write_game({"White": "Ada"}, "e4 e5 1-0").decode().splitlines()[-4:]
    ['[Result "1-0"]', '', '1. e4 e5 1-0', '']
    >>> game = next(games(b'[White "Ada"] 1. e4 {best} (1. d4) e5 *'))
    >>> write_game(game.tags, game.moves()) == game.text
    True
    """
    if not isinstance(moves, (str, Line)):
        raise TypeError("the moves are a Line, as game.moves() gives it, or a str such as '1. e4 "
                        "e5', not %s: of a list of moves pass ' '.join(moves)" % type_of(moves))
    section = write_tags(tags)
    if isinstance(moves, Line):
        section += write_tags(_missing_pairs(tags, moves.fen))
        moves = write_moves(moves)
    text = ("%s\n%s\n" % (section, moves)).encode(encoding)
    whole = text + tags.get("Result", "*").encode(encoding)
    export = Conversion(False)(Piece(whole, len(whole)))
    if export is not None and export.games == 1:
        return export.text()
    # where the moves have a result at their end, the marker behind them is a game of its own
    found = games(whole, checked=True)
    game, other = next(found), next(found, None)
    if other is not None and other.offset < len(text):
        raise ValueError("the moves have more after the result of the game: %r"
                         % text[game.end:].decode(encoding).strip()[:40])
    return game.text


def _missing_pairs(tags: Mapping[str, str], fen: str) -> Mapping[str, str]:
    """The tag pairs that tags lack of a game from the position of a canonical FEN.

    The library adds SetUp beside a FEN. Raises ValueError if the tags say another position.
    """
    given = tags.get("FEN")
    if given is None and fen == INITIAL_FEN:
        return {}
    if given is not None and _calls.normalize_fen(given) != fen:
        raise ValueError("the FEN tag is not the position of the line, %s: leave it out" % fen)
    if tags.get("SetUp", "1") != "1":
        raise ValueError("a game from a position has the SetUp tag '1', not %r: leave it out"
                         % tags["SetUp"])
    return {"FEN": fen} if given is None else {}
