"""The moves of a game: read from its export text or its items, built, and written again.

Export text is a normal form, and what is read here is that form alone: docs/PROFILE.md has its
grammar. The library has checked every move, so nothing is checked again.
"""
import re
from itertools import count as numbers, groupby, repeat, starmap
from typing import Any, Callable, Iterable, Iterator, List, Optional, Tuple, Union

from . import _calls
from ._commands import (CLOCK, ELAPSED, Arrow, Evaluation, MarkedSquare, arrows_of, evaluation_of,
                        seconds_of, squares_of)
from ._tags import type_of
from ._texts import is_utf_8
from ._views import ViewList, view, view_of

INITIAL_FEN = "rnbqkbnr/pppppppp/8/8/8/8/PPPPPPPP/RNBQKBNR w KQkq - 0 1"
Note = Union[int, str, "Line"]
"""What may be beside a move: a NAG is an int, a comment is a str, a variation is a Line."""
_WORD = re.compile("[^\t-\r ]+")


class Habit:
    """What was asked of the plies of a source so far, by which those of its next game are made."""

    __slots__ = ("fens", "ucis", "sans", "trees")

    def __init__(self) -> None:
        # whether positions were asked for since plies were made with them, UCI behind positions,
        # SANs of plies that were made with their positions, and positions in variations
        self.fens = self.ucis = self.sans = self.trees = False


class _Played:
    """The moves of a line, and what the library says of them, in a call for all.

    The plies have it, and it has none of them: so they are freed without the garbage collector.
    """

    __slots__ = ("start", "first", "_sans", "habit", "ucis", "fens", "keys", "foreseen")
    # of each move its UCI, and the FEN and the key of the position after it, if they were asked for
    ucis: List[str]
    fens: List[str]
    keys: List[str]
    # these FENs, if they were found before
    foreseen: List[str]

    def __init__(self, start: "Union[Ply, str]", first: int, sans: Union[List[str], str],
                 habit: Habit) -> None:
        # the ply before the first move, or the FEN of its position; the number of the first ply;
        # the SAN of each move, or the movetext
        self.start, self.first, self._sans, self.habit = start, first, sans, habit

    def start_fen(self) -> str:
        return self.start if isinstance(self.start, str) else self.start.fen

    @property
    def sans(self) -> List[str]:
        """The SAN of each move."""
        sans = self._sans
        if isinstance(sans, str):
            self._sans = sans = _sans_of(sans)
            self.habit.sans = True
        return sans

    def find_fens(self) -> List[str]:
        """Finds the position after each move; also the UCI, if both were asked for before."""
        if self.habit.ucis:
            self.find_ucis()
            return self.fens
        self.habit.fens = True
        if isinstance(self.start, Ply):
            self.habit.trees = True
        if hasattr(self, "foreseen"):
            self.fens = self.foreseen
        else:
            self.fens = _calls.fens_of_plies(self.start_fen(), " ".join(self.sans))
        return self.fens

    def find_ucis(self) -> List[str]:
        """Finds the UCI of each move, and the position after it."""
        if hasattr(self, "fens"):
            self.habit.fens, self.habit.ucis = False, True
        texts = _calls.texts_of_plies(self.start_fen(), self.sans)
        self.ucis, self.fens = texts[1::3], texts[2::3]
        return self.ucis

    def find_keys(self) -> List[str]:
        """Finds the key of the position after each move."""
        self.keys = _calls.keys_of_plies(self.start_fen(), self.sans)
        return self.keys

    def fen_before(self, at: int) -> str:
        """The position before the move that has so many before it."""
        if at == 0:
            return self.start_fen()
        return (self.fens if hasattr(self, "fens") else self.find_fens())[at - 1]

    def turn_at(self, at: int) -> int:
        """The turn of the move that has so many before it: 0 for the move of White with number 1.

        The turns of Black are odd.
        """
        if isinstance(self.start, Ply):
            return self.start._turn() + 1 + at
        _, side, _, _, _, number = self.start.split(" ")
        return 2 * (int(number) - 1) + (side == "b") + at


class Ply:
    """A move of a game, with the position after it and what is noted after it.

    It is read with its game, or made by `line.append`. Its `san` and its `notes` can be changed. A
    copy of it, or what pickle makes of it, has the position before it in place of the moves before.
    """

    __slots__ = {
        "san": "The move in SAN, with its mark of check or mate: `Nf3`, `exd8=Q#`.",
        "_at": None,
        "_played": None,
        "_notes": None,
    }
    san: str
    # how many moves were played before it
    _at: int
    _played: _Played
    _notes: List[Note]
    _advice = "change the notes of the ply, or append another move to its line"

    def __init__(self) -> None:
        raise TypeError('a Ply is a move of a Line: line.append("Nf3") makes one')

    def __repr__(self) -> str:
        return "Ply(%d, %r)" % (self.number, self.san)

    def __reduce__(self) -> "Tuple[Callable[..., Ply], Tuple[object, ...]]":
        played, at = self._played, self._at
        return _unpacked_ply, (played.fen_before(at), self.number, played.sans[at:at + 1], self.san,
                               _packed_notes(self.notes, None))

    @view
    def number(self) -> int:
        """How many plies of its game it is, from 1.

        The first one of a variation has the number of the move that it replaces.
        """
        return self._played.first + self._at

    def _turn(self) -> int:
        return self._played.turn_at(self._at)

    @view
    def side(self) -> str:
        """The side that moves: `white` or `black`."""
        return "black" if self._turn() % 2 else "white"

    @view
    def move_number(self) -> int:
        """The number of the move, as movetext has it: 12 for `12. Nf3` and for `12... Nf6`."""
        return self._turn() // 2 + 1

    @property
    def notes(self) -> List[Note]:
        """NAGs (int), comments (str) and variations (Line) after the move, in order."""
        # most plies have none, so the list is made when it is asked for
        if not hasattr(self, "_notes"):
            self._notes = []
        return self._notes

    @notes.setter
    def notes(self, notes: List[Note]) -> None:
        self._notes = notes

    @view
    def fen(self) -> str:
        """The FEN of the position after the move, as it was read or appended."""
        try:
            return self._played.fens[self._at]
        except AttributeError:
            return self._played.find_fens()[self._at]

    @view
    def key(self) -> str:
        """The key of that position: the same for another exactly if they are the same (FIDE 9.2.3).

        `position_key` returns it for a FEN.
        """
        try:
            return self._played.keys[self._at]
        except AttributeError:
            return self._played.find_keys()[self._at]

    @view
    def uci(self) -> str:
        """The move in UCI, as it was read or appended: `g1f3`, `e1g1` for castling, `a7a8q`."""
        try:
            return self._played.ucis[self._at]
        except AttributeError:
            return self._played.find_ucis()[self._at]

    @view
    def nags(self) -> List[int]:
        """The NAGs after the move."""
        return ViewList([it for it in self.notes if isinstance(it, int)])

    @view
    def comments(self) -> List[str]:
        """The comments after the move."""
        return ViewList(self._texts())

    def _texts(self) -> List[str]:
        return [it for it in self.notes if isinstance(it, str)]

    @view
    def variations(self) -> "List[Line]":
        """The variations that replace the move."""
        return ViewList([it for it in self.notes if isinstance(it, Line)])

    @view
    def clock(self) -> Optional[float]:
        """The seconds that the mover has left, by `[%clk 0:05:00]`; None without it."""
        return seconds_of(CLOCK, self._texts())

    @view
    def emt(self) -> Optional[float]:
        """The seconds that the move took, by `[%emt 0:00:02]`; None without it."""
        return seconds_of(ELAPSED, self._texts())

    @view
    def eval(self) -> Optional[Evaluation]:
        """The evaluation after the move, by `[%eval 0.17]` or `[%eval #3]`; None without it."""
        return evaluation_of(self._texts())

    @view
    def arrows(self) -> List[Arrow]:
        """The arrows on the board after the move, by `[%cal Ge2e4]`: colour, origin and target."""
        return ViewList(arrows_of(self._texts()))

    @view
    def squares(self) -> List[MarkedSquare]:
        """The marked squares of the board after the move, by `[%csl Gd4]`: colour and square."""
        return ViewList(squares_of(self._texts()))

    def add_variation(self, move: str, *, nags: Iterable[int] = (), comment: Optional[str] = None,
                      uci: bool = False) -> "Line":
        """Adds a variation after the notes, of a move that replaces this one; returns its Line.

        The arguments and errors are those of `Line.append`, by which the variation goes on.

        >>> line = Line()
        >>> line.append("e4").add_variation("d4", comment="also good").append("d5")
        Ply(2, 'd5')
        >>> line.plies[0].variations
        [Line(d4 d5)]
        """
        before = self._played.fen_before(self._at)
        variation = _line(before)
        variation.plies.append(_appended(before, self.number, move, uci, nags, comment))
        self.notes.append(variation)
        return variation


class _ReadPly(Ply):
    """A ply that the package makes: Ply itself refuses to be called."""

    __slots__ = ()
    # that of object, which costs no call
    __init__ = object.__init__


class _PlacedPly(_ReadPly):
    """A ply that was made with its position: that is read without a call of Python code."""

    __slots__ = {"_fen": None}
    _fen: str
    fen = view_of("_fen", "The FEN of the position after the move, as it was read.")


class _NotedPly(_ReadPly):
    """A ply that was made with its notes, in a slot: that is read sooner than a property."""

    __slots__ = {"notes": Ply.notes.__doc__, "_fen": None}
    notes: List[Note]
    _fen: str


class _PlacedNotedPly(_NotedPly):
    """A ply that was made with its notes and its position."""

    __slots__ = ()
    fen = view_of("_fen", "The FEN of the position after the move, as it was read.")


class _UnnamedPly(_PlacedPly):
    """The same without its SAN, which is found when it is asked for."""

    __slots__ = {"_san": None}
    _san: str

    @property
    def san(self) -> str:
        """The move in SAN, with its mark of check or mate: `Nf3`, `exd8=Q#`."""
        try:
            return self._san
        except AttributeError:
            return self._played.sans[self._at]

    @san.setter
    def san(self, san: str) -> None:
        self._san = san


# messages and `help` say Ply
for _made in (_ReadPly, _NotedPly, _PlacedPly, _PlacedNotedPly, _UnnamedPly):
    _made.__name__ = Ply.__name__


def _ply(at: int, san: str, played: _Played) -> Ply:
    """A move of a line, before which so many were played."""
    ply: Ply = _ReadPly()
    ply._at, ply.san, ply._played = at, san, played
    return ply


# All moves of a line. They are made without a Python call for each, which takes longer.


def _plies(sans: List[str], played: _Played) -> List[Ply]:
    ply: Ply
    plies: List[Ply] = list(starmap(_ReadPly, repeat((), len(sans))))
    for ply, ply._at, ply.san in zip(plies, numbers(), sans):
        ply._played = played
    return plies


def _placed_plies(sans: List[str], fens: List[str], played: _Played) -> List[Ply]:
    ply: _PlacedPly
    plies: List[Any] = list(starmap(_PlacedPly, repeat((), len(fens))))
    for ply, ply._at, ply.san, ply._fen in zip(plies, numbers(), sans, fens):
        ply._played = played
    return plies


def _unnamed_plies(fens: List[str], played: _Played) -> List[Ply]:
    ply: _UnnamedPly
    plies: List[Any] = list(starmap(_UnnamedPly, repeat((), len(fens))))
    for ply, ply._at, ply._fen in zip(plies, numbers(), fens):
        ply._played = played
    return plies


class Line:
    """A line of play: the main line of a game, or a variation.

    It is iterated over its plies. `Line()` begins from the initial position, and `Line(fen)` from
    that of a FEN; a bad one is a FenFault. A copy of a variation, or what pickle makes of it, has
    the position before it in place of the moves before.
    """

    __slots__ = {
        "notes": "NAGs (int) and comments (str) before the first move.",
        "plies": "The moves of this line: a list of Ply.",
        "start": "The Ply before the line, with which it was read; else the FEN of its position.",
    }
    notes: List[Note]
    plies: List[Ply]
    start: Union[Ply, str]

    def __init__(self, fen: Optional[str] = None) -> None:
        self.notes = []
        self.plies = []
        self.start = INITIAL_FEN if fen is None else _calls.normalize_fen(fen)

    def __iter__(self) -> Iterator[Ply]:
        return iter(self.plies)

    def __len__(self) -> int:
        return len(self.plies)

    def __repr__(self) -> str:
        return "Line(%s)" % " ".join(it.san for it in self.plies)

    def __reduce__(self) -> "Tuple[Callable[..., Line], _PackedLine]":
        return _unpacked_line, _packed_line(self, None)

    @property
    def fen(self) -> str:
        """The FEN of the position that the line begins from."""
        return self.start if isinstance(self.start, str) else self.start.fen

    def append(self, move: str, *, nags: Iterable[int] = (), comment: Optional[str] = None,
               uci: bool = False) -> Ply:
        """Plays a move at the end of the line, and returns its Ply.

        `move` is read as `san` reads it: in SAN, freely written, or with `uci` in UCI. `nags` and
        `comment` are the first notes of the ply.

        Raises MoveFault if the text is no legal move there, ValueError for a NAG above 255 or a
        comment with a closing brace, and TypeError for other types.

        >>> line = Line()
        >>> line.append("e2e4", nags=[1]), line.append("e7e5", uci=True, comment="classical")
        (Ply(1, 'e4'), Ply(2, 'e5'))
        >>> line.append("Ke3")
        Traceback (most recent call last):
        gillspoon.MoveFault: move is not legal: Ke3
        """
        last = self.plies[-1] if self.plies else self.start
        before, number = (last, 1) if isinstance(last, str) else (last.fen, last.number + 1)
        ply = _appended(before, number, move, uci, nags, comment)
        self.plies.append(ply)
        return ply


def _line(start: Union[Ply, str]) -> Line:
    """A line behind a ply, or from the position of a FEN in canonical form."""
    line = Line.__new__(Line)
    line.notes = []
    line.plies = []
    line.start = start
    return line


def _appended(before: str, number: int, move: str, uci: bool, nags: Iterable[int],
              comment: Optional[str]) -> Ply:
    """A ply with its number, of a move that the library accepts in the position of a FEN."""
    notes: List[Note] = []
    for nag in nags:
        if not isinstance(nag, int):
            raise TypeError("a NAG is an int such as 1, not %s" % type_of(nag))
        notes.append(nag)
    if comment is not None:
        if not isinstance(comment, str):
            raise TypeError("a comment is a str, not %s" % type_of(comment))
        notes.append(comment)
    _put_notes([], notes)
    san, fen, its_uci = _calls.san(before, move, uci=uci)
    played = _Played(before, number, [san], Habit())
    played.fens, played.ucis = [fen], [its_uci]
    ply = _ply(0, san, played)
    ply.notes = notes
    return ply


# ---- what pickle gets: no links between plies, which would be a chain


_Group = Tuple[Optional[str], int, List[str], "List[Tuple[int, str, List[object]]]"]
_PackedLine = Tuple[Optional[str], "List[object]", List[_Group]]


def _packed_line(line: Line, link: "Union[Ply, str, None]") -> _PackedLine:
    """The FEN before a line, or None if it starts from `link`; its notes; and its plies.

    The plies are in groups that were played together: the FEN before the first move, or None if it
    is that of the line; its number; all moves of the group; and what each ply has.
    """
    groups: List[_Group] = []
    before = line.start
    for played, plies in groupby(line.plies, lambda ply: ply._played):
        packed = []
        for ply in plies:
            packed.append((ply._at, ply.san, _packed_notes(ply.notes, before)))
            before = ply
        start = None if played.start is line.start else played.start_fen()
        groups.append((start, played.first, played.sans, packed))
    fen = None if line.start is link else line.fen
    return fen, _packed_notes(line.notes, line.start), groups


def _packed_notes(notes: List[Note], before: "Union[Ply, str, None]") -> List[object]:
    return [_packed_line(it, before) if isinstance(it, Line) else it for it in notes]


def _unpacked_ply(fen: str, number: int, sans: List[str], san: str, notes: List[object]) -> Ply:
    ply = _ply(0, san, _Played(fen, number, sans, Habit()))
    ply.notes = _unpacked_notes(notes, fen)
    return ply


def _unpacked_line(fen: Optional[str], notes: List[object], groups: List[_Group],
                   *, link: Union[Ply, str] = "") -> Line:
    line = _line(link if fen is None else fen)
    line.notes, before = _unpacked_notes(notes, line.start), line.start
    for start, first, sans, packed in groups:
        played = _Played(line.start if start is None else start, first, sans, Habit())
        for at, san, its_notes in packed:
            ply = _ply(at, san, played)
            ply.notes = _unpacked_notes(its_notes, before)
            line.plies.append(ply)
            before = ply
    return line


def _unpacked_notes(notes: List[Any], before: Union[Ply, str]) -> List[Note]:
    return [_unpacked_line(*it, link=before) if isinstance(it, tuple) else it for it in notes]


# ---- export text


def read_moves(movetext: str, fen: str, habit: Habit, export: bytes) -> Line:
    """The moves of a game: its movetext in export format, its first position, all of its export."""
    if "{" in movetext or "$" in movetext or "(" in movetext:
        if habit.trees:
            return read_items(export, fen, habit)
        return _read_noted_moves(movetext, fen, habit)
    line = _line(fen)
    if habit.fens:
        line.plies = _foreseen_plies(movetext, fen, habit)
    else:
        sans = _sans_of(movetext)
        line.plies = _plies(sans, _Played(fen, 1, sans, habit))
    return line


def _sans_of(movetext: str) -> List[str]:
    """The moves of a movetext without notes."""
    sans = movetext.split()
    # the marker
    del sans[-1:]
    if sans:
        _leave_out_numbers(sans)
    return sans


def _leave_out_numbers(words: List[str]) -> None:
    """Leaves the moves of words: a number is before each move of White and before the first."""
    if words[0][-2:] == "..":
        del words[0], words[1::3]
    else:
        del words[::3]


def _foreseen_plies(movetext: str, fen: str, habit: Habit) -> List[Ply]:
    """The plies of a movetext without notes, with their positions.

    The first one has none: if that is asked for, so may be those of the next game.
    """
    moves = movetext.rsplit(None, 1)
    if len(moves) == 1:
        # the marker alone
        return []
    habit.fens, fens = False, _calls.fens_of_plies(fen, moves[0])
    if habit.sans:
        sans = _sans_of(movetext)
        played, first = _Played(fen, 1, sans, habit), sans[0]
        plies = _placed_plies(sans, fens, played)
    else:
        # behind its number
        played, first = _Played(fen, 1, movetext, habit), movetext.split(None, 2)[1]
        plies = _unnamed_plies(fens, played)
    played.foreseen = fens
    plies[0] = _ply(0, first, played)
    return plies


def _read_noted_moves(movetext: str, fen: str, habit: Habit) -> Line:
    """The same where there are NAGs, comments or variations."""
    # without the marker
    words = movetext.replace("\n", " ").rstrip().rpartition(" ")[0]
    for mark in "{($)":
        words = words.replace(mark, "\n" + mark)
    # the moves before the first note; then a note, and the moves behind it
    parts = iter(words.split("\n"))
    sans: List[str] = []
    line, played = _line(fen), _Played(fen, 1, sans, habit)
    opened: List[Tuple[Line, _Played, List[str]]] = []
    notes, plies = line.notes, line.plies
    for part in parts:
        kind = part[:1]
        if kind == "{":
            # such marks may be in a comment too
            while "}" not in part:
                part += next(parts)
            comment, _, part = part.partition("}")
            notes.append(comment[2:-1])
            moves = part.split()
        else:
            moves = part.split()
            if kind == "(":
                del moves[0]
                opened.append((line, played, sans))
                line = _variation(line)
                sans, notes, plies = [], line.notes, line.plies
                played = _Played(line.start, played.first + len(opened[-1][2]) - 1, sans, habit)
            elif kind == ")":
                del moves[0]
                line, played, sans = opened.pop()
                plies = line.plies
                notes = plies[-1].notes
            elif kind == "$":
                notes.append(int(moves[0][1:]))
                del moves[0]
        if moves:
            _leave_out_numbers(moves)
            at = len(plies)
            for san in moves:
                ply = _NotedPly()
                ply._at = at
                ply.san = san
                ply._played = played
                ply.notes = notes = []
                plies.append(ply)
                at += 1
            sans += moves
    return line


def read_items(game: bytes, fen: str, habit: Habit) -> Line:
    """The moves of a game, or those before its fault, with their notes and positions.

    The first ply has no position, and that of one variation: if these are asked for, so may be
    those of the next game.
    """
    rows = _calls.items_of(game).decode("utf-8" if is_utf_8(game) else "latin-1")
    fens: List[str] = []
    sans: List[str] = []
    line, played = _line(fen), _Played(fen, 1, sans, habit)
    played.foreseen, habit.fens = fens, False
    opened: List[Tuple[Line, _Played, List[str], List[str]]] = []
    notes, plies, at = line.notes, line.plies, 0
    make, usual = _NotedPly, _PlacedNotedPly
    # without a line feed at its end a comment is open there
    for row in rows.rstrip("\n").split("\n"):
        kind = row[:1]
        if kind == "M":
            _, san, after = row.rsplit("\t", 2)
            ply = make()
            make = usual
            ply._at = at
            ply.san = san
            ply._fen = after
            ply._played = played
            ply.notes = notes = []
            sans.append(san)
            fens.append(after)
            plies.append(ply)
            at += 1
        elif kind == "C":
            notes.append(row[2:].replace("\t", " "))
        elif kind == "G":
            notes.append(int(row[2:]))
        elif kind == "(":
            opened.append((line, played, sans, fens))
            line, sans, fens = _variation(line), [], []
            played = _Played(line.start, played.first + at - 1, sans, habit)
            played.foreseen, notes, plies, at = fens, line.notes, line.plies, 0
            if habit.trees and isinstance(line.start, Ply):
                make, habit.trees = _NotedPly, False
        elif kind == ")":
            line, played, sans, fens = opened.pop()
            plies, at = line.plies, len(sans)
            notes = plies[-1].notes
    return opened[0][0] if opened else line


def _variation(line: Line) -> Line:
    """A new variation, which replaces the last move of a line."""
    plies = line.plies
    variation = _line(plies[-2] if len(plies) > 1 else line.start)
    plies[-1].notes.append(variation)
    return variation


def write_moves(line: Line) -> str:
    """The words of a line in import format, without a termination marker.

    >>> write_moves("e4")
    Traceback (most recent call last):
    TypeError: a line is a Line, as game.moves() gives it, not str
    """
    if not isinstance(line, Line):
        raise TypeError("a line is a Line, as game.moves() gives it, not %s" % type_of(line))
    words: List[str] = []
    _put_notes(words, line.notes)
    before = line.start
    for ply in line.plies:
        if not isinstance(ply.san, str):
            raise TypeError("the san of a ply is a str such as 'Nf3', not %s" % type_of(ply.san))
        if not _is_behind(ply, before):
            raise ValueError("%s was played in another position than that of its place in the line"
                             % ply.san)
        words.append(ply.san)
        if ply.notes:
            _check_variations(ply, before)
            _put_notes(words, ply.notes)
        before = ply
    return " ".join(words)


def _is_behind(ply: Ply, before: Union[Ply, str]) -> bool:
    """Whether a ply was played in the position after another ply, or in that of a FEN."""
    played, at = ply._played, ply._at
    if at == 0 and played.start is before:
        return True
    if isinstance(before, str):
        return played.fen_before(at) == before
    if before._played is played and before._at == at - 1:
        return True
    return played.fen_before(at) == before.fen


def _check_variations(ply: Ply, before: Union[Ply, str]) -> None:
    """Raises ValueError for a variation that begins in another position than that before a ply."""
    for variation in ply.variations:
        if variation.start is not before and variation.fen != ply._played.fen_before(ply._at):
            raise ValueError("a variation of %s begins in another position: %s"
                             % (ply.san, variation.fen))


def _put_notes(words: List[str], notes: List[Note]) -> None:
    for note in notes:
        if isinstance(note, int):
            if not 0 <= note <= 255:
                raise ValueError("a NAG is from 0 to 255, not %d" % note)
            words.append("$%d" % note)
        elif isinstance(note, str):
            if "}" in note:
                raise ValueError("a comment cannot have a closing brace: %r" % note)
            words.extend(("{", *_WORD.findall(note), "}"))
        elif isinstance(note, Line):
            words.extend(("(", write_moves(note), ")"))
        else:
            raise TypeError("a note is an int (NAG), a str (comment) or a Line (variation), not %s"
                            % type_of(note))
