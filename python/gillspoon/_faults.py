"""Why a text is rejected."""
from typing import TYPE_CHECKING, Dict, Optional, Tuple, Type

from ._texts import in_a_line, printable

if TYPE_CHECKING:
    from ._moves import Line

# The words of the faults that a single move can have, by their numbers in docs/PROFILE.md.
MOVE_FAULTS = {
    33: "not a move",
    34: "move is not legal",
    35: "move is ambiguous",
    36: "move number limit",
}


class PgnFault(ValueError):
    """A game that is rejected: where, and why.

    >>> from gillspoon import check
    >>> check(b'[White "Ada"] [Black "Bob"] 1. e4 e5 2. Ke3 *')
    Traceback (most recent call last):
    gillspoon.PgnFault: line 1, column 41: move is not legal: Ke3 (game 1, Ada - Bob)

    The numbers, the reasons and the places are those of docs/PROFILE.md. The text of the fault
    begins with the name of the file, if the source has one: `games.pgn: line 1, column 41: ...`.
    """

    __slots__ = {
        "number": "The number of the fault, 1 to 52.",
        "reason": "Why the game is rejected, in words: `move is not legal`.",
        "offset": "How many bytes of the source are before the place of the fault.",
        "line": "The line of that place, from 1.",
        "column": "The column of that place in characters, from 1.",
        "game": "The number of the game at fault, from 1; bad games count too.",
        "fen": "The position in which a move was rejected; None with another fault.",
        "begin": "How many bytes of the source are before the game at fault.",
        "end": "With `on_fault` the offset where reading goes on; else None.",
        "move": "The text that was rejected as a move: `Ke3`; None with another fault.",
        "white": "White of the game at fault, by its tags; `?` if they have none.",
        "black": "Black of the game at fault, by its tags; `?` if they have none.",
        "file": "The path that was given, or the name of the open file; None without one.",
        "text": "With `on_fault` the bytes that are skipped, from `begin` to `end`; else None.",
        "_before": None,
        "_moves": None,
    }

    def __init__(self, number: int, reason: str, offset: int, line: int, column: int, game: int,
                 fen: Optional[str], begin: int, end: Optional[int] = None, *,
                 move: Optional[str] = None, white: str = "?", black: str = "?",
                 file: Optional[str] = None, text: Optional[bytes] = None) -> None:
        super().__init__(number, reason, offset, line, column, game, fen, begin)
        self.number, self.reason = number, reason
        self.offset, self.line, self.column = offset, line, column
        self.game, self.fen, self.begin, self.end = game, fen, begin, end
        self.move, self.white, self.black = move, white, black
        self.file, self.text = file, text
        # where no text is skipped, the game up to the fault
        self._before: Optional[bytes] = None
        self._moves: "Optional[Line]" = None

    @property
    def moves_before(self) -> "Optional[Line]":
        """The moves of the game up to the fault, with their notes; None if there are none.

        A variation or a comment that is open there ends at the fault.

        >>> from gillspoon import games
        >>> bad = []
        >>> list(games(b"1. e4 {best} (1. d4 d5) e5 2. Ke3 *", on_fault=bad.append))
        []
        >>> bad[0].moves_before, bad[0].moves_before.plies[0].notes
        (Line(e4 e5), ['best', Line(d4 d5)])
        """
        if self._moves is None:
            text = self._before
            if self.text is not None:
                text = self.text[:self.offset - self.begin]
            if text is not None:
                from ._bad_games import moves_of
                self._moves = moves_of(text)
        return self._moves

    def __reduce__(self) -> "Tuple[Type[PgnFault], Tuple[object, ...], Dict[str, object]]":
        attributes = {name: getattr(self, name) for name in PgnFault.__slots__}
        return type(self), self.args, {**self.__dict__, **attributes}

    def __str__(self) -> str:
        file = "" if self.file is None else in_a_line(self.file) + ": "
        move = "" if self.move is None else ": " + self.move
        players = "" if self.white == self.black == "?" else ", %s - %s" % (
            printable(self.white), printable(self.black))
        return "%sline %d, column %d: %s%s (game %d%s)" % (
            file, self.line, self.column, self.reason, move, self.game, players)


class FenFault(ValueError):
    """A FEN that is no position.

    >>> from gillspoon import normalize_fen
    >>> normalize_fen("8/8/8/8/8/8/8/8 x - - 0 1")
    Traceback (most recent call last):
    gillspoon.FenFault: bad FEN, field 2: 8/8/8/8/8/8/8/8 x - - 0 1
    """

    __slots__ = {
        "field": "The number of the field at fault, 1 to 6; 7 if it is all six together.",
        "fen": "The text that was given.",
    }

    def __init__(self, field: int, fen: str) -> None:
        super().__init__(field, fen)
        self.field = field
        self.fen = fen

    def __str__(self) -> str:
        return "bad FEN, field %d: %s" % (self.field, self.fen)


class MoveFault(ValueError):
    """A text that names no move of a position.

    >>> from gillspoon import san
    >>> san("4k3/8/8/8/8/8/8/4K3 w - - 0 1", "Ke3")
    Traceback (most recent call last):
    gillspoon.MoveFault: move is not legal: Ke3
    """

    __slots__ = {
        "number": "The number of the fault, 33 to 36 of docs/PROFILE.md.",
        "reason": "Why the text is rejected, in words: `move is not legal`.",
        "move": "The text that was given.",
        "fen": "The position that was given.",
    }

    def __init__(self, number: int, move: str, fen: str) -> None:
        super().__init__(number, move, fen)
        self.number = number
        self.reason = MOVE_FAULTS[number]
        self.move = move
        self.fen = fen

    def __str__(self) -> str:
        return "%s: %s" % (self.reason, self.move)


for _fault in (PgnFault, FenFault, MoveFault):
    # where a user finds it, and where pickle does
    _fault.__module__ = "gillspoon"
