"""What gillspoon lint finds in a source: each fault with its game, its line, and what explains it.

All that is said of a text comes from the library: the faults and their places, the names of a bad
game, and whether a Result is missing, which is so if the game is accepted without one.
"""
import re
from typing import Callable, Iterable, Iterator, List, NamedTuple, Optional, Tuple, Union

from . import _calls, _library
from ._bad_games import TAG_IN_MOVETEXT
from ._edits import BadGames, Edit
from ._faults import MoveFault, PgnFault
from ._games import Game, Reader
from ._own_errors import guarded
from ._places import LINE_END
from ._sections import has_movetext
from ._sources import Source, Window
from ._texts import printable
from ._warnings import Said, Watcher

# After how many games a step is reported.
STEP = 256
# How many bytes of a line are shown before a fault, and behind it.
SHOWN = 60
STRAY_BYTE, UNCLOSED_COMMENT, TAG_TWICE, BAD_RESULT, MOVE_LIMIT, RESULT_DIFFERS = (
    1, 12, 22, 25, 36, 41)
# What a message leaves out, by the number of the fault.
NOTES = {
    3: "PGN 7 keeps < and > for later",
    42: "the last game has no result at its end",
}
TAGS_ALONE = "the game before may have tags alone, without moves and a result"
EMPTY_LINE = re.compile(rb"(?:\r\n|\r(?!\n)|\n)[ \t]*[\r\n]")
COMMENT_AMONG_TAGS = "a comment behind a tag pair begins the movetext"
NO_RESULT_BEFORE = "the game before may have no result at its end"
NO_RESULT = "there is no Result tag, which counts as *; --checked takes the result at the end"
# How programs write that a game was forfeited, in place of a result.
FORFEIT = re.compile(
    rb'"\s*(?:[+-]\s*[:/]?\s*[+-]|0\s*[-:/]\s*0|[01]\s*F?\s*[-:]\s*[01]\s*F'
    rb'|[01]\s*F\s*[-:]\s*[01]|[^"\r\n]*(?:FORFEIT|DEFAULT|WALKOVER)[^"\r\n]*)\s*"', re.I)
OF_FORFEIT = ("of a forfeit PGN 8.1.1.7 has the result alone, * if there is no winner; a Termination "
              "tag says why")
CASTLING = ("%s may not castle by %s here: the right is lost, a square between is occupied, or the "
            "king is in check, or passes or reaches an attacked square.")
# The squares from which a piece may go, or would expose its king; and a sentence.
Explained = Tuple[Tuple[str, ...], Tuple[str, ...], str]
PIECES = {"K": "king", "Q": "queen", "R": "rook", "B": "bishop", "N": "knight", "P": "pawn"}


class Finding(NamedTuple):
    """A fault of a file, with all that is said of it. These are the fields of --json."""

    file: str
    """The name of the file as it was given, or as it was found in a folder."""
    line: int
    """The line of the fault, from 1."""
    column: int
    """Its column in characters, from 1."""
    offset: int
    """How many bytes are before it."""
    number: int
    """The number of the fault in docs/PROFILE.md."""
    reason: str
    """Why the game is rejected."""
    note: str
    """What the reason leaves out, or nothing."""
    game: int
    """The number of the game, from 1."""
    white: str
    """The value of its White tag, or `?`."""
    black: str
    """The value of its Black tag, or `?`."""
    begin: int
    """How many bytes are before the game."""
    end: int
    """How many bytes there are up to its end, which is a guess."""
    text: str
    """The line around the fault, without control characters."""
    before: int
    """How many characters of it are before the fault."""
    fen: Optional[str]
    """The position in which a move was rejected, else None."""
    move: Optional[str]
    """The text of that move, else None."""
    legal: Tuple[str, ...]
    """The squares from which such a piece may go there."""
    exposing: Tuple[str, ...]
    """Those from which it could, but its own king would be in check."""
    explanation: str
    """What is wrong with that move, in a sentence, or nothing."""
    fixes: Tuple[Edit, ...] = ()
    """With --json and --sarif the edits that mend the game, or what of it can be mended."""


class Warned(NamedTuple):
    """A warning, of a valid game or of a file. These are its fields of --json."""

    file: str
    line: int
    column: int
    offset: int
    reason: str
    game: Optional[int]
    """The number of the game, or None."""
    white: str
    black: str


class Linter(Reader):
    """Reads a file and makes a Finding of each fault, and a Warned of each warning."""

    def __init__(self, source: Source, name: str, checked: bool,
                 bad_games: Optional[BadGames] = None) -> None:
        super().__init__(Window(source), checked, False)
        self.name, self._bad_games = name, bad_games
        self.found: List[Union[Finding, Warned]] = []
        self._watcher: Optional[Watcher] = None
        self._bad = _BadGame("", 0, "?", "?", None, "")

    def findings(self, step: Callable[[int], None] = lambda number: None
                 ) -> "Iterator[Union[Finding, Warned]]":
        """The faults and warnings in turn. At the end `number` is one above the number of games.

        Now and then `step` is called with the number of a game.
        """
        look_at = self._watcher.game if self._watcher else lambda game: []
        try:
            for game in self.games(self._add):
                warnings = look_at(game)
                if warnings:
                    self._watch(game, warnings)
                if self.found:
                    yield from self._taken()
                if not game._number % STEP:
                    step(game.number)
            if self._watcher:
                self._watch(None, self._watcher.file(self.number > 1, self.at))
        except PgnFault as fault:
            # nothing is read behind a fault that would be met again
            fault.end = self.window.base + len(self.window.data)
            self._add(fault)
            self.number += 1
        finally:
            self.window.close()
        yield from self._taken()

    def watched(self) -> "Linter":
        """The same, and it warns."""
        self._watcher = Watcher(self.window)
        return self

    def _watch(self, game: Optional[Game], warnings: Iterable[Said]) -> None:
        for it in warnings:
            number, tags = (game.number, game.tags) if game else (None, {})
            self.found.append(Warned(
                self.name, it.line, it.column, it.offset, it.reason, number,
                printable(tags.get("White", "?")), printable(tags.get("Black", "?"))))

    def _taken(self) -> "List[Union[Finding, Warned]]":
        taken, self.found = self.found, []
        return taken

    def _fault(self, found: _library.NextGame) -> PgnFault:
        fault = super()._fault(found)
        white, black = printable(fault.white), printable(fault.black)
        self._bad = guarded(lambda: self._look_at(fault), _BadGame("", 0, white, black, None, ""),
                            fault.line, fault.column)
        return fault

    def _look_at(self, fault: PgnFault) -> "_BadGame":
        """What the bytes of a bad game say, while they are in memory."""
        base, data = self.window.base, self.window.data
        at = fault.offset - base
        before, after = line_around(data, at)
        return _BadGame(before + after, len(before), printable(fault.white),
                        printable(fault.black), fault.move if fault.fen else None,
                        self._note(fault))

    def _note(self, fault: PgnFault) -> str:
        """What the reason leaves out."""
        at = fault.offset - self.window.base
        if fault.number == STRAY_BYTE:
            return named(character_at(self.window.data, at))
        if fault.number == UNCLOSED_COMMENT:
            return self._begin_of_comment()
        if fault.number == BAD_RESULT and FORFEIT.match(self.window.data, at):
            return OF_FORFEIT
        if fault.number == RESULT_DIFFERS and self._passes_without_result():
            return NO_RESULT
        if fault.number == TAG_IN_MOVETEXT:
            before = self.window.data[self.at - self.window.base:at]
            return NO_RESULT_BEFORE if has_movetext(before) else COMMENT_AMONG_TAGS
        if fault.number == TAG_TWICE:
            before = self.window.data[self.at - self.window.base:at].lstrip()
            return TAGS_ALONE if EMPTY_LINE.search(before) else ""
        return NOTES.get(fault.number, "")

    def _begin_of_comment(self) -> str:
        """Where a comment begins that the text ends in: at the first brace that opens one."""
        base, data, begin = self.window.base, self.window.data, self.at - self.window.base
        at = data.find(b"{", max(data.rfind(b"}"), begin))
        while at >= 0:
            found, _ = self.reader.read(data[begin:at + 1], 0)
            if found.fault == UNCLOSED_COMMENT:
                return "it begins at line %d, column %d" % self.window.place(base + at)
            at = data.find(b"{", at + 1)
        return ""

    def _passes_without_result(self) -> bool:
        begin = self.at - self.window.base
        found, _ = self.reader.read(self.window.data, begin)
        return found.status == _library.OK

    def _add(self, fault: PgnFault) -> None:
        bad = self._bad
        said: Explained = (), (), ""
        fen, move = fault.fen, bad.move
        if fen and move:
            said = guarded(lambda: explained(fault.number, fen or "", move or ""), said,
                           fault.line, fault.column)
        assert fault.end is not None
        self.found.append(Finding(
            self.name, fault.line, fault.column, fault.offset, fault.number, fault.reason, bad.note,
            fault.game, bad.white, bad.black, fault.begin, fault.end, bad.text, bad.before,
            fault.fen, bad.move, *said,
            tuple(self._bad_games.section(fault).edits) if self._bad_games else ()))


class _BadGame(NamedTuple):
    """What is read of a bad game before reading goes on."""

    text: str
    before: int
    white: str
    black: str
    move: Optional[str]
    note: str


# ---- the line


def character_at(data: bytes, at: int) -> str:
    """The character at a place: of UTF-8, or else of Latin-1.

    >>> ascii(character_at(b"1. \\xe2\\x80\\x9c", 3)), ascii(character_at(b"1. \\xbd", 3))
    ("'\\\\u201c'", "'\\\\xbd'")
    """
    for size in range(1, 5):
        try:
            return data[at:at + size].decode("utf-8")
        except UnicodeDecodeError:
            pass
    return data[at:at + 1].decode("latin-1")


def named(character: str) -> str:
    """A character with its number.

    >>> named("&")
    '& (U+0026)'
    """
    return "%s (U+%04X)" % (printable(character), ord(character))


def line_around(data: bytes, at: int) -> Tuple[str, str]:
    """The text of a line before a place and behind it, cut where it is long.

    >>> line_around(b"1. e4\\r\\n2. Ke3 *\\n", 10)
    ('2. ', 'Ke3 *')
    """
    if data[at - 1:at + 1] == b"\r\n" and at:
        at -= 1
    first = max(at - 4 * SHOWN, 0)
    ends = list(LINE_END.finditer(data, first, at))
    begin = ends[-1].end() if ends else first
    left, right = data[begin:at], LINE_END.split(data[at:at + 4 * SHOWN], 1)[0]
    while left and 0x80 <= (right or b" ")[0] < 0xC0 and _is_utf8(left + right):
        left, right = left[:-1], left[-1:] + right
    encoding = "utf-8" if _is_utf8(left + right) else "latin-1"
    before = printable(left.decode(encoding, "ignore").lstrip("\ufeff"))
    after = printable(right.decode(encoding, "ignore"))
    if len(before) > SHOWN or begin and not ends:
        before = "..." + before[-SHOWN:]
    return before, after if len(after) <= SHOWN else after[:SHOWN] + "..."


def _is_utf8(text: bytes) -> bool:
    """Whether a text is UTF-8, but for a character that is cut at either end."""
    try:
        text.lstrip(bytes(range(0x80, 0xC0))).decode("utf-8")
    except UnicodeDecodeError as error:
        return error.reason == "unexpected end of data"
    return True


# ---- the move


def explained(number: int, fen: str, move: str) -> Explained:
    """From where a piece may go there, from where it would expose its king, and a sentence.

    >>> explained(34, "4r2k/8/8/8/8/8/4R3/4K3 w - - 0 1", "Rd2")[2]
    'A white rook can go to d2 from e2, but its king would then be in check.'
    """
    try:
        said = _calls.explain(fen, move)
    except MoveFault:
        return (), (), ""
    if number == MOVE_LIMIT:
        sentence = "No FEN has a move number above 99,999."
    elif said.legal:
        sentence = _many(fen, move, said)
    elif not _has_move(fen):
        sentence = "%s has no legal move: the game is over before this one." % (
            _side(fen).capitalize())
    elif said.exposing:
        sentence = _exposing(fen, said)
    elif said.castling:
        sentence = CASTLING % (_side(fen).capitalize(), said.castling)
    else:
        sentence = _other_reading(fen, move) or _none(fen, move, said)
    return said.legal, said.exposing, sentence


# The piece to which a move's text promotes a pawn, with its sign or without.
PROMOTION = re.compile(r"=?([QRBN])[+#]*\Z")


def _promotion(move: str) -> str:
    """The promotion of a move's text as SAN has it, such as `=Q`, or nothing."""
    found = PROMOTION.search(move)
    return "=" + found[1] if found else ""


def _many(fen: str, move: str, said: _calls.Explanation) -> str:
    letter, promotion = said.piece.replace("P", ""), _promotion(move)
    ways = [_calls.san(fen, letter + it + said.target + promotion).san for it in said.legal]
    return "%d %ss may go to %s, from %s: write %s." % (
        len(ways), _piece(fen, said), said.target, _joined(said.legal), _joined(ways, "or"))


def _exposing(fen: str, said: _calls.Explanation) -> str:
    if said.piece == "K":
        return "The %s can go to %s, but would be in check there." % (
            _piece(fen, said), said.target)
    return "A %s can go to %s from %s, but its king would then be in check." % (
        _piece(fen, said), said.target, _joined(said.exposing))


# A move that is written by its squares alone, which is read as a pawn's.
SQUARES = re.compile("([a-h][1-8])([a-h][1-8])")


def _other_reading(fen: str, move: str) -> str:
    """The sentence for a move that is written by its squares alone, or nothing."""
    squares = SQUARES.fullmatch(move)
    if squares:
        piece = piece_on(fen, squares[1]).upper()
        for text in (piece + move, "O-O", "O-O-O"):
            if piece in "QRBN" and text[0] == piece or piece == "K" and move in CASTLED.get(text, ()):
                try:
                    written = _calls.san(fen, text).san
                except MoveFault:
                    continue
                return "A move without a letter is a pawn's: for the %s on %s write %s." % (
                    PIECES[piece], squares[1], written)
    return ""


CASTLED = {"O-O": ("e1g1", "e8g8"), "O-O-O": ("e1c1", "e8c8")}


def _has_move(fen: str) -> bool:
    """Whether the side to move has a legal move."""
    return any(_calls.explain(fen, letter + file + rank + end).legal
               for letter, end in (("P", ""), ("P", "=Q"), ("N", ""), ("B", ""), ("R", ""),
                                   ("Q", ""), ("K", ""))
               for rank in "43562718" for file in "abcdefgh")


def _none(fen: str, move: str, said: _calls.Explanation) -> str:
    """The sentence where no such piece can go there: perhaps one of another file or rank can."""
    if said.piece == "K":
        return "The %s cannot go to %s." % (_piece(fen, said), said.target)
    letter, promotion = said.piece.replace("P", ""), _promotion(move)
    bare = PROMOTION.sub("", move) if promotion else move.rstrip("+#")
    if not letter and not promotion and _calls.explain(fen, bare + "=Q").legal:
        return "A %s is promoted on %s: write %s=Q." % (_piece(fen, said), said.target, bare)
    if promotion and _calls.explain(fen, bare).legal:
        return "No pawn is promoted on %s: write %s." % (said.target, bare)
    others = _calls.explain(fen, letter + said.target + promotion).legal
    if others:
        return "No %s can go to %s as %s says, but one may from %s." % (
            _piece(fen, said), said.target, move, _joined(others))
    return "No %s can go to %s." % (_piece(fen, said), said.target)


def _side(fen: str) -> str:
    return "white" if fen.split()[1] == "w" else "black"


def _piece(fen: str, said: _calls.Explanation) -> str:
    return "%s %s" % (_side(fen), PIECES[said.piece])


def _joined(words: "List[str] | Tuple[str, ...]", last: str = "and") -> str:
    if len(words) < 2:
        return "".join(words)
    return "%s %s %s" % (", ".join(words[:-1]), last, words[-1])


def piece_on(fen: str, square: str) -> str:
    """The piece on a square of a FEN, or a period.

    >>> piece_on("4k3/8/8/8/8/8/8/4K2R w - - 0 1", "h1")
    'R'
    """
    row = fen.split()[0].split("/")[8 - int(square[1])]
    return "".join("." * int(it) if it.isdigit() else it for it in row)["abcdefgh".index(square[0])]


def board(fen: str) -> List[str]:
    """The lines of a board, White below, with the side to move.

    >>> print("\\n".join(board("4k3/8/8/8/8/8/4P3/4K3 w - - 0 1")[6:]))
    2  . . . . P . . .
    1  . . . . K . . .
       a b c d e f g h   White to move
    """
    rows = []
    for rank, row in zip("87654321", fen.split()[0].split("/")):
        squares = "".join("." * int(it) if it.isdigit() else it for it in row)
        rows.append("%s  %s" % (rank, " ".join(squares)))
    return rows + ["   a b c d e f g h   %s to move" % _side(fen).capitalize()]
