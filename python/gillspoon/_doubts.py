"""What the movetext of a sound game may mean beside what is read: numbers that do not run, and more.

Numbers, periods and comments decide nothing. So a game is read without a word where they show that
something else was meant. The library says which number does not run, and which games have nothing
that is in doubt.
"""
import re
from typing import Iterator, NamedTuple, Optional

from . import _calls, _library
from ._faults import MoveFault
from ._left_out import OF_SIEVE, PART, end_of_head
from ._reading import GameReader
from ._sections import PAIR

# A string, a comment in braces, or an escape line; a comment to the end of its line; a
# parenthesis; or a word, which is a number, a move or a marker.
TOKEN = re.compile(
    rb'"(?:[^"\\]|\\.)*"|\{[^}]*\}|(?<![^\r\n])%[^\r\n]*|(?P<line>;[^\r\n]*)'
    rb'|\$[0-9]*|(?P<bracket>[()])|(?P<word>[^\s{}();"\[\].!?$]+)',
    re.DOTALL)
# A variation that has marks alone, and a pawn's move with its letter.
MARKS_ALONE = re.compile(rb"\(\s*[!?$][!?$0-9\s]*\)")
PAWN_MOVE = re.compile(rb"P([a-h]?[1-8]?x?[a-h][1-8][+#]*)")
# In a comment: a number and its periods, or a word without its marks.
NUMBER_OR_WORD = re.compile(rb"[\s;]*(?:([0-9]+)(\.*)|([^\s.;!?]+)[!?]*)")
MAY_BE_MOVES = re.compile(rb";[\s;]*(?:[0-9]+[\s.]*)?[KQRBNPO]?[a-hx1-8O-]*[1-8O]")
# How many plies of a comment have to continue the game.
ENOUGH_PLIES = 3
# A move that no position allows: its fault has the position.
NO_MOVE = b" Ka1a1 "
NOT_LEGAL = 34


class Doubt(NamedTuple):
    """Where something else may be meant than what is read, and what is said of it."""

    offset: int
    reason: str


def doubts(text: bytes, reader: GameReader) -> Iterator[Doubt]:
    """The doubts of a sound game, which has nothing before its first byte and behind its marker.

    >>> text = b"1. e4 e5 2. Nf3 Nc6 (!) 1. d4 0000 *"
    >>> for it in doubts(text, GameReader()):
    ...     print(it.offset, it.reason)
    24 move number 1 after 2: perhaps a marker or moves are missing
    20 a variation has marks and no move
    30 0000 is read as a move number: PGN has no null move
    """
    begin, wrong = end_of_head(text), _library.check_numbers(text, len(text))
    if wrong.status != _library.OK:
        yield Doubt(wrong.place, "move number %d after %d: perhaps a marker or moves are missing"
                    % (wrong.number, wrong.before))
    for token in TOKEN.finditer(text, begin):
        reason = _reason_of(text, token, reader)
        if reason:
            yield Doubt(token.start(), reason)


def _reason_of(text: bytes, token: "re.Match[bytes]", reader: GameReader) -> str:
    """What is in doubt about a token, or nothing."""
    word, at = token["word"], token.start()
    if word == b"0000":
        return "0000 is read as a move number: PGN has no null move"
    if token["line"] and MAY_BE_MOVES.match(token["line"]) \
            and _continues(_position(reader, text[:at]), token["line"]):
        return "a comment from ; to the end of the line begins with the next moves"
    if token["bracket"] == b"(":
        return "a variation has marks and no move" if MARKS_ALONE.match(text, at) else ""
    pawn = PAWN_MOVE.fullmatch(word) if word else None
    if pawn and _after(_position(reader, text[:at]), b"N" + pawn[1]):
        return "%s is read as a pawn's move, and N%s is legal too" % (
            pawn[0].decode("ascii"), pawn[1].decode("ascii"))
    return ""


# ---- comments to the end of a line


def _continues(fen: Optional[str], line: bytes) -> bool:
    """Whether a line begins with plies that are legal in a position, and numbers that are right."""
    plies = 0
    for found in NUMBER_OR_WORD.finditer(line):
        number, periods, word = found.groups()
        fen = _after(fen, word) if word else fen if fen and _is_next(fen, number, periods) else None
        plies += bool(fen and word)
        if not fen or plies == ENOUGH_PLIES:
            break
    return plies == ENOUGH_PLIES


def _is_next(fen: str, number: bytes, periods: bytes) -> bool:
    """Whether a number is that of the next move, with several periods before one of Black."""
    _, side, _, _, _, wanted = fen.split()
    return int(number) == int(wanted) and (not periods or (len(periods) > 1) == (side == "b"))


# ---- what export drops


def escapes(data: bytes, begin: int, end: int) -> Iterator[int]:
    """Where lines begin with % in a part of a text, which begins outside comments.

    Those that gillspoon sieve writes before a bad game are left out.

    >>> list(escapes(b"% byte 122: move is not legal\\n%a\\n1. e4 *", 0, 40))
    [30]
    """
    return (it.start() for it in PART.finditer(data, begin, end)
            if it[2] and not OF_SIEVE.match(data, it.start()))


def comments_in_pairs(text: bytes) -> Iterator[int]:
    """Where comments are inside the tag pairs that a game begins with.

    >>> list(comments_in_pairs(b'{a} [White {b} "Ada"] {c} 1. e4 *'))
    [11]
    """
    end = end_of_head(text)
    pair = PAIR.search(text, 0, end)
    while pair:
        yield from (it.start() for it in PART.finditer(text, pair.start(), pair.end()) if it[1])
        pair = PAIR.search(text, pair.end(), end)


# ---- positions


def _position(reader: GameReader, before: bytes) -> Optional[str]:
    """The FEN behind the text of a game that breaks off where a move may be, or None."""
    found, _ = reader.read(before + NO_MOVE, 0)
    is_there = found.fault == NOT_LEGAL and found.place == len(before) + 1
    return found.fen.decode("ascii") if is_there else None


def _after(fen: Optional[str], move: bytes) -> Optional[str]:
    """The FEN after a move, or None if it is not legal."""
    try:
        return _calls.san(fen, move.decode("latin-1")).fen if fen else None
    except MoveFault:
        return None
