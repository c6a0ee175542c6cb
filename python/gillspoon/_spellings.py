"""Spellings of a move that the reader does not take, and the SAN that each stands for.

Several can be in one token, such as the hyphen and the small letter of e7-e8q. So they are applied
in turn and make one edit. The move has to be legal in its position, which the library says.
"""
import re
from typing import FrozenSet, Iterable, List, NamedTuple, Optional, Tuple

from . import _calls
from ._faults import FenFault, MoveFault
from ._findings import piece_on
from ._here import (DATA, MOVE, NEAR, REST_WITH_SIGNS, WORD, Change, Here, Steps, expanded,
                    pattern_of, steps_of)

# The reasons at which the spelling of a move can be at fault.
REASONS = frozenset((1, 33, 34, 37, 39))
NUMBER = re.compile(rb"[0-9]+\. \Z")
# A move or a number just before a place, perhaps with a parenthesis between.
BEFORE = pattern_of(r"(?:MOVE[+#]*|(?<![0-9])[0-9O]{1,5})[!?]*\s*\(?[ \t]*\Z")
# What may be a piece's letter in small, of which a b may be a pawn too.
SMALL_LETTER = re.compile(rb"[kqrnb]")


class Spelling(NamedTuple):
    """A way to write a move, and how it is written in SAN: a fix that other such fixes go with."""

    name: str
    steps: Steps
    needs: str
    example: Tuple[str, str]
    reasons: FrozenSet[int] = REASONS
    is_safe: bool = True
    times: int = 1
    """How often one token can have it."""


SPELLINGS = tuple(Spelling(row["name"], steps_of(row), row.get("needs", ""),
                           (row["example"][0], row["example"][1]),
                           is_safe=row.get("safe", True), times=row.get("times", 1))
                  for row in DATA["moves"])


class Respelled(NamedTuple):
    """The change of a move's spelling, and the fixes that made it."""

    change: Change
    spellings: Tuple[Spelling, ...]


def respelled(here: Here, spellings: Iterable[Spelling],
              with_small_letters: bool = True) -> Optional[Respelled]:
    """The change that makes a legal move of the text at the fault, or at the word before it."""
    near = max(here.begin, here.place - NEAR)
    # what one token can have several times is no ASCII
    is_plain = here.text[near:here.place + NEAR].isascii()
    wanted = tuple(it for it in spellings for _ in range(1 if is_plain else it.times))
    before = BEFORE.search(here.text, near, here.place)
    starts = [here.place] + ([before.start()] if before else [])
    for start in starts:
        if SMALL_LETTER.match(here.text, start) and not with_small_letters:
            continue
        fen = here.position(start)
        found = _respelled_at(here, start, fen, wanted) if fen else None
        if found and found.change.stop > here.place:
            return found
    return None


def _respelled_at(here: Here, start: int, fen: str,
                  wanted: Tuple[Spelling, ...]) -> Optional[Respelled]:
    """Applies all spellings in turn: one token can have several. The move has to be legal."""
    lead, rest = b"", here.text[start:start + NEAR]
    used: List[Spelling] = []
    size = kept = len(rest)
    for spelling in wanted:
        found = _step(spelling, rest, fen, _Place(here, start, start + size - len(rest)))
        if found:
            made, tail = found
            kept = min(kept, len(tail))
            lead, made = (made, b"") if NUMBER.match(made) else (lead, made)
            rest = made + tail
            used.append(spelling)
    move = MOVE.match(rest)
    if not used or not move or not _played(fen, move[0]):
        return None
    kept = min(kept, len(rest) - move.end())
    change = Change(start, start + size - kept, lead + rest[:len(rest) - kept])
    return Respelled(change, tuple(used))


class _Place(NamedTuple):
    """Where a token begins, and where its part begins at which a spelling is tried."""

    here: Here
    start: int
    part: int


def _step(spelling: Spelling, text: bytes, fen: str,
          place: _Place) -> Optional[Tuple[bytes, bytes]]:
    """What a spelling makes of the begin of a text, and the rest behind it."""
    for pattern, new in spelling.steps:
        match = pattern.match(text)
        if match:
            made, tail = expanded(match, new) + _letter(spelling, match, fen), text[match.end():]
            if made != match[0] and _holds(spelling.needs, match, made + tail, fen, place):
                return made, tail
    return None


def _letter(spelling: Spelling, match: "re.Match[bytes]", fen: str) -> bytes:
    """The letter of the piece from which a move without a letter begins."""
    if spelling.needs != "piece":
        return b""
    piece = piece_on(fen, match[1].decode("ascii")).upper()
    return b"" if piece in ".P" else piece.encode("ascii")


def _holds(needs: str, match: "re.Match[bytes]", text: bytes, fen: str, place: _Place) -> bool:
    """Whether a text is what its spelling says: the number that is due, or a move of some kind."""
    if needs in ("", "piece"):
        return True
    if needs in ("due", "out of turn"):
        return _numbering(place, fen, int(match[1])) == needs
    if needs == "look-alike":
        return not _is_other_letter(place.here, match, text, fen)
    move = MOVE.match(text)
    played = _played(fen, move[0]) if move else None
    if not played:
        return False
    mark = played.san[-1]
    return (needs == "castling" and not _may_be_result(match[0], place)
            or needs == "check" and mark in "+#" or needs == "mate" and mark == "#"
            or needs == "quiet" and mark not in "+#"
            or needs == "en passant" and _is_en_passant(fen, played.san))


# The letters of other languages that look like those of another piece, and their pieces.
OTHER_READINGS = tuple((pattern_of(it["letter"]), it["piece"].encode("ascii"))
                       for it in DATA["other readings"])
LETTERS_OF_A_LANGUAGE = pattern_of(DATA["parts"]["letters of a language"])
NO_PART_OF_A_MOVE = re.compile(rb"[^KQRBNa-h1-8]")


def _is_other_letter(here: Here, match: "re.Match[bytes]", text: bytes, fen: str) -> bool:
    """Whether a letter may be another piece's in its language: a Russian knight, a Greek queen.

    It is one if the move is legal with it, or if its language is that of other moves.
    """
    before, letter = match[1], match[0][len(match[1]):]
    piece = next((piece for pattern, piece in OTHER_READINGS if pattern.match(letter)), None)
    if not piece:
        return False
    behind = text.split()[0][len(before) + 1:]
    other = NO_PART_OF_A_MOVE.sub(b"", before + piece + behind)
    return bool(_played(fen, other) or LETTERS_OF_A_LANGUAGE.search(here.text, here.begin))


def _may_be_result(token: bytes, place: _Place) -> bool:
    """Whether castling is written with zeros as the last word of a section: `0 - 0`."""
    is_last = REST_WITH_SIGNS.match(place.here.text, place.part + len(token))
    return bool(is_last) and not re.search(rb"[A-Za-z]", token)


def _numbering(place: _Place, fen: str, number: int) -> str:
    """Whether a move number joined to a move is `due`, or `out of turn` where none is counted on.

    No number may be just before it. If the last number is that of its move, the next one has to be
    that of the position, with White to move.
    """
    here = place.here
    words = [it for it in WORD.finditer(here.text, here.head().end, place.start) if it[3]]
    if words and words[-1][3].isdigit():
        return ""
    last = next((it for it in reversed(words) if it[3].isdigit()), None)
    _, side, _, _, _, due = fen.split()
    if last:
        before = here.position(last.start(3))
        if not before or before.split()[5] != last[3].decode("ascii").lstrip("0"):
            return "out of turn"
        return "due" if side == "w" and number == int(due) <= int(last[3]) + 1 else ""
    return "out of turn" if words else "due" if side == "w" and number == int(due) else ""


def _played(fen: str, move: bytes) -> Optional[_calls.Played]:
    try:
        return _calls.san(fen, move.decode("ascii"))
    except (MoveFault, FenFault):
        return None


def _is_en_passant(fen: str, san: str) -> bool:
    target = fen.split()[3]
    return san[0] in "abcdefgh" and san[1:4] == "x" + target


def has_doubtful_pawn(here: Here, end: int) -> bool:
    """Whether a move of a game up to `end` begins with b, and is legal as a bishop's move too."""
    for token in WORD.finditer(here.text, here.begin, end):
        if token[3] and token[3][:1] == b"b" and MOVE.fullmatch(token[3]):
            fen = here.position(token.start(3))
            if fen and _played(fen, token[3]) and _played(fen, b"B" + token[3][1:]):
                return True
    return False


def like_tokens(text: bytes, begin: int, spellings: Tuple[Spelling, ...]) -> List[Change]:
    """The changes of other tokens that are written as one was, where they need no board."""
    if any(it.needs for it in spellings):
        return []
    changes = []
    for token in WORD.finditer(text, begin):
        if token[3] and not MOVE.fullmatch(token[3]):
            made = without_board(token[3], spellings)
            if made != token[3]:
                changes.append(Change(token.start(3), token.end(3), made))
    return changes


def without_board(token: bytes, spellings: Tuple[Spelling, ...]) -> bytes:
    """A word after the spellings of it that need no board."""
    for spelling in spellings:
        for pattern, new in spelling.steps:
            match = pattern.match(token)
            if match:
                token = expanded(match, new) + token[match.end():]
                break
    return token
