"""What is said of a bad game beside its fault: its players, its moves, and the move at the fault.

All of it comes from the library: the names are those that it reads, and the text of a move is what
it took for one.
"""
import re
from itertools import islice
from typing import Iterable, Optional, Tuple

from . import _calls, _library
from ._faults import MOVE_FAULTS
from ._moves import INITIAL_FEN, Habit, Line, read_items
from ._reading import GameReader
from ._tags import read_tags
from ._texts import text_of

# A symbol (PGN 7), which is what a text of a move is.
SYMBOL = re.compile(rb"[\w+#=:/-]+", re.ASCII)
TAG_IN_MOVETEXT = 32
# How many lines of a bad game are searched for its tags, and how many bytes.
MOST_LINES, LONGEST_HEAD = 64, 1 << 14


def move_at(data: bytes, at: int, number: int) -> Optional[str]:
    """The text at a fault that was rejected as a move, or None.

    >>> move_at(b"1. e4 e5 2. Ke3 *", 12, 34)
    'Ke3'
    """
    symbol = SYMBOL.match(data, at) if number in MOVE_FAULTS else None
    return symbol[0].decode("ascii") if symbol else None


def moves_of(before: bytes) -> Optional[Line]:
    """The moves of a bad game, by its text up to the fault, or None if it has none there.

    >>> moves_of(b"1. e4 (1. d4 d5 ")
    Line(e4)
    """
    _, text = GameReader().read(before + b"\n*", 0, _library.RESULT_UNKNOWN)
    fen = read_tags(text_of(text).partition("\n\n")[0]).get("FEN")
    line = read_items(before, INITIAL_FEN if fen is None else _calls.normalize_fen(fen), Habit())
    return line if line.plies or line.notes else None


def players_of(reader: GameReader, before: bytes, lines: Iterable[bytes],
               number: int) -> Tuple[str, str]:
    """White and Black of a bad game, if the library reads its tags, or each on its line; else `?`.

    `before` is its text up to the fault of this number. Its `lines` are taken up to the end of the
    tag section, and only if they are needed.

    >>> players_of(GameReader(), b'[White "Ada"] 1. e4 ', [], 34)
    ('Ada', '?')
    """
    _, text = reader.read(before + b"\n*", 0, _library.RESULT_UNKNOWN)
    if not text or number == TAG_IN_MOVETEXT:
        text = _good_tag_lines(reader, lines)
    tags = read_tags(text_of(text).partition("\n\n")[0])
    return tags.get("White", "?"), tags.get("Black", "?")


def _good_tag_lines(reader: GameReader, lines: Iterable[bytes]) -> bytes:
    """The export of those lines of a tag section that are good by themselves."""
    good, size = b"", 0
    is_behind_empty_line = False
    for line in islice(lines, MOST_LINES):
        size += len(line)
        line = line.rstrip(b"\r\n").lstrip(b"\xef\xbb\xbf \t")
        is_next_game = is_behind_empty_line and line.startswith(b"[Event ")
        is_behind_empty_line = not line
        is_end = line and not line.startswith((b"[", b"%", b"{", b";"))
        if is_next_game or is_end or size > LONGEST_HEAD:
            break
        if line.startswith(b"["):
            found, _ = reader.read(good + line + b"\n*", 0)
            good += line + b"\n" if found.status == _library.OK else b""
    return reader.read(good + b"*", 0)[1]
