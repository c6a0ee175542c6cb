"""The calls on a single position, FEN and SAN, and on the moves of a game."""
import ctypes
from typing import Callable, List, NamedTuple, Tuple

from . import _library
from ._described import described
from ._faults import FenFault, MoveFault


_line = _library.line
# The first size of a buffer for the plies of a line, and buffers for further calls.
_CAPACITY = 1 << 14
_buffers: List[_library.Buffer] = []


@described(san="The move in SAN, with its mark of check or mate.",
           fen="The FEN of the position after it.",
           uci="The move in UCI, the notation of engines: `g1f3`, `a7a8q`.")
class Played(NamedTuple):
    """A move that was played."""

    san: str
    fen: str
    uci: str


@described(piece="The piece: `K`, `Q`, `R`, `B`, `N` or `P`.",
           target="The square it goes to, such as `e4`; with castling that of the king.",
           castling="`O-O` or `O-O-O` if the text says so, else empty.",
           legal="The squares from which such a piece may go there.",
           exposing="Those from which it could, but its own king would be in check.")
class Explanation(NamedTuple):
    """What the text of a move means in a position, by the rules of movement."""

    piece: str
    target: str
    castling: str
    legal: Tuple[str, ...]
    exposing: Tuple[str, ...]


def normalize_fen(fen: str) -> str:
    """Returns the canonical text of a FEN (PGN 16.1); raises FenFault.

    >>> normalize_fen("4k3/8/8/8/8/8/8/44K3 w - - 00 01")
    Traceback (most recent call last):
    gillspoon.FenFault: bad FEN, field 1: 4k3/8/8/8/8/8/8/44K3 w - - 00 01
    >>> normalize_fen("4k3/44/8/8/8/8/8/4K3 w - - 00 01")
    '4k3/8/8/8/8/8/8/4K3 w - - 0 1'
    """
    return _text_of(_library.normalize_fen, fen)


def position_key(fen: str) -> str:
    """Returns the key of the position of a FEN; raises FenFault.

    Two positions have the same key exactly if they are the same (FIDE Laws 9.2.3). It has the first
    four fields of a FEN, but names no castling right whose king or rook has left its home square,
    and no en passant target on which no legal move takes a pawn.

    >>> position_key("rnbqkbnr/pppppppp/8/8/4P3/8/PPPP1PPP/RNBQKBNR b KQkq e3 0 1")
    'rnbqkbnr/pppppppp/8/8/4P3/8/PPPP1PPP/RNBQKBNR b KQkq -'
    """
    return _text_of(_library.key, fen)


def _text_of(call: Callable[[bytes, int, _library.Buffer, int], _library.Text], fen: str) -> str:
    """What a call of the library writes for a FEN."""
    data = _data(fen, "a FEN")
    buffer = ctypes.create_string_buffer(_library.LONGEST_FEN)
    result = call(data, len(data), buffer, len(buffer))
    if result.status != _library.OK:
        raise FenFault(result.field, fen)
    return _library.front_of(buffer, result.length).decode()


def san(fen: str, move: str, *, uci: bool = False) -> Played:
    """Finds the one legal move that a text names in a position (PGN 8.2.3).

    Returns its SAN, with its mark of check or mate, the FEN after it, and its UCI. Raises FenFault
    for the FEN, and MoveFault for the text.

    `uci`: the text is in UCI, the notation of engines, and is read exactly.

    >>> start = "rnbqkbnr/pppppppp/8/8/8/8/PPPPPPPP/RNBQKBNR w KQkq - 0 1"
    >>> san(start, "Ng1f3").fen
    'rnbqkbnr/pppppppp/8/8/8/5N2/PPPPPPPP/RNBQKB1R b KQkq - 1 1'
    >>> san(start, "g1f3", uci=True).san, san(start, "Nf3").uci
    ('Nf3', 'g1f3')
    """
    position, text = _data(fen, "a FEN"), _data(move, "a move")
    notation = _library.UCI if uci else _library.SAN
    result = _library.san(position, len(position), text, len(text), notation)
    if result.status != _library.OK:
        _refuse(result.fault, result.field, fen, move)
    return Played(result.san.decode("ascii"), result.fen.decode("ascii"),
                  result.uci.decode("ascii"))


def fens_of_plies(fen: str, moves: str) -> List[str]:
    """Plays moves in SAN between blanks, which may have their numbers: the FEN after each."""
    return _fields_of_plies(fen, moves, _library.SAN_FEN)


def keys_of_plies(fen: str, sans: List[str]) -> List[str]:
    """Plays moves in SAN: the key of the position after each."""
    return _fields_of_plies(fen, " ".join(sans), _library.SAN_KEY)


def _fields_of_plies(fen: str, moves: str, line_format: int) -> List[str]:
    """The same in a format whose lines have one field."""
    # a move has two letters or more, and a blank before the next
    size = (_library.LONGEST_FEN + 1) * ((len(moves) + 1) // 3)
    # the last line feed has nothing behind it
    fields = _lines_of_plies(fen, moves, line_format, size).split("\n")
    del fields[-1]
    return fields


def texts_of_plies(fen: str, sans: List[str]) -> List[str]:
    """Plays moves in SAN: the SAN, the UCI and the FEN after it of each, one after another."""
    size = _library.LONGEST_PLY * len(sans)
    lines = _lines_of_plies(fen, " ".join(sans), _library.SAN, size)
    return lines.replace("\n", "\t").split("\t")


def _lines_of_plies(fen: str, moves: str, line_format: int, size: int) -> str:
    """Plays moves in SAN: a line for each, of at most `size` bytes together."""
    position, text = fen.encode(), moves.encode()
    buffer = _kept_buffer()
    if len(buffer) < size:
        buffer = ctypes.create_string_buffer(size)
    played = _line(position, len(position), text, len(text), line_format, buffer, len(buffer))
    if played.status:
        _refuse(played.fault, played.field, fen, text[played.place:].split(b" ")[0].decode())
    lines = _library.front_of(buffer, played.written).decode()
    _buffers.append(buffer)
    return lines


def items_of(game: bytes) -> bytes:
    """The items of a game, or those before its fault: a line each, of a move with SAN and FEN."""
    fields, buffer = _library.ITEM_SAN + _library.ITEM_FEN, _kept_buffer()
    while True:
        found = _library.items(game, len(game), 0, 0, fields, buffer, len(buffer))
        if found.status != _library.FULL:
            break
        buffer = ctypes.create_string_buffer(2 * len(buffer))
    items = _library.front_of(buffer, found.written)
    _buffers.append(buffer)
    return items


def _kept_buffer() -> _library.Buffer:
    """A buffer of an earlier call, since a new one takes as long as a call.

    Threads that call meanwhile have others.
    """
    try:
        return _buffers.pop()
    except IndexError:
        return ctypes.create_string_buffer(_CAPACITY)


def explain(fen: str, move: str) -> Explanation:
    """Says what a text means in a position, also if it is rejected as a move.

    Raises FenFault for the FEN, and MoveFault if the text has not the form of a move.

    >>> explain("3k4/8/8/8/8/8/4R3/R3K3 w - - 0 1", "Rd1").legal
    ('a1',)
    >>> explain("4r2k/8/8/8/8/8/4R3/R3K3 w - - 0 1", "Rd2").exposing
    ('e2',)
    """
    position, text = _data(fen, "a FEN"), _data(move, "a move")
    result = _library.explain(position, len(position), text, len(text))
    if result.status != _library.OK:
        _refuse(result.fault, result.field, fen, move)
    steps = bytes(result.origins)
    return Explanation(
        chr(result.piece), _square(result.target), ("", "", "O-O", "O-O-O")[result.form],
        tuple(_square(at) for at, it in enumerate(steps) if it == 2),
        tuple(_square(at) for at, it in enumerate(steps) if it == 1))


def _data(text: str, what: str) -> bytes:
    if not isinstance(text, str):
        raise TypeError("%s is a str, not %s" % (what, type(text).__name__))
    return text.encode("utf-8", "surrogateescape")


def _refuse(number: int, field: int, fen: str, move: str) -> None:
    if field:
        raise FenFault(field, fen)
    raise MoveFault(number, move, fen)


def _square(index: int) -> str:
    return "abcdefgh"[index % 8] + str(index // 8 + 1)
