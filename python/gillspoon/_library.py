"""The shared library pgn_c: where it is, and its structs and calls, as crates/pgn_c/pgn.h has them.

The file is the first of these that is there:

1. what the environment variable GILLSPOON_LIBRARY names
2. the one beside this module, where a wheel has it
3. PREFIX/lib/libpgn_c.so, for a module below PREFIX/share/pgn_tool, where bin/install puts both
4. what bin/build_program --library has built in the repository that has this module: by rt, else by
   Cargo

Texts are passed as bytes, and a buffer as what ctypes.create_string_buffer makes. A call keeps to
the conditions of the header, since both stay where they are while it runs.
"""
import ctypes
import os
import sys
from typing import Callable, Union

VARIABLE = "GILLSPOON_LIBRARY"
FILE = "libpgn_c.dylib" if sys.platform == "darwin" else "libpgn_c.so"
_HERE = os.path.dirname(os.path.realpath(__file__))
_ROOT = os.path.dirname(os.path.dirname(_HERE))

# what the status of a result says
OK, FAULT, FULL, NO_MODE, NO_GAME, MORE, BAD_PLACE = range(7)
FULL_FORMAT, REDUCED_FORMAT = range(2)
RESULT_UNKNOWN, RESULT_FROM_MARKER = range(2)
SAN, UCI = range(2)
# moves in SAN for pgn_line, which writes the FEN or the key of each ply alone
SAN_FEN, SAN_KEY = 2, 4
# what pgn_items writes of a move
ITEM_SAN, ITEM_FEN = 1, 4
# the result that each termination marker is, by its number
RESULTS = ("", "1-0", "0-1", "1/2-1/2", "*")
# which lines can show where a game ends
ENDS_ANYWHERE, ENDS_IN_COMMENTS, ENDS_NOWHERE = range(3)
# the most bytes of a FEN, and of a ply as pgn_line writes it
LONGEST_FEN, LONGEST_PLY = 93, 108


class Result(ctypes.Structure):
    """struct pgn_result"""

    status: int
    fault: int
    place: int
    written: int
    games: int
    plies: int
    reason_at: int
    message: bytes
    _fields_ = [
        ("status", ctypes.c_uint32),
        ("fault", ctypes.c_uint32),
        ("place", ctypes.c_uint64),
        ("written", ctypes.c_size_t),
        ("games", ctypes.c_uint64),
        ("plies", ctypes.c_uint64),
        ("reason_at", ctypes.c_size_t),
        ("message", ctypes.c_char * 104),
    ]


class Text(ctypes.Structure):
    """struct pgn_text"""

    status: int
    field: int
    length: int
    _fields_ = [
        ("status", ctypes.c_uint32),
        ("field", ctypes.c_uint32),
        ("length", ctypes.c_size_t),
    ]


class Move(ctypes.Structure):
    """struct pgn_move"""

    status: int
    fault: int
    field: int
    san: bytes
    uci: bytes
    fen: bytes
    _fields_ = [
        ("status", ctypes.c_uint32),
        ("fault", ctypes.c_uint32),
        ("field", ctypes.c_uint32),
        ("san", ctypes.c_char * 8),
        ("uci", ctypes.c_char * 8),
        ("fen", ctypes.c_char * 96),
    ]


class Plies(ctypes.Structure):
    """struct pgn_plies"""

    status: int
    fault: int
    field: int
    place: int
    written: int
    plies: int
    _fields_ = [
        ("status", ctypes.c_uint32),
        ("fault", ctypes.c_uint32),
        ("field", ctypes.c_uint32),
        ("place", ctypes.c_uint64),
        ("written", ctypes.c_size_t),
        ("plies", ctypes.c_size_t),
    ]


class NextGame(ctypes.Structure):
    """struct pgn_game"""

    status: int
    fault: int
    place: int
    written: int
    end: int
    marker_at: int
    plies: int
    reason_at: int
    marker: int
    message: bytes
    fen: bytes
    _fields_ = [
        ("status", ctypes.c_uint32),
        ("fault", ctypes.c_uint32),
        ("place", ctypes.c_uint64),
        ("written", ctypes.c_size_t),
        ("end", ctypes.c_size_t),
        ("marker_at", ctypes.c_size_t),
        ("plies", ctypes.c_uint64),
        ("reason_at", ctypes.c_size_t),
        ("marker", ctypes.c_uint32),
        ("message", ctypes.c_char * 104),
        ("fen", ctypes.c_char * 96),
    ]


class ItemLines(ctypes.Structure):
    """struct pgn_item_lines"""

    status: int
    fault: int
    place: int
    written: int
    next_item: int
    end: int
    reason_at: int
    message: bytes
    _fields_ = [
        ("status", ctypes.c_uint32),
        ("fault", ctypes.c_uint32),
        ("place", ctypes.c_uint64),
        ("written", ctypes.c_size_t),
        ("next_item", ctypes.c_uint64),
        ("end", ctypes.c_size_t),
        ("reason_at", ctypes.c_size_t),
        ("message", ctypes.c_char * 104),
    ]


class Number(ctypes.Structure):
    """struct pgn_number"""

    status: int
    unusual: int
    place: int
    number: int
    before: int
    _fields_ = [
        ("status", ctypes.c_uint32),
        ("unusual", ctypes.c_uint32),
        ("place", ctypes.c_size_t),
        ("number", ctypes.c_uint64),
        ("before", ctypes.c_uint64),
    ]


class Explanation(ctypes.Structure):
    """struct pgn_explanation"""

    status: int
    fault: int
    field: int
    form: int
    piece: int
    target: int
    origins: "ctypes.Array[ctypes.c_uint8]"
    _fields_ = [
        ("status", ctypes.c_uint32),
        ("fault", ctypes.c_uint32),
        ("field", ctypes.c_uint32),
        ("form", ctypes.c_uint32),
        ("piece", ctypes.c_uint32),
        ("target", ctypes.c_uint32),
        ("origins", ctypes.c_uint8 * 64),
    ]


class BadGame(ctypes.Structure):
    """struct pgn_bad_game"""

    begin: int
    fault: int
    at: int
    comment_at: int
    escapes_at: int
    ends: int
    has_tags: int
    has_movetext: int
    is_behind_text: int
    has_comment: int
    has_escapes: int
    _fields_ = [
        ("begin", ctypes.c_size_t),
        ("fault", ctypes.c_size_t),
        ("at", ctypes.c_size_t),
        ("comment_at", ctypes.c_size_t),
        ("escapes_at", ctypes.c_size_t),
        ("ends", ctypes.c_uint32),
        ("has_tags", ctypes.c_uint32),
        ("has_movetext", ctypes.c_uint32),
        ("is_behind_text", ctypes.c_uint32),
        ("has_comment", ctypes.c_uint32),
        ("has_escapes", ctypes.c_uint32),
    ]


class Section(ctypes.Structure):
    """struct pgn_section"""

    status: int
    place: int
    _fields_ = [
        ("status", ctypes.c_uint32),
        ("place", ctypes.c_size_t),
    ]


Buffer = ctypes.Array[ctypes.c_char]
# What is made once for many calls, and is of ctypes, is passed several times as fast.
_Bytes = Union[bytes, ctypes.c_void_p]
_Room = Union[Buffer, ctypes.c_void_p]
_Size = Union[int, ctypes.c_size_t]
_Number = Union[int, ctypes.c_uint32]

_TEXT = (ctypes.c_void_p, ctypes.c_size_t)
_CALLS = {
    "pgn_convert": (Result, (*_TEXT, *_TEXT, ctypes.c_uint32)),
    "pgn_fen_normalize": (Text, (*_TEXT, *_TEXT)),
    "pgn_key": (Text, (*_TEXT, *_TEXT)),
    "pgn_san": (Move, (*_TEXT, *_TEXT, ctypes.c_uint32)),
    "pgn_line": (Plies, (*_TEXT, *_TEXT, ctypes.c_uint32, *_TEXT)),
    "pgn_next_game": (NextGame, (*_TEXT, ctypes.c_size_t, ctypes.c_uint32, ctypes.c_uint32,
                                 *_TEXT)),
    "pgn_read_game": (NextGame, (*_TEXT, ctypes.c_size_t, ctypes.c_uint32, ctypes.c_uint32,
                                 *_TEXT)),
    "pgn_items": (ItemLines, (*_TEXT, ctypes.c_size_t, ctypes.c_uint64, ctypes.c_uint32, *_TEXT)),
    "pgn_check_numbers": (Number, _TEXT),
    "pgn_next_section": (Section, (ctypes.POINTER(BadGame), *_TEXT, ctypes.c_uint32)),
    "pgn_explain": (Explanation, (*_TEXT, *_TEXT)),
}
_IS_INSTALLED = os.path.basename(os.path.dirname(_HERE)) == "pgn_tool"
_BUILD = "run bin/install again" if _IS_INSTALLED else \
    "in the repository run bin/build_program --library, or pip install ./python"


def path() -> str:
    """The path of the shared library; raises ImportError, which says how to build it."""
    named = os.environ.get(VARIABLE)
    if named:
        return named
    if _IS_INSTALLED:
        folders = [_HERE, os.path.join(os.path.dirname(_ROOT), "lib")]
    else:
        folders = [_HERE, os.path.join(_ROOT, "crates", "pgn_c", "out"),
                   os.path.join(_ROOT, "cargo", "out")]
    for folder in folders:
        file = os.path.join(folder, FILE)
        if os.path.exists(file):
            return file
    raise ImportError("gillspoon: there is no %s: %s" % (FILE, _BUILD))


def _load() -> ctypes.CDLL:
    file = path()
    try:
        library = ctypes.CDLL(file)
        for name, (result, arguments) in _CALLS.items():
            call = getattr(library, name)
            call.restype, call.argtypes = result, arguments
    except (OSError, AttributeError) as error:
        raise ImportError("gillspoon: %s cannot be used (%s): %s" % (file, error, _BUILD)) from None
    return library


_library = _load()
convert: Callable[[bytes, int, Buffer, int, int], Result] = _library.pgn_convert
normalize_fen: Callable[[bytes, int, Buffer, int], Text] = _library.pgn_fen_normalize
key: Callable[[bytes, int, Buffer, int], Text] = _library.pgn_key
san: Callable[[bytes, int, bytes, int, int], Move] = _library.pgn_san
line: Callable[[bytes, int, bytes, int, int, Buffer, int], Plies] = _library.pgn_line
next_game: Callable[[_Bytes, _Size, _Size, _Number, _Number, _Room, _Size],
                    NextGame] = _library.pgn_next_game
read_game: Callable[[_Bytes, _Size, _Size, _Number, _Number, _Room, _Size],
                    NextGame] = _library.pgn_read_game
items: Callable[[bytes, int, int, int, int, Buffer, int], ItemLines] = _library.pgn_items
check_numbers: Callable[[bytes, int], Number] = _library.pgn_check_numbers
next_section: Callable[[BadGame, bytes, int, bool], Section] = _library.pgn_next_section
explain: Callable[[bytes, int, bytes, int], Explanation] = _library.pgn_explain


def address_of(data: Union[bytes, Buffer]) -> ctypes.c_void_p:
    """Where bytes are, or a buffer; it keeps them in memory."""
    return ctypes.cast(data, ctypes.c_void_p)  # type: ignore[arg-type]


def front_of(buffer: Buffer, length: int) -> bytes:
    """The first bytes of a buffer."""
    return buffer[:length]  # type: ignore[return-value]
