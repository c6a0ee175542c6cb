"""Reads one game of a text that is in memory, by the library."""
import ctypes
from typing import Tuple

from . import _library


class GameReader:
    """Calls the library with a buffer that is kept."""

    def __init__(self) -> None:
        self._buffer = ctypes.create_string_buffer(1 << 16)

    def read(self, text: bytes, begin: int,
             missing: int = _library.RESULT_FROM_MARKER) -> Tuple[_library.NextGame, bytes]:
        """The answer for the game from an index on, and what was written; `missing`: its Result."""
        while True:
            found = _library.next_game(text, len(text), begin, _library.FULL_FORMAT, missing,
                                       self._buffer, len(self._buffer))
            if found.status != _library.FULL:
                return found, _library.front_of(self._buffer, found.written)
            self._buffer = ctypes.create_string_buffer(2 * len(self._buffer))
