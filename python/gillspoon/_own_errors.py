"""Errors of the command itself: what explains a fault, or mends it, can fail and ends no run.

The fault is then reported without its explanation, and the error at the end of the run.
"""
from typing import Callable, List, NamedTuple, TypeVar

Answer = TypeVar("Answer")


class OwnError(NamedTuple):
    """An error that was met at a fault of a file."""

    line: int
    column: int
    reason: str

    def __str__(self) -> str:
        return "%d:%d: an error of gillspoon, please report it: %s" % self


# those that nobody has taken yet
_met: List[OwnError] = []


def guarded(call: Callable[[], Answer], without: Answer, line: int, column: int) -> Answer:
    """The answer of a call, or `without` if it raises; a file that cannot be read is no such error.

    >>> guarded(lambda: 1 // 0, 7, 2, 3)
    7
    >>> [str(it) for it in errors_taken()]
    ['2:3: an error of gillspoon, please report it: ZeroDivisionError: integer division or modulo \
by zero']
    """
    try:
        return call()
    except (OSError, MemoryError):
        raise
    except Exception as error:
        _met.append(OwnError(line, column, "%s: %s" % (type(error).__name__, error)))
        return without


def errors_taken() -> List[OwnError]:
    """The errors since the last call."""
    taken = _met[:]
    _met.clear()
    return taken
