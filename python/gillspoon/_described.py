"""Says what the fields of a NamedTuple are: `help` shows no text that stands below a field."""
from typing import Callable, TypeVar

_Class = TypeVar("_Class")


def described(**fields: str) -> Callable[[_Class], _Class]:
    """Gives each field of a NamedTuple what `help` says of it.

    >>> from typing import NamedTuple
    >>> Point = described(file="From a to h.")(NamedTuple("Point", [("file", str)]))
    >>> Point.file.__doc__
    'From a to h.'
    """
    def describe(named_tuple: _Class) -> _Class:
        for name, text in fields.items():
            getattr(named_tuple, name).__doc__ = text
        return named_tuple

    return describe
