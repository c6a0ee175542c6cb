"""The tag pairs of a game: read from its export text, and written again."""
import re
from collections import abc
from typing import Dict, Mapping, NoReturn, Tuple, Type

_ADVICE = ("the tags of a game are those that were read: give write_game a changed copy, as "
           "{**game.tags, 'Annotator': 'Ada'}")


class Tags(Dict[str, str]):
    """The tag pairs of a game that was read: a dict that cannot be changed.

    >>> tags = Tags(White="Ada")
    >>> {**tags, "Black": "Bob"}
    {'White': 'Ada', 'Black': 'Bob'}
    >>> del tags["White"]
    Traceback (most recent call last):
    TypeError: the tags of a game are those that were read: give write_game a changed copy, as \
{**game.tags, 'Annotator': 'Ada'}
    """

    __slots__ = ()

    def _refuse(self, *_: object, **__: object) -> NoReturn:
        raise TypeError(_ADVICE)

    __setitem__ = __delitem__ = __ior__ = _refuse  # type: ignore[assignment]
    clear = pop = popitem = setdefault = update = _refuse  # type: ignore[assignment]

    def __reduce__(self) -> "Tuple[Type[Tags], Tuple[Dict[str, str]]]":
        return Tags, (dict(self),)


def read_tags(section: str) -> Tags:
    """The names and values of the tag pairs of a game in export format, in order.

    >>> read_tags('[White "Ada "]\\n[Black "\\\\"Bo\\\\" \\\\\\\\"]')
    {'White': 'Ada ', 'Black': '"Bo" \\\\'}
    """
    # a quote in a value has a backslash before it, so those alone are cut that are around a value
    words = section[1:-2].replace('"]\n[', ' "').split(' "')
    if "\\" in section:
        words = [re.sub(r"\\(.)", r"\1", it) for it in words]
    each = iter(words)
    return Tags(zip(each, each))


def write_tags(tags: Mapping[str, str]) -> str:
    """The tag pairs, a line each; raises TypeError for what is no text.

    >>> write_tags({"WhiteElo": 2500})
    Traceback (most recent call last):
    TypeError: the value of the tag WhiteElo is a str such as '2500', not int
    """
    if not isinstance(tags, abc.Mapping):
        raise TypeError("the tags are a dict such as {'White': 'Ada'}, not %s" % type_of(tags))
    lines = []
    for name, value in tags.items():
        if not isinstance(name, str):
            raise TypeError("the name of a tag is a str such as 'White', not %s" % type_of(name))
        if not isinstance(value, str):
            raise TypeError("the value of the tag %s is a str%s" % (name, _advice_of(value)))
        lines.append('[%s "%s"]\n' % (name, re.sub(r'(["\\])', r"\\\1", value)))
    return "".join(lines)


def _advice_of(value: object) -> str:
    """What to pass in place of a value that is no text."""
    if value is None:
        return ", not None: leave the tag out"
    if isinstance(value, (bytes, bytearray)):
        return ", not %s: pass value.decode()" % type_of(value)
    return " such as %r, not %s" % (str(value), type_of(value))


def type_of(value: object) -> str:
    """The name of the type of a value, for a message."""
    return "None" if value is None else type(value).__name__
