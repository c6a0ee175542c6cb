"""Attributes that are views of what was read: they cannot be set, and say what to change."""
from operator import attrgetter
from typing import TYPE_CHECKING, Any, Callable, List, NoReturn, Tuple, TypeVar

Item = TypeVar("Item")

if TYPE_CHECKING:
    # so it knows the type of each, and that it cannot be set
    view = property
else:
    class view(property):
        """A property that cannot be set; `_advice` of its class says what to do instead."""

        def __set_name__(self, owner: type, name: str) -> None:
            self._name = name

        def __set__(self, it: Any, value: object) -> NoReturn:
            raise AttributeError("%s cannot be set: %s" % (self._name, it._advice))


def view_of(slot: str, text: str) -> Any:
    """A view of a slot, with its text for `help`. Reading it makes no call of Python code."""
    found = view(attrgetter(slot))
    found.__doc__ = text
    return found


class ViewList(List[Item]):
    """A list of some notes of a ply. It cannot be changed, and a copy of it can.

    >>> ViewList(["best"]).append("forced")
    Traceback (most recent call last):
    TypeError: this list is a view of the notes of a ply: change these, as ply.notes.append("good")
    """

    __slots__ = ()

    def _refuse(self, *_: object, **__: object) -> NoReturn:
        raise TypeError("this list is a view of the notes of a ply: change these, as "
                        'ply.notes.append("good")')

    __setitem__ = __delitem__ = __iadd__ = __imul__ = _refuse  # type: ignore[assignment]
    append = clear = extend = insert = pop = _refuse
    remove = reverse = sort = _refuse  # type: ignore[assignment]

    def __reduce__(self) -> "Tuple[Callable[[List[Item]], List[Item]], Tuple[List[Item]]]":
        return list, (list(self),)
