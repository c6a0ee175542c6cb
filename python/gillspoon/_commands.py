"""The commands that programs write into comments: clocks, evaluations, arrows, marked squares.

The standard has none of them. docs/PYTHON.md has the rules in words.
"""
import re
from typing import Iterable, Iterator, List, NamedTuple, Optional, Tuple

from ._described import described

# They are compiled when they are first used, so that the package starts fast.
_TIME = r"\[%%%s\s([0-9]+):([0-9]+):([0-9]+(?:\.[0-9]*)?)\]"
CLOCK, ELAPSED = _TIME % "clk", _TIME % "emt"
# to mate, or pawns; and the depth
EVALUATION = (r"\[%eval\s(?:#([+-]?[0-9]+)|([+-]?(?:[0-9]{0,10}\.[0-9]{1,2}|[0-9]{1,10}\.?)))"
              r"(?:,([0-9]+))?\]")
_ENTRY = "[RGYB][a-h][1-8](?:[a-h][1-8])?"
DRAWING = r"\[%%(?:cal|csl)\s(%s(?:,%s)*)\]" % (_ENTRY, _ENTRY)
COLOURS = {"R": "red", "G": "green", "Y": "yellow", "B": "blue"}


@described(centipawns="Hundredths of a pawn by which White is better, below 0 if Black is; None if "
                      "there is a mate.",
           mate="In how many moves White mates, below 0 if Black does; 0 if the move itself mates; "
                "None without a mate.",
           depth="How many plies deep the program looked; None if the comment does not say it.")
class Evaluation(NamedTuple):
    """How good a position is, by a program: of `centipawns` and `mate` one is None."""

    centipawns: Optional[int]
    mate: Optional[int]
    depth: Optional[int]


@described(colour="Its colour: `red`, `green`, `yellow` or `blue`.",
           origin="The square it begins on, such as `e2`.",
           target="The square it points to, such as `e4`.")
class Arrow(NamedTuple):
    """An arrow on the board."""

    colour: str
    origin: str
    target: str


@described(colour="Its colour: `red`, `green`, `yellow` or `blue`.",
           square="The square, such as `e4`.")
class MarkedSquare(NamedTuple):
    """A square that is marked on the board."""

    colour: str
    square: str


def seconds_of(form: str, comments: Iterable[str]) -> Optional[float]:
    """The seconds of the first command that has the form CLOCK or ELAPSED, or None.

    >>> seconds_of(CLOCK, ["[%clk 5:00]", "so [%clk 1:02:03.5] far"])
    3723.5
    """
    for comment in comments:
        found = re.search(form, comment)
        if found:
            return 3600 * int(found[1]) + 60 * int(found[2]) + float(found[3])
    return None


def evaluation_of(comments: Iterable[str]) -> Optional[Evaluation]:
    """The first evaluation, or None.

    >>> evaluation_of(["[%eval -0.29,18]"])
    Evaluation(centipawns=-29, mate=None, depth=18)
    >>> evaluation_of(["[%eval #-3]"])
    Evaluation(centipawns=None, mate=-3, depth=None)
    """
    for comment in comments:
        found = re.search(EVALUATION, comment)
        if found:
            mate, pawns, depth = found.groups()
            return Evaluation(None if pawns is None else round(100 * float(pawns)),
                              None if mate is None else int(mate),
                              None if depth is None else int(depth))
    return None


def arrows_of(comments: Iterable[str]) -> List[Arrow]:
    """The arrows, in order.

    >>> arrows_of(["[%cal Ge2e4,Rd1h5]", "[%csl Ga1]"])
    [Arrow(colour='green', origin='e2', target='e4'), Arrow(colour='red', origin='d1', target='h5')]
    """
    return [Arrow(*it) for it in _drawn(comments) if it[1] != it[2]]


def squares_of(comments: Iterable[str]) -> List[MarkedSquare]:
    """The marked squares, in order.

    >>> squares_of(["[%csl Ya1,Bh8]"])
    [MarkedSquare(colour='yellow', square='a1'), MarkedSquare(colour='blue', square='h8')]
    """
    return [MarkedSquare(*it[:2]) for it in _drawn(comments) if it[1] == it[2]]


def _drawn(comments: Iterable[str]) -> Iterator[Tuple[str, str, str]]:
    """What both commands draw: a colour and two squares, the same one twice where it is marked."""
    for comment in comments:
        for found in re.finditer(DRAWING, comment):
            for entry in found[1].split(","):
                yield COLOURS[entry[0]], entry[1:3], entry[3:] or entry[1:3]
