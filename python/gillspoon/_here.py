"""A fault with the text around it, which a fix looks at: see gillspoon._fixes."""
import json
import os
import re
from typing import Any, Dict, List, NamedTuple, Optional, Tuple, Union

from ._reading import GameReader

# How much text behind a move is looked at, and before a fault.
NEAR, BEFORE = 160, 512
# A move that no position allows: its fault has the position.
NO_MOVE = b" Ka1a1 "
with open(os.path.join(os.path.dirname(os.path.realpath(__file__)), "fixes.json"),
          encoding="utf-8") as _file:
    DATA: Dict[str, Any] = json.load(_file)


# ---- patterns of the data


def pattern_of(text: str) -> "re.Pattern[bytes]":
    """The regular expression of a text of the data, in which words in capitals stand for others."""
    macros: Dict[str, str] = DATA["macros"]
    whole = re.sub("|".join(macros), lambda it: macros[it[0]], text)
    return re.compile(whole.encode("ascii"))


# What is written for a match: texts, and the numbers of groups.
Template = Tuple[Union[bytes, int], ...]
Steps = Tuple[Tuple["re.Pattern[bytes]", Template], ...]


def steps_of(row: Dict[str, Any]) -> Steps:
    """The patterns of a row of the data, and what is written for each."""
    return tuple((pattern_of(pattern), _template_of(new)) for pattern, new in row["steps"])


def _template_of(text: str) -> Template:
    parts = re.split(r"\\([0-9])", text)
    return tuple(int(it) if at % 2 else it.encode("ascii") for at, it in enumerate(parts))


def expanded(match: "re.Match[bytes]", template: Template) -> bytes:
    """What is written for a match."""
    return b"".join([(match[it] or b"") if isinstance(it, int) else it for it in template])


# A move as the reader takes it.
MOVE = pattern_of("MOVE[+#]*(?![A-Za-z0-9_=:/-])")
# White space, comments and escape lines, also to the end of a section, also with signs such as ! or
# $1 among them; a tag pair; and a line end with an empty line behind it.
SPACE, REST, REST_WITH_SIGNS, PAIR, EMPTY_LINE = (pattern_of(DATA["parts"][it]) for it in (
    "space", "rest", "rest with signs", "pair", "empty line"))
# A word of movetext that is no string, no comment, no escape line and no glyph.
WORD = pattern_of(DATA["parts"]["word"])


# ---- faults


class Change(NamedTuple):
    """Bytes of a text, from `start` up to `stop`, and what is written in their place."""

    start: int
    stop: int
    new: bytes

    @property
    def growth(self) -> int:
        """How much longer a text is after the change."""
        return len(self.new) - (self.stop - self.start)

    def of(self, text: bytes) -> bytes:
        """The text after the change."""
        return text[:self.start] + self.new + text[self.stop:]


class Around(NamedTuple):
    """What is around the text of a bad game."""

    is_first: bool
    """Whether it is the first game of its file."""
    is_last: bool
    """Whether nothing is behind it."""
    is_apart: bool
    """Whether an empty line is before it, or nothing."""


class Here:
    """A fault, and the text in which it is: that of a bad game up to its end, which is a guess."""

    def __init__(self, text: bytes, begin: int, number: int, place: int, fen: str,
                 reader: GameReader, around: "Around") -> None:
        self.text, self.begin, self.number, self.place = text, begin, number, place
        self.reader, self.around = reader, around
        self._fens: Dict[int, Optional[str]] = {place: fen} if fen else {}

    def position(self, at: int) -> Optional[str]:
        """The FEN at a place where a move may be, or None."""
        if at not in self._fens:
            before = self.text[self.begin:at] + NO_MOVE
            found, _ = self.reader.read(before, 0)
            is_there = found.fault == 34 and found.place == len(before) - len(NO_MOVE) + 1
            self._fens[at] = found.fen.decode("ascii") if is_there else None
        return self._fens[at]

    def match_at_place(self, pattern: "re.Pattern[bytes]") -> "Optional[re.Match[bytes]]":
        """The match that has the place of the fault in it."""
        line = max(self.text.rfind(b"\n", 0, self.place) + 1, self.begin, self.place - BEFORE)
        for found in pattern.finditer(self.text, line):
            if found.end() > self.place:
                return found if found.start() <= self.place else None
        return None

    def head(self) -> "Head":
        """The tag pairs that the game begins with."""
        return Head(self.text, self.begin)


class Head:
    """The tag pairs at the start of a game: their names and values, and where they are."""

    def __init__(self, text: bytes, begin: int) -> None:
        self.pairs: "List[re.Match[bytes]]" = []
        self.end = begin
        while True:
            space = SPACE.match(text, self.end)
            pair = PAIR.match(text, space.end() if space else self.end)
            if not pair:
                return
            self.pairs.append(pair)
            self.end = pair.end()

    def named(self, name: bytes) -> "List[re.Match[bytes]]":
        """The pairs of a name, in order."""
        return [it for it in self.pairs if it[1] == name]

    def value(self, name: bytes) -> Optional[bytes]:
        """The value of the first pair of a name."""
        return next((it[2] for it in self.named(name)), None)
