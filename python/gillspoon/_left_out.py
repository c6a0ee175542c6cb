"""What export format has no place for, in the text of valid games.

The library says where each game begins and ends. Between its tag pairs and before them there are
comments and escape lines (PGN 6) alone; in its movetext only escape lines are left out.
"""
import re
from typing import Callable, NamedTuple, Optional

from ._faults import PgnFault
from ._games import OnFault, Reader
from ._places import BYTE_ORDER_MARK
from ._sections import PAIR, SPACE
from ._sources import CHUNK, Input, Source, Window

# A string, a comment, or an escape line.
PART = re.compile(rb'"(?:[^"\\]|\\.)*"|(\{[^}]*\}|;[^\r\n]*)|((?:\A|(?<=[\r\n]))%[^\r\n]*)', re.DOTALL)
# The lines that gillspoon sieve writes before a bad game.
OF_SIEVE = re.compile(rb"% bytes? \d+")
# What each text has that is left out: signs that begin it.
SIGNS = (b"%", b"{", b";")


class LeftOut(NamedTuple):
    """What an export leaves out of a text."""

    comments: int
    """How many comments are before a game or inside a tag pair."""
    escapes: int
    """How many lines begin with `%` and are in no comment."""
    behind: int
    """How many bytes are after the last game, without white space at either end."""

    def plus(self, other: "LeftOut") -> "LeftOut":
        """The counts of both texts."""
        return LeftOut(*(one + another for one, another in zip(self, other)))

    def __str__(self) -> str:
        """The counts that are not 0, in words.

        >>> str(LeftOut(2, 1, 0))
        "2 comments before a game or inside a tag pair, 1 line with '%'"
        """
        words = []
        for count, one, many in (
                (self.comments, "comment before a game or inside a tag pair",
                 "comments before a game or inside a tag pair"),
                (self.escapes, "line with '%'", "lines with '%'"),
                (self.behind, "byte after the last game", "bytes after the last game")):
            if count:
                words.append("%s %s" % (format(count, ","), one if count == 1 else many))
        return ", ".join(words)


NOTHING = LeftOut(0, 0, 0)


def left_out(source: Source, checked: bool, reduced: bool) -> LeftOut:
    """Counts what the export of a source leaves out; raises PgnFault.

    >>> left_out(b'{a} [White {b} "Ada"]\\n1. e4 {c}\\n%d\\n*\\n;e\\n', False, False)
    LeftOut(comments=2, escapes=1, behind=2)
    """
    counter = _Counter(source, checked, reduced)
    counter.run(None)
    return LeftOut(counter.comments, counter.escapes, counter.behind)


def dropped(source: Callable[[], Source], checked: bool, reduced: bool) -> LeftOut:
    """Counts what the export of the valid games of a source leaves out.

    It is asked for twice. The lines that gillspoon sieve writes before a bad game do not count.

    >>> text = b'{a} 1. e4 *\\n%b\\n1. e5 *\\n\\n[White {c} "Ada"]\\n\\n1. d4 {d} *'
    >>> dropped(lambda: text, False, False)
    LeftOut(comments=2, escapes=0, behind=0)
    """
    if not _has_signs(source()):
        return NOTHING
    counter = _Counter(source(), checked, reduced)
    try:
        counter.run(lambda fault: None)
    except PgnFault:
        # the last game is bad, and nothing behind it is read
        counter.behind = 0
    return LeftOut(counter.comments, counter.escapes - counter.lines_of_sieve, counter.behind)


def _has_signs(source: Source) -> bool:
    """Whether a text has a sign that begins a comment or an escape line."""
    text = Input(source)
    try:
        return any(sign in piece for piece in iter(lambda: text.read(CHUNK), b"") for sign in SIGNS)
    finally:
        text.close()


class _Counter:
    """Counts through the valid games of a source."""

    def __init__(self, source: Source, checked: bool, reduced: bool) -> None:
        self._source, self._checked, self._reduced = source, checked, reduced
        self.comments = self.escapes = self.lines_of_sieve = self.behind = 0

    def run(self, on_fault: Optional[OnFault]) -> None:
        """Reads the games; of bad ones `on_fault` is told, and without it the first one raises."""
        window = Window(self._source)
        reader = Reader(window, self._checked, self._reduced)
        try:
            for game in reader.games(on_fault):
                self._add(window.data[game.offset - window.base:game.end - window.base])
            behind = window.data[reader.at - window.base:].strip()
            self.behind = len(behind.removeprefix(BYTE_ORDER_MARK))
        finally:
            window.close()

    def _add(self, text: bytes) -> None:
        text = text.removeprefix(BYTE_ORDER_MARK)
        if any(sign in text for sign in SIGNS):
            head = end_of_head(text)
            for part in PART.finditer(text):
                self.comments += bool(part[1]) and part.start() < head
                self.escapes += bool(part[2])
                self.lines_of_sieve += bool(part[2] and OF_SIEVE.match(part[2]))


def end_of_head(text: bytes) -> int:
    """Where a game's last tag pair ends, or what is before its first token if it has none."""
    end = 0
    while True:
        space = SPACE.match(text, end)
        begin = space.end() if space else end
        pair = PAIR.match(text, begin)
        if not pair:
            return end or begin
        end = pair.end()
