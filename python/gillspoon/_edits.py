"""The edits that mend a source. What makes them is imported when there is something to mend."""
from typing import TYPE_CHECKING, Callable, Iterator, List, NamedTuple, Optional, Sequence

from ._described import described
from ._faults import PgnFault
from ._games import Game, Reader
from ._own_errors import guarded
from ._sections import game_in_comment
from ._sources import Opened, Source, Window

if TYPE_CHECKING:
    from ._mend import SectionMender

UNCLOSED_COMMENT = 12
# After how many games a step is reported.
STEP = 256


@described(game="The number of the game, from 1.",
           line="The line where the edit begins, from 1.",
           column="The column where it begins, in characters from 1.",
           offset="How many bytes of the source are before it.",
           old="The bytes that are replaced.",
           new="The bytes that are written in their place.",
           name="The name of the fix; of several in one edit the names with commas.",
           safe="Whether the text has one reading, and nothing is lost.")
class Edit(NamedTuple):
    """An edit of a source, in which bytes are replaced."""

    game: int
    line: int
    column: int
    offset: int
    old: bytes
    new: bytes
    name: str
    safe: bool


class Choice(NamedTuple):
    """Which fixes are tried: the safe ones, or all; of these some names, or all but some."""

    unsafe: bool = False
    select: Optional[Sequence[str]] = None
    ignore: Sequence[str] = ()
    language: Optional[str] = None
    counts_more: bool = False
    """Whether the edits are counted that the unsafe fixes would make."""
    goes_on: bool = False
    """Whether a game at which a fix raises an error stays as it is."""


class Section(NamedTuple):
    """A bad game of a source: where it is, and the edits that mend it."""

    begin: int
    end: int
    edits: List[Edit]
    more: int
    """How many edits the fixes would make that are not chosen, but might be."""


class BadGames:
    """Mends the bad games of an opened source, in their order."""

    def __init__(self, opened: Opened, checked: bool, choice: Choice) -> None:
        self.opened, self._checked, self._choice = opened, checked, choice
        self._mender: "Optional[SectionMender]" = None

    def section(self, fault: PgnFault, is_sound: bool = False) -> Section:
        """The edits of the bad game that a fault is in.

        If it `is_sound` all the same, edits are made only if they end with a sound text.
        """
        if not self._choice.goes_on:
            return self._section(fault, is_sound)
        return guarded(lambda: self._section(fault, is_sound),
                       Section(fault.begin, fault.end or fault.begin, [], 0),
                       fault.line, fault.column)

    def _section(self, fault: PgnFault, is_sound: bool) -> Section:
        if not self._mender:
            # sound games need none of it
            from ._fixes import chosen_fixes
            from ._mend import SectionMender
            it = self._choice
            words = it.select, it.ignore, it.language
            others = chosen_fixes(True, *words) if it.counts_more and not it.unsafe else ()
            self._mender = SectionMender(
                self.opened, self._checked, chosen_fixes(it.unsafe, *words), others)
        return self._mender.section(fault, is_sound)


class Mender(Reader):
    """Reads a source, and mends each bad game."""

    def __init__(self, opened: Opened, checked: bool, choice: Choice) -> None:
        super().__init__(Window(opened), checked, False)
        self._size, self._bad_games = opened.size, BadGames(opened, checked, choice)

    def sections(self, step: Callable[[int], None] = lambda number: None) -> Iterator[Section]:
        """The bad games in turn. Now and then `step` is called with the number of a game."""
        bad: List[PgnFault] = []
        try:
            for game in self.games(bad.append):
                yield from map(self._bad_games.section, bad)
                bad.clear()
                yield from self._with_open_comment(game)
                if not game.number % STEP:
                    step(game.number)
        except PgnFault as fault:
            # nothing is read behind a fault that would be met again
            fault.end = self._size
            bad.append(fault)
            self.number += 1
        finally:
            self.window.close()
        yield from map(self._bad_games.section, bad)

    def _with_open_comment(self, game: Game) -> Iterator[Section]:
        """A sound game with another one in a comment: its text up to there is mended alone."""
        base = self.window.base
        inside = game_in_comment(self.window.data[game.offset - base:game.end - base])
        if inside is not None:
            end = game.offset + inside
            yield self._bad_games.section(PgnFault(
                UNCLOSED_COMMENT, "", end, 0, 0, game.number, None, game.offset, end), True)


def fixes(text: Source, *, unsafe: bool = False, checked: bool = False) -> Iterator[Edit]:
    """Yields the edits that mend the bad games of a source.

    `unsafe`: also those that lose text, or choose one of several readings.
    `checked`: a game without a Result tag takes its termination marker, so it needs no edit.

    >>> for edit in fixes(b"1. e2-e4 e5 2. g1f3 1/2"):
    ...     print(edit.column, edit.name, edit.old, edit.new)
    1 missing Result tag b'' b'[Result "1/2-1/2"]\\n\\n'
    4 long notation b'e2-e4' b'e2e4'
    16 missing letter b'g1f3' b'Ng1f3'
    21 spelling of the result b'1/2' b'1/2-1/2'
    """
    opened = Opened(text)
    try:
        for section in Mender(opened, checked, Choice(unsafe)).sections():
            yield from section.edits
    finally:
        opened.close()
