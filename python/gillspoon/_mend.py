"""Mends bad games: tries fixes at each fault, and keeps an edit if the library reads on behind it.

An edit is kept if the game is then sound, or if fewer bytes are behind its first fault than before.
The moves before the edit have to be the same. What no fix mends stays as it is, byte for byte.
"""
from copy import copy
from typing import List, NamedTuple, Optional, Sequence, Set, Tuple, Union

from . import _library
from ._edits import UNCLOSED_COMMENT, Edit, Section
from ._faults import PgnFault
from ._fixes import AnyFix, Fix
from ._here import EMPTY_LINE, Around, Change, Here
from ._places import BYTE_ORDER_MARK, NEAR, LineCounter
from ._reading import GameReader
from ._sections import end_of_bad_game
from ._sources import CHUNK, Opened
from ._spellings import Spelling, has_doubtful_pawn, like_tokens, respelled

RESULT_DIFFERS = 41
# The most variations that can be open, and one more.
MOST_OPEN = 33
MARKERS = (b" *", b" 1-0", b" 0-1", b" 1/2-1/2")
SMALL_LETTER = "small letter"


class Applied(NamedTuple):
    """A change that was kept, in the places of the text before all changes."""

    change: Change
    names: Tuple[str, ...]
    is_safe: bool


class Changes:
    """The changes of a text that were kept so far, in order, and the text after them."""

    def __init__(self, text: bytes) -> None:
        self.text = text
        self.applied: List[Applied] = []
        # how much longer the text is now, and where the last change ends in it
        self._shift, self._end = 0, -1

    def apply(self, change: Change, names: Tuple[str, ...], is_safe: bool) -> None:
        """Keeps a change of the text. Those that it touches become one with it."""
        before: List[Applied] = []
        touched: List[Applied] = []
        behind: List[Applied] = []
        low, high, shift, inside = change.start, change.stop, 0, 0
        for it in self.applied if self.applied and change.start <= self._end else ():
            begin = it.change.start + shift + inside
            end = begin + len(it.change.new)
            if end < change.start:
                before.append(it)
                shift += it.change.growth
            elif begin > change.stop:
                behind.append(it)
            else:
                touched.append(it)
                low, high, inside = min(low, begin), max(high, end), inside + it.change.growth
        if not touched and not behind and not before:
            before, shift = self.applied, self._shift
        new = self.text[low:change.start] + change.new + self.text[change.stop:high]
        merged = Applied(Change(low - shift, high - shift - inside, new),
                         tuple(dict.fromkeys([*(name for it in touched for name in it.names),
                                              *names])),
                         is_safe and all(it.is_safe for it in touched))
        self.applied = [*before, merged, *behind]
        self._shift += change.growth
        self._end = low + len(new) if not behind else self._end + change.growth
        self.text = change.of(self.text)


class Mending:
    """Mends a text, which is that of a bad game up to its end: this is a guess."""

    def __init__(self, text: bytes, fixes: Sequence[AnyFix], reader: GameReader, checked: bool,
                 around: Around) -> None:
        self.changes = Changes(text)
        self.fixes, self.reader = [it for it in fixes if isinstance(it, Fix)], reader
        self.spellings = tuple(it for it in fixes if isinstance(it, Spelling))
        self.before_spellings = next(
            (at for at, it in enumerate(fixes) if isinstance(it, Spelling)), 0)
        self.missing = _library.RESULT_FROM_MARKER if checked else _library.RESULT_UNKNOWN
        self.around, self.begin = around, 0
        self.with_small_letters = True
        # the names of the fixes that the current game has edits of
        self.used: Set[str] = set()
        self.is_sound = False
        # of a text that is not sound the first fault that no fix mends
        self.fault = self.place = 0

    def run(self) -> "Mending":
        """Mends the text game by game, until it is sound or no fix applies."""
        while True:
            found = self._mend_game()
            if found.status == _library.OK:
                self.begin = found.end
                self.around = self.around._replace(is_first=False, is_apart=False)
            elif found.status == _library.NO_GAME:
                self.is_sound = True
                return self
            else:
                self.fault, self.place = found.fault, found.place
                return self

    def _mend_game(self) -> _library.NextGame:
        """Mends a game, and gives the answer for it: without small letters, if a b is in doubt."""
        before, self.used, self.with_small_letters = copy(self.changes), set(), True
        found = self._mend_faults()
        end = found.end if found.status == _library.OK else found.place
        if SMALL_LETTER in self.used and has_doubtful_pawn(self._here(found), end):
            self.changes, self.with_small_letters = before, False
            found = self._mend_faults()
        return found

    def _mend_faults(self) -> _library.NextGame:
        """Mends the faults of a game in turn, until it has none, or one that no fix mends."""
        while True:
            found, _ = self.reader.read(self.changes.text, self.begin, self.missing)
            if found.status in (_library.OK, _library.NO_GAME) or not self._mend_fault(found):
                return found

    def _here(self, found: _library.NextGame) -> Here:
        return Here(self.changes.text, self.begin, found.fault, found.place,
                    found.fen.decode("ascii"), self.reader, self.around)

    def _mend_fault(self, found: _library.NextGame) -> bool:
        """Tries the fixes at a fault: whether one was kept."""
        here = self._here(found)
        # a missing Result is mended last, when all else is sound
        missing = self.missing if here.number == RESULT_DIFFERS else _library.RESULT_FROM_MARKER
        return any(self._try(here, fix, missing) for fix in self.fixes_of(here.number))

    def fixes_of(self, number: int) -> "List[Union[Fix, Tuple[Spelling, ...]]]":
        """The fixes for a reason, in order; all spellings of moves are tried as one."""
        chosen: "List[Union[Fix, Tuple[Spelling, ...]]]" = [
            it for it in self.fixes if number in it.reasons]
        if self.spellings and number in self.spellings[0].reasons:
            # behind the letters of a language, which are those of a whole game
            chosen.insert(self.before_spellings, self.spellings)
        return chosen

    def _try(self, here: Here, fix: "Union[Fix, Tuple[Spelling, ...]]", missing: int) -> bool:
        if not isinstance(fix, Fix):
            return self._try_spellings(here, missing)
        change = fix.propose(here)
        if not change or not self._is_better(here, change, missing):
            return False
        self.changes.apply(change, (fix.name,), fix.is_safe)
        self.used.add(fix.name)
        return True

    def _try_spellings(self, here: Here, missing: int) -> bool:
        """Tries all spellings of a move together, and what was kept on like tokens too."""
        found = respelled(here, self.spellings, self.with_small_letters)
        if not found or not self._is_better(here, found.change, missing):
            return False
        names = tuple(it.name for it in found.spellings)
        self.changes.apply(found.change, names, all(it.is_safe for it in found.spellings))
        self.used.update(names)
        self._try_like_tokens(found.change.start + len(found.change.new), found.spellings, missing)
        return True

    def _try_like_tokens(self, begin: int, spellings: Tuple[Spelling, ...], missing: int) -> None:
        """Changes like tokens up to the next fault: so far the library has read them as moves."""
        changes = like_tokens(self.changes.text, begin, spellings)
        if not changes:
            return
        text, made, ends = self.changes.text, bytearray(), []
        at = 0
        for it in changes:
            made += text[at:it.start]
            ends.append(len(made))
            made += it.new
            at = it.stop
        found, _ = self.reader.read(bytes(made) + text[at:], self.begin, missing)
        last = found.end if found.status == _library.OK else found.place
        names = tuple(it.name for it in spellings)
        for change, start in zip(changes, ends):
            if start + len(change.new) <= last:
                stop = start + change.stop - change.start
                self.changes.apply(Change(start, stop, change.new), names,
                                   all(it.is_safe for it in spellings))

    def _is_better(self, here: Here, change: Change, missing: int) -> bool:
        """Whether a change is kept: the library reads on, and the moves before it are the same."""
        new = change.of(here.text)
        found, _ = self.reader.read(new, here.begin, missing)
        is_sound = found.status in (_library.OK, _library.NO_GAME)
        is_behind = found.place >= change.start + len(change.new)
        if here.number == UNCLOSED_COMMENT:
            return is_sound or is_behind and found.fault != UNCLOSED_COMMENT
        is_behind = is_behind and len(new) - found.place < len(here.text) - here.place
        # what follows an open comment is not read at all
        old = here.text[change.start:change.stop]
        opens = open_braces(change.new) != open_braces(old)
        return (is_sound or is_behind) and not opens and self._has_same_moves(here, change, new)

    def _has_same_moves(self, here: Here, change: Change, new: bytes) -> bool:
        """Whether the moves before the fault are the same after a change before it."""
        if change.stop > here.place or change.start >= here.place:
            return True
        shift = len(new) - len(here.text)
        before = self._moves(here.text[here.begin:here.place])
        return before is None or before == self._moves(new[here.begin:here.place + shift])

    def _moves(self, text: bytes) -> Optional[List[bytes]]:
        """The words of a text's movetext but its glyphs, and its last position; None if it has none.

        The text may break off.
        """
        for closed in range(MOST_OPEN):
            for marker in MARKERS:
                found, export = self.reader.read(text + b" " + b")" * closed + marker, 0)
                if found.status == _library.OK:
                    words = export.partition(b"\n\n")[2].split()[:-1]
                    return [it for it in words if not it.startswith(b"$")] + [found.fen]
                if found.fault != RESULT_DIFFERS:
                    break
        return None


def open_braces(text: bytes) -> int:
    """How many braces a text opens and does not close."""
    return text.count(b"{") - text.count(b"}")


class SectionMender:
    """Mends the bad games of an opened source, in their order."""

    def __init__(self, opened: Opened, checked: bool, fixes: Sequence[AnyFix],
                 others: Sequence[AnyFix] = ()) -> None:
        self.opened, self.checked, self.fixes, self.others = opened, checked, fixes, others
        self._reader = GameReader()
        # up to where lines are counted
        self._lines, self._counted = LineCounter(), 0

    def section(self, fault: PgnFault, is_sound: bool = False) -> Section:
        """The edits of the bad game that a fault is in, by the fixes; `others` are counted.

        If it `is_sound` all the same, edits are made only if they end with a sound text.
        """
        assert fault.end is not None
        # a byte order mark and a % mean something else at the start of a text
        begin = fault.begin and fault.begin - 1
        mark_end = fault.offset + len(BYTE_ORDER_MARK)
        is_mark = self.opened.fetch(fault.offset, mark_end) == BYTE_ORDER_MARK
        text = self.opened.fetch(begin, max(fault.end, mark_end) if is_mark else fault.end)
        # no pattern takes it for the blank of a line
        text = b"\v" + text[1:] if fault.begin and not text[:1].isspace() else text
        before = self.opened.fetch(max(fault.begin - NEAR, 0), fault.begin)
        around = Around(not before.strip() and fault.begin == len(before),
                        fault.end == self.opened.size,
                        bool(EMPTY_LINE.search(before[len(before.rstrip()):])))
        mending = self._mending(text, around, self.fixes)
        is_kept = mending.is_sound or not is_sound and self._ends_as_before(mending, fault.end)
        edits = [self._edit(fault.game, begin, it, text)
                 for it in mending.changes.applied if is_kept]
        more = 0
        if self.others and not mending.is_sound:
            more = len(self._mending(mending.changes.text, around, self.others).changes.applied)
        return Section(fault.begin, fault.end, edits, more)

    def _ends_as_before(self, mending: Mending, end: int) -> bool:
        """Whether what is still bad ends where the section does, and takes no game behind it."""
        following = self.opened.fetch(end, end + NEAR)
        if not following:
            return True
        rest = mending.changes.text[mending.begin:]
        last = end_of_bad_game(rest + following, mending.place - mending.begin)
        return mending.fault != UNCLOSED_COMMENT and last == len(rest)

    def _mending(self, text: bytes, around: Around, fixes: Sequence[AnyFix]) -> Mending:
        return Mending(text, fixes, self._reader, self.checked, around).run()

    def _edit(self, game: int, begin: int, it: Applied, text: bytes) -> Edit:
        change, offset = it.change, begin + it.change.start
        line, column = self._place(offset)
        return Edit(game, line, column, offset, text[change.start:change.stop], change.new,
                    ", ".join(it.names), it.is_safe)

    def _place(self, offset: int) -> Tuple[int, int]:
        while self._counted < offset:
            piece = self.opened.fetch(self._counted, min(offset, self._counted + CHUNK))
            self._lines.feed(piece)
            self._counted += len(piece)
        return self._lines.place(self.opened.fetch(offset, offset + NEAR))
