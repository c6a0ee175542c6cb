"""What gillspoon lint warns of in games that are valid, and in a file.

A valid game can hide another one in a comment, and some values have forms that the standard does
not know. Each test is cheap on a game that it does not warn of.
"""
import re
from functools import lru_cache
from typing import TYPE_CHECKING, Iterator, List, NamedTuple, Optional, Tuple

from ._games import Game, section_of
from ._library import check_numbers
from ._reading import GameReader
from ._sections import game_in_comment, tag_pairs
from ._sources import Window
from ._texts import is_utf_8

if TYPE_CHECKING:
    from ._doubts import Doubt

IN_COMMENT = "a comment holds a line that begins a tag section: perhaps it was never closed"
DROPPED = "comment before a game, which export drops"
BEHIND = "comment after the last game, which export drops"
EMPTY = "there is no game"
NOTHING = "a game without tags and moves after a marker"
MIXED = "another encoding than that of the games before: a file is UTF-8 or it is not"
VARIANT = "Variant tag: the moves are checked by the rules of ordinary chess"
OTHER_NAME = "tag %s: perhaps %s is meant"
# What is said once a file, of one and of several.
ESCAPES = ("1 line begins with %, and export drops it",
           "%d lines begin with %%, and export drops them")
IN_PAIR = ("1 comment is inside a tag pair, and export drops it",
           "%d comments are inside tag pairs, and export drops them")
# For each tag that has a form: the form, and where the standard has it.
FORMS = {
    b"Date": (rb"(?:[0-9]{4}|\?{4})\.(?:[0-9]{2}|\?\?)\.(?:[0-9]{2}|\?\?)", "YYYY.MM.DD", "8.1.1.3"),
    b"Round": (rb"\?|-|[0-9]+(?:\.[0-9]+)*", "a number, ? or -", "8.1.1.4"),
    b"WhiteElo": (rb"[0-9]+|-|\?", "a number or -", "9.1.2"),
    b"BlackElo": (rb"[0-9]+|-|\?", "a number or -", "9.1.2"),
    b"Termination": (
        rb'(?i:time forfeit|(?:(?!forfeit|default|walk-?over|no[ -]?show)(?:\\.|[^"\\\n]))*)',
        "time forfeit, or another word of the standard", "9.8.1"),
    b"ECO": (rb"[A-E][0-9]{2}(?:/[0-9]{2})?|\?|-", "a letter and two digits", "9.4.1"),
}
ROSTER = (b"Event", b"Site", b"Date", b"Round", b"White", b"Black", b"Result")
# A line of a tag section in export format, but the first, whose value has another form; or a
# Variant tag; or a tag whose name is none of the usual ones.
USUAL = ROSTER + (b"WhiteElo", b"BlackElo", b"WhiteTitle", b"BlackTitle", b"ECO", b"Opening",
                  b"Termination", b"TimeControl", b"UTCDate", b"UTCTime", b"EventDate", b"PlyCount",
                  b"Annotator", b"FEN", b"SetUp")
OTHER_FORM = re.compile(rb"\n\[(?:%s)" % b"|".join(
    [rb'(?P<Variant>Variant) "(?!(?:Standard|From Position|Normal|Chess|\?)?"\])']
    + [rb'(?P<%s>%s) "(?!(?:%s)"\])' % (name, name, form[0]) for name, form in FORMS.items()]
    + [rb'(?P<name>(?!(?:%s) )\w+) "' % b"|".join(USUAL)]))
# A tag section in export format that has none: that is found in less time.
_LINES = {name: rb'\n\[%s "(?:%s)"\]' % (name, FORMS[name][0]) if name in FORMS else rb"\n\[%s [^\n]*" % name
          for name in USUAL}
USUAL_SECTION = re.compile(rb"\[Event [^\n]*%s(?:%s)*\Z" % (
    b"".join(_LINES[it] for it in ROSTER[1:]), b"|".join(_LINES[it] for it in USUAL[7:])))


class Said(NamedTuple):
    """A warning: where it is, and what it says."""

    offset: int
    line: int
    column: int
    reason: str


class Dropped:
    """What export drops, counted through a file, with the place of the first."""

    def __init__(self, one: str, many: str) -> None:
        self._one, self._many = one, many
        self._first: Optional[Said] = None
        self._count = 0

    def add(self, offset: int, window: Window) -> None:
        """Counts one at an offset."""
        self._first = self._first or Said(offset, *window.place(offset), "")
        self._count += 1

    def said(self) -> Iterator[Said]:
        """The warning, if there was one."""
        if self._first:
            yield self._first._replace(
                reason=self._one if self._count == 1 else self._many % self._count)


class Watcher:
    """Looks at the games of a file in turn, while they are in the window."""

    def __init__(self, window: Window) -> None:
        self._window, self._reader = window, GameReader()
        # whether a game so far was UTF-8, and whether one was not
        self._encodings = {True: False, False: False}
        self._escapes, self._in_pairs = Dropped(*ESCAPES), Dropped(*IN_PAIR)

    def game(self, game: Game) -> List[Said]:
        """The warnings of a valid game, whose text has the comments before it."""
        # this is run for each game: slots are read, and no call is made that most need not
        unwritten, plies = game._unwritten, game._plies
        text = unwritten[0] if unwritten else self._text_of(game)
        find, section = text.find, game._section or section_of(game)
        # most sections are as export writes them, and have no comment
        begin, has_comments, is_read_whole = len(section) + 2, False, False
        if not text.startswith(section + EMPTY_LINE):
            begin = find(b'"]\n\n') + 4
            if begin < 4:
                begin = _begin_behind_carriage_return(text)
            has_comments = not begin or find(b"{", 0, begin) >= 0 or find(b";", 0, begin) >= 0
            is_read_whole = has_comments or find(b"%", 0, begin) >= 0
        movetext = text[begin:]
        found: List[Tuple[int, str]] = []
        if text[0] in COMMENT_SIGNS:
            found.append((0, DROPPED))
        if QUOTE in movetext:
            found += _games_in_comments(text)
        if not USUAL_SECTION.match(section) and OTHER_FORM.search(section):
            found += _of_tags(text, section)
        if not plies:
            found += _of_nothing(game, text)
        # without its tags, a game is read in less time
        read = text if is_read_whole else movetext
        if check_numbers(read, len(read)).unusual:
            if plies:
                found += self._doubts(text)
            percent = find(b"%")
            if percent >= 0 and _may_have_escapes(text, percent):
                self._count_escapes(game.offset, game.end)
        if has_comments:
            self._count_in_pairs(game.offset, text)
        if not text.isascii() and self._is_other_encoding(text):
            found.append((len(text) - len(text.lstrip(ASCII)), MIXED))
        return [self._said(game.offset + at, reason) for at, reason in found] if found else NONE

    def _text_of(self, game: Game) -> bytes:
        """The bytes of a game from its first one on that is no white space, from the window."""
        base = self._window.base
        return self._window.data[game.offset - base:game.end - base]

    def _doubts(self, text: bytes) -> "List[Doubt]":
        """What is in doubt about the movetext of a game."""
        # most files need none of it
        from ._doubts import doubts
        return list(doubts(text, self._reader))

    def _count_in_pairs(self, offset: int, text: bytes) -> None:
        """Counts the comments inside the tag pairs of a game at an offset."""
        from ._doubts import comments_in_pairs
        for at in comments_in_pairs(text):
            self._in_pairs.add(offset + at, self._window)

    def _count_escapes(self, begin: int, end: int) -> None:
        """Counts the escape lines between two offsets, of which the first is in no comment."""
        from ._doubts import escapes
        base = self._window.base
        for at in list(escapes(self._window.data, begin - base, end - base)):
            self._escapes.add(base + at, self._window)

    def _said(self, offset: int, reason: str) -> Said:
        return Said(offset, *self._window.place(offset), reason)

    def _is_other_encoding(self, text: bytes) -> bool:
        """Whether this is the first game that is UTF-8 or not, and one before was the other."""
        is_utf8 = is_utf_8(text)
        is_first, self._encodings[is_utf8] = not self._encodings[is_utf8], True
        return is_first and self._encodings[not is_utf8]

    def file(self, has_game: bool, offset: int) -> Iterator[Said]:
        """The warnings of a file, at its end: the last game ends at an offset."""
        window = self._window
        offset = min(offset, window.base + len(window.data))
        rest = window.data[offset - window.base:]
        plain = rest.lstrip()
        if not has_game:
            yield self._said(offset, EMPTY)
            return
        if plain[:1] in (b"{", b";"):
            yield self._said(offset + len(rest) - len(plain), BEHIND)
        if b"%" in rest:
            self._count_escapes(offset, offset + len(rest))
        yield from self._escapes.said()
        yield from self._in_pairs.said()


# ---- the text of a game

ASCII = bytes(range(128))
COMMENT_SIGNS, EMPTY_LINE = b"{;", b"\n\n"
# A byte is found in less time by its number.
QUOTE = ord('"')
# What an escape line is behind: a line end, or nothing at the begin of a text.
BEFORE_ESCAPE = (b"\n", b"\r", b"")
# So many are looked at one by one; of more an expression finds one in less time than bytes.find.
FEW, ESCAPE_LINE = 2, re.compile(rb"\n%")
NONE: "List[Said]" = []


def _begin_behind_carriage_return(text: bytes) -> int:
    """The index behind the first empty line of CR LF after a tag, or 0 if there is none."""
    at = text.find(b'"]\r\n\r\n')
    return at + 6 if at >= 0 else 0


def _may_have_escapes(text: bytes, percent: int) -> bool:
    """Whether a line may begin with % in a text whose first % is at a place."""
    for _ in range(FEW):
        if text[percent - 1:percent] in BEFORE_ESCAPE:
            return True
        percent = text.find(b"%", percent + 1)
        if percent < 0:
            return False
    return ESCAPE_LINE.search(text, percent - 1) is not None \
        or b"\r" in text and b"\r%" in text


def _games_in_comments(text: bytes) -> Iterator[Tuple[int, str]]:
    inside = game_in_comment(text)
    if inside is not None:
        yield inside, IN_COMMENT


def _of_nothing(game: Game, text: bytes) -> Iterator[Tuple[int, str]]:
    """The warning of a game without moves, if it has no tags either and is behind another one."""
    if game.number > 1 and not tag_pairs(text):
        yield 0, NOTHING


# ---- tags


def _of_tags(text: bytes, section: bytes) -> Iterator[Tuple[int, str]]:
    """The warnings of a game's tags, of which the section is the export."""
    for found in OTHER_FORM.finditer(section):
        name = found.lastgroup or ""
        reason = VARIANT if name == "Variant" else _of_name(found["name"], text) \
            if name == "name" else "%s is not %s (PGN %s)" % (name, *FORMS[name.encode()][1:])
        place = re.search(rb"\[\s*%s\s" % found[name], text)
        if reason:
            yield place.start() if place else 0, reason


def _of_name(name: bytes, text: bytes) -> str:
    """What is said of a tag's name that is none of the usual ones, or nothing."""
    for meant, is_sure in _meant(name):
        if is_sure or meant not in tag_pairs(text):
            return OTHER_NAME % (name.decode("ascii"), meant.decode("ascii"))
    return ""


@lru_cache(maxsize=1024)
def _meant(name: bytes) -> List[Tuple[bytes, bool]]:
    """Names that a tag's name may stand for, and whether they are equal but for capitals.

    >>> _meant(b"Setup"), _meant(b"Rond"), _meant(b"Opening")
    ([(b'SetUp', True)], [(b'Round', False)], [])
    """
    for other in ROSTER + (b"FEN", b"SetUp"):
        if name.lower() == other.lower():
            return [(other, True)]
    return [(other, False) for other in ROSTER if _is_one_letter_away(name, other)]


def _is_one_letter_away(name: bytes, other: bytes) -> bool:
    """Whether a letter of a name is another one, is missing, or is too many."""
    if len(name) == len(other):
        return sum(a != b for a, b in zip(name, other)) == 1
    short, long = sorted((name, other), key=len)
    return any(short == long[:at] + long[at + 1:] for at in range(len(long)))
