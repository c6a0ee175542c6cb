"""What a bad game is by guess: where it ends, which comment is open in it, and its tag pairs.

It ends before the next line that begins a tag section, which the library finds. docs/PYTHON.md has
the rule in words. It is a guess, since a bad game says nothing sure of its text.
"""
import re
from typing import Dict, Optional

from . import _library
from ._library import BadGame
from ._places import BYTE_ORDER_MARK
from ._sources import LONGEST_LINE, Window

# White space, comments and escapes between tag pairs. Each has one reading: with more of them, a
# search that fails would take a time that doubles with each brace.
SPACE = re.compile(
    rb"(?:[\t-\r ]|\xef\xbb\xbf|\{[^}]*(?:\}|\Z)|;[^\r\n]*(?![^\r\n])"
    rb"|%(?<![^\r\n]%)[^\r\n]*(?![^\r\n]))*")
# A tag pair. Where no bracket follows the value, the rest of the line is passed over.
PAIR = re.compile(
    rb'\[%(space)b(\w+)%(space)b"((?:[^"\\\r\n]|\\["\\]?)*)"?(?:%(space)b\]|[^\[\r\n]*)'
    % {b"space": SPACE.pattern})
BRACKET_LINE = re.compile(rb"\[[^\r\n]*")


def end_of(game: BadGame, window: Window, keep: Optional[int] = None) -> Optional[int]:
    """The offset where a game ends, whose lines are read from `at` on; None: with the source.

    Reading on keeps the bytes from the next line on, the escape lines before it, and the bytes from
    `keep` on. A very long line is read in parts.
    """
    while True:
        piece = window.data[game.at - window.base:]
        found = _library.next_section(game, piece, len(piece), window.is_whole)
        left = window.base + len(window.data) - game.at
        if found.status == _library.MORE and left >= LONGEST_LINE:
            found = _library.next_section(game, piece[-left:], left, True)
        if found.status == _library.OK:
            return window.base + _before_mark(window.data, game.begin - window.base,
                                              found.place - window.base)
        if window.is_whole:
            return None
        escapes = game.escapes_at if game.has_escapes else game.at
        window.more(min(game.at, escapes, game.at if keep is None else keep))


def _end_in(game: BadGame, text: bytes) -> Optional[int]:
    """The offset where a game ends that a text begins with, or None."""
    found = _library.next_section(game, text, len(text), True)
    return _before_mark(text, 0, found.place) if found.status == _library.OK else None


def _before_mark(text: bytes, begin: int, place: int) -> int:
    """Where the game ends: before a byte order mark, if reading goes on behind one."""
    end = place - len(BYTE_ORDER_MARK)
    return end if end >= max(begin, 0) and text.startswith(BYTE_ORDER_MARK, end) else place


def end_of_bad_game(text: bytes, fault: int) -> Optional[int]:
    """The offset where the bad game ends that a text begins with, or None: with the text.

    >>> end_of_bad_game(b'1. e4 e9 *\\n\\n[White "Ada"]\\n', 6)
    12
    """
    return _end_in(BadGame(fault=fault), text)


def open_comment(window: Window) -> Optional[int]:
    """Where the comment begins that is open at the end of a source, or None."""
    game = BadGame(ends=_library.ENDS_NOWHERE)
    end_of(game, window)
    return game.comment_at if game.has_comment else None


QUOTED_TAG_LINE = re.compile(rb'[\r\n][\x00-\x20\x7f\xef\xbb\xbf]*\[[\t-\r ]*\w+[\t-\r ]*"')


def game_in_comment(text: bytes) -> Optional[int]:
    """Where a comment of a valid game holds a line that begins a tag section, or None.

    >>> game_in_comment(b'1. e4 {resigns\\n\\n[White "Ada"]\\n\\n1. d4 {a} 1-0')
    16
    """
    head = text.find(b"\n\n") + 1
    if text.find(b'"', head) < 0 or not QUOTED_TAG_LINE.search(text, head):
        return None
    return _end_in(BadGame(ends=_library.ENDS_IN_COMMENTS), text)


def has_movetext(text: bytes) -> bool:
    """Whether a text has more than tag pairs, comments and white space.

    >>> has_movetext(b'[White "Ada"] {a} '), has_movetext(b'[White "Ada"] 1. e4 ')
    (False, True)
    """
    at = 0
    while True:
        space = SPACE.match(text, at)
        pair = PAIR.match(text, space.end() if space else at)
        if not pair:
            return (space.end() if space else at) < len(text)
        at = pair.end()


def tag_pairs(text: bytes) -> Dict[bytes, bytes]:
    """The tag pairs that a game's text begins with; lines with a mistake are passed over.

    >>> tag_pairs(b'[White "Ada"] [Event "a"b"] [Black "\\\\"Bo\\\\""] 1. e4 *')
    {b'White': b'Ada', b'Event': b'a', b'Black': b'"Bo"'}
    """
    pairs: Dict[bytes, bytes] = {}
    at = 0
    while True:
        space = SPACE.match(text, at)
        at = space.end() if space else at
        found = PAIR.match(text, at)
        if found:
            pairs.setdefault(found[1], re.sub(rb'\\(["\\])', rb"\1", found[2]))
        else:
            found = BRACKET_LINE.match(text, at)
        if not found:
            return pairs
        at = found.end()
