"""Moves with the letters of another language, of a whole game at once.

One token says little: T is a rook in German, and R a king in French. So all moves are written anew,
from the first one on, and only if the game has a letter that no English move has.

A P is such a letter, and a Dutch knight. A game that is valid with its pawns' moves has no fault,
so it stays.
"""
import os
import re
from typing import Callable, Dict, Optional

from ._here import WORD, Change, Here
from ._left_out import PART
from ._spellings import SPELLINGS, without_board

# For each language the letters of king, queen, rook, bishop and knight.
LANGUAGES: Dict[str, str] = {
    "de": "K D T L S", "fr": "R D T F C", "es": "R D T A C", "it": "R D T A C", "nl": "K D T L P",
    "ru": "\u041a\u0440 \u0424 \u041b \u0421 \u041a"}
# The signs between the squares of a move, which such a game may have too.
SIGNS = tuple(it for it in SPELLINGS if it.name in ("long notation", "capture sign"))


def in_language(code: str) -> Callable[[Here], Optional[Change]]:
    """The fix for the letters of a language: the edit reaches from the first move to the last."""
    letters = LANGUAGES[code].encode().split()
    english = dict(zip(letters, (b"K", b"Q", b"R", b"B", b"N")))
    one = rb"(%s)" % b"|".join(letters)
    piece = rb"(?<![\w=])" + one + rb"(?=[a-h1-8xX:-])"
    promotion = rb"(?<=[a-h][18])[=/]?(?:\(=?%s\)|%s)(?![\w=])" % (one, one)
    word = re.compile(rb"|".join((PART.pattern, piece, promotion)), re.DOTALL)
    strange = re.compile(rb"(?<![\w=])(?:%s)(?=[a-h1-8xX:-])" % b"|".join(
        it for it in letters if it not in english.values()))

    def propose(here: Here) -> Optional[Change]:
        begin = here.head().end
        if not any(it[3] and strange.match(here.text, it.start())
                   for it in word.finditer(here.text, begin)):
            return None

        def in_english(found: "re.Match[bytes]") -> bytes:
            letter = found[4] or found[5]
            return english[found[3]] if found[3] else b"=" + english[letter] if letter else found[0]

        old = here.text[begin:].rstrip()
        new = WORD.sub(_without_signs, word.sub(in_english, old))
        first = len(os.path.commonprefix([old, new]))
        while first and not old[first - 1:first].isspace():
            first -= 1
        return Change(begin + first, begin + len(old), new[first:])

    return propose


def _without_signs(found: "re.Match[bytes]") -> bytes:
    """A word of movetext without the signs of long notation, and with an x for a capture."""
    return without_board(found[3], SIGNS) if found[3] else found[0]
