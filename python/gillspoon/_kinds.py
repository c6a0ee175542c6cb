"""Files that are no text of games, by their first bytes."""
import re

# How many bytes are looked at: in an archive of tar the first name is shorter.
BEGINNING = 512
NO_TEXT = "is not a text of games: UTF-16 has to be converted, and another archive unpacked"
PAGE = "is a page of HTML or XML, and no text of games"
PDF = "is a PDF, and no text of games"
# What UTF-16 begins with, if it has a mark.
_MARKS = (b"\xff\xfe", b"\xfe\xff")
_SPACE = rb"(?:\xef\xbb\xbf)?[\t-\r ]*"
# PGN keeps the sign for later (PGN 7), so no game begins with it.
_PAGE = re.compile(_SPACE + rb"<[A-Za-z!?/]")
# Where a text begins with a tag pair, a byte 0 is damage.
_TAG = re.compile(_SPACE + rb'\[[\t-\r ]*\w+[\t-\r ]*"')


def other_kind(begin: bytes) -> str:
    """What is said of a text that begins with these bytes: BEGINNING, or all it has.

    Nothing, if it may be a text of games.

    >>> other_kind(b"%PDF-1.4")
    'is a PDF, and no text of games'
    >>> other_kind(b"1. e4 e5 *")
    ''
    """
    begin = begin[:BEGINNING]
    if begin.startswith(_MARKS) or b"\0" in begin and not _TAG.match(begin):
        return NO_TEXT
    if _PAGE.match(begin):
        return PAGE
    return PDF if begin.startswith(b"%PDF-") else ""
