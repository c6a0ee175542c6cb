"""Lines and columns: where a byte of a text is, for people."""
import re
from codecs import getincrementaldecoder
from typing import NamedTuple, Tuple

BYTE_ORDER_MARK = b"\xef\xbb\xbf"
# How many bytes of a line behind a place are looked at for its encoding.
NEAR = 1 << 12
LINE_END = re.compile(rb"[\r\n]")
# In UTF-8 these bytes go on with a character.
_INSIDE = bytes(range(0x80, 0xC0))
_Decoder = getincrementaldecoder("utf-8")


class Place(NamedTuple):
    """Where a byte is, for people."""

    line: int
    """Its line, from 1."""
    column: int
    """Its column in characters, from 1."""
    before: int
    """How many bytes of its line are before it."""
    encoding: str
    """The encoding of its line: `utf-8`, or else `latin-1`."""


class LineCounter:
    """The line and the column of a place in a text that is read from its start on.

    Lines end with LF, CR or both. A column is a character: of UTF-8 where the line is UTF-8, up to
    a little behind the place, else of Latin-1. The bytes of a line end belong to their line, and a
    byte order mark at the start of the text has no column of its own.

    >>> counter = LineCounter()
    >>> counter.feed(b"[White \\"M\\xc3\\xbc")
    >>> counter.place(b"ller\\"]")
    (1, 11)
    """

    def __init__(self) -> None:
        self._line = 1
        # the bytes of the current line, those that begin a character, and whether it is UTF-8
        self._bytes = self._characters = 0
        self._is_utf8, self._decoder = True, _Decoder()
        # what the next byte decides: the start of a byte order mark, or a CR
        self._held, self._is_start = b"", True

    def copy(self) -> "LineCounter":
        """A counter at the same place, which goes on by itself."""
        other = LineCounter()
        other.__dict__.update(self.__dict__)
        other._decoder = _Decoder()
        other._decoder.setstate(self._decoder.getstate())
        return other

    def feed(self, text: bytes) -> None:
        """Goes on to the place behind these bytes."""
        text = self._held + text
        self._held = b""
        if self._is_start:
            if len(text) < 3 and BYTE_ORDER_MARK.startswith(text):
                self._held = text
                return
            self._is_start = False
            text = text[3:] if text.startswith(BYTE_ORDER_MARK) else text
        if text.endswith(b"\r"):
            text, self._held = text[:-1], b"\r"
        self._count(text)

    def _count(self, text: bytes) -> None:
        begin = max(text.rfind(b"\n"), text.rfind(b"\r")) + 1
        if begin:
            self._line += text.count(b"\n")
            if b"\r" in text:
                self._line += text.count(b"\r") - text.count(b"\r\n")
            self._bytes = self._characters = 0
            self._is_utf8, self._decoder = True, _Decoder()
            text = text[begin:]
        self._bytes += len(text)
        self._characters += len(text.translate(None, _INSIDE))
        self._is_utf8 = self._is_utf8 and self._decodes(text, False)

    def _decodes(self, text: bytes, is_end: bool) -> bool:
        try:
            self._decoder.decode(text, is_end)
        except UnicodeDecodeError:
            return False
        return True

    def _is_plain(self) -> bool:
        """Whether the line has ASCII alone so far, and the next bytes decide nothing of it."""
        return self._is_utf8 and self._bytes == self._characters and not self._held \
            and not self._is_start and not self._decoder.getstate()[0]

    def place(self, near: bytes) -> Tuple[int, int]:
        """The line and the column, both from 1; `near` has the next bytes of the text.

        These are NEAR bytes, or fewer at the end of the text or of the line.
        """
        return self.find(near)[:2]

    def find(self, near: bytes) -> Place:
        """The line and the column, as `place` gives them, and what of the line is before them.

        >>> counter = LineCounter()
        >>> counter.feed(b"e4 e5\\n2. ")
        >>> counter.find(b"Nf9 *")
        Place(line=2, column=4, before=3, encoding='utf-8')
        """
        rest = LINE_END.split(near[:NEAR], 1)[0]
        if self._is_plain() and rest.isascii():
            return Place(self._line, self._bytes + 1, self._bytes, "utf-8")
        end = self.copy()
        held, end._held = end._held, b""
        if end._is_start and (held + near).startswith(BYTE_ORDER_MARK):
            return Place(1, 1, 0, "utf-8")
        if held == b"\r" and not near.startswith(b"\n"):
            end._count(held)
            held = b""
        end._bytes += len(held)
        end._characters += len(held.translate(None, _INSIDE))
        if end._is_utf8 and end._decodes(held + rest, len(rest) < NEAR):
            inside = 0x80 <= (near or b" ")[0] < 0xC0
            return Place(end._line, max(end._characters + 1 - inside, 1), end._bytes, "utf-8")
        return Place(end._line, end._bytes + 1, end._bytes, "latin-1")
