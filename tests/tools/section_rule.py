"""The rule of where reading goes on behind a bad game, written from the words of docs/PYTHON.md.

It has nothing of the library, and is slow. Texts are bytes. Of these \\s is white space, \\w is a
letter, a digit or the underscore, and lines end with LF, CR or both.
"""
import re

MARK = b"\xef\xbb\xbf"
MARKERS = (b"1-0", b"0-1", b"1/2-1/2", b"*")
# What a line with a tag begins with: the place of the tag, or of a byte order mark just before it,
# and its name if it has a quoted value.
TAG = re.compile(rb'(?:[\0- \x7f]|\xef\xbb\xbf)*?((?:\xef\xbb\xbf)?\[)(?!\s*%)\s*(?:(\w+)\s*")?')
PAIRS = re.compile(rb'(?:\[\s*\w+\s*"(?:\\["\\]|\\(?!["\\])|[^"\\\r\n])*"\s*\]\s*)*')
COMMENT = re.compile(rb"(?s)\{[^}]*(?:\}|\Z)|;.*")
NUMBER = re.compile(rb"\s*[0-9]+\s*\.")


class Reading:
    """The lines of a game from a place on."""

    def __init__(self, begin, fault):
        self.begin, self.fault, self.at = begin, fault, begin
        self.has_tags = self.has_movetext = False
        self.is_behind_empty_line = True
        self.comment = self.escapes = None

    def ends(self, text):
        """Each place where the game may end, and whether a comment is open there."""
        for line in text[self.begin:].splitlines(True):
            end = self.end(line)
            if end is not None:
                yield end + 3 if text.startswith(MARK, end) else end, self.comment is not None
            self.read(line)

    def end(self, line):
        """Where the game ends, if this line shows it."""
        tag = TAG.match(line)
        here = self.at + tag.start(1) if tag else None
        name = tag[2] if tag else None
        if self.comment is not None:
            return here if name and (self.has_movetext or self.is_behind_empty_line) else None
        is_rest = self.has_movetext and self.is_behind_empty_line and line.rstrip()[-1:] == b"]"
        is_next = self.has_movetext or \
            self.has_tags and self.is_behind_empty_line and name == b"Event"
        if not tag and is_rest or tag and is_next:
            is_own = self.escapes is not None and self.escapes > self.fault
            return self.escapes if is_own else here if tag else self.at
        return here if tag and not self.has_tags and self.fault <= here else None

    def read(self, line):
        """Takes the line."""
        if not line.strip():
            self.is_behind_empty_line = True
        elif self.comment is None and line.startswith(b"%"):
            self.escapes = self.at if self.escapes is None else self.escapes
        else:
            self.escapes = None
            self.read_text(line)
            self.is_behind_empty_line = False
        self.at += len(line)

    def read_text(self, line):
        has_pair = False
        if self.comment is None:
            text = line.lstrip(bytes(range(33)) + b"\x7f" + MARK)
            pairs = PAIRS.match(text)[0]
            text, has_pair = text[len(pairs):], pairs != b""
        else:
            _, brace, text = line.partition(b"}")
            self.comment = None if brace else self.comment
        comments = [it[0] for it in COMMENT.finditer(text)]
        if comments and comments[-1][:1] == b"{" and comments[-1][-1:] != b"}":
            self.comment = self.at + len(line) - len(comments[-1])
        outside = COMMENT.sub(b" ", text).strip()
        is_begin, is_end = outside.startswith(b"["), outside.endswith(b"]")
        self.has_tags |= has_pair or is_begin or is_end
        # what is of a broken tag pair is no text
        if is_begin:
            outside = outside[outside.rfind(b"]") + 1:] if b"]" in outside else b""
        elif is_end:
            outside = b""
        if outside and (self.is_behind_empty_line or NUMBER.match(outside)
                        or outside.endswith(MARKERS)):
            self.has_movetext = True


def next_section(text, begin, fault):
    """Where reading goes on behind a bad game, or None."""
    return next((end for end, _ in Reading(begin, fault).ends(text) if end > begin), None)


def hidden_game(text):
    """Where a comment of a sound game holds a line that begins a tag section, or None."""
    ends = Reading(0, len(text)).ends(text)
    return next((end for end, is_in_comment in ends if is_in_comment), None)


def open_comment(text):
    """Where the comment begins that is open at the end of a text, or None."""
    game = Reading(0, 0)
    for line in text.splitlines(True):
        game.read(line)
    return game.comment
