"""Shows where a byte of a file is, its line, column and game, or what messages say: gillspoon where.

Without a byte it reads messages from standard input, and shows the place of each.
"""
import argparse
import codecs
import functools
import itertools
import json
import os
import re
import shutil
import sys
from typing import IO, Iterator, List, NamedTuple, Optional, Tuple

from ._command import Parser
from ._faults import PgnFault
from ._games import games
from ._inputs import STANDARD_INPUT, FilePath, reason_of, standard_input
from ._packed import member_of
from ._places import BYTE_ORDER_MARK, NEAR, LineCounter, Place
from ._reports import BOLD, GREEN, RED, Output, blank, coloured, has_colours, message
from ._sections import open_comment, tag_pairs
from ._sources import CHUNK, Opened, Window
from ._statuses import DONE, REFUSED, UNREADABLE, WRONG_WORDS, Failure
from ._texts import in_a_line, printable, shown

DESCRIPTION = "Shows the line, the column and the game of a byte of a PGN file."
HELP = """examples:
  gillspoon where games.pgn 4711
  zstd -dc games.pgn.zst | gillspoon where - 4711
  pgn_tool check games.pgn 2>&1 | gillspoon where games.pgn
  pgn_tool export games.pgn 2>&1 >games.out | gillspoon where games.pgn
  gillspoon lint archive/ | gillspoon where
  gillspoon fmt --check *.pgn 2>&1 | gillspoon where

Messages are those of pgn_tool and of gillspoon, its records of --json too. Other lines are passed
on as they are. A message of pgn_tool names no file, and one can be about standard input: its place
is shown in FILE. Of a compressed file the text inside is shown; games.zip:a.pgn is the file a.pgn
in a zip.

Lines end with LF, CR or both. A column is a character: of UTF-8 where the line is UTF-8, else of
Latin-1. The byte at the end of the file has a place too: the program reports it for a game that
breaks off. Games are counted by their results, comments aside. A bad game before the byte counts
too: it ends where gillspoon sieve parts it from the next one.

"""
# What pgn_tool and gillspoon fmt print of a fault, and gillspoon lint; each is a whole line.
BYTE = re.compile(r"(?:gillspoon: (?P<file>.+): )?byte (?P<offset>[0-9]+): (?P<reason>.*)",
                  re.DOTALL)
PLACE = re.compile(
    r"(?P<file>.+?):(?P<line>[0-9]+):(?P<column>[0-9]+): (?P<reason>.+ \(game [0-9]+, .*\))")
RECORD = '{"kind": "fault", '
# Other lines that say that something failed.
ERROR = re.compile(
    r"(?:pgn_tool|gillspoon(?: \w+)?): |error: "
    r"|(?:output cannot be written|arguments cannot be read|out of memory)$")
# Reasons that say something of a device, and nothing of a place in FILE.
DEVICES = ("input cannot be read", "output cannot be written")
# A control character in the name of a file, as a message has it.
ESCAPED = re.compile(r"\\(?:[nrt]|x[0-9a-f]{2}|u[0-9a-f]{4}|U[0-9a-f]{8})")
LINE_END = re.compile(rb"\r\n?|\n")
# How many bytes of a game are read for its tag pairs.
TAGS_SIZE = 1 << 16
# How much of a game is kept in memory before it is asked whether a comment is open to the byte.
LONG = 1 << 24


def arguments(words: List[str]) -> argparse.Namespace:
    """What the words of a command line ask for."""
    parser = Parser("where", DESCRIPTION, HELP)
    parser.add_argument("path", metavar="FILE", nargs="?",
                        help="the file of N, or - for standard input; and that of messages "
                             "that name none")
    parser.add_argument("offset", metavar="N", nargs="?",
                        help="a byte offset, from 0; without it, messages are read")
    parser.add_color()
    given = parser.parse_args(words)
    if given.offset is not None and not re.fullmatch("[0-9]+", given.offset):
        parser.error("N is not a byte offset: %s" % given.offset)
    if given.offset is None and sys.stdin and sys.stdin.isatty():
        parser.error("give FILE and N, or messages on standard input")
    if given.offset is None and given.path == "-":
        parser.error("give N: where FILE is -, standard input has no messages")
    return given


def run(given: argparse.Namespace, out: Output) -> int:
    """Runs the subcommand, and gives its status."""
    writer = Writer(out, has_colours(out, given.color))
    if given.offset is None and sys.stdin is None:
        raise Failure(UNREADABLE, "standard input is closed")
    text = Text(given.path) if given.path else None
    if text is None or given.offset is None:
        return Messages(writer, text).show_all(sys.stdin.buffer)
    show(writer, text, int(given.offset), None)
    describe_game(writer, text, int(given.offset))
    return DONE


class Writer:
    """Writes lines, which may have colours."""

    def __init__(self, out: Output, has_colours: bool) -> None:
        self.out, self.has_colours = out, has_colours

    def write(self, text: str, colour: str = "") -> None:
        """Writes a line."""
        self.out.write(coloured(text, colour, bool(colour) and self.has_colours) + "\n")


# ---- messages


class Message(NamedTuple):
    """A fault that a line of standard input reports: its byte, or its line and column."""

    file: Optional[str]
    offset: Optional[int]
    place: Optional[Tuple[int, int]]
    reason: str
    has_game: bool
    """Whether the reason ends with the game and its players."""


def message_of(line: str) -> Optional[Message]:
    """What a line reports, or None if it is no message."""
    if line.startswith(RECORD):
        return message_of_record(line)
    found = BYTE.fullmatch(line)
    if found:
        return Message(found["file"], int(found["offset"]), None, found["reason"], False)
    found = PLACE.fullmatch(line)
    if found:
        place = int(found["line"]), int(found["column"])
        return Message(found["file"], None, place, found["reason"], True)
    return None


def message_of_record(line: str) -> Optional[Message]:
    """What a record of gillspoon lint --json reports."""
    try:
        record = json.loads(line)
        reason = record["reason"] + (": " + record["note"] if record["note"] else "")
        game = "game %d, %s \u2013 %s" % (record["game"], record["white"], record["black"])
        reason = "%s (%s)" % (reason, game)
        return Message(record["file"], int(record["offset"]), None, reason, True)
    except (KeyError, TypeError, ValueError):
        return None


class Messages:
    """Lines of which some are messages."""

    def __init__(self, writer: Writer, text: "Optional[Text]") -> None:
        self.writer, self.given, self.status = writer, text, DONE
        self.last: "Optional[Text]" = None

    def show_all(self, stream: IO[bytes]) -> int:
        """Shows the place of each message, passes on the other lines, and gives the status."""
        out = self.writer.out
        for line in iter(lambda: stream.readline(CHUNK), b""):
            text = line.rstrip(b"\r\n").decode("utf-8", "surrogateescape")
            found = message_of(text)
            if found and found.reason not in DEVICES:
                self.show_message(found, line)
            else:
                out.write_bytes(line)
                if found or ERROR.match(text):
                    self.status = max(self.status, REFUSED)
            if found or out.is_terminal:
                out.flush()
        return self.status

    def show_message(self, found: Message, line: bytes) -> None:
        """Shows the place of a message, or passes it on and says why there is none."""
        self.status = max(self.status, REFUSED)
        try:
            text = self.text_of(found)
            offset = found.offset if found.place is None else text.offset_of(*found.place)
            assert offset is not None
            show(self.writer, text, offset, found.reason)
            if not found.has_game:
                describe_game(self.writer, text, offset)
        except Failure as failure:
            self.writer.out.write_bytes(line)
            self.writer.out.flush()
            message(str(failure))
            self.status = max(self.status, failure.status)

    def text_of(self, found: Message) -> "Text":
        """The text that a message is about."""
        name, colon, member = (found.file or STANDARD_INPUT).partition(":")
        if name == STANDARD_INPUT:
            if not self.given:
                raise Failure(WRONG_WORDS, "give FILE: this message names no file")
            if not colon:
                return self.given
            # a file in a zip
            name = "%s:%s" % (self.given.path, member)
        else:
            name = found.file or ""
        path = name if os.path.exists(name) else ESCAPED.sub(
            lambda it: codecs.decode(it[0], "unicode_escape"), name)
        if not self.last or self.last.path != path:
            self.last = Text(path)
        return self.last


# ---- files


class Text:
    """A file whose places are shown, or standard input: if it is compressed, the text inside."""

    def __init__(self, path: str) -> None:
        self.path = STANDARD_INPUT if path == "-" else path
        try:
            self.opened = Opened(standard_input() if path == "-" else
                                 member_of(path) or FilePath(path))
        except OSError as error:
            raise Failure(UNREADABLE, "%s: %s" % (
                self.path, reason_of(error, self.path))) from None
        self.size = self.opened.size
        # a line, and the offset where it begins
        self.line_at = 1, 0
        # a place up to which lines and columns are counted
        self.counted = 0, LineCounter()

    def read(self, offset: int, size: int) -> bytes:
        """The bytes from an offset on, at most so many."""
        return self.opened.fetch(offset, offset + size)

    def _counter(self, offset: int) -> LineCounter:
        at, counter = self.counted if self.counted[0] <= offset else (0, LineCounter())
        counter = counter.copy()
        for piece in Part(self, at, offset).pieces():
            counter.feed(piece)
        return counter

    def place(self, offset: int) -> Place:
        """The line, the column and the encoding of a byte."""
        return self._counter(offset).find(self.read(offset, NEAR))

    def begin_of_line(self, number: int) -> int:
        """The offset where a line begins; calls are fast that go forward."""
        line, at = self.line_at if self.line_at[0] <= number else (1, 0)
        while line < number:
            block = self.read(at, CHUNK)
            if block.endswith(b"\r") and self.read(at + len(block), 1) == b"\n":
                block += b"\n"
            ends = block.count(b"\n") + block.count(b"\r") - block.count(b"\r\n")
            if not block:
                raise Failure(UNREADABLE, "%s: has no line %d" % (self.path, number))
            if line + ends < number:
                line, at = line + ends, at + len(block)
                continue
            *_, last = itertools.islice(LINE_END.finditer(block), number - line)
            line, at = number, at + last.end()
        self.line_at = line, at
        self.counted = at, self._counter(at)
        return at

    def offset_of(self, line: int, column: int) -> int:
        """The offset of the character at a line and a column."""
        begin = self.begin_of_line(line)
        text = LINE_END.split(self.read(begin, 4 * column + NEAR), 1)[0]
        if not begin and text.startswith(BYTE_ORDER_MARK):
            begin, text = 3, text[3:]
        before = text.decode("utf-8", "surrogateescape")[:column - 1]
        for length in (len(before.encode("utf-8", "surrogateescape")), column - 1):
            if self.place(begin + length)[:2] == (line, column):
                return begin + length
        raise Failure(UNREADABLE, "%s: has no line %d, column %d" % (self.path, line, column))


class Part:
    """The bytes of a text between two offsets, as a source of games."""

    is_unpacked = True

    def __init__(self, text: Text, begin: int, end: int) -> None:
        self.text, self.at, self.end = text, begin, end

    def read(self, size: int) -> bytes:
        """The next bytes, at most so many; other reads of the text do not matter."""
        piece = self.text.read(self.at, max(min(size, CHUNK // 16, self.end - self.at), 0))
        self.at += len(piece)
        return piece

    def pieces(self) -> Iterator[bytes]:
        """The bytes in turn, in pieces."""
        return iter(lambda: self.read(CHUNK), b"")


def show(writer: Writer, text: Text, offset: int, reason: Optional[str]) -> None:
    """Prints a place: its line and column, the text of the line, and a caret."""
    if offset > text.size:
        raise Failure(UNREADABLE, "%s: has %d bytes, so there is no byte %d" % (
            text.path, text.size, offset))
    is_mark = offset < 3 and text.read(0, 3) == BYTE_ORDER_MARK
    begin = 3 if is_mark else offset
    place = text.place(begin)
    notes = ["byte %d" % offset] + ["the end of the file"] * (offset == text.size)
    has = writer.has_colours
    writer.write("%s line %d, column %d (%s)%s" % (
        coloured(in_a_line(text.path) + ":", BOLD, has), place.line, place.column,
        ", ".join(notes), ": " + coloured(reason, RED, has) if reason else ""))
    line, caret = line_around(text, begin - place.before, offset, place.encoding)
    writer.write(line)
    writer.write(caret, GREEN)


# ---- the line


def line_around(text: Text, begin: int, offset: int, encoding: str) -> Tuple[str, str]:
    """The line's text and the line with the caret; a long line is cut around the caret."""
    first = max(begin, offset - NEAR)
    before = text.read(first, max(offset - first, 0))
    after = LINE_END.split(text.read(max(begin, offset), NEAR), 1)[0]
    # an offset inside a character, or on the LF of CR LF, is shown at what it belongs to
    before = before.rstrip(b"\r\n")
    while encoding == "utf-8" and before and 0x80 <= (after or b" ")[0] < 0xC0:
        before, after = before[:-1], before[-1:] + after
    left, right = before.decode(encoding, "ignore"), after.decode(encoding, "ignore")
    width = max(shutil.get_terminal_size((80, 24)).columns - 1, 20)
    lead = "..." if first > begin else ""
    if len(left) + len(right) > width or lead:
        room = width - 6
        keep = max(room // 2, room - len(right))
        lead = "..." if lead or len(left) > keep else ""
        left = left[-keep:] if len(left) > keep else left
        cut = len(right) > width - 3 - len(lead + left)
        right = right[:width - 3 - len(lead + left)] + "..." if cut else right
    left, right = printable(lead + left), printable(right)
    return left + right, "".join(map(blank, left)) + "^"


# ---- the game


def describe_game(writer: Writer, text: Text, offset: int) -> None:
    """Prints the number and the players of the game that has the byte, and a comment around it."""
    number, begin, is_behind = find_game(text, offset, LONG)
    comment = comment_around(text, begin, offset)
    if comment is not None:
        place = text.place(comment)
        writer.write("in a comment that begins at line %d, column %d (byte %d)" % (
            place.line, place.column, comment))
    elif offset == text.size and is_behind:
        writer.write("after the last game, which is game %d" % (number - 1) if begin else
                     "there is no game")
        return
    found = tag_pairs(text.read(begin, TAGS_SIZE))
    names = ['%s "%s"' % (it, shown(found.get(it.encode(), b"?")))
             for it in ("White", "Black", "Event")]
    writer.write("game %d: %s" % (number, ", ".join(names)))


@functools.lru_cache(maxsize=None)
def comment_around(text: Text, begin: int, offset: int) -> Optional[int]:
    """Where a comment begins that is open at a byte of a game, or None."""
    at = open_comment(Window(Part(text, begin, offset)))
    return None if at is None else begin + at


class Beginning(Part):
    """The bytes of a text up to an offset, of which some may be cut off for now."""

    def __init__(self, text: Text, end: int, last: int) -> None:
        super().__init__(text, 0, end)
        self.last, self.is_cut = last, False

    def read(self, size: int) -> bytes:
        piece = super().read(size)
        self.is_cut = self.is_cut or not piece and self.end < self.last
        return piece


def find_game(text: Text, offset: int, most: int) -> Tuple[int, int, bool]:
    """The game that has a byte: its number, where the text before it ends, and if there is none.

    Of a longer game than `most` a part is read, and all of it only if no comment is open.
    """
    number, begin, last = 1, 0, offset + NEAR
    bad: List[PgnFault] = []
    part = Beginning(text, min(most, last), last)
    for game in itertools.chain(games(part, on_fault=bad.append), (None,)):
        if part.is_cut:
            for fault in [it for it in bad if it.offset == part.end][:1]:
                here = comment_around(text, fault.begin, part.end)
                if here is not None and here == comment_around(text, fault.begin, offset):
                    return fault.game, fault.begin, False
            return find_game(text, offset, last)
        for fault in bad:
            end = fault.end or 0
            if max(end, fault.offset + 1) > offset:
                return fault.game, begin, False
            number, begin = fault.game + 1, end
        if not game or game.end > offset:
            return game.number if game else number, begin, not game
        number, begin = game.number + 1, game.end
        part.end = min(begin + most, last)
        bad.clear()
    raise AssertionError("the last one is None")
