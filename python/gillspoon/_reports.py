"""How the command writes what it finds: lines for people and editors, records of JSON, SARIF."""
import codecs
import errno
import io
import json
import os
import sys
import time
import unicodedata
from typing import Dict, List, NamedTuple, Optional, TextIO, Tuple, Union
from urllib.parse import quote

from ._edits import Edit
from ._findings import TAGS_ALONE, Finding, Warned, board
from ._own_errors import guarded
from ._texts import in_a_line, printable, text_of

VERSION_OF_SARIF = "2.1.0"
SCHEMA_OF_SARIF = "https://json.schemastore.org/sarif-2.1.0.json"
# How many characters of an edit are shown.
LONGEST_EXCERPT = 60
BOLD, RED, GREEN, CYAN, PLAIN = "\x1b[1m", "\x1b[31m", "\x1b[32m", "\x1b[36m", "\x1b[0m"


class Unread(NamedTuple):
    """A file that could not be read, or an argument that names nothing, and why."""

    file: str
    reason: str


class Summary(NamedTuple):
    """What all files had together."""

    files: int
    games: int
    faults: int
    bad_files: int
    fixed: Optional[int] = None
    """How many edits were made, or would be, if edits are made at all."""
    more: Optional[int] = None
    """How many further edits --unsafe-fixes would make."""
    warnings: Optional[int] = None
    """How many warnings there are, if any."""
    reasons: Optional[Dict[str, int]] = None
    """With --statistics the number of faults for each reason."""
    fixes: Optional[Dict[str, int]] = None
    """With --statistics, and --fix or --diff, the number of edits for each fix."""

    def statistics(self) -> List[str]:
        """A line for each reason and each fix, the most frequent first."""
        lines = []
        for word, counts in ("", self.reasons), ("fix: ", self.fixes):
            for name, count in sorted((counts or {}).items(), key=lambda it: (-it[1], it[0])):
                lines.append("%7s  %s%s" % (format(count, ","), word, name))
        return lines

    def __str__(self) -> str:
        words = [_count(self.files, "file"), _count(self.games, "game"),
                 _count(self.faults, "fault")]
        if self.faults:
            words[2] += " in " + _count(self.bad_files, "file")
        if self.warnings:
            words.append(_count(self.warnings, "warning"))
        if self.fixed is not None:
            words.append(_count(self.fixed, "edit"))
        if self.more:
            words.append("%s more with --unsafe-fixes" % format(self.more, ","))
        return ", ".join(words)

    def record(self) -> "Dict[str, object]":
        """The counts that there are, by their names."""
        return {name: it for name, it in self._asdict().items() if it is not None}


def _count(number: int, what: str) -> str:
    """The number with commas, and the word for so many."""
    return "%s %s%s" % (format(number, ","), what, "" if number == 1 else "s")


class OutputFault(Exception):
    """Standard output cannot be written, for the system's reason."""

    def __init__(self, error: OSError) -> None:
        super().__init__(error.strerror or str(error))
        self.is_closed_pipe = isinstance(error, BrokenPipeError)
        """Whether nobody reads the output any more."""


class Output:
    """Standard output. It can write every text: names as their bytes, and `?` for the rest."""

    def __init__(self, stream: Optional[TextIO]) -> None:
        codecs.register_error("gillspoon", _replacement)
        if isinstance(stream, io.TextIOWrapper):
            stream.reconfigure(errors="gillspoon")
        self.stream = stream
        self.is_terminal = bool(stream and stream.isatty())

    def write(self, text: str) -> None:
        """Writes a text; raises OutputFault."""
        try:
            if self.stream is None:
                raise OSError(errno.EBADF, os.strerror(errno.EBADF))
            self.stream.write(text)
        except OSError as error:
            raise OutputFault(error) from None

    def write_bytes(self, data: bytes) -> None:
        """Writes bytes as they are, behind what was written before; raises OutputFault."""
        self.flush()
        try:
            if self.stream is None:
                raise OSError(errno.EBADF, os.strerror(errno.EBADF))
            self.stream.buffer.write(data)
        except OSError as error:
            raise OutputFault(error) from None

    def flush(self) -> None:
        """Hands what was written to the system; raises OutputFault."""
        try:
            if self.stream is not None:
                self.stream.flush()
        except OSError as error:
            raise OutputFault(error) from None

    def give_up(self) -> None:
        """Writes nothing any more, also when Python ends."""
        if self.stream is not None:
            os.dup2(os.open(os.devnull, os.O_WRONLY), self.stream.fileno())


def _replacement(error: UnicodeError) -> "Tuple[Union[str, bytes], int]":
    assert isinstance(error, UnicodeEncodeError)
    character = error.object[error.start]
    if "\udc80" <= character <= "\udcff":
        return bytes((ord(character) - 0xDC00,)), error.start + 1
    return {"\u2013": "-", "\u2192": "->"}.get(character, "?"), error.start + 1


def _what_is_wrong(it: Finding) -> str:
    """The reason and its note, or the note alone where the reason would mislead."""
    if it.note == TAGS_ALONE:
        return it.note
    return it.reason + (": " + it.note if it.note else "")


class Report:
    """Lines for people: one for each fault, and with `with_board` what explains it."""

    def __init__(self, out: Output, with_board: bool, is_quiet: bool, has_colours: bool) -> None:
        self.out, self.with_board, self.is_quiet = out, with_board, is_quiet
        self.has_colours = has_colours

    def fault(self, it: Finding) -> None:
        """Writes a fault."""
        place = "%s:%d:%d:" % (in_a_line(it.file), it.line, it.column)
        reason = _what_is_wrong(it)
        self._put("%s %s (game %d, %s \u2013 %s)" % (
            self._in(BOLD, place), self._in(RED, reason), it.game, it.white, it.black))
        if self.with_board:
            none: List[str] = []
            for line in guarded(lambda: self._explanation(it), none, it.line, it.column):
                self._put("  " + line if line else "")

    def warning(self, it: Warned) -> None:
        """Writes a warning."""
        place = "%s:%d:%d:" % (in_a_line(it.file), it.line, it.column)
        game = "" if it.game is None else " (game %d, %s \u2013 %s)" % (
            it.game, it.white, it.black)
        self._put("%s warning: %s%s" % (self._in(BOLD, place), it.reason, game))

    def edit(self, file: str, it: Edit, is_done: bool) -> None:
        """Writes an edit that was made, or would be."""
        place = "%s:%d:%d:" % (in_a_line(file), it.line, it.column)
        word = ("fixed" if is_done else "would fix") + ("" if it.safe else " (unsafe)")
        old, new = _excerpt(it.old), _excerpt(it.new)
        change = "%s \u2192 %s" % (old, new) if old and new else \
            "added " + new if new else "taken out: " + old
        self._put("%s %s: %s: %s" % (self._in(BOLD, place), self._in(GREEN, word), it.name, change))

    def more_edits(self, file: str, count: int) -> None:
        """Writes how many further edits of a file there are."""
        self._put("%s ... and %s (--verbose shows all)" % (
            self._in(BOLD, in_a_line(file) + ":"), _count(count, "more edit")))

    def _explanation(self, it: Finding) -> List[str]:
        """The line with a caret; of a move also the board, its FEN and a sentence."""
        caret = "".join(map(blank, it.text[:it.before])) + "^"
        lines = [it.text, self._in(GREEN, caret)]
        if it.fen:
            lines += board(it.fen) + [it.fen]
        if it.explanation:
            lines.append(it.explanation)
        return lines + [""]

    def _in(self, colour: str, text: str) -> str:
        return coloured(text, colour, self.has_colours)

    def end(self, summary: Summary, unread: List[Unread]) -> None:
        """Writes the statistics, if there are any, and the summary."""
        for line in summary.statistics():
            self._put(line)
        if not self.is_quiet:
            self._put(str(summary))

    def _put(self, line: str) -> None:
        self.out.write(line + "\n")


def _excerpt(text: bytes) -> str:
    """A text of a file in a line, cut where it is long."""
    line = printable(" ".join(text_of(text).split()))
    line = line if line.strip("\ufffd") else repr(text)[2:-1]
    return line if len(line) <= LONGEST_EXCERPT else line[:LONGEST_EXCERPT] + "..."


def edit_record(it: Edit) -> "Dict[str, object]":
    """The fields of an edit for a record of JSON."""
    return dict(it._asdict(), old=text_of(it.old), new=text_of(it.new))


def blank(character: str) -> str:
    """White space as wide as a character on a terminal."""
    if character == "\t" or unicodedata.combining(character):
        return character if character == "\t" else ""
    return "  " if unicodedata.east_asian_width(character) in "WF" else " "


class JsonReport:
    """A record a line: `fault` for each fault, and `summary` at the end."""

    def __init__(self, out: Output, is_quiet: bool) -> None:
        self.out, self.is_quiet = out, is_quiet

    def fault(self, it: Finding) -> None:
        """Writes the record of a fault."""
        record = dict({"kind": "fault"}, **it._asdict())
        record["fixes"] = [edit_record(edit) for edit in it.fixes]
        self._put(record)

    def warning(self, it: Warned) -> None:
        """Writes the record of a warning."""
        self._put(dict({"kind": "warning"}, **it._asdict()))

    def edit(self, file: str, it: Edit, is_done: bool) -> None:
        """Writes the record of an edit."""
        self._put(dict({"kind": "fix", "file": file}, **edit_record(it)))

    def more_edits(self, file: str, count: int) -> None:
        """Nothing: each edit is a record."""

    def end(self, summary: Summary, unread: List[Unread]) -> None:
        """Writes the record of the summary."""
        if not self.is_quiet:
            self._put(dict({"kind": "summary"}, **summary.record()))

    def _put(self, record: "Dict[str, object]") -> None:
        self.out.write(json.dumps(record) + "\n")


class SarifReport:
    """A log of SARIF 2.1.0, which is written at the end."""

    def __init__(self, out: Output) -> None:
        self.out = out
        self.rules: "Dict[int, str]" = {}
        self.results: "List[Dict[str, object]]" = []

    def fault(self, it: Finding) -> None:
        """Takes a fault."""
        self.rules.setdefault(it.number, it.reason.partition(", field")[0])
        game = " (game %d, %s \u2013 %s)" % (it.game, it.white, it.black)
        reason = _what_is_wrong(it)
        text = ". ".join([reason + game, it.explanation]) if it.explanation else reason + game
        result: "Dict[str, object]" = {
            "ruleId": _rule(it.number),
            "level": "error",
            "message": {"text": text},
            "locations": [{"physicalLocation": {
                "artifactLocation": {"uri": uri_of(it.file)},
                "region": {"startLine": it.line, "startColumn": it.column,
                           "byteOffset": it.offset},
            }}],
        }
        if it.fixes:
            result["fixes"] = [sarif_fix(it)]
        self.results.append(result)

    def warning(self, it: Warned) -> None:
        """Takes a warning."""
        game = "" if it.game is None else " (game %d, %s \u2013 %s)" % (
            it.game, it.white, it.black)
        self.results.append({
            "level": "warning",
            "message": {"text": it.reason + game},
            "locations": [{"physicalLocation": {
                "artifactLocation": {"uri": uri_of(it.file)},
                "region": {"startLine": it.line, "startColumn": it.column,
                           "byteOffset": it.offset},
            }}],
        })

    def edit(self, file: str, it: Edit, is_done: bool) -> None:
        """Nothing: the log has the fixes of each fault."""

    def more_edits(self, file: str, count: int) -> None:
        """Nothing, for the same reason."""

    def end(self, summary: Summary, unread: List[Unread]) -> None:
        """Writes the log."""
        notes = [{"level": "error", "message": {"text": "%s: %s" % it}} for it in unread]
        invocation: "Dict[str, object]" = {"executionSuccessful": not notes}
        if notes:
            invocation["toolExecutionNotifications"] = notes
        rules = [{"id": _rule(number), "shortDescription": {"text": reason}}
                 for number, reason in sorted(self.rules.items())]
        self.out.write(json.dumps({
            "$schema": SCHEMA_OF_SARIF,
            "version": VERSION_OF_SARIF,
            "runs": [{
                "tool": {"driver": {"name": "gillspoon lint", "rules": rules}},
                "invocations": [invocation],
                "columnKind": "unicodeCodePoints",
                "results": self.results,
            }],
        }, indent=1) + "\n")


def sarif_fix(it: Finding) -> "Dict[str, object]":
    """The edits of a game as one fix of SARIF."""
    names = ", ".join(dict.fromkeys(edit.name for edit in it.fixes))
    return {
        "description": {"text": names},
        "artifactChanges": [{
            "artifactLocation": {"uri": uri_of(it.file)},
            "replacements": [{
                "deletedRegion": {"byteOffset": edit.offset, "byteLength": len(edit.old)},
                "insertedContent": {"text": text_of(edit.new)},
            } for edit in it.fixes],
        }],
    }


AnyReport = Union[Report, JsonReport, SarifReport]


def _rule(number: int) -> str:
    """The name of a rule: that of a fault with its number in docs/PROFILE.md."""
    return "PGN%02d" % number


def uri_of(name: str) -> str:
    """The name of a file as a relative or absolute reference of RFC 3986.

    >>> uri_of("my games/a:b.pgn")
    'my%20games/a%3Ab.pgn'
    """
    path = quote(os.fsencode(name))
    return "file://" + path if name.startswith("/") else path


class Progress:
    """How far the files are read: a line on a terminal, if it takes more than a second."""

    is_shown = False
    """Whether there is such a line: a terminal has one."""

    def __init__(self, files: int, is_wanted: bool) -> None:
        self.files, self.began = files, time.monotonic()
        self.due = self.began + 1
        self.is_on = bool(is_wanted and sys.stderr and sys.stderr.isatty())

    def show(self, file: int, games: int, done: int = 0, size: int = 0) -> None:
        """Shows it, a few times a second; also how many bytes of a file are read, if it is said."""
        now = time.monotonic() if self.is_on else 0
        if self.is_on and now >= self.due:
            self.due, Progress.is_shown = now + 0.25, True
            text = "file %s of %s, %s" % (
                format(file, ","), format(self.files, ","), _count(games, "game"))
            if size:
                text += ", %.1f of %.1f MB" % (done / 1e6, size / 1e6)
            if done and self.files == 1:
                left = (now - self.began) * (size - done) / done
                text += ", about %d:%02d left" % (left // 60, left % 60)
            sys.stderr.write("\r\x1b[Kgillspoon: " + text)
            sys.stderr.flush()

    @staticmethod
    def clear() -> None:
        """Removes the line, so that another one can be written."""
        if Progress.is_shown:
            Progress.is_shown = False
            sys.stderr.write("\r\x1b[K")
            sys.stderr.flush()


def message(text: str) -> None:
    """Writes an error."""
    Progress.clear()
    if sys.stderr:
        sys.stderr.write("gillspoon: %s\n" % in_a_line(text))


def has_colours(out: Output, when: str) -> bool:
    """Whether the output has colours: `always`, `never`, or `auto`, which is on a terminal.

    There NO_COLOR turns them off (no-color.org). What emacs runs has a terminal too, but emacs
    looks for the names of files in plain text.
    """
    is_plain = os.environ.get("NO_COLOR") or os.environ.get("INSIDE_EMACS")
    is_for_colours = out.is_terminal and not is_plain and os.environ.get("TERM") != "dumb"
    return when == "always" or when == "auto" and is_for_colours


def coloured(text: str, colour: str, has_colours: bool) -> str:
    """A text in a colour, if there are any."""
    return colour + text + PLAIN if has_colours else text
