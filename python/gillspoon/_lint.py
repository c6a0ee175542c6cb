"""Checks files of games, and names each fault by file, line and column: gillspoon lint."""
import argparse
import collections
import sys
from typing import (TYPE_CHECKING, Counter, Dict, List, NamedTuple, Optional, Tuple, Union)

from ._command import Parser, number
from ._edits import BadGames, Choice, Edit
from ._findings import Finding, Linter, Warned
from ._inputs import (STANDARD_INPUT, AnyFile, FilePath, PassedOver, Text, files_of, reason_of,
                      refuse_other_kinds, texts_of)
from ._own_errors import errors_taken
from ._processes import first_ones, pool_of
from ._reports import (AnyReport, JsonReport, Output, Progress, Report, SarifReport, Summary,
                       Unread, has_colours, message)
from ._sources import Opened
from ._statuses import DONE, REFUSED, UNREADABLE

if TYPE_CHECKING:
    from concurrent.futures import Future

    from . import _fixing

DESCRIPTION = "Checks PGN files, and names each fault by file, line and column."
HELP = """examples:
  gillspoon lint games.pgn
  gillspoon lint --board games.pgn          with the board, and why the move is rejected
  gillspoon lint --diff games.pgn           what --fix would change
  gillspoon lint --fix games.pgn            mends the file, where the text has one reading
  gillspoon lint --fix - <old.pgn >new.pgn  mends standard input
  gillspoon lint --fixes                    lists all fixes
  gillspoon lint -j 4 archive/              all *.pgn below a folder, by four processes
  gillspoon lint --json games.pgn | jq -r 'select(.kind == "fault") | .fen'
  vim -q <(gillspoon lint games.pgn)        with :set errorformat=%f:%l:%v:\\ %m

In a folder *.pgn are checked, also with .gz, .bz2, .xz, .zst or .zip after it, in small letters or
not, and each *.zip with *.pgn inside. Compressed files are known by their first bytes too, and so
is standard input: --fix - then writes the text plain. Each *.pgn in a zip is a file of its own,
such as games.zip:a.pgn, in messages and as a FILE. A file of another kind, such as UTF-16, HTML,
PDF, tar or 7z, is known by its first bytes and refused.

A column is a character. Where a bad game ends is a guess: before the next line that begins a tag
section.

A fix changes text at a fault, and only if the library then reads on after it. It is safe if the
text has one reading and nothing is lost; --unsafe-fixes adds the others. What no fix mends stays as
it is, byte for byte. --fix replaces a file whole, and leaves read-only files alone. What is left is
reported by the lines of the text after the edits, and warnings are counted alone.

A warning is about a valid game: a comment in which a game or moves may be, text that export drops,
numbers that do not run, 0000, a Pf3 that may be Nf3, a variation of marks, a tag name that is
likely another one, a value whose form the standard does not know, a second marker, a mix of
encodings, a Variant tag, or a file without games.

"""
# How many edits of a file are written; of more their number.
MOST_EDITS = 200


def arguments(words: List[str]) -> argparse.Namespace:
    """What the words of a command line ask for."""
    parser = Parser("lint", DESCRIPTION, HELP)
    parser.add_argument("paths", metavar="FILE", nargs="*",
                        help="a file, a folder, or - for standard input")
    parser.add_argument("--board", action="store_true",
                        help="show the line, and for a move the board and what is wrong")
    forms = parser.add_mutually_exclusive_group()
    forms.add_argument("--json", action="store_true", help="write a record of JSON a line")
    forms.add_argument("--sarif", action="store_true", help="write a log of SARIF 2.1.0")
    amount = parser.add_mutually_exclusive_group()
    amount.add_argument("--quiet", action="store_true",
                        help="write faults alone: no summary, no progress, no edits, and warnings "
                        "only with --strict")
    amount.add_argument("--verbose", action="store_true",
                        help="write all edits of a file, and not the first 200 alone")
    parser.add_argument("--strict", action="store_true", help="the status is 1 with a warning too")
    parser.add_argument("--checked", action="store_true",
                        help="a missing Result tag takes the result at the end of its game")
    parser.add_argument("--statistics", action="store_true",
                        help="write at the end how many faults each reason has, and edits each fix")
    parser.add_argument("--max", metavar="N", type=number, help="write the first N faults alone")
    _add_fix_options(parser)
    parser.add_files()
    parser.add_color()
    given = parser.parse(words)
    if given.board and (given.json or given.sarif):
        parser.error("--board goes with neither --json nor --sarif, which have all that it shows")
    if given.statistics and (given.quiet or given.sarif):
        parser.error("--statistics goes with neither --quiet nor --sarif, which have no summary")
    error = _wrong_fixing(given)
    if error:
        parser.error(error)
    if not given.paths and not given.fixes and sys.stdin and sys.stdin.isatty():
        parser.error("give a FILE, a FOLDER, or - for standard input")
    return given


def _add_fix_options(parser: argparse.ArgumentParser) -> None:
    tasks = parser.add_mutually_exclusive_group()
    tasks.add_argument("--fix", action="store_true",
                       help="mend the files in place, or standard input to standard output")
    tasks.add_argument("--diff", action="store_true", help="show what --fix would change")
    tasks.add_argument("--fixes", action="store_true", help="list all fixes, and end")
    parser.add_argument("--unsafe-fixes", action="store_true",
                        help="also fixes that lose text, or choose one of several readings")
    parser.add_argument("--select", metavar="NAME,...", type=_names, help="try these fixes alone")
    parser.add_argument("--ignore", metavar="NAME,...", type=_names, default=(),
                        help="do not try these fixes")
    parser.add_argument("--language", metavar="CODE",
                        choices=("de", "fr", "es", "it", "nl", "ru"),
                        help="mend games with the letters of this language, such as Sf3")


def _wrong_fixing(given: argparse.Namespace) -> str:
    """Why the words about fixes do not go together, or nothing."""
    is_fixing = given.fix or given.diff
    if given.sarif and is_fixing:
        return "--sarif goes with neither --fix nor --diff: it has the fixes of each fault"
    if (given.unsafe_fixes or given.language) and not (is_fixing or given.json or given.sarif):
        return "--unsafe-fixes and --language go with --fix, --diff, --json or --sarif"
    if given.strict and is_fixing:
        return "--strict goes with neither --fix nor --diff, which count warnings alone"
    if given.verbose and not is_fixing:
        return "--verbose goes with --fix or --diff"
    if given.fix and "-" in given.paths and len(given.paths) > 1:
        return "--fix - goes with no other FILE"
    return ""


def _names(text: str) -> List[str]:
    from ._fixes import NAMES
    # a hyphen and a blank are the same
    spelled = {it.replace("-", " "): it for it in NAMES}
    names = [it.strip() for it in text.split(",") if it.strip()]
    for name in names:
        if name.replace("-", " ") not in spelled:
            raise argparse.ArgumentTypeError("there is no fix %s; --fixes lists them" % name)
    return [spelled[it.replace("-", " ")] for it in names]


# ---- one file


class MoreEdits(NamedTuple):
    """How many further edits a text has, whose lines are not written."""

    number: int


Written = Union[Finding, Warned, Tuple[str, Union[Edit, MoreEdits]], str, bytes]


class Checked(NamedTuple):
    """What another process did with a file: what it would have written, in order, and its counts."""

    written: List[Written]
    """Of the faults the first ones; edits with their file; messages; and diffs, as bytes."""
    read: int
    faults: int
    bad_files: int
    warnings: int
    games: int
    fixed: int
    more: int
    reasons: Counter[str]
    fixes: Counter[str]
    unread: List[Unread]
    own_errors: List[Unread]


def linter_of(text: Text, given: argparse.Namespace) -> Linter:
    """The reader of a text. Its records have fixes, if they are written."""
    linter = _linter_of(text, given)
    return linter.watched() if watches(given) else linter


def watches(given: argparse.Namespace) -> bool:
    """Whether warnings are written."""
    return bool(given.strict or not given.quiet)


def _linter_of(text: Text, given: argparse.Namespace) -> Linter:
    if not given.json and not given.sarif:
        return Linter(text.source, text.name, given.checked)
    opened = Opened(text.source)
    bad_games = BadGames(opened, given.checked, choice_of(given))
    return Linter(opened, text.name, given.checked, bad_games)


def choice_of(given: argparse.Namespace) -> Choice:
    """Which fixes are tried; with --fix and --diff the others are counted."""
    return Choice(given.unsafe_fixes, given.select, given.ignore, given.language,
                  given.fix or given.diff, True)


def most_edits(given: argparse.Namespace) -> Optional[int]:
    """How many edits of a text are written; None: all."""
    if given.json or given.verbose:
        return None
    return 0 if given.quiet else MOST_EDITS


def check_file(path: str, given: argparse.Namespace) -> Checked:
    """Checks or mends a file in a process of a pool."""
    record = Record()
    run = Run(given, record, [path])
    run.check()
    return Checked(record.written, run.read, run.faults, run.bad_files, run.warnings, run.games,
                   run.fixed, run.more, run.reasons, run.fixes, run.unread, run.own_errors)


class Writer:
    """Where a run writes: the report, messages, and diffs."""

    def __init__(self, report: AnyReport, out: Output) -> None:
        self.report, self.out = report, out

    def found(self, finding: Union[Finding, Warned]) -> None:
        """Writes a fault or a warning."""
        if isinstance(finding, Finding):
            self.report.fault(finding)
        else:
            self.report.warning(finding)

    def edit(self, name: str, edit: Union[Edit, MoreEdits], is_done: bool) -> None:
        """Writes an edit, or how many more there are."""
        if isinstance(edit, Edit):
            self.report.edit(name, edit, is_done)
        else:
            self.report.more_edits(name, edit.number)

    def message(self, text: str) -> None:
        """Writes a message, behind what was written before."""
        self.report.out.flush()
        message(text)

    def diff(self, source: Opened, name: str, mended: "_fixing.Mended",
             has_colours: bool) -> None:
        """Writes a diff to standard output."""
        from . import _fixing
        self.out.flush()
        _fixing.write_diff(source, name, mended, sys.stdout.buffer, has_colours)

    def copy(self, diff: bytes) -> None:
        """Writes a diff that another process made."""
        self.out.write_bytes(diff)
        self.out.flush()


class Record(Writer):
    """What a run in another process would write."""

    def __init__(self) -> None:
        self.written: List[Written] = []

    def found(self, finding: Union[Finding, Warned]) -> None:
        self.written.append(finding)

    def edit(self, name: str, edit: Union[Edit, MoreEdits], is_done: bool) -> None:
        self.written.append((name, edit))

    def message(self, text: str) -> None:
        self.written.append(text)

    def diff(self, source: Opened, name: str, mended: "_fixing.Mended",
             has_colours: bool) -> None:
        import tempfile

        from . import _fixing
        with tempfile.TemporaryFile() as held:
            _fixing.write_diff(source, name, mended, held, has_colours)
            held.seek(0)
            self.written.append(held.read())


# ---- all files


class Run:
    """A run over files, which writes what it finds in their order."""

    def __init__(self, given: argparse.Namespace, writer: Writer,
                 files: List[AnyFile]) -> None:
        self.given, self.writer, self.files = given, writer, files
        is_shown = not given.quiet and not isinstance(writer, Record)
        self.progress = Progress(len(self.files), is_shown)
        self.read = self.games = self.faults = self.bad_files = self.fixed = self.more = 0
        self.warnings = 0
        self.reasons: Counter[str] = collections.Counter()
        """How many faults each reason has."""
        self.fixes: Counter[str] = collections.Counter()
        """How many edits each fix has."""
        self.is_fixing: bool = given.fix or given.diff
        self.unread: List[Unread] = []
        self.own_errors: List[Unread] = []
        """Errors of the command itself, each with the name of the file."""

    def check(self) -> int:
        """Checks or mends all files, and gives the status."""
        if self.given.jobs > 1 and len(self.files) > 1:
            self._check_by_processes()
        else:
            for file in self.files:
                self._check_here(file)
        self.progress.clear()
        is_faulty = self.faults or self.given.diff and self.fixed or \
            self.given.strict and self.warnings
        return UNREADABLE if self.unread or self.own_errors else REFUSED if is_faulty else DONE

    def summary(self) -> Summary:
        """What all files had."""
        return Summary(self.read, self.games, self.faults, self.bad_files,
                       *((self.fixed, self.more) if self.is_fixing else (None, None)),
                       self.warnings or None,
                       *((self.reasons, self.fixes if self.is_fixing else None)
                         if self.given.statistics else (None, None)))

    def _check_here(self, file: AnyFile) -> None:
        """Checks a file in this process, and writes each fault when it is found."""
        if isinstance(file, PassedOver):
            self._pass_over(file)
            return
        if isinstance(file, Unread):
            self._cannot_read(file)
            return
        try:
            # in place a zip is not mended
            is_one = self.given.fix and file != "-"
            for text in [Text(file, FilePath(file))] if is_one else texts_of(file):
                self._check_text(text)
        except OSError as error:
            name = STANDARD_INPUT if file == "-" else file
            self._cannot_read(Unread(name, reason_of(error, name)))

    def _check_text(self, text: Text) -> None:
        """Checks or mends a text, and counts it if it can be read."""
        faults = self.faults
        try:
            if self.is_fixing:
                self._mend(text)
            else:
                self._lint(linter_of(text, self.given))
            self.read += 1
        except OSError as error:
            self._cannot_read(Unread(text.name, reason_of(error, text.name)))
        self.bad_files += self.faults > faults
        self._take_own_errors(text.name)

    def _take_own_errors(self, name: str) -> None:
        self.own_errors += [Unread(name, str(it)) for it in errors_taken()]

    def _lint(self, linter: Linter) -> None:
        refuse_other_kinds(linter.window)
        before = self.games
        try:
            for finding in linter.findings(lambda number: self._show(before + number)):
                self._found(finding)
        finally:
            self.games = before + linter.number - 1

    def _mend(self, text: Text) -> None:
        """Mends a text in place, or shows what that would change; reports what is left."""
        from . import _fixing
        given, before = self.given, self.games
        task = _fixing.Task(given.checked, choice_of(given), watches(given),
                            _fixing.HeldEdits(most_edits(given)),
                            lambda number: self._show(before + number))

        def look_at(source: Opened, mended: _fixing.Mended) -> None:
            self._look_at(text, task, source, mended)

        if given.fix and isinstance(text.source, FilePath):
            note = _fixing.mend_in_place(text.source, task, look_at)
            if note:
                self.writer.message("%s: %s" % (text.name, note))
        else:
            _fixing.mend_copy(text.source, task, look_at)

    def _look_at(self, text: Text, task: "_fixing.Task", source: Opened,
                 mended: "_fixing.Mended") -> None:
        """Writes what is to be said of a text that was mended, and what is left of its faults."""
        from . import _fixing
        given = self.given
        if given.fix and not isinstance(text.source, FilePath):
            _fixing.write_all(source, mended, text.end)
        self._write_edits(text, task.held)
        self.fixed, self.more = self.fixed + mended.edits, self.more + mended.more
        self.fixes += task.held.names
        if mended.faults:
            linter = Linter(mended.again() or source.again(), text.name, given.checked)
            self._lint(linter.watched() if task.counts_warnings else linter)
        else:
            self.games, self.warnings = self.games + mended.games, self.warnings + mended.warnings
        if given.diff:
            self.writer.diff(source, text.name, mended, given.color == "always")

    def _write_edits(self, text: Text, held: "_fixing.HeldEdits") -> None:
        self.progress.clear()
        for edit in held:
            self.writer.edit(text.name, edit, self.given.fix)
        if held.more and not self.given.quiet:
            self.writer.edit(text.name, MoreEdits(held.more), self.given.fix)

    def _check_by_processes(self) -> None:
        """Checks the files by several processes, and writes what they found in their order.

        Standard input is read by this one, and so is a file that was given before: it may change.
        """
        with pool_of(self.given.jobs) as pool:
            asked: "Dict[int, Future[Checked]]" = {
                at: pool.submit(check_file, file, self.given)
                for at, file in first_ones(self.files, self.given.fix)}
            for at, file in enumerate(self.files):
                if at in asked:
                    self._take(asked.pop(at).result())
                    self._show(self.games)
                else:
                    self._check_here(file)

    def _take(self, checked: Checked) -> None:
        faults, warnings, reasons = self.faults, self.warnings, self.reasons.copy()
        for it in checked.written:
            self.progress.clear()
            if isinstance(it, (Finding, Warned)):
                self._found(it)
            elif isinstance(it, str):
                self.writer.message(it)
            elif isinstance(it, bytes):
                self.writer.copy(it)
            else:
                self.writer.edit(*it, self.given.fix)
        self.faults, self.warnings = faults + checked.faults, warnings + checked.warnings
        self.reasons, self.fixes = reasons + checked.reasons, self.fixes + checked.fixes
        self.bad_files += checked.bad_files
        self.games += checked.games
        self.fixed, self.more = self.fixed + checked.fixed, self.more + checked.more
        self.read += checked.read
        self.unread += checked.unread
        self.own_errors += checked.own_errors

    def _found(self, finding: Union[Finding, Warned]) -> None:
        if isinstance(finding, Finding):
            self.faults += 1
            self.reasons[finding.reason] += 1
        self.warnings += isinstance(finding, Warned)
        if self.is_fixing and isinstance(finding, Warned):
            return
        if self.given.max is None or self.faults <= self.given.max:
            self.progress.clear()
            self.writer.found(finding)
            self._take_own_errors(finding.file)

    def _pass_over(self, file: PassedOver) -> None:
        if not self.given.quiet:
            self.progress.clear()
            self.writer.message("%s: %s" % file)

    def _cannot_read(self, unread: Unread) -> None:
        self.unread.append(unread)
        self.progress.clear()
        self.writer.message("%s: %s" % unread)

    def _show(self, games: int) -> None:
        self.progress.show(self.read + 1, games)


def list_fixes(out: Output) -> int:
    """Prints the table of fixes."""
    from ._fixing import table
    for line in table():
        out.write(line + "\n")
    return DONE


def _report_of(given: argparse.Namespace, out: Output) -> AnyReport:
    """What writes the findings in the form that is asked for."""
    if given.sarif:
        return SarifReport(out)
    if given.json:
        return JsonReport(out, given.quiet)
    return Report(out, given.board, given.quiet, has_colours(out, given.color))


def run(given: argparse.Namespace, out: Output) -> int:
    """Runs the subcommand, and gives its status."""
    if given.fixes:
        return list_fixes(out)
    # standard output is for the text or the diff
    is_for_text = given.diff or given.fix and given.paths in ([], ["-"])
    lines = Output(sys.stderr) if is_for_text else out
    report = _report_of(given, lines)
    given.color = "always" if has_colours(out, given.color) else "never"
    files = list(files_of(given.paths or ["-"], given.exclude))
    running = Run(given, Writer(report, out), files)
    status = running.check()
    report.end(running.summary(), running.unread + running.own_errors)
    lines.flush()
    for it in running.own_errors:
        message("%s:%s" % it)
    return status
