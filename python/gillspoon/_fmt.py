"""Formats files: writes them in export format, as gofmt and prettier do: gillspoon fmt.

The library writes each game. Its bytes and its faults are those of `pgn_tool export`.
"""
import argparse
import errno
import os
import sys
import tempfile
from typing import IO, Iterator, List, NamedTuple, Optional, Union

from ._command import Parser
from ._faults import PgnFault
from ._games import EVENT_LINE, PIECE, Conversion, Piece, Reader
from ._inputs import (STANDARD_INPUT, AnyFile, FilePath, PassedOver, Text, check_kind, files_of,
                      reason_of, texts_of)
from ._kinds import BEGINNING, other_kind
from ._left_out import NOTHING, LeftOut, dropped, left_out
from ._processes import first_ones, pool_of
from ._replacement import (CHANGED, Replacement, check_writable, has_text, is_same_file,
                           note_of_links, target_of)
from ._reports import Output, Progress, Unread, has_colours, message
from ._sources import CHUNK, Input, Opened, Source, Window, is_compressed
from ._statuses import DONE, REFUSED, UNREADABLE, WRONG_WORDS, Failure
from ._texts import in_a_line

DESCRIPTION = "Writes PGN files in export format, in turn, to standard output."
HELP = """examples:
  gillspoon fmt a.pgn b.pgn >all.pgn          merges files, with byte order marks or not
  gillspoon fmt --output all.pgn a.pgn b.pgn  the same, and all.pgn changes only if all went well
  gillspoon fmt --check archive/              names the files that are not in export format
  gillspoon fmt --write *.pgn                 formats them in place, and names those that changed
  gillspoon fmt --diff games.pgn              shows what --write would change
  gillspoon fmt --check - <games.pgn          checks standard input
  gillspoon fmt --stdin-name games.pgn <text  for an editor

A file with a fault is reported with its name, adds nothing to the output, and stays as it is. A
file of another kind, such as UTF-16, HTML, PDF, tar or 7z, is known by its first bytes and refused.
The other files are done all the same, but --output then changes nothing. Files are found in folders
and zips as gillspoon lint finds them.

Export format has no place for comments before a game's first tag or inside a tag pair, for '%'
lines, nor for text after the last game. --write counts them and leaves such a file as it is; with
--drop it drops them. --output drops them, and says how many.

--write leaves a read-only file as it is too. A file with several hard links gets its new text under
its name alone, and a line says so.

"""
# After how many games the progress is shown again.
STEP = 100


def arguments(words: List[str]) -> argparse.Namespace:
    """What the words of a command line ask for."""
    parser = Parser("fmt", DESCRIPTION, HELP)
    parser.add_argument("paths", metavar="FILE", nargs="*",
                        help="a file, a folder, or - for standard input; with none, standard input")
    tasks = parser.add_mutually_exclusive_group()
    for letter, name, task, text in (
            ("-c", "--check", check, "name the files that are not in export format"),
            ("-w", "--write", rewrite, "format the files in place, and name those that changed"),
            ("-d", "--diff", show_diff, "show what --write would change")):
        tasks.add_argument(letter, name, dest="task", action="store_const", const=task,
                           default=export, help=text)
    tasks.add_argument("-o", "--output", metavar="OUT",
                       help="write to OUT, which is replaced if all went well, and never emptied")
    parser.add_argument("--drop", action="store_true",
                        help="with --write: drop what export format has no place for")
    parser.add_argument("--stdin-name", metavar="NAME",
                        help="read standard input, and call it NAME in messages")
    parser.add_argument("--reduced", action="store_true",
                        help="write the roster and the moves outside variations alone")
    parser.add_argument("--checked", action="store_true",
                        help="a missing Result tag takes the result at the end of its game")
    parser.add_files()
    parser.add_color()
    given = parser.parse(words)
    error = _wrong_arguments(given)
    if error:
        parser.error(error)
    return given


def _wrong_arguments(given: argparse.Namespace) -> Optional[str]:
    """Why the arguments do not go together, or None."""
    if given.stdin_name is not None:
        if given.paths not in ([], ["-"]) or given.task is rewrite:
            return "--stdin-name goes with no FILE but -, and not with --write"
    elif not given.paths and given.task is not export:
        return "give at least one FILE, or --stdin-name"
    elif not given.paths and sys.stdin and sys.stdin.isatty():
        return "give a FILE, a FOLDER, or - for standard input"
    if given.paths.count("-") > 1:
        return "- can be given once"
    if given.task is rewrite and "-" in given.paths:
        return "--write needs files, and - is standard input"
    if given.drop and given.task is not rewrite:
        return "--drop goes with --write"
    return None


def _check_output(given: argparse.Namespace, files: List[AnyFile]) -> None:
    """Raises Failure if an output is one of the files."""
    for path in (it for it in files if isinstance(it, str) and it != "-"):
        if given.output and is_same_file(given.output, path):
            raise Failure(WRONG_WORDS, "the output %s is the input %s" % (given.output, path))
        if given.task is export and not given.output and _is_standard_output(path):
            raise Failure(WRONG_WORDS, "standard output is the input %s" % path)


def _is_standard_output(path: str) -> bool:
    try:
        return os.path.samestat(os.stat(path), os.fstat(1)) and os.path.isfile(path)
    except OSError:
        return False


# ---- where it is written


class Copied(NamedTuple):
    """A file whose bytes are to be written; it is then removed."""

    path: str


class Written(NamedTuple):
    """What another process did with a file."""

    status: int
    games: int
    dropped: LeftOut
    lines: List[Union[str, bytes, Copied]]
    """Lines of standard output as str, messages as bytes, and files."""


class Writer:
    """Where a run writes: lines, messages, and the text of files."""

    def __init__(self, out: Output, target: Optional[IO[bytes]]) -> None:
        self.out, self.target = out, target

    def line(self, text: str) -> None:
        """Writes a line."""
        Progress.clear()
        self.out.write(in_a_line(text) + "\n")
        if self.out.is_terminal:
            self.out.flush()

    def message(self, text: str) -> None:
        """Writes a message, behind what was written before."""
        self.out.flush()
        message(text)

    def copy(self, file: IO[bytes]) -> None:
        """Writes a text, from its start."""
        Progress.clear()
        file.seek(0)
        for piece in iter(lambda: file.read(CHUNK), b""):
            if self.target:
                self.target.write(piece)
            else:
                self.out.write_bytes(piece)
        self.out.flush()

    def replay(self, written: Written) -> None:
        """Writes what another process would have written."""
        for it in written.lines:
            if isinstance(it, Copied):
                with open(it.path, "rb") as file:
                    self.copy(file)
                os.unlink(it.path)
            elif isinstance(it, str):
                self.line(it)
            else:
                self.message(it.decode("utf-8", "surrogateescape"))


class Record(Writer):
    """What a run in another process would write; texts are in files of a folder."""

    def __init__(self, folder: str) -> None:
        self.folder = folder
        self.lines: List[Union[str, bytes, Copied]] = []

    def line(self, text: str) -> None:
        self.lines.append(text)

    def message(self, text: str) -> None:
        self.lines.append(text.encode("utf-8", "surrogateescape"))

    def copy(self, file: IO[bytes]) -> None:
        file.seek(0)
        with tempfile.NamedTemporaryFile(dir=self.folder, delete=False) as held:
            for piece in iter(lambda: file.read(CHUNK), b""):
                held.write(piece)
        self.lines.append(Copied(held.name))


# ---- all files


def run(given: argparse.Namespace, out: Output) -> int:
    """Runs the subcommand, and gives its status."""
    files = list(files_of(given.paths or ["-"], given.exclude))
    _check_output(given, files)
    given.color = "always" if has_colours(out, given.color) else "never"
    if given.output:
        return _merge(given, out, files)
    return Run(given, Writer(out, None), files).all_files()


def _merge(given: argparse.Namespace, out: Output, files: List[AnyFile]) -> int:
    """Writes the exports, in turn, to a file that is replaced if all went well."""
    target = target_of(given.output)
    try:
        running = Run(given, Writer(out, target.file), files)
        status = running.all_files()
        if status == DONE:
            if has_text(given.output) and not running.games:
                raise Failure(UNREADABLE, "%s: is left as it is: the input has no game"
                              % given.output)
            target.take_place()
            if any(running.dropped):
                message("%s: dropped %s" % (given.output, running.dropped))
        return status
    finally:
        target.discard()


def format_file(file: str, given: argparse.Namespace, folder: str) -> Written:
    """Formats a file in a process of a pool."""
    record = Record(folder)
    running = Run(given, record, [file])
    status = running.all_files()
    return Written(status, running.games, running.dropped, record.lines)


class Run:
    """A run over files, which writes what it makes of them in their order."""

    def __init__(self, given: argparse.Namespace, writer: Writer, files: List[AnyFile]) -> None:
        self.given, self.writer, self.files = given, writer, files
        self.progress = Progress(len(files), not isinstance(writer, Record))
        self.at, self.games, self.dropped = 0, 0, NOTHING
        """What --output drops is counted."""

    def all_files(self) -> int:
        """Does what is asked for with all files, and gives the highest status."""
        if self.given.jobs > 1 and len(self.files) > 1:
            status = self._by_processes()
        else:
            status = max([self._file(it) for it in self.files], default=DONE)
        self.progress.clear()
        return status

    def _by_processes(self) -> int:
        status, is_changed = DONE, self.given.task is rewrite
        with tempfile.TemporaryDirectory(prefix="gillspoon.") as folder, \
                pool_of(self.given.jobs) as pool:
            asked = {at: pool.submit(format_file, it, self.given, folder)
                     for at, it in first_ones(self.files, is_changed)}
            for at, file in enumerate(self.files):
                if at in asked:
                    written = asked.pop(at).result()
                    self.writer.replay(written)
                    self.at, self.games = self.at + 1, self.games + written.games
                    self.dropped = self.dropped.plus(written.dropped)
                    self.progress.show(self.at, self.games)
                    status = max(status, written.status)
                else:
                    status = max(status, self._file(file))
        return status

    def _file(self, file: AnyFile) -> int:
        self.at += 1
        if isinstance(file, (PassedOver, Unread)):
            self.writer.message("%s: %s" % file)
            return UNREADABLE if isinstance(file, Unread) else DONE
        name = file
        if file == "-":
            name = self.given.stdin_name or STANDARD_INPUT
        try:
            # in place a zip is not formatted
            is_one = self.given.task is rewrite
            texts = [Text(file, FilePath(file))] if is_one else texts_of(file, name)
            return max([self._text(it) for it in texts])
        except OSError as error:
            return self._tell(name, reason_of(error, name), UNREADABLE)

    def _text(self, text: Text) -> int:
        try:
            status: int = self.given.task(self, text)
            return status
        except PgnFault as fault:
            return self._tell(text.name, "byte %d: %s" % (fault.offset, fault.reason), REFUSED)
        except OSError as error:
            return self._tell(text.name, reason_of(error, text.name), UNREADABLE)

    def _tell(self, name: str, reason: str, status: int) -> int:
        self.writer.message("%s: %s" % (name, reason))
        return status

    def exports(self, source: Source, size: int = 0) -> Iterator[bytes]:
        """Yields the export, in pieces; raises PgnFault, and OSError for what is no text."""
        opened = Input(source)
        try:
            data, at = opened.read_at_least(BEGINNING), 0
            kind = other_kind(data)
            if kind:
                raise OSError(errno.EINVAL, kind)
            conversion = Conversion(self.given.reduced)
            # the library takes many games at once, but a missing Result as `*`
            while not self.given.checked:
                more = opened.read_at_least(PIECE)
                data, is_whole = data + more, len(more) < PIECE
                end = len(data) if is_whole else data.rfind(EVENT_LINE) + 1
                found = conversion(Piece(data, end)) if end else None
                if found is None:
                    break
                yield found.text()
                conversion.buffers.append(found.buffer)
                data, at, self.games = data[end:], at + end, self.games + found.games
                self.progress.show(self.at, self.games, at if size else 0, size)
                if is_whole:
                    return
            yield from self._exports_of_games(Rest(data, opened), at, size)
        finally:
            opened.close()

    def _exports_of_games(self, rest: "Rest", at: int, size: int) -> Iterator[bytes]:
        """Yields the export of each game of the rest of a text, from an offset on."""
        window, before = Window(rest), self.games
        reader = Reader(window, self.given.checked, self.given.reduced)
        try:
            for game in reader.games(None):
                yield game.text
                if not game.number % STEP:
                    self.games = before + game.number
                    self.progress.show(self.at, self.games, at + game.end if size else 0, size)
        except PgnFault as fault:
            fault.offset += at
            raise
        finally:
            window.close()
        self.games = before + reader.number - 1


class Rest:
    """The rest of a text, of which some bytes were read before."""

    is_unpacked = True

    def __init__(self, data: bytes, opened: Input) -> None:
        self._data, self._opened = data, opened

    def read(self, size: int) -> bytes:
        """The next bytes, at most so many; none at the end."""
        piece, self._data = self._data[:size], self._data[size:]
        return piece or self._opened.read(size)


# ---- tasks on a text: each gives a status


def export(run: Run, text: Text) -> int:
    """Adds the export of a text to the output, if it has no fault."""
    given = run.given
    # what is dropped is counted by another reading
    opened = Opened(text.source) if given.output else None
    try:
        with tempfile.TemporaryFile() as held:
            for piece in run.exports(opened or text.source):
                held.write(piece)
            run.writer.copy(held)
        if opened:
            found = dropped(opened.again, given.checked, given.reduced)
            run.dropped = run.dropped.plus(found)
    finally:
        if opened:
            opened.close()
    return DONE


def check(run: Run, text: Text) -> int:
    """Names a text that is not in export format."""
    opened = Opened(text.source)
    try:
        at, is_same = 0, True
        for piece in run.exports(opened, opened.size):
            is_same = is_same and opened.fetch(at, at + len(piece)) == piece
            at += len(piece)
        if is_same and at == opened.size:
            return DONE
    finally:
        opened.close()
    run.writer.line(text.name)
    return REFUSED


def show_diff(run: Run, text: Text) -> int:
    """Shows a text beside its export, as a unified diff."""
    from ._diffs import run_diff
    opened = Opened(text.source)
    try:
        with tempfile.TemporaryFile() as held, tempfile.TemporaryFile() as diff:
            for piece in run.exports(opened, opened.size):
                held.write(piece)
            held.flush()
            differs = run_diff(opened, text.name, held, text.name + " in export format", diff,
                               run.given.color == "always")
            run.writer.copy(diff)
    finally:
        opened.close()
    return REFUSED if differs else DONE


def rewrite(run: Run, text: Text) -> int:
    """Puts the export of a file in its place, unless it is the same."""
    path = text.name
    if is_compressed(path):
        raise OSError("is compressed, and left as it is: unpack it first")
    opened, made = Opened(text.source), None
    try:
        before = os.stat(path)
        check_kind(opened)
        made = Replacement(path)
        at, is_same = 0, True
        for piece in run.exports(opened, opened.size):
            is_same = is_same and opened.fetch(at, at + len(piece)) == piece
            at += len(piece)
            made.file.write(piece)
        if is_same and at == opened.size:
            return DONE
        check_writable(path, before)
        left = _what_is_dropped(opened, run.given)
        check_writable(path, before)
        made.take_place()
    finally:
        opened.close()
        if made:
            made.discard()
    run.writer.line(path)
    notes = ["dropped " + left] if left else []
    notes.append(note_of_links(before))
    for note in filter(None, notes):
        run.writer.message("%s: %s" % (path, note))
    return DONE


def _what_is_dropped(opened: Opened, given: argparse.Namespace) -> str:
    """What the export of a file leaves out, in words; raises OSError if it may not."""
    try:
        found = left_out(opened.again(), given.checked, given.reduced)
    except PgnFault:
        # it has just been exported
        raise OSError(CHANGED) from None
    if any(found) and not given.drop:
        raise OSError("is left as it is: export format has no place for %s "
                      "(--diff shows them, --drop drops them)" % (found,))
    return str(found)
