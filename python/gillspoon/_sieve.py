"""Parts archives: valid games are exported, bad ones are set aside as given: gillspoon sieve.

The library reads game by game, and writes the export of each valid one. A bad game is set aside up
to the end that docs/PYTHON.md gives it, and reading goes on there. So no game is lost.
"""
import argparse
import os
import tempfile
from typing import IO, List, NamedTuple, Optional, Tuple

from ._command import Parser
from ._faults import PgnFault
from ._games import Game, Reader
from ._inputs import STANDARD_INPUT, PassedOver, Text, check_kind, files_of, reason_of, texts_of
from ._left_out import NOTHING, LeftOut, dropped
from ._places import BYTE_ORDER_MARK
from ._processes import first_ones, pool_of
from ._replacement import Target, has_text, is_nowhere, is_same_file, target_of
from ._reports import (BOLD, RED, Output, Progress, Unread, coloured, has_colours, message)
from ._sources import CHUNK, Opened, Window
from ._statuses import DONE, REFUSED, UNREADABLE, WRONG_WORDS, Failure
from ._texts import in_a_line, printable

DESCRIPTION = "Parts PGN archives into valid games, exported, and bad ones, as given."
HELP = """examples:
  gillspoon sieve archive.pgn good.pgn bad.pgn
  gillspoon sieve archive/ more.pgn.zst --good good.pgn --bad bad.pgn
  gillspoon sieve archive.pgn --bad bad.pgn       sets the bad games aside, and no more
  gillspoon sieve bad.pgn repaired.pgn again.pgn  after repairs in bad.pgn
  zstd -dc archive.pgn.zst | gillspoon sieve - good.pgn bad.pgn
  gillspoon where archive.pgn 4711                shows the place of a fault that BAD reports

Three words are FILE, GOOD and BAD. With --good or --bad each word is a FILE: a file, a folder, or -
for standard input. Files are found in folders and zips as gillspoon lint finds them.

In BAD two '%' lines come before each bad game: its fault, with the byte and the line of FILE, and
which bytes were taken. Where a bad game ends is a guess: before the next line that begins a tag
section. So a part of BAD can hold more than one game, or a piece of one. Text between games
(comments, '%' lines) is dropped before a valid game, as pgn_tool export does; a line on standard
error counts it.

GOOD and BAD are written to temporary files beside them, which take their places at the end: both,
or none. Either can be /dev/null. A FILE of another kind, such as UTF-16 or HTML, is refused, and
FILEs without a game empty nothing. Of a compressed FILE (gz, bz2, xz, zst, zip) and of a pipe the
text is kept in a temporary file, and offsets are those of the text. On a terminal each fault is
printed too.

"""
# More tag lines than these in a game of GOOD are refused when it is exported again.
MOST_TAG_LINES = 64
SPACE = bytes(range(9, 14)) + b" "
# After how many games the progress is shown again.
STEP = 100


def arguments(words: List[str]) -> argparse.Namespace:
    """What the words of a command line ask for."""
    parser = Parser("sieve", DESCRIPTION, HELP)
    parser.add_argument("paths", metavar="FILE", nargs="*",
                        help="an archive, a folder, or - for standard input; GOOD and BAD can be "
                             "the second word and the third")
    parser.add_argument("--good", metavar="GOOD", help="the export of the valid games")
    parser.add_argument("--bad", metavar="BAD",
                        help="the text of the bad games, with their faults")
    parser.add_argument("--checked", action="store_true",
                        help="a missing Result tag takes the result at the end of its game")
    parser.add_files()
    parser.add_color()
    given = parser.parse(words)
    if given.good is None and given.bad is None:
        if len(given.paths) != 3:
            parser.error("give FILE, GOOD and BAD, or FILE... with --good, with --bad, or both")
        given.good, given.bad = given.paths[1:]
        del given.paths[1:]
    elif not given.paths:
        parser.error("give at least one FILE, or - for standard input")
    given.good, given.bad = (os.devnull if it is None else it for it in (given.good, given.bad))
    if "-" in (given.good, given.bad):
        parser.error("GOOD and BAD are files: standard output is /dev/stdout, and a file - is ./-")
    if given.paths.count("-") > 1:
        parser.error("- can be given once")
    if is_same_file(given.good, given.bad) and not is_nowhere(given.good):
        parser.error("%s and %s are the same file" % (given.good, given.bad))
    for path in (given.good, given.bad):
        for other in given.paths:
            if other != "-" and is_same_file(path, other) and not is_nowhere(path):
                parser.error("%s and %s are the same file" % (path, other))
    return given


def run(given: argparse.Namespace, out: Output) -> int:
    """Runs the subcommand, and gives its status."""
    files = _readable(given)
    given.is_told = out.is_terminal
    given.color = "always" if has_colours(out, given.color) else "never"
    held: List[Target] = []
    try:
        for path in (given.good, given.bad):
            held.append(target_of(path))
        sieve = Sieve(given, out, held[0].file, held[1].file, len(files))
        sieve.part_all(files)
        _check_understood(given, files, sieve.counts)
        for target in held:
            target.take_place()
    finally:
        for target in held:
            target.discard()
    _report(given, out, sieve.counts)
    if any(sieve.dropped):
        out.flush()
        message("%s: dropped %s" % (given.good, sieve.dropped))
    return REFUSED if sieve.counts.bad_games else DONE


def _readable(given: argparse.Namespace) -> List[str]:
    """The files that the words name; raises Failure for one that cannot be read, or is an output.

    Else some of the games would be missing in GOOD and BAD.
    """
    files = []
    for it in files_of(given.paths, given.exclude):
        if isinstance(it, Unread):
            raise Failure(UNREADABLE, "%s: %s" % it)
        if isinstance(it, PassedOver):
            message("%s: %s" % it)
            continue
        for path in (given.good, given.bad):
            if it != "-" and is_same_file(path, it) and not is_nowhere(path):
                raise Failure(WRONG_WORDS, "%s and %s are the same file" % (path, it))
        files.append(it)
    return files


def _check_understood(given: argparse.Namespace, files: List[str], counts: "Counts") -> None:
    """Raises Failure if an output would be emptied for nothing, as by a filter that failed."""
    names = [STANDARD_INPUT if it == "-" else it for it in files]
    for path in (given.good, given.bad):
        if not counts.games and not counts.bad_games and has_text(path):
            raise Failure(UNREADABLE, "%s: %s no game; %s is left as it is" % (
                ", ".join(names), "has" if len(names) == 1 else "have", path))


def _report(given: argparse.Namespace, out: Output, counts: "Counts") -> None:
    """Says what went where."""
    lines = ["%s: %s" % (given.good, _count_of(counts.games, "game")), "%s: %s %s, %d bytes" % (
        given.bad, _count_of(counts.bad_games, "bad game"),
        "dropped" if is_nowhere(given.bad) else "set aside", counts.bad_bytes)]
    if counts.bad_games:
        lines.append("The end of a bad game is a guess: the next line that begins a tag section.")
    if counts.joints:
        lines.append("dropped between games: %s" % _count_of(counts.joints, "byte order mark"))
    if counts.long_games:
        lines.append("%s: %s with more than %d tag lines, which pgn_tool refuses; first game %d" % (
            given.good, _count_of(counts.long_games, "game"), MOST_TAG_LINES, counts.first_long))
    for line in lines:
        out.write(line + "\n")


def _count_of(count: int, noun: str) -> str:
    return "%d %s%s" % (count, noun, "" if count == 1 else "s")


# ---- the archives


class Counts(NamedTuple):
    """What went where."""

    games: int = 0
    bad_games: int = 0
    bad_bytes: int = 0
    joints: int = 0
    """How many byte order marks between games were dropped."""
    long_games: int = 0
    """How many valid games have more than MOST_TAG_LINES."""
    first_long: int = 0
    """The number of the first one in GOOD."""

    def plus(self, other: "Counts") -> "Counts":
        """The counts of both, one after the other."""
        first = self.first_long or other.first_long and self.games + other.first_long
        return Counts(*(one + another for one, another in zip(self, other)))._replace(
            first_long=first)


class Parted(NamedTuple):
    """What another process made of a file: its counts, lines for a terminal, and two files."""

    counts: Counts
    dropped: LeftOut
    lines: List[str]
    good: str
    bad: str


def part_file(file: str, given: argparse.Namespace, folder: str) -> Parted:
    """Parts a file in a process of a pool, into files of a folder."""
    with tempfile.NamedTemporaryFile(dir=folder, delete=False) as good, \
            tempfile.NamedTemporaryFile(dir=folder, delete=False) as bad:
        sieve = Sieve(given, None, good, bad, 2)
        sieve.part_all([file])
    return Parted(sieve.counts, sieve.dropped, sieve.lines, good.name, bad.name)


class Sieve:
    """One pass over archives."""

    def __init__(self, given: argparse.Namespace, out: Optional[Output], good: IO[bytes],
                 bad: IO[bytes], files: int) -> None:
        self.given, self.out, self.good, self.bad = given, out, good, bad
        self.counts, self.dropped, self.at = Counts(), NOTHING, 0
        self.lines: List[str] = []
        """What is to be printed on a terminal, where there is no `out`."""
        self.progress = Progress(files, out is not None)

    def part_all(self, files: List[str]) -> None:
        """Parts all files, in their order."""
        if self.given.jobs > 1 and len(files) > 1:
            self._by_processes(files)
        else:
            for file in files:
                self._part_file(file)
        self.progress.clear()

    def _by_processes(self, files: List[str]) -> None:
        with tempfile.TemporaryDirectory(prefix="gillspoon.") as folder, \
                pool_of(self.given.jobs) as pool:
            asked = {at: pool.submit(part_file, it, self.given, folder)
                     for at, it in first_ones(files, False)}
            for at, file in enumerate(files):
                if at not in asked:
                    self._part_file(file)
                    continue
                parted = asked.pop(at).result()
                self.counts = self.counts.plus(parted.counts)
                self.dropped = self.dropped.plus(parted.dropped)
                for line in parted.lines:
                    self._put(line)
                for path, to in ((parted.good, self.good), (parted.bad, self.bad)):
                    with open(path, "rb") as text:
                        for piece in iter(lambda: text.read(CHUNK), b""):
                            to.write(piece)
                    os.unlink(path)
                self.at += 1
                self.progress.show(self.at, self.counts.games + self.counts.bad_games)

    def _part_file(self, file: str) -> None:
        self.at += 1
        name = STANDARD_INPUT if file == "-" else file
        try:
            for text in texts_of(file):
                self._part(text, name, text.name != name)
        except OSError as error:
            raise Failure(UNREADABLE, "%s: %s" % (name, reason_of(error, name))) from None

    def _part(self, text: Text, name: str, is_in_zip: bool) -> None:
        opened = Opened(text.source)
        try:
            before = None if is_in_zip else _state_of(name)
            is_named = is_in_zip or len(self.given.paths) > 1 or os.path.isdir(self.given.paths[0])
            part = Part(self, opened, text.name, is_named)
            self.counts = self.counts.plus(part.run())
            if not is_nowhere(self.given.good):
                found = dropped(opened.again, self.given.checked, False)
                self.dropped = self.dropped.plus(found)
            if not part.counts.games:
                try:
                    check_kind(opened)
                except OSError as error:
                    raise OSError("%s; nothing was written" % reason_of(error, name)) from None
            if before != (None if is_in_zip else _state_of(name)):
                raise OSError("changed while it was read; nothing was written")
        finally:
            opened.close()

    def tell(self, name: str, fault: PgnFault) -> None:
        """Prints the fault of a bad game on a terminal, as gillspoon lint does."""
        if self.given.is_told:
            has = self.given.color == "always"
            place = "%s:%d:%d:" % (in_a_line(name), fault.line, fault.column)
            self._put("%s %s (game %d, %s \u2013 %s)" % (
                coloured(place, BOLD, has), coloured(fault.reason, RED, has), fault.game,
                printable(fault.white), printable(fault.black)))

    def _put(self, line: str) -> None:
        if self.out is None:
            self.lines.append(line)
        else:
            self.progress.clear()
            self.out.write(line + "\n")
            self.out.flush()


def _state_of(path: str) -> Optional[Tuple[int, int]]:
    """What of a file changes when it is written; None for what is no file."""
    if not os.path.isfile(path):
        return None
    found = os.stat(path)
    return found.st_size, found.st_mtime_ns


class Part:
    """One text that is parted."""

    def __init__(self, sieve: Sieve, opened: Opened, name: str, is_named: bool) -> None:
        self.sieve, self.opened, self.name, self.is_named = sieve, opened, name, is_named
        self.counts, self.games, self.first_long, self.long_games = Counts(), 0, 0, 0

    def run(self) -> Counts:
        """Parts it, and gives its counts."""
        sieve, window = self.sieve, Window(self.opened)
        before = sieve.counts.games + sieve.counts.bad_games
        try:
            for game in Reader(window, sieve.given.checked, False).games(self._set_aside):
                self._export(game)
                if not game.number % STEP:
                    sieve.progress.show(sieve.at, before + game.number, game.end,
                                        self.opened.size)
        except PgnFault as fault:
            raise OSError("byte %d: cannot go on after it" % fault.offset) from None
        finally:
            window.close()
        self.counts = self.counts._replace(games=self.games, first_long=self.first_long,
                                           long_games=self.long_games)
        return self.counts

    def _export(self, game: Game) -> None:
        text = game.text
        self.sieve.good.write(text)
        self.games += 1
        if text.count(b"\n", 0, text.find(b"\n\n")) >= MOST_TAG_LINES:
            self.long_games += 1
            self.first_long = self.first_long or self.games

    def _set_aside(self, fault: PgnFault) -> None:
        """Writes the bytes of a bad game to BAD, with its fault in '%' lines before."""
        begin, end, bad = fault.begin, fault.end, self.sieve.bad
        assert end is not None
        if self.opened.fetch(begin, min(begin + 4, end)) in (b"", BYTE_ORDER_MARK):
            self.counts = self.counts._replace(joints=self.counts.joints + 1)
            return
        self.counts = self.counts._replace(bad_games=self.counts.bad_games + 1,
                                           bad_bytes=self.counts.bad_bytes + end - begin)
        bad.write(self._note(fault, begin, end))
        text = b""
        while begin < end:
            text = self.opened.fetch(begin, min(begin + CHUNK, end))
            if not text:
                raise OSError("became shorter while it was read; nothing was written")
            bad.write(text)
            begin += len(text)
        if not text.endswith((b"\n\n", b"\r\n\r\n", b"\r\r")):
            bad.write(b"\n" if text.endswith((b"\n", b"\r")) else b"\n\n")
        self.sieve.tell(self.name, fault)

    def _note(self, fault: PgnFault, begin: int, end: int) -> bytes:
        """The '%' lines before a bad game."""
        until, beyond = "the next line that begins a tag section, which is a guess", ""
        if end == self.opened.size:
            until = "the end of the file"
        elif fault.offset >= end:
            beyond = "% the fault is after these bytes: a comment in them may never be closed\n"
        name = " of " + in_a_line(self.name) if self.is_named else ""
        return ("%% byte %d%s: %s; line %d\n%% bytes %d to %d, up to %s\n%s" % (
            fault.offset, name, fault.reason, fault.line, begin, end, until, beyond)).encode(
                "utf-8", "surrogateescape")
