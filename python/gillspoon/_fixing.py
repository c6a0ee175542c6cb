"""Mends files for gillspoon lint: in place, to standard output, or as a unified diff.

A file is replaced whole, by a temporary file beside it. Without an edit nothing is written.
"""
import collections
import contextlib
import errno
import os
import sys
from typing import IO, Any, Callable, Counter, Iterator, List, NamedTuple, Optional

from ._diffs import run_diff
from ._edits import Choice, Edit, Mender
from ._games import Game, OnFault
from ._inputs import check_kind
from ._replacement import Replacement, check_writable, left_as_it_is, note_of_links
from ._sources import CHUNK, Opened, Source, is_compressed
from ._warnings import Watcher

Step = Callable[[int], None]
# How many bytes of held edits are in memory.
MOST_HELD = 1 << 20


class HeldEdits:
    """The edits of a text until its file is replaced: the first `most` of them, or all.

    What is long is in a temporary file, so that memory does not grow with their number.
    """

    def __init__(self, most: Optional[int]) -> None:
        self._most, self._count, self._held = most, 0, 0
        self.names: Counter[str] = collections.Counter()
        """How many edits each fix has."""
        self._file: Any = None

    def add(self, edit: Edit) -> None:
        """Holds an edit, or counts it."""
        import pickle
        import tempfile
        self._count += 1
        self.names.update(edit.name.split(", "))
        if self._most is None or self._held < self._most:
            self._file = self._file or tempfile.SpooledTemporaryFile(MOST_HELD)
            pickle.dump(edit, self._file)
            self._held += 1

    def __iter__(self) -> Iterator[Edit]:
        import pickle
        if self._file:
            self._file.seek(0)
        for _ in range(self._held):
            yield pickle.load(self._file)

    @property
    def more(self) -> int:
        """How many are counted alone."""
        return self._count - self._held


class Task(NamedTuple):
    """How a text is mended."""

    checked: bool
    chosen: Choice
    counts_warnings: bool
    held: HeldEdits
    """Where the edits go."""
    step: Step
    """It is called now and then with the number of a game."""


class Mended(NamedTuple):
    """What became of a text."""

    text: Optional[IO[bytes]]
    """The text after the edits, open for reading; None if there was no edit."""
    games: int
    faults: int
    """How many bad games there were."""
    edits: int
    more: int
    """How many edits the unsafe fixes would make."""
    warnings: int
    """How many warnings the text before the edits has, if they are counted."""

    def again(self) -> Optional[IO[bytes]]:
        """The text from its start, or None."""
        if self.text:
            self.text.seek(0)
        return self.text


LookAt = Callable[[Opened, Mended], None]


class _WatchingMender(Mender):
    """A Mender that counts the warnings."""

    def __init__(self, opened: Opened, task: Task) -> None:
        super().__init__(opened, task.checked, task.chosen)
        self.warnings = 0
        self._watcher = Watcher(self.window) if task.counts_warnings else None

    def games(self, on_fault: Optional[OnFault]) -> Iterator[Game]:
        """The games in turn, as a Reader gives them."""
        watcher = self._watcher
        for game in super().games(on_fault):
            if watcher:
                self.warnings += sum(1 for _ in watcher.game(game))
            yield game
        if watcher:
            self.warnings += sum(1 for _ in watcher.file(self.number > 1, self.at))


def mend(opened: Opened, task: Task, out: Callable[[], IO[bytes]]) -> Mended:
    """Writes the text after the edits to a file that `out` opens, if there is an edit."""
    mender = _WatchingMender(opened, task)
    file, at, edits, more, faults = None, 0, 0, 0, 0
    for faults, section in enumerate(mender.sections(task.step), 1):
        more += section.more
        for edits, edit in enumerate(section.edits, edits + 1):
            file = file or out()
            _copy(opened, at, edit.offset, file)
            file.write(edit.new)
            at = edit.offset + len(edit.old)
            task.held.add(edit)
    if file:
        _copy(opened, at, opened.size, file)
        file.flush()
    return Mended(file, mender.number - 1, faults, edits, more, mender.warnings)


def _copy(opened: Opened, begin: int, end: int, out: IO[bytes]) -> None:
    while begin < end:
        piece = opened.fetch(begin, min(end, begin + CHUNK))
        if not piece:
            raise OSError(errno.EIO, "became shorter while it was read")
        out.write(piece)
        begin += len(piece)


# ---- what is done with the text


def mend_in_place(file: "os.PathLike[str]", task: Task, look_at: LookAt) -> str:
    """Puts the text after the edits in the place of a file. Gives what to say of its links.

    `look_at` is called once it is there, with the source and the result, both open.
    """
    path = os.fspath(file)
    if is_compressed(path):
        raise OSError(errno.EINVAL, "is compressed: unpack it, or give it to --fix -", path)
    made: List[Replacement] = []
    with contextlib.ExitStack() as opened_files:
        opened, before = _opened_games(file), os.stat(path)
        opened_files.callback(opened.close)

        def out() -> IO[bytes]:
            check_writable(path, before)
            made.append(Replacement(path))
            opened_files.callback(made[0].discard)
            return made[0].file

        try:
            mended = mend(opened, task, out)
            if made:
                text = opened_files.enter_context(_copy_of_handle(made[0].file))
                mended = mended._replace(text=text)
                check_writable(path, before)
                made[0].take_place()
        except OSError as error:
            raise left_as_it_is(error, path) from None
        look_at(opened, mended)
    return note_of_links(before) if made else ""


def _copy_of_handle(file: IO[bytes]) -> IO[bytes]:
    """The same open file, which stays open when the other is closed."""
    return os.fdopen(os.dup(file.fileno()), "rb")


def _opened_games(source: Source) -> Opened:
    """A source whose text can be read again; an OSError if it is no text of games."""
    opened = Opened(source)
    try:
        check_kind(opened)
    except OSError:
        opened.close()
        raise
    return opened


def mend_copy(source: Source, task: Task, look_at: LookAt) -> None:
    """Mends a source into a temporary file, for `look_at`."""
    import tempfile
    opened = _opened_games(source)
    try:
        with tempfile.TemporaryFile() as held:
            look_at(opened, mend(opened, task, lambda: held))
    finally:
        opened.close()


def write_all(source: Opened, mended: Mended, end: bytes) -> None:
    """Writes the text after the edits to standard output, and what comes behind it."""
    out = sys.stdout.buffer
    if mended.text is None:
        _copy(source, 0, source.size, out)
    else:
        mended.text.seek(0)
        for piece in iter(lambda: mended.text.read(CHUNK) if mended.text else b"", b""):
            out.write(piece)
    out.write(end)
    out.flush()


def write_diff(source: Opened, name: str, mended: Mended, out: IO[bytes],
               has_colours: bool) -> None:
    """Writes a unified diff of a source and its text after the edits, by the command diff."""
    if mended.edits and mended.text is not None:
        run_diff(source, name, mended.text, name + " mended", out, has_colours)


# ---- the table


def table() -> List[str]:
    """The lines of a table with all fixes, as docs/TOOLS.md has it."""
    from ._fixes import LISTED
    rows = [("Fix", "Reasons", "Safe", "In the file", "Becomes"), ("---",) * 5]
    for fix in LISTED:
        old, new = (_cell(it) for it in fix.example)
        rows.append((fix.name, ", ".join(map(str, sorted(fix.reasons))),
                     "yes" if fix.is_safe else "no", old, new))
    return ["| %s |" % " | ".join(it) for it in rows]


def _cell(text: str) -> str:
    return "`%s`" % text.replace("|", "\\|") if text else "nothing"
