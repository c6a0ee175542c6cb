"""What the command reads: files, those of folders and of zips, and standard input."""
import errno
import os
import sys
from fnmatch import fnmatch
from typing import Any, Iterator, List, NamedTuple, Sequence, Union

from ._kinds import BEGINNING, other_kind
from ._packed import Stream, Zip, is_zip, member_of
from ._reports import Unread
from ._sources import Opened, Source, Window

SUFFIXES = (".pgn", ".pgn.gz", ".pgn.zst", ".pgn.bz2", ".pgn.xz", ".pgn.zip")
STANDARD_INPUT = "<stdin>"
NO_FILE = "has no file *.pgn, also with .gz, .bz2, .xz, .zst or .zip after it"
NO_GAMES = "is passed over: it has no file *.pgn inside"


# ---- which files


class PassedOver(NamedTuple):
    """A file of a folder that is not read, and why."""

    file: str
    reason: str


AnyFile = Union[str, Unread, PassedOver]


def files_of(paths: List[str], excluded: Sequence[str] = ()) -> Iterator[AnyFile]:
    """The files that paths name, in their order; those of a folder by their names.

    In a folder those are left out whose name matches a pattern, or whose path below it does.
    """
    for path in paths:
        if path == "-" or not os.path.isdir(path):
            yield path
            continue
        has_file = False
        for found in files_below(path, "", excluded):
            has_file = has_file or not isinstance(found, PassedOver)
            yield found
        if not has_file:
            yield Unread(path, NO_FILE)


def files_below(root: str, below: str, excluded: Sequence[str]) -> Iterator[AnyFile]:
    """The files of a folder below another one, in the order of their names; hidden ones are not."""
    folder = os.path.join(root, below) if below else root
    try:
        names = sorted(os.listdir(folder))
    except OSError as error:
        yield Unread(folder, error.strerror or str(error))
        return
    for name in names:
        path, end = os.path.join(folder, name), name.lower()
        inner = os.path.join(below, name)
        if name.startswith(".") or any(fnmatch(it, glob) for it in (name, inner)
                                       for glob in excluded):
            continue
        if end.endswith(SUFFIXES) and not os.path.isdir(path):
            yield path
        elif end.endswith(".zip") and os.path.isfile(path):
            yield path if _may_have_games(path) else PassedOver(path, NO_GAMES)
        elif os.path.isdir(path) and not os.path.islink(path):
            yield from files_below(root, inner, excluded)


def _may_have_games(path: str) -> bool:
    """Whether a zip has a file *.pgn in it, or cannot be read, which is reported later."""
    try:
        archive = Zip(path, path)
    except OSError:
        return True
    archive.close()
    return archive.has_games()


# ---- the texts of a file


class FilePath(os.PathLike[str]):
    """The name of a file, which may have line ends: as a str it would be taken for a text."""

    def __init__(self, name: str) -> None:
        self.name = name

    def __fspath__(self) -> str:
        return self.name


class Text(NamedTuple):
    """What is read from its start to its end, with the name that messages call it by."""

    name: str
    source: Source
    end: bytes = b""
    """What comes behind it where several texts are written one after another."""


def texts_of(path: str, input_name: str = STANDARD_INPUT) -> Iterator[Text]:
    """The texts of a file or of standard input: one, or each file *.pgn of a zip."""
    if path == "-":
        yield from _texts_of_input(input_name)
    elif is_zip(path):
        yield from _texts_of_zip(Zip(path, path))
    else:
        yield Text(path, member_of(path) or FilePath(path))


def _texts_of_input(name: str) -> Iterator[Text]:
    stream = standard_input()
    if not stream.is_zip:
        yield Text(name, stream)
        return
    with stream.held() as held:
        yield from _texts_of_zip(Zip(held.name, name))


def standard_input() -> Stream:
    """Standard input, which may be compressed."""
    if sys.stdin is None:
        raise OSError(errno.EBADF, os.strerror(errno.EBADF))
    reader: Any = sys.stdin.buffer
    return Stream(reader.read1)


def _texts_of_zip(archive: Zip) -> Iterator[Text]:
    try:
        for member in archive.games():
            # the last line of a file may have no end
            yield Text(member.name, member, b"\n\n")
    finally:
        archive.close()


def refuse_other_kinds(window: Window) -> None:
    """Raises OSError for a text of another kind, before any of it is read as games."""
    while len(window.data) < BEGINNING and window.more(0):
        pass
    kind = other_kind(window.data)
    if kind:
        window.close()
        raise OSError(errno.EINVAL, kind)


def check_kind(opened: Opened) -> None:
    """Raises OSError for a text of another kind that can be read again."""
    kind = other_kind(opened.fetch(0, BEGINNING))
    if kind:
        raise OSError(errno.EINVAL, kind)


def reason_of(error: OSError, path: str) -> str:
    """The system's reason, without the name of the file."""
    text = error.strerror or str(error)
    return text[len(path) + 2:] if text.startswith(path + ": ") else text
