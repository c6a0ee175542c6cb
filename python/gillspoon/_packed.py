"""Compressed files: how each is known, and how its text is read.

What only one kind of file needs is imported when there is one, so that a script starts fast.
"""
import contextlib
import errno
import os
from functools import partial
from typing import Any, BinaryIO, Callable, Iterator, Optional, Tuple

# How many bytes of a file of Zstandard are unpacked at once.
CHUNK = 1 << 17
Calls = Tuple[Callable[[int], bytes], Callable[[], None]]
Opener = Callable[[str], Calls]


def opener_of(path: str) -> Optional[Opener]:
    """How a compressed file is opened: by its first bytes, else by its name. None: it is plain.

    A file in a zip is opened by its own name behind that of the zip: `games.zip:a.pgn`.
    """
    begin = b""
    if os.path.isfile(path):
        with open(path, "rb", buffering=0) as file:
            begin = file.read(LONGEST_MARK)
    elif not os.path.exists(path) and _place_in_zip(path):
        return _open_member
    return _opener_of_mark(begin) or _NAMES.get(os.path.splitext(path)[1].lower())


def is_zip(path: str) -> bool:
    """Whether a path is that of a zip, by its first bytes or its name."""
    return os.path.isfile(path) and opener_of(path) is _open_zip


def _opener_of_mark(begin: bytes) -> Optional[Opener]:
    return next((opener for mark, opener in _MARKS if begin.startswith(mark)), None)


def is_packed(begin: bytes) -> bool:
    """Whether a text is compressed that begins with these bytes: LONGEST_MARK, or all it has."""
    return begin.startswith(_ALL_MARKS)


class Stream:
    """A stream that can be read once alone, and the first bytes of it."""

    def __init__(self, read: Callable[[int], bytes]) -> None:
        self._read, self._begin = read, b""
        # no more is waited for than what decides
        while any(mark.startswith(self._begin) for mark in _ALL_MARKS):
            piece = read(LONGEST_MARK - len(self._begin))
            self._begin += piece
            if not piece:
                break
        self.opener = _opener_of_mark(self._begin)
        """How a file with these first bytes is opened, if they are those of a compressed one."""

    @property
    def is_zip(self) -> bool:
        """Whether it is a zip."""
        return self.opener is _open_zip

    def read(self, size: int) -> bytes:
        """The next bytes, at most so many; none at the end."""
        piece, self._begin = self._begin[:size], self._begin[size:]
        return piece or self._read(size)

    def held(self) -> Any:
        """A named temporary file with all that it has."""
        import tempfile
        held = tempfile.NamedTemporaryFile(prefix="pgn.")
        try:
            for piece in iter(lambda: self.read(CHUNK), b""):
                held.write(piece)
            held.flush()
        except BaseException:
            held.close()
            raise
        return held


def unpacked(read: Callable[[int], bytes]) -> Calls:
    """How the text of a stream is read, which can be read once alone: as it comes, if it is plain.

    It is compressed if its first bytes say so, which are looked at when it is first read. It is
    then held in a temporary file, since not all kinds can be unpacked from front to back. An
    OSError about it names no file.
    """
    opened: Optional[Calls] = None

    def read_text(size: int) -> bytes:
        nonlocal opened
        if opened is None:
            stream = Stream(read)
            opened = _open_held(stream, stream.opener) if stream.opener else (
                stream.read, lambda: None)
        return opened[0](size)

    def close() -> None:
        if opened is not None:
            opened[1]()

    return read_text, close


def _open_held(stream: Stream, opener: Opener) -> Calls:
    """Holds a stream in a temporary file, and opens that."""
    held = stream.held()
    try:
        with _without_name(held.name):
            read_text, close_text = opener(held.name)
    except BaseException:
        held.close()
        raise

    def read_on(size: int) -> bytes:
        with _without_name(held.name):
            return read_text(size)

    def close() -> None:
        close_text()
        held.close()

    return read_on, close


@contextlib.contextmanager
def _without_name(name: str) -> Iterator[None]:
    """Takes the name of a temporary file out of what is said of its data."""
    try:
        yield
    except OSError as error:
        if error.errno is not None:
            raise
        raise OSError(str(error).replace(name + ": ", "").replace(name + ":", "")) from None


def _open_gzip(path: str) -> Calls:
    import gzip
    return _open_compressed(gzip.GzipFile(path), path)


def _open_bzip2(path: str) -> Calls:
    import bz2
    return _open_compressed(bz2.BZ2File(path), path)


def _open_compressed(file: Any, path: str) -> Calls:
    """How a compressed file is read. One that is bad or cut off is an OSError with its path."""
    import zlib

    def read(size: int) -> bytes:
        try:
            return bytes(file.read(size))
        except (EOFError, OSError, zlib.error) as error:
            raise OSError("%s: %s" % (path, error)) from error

    return read, file.close


def _open_zstd(path: str) -> Calls:
    """How a file of Zstandard is opened: by the program zstd, else by the module zstandard."""
    import shutil
    program = shutil.which("zstd")
    file = open(path, "rb", buffering=0)
    try:
        return _run_zstd(program, file, path) if program else _use_zstandard(file, path)
    except BaseException:
        file.close()
        raise


def _run_zstd(program: str, file: BinaryIO, path: str) -> Calls:
    import subprocess
    with file:
        child = subprocess.Popen([program, "-dcq"], stdin=file, stdout=subprocess.PIPE,
                                 stderr=subprocess.PIPE, bufsize=0)
    assert child.stdout and child.stderr
    out, errors = child.stdout, child.stderr

    def read(size: int) -> bytes:
        data = out.read(size)
        if not data and child.wait():
            said = errors.read().decode("utf-8", "replace").strip()
            said = said.replace("/*stdin*\\ : ", "")
            raise OSError("%s: %s" % (path, said or "zstd ended with status %d" % child.returncode))
        return data

    def close() -> None:
        child.kill()
        out.close()
        errors.close()
        child.wait()

    return read, close


def _use_zstandard(file: BinaryIO, path: str) -> Calls:
    try:
        import zstandard
    except ImportError:
        raise OSError("%s: needs the program zstd or the module zstandard" % path) from None
    data = _frames(file, path, zstandard)
    return lambda size: next(data, b""), file.close


def _frames(file: BinaryIO, path: str, zstandard: Any) -> Iterator[bytes]:
    """The data of all frames of a file of Zstandard, in pieces."""
    frame = zstandard.ZstdDecompressor().decompressobj()
    is_begun = False
    for packed in iter(lambda: file.read(CHUNK), b""):
        while packed:
            try:
                data = frame.decompress(packed)
            except zstandard.ZstdError as error:
                raise OSError("%s: %s" % (path, error)) from error
            is_begun, packed = not frame.eof, frame.unused_data
            if frame.eof:
                frame = zstandard.ZstdDecompressor().decompressobj()
            if data:
                yield data
    if is_begun:
        raise OSError("%s: the file ends inside a frame of Zstandard" % path)


def _open_xz(path: str) -> Calls:
    import lzma
    file = lzma.LZMAFile(path)

    def read(size: int) -> bytes:
        try:
            return file.read(size)
        except (EOFError, OSError, lzma.LZMAError) as error:
            raise OSError("%s: %s" % (path, error)) from error

    return read, file.close


class Zip:
    """A zip. In errors it has the name that is given."""

    def __init__(self, path: str, name: str) -> None:
        import zipfile
        self.name = name
        try:
            self._file = zipfile.ZipFile(path)
        except zipfile.BadZipFile as error:
            raise OSError("%s: %s" % (name, error)) from error
        # hidden files are passed over, as in a folder: a Mac puts notes into ._a.pgn
        self._games = [it for it in self._file.infolist() if it.filename.lower().endswith(".pgn")
                       and not os.path.basename(it.filename).startswith(".")]

    def has_games(self) -> bool:
        """Whether there is a file *.pgn in it."""
        return bool(self._games)

    def games(self) -> "list[Member]":
        """The files *.pgn, in their order; an OSError if there are none."""
        if not self._games:
            raise OSError("%s: has no file *.pgn inside" % self.name)
        return [Member(self, it.filename, partial(self._file.open, it)) for it in self._games]

    def member(self, name: str) -> "Member":
        """The file of a name in it."""
        return Member(self, name, partial(self._file.open, name))

    def close(self) -> None:
        """Closes the zip."""
        self._file.close()


class Member:
    """A file in a zip: a source whose bytes are taken as they are."""

    is_unpacked = True

    def __init__(self, archive: Zip, name: str, opened: Callable[[], Any]) -> None:
        self.name = "%s:%s" % (archive.name, name)
        self.close = archive.close
        self._opened = opened
        self._file: Any = None

    def read(self, size: int) -> bytes:
        """The next bytes, at most so many; none at the end."""
        import zipfile
        import zlib
        try:
            if self._file is None:
                self._file = self._opened()
            return bytes(self._file.read(size))
        except (EOFError, KeyError, RuntimeError, zipfile.BadZipFile, zlib.error) as error:
            raise OSError("%s: %s" % (self.name, error.args[0] if error.args else error)) from error


def _open_zip(path: str) -> Calls:
    """How a file of ZIP is read: all files *.pgn in it, in turn."""
    archive = Zip(path, path)
    try:
        pieces = _pieces_of_zip(archive.games())
    except OSError:
        archive.close()
        raise
    return lambda size: next(pieces, b""), archive.close


def _pieces_of_zip(members: "list[Member]") -> Iterator[bytes]:
    for member in members:
        yield from iter(partial(member.read, CHUNK), b"")
        # the last line of a file may have no end
        yield b"\n\n"


def _place_in_zip(path: str) -> "Optional[tuple[str, str]]":
    """The path of a zip and the name of a file in it, if a path is both with a colon between."""
    at = path.find(":")
    while at > 0:
        if is_zip(path[:at]):
            return path[:at], path[at + 1:]
        at = path.find(":", at + 1)
    return None


def member_of(path: str) -> Optional[Member]:
    """The file in a zip that a path names, such as games.zip:a.pgn; None: it names no such file."""
    place = None if os.path.exists(path) else _place_in_zip(path)
    return Zip(place[0], place[0]).member(place[1]) if place else None


def _open_member(path: str) -> Calls:
    """How a file in a zip is read."""
    member = member_of(path)
    if not member:
        raise FileNotFoundError(errno.ENOENT, os.strerror(errno.ENOENT), path)
    return member.read, member.close


_MARKS: "tuple[tuple[bytes, Opener], ...]" = (
    (b"\x1f\x8b", _open_gzip), (b"BZh", _open_bzip2), (b"\xfd7zXZ\0", _open_xz),
    (b"\x28\xb5\x2f\xfd", _open_zstd), (b"PK\x03\x04", _open_zip))
_ALL_MARKS = tuple(mark for mark, _ in _MARKS)
LONGEST_MARK = max(map(len, _ALL_MARKS))
_NAMES: "dict[str, Opener]" = {
    ".gz": _open_gzip, ".bz2": _open_bzip2, ".xz": _open_xz, ".zst": _open_zstd, ".zip": _open_zip}
