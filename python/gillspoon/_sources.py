"""The text of a source: a file, an open binary file or bytes in memory, compressed or not."""
import io
import mmap
import os
from typing import IO, Any, Callable, Iterator, Optional, Protocol, Tuple, Union

from ._packed import LONGEST_MARK, Calls, is_packed, opener_of, unpacked
from ._places import LINE_END, NEAR, LineCounter

CHUNK = 1 << 20
_TEXT = 'the file %s: open it in binary mode, as in open(path, "rb")'
# A line that is longer comes in parts.
LONGEST_LINE = 1 << 20


class Readable(Protocol):
    """A binary file that is open for reading.

    If its bytes are compressed, the text inside is read. If it has an attribute `is_unpacked` that
    is true, they are taken as they are.
    """

    def read(self, size: int, /) -> bytes:
        """At most so many bytes; none at the end."""


Data = Union[bytes, bytearray, memoryview, mmap.mmap]
_DATA = (bytes, bytearray, memoryview, mmap.mmap)
Source = Union[str, os.PathLike[str], Data, Readable]


class Input:
    """The text of a source, in turn. A file that it opened is closed at the end."""

    def __init__(self, source: Source) -> None:
        self._close: Callable[[], None] = _nothing
        self._read, self._close = _open(source)

    def read(self, size: int) -> bytes:
        """At least one byte and mostly at most so many; none at the end."""
        return self._read(size)

    def read_at_least(self, size: int) -> bytes:
        """At least so many bytes and mostly just as many; fewer at the end alone."""
        parts = []
        while size > 0:
            part = self._read(size)
            if not part:
                break
            parts.append(part)
            size -= len(part)
        return b"".join(parts)

    def close(self) -> None:
        """Closes what this opened; it may be called again."""
        close, self._close = self._close, _nothing
        close()

    def __del__(self) -> None:
        self.close()


def readable_again(source: Source) -> Source:
    """The source, or its bytes if it is an open file or a pipe, which can be read only once."""
    if isinstance(source, _DATA):
        return source
    if isinstance(source, (str, os.PathLike)) and os.path.isfile(source):
        return source
    read, close = _open_as_it_is(source)
    try:
        return b"".join(iter(lambda: read(CHUNK), b""))
    finally:
        close()


def name_of(source: Source) -> Optional[str]:
    """The path of a source, or the name of an open file; None if it has none."""
    if isinstance(source, (str, os.PathLike)):
        return os.fspath(source)
    name = getattr(source, "name", None)
    return name if isinstance(name, str) else None


def _nothing() -> None:
    pass


def _open(source: Source) -> Calls:
    """How the text of a source is read, and how what was opened for it is closed."""
    if isinstance(source, _DATA):
        is_text = not is_packed(source if isinstance(source, bytes) else
                                bytes(memoryview(source).cast("B")[:LONGEST_MARK]))
    elif isinstance(source, (str, os.PathLike)) and os.path.isfile(source):
        path = os.fspath(source)
        return (opener_of(path) or _open_plain)(path)
    else:
        is_text = getattr(source, "is_unpacked", False)
    read, close = _open_as_it_is(source)
    if is_text:
        return read, close
    read_text, close_text = unpacked(read)

    def close_all() -> None:
        close_text()
        close()

    return read_text, close_all


def _open_as_it_is(source: Source) -> Calls:
    """How the bytes of a source are read, which may be compressed."""
    if isinstance(source, _DATA):
        return _open_data(source)
    if isinstance(source, (str, os.PathLike)):
        path = os.fspath(source)
        if source is path and "\n" in path:
            raise TypeError("a str is a path: give the text itself as bytes, text.encode()")
        return _open_plain(path)
    return _reader_of_file(source), _nothing


def _open_data(data: Data) -> Calls:
    view, at = memoryview(data).cast("B"), 0

    def read(size: int) -> bytes:
        nonlocal at
        begin, at = at, at + size
        return bytes(view[begin:at])

    return read, view.release


def _reader_of_file(file: Any) -> Callable[[int], bytes]:
    """How an open file is read: what a pipe has is taken as it comes."""
    if isinstance(file, io.TextIOBase):
        raise TypeError(_TEXT % "is open as text")
    reader: Any = getattr(file, "read1", None) or getattr(file, "read", None)
    if reader is None:
        raise TypeError("a source is a path, bytes, an mmap or a binary file, not %s"
                        % type(file).__name__)

    def read(size: int) -> bytes:
        data = reader(size)
        if isinstance(data, str):
            raise TypeError(_TEXT % "gives text")
        if data is None:
            raise BlockingIOError("the file has no bytes yet: open it in blocking mode")
        return bytes(data)

    return read


def _open_plain(path: str) -> Calls:
    file = open(path, "rb", buffering=0)
    return _reader_of_file(file), file.close


class Opened:
    """A source whose text can be read again: a file, or a temporary file with what it has."""

    is_unpacked = True

    def __init__(self, source: Source) -> None:
        self._at = 0
        self._file: IO[bytes] = _plain_file(source) or _spooled(source)
        self.size = os.fstat(self._file.fileno()).st_size

    def read(self, size: int) -> bytes:
        """The next bytes, at most so many; none at the end."""
        piece = self.fetch(self._at, self._at + size)
        self._at += len(piece)
        return piece

    def fetch(self, begin: int, end: int) -> bytes:
        """The bytes between two offsets."""
        return os.pread(self._file.fileno(), max(min(end, self.size) - begin, 0), begin)

    def again(self) -> "Opened":
        """The source, which is then read from its start."""
        self._at = 0
        return self

    @property
    def handle(self) -> int:
        """The number of the open file, from its start."""
        os.lseek(self._file.fileno(), 0, os.SEEK_SET)
        return self._file.fileno()

    def close(self) -> None:
        """Closes the file."""
        self._file.close()


def _plain_file(source: Source) -> Optional[IO[bytes]]:
    """An open file, if a source is the path of one that is not compressed."""
    if not isinstance(source, (str, os.PathLike)) or not os.path.isfile(source):
        return None
    return None if is_compressed(os.fspath(source)) else open(source, "rb", buffering=0)


def is_compressed(path: str) -> bool:
    """Whether a file has to be unpacked before it is read."""
    return opener_of(path) is not None


def _spooled(source: Source) -> IO[bytes]:
    """A temporary file with all bytes of a source."""
    import tempfile
    opened, held = Input(source), tempfile.TemporaryFile()
    try:
        for piece in iter(lambda: opened.read(CHUNK), b""):
            held.write(piece)
        held.flush()
    finally:
        opened.close()
    return held


class Window:
    """The bytes of a source that are in memory: `data`, of which the first is at the offset `base`.

    Offsets count from the first byte of the source. Its name is that of the source, if none is
    given.
    """

    def __init__(self, source: Source, name: Optional[str] = None) -> None:
        self._input, self._source, self._name = Input(source), source, name
        # at the first byte in memory, and at the last place that was asked for
        self._counter, self._placed = LineCounter(), (0, LineCounter())
        self.data, self.base, self.is_whole = b"", 0, False

    @property
    def name(self) -> Optional[str]:
        """The name of the source, or the one that was given."""
        return self._name or name_of(self._source)

    def close(self) -> None:
        """Closes what the source opened."""
        self._input.close()

    def more(self, keep: int) -> bool:
        """Reads on, and lets go the bytes before an offset, but the one just before it.

        It reads a chunk, or as much again as it keeps: so a game of any length is read in a few
        rounds. False at the end of the source, when `is_whole` is set.
        """
        cut = max(keep - 1 - self.base, 0)
        rest = self.data[cut:]
        self._counter.feed(self.data[:cut])
        self.data, self.base = rest, self.base + cut
        if self.is_whole:
            return False
        parts, size, wanted = [rest], 0, len(rest) if len(rest) > CHUNK else 1
        while size < wanted and not self.is_whole:
            part = self._input.read(max(CHUNK, wanted - size))
            self.is_whole = not part
            parts.append(part)
            size += len(part)
        self.data = b"".join(parts)
        return size > 0

    def place(self, offset: int) -> Tuple[int, int]:
        """The line and the column of an offset that is in memory."""
        at = offset - self.base
        while not LINE_END.search(self.data, at, at + NEAR) and len(self.data) - at < NEAR:
            if not self.more(self.base + 1):
                break
        begin, counter = self._placed
        if not self.base <= begin <= offset:
            begin, counter = self.base, self._counter
        counter = counter.copy()
        counter.feed(self.data[begin - self.base:at])
        self._placed = offset, counter
        return counter.place(self.data[at:at + NEAR])

    def lines(self, begin: int, keep: Callable[[], Optional[int]]) -> Iterator[Tuple[int, bytes]]:
        """Yields (offset, line with its end) from an offset on; a very long line comes in parts.

        Reading on keeps the bytes from the line on, or from the offset that `keep` gives.
        """
        at, seen = begin, 0
        while True:
            index = at - self.base
            found = LINE_END.search(self.data, index + seen)
            end = found.end() if found else len(self.data)
            if found and self.data[end - 1:end + 1] == b"\r\n":
                end += 1
            is_cut = end == len(self.data) and not (found and self.data[end - 1:] == b"\n")
            if is_cut and not self.is_whole and end - index < LONGEST_LINE:
                kept = keep()
                seen = max(end - index - 1, 0)
                self.more(at if kept is None else min(at, kept))
                continue
            if end == index:
                return
            yield at, self.data[index:end]
            at, seen = self.base + end, 0
