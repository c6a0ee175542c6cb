"""Files that are replaced whole: they have their old text or their new one, and no part of it."""
import contextlib
import errno
import os
import signal
import stat
import tempfile
from typing import IO, Iterator, List, Optional, Union

from ._statuses import WRONG_WORDS, Failure

# the signals that ask a script to stop
STOPPING = (signal.SIGTERM, signal.SIGHUP, signal.SIGINT)


@contextlib.contextmanager
def signals_wait() -> Iterator[None]:
    """Lets a signal that asks the script to stop wait for the end of the block."""
    before = signal.pthread_sigmask(signal.SIG_BLOCK, STOPPING)
    try:
        yield
    finally:
        signal.pthread_sigmask(signal.SIG_SETMASK, before)


class Replacement:
    """A temporary file beside a target, which takes its place once all went well.

    A symbolic link is followed, and a file that stands there keeps its mode.
    """

    # all of this run, for a signal that comes before a caller has them
    made: "List[Replacement]" = []

    def __init__(self, path: str) -> None:
        self.path = os.path.realpath(path)
        if os.path.exists(self.path) and not os.path.isfile(self.path):
            raise OSError(errno.EINVAL, "is not a regular file", path)
        folder, name = os.path.split(self.path)
        with signals_wait():
            try:
                handle, name = tempfile.mkstemp(
                    prefix=".%s." % name[:40], dir=folder)
            except OSError as error:
                raise OSError(error.errno, "no file can be made beside it: %s" % error.strerror,
                              path) from None
            self.temporary: Optional[str] = name
            self.file = os.fdopen(handle, "w+b")
            self.made.append(self)

    def take_place(self) -> None:
        """Puts the new file in the place of the old one."""
        self.file.flush()
        os.fsync(self.file.fileno())
        if os.path.exists(self.path):
            old = os.stat(self.path)
            if os.geteuid() == 0:
                os.fchown(self.file.fileno(), old.st_uid, old.st_gid)
            mode = stat.S_IMODE(old.st_mode)
        else:
            mask = os.umask(0)
            os.umask(mask)
            mode = 0o666 & ~mask
        os.fchmod(self.file.fileno(), mode)
        self.file.close()
        with signals_wait():
            os.replace(self.temporary or "", self.path)
            self.temporary = None

    def discard(self) -> None:
        """Removes the temporary file, if it has not taken its place."""
        with signals_wait():
            if self.temporary:
                # on a full disk the last bytes cannot be written, and nobody needs them
                with contextlib.suppress(OSError):
                    self.file.close()
                os.unlink(self.temporary)
                self.temporary = None


class Nowhere:
    """The target /dev/null, in place of a Replacement: what is written to its file is dropped."""

    def __init__(self) -> None:
        self.file: IO[bytes] = open(os.devnull, "r+b")

    def take_place(self) -> None:
        """Does nothing."""

    def discard(self) -> None:
        """Closes it."""
        self.file.close()


Target = Union[Replacement, Nowhere]


def target_of(path: str) -> Target:
    """What is written in place of a file."""
    if is_nowhere(path):
        return Nowhere()
    if os.path.exists(path) and not os.path.isfile(path):
        raise Failure(WRONG_WORDS, "%s: is not a regular file" % path)
    return Replacement(path)


def is_nowhere(path: str) -> bool:
    """Whether a path is /dev/null."""
    return is_same_file(path, os.devnull)


def has_text(path: str) -> bool:
    """Whether a path names a file that is not empty."""
    return os.path.isfile(path) and os.path.getsize(path) > 0


def is_same_file(one: str, other: str) -> bool:
    """Whether two paths name one file, also by links."""
    try:
        return os.path.samefile(one, other)
    except OSError:
        return os.path.realpath(one) == os.path.realpath(other)


def check_writable(path: str, before: os.stat_result) -> None:
    """Raises OSError if a file is read-only, or is no more as it was before it was read."""
    if not os.access(path, os.W_OK) or not stat.S_IMODE(before.st_mode) & 0o222:
        raise OSError(errno.EACCES, "is read-only; " + LEFT, path)
    after = os.stat(path)
    if (after.st_mtime_ns, after.st_size) != (before.st_mtime_ns, before.st_size):
        raise OSError(errno.EIO, CHANGED, path)


def left_as_it_is(error: OSError, path: str) -> OSError:
    """An error that kept a file from being replaced, which says that the file is left as it is."""
    reason = error.strerror or str(error)
    return error if reason.endswith(LEFT) else OSError(error.errno, reason + "; " + LEFT, path)


LEFT = "it is left as it is"
CHANGED = "changed while it was read; " + LEFT


def note_of_links(before: os.stat_result) -> str:
    """What to say of a file with several hard links, or nothing."""
    if before.st_nlink < 2:
        return ""
    return "had %d hard links: those of other names keep the old text" % before.st_nlink
