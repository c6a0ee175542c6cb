"""Processes that read files side by side."""
import contextlib
import os
import signal
from typing import TYPE_CHECKING, Iterator, List, Sequence, Tuple

from ._replacement import STOPPING, Replacement
from ._statuses import UNREADABLE, Failure

if TYPE_CHECKING:
    from concurrent.futures import ProcessPoolExecutor

# How long a process may take to remove its temporary file.
END_SECONDS = 5
_ended: List[bool] = []


def were_ended() -> bool:
    """Whether processes were ended before they were done."""
    return bool(_ended)


@contextlib.contextmanager
def pool_of(jobs: int) -> "Iterator[ProcessPoolExecutor]":
    """Yields a pool of so many processes. They are ended at once if the block raises."""
    # they take as long as all other imports together
    import multiprocessing
    from concurrent.futures import ProcessPoolExecutor
    from concurrent.futures.process import BrokenProcessPool
    pool = ProcessPoolExecutor(jobs, initializer=_end_with_parent)
    try:
        yield pool
    except BaseException as error:
        _ended.append(True)
        processes = multiprocessing.active_children()
        for process in processes:
            process.terminate()
        pool.shutdown(wait=False, cancel_futures=True)
        for process in processes:
            # each removes its temporary file; one that cannot would keep the output open
            process.join(END_SECONDS)
            process.kill()
        if isinstance(error, BrokenProcessPool):
            # from outside, perhaps for lack of memory
            raise Failure(UNREADABLE, "a process ended before its file was read; try again "
                          "without -j") from None
        raise
    pool.shutdown()


def first_ones(files: Sequence[object], is_changed: bool) -> Iterator[Tuple[int, str]]:
    """The files that processes read, by their places: the others, this one reads.

    These are standard input, and if files are changed, those that are there by another name before.
    """
    seen = set()
    for at, file in enumerate(files):
        if isinstance(file, str) and file != "-":
            try:
                found = os.stat(file)
                key: object = (found.st_dev, found.st_ino)
            except OSError:
                key = file
            if key not in seen or not is_changed:
                yield at, file
            seen.add(key)


def _end_with_parent() -> None:
    """In a process of a pool: a signal ends it at once and silently, if it is not ignored."""
    # those of the process that made it
    Replacement.made.clear()
    for stopping in STOPPING:
        if signal.getsignal(stopping) != signal.SIG_IGN:
            signal.signal(stopping, _end)


def _end(number: int, _frame: object) -> None:
    for replacement in Replacement.made:
        replacement.discard()
    end(number)


def end(number: int) -> None:
    """Ends this process by a signal."""
    signal.signal(number, signal.SIG_DFL)
    os.kill(os.getpid(), number)
