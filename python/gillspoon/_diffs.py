"""Unified diffs of a text before and after, by the command diff."""
import errno
from typing import IO

from ._reports import BOLD, CYAN, GREEN, PLAIN, RED
from ._sources import Opened

# Which colour a line has, by what it begins with.
COLOURS = ((b"---", BOLD), (b"+++", BOLD), (b"@@", CYAN), (b"-", RED), (b"+", GREEN))


def run_diff(source: Opened, name: str, text: IO[bytes], new_name: str, out: IO[bytes],
             has_colours: bool) -> bool:
    """Writes how a text differs from a source, and says whether it does."""
    import subprocess
    text.seek(0)
    handle = source.handle
    words = ["diff", "-a", "-u", "-L", name, "-L", new_name, "/dev/fd/%d" % handle, "-"]
    try:
        with subprocess.Popen(words, stdin=text, stdout=subprocess.PIPE if has_colours else out,
                              pass_fds=(handle,)) as child:
            for line in child.stdout or ():
                out.write(_coloured(line))
    except FileNotFoundError:
        raise OSError(errno.ENOENT, "the command diff is not on PATH") from None
    if child.returncode > 1:
        raise OSError(errno.EIO, "diff ended with status %d" % child.returncode)
    return child.returncode == 1


def _coloured(line: bytes) -> bytes:
    for begin, colour in COLOURS:
        if line.startswith(begin):
            return b"%s%s%s\n" % (colour.encode(), line.rstrip(b"\n"), PLAIN.encode())
    return line
