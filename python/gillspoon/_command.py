"""The command gillspoon: which subcommands it has, and what all of them share.

    gillspoon lint | fmt | where | sieve [OPTION]... [FILE]...

`python3 -m gillspoon` is the same command.
"""
import argparse
import os
import signal
import sys
from importlib import import_module
from typing import Callable, List, NoReturn, Optional

from ._processes import end, were_ended
from ._replacement import STOPPING, Replacement
from ._reports import Output, OutputFault, Progress, message
from ._statuses import UNREADABLE, WRONG_WORDS, Failure
from ._version import add_version

SUBCOMMANDS = {
    "lint": "names each fault by file, line and column, explains it, and mends what is clear",
    "fmt": "writes files in export format, in place too, or checks that they are",
    "where": "shows the line, the column and the game of a byte, or of each message",
    "sieve": "exports the valid games of archives, and sets the bad ones aside",
}
EXAMPLES = """subcommands:
%s

gillspoon SUBCOMMAND --help shows the options of one.

examples:
  gillspoon lint --board games.pgn
  gillspoon lint --fix archive/
  gillspoon fmt --check *.pgn
  gillspoon where games.pgn 4711
  gillspoon sieve games.pgn good.pgn bad.pgn

""" % "\n".join("  %-6s %s" % it for it in SUBCOMMANDS.items())
SHARED = """status:
  0  all is well
  1  a fault is found or left, a file is not in export format or would be changed, or a message was
     read; with --strict also a warning
  2  wrong arguments, an output that is an input, or a message that needs FILE
  3  a file cannot be read or written, is no text of games, or is left as it is; or there is not
     enough memory; or gillspoon met an error of its own
  127  there is no shared library

environment:
  GILLSPOON_LIBRARY  the shared library to use [default: the one that is installed or built]
  NO_COLOR           if it is set, there are no colours on a terminal
"""


class Parser(argparse.ArgumentParser):
    """A reader of arguments whose errors are one line."""

    def __init__(self, subcommand: str, description: str, epilog: str) -> None:
        super().__init__(prog=("gillspoon " + subcommand).strip(), description=description,
                         epilog=epilog + SHARED,
                         formatter_class=argparse.RawDescriptionHelpFormatter)
        add_version(self)

    def error(self, message: str) -> NoReturn:
        self.exit(WRONG_WORDS, "%s: %s (--help shows the usage)\n" % (self.prog, message))

    def add_color(self) -> None:
        """Adds the option --color."""
        self.add_argument("--color", metavar="WHEN", choices=("auto", "always", "never"),
                          default="auto", help="have colours: always, never, or auto, which is on "
                          "a terminal [default: auto]")

    def add_files(self) -> None:
        """Adds the options of what reads many files."""
        self.add_argument("--exclude", metavar="GLOB", action="append", default=[],
                          help="in a folder leave out files and folders of such a name, or path "
                          "below it; more can be given")
        self.add_argument("-j", "--jobs", metavar="N", type=number, default=1,
                          help="read files by N processes [default: 1]")

    def parse(self, words: List[str]) -> argparse.Namespace:
        """What the words ask for. Options may be between files; behind -- there are none."""
        end = words.index("--") if "--" in words else len(words)
        given = self.parse_intermixed_args(words[:end])
        given.paths += words[end + 1:]
        return given


def number(text: str) -> int:
    """The number of an option that counts."""
    if not text.isascii() or not text.isdigit() or not int(text):
        raise argparse.ArgumentTypeError("%s is not a number from 1 on" % text)
    return int(text)


class Stopped(BaseException):
    """A signal asked the command to stop."""

    def __init__(self, number: int) -> None:
        super().__init__(number)
        self.number = number


def _stopper() -> Callable[[int, object], NoReturn]:
    """What is called with a signal: in a process of a pool that has just begun it ends that."""
    own = os.getpid()

    def stop(number: int, _frame: object) -> NoReturn:
        if os.getpid() != own:
            end(number)
        raise Stopped(number)

    return stop


def run(task: Callable[[Output], int]) -> int:
    """Runs a task, which gets standard output, and gives its status; an error is one line.

    Where nobody reads the output any more, it ends silently, with the status UNREADABLE.
    """
    if sys.stdout is None:
        message("standard output is closed")
        return UNREADABLE
    stop = _stopper()
    for stopping in STOPPING:
        if signal.getsignal(stopping) != signal.SIG_IGN:
            signal.signal(stopping, stop)
    out = Output(sys.stdout)
    try:
        status = task(out)
        out.flush()
    except Stopped as stopped:
        Progress.clear()
        for replacement in Replacement.made:
            replacement.discard()
        end(stopped.number)
        status = UNREADABLE
    except OutputFault as fault:
        if not fault.is_closed_pipe:
            message("output cannot be written: %s" % fault)
        out.give_up()
        status = UNREADABLE
    except MemoryError:
        message("out of memory")
        status = UNREADABLE
    except Failure as failure:
        message(str(failure))
        status = failure.status
    except OSError as error:
        where = "%s: " % error.filename if error.filename else ""
        message(where + (error.strerror or str(error)))
        status = UNREADABLE
    if were_ended():
        # Python could wait for ever for what they write
        os._exit(status)
    return status


def main(words: Optional[List[str]] = None) -> int:
    """Runs the command, and gives its status."""
    words = sys.argv[1:] if words is None else words
    if not words or words[0] not in SUBCOMMANDS:
        parser = Parser("", "Checks, mends, formats and parts files of chess games (PGN).",
                        EXAMPLES)
        parser.add_argument("subcommand", metavar="SUBCOMMAND", choices=SUBCOMMANDS,
                            help="one of those below")
        parser.parse_args(words)
    return run_subcommand(words[0], words[1:])


def run_subcommand(name: str, words: List[str]) -> int:
    """Runs a subcommand, whose module is only now loaded."""
    module = import_module("._" + name, __package__)
    given = module.arguments(words)
    return run(lambda out: int(module.run(given, out)))
