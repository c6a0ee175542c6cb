"""The version of all parts: it is in one place, which an installation copies beside this module.

python/build_wheel.py loads this file by its path too, so it takes nothing from the package. The
package reads the version at its start, so what only a command line needs is imported there.
"""
import os
import re
from typing import TYPE_CHECKING, Any

if TYPE_CHECKING:
    import argparse

_HERE = os.path.dirname(os.path.realpath(__file__))
_SOURCE = os.path.join(os.path.dirname(os.path.dirname(_HERE)),
                       "crates", "pgn_arguments", "src", "arguments.rt")


def version() -> str:
    """The version, as pgn_tool --version has it; `?` for a copy of this folder alone."""
    copy = os.path.join(_HERE, "VERSION")
    if os.path.exists(copy):
        with open(copy, encoding="ascii") as file:
            return file.read().strip()
    if not os.path.exists(_SOURCE):
        return "?"
    with open(_SOURCE, encoding="utf-8") as file:
        found = re.search(r'const VERSION: &str = "(.*)";', file.read())
    return found[1] if found else "?"


def add_version(parser: "argparse.ArgumentParser") -> None:
    """Adds the option --version."""
    import argparse

    class PrintVersion(argparse.Action):
        """Prints the name of the command and the version, and ends."""

        def __call__(self, parser: argparse.ArgumentParser, *_: Any) -> None:
            print(parser.prog.partition(" ")[0], version())
            parser.exit()

    parser.add_argument("--version", action=PrintVersion, nargs=0, help="print the version")
