"""Reads chess games in Portable Game Notation (PGN), by the library of Gillspoon.

    import gillspoon
    for game in gillspoon.games("games.pgn.zst", on_fault=print):
        print(game.number, game.tags["White"], game.result, game.plies)
        for ply in game.mainline():
            print(ply.number, ply.san, ply.fen)

The library plays every move by the rules of chess, and rejects a game at its first fault. What it
accepts and writes is in docs/PROFILE.md, and docs/PYTHON.md has recipes.

`help` of a class says what each attribute is. Three names are types, for annotations:

    Source    what is read: a path (str or os.PathLike), bytes or an mmap, or an open binary file;
              each may be compressed: gz, bz2, xz, zst or zip
    OnFault   what is called with each fault: a function of a PgnFault
    Note      what may be beside a move: a NAG (int), a comment (str) or a variation (Line)

`__version__` is the version of the package, and that of `pgn_tool --version`.
"""
from ._calls import Explanation, Played, explain, normalize_fen, position_key, san
from ._commands import Arrow, Evaluation, MarkedSquare
from ._edits import Edit, fixes
from ._faults import FenFault, MoveFault, PgnFault
from ._games import Game, OnFault, Totals, check, convert, games, write_game
from ._moves import Line, Note, Ply
from ._sources import Source
from ._version import version

__version__ = version()
__all__ = [
    "Arrow", "Edit", "Evaluation", "Explanation", "FenFault", "Game", "Line", "MarkedSquare",
    "MoveFault", "Note", "OnFault", "PgnFault", "Played", "Ply", "Source", "Totals", "check",
    "convert", "explain", "fixes", "games", "normalize_fen", "position_key", "san", "write_game",
]
