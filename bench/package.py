"""The Python package beside PyChess's reader, which is pure Python.

PyChess (Debian: pychess) reads the first games of the same archive, since it takes long: by
`PGNFile.loadToModel`, which is how it opens a game, and by `parse_movetext` alone, the part of that
which plays the moves. All have to find the same plies and the same FENs of the main lines. What is
compared is games a second, in the best of the rounds, in which they take turns.

PyChess writes no en passant target that no pawn can take, so FENs are compared without it.
"""
import builtins
import importlib
import io
import sys
import time

import library
import tables
from measure import HERE, archive, stop

TOOLS, OTHERS, VERSIONS = (), (), ("python3", "pychess")


def sans(game):
    assert len([ply.san for ply in game.mainline()]) == game.plies
    return []


def tree(game, wants_fens=False):
    """Visits the plies of all lines of a game."""
    lines = [game.moves()]
    for line in lines:
        for ply in line:
            assert not wants_fens or ply.fen
            lines += [note for note in ply.notes if isinstance(note, type(line))]
    return [ply.fen for ply in game.mainline()] if wants_fens else []


# What is read of the games of a style beside their tags: its name, how the package reads it of a
# game and returns FENs, and of which of PyChess's positions these are the FENs.
NONE, LAST, ALL = slice(0), slice(-1, None), slice(None)
ROWS = {
    "plain": (
        ("tags and plies", lambda game: [], NONE),
        ("also the result and the last FEN", lambda game: [game.fen] * bool(game.result), LAST),
        ("also the SAN of each ply", sans, NONE),
        ("also the FEN after each ply", lambda game: [it.fen for it in game.mainline()], ALL),
        ("also the UCI of each ply",
         lambda game: [it.fen for it in game.mainline() if it.uci], ALL)),
    "annotated": (
        ("tags, and a tree with notes", tree, NONE),
        ("also the FEN after each ply of the tree", lambda game: tree(game, True), ALL))}


def load_peers():
    """The two readers of PyChess: each takes a file, and returns the positions of its game."""
    builtins._ = str
    try:
        pgn = importlib.import_module("pychess.Savers.pgn")
        board = importlib.import_module("pychess.Utils.lutils.LBoard")
    except ImportError as error:
        stop("%s has no PyChess (Debian: pychess): %s" % (sys.executable, error))

    def by_parser(file):
        first = board.LBoard()
        first.applyFen(board.FEN_START)
        return file.parse_movetext(file.get_movetext(file.games[0]), first, -1)

    by_model = lambda file: file.loadToModel(file.games[0]).boards
    return [lambda text, read=it: read(pgn.PGNFile(io.StringIO(text)))
            for it in (by_model, by_parser)]


def by_peer(read, texts, wanted):
    """The plies of each game, and the FENs that are wanted, by PyChess."""
    for text in texts:
        boards = read(text)[1:]
        yield len(boards), [it.asFen() for it in boards[wanted]]


def by_package(games, read):
    """The plies of each game, and the FENs that are read of it."""
    for game in games:
        assert game.tags["White"]
        yield game.plies, read(game)


def timed(games):
    """How long it takes to read the games, the plies of each, and the FENs of the first."""
    begun, plies, first = time.perf_counter(), [], []
    for count, found in games:
        plies.append(count)
        first = first or found
    return time.perf_counter() - begun, plies, first


def without_target(fen):
    fields = fen.split()
    return fields[:3] + fields[4:]


def row_of(given, peers, games, texts, row):
    """Measures a row, and stops if the two find other plies, or positions of the first game."""
    name, read, wanted = row
    least = [float("inf")] * 3
    for _ in range(given.rounds):
        took, plies, first = timed(by_package(games(), read))
        least[0] = min(least[0], took / len(plies))
        for number, peer in enumerate(peers, 1):
            took, peer_plies, peer_first = timed(by_peer(peer, texts, wanted))
            least[number] = min(least[number], took / len(texts))
            if peer_plies != plies[:len(texts)]:
                stop("the plies differ")
            if list(map(without_target, first)) != list(map(without_target, peer_first)):
                stop("the FENs differ")
    ours, model, parser = (tables.whole(1 / it) for it in least)
    return [name, ours, model, "%d" % (least[1] / least[0]), parser, "%d" % (least[2] / least[0])]


def figures(given):
    gillspoon, peers, lines = library.load(), load_peers(), []
    for style, rows in ROWS.items():
        path = archive(style, given.games)
        texts = [it.text.decode() for _, it in zip(range(given.peer_games), gillspoon.games(path))]
        head = ["%s %s games, games a second" % (tables.whole(given.games), style), "the package",
                "PyChess", "times as fast", "its parser alone", "times as fast"]
        lines += tables.table(head, [row_of(given, peers, lambda: gillspoon.games(path), texts, it)
                                     for it in rows])
    return {"input": "PyChess read the first %d games" % given.peer_games, "table": lines}


RECORDS = ((HERE + "/README.md", tables.measured_table),)
