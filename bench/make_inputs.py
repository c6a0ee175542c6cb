#!/usr/bin/env python3
"""Writes the inputs of bench/workloads.txt beside this script. The same bytes each time.

    bench/make_inputs.py

- games.txt: a line for each game, its result and then its moves in SAN.
- puzzles.txt: a line for each puzzle, a FEN without its two counts and then 1 to 6 moves. The last
  one mates, or gives check.
- queens.txt: the same for positions with nine queens a side.

The player of make_archive.py plays them all.
"""
import os
import random
import re
import sys

sys.dont_write_bytecode = True
import make_archive
from make_archive import Game, Line

HERE = os.path.dirname(os.path.abspath(__file__))
GAMES, QUEENS = 2000, 100


def fen(game):
    """The FEN of a position, without a half move clock."""
    ranks = "/".join("".join(game.board[at:at + 8]) for at in range(56, -1, -8))
    board = re.sub(r"\.+", lambda empty: str(len(empty[0])), ranks)
    target = make_archive.NAMES[game.target] if game.target is not None else "-"
    return "%s %s %s %s" % (board, "w" if game.white else "b", game.rights or "-", target)


def puzzles(rng, line):
    """The puzzles of a game, from its end back to a mate: a position, and the moves from there."""
    for at in range(len(line.moves) - 1, 3, -1):
        game, _, text = line.moves[at]
        first = max(0, at - rng.randrange(0, 6))
        start, before = line.moves[first][0], [it[2] for it in line.moves[first:at]]
        for move in game.steps():
            after = game.after(move)
            if after and after.checked() and not after.has_move():
                yield start, [*before, game.san(move, after)]
                return
        if text.endswith("+") and rng.random() < 0.05:
            yield start, [*before, text]


def queens(rng):
    """A game that begins with many queens a side, and with no king in check."""
    game, is_check = Game(), True
    game.rights = ""
    while is_check:
        game.board = ["."] * 64
        for square, piece in zip(rng.sample(range(64), 20), "Kk" + "Q" * 9 + "q" * 9):
            game.board[square] = piece
        is_check = any(game.attacked(game.board.index(king), king == "k") for king in "Kk")
    return game, [at.san(move, after) for at, move, after in game.played(rng, rng.randrange(4, 12))]


def write(name, lines):
    with open(HERE + "/" + name, "w", encoding="ascii") as out:
        out.writelines(" ".join(words) + "\n" for words in lines)


def main():
    rng = random.Random(1994)
    lines = [Line(rng) for _ in range(GAMES)]
    write("games.txt", ([it.result, *(text for _, _, text in it.moves)] for it in lines))
    found = [it for line in lines for it in puzzles(rng, line)]
    played = [queens(rng) for _ in range(QUEENS)]
    for name, games in (("puzzles.txt", found), ("queens.txt", played)):
        write(name, ([fen(start), *moves] for start, moves in games))


if __name__ == "__main__":
    main()
