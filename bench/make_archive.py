#!/usr/bin/env python3
"""Writes an archive of legal chess games in PGN import format, for measurements.

    bench/make_archive.py --games 20000 --style plain > plain.pgn

The same arguments give the same bytes. A small player of its own plays the games. It looks one move
ahead, and likes captures, the centre and safe squares. It plays a number of lines (--lines), and
each is used for many games, with other tags. The styles are plain, annotated (with comments, NAGs
and variations, some of them nested) and server (with a clock time after each ply).
"""
import argparse
import random
import sys
import textwrap

FILES, RANKS = "abcdefgh", "12345678"
NAMES = [f + r for r in RANKS for f in FILES]
WORTH = {"P": 1, "N": 3, "B": 3, "R": 5, "Q": 9, "K": 0}
BACK = "RNBQKBNR"


def reach(steps, most=7):
    """For each square, the ways of at most so many of these steps: each is the squares met."""
    table = []
    for square in range(64):
        ways = []
        for files, ranks in steps:
            met = [(square % 8 + files * n, square // 8 + ranks * n) for n in range(1, most + 1)]
            ways.append([8 * r + f for f, r in met if 0 <= f < 8 and 0 <= r < 8])
        table.append([way for way in ways if way])
    return table


STRAIGHT, SLANTED = [(1, 0), (-1, 0), (0, 1), (0, -1)], [(1, 1), (1, -1), (-1, 1), (-1, -1)]
JUMPS = [(f, r) for f in (-2, -1, 1, 2) for r in (-2, -1, 1, 2) if abs(f) != abs(r)]
# of a pawn the squares that it attacks
WAYS = {"P": reach([(1, 1), (-1, 1)], 1), "p": reach([(1, -1), (-1, -1)], 1),
        "N": reach(JUMPS, 1), "B": reach(SLANTED), "R": reach(STRAIGHT),
        "Q": reach(STRAIGHT + SLANTED), "K": reach(STRAIGHT + SLANTED, 1)}
# by side the pieces that attack a square along the ways of a kind of piece from there
ATTACKERS = {True: (("p", "P"), ("N", "N"), ("B", "BQ"), ("R", "RQ"), ("K", "K")),
             False: (("P", "p"), ("N", "n"), ("B", "bq"), ("R", "rq"), ("K", "k"))}
# the castlings that a move from or to the square ends
ENDS = {0: "Q", 4: "KQ", 7: "K", 56: "q", 60: "kq", 63: "k"}


class Game:
    """A position: upper case is White's, as in a FEN."""

    def __init__(self):
        self.board = list(BACK + "P" * 8 + "." * 32 + "p" * 8 + BACK.lower())
        self.white, self.rights, self.target, self.number = True, "KQkq", None, 1

    def own(self, piece):
        return piece != "." and piece.isupper() == self.white

    def met(self, kind, square):
        """The squares of the first piece on each way of a kind of piece."""
        board = self.board
        for way in WAYS[kind][square]:
            for to in way:
                if board[to] != ".":
                    yield to
                    break

    def attacked(self, square, white):
        """Whether a piece of the side attacks the square."""
        for kind, pieces in ATTACKERS[white]:
            for origin in self.met(kind, square):
                if self.board[origin] in pieces:
                    return True
        return False

    def checked(self):
        return self.attacked(self.board.index("K" if self.white else "k"), not self.white)

    def steps(self):
        """The moves that are legal but for the safety of the king, as (from, to, promotion)."""
        board = self.board
        for origin in range(64):
            if not self.own(board[origin]):
                continue
            kind = board[origin].upper()
            if kind == "P":
                yield from self.pawn_steps(origin)
                continue
            for way in WAYS[kind][origin]:
                for to in way:
                    if not self.own(board[to]):
                        yield origin, to, ""
                    if board[to] != ".":
                        break
        yield from self.castlings()

    def pawn_steps(self, origin):
        board, ahead = self.board, 8 if self.white else -8
        targets = []
        if board[origin + ahead] == ".":
            targets.append(origin + ahead)
            if origin // 8 == (1 if self.white else 6) and board[origin + 2 * ahead] == ".":
                targets.append(origin + 2 * ahead)
        targets += [to for to, in WAYS[board[origin]][origin]
                    if to == self.target or board[to] != "." and not self.own(board[to])]
        for to in targets:
            for promotion in "QRBN" if to // 8 in (0, 7) else ("",):
                yield origin, to, promotion

    def castlings(self):
        king = 4 if self.white else 60
        for right, rook, empty, to in (("K", 3, (1, 2), 2), ("Q", -4, (-1, -2, -3), -2)):
            right = right if self.white else right.lower()
            if (right in self.rights and self.board[king + rook].upper() == "R"
                    and all(self.board[king + it] == "." for it in empty)
                    and not any(self.attacked(king + it, not self.white)
                                for it in (0, to // 2, to))):
                yield king, king + to, ""

    def after(self, move):
        """The position after the move, or None where the king could be taken."""
        origin, to, promotion = move
        made = Game.__new__(Game)
        made.board = board = self.board[:]
        piece = board[origin]
        kind = piece.upper()
        board[origin], board[to] = ".", piece
        made.target = None
        if kind == "P":
            if to == self.target:
                board[to + (-8 if self.white else 8)] = "."
            if promotion:
                board[to] = promotion if self.white else promotion.lower()
            if abs(to - origin) == 16:
                made.target = (origin + to) // 2
        elif kind == "K" and abs(to - origin) == 2:
            rook = origin + 3 if to > origin else origin - 4
            board[rook], board[(origin + to) // 2] = ".", board[rook]
        lost = ENDS.get(origin, "") + ENDS.get(to, "")
        made.rights = "".join(it for it in self.rights if it not in lost)
        made.white, made.number = not self.white, self.number + (not self.white)
        king = board.index("K" if self.white else "k")
        return None if made.attacked(king, not self.white) else made

    def san(self, move, after):
        """The move in standard algebraic notation (PGN 8.2.3)."""
        origin, to, promotion = move
        kind = self.board[origin].upper()
        takes = self.board[to] != "." or kind == "P" and to == self.target
        if kind == "K" and abs(to - origin) == 2:
            text = "O-O" if to > origin else "O-O-O"
        else:
            front = kind + self.hint(kind, origin, to) if kind != "P" else FILES[origin % 8] * takes
            text = front + "x" * takes + NAMES[to] + ("=" + promotion if promotion else "")
        if not after.checked():
            return text
        return text + ("+" if after.has_move() else "#")

    def hint(self, kind, origin, to):
        """What tells the piece from others of its kind that can go there."""
        rivals = [it for it in self.met(kind, to)
                  if it != origin and self.board[it] == self.board[origin]
                  and self.after((it, to, ""))]
        if not rivals:
            return ""
        if all(it % 8 != origin % 8 for it in rivals):
            return FILES[origin % 8]
        if all(it // 8 != origin // 8 for it in rivals):
            return RANKS[origin // 8]
        return NAMES[origin]

    def has_move(self):
        return any(self.after(it) for it in self.steps())

    def played(self, rng, count, without=()):
        """At most so many moves from here, each with the position before it and the one after it.

        The first one is none of these moves.
        """
        game = self
        for _ in range(count):
            move, after = game.choose(rng, without)
            if not move:
                return
            yield game, move, after
            game, without = after, ()

    def choose(self, rng, without=()):
        """A legal move that looks good at first sight, and the position after it."""
        board, rated = self.board, []
        for move in self.steps():
            origin, to, promotion = move
            kind = board[origin].upper()
            score = 2.0 * WORTH.get(board[to].upper(), 0) + rng.random() * 2.5
            score += 0.25 * (3.5 - abs(to % 8 - 3.5)) if kind != "K" else -1.0
            score += 12 if promotion == "Q" else 0
            if kind != "P" and self.attacked(to, not self.white):
                score -= 1.7 * WORTH[kind]
            if kind in "QRBN" and self.attacked(origin, not self.white):
                score += WORTH[kind]
            if kind == "K" and abs(to - origin) == 2:
                score += 5
            rated.append((score, move))
        for _, move in sorted(rated, reverse=True):
            after = self.after(move) if move not in without else None
            if after:
                return move, after
        return None, None


class Line:
    """A game's moves: for each the position before it, the move, and its text; and the result."""

    def __init__(self, rng):
        game, self.moves, self.result = Game(), [], None
        for before, move, game in game.played(rng, rng.randrange(30, 130)):
            self.moves.append((before, move, before.san(move, game)))
        if game.has_move():
            self.result = rng.choice(("1-0", "0-1", "1/2-1/2", "1/2-1/2", "*"))
        elif game.checked():
            self.result = "0-1" if game.white else "1-0"
        else:
            self.result = "1/2-1/2"


# ---- movetext

PHRASES = (
    "The usual move here.",
    "White has a little more room, but Black's pieces stand well.",
    "A mistake; the rook should have gone to the open file first.",
    "Up to here both players knew the line from an earlier game.",
    "Better than 14. Nd5, after which Black is at ease.",
    "Threatens the pawn on e4 and prepares the break in the centre",
    "With the idea Qc2 & Rad1.",
    "[%clk 1:12:07]",
    "Zeitnot",
    "The bishop is worth more than the knight in such positions, as so often where pawns stand on both wings.",
)
GLYPHS = ("$1", "$2", "$3", "$5", "$6", "$10", "$13", "$14", "$16", "$18", "$36")
SUFFIXES = ("!", "?", "!?", "?!", "!!", "??")


def numbered(game, text, after_move):
    if game.white:
        return ["%d." % game.number, text]
    return [text] if after_move else ["%d..." % game.number, text]


def annotated(rng, moves, depth=0):
    """The words of a line, or of a variation so deep, with what an annotator adds to moves."""
    words, after_move = [], False
    for game, move, text in moves:
        words += numbered(game, text, after_move)
        added = []
        if not depth:
            chance = rng.random()
            if chance < 0.06:
                words[-1] += rng.choice(SUFFIXES)
            elif chance < 0.12:
                added.append(rng.choice(GLYPHS))
        if rng.random() < (0.1 if depth else 0.12):
            added.append("{%s}" % rng.choice(PHRASES))
        if depth < 3 and rng.random() < (0.08 if depth else 0.09):
            added += variation(rng, game, move, depth + 1)
        words += added
        after_move = not added
    return words


def variation(rng, game, move, depth):
    """The words of a variation in the place of a move."""
    others = game.played(rng, rng.randrange(1, 8), (move,))
    words = annotated(rng, ((at, it, at.san(it, after)) for at, it, after in others), depth)
    if words:
        words[0] = "(" + words[0]
        words[-1] += ")"
    return words


def words_of(rng, line, style):
    """The words of a line: plain, with a clock time behind each ply, or annotated."""
    if style == "annotated":
        return annotated(rng, line.moves)
    clock = ["{ [%clk 0:03:00] }"] * (style == "server")
    return [word for game, _, text in line.moves for word in (*numbered(game, text, True), *clock)]


def filled(words):
    return textwrap.fill(" ".join(words), 79, break_long_words=False, break_on_hyphens=False)


# ---- tag pairs

PLAYERS = ("Abreu", "Berger", "Costa", "Dahl", "Endo", "Farkas", "Gomez", "Hale", "Ito", "Jensen",
           "Kaya", "Lund", "Meyer", "Nagy", "Okoro", "Perez", "Quinn", "Roth", "Silva")
PLACES = ("Lisbon POR", "Oslo NOR", "Porto Alegre BRA", "Graz AUT", "Kyoto JPN", "Leeds ENG", "?")
EVENTS = ("City Championship", "Autumn Open", "League, second division", "Memorial", "Club Evening",
          "Rapid Cup")
ROUNDS = ("?", "1", "2", "3", "4.1", "7")


def tag_pairs(rng, style, result):
    player = lambda: "%s, %s" % (rng.choice(PLAYERS), rng.choice("ABCDEFGHIJKLM"))
    date = lambda: (rng.randrange(1950, 2026), rng.randrange(1, 13), rng.randrange(1, 29))
    pairs = [("Event", rng.choice(EVENTS)), ("Site", rng.choice(PLACES)),
             ("Date", "%d.%02d.%02d" % date()), ("Round", rng.choice(ROUNDS)),
             ("White", player()), ("Black", player()), ("Result", result)]
    if rng.random() < 0.5 or style == "annotated":
        pairs += [(it, str(rng.randrange(1500, 2800))) for it in ("WhiteElo", "BlackElo")]
    if rng.random() < 0.7:
        pairs.append(("ECO", "%s%02d" % (rng.choice("ABCDE"), rng.randrange(100))))
    if style == "annotated":
        pairs.append(("Annotator", player()))
    return pairs


def game_of(rng, style, result, movetext):
    """The text of a game."""
    head = "".join('[%s "%s"]\n' % it for it in tag_pairs(rng, style, result))
    return "%s\n%s\n\n" % (head, movetext)


def main():
    parser = argparse.ArgumentParser(description=__doc__,
                                     formatter_class=argparse.RawDescriptionHelpFormatter)
    parser.add_argument("--games", type=int, default=20000)
    parser.add_argument("--style", choices=("plain", "annotated", "server"), default="plain")
    parser.add_argument("--lines", type=int, default=250)
    parser.add_argument("--seed", type=int, default=1)
    given = parser.parse_args()
    lines = []
    for number in range(min(given.lines, given.games)):
        line = Line(random.Random("line %d %d" % (given.seed, number)))
        rng = random.Random("words %d %d" % (given.seed, number))
        lines.append((line.result, filled([*words_of(rng, line, given.style), line.result])))
    rng = random.Random("games %d" % given.seed)
    for number in range(given.games):
        sys.stdout.write(game_of(rng, given.style, *lines[number % len(lines)]))


if __name__ == "__main__":
    main()
