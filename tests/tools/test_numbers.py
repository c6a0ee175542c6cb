"""Tests of the warning of move numbers, on many made games, beside a plain look at each number."""
import random
import re

import test_lint
from programs import archive, need_package, text_of

setUpModule = need_package
GAMES, LONGEST = 4000, 30
REASON = re.compile("move number ([0-9]+) after ([0-9]+): perhaps a marker or moves are missing")
NOTES = ("best", "better is 3. Nf3", "1. e4 (2. d4) 7...", "see game 12.", "a; b", "5.", "100% 4.")


def numbers_of(movetext):
    """The place of each number of the main line with a period behind, and the plies before it.

    White space may be before the period (PGN 8.2.2.1). A comment ends at its brace, and one from
    `;` at the line's end.
    """
    found, plies, depth = [], 0, 0
    for it in re.finditer(r"\{[^}]*\}|;.*\n|[()]|[$\w][\w+#=:/-]*", movetext):
        word = it[0]
        if word in "()":
            depth += 1 if word == "(" else -1
        elif depth == 0 and word[0].isalnum():
            if word.isdigit() and movetext[it.end():].lstrip().startswith("."):
                found.append((it.start(), int(word), plies))
            plies += word[0].isalpha()
    return found


def wrong(numbers):
    """The first number that is lower than the one before, or higher by more than moves between."""
    for (_, last, before), (at, number, plies) in zip(numbers, numbers[1:]):
        moves = (plies - before + 1) // 2
        if number < last or number - last > moves:
            return at, number, last
    return None


def movetext_of(rng, moves, first):
    """Movetext whose numbers may be wrong or missing. `first` is the ply of the first move."""
    is_sound, words = rng.random() < 0.4, []
    blank, noise = rng.choice((" ", "", "\n")), rng.choice((0, 0.05, 0.3))
    for ply, move in enumerate(moves, first):
        number, is_black = ply // 2, ply % 2
        if (rng.random() < (0.08 if is_sound else 0.2)) == is_black:
            dots = "..." if is_black else rng.choice((".", ".", ".", ".", ".", " .", ""))
            told = number
            if not is_sound and rng.random() < 0.1:
                told = rng.choice((number + 1, number - 1, number + 7, 1, 10 * number, number % 10))
            words.append("%d%s%s" % (max(told, 0), dots, blank or " " * (dots != "...")))
        words.append(move + " ")
        if rng.random() < noise:
            words.append("{%s} " % rng.choice(NOTES))
        if rng.random() < noise:
            noted = "%s {%s} (%s)" % (move, rng.choice(NOTES), move)
            inner = rng.choice((noted, move, "1. " + move))
            words.append("(%d%s%s) " % (number, ".." * is_black + ". ", inner))
        if rng.random() < noise / 4:
            words.append("; 2. a\n")
    return "".join(words)


def games(rng):
    """The tag section and the movetext of made games."""
    lines = [it.split()[1:] for it in text_of("bench/games.txt").splitlines()]
    puzzles = [it.split() for it in text_of("bench/puzzles.txt").splitlines()]
    for _ in range(GAMES):
        first, is_black, tags = 1, False, ""
        if rng.random() < 0.8:
            moves = rng.choice(lines)[:rng.randrange(1, LONGEST)]
        else:
            *fen, moves = *rng.choice(puzzles),
            fields, moves = (fen + [moves])[:4], (fen + [moves])[4:]
            first, is_black = rng.randrange(1, 60), fields[1] == "b"
            tags = '[SetUp "1"]\n[FEN "%s 0 %d"]\n' % (" ".join(fields), first)
        yield '[Event "a"]\n%s\n' % tags, movetext_of(rng, moves, 2 * first + is_black)


class Numbers(test_lint.Lint):
    def test_made_games(self):
        """The first number that is wrong is warned of, and nothing else is."""
        made = list(games(random.Random(1994)))
        self.put("a.pgn", "".join("%s%s*\n\n" % it for it in made).encode())
        records = self.records("a.pgn")
        self.assertNotIn("fault", [it["kind"] for it in records])
        warned = {it["game"]: it for it in records
                  if it["kind"] == "warning" and REASON.fullmatch(it["reason"])}
        seen, offset = [0, 0], 0
        for game, (tags, movetext) in enumerate(made, 1):
            found, it = wrong(numbers_of(movetext)), warned.get(game)
            begin, offset = offset + len(tags), offset + len(tags) + len(movetext) + 3
            said = it and (it["offset"] - begin, *map(int, REASON.fullmatch(it["reason"]).groups()))
            self.assertEqual(said, found, movetext)
            seen[found is None] += 1
        self.assertTrue(all(it > GAMES // 40 for it in seen), seen)

    def test_archives(self):
        """No game of bench/make_archive.py has a warning."""
        for style in ("plain", "annotated", "server"):
            self.put("a.pgn", archive(100, style))
            self.assertEqual(self.lint("--strict", "a.pgn"),
                             (0, "1 file, 100 games, 0 faults\n", ""), style)
