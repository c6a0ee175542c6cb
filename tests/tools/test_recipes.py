"""Runs each block of shell of docs/RECIPES.md on a sample."""
import os
import re
import shutil
import unittest

import programs
from documents import blocks_of, lines_of, prose_of
from programs import ROOT, Folder, output_of, text_of

RECIPES = ROOT + "/docs/RECIPES.md"


def sections(document=RECIPES):
    """The blocks of shell of each section, by its title."""
    lines, found, title = lines_of(document), {}, ""
    inner = {number: it for number, _, it in blocks_of(lines) if lines[number - 1] == "```sh"}
    for number, line in enumerate(prose_of(lines), 1):
        if line.startswith("#"):
            title = line.strip("# ")
        elif number in inner:
            found.setdefault(title, []).append("\n".join(inner[number]) + "\n")
    return found


def game(moves="1. e4 e5 *", result="*", **tags):
    """A game as export format has it, with this roster and these moves."""
    roster = ["Event", "Site", "Date", "Round", "White", "Black"]
    values = [tags.get(it, "????.??.??" if it == "Date" else "?") for it in roster]
    lines = ['[%s "%s"]' % pair for pair in zip(roster, values)]
    return "\n".join(lines + ['[Result "%s"]' % result, "", moves, "", ""])


class Recipe(Folder, unittest.TestCase):
    def recipe(self, title, block=0, of=None):
        """Runs a block, perhaps with these texts of games in games.pgn."""
        if of is not None:
            self.put("games.pgn", "".join(of))
        return self.shell(sections()[title][block])

    def check_file(self, name, *games):
        self.assertEqual(self.get(name).decode(), "".join(games))

    def mend(self, title, text, message, wanted):
        """The text is refused with the message; what the recipe makes of it has this export."""
        self.put("games.pgn", text)
        self.check(self.shell("pgn_tool check games.pgn"), 1, b"", message.encode() + b"\n")
        out = output_of(self.recipe(title))
        exported = self.shell("pgn_tool export mended.pgn")
        self.assertEqual(exported.stdout.decode(), wanted)
        return out.decode()

    def test_every_block_has_a_test(self):
        text = text_of(os.path.realpath(__file__))
        for title, blocks in sections().items():
            for number in range(len(blocks)):
                call = r'(recipe|mend)\(\s*"%s"' % re.escape(title)
                call += r", %d[,)]" % number if number else ""
                self.assertTrue(re.search(call, text), (title, number))

    def test_see_where_a_fault_is(self):
        out = output_of(self.recipe("See where a fault is", of="1. e4 e5\n2. Ke3 *\n"), 1)
        self.assertTrue(out.startswith(b"games.pgn:2:4: move is not legal (game 1, "))
        self.assertIn(b"Ke3", output_of(self.recipe("See where a fault is", 1), 1))
        self.check(self.recipe("See where a fault is", 1, of="1. e4 e5 *\n"), 0,
                   b"games: 1, plies: 2\n")

    def test_set_bad_games_aside(self):
        bad = '[Event "bad"]\n\n1. e4 e5 2. Ke3 *\n\n'
        self.recipe("Set bad games aside", of=[game(Event="a"), bad, game(Event="b")])
        self.check_file("good.pgn", game(Event="a"), game(Event="b"))
        self.assertIn(bad.strip().encode(), self.get("bad.pgn"))

    def test_compare(self):
        self.put("a.pgn", "1.e4 e5 *")
        for text in ("e4 {} *", '[Event "?"] 1. e2e4 e7-e5 *'):
            self.put("b.pgn", text)
            self.assertEqual(self.recipe("Compare two collections").returncode, 1)
        self.put("b.pgn", '[Event "?"] 1. e2e4 e7e5 *')
        self.check(self.recipe("Compare two collections"), 0, b"same\n")
        self.put_all({"a.pgn": "1. e4 e9", "b.pgn": "1. e4 e9"})
        self.assertNotIn(b"same", self.recipe("Compare two collections").stdout)

    def test_sort_by_date(self):
        dates = ["2001.05.04", "1999.12.31", "1999.12.31", "????.??.??"]
        games = [game(Date=it, Event=name) for it, name in zip(dates, ['x \\"y\\"', "b", "a", "c"])]
        ran = self.recipe("Sort by date", of=games)
        self.assertEqual(ran.stdout, b"games: 4, plies: 8\n" * 2)
        self.check_file("sorted.pgn", games[1], games[2], games[0], games[3])

    def test_sort_otherwise(self):
        """For a comparison, where the order of equal dates does not matter, and by another tag."""
        script = sections()["Sort by date"][0]
        by_event = script.replace("Date", "Event").replace("RSTART + 8", "RSTART + 9") \
            .replace("RLENGTH - 8", "RLENGTH - 9")
        alike = [game(Event=it, Date="1999.01.01") for it in "cab"]
        other = [game(Event=it, Round="3", Date="1999.01.0%d" % at) for at, it in enumerate("cab")]
        for games, call in ((alike, script.replace("sort -s", "sort")),
                            (alike[2:] + alike[:2], script.replace("sort -s", "sort")),
                            (other, by_event)):
            self.put("games.pgn", "".join(games))
            self.shell(call)
            self.check_file("sorted.pgn", *sorted(games, key=lambda it: it.split("\n")[0]))
        games = [game(White="B", Black="A"), game("1. d4 { a word } *", White="A", Black="B"),
                 game(White="A", Black="A")]
        ran = self.recipe("Sort by date", 1, of=games)
        self.assertEqual(ran.stdout, b"games: 3, plies: 5\n" * 2)
        self.check_file("sorted.pgn", *games[::-1])

    def test_merge(self):
        self.put("b.pgn", "\ufeff1. d4 *")
        for text, status in (("\ufeff1. e4 *", 0), ("1. e4 {", 1)):
            self.put("a.pgn", text)
            self.assertEqual(self.recipe("Merge collections").returncode, status)
            self.check_file("merged.pgn", game("1. e4 *"), game("1. d4 *"))

    def test_leave_out(self):
        games = [game(Event=it) for it in ("a", "b")]
        ran = self.recipe("Leave out games that are there twice",
                          of=[*games, '[Event "a"] e4 e5 *', games[1]])
        self.assertEqual(ran.stdout, b"games: 4, plies: 8\ngames: 2, plies: 4\n")
        self.check_file("once.pgn", *games)

    def test_split(self):
        games = [game(Round=str(it)) for it in range(2500)]
        ran = self.recipe("Split a collection", of=games)
        self.assertEqual(ran.stdout, b"games: 2500, plies: 5000\n" * 2)
        parts = ["part/%06d.pgn" % it for it in (1, 2, 3)]
        self.assertEqual(sorted(os.listdir(self.folder + "/part")), [it[5:] for it in parts])
        self.check_file(parts[0], *games[:1000])
        self.check_file(parts[2], *games[2000:])
        shutil.rmtree(self.folder + "/part")
        self.put("games.pgn", "".join(games[:3]))
        self.shell(sections()["Split a collection"][0].replace("size=1000", "size=1"))
        self.assertEqual([self.get(it).decode() for it in parts], games[:3])

    def test_folder(self):
        self.put_all({"in/a b.pgn": "1. e4 *", "in/c.pgn": "1. e9 *", "in/D.PGN": "1. d4 *",
                      "in/E.Pgn": "1. c4 *"})
        ran = self.recipe("Convert a whole folder")
        self.assertEqual(ran.stdout.decode(), "in/c.pgn: byte 3: not a move\n1 with a fault\n")
        for name, move in (("a b.pgn", "e4"), ("D.PGN", "d4"), ("E.Pgn", "c4")):
            self.check_file("out/" + name, game("1. %s *" % move))
        self.assertEqual(sorted(os.listdir(self.folder + "/out")),
                         ["D.PGN", "E.Pgn", "a b.pgn", "c.pgn.fault"])

    def test_folder_with_parallel(self):
        programs.need("parallel")
        self.put_all({"in/a b.pgn": "1. e4 *", "in/c.pgn": "1. e9 *", "in/d.PGN": "1. d4 *"})
        ran = self.recipe("Convert a whole folder", 1)
        self.assertEqual((ran.returncode, ran.stdout), (
            1, b"in/a b.pgn\tgames: 1, plies: 1\nin/d.PGN\tgames: 1, plies: 1\n"))
        self.assertIn(b"in/c.pgn\tbyte 3: not a move\n", ran.stderr)

    def test_how_far(self):
        programs.need("pv")
        out = output_of(self.recipe("See how far a long check is", of=game() * 1000), err=None)
        self.assertEqual(out, b"games: 1000, plies: 2000\n")
        self.assertEqual(self.recipe("See how far a long check is", of="e9").returncode, 1)
        os.remove(self.folder + "/games.pgn")
        ran = self.recipe("See how far a long check is")
        self.assertEqual(output_of(ran, err=None), b"games: 0, plies: 0\n")
        self.assertIn(b"No such file", ran.stderr)

    def test_dos_and_latin(self):
        text = '[White "Müller"]\r\n\r\n1. e4 {schön} *\r\n\x1a'
        wanted = game("1. e4 { schön } *", White="Müller")
        for encoding in ("latin-1", "utf-8"):
            self.put("games.pgn", text.encode(encoding))
            self.assertEqual(self.shell("pgn_tool check games.pgn").returncode, 1)
            self.assertEqual(self.recipe("Read files from DOS and Windows").returncode, 0)
            self.check_file("export.pgn", wanted)
        # Without the recipe the bytes are kept.
        self.put("games.pgn", text[:-1].encode("latin-1"))
        kept = self.shell("pgn_tool export games.pgn").stdout
        self.assertEqual(kept, wanted.encode("latin-1"))
        for encoding in ("utf-16", "utf-16-be"):
            mark = "" if encoding == "utf-16" else "\ufeff"
            self.put("games.pgn", (mark + '[White "Müller"]\r\n1. e4 *').encode(encoding))
            refused = self.shell("pgn_tool check games.pgn")
            self.assertEqual(refused.stderr, b"byte 0: stray byte\n")
            self.assertEqual(self.recipe("Read files from DOS and Windows", 1).returncode, 0)
            self.check_file("export.pgn", game("1. e4 *", White="Müller"))

    def test_mend(self):
        """The fixes give what the text means, and no comment or tag changes."""
        text = '[Event "The "Open""]\n[Round "1/2"]\n\n1. e2-e4 {e2-e4} d7-d5 2. e4:d5 g8f6 1/2\n'
        wanted = game("1. e4 { e2-e4 } 1... d5 2. exd5 Nf6 1/2-1/2", "1/2-1/2",
                      Event=r"The \"Open\"", Round="1/2")
        said = self.mend("Mend what is rejected", text, "byte 13: closing bracket expected", wanted)
        # the warning is of the Round
        self.assertEqual(said.splitlines()[-1], "1 file, 1 game, 0 faults, 1 warning, 7 edits")

    def test_missing_result_tag(self):
        text = '[Event "a"]\n\n1. e4 {1-0} e5 1-0\n\n[Event "b"]\n[Result "0-1"]\n\n1. d4 0-1\n\n' \
            '[White "c"]\n1. c4 *\n\n[White "d"]\n1. f4 1/2-1/2'
        wanted = game("1. e4 { 1-0 } 1... e5 1-0", "1-0", Event="a") \
            + game("1. d4 0-1", "0-1", Event="b") + game("1. c4 *", White="c") \
            + game("1. f4 1/2-1/2", "1/2-1/2", White="d")
        message = "byte 28: result differs from the Result tag"
        self.mend("Take a missing Result from the end of its game", text, message, wanted)
