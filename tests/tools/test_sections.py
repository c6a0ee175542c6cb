"""Tests of the call pgn_next_section, against the rule as section_rule.py has it from its words.

The texts are those of fuzz/corpus, the worked inputs, the examples, games as bench/ makes them, and
mutations of all of these, from a seed.
"""
import glob
import random
import unittest

import section_rule
from programs import ROOT, archive, bytes_of, mutated, need_package, vectors

SEED = 20261128
MUTATIONS = 10000
# What a mutation puts into a text.
PARTS = [
    b"[", b"]", b"{", b"}", b";", b"%", b"\n", b"\r", b"\r\n", b"\n\n", b'"', b"\\", b" ", b"\t",
    b"\x0b", b"\x00", b"\x7f", b"\xef", b"\xbb", b"\xbf", b"\xef\xbb\xbf", b"1-0", b"0-1",
    b"1/2-1/2", b"*", b"1.", b"12 .", b"[Event ", b'[Event "a"]', b'[White "Ada"]\n', b"[%clk 1]",
    b"\n% a\n", b"e4", b"{a}", b"\n[", b'\n\n[Event "x"]\n\n1. e4', b'\n{\n[White "a"]\n', b"x]",
    b"\x85", b"\xa0", b"_", b"\xe9"]


def setUpModule():
    global calls
    calls = need_package()._library


def texts():
    """The texts without mutations. Of a long one the rule reads the front."""
    for name in sorted(glob.glob(ROOT + "/fuzz/corpus/*") + glob.glob(ROOT + "/examples/*.pgn")):
        yield bytes_of(name)
    for row in vectors():
        if "input" in row:
            yield row["input"].encode()
    for style in ("plain", "annotated", "server"):
        made = archive(60, style, 60)
        for at in range(0, len(made), 2000):
            yield made[at:at + 2500]


def answer(text, begin, fault, ends, chance=None):
    """What the call says of a text: the place or None, and the game. A chance cuts it in pieces."""
    game = calls.BadGame(begin=begin, fault=fault, at=begin, ends=ends)
    end, status = begin, calls.MORE
    while status == calls.MORE:
        size = chance.choice((1, 2, 3, 7, 40, 200)) if chance else len(text)
        end = min(len(text), max(end, game.at) + size)
        piece = text[game.at:end]
        found = calls.next_section(game, piece, len(piece), end == len(text))
        status = found.status
    return {calls.OK: found.place, calls.NO_GAME: None}[found.status], game


class Rule(unittest.TestCase):
    def check(self, text, chance):
        begin = chance.choice((0, chance.randint(0, len(text))))
        fault = chance.choice((begin, chance.randint(begin, len(text)), len(text)))
        wanted = section_rule.next_section(text, begin, fault)
        place, game = answer(text, begin, fault, calls.ENDS_ANYWHERE)
        again, same = answer(text, begin, fault, calls.ENDS_ANYWHERE, chance)
        self.assertEqual((place, again), (wanted, wanted), (text, begin, fault))
        self.assertEqual(game.at, len(text) if wanted is None else wanted, (text, begin, fault))
        self.assertEqual(bytes(same), bytes(game), (text, begin, fault))
        hidden, _ = answer(text, 0, len(text), calls.ENDS_IN_COMMENTS)
        self.assertEqual(hidden, section_rule.hidden_game(text), text)
        none, game = answer(text, 0, 0, calls.ENDS_NOWHERE)
        opened = game.comment_at if game.has_comment else None
        self.assertEqual((none, opened), (None, section_rule.open_comment(text)), text)
        return wanted

    def test_texts_and_mutations(self):
        chance = random.Random(SEED)
        given = [text[:2500] for text in texts()]
        tried = given + [mutated(chance.choice(given), chance, PARTS, 12)
                         for _ in range(MUTATIONS)]
        found = sum(self.check(text, chance) is not None for text in tried)
        # many texts have a place, and many have none
        self.assertGreater(min(found, len(tried) - found), len(tried) // 10)

    def test_short_texts(self):
        chance = random.Random(SEED)
        for _ in range(MUTATIONS):
            parts = [chance.choice(PARTS) for _ in range(chance.randint(1, 25))]
            self.check(b"".join(parts), chance)


class Statuses(unittest.TestCase):
    def test_what_is_refused(self):
        """Other ends, and a piece behind the last place."""
        last = 2 ** 64 - 1
        for fields, piece, status in (({"ends": 3}, b"", calls.NO_MODE),
                                      ({"at": last}, b"e", calls.BAD_PLACE),
                                      ({"at": last}, b"", calls.NO_GAME)):
            game = calls.BadGame(**fields)
            found = calls.next_section(game, piece, len(piece), True)
            self.assertEqual((found.status, found.place, game.at), (status, 0, fields.get("at", 0)))

    def test_fields_behind_a_piece(self):
        text = b'[White "a"x]\n% b\n1. e4 {c\nd'
        game = calls.BadGame()
        found = calls.next_section(game, text, len(text), False)
        self.assertEqual((found.status, found.place), (calls.MORE, 0))
        got = {name: getattr(game, name) for name, _ in calls.BadGame._fields_}
        self.assertEqual(got, {
            "begin": 0, "fault": 0, "at": 26, "comment_at": 23, "escapes_at": 0, "ends": 0,
            "has_tags": 1, "has_movetext": 1, "is_behind_text": 1, "has_comment": 1,
            "has_escapes": 0})
