"""Tests of what gillspoon lint --fix makes of damaged games, which damage.py makes by seed."""
import unittest
import unittest.mock

import damage
from programs import need_package

setUpModule = need_package
# Of each of the four classes: texts, and how often each damage has to be there and not silent.
COUNT, LEAST = 3000, 20


class Damages:
    """Texts of a seed: what was mended is the game that was meant."""

    def test_safe_edits_make_no_other_game(self):
        counts = damage.Counts(damage.sound_games(), COUNT, self.seed)
        for it, edits in counts.wrong:
            with self.subTest():
                self.fail(damage.report(it, edits))
        self.assertGreater(counts.outcomes[damage.RIGHT], COUNT // 15)
        self.assertEqual(sum(counts.outcomes.values()), COUNT)
        for name in damage.DAMAGES:
            least = 0 if name == damage.ALWAYS_SILENT else LEAST
            self.assertGreaterEqual(counts.loud[name], least, name)
        # the library reads CR as the end of a line everywhere
        self.assertEqual(counts.loud[damage.ALWAYS_SILENT], 0)


class FirstSeed(Damages, unittest.TestCase):
    seed = 1


class SecondSeed(Damages, unittest.TestCase):
    seed = 2


class ThirdSeed(Damages, unittest.TestCase):
    seed = 3


class FourthSeed(Damages, unittest.TestCase):
    seed = 4


class Maker(unittest.TestCase):
    def test_planted_wrong_edit(self):
        """An edit that makes another game is found, also if the text is sound behind it."""
        import gillspoon
        sound = b'[Result "*"]\n\n1. e4 e5 2. Nf3 Nc6 *\n'
        loud = [(sound.index(b"Nf3") + 1, sound.index(b"Nf3") + 1, b"\n")]
        it = damage.Damaged(sound, damage.edited(sound, loud), [("wrapped", False, loud)])
        with unittest.mock.patch.object(gillspoon, "fixes", lambda text: [gillspoon.Edit(
                1, 3, 13, text.index(b"N\nf3"), b"N\n", b"", "planted", True)]):
            self.assertEqual(damage.outcome(it)[0], damage.WRONG)
        self.assertEqual(damage.outcome(it)[0], damage.UNMENDED)

    def test_contents(self):
        """Moves, variations, tags and results are compared, and comments and glyphs are not."""
        text = b'[White "Ada"]\n\n1. e4 e5 (1... c5 2. Nf3) 2. d4 *\n'
        self.assertEqual(damage.content(text), damage.content(
            text.replace(b"e5 ", b"e5 $1 {a (b)} ").replace(b"1. ", b"")))
        for old, new in ((b"Ada", b"Bob"), (b"White", b"Black"), (b"d4", b"d3"), (b"2. Nf3", b""),
                         (b"c5", b"c6"), (b"*", b"* 1. e4 *")):
            self.assertNotEqual(damage.content(text), damage.content(text.replace(old, new)))

    def test_a_seed_gives_the_same_texts_each_time(self):
        pool = damage.sound_games()
        self.assertGreater(len(pool), 300)
        self.assertTrue(all(map(damage.is_sound, pool)))
        first, again, other = ([it.text for it in damage.damaged_texts(pool, 20, seed)]
                               for seed in (1, 1, 2))
        self.assertEqual(first, again)
        self.assertNotEqual(first, other)
