#!/usr/bin/env python3
"""Sound games, and what really damages them: the maker of the texts of test_damage.py, by seed.

    tests/tools/damage.py [--count N] [--seed N] [--package FOLDER]

Damages games, mends them by the safe fixes, and counts what came out. A damage is a list of edits
of the sound text, so each can be made alone. It is silent if it alone leaves the text without a
fault. The reference of a text is the sound one with its silent damages alone. Another text is drawn
if these make a fault together, or if others make none: nothing then says which game was meant.
"""
import argparse
import collections
import glob
import itertools
import os
import random
import re
import sys

if __name__ == "__main__":
    sys.path.insert(0, os.path.dirname(os.path.realpath(__file__)))
from programs import ROOT, bytes_of, load

RIGHT, UNMENDED, WRONG, SILENT = "right", "unmended", "wrong", "silent"
NO_BREAK = ("\u00a0".encode(), b"\xa0", b"&nbsp;")
ZERO_WIDTH = ("\u200b".encode(), "\ufeff".encode())
SOFT_HYPHEN, ELLIPSIS = "\u00ad".encode(), "\u2026".encode()
# Letters of other alphabets, Cyrillic and Greek, that look like those of a move.
LOOK_ALIKES = {"a": "\u0430\u03b1", "b": "\u042c\u03b2", "c": "\u0441\u03f2", "d": "\u0501\u03b4",
               "e": "\u0435\u03b5", "h": "\u04bb", "x": "\u0445\u03c7", "K": "\u041a\u039a",
               "B": "\u0412\u0392", "O": "\u041e\u039f"}
QUOTES = ("\u201c".encode(), "\u201d".encode())
# A move, or a marker of more than one byte.
MOVE = re.compile(rb"(?<![\w+#=:/\[\"-])(?:[KQRBN]?[a-h]?[1-8]?x?[a-h][1-8](?:=[QRBN])?|O-O(?:-O)?)"
                  rb"[+#]*|(?<!\S)(?:1-0|0-1|1/2-1/2)")
# The name of a tag pair, its quotes, and its bracket.
PAIR_LINE = re.compile(rb"(?m)^\[(\w+) (\")[^\"\n]*(\")(\])[ \t]*\n")
READING_PAIR = re.compile(PAIR_LINE.pattern.replace(rb"\w+", b"Result|FEN|SetUp"))
# Two moves behind a number with one period; a capture of a pawn; a comment in braces.
PAIR_OF_MOVES = re.compile(rb"(?<![\w.])[0-9]+\.[ \n]?(?:%(move)s)([ \n])(?=%(move)s)" % {
    b"move": MOVE.pattern})
PAWN_CAPTURE = re.compile(rb"(?<![\w+#=:/-])([a-h])x([a-h])[1-8](?![\w=])")
CASTLING = re.compile(rb"(?<![\w-])O-O(-O)?(?![\w-])")
COMMENT = re.compile(rb"\{[^{}]*\}")
RESULT = re.compile(rb"(?<!\S)(?:1-0|0-1|1/2-1/2)(?=\s)")
LINE = re.compile(rb"[^\n]*\n")
MOVE_LINE = re.compile(rb"(?m)^[^\[\n][^\n]*\n")
# A text with damages: of each its name, whether it is silent, and its edits.
Damaged = collections.namedtuple("Damaged", "reference text damages")


# ---- sound games


def sound_games():
    """Games of the bench in each of its styles, and of the corpus of the fuzzer."""
    import gillspoon
    maker, texts = load("bench/make_archive.py"), []
    for number in range(36):
        line, rng = maker.Line(random.Random("damage %d" % number)), random.Random(number)
        styles = [(it, maker.words_of(rng, line, it)) for it in ("plain", "server", "annotated")]
        for style, words in styles:
            movetext = maker.filled([*words, line.result])
            texts.append(maker.game_of(rng, style, line.result, movetext)[:-1].encode())
    for number, line in enumerate(bytes_of("bench/games.txt").splitlines()):
        result, _, moves = line.partition(b" ")
        # of most games those with a promotion
        if number >= 200 and b"=" not in moves:
            continue
        text = b'[Result "%s"]\n\n%s %s\n' % (result, moves, result)
        export = next(gillspoon.games(text)).text
        # some without move numbers, and all moves on a line
        head = export.partition(b"\n\n")[0]
        texts.append(export if number % 10 else b"%s\n\n%s %s\n" % (head, moves, result))
    for data in map(bytes_of, sorted(glob.glob(ROOT + "/fuzz/corpus/*"))):
        for game in gillspoon.games(data, on_fault=lambda fault: None):
            text = data[game.offset:game.end].strip() + b"\n"
            if game.plies and is_sound(text):
                texts.append(text)
    return texts


def is_sound(text):
    import gillspoon
    try:
        gillspoon.check(text)
    except gillspoon.PgnFault:
        return False
    return True


def content(text):
    """For each game of a sound text its tags, its result, and its moves and parentheses."""
    import gillspoon
    unplayed = re.compile(rb"\{[^}]*\}|\$[0-9]+|[0-9]+\.+")  # comments, glyphs, numbers
    return [(dict(game.tags), game.result,
             re.findall(rb"[()]|[^()\s]+", unplayed.sub(b"", game.text.partition(b"\n\n")[2])))
            for game in gillspoon.games(text)]


# ---- damages: each gives the edits of a text, (start, stop, new), or none


def one_of(rng, matches):
    found = list(matches)
    return rng.choice(found) if found else None


def anywhere(rng, text):
    return 0, len(text)


def movetext_or_all(rng, text):
    """Where a damage may be: in three cases of four behind the first tag section."""
    begin = text.find(b"\n\n") if rng.random() < 0.75 else 0
    return max(begin, 0), len(text)


def at_one(pattern, edits_of, place=anywhere):
    """A damage whose edits a function gives for one match. Without a match it has none."""
    def damage(rng, text):
        found = one_of(rng, re.compile(pattern).finditer(text, *place(rng, text)))
        return edits_of(rng, found) if found else []

    return damage


def put_in(at, new):
    return [(at, at, new)]


def replaced(pattern, *texts, place=movetext_or_all):
    """A damage by which one of some texts is in the place of a match."""
    return at_one(pattern, lambda rng, found: [(*found.span(), rng.choice(texts))], place)


def confused(*letters):
    """A damage by which one of some letters is read as another."""
    return at_one(b"[%s]" % b"".join(letters), lambda rng, found: [
        (*found.span(), rng.choice([it for it in letters if it != found[0]]))], movetext_or_all)


def at_a_byte(share, edit_of, behind=0):
    """A damage at a byte: in such a share of cases in a move or a marker, or so far behind it."""
    def damage(rng, text):
        move = one_of(rng, MOVE.finditer(text)) if rng.random() < share else None
        begin, end = (move.start(), move.end() + behind) if move else (0, len(text))
        return [edit_of(rng, rng.randrange(begin, end), text)]

    return damage


def dropped(share, pattern, other):
    """A damage that drops a match of the first pattern in such a share of cases."""
    def damage(rng, text):
        found = one_of(rng, (pattern if rng.random() < share else other).finditer(text))
        return [(*found.span(), b"")] if found else []

    return damage


def tag_doubled(rng, text):
    pair, other = (one_of(rng, PAIR_LINE.finditer(text)) for _ in range(2))
    if not pair or not other:
        return []
    # in most cases it is behind its line, in some behind another one or on its line
    at = rng.choice((pair.end(), pair.end(), other.end(), pair.end() - 1))
    return put_in(at, pair[0])


def files_joined(rng, text):
    """The end of a file is lost: its line ends, its marker, its last words, or all from a place."""
    ends = [it.start() for it in re.finditer(rb"\n\n(?=\[\w+ \")", text)]
    if not ends:
        return []
    end = rng.choice(ends)
    begin = end - rng.choice((0, 1, 2, 3, rng.randint(4, 40), rng.randrange(end)))
    return [(max(begin, 1), end + 2, rng.choice((b"", b"\n")))]


def file_cut(rng, text):
    """The file ends in its last game: of games behind it nothing would say anything."""
    import gillspoon
    begin, end = [it.offset for it in gillspoon.games(text)][-1], len(text.rstrip())
    size = rng.choice((rng.randint(1, 7), rng.randint(1, 80), rng.randrange(1, end)))
    return [(max(end - size, begin + 1), len(text), b"")]


def other_quotes(*quotes):
    """A damage by which a value has other quotes at both ends, or at one."""
    def edits_of(rng, pair):
        edits = [(*pair.span(quote), new) for quote, new in zip((2, 3), rng.choice(quotes))]
        return rng.choice((edits, edits, edits[:1], edits[1:]))

    return at_one(PAIR_LINE, edits_of)


def sign_behind_name(rng, pair):
    """In some pairs the quotes are curly too."""
    at, last = pair.end(1), pair.start(3)
    edits = [(at, at + rng.choice((0, 1)), rng.choice((b":", b"=", b": ", b" = ")))]
    is_curly = rng.random() < 0.4
    return edits + [(at + 1, at + 2, QUOTES[0]), (last, last + 1, QUOTES[1])] * is_curly


def look_alike(rng, move):
    """Up to three letters of a move."""
    places = [it for it in range(*move.span()) if chr(move.string[it]) in LOOK_ALIKES]
    return [(at, at + 1, rng.choice(LOOK_ALIKES[chr(move.string[at])]).encode())
            for at in rng.sample(places, min(len(places), rng.randint(1, 3)))]


def braces_in_a_comment(rng, comment):
    first, last = sorted(rng.randint(comment.start() + 1, comment.end() - 1) for _ in range(2))
    return [(first, first, b"{"), (last, last, b"}")] if first < last else [(first, first, b"{}")]


def soft_hyphen(rng, text):
    """In most cases it is beside a blank."""
    blank = one_of(rng, re.compile(rb"[ \n]").finditer(text, *movetext_or_all(rng, text)))
    is_beside = blank and rng.random() < 0.8
    at = rng.choice(blank.span()) if is_beside else rng.randrange(len(text))
    return put_in(at, SOFT_HYPHEN)


def result_misread(rng, found):
    old = found[0]
    new = rng.choice((
        b"(%s)" % old, b"( %s )" % old, old.replace(b"0", b"O"), old.replace(b"1", b"l"),
        old.replace(b"1", b"I", 1), old.replace(b"-", b" - "), old.replace(b"-", b":"),
        old.replace(b"-", "\u2013".encode())))
    return [(*found.span(), new)] if new != old else []


def cr_for_lf(rng, text):
    ends = [(*it.span(), b"\r") for it in re.finditer(rb"\n", text)]
    return ends if rng.random() < 0.3 else [rng.choice(ends)] if ends else []


# The kinds of damage, which are equally frequent, and in each its damages.
KINDS = (
    {"a line wrapped inside a move": at_one(MOVE, lambda rng, move: put_in(
        rng.randrange(move.start() + 1, move.end()), rng.choice((b"\n", b"\n", b"\r\n", b"\r")))),
     "CR for LF": cr_for_lf},
    {"a no-break space": replaced(rb" ", *NO_BREAK), "a zero-width character": at_a_byte(
        0.5, lambda rng, at, text: (at, at, rng.choice(ZERO_WIDTH)), behind=1)},
    {"8 and B": confused(b"8", b"B")},
    {"0 and O": confused(b"0", b"O")},
    {"1, l and I": confused(b"1", b"l", b"I")},
    {"a byte dropped": at_a_byte(0.9, lambda rng, at, text: (at, at + 1, b"")),
     "a byte doubled": at_a_byte(0.9, lambda rng, at, text: (at, at, text[at:at + 1])),
     # most tags are missed by nobody, but for those that say how the game is read
     "a line dropped": dropped(0.75, MOVE_LINE, LINE),
     "a line doubled": at_one(LINE, lambda rng, line: put_in(line.end(), line[0])),
     "a tag dropped": dropped(0.9, READING_PAIR, PAIR_LINE), "a tag doubled": tag_doubled},
    {"files joined without an end": files_joined},
    {"a cut file": file_cut},
    {"curly quotes": other_quotes(QUOTES)},
    {"a space put in": lambda rng, text: put_in(
        rng.randrange(*movetext_or_all(rng, text)), b" "),
     "a space taken out": replaced(rb"[ \n]", b"")},
    {"a look-alike letter": at_one(MOVE, look_alike)},
    {"two moves joined": at_one(PAIR_OF_MOVES, lambda rng, pair: [(*pair.span(1), b"")]),
     "a result misread": at_one(RESULT, result_misread)},
    {"quotes missing": other_quotes((b"", b"")), "single quotes": other_quotes((b"'", b"'")),
     "a sign behind a name": at_one(PAIR_LINE, sign_behind_name),
     "a bracket missing": at_one(PAIR_LINE, lambda rng, pair: [(*pair.span(4), b"")])},
    {"a soft hyphen": soft_hyphen,
     "a line break of a page": replaced(rb"[ \n]", b"<br>", b"<BR/>", b"<br>\n"),
     # a mail program writes =3D for an =
     "=3D": replaced(rb"(?<=[a-h][18])=(?=[QRBN])", b"=3D", place=anywhere)},
    {"an ellipsis": replaced(rb"\.\.\.", ELLIPSIS, place=anywhere),
     "braces in a comment": at_one(COMMENT, braces_in_a_comment)},
    {"a capture without a rank": at_one(PAWN_CAPTURE, lambda rng, found: [
        (*found.span(), found[1] + rng.choice((b"", b"x")) + found[2])]),
     "a time of a move": at_one(MOVE, lambda rng, move: put_in(
         move.end(), b" (%d:%02d)" % (rng.randrange(60), rng.randrange(60)))),
     "a king's move for castling": at_one(CASTLING, lambda rng, found: [
         (*found.span(), b"K%s%d" % (b"c" if found[1] else b"g", rng.choice((1, 8))))])},
)
DAMAGES = [name for kind in KINDS for name in kind]
# The library reads CR as the end of a line everywhere, so this one is always silent.
ALWAYS_SILENT = "CR for LF"


def edited(text, edits):
    """A text after edits of it, which do not touch each other."""
    out, at = b"", 0
    for start, stop, new in sorted(edits):
        out, at = out + text[at:start] + new, stop
    return out + text[at:]


def damaged_texts(pool, count, seed):
    """Texts of a seed, in turn, each with one to three damages."""
    rng, made = random.Random("damage %d" % seed), 0
    while made < count:
        sound = b"\n".join(rng.sample(pool, rng.choice((1, 2))))
        wanted, damages, tries = rng.randint(1, 3), [], 0
        while len(damages) < wanted and tries < 20:
            tries += 1
            name, damage = rng.choice(list(rng.choice(KINDS).items()))
            edits = damage(rng, sound)
            # no edit touches one of those before
            are_apart = all(stop < start2 or stop2 < start for start, stop, _ in edits
                            for _, others in damages for start2, stop2, _ in others)
            if edits and are_apart and edited(sound, edits) != sound:
                damages.append((name, edits))
        judged = [(name, is_sound(edited(sound, edits)), edits) for name, edits in damages]
        silent = [it for _, is_silent, edits in judged if is_silent for it in edits]
        loud = [edits for _, is_silent, edits in judged if not is_silent]
        reference = edited(sound, silent)
        # there is a fault with any of the loud damages beside the silent ones
        some = [it for size in range(1, len(loud) + 1) for it in itertools.combinations(loud, size)]
        if damages and is_sound(sound) and is_sound(reference) and not any(
                is_sound(edited(sound, silent + sum(it, []))) for it in some):
            made += 1
            yield Damaged(reference, edited(sound, silent + sum(loud, [])), judged)


# ---- what comes out


def outcome(damaged):
    """What the safe fixes make of a damaged text, and their edits."""
    import gillspoon
    edits = list(gillspoon.fixes(damaged.text))
    text = edited(damaged.text, [(it.offset, it.offset + len(it.old), it.new) for it in edits])
    if not is_sound(text):
        return UNMENDED, edits
    if not edits:
        return SILENT, edits
    return RIGHT if content(text) == content(damaged.reference) else WRONG, edits


class Counts:
    """The outcomes of texts, how often each damage was there and not silent, and what is wrong."""

    def __init__(self, pool, count, seed, on_wrong=lambda text: None):
        self.outcomes, self.made, self.loud = (collections.Counter() for _ in range(3))
        self.wrong = []
        for it in damaged_texts(pool, count, seed):
            found, edits = outcome(it)
            self.outcomes[found] += 1
            self.made.update(name for name, _, _ in it.damages)
            self.loud.update(name for name, is_silent, _ in it.damages if not is_silent)
            if found == WRONG:
                self.wrong.append((it, edits))
                on_wrong(report(it, edits))


def report(it, edits):
    """A wrong text in words: its damages, and the edits."""
    lines = ["damage: %s%s: %r" % (name, " (silent)" if is_silent else "", made[:3])
             for name, is_silent, made in it.damages]
    lines += ["edit: %s: %r to %r at %d" % (edit.name, edit.old, edit.new, edit.offset)
              for edit in edits]
    return "\n".join([*lines, "text: %r" % it.text])


def main():
    parser = argparse.ArgumentParser(description=__doc__,
                                     formatter_class=argparse.RawDescriptionHelpFormatter)
    parser.add_argument("--count", type=int, default=10000)
    parser.add_argument("--seed", type=int, default=1)
    parser.add_argument("--package", default=ROOT + "/python")
    given = parser.parse_args()
    sys.path.insert(0, given.package)
    counts = Counts(sound_games(), given.count, given.seed, lambda text: print(text, end="\n\n"))
    print(dict(counts.outcomes))
    for name in DAMAGES:
        print("%-32s %7d, %7d not silent" % (name, counts.made[name], counts.loud[name]))


if __name__ == "__main__":
    main()
