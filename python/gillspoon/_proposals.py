"""Edits of tags, results, glyphs and comments: each function proposes one for a fault, or none."""
import re
from typing import Callable, List, Optional, Tuple

from . import _calls
from ._faults import FenFault, MoveFault
from ._here import (BEFORE, DATA, EMPTY_LINE, NEAR, REST, SPACE, WORD, Change, Here, expanded,
                    pattern_of, steps_of)
from ._left_out import PART

Propose = Callable[[Here], Optional[Change]]
LONGEST_WORD = 79
MARKER = pattern_of("MARKER")
# What a text of movetext is made of: a string, comment or escape line; a parenthesis; a marker.
MOVETEXT = pattern_of(DATA["parts"]["movetext"])
BEHIND_MOVE = pattern_of(r"(?:MOVE[+#]*[!?]*|\$[0-9]+|\})\s*\Z")
# What the functions look for that the page has too.
PATTERNS = {it["name"]: pattern_of(it["pattern"]) for it in DATA["functions"]}
SYMBOL = re.compile(rb"[^\s{}()\[\];\"]+")


# ---- what a pattern of the data finds


def by_pattern(name: str) -> Propose:
    """A proposal that writes what the data has for a text at the fault."""
    row = next(it for it in DATA["texts"] if it["name"] == name)
    steps, condition = steps_of(row), CONDITIONS[row.get("needs", "")]

    def propose(here: Here) -> Optional[Change]:
        for pattern, new in steps:
            match = here.match_at_place(pattern)
            made = expanded(match, new) if match else b""
            if match and made != match[0] and condition(here, match):
                return Change(match.start(), match.end(), made)
        return None

    return propose


def _always(here: Here, match: "re.Match[bytes]") -> bool:
    return True


def _is_behind_move(here: Here, match: "re.Match[bytes]") -> bool:
    """Whether a move, a glyph or a comment is just before a text."""
    begin = max(here.begin, match.start() - NEAR)
    return bool(BEHIND_MOVE.search(here.text, begin, match.start()))


def _is_at_end(here: Here, match: "re.Match[bytes]") -> bool:
    """Whether white space and comments alone are between a text and the end of its section."""
    return bool(REST.match(here.text, match.end()))


def _is_last(here: Here, match: "re.Match[bytes]") -> bool:
    return here.around.is_last


CONDITIONS = {"": _always, "move": _is_behind_move, "end": _is_at_end, "last": _is_last}


# ---- tags


def quotes_in_value(here: Here) -> Optional[Change]:
    """Escapes the quotes of a value, on a line that is one tag pair: they come in pairs."""
    return _escaped_quotes(here, 0)


def odd_quotes_in_value(here: Here) -> Optional[Change]:
    """Escapes the quotes of a value, of which one may be there by mistake."""
    return _escaped_quotes(here, 1)


def _escaped_quotes(here: Here, parity: int) -> Optional[Change]:
    pair = here.match_at_place(PATTERNS["quotes in a value"])
    quotes = [it for it in QUOTE.finditer(pair[2]) if not it[1]] if pair else []
    if not pair or len(quotes) % 2 != parity:
        return None
    return Change(pair.start(2), pair.end(2),
                  QUOTE.sub(lambda it: it[1] or rb'\"', pair[2]))


# An escaped sign of a value, or a quote.
QUOTE = pattern_of(DATA["parts"]["quote"])


def missing_bracket(here: Here) -> Optional[Change]:
    """Closes a tag pair at the end of its line."""
    pair = PAIR_WITHOUT_BRACKET.search(here.text, max(here.begin, here.place - BEFORE), here.place)
    return Change(pair.end(1), pair.end(1), b"]") if pair else None


PAIR_WITHOUT_BRACKET = re.compile(
    rb'(\[[ \t]*\w+[ \t]*"(?:[^"\\\r\n]|\\["\\])*")[ \t]*[\r\n]\s*\Z')


def _second_pair(here: Here, is_equal: bool) -> Optional[Change]:
    """Takes out a pair whose name alone is repeated in a tag section.

    Several such names may be those of two games that were joined, and so may an Event, the first
    name, what is behind an empty line, and a Result that is the last pair, if it begins no line.
    """
    head = here.head()
    pair = next((it for it in head.pairs if it.start() <= here.place < it.end()), None)
    if not pair or (head.value(pair[1]) == pair[2]) != is_equal:
        return None
    first, last, names = head.pairs[0], head.pairs[-1], [it[1] for it in head.pairs]
    repeated = {it for it in names if names.count(it) > 1}
    if repeated != {pair[1]} or pair[1] in (b"Event", first[1]) \
            or pair[1] == last[1] == b"Result" and not _begins_line(here.text, pair.start()) \
            or EMPTY_LINE.search(here.text, first.start(), pair.start()) \
            or TAG_LINE.search(here.text, head.end):
        return None
    return _whole_line(here.text, pair.start(), pair.end())


TAG_LINE = pattern_of(DATA["parts"]["tag line"])


def _whole_line(text: bytes, start: int, stop: int) -> Change:
    """Takes out a text, and its line too if nothing else is on it."""
    line = PATTERNS["pair given twice"].match(text, stop)
    return Change(start, line.end() if line and _begins_line(text, start) else stop, b"")


def _begins_line(text: bytes, at: int) -> bool:
    return not at or text[at - 1:at] in b"\r\n"


def equal_pair(here: Here) -> Optional[Change]:
    """Takes out a pair that the game has already, with the same value."""
    return _second_pair(here, True)


def other_pair(here: Here) -> Optional[Change]:
    """Takes out a pair whose name the game has already, with another value."""
    return _second_pair(here, False)


def pair_too_many(here: Here) -> Optional[Change]:
    """Takes out a pair for which a game has no room."""
    pair = next((it for it in here.head().pairs if it.start() == here.place), None)
    return _whole_line(here.text, pair.start(), pair.end()) if pair else None


def blank_in_name(here: Here) -> Optional[Change]:
    """Joins the words of a tag's name."""
    found = here.match_at_place(NAME_OF_WORDS)
    if not found:
        return None
    return Change(found.start(1), found.end(1), re.sub(rb"[ \t-]+", b"", found[1]))


NAME_OF_WORDS = re.compile(rb'\[[ \t]*(\w+(?:[ \t-]+\w+)+)[ \t]*"')


def setup_without_fen(here: Here) -> Optional[Change]:
    """Takes out the SetUp tag."""
    pair = next(iter(here.head().named(b"SetUp")), None)
    return _whole_line(here.text, pair.start(), pair.end()) if pair else None


def comment_between_tags(here: Here) -> Optional[Change]:
    """Moves the comments between tag pairs behind the last one."""
    pairs = here.head().pairs
    if not any(it.start() == here.place for it in pairs):
        return None
    kept, comments = [pairs[0][0]], []
    for before, pair in zip(pairs, pairs[1:]):
        gap = here.text[before.end():pair.start()]
        comments += [it[1] for it in PART.finditer(gap) if it[1]]
        kept += [PART.sub(lambda it: b"" if it[1] else it[0], gap), pair[0]]
    new = b"".join(kept) + b"\n" + b"\n".join(comments)
    return Change(pairs[0].start(), pairs[-1].end(), new)


# ---- the position


def fen_spelling(here: Here) -> Optional[Change]:
    """Writes a FEN with the blanks and the castling letters that it has to have."""
    value = _value_at(here)
    if not value:
        return None
    fields = value[1].split()
    if len(fields) not in (4, 6):
        return None
    fields[2] = _rights(fields[2])
    if len(fields) == 4:
        number = FIRST_NUMBER.match(here.text, here.head().end)
        if not number or bool(number[2]) != (fields[1] == b"b"):
            return None
        fields += [b"0", number[1]]
    return _fen_change(value, fields)


FIRST_NUMBER = pattern_of(DATA["parts"]["first number"])


def fen_without_counters(here: Here) -> Optional[Change]:
    """Adds the counters 0 and 1 to a FEN of four fields."""
    value = _value_at(here)
    fields = value[1].split() if value else []
    if not value or len(fields) != 4:
        return None
    return _fen_change(value, fields[:2] + [_rights(fields[2]), fields[3], b"0", b"1"])


def _value_at(here: Here) -> "Optional[re.Match[bytes]]":
    return PATTERNS["spelling of a FEN"].match(here.text, here.place)


def _rights(field: bytes) -> bytes:
    """Castling letters in the order of a FEN."""
    return bytes(sorted(field, key=b"KQkq".find)) if set(field) <= set(b"KQkq") else field


def _fen_change(value: "re.Match[bytes]", fields: List[bytes]) -> Optional[Change]:
    """The value made of these fields, if it is a position and none is changed in it."""
    try:
        _calls.normalize_fen(b" ".join(fields).decode("ascii"))
    except (FenFault, UnicodeDecodeError):
        return None
    return Change(value.start(1), value.end(1), b" ".join(fields))


# ---- results


def missing_result_tag(here: Here) -> Optional[Change]:
    """Adds a Result tag with the marker, to a game that has moves or tags.

    No tag may have a value like a result: its name may be a damaged one. Movetext behind the marker
    has to begin another game, and so has movetext without tags.
    """
    head, marker = here.head(), PATTERNS["missing Result tag"].match(here.text, here.place)
    has_moves = not REST.match(here.text[:here.place], here.begin)
    if not marker or not has_moves or any(
            it[1] == b"Result" or LIKE_RESULT.match(it[2]) for it in head.pairs):
        return None
    if not head.pairs and not _begins_game(
            here.text, here.begin, here.around.is_first or here.around.is_apart):
        return None
    if not END_OF_MOVETEXT.match(here.text, marker.end()) \
            and not _begins_game(here.text, marker.end(), False):
        return None
    tag = b'[Result "' + marker[0] + b'"]'
    if not head.pairs:
        at = SPACE.match(here.text, here.begin)
        begin = at.end() if at else here.begin
        return Change(begin, begin, tag + b"\n\n")
    end = head.pairs[-1].end()
    line = b"\r\n" if here.text[end:end + 2] == b"\r\n" else b"\n"
    return Change(end, end, line + tag)


def _begins_game(text: bytes, at: int, is_apart: bool) -> bool:
    """Whether movetext begins with the number 1, or without a number behind an empty line."""
    number, space = FIRST_NUMBER.match(text, at), SPACE.match(text, at)
    if number:
        return int(number[1]) == 1
    return is_apart or bool(space and EMPTY_LINE.search(space[0]))


LIKE_RESULT = pattern_of(DATA["parts"]["like a result"])
# What is no movetext behind a marker: signs, and the end of the text or a tag.
END_OF_MOVETEXT = pattern_of(DATA["parts"]["end of movetext"])


def unknown_result_tag(here: Here) -> Optional[Change]:
    """Writes the marker of the game in place of a value that says nothing."""
    pair = next(iter(here.head().named(b"Result")), None)
    marker = _last_marker(here.text)
    if not pair or not PATTERNS["Result tag from the marker"].match(pair[2]) or not marker:
        return None
    return Change(pair.start(2), pair.end(2), marker)


def _last_marker(text: bytes) -> Optional[bytes]:
    """The marker that a section ends with."""
    found = None
    for found in (it for it in MOVETEXT.finditer(text) if it[4]):
        pass
    return found[4] if found and REST.match(text, found.end()) else None


def other_result_tag(here: Here) -> Optional[Change]:
    """Writes the marker in place of the value of the Result tag."""
    pair, marker = next(iter(here.head().named(b"Result")), None), MARKER.match(
        here.text, here.place)
    if not pair or not marker:
        return None
    return Change(pair.start(2), pair.end(2), marker[0])


def bad_result_tag(here: Here) -> Optional[Change]:
    """Writes the marker of the game in place of a value that is no result."""
    pair, marker = next(iter(here.head().named(b"Result")), None), _last_marker(here.text)
    return Change(pair.start(2), pair.end(2), marker) if pair and marker else None


def result_cut_short(here: Here) -> Optional[Change]:
    """Completes a marker, or writes that of a game that was not played."""
    for pattern, marker in CUT_SHORT:
        found = here.match_at_place(pattern)
        if found and _is_at_end(here, found):
            return Change(found.start(), found.end(), marker)
    return None


CUT_SHORT = tuple((pattern_of(pattern), marker) for pattern, marker in (
    ("BEHIND1[-/]?END", b"1-0"),
    ("BEHIND0-?END", b"0-1"),
    ("BEHIND1/2[-/]1?/?END", b"1/2-1/2"),
    ("BEHIND0BLANKSDASHBLANKS0END", b"*"),
    (r"BEHIND\+BLANKS[:/]?BLANKS--?END", b"1-0"),
    (r"BEHIND-BLANKS[:/]?BLANKS\+END", b"0-1"),
    (r"BEHIND=BLANKS:BLANKS=END", b"1/2-1/2"),
))


def second_marker(here: Here) -> Optional[Change]:
    """Takes out a marker that comes right behind a game."""
    marker = MARKER.match(here.text, here.place)
    is_alone = REST.match(here.text[:here.place], here.begin)
    if not marker or not is_alone or here.around.is_first:
        return None
    return Change(marker.start(), marker.end(), b"")


def sign_behind_marker(here: Here) -> Optional[Change]:
    """Takes out the signs behind a marker, which would begin another game."""
    signs = SIGNS_ALONE.match(here.text[:here.place], here.begin)
    if not signs or here.around.is_first:
        return None
    return Change(signs.start(1), signs.end(1), b"")


SIGNS_ALONE = pattern_of(DATA["parts"]["signs alone"])


def no_marker(here: Here) -> Optional[Change]:
    """Adds the value of the Result tag, or `*`, behind the last word of a game."""
    if SIGNS_ALONE.match(here.text[:here.place], here.begin):
        return None
    value = here.head().value(b"Result")
    marker = value if value and MARKER.fullmatch(value) else b"*"
    end = len(here.text.rstrip())
    line = b"\n" if LINE_COMMENT_AT_END.search(here.text[:end]) else b" "
    return Change(end, end, line + marker)


LINE_COMMENT_AT_END = re.compile(rb";[^\r\n}]*\Z")


# ---- movetext


def novelty(here: Here) -> Optional[Change]:
    """Writes a novelty's N as the glyph that programs have for it, if it is no knight's letter."""
    found = here.match_at_place(PATTERNS["novelty"])
    if not found or not _is_behind_move(here, found) or not here.position(found.start()):
        return None
    is_knight, _ = _readings(here, found)
    return None if is_knight else Change(found.start(), found.start() + 1, b"$146")


def letter_apart(here: Here) -> Optional[Change]:
    """Joins a knight's letter with the rest of its move, which is no move alone."""
    found = here.match_at_place(PATTERNS["novelty"])
    is_knight, is_pawn = _readings(here, found) if found else (False, False)
    if not found or not is_knight or is_pawn:
        return None
    return Change(found.start(), found.end(), b"N" + found[1])


def _readings(here: Here, found: "re.Match[bytes]") -> Tuple[bool, bool]:
    """Whether the word behind an N is legal as a knight's move, and as it is."""
    fen, word = here.position(found.start()), found[1] or b""
    return _is_legal(fen, b"N" + word), _is_legal(fen, word)


def _is_legal(fen: Optional[str], move: bytes) -> bool:
    try:
        return bool(fen and _calls.san(fen, move.decode("ascii")))
    except MoveFault:
        return False


def joined_moves(here: Here) -> Optional[Change]:
    """Parts two moves that are joined behind a number, if they are no move of a piece."""
    return _parted(here, False)


def joined_moves_like_one(here: Here) -> Optional[Change]:
    """Parts two moves that are joined behind a number, and may be one of a piece."""
    return _parted(here, True)


def _parted(here: Here, is_of_piece: bool) -> Optional[Change]:
    """Parts two moves that are legal in turn, in one way.

    The number before has to be that of the position, with White to move, and the next one behind.
    """
    word = PATTERNS["joined moves"].match(here.text, here.place)
    fen = here.position(here.place)
    if not word or not fen or bool(MOVE_OF_A_PIECE.match(word[0])) != is_of_piece \
            or not _is_between_numbers(here, word.end(), fen):
        return None
    pairs = ((word[0][:at], word[0][at:]) for at in range(2, len(word[0]) - 1))
    found = [b" ".join(it) for it in pairs if _are_moves(fen, *it)]
    return Change(word.start(), word.end(), found[0]) if len(found) == 1 else None


ONE_MOVE, MOVE_OF_A_PIECE, MOVE_WITH_ITS_ORIGIN, NUMBER_BEFORE, END_OF_A_PAIR = (
    pattern_of(DATA["parts"][it]) for it in (
        "one move", "move of a piece", "move with its origin", "number before",
        "end of a pair of moves"))


def _is_between_numbers(here: Here, end: int, fen: str) -> bool:
    """Whether a word from the fault up to a place is behind the number of the position, for White.

    Behind it the next number comes, or a marker, or the end of its variation. No move before it is
    written with its origin, as `e2e4`.
    """
    _, side, _, _, _, due = fen.split()
    before = NUMBER_BEFORE.search(here.text, max(here.begin, here.place - NEAR), here.place)
    behind = END_OF_A_PAIR.match(here.text, end)
    if not before or not behind or side != "w" or int(before[1]) != int(due) \
            or behind[1] and int(behind[1]) != int(due) + 1:
        return False
    return not any(it[3] and MOVE_WITH_ITS_ORIGIN.match(it[3])
                   for it in WORD.finditer(here.text, here.head().end, here.place))


def _are_moves(fen: str, first: bytes, second: bytes) -> bool:
    """Whether two texts are moves that are legal in turn."""
    if not ONE_MOVE.match(first) or not ONE_MOVE.match(second):
        return False
    try:
        _calls.san(_calls.san(fen, first.decode("ascii")).fen, second.decode("ascii"))
    except MoveFault:
        return False
    return True


def capture_without_rank(here: Here) -> Optional[Change]:
    """Writes the square of a pawn's capture of which the files alone are there, if one fits."""
    found, fen = CAPTURE_OF_FILES.match(here.text, here.place), here.position(here.place)
    if not found:
        return None
    squares = [b"%sx%s%d" % (found[1], found[2], rank) for rank in range(1, 9)]
    legal = [it for it in squares if _is_legal(fen, it)]
    # a piece that the pawn becomes would be chosen too
    is_promotion = any(_is_legal(fen, it + b"=Q") for it in squares)
    return Change(found.start(), found.end(), legal[0]) \
        if len(legal) == 1 and not is_promotion else None


CAPTURE_OF_FILES = pattern_of("([a-h])x?([a-h])(?=[+#]*END)")


def long_suffix(here: Here) -> Optional[Change]:
    """Writes the first two signs of a suffix that is too long."""
    found = re.compile(rb"[!?]+").match(here.text, here.place)
    return Change(found.start(), found.end(), found[0][:2]) if found else None


def glyph_above(here: Here) -> Optional[Change]:
    """Makes a comment of a glyph that is out of range."""
    found = re.compile(rb"\$[0-9]+").match(here.text, here.place)
    return Change(found.start(), found.end(), b"{" + found[0] + b"}") if found else None


def parenthesis_too_many(here: Here) -> Optional[Change]:
    """Takes out a parenthesis that closes nothing."""
    return Change(here.place, here.place + 1, b"")


def diagram(here: Here) -> Optional[Change]:
    """Makes a comment of the D that marks a diagram."""
    found = re.compile(rb"D(?![\w+#=:/-])").match(here.text, here.place)
    return Change(found.start(), found.end(), b"{D}") if found else None


def trailing_text(here: Here) -> Optional[Change]:
    """Makes a comment of words up to the marker, or to the end of the section."""
    found = WORDS.match(here.text, here.place)
    if not found or not (MARKER.match(here.text, found.end()) or _is_at_end(here, found)):
        return None
    return Change(found.start(), found.end(1), as_comment(found[1]))


WORDS = re.compile(rb"([A-Za-z\x80-\xff][A-Za-z\x80-\xff'.,:-]+(?:[ \t\r\n]+"
                   rb"[A-Za-z\x80-\xff'][A-Za-z\x80-\xff'.,:-]*)*)\s*")


def null_move(here: Here) -> Optional[Change]:
    """Makes a comment of a null move and what follows in its line."""
    found = NULL_MOVE.match(here.text, here.place)
    end = found and _end_of_line(here.text, here.place)
    if not found or not end:
        return None
    text = here.text[here.place:end]
    stop = here.place + len(text.rstrip())
    return Change(here.place, stop, as_comment(text.rstrip()))


NULL_MOVE = re.compile(rb"(?:--|Z0|@@@@|null|pass|<>)(?![\w#=:/-])")


def _end_of_line(text: bytes, begin: int) -> Optional[int]:
    """Where a variation ends, or the main line: before its parenthesis, or its game's marker."""
    depth = 0
    for found in MOVETEXT.finditer(text, begin):
        depth += (found[3] == b"(") - (found[3] == b")")
        if depth < 0 or found[4] and not depth:
            return found.start()
    return None


def as_comment(text: bytes) -> bytes:
    """A comment with a text: without braces of its own, and with long words cut."""
    plain = without_braces(text)
    return b"{" + re.sub(rb"\S{80,}", lambda it: cut_word(it[0]), plain) + b"}"


# ---- comments


def nested_braces(here: Here) -> Optional[Change]:
    """Makes parentheses of the braces inside a comment that the fault is in by its outer braces."""
    begin = here.head().end
    comments = [it.start() for it in MOVETEXT.finditer(here.text, begin, here.place)
                if it[1] and it[1][:1] == b"{" and b"{" in it[1][1:]]
    end = _end_of_braces(here.text, comments[-1]) if comments else None
    if not end or end <= here.place:
        return None
    inside = here.text[comments[-1] + 1:end - 1]
    return Change(comments[-1], end, b"{" + without_braces(inside) + b"}")


def _end_of_braces(text: bytes, begin: int) -> Optional[int]:
    """Where the brace is closed that is at a place, if each one inside is closed before."""
    depth = 0
    for found in re.compile(rb"[{}]").finditer(text, begin):
        depth += 1 if found[0] == b"{" else -1
        if not depth:
            return found.end()
    return None


def without_braces(text: bytes) -> bytes:
    """A text with parentheses in the place of braces."""
    return text.replace(b"{", b"(").replace(b"}", b")")


def long_command(here: Here) -> Optional[Change]:
    """Makes several drawing commands of one that is too long."""
    found = here.match_at_place(PATTERNS["long drawing command"])
    if not found:
        return None
    marks, size = found[2].split(b","), 12
    parts = [b",".join(marks[at:at + size]) for at in range(0, len(marks), size)]
    new = b" ".join(b"[%" + found[1] + b" " + part + b"]" for part in parts)
    return Change(found.start(), found.end(), new)


def long_word(here: Here) -> Optional[Change]:
    """Cuts a word of a comment behind a comma or a semicolon, else at its longest."""
    found = re.compile(rb"[^\s}]+").match(here.text, here.place)
    return Change(found.start(), found.end(), cut_word(found[0])) if found else None


def cut_word(word: bytes) -> bytes:
    """A word with blanks: behind commas and semicolons outside numbers, else after 79 bytes."""
    parts = []
    while len(word) > LONGEST_WORD:
        ends = [it.end() for it in CUT.finditer(word, 0, LONGEST_WORD + 1)
                if it.end() <= LONGEST_WORD]
        end = ends[-1] if ends else LONGEST_WORD
        while not ends and word[end] & 0xC0 == 0x80 and end > LONGEST_WORD - 4:
            end -= 1
        parts.append(word[:end])
        word = word[end:]
    return b" ".join(parts + [word])


CUT = re.compile(rb"[,;]")


def unclosed_comment(here: Here) -> Optional[Change]:
    """Closes a comment at the end of its section, before a marker that is its last word."""
    end = len(here.text.rstrip())
    marker = MARKER_AT_END.search(here.text, here.begin, end)
    if marker:
        return Change(marker.start(), marker.start(), b"} ")
    return Change(end, end, b"}")


MARKER_AT_END = re.compile(rb"(?<=\s)(?:1-0|0-1|1/2-1/2|\*)\Z")
