"""The table of the fixes of gillspoon lint.

A fix has no say in what PGN is. The library names the byte and the reason of a fault. The fix looks
at the text around it, and proposes one edit or none. The library then reads the text again: see
gillspoon._mend. The patterns of what needs no board are in fixes.json, which the page reads too.
"""
from typing import Callable, FrozenSet, List, NamedTuple, Optional, Sequence, Tuple, Union

from . import _proposals as by
from ._here import DATA, Change, Here
from ._languages import in_language
from ._spellings import SPELLINGS, Spelling


class Fix(NamedTuple):
    """A row of the table, for a text that is no move."""

    name: str
    reasons: FrozenSet[int]
    """The faults at which it is tried, by their numbers in docs/PROFILE.md."""
    is_safe: bool
    """Whether the text has one reading, and nothing is lost."""
    example: Tuple[str, str]
    """What is in a file, and what is written."""
    propose: Callable[[Here], Optional[Change]]
    """The edit for a fault, or None."""


AnyFix = Union[Fix, Spelling]


def _fix(name: str, reasons: Sequence[int], is_safe: bool, old: str, new: str,
         propose: Callable[[Here], Optional[Change]]) -> Fix:
    return Fix(name, frozenset(reasons), is_safe, (old, new), propose)


def _of_data() -> List[Fix]:
    """The fixes that fixes.json has whole."""
    return [_fix(row["name"], row["reasons"], row["safe"], row["example"][0], row["example"][1],
                 by.by_pattern(row["name"])) for row in DATA["texts"]]


def _of_row(name: str, propose: Callable[[Here], Optional[Change]]) -> Fix:
    """A safe fix for which fixes.json has a pattern."""
    row = next(it for it in DATA["functions"] if it["name"] == name)
    return _fix(name, row["reasons"], SAFE, row["example"][0], row["example"][1], propose)


SAFE, UNSAFE = True, False
# In the order in which they are tried.
FIXES: "Tuple[AnyFix, ...]" = SPELLINGS + tuple(_of_data()) + (
    _of_row("novelty", by.novelty),
    _of_row("Result tag from the marker", by.unknown_result_tag),
    _of_row("missing Result tag", by.missing_result_tag),
    _of_row("quotes in a value", by.quotes_in_value),
    _of_row("pair given twice", by.equal_pair),
    _of_row("spelling of a FEN", by.fen_spelling),
    _of_row("joined moves", by.joined_moves),
    _of_row("long drawing command", by.long_command),
    _fix("nested braces", (1, 33, 34), UNSAFE, "{a {b} c}", "{a (b) c}", by.nested_braces),
    _fix("joined moves like one", (33, 34), UNSAFE, "1.Bb5a6", "1.Bb5 a6",
         by.joined_moves_like_one),
    _fix("capture without a rank", (33,), UNSAFE, "ed", "exd5", by.capture_without_rank),
    _fix("letter apart", (33,), UNSAFE, "N bd7", "Nbd7", by.letter_apart),
    _fix("odd quotes in a value", (28,), UNSAFE, '""2500"', r'"\"2500"', by.odd_quotes_in_value),
    _fix("missing bracket", (28,), UNSAFE, '[White "a"', '[White "a"]', by.missing_bracket),
    _fix("sign after the marker", (32, 42), UNSAFE, "1-0!", "1-0", by.sign_behind_marker),
    _fix("second marker", (41,), UNSAFE, "1-0 1-0", "1-0", by.second_marker),
    _fix("other Result tag", (41,), UNSAFE, '[Result "*"] … 1-0', '[Result "1-0"] … 1-0',
         by.other_result_tag),
    _fix("bad Result tag", (25,), UNSAFE, '[Result "won"] … 1-0', '[Result "1-0"] … 1-0',
         by.bad_result_tag),
    _fix("marker cut short", (1, 33, 34, 42), UNSAFE, "1-", "1-0", by.result_cut_short),
    _fix("comment between tags", (32,), UNSAFE, '[White "a"] {c} [Black "b"]',
         '[White "a"] [Black "b"] {c}', by.comment_between_tags),
    _fix("no marker", (32, 42), UNSAFE, "1. e4 e5", "1. e4 e5 *", by.no_marker),
    _fix("null move", (1, 3, 33), UNSAFE, "(12. -- Nf6)", "(12. {-- Nf6})", by.null_move),
    _fix("other pair of one name", (22,), UNSAFE, '[Event "a"] [Site "b"] [Site "c"]',
         '[Event "a"] [Site "b"]', by.other_pair),
    _fix("pair too many", (23,), UNSAFE, "a 65th tag pair", "", by.pair_too_many),
    _fix("long word", (6,), UNSAFE, "[%evp 0,34,19,…]", "[%evp 0,34, 19,…]", by.long_word),
    _fix("FEN without counters", (26,), UNSAFE, '"… w KQkq -"', '"… w KQkq - 0 1"',
         by.fen_without_counters),
    _fix("SetUp without FEN", (30,), UNSAFE, '[SetUp "1"]', "", by.setup_without_fen),
    _fix("blank in a tag's name", (21, 24), UNSAFE, '[White Elo "2700"]', '[WhiteElo "2700"]',
         by.blank_in_name),
    _fix("long suffix", (9,), UNSAFE, "!!!", "!!", by.long_suffix),
    _fix("glyph above 255", (8,), UNSAFE, "$256", "{$256}", by.glyph_above),
    _fix("diagram", (33,), UNSAFE, "D", "{D}", by.diagram),
    _fix("parenthesis too many", (39,), UNSAFE, "e4 ) e5", "e4  e5", by.parenthesis_too_many),
    _fix("trailing text", (1, 33), UNSAFE, "White resigns 1-0", "{White resigns} 1-0",
         by.trailing_text),
    _fix("comment never closed", (12,), UNSAFE, "{Black resigns", "{Black resigns}",
         by.unclosed_comment),
)


def of_language(code: str) -> Fix:
    """The fix for the letters of a language."""
    return _fix("letters of a language", (1, 33, 34), UNSAFE, "1. e4 e5 2. Sf3 Sc6",
                "1. e4 e5 2. Nf3 Nc6", in_language(code))


# What gillspoon lint --fixes lists: the last one is tried with --language alone.
LISTED = FIXES + (of_language("de"),)
NAMES = tuple(it.name for it in LISTED)


def chosen_fixes(unsafe: bool = False, select: Optional[Sequence[str]] = None,
                 ignore: Sequence[str] = (), language: Optional[str] = None
                 ) -> "Tuple[AnyFix, ...]":
    """The fixes to try: the safe ones, or all; of these those of some names, or without them.

    With a language its letters come first.
    """
    tried = tuple(it for it in FIXES if it.is_safe or unsafe)
    return tuple(it for it in ((of_language(language),) if language else ()) + tried
                 if (select is None or it.name in select) and it.name not in ignore)
