"""Spellings that real programs write, with the edits that mend them and what comes out.

Each row is an input, its edits and its output, worked out by hand from the PGN standard and from
docs/TOOLS.md. An edit is (what is replaced, what is written, the name of the fix).
"""
import re

KNIGHTS = "1. e4 e5 2. Nf3 Nc6 3. "
RUY = KNIGHTS + "Bb5 a6 "
PAWN = '[FEN "7k/P7/8/8/8/8/8/K7 w - - 0 1"]\n\n1. '
TAKES = '[FEN "1n5k/P7/8/8/8/8/8/K7 w - - 0 1"]\n\n1. '
PASSANT = "1. e4 Nf6 2. e5 d5 3. "
CASTLES = '[FEN "r3k2r/8/8/8/8/8/8/R3K2R w KQkq - 0 1"]\n\n1. '
MATE = "1. e4 e5 2. Qh5 Nc6 3. Bc4 Nf6 4. "
SCANDINAVIAN = "1. e4 d5 2. "
MARKS = ",".join("Ga1%s%d" % (file, rank) for file in "bc" for rank in range(1, 9))


def _rows(names, *texts):
    """A row for each text, in which «old→new» is an edit by this fix, or by the next of them."""
    edit = re.compile("«(.*?)→(.*?)»", re.S)
    for text in texts:
        pairs = edit.findall(text)
        of_each = [names] * len(pairs) if isinstance(names, str) else names
        edits = [(*pair, name) for pair, name in zip(pairs, of_each)]
        yield edit.sub(r"\1", text), edits, edit.sub(r"\2", text)


def _each(name, context, new, *spellings):
    """A row for each spelling, which becomes a text, in the place of @ in a context."""
    return _rows(name, *(context.replace("@", "«%s→%s»" % (it, new)) for it in spellings))


LONG, SIGN, LETTER, PROMOTION = "long notation", "capture sign", "missing letter", "promotion"
CASTLING, LIKE, RESULT = "castling", "look-alike letter", "spelling of the result"
TAG, QUOTES, AFTER_NAME = "missing Result tag", "quotes around a value", "sign after a tag's name"
DRAW, WON, LOST = ('[Result "%s"]\n\n' % it for it in ("1/2-1/2", "1-0", "0-1"))

SAFE = [
    *_rows(LONG, "1. «e2-e4→e2e4» e5 *", "1. «Ng1-f3→Ng1f3» *", "1. «N-f3→Nf3» *",
           "1. «e2\u2013e4→e2e4» *", SCANDINAVIAN + "«e4-d5→e4d5» *",
           "1. «e2-e4→e2e4» (1. «d2-d4→d2d4» «d7-d5→d7d5») «e7-e5→e7e5» {e2-e4} "
           "2. «Ng1-f3→Ng1f3» *"),
    *_each(SIGN, SCANDINAVIAN + "@ *", "exd5", "e:d5", "eXd5", "e\u00d7d5"),
    *_rows(SIGN, SCANDINAVIAN + "«e4:d5→e4xd5» *", SCANDINAVIAN + "«ed5:→ed5» *"),
    *_each(CASTLING, RUY + "4. @ *", "O-O", "o-o", "OO", "0-O", "O - O", "0 - 0", "O\u2013O",
           "e1g1", "e1-g1", "Ke1g1", "e1h1"),
    *_each(CASTLING, CASTLES + "@ *", "O-O-O", "o-o-o", "OOO", "0-0-O", "e1c1", "e1a1"),
    *_rows(CASTLING, CASTLES + "O-O «e8c8→O-O-O» *", CASTLES + "O-O-O «e8g8→O-O» *"),
    # letters
    *_rows(LETTER, "1. «g1f3→Ng1f3» *", "1. e4 e5 2. «f1c4→Bf1c4» *"),
    *_rows(LONG + ", " + LETTER, "1. «g1-f3→Ng1f3» *"),
    *_rows("small letter", "1. «nf3→Nf3» *", CASTLES + "«ra8+→Ra8+» *", "1. e4 e5 2. «qh5→Qh5» *",
           "1. e4 e5 2. «ke2→Ke2» *"),
    *_rows("figurine", "1. «\u2658f3→Nf3» *", "1. «\u265ef3→Nf3» *", "1. «\u2659e4→e4» *",
           "1. e4 e5 2. «\u2655h5→Qh5» *", "1. e4 e5 2. «\u2657c4→Bc4» *",
           "1. e4 e5 2. «\u2654e2→Ke2» *", CASTLES + "«\u2656a8+→Ra8+» *",
           PAWN + "«a8=\u2655→a8=Q» *"),
    *_each(PROMOTION, PAWN + "@ *", "a8=Q", "a8=q", "a8q", "a8(Q)", "a8/Q", "a8=(Q)", "a8 =Q",
           "a8=3DQ"),
    *_rows(PROMOTION, PAWN + "«a8= N→a8=N» *", PAWN + "«a8(r)→a8=R» *", PAWN + "«a8/b+→a8=B+» *",
           TAKES + "«axb8=3DN→axb8=N» *", TAKES + "«axb8(Q)+→axb8=Q+» *"),
    *_rows(LONG + ", " + PROMOTION, PAWN + "«a7-a8q→a7a8=Q» *"),
    *_rows(SIGN + ", " + PROMOTION, TAKES + "«a7:b8/q→a7xb8=Q» *"),
    *_each("en passant", PASSANT + "@ *", "exd6", "exd6ep", "exd6e.p.", "exd6 e.p.", "exd6 ep",
           "exd6(ep)"),
    *_rows("en passant", PASSANT + "«exd6 (e.p.)→exd6» exd6 *"),
    *_each("word of check", "1. e4 f5 2. @ *", "Qh5", "Qh5ch", "Qh5 ch", "Qh5 ch.", "Qh5 check",
           "Qh5\u2020"),
    *_rows("word of check", "1. e4 f5 2. «Qh5+ dis ch→Qh5+» *"),
    *_each("word of mate", MATE + "@ *", "Qxf7", "Qxf7mate", "Qxf7 mate"),
    *_rows("word of mate", MATE + "«Qxf7# checkmate→Qxf7#» *"),
    *_rows("joined number", "«1e4→1. e4» e5 *", "1. e4 e5 «2Nf3→2. Nf3» *",
           "1. e4 {8.} e5 «2Nf3→2. Nf3» *", "1. e4 e5 2. Nf3 Nc6 (2... d6 «3d4→3. d4») *",
           "1. e4 («1d4→1. d4» d5) *", "«1) e4→1. e4» *", "«1)e4→1. e4» *",
           '[FEN "4k3/8/8/8/8/8/8/4K2R w K - 0 30"]\n\n«30Rh2→30. Rh2» *'),
    *_rows("comma", "1. «e4,→e4» e5 *"),
    # letters of other alphabets, in the order of the ways to write them: Cyrillic, Greek
    *_each(LIKE, "1. @ e5 *", "e4", "\u04354", "\u03b54"),
    *_each(LIKE, "1. @ *", "Nc3", "N\u04413", "N\u03f23"),
    *_each(LIKE, "1. @ *", "a3", "\u04303", "\u03b13"),
    *_each(LIKE, "1. @ *", "b3", "\u042c3", "\u044c3", "\u03b23"),
    *_each(LIKE, "1. @ *", "d3", "\u05013", "\u03b43"),
    *_rows(LIKE, "1. «N\u04bb3→Nh3» *", CASTLES + "«\u041e-O-\u043e→O-O-O» *",
           PAWN + "«a8=\u0412→a8=B» *"),
    *_each(LIKE, SCANDINAVIAN + "@ *", "exd5",
           *("e%sd5" % it for it in "\u0445\u0425\u03c7\u03a7")),
    *_each(LIKE, RUY + "4. @ *", "O-O", *("%s-%s" % (it, it) for it in "\u041e\u043e\u039f\u03bf")),
    *_each(LIKE, "1. e4 e5 2. @ *", "Bc4", "\u0412\u04414", "\u0392c4"),
    *_each(LIKE, CASTLES + "@ *", "Kd2", "\u041ad2", "\u039ad2"),
    *_rows(LIKE + ", " + LONG, "1. «\u04352-\u04354→e2e4» *"),
    *_rows(LIKE + ", " + CASTLING, RUY + "4. «0-\u041e→O-O» *"),
    # two moves without a blank
    *_rows("joined moves", "1.«e4e5→e4 e5» 2. Nf3 *", "1. «e4e5→e4 e5»! {a} $1\n2. Nf3 *",
           "1 «e4e5→e4 e5» *", "1. e4 e5 2.«Nf3Nc6→Nf3 Nc6» 3. Bb5 *",
           RUY + "4. «O-ONf6→O-O Nf6» *", "1. e4 (1. «d4d5→d4 d5») 1... e5 *",
           "1. e4 e5 2. Qh5 Nc6 3. «Qxf7+Kxf7→Qxf7+ Kxf7» *",
           TAKES[:-3] + "1.«axb8=Q+Kg7→axb8=Q+ Kg7» *", CASTLES + "«O-OO-O-O→O-O O-O-O» *",
           "1.«e4e5→e4 e5» 2.«Nf3Nc6→Nf3 Nc6» *"),
    # signs
    *(row for new, signs in (
        ("$16", ("+/-", "\u00b1")), ("$17", ("\u2213", "-/+")), ("$18", ["+-"]), ("$19", ["-+"]),
        ("$14", ("+=", "+/=", "\u2a72")), ("$15", ("=+", "=/+", "\u2a71")), ("$10", ["="]),
        ("$13", ["\u221e"]), ("$7", ["\u25a1"]))
      for row in _each("sign", "1. e4 @ e5 *", new, *signs)),
    *_rows("sign at a move", "1. «e4+/-→e4 $16» e5 *", "1. «e4+-→e4 $18» e5 *",
           "1. «e4=→e4 $10» e5 *"),
    *_each("offer of a draw", "1. e4 @ e5 *", "{(=)}", "(=)", "( = )"),
    *_rows("novelty", "1. e4 «N→$146» e5 *", *("1. e4 e5 2. Nf3 «N→$146»" + it for it in (
        "\nd5 *", " {Nc6} d6 *", " (2. Nc3) Nc6 *", " 2... Nc6 *"))),
    # results
    *_each(RESULT, DRAW + "1. e4 @\n", "1/2-1/2", "1/2", "\u00bd-\u00bd", "\u00bd", "l/2-I/2"),
    *_rows(RESULT, DRAW + "1. e4 «0.5-0.5→1/2-1/2» {agreed}\n"),
    *_each(RESULT, WON + "1. e4 @\n", "1-0", "1\u20130", "1 - 0", "1:0", "l-0", "I-O", "1-O",
           "(1-0)"),
    *_each(RESULT, LOST + "1. e4 @\n", "0-1", "0:1", "0 - 1"),
    *_each(RESULT, LOST + "1. e4 @ {a}\n", "0-1", "O-1", "0-l", "( 0-1 )"),
    *_rows((TAG, RESULT), "«→" + DRAW + "»1. e4 «1/2→1/2-1/2»\n"),
    *_rows(TAG, *(it % ("«→" + WON + "»") for it in (
        "%s1. e4 1-0\n", "%s1. e4 e5 1-0 1. d4 *\n", "%se4 e5 1-0\n\nd4 *\n", "e4 *\n\n%sd4 1-0\n",
        "\n %se4 1-0\n")), '[White "Ada"]«→\n[Result "1-0"]»\n\n1. e4 1-0\n',
           '[White "Ada"]«→\r\n[Result "1-0"]»\r\n\r\n1. e4 1-0\r\n'),
    *_each("Result tag from the marker", '[Result "@"]\n\n1. e4 1-0\n', "1-0", "", "?"),
    *_rows("spelling of the Result tag", '«[Result "1/2"→[Result "1/2-1/2"»]\n\n1. e4 1/2-1/2\n'),
    # quotes, and signs between a tag's name and its value
    *_each(QUOTES, "@]\n\n1. e4 *\n", '[White "a, b"', "[White \u201ca, b\u201d",
           "[White \u201ea, b\u201c", '[White \u201ca, b"', '[White "a, b\u201d', "[White 'a, b'",
           "[White \u2018a, b\u2019"),
    *(row for end in ("\n", "\r\n") for row in _each(
        AFTER_NAME, end.join(('@"a"]', "", "1. e4 *", "")), "[White ", "[White: ", "[White=",
        "[White = ", "[White :")),
    *_each(AFTER_NAME + ", " + QUOTES, "@]\n\n1. e4 *\n", '[White "a"', "[White: \u201ca\u201d",
           "[White:\u201ea\u201c", "[White='a'", '[White : "a\u201d', "[White = \u2018a\u2019"),
    # tags
    *_rows("quotes in a value", '[Event "«The "Open"→The \\"Open\\"»"]\n\n1. e4 *\n',
           '[Event "«"Rapid" Cup→\\"Rapid\\" Cup»"]\n\n1. e4 *\n'),
    *_rows("pair given twice", '[White "x"]\n[Site "a"]\n«[Site "a"]\n→»\n*\n',
           '[White "x"]\r\n[Site "a"]\r\n[Round "1"]\r\n«[Site "a"]\r\n[Site "a"]\r\n→»\r\n*\n'),
    *_each("white space", "1. e4@e5 *", " ", "\u00a0", "&nbsp;"),
    *_rows("white space", '[Event "a«\t→ »b"]\n\n*\n'),
    *_rows("soft hyphen", "1. e4«\u00ad→» e5 *"),
    *_rows("dots of a number", "1. e4 «1\u2026→1...» e5 *"),
    *_rows("end of a DOS file", "1. e4 *\n«\x1a→»"),
    *_rows("byte order mark", '*\n\n«\ufeff→»[White "Ada"]\n\n*\n'),
    *_rows("spelling of a FEN", *('[FEN "«%s→%s»"]\n\n%s *\n' % it for it in (
        ("4k3/8/8/8/8/8/8/4K2R w K - 0 1 ", "4k3/8/8/8/8/8/8/4K2R w K - 0 1", "1. O-O"),
        ("r3k2r/8/8/8/8/8/8/R3K2R w kqKQ - 0 1", "r3k2r/8/8/8/8/8/8/R3K2R w KQkq - 0 1", "1. O-O"),
        ("4k3/8/8/8/8/8/8/4K3 w - -", "4k3/8/8/8/8/8/8/4K3 w - - 0 30", "30. Kd2"),
        ("4k3/8/8/8/8/8/8/4K3 b - -", "4k3/8/8/8/8/8/8/4K3 b - - 0 30", "30... Kd7")))),
    # comments
    *_rows("long drawing command", "1. e4 {«[%%cal %s]→[%%cal %s] [%%cal %s]»} *" % (
        MARKS, MARKS[:71], MARKS[72:])),
]

UNSAFE = [
    *_rows("null move", "1. e4 e5 (1... c5 2. «-- Nf6→{-- Nf6}») 2. Nf3 *",
           "1. e4 (1. «Z0 d5 {a} (1... e5) 2. e4→{Z0 d5 (a) (1... e5) 2. e4}») e5 *",
           "1. e4 «-- 2. d4 d5→{-- 2. d4 d5}» *", "1. e4 «@@@@→{@@@@}» *"),
    *_rows("no marker", "1. e4 e5«→ *»\n", WON + "1. e4 e5«→ 1-0»\n",
           '[White "Ada"]\n\n1. e4«→ *»\n\n[White "Bob"]\n\n1. d4 *\n'),
    *_rows("marker cut short", WON + "1. e4 «1-→1-0»\n", DRAW + "1. e4 «1/2-→1/2-1/2»\n",
           "1. e4 «0-0→*»\n", WON + "1. e4 «+:-→1-0»\n", LOST + "1. e4 «-:+→0-1»\n"),
    *_each("other Result tag", '[Result "@"]\n\n1. e4 1-0\n', "1-0", "*", "0-1"),
    *_rows("bad Result tag", '[Result "«won→1-0»"]\n\n1. e4 1-0\n'),
    *_rows("second marker", WON + "1. e4 1-0 «1-0→»\n"),
    *_rows("other pair of one name", '[White "x"]\n[Site "a"]\n«[Site "b"]\n→»\n*\n'),
    *_rows("pair too many", "".join('[T%d ""]\n' % it for it in range(64)) + '«[T64 ""]\n→»\n*\n'),
    *_rows("long word", "1. e4 {«%s→%s -27,19;»} *" % ("-27,19;" * 12, "-27,19;" * 11),
           "1. e4 {«%s→%s %s»} *" % ("a" * 100, "a" * 79, "a" * 21)),
    *_rows("FEN without counters",
           '[FEN "«4k3/8/8/8/8/8/8/4K3 w - -→4k3/8/8/8/8/8/8/4K3 w - - 0 1»"]\n\nKd2 *\n'),
    *_rows("SetUp without FEN", '«[SetUp "1"]\n→»[White "Ada"]\n\n1. e4 *\n'),
    *_rows("blank in a tag's name", '[«White Elo→WhiteElo» "2700"]\n\n1. e4 *\n'),
    *_rows("control byte", "1. e4 «\x01→ »e5 *"),
    *_rows("long suffix", "1. e4«!!!→!!» *"),
    *_rows("glyph above 255", "1. e4 «$256→{$256}» *"),
    *_rows("comment between tags", '«[White "Ada"]\n{why}\n[Black "Bob"]→'
           '[White "Ada"]\n\n[Black "Bob"]\n{why}»\n\n1. e4 *\n'),
    *_rows("trailing text", "1. e4 e5 «White resigns→{White resigns}» *",
           "1. e4 e5 * «agreed drawn→{agreed drawn}»\n"),
    *_rows("parenthesis too many", "1. e4 «)→» e5 *"),
    *_rows("diagram", "1. e4 «D→{D}» e5 *"),
    *_rows("comment never closed", '[White "Ada"]\n\n1. e4 {Black resigns «→} »*\n\n'
           '[White "Bob"]\n\n1. d4 {\n«→} »*\n'),
    *_rows("comment never closed, no marker", "1. e4 {Black resigns«→} *»\n"),
    *_rows("line break of a page", "1. e4«<br>→ »e5 *", "1. e4 «<BR />→ »\ne5 *"),
    *_rows("value without quotes", '«[White Smith, J]→[White "Smith, J"]»\n\n1. e4 *\n',
           '«[Date 2020.01.02]→[Date "2020.01.02"]» \n\n1. e4 *\n'),
    *_rows("time of a move", "1. e4 «(0:03)→{[%emt 0:00:03]}» e5 «(12:34)→{[%emt 0:12:34]}» "
           "2. d4 «(1:02:03)→{[%emt 1:02:03]}» *"),
    *_rows("castling as a king's move", RUY + "4. «Kg1→O-O» *", CASTLES + "«Kc1→O-O-O» *"),
    *_rows("nested braces", *("1. e4 «%s→%s» e5 {f} *" % it for it in (
        ("{a {b} c}", "{a (b) c}"), ("{a {b}}", "{a (b)}"), ("{{b} }", "{(b) }"),
        ("{a {b {c} d} e}", "{a (b (c) d) e}"), ("{a {b} e5 {c} d}", "{a (b) e5 (c) d}"))),
           "1. e4 {a} («{b {c} d}→{b (c) d}» 1. d4) *"),
    # two moves that may be one of a piece, and captures without a rank
    *_rows("joined moves like one", KNIGHTS + "«Bb5a6→Bb5 a6» 4. O-O *"),
    *_each("capture without a rank", SCANDINAVIAN + "@ *", "exd5", "ed", "exd"),
    *_rows("capture without a rank", "1. e4 f5 2. Qh5+ g6 3. Nf3 «gh→gxh5» *"),
    # a knight's letter, if the rest is no move alone
    *_each("letter apart", "1. e4 d6 2. Nf3 @ *", "Nbd7", "N\nbd7", "N\u200bbd7", "N {a} bd7"),
    *_rows("letter apart", "1. e4 e5 2. Nf3 Nc6 3. d4 exd4 4. «N xd4→Nxd4» *"),
    # numbers, where those of the game do not run
    *_rows("joined number out of turn", "1. e4 e5 3. d4 d6 «3Nf3→3. Nf3» *",
           "1. e4 e5 3. d4 d6 «4Nf3→4. Nf3» *", "e4 e5 «2Nf3→2. Nf3» *",
           "11. e4 e5 «12Nf3→12. Nf3» *"),
    # a quote too many, and a bracket too few
    *_rows("odd quotes in a value", '[WhiteElo "«"2500→\\"2500»"]\n\n1. e4 *\n',
           '[Event "«The "Open→The \\"Open»"]\n\n1. e4 *\n'),
    *_rows("missing bracket", '[White "Smith, J"«→]»\n[Black "Jones, P"]\n\n1. e4 *\n',
           '[White "Smith, J"«→]» \r\n\r\n1. e4 *\r\n'),
    # what is behind a marker and begins no game
    *_rows("sign after the marker", DRAW + "1. e4 1/2-1/2«.→»\n", *(
        WON + "1. e4 1-0" + sign + behind for behind in ("\n", '\n\n[White "a"]\n\n*\n')
        for sign in ("«.→»", "«!→»", "«??→»", " «$10→»", " «. $1→»"))),
]

# Texts that have no single reading, or none that the rules allow: no fix touches them.
LEFT = [
    "1. e4 e5 1/2 2. d4 *", "1. e4 (1. d4 1/2) *", "1. e4 f5 2. Qh5+- g6 *",
    "1. e4 e5 2. Nf3 ch *", "1. e4 e5 2. Nf3 mate *", "1. e4 e5 2. d3-d4 *", "1. e4 e5 2. a1a5 *",
    "1. e4 e5 2. o-o *", "1. e4 d5 2. exd5 e.p. *", "1. N f3 *", '[Result "0-1"]\n\n1. e4 1/2',
    # a Russian knight and a Greek queen, and a move of a language
    "1. e4 e5 2. \u041ae2 *", "1. e4 e5 2. \u041af3 *", "1. e4 e5 2. \u041a-e2 *",
    '[FEN "4k3/8/8/8/8/8/8/4K2Q w - - 0 1"]\n\n1. \u0392f3 *',
    PAWN + "a8=\u0392 *", CASTLES + "\u041ad2 \u0424e7 *", "1. e4 e5 2. \u0392c4 \u03a1e7 *",
    # a bishop, or a queen, in small: Greek, Russian, Greek
    "1. a4 b5 2. e3 d6 3. \u03b1b5 *",
    '[FEN "4k3/8/8/3p4/2P5/5B2/8/4K3 w - - 0 1"]\n\n1. \u0441d5 *',
    '[FEN "4k3/8/8/2p5/1P6/4Q3/8/4K3 w - - 0 1"]\n\n1. \u03b2c5 *',
    "1. \u04359 *", "1. \u043444 *", "1. e4 \u041a\u0440e7 *", "1. \u0443\u0444e4 *",
    # two moves that may be one, or with another number, or where a third one follows
    KNIGHTS + "Bb5a6 *", "1. e4 e5 2. Nf3d6 *", "e4e5 *", "2. e4e5 *", "1... e4e5 *",
    "1. e4 e5Nf3 *", "1.e4e5 Nf3 *", "1.e4e5 3. Nf3 *", "1.e4e5 (1... c5) *", "1.e4e5c5 *",
    "1. e2e4 e7e5 2. Ng1f3 Nb8c6 3. d4d6 *", "1.e4e6e5 *",
    '[FEN "4k3/8/8/8/8/8/8/4K3 w - - x y"]\n\n*\n',
    # two values, a quote inside, or none at one end
    '[White \u201ca\u201d] [Black \u201cb\u201d]\n\n*\n',
    "[White 'O'Brien']\n\n*\n", "[White \u2018O\u2019Brien\u2019]\n\n*\n",
    "[White \u201ca]\n\n*\n", '[White: "a"] [Black: "b"]\n\n*\n', '[White: "a"b"]\n\n*\n',
    "1. e4 1-0\u2026 *", "1. e4\u00ade5 *",
    # a tag pair that begins no line, behind another game
    '1. e4 *[White: "a"]\n\n*\n', "1. e4 *[White \u201ca\u201d]\n\n*\n",
    # a result inside a game, or another one than that of the tag
    WON + "1. e4 l-0 e5 1-0\n", WON + "1. e4 (1-0) e5 1-0\n", WON + "1. e4 O-1\n",
    WON + "1. e4 (0-1)\n",
    # it may be a result that no game has
    *("1. e4 e5 2. Nf3 Nf6 3. Be2 Be7 %s" % it for it in (
        "0 - 0", "0 - 0\n", "0 -0 {drawn}\n", "0\u20130\n", "00", "0 - 0! $10\n",
        '0 - 0\n\n[White "Ada"]\n\n*\n')),
]

ITALIAN = "1. e4 e5 2. Nf3 Nc6 3. Bc4 "
PAIRS = '[Event "a"]\n[White "b"]\n[Black "c"]\n[Result "*"]\n'
# A pawn on b3 and a bishop on f1 can both take on c4.
TAKES_C4 = "1. e4 c5 2. b3 c4 "

# Texts with two readings: no fix touches them, a safe one or another.
DOUBTFUL = [
    # two games, or two heads of one
    *(PAIRS + it + "\n1. e4 *\n" for it in (
        PAIRS, PAIRS.replace("b", "d"), "\n" + PAIRS.partition("\n")[2],
        "\n" + PAIRS.partition("\n")[2].replace("b", "d"), '[Event "a"]\n', '[Event "d"]\n',
        '\n[White "b"]\n', ' \t\n[White "d"]\n', '[White "b"]\n[Black "c"]\n')),
    (PAIRS + PAIRS + "\n1. e4 *\n").replace("\n", "\r\n"),
    '[White "b"]\n[Black "c"]\n[White "b"]\n\n1. e4 *\n',
    '[White "b"]\n[Result "1-0"][Result "1-0"]\n\n1. e4 1-0\n',
    '[White "b"]\n[Result "1-0"][Result "1-0"]\n[Result "1-0"]\n\n1. e4 1-0\n',
    # the letter of a knight, or a novelty before a pawn's move
    *("1. e4 e5 2. Nf3 %s *" % it for it in (
        "N\nc6", "N\r\nc6", "N\u00a0c6", "N\u200bc6", "N\tc6", "N {a} c6", "N ;a\nc6", "N.c6",
        "N -c6", "N \u2013 c6", "N c6", "N\ufeffc6", "N {a} \u00a0 c6", "N! c6", "N\nc6+-",
        "N\nc6,")),
    # a piece's letter that was read as a digit
    ITALIAN[:-4] + "8c4 *", ITALIAN + "Be7 4. O-O d6 5. d3 a6 6. 7Nc3 *", "1. e4 e5 2. 7Nf3 *",
    "1. e4 e5 2. {a} 2Nf3 *", "1. e4 e5 2... 2Nf3 *", "1. e4 e5 2 2Nf3 *", "1. d4 e6 2. c4 8b4 *",
    "1. d4 e6 2. c4 2Nf6 *", "1. e4 e5 7Nf3 *",
    # two pairs on a line
    *('[White "Smith, J"%s\n\n1. e4 *\n' % it for it in (
        '[Black "Jones, P"]', ' [Black "Jones, P"]', '] [Black "Jones, P"[Site "a"]')),
    # a pawn's move, or a bishop's with a small letter
    TAKES_C4 + "3. b-c4 n-c6 *", TAKES_C4 + "3. bxc4 nc6 *", TAKES_C4 + "3. Bxc4 (3. bxc4) nc6 *",
    "1. e4 c5 2. n-f3 c4 3. b3 n-c6 4. b:c4 *",
    # captures of which two fit, or none; a pawn would become a piece; a brace that is not closed
    '[FEN "4k3/8/8/3p4/2P1p3/3P4/8/4K3 w - - 0 1"]\n\n1. ce Kd7 *',
    '[FEN "4k3/8/8/1p6/P7/1p6/P7/4K3 w - - 0 1"]\n\n1. ab Kd7 *', "1. e4 e5 2. ed d6 *",
    TAKES + "ab Kg7 *", "1. e4 {a {b} c e5 *", "1. e4 {a} b} e5 *",
    # castling that is not legal, no time, a time of no move, another tag of a page, two values
    "1. e4 e5 2. Kg1 *", RUY + "4. Kc1 *", "1. e4 (0:63) e5 *", "1. (0:03) e4 *", "1. e4 <b> e5 *",
    "[White Ada\n\n*\n", "[White Ada] [Black Bob]\n\n*\n", '[White "a" Ada]\n\n*\n',
    # a game goes on behind a marker
    *(head + "1. e4 e5 2. Nf3 Nc6 1-0%s\n" % it for head, it in (
        ("", " 3. Nc3 Nf6 1-0"), (WON, " 3. Nc3 Nf6 1-0"), (WON, "\nNc6 1-0"),
        (WON, "\n3. Nc3 Nf6 1-0\n\n" + LOST + "1. d4 0-1"))),
    "1. e4 e5 1-0 Nf3 *\n", "24. Nf3 1-0\n",
    # the name of the Result tag is damaged
    *('[Event "a"]\n[Resullt "%s"]\n\n1. e4 1-0\n' % it for it in (
        "1-0", " 1-0 ", "l-0", "1-O", "-0", "1 - 0", "1/2-1/2", "*")),
]
