"""The instructions that a game takes in C: one call for each game, beside one for them all.

pgn_convert and pgn_check take the whole text, and the others a game each:

    result from marker    a missing Result takes the termination marker: each game is read before it
                          is written; and the same of the archive without Result tags
    pgn_read_game         writes the tag section of a game alone
    pgn_line, pgn_san     one call for the moves of a game in reduced format, or one for each move:
                          SAN, UCI and FEN of each ply
    pgn_items             a line for each move, with its SAN, its UCI and the FEN after it, and for
                          each NAG, comment and variation

The calls of pgn_next_game must write what pgn_convert writes, and pgn_read_game the tag sections
of that. pgn_line and pgn_items must write what pgn_san says of each move.

The C library clears and copies much memory by string instructions. Callgrind counts one of these
once for each byte, and a processor once. So the C library is told here to do without them.
"""
import os
import re
import subprocess

import library
import measure
import tables
from measure import HERE, OUT, ROOT, same

TOOLS, OTHERS, VERSIONS = ("valgrind",), (), ()
PROGRAM, STYLES = OUT + "/calls", ("plain", "annotated")
NO_STRING_INSTRUCTIONS = ":".join("glibc.cpu.x86_rep_%s_threshold=%d" % (name, 1 << 40)
                                  for name in ("movsb", "stosb"))


def without_results(archive):
    """The path of the archive without its Result tags, which is made."""
    name = os.path.basename(archive).replace(".pgn", "-without-results.pgn")
    return measure.made(name, re.sub(rb"(?m)^\[Result .*\n", b"", measure.read(archive)))


def sections(text):
    """The tag sections of an export text, each with its empty line."""
    return b"".join(part + b"\n\n" for part in text.split(b"\n\n")[:-1:2])


def plies(text):
    """A line for each ply of the main lines of an export text, by a call for each."""
    return subprocess.run([PROGRAM, "moves"], input=text, stdout=subprocess.PIPE, check=True).stdout


def items(text):
    """A line for each item of an export text, by a call of pgn_san for each move."""
    gillspoon, lines = library.load(), []
    for movetext in text.decode().split("\n\n")[1::2]:
        fen = before = gillspoon.Line().fen
        opened, words = [], iter(movetext.split())
        for word in words:
            if word == "(":
                opened.append((before, fen))
                fen = before
                lines.append(word)
            elif word == ")":
                before, fen = opened.pop()
                lines.append(word)
            elif word == "{":
                lines.append("\t".join(["C", *iter(words.__next__, "}")]))
            elif word[0] == "$":
                lines.append("G\t" + word[1:])
            elif word in ("1-0", "0-1", "1/2-1/2", "*"):
                lines.append("R\t" + word)
            elif word[-1] != ".":
                side, number = fen.split()[1], fen.split()[5]
                move = gillspoon.san(fen, word)
                number += "." if side == "w" else "..."
                lines.append("\t".join(("M", number, move.san, move.uci, move.fen)))
                before, fen = fen, move.fen
    return "".join(it + "\n" for it in lines).encode()


WAYS = {"`pgn_convert`": ("whole", same, same), "`pgn_next_game`": ("games", same, same),
        "`pgn_next_game`, result from marker": ("from-marker", same, same),
        "`pgn_next_game`, no Result tags": ("from-marker", without_results, same),
        "`pgn_read_game`": ("sections", same, sections),
        "`pgn_check`": ("check", same, lambda text: b""),
        "`pgn_next_game`, then `pgn_line`": ("lines", same, plies),
        "`pgn_next_game`, then `pgn_san` for each move": ("moves", same, plies),
        "`pgn_items`": ("items", same, items)}


def figures(given):
    static = measure.built("--library", *(["--cargo"] if given.cargo else []))
    words = ["cc", "-O2", "-I", ROOT + "/crates/pgn_c", HERE + "/calls.c", static, "-o", PROGRAM]
    subprocess.run(words, check=True)
    os.environ["GLIBC_TUNABLES"] = NO_STRING_INSTRUCTIONS
    calls = {name: ([PROGRAM, way], *others) for name, (way, *others) in WAYS.items()}
    return {"kind": "of Cargo" if "/cargo/" in static else "of rt",
            "table": tables.instructions(measure.instructions(calls, STYLES))}


def lines(result):
    said = "Counted on %s, with the library %s:" % (result["date"], result["kind"])
    return [said, "", *result["table"]][:-1]


RECORDS = ((HERE + "/README.md", lines),)
