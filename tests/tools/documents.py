"""Reads the documents of the repository: their fenced blocks, and the prose between them."""
import glob
import re

from programs import ROOT, text_of


def documents():
    return sorted(glob.glob("*.md", root_dir=ROOT) + glob.glob("*/*.md", root_dir=ROOT))


def lines_of(document):
    return text_of(document).split("\n")


def blocks_of(lines):
    """The number of the first line, the line before, and the lines of each fenced block."""
    begin = None
    for number, line in enumerate(lines):
        if begin is None and line.lstrip().startswith("```"):
            begin = number
        elif begin is not None and line.strip() == "```":
            yield begin + 1, lines[begin - 1] if begin else "", lines[begin + 1:number]
            begin = None


def is_console(lines):
    return any(it.startswith("$ ") for it in lines)


def prose_of(lines):
    """The lines outside fenced blocks, and empty ones in place of the blocks."""
    left = list(lines)
    for number, _, inner in blocks_of(lines):
        left[number - 1:number + len(inner) + 1] = [""] * (len(inner) + 2)
    return left


def table(document, *heads):
    """The cells of each row of the table whose first row has these cells, without backticks."""
    rows = [[it.strip() for it in re.split(r"(?<!\\)\|", line.strip())[1:-1]]
            for line in lines_of(document)]
    begin = next(at for at, it in enumerate(rows) if it[:len(heads)] == list(heads))
    end = next((at for at in range(begin, len(rows)) if not rows[at]), len(rows))
    return rows[begin + 2:end]


def code_of(text):
    """The words of the text that are in backticks."""
    return [word for code in re.findall(r"`([^`]+)`", text) for word in re.findall(r"\w+", code)]


def samples(language):
    """The place and the text of each sample in a language, and what it prints, or None.

    What it prints is the next block, if the paragraph before that ends with 'prints:'.
    """
    for document in documents():
        lines = lines_of(document)
        blocks = list(blocks_of(lines))
        for (number, _, inner), (after, _, printed) in zip(blocks, blocks[1:] + [(1, "", [])]):
            if lines[number - 1].strip() == "```" + language:
                between = "\n".join(lines[number + len(inner) + 1:after - 1]).strip()
                said = "\n".join(printed) + "\n" if between.endswith("prints:") else None
                yield "%s:%d" % (document, number), "\n".join(inner) + "\n", said


def printed_by(test, language, run_sample):
    """All that the samples of a language print. Each has to end well, and to print what is said."""
    shown = b""
    for place, text, said in samples(language):
        with test.subTest(place):
            ran = run_sample(text)
            test.assertEqual((ran.returncode, ran.stderr), (0, b""))
            if said is not None:
                test.assertEqual(ran.stdout.decode(), said)
            shown += ran.stdout
    return shown
