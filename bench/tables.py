"""The tables of bench/run, its goals, and how --record writes them between two marker comments."""
import os
import re
import textwrap

# What is measured, the most that it may be of each archive or task, and how the two are shown. Wall
# time and instructions are parts of pgn-extract's, and those of a build of the proved program's.
GOALS = (
    ("wall time", {"plain": 0.20, "annotated": 0.20}, "%.2f", "%.3f"),
    ("instructions", {"plain": 0.19, "annotated": 0.22}, "%.2f", "%.3f"),
    ("memory", {"plain": 2, "annotated": 2}, "%d MiB", "%.1f MiB"),
    ("least stack", {"export": 128, "check": 128, "list": 128, "export --checked": 192},
     "%d KiB", "%d KiB"),
    ("--checked to export", {"plain": 2.2, "annotated": 2.2}, "%.1f", "%.2f"),
    ("Cargo to proved", {"plain": 1.01, "annotated": 1.01, "server": 1.01}, "%.2f", "%.3f"),
    ("dependent to proved", {"plain": 1.08, "annotated": 1.08, "server": 1.08}, "%.2f", "%.3f"),
)
# Cargo's program among the converters, beside the proved one
BY_CARGO = "pgn_tool by Cargo"


def table(head, rows, side="---:"):
    """The lines of a table. Its first column is at the left, and the others at the side."""
    lines = ["| %s |" % " | ".join(map(str, row)) for row in [head, *rows]]
    return [lines[0], "|---|" + (len(head) - 1) * (side + "|"), *lines[1:], ""]


def whole(number):
    """A number without its fraction, with commas."""
    return format(round(number), ",")


def size_of(archive):
    return "%s games, %.1f MB" % (whole(archive["games"]), archive["bytes"] / 1e6)


def prose(text):
    """The lines of a text, of at most 100 columns; those of an item of a list are indented."""
    indent = "  " if text.startswith("- ") else ""
    return textwrap.wrap(text, 100, subsequent_indent=indent, break_on_hyphens=False)


def ratio(archive, what, name="pgn_tool"):
    """Ours in parts of pgn-extract's."""
    ours, theirs = (archive["converters"][it][what] for it in (name, "pgn-extract"))
    return ours / theirs


def measured(result):
    """What the result has for each goal, by what is measured and of which archive or task."""
    found = {("least stack", task): kib for task, kib in result["stack"].items()}
    for it in result["archives"]:
        found["wall time", it["name"]] = ratio(it, "wall")
        found["instructions", it["name"]] = ratio(it, "instructions")
        found["memory", it["name"]] = it["converters"]["pgn_tool"]["memory"]
        walls = {task: figures["wall"] for task, figures in it["checked"].items()}
        found["--checked to export", it["name"]] = walls["export --checked"] / walls["export"]
    for (build, name), spent in result["builds"].items():
        if ("proved", name) in result["builds"]:
            found[build + " to proved", name] = spent / result["builds"]["proved", name]
    return found


def goals(result):
    found = measured(result)
    rows = [[what, of, form % most, shown % found[what, of],
             "met" if found[what, of] <= most else "NOT MET"]
            for what, goal, form, shown in GOALS for of, most in goal.items()
            if (what, of) in found]
    if not rows:
        return []
    missed = ["- %s, %s: %s instead of %s" % (what, of, shown, most)
              for what, of, most, shown, said in rows if said != "met"]
    return [*prose("Goals. Wall time and instructions are parts of pgn-extract's. Those of Cargo's "
                   "program and of the dependent one are parts of the proved program's "
                   "instructions:"), "",
            *table(["", "of", "at most", "measured", "goal"], rows, "---"),
            *(["**Not met:**", "", *missed] if missed else ["All goals are met."]), ""]


def machine(result):
    """The input, the date, the program, the machine, the versions, and how much other work ran."""
    it = result["machine"]
    count = it["processors"]
    items = {"Input": result.get("input"),
             "Date": "%s; the least of %d rounds" % (result["date"], result["rounds"]),
             "Program": result["program"],
             "Machine": "%d processors, %s; Debian %s" % (count, it["model"], it["debian"]),
             "Versions": ", ".join("%s %s" % pair for pair in it["versions"].items()),
             "Other work": "kept %.2f of %d processors busy, on average" % (result["other"], count)}
    return [line for name, said in items.items() if said
            for line in prose("- %s: %s" % (name, said))] + [""]


def measured_table(result):
    """A table alone, below what it was measured on."""
    return [*machine(result), *result["table"]][:-1]


def converters(archive):
    games, size = archive["games"], archive["bytes"] / 1e6
    rows = [[name, "%.2f" % it["wall"], "%d" % (games / it["wall"]), "%.1f" % (size / it["wall"]),
             "%.1f" % it["memory"], whole(it["instructions"]), whole(it["mispredictions"])]
            for name, it in archive["converters"].items()]
    for name in archive["converters"]:
        if name != "pgn-extract":
            part = lambda what, form: form % ratio(archive, what, name)
            rows.append([name + " to pgn-extract", part("wall", "%.3f"), "", "",
                         part("memory", "%.2f"), part("instructions", "%.3f"),
                         part("mispredictions", "%.3f")])
    return table(["", "wall s", "games/s", "MB/s", "memory MiB", "instructions a game",
                  "branch mispredictions a game"], rows)


def parts(archive):
    """The share of each part; a function that is inlined elsewhere is named as left out."""
    it = archive["converters"]["pgn_tool"]
    all_parts, rows = sum(it["parts"].values()), []
    for part, spent in it["parts"].items():
        without = " and ".join("`%s`" % name for name in it["inlined"].get(part, []))
        rows.append([part + (", without " + without if without else ""), whole(spent),
                     "%.1f %%" % (100 * spent / all_parts)])
    return ["Where the instructions of a game go:", "",
            *table(["part", "instructions a game", "share"], rows)]


def sizes(archive):
    rows = [["%.1f" % (it["bytes"] / 1e6), "%.2f" % it["wall"],
             "%.1f" % (it["wall"] / it["bytes"] * 1e9),
             "%.1f" % (it["instructions"] / it["bytes"]), "%.1f" % it["memory"]]
            for it in archive["sizes"]]
    return rows and ["Cost against size, by repeating the games:", "", *table(
        ["MB", "wall s", "ns a byte", "instructions a byte", "memory MiB"], rows)]


def split(archive):
    rows = [[task, "%d" % (archive["games"] / it["wall"]),
             "" if it["calls"] is None else "%.2f" % it["calls"]]
            for task, it in archive["split"].items()]
    return rows and ["`split` beside `export`, files in memory:", "",
                     *table(["", "games/s", "system calls a game"], rows)]


def checked(archive):
    rows = [[task, "%d" % (archive["games"] / it["wall"]), whole(it["instructions"])]
            for task, it in archive["checked"].items()]
    return ["The other tasks beside `export`, output to nowhere:", "",
            *table(["", "games/s", "instructions a game"], rows)]


def instructions(spent):
    """The instructions by call and archive, and their ratio to those of the first call."""
    names, archives = (list(dict.fromkeys(it)) for it in zip(*spent))
    head, rows = ["instructions a game"], [[name] for name in names]
    for it in archives:
        head += [it, "ratio"]
        for row, name in zip(rows, names):
            row += [whole(spent[name, it]), "%.3f" % (spent[name, it] / spent[names[0], it])]
    return table(head, rows)


def report(result):
    """All tables, as bench/README.md has them."""
    lines = machine(result) + goals(result)
    for it in result["archives"]:
        lines += ["### %s: %s" % (it["name"].capitalize(), size_of(it)), ""]
        lines += converters(it) + parts(it) + split(it) + checked(it) + sizes(it)
    none = ["The builds are not compared, without a cargo that builds them.", ""]
    by_build = instructions(result["builds"]) if result["builds"] else none
    return [*lines, "### The builds", "", *by_build][:-1]


def summary(result):
    """The table of the README."""
    head, rows = ["", "games a second", "wall time", "instructions", "memory"], []
    for it in result["archives"]:
        ours = it["converters"]["pgn_tool"]
        rows.append(["%s, %s" % (it["name"], size_of(it)),
                     format(round(it["games"] / ours["wall"], -2), ",.0f"),
                     "%.2f" % ratio(it, "wall"), "%.2f" % ratio(it, "instructions"),
                     "%.1f MiB" % ours["memory"]])
        if BY_CARGO in it["converters"]:
            rows[-1].append("%.2f" % ratio(it, "wall", BY_CARGO))
    if len(rows[0]) > len(head):
        head.append("wall time, by Cargo")
    version = result["machine"]["versions"].get("pgn-extract", "of unknown version")
    said = "Measured on %s, beside pgn-extract %s:" % (result["date"], version)
    return [*prose(said), "", *table(head, rows)][:-1]


def least_stack(result):
    """The sentence of the manual."""
    twice = result["stack"]["export --checked"]
    once = max(kib for task, kib in result["stack"].items() if task != "export --checked")
    return ["The least that was measured is %d KiB, and %d KiB with --checked," % (once, twice),
            "with an empty environment;",
            "the arguments and the environment are part of it."]


def markers(path, script="bench/run"):
    """The lines of a file, and the places of its two marker comments.

    A marker is a comment of one line that holds 'SCRIPT --record: begin' or '... end'. ValueError
    if the file does not have one of each, in this order.
    """
    with open(path, encoding="utf-8") as file:
        text = file.read().split("\n")
    places = []
    for word in ("begin", "end"):
        marker = re.compile(r'(?:<!--|\.\\") %s --record: %s\b' % (re.escape(script), word))
        places.append([n for n, line in enumerate(text) if marker.match(line)])
    begin, end = places
    if len(begin) != 1 or len(end) != 1 or begin[0] > end[0]:
        raise ValueError("%s: not one begin and one end of %s --record" % (path, script))
    return text, begin[0], end[0]


def record(path, lines, script="bench/run"):
    """Puts the lines between the two markers of a file, and leaves all else as it is.

    ValueError as for markers; the file is then as it was.
    """
    text, begin, end = markers(path, script)
    # a blank line keeps a table of Markdown apart from the comment; the manual has none
    blank = [""] if path.endswith(".md") else []
    text[begin + 1:end] = [*blank, *lines, *blank]
    with open(path + ".new", "w", encoding="utf-8") as file:
        file.write("\n".join(text))
    os.replace(path + ".new", path)
