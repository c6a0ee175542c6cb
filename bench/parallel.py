"""The recipe for all processors (docs/PARALLEL.md) on 1, 2 and 4 processes, beside one run."""
import filecmp
import os

import measure
import tables
from measure import ROOT, archive, output_of, read, stop

TOOLS, OTHERS, VERSIONS = ("parallel", "hyperfine", "time"), (), ("parallel",)
COPIES, BLOCK, PROCESSES = 10, "10M", (1, 2, 4)
CUT = ["--recend", r"\n\n", "--recstart", '[Event "']


def calls_of(program, file):
    """The words of each call, by its name and its number of processes, with the program's last."""
    return {("one run", 1): [program, "export", file],
            **{(way, processes): ["parallel", "-k", "-j", str(processes), "--block", BLOCK, *CUT,
                                  *source, program, "export"]
               for way, source in (("file", ["--pipepart", "-a", file]), ("pipe", ["--pipe"]))
               for processes in PROCESSES}}


def memory(name, words, file):
    if name[0] == "one run":
        return "%.1f" % measure.memory(words)
    job = measure.memory(words, file, len(words) - 2)
    return "%.1f + %d × %.1f" % (measure.memory(words, file), name[1], job)


def figures(given):
    file = measure.made("copies.pgn", COPIES * read(archive("annotated", given.games)))
    calls, rows = calls_of(given.program, file), []
    took, size = measure.times(calls, given.rounds, file), os.path.getsize(file) / 1e6
    alone, spent_alone = took["one run", 1]
    for name, (wall, spent) in took.items():
        if not filecmp.cmp(output_of(name), output_of(("one run", 1)), shallow=False):
            stop("%s on %d: other bytes than one run" % name)
        rows.append([*name, "%.2f" % wall, "%.1f" % (size / wall), "%.2f" % (alone / wall),
                     "%.2f" % spent, memory(name, calls[name], file)])
    most = max(PROCESSES)
    extra = [100 * (took[way, most][1] / spent_alone - 1) for way in ("file", "pipe")]
    head = ["", "processes", "wall s", "MB/s", "speed-up", "processor s", "memory MB"]
    said = ("Processor time shows what the cut costs. On %d processes it is %.0f %% more from a "
            "file, and %.0f %% more from a pipe." % (most, *extra))
    return {"input": "%s games, %.0f MB, in blocks of %s"
                     % (tables.whole(COPIES * given.games), size, BLOCK),
            "table": [*tables.table(head, rows), *tables.prose(said), ""]}


RECORDS = ((ROOT + "/docs/PARALLEL.md", tables.measured_table),)
