"""The library through Python beside the program: a call in this process, and in one of its own."""
import importlib
import os
import sys
import timeit

import measure
import tables
from measure import HERE, ROOT, archive, output_of, read, stop

TOOLS, OTHERS, VERSIONS = ("hyperfine",), (), ("python3",)
CALL = "import sys, gillspoon; sys.stdout.buffer.write(gillspoon.convert(sys.argv[1]))"


def load(*options):
    """The module over the library of a build, which is built if need be."""
    if options or not os.environ.get("GILLSPOON_LIBRARY"):
        static = measure.built("--library", *options)
        os.environ["GILLSPOON_LIBRARY"] = os.path.join(os.path.dirname(static), "libpgn_c.so")
    os.environ["PYTHONPATH"] = ROOT + "/python"
    sys.path.insert(0, ROOT + "/python")
    return importlib.import_module("gillspoon")


def figures(given):
    gillspoon, rows = load("--proved") if given.record else load(), []
    for style in ("plain", "annotated"):
        path = archive(style, given.games)
        calls = {"program": [given.program, "export", path],
                 "process": [sys.executable, "-c", CALL, path]}
        took = measure.times(calls, given.rounds)
        (ours, _), (whole, _) = took["program"], took["process"]
        convert = min(timeit.repeat(lambda: gillspoon.convert(path), number=1, repeat=given.rounds))
        if not gillspoon.convert(path) == read(output_of("program")) == read(output_of("process")):
            stop("the outputs differ for " + path)
        size = os.path.getsize(path) / 1e6
        rows.append(["%s, %.1f MB" % (style, size), "%.2f" % ours, "%.2f" % convert, "%.2f" % whole,
                     "%.1f" % (size / ours), "%.1f" % (size / convert), "%.2f" % (ours / convert)])
    head = [tables.whole(given.games) + " games", "program s", "`convert` s", "a process s",
            "program MB/s", "`convert` MB/s", "throughput, of the program's"]
    return {"table": tables.table(head, rows)}


RECORDS = ((HERE + "/README.md", tables.measured_table),)
