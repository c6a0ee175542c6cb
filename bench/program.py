"""The program beside pgn-extract, which converts the same files, and its builds: see README.md."""
import filecmp
import glob
import os
import re
import shutil
import subprocess
import sys
import tempfile

import measure
import tables
from measure import HERE, OUT, ROOT, archive, call, found, stop

TOOLS = ("pgn-extract", "hyperfine", "valgrind", "time")
# without these some figures are left out
OTHERS = ("strace", "cargo")
VERSIONS = ("pgn-extract", "valgrind", "strace")
STYLES = ("plain", "annotated")
# of the last one only the instructions of the builds are counted
COUNTED = (*STYLES, "server")
TASKS = ("export", "export --checked", "check", "list")
SIZES = (1, 10, 100)
STACK_STEP = 4
IN_MEMORY = "/dev/shm"
# what a small file takes in memory, and more than that
BLOCK = 8192
PROVED = ROOT + "/crates/pgn_tool/out/pgn_tool"
WORKSPACE = ROOT + "/cargo/out"
# what --record writes, and its lines
RECORDS = (
    (ROOT + "/bench/README.md", tables.report),
    (ROOT + "/README.md", tables.summary),
    (ROOT + "/share/man/man1/pgn_tool.1", tables.least_stack),
)


def is_built(target, *words):
    """Whether cargo builds it. It finds its source of crates from the workspace."""
    words = [found("cargo"), "build", "--release", "--quiet", *words]
    env = dict(os.environ, CARGO_TARGET_DIR=target)
    return subprocess.run(words, cwd=WORKSPACE, env=env, check=False).returncode == 0


def calls_of_builds():
    """The words of a call of each build, which reads standard input, by the name of the build.

    Cargo builds its two now. There are none without a cargo that can.
    """
    if not found("cargo"):
        return {}
    subprocess.run([sys.executable, ROOT + "/bin/to_cargo", WORKSPACE], check=True,
                   stdout=subprocess.DEVNULL)
    if not (is_built(WORKSPACE + "/target", "--package", "pgn_tool")
            and is_built(OUT + "/target", "--manifest-path", HERE + "/dependent/Cargo.toml")):
        print("bench/run: cargo failed; goes on without the other builds", file=sys.stderr)
        return {}
    calls = {"proved": [PROVED, "export"]} if os.access(PROVED, os.X_OK) else {}
    return {**calls, "Cargo": [WORKSPACE + "/target/release/pgn_tool", "export"],
            "dependent": [OUT + "/target/release/dependent"]}


def check_output(peer, program, file):
    """Our output is its own export, and pgn-extract finds the file's main lines in it."""
    first, again = OUT + "/first", OUT + "/again"
    for mode in ([], ["--reduced"]):
        call([program, "export", *mode, file], first)
        call([program, "export", *mode, first], again)
        if not filecmp.cmp(first, again, shallow=False):
            stop("the output of %s is not its own export" % file)
    for to, read in ((OUT + "/theirs", file), (again, first)):
        call([*peer, "-C", "-N", "-V", "--notags", read], to)
    if not filecmp.cmp(OUT + "/theirs", again, shallow=False):
        stop("the output of %s has other moves" % file)


def call_figures(calls, files, rounds):
    """What each call takes of an archive, and of a game of two small ones."""
    file, *small_files = files
    took = measure.times({name: [*words, file] for name, words in calls.items()}, rounds)
    figures = {}
    for name, words in calls.items():
        runs = [measure.callgrind([*words, it]) for it in small_files]
        spent = measure.difference(*runs)
        figures[name] = {"wall": took[name][0], "memory": measure.memory([*words, file]),
                         "instructions": spent["Ir"], "mispredictions": spent["Bcm"] + spent["Bim"],
                         "parts": {it: spent[it] for it in measure.by_part(runs[1])},
                         "inlined": measure.inlined(runs[1])}
    return figures


def has_room(file, games):
    """Whether there is a file system in memory with room for the outputs of export and split."""
    needed = 4 * os.path.getsize(file) + games * BLOCK
    return os.path.isdir(IN_MEMORY) and shutil.disk_usage(IN_MEMORY).free > needed


def split_figures(program, files, games, rounds):
    """Export and split: the wall time on files in memory, and the system calls of a game.

    There are no figures without room in memory, and no system calls without strace.
    """
    if not has_room(files[0], games):
        return {}
    calls = lambda file, to: {"export": [program, "export", file],
                              "split": [program, "split", to, file]}
    with tempfile.TemporaryDirectory(dir=IN_MEMORY) as folder:
        shutil.copy(files[0], folder + "/in.pgn")
        to = folder + "/games"
        prepare = ["sh", "-c", "rm -rf %s && mkdir %s" % (to, to)]
        took = measure.times(calls(folder + "/in.pgn", to), rounds, folder=folder, prepare=prepare)
    counts = {task: [] for task in took}
    for file in files[1:] if found("strace") else ():
        with tempfile.TemporaryDirectory() as to:
            for task, words in calls(file, to).items():
                counts[task].append(measure.system_calls(words))
    games = measure.LARGE - measure.SMALL
    return {task: {"wall": took[task][0], "calls": (of[1] - of[0]) / games if of else None}
            for task, of in counts.items()}


def size_figures(program, file, rounds):
    """What one run takes for archives of other sizes: the games of this one, again and again."""
    figures = []
    for size in (it * 1_000_000 for it in SIZES):
        text = measure.read(file)
        text *= size // len(text) + 1
        text = text[:text.rindex(b"\n\n[Event ", 0, size) + 2]
        words = [program, "export", measure.made("size.pgn", text)]
        figures.append({"bytes": len(text),
                        "wall": measure.times({"size": words}, rounds)["size"][0],
                        "instructions": measure.callgrind(words)[0]["Ir"],
                        "memory": measure.memory(words)})
    return figures


def archive_figures(given, calls, name):
    """All that is measured of one archive."""
    files = [archive(name, it) for it in (given.games, measure.SMALL, measure.LARGE)]
    said = measure.printed(given.program, "check", files[0])
    games = int(re.search(r"games: (\d+)", said)[1])
    check_output(calls["pgn-extract"], given.program, files[0])
    print("%s: %d games: the output converts to itself" % (name, games), file=sys.stderr)
    tasks = {it: [given.program, *it.split()] for it in TASKS}
    return {"name": name, "games": games, "bytes": os.path.getsize(files[0]),
            "converters": call_figures(calls, files, given.rounds),
            "split": split_figures(given.program, files, games, given.rounds),
            "checked": call_figures(tasks, files, given.rounds),
            "sizes": size_figures(given.program, files[0], given.rounds) if given.sizes else []}


def fits(program, task, folder, kib, times):
    """Whether the program ends by itself on each input of a folder, with a stack of so many KiB."""
    words = ["prlimit", "--core=0", "--stack=%d" % (kib * 1024), program, *task.split()]
    runs = (subprocess.run([*words, file], cwd=folder, env={}, stdin=subprocess.DEVNULL,
                           capture_output=True, check=False)
            for file in times * sorted(glob.glob("*.in", root_dir=folder)))
    return all(ran.returncode in (0, 1) for ran in runs)


def least_stack(program, task):
    """The least ulimit -s that is enough for each vector, in KiB, with an empty environment.

    Each call has another place of the stack, so near the least some calls fail and some do not.
    """
    low, high = 0, 8192
    with tempfile.TemporaryDirectory() as folder:
        subprocess.run([ROOT + "/bin/pgn_conform", "--files", folder], check=True)
        while high - low > STACK_STEP:
            middle = (low + high) // (2 * STACK_STEP) * STACK_STEP
            low, high = (low, middle) if fits(program, task, folder, middle, 1) else (middle, high)
        while not fits(program, task, folder, high, 3):
            high += STACK_STEP
    return high


def figures(given):
    by_build = calls_of_builds()
    calls = {"pgn_tool": [given.program, "export"]}
    if calls["pgn_tool"] == by_build.get("proved"):
        calls[tables.BY_CARGO] = by_build["Cargo"]
    calls["pgn-extract"] = [found("pgn-extract"), "-s", "-Wsan"]
    same = {name: (words, measure.same, measure.same) for name, words in by_build.items()}
    return {"archives": [archive_figures(given, calls, it) for it in STYLES],
            "builds": measure.instructions(same, COUNTED),
            "stack": {it: least_stack(given.program, it) for it in TASKS}}
