"""Times two builds of the repository on the jobs of workloads.txt, for bench/run OLD NEW [SEED]."""
import os
import statistics
import subprocess
import sys
import time

from measure import stop

TURNS = 15


def workloads(folder):
    """The name, the crate and the words of each line of workloads.txt that is no comment."""
    with open(folder + "/bench/workloads.txt", encoding="ascii") as file:
        rows = [line.split() for line in file if line.strip() and not line.startswith("#")]
    return [(name, crate, words) for name, crate, *words in rows]


def timed(folder, crate, words):
    """What one run prints, and its seconds. It reads a file of bench if its last word is <FILE."""
    place, program = folder + "/bench", "%s/crates/%s/out/%s" % (folder, crate, crate)
    if not os.access(program, os.X_OK):
        stop("there is no %s: call rt run in crates/%s there" % (program, crate))
    words, source = [program, *words], os.devnull
    if words[-1].startswith("<"):
        source = os.path.join(place, words.pop()[1:])
    with open(source, "rb") as data:
        begun = time.perf_counter()
        ran = subprocess.run(words, cwd=place, stdin=data, stdout=subprocess.PIPE, check=False)
        seconds = time.perf_counter() - begun
    if ran.returncode:
        stop("%s of %s ended with status %d" % (" ".join(words[1:]), folder, ran.returncode))
    return ran.stdout, seconds


def medians(name, crate, words, folders):
    """The medians of the folders' builds, which take turns and have to print the same."""
    taken, printed = {it: [] for it in folders}, set()
    for turn in range(TURNS):
        for folder in folders if turn % 2 == 0 else reversed(folders):
            text, seconds = timed(folder, crate, words)
            printed.add(text)
            taken[folder].append(seconds)
        if len(printed) != 1:
            stop("%s: the two builds print different results" % name)
    return [statistics.median(taken[it]) for it in folders], printed.pop().decode().strip()


def main(words):
    old, new, seed, *others = [*words, "1"] if len(words) == 2 else words
    if others or not seed.isdigit():
        sys.exit("usage: bench/run OLD NEW [SEED]\nOLD and NEW are two folders with built checkouts, "
                 "SEED is a number below 2^32 (default: 1).")
    folders = [os.path.abspath(it) for it in (old, new)]
    if folders[0] == folders[1]:
        stop("OLD and NEW are the same folder")
    print("| NAME | seconds at the start | seconds now | start over now |")
    print("|---|---:|---:|---:|")
    for name, crate, row in workloads(folders[1]):
        row = [seed if it == "SEED" else it for it in row]
        (before, now), text = medians(name, crate, row, folders)
        print("| %s | %.3f | %.3f | %.2f |" % (name, before, now, before / now), flush=True)
        print(text, file=sys.stderr)
