"""A test of the command line: the proved program and Cargo's answer thousands of lists of words.

Both have the same source, on two libraries: the proved one on the port of clap that the Rattle
toolchain has, and Cargo's on the real clap. A list is carried out as it stands, in a folder that
has a file for each word. The games of two files differ, so what is written says which task was
carried out, and on which file.

What is compared exactly: the status, standard output, standard error and the files that are left.
Messages of a clap older than 4.6 are brought to the words of 4.6 first: see WORDING.

What is not tried: four words of which the first is no subcommand, or one is no text.
"""
import collections
import concurrent.futures
import contextlib
import functools
import itertools
import os
import pathlib
import re
import shutil
import tempfile
import unittest

import programs
import test_cargo

SUBCOMMANDS = (b"export", b"check", b"list", b"split")
# The last three: abbreviations, which are rejected, and a word that is no text.
WORDS = (*SUBCOMMANDS, *b"--reduced --checked games.pgn folder -- --help -h --version -V -".split(),
         b"", b"--reduced=x", b"--red", b"exp", b"\xff")
FOLDER = "folder"
# What clap 4.0 to 4.5 says, and how 4.6 says it, as the proved port does.
WORDING = [
    (r"For more information try '--help'\n", "For more information, try '--help'.\n"),
    (r"(Print (?:help|version)) information\n", r"\1\n"),
    (r"Found argument ('.*') which wasn't expected, or isn't valid in this context",
     r"unexpected argument \1 found"),
    (r"The value ('.*') was provided to ('.*') but it wasn't expecting any more values",
     r"unexpected value \1 for \2 found; no more were expected"),
    (r"The argument ('.*') was provided more than once, but cannot", r"the argument \1 cannot"),
    (r"The subcommand ('.*') wasn't recognized", r"unrecognized subcommand \1"),
    (r"The following required", "the following required"),
    (r"If you tried to supply ('.*') as a value rather than a flag,",
     r"tip: to pass \1 as a value,"),
    (r"If you tried to supply ('.*') as a subcommand, remove the '--' before it\.",
     r"tip: subcommand \1 exists; to use it, remove the '--' before it"),
    (r"Did you mean to put '(.*)' after the subcommand '(.*)'\?", r"tip: '\2 \1' exists"),
    (r"Did you mean ('--.*')\?", r"tip: a similar argument exists: \1"),
    (r"Did you mean ('.*')\?\n\n  If you believe .*\n", r"tip: a similar subcommand exists: \1\n"),
]


def in_present_words(text):
    text = text.decode()
    for old, new in WORDING:
        text = re.sub(old, new, text)
    return text


def lists():
    """All lists of at most three words, and those of four that go on behind a subcommand."""
    for count in range(4):
        yield from itertools.product(WORDS, repeat=count)
    texts = WORDS[:-1]
    yield from itertools.product(SUBCOMMANDS, texts, texts, texts)


class Runner:
    """A folder that programs run in, with a file for each word that can be a name."""

    def __init__(self):
        self.before, self.folder, self.device = os.getcwd(), tempfile.mkdtemp(), tempfile.mkdtemp()
        os.chdir(self.folder)
        os.mkdir(FOLDER)
        names = [it for it in WORDS if it not in (b"", FOLDER.encode(), b"\xff")]
        # Two games: the first of so many plies has a comment, and the second no Result tag.
        for number, name in enumerate([*names, b"stdin"], 1):
            moves = b" ".join((b"Nf3", b"Nf6", b"Ng1", b"Ng8")[it % 4] for it in range(number))
            programs.write_file(name, b"%s {so many} *\n1. e4 1-0\n" % moves)
        self.had = set(os.listdir("."))

    def close(self):
        os.chdir(self.before)
        shutil.rmtree(self.folder)
        shutil.rmtree(self.device)

    def answer(self, program, words):
        """The status of a run, what it wrote, and the files that it left."""
        outputs = [os.path.join(self.device, it) for it in ("out", "err")]
        flags = os.O_WRONLY | os.O_CREAT | os.O_TRUNC
        actions = [(os.POSIX_SPAWN_OPEN, number, name, flags, 0o600)
                   for number, name in enumerate(outputs, 1)]
        actions.append((os.POSIX_SPAWN_OPEN, 0, "stdin", os.O_RDONLY, 0))
        child = os.posix_spawn(program, [b"pgn_tool", *words], os.environ, file_actions=actions)
        status = os.waitstatus_to_exitcode(os.waitpid(child, 0)[1])
        return (status, *(pathlib.Path(it).read_bytes() for it in outputs), self.left())

    def left(self):
        """The files that a run made, which go."""
        names = [it for it in os.listdir(".") if it not in self.had]
        names += [os.path.join(FOLDER, it) for it in os.listdir(FOLDER)]
        found = {it: pathlib.Path(it).read_bytes() for it in sorted(names)}
        for name in names:
            os.remove(name)
        return found


def compare(proved, program, share):
    """How many lists had which status, and the lists that the programs answer differently."""
    statuses, differing = collections.Counter(), []
    with contextlib.closing(Runner()) as runner:
        for words in share:
            ours = runner.answer(proved, words)
            theirs = runner.answer(program, words)
            statuses[ours[0]] += 1
            texts = [[in_present_words(it) for it in ran[1:3]] for ran in (ours, theirs)]
            if (ours[0], texts[0], ours[3]) != (theirs[0], texts[1], theirs[3]):
                differing.append((words, ours, theirs))
    return statuses, differing


class Answers(unittest.TestCase):
    def test_both_programs_answer_each_list_of_words_the_same(self):
        both = programs.need_proved_program(), test_cargo.built()
        all_lists, workers = list(lists()), len(os.sched_getaffinity(0))
        shares = [all_lists[it :: 4 * workers] for it in range(4 * workers)]
        statuses, differing = collections.Counter(), []
        with concurrent.futures.ProcessPoolExecutor(workers) as pool:
            ran = pool.map(functools.partial(compare, *both), shares)
            for some_statuses, some_differing in ran:
                statuses += some_statuses
                differing += some_differing
        self.assertEqual(differing[:3], [], "%d lists" % len(differing))
        self.assertEqual(sum(statuses.values()), len(all_lists))
        # Help and tasks without a fault, tasks with one, and words that are rejected.
        for status in (0, 1, 2):
            self.assertGreater(statuses[status], 500)

    def test_any_two_tasks_are_answered_differently(self):
        proved = programs.need_proved_program()
        files = [[it] for it in (b"games.pgn", b"-", b"export")] + [[]]
        exports = [[b"export"], [b"export", b"--reduced"]]
        tasks = [[b"check"], [b"list"], [b"split", b"folder"], *exports]
        calls = [task + file for task in tasks for file in files]
        calls += [task + [b"--checked"] + file for task in exports for file in files[:3]]
        runner = Runner()
        self.addCleanup(runner.close)
        self.assertEqual(len({repr(runner.answer(proved, it)) for it in calls}), len(calls))
