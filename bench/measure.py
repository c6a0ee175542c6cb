"""What bench/run measures of one call of a program: time, memory, instructions, system calls."""
import json
import os
import platform
import re
import shlex
import shutil
import subprocess
import sys
import time

HERE = os.path.dirname(os.path.realpath(__file__))
ROOT = os.path.dirname(HERE)
OUT = HERE + "/out"
# The parts of the program, and the beginnings of the names of the functions that belong to each.
# The first beginning that fits decides. Functions with no part (chess_rules, core, std, memcpy)
# belong to the part that calls them. Then come the main functions of a part: if the compiler
# inlines one, its caller's part has its cost.
PARTS = (
    ("lexer", ("pgn_lexer::",), ("pgn_lexer::lexer::Lexer::whole_token",)),
    ("find", ("pgn_game::find::", "chess_text::form::", "chess_text::resolution::"),
     ("pgn_game::find::named_move",)),
    ("write_san", ("chess_text::san::",), ("chess_text::san::write_san",)),
    ("layout and sinks", ("pgn_layout::", "pgn_game::number::", "std::io::buffered::"),
     ("pgn_layout::current_line::CurrentLine::put", "pgn_layout::sink::write_all")),
    ("converter's loop", ("pgn_game::converter::", "pgn_game::conversion::", "pgn_tool::stream::"),
     ()),
    ("reader and levels", ("pgn_game::", "chess_text::"),
     ("pgn_game::reader::Reader::accept", "pgn_game::game::Game::take")),
)
# Other work is more than so many processors that other processes keep busy, on average.
QUIET = 0.2
# how long is waited to see whether there is other work
SECONDS = 5
# The games of two archives. What a game costs is their difference, without the start of a program.
SMALL, LARGE = 100, 300


def stop(why):
    sys.exit("bench/run: " + why)


def found(name):
    return shutil.which(name, path=os.environ.get("PATH", "") + ":/usr/games:/usr/bin")


def check_tools(needed, others=()):
    """Names what is missing, and how to install it. Stops if that is needed."""
    lacking = [it for it in (*needed, *others) if not found(it)]
    said = "%s %s missing; to install: apt-get install --no-install-recommends %s" % (
        ", ".join(lacking), "is" if len(lacking) == 1 else "are", " ".join(lacking))
    if set(lacking) & set(needed):
        stop(said)
    if lacking:
        print("bench/run: %s; goes on without these figures" % said, file=sys.stderr)


def work():
    """Seconds so far: of the clock, of work of all processors with waits for them, and of ours."""
    user, nice, system, _, _, *others = map(int, read("/proc/stat").split()[1:9])
    ours = os.times()
    busy = (user + nice + system + sum(others)) / os.sysconf("SC_CLK_TCK")
    return ours.elapsed, busy, sum(ours[:4])


def other_work(before, after):
    """How many processors other processes kept busy, on average, between two answers of work."""
    clock, busy, own = (b - a for a, b in zip(before, after))
    return max(0, busy - own) / clock


def check_quiet(other, allowed):
    """Stops if other processes kept so many processors busy, unless that is allowed."""
    if other > QUIET and not allowed:
        stop("other work keeps %.1f processors busy, so nothing is recorded; --busy records all the"
             " same" % other)


def wait_for_quiet(allowed):
    """Stops if there is other work now, unless that is allowed."""
    before = work()
    time.sleep(SECONDS)
    check_quiet(other_work(before, work()), allowed)


def archive(style, games):
    """The path of an archive of so many games, which is made where it is missing."""
    file = "%s/%s-%d.pgn" % (OUT, style, games)
    if not os.path.exists(file):
        os.makedirs(OUT, exist_ok=True)
        words = [sys.executable, HERE + "/make_archive.py", "--style", style, "--games", str(games)]
        call(words, file + ".new")
        os.replace(file + ".new", file)
    return file


def call(words, to="/dev/null", file="/dev/null"):
    """Calls a program that reads a file and writes another one; returns its messages."""
    with open(to, "wb") as out, open(file, "rb") as data:
        ran = subprocess.run(words, stdin=data, stdout=out, stderr=subprocess.PIPE, check=False)
    if ran.returncode:
        stop("%s failed: %s" % (shlex.join(words), ran.stderr.decode(errors="replace")[-300:]))
    return ran.stderr


def read(path):
    """The bytes of a file."""
    with open(path, "rb") as file:
        return file.read()


def made(name, data):
    """The path of a file of bench/out with these bytes, which is made."""
    with open("%s/%s" % (OUT, name), "wb") as file:
        file.write(data)
    return file.name


def output_of(name, folder=OUT):
    """Where times and instructions leave what a call of a name writes."""
    return "%s/%s.out" % (folder, re.sub(r"\W+", "-", str(name)).strip("-"))


def times(calls, rounds, file=None, folder=OUT, prepare=("true",)):
    """The least wall time of each call, and its processor time then, in seconds by hyperfine.

    All take turns, unlike by hyperfine alone: a machine that others use too is slower in some
    minutes than in others.
    """
    least = {}
    for _ in range(rounds):
        for name, words in calls.items():
            if file:
                words = ["sh", "-c", 'exec "$@" <%s' % shlex.quote(file), "sh", *words]
            call(["hyperfine", "--shell=none", "--style=none", "--runs=1",
                  "--output=" + output_of(name, folder), "--prepare=" + shlex.join(prepare),
                  "--export-json=" + OUT + "/times.json", shlex.join(words)])
            with open(OUT + "/times.json", encoding="utf-8") as data:
                ran = json.load(data)["results"][0]
            took = ran["mean"], ran["user"] + ran["system"]
            least[name] = min(took, least.get(name, took))
    return least


def memory(words, file="/dev/null", at=0):
    """The most MiB that were resident: of the call, or of one process of its words from `at` on."""
    said = call([*words[:at], found("time"), "-f", "%M", *words[at:]], file=file)
    # pgn-extract ends its count of games with a carriage return alone
    return max(map(int, re.findall(rb"(?:^|\r)(\d+)$", said, re.MULTILINE))) / 1024


def same(it):
    return it


def instructions(calls, styles):
    """The instructions of a game by call and style.

    A call reads standard input. It has its words, the change that it needs of an archive, and what
    it must write of what the first call writes for the archive as it is.
    """
    spent = {}
    for style in styles:
        small, large = archive(style, SMALL), archive(style, LARGE)
        text = None
        for name, (words, change, part) in calls.items():
            call(words, output_of(name), change(large))
            written = read(output_of(name))
            text = written if text is None else text
            if written != part(text):
                stop("%s does not write what it should for %s" % (name, large))
            runs = (callgrind(words, change(it)) for it in (small, large))
            spent[name, style] = difference(*runs)["Ir"]
    return spent


def callgrind(words, file="/dev/null"):
    """What callgrind counts in a call, as read_callgrind returns it."""
    call([found("valgrind"), "--tool=callgrind", "--branch-sim=yes",
          "--callgrind-out-file=" + OUT + "/callgrind", *words], file=file)
    with open(OUT + "/callgrind", encoding="utf-8", errors="replace") as counts:
        return read_callgrind(counts)


def read_callgrind(lines):
    """The totals of the events by name; instructions by function; and by (caller, callee).

    Those of a function are its own. Those of a pair are the callee's in calls by that caller, with
    all that it calls in turn.
    """
    names, events, totals, own, by_call = {}, [], {}, {}, {}
    caller = callee = None
    for line in lines:
        key, _, value = line.strip().partition("=")
        if line.startswith("events:"):
            events = line.split()[1:]
        elif line.startswith(("summary:", "totals:")):
            totals = dict(zip(events, map(int, line.split()[1:])))
        elif key in ("fn", "cfn"):
            number, _, name = value.partition(" ")
            name = names.setdefault(number, name)
            caller, callee = (name, callee) if key == "fn" else (caller, name)
        elif line[:1] in "+-*0123456789" and line.strip():
            spent = int((line.split() + ["0"])[1])
            if callee is None:
                own[caller] = own.get(caller, 0) + spent
            else:
                by_call[caller, callee] = by_call.get((caller, callee), 0) + spent
                callee = None
    return totals, own, by_call


def part_of(function):
    for part, beginnings, _ in PARTS:
        if function.startswith(beginnings):
            return part
    # the rest of the program is a part too, so that its calls do not count as another's
    return "rest" if function.startswith("pgn_tool::") else None


def by_part(costs):
    """The instructions of each part, with those of the functions of no part that it calls."""
    totals, own, by_call = costs
    spent = {part: 0 for part, _, _ in PARTS}
    for function, instructions in own.items():
        if part_of(function) in spent:
            spent[part_of(function)] += instructions
    for (caller, callee), instructions in by_call.items():
        if part_of(caller) in spent and part_of(callee) is None:
            spent[part_of(caller)] += instructions
    spent["rest"] = totals["Ir"] - sum(spent.values())
    return spent


def inlined(costs):
    """By part, the main functions that are no functions of their own in the built program."""
    missing = {part: ["::".join(name.split("::")[-2:]) for name in names
                      if not any(it.startswith(name) for it in costs[1])]
               for part, _, names in PARTS}
    return {part: names for part, names in missing.items() if names}


def difference(small, large, games=LARGE - SMALL):
    """The costs of one game, of what callgrind says of two archives."""
    a, b = ({**it[0], **by_part(it)} for it in (small, large))
    return {what: (b[what] - a.get(what, 0)) / games for what in b}


def system_calls(words):
    """The number of system calls."""
    call([found("strace"), "-f", "-c", "-o", OUT + "/strace", *words])
    return read_strace(read(OUT + "/strace").decode().splitlines())


def read_strace(lines):
    """The number of calls in the table of strace -c."""
    for line in lines:
        if line.split()[-1:] == ["total"]:
            return int(line.split()[3])
    return stop("strace has no total")


def printed(*words):
    """What a program prints, without the last line end."""
    ran = subprocess.run(words, stdout=subprocess.PIPE, check=False)
    if ran.returncode:
        stop(shlex.join(words) + " failed")
    return os.fsdecode(ran.stdout).rstrip("\n")


def built(*options):
    """The path of the program or library of the repository, which is built if need be."""
    return printed(ROOT + "/bin/build_program", *options)


def program_name(program):
    """The program's version, and how it was built."""
    folder = os.path.relpath(os.path.realpath(program), ROOT).split(os.sep)[0]
    kinds = {"crates": "proved and built by rt", "cargo": "built by Cargo"}
    return "%s, %s" % (printed(program, "--version"), kinds.get(folder, "another build"))


def machine(*packages):
    """The processors, Debian's version, and the versions of the packages that are installed."""
    versions = {}
    for package in packages:
        words = ["dpkg-query", "-W", "-f", "${Version}", package]
        ran = subprocess.run(words, stdout=subprocess.PIPE, stderr=subprocess.DEVNULL, check=False)
        if ran.stdout:
            versions[package] = ran.stdout.decode()
    model = re.search(r"(?m)^model name\s*: (.*)|\Z", read("/proc/cpuinfo").decode())[1]
    return {"processors": os.cpu_count(), "model": model or platform.machine(),
            "debian": read("/etc/debian_version").decode().strip(), "versions": versions}
