#!/usr/bin/env python3
"""Measures parv against `par2 verify`, case by case.

usage: bench.py [small|large [CASE ..]]

With CASE, only the cases run whose names begin with one of these texts, and only their sets are made:
`bench.py large 61 "2,000" "find --tails"`. Needs par2 (Debian package par2).

In each case the two programs run in turn, and the best of the rounds counts: processor time (user and system) against
par2 on one thread; time on the clock against par2 with as many threads as it takes by itself; and peak memory. Before
it is measured, each case runs once to check that it is what it says: both verdicts, and the output of parv. A case
isn't measured if a run would take longer than the limit. If parv hashes each window as a whole, the smallest set shows
that, and such a run isn't started.

par2 has no --tails, so in the cases `find --tails` and `verify --tails`, parv is compared with itself without the
option (`plain`). The numbers in their names count own lengths below the slice size. `find` finds no slice there.
`verify` has files of that number, of which the last has a changed last byte, and looks only for the last slice of that
one.

The next cases have content such as people have, which repeats or doesn't. Each kind is whole, damaged at one place, or
has a part left out, in slices of the size that par2 chooses ("par2's") and of 4 KiB. The kinds of `REPEATING` have one
case more each: damaged at one place, and verified with --tails, which par2 doesn't need there.

In the last cases, only an image is scanned, by `verify --tails`. It has all files of the set, or a tenth of them is
missing. A "disc of 200" has 200 files, each padded to 2,048 bytes. The ISO image needs genisoimage, and the ext4 image
mke2fs; a case whose program isn't installed is left out. `find --tails` runs over the discs too.

With BEFORE, another parv runs in turn with them. Then each case has a second line, which compares that one with par2,
and its first line ends with the ratio of the processor times of the two parvs. Both must print the same text and end
with the same exit status. Otherwise, that is reported, and the exit status is 1.

PARV is the program (crates/parv/out/parv), BEFORE the other one (none), PARV_BENCH the folder that keeps the sets
(/tmp/parv-bench), ROUNDS the number of rounds, and LIMIT the greatest number of seconds for a run.
"""

import ctypes
import os
import re
import shutil
import signal
import subprocess
import sys
import tempfile
import time
from itertools import zip_longest
from typing import NamedTuple

sys.path[0] = os.path.dirname(os.path.dirname(os.path.realpath(__file__)))  # imports are relative to tools/

from bench import disc_images
from bench.bench_sets import INDEX, OTHER, SHAPES, TAILS, data_files, packet_files, sets_of, size_text, slices_in
from bench.real_content import KINDS, REPEATING
from hostile.runs import PARV

BEFORE = os.path.abspath(os.environ["BEFORE"]) if os.environ.get("BEFORE") else None
ROOT = os.path.abspath(os.environ.get("PARV_BENCH") or "/tmp/parv-bench")
ROUNDS = {"small": 3, "large": 5}
LIMIT = {"small": 3, "large": 60}

# A process begins with the peak memory of the process that it was copied from. So a small shell starts each program and
# ends. The system then makes the program a child of this process, which asked for that (PR_SET_CHILD_SUBREAPER).
START = '"$@" 2>/dev/null & echo $! >&2'
ctypes.CDLL(None).prctl(36, 1, 0, 0, 0)

# Over the smallest set, a search that rolls its checksum takes fewer seconds than this, and one that hashes each window
# as a whole takes more.
PLAIN = 0.1

VERIFIED, LISTED, SEEN = r"^need (\d+) have \d+$", r"^\S+ \d+ \d+ recvslic ", r"^\S+ \d+ [0-9a-f]{32} \d+$"


class Case(NamedTuple):
    """What is measured: a folder of the sets, the command of parv, the exit status of the compared program over that
    folder, whether parv gets --tails, the compared program (`beside`), and the program that makes the folder's
    image."""
    name: str
    folder: str
    command: str
    status: int
    tails: bool = False
    beside: str = "par2"
    program: str = ""

    @property
    def words(self):
        return [self.command, "--tails"] if self.tails else [self.command]


CASES = [
    Case("intact", "intact", "verify", 0),
    Case("many files", "many", "verify", 0),
    Case("renamed", "renamed", "verify", 1),
    Case("one byte flipped", "flipped", "verify", 1),
    Case("one byte left out", "left out", "verify", 1),
    Case("one byte put in front", "in front", "verify", 1),
    Case("every slice damaged", "every slice", "verify", 2),
    Case("find, one byte left out", "left out", "find", 1),
    Case("find, every slice damaged", "every slice", "find", 2),
    Case("packets of a volume", "volume", "packets", 1),
    Case("61 of 64 files", "61 of 64", "verify", 2),
    Case("61 of 64, a byte flipped", "61 of 64, flipped", "verify", 2),
    Case("2,000 of 2,000 files", "2000 of 2000", "verify", 0),
    Case("1,998 of 2,000 files", "1998 of 2000", "verify", 2),
    *[Case(f"find --tails, {count}", f"{count} tails", "find", 0, True, "plain") for count in TAILS],
    *[Case(f"verify --tails, {count}", f"{count} tails, flipped", "verify", 1, True, "plain") for count in TAILS],
    *[Case(kind + more, kind + more, "verify", status if kind != "volumes" else 2 * status)
      for kind in KINDS for more, status in (("", 0), (", flipped", 1), (", left out", 1))],
    *[Case(f"{kind} with --tails", f"{kind}, flipped", "verify", 1, True) for kind in REPEATING],
    *[Case(kind + more, kind + more, "verify", status, True, program=image.program)
      for kind, image in disc_images.IMAGES.items() for more, status in (("", 1), (", tenth missing", 2))],
    *[Case(f"find --tails, {kind}", kind, "find", 0, True, "plain")
      for kind in disc_images.IMAGES if kind.startswith("disc of ")],
]


class Run(NamedTuple):
    """Seconds of the processor and on the clock, peak memory in KiB, and exit status."""
    processor: float
    wall: float
    memory: int
    status: int


class Answer(NamedTuple):
    """The answer of a parv in a case: its exit status, its text, and the number in that text which `expected` also
    returns."""
    status: int
    text: bytes
    number: int


def run(words, folder, limit, out=subprocess.DEVNULL):
    """Runs a program once. Returns None if it was stopped at the limit."""
    start = time.monotonic()
    shell = subprocess.run(["sh", "-c", START, "sh", *words], cwd=folder, stdin=subprocess.DEVNULL, stdout=out,
                           stderr=subprocess.PIPE, check=True)
    program = int(shell.stderr)
    signal.signal(signal.SIGALRM, lambda *_: os.kill(program, signal.SIGKILL))
    signal.setitimer(signal.ITIMER_REAL, limit)
    try:
        _, ended, usage = os.wait4(program, 0)
    except ChildProcessError:
        # The program ended before the shell did, so the shell received its status.
        if out is not subprocess.DEVNULL:
            out.seek(0)
            out.truncate()
        return run(words, folder, limit, out)
    except KeyboardInterrupt:
        os.kill(program, signal.SIGKILL)
        raise
    wall = time.monotonic() - start
    signal.setitimer(signal.ITIMER_REAL, 0)
    status = os.waitstatus_to_exitcode(ended)
    if status == -signal.SIGKILL:
        return None
    return Run(usage.ru_utime + usage.ru_stime, wall, usage.ru_maxrss, status)


def best(runs):
    return Run(*(min(values) for values in zip(*runs)))


def by_parv(program, case, folder):
    return [program, *case.words, *packet_files(folder), *data_files(folder)]


def by_par2(folder, options=()):
    """Returns the words that run par2. It finds files by their names, so it must be told about a file with another
    name."""
    return ["par2", "verify", "-q", "-q", *options, INDEX, *(name for name in data_files(folder) if name == OTHER)]


def one_thread():
    """Returns what runs par2 on one thread: words before its own, and options."""
    text = subprocess.run(["par2", "--help"], capture_output=True, text=True).stdout
    options = [f"{flag}1" for flag in ("-t", "-T") if f"{flag}<n>" in text]
    return ([], options) if "-t1" in options else (["taskset", "-c", str(min(os.sched_getaffinity(0)))], [])


def beside(case, folder, alone):
    """Returns the compared programs: par2 on one thread and par2 by itself, or twice parv without the option."""
    if case.beside == "plain":
        return [by_parv(PARV, case._replace(tails=False), folder)] * 2
    words, options = alone
    return [words + by_par2(folder, options), by_par2(folder)]


def expected(case, shape, folder):
    """Returns the number that parv's text must have in this case: slices that it needs, or slices or packets that it
    lists."""
    if case.command == "packets":
        return shape.volume // shape.slice_size
    lost = shape.lost(case.folder, folder)
    return lost if case.command == "verify" else slices_in(folder) - lost


def told(case, text):
    """Returns the number in parv's text that `expected` computes."""
    lines = text.decode().split("\n")
    if case.command == "verify":
        return sum(int(found[1]) for found in (re.search(VERIFIED, line) for line in lines) if found)
    return sum(1 for line in lines if re.search(LISTED if case.command == "packets" else SEEN, line))


def answer(program, case, folder, limit):
    """Returns the answer of a parv in the case, from a run that isn't measured; None if it was stopped."""
    with tempfile.TemporaryFile() as out:
        ran = run(by_parv(program, case, folder), folder, limit, out)
        if ran is None:
            return None
        out.seek(0)
        text = out.read()
    return Answer(ran.status, text, told(case, text))


def disagreement(case, shape, folder, ours, theirs):
    """Says how the answer of a parv, or the exit status of the compared program, isn't that of the case; None if both
    are."""
    status = ours.status
    if case.command != "verify" and status == 0:
        status = case.status
    if (status, theirs, ours.number) != (case.status, case.status, expected(case, shape, folder)):
        return f"NOT THE CASE: parv {status}, {case.beside} {theirs} for {case.status}, " \
               f"{ours.number} slices for {expected(case, shape, folder)}"
    return None


def difference(ours, before):
    """Says how the answers of the two parvs differ; an empty text if they don't."""
    if ours.status != before.status:
        return f"exit status {ours.status} and {before.status}"
    if ours.text != before.text:
        pairs = zip_longest(ours.text.splitlines(), before.text.splitlines())
        line = next((line for line, (one, other) in enumerate(pairs, 1) if one != other), "the last")
        return f"texts of {len(ours.text)} and {len(before.text)} bytes, from line {line} on"
    return ""


def window_cost(program, case, probe, sets, limit):
    """Returns the seconds for each byte of each window, measured with the smallest set, if parv hashes each window as a
    whole; 0 if it doesn't, or if that set has no such case."""
    if case.command == "packets" or case.folder not in probe.folders:
        return 0
    folder = os.path.join(sets, case.folder)
    runs = [run(by_parv(program, case, folder), folder, limit) for _ in range(2)]
    seconds = limit if None in runs else best(runs).processor
    return seconds / (probe.slice_size * probe.data) if seconds > PLAIN else 0


def ratio(ours, theirs):
    return f"{ours / theirs:6.2f}" if theirs > 0 else "     -"


def in_turn(programs, case, folder, limit, rounds, alone):
    """Returns the best runs of each program, and of the two compared ones; None for a program that was stopped."""
    commands = [*(by_parv(program, case, folder) for program in programs), *beside(case, folder, alone)]
    turns = [[run(command, folder, limit) for command in commands] for _ in range(rounds)]
    return [None if None in runs else best(runs) for runs in zip(*turns)]


def columns(ours, theirs, threads):
    """Returns the columns of a program: processor time and time on the clock, each compared with one of the two
    others."""
    return f"{ours.processor:8.3f} {theirs.processor:8.3f} {ratio(ours.processor, theirs.processor)} " \
           f"{ours.wall:9.3f} {threads.wall:8.3f} {ratio(ours.wall, threads.wall)} " \
           f"{ours.memory / 1024:8.1f} {theirs.memory / 1024:7.1f}"


def rows(programs, costs, case, shape, folder, limit, rounds, alone):
    """Returns the text for each program, and how the answers of two differ; None for that if not both were run."""
    over = f"not measured (over {limit:g} s)"
    answers = [answer(program, case, folder, limit) if cost * shape.slice_size * shape.data <= limit else None
               for program, cost in zip(programs, costs)]
    if not any(answers):
        return [over for _ in programs], None
    differs = difference(*answers) if len(programs) == 2 and all(answers) else None
    theirs = run(beside(case, folder, alone)[-1], folder, limit)
    if theirs is None:
        return [f"not measured ({case.beside} over {limit:g} s)" for _ in programs], differs
    texts = [disagreement(case, shape, folder, ours, theirs.status) if ours else over for ours in answers]
    measured = [place for place, text in enumerate(texts) if text is None]
    if not measured:
        return texts, differs
    *runs, theirs, threads = in_turn([programs[place] for place in measured], case, folder, limit, rounds, alone)
    for place, ours in zip(measured, runs):
        texts[place] = columns(ours, theirs, threads) if ours and theirs and threads else over
    if len(runs) == 2 and all([*runs, theirs, threads]):
        texts[0] += f"        {ratio(runs[0].processor, runs[1].processor)}"
    return texts, differs


def sets_for(cases, size, shapes):
    """Returns the folder of each shape that has one of these cases."""
    return {shape: sets_of(ROOT, size, shape) for shape in shapes
            if any(case.folder in shape.folders for case in cases)}


def say_machine(size, rounds, limit, alone):
    with open("/proc/cpuinfo") as file:
        names = [line.split(":", 1)[1].strip() for line in file if line.startswith("model name")]
    version = subprocess.run(["par2", "--version"], capture_output=True, text=True).stdout.strip()
    words = " ".join(["par2 verify", *alone[1]]) if alone[1] else " ".join([*alone[0], "par2 verify"])
    print(f"processor: {names[0] if names else 'unknown'}, {os.cpu_count()} cores, load {os.getloadavg()[0]:.1f}")
    print(f"par2: {version}, on one thread by `{words}`")
    print(f"parv: {PARV}")
    if BEFORE:
        print(f"before: {BEFORE}")
    print(f"{size} sets, best of {rounds} rounds; a run may take {limit:g} s")


def say_heading(other):
    print(f"\n{'':35} processor time, s         clock, s                  peak, MiB")
    print(f"{'case':26} {'slices':8} {'parv':>8} {other:>8}  ratio {'parv':>9} {other:>8}  ratio "
          f"{'parv':>8} {other:>7}{'   parv/before' if BEFORE else ''}")


def chosen():
    """Returns the size and the cases that the arguments ask for."""
    size, *begins = sys.argv[1:] or ["small"]
    cases = [case for case in CASES if case.name.startswith(tuple(begins or [""]))]
    if size not in SHAPES or not all(any(case.name.startswith(begin) for case in cases) for begin in begins):
        sys.exit("usage: bench.py [small|large [CASE ..]], where a CASE is how one of these begins: "
                 + "; ".join(case.name for case in CASES))
    return size, cases


def makeable(cases):
    """Returns the cases that can be made, and prints a line for each of the others."""
    lacking = [case for case in cases if case.program and not disc_images.found(case.program)]
    for case in lacking:
        print(f"{case.name}: left out, since {case.program} isn't installed")
    return [case for case in cases if case not in lacking]


def main():
    size, cases = chosen()
    if not shutil.which("par2"):
        sys.exit("bench: par2 isn't here, so nothing is measured: apt-get update && apt-get install par2")
    if not os.access(PARV, os.X_OK):
        sys.exit(f"bench: no program at {PARV}: make build")
    if BEFORE and not os.access(BEFORE, os.X_OK):
        sys.exit(f"bench: no program before at {BEFORE}")
    programs = [PARV, BEFORE] if BEFORE else [PARV]
    rounds = int(os.environ.get("ROUNDS") or ROUNDS[size])
    limit = float(os.environ.get("LIMIT") or LIMIT[size])
    cases, alone = makeable(cases), one_thread()
    probe = SHAPES["small"][0]
    probes, sets = sets_for(cases, "small", [probe]), sets_for(cases, size, SHAPES[size])
    say_machine(size, rounds, limit, alone)
    wrong, compared, differing, other = False, 0, 0, None
    for case in cases:
        if case.beside != other:
            other = case.beside
            say_heading(other)
        costs = [window_cost(program, case, probe, probes.get(probe), limit) for program in programs]
        for shape in SHAPES[size]:
            if case.folder not in shape.folders:
                continue
            folder = os.path.join(sets[shape], case.folder)
            texts, differs = rows(programs, costs, case, shape, folder, limit, rounds, alone)
            wrong = wrong or any(text.startswith("NOT") for text in texts)
            print(f"{case.name:26} {size_text(shape.slice_size):8} {texts[0]}", flush=True)
            for text in texts[1:]:
                print(f"{'  before':26} {'':8} {text}", flush=True)
            compared += differs is not None
            if differs:
                differing += 1
                print(f"DIFFERENT ANSWERS: {differs}: parv {' '.join(case.words)} in {folder}", flush=True)
    if BEFORE:
        print(f"DIFFERENT ANSWERS in {differing} of {compared} cases" if differing
              else f"The two programs answer alike in {compared} cases.")
    return 1 if wrong or differing else 0


if __name__ == "__main__":
    sys.exit(main())
