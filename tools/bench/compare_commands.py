#!/usr/bin/env python3
"""Compares the commands of two folders over damaged sets: their texts, exit statuses and files must be the same.

usage: compare_commands.py BEFORE AFTER [--sets N] [--seed N] [--first N] [--content FOLDER] [--jobs N]

BEFORE and AFTER are folders such as commands/bin. It makes N folders (200) of tools/make/damaged_folders.py. Over each
it runs the commands of BEFORE and then those of AFTER, at the same paths and with the same program. Commands that write
get a fresh copy, and parv-tree --state runs again after further damage. With --jobs it does so for several folders side
by side. A command that isn't in both is left out.

It compares standard output, standard error, the exit status, and what is there afterwards: names, kinds, modes, bytes,
and times that aren't new. What differs between any two runs is left out: bytes of the record of parv-rescue, whose
marks depend on inodes and times; the secret of the user; temporary files; and, in texts, the folder of the commands.

It prints each difference with the seed and the number of the folder, and finally a table: for each command, how often
it ended with which status. The exit status is 1 if something differs. Needs par2 (Debian package par2). PARV is the
program (crates/parv/out/parv).
"""

import difflib
import functools
import hashlib
import os
import shutil
import subprocess
import sys
import tempfile
from collections import Counter
from concurrent.futures import ProcessPoolExecutor
from typing import Dict, Iterator, List, NamedTuple, Sequence, Set, Tuple

sys.path[0] = os.path.dirname(os.path.dirname(os.path.realpath(__file__)))  # imports are relative to tools/

from hostile.runs import PARV
from make import damaged_folders
from make.damaged_folders import Folder

RECORD = ".parv-rescue"
NEW = 11 * 10 ** 17         # files that are newer than this are new (in nanoseconds)
LONGEST = 300               # seconds of a run
Step = Tuple[str, ...]      # a command and its arguments, or FRESH or MORE
FRESH, MORE = ("write the folder anew",), ("write the folder with further damage",)


class Run(NamedTuple):
    """How a command ended, and what was there then."""
    status: str
    out: List[str]
    err: List[str]
    entries: Dict[str, tuple]


def steps_of(folder: Folder) -> Iterator[Step]:
    """Yields what is run, in a folder beside the damaged one. Some commands pass names on to parv as they are, which
    rejects those that aren't UTF-8; so these get the other names too."""
    top, chosen = "../folder", [["--set", one.id] for one in folder.sets] if len(folder.sets) > 1 else []
    every = [f"{top}/{name}" for name in [*folder.packets, *folder.files, *folder.links]]
    plain = [name for name in every if name.encode("utf-8", "replace").decode() == name]
    for options in [], ["--json"], ["-q"], ["--tails", "-j2"], ["--state", "state"]:
        yield ("parv-tree", *options, top)
    for options in [], ["--tails"]:
        yield ("parv-watch", *options, top, "0", "1")
    for options in [], ["-B", top], ["-B", top, "--tails", "--html", "page", "--svg", "picture"], *chosen:
        yield ("parv-map", "--width", "80", *options, *every)
    for words in ["verify", "-B", top], ["verify", "-B", top, "--tails"], ["find"]:
        yield ("parv-progress", *words, *plain)
    limit = "200" if sum(map(len, folder.files.values())) < 20000 else "5000"
    for words in ["parts", limit], ["parts", "1"], ["--tails", "parts with tails", limit]:
        yield ("parv-parts", *words, *plain)
    if plain != every:
        yield from [("parv-progress", "verify", "-B", top, *every), ("parv-parts", "parts of all", limit, *every)]
    for words in ["new"], ["--tails", "new"], ["--tails", "new with tails"], *([*words, words[1]] for words in chosen):
        yield ("parv-rescue", *words, *every)
    for words in [], *chosen:
        yield from [("parv-repair", *words, "--dry-run", top), ("parv-repair", *words, top),
                    ("parv-repair", *words, top), FRESH]
    yield from [("parv-repair", "--remove-backups", top), MORE]
    for options in [], ["--json"]:
        yield ("parv-tree", "--state", "state", *options, top)


def entries_of(work: str) -> Dict[str, tuple]:
    """Returns what is compared of everything below a folder."""
    return {path: (mode, time < NEW and time, os.path.basename(path) != RECORD and data and hashlib.md5(data).digest())
            for path, (mode, time, data) in damaged_folders.entries_of(work).items()
            if not path.startswith(("home/", "temporary/"))}


def run(bin_folder: str, step: Step, work: str) -> Run:
    env = {**os.environ, "PARV": PARV, "XDG_STATE_HOME": f"{work}/home", "TMPDIR": f"{work}/temporary"}
    try:
        ended = subprocess.run([os.path.join(bin_folder, step[0]), *step[1:]], cwd=f"{work}/beside", env=env,
                               stdin=subprocess.DEVNULL, capture_output=True, timeout=LONGEST)
    except subprocess.TimeoutExpired:
        return Run("stopped", [], [], {})
    out, err = (text.replace(os.fsencode(os.path.dirname(bin_folder)), b"COMMANDS").decode("utf-8", "backslashreplace")
                for text in (ended.stdout, ended.stderr))
    return Run(f"status {ended.returncode}", out.split("\n"), err.split("\n"), entries_of(work))


def runs_of(bin_folder: str, folder: Folder, more: Folder, names: Set[str], work: str) -> Iterator[Tuple[Step, Run]]:
    """Yields each step that runs a command of these names, and how it ended."""
    shutil.rmtree(work, ignore_errors=True)
    for name in "beside", "home", "temporary":
        os.makedirs(os.path.join(work, name))
    top = folder.write(os.path.join(work, "folder"))
    for step in steps_of(folder):
        if step in (FRESH, MORE):
            shutil.rmtree(top)
            (folder if step == FRESH else more).write(top)
        elif step[0] in names:
            yield step, run(bin_folder, step, work)


def differences(before: Run, after: Run, known: Dict[str, tuple]) -> List[str]:
    """Returns lines about how two runs differ. `known` has how files differ already, and gets how they do now."""
    lines = [f"{before.status}, then {after.status}"] if before.status != after.status else []
    for one, other in (before.out, after.out), (before.err, after.err):
        lines += list(difflib.unified_diff(one, other, "before", "after", n=1, lineterm=""))[:20]
    pairs = {path: (before.entries.get(path), after.entries.get(path)) for path in {*before.entries, *after.entries}}
    new = sorted(path for path, pair in pairs.items() if pair[0] != pair[1] and known.get(path) != pair)
    known.update(pairs)
    return lines + [f"not the same afterwards: {path!a}" for path in new[:20]]


def compare(bins: Sequence[str], names: Set[str], seed: int, real: List[str], number: int) -> Tuple[Counter, List[str]]:
    """Compares the runs over one folder. Counts them by command, status and whether they differ, and returns lines."""
    counts: Counter = Counter()
    lines: List[str] = []
    known: Dict[str, tuple] = {}
    folder = damaged_folders.make(seed, number, real)
    more = damaged_folders.damage_more(folder, f"{seed} {number}")
    with tempfile.TemporaryDirectory() as top:
        before, after = ([*runs_of(each, folder, more, names, os.path.join(top, "work"))] for each in bins)
    for (step, one), (_, other) in zip(before, after):
        different = differences(one, other, known)
        counts[step[0], one.status, bool(different)] += 1
        if different:
            lines += [f"seed {seed}, number {number}, {' '.join(step)[:200]!a}", *(f"  {line}" for line in different)]
    counts.update((step[0], "left out", False) for step in steps_of(folder)
                  if step not in (FRESH, MORE) and step[0] not in names)
    return counts, lines


def main() -> int:
    parser = damaged_folders.parser_of(__doc__)
    parser.add_argument("bins", nargs=2, type=os.path.abspath)
    parser.add_argument("--jobs", type=int, default=1)
    options = parser.parse_args()
    names = set.intersection(*(set(os.listdir(each)) for each in options.bins))
    each = functools.partial(compare, options.bins, names, options.seed, options.content)
    counts: Counter = Counter()
    with ProcessPoolExecutor(options.jobs) as pool:
        for some, lines in pool.map(each, range(options.first, options.first + options.sets)):
            counts += some
            for line in lines:
                print(line.encode("ascii", "backslashreplace").decode(), flush=True)
    for (name, end, differs), count in sorted(counts.items()):
        print(f"{name}, {end}: {count}{', DIFFERENT' if differs else ''}")
    return 1 if any(differs for _, _, differs in counts) else 0


if __name__ == "__main__":
    sys.exit(main())
