#!/usr/bin/env python3
"""Measures what the checks of crates cost.

usage: check_costs.py CRATE..

For each crate it prints the seconds of a processor and the memory that `rt check` takes from nothing, and `rt check --test`
if the crate has tests, and those that the last of these takes again after an edit of one function. Then come the seconds
before it proves anything, most of which go into loading the libraries below, and the ten functions or files of lemmas on
which it then spent most.

A check has one job, and works on a copy, so that you can go on. There, the libraries below are built first if `rt check`
hasn't left them built here; this isn't measured.
"""

import collections
import glob
import os
import re
import shutil
import subprocess
import sys
import tempfile
import time

sys.dont_write_bytecode = True

from crates import PARTS, TOP, below, copied, is_under, libraries, processes, read

MOST = 10
RLIB, KEPT = "out/rlib", "out/incremental"
# A private function, up to the brace that opens its body.
PRIVATE = re.compile(r"^fn (\w+)(?:.*\n(?=[ ){]))*?(?:\S.*)?\{\n", re.M)
EDIT = "    let _edited = ();\n"


def sources(folder):
    return sorted(glob.glob(f"{folder}/src/**/*.rt", recursive=True))


def seconds_under(top):
    all_of = processes()
    return sum(used for pid, (_, _, used) in all_of.items() if is_under(top, pid, all_of))


class Check:
    """A check that has ended: its status, its seconds of a processor, its MiB, and what it said."""

    def __init__(self, folder, *flags):
        self.folder, self.crate, self.said, self.ends = folder, os.path.basename(folder), [], []
        # The seconds of a processor that were used at a time.
        self.used = [(time.time(), 0.0)]
        child = subprocess.Popen(["rt", "check", "--jobs", "1", *flags], cwd=folder, stdin=subprocess.DEVNULL,
                                 stdout=subprocess.PIPE, stderr=subprocess.STDOUT, text=True, errors="replace")
        for line in child.stdout:
            self.said.append(line)
            if ended := re.match(rf"checked (?:{self.crate}::)?(\S+), \d+ of ", line):
                self.used.append((time.time(), seconds_under(child.pid)))
                self.ends.append((self.used[-1][1], ended[1]))
        _, self.status, used = os.wait4(child.pid, 0)
        child.returncode = self.status
        self.seconds, self.mib = used.ru_utime + used.ru_stime, used.ru_maxrss / 1024
        self.used.append((time.time(), self.seconds))
        self.kept = sorted((os.stat(path).st_mtime, os.path.basename(path)) for path in glob.glob(f"{folder}/{KEPT}/**/*.oantt", recursive=True))

    def seconds_at(self, when):
        """Returns the seconds of a processor that were used at this time."""
        after = next((it for it in range(1, len(self.used)) if self.used[it][0] >= when), len(self.used) - 1)
        (start, first), (end, last) = self.used[after - 1:after + 1]
        return first + (last - first) * (when - start) / (end - start or 1)

    def functions(self):
        """Returns the seconds of each function and its name, in descending order; also those of each file of lemmas.

        The prover ends with a function late, often after work on others. So this goes by the times of the files that it
        kept, a few for each function.
        """
        names, found = {name.replace("::", ".") for _, name in self.ends}, collections.Counter()
        for (before, _), (when, file) in zip(self.kept, self.kept[1:]):
            parts = file.partition(f"Rattle-{self.crate}-proofs.")[2].split(".")
            paths = [".".join(parts[:count]) for count in range(len(parts), 0, -1)]
            name = next((path for path in paths if path in names or path.endswith("Laws")), None)
            if name:
                found[name] += self.seconds_at(when) - self.seconds_at(before)
        return [(seconds, name) for name, seconds in found.most_common()]


def edited(folder):
    """Adds a statement that does nothing to the private function in the middle of a crate, and returns the function's name."""
    found = [(path, it) for path in sources(folder) for it in PRIVATE.finditer(read(path))]
    path, it = found[len(found) // 2]
    with open(path, "w", encoding="utf-8") as file:
        file.write(it.string[:it.end()] + EDIT + it.string[it.end():])
    return it[1]


def told(what, check):
    """Prints what a check cost, and its last lines if it failed. Returns whether it passed."""
    print(f"{what}: {check.seconds:.0f} s, {check.mib:.0f} MiB", flush=True)
    if check.status:
        print("NOT PROVED:\n", *check.said[-MOST:], sep="", end="", flush=True)
    return not check.status


def measure(folder):
    """Prints what the checks of the crate in this folder cost, and returns whether all of them passed."""
    crate, passed = os.path.basename(folder), True
    has_tests = any("#[test]" in read(path) for path in sources(folder))
    for flags, what in [([], "from nothing")] + [(["--test"], "from nothing with its tests")] * has_tests:
        shutil.rmtree(f"{folder}/{KEPT}", ignore_errors=True)
        whole = Check(folder, *flags)
        passed &= told(f"{crate}, {what}", whole)
    name = edited(folder)
    passed &= told(f"{crate}, after an edit of {name}", Check(folder, *flags))
    begun = whole.seconds_at(whole.kept[0][0]) if whole.kept else whole.seconds
    for seconds, name in [(begun, "before the first proof"), *whole.functions()[:MOST]]:
        print(f"{seconds:8.1f} s {name}", flush=True)
    return passed


def main():
    crates, of, passed = sys.argv[1:], libraries(), True
    if not crates or any(it not in of for it in crates):
        sys.exit(__doc__)
    for crate in crates:
        with tempfile.TemporaryDirectory(prefix="parv-costs-") as at:
            copied(TOP, {it: (*PARTS, *([RLIB, KEPT] if it != crate else [])) for it in below(crate, of)}, at)
            for name in of[crate]:
                built = subprocess.run(["rt", "lib"], cwd=f"{at}/crates/{name}", stdin=subprocess.DEVNULL, text=True,
                                       stdout=subprocess.PIPE, stderr=subprocess.STDOUT, errors="replace")
                if built.returncode:
                    sys.exit(f"{name}, below {crate}, isn't built: {built.stdout[-1000:]}")
            passed &= measure(f"{at}/crates/{crate}")
    return 0 if passed else 1


if __name__ == "__main__":
    sys.exit(main())
