"""Makes hostile runs of a command, from a seed, and prints each promise that doesn't hold, with what has led to it. At
the end there is a line for each class, with the numbers of its runs and of how they have ended.

usage: python3 -m tests.hostile repair|rescue SEED NUMBER [CLASS]      in the folder commands/; PARV names the program

A run of a seed is the same each time, so `FIRST-LAST` in the place of NUMBER makes only these. (Inodes and
times differ.) Losses of power need the right to mount a file system.
"""

from __future__ import annotations

import collections
import os
import shutil
import sys
from random import Random
from typing import Counter, Dict

from ..rooms import PARV
from . import of_repair, of_rescue
from .promises import Broken, Log

sys.dont_write_bytecode = True
COMMANDS = {"repair": (of_repair.run, of_repair.CLASSES), "rescue": (of_rescue.run, of_rescue.CLASSES)}


def main() -> int:
    if len(sys.argv) not in (4, 5) or sys.argv[1] not in COMMANDS:
        print(__doc__, file=sys.stderr)
        return 3
    if not shutil.which(PARV):
        print(f"cannot run {PARV}: name parv by PARV", file=sys.stderr)
        return 6
    run, classes = COMMANDS[sys.argv[1]]
    first, dash, last = sys.argv[3].partition("-")
    numbers = range(int(first), int(last) + 1) if dash else range(int(first))
    if os.geteuid() or not shutil.which("mkfs.ext4"):
        print("not run: losses of power: they need the right to mount, and mkfs.ext4")
        classes = [kind for kind in classes if kind != "power"]
    tally: Dict[str, Counter[str]] = {kind: collections.Counter() for kind in classes}
    for number in numbers:
        kind, log = classes[number % len(classes)], Log()
        if kind not in (sys.argv[4:] or [kind]):
            continue
        try:
            ended = run(kind, Random(f"{sys.argv[2]} {number}"), log)
        except Exception as what:       # a fault of the generator is shown with its run too
            ended = "BROKEN"
            name = "" if isinstance(what, Broken) else type(what).__name__ + " "
            print(f"FAILED: {sys.argv[1]} {sys.argv[2]} {number} {kind}: {name}{what}", *log.lines, sep="\n    ",
                  flush=True)
        tally[kind][ended] += 1
    for kind, counts in tally.items():
        ends = ", ".join(f"{ended} {counts[ended]}" for ended in sorted(counts))
        print(f"{kind}: {sum(counts.values())} runs: {ends}")
    return 1 if any(counts["BROKEN"] for counts in tally.values()) else 0


if __name__ == "__main__":
    sys.exit(main())
