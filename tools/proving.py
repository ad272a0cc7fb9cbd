#!/usr/bin/env python3
"""Runs a command of `rt` that proves crates, and says how far it is.

usage: proving.py LOG COMMAND..

LOG gets all that the command prints. Lines with hours and minutes say which crate is being proved, how many are left, and
how long each took. If the command is `rt ci`, all crates count, its verdicts are shown too, and a last line says how many
minutes of a processor went into proofs, proofs of tests, and mutants. Otherwise only the crate of the current folder and
those below it count, and the end of LOG is shown if the command fails. The exit status is that of the command.

`rt` prints nothing when it begins with a crate. So this looks at its processes: the arguments of a check name its crate, and
say whether it is for tests, and its folder says whether it is for a mutant.
"""
import collections
import os
import re
import signal
import subprocess
import sys
import threading
import time

sys.dont_write_bytecode = True

from crates import below, is_under, lasting, libraries, processes

PROOF, TESTS, MUTANT = "proofs", "proofs of tests", "mutants"
EVERY = 10

Check = collections.namedtuple("Check", "crate kind")


def checks_under(top):
    """Returns the checks that run below this process, by number, with their seconds of a processor."""
    all_of, found = processes(), {}
    for pid, (parent, name, seconds) in all_of.items():
        above = all_of.get(parent)
        # A check with several jobs splits into processes of its own.
        if name != "rattle" or not is_under(top, parent, all_of) or above and above[1] == "rattle":
            continue
        try:
            with open(f"/proc/{pid}/cmdline", encoding="utf-8", errors="replace") as file:
                words = file.read().split("\0")
            place = os.readlink(f"/proc/{pid}/cwd")
        except OSError:
            continue
        if "--crate-name" in words:
            kind = MUTANT if "/rt-edit-" in place else TESTS if "--test" in words else PROOF
            found[pid] = Check(words[words.index("--crate-name") + 1], kind), seconds
    return found


class Progress:
    def __init__(self, crates, of):
        self.crates, self.of = crates, of
        self.begun, self.last, self.done, self.used = {}, {}, set(), {}
        self.mutants, self.start, self.said = set(), time.monotonic(), 0

    def say(self, text):
        minutes = int(time.monotonic() - self.start) // 60
        print(f"[{minutes // 60}:{minutes % 60:02}] {text}", flush=True)

    def left(self):
        known = set(self.done).union(*(below(it.crate, self.of) - {it.crate} for it in self.begun if it.kind == PROOF))
        return f"{len(self.crates - known)} of {len(self.crates)} crates are left"

    def look(self, running):
        """Takes the checks that run now."""
        now = time.monotonic()
        for pid, (check, seconds) in running.items():
            self.used[pid] = check, seconds
            self.last[check] = now
            if check.kind == MUTANT:
                self.mutants.add(pid)
            elif check not in self.begun and check.crate in self.crates:
                self.begun[check] = now
                self.say(f"proving {'the tests of ' if check.kind == TESTS else ''}{check.crate}")
        for check in [it for it in self.begun if self.last[it] < now - 3]:
            self.end(check)
        if len(self.mutants) >= self.said + EVERY:
            self.said = len(self.mutants) // EVERY * EVERY
            self.say(f"mutants: {self.said} begun")

    def end(self, check):
        took = lasting(self.last[check] - self.begun.pop(check) + 1)
        if check.kind == PROOF:
            self.done.add(check.crate)
        self.say(f"{'the tests of ' if check.kind == TESTS else ''}{check.crate}: {took}; {self.left()}")

    def kept(self, crate):
        self.done.add(crate)
        self.say(f"{crate}: an earlier run on this machine proved it; {self.left()}")

    def minutes(self):
        used = collections.Counter()
        for check, seconds in self.used.values():
            used[check.kind] += seconds
        return ", ".join(f"{kind} {used[kind] / 60:.0f}" for kind in (PROOF, TESTS, MUTANT))


def read(lines, log, progress, shows):
    verdicts = False
    for line in lines:
        log.write(line)
        log.flush()
        kept = re.match(r"rt: (\w+) is kept: ", line)
        tried = re.match(r"rt: (\w+): trying its must-fail edits \((\d+)\)", line)
        verdicts = verdicts or re.match(r"rt: (must-fail |\w+: \d+ of its \d+ must-fail)", line)
        if shows and kept:
            progress.kept(kept[1])
        elif shows and tried:
            progress.say(f"{tried[1]}: trying its {tried[2]} mutants")
        elif shows and (verdicts or "NOT PROVED" in line or "error" in line or re.match(r"\d+ passed", line)):
            print(line, end="", flush=True)


def main():
    if len(sys.argv) < 3:
        sys.exit(__doc__)
    command, of = sys.argv[2:], libraries()
    shows = command[:2] == ["rt", "ci"]
    crates = set(of) if shows else below(os.path.basename(os.getcwd()), of)
    progress = Progress(crates, of)
    with open(sys.argv[1], "a", encoding="utf-8") as log:
        child = subprocess.Popen(command, stdin=subprocess.DEVNULL, stdout=subprocess.PIPE, stderr=subprocess.STDOUT,
                                 text=True, errors="replace")
        for number in (signal.SIGINT, signal.SIGTERM):
            signal.signal(number, lambda number, _: child.send_signal(number))
        reader = threading.Thread(target=read, args=(child.stdout, log, progress, shows))
        reader.start()
        while child.poll() is None:
            progress.look(checks_under(child.pid))
            time.sleep(1)
        reader.join()
        for check in list(progress.begun):
            progress.end(check)
        if shows:
            summary = f"rt ci took {lasting(time.monotonic() - progress.start)}; minutes of a processor: {progress.minutes()}"
            log.write(summary + "\n")
            print(summary)
    if child.returncode and not shows:
        with open(sys.argv[1], encoding="utf-8", errors="replace") as log:
            print(*log.readlines()[-40:], sep="", end="", file=sys.stderr)
    return child.returncode


if __name__ == "__main__":
    sys.exit(main())
