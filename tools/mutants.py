#!/usr/bin/env python3
"""Tries mutants: the prover must refuse a crate with any of them.

usage: mutants.py [CRATE..]
       mutants.py --dry [FOLDER]
       mutants.py --promises

It tries the mutants of the named crates, or of all: those of must-fail/, which `rt ci` tries too, and those of mutants/. It
works on a copy of the crates, so that you can go on. There it checks each crate, beginning with what `rt check` kept. Then
each mutant is put into a copy of its own, where `rt check` must fail. As many run at once as there are processors and
memory; RT_JOBS sets another number. What `rt check` printed is in out/mutants/CRATE/NAME.

A mutant that was tried before is not tried again if it, its crate, those below it and the toolchain are the same. If ANEW is
set, all are.

A line for each crate counts its refusals by what the prover prints:

    goal      a clause, an invariant or a requirement isn't proved. Only this shows that the contract refuses the mutant
    script    a proof script doesn't fit the mutant's code, as it might not fit code that is right
    limit     a search ended at its limit

A mutant fails if it is proved, if it can't be applied or read, or if its check came to no verdict; a line says so. Another
line names each mutant of must-fail/ that isn't refused at a goal. The last line counts those that passed and that failed.

With --dry it tries none. It reports each mutant whose texts don't occur once in the sources, which `rt ci` passes over, and
each of must-fail/ that has no line `# guards: ` with the promise that it guards. FOLDER is a copy of the repository. With
--promises, it prints these promises.
"""

import collections
import glob
import hashlib
import json
import os
import re
import shutil
import subprocess
import sys
import tempfile
import threading
import time
from concurrent.futures import ThreadPoolExecutor

sys.path[0] = os.path.dirname(os.path.realpath(__file__))

from crates import PARTS, TOP, below, copied, lasting, libraries, read
from faults.fault import Edits, Misfit, fields_of

LOGS = os.path.join(TOP, "out/mutants")
KEPT = os.path.join(LOGS, "kept.json")
FOLDERS = ("must-fail", "mutants")
GOAL, SCRIPT, LIMIT, FAILED = "goal", "script", "limit", "FAILED"
BYTES_FOR_EACH = 3_000_000_000

# A message of the prover about a goal: of a search that a script calls, or of its own search, where there is no script.
MESSAGE = re.compile(r"^(?:note: )?\S+:\d+:\d+: (?:error: `(?P<script>[^`]+)`: |it is not proved that .*\(`(?P<goal>[^`]+)`\))")
# What a message says of a goal that has no proof, and of a search that ended before it knew.
NO_PROOF = re.compile(r"it is not proved that|no proof of |found no proof|does not follow")
NOT_KNOWN = re.compile(r"stopped at its own limit|give the call less to do|list the missing equation")
# A check that ended at a limit of the prover, with no verdict.
NO_VERDICT = re.compile(r"ran out of |outgrew the memory limit|stopped at the step limit")
# What is said of a text that names something that isn't there.
UNREAD = re.compile(r"is not in scope|has no field|is no name|operand is missing|expected the end|cannot continue")
# Goals of safety, and the specifications of proofs by hand.
NO_CONTRACT = re.compile(r"overflow_|bounds-|.*_spec$")

Mutant = collections.namedtuple("Mutant", "crate folder name")


def mutants_of(crate, top=TOP):
    return [Mutant(crate, folder, os.path.basename(path).removesuffix(".edit")) for folder in FOLDERS
            for path in sorted(glob.glob(os.path.join(top, "crates", crate, folder, "*.edit")))]


def path_of(mutant, top=TOP):
    return os.path.join(top, "crates", mutant.crate, mutant.folder, mutant.name + ".edit")


def log_of(mutant):
    return os.path.join(LOGS, mutant.crate, mutant.name)


def texts_with(mutant, top):
    """Returns the texts of the files that a mutant changes, by path, or raises Misfit."""
    edits = Edits()
    for key, value in fields_of(read(path_of(mutant, top))):
        if not edits.take(key, value):
            raise Misfit(f"has a line that isn't understood: {key}: {value}")
    if not edits.are_whole():
        raise Misfit("replaces nothing, or lacks the text to put in")
    return edits.made(os.path.join(top, "crates", mutant.crate))


def promise_of(path):
    """Returns what a mutant of must-fail/ guards, which a comment in its file says."""
    found = re.search(r"^# guards: (.+)$", read(path), re.M)
    return found[1] if found else None


def is_unread(line, changed):
    """Returns whether a line says that the prover can't read a text of src/ or specs/, or of a file that the mutant changes."""
    head = re.match(r"(?:\./)?(\S+?):\d+:\d+: error: (`[^`]*`: )?(.*)", line)
    return bool(head) and (head[1].startswith(("src/", "specs/")) or head[1] in changed) and (not head[2] or bool(UNREAD.search(head[3])))


def kind_of(status, said, changed=()):
    """Returns how the prover refused a mutant that changes these files, or that it failed, and what shows it."""
    lines = said.split("\n")
    if status == 0:
        return FAILED, "is still proved"
    if unread := next((line for line in lines if is_unread(line, changed)), None):
        return FAILED, f"can't be read: {unread[:200]}"
    if not re.search(r"^logic=not-proved", said, re.M):
        first = next((line for line in lines if "error" in line), said.strip())
        return (LIMIT, "no verdict") if NO_VERDICT.search(said) else (FAILED, f"came to no verdict: {first[:200]}")
    told = [(head["script"] or head["goal"], line) for line in lines if (head := MESSAGE.match(line))]
    for kind, words in ((GOAL, NO_PROOF), (LIMIT, NOT_KNOWN), (SCRIPT, re.compile(""))):
        if goal := next((goal for goal, line in told if words.search(line) and not (kind == GOAL and NO_CONTRACT.match(goal))), None):
            return kind, goal
    return SCRIPT, "no goal is named"


class Copy:
    """A copy of the crates, in which each is checked before its mutants are tried."""

    def __init__(self, at):
        self.at, self.of = at, libraries()
        copied(TOP, {crate: (*PARTS, *FOLDERS, "out/incremental", "out/rlib") for crate in self.of}, at)

    def sum_of(self, crate):
        """Returns a checksum of what a verdict on a mutant of the crate rests on, but for the mutant."""
        parts = hashlib.sha256(read(os.path.join(os.path.dirname(os.path.realpath(shutil.which("rt"))), "../KIT-ID")).encode())
        for name in sorted(below(crate, self.of)):
            for path in sorted(it for part in PARTS for it in glob.glob(f"{self.at}/crates/{name}/{part}/**/*", recursive=True)):
                if os.path.isfile(path):
                    parts.update(os.path.relpath(path, self.at).encode() + b"\0" + read(path).encode() + b"\0")
        return parts.hexdigest()

    def check(self, crate, jobs):
        """Checks a crate as it is, and returns whether it is proved."""
        return run_check(f"{self.at}/crates/{crate}", jobs, os.path.join(LOGS, crate, "as-it-is")) == 0

    def attempt(self, mutant):
        """Puts a mutant into a copy of its crate over the libraries below, and returns the exit status of a check."""
        crate, texts = mutant.crate, texts_with(mutant, self.at)
        with tempfile.TemporaryDirectory(prefix="parv-mutant-") as room:
            copied(self.at, {name: (*PARTS, "out/incremental" if name == crate else "out/rlib") for name in below(crate, self.of)}, room)
            for path, text in texts.items():
                with open(os.path.join(room, os.path.relpath(path, self.at)), "w", encoding="utf-8") as file:
                    file.write(text)
            return run_check(f"{room}/crates/{crate}", 1, log_of(mutant))


def run_check(folder, jobs, log):
    os.makedirs(os.path.dirname(log), exist_ok=True)
    with open(log, "w", encoding="utf-8") as said:
        return subprocess.run(["rt", "check", "--jobs", str(jobs)], cwd=folder, stdin=subprocess.DEVNULL, stdout=said,
                              stderr=subprocess.STDOUT).returncode


def at_once():
    """Returns how many checks run at once."""
    free = int(re.search(r"MemAvailable: +(\d+)", read("/proc/meminfo"))[1]) * 1024
    return int(os.environ.get("RT_JOBS") or max(1, min(len(os.sched_getaffinity(0)), free // BYTES_FOR_EACH)))


class Verdicts:
    """The exit statuses of the checks with mutants, by a checksum of all that they rest on. Their kind is read off their logs."""

    def __init__(self):
        self.kept, self.writing = {}, threading.Lock()
        if os.path.isfile(KEPT) and not os.environ.get("ANEW"):
            self.kept = json.loads(read(KEPT))

    def name_of(self, mutant, stands_on):
        return hashlib.sha256((stands_on + str(list(fields_of(read(path_of(mutant)))))).encode()).hexdigest()

    def is_known(self, mutant, stands_on):
        return self.name_of(mutant, stands_on) in self.kept and os.path.isfile(log_of(mutant))

    def take(self, mutant, stands_on, attempt):
        """Returns what became of a mutant, and whether this run tried it."""
        name, is_new = self.name_of(mutant, stands_on), not self.is_known(mutant, stands_on)
        try:
            status = attempt(mutant) if is_new else self.kept[name]
        except Misfit as why:
            return (FAILED, str(why)), True
        found = kind_of(status, read(log_of(mutant)), {value for key, value in fields_of(read(path_of(mutant))) if key == "file"})
        if is_new and found[0] != FAILED:
            with self.writing:
                self.kept[name] = status
                with open(KEPT + ".new", "w", encoding="utf-8") as file:
                    json.dump(self.kept, file, indent=0)
                os.replace(KEPT + ".new", KEPT)
        return found, is_new


def tell(crate, found, seconds):
    """Prints what became of the mutants of a crate, and returns how many failed."""
    counts = collections.Counter(kind for _, (kind, _), _ in found)
    tried = sum(is_new for _, _, is_new in found)
    for mutant, (kind, why), _ in found:
        name = f"crates/{crate}/{mutant.folder}/{mutant.name}.edit"
        if kind == FAILED:
            print(f"FAILED: {name} {why}")
        elif kind != GOAL and mutant.folder == "must-fail":
            print(f"only at a {kind}: {name}: {why[:200]}")
    kinds = ", ".join(f"{kind} {counts[kind]}" for kind in (GOAL, SCRIPT, LIMIT))
    print(f"{crate}: {len(found)} mutants: {kinds}, failed {counts[FAILED]}; {tried} tried now, {lasting(seconds)}", flush=True)
    return counts[FAILED]


def try_all(crates, of):
    """Tries the mutants of the crates, lowest crates first, and returns how many passed and how many failed."""
    os.makedirs(LOGS, exist_ok=True)
    verdicts, passed, failed = Verdicts(), 0, 0
    with tempfile.TemporaryDirectory(prefix="parv-mutants-") as at, ThreadPoolExecutor(at_once()) as pool:
        copy, waiting = Copy(at), collections.deque()

        def tell_next():
            nonlocal passed, failed
            crate, tasks, began = waiting.popleft()
            wrong = tell(crate, [(mutant, *task.result()) for mutant, task in tasks], time.monotonic() - began)
            passed, failed = passed + len(tasks) - wrong, failed + wrong

        for crate in crates:
            began, mutants = time.monotonic(), mutants_of(crate)
            stands_on = copy.sum_of(crate)
            is_new = any(not verdicts.is_known(it, stands_on) for it in mutants)
            if is_new and not copy.check(crate, at_once()):
                print(f"FAILED: {crate} isn't proved as it is, so none of its {len(mutants)} mutants was tried: {LOGS}/{crate}/as-it-is")
                failed += len(mutants)
                continue
            waiting.append((crate, [(it, pool.submit(verdicts.take, it, stands_on, copy.attempt)) for it in mutants], began))
            # The next crate is checked while the last mutants of this one are tried.
            while len(waiting) > 1:
                tell_next()
        while waiting:
            tell_next()
    return passed, failed


def dry(top):
    """Prints which mutants can't be applied, and which don't say what they guard. Returns the exit status."""
    crates = sorted({path.split(os.sep)[-3] for folder in FOLDERS for path in glob.glob(f"{top}/crates/*/{folder}/*.edit")})
    mutants, wrong = [mutant for crate in crates for mutant in mutants_of(crate, top)], 0
    names = collections.Counter((mutant.crate, mutant.name) for mutant in mutants)
    for mutant in mutants:
        why = "is in both folders" if names[mutant.crate, mutant.name] > 1 else None
        if mutant.folder == "must-fail" and not promise_of(path_of(mutant, top)):
            why = "has no line '# guards: '"
        try:
            texts_with(mutant, top)
        except Misfit as misfit:
            why = str(misfit)
        if why:
            wrong += 1
            print(f"FAILED: crates/{mutant.crate}/{mutant.folder}/{mutant.name}.edit {why}")
    if mutants and not wrong:
        print(f"ok: each of {len(mutants)} mutants applies, and each of must-fail/ says what it guards")
    elif not mutants:
        print("FAILED: there is no mutant")
    return 1 if wrong or not mutants else 0


def main():
    if sys.argv[1:2] == ["--dry"]:
        return dry(sys.argv[2] if len(sys.argv) > 2 else TOP)
    of = libraries()
    crates = sorted((it for it in of if mutants_of(it)), key=lambda it: (len(below(it, of)), it))
    words = sys.argv[1:]
    if words == ["--promises"]:
        for crate in crates:
            for mutant in mutants_of(crate):
                if mutant.folder == "must-fail":
                    print(f"{crate}/{mutant.name}: {promise_of(path_of(mutant)) or 'not said'}")
        return 0
    if any(it not in crates for it in words):
        sys.exit(f"mutants.py: the crates with mutants are: {' '.join(crates)}")
    print(f"Tries the mutants of {', '.join(words or crates)}, {at_once()} at once. Logs: out/mutants.", flush=True)
    passed, failed = try_all([it for it in crates if not words or it in words], of)
    print(f"mutants: {passed} passed, {failed} failed")
    return 1 if failed else 0


if __name__ == "__main__":
    sys.exit(main())
