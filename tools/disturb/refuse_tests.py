#!/usr/bin/env python3
"""Refuses each allocation of each test of a test program in turn, or each and all later ones, or none.

usage: refuse_tests.py LIBRARY one|later|none PROGRAM [WORD [SAID,SAID..]]

LIBRARY is disturb.c, built. PROGRAM is the program that `rt test` and `rt ci` leave at crates/NAME/out/NAME_tests.
Only tests whose names contain WORD run. Each run must pass, or fail with a message about being out of memory: a test
that fails in any other way got a wrong result instead of that error. Each run must free its memory and close its
files, also if nothing is refused, and a test must pass if the refused allocation is beyond its last one. Of a test
with more than a thousand allocations, about a hundred are refused, spread evenly. Each SAID must be in the message of
some run that failed.
"""

import os
import subprocess
import sys
import tempfile
from concurrent.futures import ThreadPoolExecutor

WANT = ("error: AllocError", "Error: AllocError", "error: AllocFailed", "OutOfMemory", "Memory")


def run(library, program, test, variable, number, folder):
    """Returns the exit status, the messages, and the report: whether it refused, how much wasn't freed, how much was
    taken."""
    report = os.path.join(folder, f"{test}-{number}")
    env = {"LD_PRELOAD": library, variable: str(number), "REPORT": report}
    ran = subprocess.run([program, test], env=env, cwd=folder, capture_output=True, timeout=600)
    try:
        with open(report) as file:
            met, left, unclosed, taken = map(int, file.read().split()[:4])
        left = abs(left) + abs(unclosed)
        os.remove(report)
    except OSError:
        met, left, taken = 1, None, 0
    return ran.returncode, (ran.stderr + ran.stdout).decode(errors="replace"), met, left, taken


def refuse(library, program, test, variable, folder):
    """Returns the number of runs, how many of them failed, and their messages; or a text that says what was wrong."""
    status, said, _, whole, taken = run(library, program, test, variable or "REFUSE", 10**9, folder)
    if status != 0 or whole is None:
        return f"{test} fails undisturbed, or leaves no report: {said[:200]}"
    if whole:
        return f"{test}, undisturbed: {whole} allocations and files not given back"
    runs = ended = 0
    ends = ""
    step = max(1, taken // 100) if taken > 1000 else 1
    for number in range(1, taken + 1, step) if variable else []:
        status, said, met, left, _ = run(library, program, test, variable, number, folder)
        runs += 1
        ended += status != 0
        ends += said if status else ""
        if status != 0 and (status not in (101, -6) or not any(want in said for want in WANT)):
            return f"{test}, allocation {number}: status {status}, {said[:300]}"
        if not met:
            return f"{test}, allocation {number}: it was not refused"
        # A failed assertion aborts a test without a report.
        if status != -6 and (left is None or left):
            return f"{test}, allocation {number}: {left} allocations and files not given back"
    return runs, ended, ends


def main():
    if len(sys.argv) < 4 or sys.argv[2] not in ("one", "later", "none"):
        sys.exit(__doc__.split("\n\n")[1])
    library, mode, program = os.path.abspath(sys.argv[1]), sys.argv[2], os.path.abspath(sys.argv[3])
    word = sys.argv[4] if len(sys.argv) > 4 else ""
    wanted = sys.argv[5].split(",") if len(sys.argv) > 5 else []
    variable = {"one": "REFUSE", "later": "REFUSE_LATER", "none": None}[mode]
    listed = subprocess.run([program, "--list"], capture_output=True, text=True, check=True).stdout
    tests = [line.removesuffix(": test") for line in listed.splitlines() if line.endswith(": test") and word in line]
    name = os.path.basename(program)
    with tempfile.TemporaryDirectory() as folder, ThreadPoolExecutor(os.cpu_count()) as pool:
        answers = list(pool.map(lambda test: refuse(library, program, test, variable, folder), tests))
    wrong = [answer for answer in answers if isinstance(answer, str)]
    for answer in wrong:
        print(f"FAILED: {name}: {answer}")
    if not tests:
        print(f"FAILED: {name}: no test's name has {word}")
    elif not wrong and mode == "none":
        print(f"ok: {name}: each of {len(tests)} tests gives back what it takes")
    elif not wrong:
        runs, ended = (sum(answer[place] for answer in answers) for place in (0, 1))
        if not ended:
            print(f"FAILED: {name}: no run was refused memory")
            return 1
        for want in wanted:
            if not any(want in answer[2] for answer in answers):
                print(f"FAILED: {name}: no test said {want}")
                return 1
        what = "an allocation" if mode == "one" else "an allocation and all later ones"
        print(f"ok: {name}: {what} refused in each of {runs} runs of {len(tests)} tests, {ended} ended with want of "
              "memory, none in another way")
    return 1 if wrong or not tests else 0


if __name__ == "__main__":
    sys.exit(main())
