#!/usr/bin/env python3
"""Compares parv-repair with `par2 repair` on sets that are damaged and renamed at random.

usage: try_repairs.py [--sets N] [--seed N] [--first N] [--content FOLDER]

It makes N folders (200) of tools/make/damaged_folders.py. The command gets the folder for each set in turn. par2 gets
copies of it, with each packet file of the set first in turn, until it has repaired all. If par2 can repair the set, the
command must end with 0 and complete files. Otherwise it may do so, or must leave each file and folder as it was, and
say why. Nothing may be lost: each content that was there is still there. Each exit status, also of a dry run, must
follow from the files and from `parv verify --tails` over copies of them under plain names. If the folder has links, the
command may also refuse them, or say that it hasn't looked at them. TMPDIR says on which file system.

It prints a line for each set, and finally how many ended in which way. The exit status is 1 if one should have ended
differently. Needs par2 (Debian package par2). PARV is the program (crates/parv/out/parv).
"""

import os
import shutil
import stat
import subprocess
import sys
import tempfile
from collections import Counter

sys.path[0] = os.path.dirname(os.path.dirname(os.path.realpath(__file__)))  # imports are relative to tools/

from hostile.runs import PARV
from make import damaged_folders
from make.damaged_folders import entries_of, read, whole_names
from make.packets import MAGIC

COMMANDS = os.path.join(os.path.dirname(sys.path[0]), "commands")
COMMAND = os.path.join(COMMANDS, "bin", "parv-repair")
STAGE = ".parv-repair"
AT_LINKS = {4, 6}       # the statuses if a name is refused, or a file isn't looked at


def verdict_of(top, one):
    """Returns the status of `parv verify --tails` over copies, under plain names, of the files that the command looks
    at."""
    copy = top + ".plain"
    os.mkdir(copy)
    words = []
    for name in sorted(name for name, entry in entries_of(top).items() if stat.S_ISREG(entry[0])):
        path, above = os.path.join(top, name), os.path.dirname(name)
        has_name = name.lower().endswith(".par2")
        is_packet_file = not above and (has_name or read(path).startswith(MAGIC))
        is_scanned = not has_name and not is_packet_file and above in ["", *map(os.path.dirname, one.files)]
        for suffix in [".par2"] * is_packet_file + [""] * (is_scanned or name in one.files):
            words.append(f"plain{len(words)}{suffix}")
            shutil.copy(path, os.path.join(copy, words[-1]))
    status = 3
    if any(word.endswith(".par2") for word in words):
        status = subprocess.run([PARV, "verify", "-q", "-q", "--tails", "--set", one.id, "--", *words], cwd=copy,
                                stderr=subprocess.DEVNULL).returncode
    shutil.rmtree(copy)
    return status


def right_statuses(top, one, truth):
    """Returns the statuses that a dry run and a run may have."""
    status = verdict_of(top, one)
    links = AT_LINKS if any(stat.S_ISLNK(mode) for mode, *_ in entries_of(top).values()) else set()
    if status == 3:     # (A file of the set may begin with a packet, and is one of no set then.)
        links = links | {4}
    if status >= 2:
        return {status} | links, {status} | links
    if len(truth.now) == len(one.files):
        return {0}, {0}
    can_repair = len(truth.repaired) == len(one.files)
    return {1} | links, ({0} if can_repair else {0, 5}) | links


def by_command(top, one, statuses):
    """Returns how the command ends, what is wrong with that, and its reason."""
    before, words = entries_of(top), [COMMAND, "--set", one.id, top]
    trial = subprocess.run([*words, "--dry-run"], capture_output=True, env={**os.environ, "PARV": PARV})
    if trial.returncode not in statuses[0] or entries_of(top) != before:
        return trial.returncode, f"the trial, which should have ended with {statuses[0]}", os.fsdecode(trial.stderr)
    run = subprocess.run(words, capture_output=True, env={**os.environ, "PARV": PARV})
    after, reason = entries_of(top), os.fsdecode(run.stderr).replace(top, "FOLDER").strip()
    contents = {data for _, _, data in after.values()}
    lost = [path for path, (_, _, data) in before.items() if data and data not in contents]
    wrong = ""
    if lost or STAGE in after:
        wrong = f"lost: {lost}, or something is left"
    elif run.returncode not in statuses[1]:
        wrong = f"it should have ended with {statuses[1]}"
    elif run.returncode == 0:
        wrong = "" if len(whole_names(top, one.files)) == len(one.files) else "said to be complete, and isn't"
    elif before != after:
        wrong = f"not left as it was: {[path for path in {*before, *after} if before.get(path) != after.get(path)]}"
    elif not reason:
        wrong = "no reason"
    return run.returncode, wrong, reason


def end_of(top, folder, one):
    """Returns how one set ended."""
    truth = damaged_folders.truth_of(folder, one)
    status, wrong, reason = by_command(top, one, right_statuses(top, one, truth))
    if wrong:
        return f"WRONG: {wrong}; status {status}, {reason}"
    if status != 0:
        return f"left as it was, status {status}: {reason}"
    return ("complete as it was" if len(truth.now) == len(one.files) else "complete, as by par2"
            if len(truth.repaired) == len(one.files) else f"complete, which par2 can't do: {truth.ends[0]}")


def main():
    options = damaged_folders.parser_of(__doc__).parse_args()
    subprocess.run([os.path.join(COMMANDS, "make_bin.sh")], check=True)
    ends = Counter()
    for number in range(options.first, options.first + options.sets):
        folder = damaged_folders.make(options.seed, number, options.content)
        for one in folder.sets:
            with tempfile.TemporaryDirectory() as work:
                end = end_of(folder.write(os.path.join(work, "folder")), folder, one)
            text = f"{number}, {', '.join(folder.notes)}: {end}"
            print(text.encode("utf-8", "backslashreplace").decode(), flush=True)
            ends[end.split(":")[0]] += 1
    for end, count in sorted(ends.items()):
        print(f"{count} {end}")
    return 1 if ends["WRONG"] else 0


if __name__ == "__main__":
    sys.exit(main())
