#!/usr/bin/env python3
"""Compares the verdict of `parv verify` with that of `par2 verify` on sets that are damaged in many ways.

usage: compare_with_par2.py [SLICE_SIZE ..]
       compare_with_par2.py --sets N [--seed N] [--jobs N]
       compare_with_par2.py --creators

Needs par2 (Debian package par2). Slices have 512 bytes, 64 KiB and 1 MiB, or the given sizes. Each case makes a new set
of three files with about thirty slices, damages the folder, and runs both programs over all files there, parv without
--tails and with it. It prints a line for each case. If the answers differ without --tails, EXPLAINED must name the
case, and with --tails they must not differ. Otherwise the exit status is 1.

With --sets, it uses N sets of damaged_sets.py. For each it prints how many slices par2, parv, and parv with --tails
need, and finally in how many sets each needs fewer. The exit status is 1 if parv with --tails needs more in some set.

With --creators, it uses the sets of creator_sets.py, each whole and without its first file. If the answers differ,
EXPLAINED_SETS must contain both. par2 must lay out the first of these sets with the same packets.

PARV is the program (crates/parv/out/parv).
"""

import argparse
import glob
import hashlib
import os
import re
import subprocess
import sys
import tempfile
from concurrent.futures import ProcessPoolExecutor

sys.path[0] = os.path.dirname(os.path.dirname(os.path.realpath(__file__)))  # imports are relative to tools/

from hostile.runs import PARV
from make import creator_sets, damaged_sets
from make.damage import cut, flip, in_file, insert, remove, swap
from models.list_packets import packets_in

VERDICTS = {0: "complete", 1: "possible", 2: "impossible", 4: "no set"}
SIZES = [512, 65536, 1048576]
# These lengths, and the places of damage below, are for slices of 512 bytes. They are multiplied for larger slices.
FILES = {"a.bin": 9000, "b.bin": 5120, "c.bin": 777}

# The cases in which the two answer differently without --tails, and why.
SHORT_SLICE = "par2 also sees a short last slice where other bytes follow it; parv where the file ends or goes on with zeros"
EXPLAINED = {
    "bytes added at the end": (("possible", 1, 8), ("possible", 0, 8), SHORT_SLICE),
    "all files joined into one": (("possible", 1, 8), ("possible", 0, 8), SHORT_SLICE),
}

# The sets of other creators about which par2 says something else, and why.
FIRST_PACKET = "par2 takes the set of the first packet, parv that of the first Main"
SIGNAL = "par2 ends by a signal where it finds a file that isn't recoverable"
EXPLAINED_SETS = {
    "names, whole": (("possible", 0, 0), ("complete", 0, 0), "par2 takes a backslash in a name for a slash"),
    "mixed, whole": (("complete", 0, 3), ("complete", 0, 2), FIRST_PACKET),
    "mixed, a file missing": (("complete", 0, 3), ("impossible", 3, 2), FIRST_PACKET),
    "others, whole": (("complete", 0, 2), ("no set", None, 2), SIGNAL),
    "others, a file missing": (("impossible", 3, 2), ("no set", None, 2), SIGNAL),
    **{f"packed, {state}": (("no set", None, None), ("no set", None, 0), "neither reads packed sets")
       for state in ["whole", "a file missing"]},
}


def volumes():
    return sorted(glob.glob("set.vol*.par2"))


def drop_volumes(keep):
    for name in volumes()[keep:]:
        os.remove(name)


def join_files():
    with open("all.bin", "wb") as out:
        for name in FILES:
            with open(name, "rb") as file:
                out.write(file.read())
            os.remove(name)


def damage_packets():
    for name in volumes():
        in_file(name, flip, os.path.getsize(name) // 2)


# The damage to the folder in each case. A slice has `times` times 512 bytes.
CASES = {
    "nothing damaged": lambda times: None,
    "a bit flipped": lambda times: in_file("a.bin", flip, 3000 * times),
    "bits flipped in many slices": lambda times: [in_file("a.bin", flip, at * times) for at in range(100, 9000, 512)],
    "a byte inserted": lambda times: in_file("a.bin", insert, 1000 * times, b"x"),
    "bytes removed": lambda times: in_file("b.bin", remove, 600 * times, 37),
    "the end cut off": lambda times: in_file("a.bin", cut, 4000 * times),
    "a short file cut": lambda times: in_file("c.bin", cut, 700 * times),
    "bytes added at the end": lambda times: in_file("c.bin", insert, 777 * times, b"more"),
    "a file renamed": lambda times: os.rename("b.bin", "other.bin"),
    "a file renamed and damaged": lambda times: (os.rename("b.bin", "other.bin"),
                                                 in_file("other.bin", flip, 10 * times)),
    "a file missing": lambda times: os.remove("c.bin"),
    "two files missing": lambda times: (os.remove("a.bin"), os.remove("b.bin")),
    "all files missing": lambda times: [os.remove(name) for name in FILES],
    "two files swapped": lambda times: (os.rename("a.bin", "t"), os.rename("b.bin", "a.bin"), os.rename("t", "b.bin")),
    "slices in another order": lambda times: in_file("a.bin", swap, 0, 512 * times),
    "all files joined into one": lambda times: join_files(),
    "one volume left, a file missing": lambda times: (drop_volumes(1), os.remove("a.bin")),
    "no volume left, a bit flipped": lambda times: (drop_volumes(0), in_file("a.bin", flip, 5000 * times)),
    "no volume left, nothing damaged": lambda times: drop_volumes(0),
    "volumes damaged, a bit flipped": lambda times: (damage_packets(), in_file("a.bin", flip, 5000 * times)),
    "the index damaged": lambda times: (in_file("set.par2", flip, 20), in_file("b.bin", flip, 2000 * times)),
    "a volume cut, a file missing": lambda times: (in_file(volumes()[-1], cut, 3000), os.remove("b.bin")),
}


def by_parv(packet_files, files, *options):
    run = subprocess.run([PARV, "verify", *options, *packet_files, *files], capture_output=True, text=True)
    counts = re.search(r"^need (\d+) have (\d+)$", run.stdout, re.M)
    return VERDICTS.get(run.returncode, run.stderr.strip()), *(map(int, counts.groups()) if counts else (None, None))


def by_par2(packet_files, files):
    run = subprocess.run(["par2", "verify", packet_files[0], *files], capture_output=True, text=True, errors="replace")
    text = run.stdout
    blocks = re.search(r"You have (\d+) out of (\d+) data blocks available", text)
    have = re.search(r"You have (\d+) recovery blocks available", text)
    if "repair is not required" in text:
        verdict, need = "complete", 0
    else:
        verdict = "possible" if "Repair is possible" in text else \
            "impossible" if "Repair is not possible" in text else "no set"
        need = int(blocks[2]) - int(blocks[1]) if blocks else None
    recovery = sum(int(n) for n in re.findall(r"including (\d+) recovery blocks", text))
    return verdict, need, int(have[1]) if have else recovery


def answers():
    """Returns the answers about the folder: of parv without --tails and with it, and of par2."""
    files = sorted(name for name in os.listdir(".") if not name.endswith(".par2"))
    packet_files = sorted(glob.glob("*.par2"))
    return by_parv(packet_files, files), by_parv(packet_files, files, "--tails"), by_par2(packet_files, files)


def as_text(name, answer):
    return "{} {}, need {} have {}".format(name, *answer)


def compare(size, case, damage):
    """Prints both answers in a case, and returns whether they are as expected."""
    times = size // 512
    with tempfile.TemporaryDirectory() as folder:
        os.chdir(folder)
        for name, length in FILES.items():
            with open(name, "wb") as out:
                out.write(hashlib.shake_256(name.encode()).digest(length * times))
        subprocess.run(["par2", "create", "-q", "-q", f"-s{size}", "-c8", "set.par2", *FILES], check=True,
                       stdout=subprocess.DEVNULL)
        damage(times)
        ours, tails, theirs = answers()
        os.chdir("/")
    explained = EXPLAINED.get(case, (ours, ours, "the same"))
    same = explained[2] if (ours, theirs) == explained[:2] and tails == theirs else "DIFFERENT"
    answered = "; ".join(map(as_text, ["parv", "parv --tails", "par2"], [ours, tails, theirs]))
    print(f"slices of {size}, {case}: {answered}; {same}", flush=True)
    return same != "DIFFERENT"


def needs_of(seed, number):
    """Returns the damage to one set, and how many slices each program needs."""
    with tempfile.TemporaryDirectory() as folder:
        told = damaged_sets.make(folder, seed, number)
        os.chdir(folder)
        needs = [need for _, need, _ in answers()]
        os.chdir("/")
    return told, needs


def compare_sets(count, seed, jobs):
    """Prints how many slices each program needs for each damaged set, and in how many sets each needs fewer."""
    all_needs = []
    with ProcessPoolExecutor(jobs) as pool:
        for number, (told, needs) in enumerate(pool.map(needs_of, [seed] * count, range(count))):
            print(f"{number}, {told}: parv needs {needs[0]}, parv --tails {needs[1]}, par2 {needs[2]}", flush=True)
            all_needs.append(needs)
    for name, place in (("parv", 0), ("parv --tails", 1)):
        more = [needs[2] - needs[place] for needs in all_needs]
        ours, theirs = [by for by in more if by > 0], [-by for by in more if by < 0]
        print(f"{name} finds more in {len(ours)} of {count} sets, {sum(ours)} slices; "
              f"par2 in {len(theirs)}, {sum(theirs)} slices, at most {max(theirs, default=0)} in one")
    return all(needs[1] <= needs[2] for needs in all_needs)


def bodies(name):
    """Returns the set ID, type and body of each packet of a file, without recovery data."""
    with open(name, "rb") as file:
        data = file.read()
    return [(data[at + 32:at + 64], data[at + 64:at + 68 if kind == "recvslic" else at + length])
            for at, length, kind, _ in packets_in(data)]


def laid_out_alike():
    """Prints and returns whether par2 makes the packet files of `interleaved` from its files."""
    with tempfile.TemporaryDirectory() as folder:
        creator_sets.write(folder, creator_sets.interleaved())
        os.chdir(folder)
        ours = {name: bodies(name) for name in glob.glob("*.par2")}
        for name in ours:
            os.remove(name)
        subprocess.run(["par2", "create", "-q", "-q", f"-s{creator_sets.SIZE}", "-c7", "set.par2",
                        *[name for name, _ in creator_sets.FILES]], check=True, stdout=subprocess.DEVNULL)
        alike = ours == {name: bodies(name) for name in glob.glob("*.par2")}
        os.chdir("/")
    print(f"interleaved, made by par2: {'the same packets' if alike else 'DIFFERENT'}", flush=True)
    return alike


def compare_creator(layout):
    """Prints both answers about a set, whole and without its first file, and returns whether they are as expected."""
    agree = True
    with tempfile.TemporaryDirectory() as folder:
        creator_sets.write(folder, layout())
        os.chdir(folder)
        paths = sorted(path for path in glob.glob("**", recursive=True) if os.path.isfile(path))
        packet_files = [path for path in paths if path.lower().endswith(".par2")]
        files = [path for path in paths if path not in packet_files]
        for state in "whole", "a file missing":
            if state != "whole":
                os.remove(files.pop(0))
            case = f"{layout.__name__}, {state}"
            ours, theirs = by_parv(packet_files, files, "--tails"), by_par2(packet_files, files)
            explained = EXPLAINED_SETS.get(case, (ours, ours, "the same"))
            end = explained[2] if (ours, theirs) == explained[:2] else "DIFFERENT"
            print(f"{case}: {as_text('parv --tails', ours)}; {as_text('par2', theirs)}; {end}", flush=True)
            agree = agree and end != "DIFFERENT"
        os.chdir("/")
    return agree


def main():
    parser = argparse.ArgumentParser(usage=__doc__.split("\n\n")[1][7:])
    parser.add_argument("sizes", nargs="*", type=int)
    for option, value in [("--sets", 0), ("--seed", 1), ("--jobs", 1)]:
        parser.add_argument(option, type=int, default=value)
    parser.add_argument("--creators", action="store_true")
    asked = parser.parse_args()
    if any(size < 512 or size % 512 for size in asked.sizes):
        parser.error("slices have a multiple of 512 bytes")
    if asked.creators:
        return 0 if all(list(map(compare_creator, creator_sets.SETS)) + [laid_out_alike()]) else 1
    if asked.sets:
        return 0 if compare_sets(asked.sets, asked.seed, asked.jobs) else 1
    agree = [compare(size, case, damage) for size in asked.sizes or SIZES for case, damage in CASES.items()]
    return 0 if all(agree) else 1


if __name__ == "__main__":
    sys.exit(main())
