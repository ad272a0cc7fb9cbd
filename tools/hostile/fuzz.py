#!/usr/bin/env python3
"""Fuzzes the built program, with hostile packet files and damaged real ones, and with any arguments.

usage: fuzz.py [--seed N] [--cases N] [--jobs N] [--keep FOLDER]

Each case follows from the seed and its number. It has some files, and one run over them with random arguments: any
command, right and wrong options, and files that exist or not. A run must end within 20 seconds of processor time, not by a signal, with a
status of 0 to 4, 6 or 8. It may write only printable ASCII and line feeds, and take at most the memory that
`most_memory` allows. FOLDER gets the files and arguments of the first case that fails. The slowest run and the one with
the most memory are reported.

PARV is the program (crates/parv/out/parv). It runs in /dev/shm, if that exists.
"""

import argparse
import collections
import glob
import os
import random
import sys
from concurrent.futures import ProcessPoolExecutor

sys.path[0] = os.path.dirname(os.path.dirname(os.path.realpath(__file__)))  # imports are relative to tools/

from hostile.hostile_files import case, change
from hostile.runs import TOP, Runner, as_text
from models.cursor_texts import mark_of
from models.describe_set import NoSet, packets_of, set_of
from models.list_packets import is_packet_file, shown

SECONDS = 20                                  # of processor time; most runs take a hundredth of one, none takes two
CHUNK = 250                                   # cases that one process makes at once
STATUSES = {0, 1, 2, 3, 4, 6, 8}
PLAIN = set(range(0x20, 0x7F)) | {0x0A}
MIB = 1 << 20
PACKET, SLICE = 256, 128                      # bytes for a packet in the list, and for a slice
COMMANDS = ["packets", "set", "find", "verify"]
ODD_WORDS = ["", "-", "--", "-x", "--help", "-h", "--version", "--limit", "--cursor=", "-B", "-q",
             "-qqq", "--set=", "--bas", "--tail", "--tails=1", "pack", "help", "./", "\u00e9", "a\nb",
             "none.par2", "none.bin", ".par2", b"\xff", b"\xff.par2", "/dev/null", "--quiet",
             "--limit=1", "-B="]
ODD_NUMBERS = ["0", "1", "01", "+1", "-1", " 1", "1 ", "0x1", "18446744073709551615", "", "x",
               "18446744073709551616", "4294967296", "9" * 300]


def read(path):
    with open(path, "rb") as file:
        return file.read()


def read_all(pattern):
    return [read(path) for path in sorted(glob.glob(os.path.join(TOP, pattern)))]


REAL = read_all("demo/*.par2") + read_all("crates/parv/data/v.par2")
DATA = [data[:6000] for data in read_all("demo/*.raw")] + [b"XXabcdefgh"]


def spliced(chance, parts):
    """Returns the bytes of some parts, one after the other, some of them from within a part."""
    whole = b""
    for part in chance.choices(parts, k=chance.choice([1, 1, 2, 3])):
        first = chance.choice([0, 0, chance.randrange(len(part) + 1)])
        whole += part[first:chance.choice([len(part), chance.randrange(len(part) + 1)])]
    return whole[:200000]


def files_of(chance):
    """Returns the files of a case, by name."""
    if chance.randrange(5) < 3:
        packet_files, scanned = case(chance)
        if chance.randrange(2):
            parts = [data for _, data in packet_files] + [chance.choice(REAL)]
            packet_files = [(name, spliced(chance, parts)) for name, _ in packet_files]
    else:
        packet_files = [(name, spliced(chance, REAL)) for name in (b"a.par2", b"b.PAR2")]
        scanned = [(name, spliced(chance, DATA)) for name in (b"beach.raw", b"g.bin")]
    packet_files = [(name, change(chance, data)) for name, data in packet_files]
    return dict(packet_files + scanned)


def cursor_of(chance, owner, marks, numbers, odd):
    """Returns a cursor of either version, or a text that is nearly one."""
    parts = [owner, *numbers[:chance.choice([3, 2]) if odd else 3]]
    head = chance.choice([[], ["2"], ["2"], ["3"], ["02"]] if odd else [[], ["2"], ["2"]])
    if head and not (odd and chance.randrange(3) == 0):
        parts.insert(1, chance.choice(marks)[odd and chance.randrange(2):])
    return ":".join([*head, *parts])


def option(chance, command, owners, marks):
    """Returns an option, mostly one of the command and in the right form."""
    owner = chance.choice([*owners, "0" * 32])
    odd = chance.randrange(6) == 0
    numbers = [chance.choice(ODD_NUMBERS if odd else "00123") for _ in range(3)]
    limit = chance.choice(ODD_NUMBERS if odd else "1239")
    cursor = cursor_of(chance, owner, marks, numbers, odd)
    options = [["--set", owner], ["--set", owner.upper()], ["-B", "."], ["--base=./"]]
    if command == "find" or odd:
        options += [["--limit", limit], ["--limit=" + limit], ["--cursor", cursor]] * 2
    if command == "verify" or odd:
        options += [["-q"], ["-q", "-q"], ["-qq"]]
    if command in ("find", "verify") or odd:
        options += [["--tails"]] * 3
    if odd:
        options += [[chance.choice(ODD_WORDS)], ["--set", owner[1:]], ["-B", ""], ["--tails"] * 2] * 2
    return chance.choice(options)


def words_of(chance, names, owners, marks):
    """Returns a command, some options and some of the files, sometimes with an odd word among them."""
    command = chance.choice(COMMANDS if chance.randrange(40) else ODD_WORDS)
    words = [command]
    for _ in range(chance.choice([0, 0, 0, 1, 1, 2, 3])):
        words += option(chance, command, owners, marks)
    chosen = chance.choice([names, names, names, chance.choices(names, k=3)])
    words += [chance.choice([name, name, name, b"./" + name]) for name in chosen]
    if chance.randrange(16) == 0:
        words.insert(chance.randrange(len(words) + 1), chance.choice(ODD_WORDS))
    return words


def window_of(packets, choice):
    """Returns the slice size of the set if some slice has checksums, or 0, and the number of slices."""
    try:
        found = set_of(packets, choice)
    except NoSet:
        return 0, 0
    size = found.size if any(file.sums for file in found.files) else 0
    return size, sum(file.slices for file in found.files)


def most_memory(given, packets, size, slices):
    """Returns the peak in bytes that a run may have: three times the packet files given, the list of their packets, the
    slices of the set, one window if a slice has checksums, and 16 MiB for everything else."""
    return 3 * sum(map(len, given)) + PACKET * packets + SLICE * slices + size + 16 * MIB


def fault_of(ran, most):
    """Returns what a run did wrong, or None."""
    if ran.hung or ran.status not in STATUSES:
        return as_text(ran)
    if ran.seconds > SECONDS:
        return f"{ran.seconds} seconds: {as_text(ran)}"
    if set(ran.out + ran.err) - PLAIN:
        return f"a byte that is not shown: {as_text(ran)}"
    if ran.memory * 1024 > most:
        return f"{ran.memory} KiB, and not {most // 1024}: {as_text(ran)}"
    return None


def chunk(seed, numbers, keep):
    """Runs some cases. Returns their statuses, the slowest run and the largest one with their cases, and what was
    wrong."""
    runner, statuses = Runner(), collections.Counter()
    slowest, largest, wrong = (0, 0), (0, 0), []
    for number in numbers:
        chance = random.Random(f"fuzz {seed} {number}")
        files = files_of(chance)
        names = list(filter(is_packet_file, files))
        packets = {name: packets_of([(name, files[name])]) for name in names}
        owners = sorted({owner for found in packets.values() for _, _, _, owner, _ in found})
        scanned = [(name, len(data)) for name, data in files.items() if not is_packet_file(name)]
        marks = [mark_of(*zip(*scanned)) if scanned else mark_of([], []), mark_of([], []), "0" * 32]
        words = words_of(chance, list(files), owners, [marks[0], *marks])
        given = [name for word in map(os.fsencode, words) for name in names
                 if word in (name, b"./" + name)]
        listed = [packet for name in given for packet in packets[name]]
        windows = [window_of(listed, choice) for choice in [None, *owners]]
        size, slices = max(size for size, _ in windows), max(slices for _, slices in windows)
        if size > MIB and chance.randrange(50):
            words[0] = "set"                  # a large window costs a second, so few cases have one
        runner.clear()
        for name, data in files.items():
            runner.write(name, data)
        ran = runner.parv(words)
        most = most_memory([files[name] for name in given], len(listed), size, slices)
        fault = fault_of(ran, most)
        statuses[f"{os.fsencode(words[0]).decode(errors='replace')} {ran.status}"
                 if words[0] in COMMANDS else f"others {ran.status}"] += 1
        slowest = max(slowest, (ran.seconds, number))
        largest = max(largest, (ran.memory * 1024 / most, number))
        if fault is not None:
            command = " ".join(shown(os.fsencode(word)) for word in words)
            wrong.append(f"seed {seed}, case {number}: parv {command}: {fault}")
            if keep:
                os.makedirs(keep, exist_ok=True)
                for name, data in [*files.items(), (b"words", repr(words).encode())]:
                    with open(os.path.join(os.fsencode(keep), name), "wb") as out:
                        out.write(data)
                keep = None
    runner.close()
    return statuses, slowest, largest, wrong


def main():
    parser = argparse.ArgumentParser(usage=__doc__.split("\n\n")[1][7:])
    for name, value in [("--seed", 1), ("--cases", 2000), ("--jobs", os.cpu_count())]:
        parser.add_argument(name, type=int, default=value)
    parser.add_argument("--keep")
    asked = parser.parse_args()
    statuses, slowest, largest, wrong = collections.Counter(), (0, 0), (0, 0), []
    parts = [range(at, min(at + CHUNK, asked.cases)) for at in range(0, asked.cases, CHUNK)]
    with ProcessPoolExecutor(asked.jobs) as pool:
        for more in pool.map(chunk, [asked.seed] * len(parts), parts, [asked.keep] * len(parts)):
            statuses.update(more[0])
            slowest, largest = max(slowest, more[1]), max(largest, more[2])
            wrong += more[3]
    for line in wrong[:20]:
        print(f"FAILED: {line}")
    print(", ".join(f"{name}: {count}" for name, count in sorted(statuses.items())))
    print(f"slowest {slowest[0]:.3f} s (case {slowest[1]}), "
          f"memory at most {largest[0]:.2f} of what it may take (case {largest[1]})")
    if not wrong:
        print(f"ok: {asked.cases} fuzzed cases of seed {asked.seed}, each ended as it must")
    return 1 if wrong else 0


if __name__ == "__main__":
    sys.exit(main())
