#!/usr/bin/env python3
"""Measures what a search costs for each byte, for slices of 4 bytes to 256 MiB and for 1 to 32,768 slices.

usage: search_cost.py FOLDER [tails]

FOLDER gets a packet file for each pair of these, and the files that are searched: the same 65,536 bytes again and
again, at least eight times the slice size. No slice has the CRC-32 of one of their windows, so no MD5 is taken. The
result is the cost of the search itself, in nanoseconds of the processor for each byte, the best of three runs.

With `tails`, it measures what --tails costs, by the number of own lengths below slices of 64 KiB: lengths of about
1 KiB and of about 60 KiB. It prints a table in Markdown: nanoseconds for each byte and, in brackets, how many more each
length takes than a search without --tails.

PARV is the program (crates/parv/out/parv).
"""

import hashlib
import os
import resource
import struct
import subprocess
import sys
import zlib

sys.path[0] = os.path.dirname(os.path.dirname(os.path.realpath(__file__)))  # imports are relative to tools/

from hostile.runs import PARV
from make.packets import ids_of, main_body, md5, numbers, set_of

KIB, MIB = 1 << 10, 1 << 20
SIZES = [4, 64, KIB, 64 * KIB, MIB, 16 * MIB, 256 * MIB]
COUNTS = [1, 256, 32768]
TAILED_SIZE, TAILS = 64 * KIB, [KIB, 60 * KIB]
TAIL_COUNTS = [1, 4, 16, 64, 256]
PERIOD = hashlib.shake_256(b"searched").digest(64 * KIB)


def table_of(polynomial=0xEDB88320):
    table = []
    for value in range(256):
        for _ in range(8):
            value = value >> 1 ^ (polynomial if value & 1 else 0)
        table.append(value)
    return table


def window_sums(size):
    """Returns the CRC-32 of each window of this size in the repeated bytes."""
    table = table_of()
    window = (PERIOD * (size // len(PERIOD) + 2))[:size + len(PERIOD)]
    crc = zlib.crc32(window[:size])
    # The effect of a byte that leaves the window: its CRC-32 before `size` zeros, without that of the zeros themselves.
    zeros = bytes(size)
    none = zlib.crc32(bytes(size + 1))
    bits = [zlib.crc32(bytes([1 << bit]) + zeros) ^ none for bit in range(8)]
    leaves = [0] * 256
    for byte in range(256):
        for bit in range(8):
            if byte >> bit & 1:
                leaves[byte] ^= bits[bit]
    # The effect of the register's initial value on one more byte.
    more = zlib.crc32(bytes(size + 1)) ^ zlib.crc32(bytes(size))
    sums = set()
    for at in range(len(PERIOD)):
        sums.add(crc)
        register = crc ^ 0xFFFFFFFF
        longer = (register >> 8 ^ table[(register ^ window[at + size]) & 255]) ^ 0xFFFFFFFF
        crc = longer ^ leaves[window[at]] ^ more
    assert crc == zlib.crc32(window[len(PERIOD):]), "the CRC-32 rolls"
    return sums


def packets_of(size, count, windows):
    """Returns a set of one file with `count` slices, whose checksums no window has."""
    owner, pairs, number = b"o" * 16, [], 0
    while len(pairs) < count:
        crc = zlib.crc32(b"slice %d" % number)
        number += 1
        if crc not in windows:
            pairs.append(md5(b"%d" % number) + struct.pack("<I", crc))
    desc = owner + bytes(32) + numbers(size * count) + b"file"
    return set_of(main_body(size, [owner]), ("filedesc", desc), ("ifsc", owner + b"".join(pairs)))


def crc_of_none(size):
    """Returns a CRC-32 that no window of this size has."""
    windows = window_sums(size)
    return next(crc for crc in map(zlib.crc32, map(numbers, range(1 << 32))) if crc not in windows)


def tails_about(length, count):
    """Returns `count` own lengths near this one, each with a CRC-32 that no window of that length has."""
    first = length - count // 2
    return [(tail, crc_of_none(tail)) for tail in range(first, first + count)]


def packets_with_tails(size, crcs):
    """Returns a set of one file for each of these lengths, whose only slice has this CRC-32 without the zeros that fill
    it."""
    ids, bodies = ids_of(len(crcs), 1), []
    for owner, (length, crc) in zip(ids, crcs):
        sums = md5(numbers(length)) + struct.pack("<I", zlib.crc32(bytes(size - length), crc))
        bodies += [("filedesc", owner + bytes(32) + numbers(length) + b"%08d" % length), ("ifsc", owner + sums)]
    return set_of(main_body(size, ids), *bodies)


def searched(folder, length):
    path = os.path.join(folder, f"{length // MIB}.bin")
    if not os.path.exists(path):
        with open(path, "wb") as out:
            for _ in range(length // MIB):
                out.write(PERIOD * 16)
    return path


def seconds(words):
    before = resource.getrusage(resource.RUSAGE_CHILDREN)
    ran = subprocess.run(words, stdout=subprocess.PIPE, check=True)
    assert ran.stdout == b"end\n", ran.stdout[:80]
    after = resource.getrusage(resource.RUSAGE_CHILDREN)
    return after.ru_utime + after.ru_stime - before.ru_utime - before.ru_stime


def nanoseconds(packets, path, *options):
    """Returns the nanoseconds for each byte, in the fastest of three searches."""
    return min(seconds([PARV, "find", *options, packets, path]) for _ in range(3)) / os.path.getsize(path) * 1e9


def written(folder, name, data):
    path = os.path.join(folder, name + ".par2")
    with open(path, "wb") as out:
        out.write(data)
    return path


def cost_of_sizes(folder):
    print(f"{'slices of':>12}" + "".join(f"{count:>10}" for count in COUNTS) + "   ns a byte, by their number")
    for size in SIZES:
        path, windows = searched(folder, max(128 * MIB, 8 * size)), window_sums(size)
        row = f"{size:>12}"
        for count in COUNTS:
            packets = written(folder, f"{size}-{count}", packets_of(size, count, windows))
            row += f"{nanoseconds(packets, path):10.2f}"
        print(row, flush=True)


def cost_of_tails(folder):
    print("| Own lengths | " + " | ".join(f"of about {length // KIB} KiB" for length in TAILS) + " |")
    print("|---" * (len(TAILS) + 1) + "|", flush=True)
    crcs = {length: tails_about(length, TAIL_COUNTS[-1]) for length in TAILS}
    for count in TAIL_COUNTS:
        path, row = searched(folder, 64 * MIB if count < 64 else 16 * MIB), f"| {count} |"
        for length in TAILS:
            packets = written(folder, f"{length}-{count}-tails", packets_with_tails(TAILED_SIZE, crcs[length][:count]))
            plain, tailed = nanoseconds(packets, path), nanoseconds(packets, path, "--tails")
            row += f" {tailed:.2f} ({(tailed - plain) / count:.2f}) |"
        print(row, flush=True)


def main():
    folder = sys.argv[1]
    os.makedirs(folder, exist_ok=True)
    (cost_of_tails if sys.argv[2:] == ["tails"] else cost_of_sizes)(folder)


if __name__ == "__main__":
    main()
