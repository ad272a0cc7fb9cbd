#!/usr/bin/env python3
"""Looks for the slices of a PAR2 recovery set at every offset of files, independently of parv.

usage: find_slices.py [--tails] FILE...

Prints what `parv find` prints if the packet files (whose names end in .par2) give a set. It fills each window with
zeros and hashes it as a whole. With --tails, a window has the slice's own length before the zeros, so a short slice is
also found before other bytes. If there are more than 256 own lengths below the slice size, it prints only that, on
standard error.
"""

import hashlib
import os
import sys
import zlib

sys.path[0] = os.path.dirname(os.path.dirname(os.path.realpath(__file__)))  # imports are relative to tools/

from models.describe_set import number, packets_of, set_of
from models.list_packets import is_packet_file, shown, with_bytes

MOST_TAILS = 256
TOO_MANY_TAILS = "parv: no usable set: too many tails"


def slices_of(found):
    """Returns each slice in order: its file ID, its number in the file, its own length (without padding) and its
    checksums."""
    return [(file.id, at, min(found.size, file.length - at * found.size),
             None if file.sums is None else (file.sums[at][:16], number(file.sums[at][16:])))
            for file in found.files for at in range(file.slices)]


def has_too_many_tails(found):
    """Returns whether the slices with checksums have more own lengths below the slice size than may be looked for."""
    return len({own for _, _, own, sums in slices_of(found) if sums and own < found.size}) > MOST_TAILS


def wanted_of(found, tails):
    """Returns, for each compared length, the slices with each pair of checksums: their numbers and own lengths."""
    wanted = {}
    for at, (_, _, own, sums) in enumerate(slices_of(found)):
        if sums is not None:
            looked = own if tails else found.size
            wanted.setdefault(looked, {}).setdefault(sums, []).append((at, own))
    return wanted


def sightings(found, contents, tails=False):
    """Yields each match in these contents, sorted by file, offset and slice, as these three numbers."""
    wanted = wanted_of(found, tails)
    crcs = {looked: {crc for _, crc in by_sums} for looked, by_sums in wanted.items()}
    for place, data in enumerate(contents if wanted else []):
        for offset in range(len(data)):
            seen = []
            for looked, by_sums in wanted.items():
                window = data[offset:offset + looked].ljust(found.size, b"\0")
                crc = zlib.crc32(window)
                if crc in crcs[looked]:
                    same = by_sums.get((hashlib.md5(window).digest(), crc), [])
                    seen += [at for at, own in same if offset + own <= len(data)]
            for at in sorted(seen):
                yield place, offset, at


def line_of(name, offset, entry):
    """Returns the line of a match; an entry is one of slices_of."""
    return f"{shown(name)} {offset} {entry[0].hex()} {entry[1]}"


def tails_and_files(words):
    """Returns whether the arguments begin with --tails, and the names of the files."""
    tails = words[:1] == ["--tails"]
    return tails, [os.fsencode(word) for word in words[tails:]]


def main():
    tails, names = tails_and_files(sys.argv[1:])
    found = set_of(packets_of(with_bytes(filter(is_packet_file, names))))
    if tails and has_too_many_tails(found):
        sys.exit(TOO_MANY_TAILS)
    scanned = with_bytes(name for name in names if not is_packet_file(name))
    slices = slices_of(found)
    for place, offset, at in sightings(found, [data for _, data in scanned], tails):
        print(line_of(scanned[place][0], offset, slices[at]))
    print("end")


if __name__ == "__main__":
    main()
