#!/usr/bin/env python3
"""Puts the slices of a PAR2 set that are found into their places, by an independent search.

usage: place_slices.py [--tails] ORIGINALS FOLDER FILE...

It takes the bytes of each slice that is found anywhere from the file of its name in the folder ORIGINALS, and not from
the place where it was found. FOLDER gets the files that parv-rescue must leave. Standard output gets the lines of
parv-rescue; the last one lacks the number of copied slices. Without --tails, a short last slice is also found at its
distance from each match of another slice of its file. If short slices with checksums are missing, standard error gets
their number.
"""

import hashlib
import os
import sys
import zlib

sys.path[0] = os.path.dirname(os.path.dirname(os.path.realpath(__file__)))  # imports are relative to tools/

from models.describe_set import packets_of, set_of
from models.find_slices import sightings, slices_of, tails_and_files
from models.list_packets import is_packet_file, shown, with_bytes


def parts_of(found):
    """Returns, for each file, its slices by their numbers in the whole set, as pairs of beginning and end."""
    parts = {}
    for at, (owner, number, own, _) in enumerate(slices_of(found)):
        parts.setdefault(owner, {})[at] = number * found.size, number * found.size + own
    return parts


def led_to(found, slices, lasts, data, offset, at):
    """Returns the last slice of the same file, in a set, if the data has it at its distance from this match; else an
    empty set."""
    last = lasts[slices[at][0]]
    _, _, own, sums = slices[last]
    begin = offset + (last - at) * found.size
    looked = data[begin:begin + own]
    window = looked.ljust(found.size, b"\0")
    return {last} if len(looked) == own and (hashlib.md5(window).digest(), zlib.crc32(window)) == sums else set()


def seen(found, contents, tails):
    """Returns the numbers of all slices that are found."""
    slices, there = slices_of(found), set()
    lasts = {owner: at for at, (owner, *_) in enumerate(slices)}
    for place, offset, at in sightings(found, contents, tails):
        there.add(at)
        if not tails:
            there |= led_to(found, slices, lasts, contents[place], offset, at)
    return there


def placed(original, parts, there):
    """Returns the original, with zeros in place of slices that aren't found, and the beginnings and ends of these
    holes."""
    data, bounds = bytearray(len(original)), []
    for at, (begin, end) in parts.items():
        if at in there:
            data[begin:end] = original[begin:end]
        elif bounds and bounds[-1][1] == begin:
            bounds[-1][1] = end
        else:
            bounds.append([begin, end])
    return bytes(data), bounds


def lines_of(file, count, bounds, is_whole):
    if count == file.slices or is_whole:
        return [f"complete {shown(file.name)}"]
    state = "damaged" if count else "missing"
    holes = [f"hole {begin} {end - begin} {shown(file.name)}" for begin, end in bounds if count]
    return [f"{state} {shown(file.name)} {count}/{file.slices}", *holes]


def main():
    tails, names = tails_and_files(sys.argv[1:])
    originals, folder, *names = names
    found = set_of(packets_of(with_bytes(filter(is_packet_file, names))))
    scanned = with_bytes(name for name in names if not is_packet_file(name))
    there = seen(found, [data for _, data in scanned], tails)
    parts, whole = parts_of(found), set()
    for file in found.files:
        [(_, original)] = with_bytes([os.path.join(originals, file.name)])
        own = parts.get(file.id, {})
        data, bounds = placed(original, own, there)
        count = len(there & own.keys())
        if count and data == original:      # so it is too if only zeros are missing
            whole.add(file.id)
        print("\n".join(lines_of(file, count, bounds, file.id in whole)))
        if count or not original:
            path = os.path.join(folder, file.name)
            os.makedirs(os.path.dirname(path), exist_ok=True)
            with open(path, "wb") as out:
                out.write(data)
    print(f"slices {len(there)}/{len(slices_of(found))}")
    short = sum(own < found.size and sums is not None and at not in there and owner not in whole
                for at, (owner, _, own, sums) in enumerate(slices_of(found)))
    if short:
        print(f"short slices missing: {short}", file=sys.stderr)


if __name__ == "__main__":
    main()
