#!/usr/bin/env python3
"""Writes packet files at the greatest input of each call that takes memory.

usage: greatest.py FOLDER HOLES

HOLES gets the files with long holes, large.bin and far.par2. FOLDER gets all others.

million.par2  The set of g.bin, 130,000 more packets of this set, 70,000 that are rejected, and others up to a million.
bodies.par2   The set of g.bin, and for each kind bodies of 1,048,576 bytes and of four more.
names.par2    Names of 4,096 bytes and longer ones, of which one has 1,048,520.
others.par2   Main with 32,768 IDs: one is that of g.bin, and the others are in the list of non-recoverable files.
wide.par2     Slices of 268,435,456 bytes, files whose lengths are near 2^32, and one of 2^42 bytes.
long.par2     One file of 2^43 bytes, with the checksums of its 32,768 slices; longer.par2 has a byte more.
large.par2    A file of 268,435,461 bytes, in slices of 268,435,456. large.bin contains it after two other bytes.
far.par2      A recovery slice of 2^32 bytes, all zeros, and the set of g.bin after it.
one.par2      A file of one byte.
lengths.par2  1,100 files of different lengths, which are in the folder lengths.
"""

import os
import struct
import sys

sys.path[0] = os.path.dirname(os.path.dirname(os.path.realpath(__file__)))  # imports are relative to tools/

from make.packet_files import G, G_SET, SLICE_SIZE, WHOLE_G, whole_set
from make.packets import (MAGIC, NO_ID, TYPES, desc_body, ids_of, ifsc_body, main_body, numbers, packet, recvslic_body,
                          set_of)

GREATEST_SIZE, LIMIT, MOST = 268435456, 1048576, 32768


def million():
    own, aside = packet(G_SET, "creator", b""), packet(G_SET, "recvslic", recvslic_body(0, b""))
    return WHOLE_G + own * 130000 + aside * 70000 + packet(NO_ID, "creator", b"") * 799996


def bodies():
    kinds = [*TYPES, b"PAR 2.0\0CommASCI"]
    beside = [(kind, b"\n" * length) for kind in kinds for length in (LIMIT, LIMIT + 4)]
    beside += [("main", main_body(4, [G]).ljust(LIMIT - 4, b"\n")), ("recvslic", recvslic_body(1, b"data"))]
    return WHOLE_G + b"".join(packet(G_SET, kind, body) for kind, body in beside)


def names():
    ids = ids_of(4)
    texts = [b"\n" * 4096, b"n" * 4096, b"\\" * 4096, b"x"]
    return set_of(main_body(SLICE_SIZE, ids),
                  *[("filedesc", desc_body(ids[3], b"n" * length)) for length in (4097, LIMIT - 56)],
                  *[("filedesc", desc_body(owner, text, b"abcd")) for owner, text in zip(ids, texts)])


def of_lengths(size, *lengths):
    ids = ids_of(len(lengths))
    return set_of(main_body(size, ids), *[("filedesc", desc_body(owner, b"of %d" % length, b"", length))
                                          for owner, length in zip(ids, lengths)])


def long(length):
    pairs = b"".join(numbers(at, 0) + struct.pack("<I", at) for at in range(MOST))
    return set_of(main_body(GREATEST_SIZE, [NO_ID]), ("filedesc", desc_body(NO_ID, b"long", b"", length)),
                  ("ifsc", NO_ID + pairs))


def large(holes):
    """Writes a file of two slices that have only a few bytes other than zeros, and its set."""
    front, behind = b"front", b"hello"
    with open(os.path.join(holes, "large.bin"), "wb") as out:
        out.write(b"XX" + front)
        out.seek(2 + GREATEST_SIZE)
        out.write(behind)
    slices = [text.ljust(GREATEST_SIZE, b"\0") for text in (front, behind)]
    sums = b"".join(ifsc_body(b"", data, GREATEST_SIZE) for data in slices)
    return set_of(main_body(GREATEST_SIZE, [G]),
                  ("filedesc", desc_body(G, b"large", b"", GREATEST_SIZE + len(behind))), ("ifsc", G + sums))


def far(holes):
    """Writes far.par2. The MD5 in its header was computed by md5sum from the bytes of the packet that it covers."""
    size = 1 << 32
    with open(os.path.join(holes, "far.par2"), "wb") as out:
        out.write(MAGIC + numbers(68 + size) + bytes.fromhex("94ac6aaa1b9a3eef61edb2e0a89324f0"))
        out.write(G_SET + TYPES["recvslic"])
        out.seek(68 + size)
        out.write(WHOLE_G)


def lengths(folder):
    members = [(b"%04d" % length, (b"%04d" % length * 275)[:length]) for length in range(1, 1101)]
    os.mkdir(os.path.join(folder, "lengths"))
    for name, content in members:
        with open(os.path.join(os.fsencode(folder), b"lengths", name), "wb") as out:
            out.write(content)
    ids, rest = ids_of(len(members)), []
    for owner, (name, content) in zip(ids, members):
        rest += [("filedesc", desc_body(owner, name, content)), ("ifsc", ifsc_body(owner, content, 1100))]
    return set_of(main_body(1100, ids), *rest)


def main():
    folder, holes = sys.argv[1:]
    far(holes)
    made = {
        "million": million(),
        "bodies": bodies(),
        "names": names(),
        "others": set_of(main_body(4, [G], ids_of(MOST - 1, 1)), ("filedesc", desc_body(G, b"g.bin"))),
        "wide": of_lengths(GREATEST_SIZE, (1 << 32) - 1, 1 << 32, (1 << 32) + 1, 1 << 42),
        "long": long(1 << 43),
        "longer": long((1 << 43) + 1),
        "large": large(holes),
        "one": whole_set([(1, b"one", b"i", True)]),
        "lengths": lengths(folder),
    }
    for name, data in made.items():
        with open(os.path.join(folder, name + ".par2"), "wb") as out:
            out.write(data)


if __name__ == "__main__":
    main()
