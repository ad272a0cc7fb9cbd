#!/usr/bin/env python3
"""Writes files of packets with other bytes between them. No two files are the same.

usage: many_packets.py COUNT FILE...

Each FILE gets COUNT packets, of every kind. Their bodies have up to 1,500 bytes, except the first recovery slice, which
has 300,000. One packet in eight is broken: one of its bytes was changed.
"""

import os
import random
import sys

sys.path[0] = os.path.dirname(os.path.dirname(os.path.realpath(__file__)))  # imports are relative to tools/

from make.damage import flip
from make.packets import TYPES, md5, packet

KINDS = [*TYPES, b"PAR 2.0\0Another\0"]


def written(name, number, chance):
    """Returns the bytes of one packet of this file."""
    kind = KINDS[number % len(KINDS)]
    size = 300_000 if number == KINDS.index("recvslic") else 4 * chance.randrange(376)
    data = bytearray(packet(md5(name.encode()), kind, chance.randbytes(size)))
    if chance.randrange(8) == 0:
        flip(data, chance.randrange(len(data)), bits=1 << chance.randrange(8))
    return bytes(data)


def main():
    count, names = int(sys.argv[1]), sys.argv[2:]
    for name in names:
        chance = random.Random(name)
        with open(name, "wb") as out:
            for number in range(count):
                out.write(written(name, number, chance))
                out.write(chance.randbytes(chance.choice([0, 0, 1, 3, 100])))


if __name__ == "__main__":
    main()
