#!/usr/bin/env python3
"""Writes sets with short last slices, and files in which these are to be found.

usage: tail_sets.py FOLDER

FOLDER gets each set as NAME.par2, and the files that are scanned for it. Slices have 4 bytes, except in the sets of
many lengths, where they have 260: there the file 007 has 7 bytes, and so on.
"""

import os
import sys

sys.path[0] = os.path.dirname(os.path.dirname(os.path.realpath(__file__)))  # imports are relative to tools/

from make.packet_files import whole_set
from make.packets import desc_body, ids_of, ifsc_body, main_body, set_of

# The files of each set, in the order of their IDs, as pairs of name and content.
SETS = {
    "one": [(b"one", b"ij")],
    "zero": [(b"zero", b"i\0")],
    "two": [(b"two", b"abcdef")],
    "three": [(b"ab", b"ab"), (b"abcd", b"abcd"), (b"a", b"a")],
}
SCANNED = {"before": b"ijk", "between": b"XijY", "short": b"i", "other": b"i\0k", "turned": b"Xefabcd",
           "two": b"abcdef", "abcd": b"abcd"}
SIZE = 260


def of_length(length):
    return b"%03d" % length, bytes([length % 251]) * length


def set_of_many(files, without_sums=()):
    """Returns the set of these files, some of which have no checksums."""
    ids = ids_of(len(files), 1)
    bodies = []
    for owner, (name, content) in zip(ids, files):
        bodies.append(("filedesc", desc_body(owner, name, content)))
        if name not in without_sums:
            bodies.append(("ifsc", ifsc_body(owner, content, SIZE)))
    return set_of(main_body(SIZE, ids), *bodies)


def main():
    folder = sys.argv[1]
    os.makedirs(folder, exist_ok=True)
    many = [of_length(length) for length in range(1, 258)]
    beside = [(b"again", many[255][1]), (b"whole", bytes(SIZE))]
    files = {**SCANNED, **{os.fsdecode(name): content for name, content in many + beside}}
    for name, members in SETS.items():
        files[name + ".par2"] = whole_set([(byte, *member, True) for byte, member in enumerate(members, 1)])
    files["256.par2"] = set_of_many(many[:256])
    files["257.par2"] = set_of_many(many)
    # 256 lengths, one of them twice, a slice that isn't short, and one of another length without checksums.
    files["beside.par2"] = set_of_many(many + beside, [b"257"])
    for name, data in files.items():
        with open(os.path.join(folder, name), "wb") as out:
            out.write(data)


if __name__ == "__main__":
    main()
