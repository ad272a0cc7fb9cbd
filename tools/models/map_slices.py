#!/usr/bin/env python3
"""Maps the slices of a PAR2 set, by an independent search at every offset.

usage: map_slices.py [--tails] FILE...

For each file of the set, it prints a line with its name and, if it has slices, a line with a sign for each: `#` if a
scanned file of its name has the slice at its offset, `+` if the slice is found only elsewhere, and `.` if it isn't
found. If a file's slices have no checksums, each is `#`, `+` or `?` by the state of the file.
"""

import os
import sys

sys.path[0] = os.path.dirname(os.path.dirname(os.path.realpath(__file__)))  # imports are relative to tools/

from models.describe_set import packets_of, set_of
from models.find_slices import sightings, slices_of, tails_and_files
from models.list_packets import is_packet_file, shown, with_bytes
from models.tell_states import state_of


def main():
    tails, names = tails_and_files(sys.argv[1:])
    found = set_of(packets_of(with_bytes(filter(is_packet_file, names))))
    scanned = with_bytes(name for name in names if not is_packet_file(name))
    by_id = {file.id: file for file in found.files}
    slices = slices_of(found)
    signs = ["."] * len(slices)
    for place, offset, at in sightings(found, [data for _, data in scanned], tails):
        owner, number, _, _ = slices[at]
        in_place = scanned[place][0] == by_id[owner].name and offset == number * found.size
        signs[at] = "#" if in_place or signs[at] == "#" else "+"
    for file in found.files:
        own = "".join(sign for sign, (owner, *_) in zip(signs, slices) if owner == file.id)
        if file.sums is None:
            own = {"complete": "#", "renamed": "+"}.get(state_of(file, scanned)[0], "?") * file.slices
        print(shown(file.name), *[own] if own else [], sep="\n")


if __name__ == "__main__":
    main()
