#!/usr/bin/env python3
"""Prints the states of the files of a PAR2 recovery set, independently of parv.

usage: tell_states.py [--tails] FILE...

Prints what `parv verify` prints if the packet files (whose names end in .par2) give a set, and ends with the same
status. With --tails, it finds what find_slices.py finds with that option.
"""

import hashlib
import os
import sys

sys.path[0] = os.path.dirname(os.path.dirname(os.path.realpath(__file__)))  # imports are relative to tools/

from models.describe_set import packets_of, set_line, set_of
from models.find_slices import TOO_MANY_TAILS, has_too_many_tails, sightings, slices_of, tails_and_files
from models.list_packets import is_packet_file, shown, with_bytes

RESULTS = ["complete", "possible", "impossible"]


def state_of(file, scanned):
    """Returns the state of a file and, if it is renamed, the name under which its content was found."""
    same = [name for name, data in scanned
            if len(data) == file.length and hashlib.md5(data).digest() == file.whole]
    if file.name in same:
        return "complete", None
    if same:
        return "renamed", same[0]
    return ("damaged" if file.name in [name for name, _ in scanned] else "missing"), None


def verdict(found, scanned, seen):
    """Returns the exit status and the lines for these matches."""
    have = {at for _, _, at in seen}
    lines, first, complete = [set_line(found)], 0, True
    for file in found.files:
        state, other = state_of(file, scanned)
        own = range(first, first + file.slices)
        first += file.slices
        complete = complete and state == "complete"
        if state in ("complete", "renamed"):
            have.update(own)
            more = "" if other is None else f" from {shown(other)}"
        else:
            more = f" {sum(at in have for at in own)}/{file.slices}"
        lines.append(f"{state} {shown(file.name)}{more}")
    need = len(slices_of(found)) - len(have)
    status = 0 if complete else 1 if need <= found.have else 2
    return status, [*lines, f"need {need} have {found.have}", f"result {RESULTS[status]}"]


def main():
    tails, names = tails_and_files(sys.argv[1:])
    found = set_of(packets_of(with_bytes(filter(is_packet_file, names))))
    if tails and has_too_many_tails(found):
        print(TOO_MANY_TAILS, file=sys.stderr)
        return 4
    scanned = with_bytes(name for name in names if not is_packet_file(name))
    seen = sightings(found, [data for _, data in scanned], tails)
    status, lines = verdict(found, scanned, seen)
    print("\n".join(lines))
    return status


if __name__ == "__main__":
    sys.exit(main())
