#!/usr/bin/env python3
"""Writes the set of the files below a folder.

usage: one_set.py FILE SIZE RECOVERY FOLDER [OLD NEW]..

FILE gets the set of all files below FOLDER, by their paths from there, in slices of SIZE bytes, with RECOVERY recovery
slices. The first of these is right, so it can repair one slice; the others contain zeros. The set names the file OLD
as NEW, whatever that is.
"""

import os
import sys

sys.path[0] = os.path.dirname(os.path.dirname(os.path.realpath(__file__)))  # imports are relative to tools/

from make.packets import desc_body, file_id, filled, ifsc_body, main_body, recvslic_body, set_of, slices


def files_below(folder):
    """Returns the paths of the files below a folder, from there, and their bytes."""
    found = {}
    for at, _, names in sorted(os.walk(os.fsencode(folder))):
        for name in sorted(names):
            path = os.path.join(at, name)
            with open(path, "rb") as file:
                found[os.path.relpath(path, os.fsencode(folder))] = file.read()
    return found


def first_recovery_slice(contents, size):
    """Returns the recovery data of the exponent 0: the exclusive or of all slices."""
    total = 0
    for piece in (piece for content in contents for piece in slices(content, size)):
        total ^= int.from_bytes(filled(piece, size), "little")
    return total.to_bytes(size, "little")


def main():
    out, size, recovery, folder = sys.argv[1], int(sys.argv[2]), int(sys.argv[3]), sys.argv[4]
    words = list(map(os.fsencode, sys.argv[5:]))
    other = dict(zip(words[::2], words[1::2]))
    files = [(other.get(path, path), data) for path, data in files_below(folder).items()]
    ids = [file_id(name, data) for name, data in files]
    bodies = [(kind, body) for owner, (name, data) in zip(ids, files)
              for kind, body in [("filedesc", desc_body(owner, name, data)), ("ifsc", ifsc_body(owner, data, size))]]
    first = first_recovery_slice([data for _, data in files], size)
    bodies += [("recvslic", recvslic_body(exponent, bytes(size) if exponent else first))
               for exponent in range(recovery)]
    with open(out, "wb") as file:
        file.write(set_of(main_body(size, ids), *bodies))


if __name__ == "__main__":
    main()
