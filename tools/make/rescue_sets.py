#!/usr/bin/env python3
"""Writes sets with names that lead elsewhere, and with slices that are found at each offset of a file.

usage: rescue_sets.py FOLDER

FOLDER gets each set as NAME.par2 and, as NAME.img, its files joined with other bytes between them. The files
themselves are below FOLDER/NAME, except those whose names lead elsewhere; one with an absolute name is in FOLDER.
Slices have 1024 bytes.
"""

import os
import sys

sys.path[0] = os.path.dirname(os.path.dirname(os.path.realpath(__file__)))  # imports are relative to tools/

from make.content import noise
from make.packets import desc_body, file_id, ifsc_body, main_body, set_of

SIZE = 1024


def set_of_files(files, without_sums=()):
    """Returns the packets of these files, which are pairs of name and content."""
    bodies, ids = [], []
    for name, content in files:
        ids.append(file_id(name, content))
        bodies.append(("filedesc", desc_body(ids[-1], name, content)))
        if name not in without_sums:
            bodies.append(("ifsc", ifsc_body(ids[-1], content, SIZE)))
    return set_of(main_body(SIZE, ids), *bodies)


def misnamed(folder):
    """Returns files whose names lead out of a folder, or can't be those of files in it."""
    names = [os.path.join(os.path.realpath(folder), b"absolute"), b"/absolute", b"../above", b"in/../../above",
             b"in/..", b"..", b".", b"./dot", b"in/./dot", b"in//twice", b"in/", b".parv-rescue",
             b".parv-rescue/in", b"both", b"x" * 256]
    return [(name, noise(name, 1500)) for name in names]


def named():
    """Returns files whose names are acceptable, however odd."""
    names = [b"both/in", b"fine", b"in/fine", b"in/deep/..fine", b"new\nline \xff\\", b"way/through", b"late",
             b"y" * 255, b"-dash", b"back\\slash"]
    return [(name, noise(name, 1500)) for name in names]


def repeated():
    """Returns files of zeros, of one byte, and of a few bytes in turn, with full-length and short slices, and some
    files that begin or end like these. All of these slices are found at many offsets if a file has more of the same
    bytes."""
    return [(b"zeros", bytes(5 * SIZE + 100)), (b"ones", b"\xff" * (3 * SIZE + 7)), (b"three", b"abc" * SIZE),
            (b"begins", bytes(700) + noise(b"begins", 1324)), (b"ends", noise(b"ends", 1400) + bytes(648)),
            (b"odd", bytes(300) + noise(b"odd", 3 * SIZE - 283)), (b"empty", b""), (b"no_sums", noise(b"no_sums", 2500))]


def image_of_repeated(files):
    """Returns an image with runs of zeros, of one byte, and of three, much longer than slices, and the other files
    between."""
    contents = dict(files)
    return b"".join([noise(b"first", 999), bytes(1001), contents[b"begins"], contents[b"ends"], b"\xff" * 20000,
                     contents[b"odd"], b"abc" * 7000, bytes(20000), noise(b"last", 55), contents[b"no_sums"],
                     b"\xff" * 9001])


def write(path, data):
    os.makedirs(os.path.dirname(path), exist_ok=True)
    with open(path, "wb") as out:
        out.write(data)


def main():
    folder = os.fsencode(sys.argv[1])
    files = [*misnamed(folder), *named()]
    write(os.path.join(folder, b"names.par2"), set_of_files(files))
    write(os.path.join(folder, b"names.img"), b"".join(b"between" + content for _, content in files))
    for name, content in named():
        write(os.path.join(folder, b"names", name), content)
    files = repeated()
    write(os.path.join(folder, b"repeated.par2"), set_of_files(files, [b"no_sums"]))
    write(os.path.join(folder, b"repeated.img"), image_of_repeated(files))
    for name, content in files:
        write(os.path.join(folder, b"repeated", name), content)


if __name__ == "__main__":
    main()
