#!/usr/bin/env python3
"""Writes sets with images of discs. Some images have decoys where short last slices are expected.

usage: rescue_discs.py FOLDER

FOLDER gets the packet files disc.par2, many.par2 and cut.par2, and their files below folders of the same names. Slices
have 4,000 bytes, or 400 in many.par2. other_crc.par2 has the files and checksums of disc.par2, except that the CRC-32
of the last slice of `one_byte` differs. FOLDER also gets these images. In none of them do zeros follow a short last
slice up to the slice size.
  disc.img      the files of disc.par2, each padded to 2,048 bytes, between other bytes
  decoys.img    the same with other last slices: for `same_crc` one with the same CRC-32, for `one_byte` one with
                a byte changed
  again.img     `same_crc` and `one_byte` once more, at other offsets
  elsewhere.img the last slices of these two, between other bytes
  gap.img       `one_byte`, of which all full-length slices but the first are damaged
  many.img      300 files of 300 lengths, each with a byte after it
  few.img       the same, but the last slices of two files are after all the others
  no_lasts.img  the same without their last slices
  cut.img       a file that ends with zeros, without the last ones
  cut_off.img   a full-length slice, after which its file has zeros
"""

import os
import sys
import zlib

sys.path[0] = os.path.dirname(os.path.dirname(os.path.realpath(__file__)))  # imports are relative to tools/

from make.content import noise, write
from make.packets import desc_body, file_id, filled, ifsc_body, main_body, set_of

SIZE = 4000
MANY_SIZE = 400
SECTOR = 2048


def set_of_files(files, size, other_crc=None):
    """Returns the packets of these files, which are pairs of name and content. `other_crc` names a file whose last
    slice gets a wrong CRC-32."""
    ids = [file_id(name, content) for name, content in files]
    bodies = []
    for owner, (name, content) in zip(ids, files):
        sums = ifsc_body(owner, content, size)
        bodies += [("filedesc", desc_body(owner, name, content)),
                   ("ifsc", sums[:-1] + bytes([sums[-1] ^ 1]) if name == other_crc else sums)]
    return set_of(main_body(size, ids), *bodies)


def crc_of(data):
    """Returns the CRC-32 of a slice that has these bytes and then zeros."""
    return zlib.crc32(filled(data, SIZE))


def with_crc(data, crc):
    """Returns the data with other first bytes, chosen so that it has this CRC-32 when zeros fill it up to a slice."""
    zeros = bytes(len(data))
    rows = []               # by the highest bit of a change of the CRC-32: that and the change of bytes which makes it
    for bit in range(32):
        made = 1 << bit
        change = crc_of(made.to_bytes(4, "little") + zeros[4:]) ^ crc_of(zeros)
        for row in rows:
            if change ^ row[0] < change:
                change, made = change ^ row[0], made ^ row[1]
        rows = sorted([*rows, (change, made)], reverse=True)
    left, flips = crc_of(data) ^ crc, 0
    for change, made in rows:
        if left ^ change < left:
            left, flips = left ^ change, flips ^ made
    return (int.from_bytes(data[:4], "little") ^ flips).to_bytes(4, "little") + data[4:]


def image_of(contents):
    """Returns the contents as on a disc."""
    for content in contents:
        own = len(content) % SIZE
        if own and own + -len(content) % SECTOR >= SIZE:
            sys.exit("a short slice has zeros up to the slice size")
    return noise("header", 3 * SECTOR) + b"".join(filled(content, SECTOR) for content in contents) + noise("end", SECTOR)


def joined(contents):
    """Returns the contents with a byte after each."""
    return b"".join(content + b"?" for content in contents)


def discs():
    """Returns the set of disc.par2, and its images."""
    lengths = {b"same_crc": 5 * SIZE + 700, b"one_byte": 4 * SIZE + 1001, b"whole": 2 * SIZE,
               b"in/folder": 3 * SIZE + 2000, b"empty": 0, b"last": SIZE + 1}
    files = {name: noise(name, length) for name, length in lengths.items()}
    crc, byte = files[b"same_crc"], files[b"one_byte"]
    decoy = with_crc(noise("decoy", 700), crc_of(crc[-700:]))
    if crc_of(decoy) != crc_of(crc[-700:]) or decoy == crc[-700:]:
        sys.exit("the decoy has another CRC-32")
    decoys = {**files, b"same_crc": crc[:-700] + decoy, b"one_byte": byte[:-1] + bytes([byte[-1] ^ 4])}
    images = {"disc": image_of(files.values()), "decoys": image_of(decoys.values()),
              "again": noise("again", 777) + crc + b"between" + byte + b"behind",
              "elsewhere": noise("elsewhere", 333) + crc[-700:] + b"x" + byte[-1001:] + b"y",
              "gap": byte[:SIZE] + noise("gap", 3 * SIZE) + byte[-1001:] + b"z"}
    return files, images


def many():
    """Returns the set of many.par2, and its images."""
    files = {b"%03d" % number: noise(b"many %d" % number, MANY_SIZE + number) for number in range(1, 301)}
    contents = list(files.values())
    few = [content[:MANY_SIZE] for content in contents[98:100]] + contents[:98] + contents[100:]
    return files, {"many": joined(contents),
                   "few": joined(few) + joined(content[MANY_SIZE:] for content in contents[98:100]),
                   "no_lasts": joined(content[:MANY_SIZE] for content in contents)}


def cut():
    """Returns the set of cut.par2, and its images."""
    files = {b"cut": noise(b"cut", SIZE + 500) + bytes(100), b"cut_off": noise(b"cut off", SIZE) + bytes(100)}
    return files, {"cut": files[b"cut"][:-1], "cut_off": files[b"cut_off"][:-100]}


def main():
    folder = os.fsencode(sys.argv[1])
    sets = [("disc", SIZE, discs()), ("many", MANY_SIZE, many()), ("cut", SIZE, cut())]
    write(os.path.join(folder, b"other_crc.par2"), set_of_files(list(sets[0][2][0].items()), SIZE, b"one_byte"))
    for name, size, (files, images) in sets:
        write(os.path.join(folder, b"%s.par2" % name.encode()), set_of_files(list(files.items()), size))
        for path, content in files.items():
            path = os.path.join(folder, name.encode(), path)
            os.makedirs(os.path.dirname(path), exist_ok=True)
            write(path, content)
        for path, content in images.items():
            write(os.path.join(folder, b"%s.img" % path.encode()), content)


if __name__ == "__main__":
    main()
