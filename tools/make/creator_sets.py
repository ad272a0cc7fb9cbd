#!/usr/bin/env python3
"""Writes sets as other creators lay them out.

usage: creator_sets.py FOLDER

FOLDER gets a folder for each set of SETS, with its packet files and the files that they describe. Slices have 8 bytes.
The recovery data of a slice is only its exponent, so no repair succeeds.
"""

import os
import sys

sys.path[0] = os.path.dirname(os.path.dirname(os.path.realpath(__file__)))  # imports are relative to tools/

from make.packets import (MAGIC, NO_ID, desc_body, file_id, filled, ifsc_body, main_body, md5, numbers, packet,
                          recvslic_body, slices)

SIZE = 8

# The optional packets of PAR 2.0.
UNICODE_NAME = b"PAR 2.0\0UniFileN"
COMMENT = b"PAR 2.0\0CommASCI"
UNICODE_COMMENT = b"PAR 2.0\0CommUni\0"
INPUT_SLICE = b"PAR 2.0\0FileSlic"
RECOVERY_SUMS = b"PAR 2.0\0RFSC\0\0\0\0"
PACKED_MAIN = b"PAR 2.0\0PkdMain\0"
PACKED_SLICE = b"PAR 2.0\0PkdRecvS"

# Files are pairs of name and content. These three are in the order of their IDs.
FILES = [(b"first.txt", b"one two three four five"), (b"second.txt", b"seconds."), (b"third.dat", b"third")]
TEXT = b"Created by par2cmdline version 0.8.1."


class Packets:
    """The packets of the set of these files. If the set is packed, `packed` is the size of the parts of its slices."""

    def __init__(self, files, others=(), ids=None, packed=b""):
        self.main_body = packed + main_body(SIZE, ids or [file_id(*file) for file in files],
                                            [file_id(*file) for file in others])
        self.main = self.of(PACKED_MAIN if packed else "main", self.main_body)
        self.descs = [self.of("filedesc", desc_body(file_id(*file), *file)) for file in [*files, *others]]
        self.sums = [self.of("ifsc", ifsc_body(file_id(*file), file[1], SIZE)) for file in [*files, *others]]
        self.critical = [self.main, *self.descs, *self.sums]

    def of(self, kind, body):
        return packet(md5(self.main_body), kind, body)

    def creator(self, text=TEXT):
        return self.of("creator", filled(text, 4))

    def slices(self, *exponents):
        return [self.of("recvslic", recvslic_body(exponent, numbers(exponent))) for exponent in exponents]


def interleaved_volume(recovery, critical, creator):
    """Puts after each recovery slice its share of the critical packets. All of them are repeated once more for each
    doubling of the number of slices. The creator comes last."""
    copies, laid, written = len(recovery).bit_length(), [], 0
    for number, piece in enumerate(recovery, 1):
        share = number * copies * len(critical) // len(recovery)
        laid += [piece, *[critical[at % len(critical)] for at in range(written, share)]]
        written = share
    return [*laid, creator]


def interleaved():
    """As par2cmdline does it, byte by byte, except for the recovery data."""
    made = Packets(FILES)
    volumes = {f"set.vol{first}+{count}.par2": interleaved_volume(
        made.slices(*range(first, first + count)), made.critical, made.creator())
        for first, count in [(0, 1), (1, 2), (3, 4)]}
    return FILES, {"set.par2": [*made.critical, made.creator()], **volumes}


def at_the_end():
    """The creator comes first, then recovery slices, and after them all other packets several times. Main lists the
    files in a different order, and the suffixes are in capitals."""
    made = Packets(FILES, ids=[file_id(*file) for file in reversed(FILES)])
    first, rest = made.creator(b"One of 2004"), [*made.sums, *made.descs, made.main]
    return FILES, {
        "set.par2": [first, made.main, *made.descs, *made.sums],
        "set.vol00+02.PAR2": [first, *made.slices(0, 1), *made.critical * 3],
        "set.vol02+03.PAR2": [first, *made.slices(4, 2, 3), *rest * 2],
    }


def optional():
    """Optional packets are among the others. The name is in Latin-1, and again in Unicode in a packet of its own."""
    file = (b"caf\xe9.txt", b"black, with milk")
    owner, made = file_id(*file), Packets([file])
    comment = made.of(COMMENT, filled(b"a comment", 4))
    beside = [
        made.of(UNICODE_NAME, filled(owner + "caf\u00e9.txt".encode("utf-16-le"), 4)),
        comment,
        made.of(UNICODE_COMMENT, filled(md5(comment[32:]) + "a comment".encode("utf-16-le"), 4)),
        made.of(UNICODE_COMMENT, NO_ID + "\u4e00\u4e8c".encode("utf-16-le")),
        *[made.of(INPUT_SLICE, owner + numbers(at) + piece) for at, piece in enumerate(slices(file[1], SIZE))],
        made.of(RECOVERY_SUMS, ifsc_body(NO_ID, b"set.vol0+1.par2", SIZE)),
    ]
    return [("caf\u00e9.txt".encode(), file[1])], {
        "set.par2": [*made.critical, *beside, made.creator()],
        "set.vol0+1.par2": [*beside, *made.slices(0), made.creator(), *made.critical],
    }


def packed():
    """Slices have parts of four bytes. Main and recovery slices have types of their own."""
    made = Packets(FILES, packed=numbers(4))
    return FILES, {"set.par2": [*made.critical, made.creator(),
                                *[made.of(PACKED_SLICE, recvslic_body(at, numbers(at))) for at in range(2)]]}


def others():
    """For three further files, one of them empty and one a folder, there is no recovery data. All files have
    descriptions and checksums."""
    more = [(b"plain.txt", b"not recoverable"), (b"empty.txt", b""), (b"folder/", b"")]
    made = Packets(FILES[:1], more)
    return [*FILES[:1], more[0]], {
        "set.par2": [*reversed(made.critical), made.creator()],
        "set.vol0+2.par2": [*made.slices(0, 1), *made.critical, made.creator()],
    }


def gaps():
    """Exponents that don't begin at 0, with gaps, and some twice."""
    made = Packets(FILES)
    return FILES, {
        "set.par2": [*made.critical, made.creator()],
        **{f"set.vol{name}.par2": interleaved_volume(made.slices(*exponents), made.critical, made.creator())
           for name, exponents in [("100+2", [100, 101]), ("32767+1", [32767]), ("7+65528", [65534, 7, 100])]},
    }


def bare():
    """Only volumes, and no creator: one has no Main packet, and in the other it comes last."""
    made = Packets(FILES)
    return FILES, {
        "set.vol0+1.par2": [*made.slices(0), *made.descs, *made.sums],
        "set.vol1+1.par2": [*made.descs, *made.slices(1), *made.sums, made.main],
    }


def names():
    """Folders with either slash, and names with none to seven zeros after them, of which the IDs are made with these
    zeros."""
    files = [(name, b"%d" % at) for at, name in enumerate([
        b"sub/one.bin", b"sub\\two.bin", b"a", b"ab", b"abc", b"abcd", b"abcde\0\0\0", b"abcdef\0\0\0\0\0\0",
        b"abcdefgh\0\0\0\0"])]
    made = Packets(files)
    whole = [(name.rstrip(b"\0").replace(b"\\", b"/"), content) for name, content in files]
    return whole, {"set.par2": [*made.critical, made.creator()]}


def long_creator():
    """A creator packet with some pages of text in lines, after one with only zeros."""
    made = Packets(FILES)
    text = "A creator\u00a0of sets,\r\n\ta \\ in each line\n".encode() * 2500
    return FILES, {"set.par2": [made.creator(bytes(8)), *made.critical, made.creator(text), made.creator()]}


def mixed():
    """Packets of two sets that share a file, alternating in one packet file."""
    fourth = (b"fourth", b"a fourth one")
    one, two = Packets(FILES), Packets([FILES[1], fourth])
    pairs = zip([*one.descs, *one.sums, *one.slices(0, 1), one.creator()],
                [two.main, *two.descs, *two.sums, *two.slices(0, 5, 6), two.creator(b"Another one")], strict=True)
    return [*FILES, fourth], {"set.par2": [*[part for pair in pairs for part in pair], one.main]}


def junk():
    """Packets with other bytes before, between and after them: a line, zeros up to a multiple of 512 bytes, only the
    magic, the beginning of a packet, and a packet in which a byte was changed."""
    made = Packets(FILES)
    laid = [b"begin 644 set.par2\r\n", made.main, b"!", *made.descs]
    laid.append(bytes(-len(b"".join(laid)) % 512))
    laid += [made.sums[0], MAGIC, made.sums[1], made.sums[2][:99], made.sums[2], made.slices(0)[0][:-1] + b"!",
             *made.slices(1), MAGIC[:7], made.creator(), b"\r\nend\r\n"]
    return FILES, {"set.par2": laid}


SETS = [interleaved, at_the_end, optional, packed, others, gaps, bare, names, long_creator, mixed, junk]


def write(folder, made):
    """Writes the files and packet files of a set."""
    files, packet_files = made
    contents = [*files, *[(os.fsencode(name), b"".join(parts)) for name, parts in packet_files.items()]]
    for name, content in contents:
        path = os.path.join(os.fsencode(folder), name)
        os.makedirs(os.path.dirname(path), exist_ok=True)
        with open(path, "wb") as out:
            out.write(content)


def main():
    if len(sys.argv) != 2:
        sys.exit("usage: creator_sets.py FOLDER")
    for layout in SETS:
        write(os.path.join(sys.argv[1], layout.__name__), layout())


if __name__ == "__main__":
    main()
