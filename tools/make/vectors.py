#!/usr/bin/env python3
"""Writes the common test set to a file, and prints the values that tests expect of it.

usage: vectors.py v.par2 > vectors.txt

All values come from the definitions, with hashlib and zlib.
"""

import os
import sys
import zlib

sys.path[0] = os.path.dirname(os.path.dirname(os.path.realpath(__file__)))  # imports are relative to tools/

from make.packets import NO_ID, desc_body, file_id, ifsc_body, main_body, md5, packet, recvslic_body, slices

SLICE_SIZE = 4
NAME = b"g.bin"
CONTENT = b"abcdefgh"


def header_md5(packet):
    return packet[16:32]


def common_set():
    """Returns the packets of the common test set, as pairs of kind and bytes.

    The recovery slice has 8 bytes, twice the slice size, so it can't be used.
    """
    owner = file_id(NAME, CONTENT)
    main = main_body(SLICE_SIZE, [owner])
    bodies = [
        ("main", main),
        ("filedesc", desc_body(owner, NAME, CONTENT)),
        ("ifsc", ifsc_body(owner, CONTENT, SLICE_SIZE)),
        ("recvslic", recvslic_body(0, bytes(range(8)))),
    ]
    return [(kind, packet(md5(main), kind, body)) for kind, body in bodies]


def print_listing(name, packets):
    """Prints the lines of `parv packets` for a file with these packets (offset, kind, bytes)."""
    for at, kind, data in packets:
        print(name, at, len(data), kind, data[32:48].hex())
    print("packets", len(packets))


def print_common_set(packets):
    print("# v.par2, the common test set")
    print("set ID:", packets[0][1][32:48].hex())
    print("file ID:", file_id(NAME, CONTENT).hex())
    print("MD5 of g.bin:", md5(CONTENT).hex())
    for piece in slices(CONTENT, SLICE_SIZE):
        print(f"MD5 of {piece.decode()}:", md5(piece).hex())
        print(f"CRC-32 of {piece.decode()}: {zlib.crc32(piece):08x}")
    for kind, data in packets:
        print(f"header MD5 of {kind}:", header_md5(data).hex())
    placed, at = [], 0
    for kind, data in packets:
        placed.append((at, kind, data))
        at += len(data)
    print("bytes:", at)
    print_listing("v.par2", placed)


def print_one_packet():
    creator = packet(NO_ID, "creator", b"")
    print("# one Creator packet: set ID zeros, empty body")
    print("header MD5 of creator:", header_md5(creator).hex())
    print("hex:", creator.hex())
    print_listing("p.par2", [(0, "creator", creator)])


def print_packet_in_packet():
    before = b"xyz"
    inner = packet(NO_ID, "creator", b"")
    outer = packet(NO_ID, "recvslic", recvslic_body(0, inner))
    inner_at = len(before) + len(outer) - len(inner)
    print("# the bytes xyz, then a RecvSlic packet whose data is that Creator packet")
    print("header MD5 of recvslic:", header_md5(outer).hex())
    print("hex:", (before + outer).hex())
    print_listing("p.par2", [(len(before), "recvslic", outer), (inner_at, "creator", inner)])


def main():
    if len(sys.argv) != 2:
        sys.exit("usage: vectors.py v.par2 > vectors.txt")
    packets = common_set()
    with open(sys.argv[1], "wb") as file:
        file.write(b"".join(data for _, data in packets))
    print_common_set(packets)
    print()
    print_one_packet()
    print()
    print_packet_in_packet()


if __name__ == "__main__":
    main()
