#!/usr/bin/env python3
"""Writes the packet files on which tests run whole commands, as Rattle source files.

usage: packet_files.py FOLDER

FOLDER gets packet_files.rt, which belongs into crates/runs_tests/src/runs, and each packet file as NAME.par2. All
hashes come from hashlib and zlib.
"""

import os
import sys

sys.path[0] = os.path.dirname(os.path.dirname(os.path.realpath(__file__)))  # imports are relative to tools/

from make.packets import (MAGIC, NO_ID, desc_body, file_id, ifsc_body, main_body, md5, numbers, packet, recvslic_body,
                          set_of)
from make.vectors import CONTENT, NAME, SLICE_SIZE, common_set

GREATEST = (1 << 63) - 1


def whole_set(members, exponents=()):
    """Returns a set of files (byte of the ID, name, content, whether it has checksums), with recovery slices."""
    rest = []
    for byte, name, content, known in members:
        owner = bytes([byte]) * 16
        rest.append(("filedesc", desc_body(owner, name, content)))
        if known:
            rest.append(("ifsc", ifsc_body(owner, content, SLICE_SIZE)))
    rest += [("recvslic", recvslic_body(exponent, b"data")) for exponent in exponents]
    return set_of(main_body(SLICE_SIZE, [bytes([member[0]]) * 16 for member in members]), *rest)


def with_length(data, length):
    """Returns the packet with another length field and its old hash."""
    return data[:8] + numbers(length) + data[16:]


# The set of the one file g.bin, with the content abcdefgh. Its recovery slice has 8 bytes instead of 4.
G = file_id(NAME, CONTENT)
G_MAIN = main_body(SLICE_SIZE, [G])
G_SET = md5(G_MAIN)
MAIN_OF_G, DESC_OF_G, SUMS_OF_G, ODD_SLICE = (data for _, data in common_set())
WHOLE_G = MAIN_OF_G + DESC_OF_G + SUMS_OF_G + ODD_SLICE

CREATOR = packet(NO_ID, "creator", b"")


def listings():
    """Returns files for `packets`."""
    second = packet(NO_ID, "creator", b"abcd")
    return {
        "empty": b"",
        "creator": CREATOR,
        "odd_length": with_length(CREATOR, 66) + bytes(2),
        "changed_type": CREATOR[:63] + b"\x01",
        "packet_in_packet": b"xyz" + packet(NO_ID, "recvslic", recvslic_body(0, CREATOR)),
        "overlapping": packet(NO_ID, "creator", second[:64]) + second[64:],
        "behind_magic": MAGIC + CREATOR,
        "behind_greatest_length": with_length(CREATOR, 0xFFFFFFFFFFFFFFFC) + CREATOR,
        "behind_wrong_hash": with_length(CREATOR, 128) + CREATOR,
        "comment": packet(G_SET, b"PAR 2.0\0CommASCI", b"text"),
    }


def sets_of_g():
    """Returns the set of g.bin, and sets that lack something or have something more."""
    other = packet(G_SET, "filedesc", desc_body(G, NAME, b"other", 8))
    main_of_zeros = packet(NO_ID, "main", main_body(SLICE_SIZE, []))
    return {
        "g": WHOLE_G,
        "g_without_description": MAIN_OF_G + SUMS_OF_G,
        "g_without_sums": MAIN_OF_G + DESC_OF_G + ODD_SLICE,
        "g_described_twice": MAIN_OF_G + other + DESC_OF_G,
        "main_of_zeros_then_g": main_of_zeros + WHOLE_G,
    }


def other_sets():
    """Returns sets of other files."""
    ones = b"\x01" * 16
    main_of_ones = main_body(SLICE_SIZE, [ones])
    lengths = {f"of_length_{name}": set_of(main_of_ones, ("filedesc", desc_body(ones, b"n", b"", length)))
               for name, length in [("131072", 131072), ("131073", 131073)]}
    # IDs are compared by their last byte first. The Main packet has the greater one first.
    smaller, greater = b"\xff" + bytes(14) + b"\x01", b"\x01" + bytes(14) + b"\x02"
    pairs = {name: set_of(main_body(SLICE_SIZE, [greater, smaller]),
                          ("filedesc", desc_body(greater, second, b"", lengths[1])),
                          ("filedesc", desc_body(smaller, first, b"", lengths[0])))
             for name, lengths, first, second in [
                 ("one_name", (1, 2), b"n", b"n"),
                 ("greatest_lengths", (GREATEST, GREATEST), b"a", b"b")]}
    many = set_of(
        main_body(SLICE_SIZE, [G], [b"\x07" * 16, b"\x08" * 16]),
        *[("recvslic", recvslic_body(exponent, b"data")) for exponent in [5, 5, 6, 65535]],
        *[("creator", text) for text in [bytes(4), b"a\nb\\", b"later"]],
        ("filedesc", desc_body(G, b"../g\n.bin", b"")))
    return {
        "no_files": set_of(main_body(SLICE_SIZE, [])),
        **lengths, **pairs,
        "many_packets": many,
        "a_and_b": whole_set([(1, b"a.bin", b"abcd", True), (2, b"b.bin", b"abcdefgh", True)]),
        "a_without_sums": whole_set([(1, b"a.bin", b"abcdef", False)]),
        "a": whole_set([(1, b"a.bin", b"abcdef", True)]),
        "a_with_a_slice_twice": whole_set([(1, b"a.bin", b"abcdef", True)], [0, 0]),
        "z": whole_set([(1, b"z.bin", b"", False)]),
        # Short slices: one of two bytes, and two beside a full-length one.
        "ij": whole_set([(1, b"ij", b"ij", True)]),
        "ab_abcd_a": whole_set([(1, b"ab", b"ab", True), (2, b"abcd", b"abcd", True), (3, b"a", b"a", True)]),
    }


def literal(data):
    """Returns the lines of a byte string in 92 columns; each packet begins a line."""
    rows, row = [], ""
    for at, byte in enumerate(data):
        after = data[at + 1:at + 2]
        if byte == 0 and not after.isdigit():
            text = "\\0"
        elif 0x20 < byte < 0x7F and byte not in b'"\\':
            text = chr(byte)
        else:
            text = f"\\x{byte:02x}"
        if row and (len(row) + len(text) > 88 or data[at:at + 8] == MAGIC):
            rows.append(row)
            row = ""
        row += text
    return rows + [row]


def write_archive(folder, files):
    """Writes the packet files as one byte string into a source file, and each into a file of its own."""
    lines = ["// Packet files, as tools/make/packet_files.py writes them.", "",
             "/// For each packet file a line with its name and its number of bytes, and then the bytes.",
             'pub static PACKET_FILES: &[u8] = b"\\']
    for name, data in files.items():
        lines += [f"{name} {len(data)}\\n\\", *[f"    {row}\\" for row in literal(data) if row]]
        with open(os.path.join(folder, name + ".par2"), "wb") as out:
            out.write(data)
    with open(os.path.join(folder, "packet_files.rt"), "w") as out:
        out.write("\n".join([*lines, '";', ""]))


def main():
    if len(sys.argv) != 2:
        sys.exit("usage: packet_files.py FOLDER")
    folder = sys.argv[1]
    os.makedirs(folder, exist_ok=True)
    write_archive(folder, {**listings(), **sets_of_g(), **other_sets()})


if __name__ == "__main__":
    main()
