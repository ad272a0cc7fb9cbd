#!/usr/bin/env python3
"""Lists the PAR2 packets of files, by the definition of a packet at each offset of the magic.

usage: list_packets.py [--set HEX] FILE...

Prints what `parv packets` prints, independently of parv. Like parv, it reads only files whose name ends in .par2.
"""

import argparse
import hashlib
import os
import re

MAGIC = b"PAR2\0PKT"

KINDS = {
    b"PAR 2.0\0Main\0\0\0\0": "main",
    b"PAR 2.0\0FileDesc": "filedesc",
    b"PAR 2.0\0IFSC\0\0\0\0": "ifsc",
    b"PAR 2.0\0RecvSlic": "recvslic",
    b"PAR 2.0\0Creator\0": "creator",
}


def packet_at(data, at):
    """Returns the length, kind and set ID of the packet at this offset, or None if no packet is there."""
    if data[at:at + 8] != MAGIC:
        return None
    length = int.from_bytes(data[at + 8:at + 16], "little")
    if length < 64 or length % 4 != 0 or at + length > len(data):
        return None
    if hashlib.md5(data[at + 32:at + length]).digest() != data[at + 16:at + 32]:
        return None
    kind = KINDS.get(data[at + 48:at + 64], "unknown")
    return length, kind, data[at + 32:at + 48].hex()


def packets_in(data):
    """Yields each packet, by its offset: the offset, its length, its kind and its set ID."""
    at = data.find(MAGIC)
    while at >= 0:
        found = packet_at(data, at)
        if found is not None:
            yield at, *found
        at = data.find(MAGIC, at + 1)


def shown(name):
    """Returns the name as text: printable ASCII as it is, other bytes and the backslash escaped."""
    text = ""
    for byte in name:
        if byte == 0x5C:
            text += "\\\\"
        elif 0x20 <= byte <= 0x7E:
            text += chr(byte)
        else:
            text += f"\\x{byte:02x}"
    return text


def set_id(text):
    if not re.fullmatch("[0-9A-Fa-f]{32}", text):
        raise argparse.ArgumentTypeError("a set ID has 32 hexadecimal digits")
    return text.lower()


def listing(files, chosen=None):
    """Returns the lines of files, which are pairs of name and bytes. With a set ID, only the lines of its packets."""
    lines = [f"{shown(name)} {at} {length} {kind} {owner}" for name, data in files
             for at, length, kind, owner in packets_in(data) if chosen in (None, owner)]
    return [*lines, f"packets {len(lines)}"]


def is_packet_file(name):
    return name[-5:].lower() == b".par2"


def with_bytes(names):
    """Returns the files of these names, as pairs of name and bytes."""
    files = []
    for name in names:
        with open(name, "rb") as file:
            files.append((name, file.read()))
    return files


def main():
    parser = argparse.ArgumentParser(allow_abbrev=False)
    parser.add_argument("--set", type=set_id, metavar="HEX", help="list this set's packets only")
    parser.add_argument("files", nargs="+", type=os.fsencode, metavar="FILE")
    arguments = parser.parse_args()
    names = list(filter(is_packet_file, arguments.files))
    if not names:
        parser.error("no packet file")
    print("\n".join(listing(with_bytes(names), arguments.set)))


if __name__ == "__main__":
    main()
