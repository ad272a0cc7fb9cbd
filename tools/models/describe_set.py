#!/usr/bin/env python3
"""Describes the PAR2 recovery set of packet files, independently of parv.

usage: describe_set.py FILE...

Prints what `parv set` prints. If the files give no set, it prints only the first cause, on standard error. It rejects
bodies of more than 1,048,576 bytes. If several packets are about one thing, it takes the first by file and offset.
"""

import hashlib
import os
import sys
from typing import NamedTuple

sys.path[0] = os.path.dirname(os.path.dirname(os.path.realpath(__file__)))  # imports are relative to tools/

from models.list_packets import packets_in, shown, with_bytes

LIMIT = 1048576
GREATEST_SIZE = 268435456
MOST = 32768


class NoSet(Exception):
    """The reason why there is no set, in the words of parv."""


class File(NamedTuple):
    """A file of the set. Its checksums are pairs of MD5 and CRC-32, one after the other, or None."""
    id: bytes
    length: int
    slices: int
    whole: bytes
    name: bytes
    sums: list


class RecoverySet(NamedTuple):
    """A set. Its files are sorted by their IDs; `aside` is a list of rejected packets: file name, offset and reason."""
    id: str
    size: int
    files: list
    others: int
    have: int
    creator: bytes
    aside: list


def number(data):
    return int.from_bytes(data, "little")


def pieces(data, width):
    return [data[at:at + width] for at in range(0, len(data), width)]


def packets_of(files):
    """Returns each packet of files, by file and offset, as (name, offset, kind, set ID, body)."""
    return [(name, at, kind, owner, data[at + 64:at + length])
            for name, data in files for at, length, kind, owner in packets_in(data)]


def main_reason(body, owner):
    if len(body) > LIMIT:
        return 7
    if len(body) < 12 or (len(body) - 12) % 16 or (len(body) - 12) // 16 < number(body[8:12]):
        return 1
    size, ids = number(body[:8]), pieces(body[12:], 16)
    if size == 0 or size % 4:
        return 2
    if size > GREATEST_SIZE or len(ids) > MOST:
        return 7
    if len(set(ids)) < len(ids):
        return 3
    if hashlib.md5(body).hexdigest() != owner:
        return 4
    return None


def desc_reason(body):
    if len(body) > LIMIT:
        return 7
    if len(body) < 56 or len(body) % 4:
        return 1
    name = body[56:].rstrip(b"\0")
    if not 1 <= len(name) <= 4096 or b"\0" in name:
        return 5
    return 7 if number(body[48:56]) >= 1 << 63 else None


def ifsc_reason(body):
    if len(body) > LIMIT:
        return 7
    if len(body) < 16 or (len(body) - 16) % 20:
        return 1
    return 7 if (len(body) - 16) // 20 > MOST else None


def slice_reason(body, size):
    if len(body) < 4 or len(body) - 4 != size:
        return 1
    return 7 if number(body[:4]) > 65534 else None


def reason(kind, body, owner, size):
    if kind == "main":
        return main_reason(body, owner)
    if kind == "filedesc":
        return desc_reason(body)
    if kind == "ifsc":
        return ifsc_reason(body)
    if kind == "recvslic":
        return slice_reason(body, size)
    if kind == "creator":
        return 7 if len(body) > LIMIT else None
    return None


def files_of(size, ids, descs, sums):
    """Returns the files of the recovery IDs by ID, or raises NoSet with the first cause."""
    first_desc, first_sums = {}, {}
    for body in descs:
        first_desc.setdefault(body[:16], body)
    for body in sums:
        first_sums.setdefault((body[:16], (len(body) - 16) // 20), body)
    files, names = [], set()
    for file in sorted(ids, key=number):
        body = first_desc.get(file)
        if body is None:
            raise NoSet(f"no description of {file.hex()}")
        length = number(body[48:56])
        slices = -(-length // size)
        pairs = first_sums.get((file, slices))
        known = None if pairs is None else pieces(pairs[16:], 20)
        files.append(File(file, length, slices, body[16:32], body[56:].rstrip(b"\0"), known))
    for file in files:
        if file.name in names:
            raise NoSet(f"name twice {file.id.hex()}")
        names.add(file.name)
    if sum(file.slices for file in files) > MOST:
        raise NoSet("too many slices")
    return files


def set_of(packets, choice=None):
    """Returns the set of packets: that of the first usable Main packet by file and offset, or the one with the ID
    `choice`."""
    body, owner = next(((body, owner) for _, _, kind, owner, body in packets
                        if kind == "main" and choice in (None, owner)
                        and main_reason(body, owner) is None), (None, None))
    if body is None:
        raise NoSet("no main")
    size, count, ids = number(body[:8]), number(body[8:12]), pieces(body[12:], 16)
    usable, aside = {}, []
    for name, at, kind, of, body in packets:
        if of == owner:
            why = reason(kind, body, owner, size)
            if why is None:
                usable.setdefault(kind, []).append(body)
            else:
                aside.append((name, at, why))
    files = files_of(size, ids[:count], usable.get("filedesc", []), usable.get("ifsc", []))
    have = len({body[:4] for body in usable.get("recvslic", [])})
    texts = [body.rstrip(b"\0") for body in usable.get("creator", [])]
    creator = next((text for text in texts if text), None)
    return RecoverySet(owner, size, files, len(ids) - count, have, creator, aside)


def set_line(found):
    return f"set {found.id} size {found.size} slices {sum(file.slices for file in found.files)}"


def description(found):
    """Returns the lines of a set."""
    lines = [set_line(found)]
    for file in found.files:
        known = "no" if file.sums is None else "yes"
        lines.append(f"file {file.id.hex()} {file.length} {file.slices} {known} {shown(file.name)}")
    lines += [f"others {found.others}", f"have {found.have}"]
    if found.creator is not None:
        lines.append(f"creator {shown(found.creator)}")
    return lines + [f"aside {shown(name)} {at} {why}" for name, at, why in found.aside]


def main():
    try:
        found = set_of(packets_of(with_bytes(map(os.fsencode, sys.argv[1:]))))
    except NoSet as cause:
        sys.exit(f"parv: no usable set: {cause}")
    print("\n".join(description(found)))


if __name__ == "__main__":
    main()
