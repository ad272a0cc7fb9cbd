#!/usr/bin/env python3
"""Compares the built program with plain models over a packet file that is changed at each byte, and over worked sets.

usage: changed.py

The file is the common test set of make/vectors.py. It is cut at each byte, and each byte is inverted; then the packets
also get hashes that fit again, and the set ID of the Main body. Over each such file run `packets`, `set`, and `set`
with the ID of the common set. `packets` also runs over headers of many lengths, and over a packet after each beginning
of one, and `set` over sets in which something is there twice, is missing or is too long. Each run must have the status,
standard output and standard error of the models, list_packets.py and describe_set.py. These must agree with the counts
and results that are written here by hand.

PARV is the program (crates/parv/out/parv).
"""

import collections
import os
import sys

sys.path[0] = os.path.dirname(os.path.dirname(os.path.realpath(__file__)))  # imports are relative to tools/

from hostile.runs import Runner, as_text
from make import damage
from make.packets import MAGIC, NO_ID, desc_body, ifsc_body, main_body, md5, numbers, packet, set_of as packets_of_set
from make.vectors import common_set
from models.describe_set import NoSet, description, packets_of, set_of
from models.list_packets import listing

NAME = b"v.par2"
PACKETS = [data for _, data in common_set()]
WHOLE = b"".join(PACKETS)
SET = WHOLE[32:48].hex()
# Where each packet begins and ends, which a change of other fields than its length leaves as it is.
PLACES = [(0, 92), (92, 220), (220, 340), (340, 416)]
CREATOR = packet(NO_ID, "creator", b"")


def cut(at):
    return WHOLE[:at]


def inverted(at):
    data = bytearray(WHOLE)
    damage.flip(data, at)
    return bytes(data)


def hashed(at, owner=None):
    """Inverts a byte. Then each packet gets the hash that fits, and this set ID if there is one."""
    data = inverted(at)
    return b"".join(packet(owner or data[begin + 32:begin + 48], data[begin + 48:begin + 64], data[begin + 64:end])
                    for begin, end in PLACES)


def owned(at):
    """Does the same with the set ID of the Main body."""
    return hashed(at, md5(inverted(at)[64:92]))


# A change, the first offset and the one after the last at which it is made, and the results of `set`.
CHANGES = [
    # The Main packet ends at 92, and the description at 220.
    (cut, 0, 417, {"no main": 92, "no description": 128, "set": 197}),
    # A packet with an inverted byte isn't a packet.
    (inverted, 0, 92, {"no main": 92}),
    (inverted, 92, 220, {"no description": 128}),
    (inverted, 220, 416, {"set": 196}),
    # If the set ID, the type or the body of a Main packet changes, its set ID isn't the MD5 of its body.
    (hashed, 32, 92, {"no main": 60}),
    # If a byte of the set ID, the type or the file ID of a description changes, or the highest byte of the length, or
    # one of the last two bytes of the name, the file has no description. If one of the five bytes before the highest
    # changes, the file has too many slices.
    (hashed, 124, 220, {"no description": 51, "too many slices": 5, "set": 40}),
    (hashed, 252, 340, {"set": 88}),
    (hashed, 372, 416, {"set": 44}),
    # The slice size and the count of a Main packet, of which only two bytes can change in a usable set, and then the
    # file ID.
    (owned, 64, 76, {"no main": 10, "set": 2}),
    (owned, 76, 92, {"no description": 16}),
]

# A length field; the number of bytes after the hash field whose MD5 the hash field has; and the number of packets.
# There is always a packet at 128. If there are two, the one at 64 has this header.
LENGTHS = [
    (0, 0, 1), (4, 0, 1), (28, 0, 1), (32, 0, 1), (60, 28, 1), (62, 30, 1), (63, 31, 1), (64, 32, 2), (64, 31, 1),
    (65, 33, 1), (66, 34, 1), (67, 35, 1), (68, 36, 2), (127, 95, 1), (128, 96, 2), (128, 32, 1), (129, 96, 1),
    (132, 96, 1), (0x1_0000_0040, 32, 1), (0x8000_0000_0000_0040, 32, 1), (0xFFFF_FFFF_FFFF_FFC0, 0, 1),
    (0xFFFF_FFFF_FFFF_FFC0, 32, 1), (0xFFFF_FFFF_FFFF_FFFC, 32, 1), (0xFFFF_FFFF_FFFF_FFFF, 31, 1),
]


def with_length(length, count):
    """Returns 64 other bytes, a header with this length field and the MD5 of `count` bytes, and a Creator packet."""
    rest = CREATOR[32:] + CREATOR
    return b"x" * 64 + MAGIC + numbers(length) + md5(rest[:count]) + rest


def id_of(byte):
    return bytes([byte]) * 16


def described(order, *members):
    """Returns the packets of a set of files with these IDs, of which some have a name and a length."""
    descs = [("filedesc", desc_body(id_of(byte), name, b"", length)) for byte, name, length in members]
    return packets_of_set(main_body(4, [id_of(byte) for byte in order]), *descs)


def of_lengths(*lengths):
    """Returns the packets of a set of files of these lengths, each with another name."""
    numbered = list(enumerate(lengths, 1))
    return described([byte for byte, _ in numbered], *[(byte, b"%d" % byte, length) for byte, length in numbered])


# Main bodies of sets without files.
PLAIN, OTHER = main_body(4, []), main_body(8, [], [id_of(1)])
NO_FILES = packets_of_set(PLAIN) + packets_of_set(OTHER) + packets_of_set(PLAIN)
NOT_DESCRIBED = described([1]) + packets_of_set(PLAIN)
MANY = "too many slices"

# Packets, the ID for --set or None, and the result of `set`: its first line, or the cause why there is no set.
SETS = [
    # The first Main packet decides, and with --set the first with that ID. It does even if its set has a fault.
    (NO_FILES, None, f"set {md5(PLAIN).hex()} size 4 slices 0"),
    (NO_FILES, md5(PLAIN), f"set {md5(PLAIN).hex()} size 4 slices 0"),
    (NO_FILES, md5(OTHER), f"set {md5(OTHER).hex()} size 8 slices 0"),
    (NO_FILES, NO_ID, "no main"),
    (NOT_DESCRIBED, md5(PLAIN), f"set {md5(PLAIN).hex()} size 4 slices 0"),
    (NOT_DESCRIBED, None, f"no description of {id_of(1).hex()}"),
    # The cause names the lowest ID without a description, or whose name a lower ID has.
    (described([4, 2, 1, 3], (1, b"a", 6), (3, b"a", 6)), None, f"no description of {id_of(2).hex()}"),
    (described([4, 2, 1, 3], (4, b"a", 6), (3, b"b", 6), (1, b"a", 6), (2, b"b", 6)), None,
     f"name twice {id_of(3).hex()}"),
]
# Lengths of files, and the number of their slices or None if there are too many. In some rows the number of slices of a
# file, or the sum of these numbers, is a multiple of 2^32 or 2^64.
SLICES = [
    ((131068,), 32767), ((131069,), 32768), ((131072,), 32768), ((131073,), None), ((131072, 0), 32768),
    ((131068, 4), 32768), ((131068, 5), None), ((1, 131068), 32768), ((1, 131069), None), ((1 << 34,), None),
    ((1 << 33, 1 << 33), None), (((1 << 63) - 1,), None), (((1 << 63) - 1,) * 2, None), (((1 << 63) - 1,) * 8, None),
]

# A file of six bytes, with checksums of one slice, checksums in another set, and twice checksums of two slices.
SUMMED = main_body(4, [id_of(1)])
SUMS = packets_of_set(SUMMED, ("ifsc", ifsc_body(id_of(1), b"uvwx", 4))) \
    + packet(NO_ID, "ifsc", ifsc_body(id_of(1), b"opqrst", 4)) \
    + packet(md5(SUMMED), "ifsc", ifsc_body(id_of(1), b"abcdef", 4)) \
    + packet(md5(SUMMED), "ifsc", ifsc_body(id_of(1), b"uvwxyz", 4)) \
    + packet(md5(SUMMED), "filedesc", desc_body(id_of(1), b"n", b"abcdef"))
# The first checksums with the right number of slices are taken.
FOUND = f"""x.bin 12 {id_of(1).hex()} 0
x.bin 16 {id_of(1).hex()} 1
end
"""


def text(lines):
    return "".join(line + "\n" for line in lines).encode()


def wanted_set(data, choice):
    """Returns the status, output and errors of a run of `set`."""
    try:
        return 0, text(description(set_of(packets_of([(NAME, data)]), choice))), b""
    except NoSet as cause:
        return 4, b"", text([f"parv: no usable set: {cause}"])


def result_of(wanted):
    """Returns the result of such a run: a set, or the cause without the ID."""
    cause = wanted[2].decode().removeprefix("parv: no usable set: ").strip()
    return cause.partition(" of ")[0] or "set"


class Compared:
    """The runs so far, and how they differ from the models."""

    def __init__(self):
        self.runner, self.runs, self.wrong = Runner(), 0, []

    def wants(self, row, words, wanted):
        """Compares a run over the packet file."""
        ran = self.runner.parv([*words, NAME])
        self.runs += 1
        if ran.hung or ran[:3] != wanted:
            self.wrong.append(f"{row}: {' '.join(words)}: {as_text(ran)}; the model has {wanted}")

    def lists(self, row, data, count=None):
        """Compares `packets`. If a count is given, there must be so many."""
        self.runner.write(NAME, data)
        lines = listing([(NAME, data)])
        self.wants(row, ["packets"], (0, text(lines), b""))
        if count not in (None, len(lines) - 1):
            self.wrong.append(f"{row}: the model has {len(lines) - 1} packets, not {count}")

    def describes(self, row, data):
        """Compares `packets` and `set`, and returns the result of `set`."""
        self.lists(row, data)
        self.wants(row, ["set", "--set", SET], wanted_set(data, SET))
        wanted = wanted_set(data, None)
        self.wants(row, ["set"], wanted)
        return result_of(wanted)

    def has_set(self, row, data, choice, first):
        """Compares `set` for one choice. The first line of the set, or the cause, must be the one given."""
        self.runner.write(NAME, data)
        wanted = wanted_set(data, choice and choice.hex())
        self.wants(row, ["set", "--set", choice.hex()] if choice else ["set"], wanted)
        said = (wanted[1] + wanted[2]).decode().partition("\n")[0].removeprefix("parv: no usable set: ")
        if said != first:
            self.wrong.append(f"{row}: the model has {said!r}, not {first!r}")


def main():
    if len(sys.argv) > 1:
        sys.exit(__doc__)
    compared = Compared()
    for change, begin, end, wanted in CHANGES:
        results = collections.Counter(compared.describes(f"{change.__name__} {at}", change(at))
                                      for at in range(begin, end))
        if results != wanted:
            compared.wrong.append(f"{change.__name__} from {begin} to {end}: the model has {dict(results)}")
    for length, count, packets in LENGTHS:
        compared.lists(f"length {length}, {count} bytes hashed", with_length(length, count), packets)
    for size in range(64):
        compared.lists(f"after {size} bytes of a packet", CREATOR[:size] + CREATOR, 1)
    for at, (data, choice, first) in enumerate(SETS):
        compared.has_set(f"set {at}", data, choice, first)
    for lengths, slices in SLICES:
        data = of_lengths(*lengths)
        first = MANY if slices is None else f"set {data[32:48].hex()} size 4 slices {slices}"
        compared.has_set(f"lengths {lengths}", data, None, first)
    compared.runner.write(NAME, SUMS)
    compared.runner.write("x.bin", b"opqrstuvwxyzabcdef")
    compared.wants("sums", ["find", "x.bin"], (0, FOUND.encode(), b""))
    compared.runner.close()
    for line in compared.wrong[:20]:
        print(f"FAILED: {line}")
    if not compared.wrong:
        print(f"ok: a set changed at each byte, and worked sets: {compared.runs} runs, each as the models have it")
    return 1 if compared.wrong else 0


if __name__ == "__main__":
    sys.exit(main())
