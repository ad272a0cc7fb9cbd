"""Damages a volume of the demo, from its end to its beginning, so that earlier offsets stay valid.

usage: demo_damage.py SOURCE TARGET"""

import struct
import sys

from make.damage import cut, flip, insert

source, target = sys.argv[1:]
with open(source, "rb") as file:
    data = bytearray(file.read())

packets = []                    # offset and length of each packet
recovery = {}                   # the same of each recovery slice, by exponent
at = 0
while at < len(data):
    length = struct.unpack_from("<Q", data, at + 8)[0]
    packets.append((at, length))
    if data[at + 48:at + 64] == b"PAR 2.0\0RecvSlic":
        recovery[struct.unpack_from("<I", data, at + 64)[0]] = at, length
    at += length

# Cuts the end off, in the middle of the last packet.
at, length = packets[-1]
cut(data, at + length // 2)

# Inserts five bytes before a packet, so this packet and those after it begin at odd offsets.
at, length = recovery[5]
insert(data, at, b"#####")

# Inverts sixteen bytes in the middle of a packet.
at, length = recovery[4]
flip(data, at + length // 2, 16)

# Inserts a line of text before the first packet.
insert(data, 0, b"This line of text stands ahead of the first packet.\n")

with open(target, "wb") as file:
    file.write(data)
