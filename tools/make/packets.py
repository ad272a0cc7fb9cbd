"""Builds packets and sets from their definitions, with hashlib and zlib.

All programs that make packet files use it. It builds a body as it is told, even if a reader has to reject it: counts,
IDs, lengths and contents need not fit one another.
"""

import hashlib
import struct
import zlib

MAGIC = b"PAR2\0PKT"

TYPES = {
    "main": b"PAR 2.0\0Main\0\0\0\0",
    "filedesc": b"PAR 2.0\0FileDesc",
    "ifsc": b"PAR 2.0\0IFSC\0\0\0\0",
    "recvslic": b"PAR 2.0\0RecvSlic",
    "creator": b"PAR 2.0\0Creator\0",
}

NO_ID = bytes(16)


def md5(data):
    return hashlib.md5(data).digest()


def numbers(*values):
    """Returns numbers of 8 bytes each, without the bits that don't fit."""
    return b"".join(struct.pack("<Q", value % (1 << 64)) for value in values)


def filled(data, unit):
    """Returns the data with zeros after it, up to a multiple of the unit."""
    return data + bytes(-len(data) % unit)


def slices(content, size):
    """Returns the slices of the content; the last one isn't padded."""
    return [content[at:at + size] for at in range(0, len(content), size)]


def ids_of(count, seed=0):
    """Returns `count` different IDs."""
    return [numbers(number, seed) for number in range(count)]


def file_id(name, content):
    return md5(md5(content[:16384]) + numbers(len(content)) + name)


def packet(owner, kind, body):
    """Returns a packet of the set with the ID `owner`. A kind is a word of TYPES, or the sixteen bytes themselves."""
    hashed = owner + TYPES.get(kind, kind) + body
    return MAGIC + numbers(32 + len(hashed)) + md5(hashed) + hashed


def set_of(main, *rest):
    """Returns the packets of the set with this Main body. The rest are pairs of kind and body."""
    owner = md5(main)
    return b"".join(packet(owner, kind, body) for kind, body in [("main", main), *rest])


def main_body(slice_size, recovery, others=()):
    """Returns the body of a Main packet, with the file IDs in the order given."""
    return struct.pack("<QI", slice_size, len(recovery)) + b"".join([*recovery, *others])


def desc_body(owner, name, content=b"", length=None):
    """Returns the body of a FileDesc packet for this file ID. Its length field can differ from the length of the
    content."""
    length = len(content) if length is None else length
    return owner + md5(content) + md5(content[:16384]) + numbers(length) + filled(name, 4)


def ifsc_body(owner, content, slice_size):
    """Returns the body of an IFSC packet for this file ID."""
    pieces = [filled(piece, slice_size) for piece in slices(content, slice_size)]
    return owner + b"".join(md5(piece) + struct.pack("<I", zlib.crc32(piece)) for piece in pieces)


def recvslic_body(exponent, data):
    return struct.pack("<I", exponent) + data
