"""A grammar of hostile packet files, over which hostile.py and fuzz.py run parv.

A case follows only from a random.Random. It has packet files, and files to scan, as pairs of name and bytes. The
packets of hostile_packets.py get other lengths, hashes, types and set IDs, and are cut, changed, repeated, laid over
and put into one another. If a hash doesn't fit any more, it is usually made again, so that a change gets as far as the
readers of bodies.
"""

from hostile.hostile_packets import K32, K63, K64, MANY, OTHER_TYPES, packets_of, some_bytes
from make import damage
from make.packets import MAGIC, TYPES, md5, numbers

LENGTHS = [0, 4, 60, 62, 64, 65, 66, 68, K32 - 4, K32, K32 + 64, K32 + 128, K63 - 4, K63, K63 + 64,
           K64 - 64, K64 - 4, K64 - 1]
PACKET_FILES = [b"p.par2", b"q.PAR2", b"a\tb\\.Par2", "h\u00e9.par2".encode()]
SCANNED = [b"s.bin", b"two words", b"back\\slash", "\u00e9".encode(), b"par2"]


def places(data):
    """Returns each place of the magic."""
    found, at = [], data.find(MAGIC)
    while at >= 0:
        found.append(at)
        at = data.find(MAGIC, at + 1)
    return found


def make_hashes_anew(data):
    """Gives each packet the hash that fits its length field, or that would fit if a sum wraps around or an end is too
    far. The last packet comes first, since it may be in a body."""
    for at in reversed(places(data)):
        end = at + int.from_bytes(data[at + 8:at + 16], "little")
        if end > len(data):
            wrapped = [end % K32, end % K64, len(data)]
            end = next(end for end in wrapped if at + 32 <= end <= len(data) or end == len(data))
        data[at + 16:at + 32] = md5(data[at + 32:end])


def lengths_at(data, at):
    """Returns lengths around the end of the file, and lengths that wrap around to a place inside it."""
    rest = len(data) - at
    around = [rest + more for more in (-4, -1, 0, 1, 4)] + [rest // 4 * 4, rest // 4 * 4 + 4]
    return around + [K32 + rest, K63 + rest, K64 - at, K64 - at + 64, K64 - at // 4 * 4, K64 - rest]


# Changes of a file, which is a bytearray.

def other_length(chance, data):
    at = chance.choice(places(data) or [0])
    data[at + 8:at + 16] = numbers(chance.choice(chance.choice([LENGTHS, lengths_at(data, at)])))


def other_bytes(chance, data):
    for _ in range(chance.choice([1, 1, 2, 5]) if data else 0):
        damage.flip(data, chance.randrange(len(data)), bits=1 << chance.randrange(8))


def other_type(chance, data):
    at = chance.choice(places(data) or [0])
    data[at + 48:at + 64] = chance.choice([*TYPES.values(), *OTHER_TYPES])


def other_owner(chance, data):
    owners = [bytes(data[at + 32:at + 48]) for at in places(data)] or [bytes(16)]
    at = chance.choice(places(data) or [0])
    data[at + 32:at + 48] = chance.choice([bytes(16), *owners])


def cut(chance, data):
    ends = [*places(data), len(data)]
    damage.cut(data, max(0, chance.choice([chance.randrange(len(data) + 1), chance.choice(ends) - 1])))


def put_in(chance, data):
    at = chance.choice([chance.randrange(len(data) + 1), *places(data)])
    few = chance.randbytes(chance.randrange(1, 9))
    zeros = bytes(chance.randrange(1, 80))
    damage.insert(data, at, chance.choice([zeros, MAGIC, MAGIC + bytes(8), MAGIC[:-1], few, b"xyz"]))


def take_out(chance, data):
    damage.remove(data, chance.randrange(len(data) + 1), chance.choice([1, 3, 4, 16, 64]))


def repeat(chance, data):
    """Repeats a part from one packet to a later one, several times, and rarely some thousand times."""
    begins = [*places(data), len(data)]
    first, last = sorted(chance.choices(begins, k=2))
    part = data[first:last]
    times = 3000 if len(part) < 200 and chance.randrange(60) == 0 else chance.choice([1, 2, 9])
    if len(part) < 2000:
        damage.insert(data, last, part * times)


def lay_over(chance, data):
    """Puts headers before a packet. Their bodies contain all of it, a part of it, or everything that follows."""
    for _ in range(chance.choice([1, 1, 2, 3, 20])):
        at = chance.choice(places(data) or [0])
        rest = (len(data) - at) // 4
        length = 64 + 4 * chance.choice([rest, rest, chance.randrange(rest + 1)])
        kind = chance.choice([*TYPES.values(), OTHER_TYPES[1]])
        owner = chance.choice([bytes(data[at + 32:at + 48]).ljust(16, b"\0"), bytes(16)])
        damage.insert(data, at, MAGIC + numbers(length) + bytes(16) + owner + kind)


CHANGES = [other_length, other_length, other_bytes, other_type, other_owner, cut, put_in, take_out,
           repeat, lay_over, lay_over]


def change(chance, data):
    """Returns the bytes after some changes."""
    data = bytearray(data)
    for _ in range(chance.choice([0, 0, 0, 1, 1, 1, 2, 4])):
        chance.choice(CHANGES)(chance, data)
        if len(data) < 100000 and chance.randrange(3) > 0:
            make_hashes_anew(data)
    return bytes(data)


def is_file_name(name):
    """Returns whether a file of this name can be in a folder and be scanned, and isn't an option."""
    try:
        name.decode()
    except UnicodeDecodeError:
        return False
    return 0 < len(name) < 200 and not any(byte in name for byte in b"/\0") \
        and name[:1] not in (b"-", b".") and not name.lower().endswith(b".par2") \
        and name not in (b"out", b"err")


def scanned_of(chance, members):
    """Returns files to scan: some of the set, as they are or damaged, some of another name, and others."""
    members = members if len(members) < MANY else chance.sample(members, 4)
    files = []
    for _, name, content in members:
        name = name if is_file_name(name) and chance.randrange(3) else chance.choice(SCANNED)
        damaged = bytearray(content)
        chance.choice([other_bytes, cut, take_out, put_in])(chance, damaged)
        if chance.randrange(4):
            behind = content + some_bytes(chance, chance.choice([1, 2, 9]))
            contents = [content, content, content[1:], b"X" + content, behind, bytes(damaged)]
            files.append((name, chance.choice(contents)))
    joined = b"".join(content for _, _, content in members)
    more = [b"", joined, bytes(20), some_bytes(chance, 50), joined[::-1]]
    if chance.randrange(3) == 0:
        files.append((chance.choice(SCANNED), chance.choice(more)))
    return list(dict(files).items())


def case(chance):
    """Returns the packet files and the files to scan of one case. No two have the same name."""
    packets, members = packets_of(chance)
    parts = [bytearray() for _ in range(chance.choice([1, 1, 1, 2, 3]))]
    for packet in packets:
        chance.choice(parts).extend(packet + bytes(chance.choice([0, 0, 0, 0, 0, 1, 4])))
    names = chance.sample(PACKET_FILES, len(parts))
    files = [(name, change(chance, part)) for name, part in zip(names, parts)]
    return files, scanned_of(chance, members)
