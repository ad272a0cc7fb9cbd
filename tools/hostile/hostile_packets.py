"""Hostile packets, which hostile_files.py puts into files: a grammar of bodies, and sets of them.

All follows only from a random.Random. In each body, something is at a limit, or close to one.
"""

import struct

from make.packets import (MAGIC, desc_body, file_id, filled, ids_of, ifsc_body, main_body, md5, numbers, packet,
                          recvslic_body, set_of)

K32, K63, K64 = 1 << 32, 1 << 63, 1 << 64
MOST, LIMIT = 32768, 1048576
SIZES = [4, 4, 4, 4, 8, 8, 12, 20, 64]
SIZES_FOR_TAILS = [264, 264, 300, 512]
TAILS = [8, 255, 256, 257, 257, 258]
MANY = 12                                     # files of a set, of which few are wrong
SIZES_AT_BOUNDS = [0, 1, 2, 3, 5, 6, 268435452, 268435456, 268435457, 268435460, 536870908,
                   536870912, K32, K63, K64 - 4, K64 - 1]
FILE_LENGTHS = [0, 1, K32 - 1, K32, K63 - 4, K63 - 1, K63, K63 + 8, K64 - 1]
NAMES = [b"a", b"b.bin", b"", b"..", b".", b"../g.bin", b"/etc/passwd", b"a\0b", b"\0a",
         b"\xff\xfe", b"two\nlines", "h\u00e9".encode(), b"\x01\x7f\x1b[2J", b"back\\slash", b" ",
         b"x.par2", b"-q", b"n" * 4095, b"n" * 4096, b"n" * 4097, b"\n" * 4096,
         b"n" * 4093 + b"\0xy"]
OTHER_TYPES = [b"PAR 2.0\0Main\0\0\0\1", b"PAR 2.0\0CommASCI", b"PAR 2.0\0filedesc",
               b"PAR 2.1\0FileDesc", b"PAR 2.0\0PkdMain\0", bytes(16), MAGIC * 2]
EXPONENTS = [0, 1, 5, 65533, 65534, 65535, 65536, K32 - 1]


def some_bytes(chance, count):
    """Returns bytes in which slices are often equal."""
    return bytes(chance.choices(chance.choice([b"ab", b"abcd\0", b"\0"]), k=count))


def changed_main(chance, size, ids, others):
    ids_twice = (ids + others)[:1] or [bytes(16)]
    whole = main_body(size, ids, others)
    counts = [len(ids) + 1, max(len(ids) - 1, 0), 1 << 31, K32 - 1]
    return chance.choice([
        lambda: numbers(chance.choice(SIZES_AT_BOUNDS)) + whole[8:],
        lambda: whole[:8] + struct.pack("<I", chance.choice(counts)) + whole[12:],
        lambda: main_body(size, ids + ids_twice * 2, others),
        lambda: main_body(size, ids, others + ids_twice * 2),
        lambda: main_body(size, ids + ids_twice, others + ids_twice),
        lambda: main_body(size, ids, others + ids_twice),
        lambda: whole + bytes(chance.choice([4, 8, 12])),
        lambda: whole[:chance.choice([0, 4, 8, 12, len(whole) - 4])],
        lambda: main_body(size, ids[::-1], others),
        lambda: main_body(size, ids + ids_of(1, 9), others),
    ])()


def changed_desc(chance, owner, name, content, size):
    whole = desc_body(owner, name, content)
    at_most = size * (MOST + chance.choice([-1, 0, 1])) + chance.choice([-1, 0, 1])
    return chance.choice([
        lambda: desc_body(owner, chance.choice(NAMES), content),
        lambda: desc_body(owner, name, content, chance.choice(FILE_LENGTHS)),
        lambda: desc_body(owner, name, content, at_most),
        lambda: desc_body(chance.choice([bytes(16), owner[:15] + b"\x7f"]), name, content),
        lambda: whole[:chance.choice([0, 16, 52, 56, 60])],
        lambda: whole + chance.choice([b"pad\0", b"\0pad", bytes(4), bytes(64), b"\n\x80\xc3\\"]),
        lambda: desc_body(owner, name, content + b"x", len(content)),
    ])()


def changed_sums(chance, owner, content, size):
    whole = ifsc_body(owner, content, size)
    return chance.choice([
        lambda: whole + bytes(chance.choice([4, 8, 16, 20, 40])),
        lambda: whole[:chance.choice([0, 12, 16, 20, 36, len(whole) - 20])],
        lambda: owner[::-1] + whole[16:],
        lambda: owner + whole[16:32] + bytes(4) + whole[36:],
        lambda: owner + bytes(16) + whole[32:],
        lambda: owner + (whole[16:36] * (len(whole) // 20))[:len(whole) - 16],
    ])()


def slice_of(chance, size):
    length = chance.choice([size, size, size, size, size + 4, max(size - 4, 0), 0])
    body = recvslic_body(chance.choice(EXPONENTS), chance.randbytes(length))
    return b"" if chance.randrange(12) == 0 else body


def large_bodies(chance, size, owner):
    """Returns bodies at the limits that make them large, and the bodies of a set around them."""
    count = MOST + chance.choice([-1, 0, 1])
    most = LIMIT + chance.choice([0, 4])
    many = ids_of(count, 1)
    split = chance.choice([0, 1, count])
    content = struct.pack(f"<{count}I", *range(count))[:4 * count - chance.choice([0, 3])]
    described = chance.choice([content, content[:4 * MOST]])
    few = many[:chance.choice([2, 8, 8, 9])]
    greatest = [("filedesc", desc_body(of, b"%d" % at, b"", K63 - 1)) for at, of in enumerate(few)]
    return chance.choice([
        lambda: [("main", main_body(4, few)), *greatest],
        lambda: [("main", main_body(size, [], many[:MOST - 1] + many[:1]))],
        lambda: [("main", main_body(size, [], many))],
        lambda: [("main", main_body(size, many[:split], many[split:]))],
        lambda: [("main", numbers(4) + bytes(4) + ids_of(1)[0] * count)],
        lambda: [("main", main_body(4, [owner])), ("filedesc", desc_body(owner, b"many", described)),
                 ("ifsc", ifsc_body(owner, content, 4))],
        lambda: [("main", main_body(size, [])), ("creator", b"c" * most)],
        lambda: [("main", main_body(size, [])), ("main", main_body(size, []) + bytes(most - 12))],
        lambda: [("main", main_body(size, [])),
                 ("filedesc", desc_body(owner, b"n" * (most - 56), b""))],
        lambda: [("main", main_body(size, [])), ("ifsc", bytes(most))],
        lambda: [("main", main_body(size, [])), (b"PAR 2.0\0CommASCI", bytes(most))],
    ])()


def nested_creators(length):
    """Returns headers of Creator packets, of this length in all. The body of each is everything that follows."""
    main = main_body(4, [])
    owner, behind = md5(main), set_of(main)
    data = bytearray(length // 64 * 64) + behind
    for at in range(length // 64 * 64 - 64, -1, -64):
        data[at:at + 16] = MAGIC + numbers(len(data) - at)
        data[at + 32:at + 64] = owner + b"PAR 2.0\0Creator\0"
        data[at + 16:at + 32] = md5(memoryview(data)[at + 32:])
    return bytes(data)


# Sets, and files with their packets.

def members_of(chance, size):
    """Returns the files of a set: the ID, name and content of each."""
    members = []
    for number in range(chance.choice([0, 1, 1, 1, 2, 2, 3, 5])):
        count = chance.choice([0, 1, size - 1, size, size + 1, 2 * size, 3 * size + 2, 5 * size])
        name = chance.choice(NAMES) if chance.randrange(6) == 0 else b"%c.bin" % (97 + number)
        content = some_bytes(chance, min(count, 200))
        owner = chance.choice([file_id(name, content), bytes([number + 1]) * 16,
                               bytes([9 - number]) + bytes(14) + bytes([number // 2])])
        members.append((owner, name, content))
    return members


def members_with_tails(chance, size):
    """Returns files of one slice each. The number of their lengths below the slice size is near the limit."""
    lengths = chance.sample(range(1, size), chance.choice(TAILS))
    lengths += chance.choice([[], lengths[:2], [size], [size, size]])
    contents = [some_bytes(chance, length) for length in lengths]
    return [(file_id(b"%d" % at, content), b"%d" % at, content) for at, content in enumerate(contents)]


def bodies_of(chance, size, members):
    """Returns the bodies of a set, Main first. Each may be changed, left out or repeated."""
    others = ids_of(chance.choice([0, 0, 1, 3]), 7)
    ids = [owner for owner, _, _ in members]
    wrong = chance.choice([0, 0, 0.1, 0.3] if len(members) < MANY else [0, 0.001, 0.003])

    def is_wrong():
        return chance.random() < wrong

    main = changed_main(chance, size, ids, others) if is_wrong() else main_body(size, ids, others)
    bodies = [("main", main)]
    for owner, name, content in members:
        if is_wrong():
            bodies.append(("filedesc", changed_desc(chance, owner, name, content, size)))
        if not is_wrong() or chance.random() < 0.5:
            bodies.append(("filedesc", desc_body(owner, name, content)))
        if is_wrong():
            bodies.append(("ifsc", changed_sums(chance, owner, content, size)))
        if not is_wrong():
            bodies.append(("ifsc", ifsc_body(owner, content, size)))
    bodies += [("recvslic", slice_of(chance, size)) for _ in range(chance.choice([0, 0, 1, 2, 4]))]
    texts = [b"", b"client", b"a\nb\\", b"\0\0x", b"\xff" * 9]
    texts = chance.choices(texts, k=chance.choice([0, 0, 1, 2]))
    bodies += [("creator", filled(text, 4)) for text in texts]
    if chance.randrange(4) == 0:
        bodies.append((chance.choice(OTHER_TYPES), some_bytes(chance, 8)))
    if is_wrong():
        bodies.append(("main", changed_main(chance, size, ids, others)))
    return bodies


def packets_of(chance):
    """Returns the packets of one set or of two, and the members of the sets."""
    packets, all_members = [], []
    for _ in range(chance.choice([1, 1, 1, 1, 2])):
        size = chance.choice(SIZES)
        members = members_of(chance, size)
        if chance.randrange(30) == 0:
            size = chance.choice(SIZES_FOR_TAILS)
            members = members_with_tails(chance, size)
        is_large = chance.randrange(40) == 0
        bodies = large_bodies(chance, size, bytes(16)) if is_large else \
            bodies_of(chance, size, members)
        owner = md5(bodies[0][1])
        own = [packet(owner, kind, body) for kind, body in bodies]
        if chance.randrange(8) == 0:
            own.append(packet(bytes(16), *chance.choice(bodies)))
        if chance.randrange(3) == 0:
            own += chance.choices(own, k=1 if is_large else chance.choice([1, 2, len(own)]))
        if chance.randrange(3) == 0:
            chance.shuffle(own)
        packets += own
        all_members += members
    return packets, all_members
