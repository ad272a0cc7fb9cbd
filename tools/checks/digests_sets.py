"""For digests.sh, which protects you from needless hashing and searching: writes the sets and files over which it
counts."""
import zlib
from bench.search_cost import packets_with_tails
from make.content import noise, write
from make.damage import flip
from make.packets import NO_ID, desc_body, ids_of, ifsc_body, main_body, md5, packet, set_of

def stepped(register):
    for _ in range(8):
        register = register >> 1 ^ (0xEDB88320 if register & 1 else 0)
    return register

def with_crc(front, crc):
    """Returns these bytes and four more, chosen so that all together have this CRC-32."""
    table = [stepped(byte) for byte in range(256)]
    steps, after = [], crc ^ 0xFFFFFFFF
    for _ in range(4):
        step = next(byte for byte in range(256) if table[byte] >> 24 == after >> 24)
        steps.insert(0, step)
        after = (after ^ table[step]) << 8 & 0xFFFFFFFF
    register, more = zlib.crc32(front) ^ 0xFFFFFFFF, bytearray()
    for step in steps:
        more.append(step ^ register & 0xFF)
        register = register >> 8 ^ table[step]
    assert zlib.crc32(front + more) == crc
    return front + more

# Packets: two whole ones, one whose last byte was changed, one over the end of the first piece of a file, one that is
# longer than its file, and one inside another.
small, large = packet(NO_ID, "creator", bytes(40)), packet(NO_ID, "creator", bytes(20000))
damaged = bytearray(large)
flip(damaged, len(damaged) - 1)
write("two.par2", small, large)
write("wrong.par2", damaged)
write("late.par2", bytes(65000), large, bytes(5000))
write("cut.par2", large[:-4])
write("inner.par2", packet(NO_ID, "creator", bytes(100) + small + bytes(20)))

# Three files in slices of 8,192 bytes. Their last slices have 3,616, 3,000 and 1,696 bytes.
size = 8192
contents = {name: noise(name, length) for name, length in [("a", 20000), ("b", 3000), ("c", 100000)]}
ids = ids_of(3, 1)
main = main_body(size, ids)
descs = [("filedesc", desc_body(owner, name.encode(), contents[name])) for owner, name in zip(ids, contents)]
sums = [("ifsc", ifsc_body(owner, content, size)) for owner, content in zip(ids, contents.values())]
write("s.par2", set_of(main, *descs, *sums))
write("n.par2", set_of(main, *descs))
write("s.id", md5(main).hex().encode())
for name, content in contents.items():
    write(name, content)
changed = bytearray(contents["c"])
flip(changed, 50000)
write("cc", changed)
# The seventh slice is replaced by bytes that have its CRC-32 but not its MD5.
seventh = contents["c"][6 * size:7 * size]
forged = with_crc(noise("forged", size - 4), zlib.crc32(seventh))
assert len(forged) == size and forged != seventh
write("cf", contents["c"][:6 * size], forged, contents["c"][7 * size:])
write("other", noise("other", 20000))
# An image in which zeros come before the files and each file begins at a multiple of 512; the same files joined
# directly; and 4,000 blocks of 512 bytes that end in a zero and contain no file.
def filled_up(content):
    return content + bytes(-len(content) % 512)

a, b, c = contents.values()
write("image", noise("header", 2000), bytes(48), *map(filled_up, [b, a, c]))
write("joined", b, a, c)
write("blocks", *(noise(f"block {at}", 511) + bytes(1) for at in range(4000)))

# Sets of files that have one slice of 64 bytes each.
def short_set(name, *slices):
    owners = ids_of(len(slices), 2)
    write(name, set_of(main_body(64, owners),
                       *(pair for owner, content in zip(owners, slices)
                         for pair in (("filedesc", desc_body(owner, owner[:1].hex().encode(), content)),
                                      ("ifsc", ifsc_body(owner, content, 64))))))

short_set("zero.par2", bytes(64), b"x" * 64)
short_set("twins.par2", b"y" * 64, b"y" * 64)
write("zeros", bytes(10000))
write("twin", b"y" * 64 + b"z")

# Content that repeats. Each set also has a slice that isn't in it.
nowhere = b"x" * 64
short_set("both.par2", bytes(64), b"y" * 64, nowhere)
write("y", b"y" * 64)
write("both", bytes(10000), b"y" * 10000)
write("last", bytes(10000), nowhere)
write("thousand", bytes(1000))
for at in range(20):
    write(f"few{at}", bytes(600))
period = noise("period", 61)
short_set("period.par2", *((period * 3)[at:at + 64] for at in range(61)), nowhere)
write("period", period * 400)
others = [noise(f"other {at}", 64) for at in range(200)]
short_set("others.par2", *others, nowhere)
write("others", *(other * 2 for other in others))
# A slice of zeros that is longer than the file, and a short slice of two letters.
owners, content = ids_of(1, 5), bytes(16384) + b"ab"
write("unfit.par2", set_of(main_body(16384, owners), ("filedesc", desc_body(owners[0], b"unfit", content)),
                           ("ifsc", ifsc_body(owners[0], content, 16384))))
write("unfit", bytes(12000))

# Tails of about 1,000 bytes, none of which is in this file: four, and 64.
for name, count in ("tails.par2", 4), ("more_tails.par2", 64):
    write(name, packets_with_tails(4096, [(1000 + at, at) for at in range(count)]))
write("long", noise("long", 65536))
