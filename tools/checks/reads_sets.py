"""For reads.sh, which protects you from bytes that are read twice: writes the sets and files whose reads it
compares."""
from make.content import noise, write
from make.damage import flip
from make.packets import NO_ID, TYPES, desc_body, ids_of, ifsc_body, main_body, md5, packet, recvslic_body, set_of

# Writes a file of zeros with one packet in it.
def at(name, place, data, size):
    write(name, bytes(place), data, bytes(size - place - len(data)))

for size in 0, 63, 64, 65592, 65593, 200000:
    write(f"zeros{size}.par2", bytes(size))

# A packet of each kind, several times, and one that isn't a packet because its last byte was changed.
kinds = b"".join(packet(NO_ID, kind, bytes(1500)) for kind in [*TYPES, b"PAR 2.0\0Another\0"]) * 5
broken = bytearray(packet(NO_ID, "creator", bytes(400)))
flip(broken, len(broken) - 1)
write("inside.par2", kinds, broken, bytes(50000 - len(kinds) - len(broken)))

small = packet(NO_ID, "creator", b"x" * 40)
for place in 65472, 65500, 65528, 65529:
    at(f"at{place}.par2", place, small if place > 65472 else packet(NO_ID, "creator", b""), 65700)
for place in 65273, 65472, 65473, 65504, 65505:
    at(f"end{place}.par2", place, packet(NO_ID, "creator", b"x" * 200), place + 264)
at("beyond.par2", 65500, packet(NO_ID, "creator", b"x" * 400)[:200], 65700)
large = bytearray(packet(NO_ID, "creator", b"x" * 20000))
at("body.par2", 65000, large, 90000)
flip(large, len(large) - 1)
at("wrong.par2", 65000, large, 90000)
at("slice.par2", 65000, packet(NO_ID, "recvslic", recvslic_body(0, b"x" * 20000)), 90000)
at("front.par2", 65470, packet(NO_ID, "recvslic", recvslic_body(0, b"x" * 1000)), 66700)

# A packet inside the body of another one: after the end of the piece, and over it. Then a packet over the end of
# another packet.
inner = packet(NO_ID, "creator", b"y" * 400)
for place in 65400, 66000:
    front = place - 64064
    at(f"inner{place}.par2", 64000, packet(NO_ID, "creator", bytes(front) + inner + bytes(4000 - front - 464)), 70000)
second = packet(NO_ID, "creator", b"y" * 4000)
at("overlap.par2", 64000, packet(NO_ID, "creator", second[:1064]) + second[1064:], 70000)
write("limit.par2", packet(NO_ID, "creator", bytes(1048576)))
write("above.par2", packet(NO_ID, "creator", bytes(1048580)))

# Three files in slices of 8,192 bytes. Their last slices have 3,616, 3,000 and 1,696 bytes.
contents = {name: noise(name, size) for name, size in [("a", 20000), ("b", 3000), ("c", 100000)]}
ids = ids_of(3, 1)
main = main_body(8192, ids)
descs = [("filedesc", desc_body(owner, name.encode(), contents[name])) for owner, name in zip(ids, contents)]
sums = [("ifsc", ifsc_body(owner, content, 8192)) for owner, content in zip(ids, contents.values())]
write("s.par2", set_of(main, *descs, *sums))
write("n.par2", set_of(main, *descs))
write("s.id", md5(main).hex().encode())
for name, content in contents.items():
    write(name, content)
damaged = bytearray(contents["c"])
flip(damaged, 50000)
write("cc", damaged)
write("j", noise("before", 10000), contents["c"], noise("behind", 50000))
write("k", noise("before", 5000), contents["b"], bytes(20000))
for size in 1695, 1696, 20000:
    write(f"other{size}", noise("other", size))

# A slice of zeros. It is at each offset of ten thousand zeros, except the last ones, where it doesn't fit.
owner = bytes(16)
write("zero.par2", set_of(main_body(64, [owner]), ("filedesc", desc_body(owner, b"zero", bytes(64))),
                          ("ifsc", ifsc_body(owner, bytes(64), 64))))
write("zeros", bytes(10000))
