"""For costs.sh, which protects you from searches that take hours: writes the sets and files of its runs."""
import os
import random
from bench.search_cost import packets_with_tails
from make.content import write
from make.packets import desc_body, ids_of, ifsc_body, main_body, set_of

def whole_set(name, size, *files):
    ids = ids_of(len(files), 1)
    bodies = [body for owner, (of, content) in zip(ids, files)
              for body in (("filedesc", desc_body(owner, of, content)), ("ifsc", ifsc_body(owner, content, size)))]
    write(name, set_of(main_body(size, ids), *bodies))

# 16,384 slices of zeros, 16,383 of ones, and one that is in no file; the same slices once each; and files with runs of
# both in turn.
zeros, ones = bytes(65536), b"\xff" * 65532
whole_set("equal.par2", 4, (b"zero", zeros), (b"one", ones), (b"four", b"abcd"))
whole_set("three.par2", 4, (b"zero", zeros[:4]), (b"one", ones[:4]), (b"four", b"abcd"))
write("zero", zeros)
write("one", ones)
write("odd", (bytes(4) + b"x" * 2496 + b"\xff" * 4 + b"x" * 2496) * 100)
write("ones", ones + ones)
write("more", bytes(1 << 20))

# 59 files of zeros of different lengths, and one of other bytes; and a file of zeros that has none of these lengths.
for name, length in ("lengths", 3840), ("few_lengths", 64):
    whole_set(name + ".par2", 64, *((b"%d" % at, bytes(length + at)) for at in range(1, 60)), (b"x", b"x" * 64))
write("zeros", bytes(100000))

# 20 files, or one, of zeros of each length up to 59, and one of other bytes; and zeros among which no file is expected
# to begin: a byte that isn't 0 comes before each multiple of 512. A survey that looks through all slices for each length
# at each place takes 700 million steps.
for name, count in ("short_files", 20), ("few_short_files", 1):
    whole_set(name + ".par2", 64, *((b"%d" % at, bytes(at // count + 1)) for at in range(59 * count)), (b"x", b"x" * 60))
write("between", b"x" + bytes(510) + b"x" + (bytes(511) + b"x") * 20)

# A file whose slices have no checksums.
write("bare.par2", set_of(main_body(64, [bytes(16)]), ("filedesc", desc_body(bytes(16), b"bare", b"", 64))))
with open("hole", "wb") as out:
    out.truncate(1 << 40)

# 32,768 slices of 64 bytes, or one, and a file with none of them, in whose own set there is one slice.
chance = random.Random(1)
random_bytes = chance.randbytes(4 << 20)
for name, count in ("many", 32768), ("single", 1):
    owner = bytes(16)
    write(name + ".par2", set_of(main_body(64, [owner]), ("filedesc", desc_body(owner, b"many", b"", 64 * count)),
                                 ("ifsc", owner + chance.randbytes(20 * count))))
whole_set("whole.par2", 4 << 20, (b"random", random_bytes))
write("random", random_bytes)

# 32,768 slices of 64 bytes, or 512, and files that contain 32,768 of them.
for name, count in ("there", 32768), ("few_there", 512):
    there = chance.randbytes(64 * count)
    whole_set(name + ".par2", 64, (b"there", there))
    write(name, there * (32768 // count))

# Four short slices of about 1 KiB, and four of about 60 KiB, filled with zeros up to 64 KiB.
for name, length in ("short", 1 << 10), ("long", 60 << 10):
    write(name + ".par2", packets_with_tails(1 << 16, [(length + at, chance.getrandbits(32)) for at in range(4)]))

os.mkdir("others")
for at in range(3000):
    write(f"others/{at}", b"none")
