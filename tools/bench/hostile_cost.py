#!/usr/bin/env python3
"""Measures what hostile packet files cost: memory, and seconds of the processor.

usage: hostile_cost.py [nested|headers|windows|sums|tails|names ..]

nested   Creator packets, each in the body of the one before, 512 KiB in all.
headers  A header every 16 bytes, whose length goes to the end of the file and whose hash is wrong: each
         costs a hash of the rest. `par2 verify` runs over the same file, if par2 is installed.
windows  A set of the largest slice size whose slices have no checksums: parv makes no window.
sums     A slice of zeros with the right CRC-32 and a wrong MD5, in a file of zeros: an MD5 at each offset.
tails    256 short slices like that of `sums`, and --tails: 256 MD5s at each offset.
names    Names of 4,096 bytes that are shown by 16,384 each, and one long name of a scanned file.

PARV is the program (crates/parv/out/parv). A run is stopped after 1,000 seconds.
"""

import os
import shutil
import struct
import sys
import zlib

sys.path[0] = os.path.dirname(os.path.dirname(os.path.realpath(__file__)))  # imports are relative to tools/

from hostile.hostile_packets import nested_creators
from hostile.runs import PARV, Runner, as_text
from make.packets import MAGIC, desc_body, ids_of, main_body, numbers, set_of

KIB, MIB = 1 << 10, 1 << 20
GREATEST = 268435456


def told(runner, name, words, size):
    """Prints what a run took. `size` is the size of its packet files."""
    ran = runner.run(words)
    ended = "stopped" if ran.hung else f"status {ran.status}" if ran.status >= 0 else as_text(ran)
    print(f"{name}: {ran.seconds:.2f} s, {ran.memory / KIB:.1f} MiB with a packet file of "
          f"{size / KIB:.1f} KiB, {len(ran.out)} bytes written, {ended}", flush=True)
    return ran


def cost_of_nested(runner):
    data = nested_creators(512 * KIB)
    runner.write("p.par2", data)
    for command in ("packets", "set", "verify"):
        told(runner, f"nested, {command}", [PARV, command, "p.par2"], len(data))


def cost_of_headers(runner):
    for length in (64 * KIB, 256 * KIB, MIB):
        data = b"".join(MAGIC + numbers((length - at) // 4 * 4) for at in range(0, length, 16))
        runner.write("p.par2", data)
        told(runner, "headers, packets", [PARV, "packets", "p.par2"], length)
        if shutil.which("par2"):
            told(runner, "headers, par2 verify", ["par2", "verify", "p.par2"], length)


def cost_of_windows(runner):
    main, owner = main_body(GREATEST, [bytes(16)]), bytes(16)
    data = set_of(main, ("filedesc", desc_body(owner, b"a.bin", b"", 64 * MIB)))
    runner.write("p.par2", data)
    for name, length in [("a.bin", 64 * MIB), ("b.bin", 64 * MIB - 1)]:
        runner.write(name, bytes(length))
    for command in ("find", "verify"):
        for name, what in [("a.bin", "64 MiB of a set file's length"), ("b.bin", "one byte less")]:
            told(runner, f"windows, {command}, {what}", [PARV, command, "p.par2", name], len(data))


def cost_of_sums(runner):
    owner = bytes(16)
    for size in (MIB, 16 * MIB, GREATEST):
        crc = 0
        for _ in range(size // MIB):
            crc = zlib.crc32(bytes(MIB), crc)
        main = main_body(size, [owner])
        data = set_of(main, ("filedesc", desc_body(owner, b"a.bin", b"", 1)),
                      ("ifsc", owner + bytes(16) + struct.pack("<I", crc)))
        runner.write("p.par2", data)
        for scanned in (1, 5):
            runner.write("z.bin", bytes(scanned))
            told(runner, f"sums, find in {scanned} zeros, slices of {size // MIB} MiB",
                 [PARV, "find", "p.par2", "z.bin"], len(data))


def cost_of_tails(runner):
    for size in (KIB, 64 * KIB):
        sums, ids = bytes(16) + struct.pack("<I", zlib.crc32(bytes(size))), ids_of(256, 1)
        bodies = [body for length, owner in enumerate(ids, size - 256)
                  for body in (("filedesc", desc_body(owner, b"%d" % length, b"", length)), ("ifsc", owner + sums))]
        data = set_of(main_body(size, ids), *bodies)
        runner.write("p.par2", data)
        runner.write("z.bin", bytes(size + 99))
        for command in ("find", "verify"):
            told(runner, f"tails, {command} in {size + 99} zeros, slices of {size // KIB} KiB",
                 [PARV, command, "--tails", "p.par2", "z.bin"], len(data))


def cost_of_names(runner):
    count = 4096
    ids = ids_of(count)
    main = main_body(4, ids)
    data = set_of(main, *[("filedesc", desc_body(owner, b"%05d" % at + b"\n" * 4091, b""))
                          for at, owner in enumerate(ids)])
    runner.write("p.par2", data)
    for command in ("set", "verify"):
        told(runner, f"names, {command}", [PARV, command, "p.par2"], len(data))
    count = 32768
    ids = ids_of(count)
    data = set_of(main_body(4, ids), *[("filedesc", desc_body(owner, b"%05d" % at, b""))
                                       for at, owner in enumerate(ids)])
    runner.write("p.par2", data)
    name = "./" * 1900 + "\n" * 200
    runner.write(name, b"")
    told(runner, "names, verify, all renamed from one of 4,000 bytes",
         [PARV, "verify", "p.par2", name], len(data))


def main():
    costs = {"nested": cost_of_nested, "headers": cost_of_headers, "windows": cost_of_windows,
             "sums": cost_of_sums, "tails": cost_of_tails, "names": cost_of_names}
    asked = sys.argv[1:] or list(costs)
    if not set(asked) <= set(costs):
        sys.exit(__doc__)
    for name in asked:
        runner = Runner(1000)
        costs[name](runner)
        runner.close()


if __name__ == "__main__":
    main()
