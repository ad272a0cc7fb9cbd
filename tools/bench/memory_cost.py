#!/usr/bin/env python3
"""Compares the greatest resident size of runs with the formulas of docs/MEMORY.md, at two sizes of each input, and
once with most inputs together.

usage: memory_cost.py

Each line says by how many KiB the run is larger than the same command on a set without files, and how many KiB the
formula allows.

PARV is the program (crates/parv/out/parv).
"""

import os
import subprocess
import sys

sys.path[0] = os.path.dirname(os.path.dirname(os.path.realpath(__file__)))  # imports are relative to tools/

from hostile.runs import PARV, TOOLS, Runner, as_text
from make.packets import NO_ID, desc_body, ids_of, ifsc_body, main_body, md5, packet, recvslic_body, set_of

KIB, MIB = 1 << 10, 1 << 20
MARGIN = MIB
PACKET, UNNAMED, FILE, SLICE, TAIL, NAMED, SHOWN = 200, 150, 910, 180, 5150, 560, 5  # bytes for one of each
RUNNING = 4  # bytes for each byte of a window of up to 8 MiB, if there are six tails or more
SLICE_AGAIN, INDEX_AGAIN = 100, 528 * KIB  # bytes for each slice, and once, for each further index of verify
OF_A_LENGTH = 80  # bytes, in verify, for each scanned file that has the length of a file of the set
COMMANDS = ["packets", "set", "find", "verify"]
SEARCHES = COMMANDS[2:]
EMPTY = main_body(4, [])


def no_sums(owner, pairs):
    """Returns the kind and body of checksums that no slice has."""
    return "ifsc", owner + b"".join(md5(b"%d" % at) + at.to_bytes(4, "big") for at in range(pairs))


def one_file(size, length, pairs):
    """Returns the set of one file, with checksums that no slice has."""
    return set_of(main_body(size, [NO_ID]), ("filedesc", desc_body(NO_ID, b"a", b"", length)), no_sums(NO_ID, pairs))


def files_of_one_slice(count, names=7, length=lambda at: 4):
    """Returns the kinds and bodies of the packets of files whose names have `names` bytes, with checksums that no slice
    has."""
    return [body for at, owner in enumerate(ids_of(count))
            for body in (("filedesc", desc_body(owner, b"%0*d" % (names, at), b"", length(at))), no_sums(owner, 1))]


class Costs:
    """The program's runner, the peaks on a set without files, and whether all runs were within the formulas."""

    def __init__(self):
        self.runner = Runner()
        self.held = os.path.join(self.runner.held.name, "many_open.so")
        subprocess.run(["gcc", "-shared", "-fPIC", "-O2", "-o", self.held,
                        os.path.join(TOOLS, "bench/many_open.c")], check=True)
        self.write("p.par2", set_of(EMPTY))
        self.least = {command: self.peak(command, ["p.par2"]) for command in COMMANDS}
        self.failed = False

    def write(self, name, data, length=None):
        """Writes a file with a hole after its data, up to the length."""
        self.runner.write(name, data)
        if length is not None:
            os.truncate(os.path.join(self.runner.folder, name), length)

    def peak(self, command, words, *before):
        run = self.runner.run([*before, PARV, *command.split(), *words])
        if run.hung or run.status not in (0, 1, 2) or run.err:
            sys.exit(f"FAILED: {command}: {as_text(run)}")
        return run.memory * KIB

    def within(self, name, allowed, commands, words=("p.par2",), before=()):
        for command in commands:
            more = self.peak(command, words, *before) - self.least[command.split()[0]]
            line = f"{more // KIB} KiB of {(allowed + MARGIN) // KIB}: {command}, {name}"
            print(f"ok: {line}" if more <= allowed + MARGIN else f"FAILED: {line}", flush=True)
            self.failed |= more > allowed + MARGIN


def cost_of_packets(costs):
    """Packets of each kind. In a set, the descriptions, checksums and Main packets here are rejected: they are too
    short."""
    kinds = [("Creator packets", "creator", b"", 0), ("recovery slices", "recvslic", recvslic_body(1, b"abcd"), 0),
             ("descriptions", "filedesc", b"abcd", 4), ("sums", "ifsc", b"abcd", 4),
             ("Main packets", "main", b"abcd", 4), ("packets of no known kind", b"PAR 2.0\0Unknown\0", b"abcd", 0)]
    for count in 20_000, 200_000:
        for owner, whose in (NO_ID, "others"), (md5(EMPTY), "a set"):
            for name, kind, body, held in kinds:
                costs.write("p.par2", set_of(EMPTY) + packet(owner, kind, body) * count)
                costs.within(f"{count} {name} of {whose}", (PACKET + held) * count, COMMANDS)


def cost_of_descriptions(costs):
    """Descriptions of files that Main doesn't name, each with its own ID."""
    for count, names in (20_000, 8), (100_000, 8), (2_000, 4_000), (8_000, 400):
        bodies = [("filedesc", desc_body(owner, b"%0*d" % (names, at), b"", 4))
                  for at, owner in enumerate(ids_of(count, 1))]
        costs.write("p.par2", set_of(EMPTY, *bodies))
        allowed = (PACKET + UNNAMED + len(bodies[0][1]) + names) * count
        costs.within(f"{count} descriptions that Main does not name, with {names} bytes of name", allowed, COMMANDS)


def cost_of_bodies(costs):
    """Large bodies: of text, of which each byte is shown by four; and of checksums of the set and Main packets of
    others, which are usable."""
    owner = md5(EMPTY)
    for mib, shown in (7, MIB // 4), (63, MIB):
        for name, made in (("descriptions", lambda: packet(owner, "filedesc", bytes(MIB)) * mib),
                           ("sums", lambda: b"".join(packet(owner, *no_sums(file, 32768)) for file in ids_of(mib))),
                           ("sums of others", lambda: packet(NO_ID, "ifsc", bytes(MIB)) * mib),
                           ("Main packets", lambda: packet(owner, "main", EMPTY + bytes(MIB - len(EMPTY))) * mib),
                           ("Main packets of others",
                            lambda: b"".join(set_of(main_body(8 + 4 * at, ids_of(32768))) for at in range(mib)))):
            bodies = made()
            costs.write("p.par2", set_of(EMPTY) + bodies + packet(owner, "creator", b"\n" * shown))
            costs.within(f"{len(bodies) // KIB} KiB of bodies of {name}, and {shown // KIB} KiB that are shown",
                         len(bodies) + (1 + SHOWN) * shown, COMMANDS)


def cost_of_recovery_data(costs):
    for size in 32 * MIB, 128 * MIB:
        costs.write("p.par2", set_of(main_body(size, []), ("recvslic", bytes(4 + size))))
        costs.within(f"a recovery slice of {size // MIB} MiB", 0, COMMANDS)


def cost_of_files(costs):
    """Files: the description of each has its name once, and what parv reads and keeps has it twice more."""
    for count, names in (4096, 7), (32768, 7), (2_000, 4_000), (8_000, 400):
        costs.write("p.par2", set_of(main_body(4, ids_of(count)), *files_of_one_slice(count, names)))
        costs.within(f"{count} files of one slice each, with {names} bytes of name", (FILE + 3 * names) * count,
                     COMMANDS)


def cost_of_slices(costs):
    costs.write("z", b"z" * 100)
    for count in 4096, 32768:
        costs.write("p.par2", one_file(4, 4 * count, count))
        costs.within(f"{count} slices of a file", SLICE * count, COMMANDS, ["p.par2", "z"])


def cost_of_slices_that_are_found(costs):
    """Slices that are found: one is found by the MD5 of its file, and then the others are looked for."""
    costs.write("z", b"zzzz")
    for count in 4096, 32767:
        whole, other = ids_of(2)
        costs.write("p.par2", set_of(main_body(4, [whole, other]), ("filedesc", desc_body(whole, b"z", b"zzzz")),
                                     ("ifsc", ifsc_body(whole, b"zzzz", 4)),
                                     ("filedesc", desc_body(other, b"a", b"", 4 * count)), no_sums(other, count)))
        costs.within(f"a file that is whole, and {count} slices of another",
                     (SLICE + SLICE_AGAIN) * count + INDEX_AGAIN, ["verify", "verify --tails"], ["p.par2", "z"])


def cost_of_slices_that_repeat(costs):
    """Slices of zeros and of ones that are found again and again, so the survey makes a smaller index in the run of
    each. If the file of another slice is whole, it begins with one. With --tails, its first round has one beside
    that. All other slices are looked for to the end."""
    costs.write("whole", b"wwww")
    *owners, other = ids_of(4)
    contents = {b"whole": b"wwww", b"zeros": bytes(4), b"ones": b"1111"}
    found = [body for owner, (name, content) in zip(owners, contents.items())
             for body in (("filedesc", desc_body(owner, name, content)), ("ifsc", ifsc_body(owner, content, 4)))]
    for count in 4096, 32765:
        run = 2 * (count + 3) + 9000  # more windows than the survey compares in vain before it makes an index
        costs.write("runs", bytes(run) + b"1" * run)
        costs.write("p.par2", set_of(main_body(4, [*owners, other]), *found,
                                     ("filedesc", desc_body(other, b"a", b"", 4 * count)), no_sums(other, count)))
        for name, more in ("", []), (", and a file that is whole", ["whole"]):
            for tails, indexes in ("", 1), (" --tails", 2):
                costs.within(f"{count} slices beside two that are found again and again{name}",
                             SLICE * count + indexes * (SLICE_AGAIN * count + INDEX_AGAIN), [f"verify{tails}"],
                             ["p.par2", "runs", *more])


def cost_of_tails(costs):
    costs.write("z", b"z" * 5000)
    for count in 64, 256:
        costs.write("p.par2", set_of(main_body(1024, ids_of(count)),
                                     *files_of_one_slice(count, length=lambda at: at + 1)))
        costs.within(f"{count} tails", (FILE + TAIL) * count, ["find --tails", "verify --tails"], ["p.par2", "z"])
    for size, more in (4 * MIB, RUNNING), (8 * MIB, RUNNING), (8 * MIB + 4, 0):
        costs.write("p.par2", set_of(main_body(size, ids_of(6)), *files_of_one_slice(6, length=lambda at: at + 1)))
        costs.within(f"6 tails in slices of {size} bytes", (FILE + TAIL) * 6 + (1 + more) * size,
                     ["find --tails", "verify --tails"], ["p.par2", "z"])


def cost_of_slice_size(costs):
    """Slice sizes. The last slice is short, so --tails looks for it by its own length."""
    costs.write("z", b"z" * 100)
    for size in 8 * MIB, 256 * MIB:
        costs.write("p.par2", one_file(size, size + 5, 2))
        costs.within(f"slices of {size // MIB} MiB", 0, COMMANDS[:2], ["p.par2", "z"])
        costs.within(f"slices of {size // MIB} MiB", size, SEARCHES + ["find --tails", "verify --tails"],
                     ["p.par2", "z"])


def cost_of_lengths(costs):
    """Lengths of files: a packet file with its packets before a hole, and a file to scan."""
    for size in 64 * MIB, 1024 * MIB:
        costs.write("z", b"z" * 100)
        costs.write("p.par2", one_file(4, 4, 1), size)
        costs.within(f"a packet file of {size // MIB} MiB", 0, COMMANDS, ["p.par2", "z"])
        costs.write("p.par2", one_file(4, 4, 1))
        costs.write("z", b"z" * 100, size // 4)
        costs.within(f"a file of {size // 4 // MIB} MiB", 0, SEARCHES, ["p.par2", "z"])


def cost_of_scanned_files(costs):
    """Scanned files. many_open.c holds those open that the system doesn't allow; the memory for its names is part of
    the result."""
    for count, size in (8_000, 8), (65_000, 8), (2_000, 120), (10_000, 120):
        names = [f"{at:0{size}}" for at in range(count)]
        costs.runner.clear()
        costs.write("p.par2", one_file(4, 8, 2))
        for length, more in (9, 0), (8, OF_A_LENGTH):
            for name in names:
                costs.write(name, name[-8:].encode().ljust(length))
            for command, of_a_length in ("find", 0), ("verify", more):
                costs.within(f"{count} files to scan of {length} bytes, with {size} bytes of name",
                             (NAMED + 4 * size + of_a_length) * count, [command], ["p.par2", *names],
                             ["env", f"LD_PRELOAD={costs.held}"])
    costs.runner.clear()


def cost_of_packet_files(costs):
    """Packet files, as many as every system lets a process have open, with three packets each."""
    costs.write("p.par2", one_file(4, 4, 1))
    for count in 200, 1000:
        costs.within(f"{count} packet files", (NAMED + 3 * PACKET) * count, COMMANDS, ["p.par2"] * count)


def cost_of_most(costs):
    """Most inputs together: one of the files is whole, and is named three hundred times."""
    whole, ids = b"w" * 16, ids_of(1_000)
    size, pairs, packets, bodies, scanned = 16 * KIB, 8, 20_000, 8, 300
    files = [body for at, owner in enumerate(ids)
             for body in (("filedesc", desc_body(owner, b"%0100d" % at, b"", pairs * size - at % 256)),
                          no_sums(owner, pairs))]
    costs.write("z", b"zzzz")
    main = main_body(size, [*ids, whole])
    costs.write("p.par2", set_of(main, ("filedesc", desc_body(whole, b"z", b"zzzz")),
                                 ("ifsc", ifsc_body(whole, b"zzzz", size)), *files)
                + packet(md5(main), "creator", b"") * packets + packet(md5(main), "filedesc", bytes(MIB)) * bodies)
    # The formula for a file includes one of its slices.
    allowed = ((FILE + 3 * 100 + (pairs - 1) * SLICE) * len(ids) + PACKET * packets + bodies * MIB + (1 + RUNNING) * size + 256 * TAIL
               + (NAMED + 4) * scanned)
    for command, again in ("find --tails", 0), ("verify --tails", SLICE_AGAIN * pairs * len(ids) + INDEX_AGAIN):
        costs.within("most of these", allowed + again, [command], ["p.par2", *["z"] * scanned])


def main():
    costs = Costs()
    for cost in (cost_of_packets, cost_of_descriptions, cost_of_bodies, cost_of_recovery_data, cost_of_files,
                 cost_of_slices, cost_of_slices_that_are_found, cost_of_slices_that_repeat, cost_of_tails,
                 cost_of_slice_size, cost_of_lengths, cost_of_scanned_files, cost_of_packet_files, cost_of_most):
        cost(costs)
    costs.runner.close()
    return 1 if costs.failed else 0


if __name__ == "__main__":
    sys.exit(main())
