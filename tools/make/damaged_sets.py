#!/usr/bin/env python3
"""Makes sets with par2 and damages their files in the ways in which downloads and discs are damaged.

usage: damaged_sets.py FOLDER [--count N] [--seed N]

Each of N sets (200) has 8 to 48 MiB in 1 to 60 files, and slices of 512 bytes to 1 MiB. Then its files are damaged,
once or several times. All follows from the seed and the number of the set. FOLDER gets a folder for each set, named by
its number, with the packet files and the remaining files. Needs par2 (Debian package par2).
"""

import argparse
import os
import random
import subprocess
import sys

sys.path[0] = os.path.dirname(os.path.dirname(os.path.realpath(__file__)))  # imports are relative to tools/

from make import damage

MIB = 1 << 20
MOST_SLICES = 32768
SECTOR = 2048


def lengths_of(chance, total):
    """Returns the lengths of 1 to 60 files, none of them empty, that have `total` bytes together."""
    ends = sorted(chance.sample(range(1, total), chance.randrange(chance.choice([5, 60]))))
    return [end - first for first, end in zip([0, *ends], [*ends, total])]


def shape_of(chance):
    """Returns a slice size, small ones as often as large ones, and the lengths of files with not too many slices."""
    while True:
        lengths = lengths_of(chance, chance.randrange(8 * MIB, 48 * MIB + 1))
        size = 4 * round(2 ** chance.uniform(7, 18))
        if sum(-(-length // size) for length in lengths) <= MOST_SLICES:
            return size, lengths


# Damages of files, which are bytearrays by their names.

def one_of(chance, files):
    """Returns one of the files, and a place in it."""
    data = files[chance.choice(sorted(files))]
    return data, chance.randrange(len(data) + 1)


def put_in(chance, files):
    data, at = one_of(chance, files)
    damage.insert(data, at, chance.randbytes(chance.choice([1, 2, 100, SECTOR, 5000])))


def left_out(chance, files):
    data, at = one_of(chance, files)
    damage.remove(data, at, chance.choice([1, 2, 100, SECTOR, 70000]))


def zeroed(chance, files):
    """Overwrites some consecutive sectors with zeros."""
    data, at = one_of(chance, files)
    damage.zero(data, at // SECTOR * SECTOR, SECTOR * chance.choice([1, 1, 4, 32, 200]))


def cut(chance, files):
    data, at = one_of(chance, files)
    damage.cut(data, at)


def joined(chance, files):
    """Joins some files, or all, as in the image of a disc. Each may be padded to a whole sector."""
    names = chance.sample(sorted(files), chance.choice([len(files), chance.randrange(1, len(files) + 1)]))
    unit = chance.choice([1, 1, SECTOR])
    whole = bytearray(chance.randbytes(chance.choice([0, 0, 10 * SECTOR])))
    for name in names:
        data = files.pop(name)
        whole += data + bytes(-len(data) % unit)
    files[names[0] + ".img"] = whole


def turned_round(chance, files):
    data, at = one_of(chance, files)
    damage.turn(data, at)


def swapped(chance, files):
    """Exchanges the contents of two files, or two parts of one file."""
    if chance.randrange(2):
        one, two = (chance.choice(sorted(files)) for _ in range(2))
        files[one], files[two] = files[two], files[one]
    else:
        data, at = one_of(chance, files)
        damage.swap(data, at // 2, chance.randrange(len(data) // 4 + 1))


DAMAGES = [put_in, left_out, zeroed, cut, joined, turned_round, swapped]


def make(folder, seed, number):
    """Puts one set into the folder, which exists, and describes it in a line."""
    chance = random.Random(f"damaged {seed} {number}")
    size, lengths = shape_of(chance)
    files = {f"{at:02}.bin": bytearray(chance.randbytes(length)) for at, length in enumerate(lengths)}
    write(folder, files)
    subprocess.run(["par2", "create", "-q", "-q", f"-s{size}", "-c4", "-n1", "set.par2", *files],
                   cwd=folder, check=True, stdout=subprocess.DEVNULL)
    for name in files:
        os.remove(os.path.join(folder, name))
    damages = chance.choices(DAMAGES, k=chance.choice([1, 2, 3, 5, 8, 20]))
    for done in damages:
        done(chance, files)
    write(folder, files)
    text = ", ".join(done.__name__.replace("_", " ") for done in damages)
    return f"{sum(lengths) / MIB:.0f} MiB in {len(lengths)} files, slices of {size}: {text}"


def write(folder, files):
    for name, data in files.items():
        with open(os.path.join(folder, name), "wb") as out:
            out.write(data)


def main():
    parser = argparse.ArgumentParser(usage=__doc__.split("\n\n")[1][7:])
    parser.add_argument("folder")
    parser.add_argument("--count", type=int, default=200)
    parser.add_argument("--seed", type=int, default=1)
    asked = parser.parse_args()
    for number in range(asked.count):
        folder = os.path.join(asked.folder, f"{number:03}")
        os.makedirs(folder)
        print(f"{folder}: {make(folder, asked.seed, number)}", flush=True)


if __name__ == "__main__":
    main()
