#!/usr/bin/env python3
"""Makes folders with small sets by par2, damages them in every way, and knows what is true of them.

usage: damaged_folders.py FOLDER [--sets N] [--seed N] [--first N] [--content FOLDER]

FOLDER gets a folder for each of N numbers (200), from --first (0) on. All follows from the seed (1) and the number, and
with --content from the files in that folder, of which the files are parts.

Mostly a folder has one set, of 1 to 40 files. Slices have 4 to 65,536 bytes, and there is recovery data for none to all
of them. Names have blanks, line feeds, dashes, bytes that aren't UTF-8, folders, and .par2 at their ends; some files
are empty, and some have the same content or equal slices. Then up to eight kinds of damage are done to files, packet
files and names. There may be further sets, with or without their files. Needs par2 (Debian package par2).
"""

import argparse
import copy
import os
import random
import stat
import struct
import subprocess
import sys
import tempfile
import zlib
from typing import Dict, List, NamedTuple, Sequence, Set, Tuple

sys.path[0] = os.path.dirname(os.path.dirname(os.path.realpath(__file__)))  # imports are relative to tools/

from make import damage
from make.damaged_sets import cut, joined, left_out, one_of, put_in, swapped, turned_round
from make.packets import TYPES, desc_body, file_id, main_body, md5, packet
from models.list_packets import packets_in

NAMES = ["plain.bin", "with blank", " two  blanks ", "-dash", "--set", "caf\udce9", "café", "st*r", "[x]", "que?tion",
         "quo'te", 'quo"te', "$HOME", "`id`", "hash#", "100%", "%41x", "sub/one", "sub/two three", "sub/deep/er",
         "semi;colon", "x.1", "plain.bin.1", "&and", "~tilde", "(paren)", "\udcff\udcfe", "to from to", "data.par2",
         "sub/in.PAR2", ".hidden", "日本/語", *[f"many/{at:02}.bin" for at in range(20)]]
NOT_FOR_PAR2 = ["a\\b", "line\nfeed", "tab\tbed"]      # to which par2 gives other names
OTHER_NAMES = ["other", "from x", "new\nline", "\udce9t\udce9", "-q", "renamed a from b", "sub/moved", "z.1",
               "image of a disc", "elsewhere/81aa", "elsewhere/deep/77", "readme.nfo"]
MODES = [0o644, 0o644, 0o600, 0o755]
PACKETS = ".par2"
MOST_ZEROS = 2000
Files = Dict[str, bytearray]


class ParSet(NamedTuple):
    """A set before the damage: its ID, and the bytes of its files by their names."""
    id: str
    files: Dict[str, bytes]


class Folder(NamedTuple):
    """A folder in memory: its sets before the damage, what is in it by paths, and notes on how it was made."""
    sets: List[ParSet]
    files: Files
    packets: Files
    links: Dict[str, str]
    notes: List[str]

    def write(self, top: str) -> str:
        """Writes all into a new folder, each file with a time and a mode of its own. Returns the folder."""
        os.mkdir(top)
        write(top, {**self.packets, **self.files})
        for at, name in enumerate({**self.packets, **self.files}):
            os.chmod(os.path.join(top, name), MODES[zlib.crc32(os.fsencode(name)) % len(MODES)])
            os.utime(os.path.join(top, name), (10 ** 9 + at, 10 ** 9 + at))
        for name, target in self.links.items():
            path = os.path.join(top, name)
            os.makedirs(os.path.dirname(path), exist_ok=True)
            os.symlink(os.path.relpath(target, os.path.dirname(name) or "."), path)
        return top


def write(top, files):
    for name, data in files.items():
        path = os.path.join(top, name)
        os.makedirs(os.path.dirname(path), exist_ok=True)
        with open(path, "wb") as out:
            out.write(data)


def read(path):
    with open(path, "rb") as file:
        return file.read()


def entries_of(top: str) -> Dict[str, tuple]:
    """Returns everything below a folder: kind and mode, and the time and bytes of a file, by their paths."""
    entries = {}
    for at, folders, names in os.walk(top):
        for path in [os.path.join(at, name) for name in folders + names]:
            now = os.lstat(path)
            data = (now.st_mtime_ns, read(path)) if stat.S_ISREG(now.st_mode) else (0, None)
            entries[os.path.relpath(path, top)] = (now.st_mode, *data)
    return entries


# Sets.

def real_files(folder: str) -> List[str]:
    """Returns the paths of all regular files below a folder that aren't empty. There must be one."""
    paths = (os.path.join(at, name) for at, _, names in os.walk(folder) for name in names)
    files = [path for path in paths if not os.path.islink(path) and os.path.isfile(path) and os.path.getsize(path)]
    return sorted(files) or sys.exit(f"there is no file below {folder}")


def content(chance, size: int, most: int, before: List[bytearray], real: Sequence[str]) -> bytearray:
    """Returns the bytes of a file: random ones or a part of a real file, with zeros; or those of another file."""
    if before and chance.randrange(6) == 0:
        return bytearray(chance.choice(before))
    length = min(most, chance.choice([0, 1, chance.randrange(size), size * chance.randrange(1, 4),
                                      *[int(most * chance.random() ** 2) for _ in range(3)]]))
    data = bytearray(chance.randbytes(length))
    if real:
        with open(chance.choice(real), "rb") as file:
            file.seek(int(chance.random() * max(0, os.fstat(file.fileno()).st_size - length)))
            data = bytearray(file.read(length))
    if data and 64 <= size <= 4096 and chance.randrange(4) == 0:     # (It matches at each offset of longer zeros.)
        zeros = min(size * chance.randrange(1, 6), size + MOST_ZEROS)
        damage.zero(data, chance.randrange(len(data)) // size * size, zeros)
    return data


def create(chance, files: Files, base: str, size: int) -> Tuple[Files, int]:
    """Returns the packet files that par2 makes of these files, and the number of recovery slices."""
    count = sum(-(-len(data) // size) for data in files.values())
    recovery = min(150, -(-count * chance.choice([0, 3, 10, 30, 100]) // 100))
    ways = [["-n1"], [f"-n{min(recovery.bit_length(), 5)}"], ["-u", f"-n{min(recovery, 4)}"], ["-l"]]
    volumes = [f"-c{recovery}", *(chance.choice(ways) if recovery else [])]
    with tempfile.TemporaryDirectory() as top:
        write(top, files)
        from_above = ["-R", "-B", top, f"{top}/{base}{PACKETS}", *[f"{top}/{name}" for name in sorted(os.listdir(top))]]
        words = from_above if chance.randrange(2) else [f"./{base}{PACKETS}", *[f"./{name}" for name in files]]
        subprocess.run(["par2", "create", "-q", "-q", "-t1", f"-s{size}", *volumes, *words], cwd=top, check=True,
                       stdout=subprocess.DEVNULL)
        return {name: bytearray(read(os.path.join(top, name))) for name in sorted(os.listdir(top))
                if name.endswith(PACKETS) and name not in files}, recovery


def with_empty_files(packets: Files, names: Sequence[str]) -> Files:
    """Adds empty files to a set, as other creators do. (par2 leaves them out.) The slices stay the same."""
    ids = {file_id(os.fsencode(name), b""): os.fsencode(name) for name in names}
    bodies = {name: [(data[at + 48:at + 64], data[at + 64:at + length]) for at, length, _, _ in packets_in(data)]
              for name, data in ((name, bytes(data)) for name, data in packets.items())}
    main = next(body for parts in bodies.values() for kind, body in parts if kind == TYPES["main"])
    every = [*ids, *(main[at:at + 16] for at in range(12, len(main), 16))]
    new = main_body(*struct.unpack_from("<Q", main), sorted(every, key=lambda each: each[::-1]))
    more = [("filedesc", desc_body(each, name)) for each, name in ids.items()]
    return {name: bytearray(b"".join(packet(md5(new), kind, new if kind == TYPES["main"] else body)
                                     for kind, body in [*parts, *more])) for name, parts in bodies.items()}


def add_set(chance, folder: Folder, base: str, real: Sequence[str]) -> None:
    """Adds a set, which may share names with those that are there. It may have no files if it isn't the first."""
    size = 4 * chance.choice([1, 2, 5, 16, 25, 128, 256, 256, 1024, 4096, 16384])
    names = chance.sample(NAMES, chance.choice([1, 2, 3, 4, 6, 9, 15, 40]))
    names[0] = chance.choice(NOT_FOR_PAR2) if chance.randrange(10) == 0 else names[0]
    most = min(300000, 2000000 // len(names), size * (300 if size < 64 else 1500) // len(names))
    files: Files = {}
    for name in names:
        files[name] = content(chance, size, most, [*folder.files.values(), *files.values()], real)
    if not any(files.values()):
        files["only.bin"] = bytearray(chance.randbytes(3 * size + 1))
    packets, recovery = create(chance, {name: data for name, data in files.items() if data}, base, size)
    if not all(files.values()):
        packets = with_empty_files(packets, [name for name, data in files.items() if not data])
    folder.packets.update(packets)
    id_of_set = packets[base + PACKETS][32:48].hex()
    folder.sets.append(ParSet(id_of_set, {name: bytes(data) for name, data in files.items()}))
    folder.notes.append(f"slices of {size}, {len(files)} files, {recovery} recovery slices")
    for name, data in files.items() if base == "set" or chance.randrange(2) else []:
        folder.files[name if name not in folder.files else chance.choice(OTHER_NAMES)] = data


# Damage of files or of packet files, which are bytearrays by their names.

def flip(chance, files):
    data, at = one_of(chance, files)
    if at < len(data):
        damage.flip(data, at)


def zero(chance, files):
    data, at = one_of(chance, files)
    damage.zero(data, at, chance.choice([1, 50, MOST_ZEROS]))


def cut_end(chance, files):
    data, _ = one_of(chance, files)
    damage.cut(data, chance.choice([max(0, len(data) - 1), len(data) // 2]))


def grow(chance, files):
    one_of(chance, files)[0].extend(chance.choice([b"\0", b"x", b"more", bytes(500), chance.randbytes(3000)]))


def remove(chance, files):
    files.pop(chance.choice(sorted(files)))


def remove_volumes(chance, files):
    """Leaves volumes only, or none of them."""
    has_volumes = chance.randrange(2) == 0
    for name in [name for name in files if (".vol" in name) != has_volumes]:
        del files[name]


def add_other(chance, files):
    files[chance.choice(OTHER_NAMES)] = bytearray(chance.randbytes(chance.choice([0, 900, 30000])))


def rename(chance, files):
    """Gives a file a new name, or the name of another file, which is lost."""
    data = files.pop(chance.choice(sorted(files)))
    files[chance.choice(OTHER_NAMES + sorted(files))] = data


def rename_all(chance, files):
    """Gives each file, or each second one, a name that says nothing, in one folder or another."""
    for name in sorted(files)[::chance.choice([1, 2])]:
        files[chance.choice(["", "", "sub/", "elsewhere/"]) + chance.randbytes(6).hex()] = files.pop(name)


def copy_file(chance, files):
    """Makes a copy of a file. Then each of the two may get other damage."""
    name, other = chance.choice(sorted(files)), chance.choice(OTHER_NAMES + sorted(files))
    files[other] = bytearray(files[name])
    for each in [name, other] if chance.randrange(2) else []:
        chance.choice([flip, zero, put_in, left_out, cut])(chance, {each: files[each]})


def link(chance, folder: Folder) -> None:
    """Adds a link to a file or to nothing, or moves a file, or a packet file, and leaves a link in its place."""
    files = chance.choice([folder.files, folder.files, folder.packets])
    target = chance.choice(["kept aside", "sub/kept"])
    if files and target not in files and chance.randrange(2):
        name = chance.choice(sorted(files))
        files[target] = files.pop(name)
        folder.links[name] = target
    else:
        folder.links["a link"] = chance.choice(["nothing", *sorted(files)])


OF_FILES = [put_in, left_out, cut, turned_round, zero, cut_end, remove, remove, rename_all, add_other,
            *3 * [joined, swapped, flip, grow, rename, copy_file]]
OF_PACKETS = [put_in, left_out, zero, cut_end, grow, rename, rename_all, copy_file, *2 * [flip, remove, remove_volumes]]


def damage_folder(chance, folder: Folder, count: int) -> None:
    parts = [("files", OF_FILES, folder.files), ("packet files", OF_PACKETS, folder.packets), ("links", [link], folder)]
    for kind, damages, part in chance.choices(parts, [14, 5, 1], k=count):
        if part:
            damage_it = chance.choice(damages)
            damage_it(chance, part)
            folder.notes.append(f"{kind}: {damage_it.__name__.replace('_', ' ')}")
        for name in folder.files:       # a file takes the place of what was called like it
            folder.packets.pop(name, None)
            folder.links.pop(name, None)
        for name in folder.packets:
            folder.links.pop(name, None)


def make(seed: int, number: int, real: Sequence[str] = ()) -> Folder:
    """Returns the folder of this number."""
    chance, folder = random.Random(f"folder {seed} {number}"), Folder([], {}, {}, {}, [])
    for base in ["set", *chance.sample(["a set", "-set"], chance.choice([0, 0, 0, 0, 0, 0, 1, 2]))]:
        add_set(chance, folder, base, real)
    damage_folder(chance, folder, chance.choice([0, 1, 1, 1, 2, 2, 3, 3, 5, 8]))
    return folder


def damage_more(folder: Folder, seed: str) -> Folder:
    """Returns the folder with further damage."""
    more = copy.deepcopy(folder)
    damage_folder(random.Random(f"more {seed}"), more, 3)
    return more


# The truth.

class Truth(NamedTuple):
    """The names under which files of a set are whole: now, after `par2 repair`, and after it if packet files without
    .par2 get names for par2. And how par2 ended both times."""
    now: Set[str]
    repaired: Set[str]
    repaired_named: Set[str]
    ends: Tuple[str, str]


def whole_names(top: str, files: Dict[str, bytes], with_links: bool = False) -> Set[str]:
    """Returns the names under which a folder has files with their bytes. (par2 follows links.)"""
    paths = {name: os.path.join(top, name) for name in files}
    return {name for name, path in paths.items() if os.path.isfile(path) and (with_links or not os.path.islink(path))
            and read(path) == files[name]}


def by_par2(folder: Folder, one: ParSet) -> Tuple[Set[str], str]:
    """Returns the names of files that par2 makes whole, with that packet file first with which it makes most. Also how
    it ended then."""
    best: Tuple[Set[str], str] = set(), "no packet file of the set"
    for first, data in folder.packets.items():
        if len(best[0]) == len(one.files) or not first.endswith(PACKETS) or bytes.fromhex(one.id) not in data:
            continue
        with tempfile.TemporaryDirectory() as work:     # (par2 takes a file for packets if its path has .par2 anywhere)
            top, names = folder.write(os.path.join(work, "copy")), [*folder.packets, *folder.files]
            run = subprocess.run(["par2", "repair", "-q", "-t1", *[f"./{name}" for name in [first, *names]]], cwd=top,
                                 capture_output=True)
            lines = (run.stdout + run.stderr).decode("ascii", "backslashreplace").split("\n")
            end = f"{run.returncode}: {next((line.strip() for line in reversed(lines) if line.strip()), '')}"
            whole = whole_names(top, one.files, True)
            best = (whole, end) if len(whole) >= len(best[0]) else best
    return best


def truth_of(folder: Folder, one: ParSet) -> Truth:
    packets = {name if name.endswith(PACKETS) else f"named{at}{PACKETS}": data
               for at, (name, data) in enumerate(folder.packets.items())}
    with tempfile.TemporaryDirectory() as work:
        now = whole_names(folder.write(os.path.join(work, "folder")), one.files)
    plain = by_par2(folder, one)
    named = plain if packets.keys() == folder.packets.keys() else by_par2(folder._replace(packets=packets), one)
    return Truth(now, plain[0], named[0], (plain[1], named[1]))


def parser_of(text: str) -> argparse.ArgumentParser:
    """Returns a parser of the options that choose folders."""
    parser = argparse.ArgumentParser(usage=text.split("\n\n")[1][7:])
    for option, value in [("--sets", 200), ("--seed", 1), ("--first", 0)]:
        parser.add_argument(option, type=int, default=value)
    parser.add_argument("--content", type=real_files, default=[])
    return parser


def main() -> None:
    parser = parser_of(__doc__)
    parser.add_argument("folder")
    options = parser.parse_args()
    os.makedirs(options.folder, exist_ok=True)
    for number in range(options.first, options.first + options.sets):
        folder = make(options.seed, number, options.content)
        top = folder.write(os.path.join(options.folder, f"{number:03}"))
        print(f"{top}: {', '.join(folder.notes)}", flush=True)


if __name__ == "__main__":
    main()
