"""The sets that bench.py measures: made with par2 from a fixed seed, once, and kept.

For each shape there is a folder, which has a folder for each case: the packet files, and the files as that case has
them. A shape is a slice size, a number of files of one length, or a number of tails. A folder is made under another
name and renamed when it is whole. Its file `made` says what it was made from; if that differs, bench.py makes it again.
"""

import hashlib
import os
import shutil
import subprocess
from typing import NamedTuple

from bench.disc_images import IMAGES, lost_in, write_image
from bench.real_content import KINDS
from bench.search_cost import packets_with_tails, searched, tails_about, written
from make.content import write
from make.damage import flip, in_file, insert, remove, zero
from models.describe_set import packets_of, set_of
from models.find_slices import slices_of
from models.list_packets import packets_in

VERSION = 1  # increased when the sets change
KIB, MIB = 1 << 10, 1 << 20
DATA, OTHER, INDEX, LOST = "data.bin", "other.bin", "set.par2", "lost"
VOLUME_SLICES = 32  # input slices of the set whose large volume is read
DISC_RECOVERY = 20  # recovery slices of a set with images; an ext4 image lacks some slices, since it stores no zeros


class Shape(NamedTuple):
    """The sets of one slice size: bytes of data, number of files in the case with many, and bytes of a large volume."""
    slice_size: int
    data: int
    files: int
    volume: int

    @property
    def name(self):
        return size_text(self.slice_size).replace(" ", "")

    @property
    def folders(self):
        return ["intact", *DAMAGED, "many", *(["volume"] if self.volume else [])]

    def lost(self, folder, _path):
        """Returns how many slices are missing."""
        return {"flipped": 1, "left out": 1, "every slice": self.data // self.slice_size}.get(folder, 0)

    def make(self, folder):
        intact = os.path.join(folder, "intact")
        os.makedirs(intact)
        write_data(os.path.join(intact, DATA), self.data)
        create(intact, self.slice_size, 1)
        for case in DAMAGED:
            damage(folder, case, self)
        lengths = [self.data // self.files - 17 * number for number in range(self.files)]
        make_many(os.path.join(folder, "many"), self.slice_size, lengths)
        if self.volume:
            make_volume(os.path.join(folder, "volume"), self)


class Files(NamedTuple):
    """A set of files of one length. `gone` of them are missing; then, in `flipped` of the others, a byte is changed
    too."""
    slice_size: int
    length: int
    files: int
    gone: int
    flipped: int

    @property
    def name(self):
        return f"{self.files}files"

    @property
    def folders(self):
        rest = f"{self.files - self.gone} of {self.files}"
        return [f"{self.files} of {self.files}", rest, *([f"{rest}, flipped"] if self.flipped else [])]

    @property
    def data(self):
        return self.files * self.length

    def lost(self, folder, _path):
        gone = self.gone * self.length // self.slice_size
        return dict(zip(self.folders, [0, gone, gone + self.flipped]))[folder]

    def make(self, folder):
        whole, *others = [os.path.join(folder, name) for name in self.folders]
        os.makedirs(whole)
        for number in range(self.files):
            write_data(os.path.join(whole, f"{number:04}.bin"), self.length)
        create(whole, self.slice_size, 1)
        names = data_files(whole)
        for place, other in enumerate(others):
            link_all(whole, other, names[self.gone:])
            for name in names[-self.flipped:] if place else []:
                damage_copy(whole, other, name, flip, self.length // 2)


class Tails(NamedTuple):
    """Sets with `files` own lengths below their slice size, and bytes that are searched for them."""
    slice_size: int
    data: int
    files: int

    @property
    def name(self):
        return f"{self.files}tails-{size_text(self.slice_size).replace(' ', '')}"

    @property
    def folders(self):
        return [f"{self.files} tails", f"{self.files} tails, flipped"]

    def lost(self, folder, _path):
        return dict(zip(self.folders, [self.files, 1]))[folder]

    def make(self, folder):
        """Makes a set of which nothing is found, and one with files, of which the last has a changed last byte."""
        nowhere, flipped = [os.path.join(folder, name) for name in self.folders]
        os.makedirs(nowhere)
        written(nowhere, "set", packets_with_tails(self.slice_size, tails_about(self.slice_size * 3 // 4, self.files)))
        searched(nowhere, self.data)
        longest = self.data // self.files - 1
        make_many(flipped, self.slice_size, range(longest, longest - self.files, -1))
        in_file(os.path.join(flipped, data_files(flipped)[-1]), flip, -1)


class Real(NamedTuple):
    """A set of files of some kind that people have, in slices of a given size or, if that is 0, of the size that par2
    chooses. They are whole, have a changed byte or a part of zeros, or lack a byte or a part."""
    kind: str
    slice_size: int
    data: int

    @property
    def name(self):
        return f"{self.kind} {self.slice_size}".replace(" ", "-")

    @property
    def folders(self):
        return [self.kind, f"{self.kind}, flipped", f"{self.kind}, left out"]

    def lost(self, _folder, path):
        return noted_lost(path)

    def make(self, folder):
        whole, flipped, left_out = [os.path.join(folder, name) for name in self.folders]
        files, spot = KINDS[self.kind](self.data)
        os.makedirs(whole)
        for name, content in files.items():
            write(os.path.join(whole, name), content)
        create(whole, self.slice_size, 2)
        size = slice_size_of(os.path.join(whole, INDEX))
        damage = (zero, spot.offset, spot.zeroed) if spot.zeroed else (flip, spot.offset)
        for other, words, count in ((flipped, damage, spot.zeroed or 1),
                                    (left_out, (remove, spot.offset, spot.removed), spot.removed)):
            link_all(whole, other, files)
            damage_copy(whole, other, spot.name, *words)
            write(os.path.join(other, LOST),
                  str((spot.offset + count - 1) // size - spot.offset // size + 1).encode())
        write(os.path.join(whole, LOST), b"0")


class Disc(NamedTuple):
    """A set whose files are scanned only in an image. One image has them all, and in the other a tenth is missing. The
    slice size is as in Real."""
    kind: str
    slice_size: int
    data: int

    @property
    def name(self):
        return self.kind.replace(" ", "-")

    @property
    def folders(self):
        return [self.kind, f"{self.kind}, tenth missing"]

    def lost(self, _folder, path):
        return noted_lost(path)

    def make(self, folder):
        files, contents = os.path.join(folder, "files"), IMAGES[self.kind].files(self.data)
        os.makedirs(files)
        for name, content in contents.items():
            write(os.path.join(files, name), content)
        create(files, self.slice_size, DISC_RECOVERY)
        size, names = slice_size_of(os.path.join(files, INDEX)), data_files(files)
        rest = [name for number, name in enumerate(names) if number % 10 != 5]
        for target, some in zip(self.folders, (names, rest)):
            target = os.path.join(folder, target)
            image = os.path.join(target, OTHER)
            link_all(files, target, [])
            write_image(self.kind, files, some, image)
            write(os.path.join(target, LOST), str(lost_in(image, contents.values(), size)).encode())
        shutil.rmtree(files)


DAMAGED = ["renamed", "flipped", "left out", "in front", "every slice"]

# The sizes of the files of each kind, in MiB, in the large sets, whose ratios count. A set has at most 32,768 slices.
REAL = {
    "virtual disk": 192, "database": 100, "one line": 64, "records of 1,000": 64, "records of 5,000": 64, "bitmap": 24,
    "sound": 64, "volumes": 150, "small files": 36, "log": 64, "tar": 128,
}

# For each image: the slice size in KiB, and the size of its files in MiB.
DISCS = {
    "disc of 40": (256, 300), "disc of 200": (64, 300), "disc of 256": (64, 300), "ISO image": (0, 96),
    "tar image": (0, 96), "ext4 image": (0, 96),
}


# For each number of tails: how many MiB are searched for them.
TAILS = {1: 64, 4: 64, 16: 32, 64: 32, 200: 16, 256: 16}


def tails(slice_size, divisor):
    """Yields the sets of each number of tails, with sizes divided by the divisor. Files that are longer than a slice
    have all but one byte of their last one, then all but two, and so on."""
    for count, data in TAILS.items():
        longest = data * MIB // divisor // count
        yield Tails(slice_size, (longest - longest % slice_size or longest) * count, count)


def real(divisor):
    """Returns the sets of each kind, with sizes divided by the divisor, in slices that par2 chooses and in slices of 4
    KiB."""
    return [Real(kind, slice_size, min(REAL[kind], most) * MIB // divisor)
            for kind in KINDS for slice_size, most in ((0, 192), (4 * KIB, 96))]


def discs(divisor):
    """Returns the set of each image, with the sizes of files and slices divided by the divisor."""
    return [Disc(kind, slice_size * KIB // divisor, data * MIB // divisor)
            for kind, (slice_size, data) in DISCS.items()]


SHAPES = {
    "small": [Shape(2 * KIB, 64 * KIB, 16, 0), Shape(64 * KIB, 4 * MIB, 16, 4 * MIB),
              Shape(MIB, 16 * MIB, 16, 32 * MIB),
              Files(16 * KIB, 64 * KIB, 64, 3, 1), Files(KIB, 4 * KIB, 2000, 2, 0),
              *tails(KIB, 16), *real(64), *discs(64)],
    "large": [Shape(2 * KIB, 64 * MIB, 256, 0), Shape(64 * KIB, 256 * MIB, 256, 128 * MIB),
              Shape(MIB, 256 * MIB, 256, 128 * MIB),
              Files(MIB, 4 * MIB, 64, 3, 1), Files(4 * KIB, 32 * KIB, 2000, 2, 0),
              *tails(4 * KIB, 1), *tails(64 * KIB, 1), *tails(2 * MIB, 1), *real(1), *discs(1)],
}


def size_text(size):
    if size == 0:
        return "par2's"
    return f"{size // MIB} MiB" if size % MIB == 0 else f"{size // KIB} KiB"


def packet_files(folder):
    return sorted(name for name in os.listdir(folder) if name.endswith(".par2"))


def data_files(folder):
    return sorted(name for name in os.listdir(folder) if name.endswith(".bin"))


def write_data(path, length):
    """Writes bytes that follow from the file's name and the place of each byte."""
    with open(path, "wb") as out:
        for at in range(0, length, MIB):
            seed = f"{os.path.basename(path)} {at}".encode()
            out.write(hashlib.shake_256(seed).digest(min(MIB, length - at)))


def create(folder, slice_size, recovery):
    """Makes packet files for the folder's files: the index and one volume. It uses one thread, since several would wait
    for one another. If the slice size is 0, par2 chooses it."""
    sizes = [f"-s{slice_size}"] if slice_size else []
    subprocess.run(["par2", "create", "-q", "-q", *sizes, f"-c{recovery}", "-n1", INDEX,
                    *data_files(folder)], cwd=folder, check=True, stdout=subprocess.DEVNULL,
                   env={**os.environ, "OMP_NUM_THREADS": "1"})


def noted_lost(path):
    """Returns how many slices a folder of a set lacks, which a file there says."""
    with open(os.path.join(path, LOST)) as file:
        return int(file.read())


def slice_size_of(path):
    """Returns the slice size of a packet file's set."""
    with open(path, "rb") as file:
        data = file.read()
    at = next(at for at, _, kind, _ in packets_in(data) if kind == "main")
    return int.from_bytes(data[at + 64:at + 72], "little")


def slices_in(path):
    """Returns how many slices the set of a folder has."""
    with open(os.path.join(path, packet_files(path)[0]), "rb") as file:
        return len(slices_of(set_of(packets_of([(b"index", file.read())]))))


def flip_each(data, size):
    """Changes a byte in the middle of each slice."""
    for at in range(size // 2, len(data), size):
        flip(data, at)


def link_all(source, target, names):
    """Makes a folder with the packet files of another one, and with these of its files."""
    os.mkdir(target)
    for name in [*packet_files(source), *names]:
        os.link(os.path.join(source, name), os.path.join(target, name))


def damage_copy(source, target, name, *damage):
    """Makes a damaged copy of a file, in place of a link."""
    path = os.path.join(target, name)
    if os.path.exists(path):
        os.remove(path)
    shutil.copyfile(os.path.join(source, name), path)
    in_file(path, *damage)


def damage(folder, case, shape):
    """Makes a folder beside the intact one, in which the file is as the case has it."""
    intact, target = os.path.join(folder, "intact"), os.path.join(folder, case)
    link_all(intact, target, [])
    if case == "renamed":
        os.link(os.path.join(intact, DATA), os.path.join(target, OTHER))
        return
    middle = shape.data // 2 + shape.slice_size // 3
    damages = {"flipped": (flip, middle), "left out": (remove, middle, 1), "in front": (insert, 0, b"x"),
               "every slice": (flip_each, shape.slice_size)}
    damage_copy(intact, target, DATA, *damages[case])


def make_many(folder, slice_size, lengths):
    """Makes files of different lengths, whose last slices are short."""
    os.mkdir(folder)
    for number, length in enumerate(lengths):
        write_data(os.path.join(folder, f"{number:03}.bin"), length)
    create(folder, slice_size, 1)


def make_volume(folder, shape):
    """Makes one volume, for a file that is then removed."""
    os.mkdir(folder)
    data = os.path.join(folder, DATA)
    write_data(data, VOLUME_SLICES * shape.slice_size)
    create(folder, shape.slice_size, shape.volume // shape.slice_size)
    os.remove(data)


def sets_of(root, size, shape):
    """Returns the folder of the sets of this shape, and makes them if they aren't there."""
    folder = os.path.join(root, size, shape.name)
    made, wanted = os.path.join(folder, "made"), f"{VERSION} {tuple(shape)}\n"
    if os.path.exists(made):
        with open(made) as file:
            if file.read() == wanted:
                return folder
        shutil.rmtree(folder)
    print(f"makes {folder}", flush=True)
    part = folder + ".part"
    shutil.rmtree(part, ignore_errors=True)
    shape.make(part)
    with open(os.path.join(part, "made"), "w") as file:
        file.write(wanted)
    os.rename(part, folder)
    return folder
