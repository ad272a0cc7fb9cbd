"""Images of discs: files of a fixed seed that follow one another, and archives of system files.

For each name, `IMAGES` has what makes the files of a set, and what writes an image of the files in a folder.
"""

import os
import random
import shutil
import subprocess
import tarfile
import tempfile
from collections.abc import Callable
from typing import NamedTuple

from bench.real_content import KIB, MIB, SYSTEM, noise
from make.content import write
from make.packets import filled, slices

HEADER, SECTOR = 12 * KIB, 2 * KIB
SYSTEM_FILES = 230
SHORTEST, LONGEST = 16 * KIB, 4 * MIB     # bytes of a system file
BLOCK, SPARE = 4 * KIB, 16 * MIB          # for ext4: its block, and space for itself in addition to a tenth
PROGRAMS = os.pathsep.join([os.environ.get("PATH", os.defpath), "/usr/sbin", "/sbin"])


class Image(NamedTuple):
    """How to make the files of a set of a given length, by name; how to write an image of a folder; and the program for
    that."""
    files: Callable
    write: Callable
    program: str = ""


def files_of_disc(count):
    """Returns a function that makes `count` files of different lengths, the longest seven times as long as the
    shortest."""
    def make(length):
        chance, mean = random.Random(f"disc {count}"), length // count
        return {f"{number:03}.bin": noise(f"disc {count} {number}", chance.randrange(mean // 4, mean * 7 // 4))
                for number in range(count)}
    return make


def system_files(length):
    """Returns small files of the system, no two the same, up to this length in all. They depend on the machine."""
    paths = sorted(os.path.join(folder, name) for folder, _, names in os.walk(SYSTEM) for name in names)
    random.Random("system files").shuffle(paths)
    contents = []
    for path in filter(is_readable_file, paths):
        if len(contents) == SYSTEM_FILES or length < SHORTEST:
            break
        if SHORTEST <= os.path.getsize(path) <= min(length, LONGEST):
            with open(path, "rb") as file:
                content = file.read()
            if content not in contents:
                contents.append(content)
                length -= len(content)
    return {f"{number:03}.bin": content for number, content in enumerate(contents)}


def is_readable_file(path):
    return os.path.isfile(path) and not os.path.islink(path) and os.access(path, os.R_OK)


def contents_in(folder):
    """Yields the contents of a folder's files, in the order of their names."""
    for name in sorted(os.listdir(folder)):
        with open(os.path.join(folder, name), "rb") as file:
            yield file.read()


def write_disc(folder, path):
    """Writes the files after a header, each padded to a sector."""
    write(path, noise("header", HEADER), *(filled(content, SECTOR) for content in contents_in(folder)))


def write_tar(folder, path):
    with tarfile.open(path, "w", format=tarfile.GNU_FORMAT) as tar:
        for name in sorted(os.listdir(folder)):
            tar.add(os.path.join(folder, name), name)


def write_iso(folder, path):
    subprocess.run([found("genisoimage"), "-quiet", "-R", "-o", path, folder], check=True, stderr=subprocess.DEVNULL)


def write_ext4(folder, path):
    length = sum(map(len, contents_in(folder)))
    subprocess.run([found("mke2fs"), "-q", "-F", "-t", "ext4", "-b", str(BLOCK), "-d", folder, path,
                    f"{(length * 11 // 10 + SPARE) // KIB}k"], check=True, stdout=subprocess.DEVNULL)


IMAGES = {
    **{f"disc of {count}": Image(files_of_disc(count), write_disc) for count in (40, 200, 256)},
    "ISO image": Image(system_files, write_iso, "genisoimage"),
    "tar image": Image(system_files, write_tar),
    "ext4 image": Image(system_files, write_ext4, "mke2fs"),
}


def found(program):
    """Returns the path of a program, or None if it isn't installed."""
    return shutil.which(program, path=PROGRAMS)


def write_image(kind, folder, names, path):
    """Writes an image of these files of a folder."""
    with tempfile.TemporaryDirectory(dir=folder) as part:
        for name in names:
            os.link(os.path.join(folder, name), os.path.join(part, name))
        IMAGES[kind].write(part, path)


def lost_in(path, contents, slice_size):
    """Returns how many slices of these contents aren't anywhere in the image."""
    with open(path, "rb") as file:
        image = file.read()
    blocks = set(slices(image, SECTOR))

    def is_there(part):
        """Returns whether the image has these bytes. A long part contains a whole sector, less than a sector after its
        beginning."""
        if len(part) >= 2 * SECTOR and not any(part[at:at + SECTOR] in blocks for at in range(SECTOR)):
            return False
        return part in image

    return sum(not is_there(part) for content in contents if not is_there(content)
               for part in slices(content, slice_size))
