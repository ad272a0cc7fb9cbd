"""Files such as people have, made from a fixed seed: content that repeats, and some that doesn't.

For each name, `KINDS` has what makes the files of a set of some length. Each returns the files and a `Spot`: the bytes
around it are nowhere else in the files, so damage there costs a slice.
"""

import hashlib
import io
import os
import random
import tarfile
from typing import NamedTuple

KIB, MIB = 1 << 10, 1 << 20
LINE = b"2026-01-01 00:00:00 INFO worker: nothing to do, sleeping 60s\n"
ARTICLE = 700 * KIB
SYSTEM = "/usr/lib"  # the tar has files from there


class Spot(NamedTuple):
    """Where a file is damaged, and how many bytes are lost if more than one is."""
    name: str
    offset: int
    zeroed: int = 0
    removed: int = 1


def noise(seed, length):
    """Returns bytes that follow from a seed and look random."""
    parts = (hashlib.shake_256(f"{seed} {at}".encode()).digest(min(MIB, length - at)) for at in range(0, length, MIB))
    return b"".join(parts)


def islands(seed, length, count, size):
    """Returns zeros with `count` islands of data, and the middle of one of these."""
    data, chance = bytearray(length), random.Random(seed)
    places = [at * length // count + chance.randrange(max(1, length // count - size)) for at in range(count)]
    for at in places:
        data[at:at + size] = noise(f"{seed} {at}", size)
    return bytes(data), places[count // 2] + size // 2


def before_noise(seed, repeated, length):
    """Returns the same bytes again and again, then a sixteenth of noise, and the middle of that noise."""
    tail = length // 16
    front = (repeated * (length // len(repeated) + 1))[:length - tail]
    return front + noise(seed, tail), length - tail // 2


def virtual_disk(length):
    data, at = islands("disk", length, 40, length // 800)
    return {"disk.bin": data}, Spot("disk.bin", at)


def database(length):
    data, at = islands("database", length, max(8, length // (350 * KIB)), min(20 * KIB, length // 64))
    return {"database.bin": data}, Spot("database.bin", at)


def one_line(length):
    data, at = before_noise("lines", LINE, length)
    return {"lines.bin": data}, Spot("lines.bin", at)


def records(period):
    def make(length):
        data, at = before_noise(f"records {period}", noise(f"record {period}", period), length)
        return {"records.bin": data}, Spot("records.bin", at)
    return make


def bitmap(length):
    """Makes a bitmap: bands of 64 equal rows of 3,000 pixels each, and one row in the middle that differs from all
    others."""
    width, rows = 9000, []
    for band in range(length // (64 * width) + 1):
        rows += [noise(f"band {band}", 3) * (width // 3)] * 64
    rows[len(rows) // 2] = noise("row", width)
    data = (b"BM" + bytes(52) + b"".join(rows))[:length]
    return {"picture.bin": data}, Spot("picture.bin", 54 + len(rows) // 2 * width + width // 2)


def sound(length):
    """Makes sound: a quarter of sound, a quarter of silence, and the same again."""
    part = length // 4
    data = noise("sound", part) + bytes(part) + noise("more sound", part) + bytes(length - 3 * part)
    return {"sound.bin": data}, Spot("sound.bin", 2 * part + part // 2)


def volumes(length):
    """Makes ten volumes, like those that people post."""
    files = {f"volume{number}.bin": noise(f"volume {number}", length // 10) for number in range(10)}
    article = min(ARTICLE, length // 40)
    return files, Spot("volume4.bin", length // 20, article, article)


def small_files(length):
    """Makes files of 1 to 40 KiB."""
    chance, files, left = random.Random("small files"), {}, length
    while left > 0:
        size = min(left, chance.randrange(KIB, 40 * KIB))
        files[f"{len(files):05}.bin"] = noise(f"file {len(files)}", size)
        left -= size
    names = sorted(files, key=lambda name: len(files[name]))
    return files, Spot(names[-1], len(files[names[-1]]) // 2)


def log(length):
    """Makes lines with a time and a number each."""
    chance, lines, size = random.Random("log"), [], 0
    while size < length:
        at = len(lines)
        lines.append(b"2026-01-%02d %02d:%02d:%02d INFO request %d took %d ms from 10.0.%d.%d\n" % (
            at // 86400 % 28 + 1, at // 3600 % 24, at // 60 % 60, at % 60, at, chance.randrange(1000),
            chance.randrange(256), chance.randrange(256)))
        size += len(lines[-1])
    data = b"".join(lines)
    at = data.index(b"\n", len(data) // 2) + 1
    return {"log.bin": data}, Spot("log.bin", at, removed=data.index(b"\n", at) + 1 - at)


def system_tar(length):
    """Makes a tar of system files, which depend on the machine, and of noise."""
    out, left = io.BytesIO(), length
    with tarfile.open(fileobj=out, mode="w", format=tarfile.GNU_FORMAT) as tar:
        for folder, folders, names in os.walk(SYSTEM):
            folders.sort()
            for name in sorted(names):
                path = os.path.join(folder, name)
                if os.path.islink(path) or not os.path.isfile(path) or os.path.getsize(path) > min(left, 4 * MIB):
                    continue
                member = tarfile.TarInfo(path.lstrip("/"))
                member.size = os.path.getsize(path)
                with open(path, "rb") as file:
                    tar.addfile(member, file)
                left -= member.size
            if left < length // 8:
                break
        member = tarfile.TarInfo("noise")
        member.size = max(64 * KIB, length // 64)
        at = out.tell() + 512 + member.size // 2
        tar.addfile(member, io.BytesIO(noise("tar", member.size)))
    return {"system.bin": out.getvalue()}, Spot("system.bin", at)


KINDS = {
    "virtual disk": virtual_disk, "database": database, "one line": one_line, "records of 1,000": records(1000),
    "records of 5,000": records(5000), "bitmap": bitmap, "sound": sound, "volumes": volumes,
    "small files": small_files, "log": log, "tar": system_tar,
}

# Kinds in which a search meets the same slices at nearly every byte.
REPEATING = ["virtual disk", "database", "one line"]
