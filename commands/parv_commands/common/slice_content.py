"""What a file has in the places of slices: reads the bytes there, compares their checksums, and writes slices. A hole
is taken for the zeros that it stands for without being read, if the file system says where it is."""

from __future__ import annotations

import errno
import functools
import hashlib
import os
import zlib
from typing import Iterable, Iterator, List, NamedTuple, Optional, Set, Tuple

from . import changes, output_and_progress as output
from .faults import Refusal
from .recovery_set import Member, RecoverySet
from .signals import end_if_signalled

PIECE = 1 << 20
BLOCK = 4096        # zeros become a hole if they fill a block of this length, at a multiple of it
SECTOR = 512        # a disk writes a sector of this length, at a multiple of it, completely or not at all
_ZEROS = bytes(PIECE)


# Checksums, in the forms that packets have.

def crc_of(pieces: Iterable[bytes]) -> bytes:
    """Returns the CRC-32 of some pieces in order."""
    crc = 0
    for piece in pieces:
        crc = zlib.crc32(piece, crc)
    return crc.to_bytes(4, "little")


def md5_of(pieces: Iterable[bytes]) -> bytes:
    """Returns the MD5 of some pieces in order."""
    md5 = hashlib.md5()
    for piece in pieces:
        md5.update(piece)
    return md5.digest()


@functools.lru_cache(maxsize=1)
def sums_of_zeros(size: int) -> bytes:
    """Returns the checksums of a slice of zeros."""
    return md5_of(_zeros(size)) + crc_of(_zeros(size))


# Bytes of files, in pieces.

def _zeros(length: int) -> Iterator[bytes]:
    for at in range(0, length, PIECE):
        yield _ZEROS[:length - at]


def window(opened: int, offset: int, own: int, size: int) -> Iterator[bytes]:
    """Yields `own` bytes of a file from an offset on, and then zeros up to the slice size."""
    for at in range(0, own, PIECE):
        yield os.pread(opened, min(PIECE, own - at), offset + at)
    yield from _zeros(size - own)


def pieces_of_file(opened: int) -> Iterator[bytes]:
    """Yields the bytes of a whole file. It reads all of them."""
    at = 0
    while data := os.pread(opened, PIECE, at):
        yield data
        at += len(data)


def with_progress(pieces: Iterable[bytes]) -> Iterator[bytes]:
    """Yields the pieces, and shows how many bytes they had so far. A signal may end the command between two pieces."""
    count = 0
    for piece in pieces:
        end_if_signalled()
        yield piece
        count += len(piece)
        output.show_progress(count)


# Holes.

def data_from(opened: int, at: int) -> Optional[int]:
    """Returns where the data of a file go on, from an offset on, or None if only a hole is left there. If the file
    system doesn't know, that is the offset itself."""
    try:
        return os.lseek(opened, at, os.SEEK_DATA)
    except OSError as fault:
        return None if fault.errno == errno.ENXIO else at


def _hole_from(opened: int, at: int) -> int:
    try:
        return os.lseek(opened, at, os.SEEK_HOLE)
    except OSError:
        return at


def is_hole(opened: int, offset: int, length: int) -> bool:
    """Returns whether these bytes of a file, which is long enough, are in a hole."""
    data = data_from(opened, offset)
    return data is None or data >= offset + length


def zeros_in_holes(opened: int, length: int) -> int:
    """Returns how many bytes of a file with this length are in holes."""
    count, at = 0, 0
    while at < length:
        data = data_from(opened, at)
        if data is None:
            return count + length - at
        count += min(data, length) - at
        at = _hole_from(opened, data)
        if at <= data:      # (the file system knows no holes, or the file has changed)
            return count
    return count


# Slices in their places.

def is_there(opened: int, offset: int, own: int, size: int, sums: bytes) -> bool:
    """Returns whether a file has `own` bytes at an offset that have both checksums when zeros fill them up to the slice
    size.

    The MD5 takes much longer, so it is computed only if the CRC-32 is right."""
    if os.fstat(opened).st_size < offset + own:
        return False
    if is_hole(opened, offset, own):
        return sums == sums_of_zeros(size)
    return (crc_of(window(opened, offset, own, size)) == sums[16:]
            and md5_of(window(opened, offset, own, size)) == sums[:16])


def _is_zeros(opened: int, offset: int, own: int) -> bool:
    pieces = window(opened, offset, own, own)
    return is_hole(opened, offset, own) or all(piece == _ZEROS[:len(piece)] for piece in pieces)


class Content(NamedTuple):
    """The slices of a file by their numbers in the whole set: those that are in their places, and those in whose places
    are other bytes, which aren't only zeros. `has_data` is whether one that is in its place isn't only zeros."""
    there: Set[int]
    odd: Set[int]
    has_data: bool


def content_of(the_set: RecoverySet, file: Member, opened: int) -> Content:
    """Reads an open file of the set, which has its length or is empty."""
    there: Set[int] = set()
    odd: Set[int] = set()
    has_data = False
    sums_of_file = (file.sums or []) if os.fstat(opened).st_size == file.length else []
    with output.doing(f"{file.shown} is read", file.length):
        for number, sums in zip(file.numbers, sums_of_file):
            end_if_signalled()
            offset, own = (number - file.first) * the_set.size, the_set.own_length(file, number - file.first)
            output.show_progress(offset)
            if is_there(opened, offset, own, the_set.size, sums):
                there.add(number)
                has_data = has_data or sums != sums_of_zeros(the_set.size)
            elif not _is_zeros(opened, offset, own):
                odd.add(number)
    return Content(there, odd, has_data)


# Writing.

@functools.lru_cache(maxsize=1)
def _runs_of_data(data: bytes, shift: int) -> List[Tuple[int, int]]:
    """Returns the beginnings and ends of the runs of blocks that aren't only zeros, if the data are written at this
    offset within a block. (The same data may be written to thousands of places.)"""
    return _runs_that_differ(data, None, shift)


def _runs_that_differ(data: bytes, now: Optional[bytes], shift: int) -> List[Tuple[int, int]]:
    """Returns the beginnings and ends of the runs of blocks in which the data differ from what is there now (None are
    zeros). Only zeros may be replaced, in whole sectors; otherwise the file is refused."""
    zeros, start = bytes(BLOCK), 0
    runs: List[Tuple[int, int]] = []
    while start < len(data) and now != data:
        end = min(len(data), start + BLOCK - (shift + start) % BLOCK)
        there = zeros[:end - start] if now is None else now[start:end]
        if data[start:end] != there:
            if there != zeros[:end - start] and not _is_begun(data, there, start, end, shift):
                raise Refusal("it has other bytes where a slice belongs")
            if runs and runs[-1][1] == start:
                runs[-1] = (runs[-1][0], end)
            else:
                runs.append((start, end))
        start = end
    return runs


def _is_begun(data: bytes, there: bytes, start: int, end: int, shift: int) -> bool:
    """Returns whether each sector of a block has the bytes of the data, or only zeros, as a loss of power leaves it."""
    at = start
    while at < end:
        after = min(end, at + SECTOR - (shift + at) % SECTOR)
        now = there[at - start:after - start]
        if now != data[at:after] and now != bytes(after - at):
            return False
        at = after
    return True


def fill(opened: int, data: bytes, at: int) -> None:
    """Writes the blocks of the data that aren't in a file yet, which is long enough. It doesn't read holes. Only zeros
    may be replaced, in whole sectors; otherwise the file is refused, and nothing is written."""
    if is_hole(opened, at, len(data)):
        runs = _runs_of_data(data, at % BLOCK)
    else:
        runs = _runs_that_differ(data, os.pread(opened, len(data), at), at % BLOCK)
    for start, end in runs:
        changes.write_at(opened, memoryview(data)[start:end], at + start)
