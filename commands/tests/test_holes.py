"""Holes of files aren't read, and what they would cost has a limit."""

from __future__ import annotations

import hashlib
import os
import unittest
import unittest.mock
import zlib
from typing import Any, Dict, List, Tuple

from parv_commands.common import slice_content
from parv_commands.common.faults import Refusal
from parv_commands.common.slice_content import fill, sums_of_zeros
from parv_commands.rescue import command as rescue

from .rooms import Room, md5, packet, spent, write

SIZE = 1 << 20
DATA = hashlib.sha512(b"data").digest() * 200


def sparse_set(name: bytes, parts: Dict[int, bytes], length: int, whole: bytes) -> bytes:
    """Returns the packets of a file of zeros, except for these bytes at these offsets, each in a slice of its own."""
    zero = md5(bytes(SIZE)) + zlib.crc32(bytes(SIZE)).to_bytes(4, "little")
    sums = [zero] * -(-length // SIZE)
    for at, data in parts.items():
        piece = (bytes(at % SIZE) + data).ljust(SIZE, b"\0")
        sums[at // SIZE] = md5(piece) + zlib.crc32(piece).to_bytes(4, "little")
    front = (parts.get(0, b"") + bytes(16384))[:16384]
    owner = md5(md5(front) + length.to_bytes(8, "little") + name)
    main = SIZE.to_bytes(8, "little") + (1).to_bytes(4, "little") + owner
    about = owner + whole + md5(front) + length.to_bytes(8, "little") + name.ljust(-(-len(name) // 4) * 4, b"\0")
    return b"".join(packet(md5(main), kind, body) for kind, body in (
        (b"PAR 2.0\0Main", main), (b"PAR 2.0\0FileDesc", about), (b"PAR 2.0\0IFSC", owner + b"".join(sums))))


class Files(unittest.TestCase):
    def setUp(self) -> None:
        self.room = Room({"one": b"one"})
        self.addCleanup(self.room.close)
        self.path = os.path.join(self.room.top, "sparse")
        with open(self.path, "wb") as file:
            file.truncate(64 << 20)
            for at in 3 << 20, 40 << 20:
                file.seek(at)
                file.write(DATA)
        self.opened = os.open(self.path, os.O_RDWR)
        self.addCleanup(os.close, self.opened)
        if slice_content.data_from(self.opened, 0) == 0:
            self.skipTest("the file system knows no holes")

    def read_by(self, does: str, *given: Any) -> Tuple[Any, int]:
        """Returns what a function of `slices` returns, and how many bytes it has read."""
        counts: List[int] = []
        real = os.pread

        def counted(opened: int, length: int, at: int) -> bytes:
            counts.append(len(real(opened, length, at)))
            return real(opened, length, at)
        with unittest.mock.patch.object(os, "pread", counted):
            found = getattr(slice_content, does)(self.opened, *given)
        return found, sum(counts)

    def test_only_data_are_read(self) -> None:
        zeros, count = self.read_by("zeros_in_holes", 64 << 20)
        self.assertEqual(count, 0)
        self.assertTrue(0 <= (64 << 20) - zeros - 2 * len(DATA) < 1 << 18, zeros)
        for offset, length, wanted in ((0, 1 << 20, True), (3 << 20, 1, False), (4 << 20, 36 << 20, True),
                                       (4 << 20, (36 << 20) + 1, False), (41 << 20, 23 << 20, True)):
            self.assertEqual(self.read_by("is_hole", offset, length), (wanted, 0), (offset, length))

    def test_a_slice_of_zeros_is_there_in_a_hole(self) -> None:
        zeros = md5(bytes(SIZE)) + zlib.crc32(bytes(SIZE)).to_bytes(4, "little")
        self.assertEqual(sums_of_zeros(SIZE), zeros)
        for offset, own, sums, wanted in ((5 << 20, SIZE, zeros, True), (5 << 20, 9, zeros, True),
                                          (5 << 20, SIZE, b"x" * 20, False), ((63 << 20) + 1, SIZE, zeros, False)):
            self.assertEqual(self.read_by("is_there", offset, own, SIZE, sums), (wanted, 0), (offset, own))
        self.assertEqual(self.read_by("is_there", 3 << 20, SIZE, SIZE, zeros)[0], False)

    def test_a_file_system_that_knows_no_holes(self) -> None:
        for answer in (lambda opened, at, how: at), unittest.mock.Mock(side_effect=OSError(22, "Invalid argument")):
            with unittest.mock.patch.object(os, "lseek", answer):
                self.assertEqual(self.read_by("zeros_in_holes", 64 << 20)[0], 0)
                self.assertFalse(slice_content.is_hole(self.opened, 0, SIZE))
                self.assertRaises(Refusal, fill, self.opened, bytes(9) + b"other" * 9, 3 << 20)
                self.assertEqual(os.pread(self.opened, len(DATA), 3 << 20), DATA)

    def test_equal_slices_in_holes_are_written_without_a_look_at_each_block(self) -> None:
        data = bytes(32 << 20) + b"x" + bytes(4095)
        with open(self.path, "r+b") as file:
            file.truncate(160 * len(data))
        with unittest.mock.patch.object(slice_content, "_runs_that_differ", wraps=slice_content._runs_that_differ) as looks:
            for number in range(9, 160):
                fill(self.opened, data, number * len(data))
        self.assertEqual(looks.call_count, 1)
        self.assertLess(os.stat(self.path).st_blocks * 512, 20 << 20)


class Rescues(unittest.TestCase):
    def setUp(self) -> None:
        self.room = Room({"one": b"one"})
        self.addCleanup(self.room.close)
        self.image = os.path.join(self.room.top, "image")
        write(self.image, b"begins" + DATA)

    def put_set(self, slices: int, whole: bytes) -> None:
        length = slices * SIZE + len(DATA)
        write(os.path.join(self.room.top, "huge.par2"), sparse_set(b"huge", {slices * SIZE: DATA}, length, whole))

    def test_zeros_that_are_missing_are_hashed_up_to_a_limit(self) -> None:
        slices = 200
        whole = md5(bytes(slices * SIZE) + DATA)
        for free, state in ((0, f"unverified huge 1/{slices + 1}"), (slices * SIZE, "complete huge")):
            for name, right in (("right", whole), ("wrong", bytes(16))):
                self.put_set(slices, right)
                folder = f"{name}{free}"
                with unittest.mock.patch.object(rescue, "FREE_ZEROS", free):
                    ended = self.room.run(rescue.main, ["--tails", folder, "huge.par2", "image"])
                is_whole = free > 0 and name == "right"
                line = state if free == 0 or is_whole else f"damaged huge 1/{slices + 1}"
                self.assertEqual((ended.status, ended.out.splitlines()[0]), (0 if is_whole else 1, line), ended)
                self.assertEqual("isn't verified: " in ended.said, free == 0, ended)
                self.assertLess(os.stat(os.path.join(self.room.top, folder, "huge")).st_blocks, 200)

    def test_holes_of_terabytes_take_no_time(self) -> None:
        before = spent()
        self.put_set(8000, bytes(16))
        ended = self.room.run(rescue.main, ["--tails", "new", "huge.par2", "image"])
        self.assertEqual(ended.out.splitlines()[0], "unverified huge 1/8001", ended)
        self.assertLess(spent() - before, 30)
        ended = self.room.run(rescue.main, ["--tails", "new", "huge.par2", "image"])
        self.assertEqual(ended.out.splitlines()[0], "unverified huge 1/8001", ended)


if __name__ == "__main__":
    unittest.main()
