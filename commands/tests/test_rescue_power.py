"""A loss of power during parv-rescue, at each call that changes the disk: what no call has brought to the disk may be
lost. The next run must go on, whatever is left."""

from __future__ import annotations

import ctypes
import filecmp
import hashlib
import os
import shutil
import stat
import subprocess
import time
import unittest
import unittest.mock
from typing import Callable, Dict, List, Set

from parv_commands.common import changes
from parv_commands.rescue import command as rescue

from .rooms import KILLED, At, Ended, Room, read, write

SIZE, SECTOR = 1536, 512
LONG = b"".join(hashlib.sha512(b"%d" % number).digest() for number in range(75)).replace(b"\0", b"x")
FILES = {"long": LONG, "in/a/folder": LONG[999:1999], "empty": b"", "short": b"few"}
ALL = ["complete empty", "complete in/a/folder", "complete long", "complete short"]
ORDER = ("create", "open", "pwrite", "ftruncate", "fsync", "syncfs", "mkdir", "rename")


class Durable:
    """What calls have brought to the disk: the contents of files, and the names in folders, by their inodes."""

    def __init__(self, place: str) -> None:
        self.place = place
        self.real: Dict[str, Callable[..., None]] = {"sync": changes.sync, "sync_all": changes.sync_all}

    def sync(self, opened: int) -> None:
        self.real["sync"](opened)
        self.keep(opened)

    def keep(self, opened: int) -> None:
        now = os.fstat(opened)
        data = b"\0".join(map(os.fsencode, os.listdir(f"/proc/self/fd/{opened}"))) if stat.S_ISDIR(
            now.st_mode) else os.pread(opened, now.st_size, 0)
        write(os.path.join(self.place, str(now.st_ino)), data)

    def sync_all(self, place: int) -> None:
        self.real["sync_all"](place)
        for at, _, names in os.walk(f"/proc/self/fd/{place}/"):
            for path in [at, *(os.path.join(at, name) for name in names)]:
                opened = os.open(path, os.O_RDONLY)
                self.keep(opened)
                os.close(opened)

    def of(self, path: str) -> bytes:
        """Returns what is kept of a file or folder, or nothing."""
        kept = os.path.join(self.place, str(os.lstat(path).st_ino))
        return read(kept) if os.path.exists(kept) else b""


class Power(unittest.TestCase):
    def setUp(self) -> None:
        self.room = Room(FILES, SIZE)
        self.addCleanup(self.room.close)
        write(os.path.join(self.room.top, "image"), b" and ".join([b"begins", *FILES.values()]))
        self.new = os.path.join(self.room.top, "new")
        self.durable = Durable(os.path.join(self.room.top, "durable"))
        os.mkdir(self.durable.place)

    def run_it(self, number: int = 0) -> Ended:
        """Runs the command. It is killed before the call with this number, if there is one."""
        with unittest.mock.patch.multiple(changes, sync=self.durable.sync, sync_all=self.durable.sync_all):
            return self.room.run(rescue.main, ["--tails", "new", "room/set.par2", "image"],
                                 At(number, "before", KILLED, ORDER))

    def fresh(self) -> None:
        for folder in self.new, self.durable.place, self.room.temporary:
            shutil.rmtree(folder, ignore_errors=True)
        os.mkdir(self.durable.place)
        os.mkdir(self.room.temporary)

    def paths(self) -> List[str]:
        return [os.path.join(at, name) for at, _, names in os.walk(self.new) for name in names]

    def lose_names(self) -> None:
        """Removes each file and folder whose name isn't on the disk."""
        for at, folders, names in os.walk(self.new):
            kept: Set[bytes] = set(self.durable.of(at).split(b"\0"))
            for name in folders + names:
                if os.fsencode(name) not in kept:
                    path = os.path.join(at, name)
                    shutil.rmtree(path) if os.path.isdir(path) else os.remove(path)
            folders[:] = [name for name in folders if os.fsencode(name) in kept]

    def lose(self, path: str, how: str) -> None:
        """Gives a file back what the disk has of it: `all` else is lost, or its length is there and `zeros` in it, or
        only the `first` or the `second` half of what was written since."""
        now, then = read(path), self.durable.of(path)
        zeros = then + bytes(max(0, len(now) - len(then)))
        half = (len(then) + len(now)) // 2 if len(now) > len(then) else len(now) // 2
        half -= 0 if path.endswith(".parv-rescue") else half % SECTOR
        lost = {"all": then, "zeros": zeros, "first": now[:half] + zeros[half:len(now)],
                "second": zeros[:half] + now[half:], "cut": now[:max(half, len(then))]}[how]
        with open(path, "r+b") as file:
            file.truncate(0)
            file.write(lost)

    def loses(self, of_record: bool, how: str) -> Callable[[], None]:
        """(The first line of a record isn't replaced by zeros. Nothing else is in the folder then.)"""
        def lose() -> None:
            for path in self.paths():
                is_first = of_record and not self.durable.of(path) and how != "cut"
                if path.endswith(".parv-rescue") == of_record and not is_first:
                    self.lose(path, how)
        return lose

    def is_whole(self, ended: Ended, what: object) -> None:
        self.assertEqual((ended.status, ended.said, sorted(ended.out.splitlines())[:4]), (0, "", ALL), (what, ended))
        for name, data in FILES.items():
            self.assertEqual(read(os.path.join(self.new, name)), data, (what, name))

    def test_the_next_run_goes_on_whatever_was_lost(self) -> None:
        self.run_it()
        self.fresh()
        count = sum(call in ORDER for call in self.run_it().calls)
        self.assertGreater(count, 20)
        def everything() -> None:
            self.lose_names()
            for path in self.paths():
                self.lose(path, "all")
        cases: Dict[str, Callable[[], None]] = {        # (each call gets some of them in turn)
            **{f"record: {how}": self.loses(True, how) for how in ("all", "zeros", "first", "second", "cut")},
            **{f"files: {how}": self.loses(False, how) for how in ("zeros", "first", "second")},
            "names": self.lose_names, "everything": everything}
        for number in range(1, count + 1):
            for at, (what, loses) in enumerate(cases.items()):
                if (at + number) % 3:
                    continue
                self.fresh()
                ended = self.run_it(number)
                if ended.status != 137:     # (it makes fewer calls if the matches come in fewer pieces)
                    self.assertLess(sum(call in ORDER for call in ended.calls), number, ended)
                if os.path.isdir(self.new):
                    loses()
                    self.is_whole(self.run_it(), (number, what))

    def test_what_is_recorded_was_on_the_disk_before(self) -> None:
        """(After the run, nothing of a file that is called complete may be lost.)"""
        self.run_it()
        for path in self.paths():
            self.assertEqual(self.durable.of(path), read(path), path)
        self.lose_names()
        self.is_whole(self.run_it(), "names")


def has_own_mounts() -> bool:
    """Gives this process mounts of its own, which no other program keeps busy. Returns whether that is allowed."""
    return not ctypes.CDLL(None).unshare(0x20000) and not subprocess.run(       # (CLONE_NEWNS)
        ["mount", "--make-rprivate", "/"], stderr=subprocess.DEVNULL).returncode


class Disk(unittest.TestCase):
    """The same on ext4, by copies of a disk at such a moment."""

    def test_a_copy_of_the_disk_goes_on(self) -> None:
        room = Room(FILES, SIZE)
        self.addCleanup(room.close)
        room.is_synced = True
        disk, cut, place = (os.path.join(room.top, name) for name in ("disk", "cut", "m"))
        os.mkdir(place)
        with open(disk, "wb") as file:
            file.truncate(16 << 20)
        if os.getuid() or not shutil.which("mkfs.ext4") or subprocess.run(["mkfs.ext4", "-q", "-F", disk]).returncode:
            self.skipTest("it needs root, and mkfs.ext4")
        write(os.path.join(room.top, "image"), b" and ".join([b"begins", *FILES.values()]))

        if not has_own_mounts():
            self.skipTest("mounting isn't allowed here")

        def mounted(image: str) -> None:
            if subprocess.run(["mount", "-o", "loop,commit=1", image, place], stderr=subprocess.DEVNULL).returncode:
                self.skipTest("mounting isn't allowed here")

        def run_it(number: int = 0) -> Ended:
            return room.run(rescue.main, ["--tails", "m/new", "room/set.par2", "image"],
                            At(number, "before", KILLED, ("create", "pwrite", "fsync")))

        def unmounted() -> None:
            subprocess.run(["umount", place], check=True)
        run = room.run(rescue.main, ["--tails", "new", "room/set.par2", "image"])
        count = len([call for call in run.calls if call in ("create", "pwrite", "fsync")])
        for number in range(4, count + 1, 3):
            for seconds in 0.0, 1.6:        # the journal of the file system is written each second, the data later
                mounted(disk)
                try:
                    shutil.rmtree(os.path.join(place, "new"), ignore_errors=True)
                    subprocess.run(["sync", "-f", place], check=True)
                    run_it(number)
                    time.sleep(seconds)
                    shutil.copy(disk, cut)
                    while not filecmp.cmp(disk, cut, False):    # (the disk has changed while it was copied)
                        shutil.copy(disk, cut)
                finally:
                    unmounted()
                mounted(cut)
                try:
                    ended = run_it()
                    self.assertEqual((ended.status, ended.said), (0, ""), (number, seconds, ended))
                    for name, data in FILES.items():
                        self.assertEqual(read(os.path.join(place, "new", name)), data, (number, seconds))
                finally:
                    unmounted()


if __name__ == "__main__":
    unittest.main()
