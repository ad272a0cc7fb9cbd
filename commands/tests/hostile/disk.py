"""Losses of power: the disk is a file, and a copy of it that is made at a call is mounted in its place."""

from __future__ import annotations

import os
import subprocess

from ..rooms import KILLED, Room

LENGTH = 8 << 20


class Disk:
    """A file system of its own for the folder of a room, with all files whole. It needs the right to mount."""

    def __init__(self, room: Room) -> None:
        self.folder, self.image, room.is_synced = room.folder, os.path.join(room.top, "disk"), True
        with open(self.image, "wb") as disk:
            disk.truncate(LENGTH)
        subprocess.run(["mkfs.ext4", "-q", "-F", self.image], check=True)
        self._mount()
        os.rmdir(room.path("lost+found"))
        for name, data in [*room.files.items(), ("set.par2", room.packets)]:
            room.put(name, data)

    def _mount(self) -> None:
        subprocess.run(["mount", "-o", "loop", self.image, self.folder], check=True)

    def sync(self) -> None:
        subprocess.run(["sync", "-f", self.folder], check=True)

    def loses_power(self) -> None:
        """Copies what is on the disk, and ends the run. (It is called in the run.)"""
        subprocess.run(["cp", "--sparse=always", self.image, self.image + ".then"], check=True)
        KILLED()

    def takes_copy(self) -> None:
        """Puts the copy in the place of the disk."""
        subprocess.run(["umount", self.folder], check=True)
        os.rename(self.image + ".then", self.image)
        self._mount()

    def close(self) -> None:
        subprocess.run(["umount", self.folder], check=False)
