"""What people do to files between two runs of a command."""

from __future__ import annotations

import contextlib
import os
import shutil
from random import Random
from typing import Callable, List, Sequence, Tuple

from ..rooms import read, write
from .promises import Held, Log, is_file, noise

Edit = Callable[["People", str, str], None]


class People:
    """People at work in a folder. `held` has the contents that nobody but them may remove. They leave alone what is in
    the folders of commands."""

    def __init__(self, rng: Random, folder: str, names: Sequence[str], held: Held, log: Log) -> None:
        self.rng, self.folder, self.names, self.held, self.log = rng, folder, list(names), held, log

    def content(self) -> bytes:
        return noise(self.rng.random(), self.rng.randint(1, 60))

    def put(self, path: str, data: bytes) -> None:
        """Writes a file, a new one or into one that is there."""
        if is_file(path):
            self.gone(path, True)
        if not os.path.isdir(path):
            write(path, data)
            self.held[data] += 1

    def gone(self, path: str, in_place: bool = False) -> None:
        """A content isn't held any more, if the file is changed in place, or this is its only name. (It may be one that
        a run has made.)"""
        data = read(path)
        if (in_place or os.lstat(path).st_nlink == 1) and self.held[data]:
            self.held[data] -= 1

    def free(self, path: str) -> bool:
        return not os.path.lexists(path) and os.path.isdir(os.path.dirname(path))

    # The edits; each has the path of a file that is there, and another path.

    def rename(self, path: str, other: str) -> None:
        if self.free(other):
            os.rename(path, other)

    def delete(self, path: str, _: str) -> None:
        self.gone(path)
        os.remove(path)

    def truncate(self, path: str, _: str) -> None:
        self.put(path, read(path)[:self.rng.randint(0, 20)])

    def extend(self, path: str, _: str) -> None:
        self.put(path, read(path) + self.content())

    def flip(self, path: str, _: str) -> None:
        data = bytearray(read(path) or b"x")
        data[self.rng.randrange(len(data))] ^= 1
        self.put(path, bytes(data))

    def replace(self, path: str, _: str) -> None:
        self.gone(path)
        write(path + ".new", self.content())
        self.held[read(path + ".new")] += 1
        os.rename(path + ".new", path)

    def swap(self, path: str, other: str) -> None:
        if is_file(other) and other != path:
            os.rename(path, path + ".t")
            os.rename(other, path)
            os.rename(path + ".t", other)

    def hard_link(self, path: str, other: str) -> None:
        if self.free(other):
            os.link(path, other)

    def link(self, path: str, other: str) -> None:
        """(The file stays, under another name; there is a link at its own.)"""
        if self.free(other):
            os.rename(path, other)
            os.symlink(os.path.relpath(other, os.path.dirname(path)), path)

    def link_out(self, path: str, other: str) -> None:
        if self.free(other):
            os.symlink(os.path.join(os.path.dirname(self.folder), "outside", "precious"), other)

    def mode(self, path: str, _: str) -> None:
        os.chmod(path, self.rng.choice([0o600, 0o444, 0o755, 0]))

    def touch(self, path: str, _: str) -> None:
        os.utime(path)

    def copy(self, path: str, other: str) -> None:
        if self.free(other):
            self.put(other, read(path))

    def add(self, _: str, other: str) -> None:
        if self.free(other):
            self.put(other, self.content())

    def backup(self, path: str, _: str) -> None:
        """Puts a file where the next backup would be."""
        if self.free(path + ".1"):
            self.put(path + ".1", self.content())

    def folder_there(self, _: str, other: str) -> None:
        if self.free(other):
            os.mkdir(other)

    def remove_folders(self, _: str, other: str) -> None:
        with contextlib.suppress(OSError):
            os.removedirs(other)

    def move_below(self, path: str, _: str) -> None:
        """Moves a file into a folder that no name of the set has."""
        os.makedirs(os.path.join(self.folder, "by people"), exist_ok=True)
        self.rename(path, os.path.join(self.folder, "by people", os.path.basename(path)))

    def fifo(self, _: str, other: str) -> None:
        if self.free(other):
            os.mkfifo(other)

    def choices(self) -> List[str]:
        """Returns the files that are there, but packet files and those of commands."""
        found: List[str] = []
        for at, folders, names in os.walk(self.folder):
            folders[:] = sorted(name for name in folders if ".parv" not in name and ".kept" not in name)
            found += [os.path.join(at, name) for name in sorted(names) if is_file(os.path.join(at, name))]
        return [path for path in found if not path.endswith(".par2")]

    def edit(self) -> None:
        """Makes one edit."""
        there = self.choices()
        names = [*self.names, "stray", *(name + ".1" for name in self.names)]
        other = os.path.join(self.folder, self.rng.choice(names))
        kind, edit = self.rng.choice(EDITS)
        if there:
            path = self.rng.choice(there)
            self.log.add("people", kind, os.path.relpath(path, self.folder), os.path.relpath(other, self.folder))
            edit(self, path, other)


EDITS: List[Tuple[str, Edit]] = [(edit.__name__, edit) for edit in (
    People.rename, People.delete, People.truncate, People.extend, People.flip, People.replace, People.swap,
    People.hard_link, People.link, People.link_out, People.mode, People.touch, People.copy, People.add, People.backup,
    People.folder_there, People.remove_folders, People.move_below, People.fifo)]


def copied(folder: str) -> None:
    """Puts a copy in the place of a folder, as a backup does that is restored."""
    shutil.copytree(folder, folder + ".copy", symlinks=True, copy_function=_copy)
    shutil.rmtree(folder)
    os.rename(folder + ".copy", folder)


def _copy(path: str, other: str) -> None:
    if os.path.isfile(path):        # and no FIFO
        shutil.copy2(path, other, follow_symlinks=False)
