"""Opens files below a folder's descriptor. No part of a path is a link, and nothing is looked up by a whole path."""

from __future__ import annotations

import contextlib
import errno
import os
import stat
from typing import Container, Dict, Generator, Iterator, List, NamedTuple, Optional, Tuple

from . import changes
from .faults import FILES, Fault, faults_of
from .names import base_of, is_plain, shown, with_number

_WAY = os.O_PATH | os.O_DIRECTORY | os.O_NOFOLLOW | os.O_CLOEXEC
_STRIDE = 32            # a walk keeps each folder open whose depth is a multiple of this
Level = Tuple[int, bytes, Optional[os.stat_result]]
_ABSENT = (errno.ENOENT, errno.ENOTDIR, errno.ELOOP, errno.ENAMETOOLONG)


def _inner(place: int, part: bytes, makes: bool) -> int:
    """Opens a folder in a folder. If it isn't there, it can be made first."""
    try:
        return os.open(part, _WAY, dir_fd=place)
    except FileNotFoundError:
        if not makes:
            raise
    with contextlib.suppress(FileExistsError):
        changes.make_folder(place, part)
    return os.open(part, _WAY, dir_fd=place)


def _mount_of(place: int) -> Tuple[int, bytes]:
    """Returns the numbers of the device and of the mount of an opened folder. (A folder of the same file system can be
    mounted in it.)"""
    with open(f"/proc/self/fdinfo/{place}", "rb") as about:
        mount = next((line for line in about if line.startswith(b"mnt_id:")), b"")
    return os.fstat(place).st_dev, mount


def _obstacle(name: bytes, now: os.stat_result, wanted: str) -> str:
    return f"{shown(name)} is {'a link' if stat.S_ISLNK(now.st_mode) else f'no {wanted}'}"


def _is_at(place: int, name: bytes, now: os.stat_result) -> bool:
    """Returns whether a name in a folder is one of this file or folder. (On some file systems it has several.)"""
    with contextlib.suppress(FileNotFoundError):
        return os.path.samestat(now, os.stat(name, dir_fd=place, follow_symlinks=False))
    return False


class Identity(NamedTuple):
    """The marks by which a file is recognized: its inode and, if they are known, its length and the time of its last
    change."""
    inode: int
    length: Optional[int]
    changed: Optional[int]

    def fits(self, now: Optional[os.stat_result]) -> bool:
        """Returns whether this is the file, unchanged."""
        return (now is not None and stat.S_ISREG(now.st_mode) and now.st_ino == self.inode
                and self.length in (None, now.st_size) and self.changed in (None, now.st_mtime_ns))


def identity_of(now: os.stat_result) -> Identity:
    return Identity(now.st_ino, now.st_size, now.st_mtime_ns)


class Folder:
    """An opened folder. Names are paths below it."""

    def __init__(self, place: int, name: str) -> None:
        self.place, self.shown = place, name

    @classmethod
    def open(cls, path: bytes) -> Folder:
        name = shown(path)
        try:
            return cls(os.open(path, os.O_RDONLY | os.O_DIRECTORY | os.O_CLOEXEC), name)
        except OSError as fault:
            raise Fault(FILES, f"cannot open {name}: {fault.strerror}") from fault

    def is_elsewhere(self, path: bytes) -> bool:
        """Returns whether a subfolder, as far as it is there, is in another file system or mounted."""
        here = _mount_of(self.place)
        with contextlib.closing(self.levels(path + b"/any" if path else b"any")) as levels:
            return any(_mount_of(place) != here for place, _, _ in levels)

    @contextlib.contextmanager
    def above(self, name: bytes, makes: bool = False) -> Iterator[int]:
        """Opens the folder that a name is in, while it is used, and can make it. A name that leads out of this folder
        is refused."""
        if b"/" in name and not is_plain(name.rpartition(b"/")[0]):
            raise FileNotFoundError(errno.ENOENT, os.strerror(errno.ENOENT))
        place = os.open(b".", _WAY, dir_fd=self.place)
        try:
            for part in name.split(b"/")[:-1]:
                inner = _inner(place, part, makes)
                os.close(place)
                place = inner
            yield place
        finally:
            os.close(place)

    def look(self, name: bytes) -> Optional[os.stat_result]:
        """Returns what is at a name, or None. It doesn't follow a link."""
        try:
            with self.above(name) as place:
                return os.stat(base_of(name), dir_fd=place, follow_symlinks=False)
        except OSError as fault:
            if fault.errno in _ABSENT:
                return None
            raise

    def is_free(self, name: bytes) -> bool:
        return self.look(name) is None

    def free_name(self, name: bytes, taken: Container[bytes] = (), number: int = 1) -> bytes:
        """Returns an unused name like this one, with this number or a greater one, which isn't in `taken` either."""
        while with_number(name, number) in taken or not self.is_free(with_number(name, number)):
            number += 1
        return with_number(name, number)

    def is_file(self, name: bytes) -> bool:
        now = self.look(name)
        return now is not None and stat.S_ISREG(now.st_mode)

    def is_folder(self, name: bytes) -> bool:
        now = self.look(name)
        return now is not None and stat.S_ISDIR(now.st_mode)

    def levels(self, name: bytes) -> Generator[Level, None, None]:
        """Yields, for each part of a name as far as these are there: the opened folder that it is in, the part, and
        what is there. It follows no link. A name that leads out of this folder is refused."""
        if not is_plain(name):
            raise FileNotFoundError(errno.ENOENT, os.strerror(errno.ENOENT))
        place = os.open(b".", _WAY, dir_fd=self.place)
        try:
            for part in name.split(b"/"):
                now: Optional[os.stat_result] = None
                try:
                    now = os.stat(part, dir_fd=place, follow_symlinks=False)
                except OSError as fault:
                    if fault.errno not in _ABSENT:
                        raise
                yield place, part, now
                if now is None or not stat.S_ISDIR(now.st_mode):
                    return
                inner = os.open(part, _WAY, dir_fd=place)
                os.close(place)
                place = inner
        finally:
            os.close(place)

    def depth(self, name: bytes) -> int:
        """Returns how many of the folders on the way to a name are there."""
        count = 0
        with contextlib.closing(self.levels(name)) as levels:
            for _, _, now in levels:
                count += now is not None and stat.S_ISDIR(now.st_mode)
        return min(count, name.count(b"/"))

    def make_folders(self, path: bytes, count: int) -> None:
        """Makes a folder and those above it, `count` in all, of which none is there."""
        parts = path.split(b"/")
        with self.above(b"/".join(parts[:len(parts) - count + 1])) as above:
            place = os.open(b".", _WAY, dir_fd=above)
        try:
            for part in parts[-count:]:
                changes.make_folder(place, part)
                inner = os.open(part, _WAY, dir_fd=place)
                os.close(place)
                place = inner
        finally:
            os.close(place)

    def remove_folders(self, path: bytes, count: int) -> None:
        """Removes a folder and those above it, `count` in all, as far as they are there and empty."""
        parts = path.split(b"/")
        with contextlib.ExitStack() as stack, contextlib.suppress(OSError):
            places = [stack.enter_context(self.above(b"/".join(parts[:len(parts) - count + 1])))]
            with contextlib.suppress(FileNotFoundError):
                for part in parts[-count:-1]:
                    places.append(os.open(part, _WAY, dir_fd=places[-1]))
                    stack.callback(os.close, places[-1])
            for place, part in reversed(list(zip(places, parts[-count:]))):
                with contextlib.suppress(FileNotFoundError):
                    changes.remove_folder(place, part)

    def sync_folders(self, path: bytes, count: int) -> None:
        """Writes the names of a folder and of those above it, `count` in all, to the disk, and those in the folder. If
        some aren't there, that is written."""
        first = path.count(b"/") + 1 - count
        with contextlib.closing(self.levels(path + b"/any")) as levels:
            for at, (place, _, _) in enumerate(levels):
                if at >= first:
                    changes.sync_folder(place)

    def obstacle(self, name: bytes, reserved: bytes) -> Optional[str]:
        """Returns why no file can be at a name: something else is there, or on the way to it, or the name leads into
        the command's own folder with the name `reserved`, by another form of that name. None if nothing is in the
        way."""
        at = 0
        with contextlib.closing(self.levels(name)) as levels:
            for place, part, now in levels:
                at += len(part) + 1
                if now is None:
                    return None
                if at > len(name):
                    return None if stat.S_ISREG(now.st_mode) else _obstacle(name, now, "regular file")
                if not stat.S_ISDIR(now.st_mode):
                    return _obstacle(name[:at - 1], now, "folder")
                if _is_at(place, reserved, now):
                    return "its name is kept for the command itself"
        return None

    def open_to_read(self, name: bytes) -> int:
        """Opens a file. It follows no link, and doesn't wait at a FIFO."""
        with self.above(name) as place:
            return os.open(base_of(name), os.O_RDONLY | os.O_NOFOLLOW | os.O_NONBLOCK | os.O_CLOEXEC, dir_fd=place)

    def inner(self, name: bytes) -> Folder:
        """Opens a folder below this one."""
        with self.above(name) as place:
            return Folder(os.open(base_of(name), os.O_RDONLY | os.O_DIRECTORY | os.O_NOFOLLOW | os.O_CLOEXEC,
                                  dir_fd=place), f"{self.shown}/{shown(name)}")

    def close(self) -> None:
        os.close(self.place)

    def names(self) -> List[bytes]:
        """Returns the names in the folder, in their order. (It opens the folder again, since some file systems, such as
        btrfs, list only what was there when a folder was opened.)"""
        opened = os.open(b".", os.O_RDONLY | os.O_DIRECTORY | os.O_CLOEXEC, dir_fd=self.place)
        try:
            return sorted(map(os.fsencode, os.listdir(opened)))
        finally:
            os.close(opened)

    def entries(self) -> Dict[bytes, os.stat_result]:
        """Returns what is in the folder, by names, in their order."""
        entries: Dict[bytes, os.stat_result] = {}
        with faults_of("read", self.shown):
            for name in self.names():
                with contextlib.suppress(FileNotFoundError):
                    entries[name] = os.stat(name, dir_fd=self.place, follow_symlinks=False)
        return entries

    def move(self, name: bytes, new_name: bytes, makes: bool = False) -> None:
        """Gives a file below the folder another name there, which must not be used yet."""
        with self.above(name) as place, self.above(new_name, makes) as new_place:
            changes.move(place, base_of(name), new_place, base_of(new_name))


class Descent:
    """Opens folders below a folder in the order of a walk, each from the folder that it is in. It keeps some open on
    the way to a deep one, so that it doesn't begin at the top each time."""

    def __init__(self, top: Folder) -> None:
        self.open_folders: List[Tuple[bytes, Folder]] = [(b"", top)]

    def open(self, path: bytes) -> Folder:
        """Opens the folder with this path. The path ends with a slash, or is empty for the top."""
        while not path.startswith(self.open_folders[-1][0]):
            self.open_folders.pop()[1].close()
        above, folder = self.open_folders[-1]
        rest = path[len(above):]
        inner = folder.inner(rest[:-1] or b".")
        if rest.count(b"/") < _STRIDE:
            return inner
        self.open_folders.append((path, inner))
        return inner.inner(b".")

    def close(self) -> None:
        for _, folder in self.open_folders[1:]:
            folder.close()
