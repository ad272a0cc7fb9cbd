"""Makes each call by which a command changes a disk. No other module makes one; a test checks that.

Names are parts below an opened folder, so no link is followed. The `observer` is called before and after each call.
Tests use it to count the calls, to end a run at each of them, and to make each of them fail.
"""

from __future__ import annotations

import contextlib
import ctypes
import errno
import os
from typing import Callable, Iterator, Optional, Union

Observer = Callable[[str, str], None]
observer: Optional[Observer] = None

_MOST = 1 << 30         # the greatest number of bytes that one call writes
_NOREPLACE = 1          # the flag RENAME_NOREPLACE
NO_LINK = (errno.EPERM, errno.EOPNOTSUPP, errno.ENOSYS, errno.EMLINK)    # errors of a link where there can't be any
_NO_INODE = 0xffffffff  # what FUSE lists if it doesn't know the inode of a file
_libc = ctypes.CDLL(None, use_errno=True)
Data = Union[bytes, memoryview]


@contextlib.contextmanager
def _change(call: str) -> Iterator[None]:
    if observer is not None:
        observer(call, "before")
    try:
        yield
    finally:
        if observer is not None:
            observer(call, "after")


def make_folder(place: int, name: bytes, mode: int = 0o777) -> None:
    with _change("mkdir"):
        os.mkdir(name, mode, dir_fd=place)


def remove_folder(place: int, name: bytes) -> None:
    with _change("rmdir"):
        os.rmdir(name, dir_fd=place)


def make_file(place: int, name: bytes, mode: int = 0o666) -> int:
    """Makes a file at a name that isn't used, and opens it."""
    with _change("create"):
        return os.open(name, os.O_RDWR | os.O_CREAT | os.O_EXCL | os.O_NOFOLLOW | os.O_CLOEXEC, mode, dir_fd=place)


@contextlib.contextmanager
def new_file(place: int, name: bytes) -> Iterator[int]:
    """Makes such a file, and keeps it open while it is written."""
    opened = make_file(place, name)
    try:
        yield opened
    finally:
        os.close(opened)


@contextlib.contextmanager
def whole_file(place: int, name: bytes, temporary: bytes,
               replaces: Callable[[], bool] = lambda: False) -> Iterator[int]:
    """Makes a file at a temporary name, which isn't used, and keeps it open while it is written. Once the disk has it,
    it gets its name. `replaces` says then whether that may be the name of another file. If anything fails, the
    temporary one is removed."""
    opened = make_file(place, temporary)
    try:
        try:
            yield opened
            sync(opened)
        finally:
            os.close(opened)
        if replaces():
            replace(place, temporary, name)
        else:
            move(place, temporary, place, name)
    except BaseException:
        with contextlib.suppress(OSError):
            remove_file(place, temporary)
        raise
    sync_folder(place)


def make_path(path: bytes, mode: int = 0o777) -> None:
    """Makes a folder, and those above it, if they aren't there. The mode is that of the folder itself."""
    with _change("mkdir"):
        os.makedirs(path, mode, exist_ok=True)


def open_file(place: int, name: bytes, makes: bool = False) -> int:
    """Opens a file for changes, and can make it. It follows no link, and doesn't wait at a FIFO."""
    flags = os.O_RDWR | os.O_NOFOLLOW | os.O_NONBLOCK | os.O_CLOEXEC | (os.O_CREAT if makes else 0)
    with _change("create" if makes else "open"):
        return os.open(name, flags, 0o666, dir_fd=place)


def make_link(place: int, name: bytes, target: bytes) -> None:
    with _change("symlink"):
        os.symlink(target, name, dir_fd=place)


def write(opened: int, data: Data) -> None:
    """Writes all of the data at the position of the file."""
    left = memoryview(data)
    while left:
        with _change("write"):
            count = os.write(opened, left[:_MOST])
        left = left[count:]


def write_at(opened: int, data: Data, at: int) -> None:
    """Writes all of the data at an offset."""
    left = memoryview(data)
    while left:
        with _change("pwrite"):
            count = os.pwrite(opened, left[:_MOST], at)
        left = left[count:]
        at += count


def set_length(opened: int, length: int) -> None:
    with _change("ftruncate"):
        os.ftruncate(opened, length)


def set_mode(opened: int, mode: int) -> None:
    with _change("fchmod"):
        os.fchmod(opened, mode)


def set_owner(opened: int, user: int, group: int) -> None:
    with _change("fchown"):
        os.fchown(opened, user, group)


def set_times(opened: int, accessed: int, changed: int) -> None:
    """Sets the times of the last access and change of a file, in nanoseconds."""
    with _change("utimens"):
        os.utime(opened, ns=(accessed, changed))


def sync(opened: int) -> None:
    with _change("fsync"):
        os.fsync(opened)


def sync_all(place: int) -> None:
    """Writes everything of a file system to the disk."""
    with _change("syncfs"):
        status = _libc.syncfs(place)
        fault = ctypes.get_errno() if status else 0
    if fault:
        raise OSError(fault, os.strerror(fault))


def sync_folder(place: int) -> None:
    """Writes the names in a folder to the disk. (It opens the folder again, since one opened with O_PATH can't be
    synced.)"""
    opened = os.open(b".", os.O_RDONLY | os.O_DIRECTORY | os.O_CLOEXEC, dir_fd=place)
    try:
        sync(opened)
    finally:
        os.close(opened)


def remove_file(place: int, name: bytes) -> None:
    with _change("unlink"):
        os.unlink(name, dir_fd=place)


def move(place: int, name: bytes, new_place: int, new_name: bytes) -> None:
    """Gives a file another name, which must not be used yet: completely, or not at all."""
    fault = errno.ENOSYS
    if hasattr(_libc, "renameat2"):
        with _change("rename"):
            fault = ctypes.get_errno() if _libc.renameat2(place, name, new_place, new_name, _NOREPLACE) else 0
    if fault in (errno.ENOSYS, errno.EINVAL):
        _move_by_link(place, name, new_place, new_name)
    elif fault:
        raise OSError(fault, os.strerror(fault))


def move_entry(place: int, name: bytes, new_name: bytes) -> None:
    """Gives an entry of any kind another name in its folder, which must not be used yet. (A folder has no links, and on
    some file systems, such as exFAT, nothing has. Where `move` can't be done for that, it is renamed after a look
    whether the name is used.)"""
    try:
        move(place, name, place, new_name)
    except OSError as fault:
        if fault.errno not in NO_LINK:
            raise
        with contextlib.suppress(FileNotFoundError):
            os.stat(new_name, dir_fd=place, follow_symlinks=False)
            raise FileExistsError(errno.EEXIST, os.strerror(errno.EEXIST)) from fault
        with _change("rename"):
            os.rename(name, new_name, src_dir_fd=place, dst_dir_fd=place)


def replace(place: int, name: bytes, new_name: bytes) -> None:
    """Gives a file the name of another one in the same folder. At each moment, one of the two files has that name."""
    with _change("rename"):
        os.replace(name, new_name, src_dir_fd=place, dst_dir_fd=place)


def _is_listed(place: int, name: bytes) -> bool:
    """Returns whether a folder lists a name with the inode of the file to which it leads, as far as that is known."""
    opened = os.open(b".", os.O_RDONLY | os.O_DIRECTORY | os.O_CLOEXEC, dir_fd=place)
    try:
        with os.scandir(opened) as entries:
            listed = next((entry.inode() for entry in entries if os.fsencode(entry.name) == name), None)
    finally:
        os.close(opened)
    return listed in (None, _NO_INODE, os.stat(name, dir_fd=place, follow_symlinks=False).st_ino)


def _move_by_link(place: int, name: bytes, new_place: int, new_name: bytes) -> None:
    """Does the same as `move` on a file system that can't do it in one call. In between, the file has both names.

    Where a name has several forms, the system may still see a file at one after it was renamed by another. Then the
    file that gets the new name isn't the one whose name is removed.
    """
    if not _is_listed(place, name):
        raise OSError(errno.ESTALE, os.strerror(errno.ESTALE))
    with _change("link"):
        os.link(name, new_name, src_dir_fd=place, dst_dir_fd=new_place, follow_symlinks=False)
    remove_file(place, name)
