"""A stand-in for a file system that doesn't tell some names apart, such as one that folds case, for tests that can't
mount one. Each call with a name in an opened folder gets the name that such a file system would find there."""

from __future__ import annotations

import contextlib
import ctypes
import errno
import os
import unittest.mock
from typing import Any, Callable, Iterator

from parv_commands.common import changes

CALLS = ("open", "stat", "access", "mkdir", "unlink", "rmdir", "symlink", "readlink")
Fold = Callable[[bytes], bytes]


def _found(place: int, name: bytes, fold: Fold, renames: bool) -> bytes:
    """Returns the name of the entry that such a file system takes for this name."""
    if renames:
        return fold(name)
    there = [os.fsencode(each) for each in os.listdir(f"/proc/self/fd/{place}")]
    if name in there:
        return name
    return next((each for each in there if fold(each) == fold(name)), name)


class _Library:
    """The C library, with the call that gives a file another name."""

    def __init__(self, library: Any, found: Callable[[int, bytes], bytes]) -> None:
        self.syncfs, self._library, self._found = library.syncfs, library, found

    def renameat2(self, place: int, name: bytes, new_place: int, new_name: bytes, flags: int) -> int:
        new_name = self._found(new_place, new_name)
        if new_name in map(os.fsencode, os.listdir(f"/proc/self/fd/{new_place}")):
            ctypes.set_errno(errno.EEXIST)
            return -1
        answer = self._library.renameat2(place, self._found(place, name), new_place, new_name, flags)
        return int(answer)


@contextlib.contextmanager
def folding(fold: Fold, renames: bool = False) -> Iterator[None]:
    """Makes names that `fold` makes equal be names of one entry of a folder. If it `renames`, each entry has the name
    that `fold` makes, also a new one."""
    def found(place: int, name: bytes) -> bytes:
        return _found(place, name, fold, renames)
    def wrapped(real: Callable[..., Any], at: int) -> Callable[..., Any]:
        def call(*given: Any, **options: Any) -> Any:
            place, name = options.get("dir_fd"), given[at] if at < len(given) else None
            if isinstance(place, int) and isinstance(name, bytes) and name not in (b".", b"..") and b"/" not in name:
                given = (*given[:at], found(place, name), *given[at + 1:])
            return real(*given, **options)
        return call
    with contextlib.ExitStack() as kept:
        for name in CALLS:
            kept.enter_context(unittest.mock.patch.object(os, name, wrapped(getattr(os, name), name == "symlink")))
        kept.enter_context(unittest.mock.patch.object(changes, "_libc", _Library(changes._libc, found)))
        yield
