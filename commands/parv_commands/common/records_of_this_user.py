"""Shows by seals that a record in a folder is this user's own, and was made for that very folder.

A folder may come from anyone, with records in it that move files. So each record has a mark, which nobody makes without
the secret in the user's state folder. The mark also depends on inodes, so that a record in a copy of its folder isn't
taken for one of that copy. (It doesn't depend on the number of the device, which may be another one after a restart.)
"""

from __future__ import annotations

import contextlib
import errno
import fcntl
import hmac
import os
import pwd
import stat
from typing import Callable, Iterator, List, Optional

from . import changes
from .faults import FILES, Fault, faults_of
from .names import shown
from .opened_folder import Folder
from .signals import interruptible

SECRET, NEW = b"secret", b"secret.new"
LENGTH = 32             # the bytes of the secret
MARK = 64               # the bytes of a mark: hexadecimal digits
_HINT = "XDG_STATE_HOME can name a folder of yours for it"
_OTHERS = stat.S_IRWXG | stat.S_IRWXO
_MAY_WRITE = stat.S_IWGRP | stat.S_IWOTH
_NO_SYNC = (errno.EINVAL, errno.EROFS, errno.ENOTSUP)      # where nothing is written, nothing has to be synced


class Seal:
    """Makes and compares marks for records of one kind, in one place."""

    def __init__(self, secret: bytes, kind: bytes, *places: int) -> None:
        about = b" ".join([kind, *(b"%d" % os.fstat(place).st_ino for place in places)])
        self._key = hmac.digest(secret, about, "sha256")

    def mark(self, text: bytes, before: bytes = b"") -> bytes:
        """Returns the mark of a text that comes after another mark, or is the first one."""
        return hmac.digest(self._key, b"%d " % len(before) + before + text, "sha256").hex().encode()

    def record_of(self, text: bytes) -> bytes:
        """Returns a whole record: a text, and a line with its mark."""
        return text + self.mark(text) + b"\n"

    def text_of(self, data: bytes) -> Optional[bytes]:
        """Returns the text of a whole record, or None if its mark isn't right."""
        text, mark = data[:-MARK - 1], data[-MARK - 1:]
        return text if hmac.compare_digest(mark, self.mark(text) + b"\n") else None


class Chain:
    """The lines of a record that grows. The mark of each covers the mark before it, so a line counts only in its place,
    and only after all lines that came before it."""

    def __init__(self, seal: Seal) -> None:
        self._seal, self._last = seal, b""

    def line(self, text: bytes) -> bytes:
        """Returns the next line, with its mark and a line feed. The text has no line feed."""
        self._last = self._seal.mark(text, self._last)
        return text + b" " + self._last + b"\n"

    def take(self, line: bytes) -> Optional[bytes]:
        """Returns the text of the next line, which is given without its line feed, or None if its mark isn't right: the
        record ends before it."""
        text, _, mark = line.rpartition(b" ")
        right = self._seal.mark(text, self._last)
        if not hmac.compare_digest(mark, right):
            return None
        self._last = right
        return text


# The secret.

def _home() -> bytes:
    """Returns the user's home: HOME, unless that is another user's (as sudo may leave it)."""
    home = os.fsencode(os.environ.get("HOME", ""))
    with contextlib.suppress(OSError):
        if home.startswith(b"/") and os.stat(home).st_uid == os.geteuid():
            return home
    try:
        return os.fsencode(pwd.getpwuid(os.geteuid()).pw_dir)
    except KeyError as fault:
        raise Fault(FILES, f"no home is known for the secret of your records; {_HINT}") from fault


def state_folder() -> bytes:
    """Returns the path of the folder in which the secret is."""
    home = os.fsencode(os.environ.get("XDG_STATE_HOME", ""))
    return os.path.join(home if home.startswith(b"/") else os.path.join(_home(), b".local/state"), b"parv")


@contextlib.contextmanager
def _errors(path: bytes) -> Iterator[None]:
    """Ends the command if the secret can't be read or made."""
    try:
        yield
    except OSError as fault:
        raise Fault(FILES, f"cannot use the secret of your records in {shown(path)}: {fault.strerror}; "
                           f"{_HINT}") from fault


def _refuse_others(path: bytes, now: os.stat_result, refused: int) -> None:
    if now.st_uid != os.geteuid() or now.st_mode & refused:
        raise Fault(FILES, f"{shown(path)} is for other users too, and a secret of yours belongs into it; {_HINT}")


def _open_folder(path: bytes) -> int:
    place = os.open(path, os.O_RDONLY | os.O_DIRECTORY | os.O_CLOEXEC)
    try:
        _refuse_others(path, os.fstat(place), _MAY_WRITE)
    except BaseException:
        os.close(place)
        raise
    return place


def _read(path: bytes, place: int) -> Optional[bytes]:
    """Returns the secret in the state folder, or None if there is none."""
    try:
        opened = os.open(SECRET, os.O_RDONLY | os.O_NOFOLLOW | os.O_NONBLOCK | os.O_CLOEXEC, dir_fd=place)
    except FileNotFoundError:
        return None
    try:
        now = os.fstat(opened)
        _refuse_others(os.path.join(path, SECRET), now, _OTHERS)
        secret = os.read(opened, LENGTH + 1) if stat.S_ISREG(now.st_mode) else b""
    finally:
        os.close(opened)
    if len(secret) != LENGTH:
        raise Fault(FILES, f"{shown(os.path.join(path, SECRET))} is damaged: remove it, and a new one is made. Records "
                           "that were made with it aren't followed then")
    return secret


def _make(place: int) -> None:
    """Makes the secret. (A run that was killed may have left a part of one.)"""
    with contextlib.suppress(FileNotFoundError):
        changes.remove_file(place, NEW)
    opened = changes.make_file(place, NEW, 0o600)
    try:
        changes.write(opened, os.urandom(LENGTH))
        changes.sync(opened)
    finally:
        os.close(opened)
    changes.move(place, NEW, place, SECRET)


def _make_folders(path: bytes) -> None:
    """Makes the state folder, and those above it that aren't there, for this user only."""
    missing: List[bytes] = []
    while not os.path.isdir(path):
        missing.append(path)
        path = os.path.dirname(path)
    for path in reversed(missing):
        changes.make_path(path, 0o700)


def _sync_above(path: bytes) -> None:
    """Writes to the disk that the state folder is there, and those above it, which may be new. (One may not be readable
    that was there before.)"""
    for _ in range(4):
        path = os.path.dirname(path)
        with contextlib.suppress(OSError):
            place = os.open(path or b".", os.O_RDONLY | os.O_DIRECTORY | os.O_CLOEXEC)
            try:
                changes.sync(place)
            finally:
                os.close(place)


def _sync(place: int) -> None:
    """Writes the secret to the disk, since an earlier run may have been killed before it did."""
    opened = os.open(SECRET, os.O_RDONLY | os.O_NOFOLLOW | os.O_CLOEXEC, dir_fd=place)
    try:
        for each in opened, place:
            try:
                changes.sync(each)
            except OSError as fault:
                if fault.errno not in _NO_SYNC:
                    raise
    finally:
        os.close(opened)


def needed_secret() -> bytes:
    """Returns the secret, which is on the disk then. It is made if there is none."""
    path = state_folder()
    with _errors(path):
        _make_folders(path)
        place = _open_folder(path)
        try:
            if _read(path, place) is None:
                with interruptible():
                    fcntl.flock(place, fcntl.LOCK_EX)       # another run may be making it
                if _read(path, place) is None:
                    _sync_above(path)
                    _make(place)
            _sync(place)
            secret = _read(path, place)
            if secret is None:
                raise FileNotFoundError(errno.ENOENT, os.strerror(errno.ENOENT))
            return secret
        finally:
            os.close(place)


def known_secret() -> Optional[bytes]:
    """Returns the secret, or None if no run has made one yet. It makes nothing."""
    path = state_folder()
    with _errors(path):
        try:
            place = _open_folder(path)
        except FileNotFoundError:
            return None
        try:
            return _read(path, place)
        finally:
            os.close(place)


def seal_to_write(kind: bytes, *places: int) -> Seal:
    """Returns the seal for a record of this kind that is to be written. It depends on the inodes of these opened files
    and folders: the folder in which the record is made, and what the record is in."""
    return Seal(needed_secret(), kind, *places)


def seal_to_read(kind: bytes, *places: int) -> Optional[Seal]:
    """Returns the seal for a record that is there, or None if this user has none of any kind."""
    secret = known_secret()
    return None if secret is None else Seal(secret, kind, *places)


# What isn't the user's own.

def set_aside(folder: Folder, name: bytes, new_name: bytes, say: Callable[[str], None]) -> bytes:
    """Gives an entry of a folder, which isn't shown to be the user's own, an unused name like
    this new one, and returns that. Nothing in it is read."""
    new_name = folder.free_name(new_name)
    with faults_of("rename", f"{folder.shown}/{shown(name)}"):
        changes.move_entry(folder.place, name, new_name)
    say(f"{shown(name)} isn't shown to be of a run of yours in this folder: nothing in it is followed, and it is now "
        f"{shown(new_name)}; if files of yours are in it, move them into the folder, under any names, and call the "
        "command again")
    return new_name
