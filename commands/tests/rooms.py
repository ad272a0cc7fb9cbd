"""Folders that tests repair, runs over them in processes of their own, and comparisons afterwards."""

from __future__ import annotations

import ast
import contextlib
import errno
import hashlib
import os
import re
import shutil
import signal
import stat
import struct
import sys
import tempfile
import unittest.mock
import zlib
from typing import Any, Callable, Dict, Iterator, List, NamedTuple, Optional, Sequence, Set, Tuple

from parv_commands.common import changes

PARV = os.environ.get("PARV", "parv")
PAR2 = """#!/bin/sh
# Stands in for par2: copies what is missing or damaged from the whole files. It ends as WRONG says: `short` with 2 if
# it was given files to search, `fails` with 5 once it has written half a file, and `kills` what calls it then.
[ "$WRONG" != short ] || [ $# -le 3 ] || { echo "You need more recovery blocks"; exit 2; }
for whole in %s/by-number/file*; do
    name=${whole##*/}
    ! cmp -s "$whole" "$name" || continue
    [ ! -e "$name" ] && [ ! -L "$name" ] || mv "$name" "$name.1"
    [ "$WRONG" != fails ] || { head -c 4 "$whole" > "$name"; echo "Repair Failed."; exit 5; }
    [ "$WRONG" != kills ] || [ ! -s "$whole" ] || { head -c 4 "$whole" > "$name"; kill -KILL $PPID; exec sleep 900; }
    cat "$whole" > "$name"
done
"""
STAGE = ".parv-repair"
SECRET = b"a secret of thirty-two bytes ..."
SECONDS = 600       # the greatest number of seconds for a run
Listing = Dict[str, Tuple[int, bytes]]
Action = Callable[[str], None]


def md5(data: bytes) -> bytes:
    return hashlib.md5(data).digest()


def packet(owner: bytes, kind: bytes, body: bytes) -> bytes:
    hashed = owner + kind.ljust(16, b"\0") + body
    return b"PAR2\0PKT" + struct.pack("<Q", 32 + len(hashed)) + md5(hashed) + hashed


def filled(data: bytes, unit: int) -> bytes:
    return data + bytes(-len(data) % unit)


def file_id(name: bytes, data: bytes) -> bytes:
    return md5(md5(data[:16384]) + struct.pack("<Q", len(data)) + name)


def set_of(files: Dict[bytes, bytes], size: int, recovery: int) -> bytes:
    """Returns the packets of a set. Its recovery slices are zeros, so only a stand-in for par2 repairs with them."""
    ids = {name: file_id(name, data) for name, data in files.items()}
    order: List[bytes] = sorted(ids.values(), key=lambda each: each[::-1])
    main = struct.pack("<QI", size, len(files)) + b"".join(order)
    owner = md5(main)
    packets = [packet(owner, b"PAR 2.0\0Main", main)]
    for name in files:
        data = files[name]
        about = ids[name] + md5(data) + md5(data[:16384]) + struct.pack("<Q", len(data)) + filled(name, 4)
        pieces = [filled(data[at:at + size], size) for at in range(0, len(data), size)]
        sums = b"".join(md5(piece) + struct.pack("<I", zlib.crc32(piece)) for piece in pieces)
        packets += [packet(owner, b"PAR 2.0\0FileDesc", about), packet(owner, b"PAR 2.0\0IFSC", ids[name] + sums)]
    for number in range(recovery):
        packets.append(packet(owner, b"PAR 2.0\0RecvSlic", struct.pack("<I", number) + bytes(size)))
    return b"".join(packets)


def spent() -> float:
    """Returns the seconds of processor time of all programs that have ended. A busy machine doesn't change it much."""
    times = os.times()
    return times.children_user + times.children_system


def write(path: str, data: bytes) -> None:
    os.makedirs(os.path.dirname(path), exist_ok=True)
    with open(path, "wb") as out:
        out.write(data)


def read(path: str) -> bytes:
    with open(path, "rb") as file:
        return file.read()


def unchanged(path: str) -> Tuple[int, ...]:
    """Returns what stays the same of what is at a path as long as it is only read: all but the time of the last read."""
    now = os.lstat(path)
    return (now.st_dev, now.st_ino, now.st_mode, now.st_nlink, now.st_uid, now.st_gid, now.st_size, now.st_mtime_ns,
            now.st_ctime_ns)


class Ended(NamedTuple):
    """How a run has ended; for a signal the status is above 128. `calls` are its calls that change the disk."""
    status: int
    out: str
    said: str
    calls: List[str]

    def last(self) -> str:
        return self.out.strip().split("\n")[-1]


class Room:
    """A folder with files that are to be repaired, and a folder beside it with the whole files."""

    def __init__(self, files: Dict[str, bytes], size: int = 8, recovery: int = 20) -> None:
        self.top = tempfile.mkdtemp()
        self.folder = os.path.join(self.top, "room")
        self.temporary = os.path.join(self.top, "tmp")
        self.state_home = os.path.join(self.top, "secrets")
        self.files, self.size = files, size
        self.is_synced = False      # whether runs wait for the disk, which takes longer than all else
        os.mkdir(self.temporary)
        os.mkdir(self.folder)
        write(os.path.join(self.state_home, "parv", "secret"), SECRET)
        os.chmod(os.path.join(self.state_home, "parv"), 0o700)
        os.chmod(os.path.join(self.state_home, "parv", "secret"), 0o600)
        named: Dict[bytes, bytes] = {os.fsencode(name): data for name, data in files.items()}
        self.packets = set_of(named, size, recovery)
        for number, (name, data) in enumerate(sorted(named.items(), key=lambda each: file_id(*each)[::-1])):
            write(os.path.join(self.top, "by-number", f"file{number}"), data)
        self.stand_in = os.path.join(self.top, "par2")
        write(self.stand_in, (PAR2 % self.top).encode())
        os.chmod(self.stand_in, 0o755)
        self.fresh()

    def fresh(self) -> None:
        """Makes the folder again, with all files whole."""
        shutil.rmtree(self.folder)
        os.mkdir(self.folder)
        for name, data in self.files.items():
            self.put(name, data)
        self.put("set.par2", self.packets)

    def close(self) -> None:
        shutil.rmtree(self.top)

    def environment(self) -> Dict[str, str]:
        """Returns what commands have in their environment."""
        return {"PARV": PARV, "PAR2": self.stand_in, "TMPDIR": self.temporary, "XDG_STATE_HOME": self.state_home}

    def path(self, name: str) -> str:
        return os.path.join(self.folder, name)

    def put(self, name: str, data: bytes) -> None:
        write(self.path(name), data)

    def take(self, name: str) -> None:
        os.remove(self.path(name))

    def rename(self, name: str, other: str) -> None:
        os.makedirs(os.path.dirname(self.path(other)), exist_ok=True)
        os.rename(self.path(name), self.path(other))

    def listing(self) -> Listing:
        """Returns the kinds and contents of everything below the folder."""
        found: Listing = {}
        for at, folders, names in os.walk(self.folder):
            for name in folders + names:
                path = os.path.join(at, name)
                kind = stat.S_IFMT(os.lstat(path).st_mode)
                data = read(path) if kind == stat.S_IFREG else b""
                if kind == stat.S_IFLNK:
                    data = os.readlink(path).encode()
                found[os.path.relpath(path, self.folder)] = kind, data
        return found

    def contents(self, found: Optional[Listing] = None) -> Set[bytes]:
        """Returns the different contents of files in the folder."""
        return {data for kind, data in (found or self.listing()).values() if kind == stat.S_IFREG}

    def state(self, found: Optional[Listing] = None) -> str:
        """Returns the state of the folder that a run finds. Inodes and times differ in each room, so files in a journal
        are named by their places, and marks are left out."""
        found = found or self.listing()
        known = {}
        for name in found:
            now = os.lstat(self.path(name))
            known[b"%d %d %d" % (now.st_ino, now.st_size, now.st_mtime_ns)] = name.encode()
            known[b"%d" % now.st_ino] = name.encode()
        told = hashlib.md5()
        for name in sorted(found):
            kind, data = found[name]
            if name.startswith(STAGE) and kind == stat.S_IFREG:
                data = re.sub(rb"[0-9a-f]{64}\n\Z", b"", data)
                data = re.sub(rb"(?<![0-9.])[0-9]+( [0-9]+ -?[0-9]+)?(?=[\0\n])",
                              lambda noted: known.get(noted[0], b"?"), data)
            told.update(repr((name, kind, data)).encode())
        return told.hexdigest()

    def lacks(self) -> List[str]:
        """Returns what is wrong with a folder that should be complete."""
        here = self.listing()
        return [name for name, data in self.files.items() if here.get(name) != (stat.S_IFREG, data)] + [
            name for name in here if name.startswith(STAGE)]

    def run(self, main: Callable[[], int], words: Sequence[str], watch: Optional[changes.Observer] = None,
            **environment: str) -> Ended:
        """Runs a command in a process of its own."""
        paths = [os.path.join(self.top, name) for name in ("out", "said", "calls")]
        with open(paths[2], "wb", buffering=0) as calls:
            child = os.fork()
            if not child:
                if not self.is_synced:
                    setattr(os, "fsync", os.fstat)
                    setattr(changes._libc, "syncfs", lambda place: 0)
                _be_child(main, words, paths, calls.fileno(), watch, {
                    **self.environment(), **environment}, self.top)
            _, state = os.waitpid(child, 0)
        status = os.WEXITSTATUS(state) if os.WIFEXITED(state) else 128 + os.WTERMSIG(state)
        out, said, made = (read(path).decode("utf-8", "replace") for path in paths)
        return Ended(status, out, said, made.split())


def _be_child(main: Callable[[], int], words: Sequence[str], paths: Sequence[str], calls: int,
              watch: Optional[changes.Observer], environment: Dict[str, str], top: str) -> None:
    status = 99
    try:
        for number, path in enumerate(paths[:2], 1):
            opened = os.open(path, os.O_WRONLY | os.O_CREAT | os.O_TRUNC)
            os.dup2(opened, number)
            os.close(opened)
        os.dup2(os.open(os.devnull, os.O_RDONLY), 0)
        os.environ.update(environment)
        os.chdir(top)
        signal.alarm(SECONDS)
        sys.argv = ["command", *words]

        def observe(call: str, when: str) -> None:
            if when == "before":
                os.write(calls, call.encode() + b"\n")
            if watch is not None:
                watch(call, when)
        changes.observer = observe
        status = main()
    except SystemExit as end:
        status = end.code if isinstance(end.code, int) else 1
    except BaseException:
        import traceback
        traceback.print_exc()
    finally:
        os._exit(status)


@contextlib.contextmanager
def logged(room: Room, *names: str) -> Iterator[List[Tuple[str, str, bytes]]]:
    """Records the calls of these functions of `changes` that a run makes. At the end the list has, for each, the name,
    the path of the file or folder that it gets, from the top of the room, and the bytes that it gets."""
    log = os.path.join(room.top, "log")

    def wrapped(name: str) -> Callable[..., Any]:
        real = getattr(changes, name)

        def call(*given: Any) -> Any:
            path = os.readlink(f"/proc/self/fd/{given[0]}") if isinstance(given[0], int) else room.top
            with open(log, "a", encoding="ascii") as out:
                rest = b"".join(each for each in given[1:] if isinstance(each, bytes))
                out.write(ascii((name, os.path.relpath(path, room.top), rest)) + "\n")
            return real(*given)
        return call
    found: List[Tuple[str, str, bytes]] = []
    instead: Dict[str, Any] = {name: wrapped(name) for name in names}
    with unittest.mock.patch.multiple(changes, **instead):
        yield found
    found += map(ast.literal_eval, read(log).decode().splitlines())


class At:
    """Does something at the call with this number, before or after it. It may count only calls of some kinds."""

    def __init__(self, number: int, when: str, does: Callable[[], None], kinds: Sequence[str] = ()) -> None:
        self.number, self.when, self.does, self.kinds = number, when, does, kinds
        self.count = 0

    def __call__(self, call: str, when: str) -> None:
        if self.kinds and call not in self.kinds:
            return
        self.count += when == "before"
        if when == self.when and self.count == self.number:
            self.does()


class From(At):
    """Does it at each call from this number on."""

    def __call__(self, call: str, when: str) -> None:
        if self.kinds and call not in self.kinds:
            return
        self.count += when == "before"
        if when == self.when and self.count >= self.number:
            self.does()


class Noting:
    """Records the state of a room before and after each call that may change it, and how many contents are missing
    then. A run that is ended there leaves this state."""

    def __init__(self, room: Room, held: Set[bytes]) -> None:
        self.room, self.held, self.count = room, held, 0
        self.place = os.path.join(room.top, "states")
        write(self.place, b"")

    def __call__(self, call: str, when: str) -> None:
        self.count += when == "before"
        if call not in ("fsync", "syncfs"):
            found = self.room.listing()
            lost = len(self.held - self.room.contents(found))
            with open(self.place, "a", encoding="ascii") as out:
                out.write(f"{self.count} {when} {self.room.state(found)} {lost}\n")

    def noted(self) -> List[Tuple[int, str, str, int]]:
        """Returns, for each call, its number, `before` or `after`, the state, and how many contents are lost."""
        lines = [line.split() for line in read(self.place).decode().splitlines()]
        return [(int(number), when, state, int(lost)) for number, when, state, lost in lines]


def ends_by(number: signal.Signals) -> Callable[[], None]:
    def does() -> None:
        os.kill(os.getpid(), number)
    return does


def fails_with(code: int) -> Callable[[], None]:
    def does() -> None:
        raise OSError(code, os.strerror(code))
    return does


KILLED = ends_by(signal.SIGKILL)
FULL = fails_with(errno.ENOSPC)
MAKING = ("mkdir", "create", "symlink", "write", "pwrite", "ftruncate", "link")
