"""What must hold in each hostile run, and what it is compared with."""

from __future__ import annotations

import collections
import hashlib
import os
import stat
from typing import Counter, Dict, List, Optional, Tuple

from ..rooms import At, Ended, read

Held = Counter[bytes]       # how many files have each content


class Broken(Exception):
    """A promise that doesn't hold."""


class Log:
    """What has happened in a run, in order, for the one who looks at a promise that doesn't hold."""

    def __init__(self) -> None:
        self.lines: List[str] = []

    def add(self, *what: object) -> None:
        self.lines.append(" ".join(map(str, what)))

    def must(self, holds: bool, *what: object) -> None:
        if not holds:
            raise Broken(" ".join(map(str, what)))


def told(watch: Optional[At]) -> str:
    """Returns at which call something happens in a run."""
    if watch is None:
        return "to its end"
    kinds = " or ".join(watch.kinds) or "call"
    return f"{type(watch).__name__} {kinds} {watch.number}, {watch.when}: {watch.does.__qualname__}"


def noise(seed: object, length: int) -> bytes:
    """Returns bytes that look random, and are always the same for a seed."""
    pieces = (hashlib.sha512(f"{seed} {number}".encode()).digest() for number in range(length // 64 + 1))
    return b"".join(pieces)[:length]


def is_file(path: str) -> bool:
    """Returns whether a regular file is at a name; a link to one isn't."""
    return os.path.isfile(path) and not os.path.islink(path)


def held_in(folder: str) -> Held:
    """Returns the contents of all regular files. A file with several names counts once."""
    found: Dict[Tuple[int, int], bytes] = {}
    for at, _, names in os.walk(folder):
        for path in (os.path.join(at, name) for name in names):
            now = os.lstat(path)
            if stat.S_ISREG(now.st_mode) and (now.st_dev, now.st_ino) not in found:
                found[now.st_dev, now.st_ino] = read(path)
    return collections.Counter(found.values())


def keeps(log: Log, held: Held, folder: str, *what: object) -> None:
    """No content that was there is lost."""
    log.must(not held - held_in(folder), "bytes are lost:", dict(held - held_in(folder)), *what)


def ends_well(log: Log, ended: Ended, statuses: Tuple[int, ...], signalled: Optional[int] = None) -> None:
    """The status is one of those that the page has, or that of a signal that was sent, and nothing is a traceback."""
    fine = ended.status in statuses or signalled is not None and ended.status == 128 + signalled
    log.must(fine and "Traceback" not in ended.said, "ends in another way than the page says:", ended)
