"""Names of files: how they are shown, and which ones a set may not have."""

from __future__ import annotations

import bisect
import functools
import re
import unicodedata
from typing import Dict, Iterable, Optional, Pattern, Sequence, Set, Tuple

LONGEST_PART = 255
MOST_FOLDERS = 200      # the most folders in a name: each look at a name opens all of them
RESERVED_NAMES = (b".parv-repair", b".parv-rescue", b".verify_and_repair", b".extract_found")   # of the commands


def shown(name: bytes) -> str:
    """Returns a name as parv shows it: printable ASCII, a backslash twice, and each other byte as \\x and two
    digits."""
    return re.sub(rb"[^ -\[\]-~]", lambda odd: b"\\\\" if odd[0] == b"\\" else b"\\x%02x" % odd[0][0],
                  name).decode("ascii")


def unshown(text: str) -> bytes:
    """Returns the name that parv shows in this way."""
    return re.sub(rb"\\(?:\\|x([0-9a-f]{2}))", lambda odd: bytes.fromhex(odd[1].decode()) if odd[1] else b"\\",
                  text.encode("ascii"))


def is_packet_file(name: bytes) -> bool:
    """Returns whether parv takes a file of this name for a packet file."""
    return name[-5:].lower() == b".par2"


def base_of(name: bytes) -> bytes:
    return name.rsplit(b"/", 1)[-1]


def above(name: bytes) -> bytes:
    """Returns the path of the folder that a name is in, which is empty for the outermost."""
    return name.rpartition(b"/")[0]


def is_plain(name: bytes) -> bool:
    """Returns whether a name stays below its folder, judged by its parts."""
    return not {b"", b".", b".."} & set(name.split(b"/"))


def has_too_many_folders(name: bytes) -> bool:
    return name.count(b"/") > MOST_FOLDERS


def _as_compared(name: bytes) -> bytes:
    """Returns a name as a file system may compare it that folds case and ignores some characters."""
    if name.isascii():
        return name.lower()
    text = unicodedata.normalize("NFKC", name.decode("utf-8", "replace")).casefold()
    return text.encode("ascii", "ignore")


@functools.lru_cache(maxsize=4)
def _pattern(reserved_names: Tuple[bytes, ...]) -> Pattern[bytes]:
    """Returns what finds a reserved name as any part of a name. (Some file systems ignore dots and spaces at its end,
    or what comes after a colon.)"""
    return re.compile(rb"(?:^|/)(?:%s)[. ]*(?:[/:]|$)" % b"|".join(map(re.escape, reserved_names)))


def is_reserved(name: bytes, reserved_names: Iterable[bytes] = RESERVED_NAMES) -> bool:
    """Returns whether a part of a name is one of these, in any case."""
    names = tuple(reserved_names)
    return bool(names) and _pattern(names).search(_as_compared(name)) is not None


def refusal(name: bytes, reserved_names: Iterable[bytes]) -> Optional[str]:
    """Returns why a name of a set is refused, or None. The reserved names are those of the commands' own entries."""
    parts = name.split(b"/")
    if parts[0] == b"":
        return "its name is absolute"
    if b".." in re.split(rb"[/\\]", name) or name[:1] == b"\\":
        return "its name leads out of the folder"
    if b"" in parts or b"." in parts or b"\0" in name:
        return "its name isn't that of a file"
    if has_too_many_folders(name):
        return "its name has too many folders"
    if max(map(len, parts)) > LONGEST_PART:     # (the time of the next look grows with the square of a part's length)
        return "a part of its name is too long"
    return "its name is kept for the command itself" if is_reserved(name, reserved_names) else None


def refusals(names: Sequence[bytes], reserved_names: Iterable[bytes]) -> Dict[int, str]:
    """Returns why names of a set are refused, by their numbers. A name may not be that of another file's folder."""
    reserved_names = list(reserved_names)
    why: Dict[int, str] = {}
    for number, name in enumerate(names):
        reason = refusal(name, reserved_names)
        if reason is not None:
            why[number] = reason
    fine = sorted(name for number, name in enumerate(names) if number not in why)
    for number, name in enumerate(names):
        at = bisect.bisect(fine, name + b"/")
        if number not in why and at < len(fine) and fine[at].startswith(name + b"/"):
            why[number] = "its name is that of another file's folder"
    return why


class UsedNames:
    """Names of files that are used, and those of the folders on the way to them."""

    def __init__(self, members: Iterable[bytes]) -> None:
        self._members = sorted(members)
        self._more: Set[bytes] = set()

    def add(self, name: bytes) -> None:
        self._more.add(name)

    def __contains__(self, name: object) -> bool:
        if not isinstance(name, bytes):
            return False
        at, below = bisect.bisect_left(self._members, name), bisect.bisect_left(self._members, name + b"/")
        return (name in self._more or self._members[at:at + 1] == [name]
                or below < len(self._members) and self._members[below].startswith(name + b"/"))


def has_room_for_number(name: bytes) -> bool:
    """Returns whether `with_number` cuts nothing off a name, at least for small numbers."""
    return len(base_of(name)) <= LONGEST_PART - 8


def with_number(name: bytes, number: int) -> bytes:
    """Returns NAME.number for a name. The name is cut if its last part would be too long."""
    end = b".%d" % number
    folder, slash, base = name.rpartition(b"/")
    return folder + slash + base[:LONGEST_PART - len(end)] + end
