"""The plan of a repair: which file gets which name, what is copied, made and kept, and the moves for that."""

from __future__ import annotations

import collections
import hashlib
import os
from typing import Callable, Deque, Dict, Iterable, List, Mapping, NamedTuple, Optional, Sequence, Set, Tuple

from ..common.faults import Refusal
from ..common.names import UsedNames, has_room_for_number, is_reserved, shown
from ..common.opened_folder import Folder, Identity
from ..common.signals import end_if_signalled
from ..common.slice_content import pieces_of_file, with_progress
from .journal import ASIDE, Made, Move, Step
from .situation import Situation
from .work_folder import MADE, path_of

ENDS = 1 << 14          # the bytes at each end of a file that are compared first


class Copy(NamedTuple):
    """A file that is copied, for the file of the set with this number."""
    number: int
    source: bytes
    target: bytes


class Backup(NamedTuple):
    """A file that makes way for the file of the set with this number, and the name under which it is kept."""
    number: int
    name: bytes
    file: Identity


class NewName(NamedTuple):
    """A move of a file: the path by which it is listed, the origin and the target of the move, and whether the file is
    kept as a backup."""
    file: bytes
    origin: bytes
    target: bytes
    is_kept: bool


class Plan(NamedTuple):
    """What is to be done for the files of a set: the lines that say it, and the copies, the moves before the folders
    are made, these folders, and the moves after that. `backups` has the files that the first moves keep."""
    lines: List[str]
    copies: List[Copy]
    moves_away: List[NewName]
    folders: List[Made]
    moves_in: List[NewName]
    backups: List[Backup]
    there: Dict[bytes, Identity]

    def steps(self, identity: Callable[[bytes], Identity]) -> List[Step]:
        """Returns the steps for the journal, once everything is made. Each file is recognized by its identity."""
        away, inward = [[Move(self.there.get(each.file) or identity(each.file), each.origin, each.target, each.is_kept)
                         for each in moves] for moves in (self.moves_away, self.moves_in)]
        return [*away, *self.folders, *inward]

    def new_names(self) -> Dict[bytes, bytes]:
        """Returns the paths that files have after all moves, by those by which they are listed before."""
        return {each.file: each.target for each in (*self.moves_away, *self.moves_in)}

    def made(self) -> List[bytes]:
        """Returns the paths of files in the work folder that get a name."""
        return [each.origin for each in self.moves_in if each.file not in self.there]


def _hash_of_ends(opened: int, length: int) -> bytes:
    """Returns the hash of both ends of a file, by which most different files of one length differ."""
    hashed = hashlib.blake2b(os.pread(opened, ENDS, 0))
    hashed.update(os.pread(opened, ENDS, max(length - ENDS, 0)))
    return hashed.digest()


def _hash_of_all(opened: int) -> bytes:
    hashed = hashlib.blake2b()
    for piece in with_progress(pieces_of_file(opened)):
        hashed.update(piece)
    return hashed.digest()


class Alike:
    """Files of a folder, and which of them have the same content."""

    def __init__(self, folder: Folder, there: Mapping[bytes, Identity]) -> None:
        self.folder, self.there = folder, there
        self._by_length: Optional[Dict[Optional[int], List[bytes]]] = None
        self._groups: Dict[bytes, Deque[bytes]] = {}    # for a file, those of its content, in their order

    def of(self, name: bytes) -> Deque[bytes]:
        """Returns the files with the content of a file, of which the caller may remove some."""
        if self._by_length is None:
            self._by_length = {}
            for path, now in self.there.items():
                self._by_length.setdefault(now.length, []).append(path)
        if name not in self._groups:
            self._group(self.there[name].length or 0, self._by_length[self.there[name].length])
        return self._groups[name]

    def _group(self, length: int, names: List[bytes]) -> None:
        """Groups all files of a length. Those whose ends are alike are read completely."""
        first = _groups_of((self._of(name, lambda opened: _hash_of_ends(opened, length)), name) for name in names)
        for some in first:
            groups = [some] if len(some) == 1 or length <= 2 * ENDS else _groups_of(
                (self._of(name, _hash_of_all), name) for name in some)
            for group in groups:
                shared = collections.deque(group)
                self._groups.update(dict.fromkeys(group, shared))

    def _of(self, name: bytes, hashed: Callable[[int], bytes]) -> bytes:
        opened = self.folder.open_to_read(name)
        try:
            end_if_signalled()
            return hashed(opened)
        finally:
            os.close(opened)


def _groups_of(pairs: Iterable[Tuple[bytes, bytes]]) -> List[List[bytes]]:
    groups: Dict[bytes, List[bytes]] = {}
    for key, name in pairs:
        groups.setdefault(key, []).append(name)
    return list(groups.values())


def plan_of(situation: Situation) -> Plan:
    """Returns what is to be done."""
    return _Planner(situation).plan()


class _Planner:
    """Makes a plan. A file of the folder is used for one file of the set only; for others it is copied."""

    def __init__(self, situation: Situation) -> None:
        self.folder, self.files, self.there = situation.folder, situation.the_set.files, situation.there
        self.origins, self.repairs = situation.origins, situation.repairs
        self.lines: List[str] = []
        self.copies: List[Copy] = []
        self.backups: List[Backup] = []
        self.moves_away: List[NewName] = []
        self._stays = situation.names_of_others | {file.name for file, origin in zip(self.files, self.origins)
                                                   if file.name == origin}
        self._alike = Alike(self.folder, self.there)
        self._by_inode: Optional[Dict[int, bytes]] = None
        self._used: Set[bytes] = set()
        self._leaves: Set[bytes] = set()
        self._asides: Dict[bytes, bytes] = {}
        self._names = UsedNames(file.name for file in self.files)   # and the names under which other files are kept
        self._number_of_cut = 1     # the number from which a name on is looked for that is cut

    def plan(self) -> Plan:
        origins = {number: origin for number in range(len(self.files)) for origin in [self._decide(number)]
                   if origin is not None}
        for number in origins:
            self._make_way(number)
        folders = self._folders([self.files[number].name for number in origins])
        moves_in = [NewName(origin, self._asides.get(origin, origin), self.files[number].name, False)
                    for number, origin in origins.items()]
        return Plan(self.lines, self.copies, self.moves_away, folders, moves_in, self.backups, self.there)

    def _is_spare(self, name: bytes) -> bool:
        """Returns whether a file may be renamed: it doesn't keep its name, and isn't used for a file of the set yet."""
        return name not in self._stays and name not in self._used and not is_reserved(name)

    def _spare_like(self, source: bytes) -> Optional[bytes]:
        """Returns another file with the same bytes that may be renamed, or None. (A file that isn't spare now won't be
        spare later.)"""
        alike = self._alike.of(source)
        while alike and not self._is_spare(alike[0]):
            alike.popleft()
        return alike[0] if alike else None

    def _decide(self, number: int) -> Optional[bytes]:
        """Returns what gets the name of a file, if that doesn't have it yet: a file that is there, or one that is to be
        made."""
        file, source = self.files[number], self.origins[number]
        if source == file.name:
            return None
        if source not in self.there:
            self.lines.append(f"{'repair' if number in self.repairs else 'make'} {file.shown}")
            return source
        if not self._is_spare(source):
            source = self._spare_like(source) or source
        is_spare = self._is_spare(source)
        word = "repair" if number in self.repairs else "rename" if is_spare else "copy"
        self.lines.append(f"{word} {file.shown}" if word == "repair" else f"{word} {shown(source)} to {file.shown}")
        self._used.add(source)
        if is_spare:
            self._leaves.add(source)
            return source
        self.copies.append(Copy(number, source, path_of(MADE, b"copy%d" % number)))
        return self.copies[-1].target

    def _make_way(self, number: int) -> None:
        """Moves the file that has the name of a file of the set: through the work folder if it is to be renamed,
        otherwise to a free name."""
        name = self.files[number].name
        now = self.folder.look(name)
        if now is None:
            return
        here = name if name in self.there else self._name_of(now)
        if here is None:
            twin = next((f", or is {shown(each)} in this file system" for each in self.there
                         if each.lower() == name.lower()), "")
            raise Refusal(f"{shown(name)} has come meanwhile{twin}")
        if here != name and here in self._stays:
            raise Refusal(f"{shown(name)} and {shown(here)} are one name in this file system")
        if here in self._leaves:
            self._asides[here] = path_of(ASIDE, b"%d" % number)
            self.moves_away.append(NewName(here, here, self._asides[here], False))
            return
        backup = self._free_name(name)
        self.moves_away.append(NewName(here, here, backup, True))
        self.backups.append(Backup(number, backup, self.there[here]))
        self.lines.append(f"keep {shown(here)} as {shown(backup)}")

    def _free_name(self, name: bytes) -> bytes:
        """Returns an unused name like this one. (Names that are cut for the number may be alike then. So each begins
        with the next number: if all began with 1, their cost would grow with the square of how many they are.)"""
        is_cut = not has_room_for_number(name)
        free = self.folder.free_name(name, self._names, self._number_of_cut if is_cut else 1)
        self._names.add(free)
        if is_cut:
            self._number_of_cut = int(free.rpartition(b".")[2]) + 1
        return free

    def _name_of(self, now: os.stat_result) -> Optional[bytes]:
        """Returns the name of a file that is found by another form of it, as on a file system that folds case."""
        if self._by_inode is None:
            self._by_inode = {there.inode: name for name, there in self.there.items()}
        name = self._by_inode.get(now.st_ino)
        there = None if name is None else self.folder.look(name)
        return name if there is not None and os.path.samestat(there, now) else None

    def _folders(self, members: Sequence[bytes]) -> List[Made]:
        """Returns the folders of these names that are to be made. (In their order, names that share a folder come one
        after another.)"""
        folders: List[Made] = []
        before: List[bytes] = []
        for name in sorted(members):
            end_if_signalled()
            parts = name.split(b"/")[:-1]
            there = self.folder.depth(name)
            shared = next((at for at, pair in enumerate(zip(before, parts)) if pair[0] != pair[1]),
                          min(len(before), len(parts)))
            missing = len(parts) - max(there, shared)
            if there < len(parts):
                before = parts
                if missing > 0:
                    folders.append(Made(b"/".join(parts), missing))
        return folders
