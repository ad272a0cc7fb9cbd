"""Writes slices into the files of a set, below the folder of a rescue.

A file is known by what runs have left in it. If it has the inode and the time of the last change that the record has,
nobody has changed it since. Otherwise it is read: each slice that the record has must be there, and each other place
must have its slice, or zeros, or a part of the slice, as a run leaves it that was ended while it wrote. Whether other
bytes are a part of the slice is known once the slice is found; until then, nothing else is written into the file. So
nothing is written into a file of somebody else with other bytes, and a folder that was copied or restored goes on.

A loss of power may come at any time. So a file is made once the disk has a line of the record about it, and a slice is
recorded once the disk has it.
"""

from __future__ import annotations

import contextlib
import errno
import os
import stat
import time
from typing import Dict, Iterator, List, NamedTuple, Optional, Set

from ..common import changes, names, output_and_progress as output
from ..common.faults import FILES, Fault, Refusal, faults_of
from ..common.opened_folder import Folder
from ..common.recovery_set import Member, RecoverySet
from ..common.search import LINE, Search
from ..common.signals import end_if_signalled
from ..common.slice_content import content_of, fill
from .resume_record import NEW, Record, Stamp, runs_of, stamp_of

MANY = 64               # the most files and folders that are written to the disk one by one
MOST_WAITING = 1 << 26  # the most bytes of slices that wait until they are written; each slice counts as LINE more
RESERVED_NAMES = (*names.RESERVED_NAMES, NEW)
PLACE_IN_USE = "something is in its place already"
OTHER = "what is in its place isn't what was left there"
ODD = "it has other bytes where a slice belongs"


class Slice(NamedTuple):
    """A slice that is to be written: its file, its number there, and its bytes."""
    file: Member
    number: int
    data: bytes


class BegunFile(NamedTuple):
    """The slices of a file in which a run may have begun to write, by their numbers in the whole set: those that are in
    their places, and those that may be there in part."""
    there: Set[int]
    odd: Set[int]


class Writer:
    """Writes slices into files of the set, and keeps the record of that."""

    def __init__(self, the_set: RecoverySet, folder: Folder, record: Record, mark: str) -> None:
        self.the_set, self.folder, self.record, self.mark = the_set, folder, record, mark
        self.refused_files: Dict[str, str] = {}     # why files are refused, by their IDs
        self.stamps: Dict[str, Stamp] = {}      # how this run has left files, or has found those that are as they were
        self.copy_count = 0                     # slices that this run has written
        self.must_search_again = False                   # whether this run has skipped a slice that a later one may copy
        self.has_skipped = False                # .. and one that this run may copy if it searches again
        self.is_limited = False                 # whether the system didn't allow a file its length
        self.save_time = time.monotonic()
        self._begun_files: Dict[str, BegunFile] = {}
        self._waiting_slices: List[Slice] = []
        self._weight = 0
        self._new: Set[str] = set()             # files that are recorded, and that this run is about to make
        self._written_files: Dict[str, Member] = {}     # files that were written or read since the record was saved ..
        self._folders: Set[bytes] = set()       # .. folders in which some were made (unless they are many), ..
        self._levels = 0
        self._there: Set[int] = set()           # .. and slices that are in their places

    def refuse(self, file: Member, why: str) -> None:
        self.refused_files[file.id] = why
        self.stamps.pop(file.id, None)
        output.say(f"refused: {file.shown}: {why}")

    def _refuse_for_now(self, file: Member, why: str) -> None:
        """Refuses a file because something else is in its place, which may be gone in a later run."""
        self.must_search_again = True
        self.refuse(file, why)

    def prepare(self) -> None:
        """Refuses files by their names, looks at those that are there, and makes the empty ones."""
        why = names.refusals([file.name for file in self.the_set.files], RESERVED_NAMES)
        for number, file in enumerate(self.the_set.files):
            end_if_signalled()
            if number in why:
                self.refuse(file, why[number])
            elif file.id in self.record.made_files or self.record.is_copy and (file.sums or file.length == 0):
                self._look_before(file)
            elif file.sums:
                self._take_if_whole(file)
        for file in self.the_set.files:
            if file.length == 0 and file.id not in self.refused_files and file.id not in self.stamps:
                self._waiting_slices.append(Slice(file, 0, b""))
        self.flush()

    def _look_before(self, file: Member) -> None:
        """Looks at a file that runs may have made. If it isn't there any more, its slices are looked for again."""
        try:
            if not self.folder.is_free(file.name):
                with self._open(file):
                    return
        except Refusal as why:
            self._refuse_for_now(file, str(why))
        except OSError as fault:
            self._refuse_for_now(file, f"its place can't be opened: {fault.strerror}")
        else:
            self._forget(file)

    def _take_if_whole(self, file: Member) -> None:
        """Takes a file that no run has made if it has all slices, as one that parv-repair has made."""
        with contextlib.suppress(Refusal, Fault, OSError):
            if not self.folder.is_free(file.name):
                with self._open(file):
                    pass

    def _forget(self, file: Member) -> None:
        """Records that a file isn't there any more, so that its slices are looked for again."""
        lost_slices = self.record.there.intersection(file.numbers)
        if lost_slices:
            self.record.tell("lost", runs_of(lost_slices))
        self._there.difference_update(file.numbers)

    # Files, and what is in them.

    @contextlib.contextmanager
    def _open(self, file: Member) -> Iterator[int]:
        """Opens a file that is there, for changes, unless it has something other than runs have left in it."""
        try:
            with self.folder.above(file.name) as above:
                place = changes.open_file(above, names.base_of(file.name))
        except OSError as fault:
            raise Refusal(f"its place can't be opened: {fault.strerror}") from fault
        try:
            now = os.fstat(place)
            if not stat.S_ISREG(now.st_mode) or now.st_nlink != 1 or now.st_size not in (0, file.length):
                raise Refusal(OTHER if file.id in self.record.made_files else PLACE_IN_USE)
            if stamp_of(now) != (self.stamps.get(file.id) or self.record.stamps.get(file.id)):
                with faults_of("read", file.shown):
                    self._read_again(file, place)
            self.stamps[file.id] = stamp_of(now)
            yield place
        finally:
            os.close(place)

    def _read_again(self, file: Member, place: int) -> None:
        """Takes a file as its content is, if runs can have left that. A file that the record doesn't have must have all
        slices, or in a copy of a folder one slice that isn't only zeros."""
        is_made = file.id in self.record.made_files
        content = content_of(self.the_set, file, place)
        if not self._has(file) <= content.there:
            raise Refusal(OTHER)
        is_some = self.record.is_copy and content.has_data
        if not is_made and not is_some and len(content.there) < file.slices:
            raise Refusal(PLACE_IN_USE)
        self._begun_files.pop(file.id, None)
        if content.odd:
            self._begun_files[file.id] = BegunFile(content.there, content.odd)
        else:
            self._take_up(file, content.there)

    def _has(self, file: Member) -> Set[int]:
        """Returns the slices of a file that this run or the record has."""
        return set(filter(self.has, file.numbers))

    def _take_up(self, file: Member, there: Set[int]) -> None:
        """Takes a file as one that runs have made, with these slices."""
        if file.id not in self.record.made_files:
            self.record.tell("making", file.id)
        self._there |= there
        self._written_files[file.id] = file

    def _make(self, file: Member) -> int:
        """Makes a file of the set, if nothing is in its place."""
        try:
            with self.folder.above(file.name, True) as above:
                place = changes.make_file(above, names.base_of(file.name))
        except FileExistsError as fault:
            raise Refusal(PLACE_IN_USE) from fault
        except OSError as fault:
            _end_if_disk_fails(fault, file)
            raise Refusal(f"its place can't be opened: {fault.strerror}") from fault
        if names.above(file.name) not in self._folders and self._levels <= MANY:
            self._folders.add(names.above(file.name))
            self._levels += file.name.count(b"/") + 1
        return place

    @contextlib.contextmanager
    def _place_of(self, file: Member) -> Iterator[int]:
        """Opens a file to write into it, which is made first if it isn't there."""
        if file.id in self._new or self.folder.is_free(file.name):
            if file.id in self._new:
                self._new.remove(file.id)
            elif self._has(file):
                self._forget(file)
                self.record.save()
                self.must_search_again = True
            place = self._make(file)
            try:
                yield place
            finally:
                os.close(place)
        else:
            with self._open(file) as place:
                yield place

    # Slices.

    def add_slice(self, file: Member, number: int, data: bytes) -> Optional[bool]:
        """Takes a slice that is to be written. Returns False if its file is refused, and None if the slice can't be
        written yet."""
        if file.id in self.refused_files:
            return False
        begun_file = self._begun_files.get(file.id)
        if begun_file is not None and file.first + number in begun_file.there:
            return True
        if begun_file is not None and file.first + number not in begun_file.odd:
            self.must_search_again = self.has_skipped = True
            return None
        is_same = self._waiting_slices and self._waiting_slices[-1].data is data
        self._waiting_slices.append(Slice(file, number, data))
        self._weight += LINE if is_same else LINE + len(data)
        if self._weight > MOST_WAITING or begun_file is not None:
            self.flush()
        return True

    def flush(self) -> None:
        """Writes the slices that wait. If that fails, the search has passed some that aren't written."""
        waiting, self._waiting_slices, self._weight = self._waiting_slices, [], 0
        try:
            self._write_all(waiting)
        except BaseException:
            self.must_search_again = True
            raise

    def _write_all(self, waiting: List[Slice]) -> None:
        """Writes slices, once the record has their files."""
        by_file: Dict[str, List[Slice]] = {}
        for each in waiting:
            by_file.setdefault(each.file.id, []).append(each)
        new = [owner for owner, slices in by_file.items() if self._is_new(slices[0].file)]
        if new:
            self._new.update(new)
            self.record.tell("making", *new)
        self.record.save()      # (also of those that have gone, and are made anew)
        for owner, slices in by_file.items():
            if owner not in self.refused_files:
                self._write(slices[0].file, slices)

    def _is_new(self, file: Member) -> bool:
        """Returns whether a file is neither recorded nor there. It is refused if something else is in its place."""
        if file.id in self.refused_files or file.id in self.record.made_files:
            return False
        try:
            if self.folder.is_free(file.name):
                return True
            self._refuse_for_now(file, PLACE_IN_USE)
        except OSError as fault:
            self._refuse_for_now(file, f"its place can't be opened: {fault.strerror}")
        return False

    def _write(self, file: Member, slices: List[Slice]) -> None:
        """Writes slices of a file to their places."""
        try:
            with self._place_of(file) as place, faults_of("write", file.shown):
                self._give_length(file, place)
                self._written_files[file.id] = file
                for each in slices:
                    self._fill(place, each)
                self.stamps[file.id] = stamp_of(os.fstat(place))
        except Refusal as why:
            self._refuse_for_now(file, str(why))

    def _give_length(self, file: Member, place: int) -> None:
        if os.fstat(place).st_size != file.length:
            try:
                changes.set_length(place, file.length)
            except OSError as fault:
                self.is_limited = True
                raise Refusal(f"it can't have {file.length} bytes: {fault.strerror}") from fault

    def _fill(self, place: int, each: Slice) -> None:
        if not each.data:
            return
        number = each.file.first + each.number
        begun_file = self._begun_files.get(each.file.id)
        if begun_file is not None and number not in begun_file.odd:   # it has come to light since the slice was taken
            self.must_search_again = self.has_skipped = True
            return
        fill(place, each.data, each.number * self.the_set.size)
        self._there.add(number)
        self.copy_count += 1
        if begun_file is not None:
            begun_file.odd.discard(number)
            if not begun_file.odd:
                del self._begun_files[each.file.id]
                self._take_up(each.file, begun_file.there)

    def refuse_begun(self) -> None:
        """Refuses the files that have other bytes in places of slices, once nothing more is searched."""
        for file in self.the_set.files:
            if file.id in self._begun_files and file.id not in self.refused_files:
                self._refuse_for_now(file, ODD)

    # The record.

    def has(self, number: int) -> bool:
        """Returns whether the slice with a number in the whole set is in its place."""
        return number in self.record.there or number in self._there

    def save(self, search: Optional[Search] = None, way: str = "") -> None:
        """Brings the slices to the disk. Then the record says that they are there, and how far the search came."""
        self.flush()
        with output.waiting("what was copied is brought to the disk"):
            self._sync()
        there = self._there - self.record.there
        if there:
            self.record.tell("slices", runs_of(there))
        for owner in self._written_files:
            if owner in self.stamps and owner not in self._begun_files:
                self.record.tell("left", owner, *self.stamps[owner])
        self._there, self._written_files, self._folders, self._levels = set(), {}, set(), 0
        if self.must_search_again:
            self.record.tell("again")
        elif search is not None:
            self.record.tell("at", way, self.mark, *search.at)
        self.record.save()
        self.save_time = time.monotonic()

    def _sync(self) -> None:
        if len(self._written_files) + self._levels > MANY:
            with faults_of("write in", self.folder.shown):
                changes.sync_all(self.folder.place)
            return
        for file in self._written_files.values():
            with contextlib.suppress(OSError), contextlib.ExitStack() as stack:     # (if it has gone meanwhile)
                place = self.folder.open_to_read(file.name)
                stack.callback(os.close, place)
                if stat.S_ISREG(os.fstat(place).st_mode):
                    with faults_of("write", file.shown):
                        changes.sync(place)
        for path in sorted(self._folders):
            with faults_of("write in", self.folder.shown):
                if path:
                    self.folder.sync_folders(path, path.count(b"/") + 1)
                else:
                    changes.sync_folder(self.folder.place)


def _end_if_disk_fails(fault: OSError, file: Member) -> None:
    """Ends the command if a file can't be made because of the disk, and not because of what is in its place."""
    if fault.errno in (errno.ENOSPC, errno.EDQUOT, errno.EROFS, errno.EIO):
        raise Fault(FILES, f"cannot write {file.shown}: {fault.strerror}") from fault
