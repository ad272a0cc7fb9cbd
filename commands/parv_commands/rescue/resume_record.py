"""The record of a rescue, in a file of lines in its folder: which files it makes, which slices are in their places, how
the files were left, and how far each list of files was searched.

Each line has a seal, so that only a record that this user's runs have written in this very folder is believed. Of
another one, such as that of a copied folder, only the ID of its set is read; then the files are known by their content.
"""

from __future__ import annotations

import copy
import fcntl
import os
import re
import stat
from typing import Dict, Iterable, List, NamedTuple, Optional, Set, Tuple

from ..common import changes, output_and_progress as output, records_of_this_user
from ..common.faults import FILES, USAGE, Fault, faults_of
from ..common.names import shown
from ..common.opened_folder import Folder
from ..common.records_of_this_user import Chain
from ..common.search import Place

NAME, NEW = b".parv-rescue", b".parv-rescue.new"
KEPT_NAME = b"parv-rescue.kept"
KIND = b"parv-rescue"     # of seals
_LONGEST_HEAD = 200         # the most bytes in the first line
_HEAD = re.compile(rb"parv-rescue [0-9]+ ([0-9a-f]{32})( [^\n]*)?")


class Stamp(NamedTuple):
    """How a run has left a file: its inode, and the time of its last change, also of a name or a mode."""
    inode: int
    change_time: int


def stamp_of(now: os.stat_result) -> Stamp:
    return Stamp(now.st_ino, now.st_ctime_ns)


def runs_of(numbers: Iterable[int]) -> str:
    """Returns numbers as the record has them: `3-5 7` for 3, 4, 5 and 7."""
    runs: List[Tuple[int, int]] = []
    for number in sorted(numbers):
        if runs and runs[-1][1] == number - 1:
            runs[-1] = runs[-1][0], number
        else:
            runs.append((number, number))
    return " ".join(str(first) if first == last else f"{first}-{last}" for first, last in runs)


def numbers_of(runs: Iterable[str]) -> Set[int]:
    numbers: Set[int] = set()
    for run in runs:
        first, _, last = run.partition("-")
        numbers.update(range(int(first), int(last or first) + 1))
    return numbers


def is_in(folder: Folder) -> bool:
    """Returns whether a folder has a record, or a run was ended while it made one."""
    return not folder.is_free(NAME) or not folder.is_free(NEW)


class Record:
    """The record of a folder for the set with an ID. While it is open, no other run can open it.

    `made_files` has the IDs of files that runs have made, or were about to make. If it `is_copy`, there may be more of
    them.
    """

    def __init__(self, folder: Folder, owner: str) -> None:
        self.folder = folder
        self.head = f"parv-rescue 2 {owner}"
        self.made_files: Set[str] = set()
        self.there: Set[int] = set()
        self.stamps: Dict[str, Stamp] = {}
        self.places: Dict[Tuple[str, str], Place] = {}
        self.is_copy = False
        self.news: List[str] = []
        self.end = 0
        is_unnamed = folder.is_free(NAME) and not folder.is_free(NEW)   # (a run was ended before it named a new one)
        name = NEW if is_unnamed else NAME
        self.place = self._open(name, folder.is_free(name))
        lines = self._lines()
        if lines is None:
            self._refuse_other_set()
        if is_unnamed:
            self._name_new()
        if lines is None:
            self._set_aside()
        else:
            self._remove_other_name()
            if not self.end:
                self._begin([self.head])
                self._sync_folder()
        for number, line in enumerate(lines or [], 2):
            try:
                self._take(*line.split(" "))
            except (TypeError, ValueError) as fault:
                raise Fault(FILES, f"line {number} of {self.shown} is damaged") from fault

    def _open(self, name: bytes, makes: bool) -> int:
        """Opens a record, and keeps other runs out."""
        self.shown = self._shown(name)
        with faults_of("open", self.shown):
            place = changes.open_file(self.folder.place, name, makes)
        if not stat.S_ISREG(os.fstat(place).st_mode):
            raise Fault(FILES, f"{self.shown} is no file")
        try:
            fcntl.flock(place, fcntl.LOCK_EX | fcntl.LOCK_NB)
        except BlockingIOError as fault:
            raise Fault(USAGE, f"another run is at work in {self.folder.shown}") from fault
        except OSError as fault:
            raise Fault(FILES, f"cannot lock {self.shown}: {fault.strerror}") from fault
        return place

    def _has_other_name(self) -> bool:
        """Returns whether the record also has the name under which one is made. (A file gets another name by two calls
        on some file systems, and a run may have been ended between them. Others count one name more while a file is
        open.)"""
        now = self.folder.look(NEW)
        return now is not None and os.path.samestat(now, os.fstat(self.place))

    def _remove_other_name(self) -> None:
        """Removes the name under which this user's own record was made."""
        if self._has_other_name():
            with faults_of("write in", self.folder.shown):
                changes.remove_file(self.folder.place, NEW)

    # One that isn't this user's own.

    def _set_aside(self) -> None:
        """Gives the record another name, once there is a new one. (If a run was ended while it did that, and the folder
        was copied then, the new one isn't this user's own either, or is the record itself.)"""
        if self._has_other_name():
            self._keep(NEW)
        old, self.place = self.place, self._open(NEW, True)
        try:
            if self._lines() is None:
                os.close(self.place)
                self._keep(NEW)
                self.place = self._open(NEW, True)
            self._begin([self.head, "copy"])
            self._sync_folder()
            self._keep(NAME)
            self._name_new()
        finally:
            os.close(old)
        self.is_copy = True

    def _keep(self, name: bytes) -> None:
        """Gives one that isn't this user's own a name under which it is kept."""
        new_name = self.folder.free_name(KEPT_NAME)
        self._rename(name, new_name)
        output.say(f"{self._shown(name)} isn't shown to be of a run of yours in this folder, which may be a copy: it "
                   f"is now {shown(new_name)}, and the files are read again")

    def _name_new(self) -> None:
        self._rename(NEW, NAME)
        self._sync_folder()
        self.shown = self._shown(NAME)

    def _rename(self, name: bytes, new_name: bytes) -> None:
        """Gives a record another name, which isn't used."""
        with faults_of("rename", self._shown(name)):
            changes.move_entry(self.folder.place, name, new_name)

    # Reading and writing lines.

    def _begin(self, lines: List[str]) -> None:
        """Brings the first lines to the disk, and the secret of the seals before them. Of these lines, the record may
        have a part already, if it has no other name, by which it may be a file of the user."""
        if os.fstat(self.place).st_nlink != 1:
            raise Fault(FILES, f"{self.shown} is a link")
        self.chain = Chain(records_of_this_user.seal_to_write(KIND, self.folder.place, self.place))
        data = b"".join(self.chain.line(line.encode()) for line in lines)
        with faults_of("write", self.shown):
            changes.write_at(self.place, data, 0)
            changes.sync(self.place)
        self.end = len(data)

    def _shown(self, name: bytes) -> str:
        return f"{self.folder.shown}/{shown(name)}"

    def _sync_folder(self) -> None:
        with faults_of("write in", self.folder.shown):
            changes.sync_folder(self.folder.place)

    def _first_line(self) -> Tuple[bytes, bytes]:
        """Returns the beginning of the record up to its first line feed, and that line feed, if it comes soon."""
        with faults_of("read", self.shown):
            first, line_feed, _ = os.pread(self.place, _LONGEST_HEAD, 0).partition(b"\n")
        return first, line_feed

    def _refuse_other_set(self) -> None:
        """Ends the command if the record, which isn't this user's own, is of another set."""
        first, line_feed = self._first_line()
        about = _HEAD.fullmatch(first)
        if not line_feed or about is None or about[1].decode() != self.head[-32:]:
            raise Fault(USAGE, f"{self.shown} is of another set")

    def _lines(self) -> Optional[List[str]]:
        """Returns the lines after the first if the record is of a run of this user in this folder, and otherwise
        None."""
        self.end = 0
        first, line_feed = self._first_line()
        seal, is_cut = records_of_this_user.seal_to_read(KIND, self.folder.place, self.place), not first
        if seal is not None:
            self.chain = Chain(seal)
            whole = self.chain.line(self.head.encode())
            if first + line_feed == whole:
                return self._lines_from(len(whole))
            is_cut = whole.startswith(first)
        # (A run may have been ended while it wrote the first line, before it made any file.)
        return [] if is_cut and not line_feed else None

    def _lines_from(self, at: int) -> List[str]:
        """Returns the lines from an offset on, up to the first one without its seal. A run may have been ended while it
        wrote that one. If more follows, lines may be lost, so the files are known by their content."""
        with faults_of("read", self.shown):
            data = os.pread(self.place, os.fstat(self.place).st_size, 0)
        lines: List[str] = []
        while at < len(data):
            end = data.find(b"\n", at)
            text = self.chain.take(data[at:end]) if end >= 0 else None
            if text is None:
                break
            lines.append(text.decode("ascii", "replace"))
            at = end + 1
        self.end = at
        if at < len(data):
            with faults_of("write", self.shown):
                changes.set_length(self.place, at)
            if b"\n" in data[at:]:
                self.news.append("copy")
                lines.append("copy")
        return lines

    def _take(self, kind: str, *fields: str) -> None:
        """Takes a line."""
        if kind == "making":
            self.made_files.update(fields)
        elif kind == "copy":
            self.is_copy = True
        elif kind == "slices":
            self.there |= numbers_of(fields)
        elif kind == "lost":
            self.there -= numbers_of(fields)
            self.places.clear()
        elif kind == "left":
            owner, inode, change_time = fields
            self.stamps[owner] = Stamp(int(inode), int(change_time))
        elif kind == "at":
            way, mark, file, offset, number = fields
            self.places[way, mark] = (int(file), int(offset), int(number))
        elif kind == "again":
            self.places.clear()
        else:
            raise ValueError(kind)

    def tell(self, *words: object) -> None:
        """Adds a line, which is written when the record is saved next."""
        text = " ".join(map(str, words))
        self._take(*text.split(" "))
        self.news.append(text)

    def save(self) -> None:
        """Brings the new lines to the disk."""
        if self.news:
            chain = copy.copy(self.chain)       # (if the lines can't be written now, they may be later)
            data = b"".join(chain.line(text.encode("ascii")) for text in self.news)
            with faults_of("write", self.shown):
                changes.write_at(self.place, data, self.end)
                changes.sync(self.place)
            self.chain, self.end, self.news = chain, self.end + len(data), []
