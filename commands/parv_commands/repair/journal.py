"""The journal of moves: the names that a repair is about to change. It is whole on the disk before the first move.

However a run has ended, a later one reads the journal, and finishes the moves or takes them back. It recognizes each
file by its inode, length and time. It neither moves nor removes a file that it doesn't recognize. Nothing here removes
a file, except one of two names of the same file.
"""

from __future__ import annotations

import contextlib
import errno
import os
import re
import stat
from typing import Iterator, List, NamedTuple, Optional, Sequence, Set, Union

from ..common import changes
from ..common.faults import FILES, Fault, Refusal
from ..common.names import base_of, is_plain, is_reserved, shown, with_number
from ..common.opened_folder import Folder, Identity
from ..common.output_and_progress import Report

HEAD = b"parv-repair journal 2"
END = b"end"
MOST = 1 << 28          # the greatest number of bytes in a journal
PIECE = 1 << 20
ASIDE = b"aside"        # the folder of the work folder into which files are moved
_FIELDS = 5
_DEPTH = re.compile(rb"[1-9][0-9]{0,3}")
_NUMBERS = re.compile(rb"([0-9]{1,20}) ([0-9]{1,20}) (-?[0-9]{1,20})")     # a file may be older than 1970


class Move(NamedTuple):
    """A file gets another name. A file that is kept as a backup may get any unused name like the recorded one."""
    file: Identity
    origin: bytes
    target: bytes
    is_kept: bool = False


class Made(NamedTuple):
    """A folder is made, and those above it that aren't there: `depth` in all."""
    path: bytes
    depth: int = 1


Step = Union[Move, Made]


def encode(steps: Sequence[Step]) -> bytes:
    fields: List[bytes] = [HEAD]
    for step in steps:
        if isinstance(step, Made):
            fields += [b"folder", b"%d" % step.depth, step.path, b"", b""]
        else:
            length, changed = step.file.length, step.file.changed
            fields += [b"keep" if step.is_kept else b"move",
                       b"%d %d %d" % (step.file.inode, length or 0, changed or 0), step.origin, step.target, b""]
    data = b"".join(field + b"\0" for field in [*fields, END])
    if len(data) > MOST:
        raise Refusal("a journal of all moves would be too long")
    return data


def decode(data: bytes) -> List[Step]:
    """Returns the steps of a journal. One of another version is refused."""
    fields = data.split(b"\0")
    if fields[0] != HEAD or fields[-2:] != [END, b""] or (len(fields) - 3) % _FIELDS:
        raise Refusal("it is no journal of this version")
    steps: List[Step] = []
    for at in range(1, len(fields) - 2, _FIELDS):
        kind, about, origin, target, _ = fields[at:at + _FIELDS]
        if kind == b"folder" and _DEPTH.fullmatch(about) and int(about) <= origin.count(b"/") + 1:
            steps.append(Made(origin, int(about)))
            continue
        numbers = _NUMBERS.fullmatch(about)
        if kind not in (b"move", b"keep") or numbers is None:
            raise Refusal("it is no journal of this version")
        steps.append(Move(Identity(*map(int, numbers.groups())), origin, target, kind == b"keep"))
    return steps


def read_file(folder: Folder, name: bytes, most: int = MOST) -> bytes:
    """Returns the bytes of a file that a run has left. Anything but a regular file is refused, and so is a longer one
    than any run has left."""
    opened = folder.open_to_read(name)
    try:
        now = os.fstat(opened)
        if not stat.S_ISREG(now.st_mode):
            raise Refusal("it is no regular file")
        if now.st_size > most:
            raise Refusal("it is too long")
        data = bytearray()
        while len(data) <= most and (piece := os.read(opened, min(PIECE, most + 1 - len(data)))):
            data += piece
        return bytes(data)
    finally:
        os.close(opened)


class Moves:
    """The steps of a journal, and the folder in which they are made. `work_folder` contains the files of the command
    itself. Steps that no run makes are refused."""

    def __init__(self, folder: Folder, work_folder: bytes, steps: Sequence[Step], say: Report) -> None:
        self.folder, self.work_folder, self.steps, self.say = folder, work_folder + b"/", list(steps), say
        self.by_origin = {step.origin: step for step in self.moves()}
        self.ends = {end for step in self.moves() for end in (step.origin, step.target)}
        self._refuse_wrong()

    def _refuse_wrong(self) -> None:
        """Refuses steps with a name that leads out of the folder or is kept for the commands, moves to a name from
        itself, and two steps to one name. (What is removed with the work folder is never the target of a move.)"""
        targets: Set[bytes] = set()
        for step in self.steps:
            name, target = (step.path, step.path) if isinstance(step, Made) else (step.origin, step.target)
            for end, inside in (name, self.work_folder), (target, self.work_folder + ASIDE + b"/"):
                is_inside = end.startswith(inside) and end.count(b"/") == 2
                if not is_plain(end) or is_reserved(end) and not is_inside:
                    raise Refusal(f"no run moves a file to {shown(end)} or from there")
            if isinstance(step, Move) and name == target or target in targets:
                raise Refusal(f"no run moves a file to {shown(target)} from itself or twice")
            targets.add(target)

    def is_in_work_folder(self, name: bytes) -> bool:
        """Returns whether a name is in the work folder, where nobody else puts files."""
        return name.startswith(self.work_folder)

    def moves(self) -> Iterator[Move]:
        return (step for step in self.steps if isinstance(step, Move))

    def has(self, move: Move, name: bytes) -> bool:
        """Returns whether the file of a move is at a name. Outside the work folder, it must be unchanged. (In the work
        folder, a program that has it open may still have written to it.)"""
        now = self.folder.look(name)
        if self.is_in_work_folder(name):
            return now is not None and stat.S_ISREG(now.st_mode) and now.st_ino == move.file.inode
        return move.file.fits(now)

    def has_two_names(self, move: Move) -> bool:
        """Returns whether the file of a move is at both names: a move that takes two calls was ended between them. (If
        it has only one link, these are one name in two forms, on a file system that doesn't tell them apart.)"""
        now, then = self.folder.look(move.origin), self.folder.look(move.target)
        return (now is not None and then is not None and os.path.samestat(now, then)
                and now.st_ino == move.file.inode and now.st_nlink > 1)

    def carry(self, name: bytes, new_name: bytes) -> None:
        """Moves a file to a name that isn't used."""
        if not is_plain(name) or not is_plain(new_name):
            raise Refusal(f"{shown(name)} isn't moved to {shown(new_name)}: one of them leads out of the folder")
        before = self.folder.look(name)
        try:
            self.folder.move(name, new_name, True)
        except OSError as fault:
            more = ""
            if fault.errno in (errno.EPERM, errno.EOPNOTSUPP):
                more = " (some file systems can't move a file without the danger of replacing another one)"
            raise Refusal(f"cannot move {shown(name)} to {shown(new_name)}: {fault.strerror}{more}") from fault
        now = self.folder.look(new_name)
        if before is not None and now is not None and not os.path.samestat(before, now):
            with contextlib.suppress(OSError):      # somebody has put another file there meanwhile
                self.folder.move(new_name, name)
            raise Refusal(f"{shown(name)} has changed meanwhile")

    def free_name(self, name: bytes) -> bytes:
        """Returns an unused name like this one, to which no step moves a file."""
        return self.folder.free_name(name, self.ends)

    def sync(self) -> None:
        """Writes the present names of files to the disk, before the journal is removed."""
        for path in sorted({end.rpartition(b"/")[0] for end in self.ends}):
            with contextlib.suppress(FileNotFoundError, NotADirectoryError):
                with self.folder.above(path + b"/" if path else b"") as place:
                    changes.sync_folder(place)
        for step in self.steps:
            if isinstance(step, Made):
                self.folder.sync_folders(step.path, step.depth)

    # Making the steps.

    def make(self) -> None:
        """Makes all steps, in the run that has just recorded them. Each must be possible exactly as recorded."""
        for step in self.steps:
            if isinstance(step, Made):
                try:
                    self.folder.make_folders(step.path, step.depth)
                except OSError as fault:
                    raise Refusal(f"cannot make the folder {shown(step.path)}: {fault.strerror}") from fault
            elif not self.has(step, step.origin):
                raise Refusal(f"{shown(step.origin)} has changed meanwhile")
            else:
                self.carry(step.origin, step.target)

    def finish(self) -> None:
        """Makes the steps that an earlier run hasn't made, unless somebody has changed their files or folders."""
        for step in self.steps:
            if isinstance(step, Made):
                if self.folder.is_free(step.path):
                    self._make_again(step.path)
            elif self.has_two_names(step):
                self._remove_name(step.origin)
            elif self.has(step, step.origin) and not self._is_done(step):
                target = step.target
                if not self.folder.is_free(target):
                    if not step.is_kept:
                        continue
                    target = self.free_name(step.origin)
                self.carry(step.origin, target)
        self.bring_out()

    def _is_done(self, step: Move) -> bool:
        """Returns whether a move was made: whether its file is at the target."""
        return step.file.fits(self.folder.look(step.target))

    def _make_again(self, path: bytes) -> None:
        try:
            with self.folder.above(path + b"/", True):
                pass
        except OSError as fault:
            raise Refusal(f"cannot make the folder {shown(path)}: {fault.strerror}") from fault

    def _remove_name(self, name: bytes) -> None:
        with self.folder.above(name) as place:
            changes.remove_file(place, base_of(name))

    # Taking the steps back.

    def undo(self) -> None:
        """Takes the steps back, the last one first."""
        failed: List[str] = []
        for step in reversed(self.steps):
            if isinstance(step, Made):
                self.folder.remove_folders(step.path, step.depth)
                continue
            try:
                self._undo_move(step)
            except Refusal as why:
                failed.append(str(why))
        try:
            self.bring_out()
        except Refusal as why:
            failed.append(str(why))
        if failed:
            raise Fault(FILES, failed[0])

    def _undo_move(self, step: Move) -> None:
        if self.has_two_names(step):
            self._remove_name(step.target)
            return
        end = self._end_of(step)
        if not self.has(step, end):
            now = self.folder.look(end)
            if now is not None and now.st_ino == step.file.inode:
                self.say(f"{shown(end)} has changed since, and stays")
            return
        if self.is_in_work_folder(step.origin) and not self._can_return(end):
            return
        if self.folder.is_free(step.origin):
            self.carry(end, step.origin)
        elif not self.is_in_work_folder(end):
            self.say(f"{shown(end)} stays: there is another file at {shown(step.origin)}")

    def _end_of(self, step: Move) -> bytes:
        """Returns the name that the file of a move has got. A backup may have got another number."""
        number, end = 1, step.target
        if self.has(step, step.origin):         # (it hasn't been moved, and many names may be alike)
            return end
        while step.is_kept and not self.has(step, end):
            end = with_number(step.origin, number)
            if end not in self.ends and self.folder.is_free(end):
                return step.target
            number += 1
        return end

    def _can_return(self, name: bytes) -> bool:
        """Returns whether the file that was at a name can get it back: no file was there, or one or two moves have
        taken it away."""
        left = self.by_origin.get(name)
        if left is None or self.has(left, self._end_of(left)):
            return True
        further = self.by_origin.get(left.target)
        return further is not None and self.has(further, further.target)

    # Files that are left in the work folder.

    def bring_out(self) -> None:
        """Moves each file of the folder out of the work folder: to its new name, to its old one, or to an unused name
        like these."""
        for into in self.moves():
            if not self.is_in_work_folder(into.target) or not self.has(into, into.target):
                continue
            further = self.by_origin.get(into.target)
            names = [*([further.target] if further else []), into.origin]
            free: Optional[bytes] = next((name for name in names if self.folder.is_free(name)), None)
            if free is None:
                free = self.free_name(into.origin)
                self.say(f"{shown(into.origin)} is kept as {shown(free)}")
            self.carry(into.target, free)

    def are_made(self) -> bool:
        """Returns whether no step is left to be made: no file is still at the beginning of its move."""
        return not any(self.has(step, step.origin) and not self._is_done(step) for step in self.moves())

