"""The work folder: the folder in which a repair works, below the one that it repairs. Until the moves, par2 has its
links and its results there. While names change, the journal is there.

A folder may come from anyone, with a work folder in it. So the file `owner` and the journal have seals, and a work
folder without the right ones is set aside: nothing in it is followed or removed.
"""

from __future__ import annotations

import contextlib
import errno
import os
import stat
from typing import Iterable, Iterator, List, NamedTuple, Optional

from ..common import changes, records_of_this_user
from ..common.faults import FILES, Fault, Refusal, faults_of
from ..common.names import shown
from ..common.opened_folder import Folder
from ..common.output_and_progress import Report
from ..common.records_of_this_user import Seal
from . import journal
from .journal import ASIDE, Moves, Step

NAME = b".parv-repair"
KEPT = b"parv-repair.kept"
OWNER, JOURNAL, NEW = b"owner", b"journal", b"journal.new"
FILES_OF_PAR2, MADE = b"files", b"made"
PARTS = (FILES_OF_PAR2, MADE, ASIDE)
_OWNED = b"parv-repair 2\n"
_MOST_OWNER = len(_OWNED) + records_of_this_user.MARK + 1
_NO_TEXT = b"?"
_CLOSED = (errno.ENOTDIR, errno.ELOOP, errno.EACCES, errno.EPERM, errno.ENXIO, errno.ENODEV)
_EARLIER = b".verify_and_repair"        # what the script of version 0.4.0, which parv-repair has replaced, has left
EARLIER_KEPT = b"verify_and_repair.kept"


def path_of(*parts: bytes) -> bytes:
    """Returns the path of something in the work folder, from the folder that is repaired."""
    return b"/".join([NAME, *parts])


def name_for(number: int) -> bytes:
    """Returns the name by which par2 knows the file of the set with this number. (A name of one letter makes par2
    0.8.1 end.)"""
    return b"file%d" % number


class WorkFolder:
    """The work folder of a folder, while it exists. The secret is that of the user, if there is one."""

    def __init__(self, folder: Folder, secret: Optional[bytes], say: Report) -> None:
        self.folder, self.secret, self.say = folder, secret, say
        self.inner: Optional[Folder] = None

    @property
    def inside(self) -> Folder:
        if self.inner is None:
            self.inner = self.folder.inner(NAME)
        return self.inner

    def close(self) -> None:
        if self.inner is not None:
            self.inner.close()
            self.inner = None

    def _seal(self, kind: bytes) -> Optional[Seal]:
        """Returns the seal for a file of the work folder: of this user, this folder and this work folder."""
        if self.secret is None:
            return None
        return Seal(self.secret, b"parv-repair " + kind, self.folder.place, self.inside.place)

    def record_of(self, kind: bytes, text: bytes) -> bytes:
        """Returns what a file of the work folder with this text has, or nothing without a secret."""
        seal = self._seal(kind)
        return b"" if seal is None else seal.record_of(text)

    def make(self) -> None:
        with faults_of("write in", self.folder.shown):
            changes.make_folder(self.folder.place, NAME, 0o700)
            with changes.new_file(self.inside.place, OWNER) as opened:
                changes.write(opened, self.record_of(OWNER, _OWNED))
                changes.sync(opened)
            for name in PARTS:
                changes.make_folder(self.inside.place, name)

    def is_own(self) -> bool:
        """Returns whether a run of this user has made the work folder, in this folder: whether its owner has the right
        mark. (A run may have been ended before it had written all of that.)"""
        owner = self.record_of(OWNER, _OWNED)
        text: Optional[bytes] = None
        with contextlib.suppress(FileNotFoundError):
            text = self._read(OWNER, _MOST_OWNER)
        if owner and text == owner:
            return True
        names = self.inside.names()
        return not names or (len(names) == 1 and bool(owner) and text is not None and owner.startswith(text))

    def _read(self, name: bytes, most: int) -> bytes:
        """Returns the bytes of a file in the work folder, or none of one that no run has made."""
        try:
            return journal.read_file(self.inside, name, most)
        except Refusal:
            return _NO_TEXT
        except OSError as fault:
            if fault.errno not in _CLOSED:
                raise
            return _NO_TEXT

    # The journal.

    def note(self, steps: List[Step], made: Iterable[bytes]) -> None:
        """Writes the journal, after the files that were made are on the disk. Their paths start at the folder."""
        with faults_of("write in", self.folder.shown):
            for name in made:
                opened = self.folder.open_to_read(name)
                try:
                    changes.sync(opened)
                finally:
                    os.close(opened)
            with self._naming_journal(), changes.whole_file(self.inside.place, JOURNAL, NEW) as opened:
                changes.write(opened, self.record_of(JOURNAL, journal.encode(steps)))
            changes.sync_folder(self.folder.place)

    @contextlib.contextmanager
    def _naming_journal(self) -> Iterator[None]:
        """Says why the journal can't get its name. It is moved as the files of the folder will be, so this ends the run
        first where none can be moved."""
        try:
            yield
        except OSError as fault:
            if fault.errno not in changes.NO_LINK:
                raise
            raise Fault(FILES, f"cannot move a file in {self.folder.shown}: {fault.strerror}: this file system has no "
                               "links, by which a file gets a name without the danger of replacing another one; copy "
                               "the folder to another one, and repair it there") from fault

    def forget(self) -> None:
        """Removes the journal, after all moves."""
        with faults_of("write in", self.folder.shown):
            changes.remove_file(self.inside.place, JOURNAL)
            changes.sync_folder(self.inside.place)

    def moves(self) -> Optional[Moves]:
        """Returns the moves that a run has recorded here, or None if it didn't get that far. A journal without the
        right mark is refused."""
        if self.inside.look(JOURNAL) is None:
            return None
        seal = self._seal(JOURNAL)
        text = None if seal is None else seal.text_of(self._read(JOURNAL, journal.MOST + records_of_this_user.MARK + 1))
        if text is None:
            raise Refusal("it isn't the journal of a run here")
        return Moves(self.folder, NAME, journal.decode(text), self.say)

    # Its end.

    def _clear_folder(self, name: bytes) -> None:
        """Removes a folder of the work folder with the files and links in it. Folders in it stay."""
        with contextlib.suppress(FileNotFoundError), contextlib.closing(self.inside.inner(name)) as inner:
            for entry, now in inner.entries().items():
                if not stat.S_ISDIR(now.st_mode):
                    changes.remove_file(inner.place, entry)
            self._remove_if_empty(name)

    def _remove_if_empty(self, name: bytes) -> None:
        try:
            changes.remove_folder(self.inside.place, name)
        except OSError as fault:
            if fault.errno not in (errno.ENOTEMPTY, errno.ENOENT):
                raise

    def clear(self) -> None:
        """Removes the work folder, once all files of the folder have left it. What no run has made is kept."""
        with faults_of("remove what is in", f"{self.folder.shown}/{shown(NAME)}"):
            if self.is_own():
                for name in FILES_OF_PAR2, MADE:
                    self._clear_folder(name)
                self._remove_if_empty(ASIDE)
                for name in NEW, OWNER:
                    # (The owner is removed last, and only from a work folder that has nothing else.)
                    if name in self.inside.entries() and (name == NEW or len(self.inside.entries()) == 1):
                        changes.remove_file(self.inside.place, name)
            if not self.inside.entries():
                changes.remove_folder(self.folder.place, NAME)
            else:
                self._keep()
        self.close()

    def _keep(self) -> None:
        name = self.folder.free_name(KEPT)
        changes.move_entry(self.folder.place, NAME, name)
        self.say(f"what was in {shown(NAME)} isn't of a run in this folder, and is kept as {shown(name)}")


def is_there(folder: Folder) -> bool:
    """Returns whether a run was ended here, or something else has the name of the work folder."""
    return not folder.is_free(NAME)


class _Left(NamedTuple):
    """What a run of this user has left: its work folder, and the moves that it has recorded, if it got that far."""
    work_folder: WorkFolder
    moves: Optional[Moves]


@contextlib.contextmanager
def _left(folder: Folder, say: Report) -> Iterator[Optional[_Left]]:
    """Opens the work folder of a folder. Yields None if it isn't shown to be of a run of this user there."""
    work_folder, is_own, moves = WorkFolder(folder, records_of_this_user.known_secret(), say), False, None
    with contextlib.closing(work_folder):
        with faults_of("open", f"{folder.shown}/{shown(NAME)}"):
            try:
                is_own = work_folder.is_own()
                moves = work_folder.moves() if is_own else None
            except Refusal:
                is_own = False
            except OSError as fault:        # a link or no folder, or one that this user can't read
                if fault.errno not in _CLOSED:
                    raise
        yield _Left(work_folder, moves) if is_own else None


def say_of_earlier(folder: Folder, say: Report) -> None:
    """Says what a run would begin with. Ends the command if that is what an ended run was doing."""
    for name in (name for name in (_EARLIER, NAME) if not folder.is_free(name)):
        if name == NAME:
            with _left(folder, say) as left:
                if left is not None:
                    raise Fault(FILES, "a run was ended here, and is finished or undone by the next without --dry-run")
        say(f"{shown(name)} isn't shown to be of a run of yours in this folder: the next run without --dry-run gives "
            "it another name, and follows nothing in it")


def recover(folder: Folder, say: Report) -> bool:
    """Finishes what an ended run of this user was doing, or takes it back, and removes the work folder. A work folder
    that isn't shown to be of one is set aside. Returns whether anything was there."""
    is_earlier = not folder.is_free(_EARLIER)
    if is_earlier:
        records_of_this_user.set_aside(folder, _EARLIER, EARLIER_KEPT, say)
    if folder.is_free(NAME):
        return is_earlier
    with _left(folder, say) as left:
        if left is None:
            records_of_this_user.set_aside(folder, NAME, KEPT, say)
        else:
            _recover(left, say)
    return True


def _recover(left: _Left, say: Report) -> None:
    work_folder, moves = left
    message = "a run was ended here, with no move left to be made"
    with faults_of("recover", f"{work_folder.folder.shown}/{shown(NAME)}"):
        if moves is not None:
            message = _deal_with(moves)
            moves.sync()
            work_folder.forget()
        work_folder.clear()
    say(message)


def _deal_with(moves: Moves) -> str:
    """Finishes the moves of an ended run, or undoes them, and returns which of the two."""
    try:
        message = "after its moves, which stay" if moves.are_made() else "and is finished"
        moves.finish()
        return f"a run was ended here{' ' if message.startswith('after') else ', '}{message}"
    except Refusal as why:
        try:
            moves.undo()
        except Fault as fault:
            raise Fault(FILES, f"{why}; {fault}; {shown(NAME)} stays, for what is to be undone: look at what is in "
                               "it, and move it out of the folder") from fault
        return f"a run was ended here, and is undone: {why}"
