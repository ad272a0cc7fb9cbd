"""Carries a repair out: makes the files that are missing, gives each file its name, and verifies the result. If that
fails, it puts everything back."""

from __future__ import annotations

import contextlib
import functools
import os
import stat
from typing import Callable, List, Optional, Sequence

from ..common import changes, names, output_and_progress as output, records_of_this_user, signals
from ..common.faults import FILES, Fault, Refusal, faults_of
from ..common.names import shown
from ..common.opened_folder import Folder, Identity, identity_of
from .journal import Moves
from .plan import Backup, Plan, plan_of
from .run_par2 import Par2Run
from .situation import Inspection, Situation, refuse_mounted
from .work_folder import JOURNAL, MADE, NAME, WorkFolder, is_there, path_of

PIECE = 1 << 20


def carry_out(inspection: Inspection, situation: Situation, removes_backups: bool) -> List[str]:
    """Makes all files complete, and returns the lines that say what was done."""
    folder = situation.folder
    work_folder = WorkFolder(folder, records_of_this_user.needed_secret(), inspection.report)
    moves: Optional[Moves] = None
    try:
        work_folder.make()
        _make_empty_files(work_folder, situation)
        if situation.repairs:
            situation = situation.with_made(Par2Run(inspection, situation, work_folder).make())
        _keep_rights(situation)
        with output.doing("equal files are compared"):
            plan = plan_of(situation)
        _copy(work_folder, plan)
        moves = _moves_of(folder, plan, inspection)
        with output.waiting("what was made is brought to the disk"):
            work_folder.note(moves.steps, plan.made())
        with output.waiting("files are moved"):
            moves.make()
        inspection.verify(plan.new_names())
        with output.waiting("what was moved is brought to the disk"), faults_of("write in", folder.shown):
            changes.sync_all(folder.place)
        removable = _removable(inspection, plan.backups) if removes_backups else []
    except Refusal as why:
        _put_back(work_folder, moves, inspection)
        raise Fault(FILES, str(why)) from why
    except BaseException:
        _put_back(work_folder, moves, inspection)
        raise
    with output.waiting("temporary files are removed"):
        work_folder.forget()
        work_folder.clear()
    removed = [backup.name for backup in removable if _remove(inspection, backup)]
    return [*plan.lines, *(f"remove {shown(name)}" for name in removed), "complete"]


def _put_back(work_folder: WorkFolder, moves: Optional[Moves], inspection: Inspection) -> None:
    """Undoes what was done, and removes the work folder. An error says what couldn't be undone."""
    if not is_there(work_folder.folder):
        return
    try:
        with output.waiting("all is put back"), contextlib.closing(work_folder):
            if moves is not None and work_folder.inside.look(JOURNAL) is not None:
                moves.undo()
                moves.sync()
                work_folder.forget()
            work_folder.clear()
    except (Fault, Refusal, OSError) as fault:
        inspection.report(f"{fault}; {shown(NAME)} stays, for the next run to finish or to undo")


# Files in the work folder.

def _make_file(work_folder: WorkFolder, name: bytes, fill: Callable[[int], None]) -> None:
    with faults_of("write in", work_folder.folder.shown), contextlib.closing(work_folder.inside.inner(MADE)) as made:
        with changes.new_file(made.place, name) as opened:
            fill(opened)


def _make_empty_files(work_folder: WorkFolder, situation: Situation) -> None:
    inside = path_of(MADE) + b"/"
    for origin in situation.origins:
        if origin.startswith(inside):
            _make_file(work_folder, origin[len(inside):], lambda opened: None)


def _copy(work_folder: WorkFolder, plan: Plan) -> None:
    """Makes the copies in a plan."""
    for copy in plan.copies:
        with output.doing(f"{shown(copy.source)} is copied", plan.there[copy.source].length or 0):
            fill = functools.partial(_fill, work_folder.folder, copy.source)
            _make_file(work_folder, names.base_of(copy.target), fill)


def _fill(folder: Folder, path: bytes, opened: int) -> None:
    """Copies a file of the folder with its times, its mode and, if that can be given, its owner."""
    source = folder.open_to_read(path)
    try:
        now = os.fstat(source)
        done = 0
        while piece := os.read(source, PIECE):
            signals.end_if_signalled()
            changes.write(opened, piece)
            done += len(piece)
            output.show_progress(done)
        _set_like(opened, now, _access_list(source))
        changes.set_times(opened, now.st_atime_ns, now.st_mtime_ns)
    finally:
        os.close(source)


def _keep_rights(situation: Situation) -> None:
    """Gives each file that was made the mode of the file that it replaces, and its owner if that can be given. So what
    was private isn't readable for others, as a file that par2 makes may be."""
    folder = situation.folder
    for file, origin in zip(situation.the_set.files, situation.origins):
        if origin in situation.there or not folder.is_file(file.name):
            continue
        with faults_of("write in", folder.shown), contextlib.ExitStack() as stack:
            before = folder.open_to_read(file.name)
            stack.callback(os.close, before)
            opened = folder.open_to_read(origin)
            stack.callback(os.close, opened)
            _set_like(opened, os.fstat(before), _access_list(before))


def _access_list(opened: int) -> bytes:
    """Returns the access control list of an open file, which is empty if there are only the rights in its mode."""
    with contextlib.suppress(OSError):
        return os.getxattr(opened, "system.posix_acl_access")
    return b""


def _set_like(opened: int, before: os.stat_result, access_list: bytes) -> None:
    """Gives a file the owner and the mode of another one. If it can't have that group, or hasn't the same access
    control list, nobody but its owner and all others gets rights: in a mode with such a list, those of the group are
    the greatest of all that it names. (The file loses the bits by which it would run as its owner.)"""
    now, mode = os.fstat(opened), stat.S_IMODE(before.st_mode) & 0o777
    if (now.st_uid, now.st_gid) != (before.st_uid, before.st_gid):
        try:
            changes.set_owner(opened, before.st_uid, before.st_gid)
        except OSError:
            if now.st_gid != before.st_gid:
                mode &= ~stat.S_IRWXG
    if stat.S_IMODE(now.st_mode) != mode:
        changes.set_mode(opened, mode)
    if mode & stat.S_IRWXG and _access_list(opened) != access_list:
        changes.set_mode(opened, mode & ~stat.S_IRWXG)


# Moves.

def _moves_of(folder: Folder, plan: Plan, inspection: Inspection) -> Moves:
    """Returns the moves of a plan. Within one file system, a move is done completely or not at all."""
    def identity(path: bytes) -> Identity:
        now = folder.look(path)
        if now is None or not stat.S_ISREG(now.st_mode):
            raise Refusal(f"{shown(path)} has changed meanwhile")
        return identity_of(now)
    moves = Moves(folder, NAME, plan.steps(identity), inspection.report)
    ends = [end for step in moves.moves() for end in (step.origin, step.target)]
    refuse_mounted(folder, set(map(names.above, ends)))
    for path in ends:
        # (Only now is the work folder there, so only now can another form of its name be seen.)
        why = None if moves.is_in_work_folder(path) else folder.obstacle(path, NAME)
        if why is not None:
            raise Refusal(f"{shown(path)} can't be used: {why}")
    return moves


# Backups.

def _removable(inspection: Inspection, backups: Sequence[Backup]) -> List[Backup]:
    """Returns the backups that may be removed: those that contain a slice of the file whose name they had."""
    removable: List[Backup] = []
    for backup in backups:
        if _has_slices(inspection, backup):
            removable.append(backup)
        else:
            file = inspection.the_set.files[backup.number]
            inspection.report(f"{shown(backup.name)} has no slice of {file.shown} that is found without --tails, "
                              "and stays")
    return removable


def _has_slices(inspection: Inspection, backup: Backup) -> bool:
    file = inspection.the_set.files[backup.number]
    if not file.sums or inspection.verification.files.there.get(backup.name) != backup.file:
        return False
    search = inspection.search([backup.name], set(file.numbers), False)
    with contextlib.closing(search.sightings()) as sightings:
        return next(sightings, None) is not None


def _remove(inspection: Inspection, backup: Backup) -> bool:
    """Removes a backup, if it is still the file that was kept."""
    folder = inspection.folder
    with faults_of("remove", shown(backup.name)), folder.above(backup.name) as above:
        if not backup.file.fits(folder.look(backup.name)):
            inspection.report(f"{shown(backup.name)} has changed meanwhile, and stays")
            return False
        changes.remove_file(above, names.base_of(backup.name))
        return True
