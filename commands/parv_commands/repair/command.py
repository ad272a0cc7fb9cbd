"""parv-repair: makes the files of a set complete, and loses nothing."""

from __future__ import annotations

import argparse
import contextlib
import fcntl
import os
import re
from typing import Iterator, List, NamedTuple, Optional, Tuple

from ..common import arguments, output_and_progress as output, programs, signals
from ..common.faults import FILES, POSSIBLE, Fault, NoProgram, Refusal
from ..common.names import shown
from ..common.opened_folder import Folder
from ..common.output_and_progress import Report
from ..common.parv import Links, temporary_folder
from ..common.programs import Program
from . import work_folder
from .carry_out import carry_out
from .plan import plan_of
from .run_par2 import needed_par2
from .situation import Inspection, Situation

_NUMBERED = re.compile(rb".+\.[1-9][0-9]*", re.DOTALL)

DESCRIPTION = """\
Restores the files of the PAR2 set in FOLDER: renames intact files that have
wrong names, rebuilds damaged and missing ones with par2, and verifies the
result. The last line is `complete` if all files are. The first of these calls
only shows what the second one would do:

  parv-repair --dry-run download
  parv-repair download

No bytes that were in the folder are lost, and none that you put there
meanwhile: a damaged file is kept as NAME.1. You may interrupt a run at any
time; the next one completes its moves or undoes them.
"""
EPILOG = """\
exit status:
  0  all files were verified and are complete
  1  a repair can be tried (with --dry-run only)
  2  too few slices are left for a repair
  3  usage error, no packet file, or several sets and no --set
  4  no usable set, or a set that is refused
  5  par2 failed
  6  undecided, or a file can't be read, made or moved, or parv can't be run
  8  out of memory
PARV and PAR2 name the programs if they aren't in PATH. See man parv-repair.
"""


class Options(NamedTuple):
    """The folder and options of the command line."""
    folder: bytes
    dry_run: bool
    remove_backups: bool
    set_id: Optional[str]


@contextlib.contextmanager
def lock(folder: Folder) -> Iterator[None]:
    """Keeps other runs out of a folder. (Programs that are run don't inherit the lock.)"""
    lock = os.open(b".", os.O_RDONLY | os.O_DIRECTORY | os.O_CLOEXEC, dir_fd=folder.place)
    try:
        try:
            fcntl.flock(lock, fcntl.LOCK_EX | fcntl.LOCK_NB)
        except BlockingIOError as fault:
            raise Fault(FILES, "another run is at work") from fault
        yield
    finally:
        os.close(lock)


def _recover(folder: Folder, is_trial: bool, report: Report) -> bool:
    """Finishes or undoes what an ended run was doing; a trial only says it. Returns whether anything was there."""
    if is_trial:
        work_folder.say_of_earlier(folder, report)
        return False
    with output.waiting("a run that was ended is finished"):
        return work_folder.recover(folder, report)


def _report_earlier_backups(inspection: Inspection) -> None:
    """Says which files an earlier run may have kept. They stay, since nobody knows who put them there."""
    members = {file.name for file in inspection.the_set.files}
    backups = [path for path in sorted(inspection.verification.files.there) if path not in members
            and _NUMBERED.fullmatch(path) and path.rpartition(b".")[0] in members]
    if backups:
        more = f" and {len(backups) - 1} more like it" if len(backups) > 1 else ""
        inspection.report(f"--remove-backups removes only what its own run has kept: {shown(backups[0])}{more} may "
                          "be of an earlier one, and can be removed by rm")


def _trial(inspection: Inspection, situation: Situation) -> Tuple[int, List[str]]:
    """Returns the exit status and the lines of a run that only says what it would do."""
    with output.doing("equal files are compared"):
        plan = plan_of(situation)
    if situation.repairs:
        try:
            needed_par2()
        except NoProgram as fault:
            inspection.report(f"par2 will be needed: {fault}")
    return POSSIBLE, [*plan.lines, f"a repair can be tried: {situation.counts}"]


def _repair(options: Options, folder: Folder, program: Program, removes_backups: bool) -> Tuple[int, List[str]]:
    """Looks at the folder, and does what is to be done. Returns the exit status, and the lines that say it."""
    most_open = programs.raise_file_limit()
    with temporary_folder() as temporary, contextlib.closing(
            Inspection(folder, program, Links(temporary, (folder.place,)), most_open, options.set_id)) as inspection:
        state = inspection.state()
        if state.is_complete:
            inspection.report_unread()
            if removes_backups:
                _report_earlier_backups(inspection)
            return 0, ["complete"]
        situation = inspection.situation(state)
        inspection.report_unread()
        if options.dry_run:
            return _trial(inspection, situation)
        return 0, carry_out(inspection, situation, removes_backups)


def _run(options: Options, folder: Folder, program: Program) -> Tuple[int, List[str]]:
    def report(text: str) -> None:
        output.say(f"{folder.shown}: {text}")
    with lock(folder):
        removes_backups = options.remove_backups
        if _recover(folder, options.dry_run, report) and removes_backups:
            report("so --remove-backups removes nothing")   # a backup may be a file that somebody has written since
            removes_backups = False
        return _repair(options, folder, program, removes_backups)


def repair(options: Options) -> int:
    """Runs the command, and returns its exit status."""
    program = arguments.needed_parv()
    folder = Folder.open(options.folder)
    try:
        status, lines = _run(options, folder, program)
    except Fault as fault:
        raise Fault(fault.status, f"{folder.shown}: {fault}") from fault
    except (OSError, Refusal) as fault:
        why = fault.strerror if isinstance(fault, OSError) else fault
        raise Fault(FILES, f"{folder.shown}: {why}") from fault
    signals.forget_signals()
    output.tell(lines)
    return status


def parser() -> arguments.Parser:
    reader = arguments.Parser("parv-repair", DESCRIPTION, EPILOG)
    reader.add_argument("folder", metavar="FOLDER",
                        help="the folder with the packet files and the files of the set, which may be in subfolders")
    reader.add_argument("--dry-run", action="store_true", help="print what a run would do, and change nothing")
    reader.add_argument("--remove-backups", action="store_true",
                        help="at the end, remove the damaged files that this run has kept")
    reader.add_argument("--set", metavar="ID", type=arguments.set_id_of, help=arguments.CHOSEN_SET)
    return reader


def run(reader: arguments.Parser, words: argparse.Namespace) -> int:
    if not words.folder:
        reader.error("missing argument: FOLDER")
    return repair(Options(os.fsencode(words.folder), words.dry_run, words.remove_backups, words.set))


def main() -> int:
    return arguments.run_with_arguments(parser, run)
