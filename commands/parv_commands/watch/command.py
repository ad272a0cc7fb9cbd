"""parv-watch: verifies a folder in which files of a set are still arriving, again and again, until all are complete."""

from __future__ import annotations

import argparse
import contextlib
import os
import re
import time
from typing import NamedTuple, Optional, Sequence, Tuple

from ..common import arguments, output_and_progress as output, programs, signals
from ..common.faults import FILES, IMPOSSIBLE, MEMORY, POSSIBLE, USAGE, Fault, NoProgram
from ..common.opened_folder import Folder
from ..common.parv import Links, Parv, temporary_folder
from ..common.programs import Program, run_to_end
from ..common.state_of_set import FolderWords, SetState, Verification, packet_files_of, text_of

COMPLETE = 0
SECONDS = 60.0      # seconds from one check to the next

DESCRIPTION = """\
Verifies FOLDER again and again until all files of its PAR2 set are complete,
for example during a download. It prints a line for each check, and changes
nothing.

  parv-watch download
"""
EPILOG = """\
Each check reads all files in FOLDER and in the subfolders of the set.

exit status (of the last check):
  0  all files are complete
  1  a repair can be tried
  2  too few slices are there for a repair
  3  usage error, or no packet file
  4  no usable set, or --tails and short slices of more than 256 lengths
  6  a file can't be read, a line can't be written, or parv can't be run
  8  out of memory; no check follows
PARV names the program if it isn't in PATH. See man parv-watch.
"""


class Options(NamedTuple):
    """The folder and options of the command line. Without a number of checks, they go on until all files are
    complete."""
    folder: bytes
    tails: bool
    seconds: float
    checks: Optional[int]


def state_of(folder: Folder, program: Program, tails: bool, most_open: int) -> SetState:
    """Returns the state of the first set in a folder now."""
    with temporary_folder() as temporary:
        parv = Parv(program, Links(temporary, (folder.place,)))
        words, packet_files = FolderWords(folder, parv), packet_files_of(folder)
        if not packet_files.names:
            raise Fault(USAGE, "no packet file")
        packet_words = [words.word_of(name, True) for name in packet_files.names]
        the_set = run_to_end(parv.set(packet_words, None))
        verification = Verification(words, the_set, packet_words, most_open, output.say)
        state = run_to_end(verification.state(tails))
        return state._replace(unread={**packet_files.unread, **state.unread})


def line_of(state: SetState) -> str:
    """Returns the line about a check."""
    if state.status == POSSIBLE:
        return f"a repair can be tried: {state.verdict.counts}"
    if state.status == IMPOSSIBLE:
        return f"not enough for a repair: {state.verdict.counts}"
    if state.status == FILES:
        return (f"can't tell whether enough is there for a repair: {state.verdict.counts}; not looked at: "
                f"{text_of(state.unread)}")
    return "complete"


def check(folder: Folder, program: Program, tails: bool, most_open: int) -> Tuple[int, str]:
    """Makes a check, and returns its exit status and its line. If the next check may end differently, it doesn't end
    the command."""
    try:
        state = state_of(folder, program, tails, most_open)
        return state.status, line_of(state)
    except NoProgram:
        raise
    except Fault as fault:
        if fault.status == MEMORY:
            raise
        return fault.status, f"nothing to tell yet: {fault}"


def watch(options: Options) -> int:
    """Runs the command, and returns its exit status."""
    program = arguments.needed_parv()
    most_open = programs.raise_file_limit()
    count = 0
    with contextlib.closing(Folder.open(options.folder)) as folder:
        while True:
            status, line = check(folder, program, options.tails, most_open)
            output.tell([line])
            count += 1
            if status == COMPLETE or count == options.checks:
                return status
            with signals.interruptible():
                time.sleep(options.seconds)


def options_of(folder: str, tails: bool, numbers: Sequence[str]) -> Optional[Options]:
    """Returns the arguments, or None if SECONDS and CHECKS aren't numbers."""
    if numbers and not re.fullmatch(r"([0-9]{1,9}(\.[0-9]{0,9})?|\.[0-9]{1,9})", numbers[0], re.ASCII):
        return None
    if len(numbers) > 1 and not re.fullmatch("[1-9][0-9]{0,17}", numbers[1], re.ASCII):
        return None
    return Options(os.fsencode(folder), tails, float(numbers[0]) if numbers else SECONDS,
                 int(numbers[1]) if len(numbers) > 1 else None)


def parser() -> arguments.Parser:
    reader = arguments.Parser("parv-watch", DESCRIPTION, EPILOG)
    reader.add_argument("folder", metavar="FOLDER", help="the folder into which the files come")
    reader.add_argument("seconds", metavar="SECONDS", nargs="?", help="the time between two checks (default: 60)")
    reader.add_argument("checks", metavar="CHECKS", nargs="?",
                        help="how many checks to make at most (default: no limit)")
    reader.add_argument("--tails", action="store_true", help=arguments.TAILS)
    return reader


def run(reader: arguments.Parser, words: argparse.Namespace) -> int:
    if not words.folder:
        reader.error("missing argument: FOLDER")
    options = options_of(words.folder, words.tails, [number for number in (words.seconds, words.checks)
                                                     if number is not None])
    if options is None:
        reader.error("SECONDS is a number such as 60 or 0.5, and CHECKS a whole number from 1 on")
    return watch(options)


def main() -> int:
    return arguments.run_with_arguments(parser, run)
