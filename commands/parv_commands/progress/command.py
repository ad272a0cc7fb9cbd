"""parv-progress: runs parv, and shows on a terminal how much it has read, the most that it can read, and how fast it
reads."""

from __future__ import annotations

import argparse
import os
import signal
import sys
from typing import Callable, List, NoReturn

from ..common import arguments, output_and_progress as output, programs, signals
from ..common.faults import FILES, NoProgram
from ..common.parv import most_read
from ..common.programs import Program

COMMANDS = ("find", "verify")

DESCRIPTION = """\
Runs parv and shows on a terminal how much it has read, how much it reads at
most, and how fast. The output and the exit status are those of parv.

  parv-progress verify -B . ./*
"""
EPILOG = """\
-h works only as the first argument: all others are read by parv.

While parv reads, a line on standard error is updated twice a second:
  123 MiB of at most 4567 MiB, 89 MiB/s
The second number is a limit. It counts each packet file three times, and each
other file once for `find`, and twice for `verify` or three times with --tails.
parv usually reads less; nothing is skipped by that.

If standard error isn't a terminal, nothing is shown. Nor is it if `find` prints
its matches on a terminal, since these show how far it is.

exit status (that of parv, and also):
  3  usage error: the first argument isn't find or verify
  6  a file can't be read, the output can't be written, or parv can't be run
PARV names the program if it isn't in PATH. See man parv-progress.
"""


def _is_terminal(number: int) -> bool:
    try:
        return os.isatty(number)
    except OSError:
        return False


def _become(program: Program, words: List[bytes]) -> NoReturn:
    """Runs parv in place of this command."""
    for number in signal.SIGPIPE, signal.SIGXFSZ:     # Python ignores these; parv must not
        signal.signal(number, signal.SIG_DFL)
    signals.end_if_signalled()
    try:
        os.execve(program.path, [os.fsencode(program.path), *words], programs.environment())
    except OSError as fault:
        raise NoProgram(FILES, f"cannot run {program.shown}: {fault.strerror}") from fault


def _show(program: Program, words: List[bytes]) -> int:
    """Runs parv, shows how far it is, and returns its exit status."""
    is_terminal = _is_terminal(1)
    options = words[:words.index(b"--")] if b"--" in words else words
    times = 1 if words[0] == b"find" else 3 if b"--tails" in options else 2

    def passes(number: int) -> Callable[[bytes], None]:
        def takes(piece: bytes) -> None:
            output.stop_progress()      # (From now on, removing the line would remove output.)
            with signals.interruptible():
                output.pass_on(piece, number)
        return takes
    call = programs.Call(program, words, own=(0,) if is_terminal else (0, 1))
    with output.doing("parv", most_read(words[1:], times), True):
        status = programs.run_to_end(programs.answer_of(call, passes(1), passes(2))).status
    return status if status >= 0 else 128 - status


def parser() -> arguments.Parser:
    """Returns the help of the command. Only parv reads its arguments, except the first one."""
    reader = arguments.Parser("parv-progress", DESCRIPTION, EPILOG)
    reader.add_argument("command", metavar="|".join(COMMANDS), choices=COMMANDS, help="the command of parv")
    reader.add_argument("words", metavar="ARGUMENTS", nargs=argparse.REMAINDER,
                        help="its options and files")
    return reader


def main() -> int:
    def run() -> int:
        words = list(map(os.fsencode, sys.argv[1:]))
        if words[:1] in ([b"-h"], [b"--help"]):
            parser().print_help()
            return 0
        if not words or words[0] not in map(os.fsencode, COMMANDS):
            parser().error("the first argument must be find or verify")
        program = arguments.needed_parv()
        programs.raise_file_limit()
        if not output.can_show_progress() or words[0] == b"find" and _is_terminal(1):
            _become(program, words)
        return _show(program, words)
    return arguments.run_command("parv-progress", run)
