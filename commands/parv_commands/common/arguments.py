"""Reads the arguments of a command, prints its help, and begins and ends it."""

from __future__ import annotations

import argparse
import os
import re
import sys
import traceback
from typing import Any, Callable, NoReturn, Optional

from . import output_and_progress as output, programs, signals
from .faults import FILES, MEMORY, USAGE, Fault
from .names import shown
from .programs import Program

WIDTH = 80
# The help of arguments that several commands have.
SEARCHED = "packet files of the set, and files to search (only read)"
TAILS = "also find short slices that other bytes follow, as in an image"
CHOSEN_SET = "choose this set, if the packet files have several"
_REQUIRED = "the following arguments are required: "     # as argparse begins this message
_NUL = "\0"      # no argument of a command line has one


class _Format(argparse.RawDescriptionHelpFormatter):
    """Formats a help in the same way on each terminal and with each version of Python."""

    def __init__(self, prog: str) -> None:
        super().__init__(prog, width=WIDTH)

    def _format_action_invocation(self, action: argparse.Action) -> str:
        """Returns the names of an option and its value once, as `-B, --base DIR`."""
        if not action.option_strings or action.nargs == 0:
            return super()._format_action_invocation(action)
        return f"{', '.join(action.option_strings)} {self._format_args(action, '')}"

    def _format_args(self, action: argparse.Action, default_metavar: str) -> str:
        """Returns FILES if there may be several, and not `FILES [FILES ...]`."""
        if action.nargs in (argparse.ONE_OR_MORE, argparse.REMAINDER):
            return str(action.metavar)
        return super()._format_args(action, default_metavar)


class Parser(argparse.ArgumentParser):
    """The arguments of a command, and its help. A usage error ends the command with 3, as it ends parv."""

    def __init__(self, prog: str, description: str, epilog: str) -> None:
        super().__init__(prog=prog, description=description, epilog=epilog, formatter_class=_Format, allow_abbrev=False)
        self._positionals.title, self._optionals.title = "arguments", "options"
        self.color = False      # (from Python 3.14 on, a help on a terminal would have colours)

    def print_help(self, file: Any = None) -> None:
        output.tell(self.format_help().rstrip("\n").split("\n"))

    def exit(self, status: int = 0, message: Optional[str] = None) -> NoReturn:
        """Ends the command after its help or an error."""
        signals.forget_signals()
        sys.exit(status)

    def error(self, message: str) -> NoReturn:
        if message.startswith(_REQUIRED):
            names = message[len(_REQUIRED):]
            message = f"missing argument{'s' if ', ' in names else ''}: {names}"
        output.say(shown(os.fsencode(message.replace(_NUL, ""))))
        output.say(" ".join(self.format_usage().split()))
        self.exit(USAGE)


def read(parser: Parser) -> argparse.Namespace:
    """Returns the arguments of the command line. Options may come between the others, but no argument after `--` is an
    option. (argparse by itself forgets that, so it gets each of these with a NUL before it.)"""
    words = sys.argv[1:]
    end = words.index("--") + 1 if "--" in words else len(words)
    options = parser.parse_intermixed_args([*words[:end], *(_NUL + word for word in words[end:])])
    for name, value in vars(options).items():
        if isinstance(value, str):
            setattr(options, name, value.lstrip(_NUL))
        elif isinstance(value, list):
            setattr(options, name, [each.lstrip(_NUL) for each in value])
    return options


def set_id_of(text: str) -> str:
    if not re.fullmatch("[0-9A-Fa-f]{32}", text):
        raise argparse.ArgumentTypeError("a set ID has 32 hexadecimal digits")
    return text.lower()


def needed_parv() -> Program:
    return programs.needed_program("PARV", "parv")


def run_command(command: str, run: Callable[[], int]) -> int:
    """Runs a command to its end and returns its exit status. Unless a signal ended it, a line on standard error says
    what did."""
    output.begin(command)
    signals.take_signals()
    try:
        status = run()
        signals.forget_signals()
        return status
    except Fault as fault:
        output.say(str(fault))
        return fault.status
    except signals.Ended as by:
        return by.status
    except MemoryError:
        output.say("out of memory")
        return MEMORY
    except OSError as fault:
        name = f"{shown(os.fsencode(fault.filename))}: " if isinstance(fault.filename, (str, bytes)) else ""
        output.say(f"{name}{fault.strerror or fault}")
        return FILES
    except Exception:       # an error in the command itself must not end with a status that means something else
        output.say(f"this is a fault of {command}:\n{traceback.format_exc()}")
        return FILES


def run_with_arguments(parser: Callable[[], Parser], run: Callable[[Parser, argparse.Namespace], int]) -> int:
    """Reads the arguments of a command, and runs it to its end."""
    reader = parser()
    return run_command(reader.prog, lambda: run(reader, read(reader)))
