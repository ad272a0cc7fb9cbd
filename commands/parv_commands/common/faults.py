"""Errors: those that end a command, with its exit status, and those by which it refuses a single file."""

from __future__ import annotations

import contextlib
from typing import Iterator

POSSIBLE = 1
IMPOSSIBLE = 2
USAGE = 3
NO_SET = 4
NO_REPAIR = 5
FILES = 6
MEMORY = 8


class Fault(Exception):
    """Ends the command, with an exit status and a line that says why."""

    def __init__(self, status: int, text: str) -> None:
        super().__init__(text)
        self.status = status


class NoProgram(Fault):
    """A program can't be run, or the one that has run isn't the right one."""


class Refusal(Exception):
    """The reason why one file isn't read, made or moved. The command goes on."""


@contextlib.contextmanager
def faults_of(action: str, name: str) -> Iterator[None]:
    """Ends the command if the system refuses a change or a read of a file, whose name is that for messages."""
    try:
        yield
    except OSError as fault:
        raise Fault(FILES, f"cannot {action} {name}: {fault.strerror}") from fault
