"""Signals that end a command. They wait while the command is in a step that must not be interrupted.

A signal takes effect at once only within `interruptible`, which is put around everything that takes long. Every other
step is finished first, so none has to find out where it was interrupted. Only the first signal counts: what the command
does on its way out is finished.
"""

from __future__ import annotations

import contextlib
import signal
from types import FrameType
from typing import Iterator, Optional

SIGNALS = (signal.SIGHUP, signal.SIGINT, signal.SIGTERM)


class Ended(BaseException):
    """A signal has ended the command."""

    def __init__(self, number: int) -> None:
        super().__init__(number)
        self.status = 128 + number


class _Signals:
    """The first signal that came, whether a signal may end the command now, and whether one has."""
    came: Optional[int] = None
    open: bool = False
    ended: bool = False


def _end() -> None:
    if _Signals.came is not None and _Signals.open and not _Signals.ended:
        _Signals.ended, _Signals.open = True, False
        raise Ended(_Signals.came)


def _come(number: int, _: Optional[FrameType]) -> None:
    if _Signals.came is None:
        _Signals.came = number
    _end()


def take_signals() -> None:
    """Makes signals end the command by an exception. Signals that nohup ignores are still ignored."""
    for number in SIGNALS:
        if signal.getsignal(number) != signal.SIG_IGN:
            signal.signal(number, _come)


def forget_signals() -> None:
    """Makes no signal end the command any more, since it is done. (Python would remove its handlers before it ends.)"""
    for number in SIGNALS:
        signal.signal(number, signal.SIG_IGN)
    _Signals.ended, _Signals.open = True, False


@contextlib.contextmanager
def interruptible() -> Iterator[None]:
    """Lets a signal end the command here: at once if it has come before."""
    before = _Signals.open
    try:
        _Signals.open = not _Signals.ended
        _end()
        yield
    finally:
        _Signals.open = before


def end_if_signalled() -> None:
    """Ends the command here if a signal has come."""
    with interruptible():
        pass
