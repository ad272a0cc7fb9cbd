"""What a command shows: its lines on standard output, its messages on standard error, and there also its progress, if
that is a terminal. After two seconds, a line says what is being done, and how far it is."""

from __future__ import annotations

import contextlib
import os
import threading
import time
from typing import Callable, Dict, Iterable, Iterator, Optional

from .faults import FILES, Fault

PROGRESS_FROM = 2.0     # seconds until the line about the progress is shown
PROGRESS_EACH = 0.5     # seconds from one such line to the next
Report = Callable[[str], None]      # says something about what is being done
_OUT, _ERR = 1, 2


class _Command:
    """The name of the command, and whether its standard output was closed when it began."""
    name: str = ""
    is_closed: bool = False


def begin(command: str) -> None:
    """Sets the name with which messages begin. Opens /dev/null in place of each closed descriptor, so that no file that
    is opened later gets its number."""
    _Command.name = command
    for number in 0, _OUT, _ERR:
        try:
            os.fstat(number)
        except OSError:
            _Command.is_closed = _Command.is_closed or number == _OUT
            os.open(os.devnull, os.O_RDWR)


# Lines and messages.

def _write_all(number: int, data: bytes) -> None:
    while data:
        data = data[os.write(number, data):]


def tell(lines: Iterable[str]) -> None:
    """Writes lines to standard output."""
    if _Command.is_closed:
        raise Fault(FILES, "cannot write standard output: it is closed")
    try:
        _write_all(_OUT, "".join(line + "\n" for line in lines).encode("ascii", "backslashreplace"))
    except OSError as fault:
        raise Fault(FILES, f"cannot write standard output: {fault.strerror}") from fault


def pass_on(data: bytes, number: int = _OUT) -> None:
    """Writes output of a program, or a part of it: to standard output, or otherwise to standard error if that can be
    written."""
    clear_progress()
    if number == _OUT and _Command.is_closed:
        raise Fault(FILES, "cannot write standard output: it is closed")
    try:
        _write_all(number, data)
    except OSError as fault:
        if number == _OUT:
            raise Fault(FILES, f"cannot write standard output: {fault.strerror}") from fault


def say(text: str) -> None:
    """Writes a line to standard error, if that can be written."""
    clear_progress()
    with contextlib.suppress(OSError):
        _write_all(_ERR, f"{_Command.name}: {text}\n".encode("ascii", "backslashreplace"))


# Progress.

class _Progress:
    """What is being done now, its greatest number of bytes, whether the line is shown at once and with the speed, the
    start, and how many bytes each program has read that was run for it."""
    what: str = ""
    most: int = 0
    at_once: bool = False
    count: int = 0
    is_shown: bool = False
    start: float = 0.0
    reads: Dict[int, int] = {}
    last: float = 0.0
    is_terminal: Optional[bool] = None


def _is_terminal() -> bool:
    if _Progress.is_terminal is None:
        try:
            _Progress.is_terminal = os.isatty(_ERR)
        except OSError:
            _Progress.is_terminal = False
    return _Progress.is_terminal


def _write_progress(text: str) -> None:
    with contextlib.suppress(OSError):
        os.write(_ERR, text.encode("ascii", "backslashreplace"))


def clear_progress() -> None:
    """Removes the line, before something else is written."""
    if _Progress.is_shown:
        _write_progress("\r\033[K")
        _Progress.is_shown = False


def can_show_progress() -> bool:
    """Returns whether there is a terminal for the line, and whether the system says how much a program has read."""
    return _is_terminal() and os.access("/proc/self/io", os.R_OK)


@contextlib.contextmanager
def doing(what: str, most: int = 0, at_once: bool = False) -> Iterator[None]:
    """Says what is being done, as long as it lasts, and how many bytes it has to handle at most, if that is known."""
    before = _Progress.what, _Progress.most, _Progress.at_once, _Progress.start, _Progress.reads
    _Progress.what, _Progress.most, _Progress.at_once, _Progress.start = what, most, at_once, time.monotonic()
    _Progress.reads = {}
    if at_once:
        _Progress.last, _Progress.count = _Progress.start, 0
    try:
        yield
    finally:
        clear_progress()
        _Progress.what, _Progress.most, _Progress.at_once, _Progress.start, _Progress.reads = before


def stop_progress() -> None:
    """Shows no line any more for what is being done now."""
    clear_progress()
    _Progress.what = ""


def show_progress(count: Optional[int]) -> None:
    """Shows how many bytes were handled so far, if that is known: after two seconds at the earliest, and half a second
    after the line before."""
    now = time.monotonic()
    since = now - _Progress.last
    if (not _Progress.what or now - _Progress.start < PROGRESS_FROM and not _Progress.at_once or since < PROGRESS_EACH
            or not _is_terminal()):
        return
    text = "" if count is None else f"{count >> 20} MiB"
    most = f" of at most {(max(_Progress.most, count or 0) + 1048575) >> 20} MiB" if _Progress.most else ""
    if _Progress.at_once:
        line = f"{text}{most}, {max(int(((count or 0) - _Progress.count) / since), 0) >> 20} MiB/s"
    else:
        line = f"{_Progress.what}{text and ': '}{text}{most}"
    _write_progress(f"\r\033[K{line}")
    _Progress.last, _Progress.is_shown, _Progress.count = now, True, count or 0


def show_bytes_read(pid: int) -> None:
    """Shows how many bytes this program and those before it have read."""
    if _Progress.what and _is_terminal():
        _Progress.reads[pid] = max(_Progress.reads.get(pid, 0), bytes_read_by(pid))
        show_progress(sum(_Progress.reads.values()))


@contextlib.contextmanager
def waiting(what: str) -> Iterator[None]:
    """Says what is being done during calls that don't report their progress, such as those that write files to the
    disk. A thread shows it, so no program may be started meanwhile."""
    over = threading.Event()

    def show() -> None:
        while not over.wait(PROGRESS_EACH):
            show_progress(None)
    thread: Optional[threading.Thread] = None
    with doing(what):
        if _is_terminal():
            with contextlib.suppress(RuntimeError):     # if no more threads are allowed
                thread = threading.Thread(target=show, daemon=True)
                thread.start()
        try:
            yield
        finally:
            over.set()
            if thread is not None and thread.is_alive():
                thread.join()


def bytes_read_by(pid: int) -> int:
    """Returns how many bytes a program has read so far, according to /proc."""
    with contextlib.suppress(OSError, ValueError):
        with open(f"/proc/{pid}/io", encoding="ascii") as file:
            for line in file:
                if line.startswith("rchar:"):
                    return int(line[6:])
    return 0
