"""Runs other programs: finds which file to run, sets its environment, and ends it with the command."""

from __future__ import annotations

import contextlib
import ctypes
import functools
import os
import resource
import selectors
import shutil
import signal
import subprocess
import time
from typing import (TYPE_CHECKING, Any, Callable, Container, Coroutine, Dict, Generator, Iterator, List, NamedTuple,
                    Optional, Sequence, Tuple, TypeVar)

from . import output_and_progress as output
from .faults import FILES, Fault, NoProgram
from .names import shown
from .signals import interruptible

if TYPE_CHECKING:
    import asyncio      # (It takes long to import, so only a command that runs a program does so.)

USUAL = "/usr/local/bin:/usr/bin:/bin"      # the PATH, if none is set
PIECE = 1 << 16
MOST_OUTPUT = 1 << 28       # the most bytes in an answer that is kept as a whole
MOST_SAID = 1 << 16         # the most bytes of standard error that are kept
_PR_SET_PDEATHSIG = 1
_ROUNDS, _ROUND = 200, 0.01     # how often, and after how many seconds, it looks whether a group has ended
_SOON = 0.001       # seconds until it looks first whether a program has ended that has closed its outputs
_libc = ctypes.CDLL(None)
T = TypeVar("T")


class Program(NamedTuple):
    """A program: its whole path, and its name in messages."""
    path: str
    shown: str


def absolute_parts(path: str) -> List[str]:
    """Returns the parts of a PATH that don't depend on the folder in which a program is called."""
    return [part for part in path.split(os.pathsep) if part.startswith("/")]


def search_path() -> str:
    """Returns the PATH for programs that are run, in whatever folder."""
    return os.pathsep.join(absolute_parts(os.environ.get("PATH", ""))) or USUAL


def find_program(variable: str, usual: str) -> Optional[Program]:
    """Returns the program that a variable of the environment names, or otherwise the one of the usual name; None if
    there is none. A relative name is looked up now, in the folder in which the command is called."""
    name = os.environ.get(variable) or usual
    path = shutil.which(name, path=os.environ.get("PATH") or USUAL)
    return None if path is None else Program(os.path.join(os.getcwd(), path), shown(os.fsencode(name)))


def needed_program(variable: str, usual: str) -> Program:
    program = find_program(variable, usual)
    if program is None:
        name = shown(os.fsencode(os.environ.get(variable) or usual))
        raise NoProgram(FILES, f"cannot run {name}: put {usual} in PATH, or name it by {variable}")
    return program


def raise_file_limit() -> int:
    """Raises the number of files that this process may have open as far as possible, and returns it."""
    soft, hard = resource.getrlimit(resource.RLIMIT_NOFILE)
    with contextlib.suppress(OSError, ValueError):
        resource.setrlimit(resource.RLIMIT_NOFILE, (hard, hard))
    soft, _ = resource.getrlimit(resource.RLIMIT_NOFILE)
    return 1 << 20 if soft == resource.RLIM_INFINITY else soft


def environment() -> Dict[str, str]:
    """Returns the environment for programs that are run."""
    return {**os.environ, "PATH": search_path(), "LC_ALL": "C"}


def _child(place: Optional[int]) -> Callable[[], None]:
    """Returns what a child does before it becomes the program. It leads a group of its own, ends if the command is
    killed (or has been killed already), and goes to its folder."""
    command = os.getpid()

    def before() -> None:
        os.setpgid(0, 0)
        _libc.prctl(_PR_SET_PDEATHSIG, signal.SIGKILL)
        if os.getppid() != command:
            os._exit(1)
        if place is not None:
            os.fchdir(place)
    return before


def _end_group(leader: int) -> None:
    """Ends the programs that a program has started and left, such as a script that was killed, and waits until they
    have ended."""
    with contextlib.suppress(ProcessLookupError, PermissionError):
        for _ in range(_ROUNDS):
            os.killpg(leader, signal.SIGKILL)
            time.sleep(_ROUND)


class Call(NamedTuple):
    """A run of a program: its arguments, the opened folder in which it runs, other opened folders that it gets, and the
    numbers of the standard input and output of the command itself that it gets."""
    program: Program
    words: Sequence[bytes]
    place: Optional[int] = None
    folders: Tuple[int, ...] = ()
    own: Container[int] = ()


class Answer(NamedTuple):
    """How a program has ended (below 0 by a signal), and what it has written."""
    status: int
    out: bytes
    standard_error: bytes


class _Selector(selectors.DefaultSelector):
    """Waits for the event loop. Only meanwhile a signal can end the command."""

    def select(self, timeout: Optional[float] = None) -> List[Tuple[selectors.SelectorKey, int]]:
        ready: List[Tuple[selectors.SelectorKey, int]] = []
        with interruptible():
            ready = super().select(timeout)
        return ready


@functools.lru_cache(maxsize=None)
def _loop() -> asyncio.AbstractEventLoop:
    """Returns the event loop of the command."""
    import asyncio

    class Loop(asyncio.SelectorEventLoop):
        def call_exception_handler(self, context: Dict[str, Any]) -> None:
            """Ends the command by an error that no task gets, such as a MemoryError of the loop itself."""
            raise context.get("exception") or RuntimeError(context["message"])
    return Loop(_Selector())


def run_to_end(coroutine: Coroutine[Any, Any, T]) -> T:
    """Runs a coroutine to its end. If a signal or an error ends it, everything that it has begun is ended first."""
    loop = _loop()
    task = loop.create_task(coroutine)
    try:
        return loop.run_until_complete(task)
    except BaseException:
        import asyncio
        left = asyncio.all_tasks(loop)
        for each in left:
            each.cancel()
        if left:
            loop.run_until_complete(asyncio.gather(*left, return_exceptions=True))
        raise


class Process:
    """A program that runs, and pipes from those of its outputs that it hasn't closed, by their numbers."""

    def __init__(self, process: subprocess.Popen[bytes]) -> None:
        self._process = process
        self._pipes = {number: pipe.fileno() for number, pipe in ((1, process.stdout), (2, process.stderr)) if pipe}

    @property
    def status(self) -> int:
        """Returns the exit status of a program that has ended."""
        return self._process.wait()

    async def output(self) -> Tuple[int, bytes]:
        """Returns the next piece that the program writes, after 1 for standard output or 2 for standard error. Returns
        0 once the program has ended and everything was read. It doesn't wait for programs that this one leaves
        running."""
        seconds = _SOON
        while self._pipes or self._process.poll() is None:
            is_over = self._process.poll() is not None
            number = await self._ready(output.PROGRESS_EACH if self._pipes else seconds)
            output.show_bytes_read(self._process.pid)
            piece = os.read(self._pipes[number], PIECE) if number else b""
            if piece:
                return number, piece
            if is_over and not number:
                break
            self._pipes.pop(number, None)
            seconds = min(2 * seconds, output.PROGRESS_EACH)
        return 0, b""

    async def _ready(self, seconds: float) -> int:
        """Waits until an output can be read, and returns its number, or 0 after so many seconds."""
        loop = _loop()
        ready: asyncio.Future[int] = loop.create_future()

        def come(number: int) -> None:
            if not ready.done():
                ready.set_result(number)
        timer = loop.call_later(seconds, come, 0)
        try:
            for number, pipe in self._pipes.items():
                loop.add_reader(pipe, come, number)
            return await ready
        finally:
            timer.cancel()
            for pipe in self._pipes.values():
                loop.remove_reader(pipe)


@contextlib.contextmanager
def running(call: Call) -> Iterator[Process]:
    """Runs a program, and makes sure that it doesn't run afterwards. (asyncio.create_subprocess_exec can't: while it
    starts a program, it can be cancelled, and then it ends only that one, and none that this one has started.)"""
    try:
        process = subprocess.Popen([os.fsencode(call.program.path), *call.words], env=environment(),
                                   stdin=None if 0 in call.own else subprocess.DEVNULL,
                                   stdout=None if 1 in call.own else subprocess.PIPE, stderr=subprocess.PIPE,
                                   preexec_fn=_child(call.place), pass_fds=call.folders)
    except (OSError, subprocess.SubprocessError) as fault:
        why = fault.strerror if isinstance(fault, OSError) else str(fault)
        raise NoProgram(FILES, f"cannot run {call.program.shown}: {why}") from fault
    try:
        yield Process(process)
    finally:
        if process.poll() is None:
            process.kill()
        for pipe in process.stdout, process.stderr:
            if pipe is not None:
                pipe.close()
        process.wait()
        _end_group(process.pid)


class _Beginning(bytearray):
    """The beginning of what a program writes to one of its outputs. If that is longer than any answer, the command
    ends."""

    def __init__(self, program: Program, most: int) -> None:
        super().__init__()
        self.program, self.most, self.total = program, most, 0

    def take(self, piece: bytes) -> None:
        self.total += len(piece)
        if self.total > MOST_OUTPUT:
            raise too_much(self.program)
        self.extend(piece[:self.most - len(self)])


def too_much(program: Program) -> NoProgram:
    return NoProgram(FILES, f"{program.shown} writes more than an answer has")


async def answer_of(call: Call, takes: Optional[Callable[[bytes], None]] = None,
                    says: Optional[Callable[[bytes], None]] = None) -> Answer:
    """Runs a program to its end. If `takes` gets its standard output, or `says` its standard error, as it comes, that
    isn't in the answer."""
    out, standard_error = _Beginning(call.program, MOST_OUTPUT), _Beginning(call.program, MOST_SAID)
    takers = {1: takes or out.take, 2: says or standard_error.take}
    with running(call) as process:
        number, piece = await process.output()
        while number:
            takers[number](piece)
            number, piece = await process.output()
        return Answer(process.status, bytes(out), bytes(standard_error))


def pieces_of(call: Call, fault_of: Callable[[int, bytes], Fault]) -> Generator[bytes, None, None]:
    """Yields what a program writes to standard output, as it comes. `fault_of` returns the error if it doesn't end with
    0, from its status and its standard error."""
    standard_error = _Beginning(call.program, MOST_SAID)
    with running(call) as process:
        number, piece = run_to_end(process.output())
        while number:
            if number == 1:
                yield piece
            else:
                standard_error.take(piece)
            number, piece = run_to_end(process.output())
        status = process.status
    if status != 0:
        raise fault_of(status, bytes(standard_error))
