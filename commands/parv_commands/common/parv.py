"""Runs parv over files of any name, and reads what it writes. Only this module does so.

Each file is a link with a short name in a temporary folder. So a command line has space for as many files as parv
accepts, and parv misunderstands no name. Each line that parv writes is accepted only in the form of its manual page.
"""

from __future__ import annotations

import contextlib
import os
import re
import shutil
import stat
import tempfile
from typing import (Callable, Container, Dict, FrozenSet, Iterable, Iterator, List, Mapping, Match, NamedTuple, Optional,
                    Pattern, Sequence, Tuple)

from . import changes, output_and_progress as output
from .faults import FILES, MEMORY, NO_SET, USAGE, Fault, NoProgram, faults_of
from .names import is_packet_file, shown, unshown
from .opened_folder import Folder
from .programs import Answer, Call, Program, answer_of, pieces_of

MOST_FILES = 65_535         # the most files in one command line
SPARE_FILES = 32            # files that are open in addition to those that are named
LONGEST_LINE = 1 << 17      # the most bytes in the line of a match
_FAULTS = (USAGE, NO_SET, FILES, MEMORY)
_PRINTABLE = re.compile("[ -~]*")
_ABOUT = re.compile(rb"parv: (cannot open|read fault in) ([^\n]*)\n?")
CURSOR_OF_OTHERS = b"parv: cursor of other files\n"      # a file has another length than when the cursor was made
_LONGEST_LINE = 4096        # the most bytes in the line of a packet
_ID = "[0-9a-f]{32}"
_NUMBER = "[0-9]{1,18}"     # more digits than any length or offset has
_SLICES = "[0-9]{1,5}"      # more digits than the number of slices of any set has
_SET = re.compile(f"set ({_ID}) size ({_NUMBER}) slices ({_SLICES})")
_FILE = re.compile(f"file ({_ID}) ({_NUMBER}) ({_SLICES}) (yes|no) (.*)")
_ASIDE = re.compile(f"aside (.*) ({_NUMBER}) {_NUMBER}")
_COUNTS = re.compile(f"need ({_SLICES}) have ({_NUMBER})")
_FOUND_SLICES = re.compile(f"({_SLICES})/({_SLICES})")
_PACKET = re.compile(f"(.*) ({_NUMBER}) ({_NUMBER}) (main|filedesc|ifsc|recvslic|creator|unknown) ({_ID})")
_SIGHTING = re.compile(f"(.*) ({_NUMBER}) ({_ID}) ({_SLICES})")


# What parv writes.

class NoAnswer(NoProgram):
    """The program that was run isn't parv, or its answer was cut."""

    def __init__(self, command: str) -> None:
        super().__init__(FILES, f"what parv {command} has written is no answer of it: is PARV another program?")


class SetFile(NamedTuple):
    """A file of a set, from its line. `has_sums` is whether its slices have checksums."""
    id: str
    length: int
    slices: int
    has_sums: bool
    shown: str
    name: bytes


class SetAnswer(NamedTuple):
    """A set: its first line, its files, the number of its recovery slices, and the packets that parv has rejected."""
    line: str
    id: str
    size: int
    files: List[SetFile]
    have: int
    aside: FrozenSet[Tuple[str, int]]


class PacketLine(NamedTuple):
    """The place of a packet (the word for its file, its offset and its length), its kind, and the ID of its set."""
    word: str
    offset: int
    length: int
    kind: str
    set: str


class State(NamedTuple):
    """The state of a file of the set, the word for a scanned file with its whole content, and how many slices were
    found."""
    state: str
    word: Optional[str]
    found_slices: int


class Verdict(NamedTuple):
    """The answer of verify. `status` is the exit status of parv."""
    status: int
    states: List[State]
    need: int
    have: int

    @property
    def counts(self) -> str:
        return f"need {self.need} have {self.have}"


class Sighting(NamedTuple):
    """A match: the word for a file, the offset in it, the ID of the slice's file, and the slice's number there."""
    word: str
    offset: int
    id: str
    number: int


def lines_of(text: bytes, command: str) -> List[str]:
    """Returns the lines of an answer, which must end with a line feed."""
    try:
        lines = text.decode("ascii").split("\n")
    except UnicodeDecodeError as fault:
        raise NoAnswer(command) from fault
    if len(lines) < 2 or lines[-1]:
        raise NoAnswer(command)
    return lines[:-1]


def read_set(text: bytes) -> SetAnswer:
    lines = lines_of(text, "set")
    head = _SET.fullmatch(lines[0])
    files: List[SetFile] = []
    have: Optional[int] = None
    aside = set()
    for line in lines[1:]:
        word, _, rest = line.partition(" ")
        file, packet = _FILE.fullmatch(line), _ASIDE.fullmatch(line)
        if file:
            files.append(SetFile(file[1], int(file[2]), int(file[3]), file[4] == "yes", file[5], unshown(file[5])))
        elif packet:
            aside.add((packet[1], int(packet[2])))
        elif word == "have" and re.fullmatch(_NUMBER, rest):
            have = int(rest)
        elif word not in ("others", "creator"):
            raise NoAnswer("set")
    if head is None or have is None or sum(file.slices for file in files) != int(head[3]):
        raise NoAnswer("set")
    return SetAnswer(lines[0], head[1], int(head[2]), files, have, frozenset(aside))


class PacketLines:
    """Reads the answer of `parv packets` as it comes, in pieces, and counts the packets."""

    def __init__(self) -> None:
        self.count = 0
        self._rest, self._is_whole = b"", False

    def take(self, piece: bytes) -> Iterator[PacketLine]:
        """Yields the packets whose lines end in the next piece."""
        *lines, self._rest = (self._rest + piece).split(b"\n")
        for line in lines:
            if self._is_whole:
                raise NoAnswer("packets")
            if line == b"packets %d" % self.count:
                self._is_whole = True
            else:
                self.count += 1
                yield _packet(line)
        if len(self._rest) > _LONGEST_LINE:
            raise NoAnswer("packets")

    def end(self) -> None:
        """Checks that the answer is complete."""
        if self._rest or not self._is_whole:
            raise NoAnswer("packets")


def _fields_of(line: bytes, form: Pattern[str], command: str) -> Match[str]:
    """Returns the fields of a line, which must have this form."""
    try:
        fields = form.fullmatch(line.decode("ascii"))
    except UnicodeDecodeError as fault:
        raise NoAnswer(command) from fault
    if fields is None:
        raise NoAnswer(command)
    return fields


def _packet(line: bytes) -> PacketLine:
    packet = _fields_of(line, _PACKET, "packets")
    return PacketLine(packet[1], int(packet[2]), int(packet[3]), packet[4], packet[5])


def read_packets(text: bytes) -> List[PacketLine]:
    reader = PacketLines()
    packets = list(reader.take(text))
    reader.end()
    return packets


def read_sighting(line: bytes) -> Sighting:
    sighting = _fields_of(line, _SIGHTING, "find")
    return Sighting(sighting[1], int(sighting[2]), sighting[3], int(sighting[4]))


def _state_of(line: str, file: SetFile) -> State:
    state, _, rest = line.partition(" ")
    if state == "complete" and rest == file.shown:
        return State(state, file.shown, file.slices)
    if state == "renamed" and rest.startswith(f"{file.shown} from "):
        return State(state, rest[len(file.shown) + 6:], file.slices)
    if state in ("damaged", "missing") and rest.startswith(file.shown + " "):
        counts = _FOUND_SLICES.fullmatch(rest[len(file.shown) + 1:])
        if counts and int(counts[2]) == file.slices:
            return State(state, None, int(counts[1]))
    raise NoAnswer("verify")


_RESULTS: Dict[int, str] = {0: "result complete", 1: "result possible", 2: "result impossible"}


def read_verdict(text: bytes, status: int, answer: SetAnswer) -> Verdict:
    lines = lines_of(text, "verify")
    if len(lines) < 3 or lines[-1] != _RESULTS.get(status):
        raise NoAnswer("verify")
    if lines[0] != answer.line or len(lines) != len(answer.files) + 3:
        raise Fault(FILES, "the packet files have changed meanwhile")
    counts = _COUNTS.fullmatch(lines[-2])
    if counts is None:
        raise NoAnswer("verify")
    states = [_state_of(line, file) for line, file in zip(lines[1:], answer.files)]
    return Verdict(status, states, int(counts[1]), int(counts[2]))


# Runs of parv.

class Links:
    """The temporary folder of links, and the names in messages of the files by their words. `folders` has the opened
    ones through which links lead."""

    def __init__(self, folder: Folder, folders: Tuple[int, ...]) -> None:
        self.folder, self.folders = folder, folders
        self.shown: Dict[str, str] = {}

    def word(self, target: bytes, name: str, is_packet_file: bool = False) -> str:
        """Returns the word for a file, by which parv takes it for what it is."""
        word = f"{len(self.shown)}{'.par2' if is_packet_file else ''}"
        with faults_of("make a link in", self.folder.shown):
            changes.make_link(self.folder.place, word.encode(), target)
        self.shown[word] = name
        return word


@contextlib.contextmanager
def folder_within(above: Folder) -> Iterator[Folder]:
    """Makes a new folder for temporary files, and removes it when it isn't used any more. (TemporaryDirectory could do
    that. But if it can't remove a link, older versions of it change the mode of the file to which that leads.)"""
    with faults_of("make a temporary folder in", above.shown):
        path = tempfile.mkdtemp(prefix="parv-", dir=f"/proc/self/fd/{above.place}")
    try:
        with faults_of("open", above.shown):
            folder = above.inner(os.path.basename(path).encode())
        with contextlib.closing(folder):
            yield folder
    finally:
        shutil.rmtree(path, ignore_errors=True)


@contextlib.contextmanager
def temporary_folder() -> Iterator[Folder]:
    """Makes a folder for temporary files, which is removed however the command ends."""
    above = Folder.open(os.fsencode(os.path.abspath(os.environ.get("TMPDIR") or "/tmp")))
    with contextlib.closing(above), folder_within(above) as folder:
        yield folder


def path_below(folder: Folder, name: bytes) -> bytes:
    """Returns a path of a file below an opened folder, for a child that has the folder open too."""
    return b"/proc/self/fd/%d/%s" % (folder.place, name)


def fault_of(program: Program, status: int, standard_error: bytes, command: str, names: Mapping[str, str]) -> Fault:
    """Returns the error of a run without an answer, from what parv says. `names` has the names for messages, by the
    words."""
    line = standard_error.decode("utf-8", "backslashreplace").split("\n")[0]
    if status < 0:
        return NoProgram(FILES, f"{program.shown} was ended by signal {-status}")
    if status not in _FAULTS:
        return NoProgram(FILES, f"{program.shown} {command} has ended with status {status}, and isn't parv")
    if not line.startswith("parv: "):
        return NoAnswer(command)
    if status == USAGE and standard_error == CURSOR_OF_OTHERS:   # the command itself has made the cursor
        return Fault(FILES, "a file that is searched has another length now than before")
    about = _ABOUT.match(standard_error)
    name = names.get(about[2].decode("ascii", "replace")) if about else None
    if about and name:
        return Fault(status, f"{about[1].decode()} {name}")
    return Fault(status, line[6:] if _PRINTABLE.fullmatch(line) else shown(os.fsencode(line[6:])))


def most_read(files: Iterable[bytes], times: int) -> int:
    """Returns how many bytes of these files parv reads at most: three times the length of a packet file, and `times`
    times the length of each other one. (It reads more of packet files only if their packets overlap.)"""
    most = 0
    for file in files:
        with contextlib.suppress(OSError, ValueError):
            now = os.stat(file)
            if stat.S_ISREG(now.st_mode):
                most += now.st_size * (3 if is_packet_file(file) else times)
    return most


class Parv:
    """The program, and the links to the files that it gets. `shows` is whether each run is shown on a terminal."""

    def __init__(self, program: Program, links: Links, shows: bool = True) -> None:
        self.program, self.links, self.shows = program, links, shows

    def _call(self, command: str, words: Sequence[str]) -> Call:
        return Call(self.program, [word.encode() for word in (command, *words)], self.links.folder.place,
                    self.links.folders)

    def fault_of(self, status: int, standard_error: bytes, command: str) -> Fault:
        """Returns the error of a run without an answer."""
        return fault_of(self.program, status, standard_error, command, self.links.shown)

    @contextlib.contextmanager
    def pieces(self, command: str, words: Sequence[str], most: int = 0) -> Iterator[Iterator[bytes]]:
        """Runs parv and gives its answer, in pieces, as it comes. It must end with 0."""
        def fault(status: int, standard_error: bytes) -> Fault:
            return self.fault_of(status, standard_error, command)
        with output.doing(f"parv {command}", most):
            with contextlib.closing(pieces_of(self._call(command, words), fault)) as pieces:
                yield pieces

    async def answer(self, command: str, words: Sequence[str], statuses: Container[int] = (0,), most: int = 0,
                     takes: Optional[Callable[[bytes], None]] = None) -> Answer:
        """Runs parv, which must end with one of these statuses. If `takes` gets the answer as it comes, it isn't
        returned."""
        with output.doing(f"parv {command}", most) if self.shows else contextlib.nullcontext():
            ended = await answer_of(self._call(command, words), takes)
        if ended.status not in statuses:
            raise self.fault_of(ended.status, ended.standard_error, command)
        return ended

    async def set(self, packet_words: Sequence[str], set_id: Optional[str]) -> SetAnswer:
        ended = await self.answer("set", [*(["--set", set_id] if set_id else []), "--", *packet_words])
        return read_set(ended.out)

    async def packets(self, packet_words: Sequence[str], set_id: Optional[str] = None) -> List[PacketLine]:
        ended = await self.answer("packets", [*(["--set", set_id] if set_id else []), "--", *packet_words])
        packets = read_packets(ended.out)
        if not all(packet.word in self.links.shown for packet in packets):
            raise NoAnswer("packets")
        return packets

    async def verify(self, the_set: SetAnswer, packet_words: Sequence[str], words: Sequence[str],
                     tails: bool = False, most: int = 0, base: str = "") -> Verdict:
        """Returns the verdict over these files. Ends with an error of parv if there is none."""
        ended = await self.answer("verify", [*(["--tails"] if tails else []), *(["-B", base] if base else []), "--set",
                                             the_set.id, "--", *packet_words, *words], (0, 1, 2), most)
        return read_verdict(ended.out, ended.status, the_set)
