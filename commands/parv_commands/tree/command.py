"""parv-tree: checks each set below a folder, prints a line for each, and reports what was lost since the last time."""

from __future__ import annotations

import argparse
import collections
import contextlib
import functools
import os
import re
from typing import (Any, Callable, Coroutine, Deque, Dict, Iterable, Iterator, List, NamedTuple, Optional,
                    Set, Tuple)

from ..common import arguments, output_and_progress as output, programs, signals
from ..common.faults import FILES, NO_SET, USAGE, Fault, faults_of
from ..common.names import is_packet_file, shown
from ..common.opened_folder import Descent, Folder
from ..common.parv import SPARE_FILES, Links, Parv, folder_within, temporary_folder
from ..common.programs import Program
from ..common.recovery_set import NO_MAIN, PacketFiles, SetsInPacketFiles, set_name_of
from ..common.state_of_set import FolderWords, Verification, text_of
from .lines_and_state import GONE, Key, Line, Loss, State, json_of, json_text, json_with, key_of, losses, to_remember

LOST = 5                # the exit status if something was lost since the last time
AT_ONCE = 256           # the most packet files that one run of parv lists
FILES_OF_A_RUN = 8      # how many files are open here for each run of parv
LEFT_OUT = (b".verify_and_repair", b".parv-repair")
Job = Callable[[], Coroutine[Any, Any, None]]

DESCRIPTION = """\
Verifies every PAR2 set below FOLDER and prints a line for each. It writes
nothing there, so cron can run it on a backup every night.

  parv-tree -q --state backup.state /srv/backup
"""
EPILOG = """\
A line has the status of the set, its ID, how many slices it needs, how many
recovery slices there are, and its folder and name:
  1 589c76e09f0580b9203c5b64963b8957 need 5 have 8 2019/photos
A dash stands for an unknown ID or number. From status 3 on, a message gives the
reason.

With --state a loss is reported once, also with -q. The first run has nothing to
compare with.
  fewer ID have 8 was 14 NAME      recovery slices were lost
  worse ID status 1 was 0 NAME     the status of the set is higher now
  gone ID NAME                     no packet file has a packet of the set

A set is verified with the files in its folder and in the subfolders that belong
to it. Links aren't followed. A copy of a set in another folder is a set of its
own. A set has the name of its first packet file, without .par2, .vol0+1.par2 or
the like.

exit status (the highest of these):
  0  all sets are complete
  1  a set is damaged, and a repair can be tried
  2  a set is damaged, and too few slices are left for a repair
  3  usage error, no packet file at all, or FILE isn't a state of FOLDER
  4  packet files without a usable set
  5  something was lost since the last run with --state
  6  a file, folder or line can't be read or written, or parv can't be run
  8  out of memory
PARV names the program if it isn't in PATH. See man parv-tree.
"""


class Options(NamedTuple):
    """The folder and options of the command line."""
    folder: bytes
    jobs: int
    quiet: bool
    tails: bool
    json: bool
    state: Optional[bytes]


class Place:
    """A folder with packet files: its path (with a slash after it, or empty), their names, the lines of its sets once
    these are known, the messages before each line, and the errors of packet files by their names."""

    def __init__(self, path: bytes) -> None:
        self.path = path
        self.packet_files: List[bytes] = []
        self.lines: List[Optional[Line]] = []
        self.messages: Dict[int, List[str]] = {}
        self.faults: Dict[bytes, Fault] = {}
        self.has_lines = False

    def add(self, line: Optional[Line] = None) -> int:
        self.lines.append(line)
        return len(self.lines) - 1


class OneSet(NamedTuple):
    """A set that is to be verified: the number of its line in its folder, its ID, its name and its packet files."""
    number: int
    id: str
    name: bytes
    packet_files: List[bytes]


def _walk(top: Folder, unread_folders: List[Tuple[bytes, str]]) -> Iterator[bytes]:
    """Yields the paths of all packet files below a folder. A folder that can't be read is recorded, with the reason."""
    waiting: List[bytes] = [b""]
    with contextlib.closing(Descent(top)) as descent:
        while waiting:
            signals.end_if_signalled()
            path = waiting.pop()
            try:
                with contextlib.closing(descent.open(path)) as folder, os.scandir(folder.place) as entries:
                    for entry in entries:
                        name = os.fsencode(entry.name)
                        if name in LEFT_OUT:
                            continue
                        if entry.is_dir(follow_symlinks=False):
                            waiting.append(path + name + b"/")
                        elif is_packet_file(name) and entry.is_file(follow_symlinks=False):
                            yield path + name
            except OSError as fault:
                unread_folders.append((path, fault.strerror or str(fault)))


class Tree:
    """A run over a tree."""

    def __init__(self, options: Options, program: Program, top: Folder, temporary: Folder,
                 state: Optional[State]) -> None:
        self.options, self.program, self.top, self.temporary, self.state = options, program, top, temporary, state
        self.most_open = programs.raise_file_limit()
        self.jobs = max(1, min(options.jobs, (self.most_open - SPARE_FILES) // FILES_OF_A_RUN))
        self.at_once = max(1, min(AT_ONCE, self.most_open - SPARE_FILES))
        self.places: Deque[Place] = collections.deque()
        self.waiting: Deque[Job] = collections.deque()
        self.next = 0                               # the line of the first place that is printed next
        self.status = 0
        self.count = 0
        self.unread: List[bytes] = []               # folders that couldn't be read, so nothing is known below them
        self.unsure: Set[bytes] = set()             # folders in which a packet file could not be read
        self.sets: Dict[Key, Line] = {}

    def run(self) -> int:
        """Checks and prints everything, and returns the exit status."""
        with output.doing("packet files are looked for"):
            self._find()
        self.waiting.extend(functools.partial(self._list, place) for place in self.places)
        with output.doing("sets are verified"):
            programs.run_to_end(self._verify())
        if not self.count and not self.status:
            output.say(f"{self.top.shown}: no packet file")
            self._rises_to(USAGE)
        if self.state is not None:
            self._compare(self.state)
        return self.status

    def _rises_to(self, status: int) -> None:
        self.status = max(self.status, status)

    def _find(self) -> None:
        """Finds the packet files, by their folders."""
        unread: List[Tuple[bytes, str]] = []
        places: Dict[bytes, Place] = {}
        for path in sorted(_walk(self.top, unread)):
            folder, slash, name = path.rpartition(b"/")
            places.setdefault(folder + slash, Place(folder + slash)).packet_files.append(name)
        self.places.extend(places.values())
        for path, why in sorted(unread):
            output.say(f"{self.top.shown}: cannot read {shown(path[:-1]) or '.'}: {why}")
            self.unread.append(path)
            self._rises_to(FILES)

    # The jobs.

    async def _verify(self) -> None:
        """Runs the jobs in the order in which they wait, up to `jobs` at once. Whenever some have ended, prints the
        lines that are known."""
        import asyncio
        jobs: Set[asyncio.Future[None]] = set()
        while jobs or self.waiting:
            while self.waiting and len(jobs) < self.jobs:
                jobs.add(asyncio.ensure_future(self.waiting.popleft()()))
            ended, jobs = await asyncio.wait(jobs, return_when=asyncio.FIRST_COMPLETED)
            await asyncio.gather(*ended)    # (raises the error of a job)
            self._print()

    @contextlib.contextmanager
    def _words(self, place: Place) -> Iterator[FolderWords]:
        """Opens a folder, and gives the words by which parv gets its files."""
        with faults_of("open", shown(place.path[:-1]) or self.top.shown):
            folder = self.top.inner(place.path[:-1] or b".")
        with contextlib.closing(folder), folder_within(self.temporary) as temporary:
            yield FolderWords(folder, Parv(self.program, Links(temporary, (folder.place,)), False))

    async def _list(self, place: Place) -> None:
        """Finds the sets of a folder, and puts them into the queue, to be verified before all others."""
        packets = SetsInPacketFiles({}, [])
        sets: List[OneSet] = []
        try:
            with self._words(place) as words:
                for name in place.packet_files:
                    words.word_of(name, True)
                for at in range(0, len(place.packet_files), self.at_once):
                    await self._read(words, place, packets, place.packet_files[at:at + self.at_once])
                with contextlib.closing(PacketFiles(words.parv, list(words.paths), words.opener)) as files:
                    sets = self._sets(place, packets, files)
        except (Fault, OSError) as fault:
            place.lines, place.messages = [], {}
            for name in place.packet_files:
                place.faults.setdefault(name, _fault_of(fault))
            sets = self._sets(place, packets, None)
        place.has_lines = True
        self.waiting.extendleft(functools.partial(self._verify_set, place, each) for each in reversed(sets))

    async def _read(self, words: FolderWords, place: Place, packets: SetsInPacketFiles, packet_files: List[bytes]) -> None:
        """Lists the packets of packet files: in one run or, if that fails, in one run for each."""
        here = SetsInPacketFiles(words.paths, packet_files)
        fault: Optional[Fault] = None
        try:
            await words.parv.answer("packets", ["--", *(words.word_of(name, True) for name in packet_files)],
                                    takes=here.take)
            here.end()
        except Fault as why:
            fault = why
        if fault is not None and len(packet_files) > 1:
            for name in packet_files:
                await self._read(words, place, packets, [name])
            return
        packets.add(here)
        if fault is not None:
            place.faults[packet_files[0]] = fault

    def _sets(self, place: Place, packets: SetsInPacketFiles, files: Optional[PacketFiles]) -> List[OneSet]:
        """Returns the sets of a folder that are to be verified. The lines of the others are known then."""
        ids = {name: packets.ids.get(name, {}) for name in place.packet_files}
        by_set: Dict[str, List[bytes]] = {}
        without_packets: Dict[bytes, List[bytes]] = {}
        for name in place.packet_files:
            for owner in ids[name]:
                by_set.setdefault(owner, []).append(name)
            if not ids[name]:
                without_packets.setdefault(set_name_of(name), []).append(name)
        sets: List[OneSet] = []
        for owner, packet_files in by_set.items():
            name = set_name_of(packet_files[0])
            each = OneSet(place.add(), owner, name, packet_files + without_packets.get(name, []))
            if files is None or not self._is_none(place, each, packets, files):
                sets.append(each)
        named = {set_name_of(name) for name in place.packet_files if ids[name]}
        for name, packet_files in without_packets.items():
            if name not in named:
                self._add_without_set(place, name, packet_files[0])
        return sets

    def _is_none(self, place: Place, each: OneSet, packets: SetsInPacketFiles, files: PacketFiles) -> bool:
        """Returns whether it is known without parv that the packets of an ID are no set. Then the line is known too.
        This isn't said if one of its packet files could not be read."""
        if any(name in place.faults for name in each.packet_files):
            return False
        why = packets.why_none(each.id, files)
        if why is not None:
            self._put(place, each, Line(NO_SET, each.id, None, None, place.path, each.name, why), [])
        return why is not None

    def _add_without_set(self, place: Place, name: bytes, first: bytes) -> None:
        """Makes the line of packet files without a packet, which belong to no set."""
        fault = place.faults.pop(first, None)
        status, reason = (NO_SET, NO_MAIN) if fault is None else (fault.status, str(fault))
        if fault is not None:
            self.unsure.add(place.path)
        number = place.add(Line(status, None, None, None, place.path, name, reason))
        place.messages[number] = [reason]

    async def _verify_set(self, place: Place, each: OneSet) -> None:
        messages: List[str] = []
        try:
            with self._words(place) as words:
                packet_words = [words.word_of(name, True) for name in each.packet_files]
                the_set = await words.parv.set(packet_words, each.id)
                verification = Verification(words, the_set, packet_words, self.most_open, messages.append)
                state = await verification.state(self.options.tails, len(place.lines) > 1)
                messages += [f"the name {shown(name)} is refused: {why}"
                             for name, why in verification.files.refused.items()]
                others = {path: why for path, why in state.unread.items() if path not in verification.files.refused}
                if others:
                    messages.append(f"not looked at: {text_of(others)}")
            line = Line(state.status, each.id, state.verdict.need, state.verdict.have, place.path, each.name)
        except (Fault, OSError) as fault:
            why = _fault_of(fault)
            line = Line(why.status, each.id, None, None, place.path, each.name, str(why))
        self._put(place, each, line, messages)

    def _put(self, place: Place, each: OneSet, line: Line, messages: List[str]) -> None:
        place.lines[each.number] = line
        place.messages[each.number] = messages if line.reason is None else [*messages, line.reason]

    # Printing.

    def _print(self) -> None:
        """Prints the lines that are known, as far as all lines before them are."""
        while self.places and self.places[0].has_lines:
            place = self.places[0]
            while self.next < len(place.lines):
                line = place.lines[self.next]
                if line is None:
                    return
                for text in place.messages.pop(self.next, []):
                    output.say(f"{line.set_name}: {text}")
                self._print_set(line)
                self.next += 1
            for name, fault in sorted(place.faults.items()):
                output.say(f"{shown(place.path + name)}: {fault}")
                self.unsure.add(place.path)
                self._rises_to(fault.status)
            self.places.popleft()
            self.next = 0

    def _print_set(self, line: Line) -> None:
        """Prints the line of a set, and what the set has lost."""
        self.count += 1
        self._rises_to(line.status)
        before = None if self.state is None else self.state.sets.get(key_of(line))
        lost = [] if before is None else losses(line, before)
        if line.id is not None:
            self.sets[key_of(line)] = to_remember(line, before)
        shows = bool(line.status or not self.options.quiet)
        if self.options.json:
            fields = json_of(line)
            if self.state is not None:
                fields = json_with(fields, lost, before)
            self._write([json_text(fields)] if shows or lost else [])
        else:
            self._write([line.text] if shows else [])
            self._write(loss.text for loss in lost)
        if lost:
            self._rises_to(LOST)

    def _write(self, lines: Iterable[str]) -> None:
        lines = list(lines)
        if lines:
            output.clear_progress()
            output.tell(lines)

    def _compare(self, state: State) -> None:
        """Prints which sets are gone, and keeps the new state. If there is no packet file at all, the disk may not be
        mounted, so the earlier state stays."""
        for key, before in state.sets.items():
            if key in self.sets:
                continue
            if before.folder in self.unsure or any(before.folder.startswith(folder) for folder in self.unread):
                self.sets[key] = before
                continue
            loss = Loss(GONE, before, before)
            self._write([json_text(json_with(json_of(before, True), [loss], before)) if self.options.json else loss.text])
            self._rises_to(LOST)
        if not self.count:
            return
        if state.is_new:
            output.say(f"{state.shown} is new: this run has nothing to compare with")
        try:
            state.write(self.sets[key] for key in sorted(self.sets, key=lambda each: (each[0], each[1] or "")))
        except Fault as fault:
            output.say(str(fault))
            self._rises_to(fault.status)


def _fault_of(fault: Exception) -> Fault:
    """Returns the error of one set, after which the command goes on."""
    if isinstance(fault, Fault):
        return fault
    assert isinstance(fault, OSError)
    name = f"{shown(os.fsencode(fault.filename))}: " if isinstance(fault.filename, (str, bytes)) else ""
    return Fault(FILES, f"{name}{fault.strerror or fault}")


def tree(options: Options) -> int:
    """Runs the command, and returns its exit status."""
    program = arguments.needed_parv()
    with contextlib.ExitStack() as used:
        top = used.enter_context(contextlib.closing(Folder.open(options.folder)))
        state: Optional[State] = None
        if options.state is not None:
            state = used.enter_context(contextlib.closing(State(options.state, options.folder)))
        temporary = used.enter_context(temporary_folder())
        status = Tree(options, program, top, temporary, state).run()
    return status


def _number_of_jobs(text: str) -> int:
    if not re.fullmatch("[1-9][0-9]{0,4}", text):
        raise argparse.ArgumentTypeError("it is a number from 1 to 99999")
    return int(text)


def parser() -> arguments.Parser:
    reader = arguments.Parser("parv-tree", DESCRIPTION, EPILOG)
    reader.add_argument("folder", metavar="FOLDER", help="the folder above all sets")
    reader.add_argument("-j", metavar="N", dest="jobs", type=_number_of_jobs, default=1,
                        help="verify N sets at once (default: 1)")
    reader.add_argument("-q", dest="quiet", action="store_true", help="leave out the lines of sets that are complete")
    reader.add_argument("--tails", action="store_true", help=arguments.TAILS)
    reader.add_argument("--json", action="store_true", help="print a JSON object for each set, one on a line")
    reader.add_argument("--state", metavar="FILE", 
                        help="keep the state in FILE, and report what was lost since the last run")
    return reader


def run(reader: arguments.Parser, words: argparse.Namespace) -> int:
    if not words.folder:
        reader.error("missing argument: FOLDER")
    if words.state == "":
        reader.error("--state has no FILE")
    return tree(Options(os.fsencode(words.folder), words.jobs, words.quiet, words.tails, words.json,
                      None if words.state is None else os.fsencode(words.state)))


def main() -> int:
    return arguments.run_with_arguments(parser, run)
