"""Lets par2 make files in the work folder. It gets one packet file that is written for it, and links to the files. All
have names of their own, so par2 reads no packet that parv hasn't chosen, and no name of the set."""

from __future__ import annotations

import contextlib
import errno
import os
import stat
from typing import Dict, List, NamedTuple, NoReturn, Optional, Sequence, Set

from ..common import changes, output_and_progress as output
from ..common.faults import FILES, NO_REPAIR, Fault, NoProgram, Refusal, faults_of
from ..common.names import shown
from ..common.opened_folder import Folder
from ..common.parv import PacketLine
from ..common.programs import Call, Program, answer_of, find_program, run_to_end
from ..common.recovery_set import PacketFiles, RecoverySet, recovery_lines, write_for_par2
from ..common.search import ScannedFile
from ..common.signals import end_if_signalled
from ..common.slice_content import fill
from ..common.state_of_set import is_same
from .situation import Inspection, Situation
from .work_folder import FILES_OF_PAR2, WorkFolder, name_for, path_of

PACKETS = b"set.par2"
_NO_LINKS = (errno.EPERM, errno.EOPNOTSUPP, errno.ENOSYS)
UP = b"../../"          # from the folder in which par2 works to the one that is repaired


def needed_par2() -> Program:
    """Returns the program par2. Ends the command if there is none, since there is no repair without it."""
    program = find_program("PAR2", "par2")
    if program is None:
        name = shown(os.fsencode(os.environ.get("PAR2") or "par2"))
        raise NoProgram(NO_REPAIR, f"cannot run {name}: put par2 in PATH, or name it by PAR2")
    return program


class Tried(NamedTuple):
    """How par2 has ended: whether it may help to try it with other files, and what to say if some files aren't
    repaired."""
    may_try_again: bool
    text: str


class Bench:
    """The folder of the work folder in which par2 works."""

    def __init__(self, place: Folder, the_set: RecoverySet) -> None:
        self.place, self.the_set = place, the_set

    def write_packets(self, files: PacketFiles, recovery: Sequence[PacketLine]) -> None:
        most = sum(line.length for line in recovery)
        with output.doing("recovery slices are copied", most), faults_of("write", f"{self.place.shown}/set.par2"):
            with changes.new_file(self.place.place, PACKETS) as opened:
                names = [name_for(number) for number in range(len(self.the_set.files))]
                write_for_par2(opened, self.the_set, names, files, recovery, _show_progress)

    def link(self, name: bytes, path: bytes) -> None:
        """Shows par2 a file of the folder, under a name."""
        with faults_of("make a link in", self.place.shown):
            try:
                changes.make_link(self.place.place, name, UP + path)
            except OSError as fault:
                if fault.errno not in _NO_LINKS:
                    raise
                raise Fault(FILES, f"cannot make a link in {self.place.shown}: {fault.strerror}: this file system has "
                                   "no links, by which par2 gets the files; copy the folder to another one, and "
                                   "repair it there") from fault

    def clear(self) -> None:
        """Removes everything except the packet file."""
        with faults_of("remove what is in", self.place.shown):
            for name in self.place.entries():
                if name != PACKETS:
                    changes.remove_file(self.place.place, name)

    def repair(self, extra: Sequence[bytes]) -> Tried:
        """Lets par2 repair the linked files, with files under these further names."""
        program = needed_par2()
        with output.doing("par2 repair"):
            ended = run_to_end(answer_of(Call(program, [b"repair", b"-q", PACKETS, *extra], self.place.place)))
        text = (ended.out + b"\n" + ended.standard_error).replace(b"\r", b"\n")
        lines = [line for line in text.split(b"\n") if line.strip()]
        last = shown(lines[-1].strip()) if lines else ""
        if ended.status < 0:
            return Tried(False, f"par2 repair was ended by signal {-ended.status}")
        if ended.status == 0:
            return Tried(True, "par2 repair has ended")
        return Tried(ended.status not in (126, 127), f"par2 repair has failed with status {ended.status}: {last}")

    def source_of(self, name: bytes) -> Optional[bytes]:
        """Returns the path in the folder to which a name leads, if par2 has kept it as a link; otherwise None."""
        with contextlib.suppress(OSError):
            target = os.readlink(name, dir_fd=self.place.place)
            if target.startswith(UP):
                return target[len(UP):]
        return None

    def entries(self) -> Dict[bytes, os.stat_result]:
        return self.place.entries()


def _show_progress(done: int) -> None:
    """Shows how far a copy has got. A signal may end the command here."""
    end_if_signalled()
    output.show_progress(done)


class Par2Run:
    """The files that par2 makes in the work folder."""

    def __init__(self, inspection: Inspection, situation: Situation, work_folder: WorkFolder) -> None:
        self.inspection, self.work_folder = inspection, work_folder
        self.the_set, self.sources, self.repairs = situation.the_set, situation.sources, situation.repairs
        self.scanned = list(inspection.verification.scanned)

    def make(self) -> Dict[int, bytes]:
        """Returns the paths of the files that were made, by their numbers."""
        inspection = self.inspection
        with contextlib.closing(self.work_folder.inside.inner(FILES_OF_PAR2)) as inner:
            bench = Bench(inner, self.the_set)
            self._link(bench)
            bench.write_packets(inspection.packets,
                                recovery_lines(inspection.answer, inspection.packets, inspection.lines))
            linked = set(self.sources)
            others: List[bytes] = []
            for path in self.scanned:
                if path not in linked:
                    others.append(b"other%d" % len(others))
                    bench.link(others[-1], path)
            tried = bench.repair(others)
            made = self._look(bench)
            if len(made) < len(self.repairs) and tried.may_try_again:
                bench.clear()
                self._link(bench)
                self._assemble(bench)
                tried = bench.repair([])
                made = self._look(bench)
            if len(made) < len(self.repairs):
                self._fail(tried.text, made)
            return made

    def _fail(self, text: str, made: Dict[int, bytes]) -> NoReturn:
        if text == "par2 repair has ended":
            first = min(self.repairs - set(made))
            text += f", but {self.the_set.files[first].shown} isn't complete"
        raise Fault(NO_REPAIR, text)

    def _link(self, bench: Bench) -> None:
        """Shows par2 the whole files."""
        for number, source in enumerate(self.sources):
            if source is not None:
                bench.link(name_for(number), source)

    def _look(self, bench: Bench) -> Dict[int, bytes]:
        """Returns the files in the work folder that are complete according to parv."""
        there = bench.entries()
        wanted = [number for number in sorted(self.repairs) if name_for(number) in there]
        paths: Dict[int, bytes] = {}
        for number in wanted:
            name = name_for(number)
            source = bench.source_of(name)
            if source is not None:
                if source in self.inspection.verification.files.there:
                    paths[number] = source
            elif stat.S_ISREG(there[name].st_mode):
                paths[number] = path_of(FILES_OF_PAR2, name)
        sources = run_to_end(self.inspection.verification.sources_in_parts(list(dict.fromkeys(paths.values()))))
        made: Dict[int, bytes] = {}
        for number, path in paths.items():
            source = sources[number]        # the first of several files with this content
            if source is not None and (source == path or is_same(self.inspection.folder, source, path)):
                made[number] = path
        return made

    def _assemble(self, bench: Bench) -> None:
        """Puts the slices that parv has found into the files that are to be repaired, each at its offset."""
        the_set = self.the_set
        wanted = {number for one in self.repairs if the_set.files[one].sums for number in the_set.files[one].numbers}
        begun: Set[int] = set()
        owners = {number: one for one in self.repairs for number in the_set.files[one].numbers}
        search = self.inspection.search(self.scanned, wanted, True)
        with contextlib.closing(search.sightings()) as sightings, faults_of("write in", self.inspection.folder.shown):
            for at, offset, number in sightings:
                one = owners[number]
                if one not in begun:
                    with changes.new_file(bench.place.place, name_for(one)) as opened:
                        changes.set_length(opened, the_set.files[one].length)
                    begun.add(one)
                place = changes.open_file(bench.place.place, name_for(one))
                try:
                    self._place(place, one, number, search.files[at], offset)
                finally:
                    os.close(place)
                search.targets.discard(number)

    def _place(self, opened: int, one: int, number: int, scanned: ScannedFile, offset: int) -> None:
        the_set = self.the_set
        file = the_set.files[one]
        source = scanned.opener()
        try:
            data = os.pread(source, the_set.own_length(file, number - file.first), offset)
        finally:
            os.close(source)
        with contextlib.suppress(Refusal):      # then par2 says that the slice is missing
            fill(opened, data, (number - file.first) * the_set.size)
