"""What a repair finds in a folder: the set, and which of the files there have which content."""

from __future__ import annotations

import functools
import re
import stat
from typing import Dict, List, Mapping, NamedTuple, Optional, Sequence, Set

from ..common import names, output_and_progress as output
from ..common.faults import FILES, IMPOSSIBLE, NO_REPAIR, NO_SET, USAGE, Fault, Refusal
from ..common.names import RESERVED_NAMES, shown
from ..common.opened_folder import Folder, Identity
from ..common.parv import Links, PacketLine, Parv, SetAnswer
from ..common.programs import Program, run_to_end
from ..common.recovery_set import PacketFiles, RecoverySet, names_of_others, read_recovery_set
from ..common.search import ScannedFile, Search
from ..common.signals import end_if_signalled
from ..common.state_of_set import (FolderWords, PacketFileNames, SetState, Sources, Verification, is_same,
                                   packet_files_of, text_of)
from . import work_folder
from .work_folder import FILES_OF_PAR2, MADE, name_for, path_of

_SET_ASIDE = re.compile(rb"(?:%s|%s)\.[1-9][0-9]*" % (re.escape(work_folder.KEPT), re.escape(work_folder.EARLIER_KEPT)))


class Situation(NamedTuple):
    """The set, the files of the folder, and for each file of the set the path of one with its content: its own name, if
    that is one. `repairs` has the numbers of those that par2 has to make. Files with `names_of_others` aren't renamed,
    since other sets have these names."""
    folder: Folder
    the_set: RecoverySet
    there: Dict[bytes, Identity]
    sources: Sources
    repairs: Set[int]
    names_of_others: Set[bytes]
    counts: str

    @property
    def origins(self) -> List[bytes]:
        """Returns the path that has or will have the content of each file. An empty file is made, even if others are
        empty."""
        return [path_of(MADE, b"empty%d" % number) if file.length == 0 and source != file.name
                else source or path_of(FILES_OF_PAR2, name_for(number))
                for number, (file, source) in enumerate(zip(self.the_set.files, self.sources))]

    def with_made(self, made: Dict[int, bytes]) -> Situation:
        """Returns the situation once files were made, whose paths these are by their numbers."""
        return self._replace(sources=[made.get(number, source) for number, source in enumerate(self.sources)])


def refuse_mounted(folder: Folder, subfolders: Set[bytes]) -> None:
    """Ends the run if one of these subfolders isn't in the file system of the folder, or is mounted from there: no file
    can be moved into it in one call."""
    for path in sorted(subfolders):
        end_if_signalled()
        if folder.is_elsewhere(path):
            raise Refusal("it reaches into another file system")


class Inspection:
    """Looks at a folder that is to be repaired, and has parv look at its files again later. `set_id` chooses the set,
    if there are several."""

    def __init__(self, folder: Folder, program: Program, links: Links, most_open: int, set_id: Optional[str]) -> None:
        self.folder = folder
        self.parv = Parv(program, links)
        self.words = FolderWords(folder, self.parv)
        self.packet_files = self._packet_files()
        packet_words = [self.words.word_of(name, True) for name in self.packet_files.names]
        self.lines: List[PacketLine] = []
        self.answer = self._set_of(packet_words, set_id)
        self.packets = PacketFiles(self.parv, packet_words, self.words.opener)
        with output.waiting("packets are read"):
            self.the_set: RecoverySet = read_recovery_set(self.answer, self.packets, self.lines)
        self.verification = Verification(self.words, self.answer, packet_words, most_open, self.report)

    def report(self, text: str) -> None:
        output.say(f"{self.folder.shown}: {text}")

    def close(self) -> None:
        self.packets.close()

    # The set.

    def _packet_files(self) -> PacketFileNames:
        packet_files = packet_files_of(self.folder)
        for name, why in packet_files.unread.items():
            self.report(f"{shown(name)} is a link, and isn't read" if why == "a link" else
                        f"{shown(name)} isn't read: {why}")
        if not packet_files.names:
            is_closed = any(why != "a link" for why in packet_files.unread.values())
            raise Fault(FILES if is_closed else USAGE, "no packet file" + (" that can be read" if is_closed else ""))
        return packet_files

    def _set_of(self, packet_words: Sequence[str], set_id: Optional[str]) -> SetAnswer:
        """Returns the set of the packet files, or the one that was chosen."""
        try:
            self.lines = run_to_end(self.parv.packets(packet_words))
            mains = [line for line in self.lines if line.kind == "main"]
            named = [line for line in mains if names.is_packet_file(self.words.paths[line.word])]
            sets = list(dict.fromkeys(line.set for line in named or mains))
            if set_id is None and len(sets) > 1:
                raise Fault(USAGE, f"there are several sets, of which --set takes one: {' '.join(sets)}")
            if set_id is None and not sets:
                raise Fault(NO_SET, "no usable set: no main")
            return run_to_end(self.parv.set(packet_words, set_id or sets[0]))
        except Fault as fault:
            if fault.status != NO_SET or not self.packet_files.unread:
                raise
            raise Fault(FILES, f"can't tell whether there is a set: {fault}; not read: "
                               f"{text_of(self.packet_files.unread)}") from fault

    # The files.

    def state(self) -> SetState:
        """Returns the state of the set. Ends the run if too little is left for a repair."""
        self.verification.gather()      # (always, since it looks for more than the set: what isn't read, and backups)
        state, refusal = run_to_end(self.verification.state_by_any_means())
        if state.verdict.status == IMPOSSIBLE and None in state.sources:
            raise self._too_few(state, refusal)
        return state

    def situation(self, state: SetState) -> Situation:
        """Returns what there is to do. Ends the run if a file can't get its name."""
        self._refuse_names()
        self._refuse_unread(state)
        refuse_mounted(self.folder, {names.above(file.name) for file, source in zip(self.the_set.files, state.sources)
                                     if source != file.name})
        repairs = {number for number, (file, source) in enumerate(zip(self.the_set.files, state.sources))
                   if source is None and file.length > 0}
        return Situation(self.folder, self.the_set, state.there, state.sources, repairs,
                         names_of_others(self.answer, self.packets, self.lines), state.verdict.counts)

    def _text_of_unread(self) -> str:
        return text_of({**self.packet_files.unread, **self.verification.files.unread})

    def report_unread(self) -> None:
        """Says what isn't looked at, except what was said of packet files."""
        if self.verification.files.unread:
            self.report(f"not looked at: {self._text_of_unread()}")

    def _too_few(self, state: SetState, refusal: Optional[Fault]) -> Fault:
        """Returns the error that not enough is left for a repair. If something wasn't looked at, nobody knows that."""
        for name, now in self.folder.entries().items():
            if stat.S_ISDIR(now.st_mode) and _SET_ASIDE.fullmatch(name):    # files of the set may be there
                state.unread[name] = "set aside"
        counts = state.verdict.counts + (f"; {refusal}" if refusal else "")
        if not any(each.found_slices for each in state.verdict.states):
            counts += "; nothing of the set is found"
        unread = self._text_of_unread()
        if unread:
            return Fault(FILES, f"can't tell whether enough is left for a repair: {counts}; not looked at: {unread}")
        return Fault(IMPOSSIBLE, f"not enough for a repair: {counts}")

    def _refuse_names(self) -> None:
        """Ends the run if a name of the set leads elsewhere, or something is in its place. Anyone may have made the
        set."""
        why = names.refusals([file.name for file in self.the_set.files], RESERVED_NAMES)
        for number, file in enumerate(self.the_set.files):
            reason = why.get(number) or self.folder.obstacle(file.name, work_folder.NAME)
            if reason:
                why[number] = reason
                self.report(f"the name {file.shown} is refused: {reason}")
        if why:
            raise Fault(NO_SET, "the set is refused for its names")

    def _refuse_unread(self, state: SetState) -> None:
        """Ends the run if it would have to replace a file that it hasn't looked at."""
        for file, source in zip(self.the_set.files, state.sources):
            if source != file.name and file.name in state.unread:
                raise Fault(FILES, f"{file.shown} isn't looked at ({state.unread[file.name]}), and isn't replaced: "
                                   f"{state.verdict.counts}")

    # Later looks.

    def verify(self, new_names: Mapping[bytes, bytes]) -> None:
        """Ends the run unless all files are complete now. Some have new names, among which may be packet files. A name
        counts too if it is listed in another form than the set has it, as on a file system that lists all names in lower
        case."""
        self.verification.packet_words = [self.words.word_of(new_names.get(name, name), True)
                                          for name in self.packet_files.names]
        self.verification.gather()
        state = run_to_end(self.verification.state())
        if not all(source is not None and (source == file.name or self._leads_to(file.name, source))
                   for file, source in zip(self.the_set.files, state.sources)):
            raise Fault(NO_REPAIR, f"it isn't complete after the repair: {state.verdict.counts}")

    def _leads_to(self, name: bytes, source: bytes) -> bool:
        return self.folder.is_file(name) and is_same(self.folder, name, source)

    def search(self, paths: Sequence[bytes], wanted: Set[int], tails: bool) -> Search:
        """Returns a search for slices in files of the folder."""
        there = self.verification.files.there
        scanned = [ScannedFile(self.words.word_of(path), shown(path), there[path].length or 0,
                           functools.partial(self.folder.open_to_read, path)) for path in paths]
        return Search(self.the_set, self.parv, scanned, tails, wanted, True)
