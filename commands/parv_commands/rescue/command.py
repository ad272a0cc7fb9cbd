"""parv-rescue: copies slices of a set out of other files, such as the image of a disc, into files of the set."""

from __future__ import annotations

import argparse
import contextlib
import functools
import hashlib
import os
import stat
import time
from typing import Callable, Dict, List, NamedTuple, Optional, Set, Tuple

from ..common import arguments, changes, output_and_progress as output, records_of_this_user, signals
from ..common.faults import FILES, NO_SET, USAGE, Fault, Refusal, faults_of
from ..common.files_on_command_line import CommandFiles, link_files, most_files_at_once, read_set
from ..common.names import base_of, shown
from ..common.opened_folder import Folder
from ..common.parv import Links, Parv, temporary_folder
from ..common.programs import run_to_end
from ..common.recovery_set import Member, RecoverySet, packets_for
from ..common.search import ScannedFile, Search
from ..common.slice_content import crc_of, is_there, md5_of, zeros_in_holes
from ..common.state_of_set import FolderWords, Verification
from .resume_record import KIND, NAME, Record, Stamp, is_in, stamp_of
from .writer import OTHER, PLACE_IN_USE, Writer

WITHOUT_TAILS, WITH_TAILS = "expected", "tails"     # the two kinds of search, as the record names them
MOST_TAILS = 256        # the most lengths that parv looks for at once
PAUSE = 4               # the least number of seconds between two entries into the record
FREE_ZEROS = 1 << 30    # the most zeros in holes that a run hashes, in addition to ..
MOST_ZEROS = 64         # .. this number of zeros for each byte of a file that isn't in a hole
WHOLE = "whole"         # a file that isn't seen to lack a slice, so parv is asked whether it is complete
DESCRIPTIONS = b"descriptions.par2"     # of the files only: without checksums of slices, parv reads each file once

DESCRIPTION = """\
Searches an image, a download or other files for the slices of a PAR2 set, and
copies each slice to its place in a file below FOLDER. The names of the searched
files don't matter.

  parv-rescue saved photos.par2 disc.img

You may interrupt it. Run it again to continue: with the same arguments, with
--tails, or with other files such as a second image. Only intact slices are
copied, so keep the searched files.
"""
EPILOG = """\
The last slice of a file is usually shorter than the others. It is found at its
distance from other slices of the file. With --tails it is found anywhere, as is
a file that is shorter than a slice. A message says if --tails might find more.

At the end there is a line for each file: `complete`, `damaged`, `wrong`,
`unverified`, `missing` or `refused`. After a damaged file, each hole in it has
a line `hole OFFSET LENGTH NAME`.

exit status:
  0  all files of the set are complete
  1  a file of the set isn't complete
  3  usage error, no packet file, or FOLDER has other files or another set
  4  no usable set, or --tails and short slices of more than 256 lengths
  6  a file can't be read or written, or parv can't be run
  8  out of memory
PARV names the program if it isn't in PATH. See man parv-rescue.
"""


class Options(NamedTuple):
    """The folder, files and options of the command line."""
    folder: bytes
    files: List[bytes]
    tails: bool
    set_id: Optional[str]


def open_folder(path: bytes) -> Folder:
    """Opens the folder that is written to. It must be new, empty, or have a record."""
    with faults_of("make", shown(path)):
        changes.make_path(path)
    folder = Folder.open(path)
    if folder.entries() and not is_in(folder):
        raise Fault(USAGE, f"{folder.shown} isn't empty, and has no {NAME.decode()}")
    return folder


def bytes_at(source: ScannedFile, offset: int, own: int, size: int) -> Tuple[bytes, bytes]:
    """Returns the first `own` bytes of a slice at the offset of a match, and their checksums with zeros up to the slice
    size."""
    with faults_of("read", source.shown):
        opened = source.opener()
        try:
            data = os.pread(opened, own, offset)
        finally:
            os.close(opened)
    pieces = [data, bytes(size - len(data))]
    return data, md5_of(pieces) + crc_of(pieces)


def mark_of(files: CommandFiles, the_set: RecoverySet) -> str:
    """Returns a fingerprint of what is searched: the scanned files, and which files of the set have checksums of
    slices. (With more packet files, more of them may have some.)"""
    text = " ".join([files.mark, *(file.id for file in the_set.files if file.sums)])
    return hashlib.md5(text.encode()).hexdigest()


class States:
    """The states of the files at the end of a run, as their content is then. A file is complete if parv says so."""

    def __init__(self, the_set: RecoverySet, writer: Writer, verification: Verification) -> None:
        self.the_set, self.folder, self.writer, self.verification = the_set, writer.folder, writer, verification
        self.zeros = FREE_ZEROS             # how many zeros in holes may still be hashed
        self.counts = {file.id: sum(map(writer.has, file.numbers)) for file in the_set.files}
        self._stamps: Dict[str, Stamp] = {}

    def states(self) -> List[str]:
        """Returns the state of each file. If something else is in the place of one, it is refused."""
        states = [self._unless_refused(file, self._look) for file in self.the_set.files]
        names = [file.name for file, state in zip(self.the_set.files, states) if state == WHOLE]
        sources = run_to_end(self.verification.sources_in_parts(names))
        for number, (file, source) in enumerate(zip(self.the_set.files, sources)):
            if states[number] == WHOLE:
                states[number] = self._unless_refused(file, functools.partial(self._verdict, source == file.name))
        return states

    def _unless_refused(self, file: Member, look: Callable[[Member], str]) -> str:
        if file.id not in self.writer.refused_files:
            try:
                return look(file)
            except Refusal as why:
                self.writer.refuse(file, str(why))
            except OSError as fault:
                self.writer.refuse(file, f"its place can't be read: {fault.strerror}")
        return "refused"

    def _look(self, file: Member) -> str:
        """Returns the state of a file as far as it is known without parv."""
        place = self._open(file)
        if place is None:
            if self.counts[file.id]:
                raise Refusal(OTHER)
            return "missing"
        try:
            before = os.fstat(place)
            if self._is_own(file, before) and before.st_size == 0 < file.length:
                return "missing"        # a run was ended before it gave the file its length
            if not stat.S_ISREG(before.st_mode) or before.st_size != file.length:
                raise Refusal(self._other(file))
            state = self._read(file, place)
            if stamp_of(os.fstat(place)) != stamp_of(before) or state != WHOLE and not self._is_own(file, before):
                raise Refusal(self._other(file))
            self._stamps[file.id] = stamp_of(before)
            return state
        finally:
            os.close(place)

    def _verdict(self, is_complete: bool, file: Member) -> str:
        """Returns the state of a file that has stayed the same while parv read it."""
        now = self.folder.look(file.name)
        if now is None or stamp_of(now) != self._stamps[file.id] or not is_complete and not self._is_own(file, now):
            raise Refusal(self._other(file))
        if is_complete:
            return "complete"
        count = self.counts[file.id]
        return "wrong" if count == file.slices else "damaged" if count else "missing"

    def _is_own(self, file: Member, now: os.stat_result) -> bool:
        """Returns whether a file is as runs have left it."""
        return self.writer.stamps.get(file.id) == stamp_of(now)

    def _other(self, file: Member) -> str:
        return OTHER if file.id in self.writer.stamps else PLACE_IN_USE

    def _open(self, file: Member) -> Optional[int]:
        """Opens what has the name of a file, or returns None if nothing has."""
        try:
            with self.folder.above(file.name) as above:
                return os.open(base_of(file.name), os.O_RDONLY | os.O_NOFOLLOW | os.O_NONBLOCK | os.O_CLOEXEC,
                               dir_fd=above)
        except FileNotFoundError:
            return None

    def _read(self, file: Member, place: int) -> str:
        """Returns the state of an open file. It is whole if no slice is seen to be missing."""
        size = self.the_set.size
        for number, sums in zip(file.numbers, file.sums or []):
            at = number - file.first
            if not self.writer.has(number) and not is_there(
                    place, at * size, self.the_set.own_length(file, at), size, sums):
                return "damaged" if self.counts[file.id] else "missing"
        return WHOLE if self._may_be_hashed(file, place) else "unverified"

    def _may_be_hashed(self, file: Member, place: int) -> bool:
        """Returns whether the holes of a file aren't much longer than the rest. Then the zeros there are hashed."""
        zeros = zeros_in_holes(place, file.length)
        more = max(0, zeros - MOST_ZEROS * (file.length - zeros))
        if more > self.zeros:
            output.say(f"{file.shown} isn't verified: {zeros} of its {file.length} bytes are in holes")
            return False
        self.zeros -= more
        return True


class Rescue:
    """A run over a folder. parv gets `most_files` of the searched files at once."""

    def __init__(self, the_set: RecoverySet, files: CommandFiles, writer: Writer, verification: Verification,
                 most_files: int) -> None:
        self.the_set, self.files, self.parv = the_set, files, verification.words.parv
        self.writer, self.verification, self.most_files = writer, verification, most_files
        self.complete_files: Set[str] = set()     # the IDs of files that are reported as complete

    def search(self, tails: bool, targets: Set[int]) -> Search:
        return Search(self.the_set, self.parv, self.files.scanned_files, tails, targets, not tails,
                      self.most_files)

    def run(self, tails: bool) -> Tuple[int, List[str], int]:
        """Returns the exit status, the lines that say what is there, and how many missing short slices a search with
        --tails might find."""
        self.writer.prepare()
        search = self._search_without_tails()
        if self.writer.has_skipped:     # now it is known which files runs have begun to write
            search = self._search_without_tails()
        short = {number for number in search.targets
                 if number == search.owners[number].last and self.the_set.is_short(search.owners[number])}
        if tails and short:
            lengths = {search.owners[number].length % self.the_set.size for number in short}
            if len(lengths) > MOST_TAILS:
                raise Fault(NO_SET, "no usable set: too many tails")
            self._searches(self.search(True, short), WITH_TAILS)
        self.writer.refuse_begun()
        status, lines = self._ending()
        missing = {number for number in short if search.owners[number].id not in self.complete_files}
        return status, lines, 0 if tails else self._may_find(search, missing)

    def _search_without_tails(self) -> Search:
        """Searches for what is missing, without --tails, and returns the search."""
        writer = self.writer
        targets = {number for file in self.the_set.files if file.sums and file.id not in writer.refused_files
                   for number in file.numbers if not writer.has(number)}
        search = self.search(False, targets)
        self._searches(search, WITHOUT_TAILS)
        return search

    def _start_of(self, way: str) -> Tuple[int, int, int]:
        """Returns the place from which this kind of search goes on in these files. An earlier run may have reached
        it."""
        nothing = 0, 0, 0
        places = {} if self.writer.must_search_again else self.writer.record.places
        return places.get((way, self.writer.mark), nothing)

    def _may_find(self, search: Search, short: Set[int]) -> int:
        """Returns how many short slices a search with --tails would still look for; 0 if it would be refused."""
        lengths = {search.owners[number].length % self.the_set.size for number in short}
        may = 0 < len(lengths) <= MOST_TAILS and self._start_of(WITH_TAILS)[0] < len(self.files.scanned_files)
        return len(short) if may else 0

    def _searches(self, search: Search, way: str) -> None:
        """Copies what a search finds, from the place at which it goes on, and records how far it came."""
        search.at, search.idle = self._start_of(way), self.writer.flush
        try:
            self._copy(search, way)
        except BaseException:
            with contextlib.suppress(Fault, OSError):
                self.writer.save(search, way)
            raise
        self.writer.save(search, way)

    def _copy(self, search: Search, way: str) -> None:
        """Copies each slice that the search finds."""
        key: Optional[Tuple[int, int, int]] = None
        data, sums = b"", b""
        with contextlib.closing(search.sightings()) as sightings:
            for at, offset, number in sightings:
                file, source = search.owners[number], search.files[at]
                own = self.the_set.own_length(file, number - file.first)
                if key != (at, offset, own):        # equal slices are found at one place, one after another
                    key = (at, offset, own)
                    data, sums = bytes_at(source, offset, own, self.the_set.size)
                self._take(search, file, number, data, sums, f"{source.shown} has changed at {offset}")
                if time.monotonic() - self.writer.save_time > PAUSE:
                    self.writer.save(search, way)

    def _take(self, search: Search, file: Member, number: int, data: bytes, sums: bytes, message: str) -> None:
        """Writes a slice if its bytes still have its checksums."""
        if not file.sums or sums != file.sums[number - file.first]:
            self.writer.must_search_again = True
            output.say(message)
            return
        is_taken = self.writer.add_slice(file, number - file.first, data)
        if is_taken:
            search.targets.discard(number)
        elif is_taken is False:
            search.targets.difference_update(file.numbers)

    # The lines at the end.

    def _holes(self, file: Member) -> List[Tuple[int, int]]:
        """Returns the offset and length of each hole of a file. Slices that are missing in a row make one hole."""
        gaps: List[Tuple[int, int]] = []
        for number in range(file.slices):
            if not self.writer.has(file.first + number):
                at, length = number * self.the_set.size, self.the_set.own_length(file, number)
                if gaps and sum(gaps[-1]) == at:
                    gaps[-1] = (gaps[-1][0], gaps[-1][1] + length)
                else:
                    gaps.append((at, length))
        return gaps

    def _lines_about(self, file: Member, state: str, count: int) -> List[str]:
        """Returns the lines about a file: its state, and its holes."""
        if state in ("complete", "refused"):
            return [f"{state} {file.shown}"]
        gaps = self._holes(file) if state == "damaged" else []
        return [f"{state} {file.shown} {count}/{file.slices}",
                *[f"hole {at} {length} {file.shown}" for at, length in gaps]]

    def _ending(self) -> Tuple[int, List[str]]:
        states = States(self.the_set, self.writer, self.verification)
        lines: List[str] = []
        there = 0
        for file, state in zip(self.the_set.files, states.states()):
            count = states.counts[file.id]
            lines += self._lines_about(file, state, count)
            if state == "complete":
                self.complete_files.add(file.id)
            there += 0 if state == "refused" else count
        self.writer.save()
        count = sum(file.slices for file in self.the_set.files)
        lines.append(f"slices {there}/{count}, copied now {self.writer.copy_count}")
        if self.writer.is_limited:
            return FILES, lines
        return (0 if len(self.complete_files) == len(self.the_set.files) else 1), lines


def rescue(options: Options) -> int:
    """Runs the command, and returns its exit status."""
    program = arguments.needed_parv()
    most_files = most_files_at_once()
    with temporary_folder() as temporary:
        parv = Parv(program, Links(temporary, ()))
        files = link_files(parv, options.files)
        answer, the_set = read_set(parv, files, options.set_id)
        records_of_this_user.seal_to_write(KIND)       # so that nothing is made if there can't be a record
        folder = open_folder(options.folder)
        writer = Writer(the_set, folder, Record(folder, the_set.id), mark_of(files, the_set))
        parv.links.folders = (folder.place,)
        with faults_of("write in", temporary.shown), changes.new_file(temporary.place, DESCRIPTIONS) as opened:
            changes.write(opened, packets_for(the_set, set()))
        verification = Verification(FolderWords(folder, parv), answer, [DESCRIPTIONS.decode()], most_files, output.say)
        status, lines, missing = Rescue(the_set, files, writer, verification, most_files).run(options.tails)
    signals.forget_signals()
    output.tell(lines)
    if missing:
        output.say(f"short slices missing: {missing}; --tails might find more")
    return status


def parser() -> arguments.Parser:
    reader = arguments.Parser("parv-rescue", DESCRIPTION, EPILOG)
    reader.add_argument("folder", metavar="FOLDER",
                        help="a folder that is new, empty, or of an earlier run; nothing in it is overwritten")
    reader.add_argument("files", metavar="FILES", nargs="+", help=arguments.SEARCHED)
    reader.add_argument("--tails", action="store_true",
                        help="also look for missing short slices at each offset; this can take long, so leave it out "
                             "at first")
    reader.add_argument("--set", metavar="ID", type=arguments.set_id_of, help=arguments.CHOSEN_SET)
    return reader


def run(reader: arguments.Parser, words: argparse.Namespace) -> int:
    if not words.folder:
        reader.error("missing argument: FOLDER")
    if os.path.isfile(words.folder):
        reader.error(f"{words.folder} is a file: FOLDER comes before FILES")
    return rescue(Options(os.fsencode(words.folder), list(map(os.fsencode, words.files)), words.tails, words.set))


def main() -> int:
    return arguments.run_with_arguments(parser, run)
