"""Searches files for slices of a set, by `parv find`."""

from __future__ import annotations

import contextlib
import hashlib
import os
from typing import Callable, Dict, Generator, Iterator, List, NamedTuple, Sequence, Set, Tuple

from . import changes
from .faults import Fault, faults_of
from .names import shown
from .parv import LONGEST_LINE, MOST_FILES, NoAnswer, Parv, Sighting, read_sighting
from .recovery_set import Member, RecoverySet, packets_for
from .slice_content import is_there

WASTE = 1 << 24     # how many bytes may be searched in vain; each match of no target counts as LINE more
LINE = 4096
START = 1 << 22     # for each START bytes of packets, WASTE bytes may be searched in vain: each start reads all packets
TRIES = 3           # how often a search begins whose files change just then
AGAIN = 4           # after this number of matches, a slice that is no target any more leads to no other one
PACKET_FILE = b"wanted.par2"
Place = Tuple[int, int, int]        # the numbers of a cursor: a scanned file, an offset, and a slice in the set


class ScannedFile(NamedTuple):
    """A file that is searched: its word, its name in messages, its length, and what opens it."""
    word: str
    shown: str
    length: int
    opener: Callable[[], int]


def mark_of_files(files: Sequence[Tuple[bytes, int]]) -> str:
    """Returns the fingerprint of a list of scanned files for a cursor: the MD5 of their words and lengths."""
    mark = hashlib.md5()
    for word, length in files:
        for part in len(word).to_bytes(8, "little"), word, length.to_bytes(8, "little"):
            mark.update(part)
    return mark.hexdigest()


class Search:
    """A search that goes on from a cursor.

    `targets` has the numbers, in the whole set, of the slices that are looked for. After each match it may lose some.
    `at` is the place that the search has reached. If it `expects`, it also looks by itself for a short last slice, at
    its distance from each match of another slice of the same file. parv gets `most_files` of the files at once.
    """

    def __init__(self, the_set: RecoverySet, parv: Parv, files: Sequence[ScannedFile], tails: bool,
                 targets: Set[int], expects: bool = False, most_files: int = MOST_FILES - 1) -> None:
        self.the_set, self.parv, self.files = the_set, parv, files
        self.targets, self.expects = targets, expects
        self.at: Place = (0, 0, 0)
        self.flags = ["--tails"] if tails else []
        self.most_files = most_files
        self.lengths = [file.length for file in files]
        self.most_waste = WASTE
        self.idle: Callable[[], None] = lambda: None
        # (By the word as parv shows it.)
        self.by_word = {shown(os.fsencode(file.word)): number for number, file in enumerate(files)}
        self.by_id = {file.id: file.first for file in the_set.files if file.slices}
        self.owners: List[Member] = [file for file in the_set.files for _ in file.numbers]
        self.looks: Dict[int, Place] = {}       # the place at which a last slice was looked for, by the slice's number
        self.again: Dict[int, int] = {}         # how often slices were found that are no targets, by their numbers

    def sightings(self) -> Generator[Place, None, None]:
        """Yields each match of a target: the number of a scanned file, an offset, and the number of the slice.
        When the next one is asked for, the search has passed it."""
        place, name = self.parv.links.folder.place, self.parv.links.folder.shown
        while self.targets and self.at[0] < len(self.files):
            packets = packets_for(self.the_set, self._slices_for_parv())
            self.most_waste = WASTE * max(1, len(packets) // START)
            with faults_of("write in", name), changes.new_file(place, PACKET_FILE) as opened:
                changes.write(opened, packets)
            del packets
            try:
                yield from self._part()
            finally:
                with contextlib.suppress(OSError):
                    changes.remove_file(place, PACKET_FILE)

    def _slices_for_parv(self) -> Set[int]:
        """Returns the slices that parv looks for: the targets, and those that lead to one of them."""
        return self.targets.union(filter(self._leads, range(len(self.owners))))

    def _leads(self, number: int) -> bool:
        """Returns whether the last slice of the same file is short, still a target, and expected at its distance from
        this slice.

        A slice of zeros is found at each offset of an empty part of a disc, and for each match the checksums of a slice
        are read and compared. So a slice that was found AGAIN times after it was a target leads to nothing any more."""
        file = self.owners[number]
        return (self.expects and number < file.last and file.last in self.targets
                and self.the_set.is_short(file) and self.again.get(number, 0) < AGAIN)

    def _last_slice(self, file: int, offset: int, number: int) -> Iterator[Place]:
        """Yields the match of the short last slice at its distance from this match, if it is there."""
        if not self._leads(number):
            return
        owner = self.owners[number]
        last = owner.last
        place = file, offset + (last - number) * self.the_set.size, last
        if self.looks.get(last) != place:
            self.looks[last] = place
            own, sums = self.the_set.own_length(owner, last - owner.first), (owner.sums or [b""])[-1]
            with faults_of("read", self.files[file].shown):
                opened = self.files[file].opener()
                try:
                    there = is_there(opened, place[1], own, self.the_set.size, sums)
                finally:
                    os.close(opened)
            if there:
                yield place

    def _place_of(self, line: Sighting) -> Place:
        file, first = self.by_word.get(line.word), self.by_id.get(line.id)
        if file is None or first is None or line.number >= self.owners[first].slices:
            raise NoAnswer("find")
        place = file, line.offset, first + line.number
        # (Matches come in order, so they end. But a file may have become longer.)
        if place < self.at or line.offset >= self.lengths[file] and line.offset >= self._length_now(file):
            raise NoAnswer("find")
        return place

    def _length_now(self, file: int) -> int:
        with faults_of("read", self.files[file].shown):
            opened = self.files[file].opener()
            try:
                self.lengths[file] = os.fstat(opened).st_size
            finally:
                os.close(opened)
        return self.lengths[file]

    def _words(self, batch: range) -> List[str]:
        """Returns the arguments with which parv goes on in some of the files, of which the search has reached the
        first. At its beginning there is no cursor, which parv rejects if a file has another length now."""
        words = [self.files[file].word for file in batch]
        at: List[str] = []
        if self.at[1:] != (0, 0):
            mark = mark_of_files([(word.encode(), self.lengths[file]) for word, file in zip(words, batch)])
            at = ["--cursor", ":".join(map(str, ["2", self.the_set.id, mark, 0, *self.at[1:]]))]
        return [*self.flags, *at, "--", PACKET_FILE.decode(), *words]

    def _part(self) -> Iterator[Place]:
        """Yields the matches in the next files, as long as the search for these slices is worth its time."""
        batch = range(self.at[0], min(len(self.files), self.at[0] + self.most_files))
        for tries in range(TRIES):
            try:
                yield from self._matches(self._words(batch), sum(self.lengths[file] for file in batch))
                return
            except Fault:
                before = [self.lengths[file] for file in batch]
                if [self._length_now(file) for file in batch] == before or tries == TRIES - 1:
                    raise

    def _lines(self, words: List[str], most: int) -> Generator[Sighting, None, None]:
        """Yields what parv writes, as it comes. Whenever all of it was taken, `idle` is called: more may come late."""
        rest = b""
        with self.parv.pieces("find", words, most) as pieces:
            for piece in pieces:
                *lines, rest = (rest + piece).split(b"\n")
                for line in lines:
                    if line == b"end":
                        return
                    yield read_sighting(line)
                if len(rest) > LONGEST_LINE:
                    raise NoAnswer("find")
                self.idle()
        raise NoAnswer("find")

    def _matches(self, words: List[str], most: int) -> Iterator[Place]:
        """Yields the matches that parv finds.

        Slices that are no targets any more are found again at other places: a slice of zeros at each offset of an empty
        part of a disc. For each such match, parv computes an MD5. Once that has cost as much as a new start, the search
        starts again at its place, without these slices.
        """
        waste, files = 0, len(words) - words.index("--") - 2
        end = self.at[0] + files, 0, 0
        with contextlib.closing(self._lines(words, most)) as lines:
            for line in lines:
                file, offset, number = self._place_of(line)
                yield from self._last_slice(file, offset, number)
                if number in self.targets:
                    yield file, offset, number
                elif self._leads(number):
                    self.again[number] = self.again.get(number, 0) + 1
                else:
                    waste += self.the_set.size + LINE
                self.at = (file, offset, number + 1)
                if waste > self.most_waste or not self.targets:
                    return
        self.at = end
