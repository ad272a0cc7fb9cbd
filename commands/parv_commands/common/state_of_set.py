"""Answers what state a set is in, with the files that are in a folder.

It decides for all commands which files of the folder are packet files, which files parv gets and by which words, and
what the verdict of parv means:

- A file of the set is complete if parv finds its whole content in a file, and that file has its name, or the same bytes
  as the one that has. This counts only if that file has stayed the same since it was listed.
- What isn't looked at can only make a verdict better. So if something wasn't, nobody can tell that too little is left.
"""

from __future__ import annotations

import contextlib
import errno
import functools
import itertools
import os
import re
import stat
from typing import BinaryIO, Callable, Container, Dict, Iterable, List, NamedTuple, Optional, Sequence, Tuple

from . import changes, names, output_and_progress as output
from .faults import FILES, IMPOSSIBLE, NO_SET, POSSIBLE, Fault, faults_of
from .names import shown
from .opened_folder import Folder, Identity, identity_of
from .output_and_progress import Report
from .parv import MOST_FILES, SPARE_FILES, NoAnswer, Parv, SetAnswer, SetFile, Verdict, path_below
from .recovery_set import MAGIC
from .signals import end_if_signalled

HERE = b"f"             # the link to the folder
PLACE = 9               # bytes that an argument takes in addition to its own
PART_OF_ROOM = 4        # paths take at most a fourth of a command line's capacity, so that short words fit too
PIECE = 1 << 20
MOST_NAMED = 3          # how many files a line names that aren't looked at
_NUMBER = re.compile(rb"[0-9]+(\.par2)?")
Opener = Callable[[], int]
Sources = List[Optional[bytes]]     # for each file of the set, the path of a file with its content
Unread = Dict[bytes, str]           # what isn't looked at, and why


# Which files there are.

def why_unread(folder: Folder, name: bytes, now: os.stat_result, is_wanted: bool) -> Optional[str]:
    """Returns why the content at a name of a folder isn't read, or None if it is, or if none is there. (A link that
    leads to no file has none, but it may be at a name that is wanted.)"""
    if stat.S_ISLNK(now.st_mode):
        try:
            is_file = stat.S_ISREG(os.stat(name, dir_fd=folder.place).st_mode)
        except OSError as fault:
            is_file = fault.errno != errno.ENOENT
        return "a link" if is_wanted or is_file else None
    if stat.S_ISREG(now.st_mode) and not os.access(name, os.R_OK, dir_fd=folder.place, effective_ids=True):
        return os.strerror(errno.EACCES)
    return None


def _may_read(folder: Folder, name: bytes) -> bool:
    with faults_of("open", shown(name)), folder.above(name) as place:
        return os.access(names.base_of(name), os.R_OK, dir_fd=place, effective_ids=True)


def link_on_the_way(folder: Folder, name: bytes) -> Optional[bytes]:
    """Returns the front of a plain name at which there is a link, or None."""
    at = 0
    with faults_of("open", shown(name)), contextlib.closing(folder.levels(name)) as levels:
        for _, part, now in levels:
            at += len(part) + 1
            if now is not None and stat.S_ISLNK(now.st_mode):
                return name[:at - 1]
    return None


def _begins_as_packet_file(folder: Folder, name: bytes) -> bool:
    with contextlib.suppress(OSError):
        opened = folder.open_to_read(name)
        try:
            return os.pread(opened, len(MAGIC), 0) == MAGIC
        finally:
            os.close(opened)
    return False


class PacketFileNames(NamedTuple):
    """The names of packet files in a folder, and of those that can't be read."""
    names: List[bytes]
    unread: Unread


def packet_files_of(folder: Folder) -> PacketFileNames:
    """Returns the packet files of a folder: those that are called so, and those that begin with a packet. parv gets no
    more than it takes."""
    files: List[bytes] = []
    unread: Unread = {}
    for name, now in folder.entries().items():
        end_if_signalled()
        if names.is_packet_file(name):
            why = why_unread(folder, name, now, True)
            if why is not None:
                unread[name] = why
            elif stat.S_ISREG(now.st_mode):
                files.append(name)
        elif stat.S_ISREG(now.st_mode) and now.st_size >= len(MAGIC) and _begins_as_packet_file(folder, name):
            files.append(name)
    files.sort(key=lambda name: (not names.is_packet_file(name), name))
    for name in files[MOST_FILES:]:
        unread[name] = f"parv takes {MOST_FILES} files"
    return PacketFileNames(files[:MOST_FILES], unread)


def subfolders_of(folder: Folder, members: Iterable[bytes]) -> List[bytes]:
    """Returns the subfolders in plain names of a set, each with a slash after it."""
    is_there: Dict[bytes, bool] = {}
    for name in members:
        end_if_signalled()
        above = names.above(name)
        if above and above not in is_there:
            with faults_of("open", shown(above)):
                is_there[above] = folder.is_folder(above)
    return sorted(path + b"/" for path, is_folder in is_there.items() if is_folder)


class FilesOfSet(NamedTuple):
    """The files with which a set may be verified, what isn't looked at, and the names of the set that are refused."""
    there: Dict[bytes, Identity]
    unread: Unread
    refused: Dict[bytes, str]


def files_of(folder: Folder, members: Sequence[SetFile]) -> FilesOfSet:
    """Returns the files of a folder, and of the subfolders that names of the set have. A file that is called as packet
    files are is among them only if the set has its name. (Another one that begins with a packet is, since it may be
    joined from several files.)"""
    own = {file.name for file in members}
    refused: Dict[bytes, str] = {}
    for name in own:
        why = names.refusal(name, ())       # (in the commands' own entries nothing is written, but files are read)
        if why is not None:
            refused[name] = why
    there: Dict[bytes, Identity] = {}
    unread: Unread = {}
    for path in [b"", *subfolders_of(folder, own - set(refused))]:
        end_if_signalled()
        with faults_of("open", shown(path[:-1]) or folder.shown):
            inner = folder.inner(path[:-1] or b".")
        with contextlib.closing(inner):
            for name, now in inner.entries().items():
                is_own = path + name in own
                if not is_own and names.is_packet_file(name):
                    continue
                why = why_unread(inner, name, now, is_own)
                if why is not None:
                    unread[path + name] = why
                elif stat.S_ISREG(now.st_mode):
                    there[path + name] = identity_of(now)
    return FilesOfSet(there, unread, refused)


def in_order_of_use(there: Dict[bytes, Identity], members: Sequence[SetFile]) -> List[bytes]:
    """Returns files in the order in which they are used if there are too many: those with names of the set, then those
    with the length of one of its files, then the longest."""
    own, lengths = {file.name for file in members}, {file.length for file in members}

    def order(path: bytes) -> Tuple[bool, bool, int]:
        length = there[path].length or 0
        return path not in own, length not in lengths, -length
    return sorted(there, key=order)


# The words by which parv gets them.

def _is_text(word: bytes) -> bool:
    try:
        word.decode()
    except UnicodeDecodeError:
        return False
    return True


class FolderWords:
    """The words by which parv gets files of a folder: the path below a link to the folder, whose name parv takes off. A
    file gets a link of its own if parv would misunderstand that word, or if the words don't all fit into a command
    line.
    """

    def __init__(self, folder: Folder, parv: Parv) -> None:
        self.folder, self.parv = folder, parv
        self.paths: Dict[str, bytes] = {}       # of the files, by their words as parv shows them
        self._by_name: Dict[str, bytes] = {}    # .. and as it shows them without the link's name
        self._words: Dict[Tuple[bytes, bool], str] = {}
        self._room = os.sysconf("SC_ARG_MAX") // PART_OF_ROOM
        with faults_of("make a link in", parv.links.folder.shown):
            changes.make_link(parv.links.folder.place, HERE, path_below(folder, b"."))

    def word_of(self, path: bytes, is_packet_file: bool = False) -> str:
        key = path, is_packet_file
        if key not in self._words:
            self._words[key] = self._new_word(path, is_packet_file)
        return self._words[key]

    def _new_word(self, path: bytes, is_packet_file: bool) -> str:
        # (A path that is a number has a link too: then no two words are shown alike.)
        word = b"%s/%s" % (HERE, path)
        if (len(word) + PLACE <= self._room and names.is_packet_file(path) == is_packet_file and _is_text(word)
                and not _NUMBER.fullmatch(path)):
            self._room -= len(word) + PLACE
            self.parv.links.shown[shown(word)] = shown(path)
            self._by_name[shown(path)] = path
        else:
            end_if_signalled()
            word = self.parv.links.word(path_below(self.folder, path), shown(path), is_packet_file).encode()
            self._by_name[shown(word)] = path
        self.paths[shown(word)] = path
        return word.decode()

    def opener(self, word: str) -> BinaryIO:
        """Opens a file by its word, as parv shows it."""
        return open(self.folder.open_to_read(self.paths[word]), "rb")

    async def verify(self, the_set: SetAnswer, packet_words: Sequence[str], paths: Sequence[bytes], tails: bool,
                     most: int) -> Tuple[Verdict, Sources]:
        """Returns the verdict of parv over these files, and for each file of the set the path of one of them with its
        content."""
        verdict = await self.parv.verify(the_set, packet_words, list(map(self.word_of, paths)), tails, most,
                                         HERE.decode())
        sources: Sources = []
        for state in verdict.states:
            if state.word is not None and state.word not in self._by_name:
                raise NoAnswer("verify")
            sources.append(None if state.word is None else self._by_name[state.word])
        return verdict, sources


# The state of a set.

def has_same_bytes(open_one: Opener, open_other: Opener) -> bool:
    """Returns whether two files, which these open, have the same bytes."""
    places: List[int] = []
    try:
        for opener in open_one, open_other:
            places.append(opener())
        at, sizes = 0, [os.fstat(place).st_size for place in places]
        pieces = [b"", b""] if sizes[0] == sizes[1] else [b"", b"longer"]
        while pieces[0] == pieces[1]:
            end_if_signalled()
            pieces = [os.pread(place, PIECE, at) for place in places]
            if not any(pieces):
                return True
            at += len(pieces[0])
            output.show_progress(at)
        return False
    finally:
        for place in places:
            os.close(place)


def is_same(folder: Folder, name: bytes, other: bytes) -> bool:
    """Returns whether two files of a folder have the same bytes."""
    return has_same_bytes(*(functools.partial(folder.open_to_read, each) for each in (name, other)))


class SetState(NamedTuple):
    """The state of a set: its files as parv lists them, the files of the folder, for each file of the set the path of
    one with its content (its own name, if that is one), the verdict, and what wasn't looked at."""
    the_set: SetAnswer
    there: Dict[bytes, Identity]
    sources: Sources
    verdict: Verdict
    unread: Unread

    @property
    def is_complete(self) -> bool:
        return all(file.name == source for file, source in zip(self.the_set.files, self.sources))

    @property
    def status(self) -> int:
        """Returns the exit status that says the same."""
        if self.is_complete:
            return 0
        if self.verdict.status == IMPOSSIBLE:
            return FILES if self.unread else IMPOSSIBLE
        return POSSIBLE


def text_of(unread: Unread) -> str:
    """Returns what isn't looked at: some of it, and how much more."""
    some = [f"{shown(path)} ({why})" for path, why in itertools.islice(unread.items(), MOST_NAMED)]
    return ", ".join(some) + (f" and {len(unread) - len(some)} more" if len(unread) > len(some) else "")


def _most_bytes(there: Dict[bytes, Identity], paths: Sequence[bytes], tails: bool) -> int:
    """Returns how many bytes parv reads of these files at most."""
    return sum((there[path].length or 0) * (3 if tails else 2) for path in paths if path in there)


class Verification:
    """Verifies a set with the files of a folder. parv gets packet files by these words, and may have `most_open` files
    open."""

    def __init__(self, words: FolderWords, the_set: SetAnswer, packet_words: Sequence[str], most_open: int,
                 report: Report) -> None:
        self.words, self.folder, self.the_set, self.report = words, words.folder, the_set, report
        self.packet_words = packet_words
        self.room = max(min(MOST_FILES, most_open - SPARE_FILES) - len(packet_words), 0)
        self.files = FilesOfSet({}, {}, {})
        self._is_listed = False
        self.scanned: List[bytes] = []          # the files that parv gets at once ..
        self._left: List[bytes] = []            # .. and those of the set for which there is no room beside them

    def gather(self) -> None:
        """Lists the files of the folder anew."""
        with output.waiting("the folder is read"):
            files = files_of(self.folder, self.the_set.files)
        self.files, self.scanned, self._left, self._is_listed = files, list(files.there), [], True
        if len(self.scanned) > self.room:
            self.report(f"{len(files.there) - self.room} of {len(files.there)} files aren't looked at: parv takes "
                        f"{self.room} here")
            order = in_order_of_use(files.there, self.the_set.files)
            members = {file.name for file in self.the_set.files}
            for path in order[self.room:]:
                files.unread[path] = f"parv takes {self.room} files"
            self.scanned, self._left = order[:self.room], [path for path in order[self.room:] if path in members]

    def _find_unread(self, sources: Sources) -> None:
        """Adds to what isn't looked at the names of the set that lead through a link, and those that are refused though
        a file of the folder may have them."""
        for file, source in zip(self.the_set.files, sources):
            if source == file.name:
                continue
            if file.name not in self.files.refused:
                link = link_on_the_way(self.folder, file.name)
                if link is not None:
                    self.files.unread[link] = "a link"
            elif names.is_plain(file.name):
                self.files.unread[file.name] = self.files.refused[file.name]

    def _own_files(self) -> Dict[bytes, Identity]:
        """Returns the files with the names of the set, if each is there with its length and can be read; otherwise
        none."""
        there: Dict[bytes, Identity] = {}
        for file in self.the_set.files:
            end_if_signalled()
            if names.refusal(file.name, ()) is not None:
                return {}
            with faults_of("open", file.shown):
                now = self.folder.look(file.name)
            if now is None or not stat.S_ISREG(now.st_mode) or now.st_size != file.length or not _may_read(
                    self.folder, file.name):
                return {}
            there[file.name] = identity_of(now)
        return there

    def _has_much_else(self) -> bool:
        """Returns whether the files that were gathered have more bytes beside those with names of the set than in
        them."""
        there, own = self.files.there, {file.name for file in self.the_set.files}
        total = sum(there[path].length or 0 for path in self.scanned)
        return total > 2 * sum(there[path].length or 0 for path in self.scanned if path in own)

    async def state(self, tails: bool = False, is_one_of_many: bool = False) -> SetState:
        """Returns the state of the set. If the folder has many sets, or much else, the files with names of the set are
        verified first, and all files only if these aren't complete. The folder is listed if it wasn't yet, and needs to
        be."""
        if is_one_of_many and not self._is_listed:
            state = await self._state_of_own(tails)
            if state is not None:
                return state
        if not self._is_listed:
            self.gather()
        if self._has_much_else():
            state = await self._state_of_own(tails)
            if state is not None:
                return state
        state = await self._state(self.files, self.scanned, tails)
        more = await self.sources_in_parts(self._left)
        state = state._replace(sources=[source or other for source, other in zip(state.sources, more)])
        self._find_unread(state.sources)
        self._refuse_changed(state)
        return state

    async def _state_of_own(self, tails: bool) -> Optional[SetState]:
        """Returns the state of the set with the files that have its names, if it is complete."""
        there = self._own_files()
        is_listed_otherwise = self._is_listed and not there.keys() <= self.files.there.keys()   # as in lower case
        if not there or is_listed_otherwise or len(there) > self.room:
            return None
        state = await self._state(FilesOfSet(there, self.files.unread, {}), list(there), tails)
        self._refuse_changed(state)
        return state if state.is_complete else None

    async def _state(self, files: FilesOfSet, paths: Sequence[bytes], tails: bool) -> SetState:
        verdict, sources = await self.words.verify(self.the_set, self.packet_words, paths, tails,
                                                   _most_bytes(files.there, paths, tails))
        return SetState(self.the_set, files.there, self._own_sources(sources, files.there), verdict, files.unread)

    def _refuse_changed(self, state: SetState) -> None:
        """Ends this if the set seems to be complete, but one of its files has changed since it was listed."""
        if state.is_complete:
            for file in self.the_set.files:
                if not state.there[file.name].fits(self.folder.look(file.name)):
                    raise Fault(FILES, f"{file.shown} has changed while it was read")

    def _own_sources(self, sources: Sources, there: Container[bytes]) -> Sources:
        """Returns `sources`, but with the own name of each file that has its content there, even if parv names another
        one first."""
        own: Sources = []
        with output.doing("equal files are compared"):
            for file, source in zip(self.the_set.files, sources):
                is_own = (source is not None and source != file.name and file.name in there
                          and is_same(self.folder, file.name, source))
                own.append(file.name if is_own else source)
        return own

    async def state_by_any_means(self, is_one_of_many: bool = False) -> Tuple[SetState, Optional[Fault]]:
        """Returns the state of the set. If too little is left, it looks again for short last slices, before other bytes
        too (--tails). If parv refuses that, the first state stays, and the reason comes with it."""
        state = await self.state(False, is_one_of_many)
        if state.verdict.status != IMPOSSIBLE or None not in state.sources:
            return state, None
        try:
            return await self.state(True, is_one_of_many), None
        except Fault as fault:
            if fault.status != NO_SET:
                raise
            return state, fault

    async def sources_in_parts(self, paths: Sequence[bytes]) -> Sources:
        """Returns, for each file of the set, the path of one of these files with its content. parv gets as many of them
        at once as it accepts."""
        sources: Sources = [None] * len(self.the_set.files)
        room = max(self.room, 1)
        for at in range(0, len(paths), room):
            part = paths[at:at + room]
            _, more = await self.words.verify(self.the_set, self.packet_words, part, False,
                                              _most_bytes(self.files.there, part, False))
            sources = [source or other for source, other in zip(sources, more)]
        return self._own_sources(sources, set(paths))
