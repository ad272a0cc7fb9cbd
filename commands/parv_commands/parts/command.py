"""parv-parts: searches large files for the slices of a set, a part at a time, and resumes a search that was stopped."""

from __future__ import annotations

import argparse
import contextlib
import fcntl
import os
import re
from typing import Iterator, List, NamedTuple, Optional, Sequence

from ..common import arguments, changes, output_and_progress as output, programs
from ..common.faults import FILES, USAGE, Fault, faults_of
from ..common.names import shown
from ..common.opened_folder import Folder
from ..common.parv import CURSOR_OF_OTHERS, LONGEST_LINE, NoAnswer, fault_of, most_read, read_sighting
from ..common.programs import Program
from ..common.signals import interruptible

WORDS = b"words"        # the file with the arguments of the search
NEW = b"new"            # the part that is being written
END = "end"
LONGEST_LAST = 4096     # the most bytes in the last line of a part
PIECE = 1 << 20
_ODD = re.compile(rb"[^ -~\n]")       # bytes that aren't in any line of parv
_LAST = re.compile(rb"(end|cursor [0-9a-f:]+)\n")

DESCRIPTION = """\
Runs a long `parv find` in parts, so that you can stop it and continue later. At
the end it prints the matches of all parts, as `parv find` does.

  parv-parts parts 1000 photos.par2 disc.img

To continue, run it again with the same arguments; only LIMIT may differ.
"""
EPILOG = """\
exit status:
  0  all matches were printed
  3  usage error, or no packet file; PARTS has other files, belongs to another
     search, or is in use; or a searched file has another length than before
  4  no usable set, or --tails and short slices of more than 256 lengths
  6  a file can't be read or written, or parv can't be run
  8  out of memory
PARV names the program if it isn't in PATH. See man parv-parts.
"""


class Options(NamedTuple):
    """The files and options of the command line."""
    tails: bool
    folder: bytes
    limit: bytes
    files: List[bytes]


class Part(NamedTuple):
    """A part that is whole: its last line, and how many bytes are before it."""
    last: str
    length: int


def text_of(options: Options) -> bytes:
    """Returns the arguments by which the folder of a search is recognized. LIMIT isn't one of them."""
    tails = ["--tails"] if options.tails else []
    lines = ["parv-parts 1", *tails, *(f"file {shown(file)}" for file in options.files)]
    return "".join(line + "\n" for line in lines).encode("ascii")


class Parts:
    """The folder of a search, and its whole parts, in order."""

    def __init__(self, folder: Folder, words_text: bytes) -> None:
        self.folder = folder
        self._take_words(words_text)
        self.parts: List[Part] = []
        while not self.is_over:
            part = self._read(b"%d" % (len(self.parts) + 1))
            if part is None:
                break
            self.parts.append(part)

    @property
    def last(self) -> Optional[str]:
        return self.parts[-1].last if self.parts else None

    @property
    def is_over(self) -> bool:
        return self.last == END

    def _shown(self, name: bytes) -> str:
        return f"{self.folder.shown}/{name.decode()}"

    def _bytes_of(self, name: bytes, most: int) -> bytes:
        """Returns the last bytes of a regular file, or none if it isn't one."""
        if not self.folder.is_file(name):
            return b""
        with faults_of("read", self._shown(name)):
            opened = self.folder.open_to_read(name)
            try:
                return os.pread(opened, most, max(0, os.fstat(opened).st_size - most))
            finally:
                os.close(opened)

    def _take_words(self, text: bytes) -> None:
        """Records the arguments in a new folder. A folder that has other files, or other arguments, is left as it
        is."""
        there = set(self.folder.entries())
        if WORDS in there and not self.folder.is_file(WORDS):
            raise Fault(USAGE, f"{self.folder.shown} has other files")
        text_there = self._bytes_of(WORDS, len(text) + 1)
        if not text_there and there - {WORDS}:
            raise Fault(USAGE, f"{self.folder.shown} has other files")
        # (If only the arguments are there, they may have been cut.)
        if not text_there or there == {WORDS} and text.startswith(text_there):
            with faults_of("write", self._shown(WORDS)):
                self._remove(WORDS)
                with changes.new_file(self.folder.place, WORDS) as opened:
                    changes.write(opened, text)
                    changes.sync(opened)
                changes.sync_folder(self.folder.place)
        elif text_there != text:
            raise Fault(USAGE, f"{self.folder.shown} is of a search with other words")

    def _remove(self, name: bytes) -> None:
        if not self.folder.is_free(name):
            changes.remove_file(self.folder.place, name)

    def _read(self, name: bytes) -> Optional[Part]:
        """Returns a part, if it is whole: if its last line is `end`, or `cursor` and the place from which to go on."""
        end = self._bytes_of(name, LONGEST_LAST)
        line = end[end[:-1].rfind(b"\n") + 1:]
        last = _LAST.fullmatch(line)
        if last is None:
            return None
        now = self.folder.look(name)
        return None if now is None else Part(last[1].decode("ascii"), now.st_size - len(line))

    def add(self, pieces: Iterator[bytes]) -> int:
        """Writes the next part, and returns its number of matches. When the part gets its name, it is on the disk, and
        no older part comes after it."""
        lines, pending = 0, bytearray()
        with faults_of("write", self._shown(NEW)):
            self._remove(NEW)
            opened = changes.make_file(self.folder.place, NEW)
        try:
            for piece in pieces:
                pending += piece
                lines += piece.count(b"\n")
                if len(pending) >= PIECE:
                    with faults_of("write", self._shown(NEW)):
                        changes.write(opened, bytes(pending))
                    pending.clear()
            with faults_of("write", self._shown(NEW)):
                changes.write(opened, bytes(pending))
                changes.sync(opened)
        finally:
            os.close(opened)
        part = self._read(NEW)
        if part is None:
            raise NoAnswer("find")
        number = len(self.parts) + 1
        with faults_of("write in", self.folder.shown):
            self._remove(b"%d" % (number + 1))
            self._remove(b"%d" % number)
            changes.sync_folder(self.folder.place)
            changes.move(self.folder.place, NEW, self.folder.place, b"%d" % number)
            changes.sync_folder(self.folder.place)
        self.parts.append(part)
        return lines - 1

    def tell(self) -> None:
        """Writes the lines of all parts to standard output."""
        for number, part in enumerate(self.parts, 1):
            name, at = b"%d" % number, 0
            with faults_of("read", self._shown(name)):
                opened = self.folder.open_to_read(name)
            try:
                while at < part.length:
                    with faults_of("read", self._shown(name)):
                        piece = os.pread(opened, min(PIECE, part.length - at), at)
                    if not piece or _ODD.search(piece):
                        raise Fault(FILES, f"{self._shown(name)} is damaged; you may remove it")
                    with interruptible():
                        output.pass_on(piece)
                    at += len(piece)
            finally:
                os.close(opened)


@contextlib.contextmanager
def lock(folder: Folder) -> Iterator[None]:
    """Keeps other runs out of a folder. (parv doesn't inherit the lock; it ends with the command.)"""
    place = os.open(b".", os.O_RDONLY | os.O_DIRECTORY | os.O_CLOEXEC, dir_fd=folder.place)
    try:
        with faults_of("lock", folder.shown):
            try:
                fcntl.flock(place, fcntl.LOCK_EX | fcntl.LOCK_NB)
            except BlockingIOError as fault:
                raise Fault(USAGE, f"another run is at work in {folder.shown}") from fault
        yield
    finally:
        os.close(place)


def _is_next(line: bytes, cursor: Sequence[bytes]) -> bool:
    """Returns whether a line has a cursor other than the one at which a part has begun."""
    return _LAST.fullmatch(line + b"\n") is not None and line[7:] not in cursor


def find(program: Program, options: Options, cursor: Sequence[bytes]) -> Iterator[bytes]:
    """Yields the output of parv for a part, in pieces of whole lines."""
    tails = [b"--tails"] if options.tails else []
    words = [b"find", *tails, b"--limit", options.limit, *cursor, b"--", *options.files]
    rest, remaining = b"", int(options.limit)       # how many matches may still come

    def fault(status: int, standard_error: bytes) -> Fault:
        if status == USAGE and standard_error == CURSOR_OF_OTHERS:
            return Fault(USAGE, "a searched file has another length than when this search began")
        return fault_of(program, status, standard_error, "find", {})
    with output.doing("parv find", most_read(options.files, 1)), \
            contextlib.closing(programs.pieces_of(programs.Call(program, words), fault)) as pieces:
        for piece in pieces:
            *lines, rest = (rest + piece).split(b"\n")
            for line in lines:
                if line == b"end" and remaining >= 0 or remaining == 0 and _is_next(line, cursor):
                    remaining = -1      # nothing may follow the last line
                elif remaining > 0 and read_sighting(line):
                    remaining -= 1
                else:
                    raise NoAnswer("find")
            if len(rest) > LONGEST_LINE:
                raise NoAnswer("find")
            yield b"".join(line + b"\n" for line in lines)
    if rest:
        raise NoAnswer("find")


def refuse_odd(files: Sequence[bytes]) -> None:
    """Ends the run if parv rejects a word like one of these. (The files get no links with other names, because the
    fingerprint in a cursor covers the words.)"""
    for file in files:
        try:
            file.decode("utf-8")
        except UnicodeDecodeError as fault:
            raise Fault(USAGE, f"the name {shown(file)} isn't UTF-8, and can't be searched") from fault


def search(options: Options) -> int:
    """Runs the command, and returns its exit status."""
    program = arguments.needed_parv()
    refuse_odd(options.files)
    programs.raise_file_limit()
    with faults_of("make", shown(options.folder)):
        changes.make_path(options.folder)
    with contextlib.closing(Folder.open(options.folder)) as folder, lock(folder):
        parts = Parts(folder, text_of(options))
        while not parts.is_over:
            cursor = [b"--cursor", parts.last[7:].encode()] if parts.last else []
            count = parts.add(find(program, options, cursor))
            output.say(f"part {len(parts.parts)}: {count} matches, {parts.last}")
        parts.tell()
    return 0


def parser() -> arguments.Parser:
    reader = arguments.Parser("parv-parts", DESCRIPTION, EPILOG)
    reader.add_argument("parts", metavar="PARTS", help="the folder for the parts: new, empty, or of an earlier run")
    reader.add_argument("limit", metavar="LIMIT", help="the most matches in a part")
    reader.add_argument("files", metavar="FILES", nargs="+", help=arguments.SEARCHED)
    reader.add_argument("--tails", action="store_true", help=arguments.TAILS)
    return reader


def run(reader: arguments.Parser, words: argparse.Namespace) -> int:
    if not words.parts:
        reader.error("missing argument: PARTS")
    if not re.fullmatch("[1-9][0-9]{0,18}", words.limit):
        reader.error("LIMIT is a number from 1 on")
    return search(Options(words.tails, os.fsencode(words.parts), os.fsencode(words.limit),
                        list(map(os.fsencode, words.files))))


def main() -> int:
    return arguments.run_with_arguments(parser, run)
