"""The files of a command line, of which some are packet files and the others are searched, and the set that the packets
describe."""

from __future__ import annotations

import contextlib
import functools
import hashlib
import os
import stat
from typing import BinaryIO, Dict, List, NamedTuple, Optional, Sequence, Tuple

from . import output_and_progress as output, programs
from .faults import FILES, USAGE, Fault, faults_of
from .names import is_packet_file, shown
from .parv import MOST_FILES, SPARE_FILES, Parv, SetAnswer
from .recovery_set import PacketFiles, RecoverySet, list_packets, read_recovery_set
from .search import ScannedFile

MOST_OTHERS = 3     # the most IDs of other sets in a message


class CommandFiles(NamedTuple):
    """The files of a command line. parv gets a link to each, whose name is its word.

    paths           their paths, by their words
    packet_words    the words of the packet files
    packet_bytes    how many bytes the packet files have
    scanned_files   the other files, which are searched
    mark            a fingerprint of the searched files: of their names, lengths, and times of their last changes
    """
    paths: Dict[str, bytes]
    packet_words: List[str]
    packet_bytes: int
    scanned_files: List[ScannedFile]
    mark: str

    def open_packet_file(self, word: str) -> BinaryIO:
        return open(self.paths[word], "rb")


def link_files(parv: Parv, paths: Sequence[bytes]) -> CommandFiles:
    """Makes a link for parv to each of these files, which have to be regular files, and at least one a packet file."""
    by_word: Dict[str, bytes] = {}
    packet_words: List[str] = []
    packet_bytes = 0
    scanned_files: List[ScannedFile] = []
    mark = hashlib.md5()
    for path in dict.fromkeys(paths):
        now = _look(path)
        word = parv.links.word(os.path.join(os.getcwdb(), path), shown(path), is_packet_file(path))
        by_word[word] = path
        if is_packet_file(path):
            packet_words.append(word)
            packet_bytes += now.st_size
        else:
            opener = functools.partial(os.open, path, os.O_RDONLY | os.O_CLOEXEC)
            scanned_files.append(ScannedFile(word, shown(path), now.st_size, opener))
            mark.update(b"%d %s %d %d %d\n" % (len(path), path, now.st_size, now.st_mtime_ns, now.st_ctime_ns))
    if not packet_words:
        raise Fault(USAGE, "no packet file")
    if len(packet_words) > MOST_FILES - 1:
        raise Fault(USAGE, f"there are {len(packet_words)} packet files; parv takes {MOST_FILES - 1} at once")
    return CommandFiles(by_word, packet_words, packet_bytes, scanned_files, mark.hexdigest())


def _look(path: bytes) -> os.stat_result:
    """Returns what the system says of a file. Ends the command if it is no regular file."""
    with faults_of("open", shown(path)):
        now = os.stat(path)
    if not stat.S_ISREG(now.st_mode):
        raise Fault(FILES, f"cannot open {shown(path)}: no regular file")
    return now


def read_set(parv: Parv, files: CommandFiles, set_id: Optional[str]) -> Tuple[SetAnswer, RecoverySet]:
    """Returns the set of the packet files: parv's answer, and the set with its packets. Without an ID of one, parv
    chooses it, and a line names others."""
    answer = programs.run_to_end(parv.set(files.packet_words, set_id))
    listing = list_packets(parv, files.packet_words, answer.id, files.packet_bytes, MOST_OTHERS + 1)
    if set_id is None and listing.others:
        others = " ".join(listing.others[:MOST_OTHERS]) + (" .." if len(listing.others) > MOST_OTHERS else "")
        output.say(f"there are several sets, of which this is {answer.id}; --set takes another one: {others}")
    packet_files = PacketFiles(parv, files.packet_words, files.open_packet_file)
    with contextlib.closing(packet_files), output.waiting("packets are read"):
        return answer, read_recovery_set(answer, packet_files, listing.lines)


def most_files_at_once() -> int:
    """Raises the limit on open files, and returns how many files parv gets at once, beside a packet file."""
    return max(1, min(MOST_FILES, programs.raise_file_limit() - SPARE_FILES) - 1)
