"""A recovery set, put together from the packets that parv has chosen, and packet files that are written from them."""

from __future__ import annotations

import contextlib
import hashlib
import os
import re
from typing import (BinaryIO, Callable, Dict, Generator, Iterable, Iterator, List, Mapping, NamedTuple, Optional,
                    Sequence, Set, Tuple)

from . import changes
from .faults import FILES, Fault, faults_of
from .parv import NoAnswer, PacketLine, PacketLines, Parv, SetAnswer
from .programs import too_much

MAGIC = b"PAR2\0PKT"
HEADER = 64
PAIR = 20               # bytes of the checksums of a slice: an MD5 and a CRC-32
PIECE = 1 << 20
KINDS = {"main": b"PAR 2.0\0Main\0\0\0\0", "filedesc": b"PAR 2.0\0FileDesc", "ifsc": b"PAR 2.0\0IFSC\0\0\0\0",
         "recvslic": b"PAR 2.0\0RecvSlic"}
NO_MAIN = "no usable set: no main"
_MOST_BODY = 1 << 20        # the most bytes of a Main body that parv reads; the limits of its fields follow
_MOST_SIZE = 1 << 28
_MOST_IDS = 32_768
_VOLUME = re.compile(rb"(.+)\.vol[0-9]+[-+][0-9]+", re.IGNORECASE | re.DOTALL)
Key = Tuple[object, ...]
Opener = Callable[[str], BinaryIO]


class Member(NamedTuple):
    """A file of the set. `first` is the number of its first slice in the whole set. `sums` has the checksums of each
    slice, as a packet has them, or is None."""
    id: str
    first: int
    length: int
    slices: int
    shown: str
    name: bytes
    description: bytes
    sums: Optional[List[bytes]]
    sums_packet: Optional[bytes]

    @property
    def numbers(self) -> range:
        """Returns the numbers of its slices in the whole set."""
        return range(self.first, self.first + self.slices)

    @property
    def last(self) -> int:
        return self.first + self.slices - 1


class RecoverySet(NamedTuple):
    """A set, with the packets that describe it. `have` is the number of its recovery slices."""
    id: str
    size: int
    line: str
    files: List[Member]
    main: bytes
    have: int

    def own_length(self, file: Member, number: int) -> int:
        """Returns the length without padding of the slice with this number in its file."""
        return min(self.size, file.length - number * self.size)

    def is_short(self, file: Member) -> bool:
        """Returns whether the last slice of a file is shorter than the slice size."""
        return file.length % self.size != 0


def fault_of_change() -> Fault:
    """Returns the error that packets aren't any more where parv has found them."""
    return Fault(FILES, "the packet files have changed meanwhile")


class Listing(NamedTuple):
    """The packets of a set, and the IDs of other sets that have a Main packet."""
    lines: List[PacketLine]
    others: List[str]


def _packet_lines(parv: Parv, words: Sequence[str], most: int) -> Generator[PacketLine, None, None]:
    """Yields the packets of these packet files as parv lists them. There can't be more than `most`."""
    reader = PacketLines()
    with parv.pieces("packets", ["--", *words]) as pieces:
        for piece in pieces:
            yield from reader.take(piece)
            if reader.count > most:
                raise too_much(parv.program)
    reader.end()


def list_packets(parv: Parv, words: Sequence[str], owner: str, most: int, most_others: int) -> Listing:
    """Lists the packets of the set with an ID in these packet files, which can't have more than `most`, and other sets,
    at most `most_others`. The packets of these, of which a file may have millions, take no memory."""
    lines: List[PacketLine] = []
    others: Dict[str, None] = {}
    with contextlib.closing(_packet_lines(parv, words, most)) as packets:
        for packet in packets:
            if packet.word not in parv.links.shown:
                raise NoAnswer("packets")
            if packet.set == owner:
                lines.append(packet)
            elif packet.kind == "main" and len(others) < most_others:
                others[packet.set] = None
    return Listing(lines, list(others))


def packet_of(owner: str, kind: str, body: bytes) -> bytes:
    content = bytes.fromhex(owner) + KINDS[kind] + body
    return MAGIC + (32 + len(content)).to_bytes(8, "little") + hashlib.md5(content).digest() + content


class PacketFiles:
    """The packet files of a call of parv. Packets are read again at the offsets that it has found."""

    def __init__(self, parv: Parv, words: Sequence[str], opener: Opener) -> None:
        self.parv, self.words, self.opener = parv, words, opener
        self._opened: Optional[Tuple[str, BinaryIO]] = None

    def _file(self, word: str) -> BinaryIO:
        if self._opened is None or self._opened[0] != word:
            self.close()
            self._opened = (word, self.opener(word))
        return self._opened[1]

    def close(self) -> None:
        if self._opened is not None:
            self._opened[1].close()
            self._opened = None

    def name_of(self, word: str) -> str:
        return self.parv.links.shown[word]

    def pieces(self, line: PacketLine) -> Iterator[bytes]:
        """Yields the bytes of a packet, in pieces. They must be the bytes that parv has read."""
        md5 = hashlib.md5()
        with faults_of("read", self.name_of(line.word)):
            file = self._file(line.word)
            file.seek(line.offset)
            head = file.read(HEADER)
        kind = KINDS.get(line.kind)
        if (len(head) < HEADER or head[:8] != MAGIC or int.from_bytes(head[8:16], "little") != line.length
                or head[32:48].hex() != line.set or kind not in (None, head[48:64])):
            raise fault_of_change()
        md5.update(head[32:])
        yield head
        rest = line.length - HEADER
        while rest:
            with faults_of("read", self.name_of(line.word)):
                piece = file.read(min(rest, PIECE))
            if not piece:
                raise fault_of_change()
            md5.update(piece)
            rest -= len(piece)
            yield piece
        if md5.digest() != head[16:32]:
            raise fault_of_change()

    def read(self, line: PacketLine) -> bytes:
        return b"".join(self.pieces(line))

    def exponent(self, line: PacketLine) -> int:
        """Returns the exponent of a recovery slice, by which it differs from others."""
        with faults_of("read", self.name_of(line.word)):
            file = self._file(line.word)
            file.seek(line.offset + HEADER)
            return int.from_bytes(file.read(4), "little")


def _key(line: PacketLine, packet: bytes) -> Key:
    """Returns what a packet describes. If several describe the same, the first counts."""
    if line.kind == "main":
        return ("main",)
    owner = packet[64:80].hex()
    return (line.kind, owner) if line.kind == "filedesc" else (line.kind, owner, (len(packet) - 80) // PAIR)


def read_recovery_set(answer: SetAnswer, files: PacketFiles, lines: Iterable[PacketLine]) -> RecoverySet:
    """Returns the set with the packets that parv has chosen for it."""
    packets: Dict[Key, bytes] = {}
    for line in lines:
        if (line.set == answer.id and line.kind in ("main", "filedesc", "ifsc")
                and (line.word, line.offset) not in answer.aside):
            packet = files.read(line)
            packets.setdefault(_key(line, packet), packet)
    members: List[Member] = []
    first = 0
    try:
        for file in answer.files:
            description = packets["filedesc", file.id]
            sums = packets["ifsc", file.id, file.slices] if file.has_sums else None
            pairs = None if sums is None else [sums[at:at + PAIR] for at in range(80, len(sums), PAIR)]
            members.append(Member(file.id, first, file.length, file.slices, file.shown, file.name, description, pairs,
                                  sums))
            first += file.slices
        return RecoverySet(answer.id, answer.size, answer.line, members, packets["main",], answer.have)
    except KeyError as fault:
        raise fault_of_change() from fault


def recovery_lines(answer: SetAnswer, files: PacketFiles, lines: Iterable[PacketLine]) -> List[PacketLine]:
    """Returns the recovery slices that parv has counted: for each exponent the first."""
    by_exponent: Dict[int, PacketLine] = {}
    for line in lines:
        if line.set == answer.id and line.kind == "recvslic" and (line.word, line.offset) not in answer.aside:
            by_exponent.setdefault(files.exponent(line), line)
    if len(by_exponent) != answer.have:
        raise fault_of_change()
    return list(by_exponent.values())


def names_of_others(answer: SetAnswer, files: PacketFiles, lines: Iterable[PacketLine]) -> Set[bytes]:
    """Returns the names of files of other sets in the same packet files."""
    return {files.read(line)[120:].rstrip(b"\0") for line in lines
            if line.set != answer.id and line.kind == "filedesc"}


def packets_for(the_set: RecoverySet, numbers: Set[int]) -> bytes:
    """Returns the packets of the set for a search for the slices with these numbers. Others get checksums that no bytes
    will have."""
    packets, nothing = [the_set.main], os.urandom(PAIR)
    for file in the_set.files:
        packets.append(file.description)
        if file.sums and not numbers.isdisjoint(file.numbers):
            pairs = [pair if number in numbers else nothing for number, pair in zip(file.numbers, file.sums)]
            packets.append(packet_of(the_set.id, "ifsc", bytes.fromhex(file.id) + b"".join(pairs)))
    return b"".join(packets)


def write_for_par2(opened: int, the_set: RecoverySet, names: Sequence[bytes], files: PacketFiles,
                   recovery: Iterable[PacketLine], show: Callable[[int], None]) -> None:
    """Writes the packet file that par2 gets: the recovery slices, and the packets of the set with other names, so that
    par2 sees no name of the set."""
    head = [the_set.main]
    for file, name in zip(the_set.files, names):
        body = file.description[64:120] + name + bytes(-len(name) % 4)
        head.append(packet_of(the_set.id, "filedesc", body))
        if file.sums_packet is not None:
            head.append(file.sums_packet)
    pending, count = bytearray(b"".join(head)), 0
    for line in recovery:
        for piece in files.pieces(line):
            pending += piece
            if len(pending) >= PIECE:
                changes.write(opened, bytes(pending))
                count += len(pending)
                pending.clear()
                show(count)
    changes.write(opened, bytes(pending))


# Which sets packet files have.

def set_name_of(name: bytes) -> bytes:
    """Returns what a packet file is called without `.par2`, and without `.vol0+1` or the like before it."""
    front = name[:-5]
    volume = _VOLUME.fullmatch(front)
    return volume[1] if volume else front


class SetsInPacketFiles:
    """The answer of `parv packets`, read as it comes: for each packet file the IDs of the sets of which it has packets,
    in order; the Main packets by the ID of their set; and which sets have descriptions of files. `paths` has the packet
    files by their words, as parv shows these."""

    def __init__(self, paths: Mapping[str, bytes], packet_files: Iterable[bytes]) -> None:
        self.ids: Dict[bytes, Dict[str, None]] = {path: {} for path in packet_files}
        self.mains: Dict[str, List[PacketLine]] = {}
        self.described: Set[str] = set()
        self._paths, self._packets = paths, PacketLines()

    def take(self, piece: bytes) -> None:
        for packet in self._packets.take(piece):
            self._packet(packet)

    def _packet(self, packet: PacketLine) -> None:
        path = self._paths.get(packet.word)
        if path not in self.ids:
            raise NoAnswer("packets")
        self.ids[path][packet.set] = None
        if packet.kind == "main":
            self.mains.setdefault(packet.set, []).append(packet)
        elif packet.kind == "filedesc":
            self.described.add(packet.set)

    def end(self) -> None:
        """Checks that the answer is complete."""
        self._packets.end()

    def add(self, other: SetsInPacketFiles) -> None:
        """Adds what was read of other files."""
        self.ids.update(other.ids)
        self.described |= other.described
        for owner, lines in other.mains.items():
            self.mains.setdefault(owner, []).extend(lines)

    def why_none(self, owner: str, files: PacketFiles) -> Optional[str]:
        """Returns why the packets of an ID are no set, in the words of parv, if they have no Main packet or no
        description. In other cases it returns None, and only parv knows."""
        mains = self.mains.get(owner, [])
        if not mains:
            return NO_MAIN
        if owner in self.described:
            return None
        for line in mains:
            body = files.read(line)[HEADER:] if line.length - HEADER <= _MOST_BODY else b""
            if _is_usable(body, owner):
                first = _ids_of(body)[:int.from_bytes(body[8:12], "little")]
                least = min(first, key=lambda each: each[::-1], default=None)
                return None if least is None else f"no usable set: no description of {least.hex()}"
        return NO_MAIN


def _ids_of(main: bytes) -> List[bytes]:
    return [main[at:at + 16] for at in range(12, len(main), 16)]


def _is_usable(main: bytes, owner: str) -> bool:
    """Returns whether parv takes a Main packet with this body for that of a set."""
    if len(main) < 12 or (len(main) - 12) % 16:
        return False
    ids, size = _ids_of(main), int.from_bytes(main[:8], "little")
    return (int.from_bytes(main[8:12], "little") <= len(ids) <= _MOST_IDS and len(set(ids)) == len(ids)
            and 0 < size <= _MOST_SIZE and size % 4 == 0 and hashlib.md5(main).hexdigest() == owner)
