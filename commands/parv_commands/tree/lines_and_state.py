"""What is known of each set of a tree: as a line, as a JSON object, in a file from which the next run knows what was
lost since, and what was lost."""

from __future__ import annotations

import hashlib
import json
import os
import re
import secrets
import stat
from typing import Dict, Iterable, List, NamedTuple, Optional, Tuple, Union

from ..common import changes
from ..common.faults import FILES, IMPOSSIBLE, NO_SET, POSSIBLE, USAGE, Fault, faults_of
from ..common.names import base_of, shown, unshown
from ..common.opened_folder import Folder, Identity, identity_of

HEAD = b"parv-tree state "
VERSION = b"1"
_LINE = re.compile("([0-9]) ([0-9a-f]{32}) need (-|[0-9]{1,18}) have (-|[0-9]{1,18}) ([ -~]*)")
_LONGEST_NAME = 200     # how many bytes of its name the temporary file's name contains
Key = Tuple[bytes, Optional[str]]
UNKNOWN = "-"
VERDICTS = {0: "complete", POSSIBLE: "possible", IMPOSSIBLE: "impossible"}
SAY_SOMETHING = (*VERDICTS, NO_SET)     # the statuses that say something about a set; with others, it could not be read
FEWER, WORSE, GONE = "fewer", "worse", "gone"
Value = Union[None, int, str, List[str], Dict[str, Optional[int]]]


def number(value: Optional[int]) -> str:
    return UNKNOWN if value is None else str(value)


class Line(NamedTuple):
    """What is known about a set: its status, its ID or None, its numbers, its folder (with a slash after it, or empty),
    and its name. From status 3 on, the reason says why there is no verdict."""
    status: int
    id: Optional[str]
    need: Optional[int]
    have: Optional[int]
    folder: bytes
    name: bytes
    reason: Optional[str] = None

    @property
    def set_name(self) -> str:
        return shown(self.folder + self.name)

    @property
    def text(self) -> str:
        return (f"{self.status} {self.id or UNKNOWN} need {number(self.need)} have {number(self.have)} "
                f"{self.set_name}")


class Loss(NamedTuple):
    """What a set has lost: the word for it, and the set now and before."""
    word: str
    now: Line
    before: Line

    @property
    def text(self) -> str:
        counts = {FEWER: f"have {number(self.now.have)} was {number(self.before.have)} ",
                  WORSE: f"status {self.now.status} was {self.before.status} "}
        return f"{self.word} {self.now.id} {counts.get(self.word, '')}{self.now.set_name}"


def losses(now: Line, before: Line) -> List[Loss]:
    """Returns what a set has lost, if its state is known both times."""
    if now.status not in SAY_SOMETHING or before.status not in SAY_SOMETHING:
        return []
    lost: List[Loss] = []
    if now.have is not None and before.have is not None and now.have < before.have:
        lost.append(Loss(FEWER, now, before))
    if now.status > before.status:
        lost.append(Loss(WORSE, now, before))
    return lost


def to_remember(now: Line, before: Optional[Line]) -> Line:
    """Returns what is known about a set after a run. If the set could not be read, this is what was known before. If
    only packets are left, it has the earlier numbers."""
    if before is None:
        return now
    if now.status not in SAY_SOMETHING:
        return before
    return now._replace(need=before.need if now.need is None else now.need,
                        have=before.have if now.have is None else now.have)


def json_of(line: Line, is_gone: bool = False) -> Dict[str, Value]:
    """Returns the fields of a JSON object. Their texts are those of the line."""
    return {"status": None if is_gone else line.status, "result": None if is_gone else VERDICTS.get(line.status),
            "set": line.id, "need": None if is_gone else line.need, "have": None if is_gone else line.have,
            "folder": shown(line.folder[:-1]) or ".", "name": shown(line.name), "reason": line.reason}


def json_with(fields: Dict[str, Value], lost: List[Loss], before: Optional[Line]) -> Dict[str, Value]:
    """Adds what was lost, and what was known before."""
    earlier: Dict[str, Optional[int]] = {}
    if before is not None:
        earlier = {"status": before.status, "need": before.need, "have": before.have}
    return {**fields, "lost": [loss.word for loss in lost], "before": earlier or None}


def json_text(fields: Dict[str, Value]) -> str:
    return json.dumps(fields)


# The file.

def key_of(line: Line) -> Key:
    """Returns the marks by which a set is recognized: its folder and its ID."""
    return line.folder, line.id


def _number(text: str) -> Optional[int]:
    return None if text == UNKNOWN else int(text)


class State:
    """The file. It is refused if it exists and isn't a state of this tree."""

    def __init__(self, path: bytes, tree: bytes) -> None:
        self.shown, self.tree = shown(path), os.path.realpath(tree)
        whole = os.path.realpath(path)
        self.name = base_of(whole)
        self.sets: Dict[Key, Line] = {}
        self._folder = Folder.open(os.path.dirname(whole))
        try:
            self._read: Optional[Identity] = self._look()
            self._mode: Optional[int] = None
            if self._read is not None:
                self._take()
        except BaseException:
            self.close()
            raise

    @property
    def is_new(self) -> bool:
        return self._read is None

    def close(self) -> None:
        self._folder.close()

    def _look(self) -> Optional[Identity]:
        with faults_of("open", self.shown):
            now = self._folder.look(self.name)
        return None if now is None else identity_of(now)

    # Reading.

    def _refusal(self, why: str, what_to_do: str) -> Fault:
        return Fault(USAGE, f"{self.shown} {why}, and stays as it is: {what_to_do}")

    def _take(self) -> None:
        with faults_of("open", self.shown):
            opened = self._folder.open_to_read(self.name)
        now = os.fstat(opened)
        if not stat.S_ISREG(now.st_mode):
            os.close(opened)
            raise self._refusal("is no regular file", "name another file")
        self._mode, self._read = stat.S_IMODE(now.st_mode), identity_of(now)
        with open(opened, "rb") as file, faults_of("read", self.shown):
            if file.read(len(HEAD)) != HEAD:
                raise self._refusal("is no state of parv-tree", "name another file, or one that isn't there")
            text = HEAD + file.read()
        self._take_text(text)

    def _take_text(self, text: bytes) -> None:
        first, *rest = text.split(b"\n")
        if first != HEAD + VERSION and re.fullmatch(rb"[0-9]+", first[len(HEAD):]):
            raise self._refusal("is the state of another version of parv-tree", "name another file")
        end = text.rfind(b"md5 ")
        if text[end:] != self._end(text[:end]):
            raise self._refusal("is damaged", "move it away, and the next run begins a new one")
        tree = rest[0].decode("ascii", "replace")
        if tree != f"folder {shown(self.tree)}":
            raise self._refusal(f"is the state of {tree[7:]}", f"name another file for {shown(self.tree)}")
        for line in rest[1:-2]:
            lost = _LINE.fullmatch(line.decode("ascii", "replace"))
            if lost is None:
                raise self._refusal("is damaged", "move it away, and the next run begins a new one")
            folder, slash, name = unshown(lost[5]).rpartition(b"/")
            each = Line(int(lost[1]), lost[2], _number(lost[3]), _number(lost[4]), folder + slash, name)
            self.sets[key_of(each)] = each

    # Writing.

    def _end(self, text: bytes) -> bytes:
        return b"md5 %s\n" % hashlib.md5(text).hexdigest().encode()

    def write(self, sets: Iterable[Line]) -> None:
        """Writes a new state in place of the old one. The old one stays if that fails."""
        text = b"%s%s\nfolder %s\n" % (HEAD, VERSION, shown(self.tree).encode())
        text += b"".join(b"%s\n" % line.text.encode() for line in sets)
        new = b"%s.%s" % (self.name[:_LONGEST_NAME], secrets.token_hex(8).encode())
        with faults_of("write", self.shown), changes.whole_file(
                self._folder.place, self.name, new, self._replaces) as opened:
            if self._mode is not None:
                changes.set_mode(opened, self._mode)
            changes.write(opened, text + self._end(text))

    def _replaces(self) -> bool:
        """Returns whether there is an old state. Ends the command if somebody else has written one meanwhile."""
        if self._look() != self._read:
            raise Fault(FILES, f"{self.shown} has changed meanwhile, and stays as it is: is another run at work?")
        return self._read is not None
