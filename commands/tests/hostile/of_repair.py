"""Hostile runs of parv-repair: a damaged folder, some runs that are ended in hostile ways, with changes between them,
and at the end two runs that nothing ends. A stand-in for par2 makes what is missing.

After each run no content of a file is lost, nothing outside the folder has changed, the status is one of the page, and
it is 0 exactly if all files of the set are whole. A dry run changes nothing.
"""

from __future__ import annotations

import contextlib
import errno
import os
import signal
from random import Random
from typing import ContextManager, Dict, List, Optional, Tuple

from parv_commands.repair import command as repair

from ..folding import folding
from ..rooms import KILLED, SECRET, STAGE, At, Ended, From, Room, ends_by, fails_with, read, set_of, write
from .disk import Disk
from .people import People, copied
from .plants import plant
from .promises import Held, Log, ends_well, held_in, is_file, keeps, noise, told

STATUSES = (0, 2, 3, 4, 5, 6, 8)
NAMES = ["a", "b", "in/c", "in/deep/d", "e e", "in/deep/er/f", "G.Txt", "notes.1", "long" * 60]
ODD_NAMES = [".parv-repair/made/x", "in/.parv-repair/files/y", ".Parv-Repair/journal", ".parv-rescue", "../away",
             "/tmp/x", "in/../b", ".verify_and_repair/list", "a/below", "n\nl", "\x1b[2J", "x" * 255, "\xe9", "b.1"]
KINDS: List[Tuple[str, ...]] = [(), (), ("rename",), ("unlink", "rmdir"), ("mkdir", "create"), ("fsync", "write")]
PRECIOUS = b"a file outside the folder"
KILLS = (signal.SIGTERM, signal.SIGINT, signal.SIGHUP)


class Repairs:
    """One hostile run; `kind` is its class."""

    def __init__(self, kind: str, rng: Random, log: Log) -> None:
        self.kind, self.rng, self.log = kind, rng, log
        names = rng.sample(NAMES, rng.randint(2, 7))
        if kind == "names":
            names += rng.sample(ODD_NAMES, rng.randint(1, 2))
        self.files: Dict[str, bytes] = {name: self.content() for name in names}
        self.files[names[0]] = self.files[names[0]] or b"not empty"
        plain = {name: data for name, data in self.files.items() if name in NAMES}
        self.room = Room(plain, recovery=40) if kind == "names" else Room(self.files, recovery=40)
        self.is_odd = kind == "names"
        self.disk: Optional[Disk] = None
        self.folds = kind in ("names", "kills") and rng.random() < 0.25

    def content(self) -> bytes:
        return noise(self.rng.random(), self.rng.randint(0, 30)) if self.rng.random() < 0.8 else b"equal bytes"

    def add_odd_names(self) -> None:
        """Describes files under odd names too. (Some are in the folder, and some have the content of another one.)"""
        odd = {os.fsencode(name): data for name, data in self.files.items()}
        self.room.put("set.par2", set_of(odd, self.room.size, 40))
        for name in set(self.files) - set(self.room.files):
            stray = self.room.path(f"stray{self.rng.randint(0, 9)}")
            if self.rng.random() < 0.7 and not os.path.lexists(stray):
                write(stray, self.files[name])

    def damage(self) -> None:
        """Damages the folder: files are missing, damaged, renamed, and have each other's names."""
        rng, room = self.rng, self.room
        for name in self.room.files:
            dice, other = rng.random(), rng.choice(list(self.room.files))
            if not is_file(room.path(name)):
                continue
            if dice < 0.2:
                room.take(name)
            elif dice < 0.4 and not os.path.lexists(room.path("stray " + name[:9].replace("/", "_"))):
                room.rename(name, "stray " + name[:9].replace("/", "_"))
            elif dice < 0.55:
                room.put(name, noise(rng.random(), len(self.room.files[name])))
            elif dice < 0.65 and is_file(room.path(other)) and other != name:
                room.rename(name, "t")
                room.rename(other, name)
                room.rename("t", other)
            elif dice < 0.75 and self.folds:     # not its folders: parv itself opens files by paths that aren't folded
                folded = os.path.join(os.path.dirname(name), os.path.basename(name).swapcase())
                if not os.path.lexists(room.path(folded)):
                    room.rename(name, folded)
        for folder in ("in/deep/er", "in/deep", "in") if rng.random() < 0.3 else ():
            with contextlib.suppress(OSError):
                os.rmdir(room.path(folder))

    # The runs.

    def hostile(self) -> Tuple[Optional[At], Optional[int]]:
        """Returns what happens to a run, and the signal that may end it."""
        rng, kinds = self.rng, self.rng.choice(KINDS)
        number, when = rng.randint(1, 15 if kinds else 70), rng.choice(["before", "after"])
        if self.kind == "fails":
            does = fails_with(rng.choice([errno.ENOSPC, errno.EIO, errno.EPERM, errno.EROFS]))
            return rng.choice([At, From])(number, "before", does, kinds), None
        if self.kind == "signals":
            sent = rng.choice(KILLS)
            return At(number, when, ends_by(sent), kinds), sent
        return At(number, when, self.disk.loses_power if self.disk else KILLED, kinds), signal.SIGKILL

    def run(self, held: Held, watch: Optional[At] = None, sent: Optional[int] = None) -> Ended:
        """Runs the command, and looks at what must hold."""
        words, environment = ["room"], {}
        if self.rng.random() < 0.15:
            environment["WRONG"] = self.rng.choice(["short", "fails"])
        if self.rng.random() < 0.15:
            self.dry_run()
        ended = self.room.run(repair.main, words, watch, **environment)
        self.log.add("run", told(watch), environment, *ended[:3])
        if self.disk and ended.status == 128 + signal.SIGKILL:
            self.disk.takes_copy()
        ends_well(self.log, ended, STATUSES, sent)
        keeps(self.log, held, self.room.folder, ended)
        self.log.must(read(os.path.join(self.room.top, "outside", "precious")) == PRECIOUS, "a file outside changed")
        is_there = os.path.lexists(os.path.join(self.room.top, "away"))
        self.log.must(not is_there and os.listdir(os.path.join(self.room.top, "outside")) == ["precious"],
                      "a file came outside")
        if ended.status == 0:
            self.is_complete(ended)
        return ended

    def dry_run(self) -> None:
        before = self.room.listing()
        ended = self.room.run(repair.main, ["--dry-run", "room"])
        ends_well(self.log, ended, (*STATUSES, 1))
        self.log.must(self.room.listing() == before, "a dry run has changed the folder", ended)

    def lacks(self) -> List[str]:
        return [name for name, data in self.files.items()
                if not is_file(self.room.path(name)) or read(self.room.path(name)) != data]

    def is_complete(self, ended: Ended) -> None:
        self.log.must(not self.lacks(), "not complete:", self.lacks(), ended)

    # What happens between two runs.

    def between(self, people: People, step: int) -> None:
        room, rng = self.room, self.rng
        if self.kind == "plants":
            plant(self.room, self.rng, self.log)
        elif self.kind == "copies":
            if rng.random() < 0.7:
                copied(room.folder)
                self.log.add("copied")
            if rng.random() < 0.4:
                write(os.path.join(room.state_home, "parv", "secret"), rng.choice([SECRET, b"t" * 32]))
                self.log.add("another secret, or the first one")
        elif self.kind == "edits":
            for _ in range(rng.randint(1, 5)):
                people.edit()
        elif self.kind == "kills" and rng.random() < 0.2 and is_file(room.path(f"{STAGE}/journal")):
            data = bytearray(read(room.path(f"{STAGE}/journal")) or b"x")
            data[rng.randrange(len(data))] ^= 1
            room.put(f"{STAGE}/journal", bytes(data))
            self.log.add("a changed journal")

    def whole(self) -> None:
        """Makes the whole run."""
        rng = self.rng
        write(os.path.join(self.room.top, "outside", "precious"), PRECIOUS)
        if self.kind == "power":
            self.disk = Disk(self.room)
        if self.is_odd:
            self.add_odd_names()
        self.damage()
        if self.disk:
            self.disk.sync()
        held = held_in(self.room.folder)
        people = People(rng, self.room.folder, list(self.room.files), held, self.log)
        folds: ContextManager[None] = folding(bytes.lower) if self.folds else contextlib.nullcontext()
        with folds:
            for step in range(rng.randint(1, 4)):
                if self.kind in ("plants", "edits") and step == 0:
                    self.between(people, step)
                self.run(held, *self.hostile())
                self.between(people, step)
            self.ends(held)

    def ends(self, held: Held) -> None:
        """Runs the command until it has ended twice in the same way."""
        before = set(os.listdir(self.room.temporary))
        statuses: List[int] = []
        while len(statuses) < 2 or statuses[-1] != statuses[-2]:
            statuses.append(self.run(held).status)
            self.log.must(len(statuses) < 9, "it never ends:", statuses)
        ended = self.room.run(repair.main, ["room"])
        self.log.add("end", *ended[:3])
        keeps(self.log, held, self.room.folder, ended)
        # (A journal that is planted with the user's own secret may move the packet file.)
        has_set = is_file(self.room.path("set.par2")) and read(self.room.path("set.par2")) == self.room.packets
        self.log.must(not self.lacks() if ended.status == 0 else bool(self.lacks()) or not has_set,
                      "the status isn't true:", self.lacks(), ended)
        self.log.must(set(os.listdir(self.room.temporary)) == before, "a temporary file is left")
        self.ended = ended

    def close(self) -> None:
        if self.disk:
            self.disk.close()
        self.room.close()


CLASSES = ["kills", "fails", "signals", "plants", "copies", "edits", "names", "power"]


def run(kind: str, rng: Random, log: Log) -> str:
    """Makes one run of this class. Returns how the last call has ended."""
    made = Repairs(kind, rng, log)
    try:
        made.whole()
        return f"status {made.ended.status}"
    finally:
        made.close()
