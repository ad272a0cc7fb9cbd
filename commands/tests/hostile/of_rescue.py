"""Hostile runs of parv-rescue: images with the files of a set, runs over some of them that are ended in hostile ways,
and changes to the new folder between them. At the end people take away what is theirs, and everything can be found.

After each run the images, and all files that people have put into the folder, are as they were: only zeros in a file
that could be one that a run has left may have become slices of the set. Each file that the command calls complete is
whole, the status is one of the page, and it is 0 only if all files are whole. At the end all are.
"""

from __future__ import annotations

import errno
import os
import shutil
import signal
from random import Random
from typing import Dict, Optional, Tuple

from parv_commands.rescue import command as rescue

from ..rooms import KILLED, SECRET, At, Ended, From, Room, ends_by, fails_with, read, set_of, write
from .people import copied
from .promises import Log, ends_well, is_file, noise, told

STATUSES = (0, 1, 3, 6)
SECTOR = 512
IMAGES = ["all", "left", "right", "holed"]
ODD_NAMES = ["../away", "/tmp/x", ".parv-rescue", ".Parv-Rescue/x", "in/.parv-repair/made/x", "in/../b", "n\nl"]
KINDS: Tuple[Tuple[str, ...], ...] = (
    (), (), ("pwrite",), ("create", "open"), ("fsync", "rename"), ("mkdir", "ftruncate"))
CLASSES = ["kills", "fails", "signals", "edits", "kinds", "copies", "records", "images", "names"]


def may_become(then: bytes, now: bytes, whole: bytes) -> bool:
    """Returns whether only zeros have become what the whole file has there, in a file that has nothing else."""
    pieces = range(0, len(whole), SECTOR)
    fits = all(data[at:at + SECTOR] in (whole[at:at + SECTOR], bytes(len(whole[at:at + SECTOR])))
               for data in (then, now) for at in pieces)
    return fits and len(then) == len(now) == len(whole)


class Rescues:
    """One hostile run; `kind` is its class."""

    def __init__(self, kind: str, rng: Random, log: Log) -> None:
        self.kind, self.rng, self.log = kind, rng, log
        size = rng.choice([512, 1536, 4096, 8192])
        self.whole: Dict[str, bytes] = {
            "a": noise("a", rng.randint(1, 40000)), "in/b": noise("b", rng.randint(1, 20000)),
            "in/deep/c": noise("c", rng.randint(1, 3000)), "z": bytes(rng.randint(0, 9000)), "e": b"",
            "mix": noise("m", 5000) + bytes(9000) + noise("n", 5000)}
        self.room = Room(self.whole, size, 0)
        self.odd = rng.sample(ODD_NAMES, 2) if kind == "names" else []
        files = {**self.whole, **{name: b"x" * 600 for name in self.odd}}
        self.room.put("set.par2", set_of({os.fsencode(name): data for name, data in files.items()}, size, 0))
        self.folder = os.path.join(self.room.top, "new")
        self.theirs: Dict[str, bytes] = {}      # what people have put there
        self.record_changed = False
        self.make_images()

    def image(self, name: str) -> str:
        return os.path.join(self.room.top, name)

    def path(self, name: str) -> str:
        return os.path.join(self.folder, name)

    def make_images(self) -> None:
        self.all = b"".join(b"gap%d" % number + data for number, data in enumerate(self.whole.values()))
        cut, holed = self.rng.randint(0, len(self.all)), bytearray(self.all)
        for _ in range(3):
            at = self.rng.randint(0, len(holed))
            end = min(len(holed), at + self.rng.randint(0, 9000))
            holed[at:end] = bytes(end - at)
        for name, data in zip(IMAGES, (self.all, self.all[:cut], self.all[cut:], bytes(holed))):
            write(self.image(name), data)
        write(self.image("outside"), b"a file outside the folder")

    # The runs.

    def hostile(self) -> Tuple[Optional[At], Optional[int]]:
        """Returns what happens to a run, and the signal that may end it."""
        rng, kinds = self.rng, self.rng.choice(KINDS)
        number, when = rng.randint(1, 12 if kinds else 70), rng.choice(["before", "after"])
        if rng.random() < 0.3:
            return None, None
        if self.kind == "fails":
            does = fails_with(rng.choice([errno.ENOSPC, errno.EIO, errno.EFBIG]))
            return rng.choice([At, From])(number, "before", does, kinds), None
        if self.kind == "signals":
            sent = rng.choice([signal.SIGTERM, signal.SIGINT, signal.SIGHUP])
            return At(number, when, ends_by(sent), kinds), sent
        return At(number, when, KILLED, kinds), signal.SIGKILL

    def run(self, watch: Optional[At] = None, sent: Optional[int] = None, *images: str) -> Ended:
        """Runs the command, and looks at what must hold."""
        taken = list(images) or self.rng.sample(IMAGES, self.rng.randint(1, 2))
        tails = ["--tails"] if images or self.rng.random() < 0.5 else []
        before = {name: read(self.path(name)) for name in self.theirs if is_file(self.path(name))}
        read_only = {name: read(self.image(name)) for name in [*IMAGES, "outside", "room/set.par2"]}
        ended = self.room.run(rescue.main, [*tails, self.folder, "room/set.par2", *taken], watch)
        self.log.add("run", taken, tails, told(watch), ended.status, ended.out, ended.said)
        ends_well(self.log, ended, STATUSES, sent)
        for name, data in before.items():
            now = read(self.path(name))
            if now != data:
                self.log.must(may_become(data, now, self.whole[name]), "a file of people has changed:", name)
                del self.theirs[name]
        for name, data in read_only.items():
            self.log.must(read(self.image(name)) == data, "changed:", name)
        self.log.must(not os.path.lexists(self.image("away")), "a file came outside")
        complete = [line[9:] for line in ended.out.splitlines() if line.startswith("complete ")]
        for name in [*complete, *(self.whole if ended.status == 0 else [])]:
            if name in self.whole:
                self.log.must(read(self.path(name)) == self.whole[name], "a false complete:", name)
        self.log.must(ended.status != 0 or not self.odd, "complete with a name that is refused")
        return ended

    # What happens between two runs.

    def between(self) -> None:
        """Does what people do: files of theirs in the folder always, and what the class is about."""
        rng, kind = self.rng, self.kind
        if kind in ("edits", "copies", "names") or rng.random() < 0.3:
            self.put_theirs(rng.choice(list(self.whole)))
        there = [name for name in self.whole if is_file(self.path(name))]
        if there and rng.random() < 0.2:
            name = rng.choice(there)
            os.chmod(self.path(name), 0o600) if rng.random() < 0.5 else os.remove(self.path(name))
            self.log.add("mode or removed", name)
        if kind == "kinds":
            self.put_kind(rng.choice(list(self.whole)))
        elif kind == "copies" and os.path.isdir(self.folder):
            copied(self.folder)
            if rng.random() < 0.4:
                write(os.path.join(self.room.state_home, "parv", "secret"), rng.choice([SECRET, b"t" * 32]))
            self.log.add("copied")
        elif kind == "records" and is_file(self.path(".parv-rescue")):
            self.change_record()
        elif kind == "images":
            with open(self.image(rng.choice(IMAGES)), "r+b") as file:
                file.seek(rng.randint(0, 30000))
                file.write(b"x")
            self.log.add("an image has changed")
        self.theirs = {name: data for name, data in self.theirs.items() if os.path.lexists(self.path(name))}

    def put_theirs(self, name: str) -> None:
        """Puts a file of theirs at a name of the set: in place, as a new file, or after the other one is moved away."""
        rng, whole, path = self.rng, self.whole[name], self.path(name)
        if not os.path.isdir(os.path.dirname(path)) or os.path.lexists(path) and not is_file(path):
            return
        third, half = len(whole) // 3, len(whole) // 2
        kind, data = rng.choice([
            ("other", noise(rng.random(), len(whole))), ("zeros", bytes(len(whole))),
            ("half zeros", noise("u", half) + bytes(len(whole) - half)),
            ("a part", whole[:third] + bytes(len(whole) - third)), ("short", b"mine"),
            ("a bit", bytes([whole[0] ^ 1]) + whole[1:] if whole else b""), ("right", whole)])
        how = rng.choice(["in place", "new", "moved"])
        if how == "moved" and os.path.lexists(path):
            shutil.move(path, self.image(f"moved{rng.randint(0, 99)}"))
        elif how == "new" and os.path.lexists(path):
            os.remove(path)
        write(path, data)
        self.theirs[name] = data
        self.log.add("theirs", name, kind, how)

    def put_kind(self, name: str) -> None:
        path = self.path(name)
        if os.path.isdir(os.path.dirname(path)) and self.rng.random() < 0.7:
            if is_file(path):
                os.remove(path)
            if not os.path.lexists(path):
                kind = self.rng.choice(["link", "fifo", "folder", "hard link"])
                if kind == "link":
                    os.symlink(self.image("outside"), path)
                elif kind == "hard link":
                    os.link(self.image("outside"), path)
                else:
                    os.mkfifo(path) if kind == "fifo" else os.mkdir(path)
                self.log.add(kind, name)

    def change_record(self) -> None:
        path = self.path(".parv-rescue")
        data = bytearray(read(path) or b"x")
        if self.rng.random() < 0.5:
            data[self.rng.randrange(len(data))] ^= 1
        else:
            data = data[:self.rng.randrange(len(data))]
        with open(path, "r+b") as file:     # the same inode, which the mark is about
            file.truncate(0)
            file.write(data)
        self.record_changed = True
        self.log.add("the record has changed")

    def make(self) -> Ended:
        """Makes the whole run, and returns how the last call has ended."""
        for _ in range(self.rng.randint(2, 6)):
            self.run(*self.hostile())
            self.between()
        for name in self.whole:
            path = self.path(name)
            if os.path.lexists(path) and (name in self.theirs or not is_file(path) or os.stat(path).st_nlink > 1):
                os.rmdir(path) if os.path.isdir(path) and not os.path.islink(path) else os.remove(path)
        self.theirs.clear()
        write(self.image("all"), self.all)
        return self.ends()

    def ends(self) -> Ended:
        """Runs the command until nothing is missing. A file that is refused, such as one of zeros alone in a copied
        folder, is removed."""
        ended = self.run(None, None, "all")
        for name in self.whole:
            if f"refused {name}\n" in ended.out or f"\nwrong {name} " in "\n" + ended.out:
                os.remove(self.path(name))
        ended = self.run(None, None, "all")
        lacks = [name for name, data in self.whole.items()
                 if not is_file(self.path(name)) or read(self.path(name)) != data]
        is_fine = ended.status == (1 if self.odd else 0) and not lacks
        is_told = ended.status == 3 and self.record_changed
        self.log.must(is_fine or is_told, "not whole at the end:", lacks, ended)
        return ended


def run(kind: str, rng: Random, log: Log) -> str:
    """Makes one run of this class. Returns how the last call has ended."""
    made = Rescues(kind, rng, log)
    try:
        return f"status {made.make().status}"
    finally:
        made.room.close()
