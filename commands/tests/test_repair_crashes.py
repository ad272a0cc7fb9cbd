"""A repair that is ended at each call that changes the disk: by force, by a signal, by a full disk. Nothing is lost,
and the next run completes the set or leaves all as it was."""

from __future__ import annotations

import os
import shutil
import signal
import unittest
from typing import Iterator, List, Set, Tuple

from parv_commands.repair import command as repair

from . import rooms
from .rooms import FULL, KILLED, MAKING, At, Ended, From, Room

WHOLE = {
    "report.doc": b"the report, whole", "notes.txt": b"some notes of a year",
    "left": b"left hand", "right": b"right hand",
    "one": b"same same", "two": b"same same", "in/a/folder": b"deep down", "empty": b"", "fine": b"fine as it is",
}


def damage(room: Room) -> None:
    """Damages the folder: one file is missing, one is damaged, two have each other's names, one has another name, one
    is a copy of that one, one belongs into a folder that isn't there, and an empty one is missing."""
    room.fresh()
    for name in os.listdir(room.temporary):     # left by runs that were killed
        shutil.rmtree(os.path.join(room.temporary, name))
    room.take("report.doc")
    room.put("notes.txt", b"some nXtes of a year")
    room.put("notes.txt.1", b"notes of somebody else")
    room.rename("left", "x")
    room.rename("right", "left")
    room.rename("x", "right")
    room.rename("one", "stray")
    room.take("two")
    room.rename("in/a/folder", "other")
    os.removedirs(room.path("in/a"))
    room.take("empty")


class Repairs(unittest.TestCase):
    """Tests that end repairs of one damaged folder."""
    room: Room
    calls: List[str]
    before: rooms.Listing
    held: Set[bytes]

    @classmethod
    def setUpClass(cls) -> None:
        cls.room = Room(WHOLE, recovery=40)
        damage(cls.room)
        cls.before, cls.held = cls.room.listing(), cls.room.contents()
        ended = cls.room.run(repair.main, ["room"])
        assert ended.status == 0 and not cls.room.lacks(), (ended, cls.room.lacks())
        cls.calls = ended.calls

    @classmethod
    def tearDownClass(cls) -> None:
        cls.room.close()

    def again(self, **environment: str) -> Ended:
        return self.room.run(repair.main, ["room"], None, **environment)

    def ended_at(self, watch: At) -> Ended:
        damage(self.room)
        return self.room.run(repair.main, ["room"], watch)

    def points(self, first: int = 1, each: int = 1) -> Iterator[Tuple[int, str]]:
        """Yields each call of a repair, before it and after it, or only some: neighbouring calls are mostly alike."""
        for number in range(first, len(self.calls) + 1, each):
            for when in "before", "after":
                yield number, when

    def is_held(self, what: object, held: Set[bytes]) -> None:
        self.assertFalse(held - self.room.contents(), (what, "is lost"))

    def completes(self, what: object, ended: Ended) -> None:
        self.assertEqual((ended.status, ended.last(), self.room.lacks()), (0, "complete", []), (what, ended))
        self.assertFalse([name for name in os.listdir(self.room.folder) if "kept" in name], (what, ended))


class Crashes(Repairs):
    def test_the_calls_of_a_repair_are_counted(self) -> None:
        for call in "mkdir", "create", "write", "symlink", "rename", "fsync", "unlink", "rmdir", "syncfs":
            self.assertIn(call, self.calls)
        self.assertGreater(len(self.calls), 60)

    def test_what_was_made_and_the_journal_are_on_the_disk_before_the_first_move(self) -> None:
        noted = self.calls.index("rename")      # the journal gets its name, when it is whole
        made = ["fsync"] * 4                    # of the missing and the damaged file, the copy and the empty one
        self.assertEqual(self.calls[noted - 7:noted + 4],
                         [*made, "create", "write", "fsync", "rename", "fsync", "fsync", "rename"])
        moved = len(self.calls) - 1 - self.calls[::-1].index("rename")
        self.assertEqual(self.calls[moved + 1:].count("syncfs"), 1)

    def test_a_kill_at_each_call_loses_nothing_and_the_next_run_completes(self) -> None:
        for number in range(1, len(self.calls) + 1):    # (test_repair_states has what is there after each call)
            self.assertEqual(self.ended_at(At(number, "before", KILLED)).status, 137, number)
            self.is_held(number, self.held)
            again = self.again()
            self.is_held(number, self.held)
            self.completes(number, again)

    def test_after_a_kill_a_run_that_cannot_repair_completes_or_undoes(self) -> None:
        for point in self.points(2, 2):
            self.ended_at(At(*point, KILLED))
            again = self.again(WRONG="fails")
            if again.status == 0:
                self.completes(point, again)
            else:
                self.assertEqual((again.status, self.room.listing()), (5, self.before), (point, again))

    def test_a_kill_while_par2_writes_loses_nothing(self) -> None:
        damage(self.room)
        self.assertEqual(self.again(WRONG="kills").status, 137)
        self.assertIn(4, [len(data) for name, (_, data) in self.room.listing().items() if "/files/" in name])
        self.is_held("", self.held)
        self.completes("", self.again())
        self.is_held("", self.held)

    def test_a_kill_while_backups_are_removed_takes_nothing_else(self) -> None:
        words = ["--remove-backups", "room"]
        damage(self.room)
        calls = self.room.run(repair.main, words).calls
        held = self.room.contents()
        first = len(calls) - calls[::-1].index("syncfs")
        for number in range(first, len(calls) + 1):
            for when in "before", "after":
                damage(self.room)
                ended = self.room.run(repair.main, words, At(number, when, KILLED))
                self.assertEqual(ended.status, 137, (number, when))
                self.is_held((number, when), held)
                self.completes((number, when), self.room.run(repair.main, words))
                self.is_held((number, when), held)

    def test_a_signal_at_each_call_leaves_all_as_it_was_or_comes_too_late(self) -> None:
        for number, each in ((signal.SIGTERM, 1), (signal.SIGINT, 9), (signal.SIGHUP, 10)):
            for point in self.points(each=each):
                ended = self.ended_at(At(*point, rooms.ends_by(number)))
                if ended.status == 0:
                    self.completes(point, ended)
                    self.is_held(point, self.held)
                else:
                    self.assertEqual((ended.status, ended.out, self.room.listing()), (128 + number, "", self.before),
                                     (point, ended))
                self.assertEqual(os.listdir(self.room.temporary), [], point)

    def full(self, watch: At, what: object) -> None:
        ended = self.ended_at(watch)
        self.is_held(what, self.held)
        if ended.status == 0:
            self.completes(what, ended)
            return
        self.assertEqual((ended.status, ended.out), (6, ""), (what, ended))
        self.assertIn("No space left", ended.said)
        if rooms.STAGE not in self.room.listing():
            self.assertEqual(self.room.listing(), self.before, (what, ended))
        self.completes(what, self.again())
        self.is_held(what, self.held)

    def test_a_disk_that_is_full_once_at_each_call_loses_nothing(self) -> None:
        for number in range(1, len(self.calls) + 1):
            self.full(At(number, "before", FULL), number)

    def test_a_disk_that_is_full_from_each_write_on_leaves_all_as_it_was(self) -> None:
        made = sum(call in MAKING for call in self.calls)
        for number in range(1, made + 1):
            ended = self.ended_at(From(number, "before", FULL, MAKING))
            self.assertEqual((ended.status, ended.out), (6, ""), (number, ended))
            self.assertEqual(self.room.listing(), self.before, (number, ended))
            self.completes(number, self.again())



if __name__ == "__main__":
    unittest.main()
