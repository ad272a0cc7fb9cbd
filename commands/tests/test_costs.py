"""What many files, and long names, cost parv-repair: counted by calls and by bytes, which are the same on each
machine."""

from __future__ import annotations

import os
import signal
import tracemalloc
import unittest
import unittest.mock
from typing import Any, Callable, Dict, List

from parv_commands.common.opened_folder import Folder, Identity, identity_of
from parv_commands.common.names import shown, with_number
from parv_commands.common.recovery_set import Member, RecoverySet
from parv_commands.repair import command as repair, journal
from parv_commands.repair.journal import Made, Moves
from parv_commands.repair.plan import ENDS, Alike, Plan, plan_of
from parv_commands.repair.situation import Situation
from parv_commands.tree import command as tree

from .rooms import KILLED, At, Room, ends_by, read, write


class Counted:
    """Counts the calls of functions of `os`, and writes their number when a run ends."""

    def __init__(self, *names: str) -> None:
        self.count = 0
        self.patches = [unittest.mock.patch.object(os, name, self.counting(getattr(os, name))) for name in names]

    def counting(self, real: Any) -> Any:
        def call(*given: Any, **options: Any) -> Any:
            self.count += 1
            return real(*given, **options)
        return call

    def calls(self, room: Room, *words: str, main: Callable[[], int] = repair.main) -> int:
        """Returns how many calls a run makes that ends with 0 or 1."""
        place = os.path.join(room.top, "count")

        def run() -> int:
            self.count = 0
            status = main()
            write(place, b"%d" % self.count)
            return status
        for patch in self.patches:
            patch.start()
        try:
            ended = room.run(run, [*words, "room"])
        finally:
            for patch in self.patches:
                patch.stop()
        assert ended.status in (0, 1), ended
        return int(read(place))


class Equal(unittest.TestCase):
    def room_of(self, files: Dict[str, bytes], size: int = 64) -> Room:
        room = Room(files, size)
        self.addCleanup(room.close)
        return room

    def test_equal_files_are_found_in_time_that_grows_with_their_number_alone(self) -> None:
        counted: List[int] = []
        for count in 20, 80:
            room = self.room_of({f"f{number:03}": b"a" * 64 for number in range(count)})
            for number in range(1, count):
                room.take(f"f{number:03}")
                room.put(f"other{number:03}", b"a" * 63 + b"%c" % (number % 3 + 98))
            counted.append(Counted("pread").calls(room, "--dry-run"))
        self.assertLess(counted[1], 4 * counted[0] + 50)

    def test_files_of_equal_content_are_told_from_others(self) -> None:
        long = 3 * ENDS
        contents = [b"a" * long, b"a" * long, b"b" + b"a" * (long - 1), b"a" * (long - 1) + b"b",
                    b"a" * ENDS + b"b" + b"a" * (long - ENDS - 1), b"a" * long, b"x", b"x", b"y", b"", b""]
        room = self.room_of({f"{number:02}": data for number, data in enumerate(contents)})
        folder = Folder.open(os.fsencode(room.folder))
        self.addCleanup(folder.close)
        there = {b"%02d" % number: identity_of(os.stat(room.path(f"{number:02}"))) for number in range(len(contents))}
        alike = Alike(folder, there)
        for number, data in enumerate(contents):
            self.assertEqual(list(alike.of(b"%02d" % number)),
                             [b"%02d" % other for other, more in enumerate(contents) if more == data], number)

    def test_each_name_gets_a_file_of_its_content_if_there_is_one(self) -> None:
        files = {f"f{number}": b"same same" for number in range(6)}
        room = self.room_of({**files, "g": b"other one"}, 8)
        for number in range(6):
            room.rename(f"f{number}", f"x{number}") if number < 4 else room.take(f"f{number}")
        room.rename("g", "x9")
        ended = room.run(repair.main, ["room"])
        self.assertEqual((ended.status, room.lacks()), (0, []), ended)
        words = [line.split()[0] for line in ended.out.splitlines()]
        self.assertEqual((words.count("rename"), words.count("copy")), (5, 2), ended)

    def test_names_below_many_folders_cost_what_they_have_parts(self) -> None:
        for is_there in True, False:
            counted: List[int] = []
            for depth in 20, 100:
                room = self.room_of({"/".join(["x"] * depth + [f"f{number}"]): b"%d" % number for number in range(10)})
                for number in range(10):
                    room.rename("/".join(["x"] * depth + [f"f{number}"]), f"stray{number}")
                if not is_there:
                    os.removedirs(room.path("/".join(["x"] * depth)))
                dry = Counted("open", "stat").calls(room, "--dry-run")
                counted.append(dry + Counted("open", "stat").calls(room))
            self.assertLess(counted[1], 6 * counted[0], is_there)

    def test_a_tree_looks_at_each_part_of_a_name_once(self) -> None:
        counted: List[int] = []
        for depth in 40, 160:
            room = self.room_of({"/".join([str(number)] + ["x"] * depth): b"%d" % number for number in range(5)})
            counted.append(Counted("open", "stat").calls(room, main=tree.main))
        self.assertLess(counted[1], 5 * counted[0])

    def plan(self, folder: Folder, members: List[bytes], there: Dict[bytes, Identity]) -> Plan:
        """Returns the plan for files of which none is complete, and each is made."""
        files = [Member("", number, 1, 1, shown(name), name, b"", None, None) for number, name in enumerate(members)]
        recovery_set = RecoverySet("", 1, "", files, b"", 0)
        return plan_of(Situation(folder, recovery_set, there, [None] * len(files), set(), set(), ""))

    def test_long_names_cost_no_more_memory_than_a_few_copies_of_them(self) -> None:
        members = [b"/".join([b"%06d" % number] + [b"x" * 19] * 198 + [b"f"]) for number in range(100)]
        room = self.room_of({"one": b"one"})
        folder = Folder.open(os.fsencode(room.folder))
        self.addCleanup(folder.close)
        tracemalloc.start()
        self.addCleanup(tracemalloc.stop)
        steps = self.plan(folder, members, {}).steps(lambda path: Identity(1, 2, 3))
        journal.decode(journal.encode(steps))
        Moves(folder, b".parv-repair", steps, self.fail).sync()
        self.assertLess(tracemalloc.get_traced_memory()[1], 12 * sum(map(len, members)))
        self.assertEqual([step for step in steps if isinstance(step, Made)],
                         [Made(name[:-2], 199) for name in members])

    def test_backups_whose_names_are_cut_alike_are_named_and_put_back_one_after_the_other(self) -> None:
        counted: List[int] = []
        for count in 50, 200:
            room = self.room_of({"x" * 249 + f"{number:06}": b"%d" % number for number in range(count)})
            folder = Folder.open(os.fsencode(room.folder))
            self.addCleanup(folder.close)
            there = {name: identity_of(os.stat(name, dir_fd=folder.place)) for name in map(os.fsencode, room.files)}
            with unittest.mock.patch.object(Folder, "look", autospec=True, side_effect=Folder.look) as looks, \
                    unittest.mock.patch("parv_commands.common.opened_folder.with_number", side_effect=with_number) as names:
                plan = self.plan(folder, list(there), there)
                moves = Moves(folder, b".parv-repair", plan.steps(lambda path: Identity(1, 2, 3)), self.fail)
                before = room.listing()
                moves.undo()        # when no move has been made
                counted.append(looks.call_count + names.call_count)
            self.assertEqual(room.listing(), before)
            self.assertEqual(len({backup.name for backup in plan.backups}), count)
        self.assertLess(counted[1], 5 * counted[0])

    def test_folders_are_made_once_and_removed_again(self) -> None:
        room = self.room_of({name: name.encode() for name in ("a/b/c/1", "a/b/2", "a/b/d/e/3", "a/b.c/4", "f/5", "6")})
        for number in range(1, 7):
            room.rename(next(name for name in room.files if name.endswith(str(number))), f"stray{number}")
        for path in "a/b/c", "a/b/d/e", "a/b.c", "f":
            os.removedirs(room.path(path))
        os.mkdir(room.path("a"))
        before = room.listing()
        calls = room.run(repair.main, ["room"]).calls
        self.assertEqual(room.lacks(), [])
        moved = calls[calls.index("rename"):]
        self.assertEqual(moved.count("mkdir"), 6)
        for number in range(1, moved.count("mkdir") + moved.count("rename") + 1):
            for end, status in ((KILLED, 137), (ends_by(signal.SIGTERM), 143)):
                for name in room.files:
                    room.rename(name, f"stray{name[-1]}")
                for path in "a/b/c", "a/b/d/e", "a/b.c", "f":
                    os.removedirs(room.path(path))
                os.mkdir(room.path("a"))
                self.assertEqual(room.listing(), before)
                first = calls[:calls.index("rename")].count("mkdir") + calls[:calls.index("rename")].count("rename")
                ended = room.run(repair.main, ["room"], At(first + number, "before", end, ["mkdir", "rename"]))
                self.assertEqual(ended.status, status, (number, ended))
                if status == 143:
                    self.assertEqual(room.listing(), before, (number, ended))
                self.assertEqual(room.run(repair.main, ["room"]).status, 0)
                self.assertEqual(room.lacks(), [], (number, ended))


if __name__ == "__main__":
    unittest.main()
