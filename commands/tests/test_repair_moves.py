"""A repair and what it meets in its folder: files that arrive while it moves others, files that earlier runs and other
people have left in place of its stage, and journals that anyone may have made."""

from __future__ import annotations

import contextlib
import os
import shutil
import signal
import stat
import struct
import unittest
import unittest.mock
from typing import Callable, Dict, List

from parv_commands.common import changes
from parv_commands.common.faults import Refusal
from parv_commands.common.opened_folder import Folder, Identity
from parv_commands.repair import carry_out, command as repair, journal
from parv_commands.repair.journal import Made, Move, Step
from parv_commands.repair.work_folder import WorkFolder

from .rooms import (FULL, KILLED, SECRET, STAGE, At, Ended, Listing, Room, ends_by, logged, read, set_of, spent,
                    write)


class Without:
    """The C library without one of its calls, like an earlier version of it."""

    def __init__(self, library: object, name: str) -> None:
        self._library, self._name = library, name

    def __getattr__(self, name: str) -> object:
        if name == self._name:
            raise AttributeError(name)
        return getattr(self._library, name)


FILES = {"first": b"first of all", "second": b"the second", "third": b"the third one"}


class Moves(unittest.TestCase):
    def setUp(self) -> None:
        self.room = Room(FILES)
        self.addCleanup(self.room.close)

    def run_it(self, *words: str, watch: Callable[[str, str], None] = lambda call, when: None) -> Ended:
        return self.room.run(repair.main, [*words, "room"], watch)

    def turn(self) -> None:
        """Exchanges the names of the files in a circle, and damages the third."""
        self.room.fresh()
        self.room.rename("first", "x")
        self.room.rename("second", "first")
        self.room.rename("x", "second")
        self.room.put("third", b"the thXrd one")

    def completes(self, ended: Ended, what: object = "") -> None:
        self.assertEqual((ended.status, ended.last(), self.room.lacks()), (0, "complete", []), (what, ended))

    def test_a_trial_says_that_par2_will_be_needed_if_it_is_not_there(self) -> None:
        none = "parv-repair: room: par2 will be needed: cannot run none: put par2 in PATH, or name it by PAR2\n"
        self.room.put("third", b"the thXrd one")
        for name, said in {"none": none, self.room.stand_in: ""}.items():
            ended = self.room.run(repair.main, ["--dry-run", "room"], PAR2=name)
            self.assertEqual((ended.status, ended.said), (1, said), ended)
            self.assertEqual(ended.last(), "a repair can be tried: need 1 have 20")
        self.room.fresh()
        self.room.rename("third", "x")
        ended = self.room.run(repair.main, ["--dry-run", "room"], PAR2="none")
        self.assertEqual((ended.status, ended.said), (1, ""), "a name needs no par2")

    def test_packet_files_that_get_other_names_are_still_read_after_that(self) -> None:
        inner = set_of({b"x": b"inside"}, 8, 1)
        for folder in "", "sub/":
            room = Room({"first": b"first of all", folder + "inner": inner})
            self.addCleanup(room.close)
            room.rename(folder + "inner", "elsewhere")
            room.rename("set.par2", "packets")
            room.rename("first", "other")
            room.rename("packets", "first")
            ended = room.run(repair.main, ["--set", room.packets[32:48].hex(), "room"])
            self.assertEqual((ended.status, ended.last(), room.lacks()), (0, "complete", []), ended)
            self.assertEqual(read(room.path("first.1")), room.packets)

    def test_a_file_of_the_set_with_packets_of_another_one_chooses_no_set(self) -> None:
        inner = set_of({b"x": b"inside"}, 8, 1)
        room = Room({"inner": inner})
        self.addCleanup(room.close)
        room.rename("inner", "elsewhere")
        ended = room.run(repair.main, ["room"])
        self.assertEqual((ended.status, ended.last(), room.lacks()), (0, "complete", []), ended)
        room.put("other.par2", inner)
        self.assertEqual(room.run(repair.main, ["room"]).status, 3)
        room.take("other.par2")
        room.rename("set.par2", "set")
        self.assertEqual(room.run(repair.main, ["room"]).status, 3)

    def test_a_later_run_says_of_backups_that_it_removes_none(self) -> None:
        others = "third.01", "third.0", "third.", "third.txt", "fourth.1"
        for name in others:
            self.room.put(name, b"mine")
        ended = self.run_it("--remove-backups")
        self.assertEqual((ended.status, ended.out, ended.said), (0, "complete\n", ""))
        self.room.put("third", b"the thXrd one")
        self.assertEqual(self.run_it().status, 0)
        said = ("parv-repair: room: --remove-backups removes only what its own run has kept: third.1{} may be of an "
                "earlier one, and can be removed by rm\n")
        ended = self.run_it("--remove-backups")
        self.assertEqual((ended.status, ended.out, ended.said), (0, "complete\n", said.format("")))
        self.room.put("third.12", b"more")
        ended = self.run_it("--remove-backups")
        self.assertEqual((ended.status, ended.out, ended.said), (0, "complete\n", said.format(" and 1 more like it")))
        self.assertEqual(self.run_it().said, "")
        for name in (*others, "third.1", "third.12"):
            self.assertTrue(os.path.exists(self.room.path(name)), name)

    def test_a_backup_with_only_a_short_slice_before_other_bytes_stays(self) -> None:
        self.room.put("third", b"XXXXXXXXd one.XXXXXXXXXX")
        ended = self.run_it("--remove-backups")
        self.assertEqual((ended.status, ended.said), (0, "parv-repair: room: third.1 has no slice of third that is "
                                                      "found without --tails, and stays\n"), ended)
        self.assertTrue(os.path.exists(self.room.path("third.1")))

    def identity(self, name: str) -> Identity:
        now = os.stat(self.room.path(name))
        return Identity(now.st_ino, now.st_size, now.st_mtime_ns)

    def plant(self, steps: List[Step], secret: bytes = SECRET, changed: Callable[[bytes], bytes] = bytes) -> None:
        """Makes a stage with these steps as its journal, as a run of the user with this secret leaves it."""
        with contextlib.closing(Folder.open(os.fsencode(self.room.folder))) as folder, \
                contextlib.closing(WorkFolder(folder, secret, self.fail)) as place:
            if not os.path.lexists(self.room.path(STAGE)):
                place.make()
            self.room.put(f"{STAGE}/journal", place.record_of(b"journal", changed(journal.encode(steps))))

    def test_a_file_that_comes_to_a_name_before_each_move_is_kept(self) -> None:
        self.turn()
        moves = self.run_it().calls.count("rename")
        self.assertGreater(moves, 5)
        for number in range(1, moves + 1):
            self.turn()
            before = self.room.contents()

            def comes() -> None:
                for name in "first", "second", "third", "third.1":
                    if not os.path.lexists(self.room.path(name)):
                        self.room.put(name, b"has come: " + name.encode())
                        write(os.path.join(self.room.top, f"come{number}", name), b"has come: " + name.encode())
            ended = self.run_it(watch=At(number, "before", comes, ["rename"]))
            come = os.path.join(self.room.top, f"come{number}")
            came = os.listdir(come) if os.path.isdir(come) else []
            held = before | {read(os.path.join(come, name)) for name in came}
            self.assertFalse(held - self.room.contents(), (number, ended))
            self.assertIn(ended.status, (0, 6), (number, ended))
            if ended.status == 6:
                self.assertNotIn("complete", ended.out)
            self.completes(self.run_it(), number)
            self.assertFalse(held - self.room.contents(), number)

    def test_a_file_that_is_changed_while_others_are_moved_is_not_taken(self) -> None:
        for name in "first", "second", "third":
            self.turn()

            def change() -> None:
                with open(self.room.path(name), "ab") as out:
                    out.write(b", changed")
            ended = self.run_it(watch=At(1, "before", change, ["rename"]))
            self.assertEqual(ended.status, 6, ended)
            self.assertIn("has changed meanwhile", ended.said)
            self.assertTrue(any(data.endswith(b", changed") for data in self.room.contents()), name)
            self.completes(self.run_it())
            self.assertTrue(any(data.endswith(b", changed") for data in self.room.contents()), name)

    def test_a_file_is_not_kept_where_a_folder_is_to_be_made(self) -> None:
        room = Room({"first": b"first of all", "first.1/second": b"the second"})
        self.addCleanup(room.close)
        room.put("first", b"fXrst of all")
        room.rename("first.1/second", "stray")
        os.rmdir(room.path("first.1"))
        ended = room.run(repair.main, ["room"])
        self.assertEqual((ended.status, room.lacks()), (0, []), ended)
        self.assertEqual(read(room.path("first.2")), b"fXrst of all")

    def test_a_file_that_is_changed_after_the_moves_is_not_said_to_be_complete(self) -> None:
        self.turn()
        moves = self.run_it().calls.count("rename")
        self.turn()

        def changes() -> None:
            with open(self.room.path("first"), "ab") as out:
                out.write(b", changed")
        ended = self.run_it(watch=At(moves, "after", changes, ["rename"]))
        self.assertEqual((ended.status, ended.out), (5, ""), ended)
        self.assertIn("it isn't complete after the repair", ended.said)
        self.assertIn(b"first of all, changed", self.room.contents())
        self.completes(self.run_it())
        self.assertIn(b"first of all, changed", self.room.contents())

    def test_a_backup_that_is_changed_before_it_is_removed_stays(self) -> None:
        self.turn()
        ends = self.run_it("--remove-backups").calls.count("rmdir")
        self.turn()

        def changes() -> None:
            with open(self.room.path("third.1"), "ab") as out:
                out.write(b", changed")
        ended = self.run_it("--remove-backups", watch=At(ends - 1, "after", changes, ["rmdir"]))
        self.completes(ended)
        self.assertIn("third.1 has changed meanwhile, and stays", ended.said)
        self.assertNotIn("remove", ended.out)
        self.assertEqual(read(self.room.path("third.1")), b"the thXrd one, changed")

    def test_a_copy_does_not_run_as_its_owner(self) -> None:
        room = Room({"one": b"same same", "two": b"same same"})
        self.addCleanup(room.close)
        room.take("two")
        os.chmod(room.path("one"), 0o7751)
        ended = room.run(repair.main, ["room"])
        self.assertEqual((ended.status, room.lacks()), (0, []), ended)
        self.assertEqual([os.stat(room.path(name)).st_mode & 0o7777 for name in ("one", "two")], [0o7751, 0o751])

    def test_a_file_that_was_made_has_the_mode_and_the_owner_of_the_one_that_it_replaces(self) -> None:
        room = Room({"secret": b"a secret, whole", "empty": b"", "other": b"other bytes"})
        self.addCleanup(room.close)
        calls: List[str] = []
        for owner in (os.geteuid(), 12345) if not os.geteuid() else (os.geteuid(),):
            for mode in 0o600, 0o640, 0o444, 0o4755:
                room.fresh()
                room.put("secret", b"a sXcret, whole")
                room.put("empty", b"not empty")
                room.take("other")
                for name in "secret", "empty":
                    os.chown(room.path(name), owner, -1)
                    os.chmod(room.path(name), mode)
                ended = room.run(lambda: (os.umask(0o022), repair.main())[1], ["room"])
                self.assertEqual((ended.status, room.lacks()), (0, []), ended)
                for name in "secret", "empty":
                    now = os.stat(room.path(name))
                    self.assertEqual((now.st_mode & 0o7777, now.st_uid), (mode & 0o777, owner), (name, oct(mode)))
                self.assertEqual(os.stat(room.path("other")).st_mode & 0o7777, 0o644)
                calls += ended.calls
        self.assertLess(calls.index("fchmod"), calls.index("rename"))

    def test_a_file_with_an_access_control_list_is_not_readable_for_its_group_afterwards(self) -> None:
        room = Room({"secret": b"a secret, whole", "one": b"same same", "two": b"same same", "list": b"one, two, three"})
        self.addCleanup(room.close)
        room.take("two")

        def entry(tag: int, rights: int, user: int = 0xffffffff) -> bytes:
            return struct.pack("<HHI", tag, rights, user)

        def acl(user: int) -> bytes:
            """Lets a user read and write, and the group do nothing. The mode is 0660 then."""
            return struct.pack("<I", 2) + entry(1, 6) + entry(2, 6, user) + entry(4, 0) + entry(16, 6) + entry(32, 0)
        room.put("secret", b"a sXcret, whole")
        room.put("list", b"one, tXo, three")
        try:
            for name in "secret", "one":
                os.setxattr(room.path(name), "system.posix_acl_access", acl(12345))
        except OSError as fault:
            self.skipTest(f"no access control lists here: {fault}")
        ended = room.run(repair.main, ["room"])
        self.assertEqual((ended.status, room.lacks()), (0, []), ended)
        modes = {name: os.stat(room.path(name)).st_mode & 0o777 for name in room.files}
        self.assertEqual((modes["secret"], modes["one"], modes["two"]), (0o600, 0o660, 0o600))
        # A list that new files of the folder get stays, if the file that was replaced had it too.
        room.put("list", b"one, tXo, three")
        os.remove(room.path("list.1"))
        os.chmod(room.path("list"), 0o660)
        os.setxattr(room.path("list"), "system.posix_acl_access", acl(12345))
        os.setxattr(room.folder, "system.posix_acl_default", acl(12345))
        ended = room.run(repair.main, ["room"])
        self.assertEqual((ended.status, room.lacks()), (0, []), ended)
        self.assertEqual((os.getxattr(room.path("list"), "system.posix_acl_access"),
                          os.stat(room.path("list")).st_mode & 0o777), (acl(12345), 0o660))

    def test_a_group_that_cannot_be_given_gives_no_rights(self) -> None:
        path = os.path.join(self.room.top, "file")
        write(path, b"")
        opened = os.open(path, os.O_RDONLY)
        self.addCleanup(os.close, opened)
        now = list(os.fstat(opened))
        with unittest.mock.patch.object(changes, "set_owner", side_effect=PermissionError(1, "not allowed")):
            for mode, group, wanted in ((0o640, 7, 0o600), (0o664, 0, 0o664), (0o607, 7, 0o607)):
                before = os.stat_result([mode, *now[1:4], now[4] + 1, now[5] + group, *now[6:]])
                carry_out._set_like(opened, before, b"")
                self.assertEqual(os.fstat(opened).st_mode & 0o7777, wanted)

    def test_a_folder_that_becomes_a_link_leads_no_file_out(self) -> None:
        room = Room({"sub/first": b"first of all", "sub/second": b"the second"})
        self.addCleanup(room.close)
        outside = os.path.join(room.top, "outside")
        os.mkdir(outside)
        for number in range(1, 12):
            for when in "before", "after":
                room.fresh()
                room.rename("sub/first", "stray")
                room.put("sub/second", b"the sXcond")
                held = room.contents()

                def becomes_link() -> None:
                    os.rename(room.path("sub"), room.path("elsewhere"))
                    os.symlink("../outside", room.path("sub"))
                ended = room.run(repair.main, ["room"], At(number, when, becomes_link, ["rename", "mkdir", "fsync"]))
                self.assertEqual(os.listdir(outside), [], (number, when, ended))
                self.assertFalse(held - room.contents(), (number, when, ended))
                if os.path.islink(room.path("sub")):
                    self.assertNotEqual(ended.status, 0, (number, when, ended))
                    self.assertNotIn("Traceback", ended.said)

    def test_where_a_move_takes_two_calls_a_kill_between_them_loses_nothing(self) -> None:
        with unittest.mock.patch.object(changes, "_libc", Without(changes._libc, "renameat2")):
            self.turn()
            held = self.room.contents()
            calls = self.run_it().calls
            self.assertNotIn("rename", calls)
            self.assertGreater(calls.count("link"), 5)
            for number in range(1, calls.count("link") + 1):
                self.turn()
                ended = self.run_it(watch=At(number, "after", KILLED, ["link"]))
                self.assertEqual(ended.status, 137)
                self.assertFalse(held - self.room.contents(), number)
                self.completes(self.run_it(), number)
                self.assertFalse(held - self.room.contents(), number)
            for number in range(1, calls.count("link") + 1):
                self.turn()
                before = self.room.listing()
                ended = self.run_it(watch=At(number, "after", ends_by(signal.SIGTERM), ["link"]))
                self.assertEqual((ended.status, self.room.listing()), (143, before), (number, ended))

    def test_a_long_journal_takes_no_time_for_each_pair_of_files(self) -> None:
        gone = [Move(Identity(number, 1, 1), b"gone%d" % number, b"else%d" % number) for number in range(4000)]
        self.plant([])
        for number in range(2000):
            self.room.put(f"{STAGE}/aside/{number}", b"mine %d" % number)
        away = [Move(self.identity(f"{STAGE}/aside/{number}"), b"from%d" % number, b"%s/aside/%d" % (
            STAGE.encode(), number)) for number in range(2000)]
        self.plant([*gone, *away])
        before = spent()
        self.completes(self.run_it())
        self.assertLess(spent() - before, 20)
        self.assertEqual({read(self.room.path(f"from{number}")) for number in range(2000)},
                         {b"mine %d" % number for number in range(2000)})

    def test_a_planted_journal_moves_nothing_out_of_the_folder_or_through_a_link(self) -> None:
        write(os.path.join(self.room.top, "outside"), b"outside")
        os.mkdir(os.path.join(self.room.top, "other"))
        for origin, target in ((b"mine", b"../taken"), (b"mine", b"/tmp/taken"), (b"../outside", b"taken"),
                               (b"mine", b"way/taken"), (b"mine", b"a/../../taken"), (b"mine", b"./taken")):
            self.room.fresh()
            self.room.put("mine", b"mine")
            os.symlink("../other", self.room.path("way"))
            here = "mine" if origin == b"mine" else "../outside"
            self.plant([Move(self.identity(here), origin, target), Made(b"../made"), Made(b"way/made")])
            ended = self.run_it()
            self.assertEqual(read(self.room.path("mine")), b"mine", (origin, target, ended))
            self.assertEqual(sorted(os.listdir(self.room.top)),
                             "by-number calls other out outside par2 room said secrets tmp".split())
            self.assertEqual(os.listdir(os.path.join(self.room.top, "other")), [])
            self.assertIn(ended.status, (0, 6))

    def test_a_journal_moves_no_file_that_it_does_not_know(self) -> None:
        self.room.put("mine", b"mine")
        known = self.identity("mine")
        for file in (known._replace(inode=known.inode + 1), known._replace(length=9), known._replace(changed=1)):
            self.plant([Move(file, b"mine", b"taken")])
            self.completes(self.run_it())
            self.assertEqual(read(self.room.path("mine")), b"mine")

    def test_a_journal_takes_no_name_from_a_file_that_it_does_not_know(self) -> None:
        self.room.put("mine", b"mine")
        os.link(self.room.path("mine"), self.room.path("mine too"))
        other = self.identity("mine")._replace(inode=self.identity("first").inode)
        self.plant([Move(other, b"mine", b"mine too")])
        self.completes(self.run_it())
        self.assertEqual([read(self.room.path(name)) for name in ("mine", "mine too")], [b"mine"] * 2)

    def test_a_stage_with_a_file_of_somebody_else_is_kept(self) -> None:
        self.turn()
        self.plant([])
        self.room.put(f"{STAGE}/mine", b"mine")
        self.completes(self.run_it())
        self.assertEqual(read(self.room.path("parv-repair.kept.1/mine")), b"mine")

    def test_a_trial_changes_nothing_where_a_run_was_ended(self) -> None:
        self.turn()
        self.run_it(watch=At(3, "before", KILLED, ["rename"]))
        before = self.room.listing()
        ended = self.run_it("--dry-run")
        self.assertEqual((ended.status, self.room.listing()), (6, before), ended)
        self.assertIn("by the next without --dry-run", ended.said)

    def test_a_run_that_was_ended_after_its_moves_is_not_said_to_have_moved_nothing(self) -> None:
        self.turn()
        calls = self.run_it().calls
        gone = calls.index("unlink", calls.index("syncfs"))     # the removal of the journal
        self.turn()
        self.run_it(watch=At(calls[:gone + 1].count("unlink"), "after", KILLED, ["unlink"]))
        self.assertNotIn(f"{STAGE}/journal", self.room.listing())
        again = self.run_it()
        self.completes(again)
        self.assertEqual(again.said, "parv-repair: room: a run was ended here, with no move left to be made\n")

    def test_a_journal_that_the_next_run_would_not_read_is_not_written(self) -> None:
        self.turn()
        before = self.room.listing()
        with unittest.mock.patch.object(journal, "MOST", 200):
            ended = self.run_it()
        self.assertEqual((ended.status, ended.out, self.room.listing()), (6, "", before), ended)
        self.assertIn("a journal of all moves would be too long", ended.said)

    def test_new_folders_are_on_the_disk_before_the_journal_goes(self) -> None:
        room = Room({"in/a/folder/first": b"first of all"})
        self.addCleanup(room.close)

        def away() -> None:
            room.fresh()
            room.rename("in/a/folder/first", "stray")
            os.removedirs(room.path("in/a/folder"))
        away()
        calls = room.run(repair.main, ["room"]).calls
        first = calls[:calls.index("rename")].count("mkdir") + 1    # the first folder after the journal
        away()
        self.assertEqual(room.run(repair.main, ["room"], At(first, "before", KILLED, ["mkdir"])).status, 137)
        with logged(room, "sync_folder", "make_folder", "remove_file") as called:
            ended = room.run(repair.main, ["room"])
        self.assertEqual((ended.status, room.lacks()), (0, []), ended)
        made = called.index(("make_folder", "room/in/a", b"folder"))
        gone = called.index(("remove_file", f"room/{STAGE}", b"journal"))
        for name in "room", "room/in", "room/in/a", "room/in/a/folder":
            self.assertIn(("sync_folder", name, b""), called[made:gone])

    def test_an_undone_run_gives_a_file_its_name_back_that_got_another_number(self) -> None:
        self.turn()
        moves = self.run_it().calls.count("rename")
        undone = 0
        for number in range(2, moves + 1):
            for failing in range(1, moves + 1):
                self.turn()
                held: Listing = {**self.room.listing(), "third.1": (stat.S_IFREG, b"come meanwhile")}
                self.run_it(watch=At(number, "before", KILLED, ["rename"]))
                if "third.1" in self.room.listing():
                    break
                self.room.put("third.1", b"come meanwhile")
                ended = self.room.run(repair.main, ["room"], At(failing, "before", FULL, ["rename"]), WRONG="fails")
                if "is undone" in ended.said:
                    undone += 1
                    self.assertEqual((ended.status, self.room.listing()), (5, held), (number, failing, ended))
        self.assertGreater(undone, 3)

    def test_a_run_after_one_that_was_ended_knows_files_of_any_time(self) -> None:
        for time in -10 ** 18 - 5, -1, 0, 1, 10 ** 18 + 5:
            self.turn()
            for name in "first", "second", "third":
                os.utime(self.room.path(name), ns=(time, time))
            self.run_it(watch=At(4, "after", KILLED, ["rename"]))
            again = self.run_it()
            self.completes(again, time)
            self.assertIn("is finished", again.said)

    def test_a_journal_with_other_numbers_is_refused(self) -> None:
        good = journal.encode([Move(Identity(1, 2, -3), b"mine", b"taken")])
        self.assertEqual(journal.decode(good), [Move(Identity(1, 2, -3), b"mine", b"taken")])
        for numbers in b"1 2", b"1 2 3 4", b"1 2 x", b"1 -2 3", b"1 2 3.5", b"1 2 %s" % (b"9" * 5000), b"":
            with self.assertRaisesRegex(Refusal, "it is no journal of this version"):
                journal.decode(good.replace(b"1 2 -3", numbers))
        for data in b"", good[:-1], good[:-4], good[:20], good + b"\0", good.replace(b"journal 2", b"journal 1"):
            with self.assertRaisesRegex(Refusal, "it is no journal of this version"):
                journal.decode(data)

    def test_backups_are_not_removed_by_the_run_after_one_that_was_ended(self) -> None:
        self.turn()
        moves = self.run_it().calls.count("rename")
        self.turn()
        self.run_it("--remove-backups", watch=At(moves, "after", KILLED, ["rename"]))
        self.room.put("third", b"the third, a week later")
        again = self.run_it("--remove-backups")
        self.completes(again)
        self.assertIn("removes nothing", again.said)
        self.assertFalse({b"the thXrd one", b"the third, a week later"} - self.room.contents())

    # What comes with a folder, or was left there by the script of version 0.4.0.

    def below(self, name: str) -> Listing:
        """Returns what is at a name of the folder and below it, by its path from there."""
        return {path[len(name):]: what for path, what in self.room.listing().items()
                if (path + "/").startswith(name + "/")}

    def is_set_aside(self, name: str, what: object) -> Ended:
        """Wants a trial to say that what has this name isn't followed, and a run to complete the set and to give it
        another name, as it is."""
        before, kept = self.room.listing(), f"{name[1:]}.kept.1"
        first = f"parv-repair: room: {name} isn't shown to be of a run of yours in this folder: "
        ended = self.run_it("--dry-run")
        self.assertEqual((ended.status, self.room.listing()), (1, before), (what, ended))
        self.assertEqual(ended.said, first + "the next run without --dry-run gives it another name, and follows "
                                             "nothing in it\n")
        held, there = self.room.contents(), self.below(name)
        ended = self.run_it("--remove-backups")
        self.completes(ended, what)
        self.assertEqual(self.below(kept), there, what)
        self.assertFalse(held - self.room.contents() - {b"the thXrd one"}, what)
        self.assertEqual(ended.said, f"{first}nothing in it is followed, and it is now {kept}; if files of yours are "
                                     "in it, move them into the folder, under any names, and call the command again\n"
                                     "parv-repair: room: so --remove-backups removes nothing\n", what)
        return ended

    def odd_owner(self, make: Callable[[], None]) -> None:
        os.mkdir(self.room.path(STAGE))
        make()

    def test_what_is_not_of_a_run_of_this_user_here_is_set_aside(self) -> None:
        owner = self.room.path(f"{STAGE}/owner")

        def copied() -> None:
            self.plant([Made(b"sub")])
            shutil.copytree(self.room.folder, self.room.folder + ".copy", symlinks=True)
            shutil.rmtree(self.room.folder)
            os.rename(self.room.folder + ".copy", self.room.folder)

        def moved() -> None:
            """A stage of another folder, with the inode that it has here."""
            os.rename(self.room.folder, self.room.folder + ".old")
            os.mkdir(self.room.folder)
            self.plant([Made(b"sub")])
            os.rename(self.room.path(STAGE), self.room.folder + ".old/" + STAGE)
            os.rmdir(self.room.folder)
            os.rename(self.room.folder + ".old", self.room.folder)

        def flipped(path: str, at: int) -> None:
            self.plant([Made(b"sub")])
            data = bytearray(read(self.room.path(path)))
            data[at] ^= 1
            write(self.room.path(path), bytes(data))

        def odd_journal() -> None:
            self.plant([])
            os.remove(self.room.path(f"{STAGE}/journal"))
            os.mkdir(self.room.path(f"{STAGE}/journal"))
        cases: Dict[str, Callable[[], None]] = {
            "a link": lambda: os.symlink("../other", self.room.path(STAGE)),
            "a file": lambda: self.room.put(STAGE, b"a file"),
            "a FIFO": lambda: os.mkfifo(self.room.path(STAGE)),
            "a journal and no owner": lambda: self.room.put(f"{STAGE}/journal", journal.encode([Made(b"sub")])),
            "an owner of the version before": lambda: self.room.put(f"{STAGE}/owner", b"parv-repair 1 inode 1\n"),
            "an owner that is a FIFO": lambda: self.odd_owner(lambda: os.mkfifo(owner)),
            "an owner without end": lambda: self.odd_owner(lambda: os.symlink("/dev/zero", owner)),
            "another user": lambda: self.plant([Made(b"sub")], b"s" * 32),
            "a copy": copied, "another folder": moved, "a journal that is a folder": odd_journal,
            "another owner": lambda: flipped(f"{STAGE}/owner", 20),
            "another mark": lambda: flipped(f"{STAGE}/journal", -20),
            "another journal": lambda: flipped(f"{STAGE}/journal", 30),
            "another version": lambda: self.plant([], changed=lambda data: data.replace(b"journal 2", b"journal 1"))}
        for name, make in cases.items():
            self.turn()
            make()
            if not os.path.islink(self.room.path(STAGE)) and os.path.isdir(self.room.path(STAGE)):
                self.room.put(f"{STAGE}/files/set.par2", b"something")
                self.room.put(f"{STAGE}/made/what", b"something else")
                self.room.put(f"{STAGE}/aside/1", b"the report")
            self.is_set_aside(STAGE, name)
        self.assertNotIn("sub", self.room.listing())

    def test_what_the_script_of_version_0_4_0_has_left_is_set_aside(self) -> None:
        self.turn()
        self.room.put(".verify_and_repair/moves", b"1\0first\0second\0")
        self.room.put(".verify_and_repair/aside/0", b"the report")
        os.symlink("../../second", self.room.path(".verify_and_repair/second"))
        self.is_set_aside(".verify_and_repair", "a folder")
        self.turn()
        self.room.put(".verify_and_repair", b"a file")
        self.is_set_aside(".verify_and_repair", "a file")

    def test_a_planted_list_takes_no_file_whatever_inodes_it_guesses(self) -> None:
        """The lists lead a file onto itself, or to a name that was removed as the command's own."""
        for owned in False, True:
            for last in b"mine", b".verify_and_repair/list", b".parv-repair/owner", b".parv-repair/journal":
                self.turn()
                self.room.put("mine", b"mine, and there is no copy")
                node = os.stat(self.room.path("mine")).st_ino
                ways = [(node, b"mine", b".verify_and_repair/files/q"), (node, b".verify_and_repair/files/q", last)]
                self.room.put(".verify_and_repair/moves", b"".join(
                    b"%d\0%s\0%s\0" % each for each in ([(node, b"mine", b"mine")] if last == b"mine" else ways)))
                self.plant([Move(self.identity("mine"), b"mine", last)], SECRET if owned else b"s" * 32)
                ended = self.run_it()
                self.completes(ended, last)
                self.assertEqual(read(self.room.path("mine")), b"mine, and there is no copy")

    def test_steps_that_no_run_makes_are_not_made(self) -> None:
        stage = STAGE.encode()
        for target in (b"mine", b".parv-repair", b".Parv-Repair/made/x", b"sub/.parv-repair/made/x", b".PARV-RESCUE",
                       b"sub/.verify_and_repair", stage + b"/owner", stage + b"/aside/a/b", stage + b"/made/x",
                       stage + b"/files/x", b"../taken", b"a//b", b"/a",
                       ".parv\u00ad-repair/made/x".encode(), ".par\uff56-repair./x".encode()):
            self.turn()
            self.room.put("mine", b"mine")
            self.plant([Move(self.identity("mine"), b"mine", target)])
            self.completes(self.run_it(), target)
            self.assertEqual(read(self.room.path("mine")), b"mine", target)
            self.assertIn("journal", os.listdir(self.room.path("parv-repair.kept.1")))
        wrong: List[List[Step]] = [
            [Move(Identity(1, 2, 3), b"a", b"c"), Move(Identity(4, 5, 6), b"b", b"c")], [Made(b"c"), Made(b"c")],
            [Made(b"sub/.Parv-Repair")]]
        for steps in wrong:
            with self.assertRaisesRegex(Refusal, "no run moves a file to"):
                journal.Moves(Folder(-1, ""), stage, steps, self.fail)

    def test_a_file_with_a_name_of_the_commands_is_copied_and_stays(self) -> None:
        self.room.rename("first", ".Parv-Rescue")
        ended = self.run_it()
        self.completes(ended)
        self.assertEqual(ended.out, "copy .Parv-Rescue to first\ncomplete\n")
        self.assertEqual(read(self.room.path(".Parv-Rescue")), b"first of all")

    def test_a_planted_journal_is_not_read(self) -> None:
        self.plant([Made(b"sub")], b"s" * 32)
        self.room.rename("first", "stray")
        real = Folder.open_to_read

        def open_to_read(folder: Folder, name: bytes) -> int:
            self.assertNotIn(b"journal", name)
            return real(folder, name)
        with unittest.mock.patch.object(Folder, "open_to_read", open_to_read):
            self.completes(self.run_it())

    def test_a_run_that_another_user_or_nobody_knows_loses_nothing_and_can_be_put_right_by_hand(self) -> None:
        secret = os.path.join(self.room.state_home, "parv", "secret")
        self.turn()
        calls = self.run_it().calls
        for number in range(1, len(calls) + 1):
            write(secret, SECRET)
            self.turn()
            held = self.room.contents()
            self.run_it(watch=At(number, "before", KILLED))
            if number % 2:
                write(secret, b"t" * 32)
            else:
                os.remove(secret)
            ended = self.run_it()
            self.assertIn(ended.status, (0, 2), (number, ended))
            self.assertFalse(held - self.room.contents(), (number, ended))
            if STAGE not in self.room.listing() and "parv-repair.kept.1" in self.room.listing():
                self.assertIn("isn't shown to be of a run of yours", ended.said)
                for part in "aside", "made":
                    kept = self.room.path(f"parv-repair.kept.1/{part}")
                    for name in os.listdir(kept) if os.path.isdir(kept) else ():
                        os.rename(os.path.join(kept, name), self.room.path(f"back {part} {name}"))
            self.completes(self.run_it(), number)
            self.assertFalse(held - self.room.contents(), (number, ended))
            if not os.path.exists(secret):
                write(secret, SECRET)
            os.chmod(secret, 0o600)

    def test_without_a_secret_that_can_be_used_nothing_is_moved_or_set_aside(self) -> None:
        secret = os.path.join(self.room.state_home, "parv", "secret")
        self.turn()
        self.plant([])
        os.chmod(secret, 0o644)
        before = self.room.listing()
        for ended in self.run_it(), self.run_it("--dry-run"):
            self.assertEqual((ended.status, ended.out, self.room.listing()), (6, "", before), ended)
            self.assertIn("is for other users too", ended.said)
        self.turn()
        before = self.room.listing()
        ended = self.run_it()
        self.assertEqual((ended.status, ended.out, self.room.listing()), (6, "", before), ended)
        self.assertEqual(self.run_it("--dry-run").status, 1)
        self.room.fresh()
        self.assertEqual(self.run_it().status, 0, "a complete set needs none")
        os.chmod(secret, 0o600)


if __name__ == "__main__":
    unittest.main()
