"""Commands on file systems of other kinds than the one of the tests: mounted, where that is allowed, and by stand-ins
for what is special about them."""

from __future__ import annotations

import contextlib
import errno
import os
import signal
import sys
import types
import unittest
import unittest.mock
from typing import Any, Dict, Iterator, List, Tuple

from parv_commands.common import changes, opened_folder
from parv_commands.map import command as drawing
from parv_commands.repair import command as repair

from .calls import BIN, Calls
from .folding import folding
from .rooms import KILLED, STAGE, At, Room, ends_by, read
from .test_repair_crashes import WHOLE, damage


class Listed:
    """A stand-in for a file system that lists what was in a folder when it was opened."""

    def __init__(self) -> None:
        self.names: Dict[int, List[Any]] = {}
        self._open, self._listdir = os.open, os.listdir

    def open(self, path: Any, flags: int, *rest: Any, **options: Any) -> int:
        opened = self._open(path, flags, *rest, **options)
        if flags & os.O_DIRECTORY and not flags & os.O_PATH:
            self.names[opened] = self._listdir(opened)
        return opened

    def listdir(self, path: Any) -> List[Any]:
        return self.names[path] if isinstance(path, int) else self._listdir(path)


class FileSystems(Calls):
    def setUp(self) -> None:
        self.room = Room(WHOLE, recovery=40)
        self.addCleanup(self.room.close)
        damage(self.room)

    def test_a_folder_is_listed_as_it_is_now(self) -> None:
        listed = Listed()
        with unittest.mock.patch.multiple(os, open=listed.open, listdir=listed.listdir):
            ended = self.room.run(repair.main, ["room"])
            self.assertEqual((ended.status, self.room.lacks()), (0, []), ended)
            self.assertEqual(os.listdir(self.room.temporary), [])
            ended = self.room.run(drawing.main, ["room/set.par2", "room/fine"])
            self.assertEqual(os.listdir(self.room.temporary), [], ended)

    def test_a_file_system_without_links_gets_a_message_that_says_so(self) -> None:
        real, before = os.symlink, self.room.listing()

        def symlink(target: bytes, name: bytes, **options: Any) -> None:
            if target.startswith(b"../../"):
                raise PermissionError(errno.EPERM, os.strerror(errno.EPERM))
            real(target, name, **options)
        with unittest.mock.patch.object(os, "symlink", symlink):
            ended = self.room.run(repair.main, ["room"])
        self.assertEqual((ended.status, ended.out, self.room.listing()), (6, "", before), ended)
        self.assertEqual(ended.said, "parv-repair: room: cannot make a link in room/.parv-repair/files: Operation not "
                                     "permitted: this file system has no links, by which par2 gets the files; copy the "
                                     "folder to another one, and repair it there\n")

    def test_a_file_system_on_which_no_file_can_be_moved_gets_a_message_that_says_so(self) -> None:
        self.room.fresh()
        self.room.rename("fine", "stray")
        before, fault = self.room.listing(), PermissionError(errno.EPERM, os.strerror(errno.EPERM))
        with unittest.mock.patch.object(changes, "move", side_effect=fault):
            ended = self.room.run(repair.main, ["room"])
        self.assertEqual((ended.status, ended.out, self.room.listing()), (6, "", before), ended)
        self.assertEqual(ended.said, "parv-repair: room: cannot move a file in room: Operation not permitted: this file "
                                     "system has no links, by which a file gets a name without the danger of replacing "
                                     "another one; copy the folder to another one, and repair it there\n")

    def test_a_name_that_is_another_file_in_each_form_is_said_to_be_one(self) -> None:
        """(exFAT by FUSE does that, where case is folded.)"""
        self.room.fresh()
        self.room.rename("fine", "Fine")
        before = self.room.listing()
        with folding(bytes.lower), unittest.mock.patch.object(os.path, "samestat", return_value=False):
            ended = self.room.run(repair.main, ["room"])
        self.assertEqual((ended.status, ended.out, self.room.listing()), (6, "", before), ended)
        self.assertEqual(ended.said, "parv-repair: room: fine has come meanwhile, or is Fine in this file system\n")

    def test_a_name_is_not_moved_if_another_file_is_listed_there(self) -> None:
        """(Where case is folded, the system may still see a file at a name that was renamed by the name in another
        case. Without a call that moves a file, the one whose name is removed isn't the one that was looked at then.)"""
        self.room.fresh()
        self.room.rename("fine", "stray")
        before, real = self.room.listing(), os.scandir

        @contextlib.contextmanager
        def scandir(place: int) -> Iterator[List[Any]]:
            with real(place) as entries:
                yield [types.SimpleNamespace(name=each.name, inode=lambda inode=each.inode(), name=each.name: inode + (
                    name == "stray")) for each in entries]
        with unittest.mock.patch.object(changes, "_libc", types.SimpleNamespace()):
            with unittest.mock.patch.object(os, "scandir", scandir):
                ended = self.room.run(repair.main, ["room"])
            self.assertEqual((ended.status, ended.out, self.room.listing()), (6, "", before), ended)
            self.assertIn("cannot move stray to fine: Stale file handle", ended.said)
            self.assertEqual(self.room.run(repair.main, ["room"]).last(), "complete")

    def test_what_is_renamed_by_names_in_another_case_is_kept_on_ntfs(self) -> None:
        room = Room({"g.txt": b"of the set", "x": b"of the set"})
        self.addCleanup(room.close)
        self.room = room
        mount = self.disk("ntfs").replace("ignore_case", "ignore_case,permissions")     # so the system keeps names
        script = (f'{mount} || exit 99\nmkdir disk/d; cp room/set.par2 disk/d; cd disk/d\n'
                  'echo mine > g.txt; cp ../../room/x G.Txt.1; "$2" -c "$3"; "$1" . ; echo $?; cd ../..\n'
                  f'umount disk; {mount}; grep -lrx mine disk/d')
        renames = ("import os; os.lstat('g.txt.1'); os.lstat('g.txt'); os.rename('g.txt', 't')\n"
                   "os.rename('G.Txt.1', 'g.txt'); os.rename('t', 'G.Txt.1')")
        ended = self.mounting(script, os.path.join(BIN, "parv-repair"), sys.executable, renames)
        self.assertEqual(ended[1].splitlines()[-1:], ["disk/d/g.txt.1"], ended)

    def folded(self) -> None:
        self.room.fresh()
        self.room.rename("fine", "FINE")
        self.room.rename("left", "x")
        self.room.rename("right", "LEFT")
        self.room.rename("x", "RighT")
        self.room.rename("notes.txt", "Notes.Txt")
        self.room.put("Notes.Txt", b"some nXtes of a year")

    def test_names_in_another_case_are_put_right_where_case_is_folded(self) -> None:
        with folding(bytes.lower):
            self.folded()
            held = self.room.contents()
            ended = self.room.run(repair.main, ["room"])
            self.assertEqual((ended.status, self.room.lacks()), (0, []), ended)
            self.assertIn("rename FINE to fine\n", ended.out)
            self.assertIn("keep Notes.Txt as notes.txt.1\n", ended.out)
            self.assertFalse(held - self.room.contents())
            for number in range(1, ended.calls.count("rename") + 1):
                for end in KILLED, ends_by(signal.SIGTERM):
                    self.folded()
                    before = self.room.listing()
                    first = self.room.run(repair.main, ["room"], At(number, "before", end, ["rename"]))
                    if first.status == 143:
                        self.assertEqual(self.room.listing(), before, number)
                    again = self.room.run(repair.main, ["room"])
                    self.assertEqual((again.status, self.room.lacks()), (0, []), (number, first, again))
                    self.assertFalse(held - self.room.contents(), number)

    def test_names_that_are_listed_in_lower_case_are_complete_once_they_are_given(self) -> None:
        room = Room({"Song.flac": b"a song", "in/B": b"another one", "a": b"another one"})
        self.addCleanup(room.close)
        room.rename("Song.flac", "song.flac")
        room.rename("in/B", "in/b")
        room.put("song.flac", b"damage")
        for _ in range(2):
            with folding(bytes.lower, True):
                ended = room.run(repair.main, ["room"])
            self.assertEqual((ended.status, ended.last()), (0, "complete"), ended)
            self.assertEqual([read(room.path(name)) for name in ("song.flac", "in/b", "song.flac.1")],
                             [b"a song", b"another one", b"damage"])

    def test_two_names_of_a_set_that_are_one_are_refused(self) -> None:
        room = Room({"song": b"a song", "SONG": b"another"})
        self.addCleanup(room.close)
        room.take("SONG")
        before = room.listing()
        with folding(bytes.lower):
            ended = room.run(repair.main, ["room"])
        self.assertEqual((ended.status, room.listing()), (6, before), ended)
        self.assertIn("SONG and song are one name in this file system", ended.said)

    def test_a_folder_that_is_mounted_below_is_seen_before_par2_works(self) -> None:
        os.makedirs(self.room.path("in/a"))
        inner, before, real = os.stat(self.room.path("in")).st_ino, self.room.listing(), opened_folder._mount_of

        def mount_of(place: int) -> Tuple[int, bytes]:
            return (0, b"other") if os.fstat(place).st_ino == inner else real(place)
        with unittest.mock.patch.object(opened_folder, "_mount_of", mount_of):
            ended = self.room.run(repair.main, ["room"], PAR2="/bin/false")
        self.assertEqual((ended.status, ended.said), (6, "parv-repair: room: it reaches into another file system\n"))
        self.assertEqual(self.room.listing(), before)
        script = 'mkdir other && mount --bind other room/in/a || exit 99\n"$@"'
        self.assertEqual(self.mounting(script, os.path.join(BIN, "parv-repair"), "room"), (6, "", ended.said))

    def on(self, kind: str) -> None:
        script = (f'{self.disk(kind)} || exit 99\ncp -r room disk/room; mkdir disk/tmp\n'
                  'export TMPDIR=$PWD/disk/tmp; "$@" disk/room || exit\nls -A disk/tmp; rm -r room; '
                  'cp -r disk/room room')
        ended = self.mounting(script, os.path.join(BIN, "parv-repair"))
        self.assertEqual((ended[0], ended[1].splitlines()[-1:], self.room.lacks()), (0, ["complete"], []), ended)

    def test_a_repair_on_ext4(self) -> None:
        self.on("ext4")

    def test_a_repair_on_xfs(self) -> None:
        self.on("xfs")

    def test_a_repair_on_btrfs(self) -> None:
        self.on("btrfs")

    def test_a_repair_on_tmpfs(self) -> None:
        self.on("tmpfs")

    def test_a_repair_on_overlayfs(self) -> None:
        self.on("overlay")

    def test_a_repair_on_exfat_says_why_it_ends(self) -> None:
        mount = self.disk("exfat")
        script = (f'{mount} || exit 99\ncp -r room disk/room; echo mine > disk/room/{STAGE}; '
                  'find disk/room > before; "$@" disk/room; echo $?; find disk/room | diff before - | grep "^[<>]"')
        ended = self.mounting(script, os.path.join(BIN, "parv-repair"))
        self.assertIn("this file system has no links, by which par2 gets the files", ended[2])
        self.assertEqual(ended[1].splitlines(), [
            "6", f"< disk/room/{STAGE}", "> disk/room/parv-repair.kept.1"], ended)

    def test_a_rename_on_exfat_says_why_it_ends(self) -> None:
        self.room.fresh()
        script = (f'{self.disk("exfat")} || exit 99\nfor name in stray Fine; do cp -r room disk/$name\n'
                  'mv disk/$name/fine x; mv x disk/$name/$name; find disk > before\n'
                  '"$@" disk/$name; echo $?; find disk | diff before -; done')
        ended = self.mounting(script, os.path.join(BIN, "parv-repair"))
        self.assertEqual(ended[1].splitlines()[-2:], ["6", "6"], ended)
        self.assertIn("cannot move a file in disk/stray: Operation not permitted: this file system has no", ended[2])
        self.assertIn("disk/Fine: fine has come meanwhile, or is Fine in this file system", ended[2])

    def test_a_repair_where_case_is_folded(self) -> None:
        self.folded()
        held = self.room.contents()
        self.on("ntfs")
        self.assertFalse(held - self.room.contents())


if __name__ == "__main__":
    unittest.main()
