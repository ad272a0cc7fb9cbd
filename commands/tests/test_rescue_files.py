"""What parv-rescue takes for files that it has made: those of its runs, of runs that were ended, and of folders that
were copied. And what it doesn't: files that people have put there, and records that came with a folder."""

from __future__ import annotations

import hashlib
import itertools
import os
import shutil
import types
import unittest
import unittest.mock
from typing import Callable, Dict, List, Optional

from parv_commands.common import changes
from parv_commands.rescue import command as rescue, resume_record

from .calls import BIN, Calls
from .rooms import KILLED, At, Ended, Room, file_id, read, set_of, unchanged, write

RESCUE = os.path.join(BIN, "parv-rescue")
SIZE = 4096
FRONT = 5 * SIZE            # what the first image has of the file, in bytes
# 16 slices of 4096 bytes, in which no byte is zero
BIG = bytes(byte or 1 for number in range(1024) for byte in hashlib.sha512(b"%d" % number).digest())
OTHER = "parv-rescue: refused: big: what is in its place isn't what was left there\n"
ODD = "parv-rescue: refused: big: it has other bytes where a slice belongs\n"
TAKEN = "parv-rescue: refused: big: something is in its place already\n"
COPY = ("parv-rescue: {0}/.parv-rescue isn't shown to be of a run of yours in this folder, which may be a copy: it is "
        "now parv-rescue.kept.1, and the files are read again\n")
WHOLE = "complete big\nslices 16/16, copied now {}\n"
PART = f"damaged big 5/16\nhole {FRONT} {len(BIG) - FRONT} big\nslices 5/16, copied now {{}}\n"


class Folders(unittest.TestCase):
    """Runs over two images: `part1` has the first slices of a file, and `part2` all others."""

    def setUp(self) -> None:
        self.room = Room({"big": BIG}, SIZE)
        self.addCleanup(self.room.close)
        self.put("part1", BIG[:FRONT])
        self.put("part2", b"before" + BIG[FRONT:])

    def path(self, *names: str) -> str:
        return os.path.join(self.room.top, *names)

    def put(self, name: str, data: bytes) -> None:
        write(self.path(name), data)

    def run_it(self, image: str, folder: str = "new", watch: Optional[changes.Observer] = None,
               **environment: str) -> Ended:
        return self.room.run(rescue.main, [folder, "room/set.par2", image], watch, **environment)

    def says(self, ended: Ended, status: int, out: str, said: str, what: object = "") -> None:
        self.assertEqual((ended.status, ended.out, ended.said), (status, out, said), (what, ended))

    def was_killed(self, ended: Ended, number: int) -> None:
        """(A run makes more or fewer calls as the matches come in more or fewer pieces.)"""
        if ended.status != 137:
            self.assertLess(len(ended.calls), number, ended)

    def begin(self) -> None:
        """Makes the folder with the first slices of the file."""
        shutil.rmtree(self.path("new"), ignore_errors=True)
        self.says(self.run_it("part1"), 1, PART.format(5), "")

    def calls_of_begin(self) -> List[str]:
        self.begin()
        shutil.rmtree(self.path("new"))
        return self.run_it("part1").calls


class Replaced(Folders):
    """Files of people in the place of one of the command's own."""

    def theirs(self) -> List[bytes]:
        """Returns files of the same length in which slices could be written, since there are zeros."""
        return [b"\xff" * FRONT + bytes(len(BIG) - FRONT), BIG[:FRONT - 1] + bytes(len(BIG) - FRONT + 1),
                bytes(len(BIG)), b"\xff" + BIG[1:FRONT] + bytes(len(BIG) - FRONT)]

    def test_one_of_the_same_length_is_not_written(self) -> None:
        def moved() -> None:
            os.rename(self.path("new/big"), self.path("mine"))
        makes: List[Callable[[], None]] = [moved, lambda: os.remove(self.path("new/big")), lambda: None]
        for data in self.theirs():
            for before in makes:
                self.begin()
                before()
                self.put("new/big", data)       # (in the last case, it has the same inode)
                self.says(self.run_it("part2"), 1, "refused big\nslices 0/16, copied now 0\n", OTHER)
                self.assertEqual(read(self.path("new/big")), data)

    def test_once_it_is_gone_the_file_is_made_anew(self) -> None:
        self.begin()
        self.put("new/big", self.theirs()[0])
        self.assertEqual(self.run_it("part2").status, 1)
        os.rename(self.path("new/big"), self.path("mine"))
        self.says(self.run_it("part2"), 1, f"damaged big 11/16\nhole 0 {FRONT} big\nslices 11/16, copied now 11\n", "")
        self.says(self.run_it("part1"), 0, WHOLE.format(5), "")
        self.assertEqual(read(self.path("new/big")), BIG)

    def test_a_kill_while_it_is_made_anew_and_the_next_run_goes_on(self) -> None:
        self.put("image", BIG)
        self.run_it("image")
        os.remove(self.path("new/big"))
        count = len(self.run_it("image").calls)
        for number in range(1, count + 1):
            if os.path.exists(self.path("new/big")):
                os.remove(self.path("new/big"))
            self.was_killed(self.run_it("image", watch=At(number, "before", KILLED)), number)
            ended = self.run_it("image")
            self.assertEqual((ended.status, ended.said), (0, ""), (number, ended))

    def test_one_in_a_run_that_was_ended_is_not_written(self) -> None:
        calls = self.calls_of_begin()
        for number in range(1, len(calls) + 1):
            for data in self.theirs()[0], b"\xff" * SIZE + bytes(len(BIG) - SIZE):
                shutil.rmtree(self.path("new"))
                self.was_killed(self.run_it("part1", watch=At(number, "before", KILLED)), number)
                if not os.path.isdir(self.path("new")) or not os.path.exists(self.path("new/.parv-rescue")):
                    os.makedirs(self.path("new"), exist_ok=True)
                    continue
                self.put("new/big", data)
                for image in "part2", "part1":
                    self.assertIn(self.run_it(image).status, (1, 3), number)
                    self.assertEqual(read(self.path("new/big")), data, (number, image))

    def test_one_that_comes_while_a_run_is_at_work_is_not_written(self) -> None:
        calls = self.calls_of_begin()
        for number in range(1, len(calls) + 1):
            for name in "part1", "part2":
                self.begin()
                if name == "part1":
                    shutil.rmtree(self.path("new"))

                def put() -> None:
                    if os.path.isdir(self.path("new")):
                        if os.path.exists(self.path("new/big")):
                            os.remove(self.path("new/big"))
                        self.put("new/big", self.theirs()[0])
                ended = self.run_it(name, watch=At(number, "before", put))
                if os.path.exists(self.path("new/big")) and read(self.path("new/big")) != self.theirs()[0]:
                    self.assertEqual(read(self.path("new/big"))[:FRONT] in (BIG[:FRONT], bytes(FRONT)), True, number)
                self.assertNotIn("Traceback", ended.said)

    def test_a_folder_that_has_a_file_by_chance_is_not_written(self) -> None:
        """(Nothing is believed of a record in it, even if that was made for the same set.)"""
        line = b"parv-rescue 2 " + self.room.packets[32:48].hex().encode() + b" " + b"0" * 64 + b"\n"
        owner = file_id(b"big", BIG).hex().encode()
        more = b"making %s\nslices 0-15\nat expected %s 1 0 0\n" % (owner, b"0" * 32)
        for data in bytes(len(BIG)), b"\xff" * FRONT + bytes(len(BIG) - FRONT), self.theirs()[3], b"mine":
            shutil.rmtree(self.path("new"), ignore_errors=True)
            self.put("new/.parv-rescue", line + more)
            self.put("new/big", data)
            self.assertIn(self.run_it("part2").said, [COPY.format("new") + why for why in (TAKEN, ODD)])
            self.assertEqual(read(self.path("new/big")), data)
            self.assertEqual(read(self.path("new/parv-rescue.kept.1")), line + more)
            self.assertIn(self.run_it("part1").said, [TAKEN, ODD])
            self.assertEqual(read(self.path("new/big")), data)


class Ways(Folders):
    """What is at the name of a file, and isn't one of the command's own, is never missing."""

    def test_what_cannot_be_looked_at_is_refused(self) -> None:
        self.begin()
        makes: Dict[str, Callable[[str], None]] = {
            "Too many levels of symbolic links": lambda path: os.symlink("/etc/passwd", path),
            "something is in its place already": os.mkfifo, " something is in its place already": os.mkdir,
            "  something is in its place already": lambda path: write(path, b"mine")}
        self.put("nothing", b"")
        for why, make in makes.items():
            shutil.rmtree(self.path("new"))
            self.says(self.run_it("nothing"), 1, "missing big 0/16\nslices 0/16, copied now 0\n",
                      "")
            make(self.path("new/big"))
            before = unchanged(self.path("new/big"))
            ended = self.run_it("nothing")
            self.assertEqual((ended.status, ended.out), (1, "refused big\nslices 0/16, copied now 0\n"), why)
            self.assertIn(why.strip(), ended.said)
            self.assertEqual(unchanged(self.path("new/big")), before)

    def test_a_whole_file_that_no_run_has_made_is_complete(self) -> None:
        """(As after parv-repair. An image may have its slices all the same.)"""
        self.put("nothing", b"")
        self.says(self.run_it("nothing"), 1, "missing big 0/16\nslices 0/16, copied now 0\n", "")
        self.put("new/big", BIG)
        before = unchanged(self.path("new/big"))
        for image in "part1", "part2":
            self.says(self.run_it(image), 0, WHOLE.format(0), "")
        self.assertEqual(unchanged(self.path("new/big")), before)
        for data in BIG[:-1] + b"x", BIG[:FRONT] + bytes(len(BIG) - FRONT):
            shutil.rmtree(self.path("new"))
            self.run_it("nothing")
            self.put("new/big", data)
            self.says(self.run_it("part2"), 1, "refused big\nslices 0/16, copied now 0\n", TAKEN)
            self.assertEqual(read(self.path("new/big")), data)

    def test_a_link_on_the_way_is_refused(self) -> None:
        packets = set_of({b"in/big": BIG}, SIZE, 0)
        self.put("in.par2", packets)
        self.put("nothing", b"")
        os.mkdir(self.path("elsewhere"))
        for _ in range(2):
            ended = self.room.run(rescue.main, ["new", "in.par2", "nothing"])
            self.assertEqual(ended.status, 1, ended)
            self.assertIn("missing in/big" if not os.path.lexists(self.path("new/in")) else "refused in/big", ended.out)
            if not os.path.lexists(self.path("new/in")):
                os.symlink("../elsewhere", self.path("new/in"))
        self.assertEqual(os.listdir(self.path("elsewhere")), [])

    def test_one_that_may_not_be_read_is_refused(self) -> None:
        self.begin()
        real = os.open

        def denied(path: object, flags: int, *rest: object, **more: object) -> int:
            if path == b"big":
                raise PermissionError(13, "Permission denied")
            return real(path, flags, *rest, **more)     # type: ignore[arg-type]
        with unittest.mock.patch.object(os, "open", denied):
            ended = self.run_it("part2")
        self.assertEqual((ended.status, ended.out), (1, "refused big\nslices 0/16, copied now 0\n"), ended)
        self.assertIn("Permission denied", ended.said)
        self.says(self.run_it("part2"), 0, WHOLE.format(11), "")


class Begun(Folders):
    """Slices of which a run has written a part before it was ended."""

    def test_a_part_of_a_slice_is_completed(self) -> None:
        self.room = Room({"big": BIG}, 3 * SIZE)
        self.addCleanup(self.room.close)
        self.put("part1", BIG[:6 * SIZE])
        self.put("part2", BIG[6 * SIZE:])
        for kept in range(0, 7):
            for order in ("part1", "part2"), ("part2", "part1", "part2"):
                shutil.rmtree(self.path("new"), ignore_errors=True)
                self.assertEqual(self.run_it("part1", watch=At(1, "after", KILLED, ["ftruncate"])).status, 137)
                with open(self.path("new/big"), "r+b") as file:
                    file.write(BIG[:kept * SIZE])
                for image in order:
                    ended = self.run_it(image)
                self.says(ended, 0, ended.out, "", (kept, order))
                self.assertIn("complete big\n", ended.out)
                self.assertEqual(read(self.path("new/big")), BIG)

    def test_a_file_that_was_made_and_has_nothing_is_missing(self) -> None:
        for number, kinds in ((1, ["ftruncate"]), (2, ["pwrite"])):
            shutil.rmtree(self.path("new"), ignore_errors=True)
            first = At(number, "before" if kinds == ["ftruncate"] else "after", KILLED, kinds)
            self.assertEqual(self.run_it("part1", watch=first).status, 137)
            self.put("nothing", b"")
            self.says(self.run_it("nothing"), 1, "missing big 0/16\nslices 0/16, copied now 0\n", "")
            self.says(self.run_it("part1"), 1, PART.format(5), "")

    def test_a_part_that_no_search_confirms_lets_nothing_be_written(self) -> None:
        self.begin()
        with open(self.path("new/big"), "r+b") as file:
            file.seek(FRONT + SIZE)
            file.write(BIG[FRONT + SIZE:FRONT + SIZE + 100] + b"\0" * 20 + b"mine")
        before = read(self.path("new/big"))
        self.put("part3", BIG[FRONT + 2 * SIZE:])
        for image in "part3", "part2", "part2":
            self.says(self.run_it(image), 1, "refused big\nslices 0/16, copied now 0\n", ODD)
            self.assertEqual(read(self.path("new/big")), before)


class Copies(Folders):
    """Folders that were copied or restored are taken up by what is in their files."""

    def test_a_copy_goes_on(self) -> None:
        self.begin()
        before = {name: unchanged(self.path("new", name)) for name in os.listdir(self.path("new"))}
        shutil.copytree(self.path("new"), self.path("copy"))
        self.says(self.run_it("part2", "copy"), 0, WHOLE.format(11), COPY.format("copy"))
        self.assertEqual(read(self.path("copy/big")), BIG)
        self.assertEqual(read(self.path("copy/parv-rescue.kept.1")), read(self.path("new/.parv-rescue")))
        self.says(self.run_it("part2", "copy"), 0, WHOLE.format(0), "")
        self.assertEqual({name: unchanged(self.path("new", name)) for name in os.listdir(self.path("new"))}, before)
        self.says(self.run_it("part2"), 0, WHOLE.format(11), "")

    def test_what_is_whole_in_a_copy_is_not_searched(self) -> None:
        self.begin()
        self.says(self.run_it("part2"), 0, WHOLE.format(11), "")
        shutil.copytree(self.path("new"), self.path("copy"))
        self.put("nothing", b"")
        self.says(self.run_it("nothing", "copy"), 0, WHOLE.format(0), COPY.format("copy"))

    def test_a_folder_that_was_restored_goes_on(self) -> None:
        for anew in True, False:
            self.begin()
            shutil.copytree(self.path("new"), self.path("backup"))
            if anew:
                shutil.rmtree(self.path("new"))
                shutil.move(self.path("backup"), self.path("new"))
            else:           # a file was lost, and is restored by itself
                os.remove(self.path("new/big"))
                shutil.move(self.path("backup/big"), self.path("new/big"))
            ended = self.run_it("part2")
            self.says(ended, 0, WHOLE.format(11), COPY.format("new") if anew else "")
            self.assertEqual(read(self.path("new/big")), BIG)

    def test_another_user_or_machine_takes_it_up_by_its_content(self) -> None:
        self.begin()
        other = self.path("other")
        os.mkdir(other, 0o700)
        self.says(self.run_it("part2", XDG_STATE_HOME=other), 0, WHOLE.format(11), COPY.format("new"))
        self.assertEqual(read(self.path("new/big")), BIG)

    def test_without_a_state_folder_nothing_is_made(self) -> None:
        ended = self.run_it("part1", XDG_STATE_HOME="/proc/none")
        self.assertEqual((ended.status, ended.out, os.path.exists(self.path("new"))), (6, "", False), ended)
        self.assertIn("XDG_STATE_HOME can name a folder", ended.said)

    def each_kill(self, *odd: str) -> None:
        """Kills a run that takes up a copy, before and after each of its calls. The next run goes on, and leaves a
        folder of these entries at most in addition to the usual ones."""
        self.begin()
        shutil.copytree(self.path("new"), self.path("copy"))
        count = len(self.run_it("part2", "copy").calls)
        for number in range(1, count + 1):
            for when in "before", "after":
                shutil.rmtree(self.path("copy"))
                shutil.copytree(self.path("new"), self.path("copy"))
                self.was_killed(self.run_it("part2", "copy", At(number, when, KILLED)), number)
                ended = self.run_it("part2", "copy")
                self.assertEqual(ended.status, 0, (number, when, ended))
                self.assertEqual(read(self.path("copy/big")), BIG)
                self.assertEqual(sorted(set(os.listdir(self.path("copy"))) - set(odd)),
                                 [".parv-rescue", "big", "parv-rescue.kept.1"], (number, when))
                self.says(self.run_it("part2", "copy"), 0, WHOLE.format(0), "", (number, when))

    def test_a_kill_while_a_copy_is_taken_up_and_the_next_run_goes_on(self) -> None:
        self.each_kill()

    def test_a_kill_while_a_file_has_two_names_and_the_next_run_goes_on(self) -> None:
        with unittest.mock.patch.object(changes, "_libc", types.SimpleNamespace()):     # so it can't be renamed by one call
            self.each_kill("parv-rescue.kept.2")

    def test_a_record_counts_as_long_as_another_name_of_it_does(self) -> None:
        """(Some file systems count the name that an open file had before.)"""
        self.begin()
        os.link(self.path("new/.parv-rescue"), self.path("other"))
        self.says(self.run_it("part2"), 0, WHOLE.format(11), "")
        os.remove(self.path("new/.parv-rescue"))
        self.put("mine", b"")
        os.link(self.path("mine"), self.path("new/.parv-rescue"))
        self.says(self.run_it("part2"), 6, "", "parv-rescue: new/.parv-rescue is a link\n")
        self.assertEqual(read(self.path("mine")), b"")

    def test_a_record_with_both_names_of_one_goes_on(self) -> None:
        """(It has both after a kill, where a file gets another name by two calls. A copy may keep that.)"""
        self.begin()
        shutil.copytree(self.path("new"), self.path("copy"))
        os.link(self.path("copy/.parv-rescue"), self.path("copy/.parv-rescue.new"))
        ended = self.run_it("part2", "copy")
        self.assertEqual((ended.status, ended.out), (0, WHOLE.format(11)), ended)
        for name in "parv-rescue.kept.1", "parv-rescue.kept.2":
            self.assertEqual(read(self.path("copy", name)), read(self.path("new/.parv-rescue")))
        self.put("empty/.parv-rescue", b"")
        os.link(self.path("empty/.parv-rescue"), self.path("empty/.parv-rescue.new"))
        self.says(self.run_it("part1", "empty"), 1, PART.format(5), "")
        for name in "copy", "empty":
            self.says(self.run_it("part2", name), 0, WHOLE.format(0 if name == "copy" else 11), "")
            self.assertFalse(os.path.lexists(self.path(name, ".parv-rescue.new")))

    def test_a_copy_goes_on_where_there_are_no_links(self) -> None:
        self.begin()
        shutil.copytree(self.path("new"), self.path("copy"))
        with unittest.mock.patch.object(changes, "move", side_effect=PermissionError(1, "Operation not permitted")):
            self.says(self.run_it("part2", "copy"), 0, WHOLE.format(11), COPY.format("copy"))
        self.assertEqual(read(self.path("copy/parv-rescue.kept.1")), read(self.path("new/.parv-rescue")))

    def test_a_record_with_a_wrong_byte_counts_up_to_there(self) -> None:
        for number in itertools.count(1):
            self.begin()
            lines = read(self.path("new/.parv-rescue")).splitlines(True)
            if number >= len(lines):    # (there are more if the matches come in more pieces)
                break
            at = sum(map(len, lines[:number])) + 3
            with open(self.path("new/.parv-rescue"), "r+b") as file:
                file.seek(at)
                file.write(bytes([lines[number][3] ^ 1]))
            self.says(self.run_it("part2"), 0, WHOLE.format(11), "", number)
            self.says(self.run_it("part2"), 0, WHOLE.format(0), "", number)
        self.assertGreater(number, 4)

    def test_a_copy_made_while_a_record_was_set_aside_goes_on(self) -> None:
        self.begin()
        for number, when in ((1, "before"), (1, "after"), (2, "before"), (2, "after")):
            for name in "copy", "again":
                shutil.rmtree(self.path(name), ignore_errors=True)
            shutil.copytree(self.path("new"), self.path("copy"))
            self.assertEqual(self.run_it("part2", "copy", At(number, when, KILLED, ["rename"])).status, 137)
            shutil.copytree(self.path("copy"), self.path("again"))
            ended = self.run_it("part2", "again")
            self.assertEqual((ended.status, ended.out), (0, WHOLE.format(11)), (number, when, ended))
            self.assertEqual(read(self.path("again/big")), BIG)
            self.says(self.run_it("part2", "again"), 0, WHOLE.format(0), "")

    def test_a_new_record_is_on_the_disk_before_the_other_one_is_set_aside(self) -> None:
        self.begin()
        shutil.copytree(self.path("new"), self.path("copy"))
        calls = self.run_it("part2", "copy").calls
        at = calls.index("rename")
        self.assertEqual(calls[at - 3:at + 3], ["pwrite", "fsync", "fsync", "rename", "rename", "fsync"])

    def test_a_file_in_the_place_of_the_new_record_is_kept(self) -> None:
        self.begin()
        shutil.copytree(self.path("new"), self.path("copy"))
        self.put("copy/.parv-rescue.new", b"mine")
        ended = self.run_it("part2", "copy")
        self.assertEqual((ended.status, ended.out), (0, WHOLE.format(11)), ended)
        self.assertEqual([line.split("it is now ")[1][:18] for line in ended.said.splitlines()],
                         ["parv-rescue.kept.1", "parv-rescue.kept.2"])
        self.assertEqual(read(self.path("copy/parv-rescue.kept.1")), b"mine")
        self.assertEqual(read(self.path("copy/parv-rescue.kept.2")), read(self.path("new/.parv-rescue")))
        os.remove(self.path("new/.parv-rescue"))
        self.put("new/.parv-rescue.new", b"mine")
        self.says(self.run_it("part2"), 3, "", "parv-rescue: new/.parv-rescue.new is of another set\n")
        self.assertEqual(read(self.path("new/.parv-rescue.new")), b"mine")


class Searched(Folders):
    """A search isn't made again over files that are as they were then."""

    def calls(self, image: str) -> List[str]:
        told = self.path("told")
        self.put("told", b"")
        self.put("telling", f'#!/bin/sh\necho "$1" >> {told}\nexec "{os.environ["PARV"]}" "$@"\n'.encode())
        os.chmod(self.path("telling"), 0o755)
        self.run_it(image, PARV=self.path("telling"))
        return read(told).decode().split()

    def test_a_file_that_has_changed_is_searched_again(self) -> None:
        hole = BIG[:2 * SIZE] + bytes(4 * SIZE) + BIG[6 * SIZE:]
        self.put("image", hole)
        self.assertIn("damaged big 12/16", self.run_it("image").out)
        self.assertNotIn("find", self.calls("image"))
        before = os.stat(self.path("image"))
        with open(self.path("image"), "r+b") as file:
            file.seek(2 * SIZE)
            file.write(BIG[2 * SIZE:6 * SIZE])
        os.utime(self.path("image"), ns=(before.st_atime_ns, before.st_mtime_ns))
        self.says(self.run_it("image"), 0, WHOLE.format(4), "")

    def test_one_that_replaces_another_is_searched(self) -> None:
        self.put("image", b"x" * len(BIG))
        self.put("other", BIG)
        os.utime(self.path("other"), ns=(1, 1))
        os.utime(self.path("image"), ns=(1, 1))
        self.assertIn("missing big", self.run_it("image").out)
        self.assertNotIn("find", self.calls("image"))
        os.replace(self.path("other"), self.path("image"))
        self.says(self.run_it("image"), 0, WHOLE.format(16), "")

    def test_slices_whose_checksums_come_later_are_searched(self) -> None:
        other = BIG[::-1]
        packets = set_of({b"big": BIG, b"other": other}, SIZE, 0)
        self.put("first.par2", packets[:packets.rindex(b"IFSC") - 56])
        self.put("more.par2", packets)
        self.put("image", BIG[:FRONT] + other)
        for names, line in ((["first.par2"], "missing other 0/16\n"), (["first.par2", "more.par2"], "complete other\n")):
            self.assertIn(line, self.room.run(rescue.main, ["new", *names, "image"]).out)


class Complete(Folders):
    """What is called complete has been read in this run."""

    def test_a_byte_that_has_changed_on_the_disk_is_noticed(self) -> None:
        """(The times of the file stay. Here they are made equal, as no test can make a disk rot.)"""
        with unittest.mock.patch.object(resume_record.Stamp, "__new__", lambda cls, *_: tuple.__new__(cls, (1, 1))):
            self.put("image", BIG)
            self.says(self.run_it("image"), 0, WHOLE.format(16), "")
            with open(self.path("new/big"), "r+b") as file:
                file.seek(3 * SIZE + 5)
                file.write(b"\xfe")
            self.says(self.run_it("image"), 1, "wrong big 16/16\nslices 16/16, copied now 0\n", "")
        self.assertEqual(read(self.path("new/big"))[3 * SIZE + 5], 0xfe)

    def test_a_wrong_one_that_was_removed_is_copied_again(self) -> None:
        self.put("image", BIG)
        self.says(self.run_it("image"), 0, WHOLE.format(16), "")
        os.remove(self.path("new/big"))
        self.says(self.run_it("image"), 0, WHOLE.format(16), "")


class Limits(Calls):
    def setUp(self) -> None:
        self.room = Room({"big": BIG, "small": b"small"}, SIZE)
        self.addCleanup(self.room.close)

    def test_more_files_than_may_be_open_are_searched_one_after_another(self) -> None:
        for number in range(0, len(BIG), SIZE):
            write(os.path.join(self.room.top, f"part{number // SIZE:02}"), BIG[number:number + SIZE])
        for number in range(80):
            write(os.path.join(self.room.top, f"other{number}"), b"other")
        write(os.path.join(self.room.top, "z"), b"small")
        ended = self.call(shell=f'ulimit -n 60; exec {RESCUE} new room/set.par2 other* part* z')
        self.assertEqual((ended[0], ended[2]), (0, ""), ended)
        self.assertEqual(read(os.path.join(self.room.top, "new/big")), BIG)

    def test_a_file_that_may_not_have_its_length_ends_with_6(self) -> None:
        ended = self.call(shell=f'ulimit -f 16; exec {RESCUE} new room/set.par2 room/big room/small')
        self.assertEqual((ended[0], sorted(ended[1].splitlines())), (
            6, ["complete small", "refused big", "slices 1/17, copied now 1"]), ended)
        self.assertEqual(ended[2], "parv-rescue: refused: big: it can't have 65536 bytes: File too large\n")

    def test_other_sets_in_the_packet_files_are_told(self) -> None:
        others = [set_of({b"other": b"%d" % number}, 8, 0) for number in range(5)]
        self.room.put("set.par2", self.room.packets + b"".join(others))
        own, ids = self.room.packets[32:48].hex(), [other[32:48].hex() for other in others]
        said = f": there are several sets, of which this is {own}; --set takes another one: {' '.join(ids[:3])} ..\n"
        for command, folder in ("rescue", "new"), ("map", "--"):
            given = [os.path.join(BIN, f"parv-{command}"), "--set", own, folder, *("room/" + name for name in (
                "set.par2", "big", "small"))]
            self.assertEqual(self.call(*given)[::2], (0, ""))
            del given[1:3]
            ended = self.call(*given)
            self.assertEqual((ended[0], ended[2]), (0, f"parv-{command}{said}"))
        self.room.put("set.par2", self.room.packets + others[0])
        self.assertTrue(self.call(*given)[2].endswith(f"another one: {ids[0]}\n"))

    def test_a_file_that_grows_is_searched_as_far_as_it_was(self) -> None:
        image = os.path.join(self.room.top, "image")
        growing = self.program("growing", f'#!/bin/bash\n[ "$1" != find ] || head -c 5000 /dev/urandom >> {image}\n'
                               f'exec "{os.environ["PARV"]}" "$@"\n')
        for command, folder in ("rescue", "new"), ("map", "--"):
            write(image, b"begins " + BIG)
            ended = self.call(os.path.join(BIN, f"parv-{command}"), folder, "room/set.par2", "image", PARV=growing)
            self.assertEqual(ended[0], 1 if command == "rescue" else 0, ended)
            self.assertRegex(ended[1], "complete big|big: 16 moved")

    def test_one_that_grows_while_a_search_goes_on_in_it(self) -> None:
        image, told = (os.path.join(self.room.top, name) for name in ("image", "told"))
        write(image, BIG[:8 * SIZE] + bytes(6 << 20) + BIG[8 * SIZE:])
        cut = self.program("cut", f'#!/bin/bash\n[ "$1" = find ] || exec "{os.environ["PARV"]}" "$@"\n'
                           f'"{os.environ["PARV"]}" "$@" | head -n 8\nexit 6\n')
        length = os.stat(image).st_size
        longer = "parv-rescue: a file that is searched has another length now than before\n"
        for times, status, said in ((1, 0, ""), (9, 6, longer)):
            shutil.rmtree(os.path.join(self.room.top, "new"), ignore_errors=True)
            self.assertEqual(self.call(RESCUE, "new", "room/set.par2", "room/small", "image", PARV=cut)[0], 6)
            write(told, b"")
            grows = self.program("grows", f'#!/bin/bash\nif [ "$1" = find ]; then echo >> {told}\n'
                                 f'[ $(wc -l < {told}) -gt {times} ] || head -c 5000 /dev/urandom >> {image}; fi\n'
                                 f'exec "{os.environ["PARV"]}" "$@"\n')
            ended = self.call(RESCUE, "new", "room/set.par2", "room/small", "image", PARV=grows)
            os.truncate(image, length)
            self.assertEqual((ended[0], ended[2]), (status, said), ended)


if __name__ == "__main__":
    unittest.main()
