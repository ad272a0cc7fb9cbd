"""A rescue that is ended at each call that changes the disk: what was written stays, and the next run finishes it."""

from __future__ import annotations

import os
import shutil
import signal
import unittest
import unittest.mock
from typing import List, Optional, Set

from parv_commands.common import changes, search
from parv_commands.rescue import command as rescue, writer

from .rooms import FULL, KILLED, MAKING, At, Ended, From, Room, ends_by, logged, read, set_of, write

FILES = {"long": b"one slice and another one, and a short one", "in/a/folder": b"deep down below", "empty": b"",
         "short": b"few"}
WORDS = ["new", "room/set.par2", "image"]
ALL = ["complete empty", "complete in/a/folder", "complete long", "complete short"]


class Rescue(unittest.TestCase):
    room: Room
    calls: List[str]

    @classmethod
    def setUpClass(cls) -> None:
        cls.room = Room(FILES)
        image = b"some bytes before " + FILES["long"] + b" and " + FILES["in/a/folder"] + b" and " + FILES["short"]
        write(os.path.join(cls.room.top, "image"), image)
        cls.run_it()        # (the first run of all makes the secret of the records)
        cls.calls = cls.run_it().calls

    @classmethod
    def tearDownClass(cls) -> None:
        cls.room.close()

    @classmethod
    def run_it(cls, watch: Optional[changes.Observer] = None, goes_on: bool = False) -> Ended:
        for name in os.listdir(cls.room.temporary):
            shutil.rmtree(os.path.join(cls.room.temporary, name))
        if not goes_on:
            shutil.rmtree(os.path.join(cls.room.top, "new"), ignore_errors=True)
        return cls.room.run(rescue.main, ["--tails", *WORDS], watch)

    def was_killed(self, ended: Ended, number: int) -> None:
        """(A run makes more or fewer calls as the matches come in more or fewer pieces.)"""
        if ended.status != 137:
            self.assertLess(len(ended.calls), number, ended)

    def is_whole(self, ended: Ended, what: object) -> None:
        self.assertEqual((ended.status, ended.said, sorted(ended.out.splitlines())[:4]), (0, "", ALL), (what, ended))
        for name, data in FILES.items():
            self.assertEqual(read(os.path.join(self.room.top, "new", name)), data, (what, name))

    def test_the_calls_of_a_rescue_are_counted(self) -> None:
        for call in "mkdir", "create", "write", "pwrite", "ftruncate", "fsync", "symlink", "unlink":
            self.assertIn(call, self.calls)

    def test_a_kill_at_each_call_and_the_next_run_goes_on(self) -> None:
        for number in range(1, len(self.calls) + 1):
            for when in "before", "after":
                self.was_killed(self.run_it(At(number, when, KILLED)), number)
                self.is_whole(self.run_it(goes_on=True), (number, when, self.calls[number - 1]))

    def test_a_full_disk_from_each_call_on_is_told_and_the_next_run_goes_on(self) -> None:
        for number in range(1, sum(call in MAKING for call in self.calls) + 1):
            ended = self.run_it(From(number, "before", FULL, MAKING))
            if ended.status == 0:
                self.assertLess(sum(call in MAKING for call in ended.calls), number, ended)
                continue
            self.assertIn("No space left", ended.said, number)
            self.assertEqual(ended.status, 6, (number, ended))
            if "can't have" not in ended.said:      # (a single file is refused if it can't have its length)
                self.assertEqual(ended.out, "", (number, ended))
            self.is_whole(self.run_it(goes_on=True), number)

    def test_one_call_that_fails_or_a_signal_at_each_and_the_next_run_goes_on(self) -> None:
        """(Here three slices are written at a time, and so the search has passed two of them.)"""
        with unittest.mock.patch.multiple(writer, MOST_WAITING=2 * search.LINE + 20):
            calls = self.run_it().calls
            for number, call in enumerate(calls, 1):
                for does in FULL, ends_by(signal.SIGTERM):
                    ended = self.run_it(At(number, "before", does))
                    self.assertNotIn("Traceback", ended.said, (number, call))
                    self.is_whole(self.run_it(goes_on=True), (number, call, ended))
                    self.assertNotIn(b"\ncopy ", read(os.path.join(self.room.top, "new", ".parv-rescue")), (number, call))

    def test_a_file_of_somebody_else_is_not_taken_for_one_that_was_being_made(self) -> None:
        for number, call in enumerate(self.calls, 1):
            if call != "create":
                continue
            self.run_it(At(number, "before", KILLED))
            place = os.path.join(self.room.top, "new", "long")
            if os.path.isdir(os.path.dirname(place)) and not os.path.exists(place):
                write(place, b"mine")
                self.run_it(goes_on=True)
                self.assertEqual(read(place), b"mine", number)

    def test_a_record_that_is_none_stays(self) -> None:
        head = b"parv-rescue 2 " + self.room.packets[32:48].hex().encode()
        place = os.path.join(self.room.top, "new", ".parv-rescue")
        for data in (b"notes without a line feed", b"\0" * 9, head + b" and more", b"notes\n", head[:-32] + b"0" * 32,
                     head[:-32] + b"0" * 32 + b" more\n", head + b"x\n", b"x" * 5000 + b"\n" + head + b"\n"):
            shutil.rmtree(os.path.dirname(place), ignore_errors=True)
            write(place, data)
            ended = self.run_it(goes_on=True)
            self.assertEqual((ended.status, ended.out, read(place)), (3, "", data), ended)
            self.assertIn(".parv-rescue is of another set", ended.said)
            self.assertEqual(os.listdir(os.path.dirname(place)), [".parv-rescue"])
        write(place, b"")
        self.is_whole(self.run_it(goes_on=True), "an empty one")

    def test_a_record_whose_first_line_was_cut_is_written_again(self) -> None:
        for length in 0, 1, 20, 46, 47, 80, 111:
            self.run_it()
            place = os.path.join(self.room.top, "new", ".parv-rescue")
            self.assertEqual(read(place).find(b"\n"), 111)
            for name in FILES:
                os.remove(os.path.join(self.room.top, "new", name))
            os.truncate(place, length)
            self.is_whole(self.run_it(goes_on=True), length)

    def test_an_empty_file_is_not_made_where_its_name_leads_out_of_the_folder(self) -> None:
        room = Room({"whole": b"whole"})
        self.addCleanup(room.close)
        odd = [b"../above", b"in/../../above", b"../../far/above", b"..", b"in/..", b"/absolute", b".parv-rescue/in"]
        write(os.path.join(room.top, "set.par2"), set_of({**{name: b"" for name in odd}, b"whole": b"whole"}, 8, 0))
        for copied in 1, 0:
            ended = room.run(rescue.main, ["around/new", "set.par2", "room/whole"])
            self.assertEqual((ended.status, len(ended.said.splitlines())), (1, len(odd)), ended)
            self.assertIn(f"complete whole\nslices 1/1, copied now {copied}\n", ended.out)
            self.assertEqual(os.listdir(os.path.join(room.top, "around")), ["new"])
            self.assertEqual(sorted(os.listdir(os.path.join(room.top, "around/new"))), [".parv-rescue", "whole"])
            self.assertFalse(os.path.exists(os.path.join(room.top, "far")))

    def test_a_whole_file_that_was_replaced_is_refused_once(self) -> None:
        self.is_whole(self.run_it(), "")
        place = os.path.join(self.room.top, "new", "long")
        os.remove(place)
        write(place, b"mine")
        ended = self.run_it(goes_on=True)
        self.assertEqual((ended.status, ended.said), (
            1, "parv-rescue: refused: long: what is in its place isn't what was left there\n"), ended)
        self.assertEqual(read(place), b"mine")

    def test_a_whole_file_that_was_changed_is_refused(self) -> None:
        self.is_whole(self.run_it(), "")
        with open(os.path.join(self.room.top, "new", "long"), "r+b") as file:
            file.write(b"ONE")
        ended = self.run_it(goes_on=True)
        self.assertEqual((ended.status, ended.said), (
            1, "parv-rescue: refused: long: what is in its place isn't what was left there\n"), ended)
        self.assertIn("refused long\n", ended.out)
        self.assertEqual(read(os.path.join(self.room.top, "new", "long")), b"ONE" + FILES["long"][3:])

    def rescue_parts(self) -> Ended:
        """Returns the output of a rescue that finds neither the third slice of `long` nor any of `short`."""
        if not os.path.exists(os.path.join(self.room.top, "parts")):
            long = FILES["long"]
            write(os.path.join(self.room.top, "parts"), long[:16] + b"????????" + long[24:] + FILES["in/a/folder"])
        return self.room.run(rescue.main, ["partly", "room/set.par2", "parts"])

    def test_files_that_something_else_has_completed_are_complete(self) -> None:
        holed = ("complete empty\ncomplete in/a/folder\ndamaged long 5/6\nhole 16 8 long\nmissing short 0/1\n"
                 "slices 7/9, copied now 7\n")
        missing = "parv-rescue: short slices missing: 1; --tails might find more\n"
        refused = "parv-rescue: refused: {}\n"
        other, odd = (f"long: {why}" for why in ("what is in its place isn't what was left there",
                                                 "it has other bytes where a slice belongs"))

        def says(status: int, out: str, said: str, what: str) -> None:
            ended = self.rescue_parts()
            lines = sorted(ended.out.splitlines()[:-1]) + ended.out.splitlines()[-1:]
            self.assertEqual((ended.status, "\n".join(lines) + "\n", ended.said), (status, out, said), what)
        shutil.rmtree(os.path.join(self.room.top, "partly"), ignore_errors=True)
        place, short = (os.path.join(self.room.top, "partly", name) for name in ("long", "short"))
        says(1, holed, missing, "at first")
        for data, why in {b"X" + FILES["long"][1:]: other,
                          FILES["long"][:23] + b"X" + FILES["long"][24:]: odd}.items():
            os.remove(place)
            write(place, data)
            ended = self.rescue_parts()
            self.assertIn("refused long\n", ended.out)
            self.assertEqual((ended.status, ended.said, read(place)), (1, refused.format(why) + missing, data))
        os.remove(place)
        os.symlink(os.path.join(self.room.top, "room/long"), place)
        self.assertIn("refused long\n", self.rescue_parts().out)
        os.remove(place)
        write(place, FILES["long"] + b"X")
        self.assertIn("refused long\n", self.rescue_parts().out)
        os.remove(place)
        write(place, FILES["long"])
        whole = os.stat(place)
        says(1, "\n".join(ALL[:3]) + "\nmissing short 0/1\nslices 8/9, copied now 0\n", missing, "one")
        write(short, FILES["short"])
        says(0, "\n".join(ALL) + "\nslices 9/9, copied now 0\n", "", "both")
        now = os.stat(place)
        self.assertEqual((now.st_ino, now.st_ctime_ns, now.st_mtime_ns), (
            whole.st_ino, whole.st_ctime_ns, whole.st_mtime_ns))
        os.remove(short)
        os.symlink(os.path.join(self.room.top, "room/short"), short)
        self.assertIn("refused short\n", self.rescue_parts().out)
        os.remove(short)
        os.mkfifo(short)
        ended = self.rescue_parts()
        self.assertIn("refused short\n", ended.out)
        self.assertIn(refused.format("short: what is in its place isn't what was left there"), ended.said)

    def test_slices_are_on_the_disk_before_the_record_has_them(self) -> None:
        with logged(self.room, "sync", "write_at") as called:
            self.is_whole(self.run_it(), "")
        written: Set[str] = set()
        notes = 0
        for name, path, data in called:
            if b"slices " in data:
                notes += 1
                self.assertEqual(written, set())
            elif name == "sync":
                written.discard(path)
            elif not path.endswith("/.parv-rescue"):
                written.add(path)
        self.assertGreater(notes, 0)

    def test_a_folder_of_the_earlier_script_is_refused_and_stays(self) -> None:
        place = os.path.join(self.room.top, "new")
        shutil.rmtree(place, ignore_errors=True)
        owner = self.room.packets[32:48].hex().encode()
        write(os.path.join(place, ".extract_found"), b"extract_found 1 " + owner + b"\n")
        write(os.path.join(place, "long"), FILES["long"][:8] + bytes(len(FILES["long"]) - 8))
        ended = self.run_it(goes_on=True)
        self.assertEqual((ended.status, ended.said), (3, "parv-rescue: new isn't empty, and has no .parv-rescue\n"))
        self.assertEqual(sorted(os.listdir(place)), [".extract_found", "long"])


if __name__ == "__main__":
    unittest.main()
