"""What people do to files after a repair was ended, and before the next one: nothing that they have written is lost."""

from __future__ import annotations

import os
import shutil
import signal
import stat
import subprocess
import unittest
from typing import Callable, Dict, Set

from parv_commands.repair import command as repair

from . import test_repair_crashes
from .calls import BIN, Calls
from .rooms import KILLED, STAGE, At, Ended, Room, read

WHOLE = {"report.doc": b"the report", "notes.txt": b"some notes", "left": b"left hand", "right": b"right hand",
         "one": b"same same", "two": b"same same", "in/fine": b"fine", "empty": b"",
         "n" * 255: b"a long name"}
STAY = "parv-repair: room: a run was ended here after its moves, which stay\n"
FINISHED = "parv-repair: room: a run was ended here, and is finished\n"
# What people do in the folder once all files have their places, and what must be there afterwards.
EDITS = [line.split(" | ") for line in r"""
true | some nXtes
printf ', a week later' >> report.doc | the report, a week later | some nXtes
printf 'the REPORT' > report.doc | the REPORT
r=report.doc; at=$(stat -c %.9Y $r); printf 'the REPORT' > $r; touch -d "@${at%?}$(((${at: -1} + 5) % 10))" $r | the REPORT
at=$(stat -c %.9Y report.doc); printf '!' >> report.doc; touch -d "@$at" report.doc | the report!
printf '!' >> notes.txt | some notes! | some nXtes
printf '!' >> two | same same!
printf 'another report' > new; mv new report.doc | another report
printf 'other notes' > new; mv new notes.txt | other notes | some nXtes
printf ' and more' >> left | left hand and more
printf ', changed' >> one | same same, changed
printf 'another one' > new; mv new one | another one
rm notes.txt.1 | some notes
rm notes.txt.1; printf '!' >> notes.txt | some notes!
printf '!' >> report.doc; printf mine > report.doc.1; ln -s nothing report.doc.2 | the report! | mine
printf 'a new one' > in/stray | a new one
printf 'a new one' > in/stray; printf 'newer' > new; mv new right | a new one | newer
rm left | right hand
mv one elsewhere | same same
mv left new; mv right left; mv new right | left hand | right hand
mv notes.txt.1 notes.txt | some nXtes
mv one in/stray | same same
rm notes.txt.1; printf mine > new; mv new notes.txt | mine
printf 'not empty' > empty | not empty
printf '!' >> nnn* | a long name!
rm -r in | same same
""".strip().splitlines()]


class People(Calls):
    def setUp(self) -> None:
        self.make(WHOLE)

    def make(self, files: Dict[str, bytes], size: int = 4, recovery: int = 40) -> None:
        self.room = Room(files, size, recovery)
        self.addCleanup(self.room.close)
        self.damaged = {"notes.txt": b"some nXtes"} if "notes.txt" in files else {}
        self.stray, self.moves = "in/stray" if "in/fine" in files else "stray", 0

    def damage(self) -> None:
        """Some files are missing, one is damaged, two have each other's names, one has another name, and one is a copy of
        that one."""
        self.room.fresh()
        for name in {"report.doc", "two", "empty", "n" * 255} & set(self.room.files):
            self.room.take(name)
        for name, data in self.damaged.items():
            self.room.put(name, data)
        for name, other in ("left", "x"), ("right", "left"), ("x", "right"), ("one", self.stray):
            if os.path.exists(self.room.path(name)):
                self.room.rename(name, other)

    def run_it(self, watch: Callable[[str, str], None] = lambda call, when: None, **environment: str) -> Ended:
        return self.room.run(repair.main, ["room"], watch, **environment)

    def ended(self, text: str, number: signal.Signals) -> None:
        """Ends a run by a signal once all files have their places, and people have done this."""
        def does() -> None:
            subprocess.run(["bash", "-c", text], cwd=self.room.folder, check=True)
            os.kill(os.getpid(), number)
        if not self.moves:
            self.damage()
            self.moves = self.run_it().calls.count("rename")
        self.damage()
        ended = self.run_it(At(self.moves, "after", does, ["rename"]))
        self.assertEqual((ended.status, ended.out), (128 + number, ""), (text, ended))

    def killed_before(self, move: int) -> None:
        """(By then the journal has its name, which is a move too.)"""
        self.damage()
        self.assertEqual(self.run_it(At(move + 1, "before", KILLED, ["rename"])).status, 137)

    def there(self) -> Set[bytes]:
        return {data for name, (_, data) in self.room.listing().items() if not name.startswith(STAGE)}

    def completes(self, said: str, what: object = "") -> None:
        """Wants the next run to complete the set, and to say this. (It repeats moves that people have undone.)"""
        ended = self.run_it()
        self.assertEqual((ended.status, ended.last(), self.room.lacks()), (0, "complete", []), (what, ended))
        self.assertEqual(ended.said.replace(FINISHED, STAY), said.replace(FINISHED, STAY), what)

    def test_what_they_write_between_two_runs_is_kept(self) -> None:
        for text, *kept in EDITS:
            held = {each.encode() for each in kept}
            for number, said in (signal.SIGKILL, STAY), (signal.SIGTERM, ""):
                self.damage()
                before = self.room.listing()
                self.ended(text, number)
                self.assertFalse(held - self.there(), (text, number))
                if number == signal.SIGTERM:
                    self.assertNotIn(STAGE, self.room.listing(), text)
                    self.assertTrue(text != "true" or self.room.listing() == before)
                self.completes(said, (text, number))
                self.assertFalse(held - self.there(), (text, number))

    def test_a_repaired_file_that_cannot_be_made_again_stays(self) -> None:
        self.make({name: WHOLE[name] for name in ("report.doc", "notes.txt", "one")}, 16, 2)
        self.damaged["report.doc"] = b"the rXport"
        for text in ("rm notes.txt.1; printf mine > new; mv new notes.txt", "mv notes.txt.1 notes.txt",
                     "mv one stray", "rm report.doc.1"):
            self.ended(text, signal.SIGKILL)
            self.run_it(WRONG="fails")
            self.assertEqual(read(self.room.path("report.doc")), b"the report", text)

    def test_a_folder_is_copied_while_two_files_are_in_the_stage(self) -> None:
        self.make({name: WHOLE[name] for name in ("left", "right", "one")}, 4, 0)
        for is_copied in False, True:
            self.killed_before(3)
            self.assertEqual(len(os.listdir(self.room.path(f"{STAGE}/aside"))), 2)
            if is_copied:
                shutil.copytree(self.room.folder, self.room.folder + ".copy", symlinks=True)
                shutil.rmtree(self.room.folder)
                os.rename(self.room.folder + ".copy", self.room.folder)
                ended = self.run_it()
                self.assertEqual((ended.status, ended.out), (6, ""), ended)
                self.assertRegex(ended.said, "and it is now parv-repair.kept.1; .*\n.*can't tell whether enough is left for a "
                                             "repair: .*parv-repair.kept.1 ")
                subprocess.run("mv parv-repair.kept.1/aside/* .", shell=True, cwd=self.room.folder, check=True)
            self.completes("" if is_copied else FINISHED)

    def test_a_file_is_moved_by_hand_before_the_first_move(self) -> None:
        self.killed_before(1)
        self.assertIn(f"{STAGE}/journal", self.room.listing())
        self.room.rename(self.stray, "one")
        self.completes(FINISHED)

    def test_folders_are_made_in_the_places_of_files_that_are_to_be_moved(self) -> None:
        self.killed_before(3)
        made = [name for name in WHOLE if not os.path.lexists(self.room.path(name))]
        held = {b"some nXtes", *(data for data in WHOLE.values() if data in self.room.contents())}
        self.assertGreater(len(made), 1)
        for name in made:
            os.mkdir(self.room.path(name))
        self.run_it()
        for name in made:
            if os.path.isdir(self.room.path(name)):
                os.rmdir(self.room.path(name))
        ended = self.run_it()
        self.assertEqual((ended.status, ended.last(), self.room.lacks()), (0, "complete", []), ended)
        self.assertFalse(held - self.room.contents())

    def test_a_journal_that_is_written_in_part_is_none(self) -> None:
        self.make({"/".join([f"{number}" + "n" * 60] * 3): b"content %d" % number for number in range(10, 30)}, 16, 0)
        for number, name in enumerate(self.room.files):
            self.room.rename(name, f"{number}")
            os.removedirs(os.path.dirname(self.room.path(name)))
        before = self.room.listing()
        status, out, said = self.call(os.path.join(BIN, "parv-repair"), "room",
                                      shell='trap "" XFSZ; ulimit -f 6; exec "$@"')
        self.assertEqual((status, out, said.count("\n"), self.room.listing()), (6, "", 1, before), said)
        self.completes("")


class Anywhere(test_repair_crashes.Repairs):
    """The same after a run that was ended by force at any call."""

    def test_what_people_put_there_after_a_kill_is_kept(self) -> None:
        names = [*test_repair_crashes.WHOLE, "stray", "other", "notes.txt.1", "notes.txt.2", "report.doc.1"]
        for point in self.points(1, 2):
            self.ended_at(At(*point, KILLED))
            for number, name in enumerate(names):
                path = self.room.path(name)
                if os.path.isdir(path):
                    continue
                with open(path, "ab") if os.path.isdir(os.path.dirname(path)) else open(os.devnull, "ab") as out:
                    out.write(b"what people have written: %d" % number)
            held = {data for name, (kind, data) in self.room.listing().items()
                    if kind == stat.S_IFREG and not name.startswith(STAGE)}
            again = self.again()
            self.is_held((point, again), held)
            self.completes(point, again)
            self.is_held((point, again), held)

    def test_what_people_put_in_place_of_files_after_a_kill_is_kept(self) -> None:
        for point in self.points(2, 2):
            self.ended_at(At(*point, KILLED))
            for number, name in enumerate(sorted(self.room.listing())):
                path = self.room.path(name)
                if not name.startswith(STAGE) and os.path.isfile(path) and not name.endswith(".par2"):
                    with open(path + ".new", "wb") as out:
                        out.write(b"what people have put there: %d" % number)
                    os.rename(path + ".new", path)
            held = {data for data in self.room.contents() if data.startswith(b"what people")}
            again = self.again()
            self.is_held((point, again), held)
            self.completes(point, again)


if __name__ == "__main__":
    unittest.main()
