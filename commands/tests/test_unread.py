"""What wasn't looked at can only improve a verdict: links, files that can't be read, and files for which there is no
room."""

from __future__ import annotations

import os
import unittest
import unittest.mock
from typing import Any, Callable, List, Tuple

from parv_commands.repair import command as repair

from .calls import BIN, Calls
from .rooms import Ended, Room, set_of, write

SAYS = "parv-repair: room: "
WAYS: List[List[str]] = [[], ["--dry-run"]]


class Unread(Calls):
    def setUp(self) -> None:
        self.room = Room({"one": b"first of all", "sub/two": b"the second", "sub/deep/three": b"the third"}, recovery=2)
        self.addCleanup(self.room.close)
        write(os.path.join(self.room.top, "outside"), b"something outside")

    def run_it(self, *words: str) -> Ended:
        return self.room.run(repair.main, [*words, "room"])

    def closed(self, *closed: str) -> Any:
        """Makes files unreadable for this user, who may be root."""
        real = os.access

        def access(path: Any, mode: int, **options: Any) -> bool:
            return os.fsdecode(path) not in closed and real(path, mode, **options)
        return unittest.mock.patch.object(os, "access", access)

    def link(self, *names: str) -> None:
        for name in names:
            os.symlink(os.path.join(self.room.top, "outside"), self.room.path(name))

    def each(self) -> List[Tuple[Callable[[], None], List[str], str]]:
        """Returns what may be there unread beside a set: what makes it, files that are closed, and what is said."""
        return [(lambda: self.link("stray"), [], "stray (a link)"),
                (lambda: self.link("sub/stray"), [], "sub/stray (a link)"),
                (lambda: self.room.put("stray", b"x"), ["stray"], "stray (Permission denied)"),
                (lambda: self.link(*(f"stray{number}" for number in range(5))), [],
                 "stray0 (a link), stray1 (a link), stray2 (a link) and 2 more")]

    def test_what_is_beside_a_set_unread_changes_no_good_verdict(self) -> None:
        for make, closed, said in self.each():
            self.room.fresh()
            make()
            with self.closed(*closed):
                ended = self.run_it()
                self.assertEqual(ended[:3], (0, "complete\n", f"{SAYS}not looked at: {said}\n"))
                self.room.put("one", b"fXrst of all")
                ended = self.run_it("--dry-run")
                self.assertEqual((ended.status, ended.last(), ended.said), (
                    1, "a repair can be tried: need 1 have 2", f"{SAYS}not looked at: {said}\n"))
                ended = self.run_it()
                self.assertEqual((ended.status, ended.said, self.room.lacks()), (
                    0, f"{SAYS}not looked at: {said}\n", []))

    def test_what_is_unread_makes_too_few_unsure(self) -> None:
        for make, closed, said in self.each():
            self.room.fresh()
            make()
            self.room.take("one")
            self.room.take("sub/two")
            before = self.room.listing()
            for words in WAYS:
                with self.closed(*closed):
                    ended = self.run_it(*words)
                self.assertEqual(ended[:3], (6, "", f"{SAYS}can't tell whether enough is left for a repair: "
                                                    f"need 4 have 2; not looked at: {said}\n"))
            self.assertEqual(self.room.listing(), before)

    def test_a_link_that_leads_to_no_file_hides_nothing(self) -> None:
        os.symlink("nothing", self.room.path("stray"))
        os.symlink("sub", self.room.path("folder"))
        self.assertEqual(self.run_it()[:3], (0, "complete\n", ""))
        self.room.take("one")
        self.room.take("sub/two")
        self.assertEqual(self.run_it()[:3], (2, "", f"{SAYS}not enough for a repair: need 4 have 2\n"))

    def test_what_was_set_aside_makes_too_few_unsure(self) -> None:
        self.room.put(".verify_and_repair/aside/0", b"first of all")
        self.room.take("one")
        self.room.take("sub/two")
        for name in "verify_and_repair.kept.1", "parv-repair.kept.12":
            if name.startswith("parv"):
                os.rename(self.room.path("verify_and_repair.kept.1"), self.room.path(name))
            ended = self.run_it()
            self.assertEqual((ended.status, ended.said.splitlines()[-1]), (
                6, f"{SAYS}can't tell whether enough is left for a repair: need 4 have 2; not looked at: {name} (set "
                   "aside)"), ended)
        for name in "parv-repair.kept.x", "parv-repair.kept", "parv-repair.kept.12.old":
            os.rename(next(entry.path for entry in os.scandir(self.room.folder) if "kept" in entry.name),
                      self.room.path(name))
            self.assertEqual(self.run_it().status, 2, name)

    def test_a_set_of_which_nothing_is_there_is_said_to_be_none_of_this_folder(self) -> None:
        self.room.put("set.par2", set_of({b"other": b"quite another file"}, 4, 2))
        self.assertEqual(self.run_it()[:3], (2, "", f"{SAYS}not enough for a repair: need 5 have 2; nothing of the set "
                                                    "is found\n"))

    def test_a_link_at_a_name_or_on_the_way_to_it_is_not_missing_and_stays(self) -> None:
        for name, target in (("one", "../outside"), ("sub/two", "nothing"), ("sub/deep", "nothing"), ("sub", "away"),
                             ("sub", "../none")):
            self.room.fresh()
            if os.path.isdir(self.room.path(name)):
                os.rename(self.room.path(name), self.room.path("away"))
            else:
                self.room.take(name)
            os.symlink(target, self.room.path(name))
            before = self.room.listing()
            ended = self.run_it()
            self.assertIn(ended.status, (4, 6), (name, ended))
            self.assertIn(f"{name} (a link)" if ended.status == 6 else f"refused: {name} is a link", ended.said)
            for other in "one", "sub/two", "away/two", "away/deep/three":
                if os.path.isfile(self.room.path(other)) and not os.path.islink(self.room.path(other)):
                    self.room.put(other, b"other bytes")
            few = self.room.listing()
            ended = self.run_it()
            self.assertEqual((ended.status, self.room.listing()), (6, few), (name, ended))
            self.assertIn(f"{name} (a link)", ended.said)
            self.assertEqual(len(before), len(few))

    def test_a_file_that_cannot_be_read_is_not_replaced(self) -> None:
        for name, closed in (("one", "one"), ("sub/two", "two")):
            self.room.fresh()
            before = self.room.listing()
            for words in WAYS:
                with self.closed(closed):
                    ended = self.run_it(*words)
                self.assertEqual(ended[:3], (6, "", f"{SAYS}{name} isn't looked at (Permission denied), and isn't "
                                                    "replaced: need 2 have 2\n"))
            self.assertEqual(self.room.listing(), before)

    def test_packet_files_that_are_not_read_leave_it_open_whether_enough_is_left(self) -> None:
        self.room.put("set.vol.par2", self.room.packets)
        short = set_of({os.fsencode(name): data for name, data in self.room.files.items()}, 8, 0)
        self.room.put("set.par2", short)
        self.room.take("one")
        with self.closed("set.vol.par2"):
            ended = self.run_it()
        self.assertEqual(ended[:3], (6, "", f"{SAYS}set.vol.par2 isn't read: Permission denied\n{SAYS}can't tell "
                                            "whether enough is left for a repair: need 2 have 0; not looked at: "
                                            "set.vol.par2 (Permission denied)\n"))
        self.room.put("set.par2", b"nothing")
        with self.closed("set.vol.par2"):
            ended = self.run_it()
        self.assertEqual((ended.status, ended.out), (6, ""), ended)
        self.assertIn("can't tell whether there is a set: no usable set: no main; not read: set.vol.par2 (Permission "
                      "denied)\n", ended.said)
        with self.closed("set.vol.par2", "set.par2"):
            ended = self.run_it()
        self.assertEqual((ended.status, ended.out), (6, ""), ended)
        self.assertIn("no packet file that can be read\n", ended.said)
        self.room.fresh()
        with self.closed():
            self.room.rename("set.par2", "../moved")
            os.symlink("../moved", self.room.path("set.par2"))
            ended = self.run_it()
        self.assertEqual((ended.status, ended.said), (3, f"{SAYS}set.par2 is a link, and isn't read\n{SAYS}no packet "
                                                         "file\n"))

    def test_more_files_of_the_set_than_may_be_open_are_neither_missing_nor_replaced(self) -> None:
        def ended(*words: str) -> Tuple[int, str, str]:
            return self.call(os.path.join(BIN, "parv-repair"), *words, "room", shell='ulimit -n 100; exec "$@"')
        files = {f"file{number:03}": b"the file with number %d" % number for number in range(100)}
        for recovery in 5, 290:
            self.room = Room(files, recovery=recovery)
            self.addCleanup(self.room.close)
            before = self.room.listing()
            for words in WAYS:
                status, out, said = ended(*words)
                self.assertEqual((status, out, self.room.listing()), (0, "complete\n", before), (recovery, words, said))
                self.assertIn("33 of 100 files aren't looked at: parv takes 67 here", said)
            self.room.put("file099", b"other bytes, the same length"[:23])
            before = self.room.listing()
            for words in WAYS:
                status, out, said = ended(*words)
                self.assertEqual((status, out, self.room.listing()), (6, "", before), (recovery, words, said))
                self.assertRegex(said, "can't tell whether enough is left" if recovery == 5 else
                                 r"file099 isn't looked at \(parv takes 67 files\), and isn't replaced: need \d+ ")
            self.room.put("file099", files["file099"])
            self.room.rename("file000", "stray")
            self.room.put("file001", b"other bytes, the same length"[:23])
            status, out, said = ended()
            if recovery == 290:
                self.assertEqual((status, self.room.lacks()), (0, []), said)
                self.assertIn("file001.1", self.room.listing())
                self.assertEqual(sum("." in name for name in self.room.listing()), 2)
            else:
                self.assertEqual((status, out), (6, ""), said)


if __name__ == "__main__":
    unittest.main()
