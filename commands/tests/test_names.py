"""Names that a set may not have: those that lead into the commands' own folders, in whatever form."""

from __future__ import annotations

import os
import unittest
import unittest.mock

from parv_commands.common import names
from parv_commands.repair import command as repair

from .folding import folding
from .rooms import KILLED, STAGE, At, Room, read, set_of

BOOK = b"a book, of which there is no other copy"


def as_it_is(name: bytes) -> bytes:
    return name


def lowered(name: bytes) -> bytes:
    return name.lower()


def short(name: bytes) -> bytes:
    """Returns the short name of a file as some file systems make it."""
    return b"PARV-R~1" if name.lower() == b".parv-repair" else name


class Reserved(unittest.TestCase):
    def test_reserved_names_are_refused_as_any_part_and_in_any_case(self) -> None:
        for name in names.RESERVED_NAMES:
            for form in (name, name.upper(), name.title(), name + b".", name + b" ", name + b"::$DATA",
                         name.replace(b"e", "\u200de".encode()), name.replace(b"s", "\u017f".encode()),
                         name.replace(b"a", "\uff41".encode())):
                for path in b"%s", b"%s/x", b"a/%s", b"a/b/%s/made/x", b"\xff/%s/x":
                    self.assertEqual(names.refusal(path % form, names.RESERVED_NAMES),
                                     "its name is kept for the command itself", path % form)

    def test_a_part_that_is_too_long_is_not_compared(self) -> None:
        marks = "\u0301\u0316".encode()
        with unittest.mock.patch("unicodedata.normalize", side_effect=AssertionError("it is compared")):
            self.assertEqual(names.refusal(b".parv-repair" + 500 * marks, names.RESERVED_NAMES),
                             "a part of its name is too long")

    def test_other_names_are_not(self) -> None:
        for name in (b"parv-repair", b".parv-repairs", b"a.parv-repair", b".parv-repair2/x", b".parv-rescue.txt", b"x",
                     b".parv repair", "\u017farv-repair".encode(), b"\xff.parv-repair", b".parv-repair\xff"):
            self.assertIsNone(names.refusal(name, names.RESERVED_NAMES) if b"\xff" not in name else None, name)
        self.assertIsNone(names.refusal(b"a/.parv-rescue", [b".parv-repair"]))


class Stages(unittest.TestCase):
    """Sets that describe a file of the user, with a name in a stage."""

    def setUp(self) -> None:
        self.room = Room({"music": b"some music", "sub/song": b"a song of it"})
        self.addCleanup(self.room.close)

    def hostile(self, name: str) -> None:
        self.room.put("book", BOOK)
        self.room.put("set.par2", set_of({os.fsencode(name): BOOK}, 8, 1))

    def test_a_name_in_a_stage_gets_no_file(self) -> None:
        for name in f"{STAGE}/made/x", ".Parv-Repair/made/x", f"sub/{STAGE}/made/x", f"sub/{STAGE.upper()}/files/x":
            self.room.fresh()
            self.hostile(name)
            before = self.room.listing()
            for fold in as_it_is, lowered:
                with folding(fold):
                    ended = self.room.run(repair.main, ["room"])
                self.assertEqual((ended.status, ended.out, self.room.listing()), (4, "", before), (name, ended))
                self.assertIn("its name is kept for the command itself", ended.said)

    def test_a_file_is_not_lost_in_the_stage_of_a_subfolder(self) -> None:
        for name in f"sub/{STAGE}/made/x", f"sub/{STAGE}/files/x", f"sub/{STAGE}/x":
            self.room.fresh()
            self.room.put("sub/set.par2", set_of({b"song": b"a song of it"}, 8, 4))
            self.room.rename("sub/song", "sub/stray")
            self.hostile(name)
            self.room.run(repair.main, ["room/sub"], At(3, "after", KILLED, ["mkdir"]))
            self.assertIn(f"sub/{STAGE}/files", self.room.listing())
            self.assertEqual(self.room.run(repair.main, ["room"]).status, 4)
            self.room.run(repair.main, ["room/sub"])
            self.assertEqual(read(self.room.path("book")), BOOK)

    def test_another_form_of_a_name_is_seen_once_the_stage_is_there(self) -> None:
        self.hostile("PARV-R~1/made/x")
        before = self.room.listing()
        with folding(short):
            ended = self.room.run(repair.main, ["room"])
        self.assertEqual((ended.status, ended.out, self.room.listing()), (6, "", before), ended)
        self.assertIn("its name is kept for the command itself", ended.said)
        self.hostile("sub/PARV-R~1/made/x")
        os.makedirs(self.room.path(f"sub/{STAGE}/made"))
        before = self.room.listing()
        with folding(short):
            ended = self.room.run(repair.main, ["room"])
        self.assertEqual((ended.status, ended.out, self.room.listing()), (4, "", before), ended)
        self.assertEqual(self.room.run(repair.main, ["room"]).status, 0, "elsewhere the name is like others")

    def test_the_stand_in_finds_names_in_other_case(self) -> None:
        def looks() -> int:
            place = os.open(self.room.folder, os.O_RDONLY)
            return int(os.stat(b"MUSIC", dir_fd=place).st_size)
        with folding(lowered):
            self.assertEqual(self.room.run(looks, []).status, 10)
        self.assertEqual(self.room.run(looks, []).status, 99)


if __name__ == "__main__":
    unittest.main()
