"""What state a set is in: when it is complete, what parv gets for that, and what isn't looked at."""

from __future__ import annotations

import contextlib
import os
import unittest
from typing import Dict, List, Optional

from parv_commands.common.faults import FILES, IMPOSSIBLE, POSSIBLE, Fault
from parv_commands.common.opened_folder import Folder
from parv_commands.common.parv import Links, Parv, temporary_folder
from parv_commands.common.programs import Program, run_to_end
from parv_commands.common.state_of_set import FolderWords, SetState, Verification, files_of, packet_files_of, text_of
from parv_commands.repair import command as repair
from parv_commands.tree import command as tree
from parv_commands.watch import command as watch

from .rooms import PARV, Room, read, set_of, write

FILES_OF_SET = {"a": b"the content of a", "b": b"and this is b!", "deep/c": b"in a subfolder", "empty": b"",
                "twin": b"the content of a"}
LOG = """#!/bin/sh
# Records the arguments of each call, and does something after a verdict.
echo "$*" >> {top}/calls
{parv} "$@"
status=$?
[ "$1" != verify ] || {{ {then}; }}
exit $status
"""


class States(unittest.TestCase):
    def setUp(self) -> None:
        self.room = Room(FILES_OF_SET, recovery=3)
        self.addCleanup(self.room.close)
        self.log(":")
        self.messages: List[str] = []

    def log(self, then: str) -> None:
        """Makes a parv that records its calls, and does something after each verdict."""
        self.program = os.path.join(self.room.top, "parv")
        write(self.program, LOG.format(top=self.room.top, parv=PARV, then=then).encode())
        os.chmod(self.program, 0o755)

    def scanned(self) -> List[List[str]]:
        """Returns, for each call of verify, the files that were scanned."""
        lines = [line.split() for line in read(os.path.join(self.room.top, "calls")).decode().splitlines()]
        return [[word for word in line[line.index("--") + 1:] if not word.endswith(".par2")]
                for line in lines if line[0] == "verify"]

    def state(self, is_one_of_many: bool = False, most_open: int = 1000, set_id: Optional[str] = None,
              tails: bool = False) -> SetState:
        write(os.path.join(self.room.top, "calls"), b"")
        with contextlib.closing(Folder.open(os.fsencode(self.room.folder))) as folder, temporary_folder() as temporary:
            parv = Parv(Program(self.program, "parv"), Links(temporary, (folder.place,)))
            words, packet_files = FolderWords(folder, parv), packet_files_of(folder)
            packet_words = [words.word_of(name, True) for name in packet_files.names]
            the_set = run_to_end(parv.set(packet_words, set_id))
            verification = Verification(words, the_set, packet_words, most_open, self.messages.append)
            return run_to_end(verification.state(tails, is_one_of_many))

    def sources(self) -> Dict[bytes, Optional[bytes]]:
        state = self.state()
        return {file.name: source for file, source in zip(state.the_set.files, state.sources)}

    # When a set is complete.

    def test_it_is_complete_if_each_file_is_at_its_name(self) -> None:
        state = self.state()
        self.assertEqual((state.is_complete, state.status, state.unread), (True, 0, {}))
        for name in FILES_OF_SET:
            with self.subTest(name):
                self.room.rename(name, "elsewhere")
                state = self.state()
                self.assertEqual((state.is_complete, state.status), (False, POSSIBLE))
                self.room.rename("elsewhere", name)

    def test_files_with_each_others_names_are_not_complete(self) -> None:
        self.room.put("a", FILES_OF_SET["b"])
        self.room.put("b", FILES_OF_SET["a"])
        sources = self.sources()
        self.assertIn(sources.pop(b"a"), (b"b", b"twin"))
        self.assertEqual(sources, {b"b": b"a", b"deep/c": b"deep/c", b"empty": b"empty", b"twin": b"twin"})

    def test_a_file_with_a_copy_before_it_is_at_its_name(self) -> None:
        for copy in "0", "A", "aa":
            for name in FILES_OF_SET:
                self.room.put(copy, FILES_OF_SET[name])
                self.assertTrue(self.state().is_complete, (copy, name))
            self.room.take(copy)
        self.room.take("twin")
        self.assertEqual(self.sources()[b"twin"], b"a")

    def test_names_that_parv_would_misunderstand(self) -> None:
        names = [b"1", b"2.par2", b"f", b"-x", b"--", b"\xff", b"a b", b"a\nb", b"f/a", b"./x".replace(b"./", b"x/"),
                 b"\\x41", b"12"]
        files = {name: b"content of %d" % number for number, name in enumerate(names) if name != b"f"}
        self.room.take("set.par2")
        self.room.put("of.par2", set_of(files, 8, 1))
        for name, data in files.items():
            self.room.put(os.fsdecode(name), data)
        self.assertTrue(self.state().is_complete)
        self.room.rename("1", "9")
        self.room.rename("12", "1")
        self.room.rename("9", "12")
        sources = self.sources()
        self.assertEqual((sources[b"1"], sources[b"12"], sources[b"\xff"]), (b"12", b"1", b"\xff"))

    def test_a_file_that_changes_while_it_is_read_is_not_complete(self) -> None:
        for name in "a", "empty", "deep/c":
            for change in "echo more >> {}", "touch -d yesterday {}", "rm {}", "ln -sf /dev/null {}":
                self.room.fresh()
                self.log(change.format(os.path.join(self.room.folder, name)))
                with self.assertRaises(Fault, msg=(name, change)) as fault:
                    self.state()
                self.assertEqual((fault.exception.status, str(fault.exception)),
                                 (FILES, f"{name} has changed while it was read"))

    def test_another_file_may_change(self) -> None:
        self.room.put("download", b"so far")
        self.log(f"echo more >> {self.room.path('download')}")
        self.assertTrue(self.state().is_complete)

    # What parv gets.

    def test_other_files_are_read_only_if_they_are_needed(self) -> None:
        own = sorted(f"f/{name}" for name in FILES_OF_SET)
        self.room.put("small", b"x")
        self.state()
        self.assertEqual([sorted(each) for each in self.scanned()], [sorted([*own, "f/small"])])
        self.assertTrue(self.state(is_one_of_many=True).is_complete)
        self.assertEqual([sorted(each) for each in self.scanned()], [own])
        self.room.put("large", bytes(1000))
        self.assertTrue(self.state().is_complete)
        self.assertEqual([sorted(each) for each in self.scanned()], [own])
        self.room.put("a", b"the content of A")
        self.assertFalse(self.state().is_complete)
        self.assertEqual([len(each) for each in self.scanned()], [len(own), len(own) + 2])
        self.room.put("a", b"shorter")
        self.state(is_one_of_many=True)
        self.assertEqual([len(each) for each in self.scanned()], [len(own) + 2])

    def test_packet_files_are_known_by_their_names_and_by_their_first_bytes(self) -> None:
        self.room.rename("set.par2", "a8f3")
        self.room.put("damaged.PAR2", b"no packet")
        self.room.put("short", b"PAR2\0PK")
        with contextlib.closing(Folder.open(os.fsencode(self.room.folder))) as folder:
            self.assertEqual(packet_files_of(folder), ([b"damaged.PAR2", b"a8f3"], {}))
            os.symlink("a8f3", self.room.path("link.par2"))
            os.mkdir(self.room.path("folder.par2"))
            self.assertEqual(packet_files_of(folder), ([b"damaged.PAR2", b"a8f3"], {b"link.par2": "a link"}))
        self.assertTrue(self.state().is_complete)

    def test_a_packet_file_is_searched_if_it_may_have_slices(self) -> None:
        inner = set_of({b"x": b"inside"}, 8, 1)
        files = {b"inner.par2": inner, b"other": b"something else"}
        self.room.fresh()
        for name in FILES_OF_SET:
            self.room.take(name)
        self.room.put("set.par2", set_of(files, 8, 0))
        self.room.put("renamed", inner)
        self.room.put("other.par2", inner)
        self.room.put("other", files[b"other"])
        state = self.state(set_id=self.id_of(files))
        self.assertEqual((state.sources.count(None), state.status), (0, POSSIBLE))
        self.assertIn(b"renamed", state.sources)
        self.assertEqual([sorted(each) for each in self.scanned()], [["f/other", "f/renamed"]])
        self.room.rename("renamed", "inner.par2")
        self.assertTrue(self.state(set_id=self.id_of(files)).is_complete)
        self.room.take("inner.par2")
        self.room.take("other")
        self.room.put("joined", read(self.room.path("set.par2")) + inner + files[b"other"])
        self.assertEqual(len(inner) % 8, 0)
        self.assertEqual(self.state(set_id=self.id_of(files)).verdict.need, 0)

    def id_of(self, files: Dict[bytes, bytes]) -> str:
        return set_of(files, 8, 0)[32:48].hex()

    def test_of_too_many_files_those_of_the_set_are_looked_at_first(self) -> None:
        for number in range(40):
            self.room.put(f"other{number}", b"the content of a" if number == 39 else b"no content of it: %d" % number)
        self.assertTrue(self.state(most_open=42).is_complete)
        self.assertEqual(self.messages, ["36 of 45 files aren't looked at: parv takes 9 here"])
        self.room.take("twin")
        self.room.take("a")
        state = self.state(most_open=42)
        self.assertEqual([len(each) for each in self.scanned()], [9])
        self.assertEqual(state.sources.count(b"other39"), 2)
        self.assertEqual(len(state.unread), 34)

    def test_files_of_the_set_beyond_the_limit_are_looked_at_in_parts(self) -> None:
        state = self.state(most_open=32 + 1 + 2)
        self.assertEqual((state.is_complete, state.status), (True, 0))
        self.assertEqual([len(each) for each in self.scanned()], [2, 2, 1])
        self.room.take("deep/c")
        state = self.state(most_open=32 + 1 + 2)
        self.assertEqual((state.sources.count(None), state.status), (1, FILES))

    # What isn't looked at.

    def test_what_is_not_looked_at_can_only_make_a_verdict_better(self) -> None:
        os.symlink("b", self.room.path("link"))
        self.assertEqual(self.state().status, 0)
        self.assertEqual(self.state().unread, {b"link": "a link"})
        for take, status in (("b",), POSSIBLE), (("b", "deep/c"), FILES):
            for name in take:
                if os.path.exists(self.room.path(name)):
                    self.room.take(name)
            os.remove(self.room.path("link"))
            os.symlink("../elsewhere", self.room.path("link"))
            write(os.path.join(self.room.top, "elsewhere"), b"what nobody knows")
            state = self.state()
            self.assertEqual((state.status, state.verdict.status), (status, IMPOSSIBLE if status == FILES else 1))
        os.remove(self.room.path("link"))
        self.assertEqual(self.state().status, IMPOSSIBLE)

    def test_names_that_lead_elsewhere_are_refused(self) -> None:
        files = {b"../up": b"", b"/root": b"", b"a/./b": b"", b"x/" * 201 + b"y": b"", b"fine": b""}
        self.room.take("set.par2")
        self.room.put("of.par2", set_of(files, 8, 1))
        write(os.path.join(self.room.top, "up"), b"")
        self.room.put("fine", b"")
        self.assertEqual(self.sources()[b"fine"], b"fine")
        with contextlib.closing(Folder.open(os.fsencode(self.room.folder))) as folder:
            found = files_of(folder, self.state().the_set.files)
        self.assertEqual(set(found.refused), set(files) - {b"fine"})
        self.assertNotIn(b"../up", found.there)

    def test_files_with_names_of_the_commands_own_entries_are_read(self) -> None:
        files = {b".parv-repair/x": b"a content", b"sub/.parv-rescue/y": b"and another", b".parv-rescue": b"or this"}
        self.room.put("set.par2", set_of(files, 8, 1))
        for name, data in files.items():
            self.room.put(os.fsdecode(name), data)
        for is_one_of_many in False, True:
            state = self.state(is_one_of_many)
            self.assertEqual((state.is_complete, state.status, state.unread), (True, 0, {}))

    def test_too_few_is_not_said_if_a_file_may_be_at_a_name_that_is_refused(self) -> None:
        for name, status in (b"x/" * 201 + b"y", FILES), (b"x/a\\..\\b", FILES), (b"../up", IMPOSSIBLE), (b"/up", IMPOSSIBLE):
            self.room.put("set.par2", set_of({name: b"some content of it"}, 8, 0))
            for main, words in (watch.main, ["room", "0", "1"]), (repair.main, ["room"]), (tree.main, ["room"]):
                ended = self.room.run(main, words)
                self.assertEqual(ended.status, status, (name, ended))

    def test_the_text_names_three_and_counts_the_others(self) -> None:
        unread = {b"%d" % number: "a link" for number in range(5)}
        self.assertEqual(text_of(unread), "0 (a link), 1 (a link), 2 (a link) and 2 more")
        self.assertEqual(text_of({b"\xe9": "why"}), "\\xe9 (why)")
        self.assertEqual(text_of({}), "")


if __name__ == "__main__":
    unittest.main()
