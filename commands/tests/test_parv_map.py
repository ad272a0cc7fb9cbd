"""parv-map: pages and pictures that are whole or not there, programs that aren't parv, outputs, and many files."""

from __future__ import annotations

import os
import shutil
import signal
from typing import List, Optional

from parv_commands.common import changes
from parv_commands.map import command as map_command

from .calls import BIN, Calls
from .rooms import FULL, KILLED, MAKING, PARV, At, Ended, From, Room, file_id, read, write

MAP = os.path.join(BIN, "parv-map")
FILES = {"first": b"first of all files and more", "second": b"the second file"}
WORDS = ["-B", "room", "room/set.par2", "room/first"]
BOTH = ["--html", "page", "--svg", "picture", *WORDS]


class Pages(Calls):
    def setUp(self) -> None:
        self.room = Room(FILES)
        self.addCleanup(self.room.close)
        self.before = sorted(os.listdir(self.room.top))
        self.assertEqual(self.run_it().status, 0)
        self.page, self.picture = self.text("page"), self.text("picture")
        self.assertTrue(self.page.endswith(b"</html>\n") and self.picture.endswith(b"</svg>\n"))

    def text(self, name: str) -> bytes:
        return read(os.path.join(self.room.top, name))

    def run_it(self, watch: Optional[changes.Observer] = None, words: Optional[List[str]] = None) -> Ended:
        for name in "page", "picture":
            if os.path.lexists(os.path.join(self.room.top, name)):
                os.remove(os.path.join(self.room.top, name))
        return self.room.run(map_command.main, BOTH if words is None else words, watch)

    def new(self) -> List[str]:
        """Returns what was made in the folder in which the command is called."""
        return sorted(set(os.listdir(self.room.top)) - set(self.before) - {"out", "said", "calls"})

    def test_a_full_disk_leaves_no_cut_page(self) -> None:
        count = sum(call in MAKING for call in self.run_it().calls)
        told = 0
        for number in range(1, count + 1):
            ended = self.run_it(From(number, "before", FULL, MAKING))
            self.assertEqual(ended.status, 6, (number, ended))
            self.assertRegex(ended.said, r"\Aparv-map: cannot [^\n]*: No space left on device\n\Z")
            self.assertEqual(self.new(), [], number)
            self.assertEqual(os.listdir(self.room.temporary), [])
            told += "cannot write page" in ended.said or "cannot write picture" in ended.said
        self.assertGreater(told, 3)
        self.assertEqual(self.run_it().status, 0)

    def test_after_a_kill_a_page_is_whole_or_not_there(self) -> None:
        calls = self.run_it().calls
        self.assertEqual(calls.count("rename"), 2)
        for number in range(1, len(calls) + 1):     # (after a call, the disk is as before the next one)
            self.assertEqual(self.run_it(At(number, "before", KILLED)).status, 137)
            for name in self.new():
                if name in ("page", "picture"):
                    self.assertEqual(self.text(name), self.page if name == "page" else self.picture, number)
                else:
                    self.assertRegex(name, r"\A\.parv-[0-9a-f]{16}\Z")
                    os.remove(os.path.join(self.room.top, name))

    def test_a_signal_at_each_call_leaves_nothing_of_its_own(self) -> None:
        def ends() -> None:
            os.kill(os.getpid(), signal.SIGTERM)
        calls = self.run_it().calls
        for number in range(1, len(calls) + 1):
            ended = self.run_it(At(number, "before", ends))
            self.assertIn(ended.status, (0, 143), (number, ended))
            self.assertEqual(self.new(), ["page", "picture"] if ended.status == 0 else [], (number, ended))
            self.assertEqual(os.listdir(self.room.temporary), [])

    def test_a_file_that_comes_meanwhile_is_not_written_over(self) -> None:
        for number, name in enumerate(("page", "picture"), 1):
            def put(name: str = name) -> None:
                write(os.path.join(self.room.top, name), b"mine")
            ended = self.run_it(At(number, "before", put, ["rename"]))
            self.assertEqual((ended.status, ended.said), (6, f"parv-map: {name} is there already\n"))
            self.assertEqual(self.text(name), b"mine")
            self.assertEqual(self.new(), ["page", "picture"][:number])

    def test_a_page_and_a_picture_of_one_name_are_refused(self) -> None:
        os.symlink(self.room.top, os.path.join(self.room.top, "link"))
        os.mkdir(os.path.join(self.room.top, "in"))
        self.before += ["link", "in"]
        for page, picture in ("same", "same"), ("same", "./same"), ("in/same", "in/../in/same"), (
                "same", os.path.join(self.room.top, "same")), ("link/same", "same"):
            ended = self.run_it(None, ["--html", page, "--svg", picture, *WORDS])
            self.assertEqual((ended.status, ended.out), (3, ""))
            self.assertEqual(ended.said,
                             f"parv-map: {page} and {picture} are one file: --html and --svg need one each\n")
            self.assertEqual(self.new(), [])
        self.assertEqual(self.run_it(None, ["--html", "page", "--svg", "in/page", *WORDS]).status, 0)

    def test_names_of_pages_that_cannot_be(self) -> None:
        for option in "--html", "--svg":
            ended = self.run_it(None, [option, "", *WORDS])
            self.assertEqual((ended.status, ended.out), (3, ""))
            self.assertTrue(ended.said.startswith("parv-map: a page or a picture needs a name\n"), ended)
        for name, why in ("in/", "No such file or directory"), (
                "none/page", "No such file or directory"), ("n" * 256, "File name too long"), (
                "room/first/page", "Not a directory"):
            for option in "--html", "--svg":
                ended = self.run_it(None, [option, name, *WORDS])
                self.assertEqual((ended.status, ended.out, ended.said),
                                 (6, "", f"parv-map: cannot write {name}: {why}\n"))
        for name, target in ("link", "room/first"), ("broken", "none"):
            os.symlink(target, os.path.join(self.room.top, name))
        for name in "room", ".", "room/first", "/dev/null", "link", "broken":
            for option in "--html", "--svg":
                ended = self.run_it(None, [option, name, *WORDS])
                self.assertEqual((ended.status, ended.out), (6, ""))
                self.assertEqual(ended.said, f"parv-map: {name} is there already\n")
        self.assertEqual((self.text("link"), self.new()), (FILES["first"], ["broken", "link"]))


class Maps(Calls):
    def setUp(self) -> None:
        self.room = Room(FILES)
        self.addCleanup(self.room.close)
        self.before = self.room.listing()

    def test_programs_that_are_not_parv(self) -> None:
        odd = {"status": "exit 5", "killed": "kill -SEGV $$", "cut": f'"{PARV}" "$@" | head -c 40',
               "find": f'[ "$1" = find ] || exec "{PARV}" "$@"; echo "0 0 {"0" * 32} 0"; echo end'}
        programs = ["/bin/true", "/bin/false", "/bin/echo", "/bin/cat", "/usr/bin/yes", *(
            self.program(name, f"#!/bin/bash\n{text}\n") for name, text in odd.items())]
        for program in programs:
            status, out, said = self.call("timeout", "600", MAP, *BOTH, PARV=program)
            self.assertEqual((status, out), (6, ""), (program, said))
            self.assertRegex(said, r"\Aparv-map: [^\n]*(PARV|isn't parv|signal|than an answer)[^\n]*\n\Z")
            self.assertEqual(os.listdir(self.room.temporary), [])
            self.assertFalse(os.path.exists(os.path.join(self.room.top, "page")))

    def test_no_page_is_made_if_the_output_cannot_be_written(self) -> None:
        for shell in 'exec "$@" > /dev/full', 'exec "$@" >&-':
            self.assertEqual(self.call(MAP, *BOTH, shell=shell)[0], 6)
            self.assertFalse(os.path.exists(os.path.join(self.room.top, "page")))

    def test_more_files_than_may_be_open_at_all(self) -> None:
        self.room.rename("second", "stray")
        for number in range(80):
            self.room.put(f"f{number}", b"%d" % number)
        ended = self.call(shell=f'ulimit -n 60; exec {MAP} -B room room/*')
        self.assertEqual((ended[0], ended[2]), (0, ""), ended)
        self.assertIn("4 in place, 2 moved; need 0 have 20\n", ended[1])

    def test_files_without_checksums_need_only_those_of_their_length(self) -> None:
        packets = self.room.packets
        at = packets.index(b"IFSC") - 56
        while file_id(b"second", FILES["second"]) != packets[at + 64:at + 80]:
            at = packets.index(b"IFSC", at + 60) - 56
        self.room.put("set.par2", packets[:at] + packets[at + int.from_bytes(packets[at + 8:at + 16], "little"):])
        for number in range(80):
            self.room.put(f"f{number}", b"%d" % number)
        ended = self.call(shell=f'ulimit -n 60; exec {MAP} -B room room/*')
        self.assertEqual((ended[0], ended[2]), (0, ""), ended)
        self.assertIn("6 in place; need 0 have 20\n", ended[1])
        for number in range(80):
            self.room.put(f"f{number}", b"%015d" % number)
        ended = self.call(shell=f'ulimit -n 60; exec {MAP} -B room room/*')
        self.assertEqual(ended[:2], (6, ""), ended)
        self.assertIn("81 files have the length of one without checksums of slices; parv takes ", ended[2])

    def test_relative_programs_and_parts_of_the_path(self) -> None:
        told = os.path.join(self.room.top, "told")
        self.program("out/parv", f'#!/bin/sh\necho "$PATH" > {told}\nexec "{PARV}" "$@"\n')
        self.program("room/out/parv", f"#!/bin/sh\ntouch {self.room.top}/run\n")
        shutil.copy(os.path.join(self.room.folder, "out/parv"), self.room.path("parv"))
        given = ["room/set.par2", "room/first", "room/second"]
        for command, words in (("map", given), ("parts", ["parts", "9", *given]), ("progress", ["find", *given]),
                               ("watch", ["room", "0", "1"])):
            for name, path in ("out/parv", ":.:/usr/bin:out:/bin:"), ("parv", "out::/usr/bin:/bin:."), (
                    "./out/parv", "/usr/bin:/bin"):
                ended = self.call(os.path.join(BIN, f"parv-{command}"), *words, PARV=name, PATH=path)
                self.assertEqual(ended[0], 0, (command, name, path, ended))
                self.assertEqual(read(told), b"/usr/bin:/bin\n", (command, name, path))
                os.remove(told)
                shutil.rmtree(os.path.join(self.room.top, "parts"), ignore_errors=True)
        self.assertFalse(os.path.exists(os.path.join(self.room.top, "run")))

    def test_names_of_options_and_files_are_shown(self) -> None:
        write(os.path.join(self.room.top, "--\x1b[31mred"), b"")
        ended = self.call(shell=f'exec {MAP} *')
        self.assertEqual(ended[:2], (3, ""))
        self.assertIn("--\\x1b[31mred", ended[2])
        self.assertNotIn("\x1b", ended[2])
        self.assertEqual(self.call(MAP, "room/set.par2", "no\x1b"),
                         (6, "", "parv-map: cannot open no\\x1b: No such file or directory\n"))

    def test_signals_end_parv_too_and_leave_nothing(self) -> None:
        self.room.take("second")
        for number in signal.SIGTERM, signal.SIGHUP, signal.SIGINT:
            for command in "set", "packets", "find":
                status, out = self.ended_while([MAP, *BOTH], number, command == "find",
                                               PARV=self.waits("p1", f'[ "$1" = {command} ]'))
                self.assertEqual((status, out), (128 + number, b""))
                self.assertEqual(os.listdir(self.room.temporary), [])
                self.assertFalse(os.path.exists(os.path.join(self.room.top, "page")))
