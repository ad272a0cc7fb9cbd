"""parv-watch: arguments that are refused, what a check says for various files and names, and what ends it."""

from __future__ import annotations

import errno
import os
import signal
import subprocess
import time
import unittest.mock
from typing import List

from parv_commands.common import opened_folder
from parv_commands.watch import command as watch

from .calls import BIN, Calls, take_all_signals
from .rooms import PARV, Room, set_of, write

WATCH = os.path.join(BIN, "parv-watch")
FILES = {"first": b"first of all files", "second": b"the second file", "twin": b"first of all files"}
ONCE = ["0", "1"]


class Watch(Calls):
    def setUp(self) -> None:
        self.room = Room(FILES)
        self.addCleanup(self.room.close)
        self.before = self.room.listing()

    def says(self, status: int, line: str, folder: str = "room", shell: str = 'exec "$@"', **environment: str) -> None:
        self.assertEqual(self.call(WATCH, folder, *ONCE, shell=shell, **environment), (status, line + "\n", ""))
        self.assertEqual(os.listdir(self.room.temporary), [])

    # Arguments.

    def test_seconds_and_checks_are_numbers_and_others_are_refused(self) -> None:
        odd = ["abc", "-1", "", " ", "1 ", "5m", "1e3", "inf", "nan", "0x1", "1.5.1", ".", "1,5", "\u0661", "1\n"]
        wrong: List[List[str]] = [[], [""], ["room", "1", "1", "1"], ["room", "1", "0"], ["room", "1", "1.5"],
                                  ["room", "1" * 10], ["room", "1", "1" * 19],
                                  ["--other", "room"], ["room", "--set", "1"], *(["room", word] for word in odd),
                                  *(["room", "1", word] for word in odd)]
        for words in wrong:
            ended = self.room.run(watch.main, words)
            self.assertEqual((ended.status, ended.out), (3, ""), (words, ended))
            self.assertRegex(ended.said, r"\Aparv-watch: .*\nparv-watch: usage: parv-watch [^\n]*\n\Z")
        for words in ["0", "1"], ["0.01", "1"], [".5", "1"], ["1.", "1"], ["999999999.999999999", "1"], ["0", "1" * 18]:
            self.assertEqual(self.room.run(watch.main, ["room", *words])[:3], (0, "complete\n", ""), words)

    def test_a_folder_is_taken_as_it_is_named(self) -> None:
        for name in "-", "second folder", "--", "-q":
            os.rename(self.room.folder, os.path.join(self.room.top, name))
            ended = self.call(WATCH, "--", name, *ONCE, OLDPWD="/", CDPATH="/tmp")
            self.assertEqual(ended, (0, "complete\n", ""), name)
            os.rename(os.path.join(self.room.top, name), self.room.folder)
        self.assertEqual(self.call(WATCH, "no\x1b[31mred", *ONCE),
                         (6, "", "parv-watch: cannot open no\\x1b[31mred: No such file or directory\n"))
        self.assertEqual(self.call(WATCH, "room/first", *ONCE),
                         (6, "", "parv-watch: cannot open room/first: Not a directory\n"))

    # The output of a check.

    def test_of_equal_files_each_has_to_be_there(self) -> None:
        self.says(0, "complete")
        self.room.take("twin")
        self.says(1, "a repair can be tried: need 0 have 20")
        self.room.put("twin", b"first of all filed")
        self.says(1, "a repair can be tried: need 0 have 20")
        self.room.put("twin", FILES["twin"])
        self.room.put("a", FILES["twin"])
        self.says(0, "complete")
        self.room.take("first")
        self.says(1, "a repair can be tried: need 0 have 20")

    def test_names_of_the_set_are_not_those_of_links(self) -> None:
        named = {b"1": b"some bytes in one", b"2": b"and more in another", b"0": b"a third"}
        self.room.put("set.par2", set_of(named, 8, 1))
        for name in FILES:
            self.room.take(name)
        for number, data in named.items():
            self.room.put(os.fsdecode(number), data)
        self.says(0, "complete")
        self.room.rename("1", "9")
        self.room.rename("2", "1")
        self.room.rename("9", "2")
        self.says(1, "a repair can be tried: need 0 have 1")

    def test_files_in_subfolders_that_the_set_names(self) -> None:
        files = {b"deep/in/a": b"content of it", b"../room/up": b"", b"b": b"other"}
        self.room.put("set.par2", set_of({name: data for name, data in files.items() if b".." not in name}, 8, 0))
        self.room.put("deep/in/a", files[b"deep/in/a"])
        self.room.put("b", b"other")
        self.says(0, "complete")
        os.rename(self.room.path("deep/in"), os.path.join(self.room.top, "in"))
        os.symlink(os.path.join(self.room.top, "in"), self.room.path("deep/in"))
        self.says(6, "can't tell whether enough is there for a repair: need 2 have 0; not looked at: deep/in (a link)")
        os.remove(self.room.path("deep/in"))
        self.room.put("set.par2", set_of(files, 8, 0))
        self.room.put("up", b"")
        self.says(2, "not enough for a repair: need 2 have 0")

    def test_it_looks_at_the_files_that_parv_repair_and_parv_tree_look_at(self) -> None:
        files = {b"one/track1": b"the first track", b"two/track2": b"the other one", b"track3": b"and the third"}
        self.room.put("set.par2", set_of(files, 8, 1))
        for name, data in files.items():
            self.room.put(os.fsdecode(name), data)

        def says_all(need: int, verdict: str, status: int) -> None:
            self.says(status, f"{verdict}: need {need} have 1")
            status_of_repair, out, said = self.call(os.path.join(BIN, "parv-repair"), "--dry-run", "room")
            self.assertEqual(status_of_repair, status)
            self.assertIn(f"{verdict}: need {need} have 1\n", out + said)
            status_of_tree, out, said = self.call(os.path.join(BIN, "parv-tree"), "room")
            self.assertEqual((status_of_tree, said), (status, ""))
            self.assertIn(f" need {need} have 1 ", out)
        self.room.rename("track3", "two/t3")
        says_all(0, "a repair can be tried", 1)
        self.room.rename("one/track1", "two/t1")
        says_all(0, "a repair can be tried", 1)
        self.room.rename("two/t1", "other/track1")
        says_all(2, "not enough for a repair", 2)
        self.room.rename("other/track1", "two/deep/track1")
        says_all(2, "not enough for a repair", 2)

    def test_links_and_what_is_no_file_are_left_out(self) -> None:
        os.symlink("first", self.room.path("another"))
        os.symlink("/dev/zero", self.room.path("zero"))
        os.symlink("none", self.room.path("broken"))
        os.mkfifo(self.room.path("pipe"))
        os.mkfifo(self.room.path("pipe.par2"))
        os.mkdir(self.room.path("folder.par2"))
        self.says(0, "complete")
        self.room.rename("first", "../elsewhere")
        os.symlink("../elsewhere", self.room.path("first"))
        self.says(1, "a repair can be tried: need 0 have 20")      # (by its twin)

    def test_a_subfolder_that_may_not_be_looked_into_ends_nothing(self) -> None:
        self.room.put("set.par2", set_of({b"in/a": b"content"}, 8, 0))
        refused = unittest.mock.Mock(side_effect=PermissionError(errno.EACCES, "Permission denied"))
        with unittest.mock.patch.object(opened_folder.Folder, "look", refused):
            ended = self.room.run(watch.main, ["room", "0", "2"])
        self.assertEqual((ended.status, ended.out, ended.said),
                         (6, "nothing to tell yet: cannot open in: Permission denied\n" * 2, ""))

    def test_a_name_that_is_not_utf_8(self) -> None:
        write(os.fsdecode(os.fsencode(self.room.folder) + b"/\xff\n"), b"more")
        self.says(0, "complete")
        named = {b"\xfe\x1b": b"some bytes"}
        self.room.put("set.par2", set_of(named, 8, 0))
        write(os.fsdecode(os.fsencode(self.room.folder) + b"/\xfe\x1b"), b"some bytes")
        self.says(0, "complete")

    def test_more_files_than_may_be_open_at_first_or_at_all(self) -> None:
        for number in range(1100):
            self.room.put(f"f{number}", b"%d" % number)
        self.says(0, "complete", shell='ulimit -Sn 1024; exec "$@"')
        status, out, said = self.call(WATCH, "room", *ONCE, shell='ulimit -n 200; exec "$@"')
        self.assertEqual((status, out), (0, "complete\n"))
        self.assertEqual(said, "parv-watch: 936 of 1103 files aren't looked at: parv takes 167 here\n")

    # Other programs, outputs, temporary folders.

    def test_a_program_that_is_not_parv_ends_it(self) -> None:
        for name in "true", "false", "echo", "cat":
            status, out, said = self.call("timeout", "600", WATCH, "room", "0", PARV=f"/bin/{name}")
            self.assertEqual((status, out), (6, ""), (name, said))
            self.assertRegex(said, r"\Aparv-watch: [^\n]*(PARV|isn't parv)[^\n]*\n\Z")
        for name, text in {"killed": "kill -SEGV $$", "verdict": f'[ "$1" = verify ] || exec "{PARV}" "$@"; exit 1',
                           "much": "exec yes", "memory": "echo 'parv: out of memory' >&2; exit 8"}.items():
            program = self.program(name, f"#!/bin/bash\n{text}\n")
            status, out, said = self.call("timeout", "600", WATCH, "room", "0", PARV=program)
            self.assertEqual((status, out, said.count("\n")), (8 if name == "memory" else 6, "", 1), (name, said))

    def test_what_parv_says_ends_nothing(self) -> None:
        once = os.path.join(self.room.top, "once")
        program = self.program("odd", f'#!/bin/bash\n[ ! -e {once} ] || exec "{PARV}" "$@"\n'
                               f"touch {once}; echo 'parv: read fault in 1' >&2; exit 6\n")
        self.assertEqual(self.call(WATCH, "room", "0", "5", PARV=program),
                         (0, "nothing to tell yet: read fault in 1\ncomplete\n", ""))

    def test_closed_and_full_outputs_end_it(self) -> None:
        for shell, why in ('exec "$@" > /dev/full', "No space left"), ('exec "$@" >&-', "it is closed"):
            for words in [WATCH, "room", "0"], [WATCH, "-h"]:
                status, _, said = self.call(*words, shell=shell)
                self.assertEqual(status, 6)
                self.assertIn("parv-watch: cannot write standard output: " + why, said)
        self.room.take("first")
        self.assertEqual(self.call(WATCH, "room", *ONCE, shell='exec "$@" 2>&-')[:2],
                         (1, "a repair can be tried: need 0 have 20\n"))
        ended = subprocess.run(f'PARV="{PARV}" {WATCH} room 0.01 | head -n 1; echo "${{PIPESTATUS[0]}}"', shell=True,
                               executable="/bin/bash", cwd=self.room.top, capture_output=True, timeout=600)
        self.assertEqual(ended.stdout, b"a repair can be tried: need 0 have 20\n6\n")

    # Signals.

    def test_signals_end_it_with_its_program_or_while_it_waits(self) -> None:
        for number in signal.SIGTERM, signal.SIGHUP, signal.SIGINT:
            for all_of_them in False, True:
                ended = self.ended_while([WATCH, "room"], number, all_of_them,
                                         PARV=self.waits("p1", '[ "$1" = verify ]'))
                self.assertEqual(ended, (128 + number, b""))
                self.assertEqual(os.listdir(self.room.temporary), [])
            self.room.put("first", b"")
            process = subprocess.Popen([WATCH, "room", "900"], cwd=self.room.top, stdout=subprocess.PIPE,
                                       preexec_fn=take_all_signals)
            self.addCleanup(process.kill)
            assert process.stdout is not None
            self.assertIn(b"need", process.stdout.readline())
            time.sleep(0.1)
            process.send_signal(number)
            self.assertEqual((process.wait(600), process.stdout.read()), (128 + number, b""))
            process.stdout.close()

    def tearDown(self) -> None:
        self.assertEqual(os.listdir(self.room.temporary), [])
