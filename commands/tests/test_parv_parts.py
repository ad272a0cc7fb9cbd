"""parv-parts: runs that are ended at each call that changes the disk, full disks, folders that aren't its own,
arguments of earlier searches, and programs that aren't parv."""

from __future__ import annotations

import os
import shutil
import signal
import subprocess
from typing import Callable, List, Optional

from parv_commands.common import changes
from parv_commands.parts import command as parts

from .calls import BIN, Calls
from .rooms import FULL, KILLED, MAKING, PARV, SECONDS, At, Ended, From, Room, logged, read, write

PARTS = os.path.join(BIN, "parv-parts")
FILES = {"first": b"first of all files and more", "second": b"the second file"}
WORDS = ["room/set.par2", "image"]
LIMIT = "2"


class Parts(Calls):
    def setUp(self) -> None:
        self.room = Room(FILES)
        self.addCleanup(self.room.close)
        write(os.path.join(self.room.top, "image"), b"begins " + FILES["first"] + b" and " + FILES["second"])
        whole = subprocess.run([PARV, "find", "--", *WORDS], cwd=self.room.top, capture_output=True, check=True)
        self.lines = whole.stdout.decode().replace("end\n", "")
        self.assertGreater(self.lines.count("\n"), 4)

    def path(self, name: str = "") -> str:
        return os.path.join(self.room.top, "parts", name)

    def run_it(self, watch: Optional[changes.Observer] = None, goes_on: bool = False, **environment: str) -> Ended:
        if not goes_on:
            shutil.rmtree(self.path(), ignore_errors=True)
        return self.room.run(parts.main, ["parts", LIMIT, *WORDS], watch, **environment)

    def is_whole(self, ended: Ended, what: object) -> None:
        self.assertEqual((ended.status, ended.out), (0, self.lines), (what, ended))

    def test_a_kill_at_each_call_and_the_next_run_goes_on(self) -> None:
        calls = self.run_it().calls
        for call in "mkdir", "create", "write", "fsync", "rename":
            self.assertIn(call, calls)
        for number, call in enumerate(calls, 1):    # (after a call, the disk is as before the next one)
            self.assertEqual(self.run_it(At(number, "before", KILLED)).status, 137)
            self.is_whole(self.run_it(goes_on=True), (number, call))
        self.assertEqual(self.run_it(At(len(calls), "after", KILLED)).status, 137)
        self.is_whole(self.run_it(goes_on=True), "after the last call")

    def test_a_full_disk_from_each_call_on_is_told_and_the_next_run_goes_on(self) -> None:
        count = sum(call in MAKING for call in self.run_it().calls)
        for number in range(1, count + 1):
            ended = self.run_it(From(number, "before", FULL, MAKING))
            self.assertEqual((ended.status, ended.out), (6, ""), (number, ended))
            self.assertRegex(ended.said.splitlines()[-1], r"^parv-parts: cannot (write|make) parts[^:]*: No space left")
            self.is_whole(self.run_it(goes_on=True), number)

    def test_a_part_is_on_the_disk_before_it_has_its_name(self) -> None:
        with logged(self.room, "write", "sync", "move") as calls:
            self.is_whole(self.run_it(), "")
        log = [f"{name} {os.path.basename(path)}" for name, path, _ in calls]
        self.assertGreater(log.count("move parts"), 2)
        for number, line in enumerate(log):
            if line == "move parts":
                self.assertEqual(log[number - 2:number], ["sync new", "sync parts"], log)
                self.assertEqual(log[number + 1], "sync parts", log)

    def test_what_comes_to_the_name_of_a_part_is_not_written_over(self) -> None:
        for name, kind in (("1", "rename"), ("new", "create")):
            def put(name: str = name) -> None:
                write(self.path(name), b"mine")
            ended = self.run_it(At(1 if kind == "rename" else 2, "before", put, [kind]))
            self.assertEqual((ended.status, ended.out), (6, ""), (name, ended))
            self.assertIn("File exists", ended.said)
            self.assertEqual(read(self.path(name)), b"mine")

    def test_folders_that_cannot_be_made_or_written(self) -> None:
        write(self.path("").rstrip("/"), b"a file")
        for name in "parts", "parts/in", "/proc/none/in", "none\0":
            if "\0" not in name:
                ended = self.call(PARTS, name, LIMIT, *WORDS)
                self.assertEqual((ended[0], ended[1]), (6, ""), (name, ended))
                self.assertRegex(ended[2], r"\Aparv-parts: cannot make [^\n]*\n\Z")
        self.assertEqual(read(self.path("").rstrip("/")), b"a file")
        if os.getuid() == 0 and os.path.exists("/proc/sys/kernel"):
            ended = self.call(PARTS, "/proc/sys/kernel", LIMIT, *WORDS)
            self.assertEqual((ended[0], ended[1]), (3, ""), ended)

    def test_words_that_are_no_file_stay(self) -> None:
        makes: List[Callable[[str], None]] = [lambda path: os.symlink("/etc/passwd", path), os.mkfifo, os.mkdir]
        for make in makes:
            os.mkdir(self.path())
            make(self.path("words"))
            before = os.lstat(self.path("words"))
            ended = self.run_it(goes_on=True)
            self.assertEqual((ended.status, ended.out, ended.said), (3, "", "parv-parts: parts has other files\n"))
            self.assertTrue(os.path.samestat(os.lstat(self.path("words")), before))
            self.assertEqual(os.listdir(self.path()), ["words"])
            shutil.rmtree(self.path())

    def test_words_that_are_refused(self) -> None:
        wrong: List[List[str]] = [[], ["parts"], ["parts", "1"], ["parts", "1", "--"], ["", "1", *WORDS], *(
            ["parts", limit, *WORDS] for limit in ("0", "abc", "01", "-1", "1.5", "", "+1", "1" * 20))]
        for words in wrong:
            ended = self.call(PARTS, *words)
            self.assertEqual((ended[0], ended[1]), (3, ""), (words, ended))
            self.assertIn("usage: parv-parts", ended[2])
        self.assertEqual(self.call(PARTS, "parts", "1", *WORDS, os.fsdecode(b"\xff")),
                         (3, "", "parv-parts: the name \\xff isn't UTF-8, and can't be searched\n"))
        self.assertFalse(os.path.exists(self.path()))
        ended = self.call(PARTS, "parts", "9" * 19, *WORDS)
        self.assertEqual(ended[:2], (0, self.lines), ended)

    def test_words_differ_if_files_do(self) -> None:
        odd = [b"", b"a\nb", b"a\\x0ab", b"it's\t", b"\\\x01", b"--tails", b"\xc3\xa9", b" ", b"file a", b"a"]
        texts = [parts.text_of(parts.Options(False, b"", b"1", [word])) for word in odd]
        texts += [parts.text_of(parts.Options(True, b"", b"1", odd[-1:])),
                  parts.text_of(parts.Options(False, b"", b"1", [b"a", b"a"]))]
        self.assertEqual(len(set(texts)), len(odd) + 2)
        for text in texts[:-2]:
            self.assertRegex(text, rb"\Aparv-parts 1\nfile [ -~]*\n\Z")

    def test_a_folder_of_the_script_is_refused_and_stays(self) -> None:
        os.mkdir(self.path())
        write(self.path("words"), b"room/set.par2\nimage\n")
        lines = self.lines.splitlines(True)
        write(self.path("1"), "".join(lines[:2]).encode() + self.cursor_after(2))
        ended = self.run_it(goes_on=True)
        self.assertEqual((ended.status, ended.out, ended.said),
                         (3, "", "parv-parts: parts is of a search with other words\n"))
        self.assertEqual((sorted(os.listdir(self.path())), read(self.path("words"))),
                         (["1", "words"], b"room/set.par2\nimage\n"))

    def test_a_file_that_grows_is_told(self) -> None:
        self.assertEqual(self.run_it(At(2, "before", KILLED, ["rename"])).status, 137)
        with open(os.path.join(self.room.top, "image"), "ab") as file:
            file.write(b"more")
        ended = self.run_it(goes_on=True)
        self.assertEqual((ended.status, ended.out, ended.said), (
            3, "", "parv-parts: a searched file has another length than when this search began\n"))

    def cursor_after(self, count: int) -> bytes:
        words = [PARV, "find", "--limit", str(count), "--", *WORDS]
        out = subprocess.run(words, cwd=self.room.top, capture_output=True, check=True)
        return out.stdout.split(b"\n")[-2] + b"\n"

    def test_programs_that_are_not_parv(self) -> None:
        odd = {"cut": f'"{PARV}" "$@" | head -c 60', "early": f'"{PARV}" "$@" | head -n 1', "many":
               f'"{PARV}" find -- {" ".join(WORDS)}', "status": "exit 2", "usage": "exit 3", "killed": "kill -SEGV $$",
               "stuck": "echo cursor 2:1", "soon": f'"{PARV}" find --limit 1 -- {" ".join(WORDS)}',
               "twice": "echo end; echo end", "after": "echo end; echo 0 0 " + "0" * 32 + " 0",
               "line": "printf x; sleep 0.1; exec tr '\\0' x < /dev/zero", "binary": "printf '\\377\\nend\\n'"}
        programs = ["/bin/true", "/bin/false", "/bin/echo", "/bin/cat", "/usr/bin/yes", *(
            self.program(name, f"#!/bin/bash\n{text}\n") for name, text in odd.items())]
        for program in programs:
            shutil.rmtree(self.path(), ignore_errors=True)
            status, out, said = self.call("timeout", "600", PARTS, "parts", LIMIT, *WORDS, PARV=program)
            self.assertEqual((status, out), (6, ""), (program, said))
            self.assertRegex(said, r"\Aparv-parts: [^\n]*(PARV|isn't parv|signal)[^\n]*\n\Z")
            self.assertEqual(sorted(os.listdir(self.path())), ["new", "words"], program)
        program = self.program("says", "#!/bin/sh\nprintf 'parv: odd \\033[31m\\\\x0a\\n' >&2; exit 4\n")
        self.assertEqual(self.call(PARTS, "parts", LIMIT, *WORDS, PARV=program),
                         (4, "", "parv-parts: odd \\x1b[31m\\\\x0a\n"))

    def test_a_planted_part_brings_no_bytes_to_a_terminal(self) -> None:
        os.mkdir(self.path())
        write(self.path("words"), b"parv-parts 1\nfile room/set.par2\nfile image\n")
        write(self.path("1"), b"\x1b[31mred 0 00 0\nend\n")
        ended = self.run_it(goes_on=True)
        self.assertEqual((ended.status, ended.out, ended.said),
                         (6, "", "parv-parts: parts/1 is damaged; you may remove it\n"))
        os.remove(self.path("1"))
        self.is_whole(self.run_it(goes_on=True), "it was removed")

    def test_signals_end_parv_too_and_the_next_run_goes_on(self) -> None:
        for number in signal.SIGTERM, signal.SIGHUP, signal.SIGINT:
            for all_of_them in False, True:
                shutil.rmtree(self.path(), ignore_errors=True)
                slow = self.waits("p1", f"[ -e {self.path('1')} ]")
                status, out = self.ended_while([PARTS, "parts", LIMIT, *WORDS], number, all_of_them, PARV=slow)
                self.assertEqual(status, 128 + number)
                self.assertRegex(out, rb"\Aparv-parts: part 1: 2 matches, cursor [0-9a-f:]+\n\Z")
                self.is_whole(self.run_it(goes_on=True), number)

    def test_a_signal_ends_it_while_nobody_reads_its_lines(self) -> None:
        write(os.path.join(self.room.top, "image"), FILES["first"] * 4000)
        process = subprocess.Popen([PARTS, "parts", "5000", *WORDS], cwd=self.room.top, stdout=subprocess.PIPE,
                                   stderr=subprocess.DEVNULL, env={**os.environ, "PARV": PARV})
        assert process.stdout is not None
        process.stdout.read(1)
        process.terminate()
        self.assertEqual(process.wait(SECONDS), 143)
        process.stdout.close()
