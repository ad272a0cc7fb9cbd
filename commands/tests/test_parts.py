"""Parts of the commands: names as they are shown, names that are refused or lead out of a folder, answers that aren't
parv's, programs that end with a command, and progress on a terminal."""

from __future__ import annotations

import asyncio
import itertools
import os
import pty
import time
import unittest
import unittest.mock
from typing import List

from parv_commands.common import changes, names, output_and_progress as output, parv, programs
from parv_commands.common.faults import Fault
from parv_commands.common.opened_folder import Folder
from parv_commands.map import command as map_command
from parv_commands.parts import command as parts
from parv_commands.repair import command as repair
from parv_commands.rescue import command as rescue
from parv_commands.watch import command as watch

from .calls import left_running, slow, terminal_text
from .rooms import PARV, Room, write

SET = b"""set 617cdc72ba53d94fe713fea2ae18f776 size 4 slices 3
file 00000000000000000000000000000001 8 2 yes a b
file 00000000000000000000000000000002 1 1 no from \\x0a\\\\
others 0
have 2
creator somebody \\xff
aside a b.par2 64 1
"""


class Names(unittest.TestCase):
    def test_a_name_is_shown_as_by_parv_and_given_back(self) -> None:
        every = bytes(range(1, 256))
        self.assertEqual(names.shown(b"a \\\n\xff~"), "a \\\\\\x0a\\xff~")
        self.assertEqual(names.unshown(names.shown(every)), every)
        self.assertEqual(names.unshown("\\\\x41\\x41"), b"\\x41A")

    def test_names_that_lead_elsewhere_are_refused(self) -> None:
        for name in (b"/a", b"../a", b"a/../b", b"..", b".", b"a/./b", b"a//b", b"a/", b"", b"..\\a", b"\\a",
                     b"a\\..\\b", b"own/a", b"own", b"a/Own", b"x" * 256, b"a/" + b"x" * 256 + b"/b", b"a\0b",
                     b"a/" * 201 + b"b"):
            self.assertIsNotNone(names.refusal(name, [b"own"]), name)
        for name in b"a", b"..a", b"a..", b"a../b", b"a\\b", b"x" * 255, b"-a", b"owned", b"a/disown", b"\xff\n", \
                b"a/" * 200 + b"b":
            self.assertIsNone(names.refusal(name, [b"own"]), name)

    def test_a_name_may_not_be_a_folder_of_another(self) -> None:
        self.assertEqual(list(names.refusals([b"a", b"a.b", b"a/b", b"c", b"a/b/c", b"..."], [])), [0, 2])

    def test_a_numbered_name_is_no_longer_than_one_may_be(self) -> None:
        self.assertEqual(names.with_number(b"a/b", 12), b"a/b.12")
        self.assertEqual(len(names.with_number(b"folder/" + b"x" * 255, 3)), 7 + 255)


class Folders(unittest.TestCase):
    def test_no_name_leads_out_of_a_folder(self) -> None:
        room = Room({"in/a": b"content"})
        self.addCleanup(room.close)
        write(os.path.join(room.top, "outside"), b"outside")
        folder = Folder.open(os.fsencode(room.folder))
        self.addCleanup(folder.close)
        for name in (b"../outside", b"in/../../outside", b"./in/a", b"in//a", os.fsencode(room.top) + b"/outside",
                     b"/outside", b"../new/outside"):
            self.assertIsNone(folder.look(name), name)
            with self.assertRaises(FileNotFoundError, msg=name), folder.above(name, True):
                pass
            self.assertRaises(FileNotFoundError, folder.open_to_read, name)
            self.assertRaises(FileNotFoundError, list, folder.levels(name))
            self.assertRaises(FileNotFoundError, folder.move, b"in/a", name, True)
        self.assertEqual(sorted(os.listdir(room.top)), ["by-number", "outside", "par2", "room", "secrets", "tmp"])
        self.assertIsNotNone(folder.look(b"in/a"))


class Answers(unittest.TestCase):
    def test_a_set_is_read(self) -> None:
        found = parv.read_set(SET)
        self.assertEqual((found.size, found.have, found.aside), (4, 2, {("a b.par2", 64)}))
        self.assertEqual([file.name for file in found.files], [b"a b", b"from \n\\"])

    def test_a_verdict_is_read_whatever_the_names(self) -> None:
        found = parv.read_set(SET)
        text = SET.split(b"\n")[0] + (b"\nrenamed a b from from x\nmissing from \\x0a\\\\ 0/1\nneed 1 have 2\n"
                                      b"result possible\n")
        verdict = parv.read_verdict(text, 1, found)
        self.assertEqual([state.word for state in verdict.states], ["from x", None])
        self.assertEqual(verdict.counts, "need 1 have 2")

    def test_what_is_no_answer_is_refused(self) -> None:
        found = parv.read_set(SET)
        for text in (b"", b"\n", SET[:-1], SET[:60], SET.replace(b"size", b"Size"), SET.replace(b"have 2\n", b""),
                     SET.replace(b" 8 2 ", b" 8 1 "), SET + b"more\n", b"\xff\n" + SET):
            self.assertRaises(Fault, parv.read_set, text)
        line = SET.split(b"\n")[0]
        for status, text in ((0, b""), (1, line + b"\nresult possible\n"),
                             (0, line + b"\nneed 0 have 0\nresult complete\n"),
                             (0, line + b"\ncomplete a b\ncomplete other\nneed 0 have 2\nresult complete\n"),
                             (1, line + b"\ncomplete a b\ncomplete from \\x0a\\\\\nneed 0 have 2\nresult complete\n"),
                             (2, line + b"\nmissing a b 0/3\nmissing from \\x0a\\\\ 0/1\nneed 3 have 2\n"
                                 b"result impossible\n")):
            self.assertRaises(Fault, parv.read_verdict, text, status, found)
        for text in b"packets 1\n", b"a 0 64 main 0\npackets 1\n", b"", b"packets\n":
            self.assertRaises(Fault, parv.read_packets, text)
        for text in b"", b"a 0 1", b"end", b"a b c d", b"a -1 00000000000000000000000000000001 0":
            self.assertRaises(Fault, parv.read_sighting, text)


def memory_is_refused() -> None:
    raise MemoryError


def memory_is_refused_soon() -> None:
    """Lets the event loop itself fail."""
    asyncio.get_running_loop().call_soon(memory_is_refused)


class Programs(unittest.TestCase):
    def test_what_a_program_has_started_ends_with_it(self) -> None:
        call = programs.Call(programs.Program("/bin/sh", "sh"), [b"-c", b"sleep 900 & echo $!; wait"])
        with programs.running(call) as process:
            started = int(programs.run_to_end(process.output())[1])
        self.assertEqual(left_running(started), [])

    def test_all_programs_end_if_a_task_or_the_loop_fails(self) -> None:
        call = programs.Call(programs.Program("/bin/sh", "sh"), [b"-c", b"echo $$; exec sleep 900"])
        for fails in memory_is_refused, memory_is_refused_soon:
            numbers: List[int] = []

            def take(piece: bytes) -> None:
                numbers.append(int(piece))
                if len(numbers) == 3:
                    fails()

            async def run() -> None:
                await asyncio.gather(*(programs.answer_of(call, take) for _ in range(3)))
            self.assertRaises(MemoryError, programs.run_to_end, run())
            self.assertEqual((len(numbers), left_running(*numbers)), (3, []))

    def test_a_program_that_has_closed_its_outputs_is_waited_for(self) -> None:
        call = programs.Call(programs.Program("/bin/sh", "sh"), [b"-c", b"echo out; exec >&- 2>&-; sleep 0.2; exit 7"])
        self.assertEqual(programs.run_to_end(programs.answer_of(call)), (7, b"out\n", b""))


class Progress(unittest.TestCase):
    """On a terminal, a command says what it does, and removes the line."""

    def on_terminal(self, words: List[str], main: object, status: int = 0, is_slow: bool = True) -> str:
        """Returns what a command shows, with a slow parv or one that takes less than two seconds."""
        room = Room({"first": b"first of all", "second": b"the second"})
        self.addCleanup(room.close)
        room.take("first")
        program = slow(room.top, f'exec "{PARV}" "$@"') if is_slow else PARV
        child, terminal = pty.fork()
        if not child:
            ended = 99
            try:
                os.chdir(room.top)
                os.environ.update(PARV=program, PAR2=room.stand_in, TMPDIR=room.temporary)
                output.PROGRESS_EACH = 0.05
                if is_slow:
                    output.PROGRESS_FROM = 0.1
                else:       # (on a clock that goes on by a millisecond each time that somebody looks, for less than two seconds)
                    times = itertools.count(1000, 0.001)
                    setattr(output, "time", unittest.mock.Mock(monotonic=lambda: min(next(times), 1001.9)))
                import sys
                sys.argv = ["command", *words]
                ended = main()      # type: ignore[operator]
            finally:
                os._exit(ended)
        text = terminal_text(terminal, room.top)
        self.assertEqual(os.waitpid(child, 0)[1], status << 8)
        return text.decode()

    def test_what_takes_long_is_told(self) -> None:
        text = self.on_terminal(["room"], repair.main)
        self.assertRegex(text, "\r\x1b\\[Kparv packets: [0-9]+ MiB")
        self.assertRegex(text, "\r\x1b\\[Kparv verify: [0-9]+ MiB of at most [0-9]+ MiB")
        self.assertTrue(text.endswith("\r\x1b[Krepair first\r\ncomplete\r\n"), text)
        given = ["room/set.par2", "room/second"]
        for words, main, status, command in (
                (["new", *given], rescue.main, 1, "find"), (["parts", "1", *given], parts.main, 0, "find"),
                (given, map_command.main, 0, "find"), (["room", "0", "1"], watch.main, 1, "verify")):
            text = self.on_terminal(words, main, status)
            self.assertRegex(text, f"\r\x1b\\[Kparv {command}: [0-9]+ MiB of at most [0-9]+ MiB")

    def test_calls_that_tell_nothing_themselves_are_told_while_they_last(self) -> None:
        def lasts(*_: object) -> None:
            while output._Progress.what and not output._Progress.is_shown:
                time.sleep(0.01)
        with unittest.mock.patch.multiple(changes, sync=lasts, sync_all=lasts):
            text = self.on_terminal(["room"], repair.main)
            self.assertIn("\r\x1b[Kwhat was made is brought to the disk\r\x1b[K", text)
            self.assertIn("\r\x1b[Kwhat was moved is brought to the disk\r\x1b[K", text)
            self.assertTrue(text.endswith("\r\x1b[Krepair first\r\ncomplete\r\n"), text)
            text = self.on_terminal(["new", "room/set.par2", "room/second"], rescue.main, 1)
            self.assertIn("\r\x1b[Kwhat was copied is brought to the disk\r\x1b[K", text)

    def test_what_takes_less_than_two_seconds_is_not(self) -> None:
        self.assertEqual(output.PROGRESS_FROM, 2.0)
        self.assertEqual(self.on_terminal(["room"], repair.main, 0, False), "repair first\r\ncomplete\r\n")


if __name__ == "__main__":
    unittest.main()
