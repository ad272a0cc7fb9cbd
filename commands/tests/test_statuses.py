"""Exit statuses are true whatever fails: programs that aren't parv or par2, outputs and temporary folders that can't be
written, more files or longer names than fit into one command line, and signals."""

from __future__ import annotations

import errno
import os
import re
import resource
import shutil
import signal
import subprocess
import sys
import time
import unittest
import unittest.mock
from typing import Dict, List, Tuple

from parv_commands.common import programs
from parv_commands.repair import command as repair
from parv_commands.rescue import command as rescue

from .calls import BIN, Calls, left_running, take_all_signals
from .rooms import PARV, Room, packet, read, set_of, write

REPAIR, RESCUE = os.path.join(BIN, "parv-repair"), os.path.join(BIN, "parv-rescue")
FILES = {"first.txt": b"first of all", "second.txt": b"the second"}


class Statuses(Calls):
    def setUp(self) -> None:
        self.room = Room(FILES)
        self.addCleanup(self.room.close)
        self.room.rename("first.txt", "stray")
        self.room.take("second.txt")
        self.before = self.room.listing()

    def both(self) -> List[List[str]]:
        return [[REPAIR, "room"], [RESCUE, "new", "room/set.par2", "room/stray"]]

    def fails(self, words: List[str], status: int, said: str, shell: str = 'exec "$@"', **environment: str) -> None:
        ended = self.call(*words, shell=shell, **environment)
        self.assertEqual((ended[0], ended[1]), (status, ""), (words, environment, ended))
        self.assertRegex(ended[2], said)
        self.assertNotIn("Traceback", ended[2])
        self.assertEqual(self.room.listing(), self.before)
        self.assertEqual(os.listdir(self.room.temporary), [])

    def test_a_program_that_is_not_parv(self) -> None:
        odd = {
            "other": 'echo "set of spoons"', "binary": r"printf '\377\0\n'", "status": "exit 5", "usage": "exit 2",
            "killed": "kill -SEGV $$", "cut": f'"{PARV}" "$@" | head -n 1', "early": f'"{PARV}" "$@" | head -c 40',
            "packets": f'[ "$1" = packets ] || exec "{PARV}" "$@"; echo "packets 3"',
            "verify": f'[ "$1" = verify ] || [ "$1" = find ] || exec "{PARV}" "$@"; exit 1',
            "says": 'echo "parv: cannot open it" >&2; exit 4',
        }
        programs = ["/bin/true", "/bin/false", "/bin/echo", "/bin/cat", *(
            self.program(name, f"#!/bin/bash\n{text}\n") for name, text in odd.items() if name != "says")]
        for program in programs:
            for words in self.both():
                self.fails(words, 6, "^parv-re[a-z]*: .*(PARV|isn't parv|ended by signal|has ended)", PARV=program)
        for words in self.both():
            self.fails(words, 4, "cannot open it", PARV=self.program("says", f"#!/bin/bash\n{odd['says']}\n"))

    def test_an_answer_without_end(self) -> None:
        for words in self.both():
            self.fails(words, 6, "writes more than an answer has", PARV=self.program("yes", "#!/bin/sh\nexec yes no\n"))
            self.fails(words, 6, "writes more than an answer has",
                       PARV=self.program("says", "#!/bin/sh\nexec yes no >&2\n"))
        self.fails([REPAIR, "room"], 6, "writes more than an answer has",
                   PAR2=self.program("odd", "#!/bin/sh\nexec yes no >&2\n"))

    def test_what_a_program_leaves_running_is_not_waited_for(self) -> None:
        program = self.program("leaves", f'#!/bin/bash\nsleep 900 &\nexec "{PARV}" "$@"\n')
        for words in ([REPAIR, "--dry-run", "room"], [os.path.join(BIN, "parv-map"), "room/set.par2"],
                      [os.path.join(BIN, "parv-tree"), "-j2", "room"]):
            self.assertEqual(self.call(*words, PARV=program), self.call(*words))

    def test_matches_without_end(self) -> None:
        only = f'#!/bin/bash\n[ "$1" = find ] || exec "{PARV}" "$@"\n'
        line = re.sub(r" \d+ (\w+) \d+\n.*", r" 0 \1 0", self.call(
            PARV, "find", "--limit", "1", "room/set.par2", "room/stray")[1].replace("room/stray", "1"), flags=re.DOTALL)
        rises = f'n=0; while echo "{line}" | sed "s/ 0 / $((n++)) /"; do :; done'
        for text in f"exec yes {line}", "exec tr '\\0' x < /dev/zero", rises:
            shutil.rmtree(os.path.join(self.room.top, "new"), ignore_errors=True)
            self.fails([RESCUE, "new", "room/set.par2", "room/stray"], 6, "parv find .*is PARV another program",
                       PARV=self.program("odd", only + text + "\n"))

    def test_numbers_that_no_answer_has(self) -> None:
        for command in "set", "packets", "verify":
            for count in 30, 5000:
                number = f"$(printf 9%.0s {{1..{count}}})"
                program = self.program("odd", f'#!/bin/bash\n[ "$1" = {command} ] || exec "{PARV}" "$@"\n'
                                       f'"{PARV}" "$@" | sed -E "s/ [0-9]+( |$)/ {number}\\1/g"\n')
                for words in self.both()[:1 if command == "verify" else 2]:
                    self.fails(words, 6, "is PARV another program|has ended", PARV=program)

    def test_a_file_that_grows_is_not_said_to_be_a_wrong_word(self) -> None:
        grows = self.program("grows", f'#!/bin/bash\n[ "$1" != find ] || echo x >> {self.room.path("stray")}\n'
                                      f'exec "{PARV}" "$@"\n')
        for words, status, last in (
                ([RESCUE, "new", "room/set.par2", "room/stray"], 1, "slices 1/4, copied now 1"),
                ([os.path.join(BIN, "parv-map"), "room/set.par2", "room/stray"], 0,
                 "1 moved, 3 missing; need 3 have 20"), ([REPAIR, "room"], 0, "complete")):
            self.room.put("stray", b"first of Xll")
            self.room.put("second.txt", b"a second file")
            ended = self.call(*words, PARV=grows, WRONG="short")
            self.assertEqual((ended[0], ended[1].splitlines()[-1:]), (status, [last]), (words, ended))
            self.assertNotIn("cursor", ended[2])
        always = self.program("always", f'#!/bin/bash\n[ "$1" = find ] || exec "{PARV}" "$@"\necho x >> '
                                        f'{self.room.path("stray")}\necho "parv: cursor of other files" >&2; exit 3\n')
        ended = self.call(RESCUE, "new", "room/set.par2", "room/stray", PARV=always)
        self.assertEqual(ended[0], 6, ended)
        self.assertIn("a file that is searched has another length now than before", ended[2])

    def test_a_program_that_is_not_par2(self) -> None:
        for text, said in (("exit 0", "isn't complete"), ("exit 3", "status 3"), ("kill -SEGV $$", "signal 11"),
                           ("exec nothing", "status 127")):
            self.fails([REPAIR, "room"], 5, said, PAR2=self.program("odd", f"#!/bin/sh\n{text}\n"))
        self.fails([REPAIR, "room"], 5, "cannot run none: put par2 in PATH", PAR2="none")

    def test_a_command_that_cannot_begin(self) -> None:
        copy = os.path.join(self.room.top, "copy")
        shutil.copytree(os.path.dirname(BIN), copy, ignore=shutil.ignore_patterns("tests"))
        for text, status, said in (("raise MemoryError", 8, "MemoryError()"), ("raise OSError(24, 'open')", 6,
                                   "OSError(24, 'open')"), ("import none\\xe9", 6, "SyntaxError(")):
            write(os.path.join(copy, "parv_commands", "common", "arguments.py"), text.encode())
            for name in os.listdir(BIN):
                for shell in 'exec "$@"', 'exec "$@" 2>&-', 'exec "$@" 2> /dev/full':
                    ended = self.call(os.path.join(copy, "bin", name), "-h", shell=shell)
                    self.assertEqual(ended[:2], (status, ""), (name, ended))
                    if "2>" not in shell:
                        self.assertTrue(ended[2].startswith(f"{name}: cannot begin: {said}"), ended)

    def test_a_shell_runs_each_command_too(self) -> None:
        for name in os.listdir(BIN):
            ended = self.call("sh", os.path.join(BIN, name), "-h")
            self.assertEqual((ended[0], ended[1].split()[:2], ended[2]), (0, ["usage:", name], ""), name)

    def test_too_little_memory_for_python_is_not_another_status(self) -> None:
        for name in os.listdir(BIN):
            for size in range(9000, 16001, 500):
                ended = self.call(os.path.join(BIN, name), "-h", shell=f'ulimit -v {size}; exec "$@"')
                self.assertEqual(ended, (8, "", f"{name}: out of memory\n"), size)

    def test_a_shell_that_can_begin_no_program_is_not_another_status(self) -> None:
        def limited() -> None:
            resource.setrlimit(resource.RLIMIT_NPROC, (0, 0))
            if not os.geteuid():        # whom this limit isn't for
                os.setuid(65534)
        for name in os.listdir(BIN):
            text = read(os.path.join(BIN, name))
            ended = subprocess.run(["/bin/sh", "-c", text, f"bin/{name}"], cwd="/", capture_output=True, preexec_fn=limited)
            self.assertEqual((ended.returncode, ended.stdout), (6, b""), (name, ended))
            self.assertTrue(ended.stderr.decode().endswith(f"{name}: cannot begin\n"), ended)

    def test_a_signal_while_python_starts_is_not_another_status(self) -> None:
        if subprocess.run(["/usr/bin/env", "--block-signal=2", "/bin/true"], stderr=subprocess.DEVNULL).returncode:
            self.skipTest("env can't block a signal here")
        path = os.path.join(self.room.top, "path")
        self.program("path/python3", f"#!{sys.executable} -IS\nimport os, signal, sys\nos.kill(os.getpid(), 2)\n"
                                     "signal.signal(2, signal.SIG_DFL)\nos.execv(sys.executable, [sys.executable, "
                                     "*sys.argv[1:]])\n")
        for name in os.listdir(BIN):
            given = {**os.environ, "PATH": f"{path}:/usr/bin:/bin"}
            ended = subprocess.run([os.path.join(BIN, name), "-h"], env=given, capture_output=True,
                                   preexec_fn=take_all_signals)
            self.assertEqual((ended.returncode, ended.stdout, ended.stderr), (-signal.SIGINT, b"", b""), name)

    def test_closed_and_full_outputs(self) -> None:
        for shell, why in (('exec "$@" > /dev/full', "No space left"), ('exec "$@" >&-', "it is closed"),
                           ('exec "$@" <&- >&-', "it is closed")):
            for words in ([REPAIR, "--dry-run", "room"], [REPAIR, "-h"], [RESCUE, "-h"]):
                self.fails(words, 6, "cannot write standard output: " + why, shell)
            ended = self.call(REPAIR, "room", shell=shell)
            self.assertEqual((ended[0], self.room.lacks()), (6, []), ended)
            ended = self.call(REPAIR, "room", shell=shell)
            self.assertEqual(ended[0], 6, ended)
            ended = self.call(RESCUE, "new", "room/set.par2", "room/first.txt", shell=shell)
            self.assertEqual(ended[0], 6, ended)
            self.assertIn("cannot write standard output: " + why, ended[2])
            self.room.fresh()
            self.room.rename("first.txt", "stray")
            self.room.take("second.txt")

    def test_a_closed_standard_error_changes_no_status(self) -> None:
        for shell in 'exec "$@" 2>&-', 'exec "$@" 2> /dev/full':
            self.assertEqual(self.call(REPAIR, "--dry-run", "room", shell=shell)[0], 1)
            self.assertEqual(self.call(REPAIR, "none", shell=shell)[0], 6)

    def test_a_temporary_folder_that_is_not_there_or_may_not_grow(self) -> None:
        for words in self.both():
            self.fails(words, 6, "cannot (open|make a temporary folder)", TMPDIR=os.path.join(self.room.top, "none"))
        script = 'mount -t tmpfs -o size=4k,nr_inodes=%d tmpfs "$TMPDIR" || exit 99; exec "$@"'
        for inodes in 1, 2, 3, 4:       # (the folder, the one in it, and links)
            for words in self.both():
                if words[0] == REPAIR and inodes > 2:
                    continue
                said = "No space left" if inodes < 4 else ""
                ended = self.mounting(script % inodes, *words)
                self.assertIn(ended[0], (6,) if said else (1, 6), (inodes, ended))
                self.assertIn(said, ended[2])
                if ended[0] == 6:
                    self.assertRegex(ended[2], "(make a link in|temporary folder in|write in) ")

    def test_a_file_system_without_locks(self) -> None:
        for error, statuses, said in ((errno.ENOLCK, (6, 6), "No locks available"),
                                      (errno.EWOULDBLOCK, (6, 3), "another run is at work")):
            with unittest.mock.patch("fcntl.flock", side_effect=OSError(error, os.strerror(error))):
                ends = [self.room.run(repair.main, ["room"]),
                        self.room.run(rescue.main, ["new", "room/set.par2", "room/stray"])]
            self.assertEqual(tuple(ended.status for ended in ends), statuses, ends)
            for ended in ends:
                self.assertIn(said, ended.said)
            self.assertEqual(self.room.listing(), self.before)

    def test_options_stand_anywhere_before_two_dashes(self) -> None:
        for name in "set.par2", "stray":
            shutil.copy(self.room.path(name), os.path.join(self.room.top, f"-{name}"))
        for words in (["--tails", "--", "new", "-set.par2", "-stray"], ["new", "--tails", "--", "-set.par2", "-stray"],
                      ["new", "room/set.par2", "--tails", "--", "-stray"],
                      ["new", "room/set.par2", "--tails", "room/stray"],
                      ["--tails", "new", "room/set.par2", "room/stray", "--"]):
            ended = self.call(RESCUE, *words)
            self.assertEqual((ended[0], ended[2]), (1, ""), (words, ended))
            self.assertIn("complete first.txt", ended[1])
        for words in ["--"], ["--", "new"], ["new", "--"], ["--tails", "", "room/set.par2"]:
            ended = self.call(RESCUE, *words)
            self.assertEqual(ended[:2], (3, ""), (words, ended))
        os.rename(self.room.folder, os.path.join(self.room.top, "-room"))
        self.assertEqual(self.call(REPAIR, "--dry-run", "--", "-room")[0], 1)
        self.assertEqual(self.call(REPAIR, "-room", "--dry-run")[0], 3)

    def test_more_files_than_may_be_open_at_all(self) -> None:
        for number in range(300):
            self.room.put(f"f{number}", b"%d" % number)
        ended = self.call(REPAIR, "--dry-run", "room", shell='ulimit -n 200; exec "$@"')
        self.assertEqual(ended[0], 1, ended)
        self.assertRegex(ended[2], "[0-9]+ of 301 files aren't looked at: parv takes 167 here")
        self.assertIn("rename stray to first.txt", ended[1])
        ended = self.call(REPAIR, "room", shell='ulimit -n 200; exec "$@"')
        self.assertEqual((ended[0], self.room.lacks()), (0, []), ended)

    def test_more_files_to_be_assembled_than_may_be_open(self) -> None:
        room = Room({f"f{number:03}": b"the %03d first, and more" % number for number in range(150)}, recovery=400)
        self.addCleanup(room.close)
        self.room = room
        for name in room.files:
            room.take(name)
        room.put("image", b"".join(data[:8] for data in room.files.values()))
        ended = self.call(REPAIR, "room", shell='ulimit -n 120; exec "$@"', WRONG="short")
        self.assertEqual((ended[0], room.lacks()), (0, []), ended)

    def test_parv_is_not_called_for_each_set_of_a_folder(self) -> None:
        told = os.path.join(self.room.top, "told")
        counting = self.program("counting", f'#!/bin/sh\necho "$1" >> {told}\nexec "{PARV}" "$@"\n')
        calls: List[int] = []
        for count in 0, 300:
            write(told, b"")
            self.room.put("others.par2", b"".join(set_of({b"%d" % number: b"other"}, 8, 0) for number in range(count)))
            ended = self.call(REPAIR, "--dry-run", "--set", self.room.packets[32:48].hex(), "room", PARV=counting)
            self.assertEqual(ended[0], 1, ended)
            calls.append(len(read(told).splitlines()))
        self.assertEqual(calls[0], calls[1])

    def test_names_that_are_longer_than_a_command_line(self) -> None:
        for number in range(9500):
            write(self.room.path(f"{number:05}" + "n" * 240), b"")
        ended = self.call(REPAIR, "room")
        self.assertEqual((ended[0], ended[2], self.room.lacks()), (0, "", []), ended)
        self.assertEqual(self.call(os.path.join(BIN, "parv-watch"), "room", "0", "1"), (0, "complete\n", ""))

    def test_relative_programs_and_parts_of_the_path(self) -> None:
        for name in "parv", "par2":
            for folder in "room", "tools":
                self.program(f"{folder}/{name}", f"#!/bin/sh\necho {folder} >> {self.room.top}/run\nexit 9\n")
        os.mkdir(os.path.join(self.room.top, "real"))
        os.symlink(PARV, os.path.join(self.room.top, "real", "parv"))
        ended = self.call(REPAIR, "--dry-run", "room", PARV="real/parv")
        self.assertEqual(ended[0], 1, ended)
        os.mkdir(os.path.join(self.room.folder, "real"))
        shutil.copy(os.path.join(self.room.folder, "parv"), os.path.join(self.room.folder, "real"))
        for path in (f":.:{self.room.top}/real:/usr/bin:/bin", "real:/usr/bin:/bin", ":/usr/bin:/bin:./real"):
            given = {**os.environ, "PATH": path, "PAR2": "par2"}
            del given["PARV"]
            self.program("par2", "#!/bin/sh\nexit 3\n")
            ran = subprocess.run([sys.executable, REPAIR, "room"], cwd=self.room.top, env=given, capture_output=True)
            self.assertEqual(ran.returncode, 5, (path, ran))
        self.assertFalse(os.path.exists(os.path.join(self.room.top, "run")))
        told = os.path.join(self.room.top, "told")
        for path, handed in ((":.:/usr/bin:real:/bin:", "/usr/bin:/bin"), ("real:.", "/usr/local/bin:/usr/bin:/bin")):
            self.program("par2", f'#!/bin/sh\necho "$PATH" > {told}\nexit 3\n')
            self.assertEqual(self.call(sys.executable, REPAIR, "room", PATH=path, PAR2="./par2")[0], 5)
            with open(told, encoding="ascii") as file:
                self.assertEqual(file.read(), handed + "\n")

    # Signals while programs run.

    def test_signals_end_the_programs_too_and_leave_nothing(self) -> None:
        cases: List[Tuple[List[str], Dict[str, str]]] = [
            ([REPAIR, "room"], {"PARV": self.waits("p1", '[ "$1" = packets ]')}),
            ([REPAIR, "room"], {"PARV": self.waits("p2", '[ "$1" = verify ]')}),
            ([REPAIR, "room"], {"PAR2": self.waits("p3", "true")}),
            ([RESCUE, "new", "room/set.par2", "room/stray"], {"PARV": self.waits("p4", '[ "$1" = find ]')}),
        ]
        for number in signal.SIGTERM, signal.SIGHUP, signal.SIGINT:
            for all_of_them in False, True:
                for words, environment in cases:
                    status, out = self.ended_while(words, number, all_of_them, **environment)
                    self.assertEqual((status, out), (128 + number, b""), (words, number, all_of_them))
                    self.assertEqual(os.listdir(self.room.temporary), [])
                    self.assertEqual(self.room.listing(), self.before)

    def test_no_signal_ends_a_command_that_is_done(self) -> None:
        text = ("import os, sys; sys.path.insert(0, sys.argv[1]); from parv_commands.common import signals\n"
                "class Last:\n    def __del__(self, kill=os.kill, me=os.getpid()): kill(me, 15)\n"
                "sys.last = Last(); signals.take_signals(); signals.forget_signals(); os.write(1, b'done')\n")
        self.assertEqual(self.call(sys.executable, "-c", text, os.path.dirname(BIN)), (0, "done", ""))

    def test_a_program_ends_when_the_command_is_killed(self) -> None:
        status, _ = self.ended_while([REPAIR, "room"], signal.SIGKILL, False, PAR2=self.waits("p5", "true"))
        self.assertEqual(status, -signal.SIGKILL)

    def test_no_program_begins_once_the_command_is_killed(self) -> None:
        ran, child = os.path.join(self.room.top, "ran"), os.path.join(self.room.top, "child")

        class Killing:
            """The C library, through which a child kills the command before it asks for anything."""
            def prctl(self, *_: object) -> None:
                command = os.getppid()
                write(child, b"%d" % os.getpid())
                os.kill(command, signal.SIGKILL)
                while os.getppid() == command:
                    time.sleep(0.01)
        with unittest.mock.patch.object(programs, "_libc", Killing()):
            ended = self.room.run(repair.main, ["room"], PARV=self.program("p6", f"#!/bin/sh\ntouch {ran}\n"))
        self.assertEqual(ended.status, 128 + signal.SIGKILL)
        self.assertEqual((left_running(int(read(child))), os.path.exists(ran)), ([], False))


class Packets(unittest.TestCase):
    """The packets that par2 gets."""

    def setUp(self) -> None:
        self.room = Room(FILES)
        self.addCleanup(self.room.close)
        self.room.take("second.txt")

    def names_in(self, packets: bytes) -> List[bytes]:
        return sorted(re.findall(rb"FileDesc.{56}([^\0]+)", packets, re.S))

    def test_par2_gets_no_name_of_the_set_and_no_packet_that_parv_has_not_chosen(self) -> None:
        owner = self.room.packets[32:48]
        evil = set_of({b"../../../evil": b"evil"}, 8, 1)
        at = evil.index(b"FileDesc") - 56
        forged = packet(owner, b"PAR 2.0\0FileDesc", evil[at + 64:at + 64 + 72])
        # Packets about the missing file, with a name that parv rejects and par2 reads up to its zero byte, and with
        # other MD5s.
        own = self.room.packets.index(b"second.txt")
        about = self.room.packets[own - 56:own]
        aside = packet(owner, b"PAR 2.0\0FileDesc", about[:16] + b"o" * 32 + about[48:] + b"../../evil\0more.")
        self.room.put("set.par2", forged + self.room.packets + evil)
        self.room.put("a.par2", aside + evil + self.room.packets)
        packets = self.given_for(owner.hex())
        self.assertEqual(self.names_in(packets), [b"file0", b"file1"])
        self.assertNotIn(b"evil", packets)
        self.assertNotIn(evil[32:48], packets)
        self.assertNotIn(b"o" * 32, packets)
        self.assertEqual(packets.count(b"RecvSlic"), 20)
        self.assertEqual(packets.count(b"PAR 2.0\0Main"), 1)

    def test_a_packet_that_changes_after_parv_has_read_it_ends_the_run(self) -> None:
        odd = os.path.join(self.room.top, "odd")
        place, at = self.room.path("set.par2"), len(self.room.packets) - 1
        write(odd, f'''#!/bin/sh
"{PARV}" "$@" || exit
[ "$1" != set ] || printf x | dd of={place} bs=1 seek={at} conv=notrunc status=none
'''.encode())
        os.chmod(odd, 0o755)
        before = self.room.listing()
        ended = self.room.run(repair.main, ["room"], None, PARV=odd)
        self.assertEqual((ended.status, ended.out), (6, ""), ended)
        self.assertIn("the packet files have changed meanwhile", ended.said)
        before["set.par2"] = self.room.listing()["set.par2"]
        self.assertEqual(self.room.listing(), before)

    def given_for(self, owner: str) -> bytes:
        keeps = os.path.join(self.room.top, "keeps")
        write(keeps, f"#!/bin/sh\ncp set.par2 {self.room.top}/given\nexit 3\n".encode())
        os.chmod(keeps, 0o755)
        self.room.run(repair.main, ["--set", owner, "room"], None, PAR2=keeps)
        with open(os.path.join(self.room.top, "given"), "rb") as file:
            return file.read()


if __name__ == "__main__":
    unittest.main()
