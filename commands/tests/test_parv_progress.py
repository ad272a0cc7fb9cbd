"""parv-progress: it doesn't change the output, exit status and signals of parv, with a terminal and without one."""

from __future__ import annotations

import os
import pty
import signal
import subprocess
import termios
from typing import List, Tuple

from parv_commands.common import output_and_progress as output
from parv_commands.progress import command as progress_of_parv

from .calls import BIN, Calls, slow, terminal_text
from .rooms import PARV, Room

PROGRESS = os.path.join(BIN, "parv-progress")
FILES = {"first": b"first of all files", "second": b"the second file"}
WORDS = ["verify", "-B", "room", "room/set.par2", "room/first"]


class Progress(Calls):
    def setUp(self) -> None:
        self.room = Room(FILES)
        self.addCleanup(self.room.close)

    def same(self, words: List[str], shell: str = 'exec "$@"', program: str = PARV) -> None:
        wanted = self.call(program, *words, shell=shell)
        self.assertEqual(self.call(PROGRESS, *words, shell=shell, PARV=program), wanted, (words, shell))

    def test_without_a_terminal_it_is_parv(self) -> None:
        odd = self.program("odd", "#!/bin/bash\nprintf 'a\\0b\\377'; printf 'c\\033' >&2; exit 77\n")
        killed = self.program("killed", "#!/bin/bash\necho some; kill -SEGV $$\n")
        for shell in ('exec "$@"', 'exec "$@" >&-', 'exec "$@" > /dev/full', 'exec "$@" 2>&-', 'exec "$@" <&- >&- 2>&-',
                      'exec 3> >(true); wait $!; "$@" >&3; echo $? >&2', 'ulimit -f 0; exec "$@" > limited'):
            for words in WORDS, ["find", "room/set.par2", "room/first", "room/second"], ["verify"], ["find", "none"], [
                    "verify", "-x"], ["find", "room/set.par2", "/dev/stdin"]:
                self.same(words, shell)
            for program in odd, killed:
                self.same(WORDS, shell, program)
        self.same(["find", "room/set.par2", "/dev/stdin"], 'exec "$@" < room/first')

    def test_other_words_are_refused(self) -> None:
        wrong: List[List[str]] = [[], ["set"], ["packets", "room/set.par2"], ["-q", "verify"]]
        for words in wrong:
            self.assertEqual(self.call(PROGRESS, *words), (
                3, "", "parv-progress: the first argument must be find or verify\n"
                       "parv-progress: usage: parv-progress [-h] find|verify ARGUMENTS\n"))

    def test_words_come_through(self) -> None:
        shows = self.program("shows", '#!/bin/bash\nprintf "[%s]" "$@"\n')
        words = ["verify", "", "a b", "-h", "--help", "--", "--tails", "*", "\udcff\n"]
        self.assertEqual(self.call(PROGRESS, *words, PARV=shows),
                         (0, "[verify][][a b][-h][--help][--][--tails][*][\udcff\n]", ""))

    def test_a_file_that_is_no_program(self) -> None:
        empty = self.program("empty", "no program")
        self.assertEqual(self.call(PROGRESS, *WORDS, PARV=empty),
                         (6, "", f"parv-progress: cannot run {empty}: Exec format error\n"))

    # With a terminal.

    def on_terminal(self, words: List[str], program: str, out: bool = True) -> Tuple[int, bytes]:
        """Returns how a run on a terminal ends, and what is shown there. Standard output may go to the file `lines`."""
        child, terminal = pty.fork()
        if not child:
            status = 99
            try:
                os.chdir(self.room.top)
                os.environ.update(PARV=program, TMPDIR=self.room.temporary)
                settings = termios.tcgetattr(2)
                settings[1] &= ~termios.OPOST       # (so that the terminal adds no byte to a line feed)
                termios.tcsetattr(2, termios.TCSANOW, settings)
                if not out:
                    os.dup2(os.open("lines", os.O_WRONLY | os.O_CREAT | os.O_TRUNC), 1)
                output.PROGRESS_EACH = 0.05
                import sys
                sys.argv = ["command", *words]
                status = progress_of_parv.main()
            finally:
                os._exit(status)
        text = terminal_text(terminal, self.room.top)
        ended = os.waitpid(child, 0)[1]
        return (os.WEXITSTATUS(ended) if os.WIFEXITED(ended) else -os.WTERMSIG(ended)), text

    def test_output_and_status_on_a_terminal(self) -> None:
        begins = b"\r\x1b[K"
        for text, status, wanted in (
                ("printf 'a\\0b\\377\\n'; exit 77", 77, b"a\0b\xff\n"), ("echo some; kill -SEGV $$", 139, b"some\n"),
                ("head -c 200000 /dev/zero | tr '\\0' x", 0, b"x" * 200000), ("echo line >&2; exit 4", 4, b"line\n"),
                ("head -c 200000 /dev/zero | tr '\\0' x >&2; exit 6", 6, b"x" * 200000),
                ("printf one; sleep 0.3; printf two", 0, b"onetwo")):
            ended, came = self.on_terminal(WORDS, slow(self.room.top, text))
            self.assertEqual(ended, status, (text, came[-300:]))
            shown, _, rest = came.rpartition(begins)
            self.assertEqual(rest, wanted, text)
            self.assertRegex(shown, rb"\A(\r\x1b\[K[0-9]+ MiB of at most 1 MiB, [0-9]+ MiB/s)+\Z")

    def test_a_file_for_the_lines_gets_what_parv_writes(self) -> None:
        program = slow(self.room.top, f'exec "{PARV}" "$@"')
        for words in WORDS, ["find", "room/set.par2", "room/first"]:
            ended, came = self.on_terminal(words, program, False)
            wanted = subprocess.run([PARV, *words], cwd=self.room.top, capture_output=True)
            with open(os.path.join(self.room.top, "lines"), "rb") as file:
                self.assertEqual((ended, file.read()), (wanted.returncode, wanted.stdout))
            self.assertTrue(came.endswith(b" MiB/s\r\x1b[K"), came)
        wanted = subprocess.run([PARV, "find", "room/set.par2", "room/first"], cwd=self.room.top, capture_output=True)
        self.assertEqual(self.on_terminal(["find", "room/set.par2", "room/first"], PARV), (0, wanted.stdout))

    def test_what_was_read_of_how_much_at_most(self) -> None:
        self.room.put("packets.PAR2", bytes(1 << 20))
        self.room.put("scanned", b"a" * (10 << 20))
        words = ["room/packets.PAR2", "room/scanned", "none", "room"]
        for given, most, out in ((["verify"], 23, True), (["verify", "--tails"], 33, True),
                                 (["verify", "--"], 23, True), (["find"], 13, False), (["find", "--tails"], 13, False)):
            reads = given == ["verify"]
            program = slow(self.room.top, "", "read -rN 3000000 _ < room/scanned" if reads else "")
            came = self.on_terminal([*given, *words], program, out)[1]
            self.assertIn(b"%d MiB of at most %d MiB, " % (2 * reads, most), came, given)

    def test_signals_end_parv_too_on_a_terminal(self) -> None:
        wait = self.program("waits", f"#!/bin/bash\necho $PPID $$ > {self.room.top}/began\nexec sleep 900\n")
        for number in signal.SIGTERM, signal.SIGHUP, signal.SIGINT:
            ended = self.call(shell=f'''
                rm -f began
                PARV={wait} env --default-signal=INT,HUP script -qefc "exec {PROGRESS} verify x.par2" /dev/null \\
                    > terminal 2>&1 < /dev/null &
                until [ -s began ]; do sleep 0.05; done
                read -r command program < began
                kill -{int(number)} "$command"
                wait $!
                echo $?
                [ -e "/proc/$program" ] && echo "goes on"''')
            self.assertEqual(ended[1], f"{128 + number}\n", ended)
