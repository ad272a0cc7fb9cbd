"""Seals: a record counts only with the mark of this user's secret, in its own place; and how the secret is made and
kept."""

from __future__ import annotations

import fcntl
import os
import signal
import stat
import subprocess
import sys
import threading
import unittest
import unittest.mock
from typing import Callable, Dict, List, Optional, Tuple

from parv_commands.common import arguments, changes, records_of_this_user
from parv_commands.common.faults import FILES, Fault
from parv_commands.common.opened_folder import Folder
from parv_commands.common.records_of_this_user import Chain, Seal

from .rooms import FULL, KILLED, SECONDS, At, Ended, Room, logged, read, write


def sealing() -> int:
    """A command that does nothing but get a seal for a record, as a run that writes one."""
    def run() -> int:
        place = os.open(b".", os.O_RDONLY)
        os.write(1, records_of_this_user.seal_to_write(b"kind", place).mark(b"text"))
        return 0
    return arguments.run_command("sealing", run)


class Marks(unittest.TestCase):
    def setUp(self) -> None:
        self.room = Room({"one": b"one"})
        self.addCleanup(self.room.close)
        os.mkdir(self.room.path("sub"))
        self.places = [os.open(path, os.O_RDONLY) for path in (self.room.top, self.room.folder, self.room.path("sub"))]
        for place in self.places:
            self.addCleanup(os.close, place)
        self.seal = Seal(b"s" * 32, b"kind", *self.places[:2])

    def others(self) -> List[Seal]:
        top, folder, sub = self.places
        secret = b"s" * 32
        return [Seal(b"t" * 32, b"kind", top, folder), Seal(secret, b"other", top, folder),
                Seal(secret, b"kind", top, sub), Seal(secret, b"kind", sub, folder), Seal(secret, b"kind", top),
                Seal(secret, b"kind", folder, top)]

    def test_a_whole_record_has_its_text_only_with_its_own_mark(self) -> None:
        for text in b"", b"a", b"text\nand more\0\n":
            data = self.seal.record_of(text)
            self.assertEqual(self.seal.text_of(data), text)
            self.assertEqual(data[:len(text)], text)
            for at in range(len(data)):
                self.assertIsNone(self.seal.text_of(data[:at]), at)
                self.assertIsNone(self.seal.text_of(data[:at] + bytes([data[at] ^ 1]) + data[at + 1:]), at)
            self.assertIsNone(self.seal.text_of(data + b"\n"))
            self.assertIsNone(self.seal.text_of(b"x" + data))

    def test_a_mark_is_of_one_secret_one_kind_and_one_place(self) -> None:
        data = self.seal.record_of(b"text")
        for other in self.others():
            self.assertIsNone(other.text_of(data))
        again = Seal(b"s" * 32, b"kind", *self.places[:2])
        self.assertEqual(again.text_of(data), b"text")

    def test_lines_count_in_their_order_from_the_first_on(self) -> None:
        written, texts = Chain(self.seal), [b"first", b"second of them", b"", b"first"]
        lines = [written.line(text).rstrip(b"\n") for text in texts]

        def taken(lines: List[bytes], seal: Seal = self.seal) -> List[Optional[bytes]]:
            chain = Chain(seal)
            return [chain.take(line) for line in lines]
        self.assertEqual(taken(lines), texts)
        self.assertEqual(taken([lines[1]]), [None])
        self.assertEqual(taken([lines[0], lines[2]]), [b"first", None])
        self.assertEqual(taken([lines[0], lines[3]]), [b"first", None])
        self.assertEqual(taken([lines[0], lines[0]]), [b"first", None])
        changed = b"second of us" + lines[1][14:]
        self.assertEqual(taken([lines[0], changed, lines[1]]), [b"first", None, b"second of them"])
        for other in self.others():
            self.assertEqual(taken(lines[:1], other), [None])
        for at in range(len(lines[0])):
            self.assertEqual(taken([lines[0][:at]]), [None])

    def test_lines_go_on_after_those_that_were_read(self) -> None:
        written, reading = Chain(self.seal), Chain(self.seal)
        for text in b"one", b"two":
            reading.take(written.line(text).rstrip(b"\n"))
        self.assertEqual(reading.line(b"three"), written.line(b"three"))

    def test_a_whole_record_is_not_taken_for_the_first_line(self) -> None:
        data = self.seal.record_of(b"text ")
        self.assertEqual(Chain(self.seal).take(data.rstrip(b"\n")), None)


class Secrets(unittest.TestCase):
    def setUp(self) -> None:
        self.room = Room({"one": b"one"})
        self.addCleanup(self.room.close)
        self.folder = os.path.join(self.room.state_home, "parv")
        self.secret = os.path.join(self.folder, "secret")
        self.gone()

    def run_it(self, watch: Callable[[str, str], None] = lambda call, when: None, **environment: str) -> Ended:
        return self.room.run(sealing, [], watch, **environment)

    def gone(self) -> None:
        subprocess.run(["rm", "-rf", self.room.state_home], check=True)

    def test_it_is_made_once_for_nobody_else_and_stays(self) -> None:
        ended = self.room.run(lambda: (os.umask(0), sealing())[1], [])
        self.assertEqual(ended.status, 0, ended)
        secret = read(self.secret)
        self.assertEqual(len(secret), 32)
        self.assertEqual([stat.S_IMODE(os.stat(path).st_mode) for path in (
            self.room.state_home, self.folder, self.secret)], [0o700, 0o700, 0o600])
        self.assertEqual(os.listdir(self.folder), ["secret"])
        again = self.run_it()
        self.assertEqual((again.status, again.out, read(self.secret)), (0, ended.out, secret))
        self.assertEqual(again.calls, ["fsync", "fsync"])
        self.gone()
        self.assertNotEqual(self.run_it().out, ended.out)

    def test_it_is_on_the_disk_before_it_has_its_name(self) -> None:
        with logged(self.room, "sync", "move", "make_path") as called:
            self.assertEqual(self.run_it().status, 0)
        lines = [f"{name} {path}" for name, path, _ in called]
        self.assertEqual(lines[:3], ["make_path .", "make_path .", "sync secrets"])
        self.assertEqual(lines[-4:], ["sync secrets/parv/secret.new", "move secrets/parv", "sync secrets/parv/secret",
                                      "sync secrets/parv"])

    def test_a_kill_or_a_full_disk_at_each_call_leaves_one_whole_secret_to_the_next_run(self) -> None:
        calls = self.run_it().calls
        self.assertGreater(len(calls), 8)
        for number in range(1, len(calls) + 1):
            for when, does, status in (("before", KILLED, 137), ("after", KILLED, 137), ("before", FULL, FILES)):
                self.gone()
                ended = self.run_it(At(number, when, does))
                self.assertIn(ended.status, (0, status) if does is FULL else (status,), (number, ended))
                if ended.status == FILES:
                    self.assertRegex(ended.said, "cannot use the secret of your records in .*: No space left on "
                                                 "device; XDG_STATE_HOME can name a folder of yours for it")
                self.assertIn(len(read(self.secret)) if os.path.exists(self.secret) else 32, [32])
                self.assertEqual(self.run_it().status, 0, (number, when))
                self.assertEqual(os.listdir(self.folder), ["secret"])

    def test_runs_that_begin_at_once_make_one(self) -> None:
        text = ("import os, sys; sys.path.insert(0, sys.argv[1]); from parv_commands.common import records_of_this_user\n"
                "place = os.open('.', os.O_RDONLY); print(records_of_this_user.seal_to_write(b'kind', place).mark(b'text'))")
        above = os.path.dirname(os.path.dirname(os.path.realpath(records_of_this_user.__file__)))
        for _ in range(5):
            self.gone()
            runs = [subprocess.Popen([sys.executable, "-B", "-c", text, above], stdout=subprocess.PIPE,
                                     env={**os.environ, "XDG_STATE_HOME": self.room.state_home}) for _ in range(6)]
            out = {run.communicate(timeout=SECONDS)[0] for run in runs}
            self.assertEqual((len(out), len(out.pop())), (1, 64 + 4), out)

    def test_a_signal_ends_a_run_that_waits_for_another_one(self) -> None:
        os.makedirs(self.folder, 0o700)
        place = os.open(self.folder, os.O_RDONLY)
        self.addCleanup(os.close, place)
        fcntl.flock(place, fcntl.LOCK_EX)

        def signalled() -> int:
            threading.Timer(0.5, os.kill, (os.getpid(), signal.SIGTERM)).start()
            return sealing()
        with unittest.mock.patch("tests.rooms.SECONDS", 20):
            self.assertEqual(self.room.run(signalled, []).status, 128 + signal.SIGTERM)

    def test_reading_makes_nothing(self) -> None:
        def reads() -> int:
            return arguments.run_command("reads", lambda: 0 if records_of_this_user.seal_to_read(b"kind") is None else 1)
        ended = self.room.run(reads, [])
        self.assertEqual((ended.status, ended.calls, os.path.exists(self.room.state_home)), (0, [], False), ended)
        os.makedirs(self.folder, 0o700)
        self.assertEqual((self.room.run(reads, []).status, os.listdir(self.folder)), (0, []))
        self.run_it()
        self.assertEqual(self.room.run(reads, []).status, 1)

    def test_one_that_others_may_know_or_change_is_refused(self) -> None:
        self.run_it()
        for path, mode, fine in ((self.secret, 0o640, False), (self.secret, 0o604, False), (self.secret, 0o400, True),
                                 (self.folder, 0o720, False), (self.folder, 0o702, False), (self.folder, 0o755, True)):
            before = stat.S_IMODE(os.stat(path).st_mode)
            os.chmod(path, mode)
            ended = self.run_it()
            os.chmod(path, before)
            self.assertEqual(ended.status, 0 if fine else FILES, (path, oct(mode), ended))
            if not fine:
                self.assertIn("is for other users too", ended.said)
        for path in self.secret, self.folder:
            with unittest.mock.patch.object(os, "geteuid", return_value=os.geteuid() + 1):
                ended = self.run_it()
            self.assertEqual(ended.status, FILES, ended)
            self.assertIn("is for other users too", ended.said)

    def test_a_damaged_one_is_refused_with_what_to_do(self) -> None:
        self.run_it()
        for length in 31, 33, 0, None:
            if length is None:
                os.remove(self.secret)
                os.mkfifo(self.secret, 0o600)
            else:
                write(self.secret, b"x" * length)
            ended = self.run_it()
            self.assertEqual(ended.status, FILES, (length, ended))
            self.assertIn("is damaged: remove it", ended.said)
        os.remove(self.secret)
        os.symlink("elsewhere", self.secret)
        self.assertEqual(self.run_it().status, FILES)

    def test_a_state_folder_that_cannot_be_used_ends_the_run(self) -> None:
        write(os.path.join(self.room.top, "file"), b"")
        for home in os.path.join(self.room.top, "file"), "/proc/none":
            ended = self.run_it(XDG_STATE_HOME=home)
            self.assertEqual(ended.status, FILES, ended)
            self.assertIn("XDG_STATE_HOME can name a folder of yours for it", ended.said)

    def test_a_state_folder_that_is_only_read_is_enough_once_there_is_a_secret(self) -> None:
        self.run_it()

        def refuses(call: str, when: str) -> None:
            if when == "before":
                raise OSError(30, "Read-only file system")
        self.assertEqual(self.run_it(refuses).status, 0)
        self.gone()
        self.assertEqual(self.run_it(refuses).status, FILES)

    def test_which_folder_it_is(self) -> None:
        other = os.path.join(self.room.top, "other")
        os.mkdir(other)
        home, name = os.path.join(self.room.top, "home"), os.fsencode(self.room.top)
        os.mkdir(home)
        here = os.geteuid()
        cases: List[Tuple[Dict[str, str], int, bytes]] = [
            ({"XDG_STATE_HOME": other, "HOME": home}, here, name + b"/other/parv"),
            ({"XDG_STATE_HOME": "other", "HOME": home}, here, name + b"/home/.local/state/parv"),
            ({"HOME": home}, here, name + b"/home/.local/state/parv"),
            ({"HOME": home}, here + 1, name + b"/user/.local/state/parv"),
            ({"HOME": "home"}, here, name + b"/user/.local/state/parv"),
            ({"HOME": home + "/none"}, here, name + b"/user/.local/state/parv"),
            ({}, here, name + b"/user/.local/state/parv")]
        for environment, user, wanted in cases:
            with unittest.mock.patch.dict(os.environ, environment, clear=True), \
                    unittest.mock.patch.object(os, "geteuid", return_value=user), \
                    unittest.mock.patch("pwd.getpwuid") as known:
                known.return_value.pw_dir = os.path.join(self.room.top, "user")
                self.assertEqual(records_of_this_user.state_folder(), wanted, environment)
        with unittest.mock.patch.dict(os.environ, {}, clear=True), \
                unittest.mock.patch("pwd.getpwuid", side_effect=KeyError(1)):
            with self.assertRaisesRegex(Fault, "no home is known .* XDG_STATE_HOME can name a folder"):
                records_of_this_user.state_folder()


class Aside(unittest.TestCase):
    def test_any_entry_gets_an_unused_name_and_is_not_read(self) -> None:
        room = Room({"one": b"one"})
        self.addCleanup(room.close)
        folder = Folder.open(os.fsencode(room.folder))
        self.addCleanup(folder.close)
        said: List[str] = []
        makes: List[Callable[[str], None]] = [
            os.mkdir, lambda path: os.symlink("elsewhere", path), lambda path: write(path, b"file"), os.mkfifo,
            lambda path: write(os.path.join(path, "deep", "file"), b"in it")]
        for without in False, True:
            for make in makes:
                make(room.path(".x"))
                before = os.lstat(room.path(".x"))
                with unittest.mock.patch.object(changes, "_libc", object() if without else changes._libc):
                    name = records_of_this_user.set_aside(folder, b".x", b"x.kept", said.append)
                self.assertFalse(os.path.lexists(room.path(".x")))
                self.assertTrue(os.path.samestat(before, os.lstat(room.path(os.fsdecode(name)))))
        self.assertEqual(sorted(name for name in os.listdir(room.folder) if name.startswith("x")),
                         sorted(f"x.kept.{number}" for number in range(1, 11)))
        self.assertEqual(said[1], ".x isn't shown to be of a run of yours in this folder: nothing in it is followed, "
                                  "and it is now x.kept.2; if files of yours are in it, move them into the folder, "
                                  "under any names, and call the command again")


if __name__ == "__main__":
    unittest.main()
