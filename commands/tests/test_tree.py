"""parv-tree: what it prints about a tree, what was lost since the last time, and that its exit statuses are true."""

from __future__ import annotations

import gc
import hashlib
import json
import os
import random
import shutil
import signal
import struct
import subprocess
import sys
import tempfile
import time
import unittest
import unittest.mock
from typing import Iterator, List, Tuple

from parv_commands.common import changes, opened_folder, output_and_progress as output
from parv_commands.tree import command as tree
from parv_commands.tree.lines_and_state import HEAD
from parv_commands.watch import command as watch

from .calls import BIN, Calls, left_running, slow, take_all_signals, terminal_text
from .rooms import FULL, KILLED, PARV, At, Ended, Room, file_id, md5, packet, read, set_of, spent, write

TREE = os.path.join(BIN, "parv-tree")
ONE = {b"first.txt": b"first of all", b"second.txt": b"the second"}
TWO = {b"other \xe9\n": b"another"}


def id_of(packets: bytes) -> str:
    return packets[32:48].hex()


class TreeTest(Calls):
    """A tree with a set in each of two folders. `one` has three recovery slices."""

    def setUp(self) -> None:
        self.room = Room({})
        self.addCleanup(self.room.close)
        os.remove(self.room.path("set.par2"))
        self.one, self.two = set_of(ONE, 8, 3), set_of(TWO, 8, 0)
        self.fill()

    def fill(self) -> None:
        for each in os.listdir(self.room.folder):
            shutil.rmtree(self.room.path(each))
        for folder, files, packets in ((b"a", ONE, self.one), (b"b\xff", TWO, self.two)):
            for name, data in files.items():
                write(self.path(folder, name), data)
            write(self.path(folder, b"set.par2"), packets)

    def path(self, *parts: bytes) -> str:
        return os.fsdecode(os.path.join(os.fsencode(self.room.folder), *parts))

    def line_one(self, status: int = 0, need: int = 0, have: int = 3) -> str:
        return f"{status} {id_of(self.one)} need {need} have {have} a/set\n"

    def line_two(self, status: int = 0, need: int = 0) -> str:
        return f"{status} {id_of(self.two)} need {need} have 0 b\\xff/set\n"

    def run_watched(self, words: List[str], watch: changes.Observer) -> Ended:
        return self.room.run(tree.main, [*words, "room"], watch)

    def run_tree(self, *words: str, **environment: str) -> Ended:
        return self.room.run(tree.main, [*words, "room"], None, **environment)

    def gives(self, words: List[str], status: int, out: str, said: str = "", **environment: str) -> None:
        ended = self.run_tree(*words, **environment)
        self.assertEqual((ended.status, ended.out), (status, out), ended)
        self.assertRegex(ended.said, f"^{said}$")
        self.assertEqual(os.listdir(self.room.temporary), [])

    def program(self, name: str, text: str) -> str:
        return super().program(name, f"#!/bin/bash\n{text}\n")

    def lose_recovery(self, left: int = 1) -> None:
        write(self.path(b"a", b"set.par2"), set_of(ONE, 8, left))


class Lines(TreeTest):
    def test_a_folder_that_a_repair_has_set_aside_is_looked_through(self) -> None:
        for folder in b"parv-repair.kept.1", b".parv-repair", b".verify_and_repair":
            write(self.path(b"a", folder, b"files", b"set.par2"), self.one)
        line = f"2 {id_of(self.one)} need 4 have 3 a/parv-repair.kept.1/files/set\n"
        self.gives([], 2, line + self.line_one() + self.line_two())

    def test_a_line_for_each_set(self) -> None:
        self.gives([], 0, self.line_one() + self.line_two())
        self.gives(["-q"], 0, "")
        os.remove(self.path(b"a", b"second.txt"))
        self.gives([], 1, self.line_one(1, 2) + self.line_two())
        os.remove(self.path(b"b\xff", b"other \xe9\n"))
        self.gives(["-q", "-j2"], 2, self.line_one(1, 2) + self.line_two(2, 1))

    def test_names_that_parv_gives_to_links_are_no_names_of_files(self) -> None:
        files = {b"%d" % number: b"content %d" % number for number in range(12)}
        files.update({b"f/0": b"in a folder", b"odd\xff": b"odd", b"0.par2": b"no packets", b"f": b"no folder"})
        del files[b"f/0"]
        for name, data in files.items():
            write(self.path(b"c", name), data)
        write(self.path(b"c", b"set.par2"), set_of(files, 8, 0))
        self.assertIn("\n0 ", self.run_tree().out)
        os.rename(self.path(b"c", b"1"), self.path(b"c", b"1\xff"))
        os.rename(self.path(b"c", b"2"), self.path(b"c", b"1"))
        self.assertRegex(self.run_tree().out, "\n1 [0-9a-f]+ need 0 have 0 c/set\n")
        os.remove(self.path(b"c", b"1"))
        self.assertRegex(self.run_tree().out, "\n2 [0-9a-f]+ need 1 have 0 c/set\n")

    def test_files_of_one_content_have_to_be_at_their_own_names(self) -> None:
        files = {b"%d" % number: b"the same" for number in range(4)}
        for name, data in files.items():
            write(self.path(b"c", name), data)
        write(self.path(b"c", b"set.par2"), set_of(files, 8, 0))
        self.assertRegex(self.run_tree().out, "\n0 [0-9a-f]+ need 0 have 0 c/set\n")
        write(self.path(b"c", b"3"), b"otherwise")
        self.assertRegex(self.run_tree().out, "\n1 [0-9a-f]+ need 0 have 0 c/set\n")

    def test_json_has_the_same_in_ascii(self) -> None:
        os.remove(self.path(b"b\xff", b"other \xe9\n"))
        write(self.path(b"", b"\xfe\\.par2"), b"no packet")
        ended = self.run_tree("--json")
        self.assertEqual(ended.status, 4, ended)
        found = [json.loads(line) for line in ended.out.splitlines()]
        self.assertTrue(ended.out.isascii())
        no_main = "no usable set: no main"
        self.assertEqual(found, [
            {"status": 0, "result": "complete", "set": id_of(self.one), "need": 0, "have": 3, "folder": "a",
             "name": "set", "reason": None},
            {"status": 2, "result": "impossible", "set": id_of(self.two), "need": 1, "have": 0, "folder": "b\\xff",
             "name": "set", "reason": None},
            {"status": 4, "result": None, "set": None, "need": None, "have": None, "folder": ".",
             "name": "\\xfe\\\\", "reason": no_main}])
        self.assertEqual(ended.said, f"command: \\xfe\\\\: {no_main}\n".replace("command", "parv-tree"))
        self.assertEqual(len(self.run_tree("--json", "-q").out.splitlines()), 2)

    def test_as_many_sets_at_once_as_were_asked_for(self) -> None:
        log = os.path.join(self.room.top, "log")
        # Each program waits until as many have begun.
        counts = self.program("counts", f'echo + >> {log}; until [ "$(grep -c + {log})" -ge $SIDES ]; do sleep 0.02; done; '
                                        f'"{PARV}" "$@"; s=$?; sleep 0.05; echo - >> {log}; exit $s')
        for number in range(8):
            shutil.copytree(self.path(b"a"), self.path(b"c%d" % number))
        lines = self.run_tree().out
        for sides in 1, 3:
            write(log, b"")
            self.assertEqual(self.run_tree("-j", str(sides), PARV=counts, SIDES=str(sides)).out, lines)
            now = most = 0
            for sign in read(log).decode().split():
                now += 1 if sign == "+" else -1
                most = max(most, now)
            self.assertEqual(most, sides)
            self.assertEqual(read(log).count(b"+"), 30)     # three for each set: packets, set, verify

    def test_fewer_sets_at_once_if_few_files_may_be_open(self) -> None:
        for number in range(30):
            shutil.copytree(self.path(b"a"), self.path(b"c%02d" % number))
        status, out, said = self.call(shell=f"ulimit -n 64; exec {TREE} -j 9999 room")
        self.assertEqual((status, out.count("\n"), said), (0, 32, ""), out)

    def test_more_names_than_a_command_line_has_room_for(self) -> None:
        names = [b"n" * 200 + b"%06d" % number for number in range(12_000)]
        for name in names:
            write(self.path(b"a", name), b"")
        started = self.program("starts", f'echo >> {self.room.top}/starts.log; exec "{PARV}" "$@"')
        os.rename(self.path(b"a", b"first.txt"), self.path(b"a", b"z"))
        with tempfile.TemporaryDirectory(dir="/dev/shm" if os.path.isdir("/dev/shm") else None) as temporary:
            ended = self.run_tree(PARV=started, TMPDIR=temporary)
            self.assertEqual(os.listdir(temporary), [])
        self.assertEqual((ended.status, ended.out, ended.said), (1, self.line_one(1) + self.line_two(), ""))
        self.assertEqual(os.path.getsize(os.path.join(self.room.top, "starts.log")), 6)

    def test_more_files_than_may_be_open(self) -> None:
        for number in range(300):
            write(self.path(b"a", b"0%03d" % number), b"%d" % number)
        ended = self.call(shell=f"ulimit -n 200; exec {TREE} room")
        self.assertEqual(ended, (0, self.line_one() + self.line_two(),
                                 "parv-tree: a/set: 135 of 302 files aren't looked at: parv takes 167 here\n"
                                 "parv-tree: a/set: not looked at: 0265 (parv takes 167 files), 0266 (parv takes 167 "
                                 "files), 0267 (parv takes 167 files) and 132 more\n"))

    def test_a_hundred_ways_to_thousands_of_names_are_looked_at_once(self) -> None:
        deep = b"/".join([b"d"] * 300)
        files = {deep + b"/%d" % number: b"" for number in range(1000)}
        os.makedirs(self.path(b"a", deep))
        write(self.path(b"a", b"set.par2"), set_of(files, 8, 0))
        before = spent()
        self.assertEqual(self.run_tree().status, 1)
        self.assertLess(spent() - before, 60)


class WithoutSets(TreeTest):
    """Packets that are no set. If parv-tree says so without parv, it says what parv would say."""

    def calls(self, name: bytes, packets: bytes) -> Tuple[Ended, List[str]]:
        log = os.path.join(self.room.top, "log")
        write(log, b"")
        write(self.path(b"a", name), packets)
        ended = self.run_tree(PARV=self.program("notes", f'echo "$1" >> {log}; exec "{PARV}" "$@"'))
        return ended, read(log).decode().split()

    def test_nothing_is_looked_for_in_too_many_folders(self) -> None:
        for count, status in (200, 0), (201, 1):
            name = b"d/" * count + b"name"
            write(self.path(b"a", name), b"deep down")
            write(self.path(b"a", b"set.par2"), set_of({name: b"deep down"}, 8, 3))
            ended = self.run_tree()
            self.assertEqual((ended.status, ended.out[0]), (status, str(status)), ended)
            watched = self.room.run(watch.main, ["room/a", "0", "1"])
            self.assertEqual((watched.status, watched.said), (status, ""), watched)
            said = f"parv-tree: a/set: the name {name.decode()} is refused: its name has too many folders\n"
            self.assertEqual(ended.said, said * status)

    def test_the_way_to_a_deep_folder_is_not_gone_from_its_beginning(self) -> None:
        for branch in b"deep", b"deeper":
            os.mkdir(self.path(branch))
            place = os.open(self.path(branch), os.O_RDONLY)
            for _ in range(300):
                os.mkdir("d", dir_fd=place)
                inner = os.open("d", os.O_RDONLY, dir_fd=place)
                os.close(place)
                place = inner
            os.close(os.open("x.par2", os.O_CREAT | os.O_WRONLY, dir_fd=place))
            os.close(place)
        top = opened_folder.Folder.open(os.fsencode(self.room.folder))
        self.addCleanup(top.close)
        gc.collect()        # (so that no file of an earlier test is closed meanwhile)
        opened = len(os.listdir("/proc/self/fd"))
        unread: List[Tuple[bytes, str]] = []
        with unittest.mock.patch.object(opened_folder, "_inner", wraps=opened_folder._inner) as inners:
            found = set(tree._walk(top, unread))
        self.assertEqual(unread, [])
        self.assertTrue({branch + b"/d" * 300 + b"/x.par2" for branch in (b"deep", b"deeper")} < found)
        self.assertLess(inners.call_count, 600 * 40)
        self.assertEqual(len(os.listdir("/proc/self/fd")), opened)

    def test_thousands_of_main_packets_are_listed_once(self) -> None:
        packets = b""
        for number in range(3000):
            main = struct.pack("<QI", 4, 1) + md5(b"%d" % number)
            packets += packet(md5(main), b"PAR 2.0\0Main", main)
        before = spent()
        ended, calls = self.calls(b"mains.par2", packets)
        self.assertLess(spent() - before, 40)
        self.assertEqual(calls, ["packets", "set", "verify"] + ["packets", "set", "verify"])
        self.assertEqual((ended.status, ended.out.count("\n4 "), ended.said.count("no description of")),
                         (4, 2999, 3000), ended.out[:300])

    def test_what_is_told_without_parv_is_what_parv_says(self) -> None:
        chance = random.Random(75)
        shutil.rmtree(self.path(b"b\xff"))
        asked = 0
        for _ in range(60):
            packets = b""
            for number in range(6):
                packets += self.odd_packets(chance, b"%d" % number)
            ended, calls = self.calls(b"set.par2", packets)
            asked += calls.count("set")
            self.assertEqual(ended.out.count("\n"), 6)
            lines = [line.split(": ", 2)[2] for line in ended.said.splitlines()]
            wanted: List[str] = []
            for line in ended.out.splitlines():
                ran = subprocess.run([PARV, "set", "--set", line.split()[1], self.path(b"a", b"set.par2")],
                                     capture_output=True)
                self.assertEqual(line[0] == "4", ran.returncode == 4, (line, ran))
                wanted += [ran.stderr.decode()[6:-1]] if ran.returncode else []
            self.assertEqual(lines, wanted)
        self.assertGreater(asked, 60)

    def odd_packets(self, chance: random.Random, data: bytes) -> bytes:
        """Returns a set in which, mostly, something is wrong."""
        own = file_id(b"name", data)
        ids = [own, *(md5(data + b"%d" % number) for number in range(chance.randrange(3)))]
        count = chance.choice([0, 1, len(ids), len(ids) + 1])
        size = chance.choice([4, 4, 4, 0, 6, 1 << 28, (1 << 28) + 4])
        main = struct.pack("<QI", size, count) + b"".join(ids) + chance.choice([b"", b"", b"", b"more", ids[0]])
        owner = chance.choice([md5(main), md5(main), md5(main), md5(data + b"x")])
        about = own + md5(data) * 2 + struct.pack("<Q", len(data)) + chance.choice([b"name", b"name", b"na\0e", b""])
        packets = [packet(owner, b"PAR 2.0\0Main", main)] * chance.choice([0, 1, 1, 1, 2])
        packets += [packet(owner, b"PAR 2.0\0FileDesc", about)] * chance.choice([0, 0, 1])
        packets += [packet(owner, b"PAR 2.0\0Creator", b"test")] * (not packets)
        return b"".join(packets)


class States(TreeTest):
    """The state that is kept from one run to the next."""

    def setUp(self) -> None:
        super().setUp()
        self.state = os.path.join(self.room.top, "state")
        self.words = ["-q", "--state", "state"]
        self.gives(self.words, 0, "", "parv-tree: state is new: this run has nothing to compare with\n")

    def gone(self, packets: bytes, name: str) -> str:
        return f"gone {id_of(packets)} {name}\n"

    def fewer(self, now: int = 1, before: int = 3) -> str:
        return f"fewer {id_of(self.one)} have {now} was {before} a/set\n"

    def test_the_state_is_a_list_of_lines(self) -> None:
        text = f"parv-tree state 1\nfolder {self.room.folder}\n{self.line_one()}{self.line_two()}"
        self.assertEqual(read(self.state).decode(), f"{text}md5 {hashlib.md5(text.encode()).hexdigest()}\n")

    def test_each_loss_is_told_once(self) -> None:
        self.lose_recovery()
        self.gives(self.words, 5, self.fewer())
        self.gives(self.words, 0, "")
        os.remove(self.path(b"a", b"first.txt"))
        self.gives(self.words, 5, self.line_one(2, 2, 1) + f"worse {id_of(self.one)} status 2 was 0 a/set\n")
        self.gives(self.words, 2, self.line_one(2, 2, 1))
        os.remove(self.path(b"b\xff", b"set.par2"))
        self.gives(self.words, 5, self.line_one(2, 2, 1) + self.gone(self.two, "b\\xff/set"))
        self.gives(self.words, 2, self.line_one(2, 2, 1))
        shutil.rmtree(self.path(b"b\xff"))
        self.gives(self.words, 2, self.line_one(2, 2, 1))

    def test_a_tree_without_any_set_may_not_be_mounted_and_its_state_stays(self) -> None:
        os.rename(self.room.folder, self.room.folder + ".away")
        os.mkdir(self.room.folder)
        for _ in range(2):
            self.gives(self.words, 5, self.gone(self.one, "a/set") + self.gone(self.two, "b\\xff/set"),
                       "parv-tree: room: no packet file\n")
        os.rmdir(self.room.folder)
        os.rename(self.room.folder + ".away", self.room.folder)
        self.lose_recovery()
        self.gives(self.words, 5, self.fewer())
        os.remove(self.state)
        os.rename(self.room.folder, self.room.folder + ".away")
        os.mkdir(self.room.folder)
        self.gives(self.words, 3, "", "parv-tree: room: no packet file\n")
        self.assertFalse(os.path.exists(self.state))

    def test_more_is_no_loss(self) -> None:
        self.lose_recovery(5)
        self.gives(self.words, 0, "")
        self.lose_recovery(3)
        self.gives(self.words, 5, self.fewer(3, 5))
        os.remove(self.path(b"a", b"first.txt"))
        self.assertEqual(self.run_tree(*self.words).status, 5)
        write(self.path(b"a", b"first.txt"), ONE[b"first.txt"])
        self.gives(self.words, 0, "")

    def test_a_set_of_which_only_packets_are_left_keeps_its_count(self) -> None:
        whole = self.one
        write(self.path(b"a", b"set.par2"), whole[len(packet(b"0" * 16, b"", whole[64:92])):])
        ended = self.run_tree(*self.words)
        self.assertEqual((ended.status, ended.out), (5, f"4 {id_of(whole)} need - have - a/set\n"
                                                        f"worse {id_of(whole)} status 4 was 0 a/set\n"), ended)
        self.lose_recovery()
        self.gives(self.words, 5, self.fewer())

    def test_json_has_what_was_lost(self) -> None:
        self.lose_recovery()
        os.remove(self.path(b"a", b"first.txt"))
        os.remove(self.path(b"b\xff", b"set.par2"))
        ended = self.run_tree("--json", *self.words)
        self.assertEqual(ended.status, 5)
        first, second = map(json.loads, ended.out.splitlines())
        self.assertEqual((first["status"], first["lost"], first["before"]),
                         (2, ["fewer", "worse"], {"status": 0, "need": 0, "have": 3}))
        self.assertEqual((second["status"], second["set"], second["folder"], second["lost"], second["before"]),
                         (None, id_of(self.two), "b\\xff", ["gone"], {"status": 0, "need": 0, "have": 0}))
        again = [json.loads(line) for line in self.run_tree("--json", "--state", "state").out.splitlines()]
        self.assertEqual([(each["lost"], each["before"]["have"]) for each in again], [([], 1)])

    # Sets that could not be read aren't lost.

    def test_a_set_that_could_not_be_read_is_compared_later(self) -> None:
        self.lose_recovery()
        for command in "packets", "set", "verify":
            fails = self.program("fails", f'[ "$1" = {command} ] || exec "{PARV}" "$@"\n'
                                          'echo "parv: read fault in f/set.par2" >&2; exit 6')
            ended = self.run_tree(*self.words, PARV=fails)
            self.assertEqual((ended.status, ended.out.count("\n"), ended.out.count("\n6 ")), (6, 2, 1), ended)
        self.gives(self.words, 5, self.fewer())

    def test_sets_below_a_folder_that_could_not_be_read_are_not_gone(self) -> None:
        scandir = os.scandir
        refused = os.stat(self.path(b"a")).st_ino

        def refuses(place: int) -> Iterator[os.DirEntry[str]]:
            if os.fstat(place).st_ino == refused:
                raise PermissionError(13, "Permission denied")
            return scandir(place)
        with unittest.mock.patch.object(os, "scandir", refuses):
            self.gives(self.words, 6, "", "parv-tree: room: cannot read a: Permission denied\n")
        self.gives(self.words, 0, "")
        shutil.rmtree(self.path(b"a"))
        self.gives(self.words, 5, self.gone(self.one, "a/set"))

    def test_what_was_not_told_is_told_again(self) -> None:
        self.lose_recovery()
        before = read(self.state)
        for shell in 'exec "$@" > /dev/full', 'exec "$@" >&-', 'exec "$@" | true; exit ${PIPESTATUS[0]}':
            status, _, said = self.call(TREE, *self.words, "room", shell=shell)
            if "true" not in shell:     # (that run may have replaced it, or not)
                self.assertEqual((status, read(self.state)), (6, before), said)
                self.assertIn("cannot write standard output", said)
        write(self.state, before)
        self.gives(self.words, 5, self.fewer())

    # The file.

    def test_a_full_disk_or_an_end_by_force_leaves_one_of_the_states(self) -> None:
        before = read(self.state)
        self.lose_recovery()
        kinds = ("create", "fchmod", "write", "fsync", "rename", "unlink")
        calls = [call for call in self.run_tree(*self.words).calls if call in kinds]
        after = read(self.state)
        self.assertNotEqual(before, after)
        own = ["create", "fchmod", "write", "fsync", "rename", "fsync"]
        self.assertEqual([call for call in calls if call != "unlink"], own)
        for kind, number in [(kind, 1 + own[:at].count(kind)) for at, kind in enumerate(own)]:
            for does, when in ((FULL, "before"), (KILLED, "before"), (KILLED, "after")):
                write(self.state, before)
                ended = self.run_watched(self.words, At(number, when, does, [kind]))
                self.assertEqual(ended.status, 6 if does is FULL else 128 + signal.SIGKILL, (kind, number, when))
                self.assertIn(read(self.state), (before, after), (kind, number, when))
                here = [name for name in os.listdir(self.room.top) if name.startswith("state")]
                if does is FULL:
                    self.assertEqual(ended.out, self.fewer())
                    self.assertRegex(ended.said, "^parv-tree: cannot write state: No space left on device\n$")
                    self.assertEqual(here, ["state"])
                    self.assertEqual(read(self.state) == after, (kind, number) == ("fsync", 2))
                for name in here[:]:
                    if name != "state":
                        os.remove(os.path.join(self.room.top, name))
                for name in os.listdir(self.room.temporary):
                    shutil.rmtree(os.path.join(self.room.temporary, name))
                if read(self.state) == before:
                    self.gives(self.words, 5, self.fewer())

    def test_what_is_no_state_of_the_tree_is_refused_and_stays(self) -> None:
        text = read(self.state)
        odd: List[Tuple[bytes, str]] = [(text[:end], "is (damaged|no state of parv-tree)") for end in range(len(text))]
        for at in range(len(text)):
            odd.append((text[:at] + bytes([text[at] ^ 1]) + text[at + 1:],
                        "is (damaged|no state of parv-tree|the state of another version)"))
        odd += [(b"\xff" * 99, "is no state"), (text + b"\n", "is damaged"), (b"", "is no state"),
                (HEAD + b"2\n", "is the state of another version"),
                (text.replace(b"state 1", b"state 12"), "is the state of another version")]
        start, line = text.split(b"\n")[:2], text.split(b"\n")[2]
        lines = [line + b"\xff", line + b"\x1b", b"9" * 5000 + line[1:], b"10" + line[1:],
                 line.replace(b"need 0", b"need " + b"9" * 5000), line.replace(b"need 0", b"need " + b"9" * 30)]
        for each in lines:
            self.assertNotEqual(each, line)
            made = b"\n".join([*start, each, b""])
            odd.append((made + b"md5 " + md5(made).hex().encode() + b"\n", "is damaged"))
        other = os.path.join(self.room.top, "other")
        os.mkdir(other)
        write(os.path.join(other, "set.par2"), self.one)
        self.room.run(tree.main, ["--state", "of other", "other"])
        odd.append((read(os.path.join(self.room.top, "of other")), f"is the state of {other}"))
        with unittest.mock.patch.object(tree.Tree, "run", lambda self: 0):      # (which isn't called)
            for data, said in odd:
                write(self.state, data)
                ended = self.run_tree(*self.words)
                self.assertEqual((ended.status, ended.out, read(self.state)), (3, "", data), (data, ended))
                self.assertRegex(ended.said, f"^parv-tree: state {said}.*, and stays as it is: .*\n$")
        os.remove(self.state)
        said = "parv-tree: state is no regular file, and stays as it is: name another file\n"
        os.mkdir(self.state)
        self.gives(self.words, 3, "", said)
        os.rmdir(self.state)
        os.mkfifo(self.state)
        self.gives(self.words, 3, "", said)
        os.remove(self.state)
        self.gives(["--state", "none/state"], 6, "", "parv-tree: cannot open .*/none: No such file or directory\n")

    def test_a_state_that_another_run_has_written_stays(self) -> None:
        self.lose_recovery()
        other = b"somebody else's"

        def writes() -> None:
            write(self.state, other)
        for number in 1, 2:
            ended = self.run_watched(self.words, At(1, "before", writes, ["fsync"]))
            told = self.fewer() if number == 1 else ""
            self.assertEqual((ended.status, ended.out, read(self.state)), (6, told, other))
            self.assertRegex(ended.said, "state has changed meanwhile, and stays as it is: is another run at work")
            os.remove(self.state)

    def test_a_link_to_a_state_stays_one_and_so_does_its_mode(self) -> None:
        kept = os.path.join(self.room.top, "kept")
        os.mkdir(kept)
        os.rename(self.state, os.path.join(kept, "real"))
        os.chmod(os.path.join(kept, "real"), 0o640)
        os.symlink("kept/real", self.state)
        self.lose_recovery()
        self.gives(self.words, 5, self.fewer())
        self.gives(self.words, 0, "")
        self.assertTrue(os.path.islink(self.state))
        self.assertEqual(os.stat(self.state).st_mode & 0o777, 0o640)
        self.assertEqual(os.listdir(kept), ["real"])


class Statuses(TreeTest):
    """Whatever fails, the status is 0 only if each set is complete."""

    def call(self, *words: str, shell: str = 'exec "$@"', **environment: str) -> Tuple[int, str, str]:
        ended = super().call(*words, shell=shell, **environment)
        self.assertEqual(os.listdir(self.room.temporary), [])
        return ended

    def test_a_program_that_is_not_parv(self) -> None:
        os.remove(self.path(b"a", b"second.txt"))
        texts = ['echo "set of spoons"', r"printf '\377\0\n'", "exit 5", "exit 2", "kill -SEGV $$", "exec yes no",
                 "exec cat /dev/zero", f'"{PARV}" "$@" | head -n 1', f'"{PARV}" "$@" | head -c 40',
                 f'[ "$1" = packets ] || exec "{PARV}" "$@"; echo "packets 3"',
                 f'[ "$1" = verify ] || exec "{PARV}" "$@"; exit 1',
                 f'[ "$1" = verify ] || exec "{PARV}" "$@"; "{PARV}" "$@" | sed "s/^complete/renamed/; s/ from .*//; '
                 's/^renamed.*/& from elsewhere/"; exit 1']
        programs = ["/bin/true", "/bin/false", "/bin/echo", *(
            self.program(f"odd{number}", text) for number, text in enumerate(texts))]
        for program in programs:
            for words in ["-q"], ["-j2"]:
                ended = self.run_tree(*words, PARV=program)
                self.assertEqual((ended.status, [line[0] for line in ended.out.splitlines()]), (6, ["6", "6"]), ended)
                self.assertRegex(ended.said, "^parv-tree: a/set: .*(PARV|isn't parv|ended by signal|has ended)")
                self.assertNotIn("Traceback", ended.said)

    def test_a_list_of_packets_with_more_behind_it(self) -> None:
        os.remove(self.path(b"a", b"second.txt"))
        more = self.program("more", f'[ "$1" = packets ] || exec "{PARV}" "$@"; "{PARV}" "$@"; echo more')
        status, out, said = self.call(TREE, "-q", "room", PARV=more)
        why = "set.par2: what parv packets has written is no answer of it: is PARV another program?\n"
        self.assertEqual((status, out, said), (6, self.line_one(1, 2), f"parv-tree: a/{why}parv-tree: b\\xff/{why}"))

    def test_closed_and_full_outputs(self) -> None:
        for shell in 'exec "$@" > /dev/full', 'exec "$@" >&-':
            self.assertEqual(self.call(TREE, "--json", "room", shell=shell)[0], 6)
        for shell in 'exec "$@" 2>&-', 'exec "$@" 2> /dev/full':
            self.assertEqual(self.call(TREE, "none", shell=shell)[0], 6)

    def test_a_temporary_folder_that_is_not_there_or_may_not_grow(self) -> None:
        os.remove(self.path(b"a", b"second.txt"))
        self.assertEqual(self.call(TREE, "-q", "room", TMPDIR=os.path.join(self.room.top, "none"))[:2], (6, ""))
        script = ('mount -t tmpfs -o size=4k,nr_inodes=%d tmpfs "$TMPDIR" || exit 99; '
                  'head -c 9999 /dev/zero 2> /dev/null > "$TMPDIR/full"; exec "$@"')
        told = 0
        for inodes in range(1, 9):
            for sides in "1", "3":
                status, out, said = self.mounting(script % inodes, TREE, "-q", "-j", sides, "room")
                self.assertIn(status, (1, 6), (inodes, said))
                if status == 1:
                    told += 1
                    self.assertEqual((out, said), (self.line_one(1, 2), ""))
                else:
                    self.assertRegex(said, "cannot make a (link|temporary folder) in .*: No space left")
        self.assertGreater(told, 1)

    def test_signals_end_all_programs_and_leave_nothing(self) -> None:
        waiting = os.path.join(self.room.top, "waiting")
        shutil.copytree(self.path(b"a"), self.path(b"c"))
        os.mkdir(waiting)
        cases: List[Tuple[str, List[str], int]] = [("packets", ["-j3"], 3), ("verify", ["-j3"], 3), ("verify", [], 1)]
        for command, words, count in cases:
            program = self.program("waits", f'[ "$1" = {command} ] || exec "{PARV}" "$@"\n'
                                            f"touch {waiting}/$$\nexec sleep 900")
            for number in signal.SIGINT, signal.SIGTERM, signal.SIGHUP, signal.SIGKILL:
                for all_of_them in False, True:
                    given = {**os.environ, "PARV": program, "TMPDIR": self.room.temporary}
                    ran = subprocess.Popen(
                        [TREE, *words, "room"], cwd=self.room.top, env=given, stdout=subprocess.PIPE,
                        stderr=subprocess.STDOUT, start_new_session=True, preexec_fn=take_all_signals)
                    until = time.monotonic() + 600
                    while len(os.listdir(waiting)) < count and time.monotonic() < until:
                        time.sleep(0.02)
                    started = os.listdir(waiting)
                    (os.killpg if all_of_them else os.kill)(ran.pid, number)
                    out, _ = ran.communicate(timeout=600)
                    ended = -number if number == signal.SIGKILL else 128 + number
                    self.assertEqual((ran.returncode, out, len(started)), (ended, b"", count))
                    self.assertEqual(left_running(*map(int, started)), [])
                    for each in started:
                        os.remove(os.path.join(waiting, each))
                    if number == signal.SIGKILL:
                        for name in os.listdir(self.room.temporary):
                            shutil.rmtree(os.path.join(self.room.temporary, name))
                    self.assertEqual(os.listdir(self.room.temporary), [])

    def test_a_shell_runs_it_too(self) -> None:
        self.assertEqual(self.call("sh", TREE, "room"), (0, self.line_one() + self.line_two(), ""))

    def test_an_odd_option_is_shown_as_parv_shows_names(self) -> None:
        self.assertEqual(self.call(TREE, "--\x1b[31m", "room")[2].splitlines()[0],
                         "parv-tree: unrecognized arguments: --\\x1b[31m")

    def test_a_message_names_the_file_and_not_its_link(self) -> None:
        says = self.program("says", f'[ "$1" = verify ] || exec "{PARV}" "$@"\n'
                                    'for word; do last=$word; done; echo "parv: cannot open $last" >&2; exit 6')
        said = self.call(TREE, "room", PARV=says)[2]
        self.assertEqual(said, "parv-tree: a/set: cannot open second.txt\n"
                               "parv-tree: b\\xff/set: cannot open other \\xe9\\x0a\n")

    def test_progress_on_a_terminal(self) -> None:
        import pty
        waits = slow(self.room.top, f'exec "{PARV}" "$@"')
        child, terminal = pty.fork()
        if not child:
            status = 99
            try:
                os.chdir(self.room.top)
                os.environ.update(PARV=waits, TMPDIR=self.room.temporary)
                output.PROGRESS_FROM, output.PROGRESS_EACH = 0.1, 0.05
                sys.argv = ["command", "room"]
                status = tree.main()
            finally:
                os._exit(status)
        text = terminal_text(terminal, self.room.top)
        self.assertEqual(os.waitpid(child, 0)[1], 0)
        self.assertRegex(text.decode(), "\r\x1b\\[Ksets are verified: [0-9]+ MiB")
        for line in self.line_one(), self.line_two():
            self.assertIn(f"\r\x1b[K{line[:-1]}\r\n", text.decode())


if __name__ == "__main__":
    unittest.main()
