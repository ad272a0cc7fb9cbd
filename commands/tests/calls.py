"""Calls commands as a person does: how they end, what they write, and signals while a program runs."""

from __future__ import annotations

import contextlib
import os
import shutil
import signal
import subprocess
import time
import unittest
from typing import Dict, List, Optional, Tuple

import parv_commands
from parv_commands.common.signals import SIGNALS

from .rooms import PARV, SECONDS, Room, write

ABOVE = os.path.dirname(os.path.dirname(os.path.realpath(parv_commands.__file__ or "")))
BIN = os.path.join(ABOVE, "bin")
subprocess.run([os.path.join(ABOVE, "make_bin.sh")], check=True)
Ended = Tuple[int, str, str]
MAKES: Dict[str, List[str]] = {"ext4": ["mkfs.ext4", "-q", "-F"], "xfs": ["mkfs.xfs", "-q"], "btrfs": ["mkfs.btrfs", "-q"],
                               "ntfs": ["mkfs.ntfs", "-F", "-q"], "exfat": ["mkfs.exfat"]}
MOUNTS = {"ntfs": "lowntfs-3g -o ignore_case ntfs disk", "exfat": "mount -t exfat-fuse -o loop exfat disk",
          "tmpfs": "mount -t tmpfs tmpfs disk",
          "overlay": "mkdir below && mount -t tmpfs tmpfs below && mkdir below/lower below/upper below/work && mount -t "
                     "overlay -o lowerdir=below/lower,upperdir=below/upper,workdir=below/work overlay disk"}
LENGTH = 320 << 20      # the length of an image, of which only a part is written


def _is_running(number: int) -> bool:
    """Returns whether a program runs. One that has ended may keep its number until somebody has taken its status."""
    try:
        with open(f"/proc/{number}/stat", encoding="utf-8", errors="replace") as file:
            return file.read().rpartition(") ")[2][0] not in "ZX"
    except (FileNotFoundError, ProcessLookupError):
        return False


def left_running(*numbers: int) -> List[int]:
    """Waits until none of the programs with these numbers runs, and returns those that do after ten minutes."""
    until = time.monotonic() + SECONDS
    while any(map(_is_running, numbers)) and time.monotonic() < until:
        time.sleep(0.02)
    return [number for number in numbers if _is_running(number)]


def take_all_signals() -> None:
    """Lets signals end a child, even if the tests run under nohup."""
    for number in SIGNALS:
        signal.signal(number, signal.SIG_DFL)


def slow(top: str, text: str, first: str = "") -> str:
    """Returns a program in the folder, a text for bash, that waits until progress is shown, for which terminal_text makes
    a file. It waits for ten minutes at least if none is. Before, it does what is to be done first."""
    path = os.path.join(top, "slow")
    waits = f"for _ in {{1..30000}}; do [ ! -e {top}/shown ] || break; sleep 0.02; done"
    write(path, f"#!/bin/bash\n{first}\nrm -f {top}/shown\n{waits}\n{text}\n".encode())
    os.chmod(path, 0o755)
    return path


def terminal_text(terminal: int, top: str) -> bytes:
    """Returns what comes to a terminal, up to its end, and closes it. When that shows progress, it lets a slow program of
    the folder go on."""
    text = b""
    with contextlib.suppress(OSError):
        while piece := os.read(terminal, 4096):
            text += piece
            if b"MiB" in text[-len(piece) - 2:]:
                write(os.path.join(top, "shown"), b"")
    os.close(terminal)
    return text


class Calls(unittest.TestCase):
    """Tests that call commands, in the folder above a room."""
    room: Room

    def call(self, *words: str, shell: str = 'exec "$@"', **environment: str) -> Ended:
        given = {**os.environ, **self.room.environment(), **environment}
        ended = subprocess.run(["/bin/bash", "-c", shell, "bash", *words], cwd=self.room.top, env=given,
                               capture_output=True, timeout=SECONDS, stdin=subprocess.DEVNULL)
        out, said = (text.decode("utf-8", "surrogateescape") for text in (ended.stdout, ended.stderr))
        return ended.returncode, out, said

    def mounting(self, script: str, *words: str) -> Ended:
        """Runs a script of bash that has mounts of its own, and ends with 99 if it can't make them."""
        ended = self.call("unshare", "--mount", "bash", "-c", script, "bash", *words)
        if ended[0] == 99 or ended[2].startswith("unshare: "):
            self.skipTest(f"mounting isn't allowed here: {ended[2].strip()[:200]}")
        return ended

    def disk(self, kind: str) -> str:
        """Makes a file system of a kind in a file, or in memory. Returns the command that mounts it at `disk`."""
        os.makedirs(os.path.join(self.room.top, "disk"), exist_ok=True)
        if kind not in MAKES:
            return MOUNTS[kind]
        image = os.path.join(self.room.top, kind)
        with open(image, "wb") as out:
            out.truncate(LENGTH)
        if not shutil.which(MAKES[kind][0]) or subprocess.run([*MAKES[kind], image], capture_output=True).returncode:
            self.skipTest(f"no {kind} can be made here")
        return MOUNTS.get(kind, f"mount -o loop {kind} disk")

    def program(self, name: str, text: str) -> str:
        path = os.path.join(self.room.top, name)
        write(path, text.encode())
        os.chmod(path, 0o755)
        return path

    def waits(self, name: str, command: str) -> str:
        """Writes a program that records its number and waits, if this shell command succeeds, and otherwise is parv."""
        return self.program(name, f'#!/bin/bash\n{command} || exec "{PARV}" "$@"\necho $$ > {self.room.top}/waiting\n'
                                  "exec sleep 900\n")

    def ended_while(self, words: List[str], number: signal.Signals, all_of_them: bool,
                    **environment: str) -> Tuple[int, bytes]:
        """Ends a command by a signal while such a program waits. Returns how it ends; the program must have ended
        too."""
        place = os.path.join(self.room.top, "waiting")
        given = {**os.environ, **self.room.environment(), **environment}
        process = subprocess.Popen(words, cwd=self.room.top, env=given, stdout=subprocess.PIPE,
                                   stderr=subprocess.STDOUT, start_new_session=True, preexec_fn=take_all_signals)
        child: Optional[int] = None
        until = time.monotonic() + SECONDS
        while child is None and time.monotonic() < until:
            time.sleep(0.02)
            if os.path.exists(place):
                with open(place, encoding="ascii") as file:
                    text = file.read()
                child = int(text) if text.endswith("\n") else None
        assert child is not None
        os.remove(place)
        (os.killpg if all_of_them else os.kill)(process.pid, number)
        out, _ = process.communicate(timeout=SECONDS)
        self.assertEqual(left_running(child), [], "the program goes on")
        return process.returncode, out
