"""Runs the built program many times a second, for hostile.py, fuzz.py and hostile_cost.py.

PARV is the program (crates/parv/out/parv). A run that takes ten minutes on the clock is stopped, or as many seconds as the script says.
"""

import os
import signal
import struct
import subprocess
import tempfile
from typing import NamedTuple

HERE = os.path.dirname(os.path.abspath(__file__))
TOOLS = os.path.dirname(HERE)
TOP = os.path.dirname(TOOLS)
PARV = os.path.abspath(os.environ.get("PARV") or os.path.join(TOP, "crates/parv/out/parv"))
WHERE = "/dev/shm" if os.access("/dev/shm", os.W_OK) else None


class Run(NamedTuple):
    """How a run ended (below 0: by that signal), its output, its peak in KiB, its seconds, and whether it was
    stopped."""
    status: int
    out: bytes
    err: bytes
    memory: int
    seconds: float
    hung: bool


class Runner:
    """A folder in memory in which programs run one after the other, and the small program that starts them."""

    def __init__(self, seconds=600):
        self.held = tempfile.TemporaryDirectory(dir=WHERE)
        self.folder = os.path.join(self.held.name, "run")
        os.mkdir(self.folder)
        program = os.path.join(self.held.name, "runner")
        subprocess.run(["gcc", "-O1", "-o", program, os.path.join(HERE, "runner.c")], check=True)
        self.process = subprocess.Popen([program, str(seconds)], cwd=self.folder, bufsize=0,
                                        stdin=subprocess.PIPE, stdout=subprocess.PIPE)

    def run(self, words):
        """Runs these words, which are bytes or text. The first is a program."""
        text = b"".join(os.fsencode(word) + b"\0" for word in words)
        self.process.stdin.write(struct.pack("<Q", len(text)) + text)
        status, memory, micros, hung = struct.unpack("<4q", self.process.stdout.read(32))
        read = [open(os.path.join(self.folder, name), "rb").read() for name in ("out", "err")]
        return Run(os.waitstatus_to_exitcode(status), *read, memory, micros / 1e6, hung == 1)

    def parv(self, words):
        return self.run([PARV, *words])

    def write(self, name, data):
        with open(os.path.join(os.fsencode(self.folder), os.fsencode(name)), "wb") as out:
            out.write(data)

    def clear(self):
        """Removes the files of the case before."""
        with os.scandir(os.fsencode(self.folder)) as entries:
            for entry in entries:
                os.remove(entry.path)

    def close(self):
        self.process.stdin.close()
        self.process.wait()
        self.held.cleanup()


def as_text(run):
    """Returns a line about how a run ended."""
    if run.hung:
        return "it hung"
    name = f"status {run.status}" if run.status >= 0 else signal.Signals(-run.status).name
    return f"{name}, {run.out[:300]!r}, {run.err[:300]!r}"
