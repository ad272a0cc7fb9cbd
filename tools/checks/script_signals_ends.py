"""For script_signals.sh, which protects you from programs and files that stay after Ctrl-C: starts a command in a
session of its own, and sends it a signal once READERS programs of it have read a MiB each. Prints its exit status, how
many programs of the session go on, and how many files stay in TMPDIR.

usage: script_signals_ends.py HOW SIGNAL READERS COMMAND..

HOW is `alone` (the signal goes to the command only), `all` (it goes to the whole session, as by Ctrl-C), or `ignored`
(the command starts with the signal ignored, as by nohup; then they must read another MiB after the signal).
"""
import contextlib
import os
import signal
import subprocess
import sys
import time

how, name, readers, *command = sys.argv[1:]
number = getattr(signal, name)
kept = os.environ["TMPDIR"]


def as_begun():
    for each in signal.SIGINT, signal.SIGTERM, signal.SIGHUP:
        signal.signal(each, signal.SIG_DFL)
    if how == "ignored":
        signal.signal(number, signal.SIG_IGN)


def running(session):
    """Returns the programs of a session that haven't ended, as pairs of number and arguments."""
    found = []
    for pid in filter(str.isdigit, os.listdir("/proc")):
        try:
            with open(f"/proc/{pid}/stat") as file:
                fields = file.read().rsplit(") ", 1)[1].split()
            with open(f"/proc/{pid}/cmdline", "rb") as file:
                words = file.read().split(b"\0")
        except OSError:
            continue
        if int(fields[3]) == session and fields[0] != "Z":
            found.append((int(pid), words))
    return found


def read_by(session):
    """Returns how many bytes each running parv of a session has read, by its number."""
    found = {}
    for pid, words in running(session):
        if words[:1] == [os.fsencode(os.environ["PARV"])]:
            with contextlib.suppress(OSError), open(f"/proc/{pid}/io") as file:
                found[pid] = int(file.read().split()[1])
    return found


def wait_for(holds):
    """Waits until this holds, and returns whether it did at last. (Ten minutes are for a busy machine.)"""
    for _ in range(12000):
        if holds():
            return True
        time.sleep(0.05)
    return False


def have_read(before, count):
    """Returns whether this many programs have read a MiB more than before, or the command has ended."""
    now = read_by(ran.pid)
    return ran.poll() is not None or sum(now[pid] >= before.get(pid, 0) + (1 << 20) for pid in now) >= count


ran = subprocess.Popen(command, start_new_session=True, preexec_fn=as_begun, stdout=subprocess.DEVNULL,
                       stderr=subprocess.PIPE, stdin=subprocess.DEVNULL)
begun = wait_for(lambda: have_read({}, int(readers)))
before = read_by(ran.pid)
(os.kill if how == "alone" else os.killpg)(ran.pid, number)
if how == "ignored":
    goes_on = wait_for(lambda: have_read(before, int(readers))) and ran.poll() is None
    print("begun" if begun else "not begun", "and goes on" if goes_on else "and has ended")
    os.killpg(ran.pid, signal.SIGKILL)
    ran.wait()
    sys.exit()
said = b"doesn't end"
with contextlib.suppress(subprocess.TimeoutExpired):
    said = ran.communicate(timeout=600)[1]
wait_for(lambda: not running(ran.pid))
left = running(ran.pid)
print("begun" if begun else "not begun", ran.poll(), "left", len(left), "kept", len(os.listdir(kept)),
      "said", len(said.splitlines()))
for line in said.decode(errors="replace").splitlines():
    print(line, file=sys.stderr)
for pid, words in left:
    print(*words[:3], file=sys.stderr)
    os.kill(pid, signal.SIGKILL)
