"""The crates of the repository, copies of them, and the processes that check them."""

import contextlib
import os
import shutil

TOP = os.path.dirname(os.path.dirname(os.path.realpath(__file__)))
PARTS = ("src", "specs", "proofs")
TICKS = os.sysconf("SC_CLK_TCK")


def read(path):
    with open(path, encoding="utf-8", errors="replace") as file:
        return file.read()


def libraries():
    """Returns the crates of the repository that each of them stands on, from crates.txt."""
    rows = [line.split("#")[0].partition(":") for line in read(os.path.join(TOP, "crates.txt")).splitlines()]
    names = {name.split()[0]: words.split() for name, colon, words in rows if colon}
    return {name: [word for word in words if word in names] for name, words in names.items()}


def below(crate, of):
    return {crate}.union(*(below(name, of) for name in of[crate]))


def linked(folder, to):
    """Copies a folder: what was proved by links, since a check replaces such a file and never writes into it."""
    def put(one, other):
        if one.endswith(".oantt"):
            # A link can't lead to another file system.
            with contextlib.suppress(OSError):
                return os.link(one, other)
        return shutil.copy2(one, other)
    shutil.copytree(folder, to, copy_function=put)


def copied(top, parts, at):
    """Makes a repository of these crates, with these folders of each, from another one."""
    for crate, folders in parts.items():
        for part in folders:
            if os.path.isdir(os.path.join(top, "crates", crate, part)):
                linked(os.path.join(top, "crates", crate, part), os.path.join(at, "crates", crate, part))
    shutil.copy2(os.path.join(top, "HANDLES"), at)
    os.mkdir(os.path.join(at, ".git"))
    with open(os.path.join(at, "crates.txt"), "w", encoding="utf-8") as file:
        file.writelines(line for line in read(os.path.join(top, "crates.txt")).splitlines(True)
                        if line.split(":")[0].partition(" ")[0] in parts)


def processes():
    """Returns the parent, the name and the seconds of a processor of each process."""
    found = {}
    for pid in filter(str.isdigit, os.listdir("/proc")):
        try:
            name, _, rest = read(f"/proc/{pid}/stat").partition(" (")[2].rpartition(") ")
        except OSError:
            continue
        fields = rest.split()
        found[int(pid)] = int(fields[1]), name, sum(map(int, fields[11:15])) / TICKS
    return found


def is_under(top, pid, all_of):
    """Returns whether a process is this one or one below it."""
    while pid in all_of and pid != top:
        pid = all_of[pid][0]
    return pid == top


def lasting(seconds):
    return f"{seconds:.0f} s" if seconds < 100 else f"{seconds / 60:.1f} min"
