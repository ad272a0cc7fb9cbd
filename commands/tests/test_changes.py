"""Each call that changes a disk goes through the module `changes`, which the other tests use to count these calls."""

from __future__ import annotations

import ast
import os
import re
import shutil
import subprocess
import sys
import unittest
from collections import Counter
from typing import Dict, Iterator, List, Set, Tuple

import parv_commands
from parv_commands.repair import command as repair

from .rooms import Room
from .test_repair_crashes import WHOLE, damage

PACKAGE = os.path.dirname(os.path.realpath(parv_commands.__file__ or ""))
READS: Dict[str, Set[str]] = {      # what the commands may use of modules that can also change a disk
    "os": set("""O_CLOEXEC O_DIRECTORY O_NOFOLLOW O_NONBLOCK O_PATH O_RDONLY O_RDWR R_OK SEEK_DATA SEEK_HOLE X_OK _exit
              access close devnull environ execve fchdir fsdecode fsencode fstat getcwd getcwdb geteuid getpid getppid getxattr
              isatty killpg listdir lseek open path pathsep pread read readlink scandir set_blocking setpgid stat
              stat_result strerror sysconf urandom write""".split()),
    "shutil": {"get_terminal_size", "which", "rmtree"}, "tempfile": {"mkdtemp"}, "ctypes": {"CDLL"}, "pathlib": set(), "io": set(),
}
SAYING = {"output_and_progress.py"}      # modules that write to standard output and standard error
TEMPORARY = {"parv.py"}     # those that make and remove temporary folders
CALLS = dict(pair.split(":") for pair in """mkdir:mkdir mkdirat:mkdir unlinkat:unlink unlink:unlink rmdir:rmdir
    symlinkat:symlink symlink:symlink renameat2:rename rename:rename renameat:rename linkat:link link:link write:write
    pwrite64:pwrite ftruncate:ftruncate truncate:ftruncate fchmod:fchmod fchmodat:fchmod chmod:fchmod
    fchown:fchown fchownat:fchown chown:fchown lchown:fchown utimensat:utimens
    fsync:fsync syncfs:syncfs openat:create""".split())     # calls of the system, and their names in `changes`
OWN = re.compile(r'/parv-[^/"]+[">]')       # the temporary folder, which isn't made and removed by `changes`


def modules() -> Iterator[Tuple[str, ast.Module]]:
    for folder, _, names in sorted(os.walk(PACKAGE)):
        for name in sorted(names):
            if name.endswith(".py") and name != "changes.py":
                with open(os.path.join(folder, name), encoding="utf-8") as file:
                    yield name, ast.parse(file.read())


def wrong_calls(name: str, tree: ast.Module) -> List[str]:
    """Returns what a module calls or names that may change a disk."""
    found: List[str] = []
    for node in ast.walk(tree):
        if isinstance(node, ast.Attribute) and isinstance(node.value, ast.Name) and node.value.id in READS:
            if node.attr not in READS[node.value.id]:
                found.append(f"{node.value.id}.{node.attr}")
            if node.attr == "write" and name not in SAYING:
                found.append("os.write")
            if node.attr == "O_RDWR" and name not in SAYING:
                found.append("os.O_RDWR")
            if node.attr in ("mkdtemp", "rmtree") and name not in TEMPORARY:
                found.append(f"{node.value.id}.{node.attr}")
        if isinstance(node, ast.ImportFrom) and node.module in READS:
            found.append(f"from {node.module}")
        if isinstance(node, ast.Call) and isinstance(node.func, ast.Name) and node.func.id in ("open", "exec", "eval"):
            modes = [arg.value for arg in node.args[1:2] if isinstance(arg, ast.Constant)]
            if modes not in ([], ["rb"], ["r"]) or node.func.id != "open":
                found.append(ast.dump(node))
    return found


class Changes(unittest.TestCase):
    def test_no_other_module_changes_what_is_on_a_disk(self) -> None:
        seen = 0
        for name, tree in modules():
            seen += 1
            self.assertEqual(wrong_calls(name, tree), [], name)
        self.assertGreater(seen, 15)

    def test_such_a_call_would_be_seen(self) -> None:
        for text in ("os.rename(a, b)", "os.open(a, os.O_RDWR)", "open(a, 'w')", "shutil.rmtree(a)", "os.write(1, b'')",
                     "from os import unlink", "tempfile.mkdtemp()", "os.O_CREAT"):
            self.assertTrue(wrong_calls("a.py", ast.parse(text)), text)

    def test_the_calls_of_the_system_are_those_that_were_counted(self) -> None:
        strace = shutil.which("strace")
        room = Room(WHOLE, recovery=3)
        self.addCleanup(room.close)
        trace = os.path.join(room.top, "trace")
        if not strace or subprocess.run([strace, "-o", trace, "true"], stderr=subprocess.DEVNULL).returncode:
            self.skipTest("strace isn't there, or not allowed")
        damage(room)
        counted = Counter(room.run(repair.main, ["room"]).calls)
        damage(room)
        above = os.path.dirname(PACKAGE)
        environment = {**os.environ, **room.environment(), "PYTHONPATH": above}
        run = "import sys; from parv_commands.repair.command import main; sys.argv = ['', 'room']; sys.exit(main())"
        words = [strace, "-y", "-o", trace, "-e", "trace=" + ",".join(CALLS), sys.executable, "-B", "-S", "-c", run]
        ended = subprocess.run(words, cwd=room.top, env=environment, stdout=subprocess.DEVNULL)
        self.assertEqual((ended.returncode, room.lacks()), (0, []))
        made: Counter[str] = Counter()
        with open(trace, encoding="utf-8", errors="replace") as file:
            for line in file:
                call = line.split("(")[0]
                if call == "openat" and "O_CREAT" not in line and "O_WRONLY" not in line and "O_TRUNC" not in line:
                    continue
                if call == "write" and re.match(r"write\([12]<", line):
                    continue
                if call in ("mkdir", "unlinkat", "rmdir") and OWN.search(line):
                    continue
                if call in CALLS:
                    name = "rmdir" if call == "unlinkat" and "AT_REMOVEDIR" in line else CALLS[call]
                    made[name] += 1
        self.assertEqual(dict(made), dict(counted))


if __name__ == "__main__":
    unittest.main()
