"""What all commands have in common: their help, a parv that isn't there, outputs that can't be written, and as many files
as may be open."""

from __future__ import annotations

import argparse
import importlib
import os
import re
import shutil
import sys
import unittest.mock
from typing import Dict, Iterator, List, Tuple

from parv_commands.common import arguments

from .calls import BIN, Calls
from .rooms import Room

GIVEN = ["room/set.par2", "room/first", "room/second"]
# How each command is called, its usage, and what has a line of its own in its help.
COMMANDS: Dict[str, Tuple[List[str], str, str]] = {
    "repair": (["--dry-run", "room"], "[--dry-run] [--remove-backups] [--set ID] FOLDER",
               "FOLDER --dry-run --remove-backups --set 0 1 2 3 4 5 6 8 parv-repair"),
    "rescue": (["new", *GIVEN], "[--tails] [--set ID] FOLDER FILES", 
               "FOLDER FILES --tails --set 0 1 3 4 6 8 parv-rescue"),
    "tree": (["room"], "[-j N] [-q] [--tails] [--json] [--state FILE] FOLDER",
             "FOLDER -j -q --tails --json --state 0 1 2 3 4 5 6 8 parv-tree"),
    "map": (["-B", "room", *GIVEN], "[--tails] [--set ID] [-B DIR] [--width N] [--html FILE] [--svg FILE] FILES",
            "FILES --tails --set -B --width --html --svg 0 3 4 6 8 parv-map"),
    "watch": (["room", "0", "1"], "[--tails] FOLDER [SECONDS] [CHECKS]",
              "FOLDER SECONDS CHECKS --tails 0 1 2 3 4 6 8 parv-watch"),
    "parts": (["parts", "9", *GIVEN], "[--tails] PARTS LIMIT FILES", "PARTS LIMIT FILES --tails 0 3 4 6 8 parv-parts"),
    "progress": (["verify", "-B", "room", *GIVEN], "find|verify ARGUMENTS", "find|verify ARGUMENTS 3 6 parv-progress")}


class Each(Calls):
    def setUp(self) -> None:
        self.room = Room({"first": b"first of all files and more", "second": b"the second file"})
        self.addCleanup(self.room.close)

    def each(self) -> Iterator[Tuple[str, List[str]]]:
        """Yields the name of each command, and a call of it that ends with 0."""
        for name, (words, _, _) in COMMANDS.items():
            yield f"parv-{name}", [os.path.join(BIN, f"parv-{name}"), *words]

    def test_there_are_no_others(self) -> None:
        self.assertEqual(sorted(os.listdir(BIN)), sorted(name for name, _ in self.each()))

    def test_the_help_begins_with_the_usage_and_has_each_option_and_status(self) -> None:
        for name, (_, usage, has) in COMMANDS.items():
            status, out, said = self.call(os.path.join(BIN, f"parv-{name}"), "-h")
            first = " ".join(out.split("\n\n")[0].split())
            self.assertEqual((status, first, said), (0, f"usage: parv-{name} [-h] {usage}", ""))
            for word in [*has.split(), "-h"]:
                self.assertRegex(out, re.compile(f"^  {re.escape(word)}[ ,]", re.M), name)
            lines = out.splitlines()
            self.assertTrue(len(lines) <= 60 and max(map(len, lines)) <= 80, name)
            for words in ["--help"], ["-h", "--wrong"]:
                ended = self.call(os.path.join(BIN, f"parv-{name}"), *words, COLUMNS="40")
                self.assertEqual(ended, (status, out, said))
            self.assertTrue(name != "repair" or "No bytes that were in the folder are lost" in " ".join(out.split()))

    def test_the_arguments_of_each_command_can_be_asked_for(self) -> None:
        for name in COMMANDS:
            parser = importlib.import_module(f"parv_commands.{name}.command").parser()
            self.assertIsInstance(parser, argparse.ArgumentParser)
            self.assertEqual(parser.format_help(), self.call(os.path.join(BIN, f"parv-{name}"), "-h")[1])
            for action in parser._actions:
                self.assertTrue(action.help and (action.metavar or action.nargs == 0), (name, action.dest))

    def test_usage_errors(self) -> None:
        errors: List[Tuple[str, List[str], str]] = [
            ("repair", [], "missing argument: FOLDER"), ("tree", [""], "missing argument: FOLDER"),
            ("watch", ["--tails"], "missing argument: FOLDER"), ("map", ["--"], "missing argument: FILES"),
            ("rescue", [], "missing arguments: FOLDER, FILES"),
            ("rescue", ["new", "--"], "missing argument: FILES"),
            ("parts", ["--tails", "parts"], "missing arguments: LIMIT, FILES"),
            ("progress", [], "the first argument must be find or verify"),
            ("repair", ["--", "room", "--set"], "unrecognized arguments: --set"),
            ("repair", ["--dry", "room"], "unrecognized arguments: --dry"),
            ("map", ["x", "--base", "--", "y"], "argument -B/--base: expected one argument")]
        for name, words, message in errors:
            usage = f"parv-{name}: usage: parv-{name} [-h] {COMMANDS[name][1]}"
            self.assertEqual(self.call(os.path.join(BIN, f"parv-{name}"), *words),
                             (3, "", f"parv-{name}: {message}\n{usage}\n"))

    def test_no_argument_after_two_dashes_is_an_option(self) -> None:
        parser = importlib.import_module("parv_commands.rescue.command").parser()
        for words, folder, files, tails in (
                (["new", "--tails", "a", "b"], "new", ["a", "b"], True), (["new", "a", "--"], "new", ["a"], False),
                (["new", "a", "--", "--tails"], "new", ["a", "--tails"], False),
                (["--tails", "--", "--", "-x", "--", "-h"], "--", ["-x", "--", "-h"], True)):
            with unittest.mock.patch.object(sys, "argv", ["parv-rescue", *words]):
                options = arguments.read(parser)
            self.assertEqual((options.folder, options.files, options.tails), (folder, files, tails))

    def test_that_there_is_no_parv_is_said_before_all_else(self) -> None:
        os.mkdir(os.path.join(self.room.top, "path"))
        os.symlink(sys.executable, os.path.join(self.room.top, "path", "python3"))
        for name, words in self.each():
            for given in words, [word.replace("room", "none") for word in words]:
                for program in "./none", "parv-that-is-not-there":
                    self.assertEqual(self.call(*given, PARV=program), (
                        6, "", f"{name}: cannot run {program}: put parv in PATH, or name it by PARV\n"))
                self.assertEqual(self.call(*given, shell='unset PARV; PATH=$PWD/path exec "$@"'), (
                    6, "", f"{name}: cannot run parv: put parv in PATH, or name it by PARV\n"))
        self.assertEqual(sorted(os.listdir(self.room.top)), "by-number par2 path room secrets tmp".split())

    def test_an_output_that_cannot_be_written_is_told_by_the_status(self) -> None:
        for name, words in self.each():
            self.assertEqual(self.call(*words, shell='exec "$@" 2>&-')[0], 0, name)
            self.assertEqual(self.call(*words, shell='exec "$@" 2> /dev/full')[0], 0, name)
            for shell, why in ('exec "$@" > /dev/full', "No space left on device"), ('exec "$@" >&-', "it is closed"):
                for given in words, [words[0], "-h"]:
                    status, _, said = self.call(*given, shell=shell)
                    last = f"{name}: cannot write standard output: {why}\n"
                    if name == "parv-progress" and given == words:
                        last = "parv: write fault\n"
                    self.assertEqual((status, said.splitlines(True)[-1]), (6, last), (name, shell))
        self.assertEqual(os.listdir(self.room.temporary), [])

    def test_a_temporary_folder_that_is_not_there(self) -> None:
        none = os.path.join(self.room.top, "none")
        for name, words in self.each():
            status, out, said = self.call(*words, TMPDIR=none)
            if name not in ("parv-progress", "parv-parts"):     # (these need none)
                self.assertEqual(status, 6, name)
                self.assertIn(f"cannot open {none}: No such file or directory", out + said, name)

    def test_more_files_than_may_be_open_at_first(self) -> None:
        for number in range(1100):
            self.room.put(f"f{number}", b"")
        for name, words in self.each():
            files = "room/f[0-9]*" if "room/first" in words else ""
            ends = []
            for shell in f'ulimit -Sn 1024; exec "$@" {files}', 'exec "$@"':
                for made in "new", "parts":
                    shutil.rmtree(os.path.join(self.room.top, made), ignore_errors=True)
                ends.append(self.call(*words, shell=shell))
            self.assertEqual((ends[0][0], ends[0][1]), (0, ends[1][1]), (name, ends[0][2]))
            self.assertTrue(not ends[0][2] or name == "parv-parts", ends[0][2])
