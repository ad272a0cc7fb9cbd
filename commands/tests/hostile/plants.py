"""What a folder from someone else may bring: a stage of parv-repair with a journal, by someone who knows all inodes."""

from __future__ import annotations

import contextlib
import os
import stat
from random import Random
from typing import List

from parv_commands.common.opened_folder import Folder, Identity
from parv_commands.repair import journal
from parv_commands.repair.journal import Made, Move, Step
from parv_commands.repair.work_folder import WorkFolder

from ..rooms import SECRET, STAGE, Room
from .promises import Log


def steps_of(room: Room, rng: Random) -> List[Step]:
    """Returns steps with names that are there, and maybe some that are kept for commands, or lead out of the folder. (A
    journal with one of these is refused as a whole.)"""
    found = room.listing()
    steps: List[Step] = []
    files = [name for name, (kind, _) in found.items() if kind == stat.S_IFREG]
    files = [name for name in files if not name.startswith(".")]
    ends = [*files, *room.files, f"{STAGE}/aside/q", "sub/x", "in"]
    if rng.random() < 0.4:
        ends += [f"{STAGE}/made/q", f"{STAGE}/files/q", "../outside/precious", ".verify_and_repair/list",
                 f"sub/{STAGE}/x", STAGE]
    for _ in range(rng.randint(1, 4)):
        name = rng.choice(files)
        origin = name if rng.random() < 0.8 else rng.choice(ends)
        target = name if rng.random() < 0.2 else rng.choice(ends)
        now = os.stat(room.path(name))
        if rng.random() < 0.1:
            steps.append(Made(os.fsencode(target)))
        else:
            file = Identity(now.st_ino, now.st_size, now.st_mtime_ns)
            steps.append(Move(file, os.fsencode(origin), os.fsencode(target), rng.random() < 0.3))
    return steps


def plant(room: Room, rng: Random, log: Log) -> None:
    """Plants a stage: of the user's own secret, of another one, or of none. If a run has left one, only its journal is
    replaced."""
    secret = rng.choice([SECRET, SECRET, b"s" * 32, None])
    if rng.random() < 0.2:
        room.put(".verify_and_repair/moves", b"1 a a\n")
        room.put(".verify_and_repair/files/q", b"of the script")
    with contextlib.closing(Folder.open(os.fsencode(room.folder))) as folder, \
            contextlib.closing(WorkFolder(folder, secret, log.add)) as place:
        if not os.path.lexists(room.path(STAGE)):
            place.make()
        steps = steps_of(room, rng)
        log.add("planted", secret, steps)
        if os.path.isdir(room.path(STAGE)):
            room.put(f"{STAGE}/journal", place.record_of(b"journal", journal.encode(steps)))
