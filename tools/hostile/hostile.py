#!/usr/bin/env python3
"""Compares the built program with a plain model over hostile packet files.

usage: hostile.py [--joined | --repeated] [--seed N] [--cases N] [--jobs N] [--keep FOLDER]

Each case follows from the seed and its number, by the grammar of hostile_files.py. Over its files run `packets` and
`set`, one of them with --set too; and, if there is a set, `find` and `verify`, without --tails and with it (sometimes
also if there is no set). Each run must have the status, standard output and standard error of the models:
list_packets.py, describe_set.py, find_slices.py, tell_states.py and cursor_texts.py. Cursors are of both versions, and
may be of another set or of other files, or damaged. FOLDER gets a folder with the files of each case that differs. In
1,000 or more cases, these must all occur: each reason, cause, state and result, each answer to a cursor, a tail before
other bytes, and more tails than may be looked for.

With --joined, the cases follow the grammar of joined_files.py: files that are joined, as on the image of a disc. Only
`find` and `verify` run over them, and most runs print everything. In 1,000 or more cases, there must be some whose
short slices all come right after the slice before them, and some with a short slice that is only elsewhere.

With --repeated, they follow the grammar of repeated_files.py: files whose bytes repeat. In 1,000 or more cases, there
must be some in which slices that were found before are met at 2,000 offsets, while others are missing.

PARV is the program (crates/parv/out/parv).
"""

import argparse
import collections
import functools
import os
import random
import sys
from concurrent.futures import ProcessPoolExecutor
from typing import Callable, NamedTuple

sys.path[0] = os.path.dirname(os.path.dirname(os.path.realpath(__file__)))  # imports are relative to tools/

from hostile import hostile_files, joined_files, repeated_files
from hostile.runs import Runner, as_text
from make.content import write
from models.cursor_texts import BOUNDS, Cursor, mark_of, read, text_of
from models.describe_set import NoSet, description, packets_of, set_of
from models.find_slices import TOO_MANY_TAILS, has_too_many_tails, line_of, sightings, slices_of, wanted_of
from models.list_packets import listing, shown
from models.tell_states import state_of, verdict

CHUNK = 100             # cases that one process makes at once
DEAR = 128 << 20        # bytes of windows that the model hashes in a search; slices may have 256 MiB

WANTED = """packets 0,set 0,find 0,find 3,verify 0,verify 1,verify 2,no main,no description,
name twice,too many slices,main 1,main 2,main 3,main 4,main 7,filedesc 1,filedesc 5,filedesc 7,
ifsc 1,ifsc 7,recvslic 1,recvslic 7,creator 7,complete,renamed,damaged,missing,cursor,creator,
unknown,tail before other bytes,find too many tails,verify too many tails,version 1,version 2,
cursor of another set,cursor of other files,bad cursor,bad cursor and no set,cursor and no set"""
WANTED_OF_JOINED = """find 0,find 3,find 4,verify 0,verify 1,verify 2,verify 4,complete,renamed,damaged,missing,cursor,
tail before other bytes,find too many tails,verify too many tails,1 tail,2 to 16 tails,17 to 256 tails,256 tails,
short slices right after,short slices elsewhere,short slices not there,short slice left,no short slice left,
17 short slices after one offset"""
WANTED_OF_REPEATED = """find 0,find 3,verify 0,verify 1,verify 2,complete,renamed,damaged,missing,cursor,
tail before other bytes,found slices are met again and again"""
AFTER_ONE = 17          # short slices, more than a survey expects at one offset


AGAIN = 2_000           # offsets, more than a survey stops at in vain before it makes its index again


class Grammar(NamedTuple):
    """The grammar of the cases, and what must occur in a thousand of them."""
    case: Callable
    wanted: str


GRAMMARS = {
    "hostile": Grammar(hostile_files.case, WANTED),
    "joined": Grammar(joined_files.case, WANTED_OF_JOINED),
    "repeated": Grammar(repeated_files.case, WANTED_OF_REPEATED),
}


class Case:
    """The files of a case, and what the model says about them."""

    def __init__(self, kind, seed, number):
        self.chance = random.Random(f"{seed} {number}")
        self.searched = kind != "hostile"
        self.files, self.scanned = GRAMMARS[kind].case(self.chance)
        # Whether searches begin at the beginning and are printed as a whole.
        self.whole = self.searched and self.chance.randrange(4) > 0
        self.packets = packets_of(self.files)
        self.owners = sorted({owner for _, _, _, owner, _ in self.packets})
        self.met = collections.Counter()

    def set(self, choice):
        """Returns the set, or the line that says why there is none."""
        try:
            found = set_of(self.packets, choice)
        except NoSet as cause:
            self.met[str(cause).removesuffix(" " + str(cause)[-32:]).removesuffix(" of")] += 1
            return None, f"parv: no usable set: {cause}"
        kinds = {(name, at): kind for name, at, kind, _, _ in self.packets}
        self.met.update(f"{kinds[name, at]} {why}" for name, at, why in found.aside)
        return found, ""

    def choice(self):
        """Returns a set ID for --set, or None."""
        if not self.owners or self.chance.randrange(10) == 0:
            return "%032x" % self.chance.getrandbits(128)
        return self.chance.choice(self.owners)


class Given(NamedTuple):
    """How the scanned files are given: the options, the arguments that name them, and the names that they get."""
    options: list
    words: list
    names: list


def given_in(made):
    """Returns the scanned files of a case, sometimes with -B."""
    names = [name for name, _ in made.scanned]
    if not names or made.chance.randrange(6):
        return Given([], names, names)
    base = made.chance.choice([b".", b"./", b"d"])
    words = [b"./" + name for name in names]
    return Given(["-B", base], words, words if base == b"d" else names)


def words_of(made, command, options, given):
    """Returns the arguments of a command over the files of a case."""
    files = [name for name, _ in made.files]
    between = given.words + files if made.chance.randrange(4) == 0 else files + given.words
    return [command, *options, *given.options, *between]


def text(lines):
    return "".join(line + "\n" for line in lines).encode()


def packets_run(made, choice):
    options = [] if choice is None else ["--set", made.chance.choice([choice, choice.upper()])]
    words = words_of(made, "packets", options, given_in(made))
    lines = listing(made.files, choice)
    made.met["unknown"] += any(" unknown " in line for line in lines)
    return words, (0, text(lines), b"")


def set_run(made, choice):
    words = words_of(made, "set", [] if choice is None else ["--set", choice], given_in(made))
    found, line = made.set(choice)
    if found is None:
        return words, (4, b"", text([line]))
    made.met["creator"] += found.creator is not None
    return words, (0, text(description(found)), b"")


def place_near(made, slices, near):
    """Returns the numbers of a cursor near one of these matches, or anywhere."""
    parts = [max(0, part + made.chance.choice([0, 0, 0, 1, -1]))
             for part in made.chance.choice(near or [(0, 0, 0)])]
    if made.chance.randrange(6) == 0:
        greatest = [2**32 - 1, 2**64 - 1]
        parts = [*(made.chance.choice([0, most]) for most in greatest), len(slices)]
    return tuple(parts)


def other_mark(chance, names, lengths):
    """Returns the fingerprint of a file list that mostly differs: files are renamed, longer, left out or in another
    order."""
    listed = list(zip(names, lengths))
    at = chance.randrange(len(listed)) if listed else 0
    name, length = listed[at] if listed else (b"x", 0)
    end = chance.randrange(len(name)) + 1
    rest = listed[:at], listed[at + 1:]
    change = chance.choice([
        [*rest[0], (name + b"x", length), *rest[1]],
        [*rest[0], (name, length + chance.choice([1, 256, 2**32])), *rest[1]],
        [*rest[0], (name, max(0, length - 1)), *rest[1]],
        [*rest[0], *rest[1]],
        [*listed, (name, length)],
        listed[::-1],
        [*rest[1], (name, length), *rest[0]],
        [*rest[0], (name[:end], 0), (name[end:], length), *rest[1]],
    ])
    return mark_of([name for name, _ in change], [length for _, length in change])


ODD_NUMBERS = ["00", "", "+1", "-0", " 0", "0x0", "1.0", "x", "\u0661", "9" * 30]


def damaged(chance, text):
    """Returns a cursor's text with one mistake. Sometimes it is still a cursor."""
    parts = text.split(":")
    at, place = chance.randrange(len(parts)), chance.randrange(len(text) + 1)
    number = chance.randrange(len(parts) - 3, len(parts))
    swapped = parts[:]
    bound = BOUNDS[number - len(parts)]
    swapped[number] = chance.choice([*ODD_NUMBERS, *["0" + parts[number]] * 3, *[str(bound)] * 3])
    hexes = parts[:]
    digits = hexes[-4]
    hexes[-4] = chance.choice([digits.upper(), digits[1:], digits + "0", "g" + digits[1:], ""])
    return chance.choice([
        text[:place],
        text[place:],
        text[:place] + chance.choice([":", "0", " ", "\n", "g"]) + text[place:],
        text.upper(),
        *[":".join(swapped)] * 5,
        *[":".join(hexes)] * 3,
        ":".join(parts[:at] + parts[at + 1:]),
        ":".join(parts[:at + 1] + parts[at:]),
        chance.choice(["3", "1", "0", "02", "", "22"]) + ":" + text.removeprefix("2:"),
        "2:" + text,
    ])


def cursor_near(made, found, slices, near, names):
    """Returns the text of a cursor, mostly of this set and of these files."""
    chance, lengths = made.chance, [len(data) for _, data in made.scanned]
    owner = "0" * 32 if found is None or chance.randrange(6) == 0 else found.id
    marks = [None, None, other_mark(chance, names, lengths), "0" * 32]
    mark = chance.choice([*marks, *[mark_of(names, lengths)] * 4])
    text = text_of(Cursor(owner, mark, place_near(made, slices, near)))
    return damaged(chance, text) if chance.randrange(4) == 0 else text


def refused_cursor(made, found, cursor, names):
    """Returns the expected output of a run if the cursor isn't of this set or these files; otherwise None."""
    cause = None
    if cursor.set != found.id:
        cause = "cursor of another set"
    elif cursor.mark not in (None, mark_of(names, [len(data) for _, data in made.scanned])):
        cause = "cursor of other files"
    made.met[cause or ("version 1" if cursor.mark is None else "version 2")] += 1
    return cause and (3, b"", text([f"parv: {cause}"]))


def refusal(made, command, found, line, tails):
    """Returns the expected output of a run if there is no set, or if it has too many tails; otherwise None."""
    if found is None:
        return 4, b"", text([line])
    if tails and has_too_many_tails(found):
        made.met[f"{command} too many tails"] += 1
        return 4, b"", text([TOO_MANY_TAILS])
    return None


def find_run(made, found, line, tails, seen, near):
    """Returns a search whose matches are `seen`, from a cursor near one of `near` or from the beginning."""
    options, begun, start, limit, given = ["--tails"] * tails, None, (0, 0, 0), None, given_in(made)
    slices = [] if found is None else slices_of(found)
    if not made.whole and made.chance.randrange(2):
        begun = cursor_near(made, found, slices, near, given.names)
        options += ["--cursor", begun]
    if not made.whole and made.chance.randrange(2):
        limit = made.chance.choice([1, 1, 2, 3, max(1, len(seen)), 2**64 - 1])
        options = ["--limit", str(limit), *options]
    words = words_of(made, "find", options, given)
    if begun is not None:
        cursor = read(begun)
        if cursor is None:
            made.met["bad cursor" + " and no set" * (found is None)] += 1
            return words, (3, b"", b"parv: bad value\n")
        made.met["cursor and no set"] += found is None
        refused = found and refused_cursor(made, found, cursor, given.names)
        if refused:
            return words, refused
        start = cursor.at
    refused = refusal(made, "find", found, line, tails)
    if refused:
        return words, refused
    left = [sighting for sighting in seen if sighting >= start]
    lines = [line_of(given.names[place], offset, slices[at]) for place, offset, at in left[:limit]]
    if limit is not None and len(left) >= limit:
        place, offset, at = left[limit - 1]
        mark = mark_of(given.names, [len(data) for _, data in made.scanned])
        lines.append("cursor " + text_of(Cursor(found.id, mark, (place, offset, at + 1))))
        made.met["cursor"] += 1
    else:
        lines.append("end")
    return words, (0, text(lines), b"")


def verify_run(made, found, line, tails, seen):
    quiet = 0 if made.whole else made.chance.choice([0, 0, 0, 1, 2, 3])
    given = given_in(made)
    words = words_of(made, "verify", ["-q"] * quiet + ["--tails"] * tails, given)
    refused = refusal(made, "verify", found, line, tails)
    if refused:
        return words, refused
    status, lines = verdict(found, list(zip(given.names, [data for _, data in made.scanned])), seen)
    made.met.update(line.split()[0] for line in lines[1:-2])
    lines = lines if quiet == 0 else lines[-2:] if quiet == 1 else []
    return words, (status, text(lines), b"")


def note_tails(made, found):
    """Records how many lengths below the slice size are to be looked for."""
    tails = len({own for _, _, own, sums in slices_of(found) if sums and own < found.size})
    made.met["1 tail"] += tails == 1
    made.met["2 to 16 tails"] += 1 < tails <= 16
    made.met["17 to 256 tails"] += 16 < tails
    made.met["256 tails"] += tails == 256


def short_slices(made, found):
    """Returns the short slices that `verify --tails` looks for: those with checksums, of files that aren't complete."""
    short, first = set(), 0
    for file in found.files:
        first += file.slices
        state, _ = state_of(file, made.scanned)
        if file.sums and file.length % found.size and state in ("damaged", "missing"):
            short.add(first - 1)
    return short


def note_short_slices(made, found, seen):
    """Records where these slices are: right after the slice before them in their file, only elsewhere, or nowhere."""
    slices, short = slices_of(found), short_slices(made, found)
    before = [(place, offset, at) for place, offset, at in seen
              if at + 1 in short and slices[at][0] == slices[at + 1][0]]
    right_after = {(place, offset + found.size, at + 1) for place, offset, at in before}
    after = {at for _, _, at in right_after.intersection(seen)}
    elsewhere = {at for _, _, at in seen if at in short} - after
    expected = collections.Counter((place, offset) for place, offset, _ in before)
    made.met["short slices right after"] += len(after) > 0
    made.met["short slices elsewhere"] += len(elsewhere) > 0
    made.met["short slices not there"] += short > after | elsewhere
    made.met["no short slice left"] += after == short != set()
    made.met["short slice left"] += after != short
    made.met[f"{AFTER_ONE} short slices after one offset"] += max(expected.values(), default=0) >= AFTER_ONE


def note_repeats(made, found, seen):
    """Records whether slices are met at very many offsets after all of them were found, while other slices are
    missing."""
    met, again, offsets = set(), 0, collections.defaultdict(list)
    for place, offset, at in seen:
        offsets[place, offset].append(at)
    for slices in offsets.values():
        again += met.issuperset(slices)
        met.update(slices)
    missing = any(state_of(file, made.scanned)[0] not in ("complete", "renamed") for file in found.files)
    made.met["found slices are met again and again"] += again >= AGAIN and missing


def searches_of(made):
    """Returns the runs of `find` and `verify`."""
    found, line = made.set(None)
    if found is None and made.chance.randrange(5):
        return []
    contents, runs, near = [data for _, data in made.scanned], [], []
    for tails in (False, True):
        seen = []
        if found is not None and not (tails and has_too_many_tails(found)):
            if found.size * sum(map(len, contents)) * len(wanted_of(found, tails)) > DEAR:
                continue
            seen = list(sightings(found, contents, tails))
            made.met["tail before other bytes"] += tails and not set(seen) <= set(near)
            near = near + seen
            if made.searched and tails:
                note_tails(made, found)
                note_short_slices(made, found, seen)
            elif made.searched:
                note_repeats(made, found, seen)
        runs += [find_run(made, found, line, tails, seen, near), verify_run(made, found, line, tails, seen)]
    return runs


def runs_of(made):
    """Returns the arguments of each run, and the status, output and errors that it must have."""
    if made.searched:
        return searches_of(made)
    choice = made.choice()
    return [packets_run(made, None), set_run(made, None),
            made.chance.choice([packets_run, set_run])(made, choice), *searches_of(made)]


def keep_files(made, folder):
    os.makedirs(folder, exist_ok=True)
    for name, data in made.files + made.scanned:
        write(os.path.join(os.fsencode(folder), name), data)


def chunk(kind, seed, numbers, keep):
    """Runs some cases. Returns how many runs there were, what occurred in them, and how they differ."""
    runner, runs, met, wrong = Runner(), 0, collections.Counter(), []
    for number in numbers:
        made = Case(kind, seed, number)
        runner.clear()
        for name, data in made.files + made.scanned:
            runner.write(name, data)
        for words, wanted in runs_of(made):
            ran = runner.parv(words)
            runs += 1
            met[f"{words[0]} {ran.status}"] += 1
            if ran.hung or ran[:3] != wanted:
                command = " ".join(shown(os.fsencode(word)) for word in words)
                wrong.append(f"seed {seed}, case {number}: parv {command}: {as_text(ran)}; the "
                             f"model has status {wanted[0]}, {wanted[1][:300]!r}, {wanted[2]!r}")
                if keep:
                    keep_files(made, os.path.join(keep, str(number)))
        met.update(made.met)
    runner.close()
    return runs, met, wrong


def main():
    parser = argparse.ArgumentParser(usage=__doc__.split("\n\n")[1][7:])
    for option, value in [("--seed", 1), ("--cases", 3000), ("--jobs", 1)]:
        parser.add_argument(option, type=int, default=value)
    parser.add_argument("--keep")
    kinds = parser.add_mutually_exclusive_group()
    for kind in ("joined", "repeated"):
        kinds.add_argument(f"--{kind}", dest="kind", action="store_const", const=kind, default="hostile")
    asked = parser.parse_args()
    runs, met, wrong = 0, collections.Counter(), []
    parts = [range(at, min(at + CHUNK, asked.cases)) for at in range(0, asked.cases, CHUNK)]
    with ProcessPoolExecutor(asked.jobs) as pool:
        run_parts = functools.partial(chunk, asked.kind, asked.seed, keep=asked.keep)
        for more in pool.map(run_parts, parts):
            runs += more[0]
            met.update(more[1])
            wrong += more[2]
    for line in wrong[:20]:
        print(f"FAILED: {line}")
    print(", ".join(f"{name} {count}" for name, count in sorted(met.items())))
    lacking = [name for name in GRAMMARS[asked.kind].wanted.replace("\n", "").split(",") if not met[name]]
    if lacking and asked.cases >= 1000:
        print(f"FAILED: no case has {', '.join(lacking)}")
    elif not wrong:
        print(f"ok: {asked.cases} {asked.kind} cases of seed {asked.seed}, {runs} runs, each as the "
              "model has it")
    return 1 if wrong or (lacking and asked.cases >= 1000) else 0


if __name__ == "__main__":
    sys.exit(main())
