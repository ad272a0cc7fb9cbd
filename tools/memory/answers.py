#!/usr/bin/env python3
"""Compares the sources with the list of places where they return out of memory or ask for capacity.

usage: answers.py read | check | amend

`read` reads the sources of all crates except those of tests. Each place must be in the list
(tools/checks/memory_answers.txt), with a reason, and the list may contain nothing else. `check` does that, and then
injects each bug of tools/faults that `check memory_answers` must notice, or let pass, into a copy of the sources. There
must be a line with the text that the bug's file names, or no line. `amend` writes the list again. Reasons stay with
their places. A new place gets a `?`, followed by the reason of a place that has gone from the same function, or had the
same code, if there is one.
"""

import collections
import glob
import os
import shutil
import sys
import tempfile

HERE = os.path.dirname(os.path.realpath(__file__))
sys.path[0] = os.path.dirname(HERE)  # imports are relative to tools/
sys.dont_write_bytecode = True

from faults.fault import Fault, Misfit, parts_of, paths_of
from memory.reading import Place, Source, places_of

TOP = os.path.dirname(os.path.dirname(HERE))
LIST = os.path.join(TOP, "tools/checks/memory_answers.txt")
PARTS = ("answers", "rooms")
CHECK = "memory_answers"   # the name of this check
# The texts that the bugs' files name for its lines. The empty text belongs to those for which there must be no line.
KINDS = {"answers that aren't in", "rooms that aren't in", "of memory_answers.txt that aren't in the sources", ""}
FIXTURES = "parfixtures"   # a crate that only tests use, besides those whose names end in _tests


class Sources:
    """The sources below a folder. A source that was read before isn't parsed again."""

    def __init__(self, top, known=None):
        self.top, self.known = top, known or {}

    def files(self):
        for path in sorted(glob.glob(os.path.join(self.top, "crates/*/src/**/*.rt"), recursive=True)):
            file = os.path.relpath(path, self.top)
            crate = file.split("/")[1]
            if crate != FIXTURES and not crate.endswith("_tests"):
                yield file

    def places(self):
        read = []
        for file in self.files():
            with open(os.path.join(self.top, file), encoding="utf-8") as source:
                text = source.read()
            if (file, text) not in self.known:
                try:
                    self.known[file, text] = Source(file, text)
                except (ValueError, IndexError) as error:
                    raise ValueError(f"{file}: {error}") from error
            read.append(self.known[file, text])
        return places_of(read)


def listed():
    """Returns the head of the list, and its places with their reasons."""
    head, entries, part = [], [], ""
    with open(LIST, encoding="utf-8") as file:
        lines = file.read().splitlines()
    for line in lines:
        if line.startswith("#"):
            head.append(line)
        elif line.rstrip(":") in PARTS:
            part = line.rstrip(":")
        elif line.startswith(" "):
            entries[-1].append(line.strip())
        elif line:
            entries.append([part, line])
    found = []
    for part, place, *rest in entries:
        file, _, owner = place.partition(" ")
        code, reason = rest[0] if rest else "", " ".join(rest[1:])
        found.append((Place(part, file, owner, code), reason))
    return head, found


def differences(places, entries):
    """Returns the places that aren't listed, and the listed ones that don't exist, each as often as it is missing."""
    wanted = collections.Counter(place.key for place in entries)
    wanted.subtract(place.key for place in places)
    new, gone = [], []
    for found, kept, sign in ((places, new, -1), (entries, gone, 1)):
        for place in found:
            if wanted[place.key] * sign > 0:
                wanted[place.key] -= sign
                kept.append(place)
    return new, gone


def told(place):
    return f"{place.file} {place.owner}: {place.code}"


def lines_of(new, gone):
    return [f"{place.part} that aren't in memory_answers.txt: {told(place)}" for place in new] \
        + [f"{place.part} of memory_answers.txt that aren't in the sources: {told(place)}" for place in gone]


def faults():
    """Returns each bug about which this check must print lines, with their texts, and each harmless change, with no
    text."""
    found = []
    for path in paths_of():
        fault = Fault(path)
        texts = [text for what, name, text in map(parts_of, fault.seen) if (what, name) == ("check", CHECK)]
        if texts or any(parts_of(said)[:2] == ("check", CHECK) for said in fault.passes):
            found.append((fault, texts))
    return found


def judged(sources, fault, texts, entries, before):
    """Says what is wrong with the lines for a bug; nothing if they are the expected ones."""
    try:
        wrong = fault.planted(sources.top)
    except Misfit as why:
        return str(why)
    right = {}
    for path in wrong:
        with open(path, encoding="utf-8") as source:
            right[path] = source.read()
    try:
        write(wrong)
        new, gone = differences(sources.places(), entries)
    except ValueError as error:
        return f"can't be read: {error}"
    finally:
        write(right)
    lines = lines_of([place for place in new if place.key not in before and place.file in fault.paths()],
                     [place for place in gone if place.key not in before])
    if not texts:
        return f"is refused: {lines[0]}" if lines else ""
    for text in texts:
        if not any(text in line for line in lines):
            return f"is let pass: no line has: {text}"
    return ""


def write(texts):
    for path, text in texts.items():
        with open(path, "w", encoding="utf-8") as source:
            source.write(text)


def read():
    """Compares the sources with the list. Returns the sources as they were read, the differences, and whether nothing
    is wrong."""
    read_now, entries = Sources(TOP), listed()[1]
    places, known = read_now.places(), [place for place, _ in entries]
    new, gone = differences(places, known)
    failures = lines_of(new, gone)
    failures += [f"no reason in memory_answers.txt: {told(place)}" for place, reason in entries
                 if not reason or reason.startswith("?")]
    for failure in failures:
        print(f"FAILED: {failure}")
    if not failures:
        answers = sum(place.part == "answers" for place in places)
        print(f"ok: each of {answers} answers of want of memory that are made by hand is listed, with its reason")
        print(f"ok: each of {len(places) - answers} rooms that are asked for is listed, with its bound")
    return read_now, {place.key for place in new + gone}, not failures


def check():
    read_now, before, is_right = read()
    planned, known = faults(), [place for place, _ in listed()[1]]
    texts = {text for _, texts in planned for text in texts} | {"" for _, texts in planned if not texts}
    for kind in KINDS - texts:
        is_right = False
        print(f"FAILED: no fault has this line: {kind or 'none'}")
    with tempfile.TemporaryDirectory() as work:
        for path in glob.glob(os.path.join(TOP, "crates/*/src")):
            shutil.copytree(path, os.path.join(work, os.path.relpath(path, TOP)))
        sources = Sources(work, read_now.known)
        for fault, texts in planned:
            wrong = judged(sources, fault, texts, known, before)
            if wrong:
                is_right = False
            right = "refused" if texts else "let be"
            print(f"FAILED: {fault.name}: {wrong}" if wrong else f"ok: {right}: {fault.name}")
    return 0 if is_right else 1


def amend():
    places, (head, entries) = Sources(TOP).places(), listed()
    reasons = collections.defaultdict(list)
    for place, reason in entries:
        reasons[place.key].append(reason)
    lost = [(place, reasons[place.key].pop()) for place in differences(places, [place for place, _ in entries])[1]]
    lines = list(head)
    for part in PARTS:
        lines += ["", f"{part}:"]
        for place in places:
            if place.part == part:
                reason = reasons[place.key].pop(0) if reasons[place.key] else lost_reason(lost, place)
                lines += ["", f"{place.file} {place.owner}", f"    {place.code}", f"    {reason}"]
    with open(LIST, "w", encoding="utf-8") as file:
        file.write("\n".join(lines) + "\n")
    return 0


def lost_reason(lost, place):
    """Returns the reason of a place that has gone from the same function, or had the same code, with a `?` before
    it."""
    for same in (slice(0, 3), slice(3, 4)):
        for entry in lost:
            if entry[0].part == place.part and entry[0].key[same] == place.key[same]:
                lost.remove(entry)
                return "? " + entry[1].lstrip("? ")
    return "?"


def main():
    if sys.argv[1:] not in (["read"], ["check"], ["amend"]):
        sys.exit(__doc__.split("\n\n")[1])
    try:
        if sys.argv[1] == "read":
            return 0 if read()[2] else 1
        return check() if sys.argv[1] == "check" else amend()
    except (ValueError, IndexError, Misfit) as error:
        print(f"FAILED: can't read {error}")
        return 1


if __name__ == "__main__":
    sys.exit(main())
