#!/usr/bin/env python3
"""Replaces `par2 repair` in the checks of commands that call it.

usage: par2.py repair -q FILE..

It reads the FILES in the current folder, packet files and others, with the models of models/. It reads names as
par2cmdline 0.8.1 does: a backslash is a slash; a control character, and two dots before a slash, become % and two
digits. The set is that of the first packet of the first packet file.

It ends with 2 if more slices are needed than there are recovery slices; it finds a short slice only at the end of a
file. Otherwise it does what par2 does. It moves a damaged file to NAME.1. It renames a file that is the whole of
another one, but makes no folder for it. It writes the other files, with bytes from the folder ORIGINALS, whatever they
are called there. If the set has an empty file, it ends with 5, whatever it has done.

GIVEN is a file to which it adds a line for each file that it gets, with the file's MD5. WRONG is how it goes wrong once
it has something to repair: `fails` when half of a file is written; `lies` by writing other bytes and ending with 0; or
the name of a signal, which then ends its caller.
"""

import hashlib
import os
import re
import signal
import sys
import time

sys.path[0] = os.path.dirname(os.path.dirname(os.path.realpath(__file__)))  # imports are relative to tools/
sys.dont_write_bytecode = True

from models.describe_set import NoSet, packets_of, set_of
from models.find_slices import sightings
from models.list_packets import is_packet_file, with_bytes
from models.tell_states import state_of, verdict

WRONG = os.environ.get("WRONG", "")


def name_there(name):
    """Returns the path by which par2 looks for a file of the set."""
    name = name.replace(b"\\", b"/").replace(b"../", b"%2E%2E/")
    return re.sub(rb"[\0-\x1f]", lambda found: b"%%%02X" % found[0][0], name)


def end(status, text):
    print(text)
    sys.exit(status)


def free_name(path):
    number = 1
    while os.path.lexists(path + b".%d" % number):
        number += 1
    return path + b".%d" % number


def write(path, data):
    os.makedirs(os.path.dirname(path) or b".", exist_ok=True)
    with open(path, "xb") as out:
        out.write(data)


def go_wrong(path, data):
    """Goes wrong as WRONG says, at the first file that is to be written."""
    if WRONG == "fails":
        write(path, data[:len(data) // 2])
        end(5, "Repair Failed.")
    if WRONG.startswith("SIG"):
        write(path, data[:len(data) // 2])
        os.kill(os.getppid(), getattr(signal, WRONG))
        time.sleep(900)


def original(file):
    """Returns the content of a file of the set, from some file below ORIGINALS."""
    for above, _, names in os.walk(os.fsencode(os.environ["ORIGINALS"])):
        for name in names:
            with open(os.path.join(above, name), "rb") as whole:
                data = whole.read()
            if len(data) == file.length and hashlib.md5(data).digest() == file.whole:
                return data
    end(6, f"There is no original of {os.fsdecode(file.name)}")


def repair(file, scanned, moved):
    """Makes a file complete. `moved` says where files are that were moved."""
    state, other = state_of(file, scanned)
    if state == "complete":
        return
    if os.path.lexists(file.name):
        moved[file.name] = free_name(file.name)
        os.rename(file.name, moved[file.name])
    other = moved.get(other, other)
    if state == "renamed" and os.path.lexists(other):
        try:
            os.rename(other, file.name)
        except FileNotFoundError:
            end(6, f"{os.fsdecode(other)} cannot be renamed to {os.fsdecode(file.name)}")
        return
    data = original(file)
    go_wrong(file.name, data)
    write(file.name, data[::-1] if WRONG == "lies" else data)


def main():
    words = list(map(os.fsencode, sys.argv[1:]))
    if words[:2] != [b"repair", b"-q"] or not all(map(os.path.isfile, words[2:])):
        end(3, "Wrong words.")
    packets = packets_of(with_bytes(filter(is_packet_file, words[2:])))
    try:
        found = set_of(packets, packets[0][3])
    except NoSet as cause:
        end(4, f"No set: {cause}")
    files = [file._replace(name=name_there(file.name)) for file in found.files]
    there = [file.name for file in files]
    scanned = with_bytes([*filter(os.path.isfile, there),
                          *[word for word in words[2:] if not is_packet_file(word) and word not in there]])
    if "GIVEN" in os.environ:
        with open(os.environ["GIVEN"], "a", encoding="ascii") as given:
            given.writelines(hashlib.md5(data).hexdigest() + "\n" for _, data in scanned)
    seen = list(sightings(found, [data for _, data in scanned]))
    status, lines = verdict(found._replace(files=files), scanned, seen)
    if status == 2:
        end(2, f"You need more recovery blocks: {lines[-2]}")
    moved = {}
    for file in files:
        repair(file, scanned, moved)
    if any(file.length == 0 for file in files):
        end(5, "Repair Failed.")
    end(0, "Repair complete.")


if __name__ == "__main__":
    main()
