#!/usr/bin/env python3
"""Reads and writes cursors, and makes the fingerprint of a file list, independently of parv.

usage: cursor_texts.py [-B DIR] FILE...

Prints the fingerprint of these files, in this order, as `parv find` has it in its last line.
"""

import hashlib
import os
import re
import sys
from typing import NamedTuple, Optional

DIGITS, NUMBER = "([0-9a-f]{32})", "(0|[1-9][0-9]*)"
PLACE = ":".join([NUMBER] * 3)
FORMS = [f"{DIGITS}():{PLACE}", f"2:{DIGITS}:{DIGITS}:{PLACE}"]
BOUNDS = (2**32, 2**64, 2**32)


class Cursor(NamedTuple):
    """The content of a cursor: the set, the fingerprint of the file list (None in version 1), and the three numbers."""
    set: str
    mark: Optional[str]
    at: tuple


def eight(value):
    """Returns a number as eight bytes, the least significant first."""
    return value.to_bytes(8, "little")


def mark_of(names, lengths):
    """Returns the fingerprint of a list of scanned files, from their names (without the base) and lengths."""
    listed = [eight(len(name)) + name + eight(length) for name, length in zip(names, lengths)]
    return hashlib.md5(b"".join(listed)).hexdigest()


def text_of(cursor):
    """Returns the text of a cursor: of version 2 if it has a fingerprint."""
    head = [cursor.set] if cursor.mark is None else ["2", cursor.set, cursor.mark]
    return ":".join([*head, *map(str, cursor.at)])


def read(text):
    """Returns the cursor that a text is, or None."""
    for form in FORMS:
        found = re.fullmatch(form, text)
        if found:
            owner, mark, *numbers = found.groups()
            at = tuple(map(int, numbers))
            if all(value < bound for value, bound in zip(at, BOUNDS)):
                return Cursor(owner, mark or None, at)
    return None


def without(base, name):
    """Returns the name of a scanned file: without the base and a slash, if it begins with these."""
    front = base if base.endswith(b"/") else base + b"/"
    return name[len(front):] if base and name.startswith(front) else name


def main():
    base, names = b"", [os.fsencode(word) for word in sys.argv[1:]]
    if names[:1] == [b"-B"]:
        base, names = names[1], names[2:]
    print(mark_of([without(base, name) for name in names], map(os.path.getsize, names)))


if __name__ == "__main__":
    main()
