"""Contents for files that are made."""

import hashlib


def noise(name, length):
    """Returns bytes that look random and follow only from the name."""
    return hashlib.shake_256(name.encode() if isinstance(name, str) else name).digest(length)


def write(path, *parts):
    """Writes a file with these parts."""
    with open(path, "wb") as out:
        out.write(b"".join(parts))
