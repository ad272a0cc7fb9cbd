"""Writes the pictures of the demo into the current folder. Each has the first bytes of SHAKE-256 of its own name."""

import hashlib

for name, length in [("beach.raw", 20000), ("harbour.raw", 12288), ("tower.raw", 5001)]:
    with open(name, "wb") as file:
        file.write(hashlib.shake_256(name.encode()).digest(length))
