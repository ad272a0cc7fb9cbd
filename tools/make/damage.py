"""Damages bytes: each function here changes a bytearray, and `in_file` applies one to a file."""


def flip(data, at, count=1, bits=0xFF):
    """Inverts these bits in `count` bytes."""
    for place in range(at, at + count):
        data[place] ^= bits


def insert(data, at, more):
    data[at:at] = more


def remove(data, at, count):
    del data[at:at + count]


def cut(data, length):
    """Keeps only the first `length` bytes."""
    del data[length:]


def zero(data, at, count):
    """Overwrites bytes with zeros, as far as there are any."""
    data[at:at + count] = bytes(len(data[at:at + count]))


def turn(data, at):
    """Moves the bytes before this place to the end."""
    data[:] = data[at:] + data[:at]


def swap(data, at, size):
    """Exchanges two parts of this size that follow one another."""
    data[at:at + 2 * size] = data[at + size:at + 2 * size] + data[at:at + size]


def in_file(path, damage, *words):
    """Damages the bytes of a file, and writes them back."""
    with open(path, "rb") as file:
        data = bytearray(file.read())
    damage(data, *words)
    with open(path, "wb") as file:
        file.write(data)
