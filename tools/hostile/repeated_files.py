"""A grammar of content that repeats, as in disk images, bitmaps and sound, over which hostile.py runs parv.

A case is made as in joined_files.py, from other bytes: runs of zeros, of one byte and of two letters, and the same few
bytes again and again, with other bytes here and there. So most slices are equal to other ones, and a search meets
slices at very many offsets after it has found all that are equal to them.
"""

from hostile.joined_files import Joined, case_of

SIZES = [4, 4, 8, 8, 12, 16, 20, 24, 32, 48, 64, 100]
PERIODS = [1, 2, 3, 4, 5, 7, 8, 16, 20, 61]
RUNS = [1, 7, 40, 200, 800, 3000]           # how many bytes repeat in a run, at most
MOST_SLICES = [20, 60, 150, 400]


class Repeated(Joined):
    """A case whose bytes repeat."""

    def prepare(self):
        chance = self.chance
        self.many, self.size = False, chance.choice(SIZES)
        self.patterns = [bytes(chance.choice([1, 1, 3])), bytes([chance.randrange(256)])]
        self.patterns += [chance.randbytes(chance.choice([*PERIODS, self.size])) for _ in range(chance.randrange(3))]
        self.longest = chance.choice(RUNS)
        self.islands = chance.choice([0, 0.05, 0.3, 0.6])

    def some(self, length):
        """Returns bytes of this length, most of which repeat."""
        data = bytearray()
        while len(data) < length:
            run = self.chance.randrange(1, self.longest + 1)
            if self.is_so(self.islands):
                data += self.chance.choice([self.chance.randbytes(run % 50), bytes(self.chance.choices(b"ab", k=run))])
            else:
                pattern = self.chance.choice(self.patterns)
                data += (pattern * (run // len(pattern) + 1))[:run]
        return bytes(data[:length])

    def lengths(self):
        """Returns the lengths of one file or a few, with many slices."""
        count, most = self.chance.choice([1, 1, 2, 3, 6]), self.chance.choice(MOST_SLICES)
        return [self.chance.randrange(1, 1 + most * self.size // count) for _ in range(count)]


def case(chance):
    """Returns the packet file and the files to scan of one case."""
    return case_of(Repeated(chance))
