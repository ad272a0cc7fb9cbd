"""A grammar of files that are joined, as on the image of a disc, over which hostile.py runs parv.

A case follows only from a random.Random. It has a packet file, and files to scan, as pairs of name and bytes. The files
of the set have 1 to 257 lengths below the slice size, and many of their slices may be equal. The scanned files are
images, in which files of the set are padded, shifted, laid over one another or damaged, and some files of the set.
"""

import collections

from make import damage
from make.packets import desc_body, file_id, filled, ifsc_body, main_body, recvslic_body, set_of, slices

SIZES = [4, 8, 12, 16, 20, 32, 64, 64]
SIZES_OF_MANY = [260, 264, 300]
MANY = [100, 200, 255, 256, 256, 256, 257]  # lengths below the slice size, of which 256 may be looked for
UNITS = [1, 1, 1, 4, 512, 512, 2048]        # what the files in an image are padded to
WINDOWS = 400_000                           # pairs of an offset and a length that the model looks at
SIGHTINGS = 200_000                         # of equal slices, as of zeros, if they were at each offset
LETTERS = [b"", b"", b"", b"ab", b"abcd\0", b"a\0"]
ODDS = [0, 0, 0.2, 0.8, 1]


class Joined:
    """What the files of a case have in common: the random numbers, a slice size, and the bytes that they are made
    of."""

    def __init__(self, chance):
        self.chance = chance
        self.prepare()
        self.front, self.end = self.some(3 * self.size), self.some(self.size)
        self.equal_fronts, self.equal_ends, self.zero_ends = chance.choices(ODDS, k=3)

    def prepare(self):
        """Chooses the slice size, and what the bytes are like."""
        self.many = self.chance.randrange(15) == 0
        self.size = self.chance.choice(SIZES_OF_MANY if self.many else SIZES)
        self.letters = b"" if self.many else self.chance.choice(LETTERS)

    def some(self, length):
        """Returns bytes of this length, from the letters of the case, or any bytes."""
        if not self.letters:
            return self.chance.randbytes(length)
        return bytes(self.chance.choices(self.letters, k=length))

    def is_so(self, odds):
        return self.chance.random() < odds

    def lengths(self):
        """Returns the lengths of the files. Some are shorter than a slice, and some have no short slice."""
        chance, size = self.chance, self.size
        if self.many:
            return [chance.randrange(2) * size + tail for tail in chance.sample(range(1, size), chance.choice(MANY))]
        tails = chance.sample(range(1, size), min(size - 1, chance.choice([1, 1, 2, 3, 7, 20, 63])))
        tails += [0] * chance.randrange(2)
        count = chance.choice([1, 2, 3, 5, 8, 20, 40, 80])
        return [chance.choice([0, 1, 1, 2, 3]) * size + chance.choice(tails) for _ in range(count)]


def content_of(joined, length):
    """Returns the bytes of a file. Its full-length slices and its last one may be those of other files."""
    tail = length % joined.size
    front = joined.front if joined.is_so(joined.equal_fronts) else joined.some(length)
    end = joined.end[:tail] if joined.is_so(joined.equal_ends) else joined.some(tail)
    if joined.is_so(joined.zero_ends):
        zeros = joined.chance.randrange(tail + 1)
        end = end[:tail - zeros] + bytes(zeros)
    return front[:length - tail] + end


def members_of(joined):
    """Returns the files of the set, as pairs of name and content."""
    return [(b"%03d.bin" % number, content_of(joined, length)) for number, length in enumerate(joined.lengths())]


def wrong_sums(joined, sums):
    """Returns the body of IFSC with another MD5 for one slice, whose CRC-32 stays."""
    at = 16 + joined.chance.randrange((len(sums) - 16) // 20) * 20
    return sums[:at] + bytes(16) + sums[at + 16:]


def packet_file(joined, members):
    """Returns the packets of the set. A few files have no checksums of slices, or wrong ones."""
    ids = [file_id(name, content) for name, content in members]
    bodies, without, wrong = [], joined.chance.choice([0, 0, 0.1]), joined.chance.choice([0, 0, 0.1])
    for owner, (name, content) in zip(ids, members):
        bodies.append(("filedesc", desc_body(owner, name, content)))
        sums = ifsc_body(owner, content, joined.size)
        if content and joined.is_so(wrong):
            sums = wrong_sums(joined, sums)
        if not joined.is_so(without):
            bodies.append(("ifsc", sums))
    bodies += [("recvslic", recvslic_body(exponent, bytes(joined.size)))
               for exponent in range(joined.chance.choice([0, 1, 3, 30]))]
    return set_of(main_body(joined.size, ids), *bodies)


# Changes of an image, which is a bytearray.

def flip_some(joined, data):
    for _ in range(joined.chance.choice([1, 2, 9])):
        damage.flip(data, joined.chance.randrange(len(data)))


def take_out(joined, data):
    damage.remove(data, joined.chance.randrange(len(data)), joined.chance.randrange(1, 2 * joined.size))


def put_in(joined, data):
    more = joined.some(joined.chance.randrange(1, 2 * joined.size))
    damage.insert(data, joined.chance.randrange(len(data)), more)


def zero_some(joined, data):
    damage.zero(data, joined.chance.randrange(len(data)), joined.chance.randrange(1, 3 * joined.size))


def turn(joined, data):
    damage.turn(data, joined.chance.randrange(len(data)))


def cut(joined, data):
    damage.cut(data, joined.chance.randrange(len(data)))


CHANGES = [flip_some, flip_some, take_out, put_in, zero_some, turn, cut]


def damaged(joined, data):
    """Returns the bytes after one or more changes."""
    data = bytearray(data)
    for _ in range(joined.chance.choice([1, 1, 2, 4])):
        if data:
            joined.chance.choice(CHANGES)(joined, data)
    return bytes(data)


def parts_of(joined, contents):
    """Yields the parts of an image, in order: whole files, mostly, and in some images parts of them."""
    chance, size, odds = joined.chance, joined.size, joined.chance.choice([0, 0, 0.3])
    for content in contents:
        if joined.is_so(odds):
            tail = len(content) % size
            content = chance.choice([content[len(content) - tail:], content[:len(content) - tail], content[1:],
                                     content[:size] + content[len(content) - tail:], content[:-1], content[::-1]])
        yield content


def image_of(joined, contents, most):
    """Returns an image of these contents, of at most `most` bytes."""
    chance, size = joined.chance, joined.size
    unit, zeros, over = chance.choice(UNITS), chance.randrange(2), chance.choice([0, 0, 0, 0.3])
    image = bytearray(joined.some(chance.choice([0, 0, 1, size - 1, size, chance.randrange(4 * size)])))
    for content in parts_of(joined, contents):
        if len(image) + len(content) > most:
            break
        at = max(0, len(image) - chance.randrange(1, 2 * size)) if joined.is_so(over) else len(image)
        image[at:at + len(content)] = content
        padding = -len(image) % unit
        image += bytes(padding) if zeros else joined.some(padding)
    image += joined.some(chance.choice([0, 0, 1, size]))
    return (damaged(joined, image) if chance.randrange(3) == 0 else bytes(image))[:most]


def contents_for(joined, contents):
    """Returns the contents in an image: all of them, or some, some of them twice."""
    chance = joined.chance
    some = [content for content in contents if chance.randrange(5)]
    return chance.choice([contents, some, some, chance.sample(contents, len(contents)),
                          chance.choices(contents, k=len(contents))])


def most_scanned(joined, contents):
    """Returns how many bytes are scanned at most, so that a search ends soon."""
    equal = collections.Counter(filled(part, joined.size) for content in contents
                                for part in slices(content, joined.size))
    lengths = {len(content) % joined.size for content in contents} | {0}
    return min(WINDOWS // len(lengths), SIGHTINGS // max(equal.values(), default=1))


def scanned_of(joined, members):
    """Returns the files to scan: one image or two, and some files of the set, as they are, renamed or damaged."""
    chance, contents = joined.chance, [content for _, content in members]
    left, files = most_scanned(joined, contents), {}
    for name in [b"disc.img", b"other.img"][:chance.choice([1, 1, 2])]:
        files[name] = image_of(joined, contents_for(joined, contents), left)
        left -= len(files[name])
    for name, content in chance.sample(members, chance.choice([0, 0, min(3, len(members)), len(members)])):
        content, renamed = chance.choice([content, content, damaged(joined, content)]), chance.randrange(6) == 0
        left -= len(content)
        if left > 0:
            files[b"other " + name if renamed else name] = content
    return chance.sample(list(files.items()), len(files))


def case_of(joined):
    """Returns the packet file and the files to scan of a case."""
    members = members_of(joined)
    return [(b"set.par2", packet_file(joined, members))], scanned_of(joined, members)


def case(chance):
    """Returns the packet file and the files to scan of one case."""
    return case_of(Joined(chance))
