"""Random changes of images: of bytes, sectors and frames, and of each kind of field near its limits."""
import random

from reader import ANNEX, BANK, RESUME, ROOT, SECTOR, SPACE, START, length_of, usages


class Changed:
    """A copy of an image, with the places of its parts."""

    def __init__(self, data, saved, chance):
        self.data, self.saved, self.chance = bytearray(data), saved, chance
        self.frames, self.shape, self.age = saved.frames, saved.shape, saved.header.age

    def number_at(self, place):
        return int.from_bytes(self.data[place : place + 8], "little")

    def put(self, place, number, size=8):
        self.data[place : place + size] = (number % 2 ** (8 * size)).to_bytes(size, "little")

    def some(self, *roles):
        """The number of an object with one of these roles, or of any object if none has one."""
        return self.chance.choice([it for it, frame in enumerate(self.frames) if frame.role in roles] or range(len(self.frames)))

    def any_number(self):
        return self.chance.randrange(len(self.frames))

    def near(self, *numbers):
        """One of these numbers or one beside it; at times a very great one."""
        some = [*numbers, 0, len(self.frames), 2**62, 2**63, 2**64 - 1] if self.chance.random() < 0.2 else numbers
        return self.chance.choice(some) + self.chance.choice((0, 0, -1, 1))

    def looked_at(self):
        """A sector that the program reads, or that it would read in another image."""
        parts = [0, 0, 1, 2, 3, 4, *(frame.place // SECTOR + self.chance.randrange(2) for frame in self.frames)]
        return self.chance.choice([*parts, *(it + 9 * self.shape.slots for it in self.shape.halves)])


def some_byte(it):
    place = SECTOR * it.looked_at() + it.chance.choice((it.chance.randrange(SECTOR), it.chance.randrange(64)))
    it.data[place] = it.chance.choice((0, 1, 2, 255, it.data[place] ^ 1 << it.chance.randrange(8), it.chance.randrange(256)))


def swapped_sectors(it):
    one, two = (SECTOR * it.looked_at() for _ in range(2))
    it.data[one : one + SECTOR], it.data[two : two + SECTOR] = it.data[two : two + SECTOR], it.data[one : one + SECTOR]


def copied_sector(it):
    one, two = (SECTOR * it.looked_at() for _ in range(2))
    it.data[one : one + SECTOR] = it.data[two : two + SECTOR]


def copied_frame(it):
    """Copies the frame of an object over another, mostly over a free one."""
    target = it.some(0) if it.chance.random() < 0.7 else it.any_number()
    source = it.any_number()
    size = 4608 if target >= it.shape.nodes else 1024 if it.shape.version == 1 else 800
    one, two = it.frames[target].place, it.frames[source].place
    it.data[one : one + size] = it.data[two : two + size]
    if it.frames[source].role == ROOT and it.chance.random() < 0.7:
        it.put(one + 40, it.any_number())


def gate(it):
    it.data[SECTOR * it.chance.choice((2, 4))] = it.chance.choice((0, 0, 1, 1, 1, 2, 255))


def header(it):
    """Sets a field of a header near its limits."""
    place, age = SECTOR * it.chance.choice((1, 3)), it.age
    field = it.chance.choice((8, 16, 24, 32))
    sequence, entries = it.saved.header.sequence, it.saved.header.entries
    near = {8: (sequence, sequence + 2, 2 * age, 2 * age + 1), 16: (it.saved.header.generation, 2 * age), 24: (entries, 1, it.shape.slots), 32: (age, age + 5, age - 1, 2**62)}
    it.put(place + field, it.near(*near[field]))


def other_header(it):
    """Copies the committed header to the other slot, with another sequence number and an open gate."""
    one, two = (1, 3) if it.saved.header.slot == 0 else (3, 1)
    it.data[SECTOR * two : SECTOR * two + 1024] = it.data[SECTOR * one : SECTOR * one + 1024]
    it.put(SECTOR * two + 8, it.saved.header.sequence + it.chance.choice((1, 1, -1, 3, 2)))
    it.put(SECTOR * two + it.chance.choice((16, 24)), it.chance.randrange(3))


def entry(it):
    """Doubles an entry of the directory, or gives it another object or slot."""
    entries = it.saved.header.entries
    place = SECTOR * (it.shape.halves[it.saved.header.generation % 2] + 9 * it.shape.slots)
    at, other = (place + 16 * it.chance.randrange(entries + 1) for _ in range(2))
    kind = it.chance.randrange(5)
    if kind == 0:
        it.data[at : at + 16] = it.data[other : other + 16]
    elif kind == 1:
        it.put(at, it.near(it.number_at(at), it.any_number()))
    elif kind == 2:
        it.put(at + 8, it.near(it.number_at(at + 8), it.chance.randrange(it.shape.slots), it.shape.slots))
    elif kind == 3:
        it.data[at + 8 : at + 16], it.data[other + 8 : other + 16] = it.data[other + 8 : other + 16], it.data[at + 8 : at + 16]
    else:
        it.put(SECTOR * (1 + 2 * it.saved.header.slot) + 24, it.near(entries))


def role(it):
    it.data[it.frames[it.any_number()].place] = it.chance.randrange(7)


def owner(it):
    """Changes an owner to another object, or makes two banks own each other."""
    one, two = it.some(BANK), it.some(BANK)
    if it.chance.random() < 0.3:
        it.put(it.frames[one].place + 24, two)
        it.put(it.frames[two].place + 24, one)
    else:
        it.put(it.frames[it.some(1, 2, 3, 4, 5)].place + 24, it.chance.choice((one, one, it.near(it.any_number()))))


def counts(it):
    frame = it.frames[it.any_number()]
    place = frame.place + it.chance.choice((8, 16))
    it.put(place, it.near(it.number_at(place), it.number_at(place) + 1, it.age))


def cap_place(it):
    """A place of a capability: in a node, an annex, or an address space."""
    number = it.some(2, 4, ROOT)
    frame = it.frames[number]
    slot = 7 if frame.role == ROOT else it.chance.choice([*frame.slots, it.chance.randrange(1, 32)])
    return frame.place + 32 + 24 * slot


def cap(it):
    """Writes a capability, mostly one by the rules, with a count that is stale, live or ahead."""
    place, tag = cap_place(it), it.chance.randrange(10)
    wanted = {2: (1,), 3: (2,), 4: (2,), 5: (3,), 6: (3,), 7: (3,), 8: (5,)}
    number = it.some(*wanted[tag]) if tag in wanted and it.chance.random() < 0.7 else it.any_number()
    frame = it.frames[number]
    it.data[place : place + 24] = bytes(24)
    it.data[place] = tag
    if 2 <= tag <= 4:
        it.data[place + 1] = it.chance.choice((0, 0, 1, 3, 3, 2))
    if tag == START:
        it.put(place + 2, it.chance.randrange(65536), 2)
    if tag == SPACE:
        it.data[place + 4] = it.chance.choice((1, 2, 3, 4, 4, 5))
    if 1 <= tag <= 8:
        it.put(place + 8, number)
    if 2 <= tag <= 8:
        count = frame.calls if tag == RESUME else frame.allocations
        it.put(place + 16, max(0, count + it.chance.choice((0, 0, 0, -1, 1))))


def cap_field(it):
    place = cap_place(it)
    offset, size = it.chance.choice(((0, 1), (1, 1), (2, 2), (4, 1), (5, 1), (8, 8), (16, 8), (16, 8)))
    number = int.from_bytes(it.data[place + offset : place + offset + size], "little")
    it.put(place + offset, it.chance.choice((number + 1, number - 1, it.chance.randrange(8), it.any_number())), size)


def process(it):
    """Changes a field of a process: its annex, state, words or key."""
    place = it.frames[it.some(ROOT)].place + 40
    slot = it.chance.choice((0, 0, 0, 1, 1, 2, 6))
    it.put(place + 24 * slot, it.chance.choice((it.some(ANNEX), it.near(it.any_number()), it.chance.randrange(4), 65535, 65536)))


def limit(it):
    bank = it.some(BANK)
    it.put(it.frames[bank].place + 40, it.near(usages(it.frames).get(bank, 0)))


def added(it):
    """Makes a free number a node, a page or a bank."""
    number = it.some(0)
    place = it.frames[number].place
    kind = 1 if number >= it.shape.nodes else it.chance.choice((2, 5))
    it.put(place, kind, 1)
    it.put(place + 24, it.some(BANK))
    if kind == BANK:
        it.data[place + 32] = 1
        it.put(place + 40, it.chance.randrange(4))


def superblock(it):
    """Changes a field of the superblock, or splits, joins or swaps ranges."""
    kind = it.chance.randrange(4)
    place = it.chance.choice((8, 12, 16, 24, 32, 40, 48, 56, *range(64, 136, 8)))
    if kind == 0:
        size = 4 if place < 16 else 8
        number = int.from_bytes(it.data[place : place + size], "little")
        it.put(place, it.near(number, number + 1, 2 * number), size)
    elif kind == 1:
        it.data[40:48], it.data[48:56] = it.data[48:56], it.data[40:48]
    elif kind == 2:
        # The range of nodes is cut in two.
        first, count, sector = (it.number_at(64 + 8 * at) for at in range(3))
        cut = it.chance.randrange(count + 1)
        it.data[112:256] = it.data[88:232]
        it.put(72, cut)
        for at, number in enumerate((first + cut, count - cut, sector + length_of(it.shape.version, True, cut))):
            it.put(88 + 8 * at, number)
        it.put(12, it.data[12] + it.chance.choice((1, 1, 1, 0)), 1)
    else:
        one, two = (64 + 24 * it.chance.randrange(8) for _ in range(2))
        it.data[one : one + 24], it.data[two : two + 24] = it.data[two : two + 24], it.data[one : one + 24]


def length(it):
    total = min(it.number_at(56) * SECTOR, len(it.data))
    size = it.chance.choice((0, 511, 512, 2559, 2560, total - 1, total, total + 1, total + SECTOR, it.chance.randrange(max(1, total))))
    if it.chance.random() < 0.5:
        it.data = it.data[:size].ljust(size, b"\0")


CHANGES = [
    some_byte, some_byte, swapped_sectors, copied_sector, copied_frame, copied_frame, gate, header, header, other_header, entry, entry,
    role, owner, owner, counts, counts, cap, cap, cap, cap_field, cap_field, process, process, limit, added, added, superblock, superblock, length,
]


def by_chance(bases, seed, number):
    chance = random.Random(f"{seed} {number}")
    changed = Changed(*chance.choice(bases), chance)
    whole = len(changed.data)
    for _ in range(chance.choice((1, 1, 2, 3))):
        # An image that was cut short has no more changes: its parts may be gone.
        if len(changed.data) >= whole:
            chance.choice(CHANGES)(changed)
    return bytes(changed.data), chance
