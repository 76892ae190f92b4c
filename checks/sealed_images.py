"""Images of version 3 of the layout, made by docs/FORMAT.md alone. Each has one thing wrong, and the line that explains it."""
from struct import pack, pack_into, unpack_from

SECTOR = 512
NODES, PAGES, LOG, AGE = 16, 2, 16, 9
# The first sectors of the nodes, of the pages and of the two halves of the log, and how many there are.
AT_NODES, AT_PAGES, HALVES, TOTAL = 56, 88, (112, 264), 416
DIRECTORY = HALVES[0] + 9 * LOG


def sums(row):
    """The three sums of the numbers of 4 bytes in a row."""
    a = b = c = 0
    for at in range(0, len(row), 4):
        a += unpack_from("<I", row, at)[0]
        b += a
        c += b
    return a, b, c


def sealed(row):
    return bytes(row[:-24]) + pack("<3Q", *sums(row[:-24]))


def put(image, sector, row):
    image[SECTOR * sector : SECTOR * sector + len(row)] = row


def superblock():
    row = bytearray(SECTOR)
    row[:8] = b"EROSCKPT"
    pack_into("<2I", row, 8, 3, 2)
    pack_into("<6Q", row, 16, NODES, PAGES, LOG, *HALVES, TOTAL)
    pack_into("<6Q", row, 64, 0, NODES, AT_NODES, NODES, PAGES, AT_PAGES)
    return sealed(row)


def header(sequence, generation=0, entries=0, age=AGE, root=(0, 0, 0), directory=(0, 0, 0)):
    row = bytearray(SECTOR)
    row[:8] = b"EROSHEAD"
    pack_into("<10Q", row, 8, sequence, generation, entries, age, *root, *directory)
    return sealed(row)


def gate(number):
    return pack("<Q", number) * 64


def root_of(image):
    """The root of all clusters and pages at home."""
    units = [(2 * it + 1, SECTOR * (AT_NODES + 8 * (it // 5)), 4072) for it in range(0, NODES, 5)]
    units += [(2 * (NODES + it) + 1, SECTOR * (AT_PAGES + 9 * it), 488) for it in range(PAGES)]
    parts = [[weight * it for it in sums(image[at : at + size])] for weight, at, size in units]
    return tuple(sum(it) % 2**64 for it in zip(*parts))


def image(*changes, cluster=None, **fields):
    """An image of free numbers, with headers 1 and 2. A change is a sector and its bytes, or a byte to flip. A cluster is its sector, a
    byte in it and its value."""
    data = bytearray(SECTOR * TOTAL)
    put(data, 0, superblock())
    if cluster:
        row = bytearray(4096)
        row[cluster[1]] = cluster[2]
        put(data, cluster[0], sealed(row))
    fields.setdefault("root", root_of(data))
    for sequence in (1, 2):
        put(data, 8 + 16 * sequence, header(sequence, **fields))
        put(data, 16 + 16 * sequence, gate(sequence))
    for at, new in changes:
        if new is None:
            data[at] ^= 1
        else:
            put(data, at, new)
    return bytes(data)


def flipped(sector, at):
    return image((SECTOR * sector + at, None))


def with_directory(entries, sums_are=None, rest=0):
    """An image with a directory of these entries. The byte before its seal has this value."""
    row = bytearray(SECTOR)
    for index, entry in enumerate(entries):
        pack_into("<2Q", row, 16 * index, *entry)
    row[487] = rest
    return image((DIRECTORY, sealed(row)), entries=len(entries), directory=sums_are or sums(row[:-24]))


def cases():
    """The images, each with its line."""
    none, first = "header 0 has a gate without a number", "header 1 has the number 1 and no neighbour"
    place, last = f"directory in sector {DIRECTORY}", AT_NODES + 24
    yield image(), "number 0: not a bank that owns itself (bad image 10)"
    yield image()[:-SECTOR], f"there are {TOTAL - 1} sectors, and the image needs {TOTAL} (bad image 1)"
    yield flipped(0, 300), "superblock: a byte from 256 on is not 0 (bad image 2)"
    yield flipped(0, 500), "superblock: the seal is wrong (bad image 2)"
    yield flipped(0, 20), "superblock: the seal is wrong (bad image 2)"
    yield flipped(40, 100), f"{none}, {first}, and header 2 is not a sealed header (bad image 4)"
    moved = image((32, gate(7)), (40, header(4)))
    yield moved, f"{none}, header 1 has number 1 and gate 7, and header 2 has the number 4 of another slot (bad image 4)"
    yield image((16, gate(3))), "header in sector 8: it is damaged, but its gate has the number 3 (bad image 5)"
    yield image(entries=LOG + 1), f"header in sector 40: entries {LOG + 1} is above the slots {LOG} (bad image 5)"
    yield image(age=2**62 + 1), f"header in sector 40: age {2**62 + 1} is above {2**62} (bad image 5)"
    yield image(generation=19), f"header in sector 40: generation 19 is above twice the age {AGE} (bad image 5)"
    yield image((SECTOR * DIRECTORY + 3, None), entries=1), f"{place}: the seal is wrong (bad image 6)"
    yield with_directory([(1, 0)], rest=1), f"{place}: a byte after its entries is not 0 (bad image 6)"
    yield with_directory([(1, 0)], (1, 2, 3)), f"{place}: its seals do not add up to the sums in the header (bad image 6)"
    yield with_directory([(18, 0)]), f"{place}, entry 0: there is no object 18 (bad image 6)"
    yield with_directory([(1, 3), (2, 3)]), f"{place}, entry 1: slot 3 is also that of entry 0 (bad image 6)"
    yield flipped(AT_NODES + 8, 9), "cluster of node 5: the seal is wrong (bad image 7)"
    yield image(cluster=(last, 900, 1)), "cluster of node 15: a byte after its frames is not 0 (bad image 7)"
    yield flipped(AT_PAGES, 100), f"page {NODES}: the seal is wrong (bad image 7)"
    yield flipped(AT_PAGES + 10, 7), f"page {NODES + 1}: its header sector does not have the sums of its words (bad image 7)"
    yield image(root=(1, 0, 0)), "the clusters and pages do not add up to the root in the header (bad image 7)"
    yield image(cluster=(AT_NODES, 800 * 3 + 8, 10)), f"node 3: allocation count 10 is above the age {AGE} (bad image 7)"
