"""Reads an image, for `checks/images`. It was written from docs/FORMAT.md alone."""
from array import array
from collections import namedtuple
from struct import unpack_from

SECTOR, VOID, ROOT, ANNEX, BANK = 512, bytes(24), 3, 4, 5
PAGE_CAP, NODE_CAP, SPACE, PROCESS, START, RESUME, BANK_CAP, DISCRIM = range(2, 10)
ROLES = {PAGE_CAP: 1, NODE_CAP: 2, SPACE: 2, PROCESS: ROOT, START: ROOT, RESUME: ROOT, BANK_CAP: BANK}

Shape = namedtuple("Shape", "version nodes pages slots halves homes")
# The sector where an object's home begins (in version 2 a node's home is its cluster), and the byte in it where the frame begins.
Home = namedtuple("Home", "sector offset")
# The root and the directory's sums are those of version 3.
Header = namedtuple("Header", "slot sequence generation entries age root sums", defaults=(None, None))
Cap = namedtuple("Cap", "tag access key height zeros number count")
# A frame at a place: what stands before its body, and the capabilities in its slots, or the words of a page.
Frame = namedtuple("Frame", "place role allocations calls owner slots words")
Saved = namedtuple("Saved", "shape header logged frames")


class Bad(Exception):
    """The image is refused for this reason, from 1 to 10."""


def need(holds, reason):
    if not holds:
        raise Bad(reason)


def is_zero(data, begin, end):
    return data.count(0, begin, end) == end - begin


def sums_of(row):
    """The three sums of the numbers of 4 bytes in a row."""
    a = b = c = 0
    for it in array("I", row):
        a += it
        b += a
        c += b
    return a, b, c


def seal_of(row):
    return unpack_from("<3Q", row, len(row) - 24)


def is_sealed(row):
    return seal_of(row) == sums_of(row[:-24])


def added(total, weight, seal):
    return tuple((one + weight * other) % 2**64 for one, other in zip(total, seal))


def home_in(version, is_node, sector, number):
    """The home of the object with this place in a range that begins at a sector."""
    if not is_node:
        return Home(sector + 9 * number, 0)
    return Home(sector + 2 * number, 0) if version == 1 else Home(sector + 8 * (number // 5), 800 * (number % 5))


def length_of(version, is_node, count):
    """How many sectors a range takes."""
    return 9 * count if not is_node else 2 * count if version == 1 else 8 * ((count + 4) // 5)


def shape_of(data):
    sectors = len(data) // SECTOR
    need(sectors >= 5 and sectors >= unpack_from("<Q", data, 56)[0], 1)
    magic, version, ranges, nodes, pages, slots, half0, half1, total = unpack_from("<8sII6Q", data)
    need(magic == b"EROSCKPT" and version in (1, 2, 3) and is_zero(data, 256, 488 if version == 3 else 512), 2)
    need(version != 3 or is_sealed(data[:SECTOR]), 2)
    need(1 <= ranges <= 8 and 16 <= nodes <= 4096 and 1 <= pages <= 4096 and 16 <= slots <= 4096 and total <= 131072, 3)
    need(is_zero(data, 64 + 24 * ranges, 256), 3)
    length = 9 * slots + (slots + 31) // 32 if version != 3 else (9 * slots + (slots + 29) // 30 + 7) // 8 * 8
    parts, homes, following = [(half0, length), (half1, length)], [], 0
    for place in range(64, 64 + 24 * ranges, 24):
        first, count, sector = unpack_from("<3Q", data, place)
        is_node = first < nodes
        need(first == following and count > 0 and (first >= nodes or first + count <= nodes), 3)
        following = first + count
        need(following <= nodes + pages, 3)
        homes += [home_in(version, is_node, sector, it) for it in range(count)]
        parts.append((sector, length_of(version, is_node, count)))
    need(following == nodes + pages, 3)
    end = 5 if version != 3 else 56
    for sector, count in sorted(parts):
        need(sector >= end and (version != 3 or sector % 8 == 0), 3)
        end = sector + count
    need(end <= total, 3)
    return Shape(version, nodes, pages, slots, (half0, half1), homes)


def number_of_gate(sector):
    """The number of a gate of version 3: that of at least 33 of its 64 copies, unless it is 0."""
    copies = unpack_from("<64Q", sector)
    number = max(set(copies), key=copies.count)
    return number if copies.count(number) > 32 and number else None


def sealed_header_of(data, shape):
    """The committed header of version 3."""
    gates = [number_of_gate(data[SECTOR * (16 + 16 * slot) :][:SECTOR]) for slot in range(3)]
    counting = {}
    for slot in range(3):
        row = data[SECTOR * (8 + 16 * slot) :][:SECTOR]
        sequence, generation, entries, age, *sums = unpack_from("<10Q", row, 8)
        is_sound = row[:8] == b"EROSHEAD" and is_zero(row, 88, 488) and is_sealed(row)
        if is_sound and sequence % 3 == slot and sequence and sequence == gates[slot]:
            counting[sequence] = Header(slot, sequence, generation, entries, age, tuple(sums[:3]), tuple(sums[3:]))
    pairs = [it for it in counting if it - 1 in counting]
    need(pairs, 4)
    header = counting[max(pairs)]
    need(gates[(header.slot + 1) % 3] != header.sequence + 1, 5)
    need(header.entries <= shape.slots and header.age <= 2**62 and header.generation <= 2 * header.age, 5)
    need(header.sequence <= 2 * header.age + 2 + (header.entries == 0), 5)
    return header


def header_of(data, shape):
    if shape.version == 3:
        return sealed_header_of(data, shape)
    counting = []
    for slot in (0, 1):
        header = Header(slot, *unpack_from("<4Q", data, SECTOR * (1 + 2 * slot) + 8))
        if data[SECTOR * (2 + 2 * slot)] == 1 and header.sequence % 2 == slot:
            counting.append(header)
    need(counting, 4)
    header = max(counting, key=lambda it: it.sequence)
    place = SECTOR * (1 + 2 * header.slot)
    need(data[place : place + 8] == b"EROSHEAD" and is_zero(data, place + 40, place + SECTOR), 5)
    need(header.entries <= shape.slots and header.age <= 2**62 and header.generation <= 2 * header.age, 5)
    need(header.sequence <= 2 * header.age + (header.entries == 0), 5)
    return header


def sealed_entries(data, at, header):
    """The entries of a directory of version 3, which begins at a sector."""
    entries, total = [], (0, 0, 0)
    for begin in range(0, header.entries, 30):
        row, count = data[SECTOR * (at + begin // 30) :][:SECTOR], min(30, header.entries - begin)
        need(is_sealed(row) and is_zero(row, 16 * count, 488), 6)
        total = added(total, 1, seal_of(row))
        entries += [unpack_from("<2Q", row, 16 * it) for it in range(count)]
    need(total == header.sums, 6)
    return entries


def logged_in(data, shape, header):
    """The sector of the slot of each object that is in the log, in the order of their numbers."""
    half = shape.halves[header.generation % 2]
    at = half + 9 * shape.slots
    if shape.version == 3:
        entries = sealed_entries(data, at, header)
    else:
        entries = [unpack_from("<2Q", data, SECTOR * at + 16 * it) for it in range(header.entries)]
    need(all(one[0] < two[0] for one, two in zip(entries, entries[1:])), 6)
    need(all(number < shape.nodes + shape.pages and slot < shape.slots for number, slot in entries), 6)
    need(len({slot for _, slot in entries}) == len(entries), 6)
    return {number: half + 9 * slot for number, slot in entries}


def places_of(shape, logged):
    """The byte where the frame of each object begins: in its slot, else in that of the least object with its home, else at home. By version
    3 no node is read from a slot of its own."""
    beside = {shape.homes[number].sector: sector for number, sector in reversed(logged.items())}
    own = logged if shape.version != 3 else {}
    sector_of = lambda number, home: own.get(number, beside.get(home.sector, home.sector))
    return [SECTOR * sector_of(number, home) + home.offset for number, home in enumerate(shape.homes)]


def check_units(data, shape, header, places):
    """Checks the seals of version 3 where the objects are read, the sums of the words of pages, and the root."""
    total, begun = (0, 0, 0), set()
    for number, (home, place) in enumerate(zip(shape.homes, places)):
        begin = place - home.offset
        if number >= shape.nodes:
            row = data[begin : begin + SECTOR]
            words = data[begin + SECTOR : begin + 9 * SECTOR]
            need(is_sealed(row) and is_zero(row, 56, 488) and unpack_from("<3Q", row, 32) == sums_of(words), 7)
        elif home.sector not in begun:
            begun.add(home.sector)
            row, count = data[begin : begin + 8 * SECTOR], sum(it.sector == home.sector for it in shape.homes)
            need(is_sealed(row) and is_zero(row, 800 * count, 4072), 7)
        else:
            continue
        total = added(total, 2 * number + 1, seal_of(row))
    need(total == header.root, 7)


def cap_at(data, place, shape, age):
    cap = Cap(*unpack_from("<BBHB3sQQ", data, place))
    need(cap.tag <= DISCRIM and cap.zeros == bytes(3), 7)
    need(cap.access in ((0, 1, 3) if PAGE_CAP <= cap.tag <= SPACE else (0,)), 7)
    need(cap.key == 0 or cap.tag == START, 7)
    need(1 <= cap.height <= 4 if cap.tag == SPACE else cap.height == 0, 7)
    names = PAGE_CAP <= cap.tag <= BANK_CAP
    first = shape.nodes if cap.tag == PAGE_CAP else 0
    beyond = shape.nodes + shape.pages if cap.tag == PAGE_CAP else shape.nodes
    need(first <= cap.number < beyond if names else cap.number == 0 or cap.tag == 1, 7)
    need(cap.count <= age if names else cap.count == 0, 7)
    return cap


def frame_at(data, place, number, shape, age):
    role, zeros, allocations, calls, owner = unpack_from("<B7s3Q", data, place)
    need(zeros == bytes(7) and allocations <= age and calls <= age, 7)
    is_page, slots, words = number >= shape.nodes, {}, ()
    need(role in ((0, 1) if is_page else (0, 2, ROOT, ANNEX, BANK)) and (role or owner == 0), 7)
    if is_page:
        need(shape.version == 3 or is_zero(data, place + 32, place + 512), 7)
        words = unpack_from("<512Q", data, place + 512)
        need(role or not any(words), 7)
    else:
        need(shape.version != 1 or is_zero(data, place + 800, place + 1024), 7)
        for slot in range(32):
            at = place + 32 + 24 * slot
            if data[at : at + 24] != VOID:
                slots[slot] = cap_at(data, at, shape, age)
        need(role or not slots, 7)
    tags = {slot: cap.tag for slot, cap in slots.items()}
    if role == ROOT:
        need(all(tags.get(it) == 1 for it in range(7)) and tags.get(7, 0) in (0, PAGE_CAP, SPACE) and max(tags) < 8, 7)
        need(slots[1].number <= 2 and slots[6].number <= 65535, 7)
    need(role != ANNEX or 0 not in slots, 7)
    need(role != BANK or tags == {0: 1}, 7)
    return Frame(place, role, allocations, calls, owner, slots, words)


def is_stale(cap, frames):
    """Whether a capability acts as void: its count is below its object's. No capability of a valid image has a greater count."""
    return cap.tag in ROLES and cap.count < (frames[cap.number].calls if cap.tag == RESUME else frames[cap.number].allocations)


def check_caps(frames):
    held = [(it, cap) for it in frames for slot, cap in it.slots.items() if it.role in (2, ANNEX) or it.role == ROOT and slot == 7]
    for _, cap in held:
        if cap.tag in ROLES:
            target = frames[cap.number]
            need(cap.count <= (target.calls if cap.tag == RESUME else target.allocations), 8)
            if not is_stale(cap, frames):
                need(target.role == ROLES[cap.tag] and (cap.tag != RESUME or target.slots[1].number == 2), 8)


def check_processes(frames):
    annexes = []
    for frame in frames:
        if frame.role == ROOT:
            annex = frame.slots[0].number
            need(annex < len(frames) and frames[annex].role == ANNEX and frames[annex].owner == frame.owner, 9)
            annexes.append(annex)
    need(sorted(annexes) == [number for number, it in enumerate(frames) if it.role == ANNEX], 9)


def usages(frames):
    """The usage of each bank. Each owner must be a bank, the chains of owners must end at bank 0, and they must be short enough."""
    need(frames[0].role == BANK and frames[0].owner == 0, 10)
    used = {number: 0 for number, it in enumerate(frames) if it.role == BANK}
    for number, frame in enumerate(frames):
        if frame.role:
            bank, chain = frame.owner, [frame.owner]
            while bank and len(chain) <= 16:
                need(bank in used, 10)
                bank = frames[bank].owner
                chain.append(bank)
            # The chain of a bank begins with the bank itself, before its owner's.
            need(len(chain) + (frame.role == BANK and number != 0) <= 16, 10)
            for it in chain:
                used[it] += it != number
    return used


def read(data):
    """What an image holds. Raises Bad with the least reason for which it is refused."""
    shape = shape_of(data)
    header = header_of(data, shape)
    logged = logged_in(data, shape, header)
    places = places_of(shape, logged)
    if shape.version == 3:
        check_units(data, shape, header, places)
    frames = [frame_at(data, place, number, shape, header.age) for number, place in enumerate(places)]
    check_caps(frames)
    check_processes(frames)
    for bank, used in usages(frames).items():
        need(used <= frames[bank].slots[0].number, 10)
    return Saved(shape, header, logged, frames)


def littered(data):
    """The sectors of the clusters with a byte other than 0 where no frame or seal lies: of those at home, and of the log's slots."""
    shape, offsets = shape_of(data), {}
    if shape.version == 1:
        return []
    for home in shape.homes[: shape.nodes]:
        offsets.setdefault(home.sector, []).append(home.offset)
    logged = logged_in(data, shape, header_of(data, shape))
    clusters = [*offsets.items(), *((sector, offsets[shape.homes[it].sector]) for it, sector in logged.items() if it < shape.nodes)]

    def rest(sector, begins):
        bytes_there = bytearray(data[SECTOR * sector : SECTOR * (sector + 8)])
        for begin in begins:
            bytes_there[begin : begin + 800] = bytes(800)
        return any(bytes_there[:4072] if shape.version == 3 else bytes_there)

    return [sector for sector, begins in clusters if rest(sector, begins)]
