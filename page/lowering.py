"""Lowers a WebAssembly module with a 64-bit memory to one with a 32-bit memory, which every browser runs. Addresses stay i64 in all types,
and are wrapped where memory or a table is accessed. A module that needs an address from 2^32 on would differ: its memory can't grow so
far. Refuses what it does not know."""
I32, I64, F32, F64, V128 = 0x7F, 0x7E, 0x7D, 0x7C, 0x7B
# A second local of 64 bits.
OTHER = I64 | 0x100
SPARES = (I32, I64, F32, F64, OTHER, V128)
WRAP, EXTEND = b"\xa7", b"\xad"
EXTEND_SIGNED = b"\xac"
GET, SET = 0x20, 0x21
# What a store takes beside the address.
STORED = {0x36: I32, 0x37: I64, 0x38: F32, 0x39: F64, 0x3A: I32, 0x3B: I32, 0x3C: I64, 0x3D: I64, 0x3E: I64}
LOADS = range(0x28, 0x36)
BLOCKS, INDEXED = (0x02, 0x03, 0x04), (0x0C, 0x0D, 0x10, 0x20, 0x21, 0x22, 0x23, 0x24, 0xD2)
CONSTANTS, PLAIN = {0x43: 4, 0x44: 8}, (0x00, 0x01, 0x05, 0x0B, 0x0F, 0x1A, 0x1B, *range(0x45, 0xC5))


class Unknown(Exception):
    """Something that this file does not know."""


def need(holds, what):
    if not holds:
        raise Unknown(what)


def unsigned(value):
    out = bytearray()
    while True:
        byte, value = value & 0x7F, value >> 7
        out.append(byte | (0x80 if value else 0))
        if not value:
            return bytes(out)


def signed(value):
    out = bytearray()
    while True:
        byte, value = value & 0x7F, value >> 7
        done = value == (-1 if byte & 0x40 else 0)
        out.append(byte | (0 if done else 0x80))
        if done:
            return bytes(out)


class Reader:
    """Bytes of a module, from a place to an end."""

    def __init__(self, data, at=0, end=None):
        self.data, self.at, self.end = data, at, len(data) if end is None else end

    def byte(self):
        self.at += 1
        return self.data[self.at - 1]

    def unsigned(self):
        shift = value = 0
        while True:
            byte = self.byte()
            value |= (byte & 0x7F) << shift
            shift += 7
            if not byte & 0x80:
                return value

    def signed(self):
        begin, value = self.at, self.unsigned()
        bits = 7 * (self.at - begin)
        return value - (1 << bits) if value >> (bits - 1) else value

    def take(self, size):
        self.at += size
        return self.data[self.at - size : self.at]


def limits(it):
    """The limits of a memory or a table, lowered, and whether they were of 64 bits."""
    flags, least = it.byte(), it.unsigned()
    most = unsigned(it.unsigned()) if flags & 1 else b""
    return bytes([flags & ~4]) + unsigned(least) + most, bool(flags & 4)


def access(it):
    """The alignment and the offset of an access to the memory."""
    align, offset = it.unsigned(), it.unsigned()
    need(align < 0x40 and offset < 1 << 32, "access to memory")
    return unsigned(align) + unsigned(offset)


class Body:
    """The body of a function, whose spare locals begin at `first`."""

    def __init__(self, it, first, tables):
        self.groups = [(it.unsigned(), it.byte()) for _ in range(it.unsigned())]
        begin = first + sum(count for count, _ in self.groups)
        self.it, self.tables, self.used, self.out = it, tables, set(), bytearray()
        self.spare = {kind: begin + place for place, kind in enumerate(SPARES)}

    def local(self, kind, code):
        self.used.add(kind)
        return bytes([code]) + unsigned(self.spare[kind])

    def under(self, kind):
        """Wraps the address that lies under a value of this kind."""
        return self.local(kind, SET) + WRAP + self.local(kind, GET)

    def wide_move(self, filled):
        """Wraps the three arguments of memory.copy, or the two addresses of memory.fill."""
        save = self.local(I64, SET) + self.local(filled, SET) + WRAP + self.local(filled, GET)
        return save + (b"" if filled == I32 else WRAP) + self.local(I64, GET) + WRAP

    def bulk(self):
        """The rest of an instruction that begins with 0xfc."""
        it = self.it
        more = it.unsigned()
        if more == 10:
            need(it.take(2) == b"\0\0", "memory.copy")
            return self.wide_move(OTHER) + b"\xfc\x0a\0\0"
        if more == 11:
            need(it.byte() == 0, "memory.fill")
            return self.wide_move(I32) + b"\xfc\x0b\0"
        need(more <= 7, f"0xfc {more}")
        return b"\xfc" + unsigned(more)

    def vector(self):
        """The rest of an instruction that begins with 0xfd."""
        it = self.it
        more = it.unsigned()
        code = b"\xfd" + unsigned(more)
        if more <= 10 or more in (92, 93):
            return WRAP + code + access(it)
        if more == 11:
            return self.under(V128) + code + access(it)
        if 84 <= more <= 91:
            return self.under(V128) + code + access(it) + it.take(1)
        return code + it.take(16 if more in (12, 13) else 1 if 21 <= more <= 34 else 0)

    def of_memory(self, code):
        """The rest of an instruction that accesses the memory, or None if this one doesn't."""
        it = self.it
        if code in LOADS:
            return WRAP + bytes([code]) + access(it)
        if code in STORED:
            return self.under(STORED[code]) + bytes([code]) + access(it)
        if code == 0x3F:
            need(it.byte() == 0, "memory.size")
            return b"\x3f\x00" + EXTEND
        if code == 0x40:
            need(it.byte() == 0, "memory.grow")
            return WRAP + b"\x40\x00" + EXTEND_SIGNED
        return {0xFC: self.bulk, 0xFD: self.vector}[code]() if code in (0xFC, 0xFD) else None

    def skip(self, code):
        """Reads over the rest of an instruction that stays the same. Returns what comes before it."""
        it, before = self.it, b""
        if code in BLOCKS or code in (0x41, 0x42):
            it.signed()
        elif code in INDEXED:
            it.unsigned()
        elif code == 0x0E:
            for _ in range(it.unsigned() + 1):
                it.unsigned()
        elif code == 0x11:
            it.unsigned()
            before = WRAP if self.tables[it.unsigned()] else b""
        elif code == 0x1C:
            it.take(it.unsigned())
        elif code in CONSTANTS:
            it.take(CONSTANTS[code])
        else:
            need(code in PLAIN, f"instruction {code:#x}")
        return before

    def lowered(self):
        it = self.it
        while it.at < it.end:
            begin, code = it.at, it.byte()
            made = self.of_memory(code)
            if made is None:
                made = self.skip(code) + it.data[begin : it.at]
            self.out += made
        # All spare locals are declared where one is used: a V128 last, and only if it is used.
        spares = [it for it in SPARES if self.used and (it != V128 or V128 in self.used)]
        groups = self.groups + [(1, kind & 0xFF) for kind in spares]
        return unsigned(len(groups)) + b"".join(unsigned(count) + bytes([kind]) for count, kind in groups) + bytes(self.out)


class Module:
    """A module that is lowered section by section."""

    def __init__(self):
        self.types, self.functions, self.tables, self.memory = [], [], [], False

    def section(self, kind, it):
        change = {1: self.of_types, 2: self.imports, 3: self.of_functions, 4: self.of_tables, 5: self.memories, 9: self.elements, 10: self.code, 11: self.data}
        return change[kind](it) if kind in change else it.data

    def of_types(self, it):
        for _ in range(it.unsigned()):
            need(it.byte() == 0x60, "type")
            self.types.append((it.take(it.unsigned()), it.take(it.unsigned())))
        return it.data

    def imports(self, it):
        for _ in range(it.unsigned()):
            it.take(it.unsigned())
            it.take(it.unsigned())
            need(it.byte() == 0, "import of something else than a function")
            it.unsigned()
        return it.data

    def of_functions(self, it):
        self.functions = [it.unsigned() for _ in range(it.unsigned())]
        return it.data

    def of_tables(self, it):
        count = it.unsigned()
        out = unsigned(count)
        for _ in range(count):
            kind, (made, wide) = it.byte(), limits(it)
            self.tables.append(wide)
            out += bytes([kind]) + made
        return out

    def memories(self, it):
        need(it.unsigned() == 1, "memories")
        made, self.memory = limits(it)
        need(self.memory, "the memory has 32 bits")
        return unsigned(1) + made

    def offset(self, it, wide):
        """Where a segment begins: a constant."""
        need(it.byte() == (0x42 if wide else 0x41), "offset")
        value = it.signed()
        need(it.byte() == 0x0B and 0 <= value < 1 << 32, "offset")
        return b"\x41" + signed(value if value < 1 << 31 else value - (1 << 32)) + b"\x0b"

    def elements(self, it):
        count = it.unsigned()
        out = unsigned(count)
        for _ in range(count):
            need(it.unsigned() == 0, "segment of elements")
            out += unsigned(0) + self.offset(it, self.tables[0])
            size = it.unsigned()
            out += unsigned(size) + b"".join(unsigned(it.unsigned()) for _ in range(size))
        return out

    def data(self, it):
        count = it.unsigned()
        out = unsigned(count)
        for _ in range(count):
            flag = it.unsigned()
            need(flag in (0, 1), "segment of data")
            out += unsigned(flag) + (b"" if flag else self.offset(it, self.memory))
            size = it.unsigned()
            out += unsigned(size) + it.take(size)
        return out

    def code(self, it):
        count = it.unsigned()
        out = [unsigned(count)]
        for kind in self.functions:
            size = it.unsigned()
            made = Body(Reader(it.data, it.at, it.at + size), len(self.types[kind][0]), self.tables).lowered()
            it.at += size
            out += [unsigned(len(made)), made]
        return b"".join(out)


def lowered(data):
    """The module with a 32-bit memory."""
    need(data[:8] == b"\0asm\1\0\0\0", "this is no module")
    module, it, out = Module(), Reader(data, 8), [data[:8]]
    while it.at < it.end:
        kind, size = it.byte(), it.unsigned()
        made = module.section(kind, Reader(it.take(size)))
        out += [bytes([kind]), unsigned(len(made)), made]
    return b"".join(out)
