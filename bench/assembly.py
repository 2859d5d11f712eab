"""Writes assemblies: rows and bodies go in, the bytes of a PE file come out. Sections in brackets are those of ECMA-335."""

# ---- numbers and heaps


def u16(value):
    return value.to_bytes(2, "little")


def u32(value):
    return value.to_bytes(4, "little")


def padded(data, to):
    return data + bytes(-len(data) % to)


def compressed(value):
    """A compressed unsigned number (II.23.2)."""
    if value < 0x80:
        return bytes([value])
    if value < 0x4000:
        return (value | 0x8000).to_bytes(2, "big")
    return (value | 0xC0000000).to_bytes(4, "big")


def name_item(name):
    return name.encode("utf-8") + b"\0"


def blob_item(blob):
    return compressed(len(blob)) + blob


SPECIAL = {*range(0x01, 0x09), *range(0x0E, 0x20), 0x27, 0x2D, 0x7F}


def text_item(text):
    """A text of `#US` with its last byte (II.24.2.4)."""
    units = text.encode("utf-16-le")
    special = any(high or low in SPECIAL for low, high in zip(units[::2], units[1::2]))
    return compressed(len(units) + 1) + units + bytes([special])


class Heap:
    """Items in the order in which they come, each once; the empty one is at 0."""

    def __init__(self, item):
        self.data, self.places, self.item = bytearray(1), {}, item

    def place(self, value):
        if not value:
            return 0
        if value not in self.places:
            self.places[value] = len(self.data)
            self.data += self.item(value)
        return self.places[value]


# ---- tables (II.22): a column is a width, a heap, an index `(">", table)` or a coded index `(tag bits, tables)` (II.24.2.6)

TYPE_DEF_OR_REF = (2, (0x02, 0x01, 0x1B))
HAS_CUSTOM_ATTRIBUTE = (
    5,
    (0x06, 0x04, 0x01, 0x02, 0x08, 0x09, 0x0A, 0x00, 0x0E, 0x17, 0x14)
    + (0x11, 0x1A, 0x1B, 0x20, 0x23, 0x26, 0x27, 0x28, 0x2A, 0x2C, 0x2B),
)
MEMBER_REF_PARENT = (3, (0x02, 0x01, 0x1A, 0x06, 0x1B))
METHOD_DEF_OR_REF = (1, (0x06, 0x0A))
CUSTOM_ATTRIBUTE_TYPE = (3, (None, None, 0x06, 0x0A, None))
RESOLUTION_SCOPE = (2, (0x00, 0x1A, 0x23, 0x01))
TYPE_OR_METHOD_DEF = (1, (0x02, 0x06))

COLUMNS = {
    0x00: (2, "name", "guid", "guid", "guid"),
    0x01: (RESOLUTION_SCOPE, "name", "name"),
    0x02: (4, "name", "name", TYPE_DEF_OR_REF, (">", 0x04), (">", 0x06)),
    0x04: (2, "name", "blob"),
    0x06: (4, 2, 2, "name", "blob", (">", 0x08)),
    0x08: (2, 2, "name"),
    0x09: ((">", 0x02), TYPE_DEF_OR_REF),
    0x0A: (MEMBER_REF_PARENT, "name", "blob"),
    0x0C: (HAS_CUSTOM_ATTRIBUTE, CUSTOM_ATTRIBUTE_TYPE, "blob"),
    0x11: ("blob",),
    0x1B: ("blob",),
    0x20: (4, 2, 2, 2, 2, 4, "blob", "name", "name"),
    0x23: (2, 2, 2, 2, 4, "blob", "name", "name", "blob"),
    0x29: ((">", 0x02), (">", 0x02)),
    0x2A: (2, 2, TYPE_OR_METHOD_DEF, "name"),
    0x2B: (METHOD_DEF_OR_REF, "blob"),
}
# Valid's bits for tables whose rows are sorted by a key.
SORTED = 0x16003301FA00


class Metadata:
    """The rows and heaps of one assembly."""

    def __init__(self):
        self.rows = {}
        self.names, self.blobs, self.texts = Heap(name_item), Heap(blob_item), Heap(text_item)

    def row(self, table, *cells):
        """Adds a row and gives its token. Cells: numbers, texts, blobs; a coded index is `(table, row)`, or None for 0."""
        rows = self.rows.setdefault(table, [])
        assert len(cells) == len(COLUMNS[table])
        placed = []
        for column, cell in zip(COLUMNS[table], cells):
            if column == "name":
                placed.append(self.names.place(cell))
            elif column == "blob":
                placed.append(self.blobs.place(cell))
            elif isinstance(column, tuple) and column[0] != ">":
                placed.append(0 if cell is None else cell[1] << column[0] | column[1].index(cell[0]))
            else:
                placed.append(cell)
        rows.append(placed)
        return table << 24 | len(rows)

    def text(self, text):
        """The token of a text (III.4.16)."""
        return 0x70000000 | self.texts.place(text)

    def count(self, table):
        return len(self.rows.get(table, ()))

    def widths(self, table, heap_sizes):
        for column in COLUMNS[table]:
            if column in ("name", "guid", "blob"):
                yield 4 if heap_sizes & {"name": 1, "guid": 2, "blob": 4}[column] else 2
            elif isinstance(column, int):
                yield column
            elif column[0] == ">":
                yield 2 if self.count(column[1]) < 1 << 16 else 4
            else:
                yield 2 if max(self.count(t) for t in column[1]) < 1 << (16 - column[0]) else 4

    def tables(self, heap_sizes):
        """The stream `#~` (II.24.2.6)."""
        present = sorted(self.rows)
        out = u32(0) + bytes([2, 0, heap_sizes, 1])
        out += sum(1 << t for t in present).to_bytes(8, "little") + SORTED.to_bytes(8, "little")
        out += b"".join(u32(self.count(t)) for t in present)
        parts = []
        for table in present:
            widths = list(self.widths(table, heap_sizes))
            for cells in self.rows[table]:
                parts += [cell.to_bytes(width, "little") for cell, width in zip(cells, widths)]
        return padded(out + b"".join(parts), 4)

    def root(self):
        """The metadata root and its streams (II.24.2)."""
        heap_sizes = (len(self.names.data) >= 1 << 16) | (len(self.blobs.data) >= 1 << 16) << 2
        streams = (
            (b"#~", self.tables(heap_sizes)),
            (b"#Strings", padded(bytes(self.names.data), 4)),
            (b"#US", padded(bytes(self.texts.data), 4)),
            (b"#GUID", b"\x11" * 16),
            (b"#Blob", padded(bytes(self.blobs.data), 4)),
        )
        head = b"BSJB" + u16(1) + u16(1) + u32(0) + u32(12) + b"v4.0.30319\0\0" + u16(0) + u16(len(streams))
        place = len(head) + sum(8 + len(padded(name + b"\0", 4)) for name, _ in streams)
        headers, data = b"", b""
        for name, stream in streams:
            headers += u32(place + len(data)) + u32(len(stream)) + padded(name + b"\0", 4)
            data += stream
        return head + headers + data


# ---- the image (II.25)

TEXT_RVA = 0x2000
BODIES_AT = 8 + 72  # behind the import address and the CLI header


class Bodies:
    """Method bodies one behind the other, each at a multiple of 4."""

    def __init__(self):
        self.data = bytearray(BODIES_AT)

    def add(self, body):
        """Adds a body and gives its RVA."""
        self.data += bytes(-len(self.data) % 4)
        rva = TEXT_RVA + len(self.data)
        self.data += body
        return rva


def image(bodies, metadata, entry):
    """A PE32 file with the sections .text and .reloc, IL only."""
    text = bytearray(bodies.data)
    root_at, root = len(text), metadata.root()
    text += root
    imports = len(text)
    hint, library = imports + 48, imports + 62
    jump = library + 12
    jump += -(jump + 2) % 4
    text += u32(TEXT_RVA + imports + 40) + bytes(8) + u32(TEXT_RVA + library) + u32(TEXT_RVA) + bytes(20)
    text += u32(TEXT_RVA + hint) + bytes(4) + b"\0\0_CorExeMain\0mscoree.dll\0"
    text += bytes(jump - len(text)) + b"\xff\x25" + u32(0x400000 + TEXT_RVA)
    text[0:4] = u32(TEXT_RVA + hint)
    text[8:80] = u32(72) + u16(2) + u16(5) + u32(TEXT_RVA + root_at) + u32(len(root)) + u32(1) + u32(entry) + bytes(48)
    raw, relocs = len(padded(text, 0x200)), TEXT_RVA + len(padded(text, 0x2000))
    directories = [(0, 0)] * 16
    directories[1], directories[5] = (TEXT_RVA + imports, library + 12 - imports), (relocs, 12)
    directories[12], directories[14] = (TEXT_RVA, 8), (TEXT_RVA + 8, 72)
    stub = bytes.fromhex("0e1fba0e00b409cd21b8014ccd21") + b"This program cannot be run in DOS mode.\r\r\n$"
    out = bytes.fromhex("4d5a90000300000004000000ffff0000b80000000000000040") + bytes(35) + u32(0x80) + stub
    out = padded(out, 0x80) + b"PE\0\0" + u16(0x14C) + u16(2) + bytes(12) + u16(0xE0) + u16(0x102)
    out += u16(0x10B) + u16(0x30)
    out += b"".join(map(u32, (raw, 0x200, 0, TEXT_RVA + jump, TEXT_RVA, relocs, 0x400000, 0x2000, 0x200)))
    out += b"".join(map(u16, (4, 0, 0, 0, 4, 0))) + b"".join(map(u32, (0, relocs + 0x2000, 0x200, 0)))
    out += u16(3) + u16(0x8540) + b"".join(map(u32, (0x100000, 0x1000, 0x100000, 0x1000, 0, 16)))
    out += b"".join(u32(rva) + u32(size) for rva, size in directories)
    out += b".text\0\0\0" + b"".join(map(u32, (len(text), TEXT_RVA, raw, 0x200))) + bytes(12) + u32(0x60000020)
    out += b".reloc\0\0" + b"".join(map(u32, (12, relocs, 0x200, 0x200 + raw))) + bytes(12) + u32(0x42000040)
    at = TEXT_RVA + jump + 2
    relocations = u32(at & ~0xFFF) + u32(12) + u16(0x3000 | at & 0xFFF) + u16(0)
    return padded(out, 0x200) + padded(bytes(text), 0x200) + padded(relocations, 0x200)


def tiny(code):
    assert len(code) < 64
    return bytes([len(code) << 2 | 2]) + code


def fat(code, stack=8, slots=0, handlers=()):
    """A body with a fat header, and with handler clauses in the fat format (II.25.4)."""
    head = u16(0x3013 | (8 if handlers else 0)) + u16(stack) + u32(len(code)) + u32(slots)
    if not handlers:
        return head + code
    clauses = b"".join(b"".join(map(u32, clause)) for clause in handlers)
    return padded(head + code, 4) + u32((len(clauses) + 4) << 8 | 0x41) + clauses
