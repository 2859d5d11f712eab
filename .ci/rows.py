#!/usr/bin/env python3
"""Prints the rows of an assembly's tables, one line a row, with names in place of tokens and of places in heaps.

    rows.py FILE

The tables come in the order of their numbers (ECMA-335 II.22). A member stands behind the type whose run has it, a parameter
behind its method. Flags, constants and other bytes are hexadecimal. A MethodDef row with a body ends with its locals.
"""
import sys

# Columns: a number is a plain column of so many bytes; S, G and B are places in heaps; TABLE is a row, *TABLE where a run of rows
# begins, and a name in small letters one of several tables (II.24.2.6).
TABLES = {
    0x00: "Module 2 S G G G", 0x01: "TypeRef scope S S", 0x02: "TypeDef 4 S S type *Field *MethodDef", 0x04: "Field 2 S B",
    0x06: "MethodDef 4 2 2 S B *Param", 0x08: "Param 2 2 S", 0x09: "InterfaceImpl TypeDef type", 0x0A: "MemberRef parent S B",
    0x0B: "Constant 2 constant B", 0x0C: "CustomAttribute attribute ctor B", 0x0D: "FieldMarshal marshal B",
    0x0E: "DeclSecurity 2 security B", 0x0F: "ClassLayout 2 4 TypeDef", 0x10: "FieldLayout 4 Field", 0x11: "StandAloneSig B",
    0x12: "EventMap TypeDef *Event", 0x14: "Event 2 S type", 0x15: "PropertyMap TypeDef *Property", 0x17: "Property 2 S B",
    0x18: "MethodSemantics 2 MethodDef semantics", 0x19: "MethodImpl TypeDef method method", 0x1A: "ModuleRef S", 0x1B: "TypeSpec B",
    0x1C: "ImplMap 2 forwarded S ModuleRef", 0x1D: "FieldRVA 4 Field", 0x20: "Assembly 4 2 2 2 2 4 B S S",
    0x21: "AssemblyProcessor 4", 0x22: "AssemblyOS 4 4 4", 0x23: "AssemblyRef 2 2 2 2 4 B S S B",
    0x24: "AssemblyRefProcessor 4 AssemblyRef", 0x25: "AssemblyRefOS 4 4 4 AssemblyRef", 0x26: "File 4 S B",
    0x27: "ExportedType 4 4 S S implementation", 0x28: "ManifestResource 4 4 S implementation", 0x29: "NestedClass TypeDef TypeDef",
    0x2A: "GenericParam 2 2 generic S", 0x2B: "MethodSpec method B", 0x2C: "GenericParamConstraint GenericParam type",
}
CODED = {
    "type": "TypeDef TypeRef TypeSpec", "constant": "Field Param Property", "marshal": "Field Param",
    "attribute": "MethodDef Field TypeRef TypeDef Param InterfaceImpl MemberRef Module DeclSecurity Property Event StandAloneSig "
    "ModuleRef TypeSpec Assembly AssemblyRef File ExportedType ManifestResource GenericParam GenericParamConstraint MethodSpec",
    "security": "TypeDef MethodDef Assembly", "parent": "TypeDef TypeRef ModuleRef MethodDef TypeSpec", "semantics": "Event Property",
    "method": "MethodDef MemberRef", "forwarded": "Field MethodDef", "implementation": "File AssemblyRef ExportedType",
    "ctor": "- - MethodDef MemberRef -", "scope": "Module ModuleRef AssemblyRef TypeRef", "generic": "TypeDef MethodDef",
}
COLUMNS = {text.split()[0]: text.split()[1:] for text in TABLES.values()}
NAMES = {number: text.split()[0] for number, text in TABLES.items()}
CODED = {kind: [None if name == "-" else name for name in text.split()] for kind, text in CODED.items()}
# Element types without parts (II.23.1.16), each with its bytes in a file.
PRIMITIVES = {
    0x01: ("void", 0), 0x02: ("bool", 1), 0x03: ("char", 2), 0x04: ("int8", 1), 0x05: ("uint8", 1), 0x06: ("int16", 2), 0x07: ("uint16", 2),
    0x08: ("int32", 4), 0x09: ("uint32", 4), 0x0A: ("int64", 8), 0x0B: ("uint64", 8), 0x0C: ("float32", 4), 0x0D: ("float64", 8),
    0x0E: ("string", 0), 0x18: ("native int", 0), 0x19: ("native uint", 0), 0x1C: ("object", 0),
}


class Blob:
    """A blob that is read from its first byte on (II.23.2)."""

    def __init__(self, image, data):
        self.image, self.data, self.at = image, data, 0

    def byte(self):
        self.at += 1
        return self.data[self.at - 1]

    def number(self):
        first = self.byte()
        more = 0 if first < 0x80 else 1 if first < 0xC0 else 3
        value = first & (0x7F, 0x3F, 0, 0x1F)[more]
        for _ in range(more):
            value = value << 8 | self.byte()
        return value

    def named(self):
        code = self.number()
        return self.image.name(CODED["type"][code & 3], code >> 2)

    def types(self, count):
        return ", ".join(self.type() for _ in range(count))

    def type(self):
        kind = self.byte()
        if kind in PRIMITIVES:
            return PRIMITIVES[kind][0]
        if kind in (0x11, 0x12):
            return ("valuetype " if kind == 0x11 else "class ") + self.named()
        if kind in (0x13, 0x1E):
            return ("!" if kind == 0x13 else "!!") + str(self.number())
        if kind == 0x15:
            generic = self.type()
            return "%s<%s>" % (generic, self.types(self.number()))
        if kind in (0x10, 0x1D):
            return self.type() + ("&" if kind == 0x10 else "[]")
        if kind in (0x1F, 0x20):
            name = self.named()
            return "%s %s(%s)" % (self.type(), "modreq" if kind == 0x1F else "modopt", name)
        if kind == 0x45:
            return "pinned " + self.type()
        raise ValueError("element type %02x" % kind)

    def signature(self):
        """A field's type, locals, arguments, or a return and parameters."""
        first = self.byte()
        if first == 0x06:
            text = self.type()
        elif first in (0x07, 0x0A):
            text = self.types(self.number())
        else:
            generic = "<%d>" % self.number() if first & 0x10 else ""
            count = self.number()
            returned = self.type()
            text = "%s%s%s(%s)" % ("instance " if first & 0x20 else "", returned, generic, self.types(count))
        if self.at != len(self.data):
            raise ValueError("bytes behind a signature")
        return text


class Image:
    def __init__(self, data):
        self.data = data
        header = self.u(0x3C, 4) + 24
        sections = header + self.u(header - 4, 2)
        self.sections = [tuple(self.u(sections + 40 * i + x, 4) for x in (8, 12, 16, 20)) for i in range(self.u(header - 18, 2))]
        directory = header + (208 if self.u(header, 2) == 0x10B else 224)
        self.root = self.place(self.u(self.place(self.u(directory, 4)) + 8, 4))
        at = self.root + 16 + self.u(self.root + 12, 4)
        self.streams = {}
        count, at = self.u(at + 2, 2), at + 4
        for _ in range(count):
            end = data.index(0, at + 8)
            self.streams[data[at + 8:end].decode()] = (self.root + self.u(at, 4), self.u(at + 4, 4))
            at = at + 8 + (end - at - 8) // 4 * 4 + 4
        self.read_tables()

    def u(self, at, size):
        if at + size > len(self.data):
            raise ValueError("the file ends")
        return int.from_bytes(self.data[at:at + size], "little")

    def place(self, rva):
        for size, start, raw_size, raw in self.sections:
            if start <= rva < start + min(size, raw_size):
                return raw + rva - start
        raise ValueError("RVA %x" % rva)

    def read_tables(self):
        start, _ = self.streams["#~"]
        heaps, valid = self.u(start + 6, 1), self.u(start + 8, 8)
        present = [n for n in range(64) if valid >> n & 1]
        self.count = {NAMES[n]: self.u(start + 24 + 4 * i, 4) for i, n in enumerate(present)}
        at = start + 24 + 4 * len(present)
        wide = {"S": heaps & 1, "G": heaps & 2, "B": heaps & 4}

        def width(column):
            if column.isdigit():
                return int(column)
            if column in wide:
                return 4 if wide[column] else 2
            if column in CODED:
                bits = (len(CODED[column]) - 1).bit_length()
                return 4 if max(self.count.get(t, 0) for t in CODED[column] if t) >> 16 - bits else 2
            return 4 if self.count.get(column.lstrip("*"), 0) >> 16 else 2

        self.rows = {name: [] for name in COLUMNS}
        for name, count in self.count.items():
            for _ in range(count):
                row = []
                for column in COLUMNS[name]:
                    row.append(self.u(at, width(column)))
                    at += width(column)
                self.rows[name].append(row)

    # ---- heaps

    def text(self, place):
        start, size = self.streams["#Strings"]
        heap = self.data[start:start + size]
        return heap[place:heap.index(0, place)].decode()

    def guid(self, index):
        start, _ = self.streams["#GUID"]
        return self.data[start + 16 * index - 16:start + 16 * index].hex() if index else "-"

    def blob(self, place):
        start, size = self.streams["#Blob"]
        blob = Blob(self, self.data[start + place:start + size])
        length = blob.number() if place else 0
        data = blob.data[blob.at:blob.at + length]
        if len(data) != length:
            raise ValueError("a blob ends")
        return data

    def signature(self, place):
        return Blob(self, self.blob(place)).signature()

    # ---- rows

    def row(self, table, index):
        if not 1 <= index <= len(self.rows[table]):
            raise ValueError("%s row %d" % (table, index))
        return self.rows[table][index - 1]

    def owner(self, table, index):
        """The row of the run that has this row: of a type, a method or a map."""
        parent = {"Field": "TypeDef", "MethodDef": "TypeDef", "Param": "MethodDef", "Event": "EventMap", "Property": "PropertyMap"}[table]
        column = COLUMNS[parent].index("*" + table)
        owner = max((i for i, row in enumerate(self.rows[parent], 1) if row[column] <= index), default=0)
        if parent in ("EventMap", "PropertyMap"):
            parent, owner = "TypeDef", self.row(parent, owner)[0]
        return self.name(parent, owner)

    def coded(self, kind, code):
        tables = CODED[kind]
        bits = (len(tables) - 1).bit_length()
        table = tables[code & (1 << bits) - 1]
        return "-" if code >> bits == 0 else self.name(table, code >> bits)

    def name(self, table, index):
        row = self.row(table, index)
        if table == "TypeDef":
            around = [outer for inner, outer in self.rows["NestedClass"] if inner == index]
            return "".join(self.name("TypeDef", o) + "/" for o in around) + self.full_name(row[2], row[1])
        if table == "TypeRef":
            scope = self.coded("scope", row[0])
            return scope + ("" if scope.startswith("[") and scope.endswith("]") else "/") + self.full_name(row[2], row[1])
        if table in ("Field", "MethodDef", "Param", "Event", "Property"):
            return "%s.%s" % (self.owner(table, index), self.text(row[COLUMNS[table].index("S")]))
        if table == "MemberRef":
            return "%s.%s" % (self.coded("parent", row[0]), self.text(row[1]))
        if table == "TypeSpec":
            return Blob(self, self.blob(row[0])).type()
        if table == "AssemblyRef":
            return "[%s]" % self.text(row[6])
        if table == "ModuleRef":
            return "[.module %s]" % self.text(row[0])
        if table == "InterfaceImpl":
            return "%s implements %s" % (self.name("TypeDef", row[0]), self.coded("type", row[1]))
        if table == "GenericParam":
            return "%s<%s>" % (self.coded("generic", row[2]), self.text(row[3]))
        if table == "GenericParamConstraint":
            return "%s : %s" % (self.name("GenericParam", row[0]), self.coded("type", row[1]))
        if table in ("Module", "Assembly", "File", "ExportedType", "ManifestResource"):
            return table
        return "%s %d" % (table, index)

    def full_name(self, namespace, name):
        return (self.text(namespace) + "." if namespace else "") + self.text(name)

    def locals(self, rva):
        """The locals of the body at an RVA (II.25.4)."""
        at = self.place(rva)
        token = self.u(at + 8, 4) if self.u(at, 1) & 3 == 3 else 0
        return "{%s}" % (self.signature(self.row("StandAloneSig", token & 0xFFFFFF)[0]) if token else "")

    def field_bytes(self, rva, field):
        """The bytes of a field, as many as its type has."""
        data = self.blob(self.row("Field", field)[2])
        size = PRIMITIVES.get(data[1], ("", 0))[1]
        if data[1] == 0x11:
            value = Blob(self, data[2:]).number() >> 2
            size = sum(row[1] for row in self.rows["ClassLayout"] if row[2] == value)
        at = self.place(rva)
        return self.data[at:at + size].hex()

    def line(self, table, index, row):
        if table in ("TypeDef", "TypeRef"):
            name = self.name(table, index)
            return "%s %x %s : %s" % (table, row[0], name, self.coded("type", row[3])) if table == "TypeDef" else "%s %s" % (table, name)
        if table == "MethodDef":
            body = self.locals(row[0]) if row[0] else "-"
            return "%s %x %x %s %s %s" % (table, row[2], row[1], self.name(table, index), self.signature(row[4]), body)
        if table == "FieldRVA":
            return "%s %s %s" % (table, self.name("Field", row[1]), self.field_bytes(*row))
        cells = []
        for column, value in zip(COLUMNS[table], row):
            if column.startswith("*"):
                continue
            if column == "S":
                own = table in ("Field", "Param", "Event", "Property")
                cells.append(self.name(table, index) if own else self.text(value) or "-")
            elif column == "B":
                is_signature = table in ("Field", "MemberRef", "StandAloneSig", "Property", "MethodSpec")
                data = self.name(table, index) if table == "TypeSpec" else self.signature(value) if is_signature else self.blob(value).hex()
                cells.append(data or "-")
            elif column == "G":
                cells.append(self.guid(value))
            elif column.isdigit():
                cells.append("%x" % value)
            else:
                cells.append(self.coded(column, value) if column in CODED else self.name(column, value))
        return " ".join([table] + cells)


def main(words):
    if len(words) != 2:
        sys.stderr.write(__doc__)
        return 2
    with open(words[1], "rb") as source:
        image = Image(source.read())
    for table in COLUMNS:
        for index, row in enumerate(image.rows[table], 1):
            print(image.line(table, index, row))
    return 0


if __name__ == "__main__":
    sys.exit(main(sys.argv))
