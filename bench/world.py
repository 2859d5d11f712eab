#!/usr/bin/env python3
"""Writes a program of many types, of which it needs half, for bench/run. Python's standard library alone.

    world.py N OUT    a program of N types (a multiple of 20) with 3N methods, which prints a number

The types come in groups of ten: an interface with a method, an abstract class with an abstract and a virtual method, seven classes
below it, the first with a static `Run` and the next two with the interface, and a struct. The `Run` of a group makes five of
the classes, calls the virtual methods, and runs two groups behind it, up to half of all groups: the groups form a tree. No code
reaches the groups of the second half, two classes of each group, an override and three methods of the struct.
The same words give the same bytes each time.
"""
import sys

sys.dont_write_bytecode = True
from assembly import fat, image, u32  # noqa: E402
from links import (  # noqa: E402
    ABSTRACT, CLASS, CONSOLE_REF, CONSTRUCTOR, DEFAULT, FIELD, HAS_THIS, INT, INTERFACE, OBJECT_REF, PUBLIC_FIELD, STATIC,
    STATIC_FIELD, STRING, STRUCT, VALUE_TYPE, VALUE_TYPE_REF, VOID, Assembly, method_signature, named, one,
)

# Flags of methods (II.23.1.10): virtual ones, with a slot of their own and without, and of an abstract class (II.23.1.15).
NEW_SLOT, OVERRIDE, ABSTRACT_CLASS = 0x1C6, 0xC6, 0x100081
GROUP, METHODS_OF_GROUP, FIELDS_OF_GROUP = 10, 30, 9
MADE = (2, 3, 4, 5, 6)  # the classes of a group that its `Run` makes
NUMBER = method_signature(HAS_THIS, one(INT))
NOTHING = method_signature(HAS_THIS, one(VOID))
RETURN, ADD = b"\x2a", b"\x58"


def token(table, row):
    return u32(table << 24 | row)


def call(row):
    return b"\x28" + token(0x06, row)


def call_virtual(row):
    return b"\x6f" + token(0x06, row)


def make(row):
    return b"\x73" + token(0x06, row)


class World:
    def __init__(self, count):
        self.out, self.groups = Assembly("World"), count // GROUP
        self.needed = self.groups // 2

    # Rows of types, methods and fields. Program, with `Main` and `total`, comes first.

    def type_row(self, group, k):
        return 3 + group * GROUP + k

    def method_row(self, group, k, which):
        """A method of a type: the interface has one, the abstract class and the classes have three, the struct has five."""
        return 2 + group * METHODS_OF_GROUP + (0 if k == 0 else 1 + 3 * (k - 1)) + which

    def field_row(self, group, k):
        return 2 + group * FIELDS_OF_GROUP + k - 2

    def program(self):
        out = self.out
        out.add_type("Program", "", OBJECT_REF, CLASS)
        out.row(0x04, STATIC_FIELD, "total", one(FIELD) + one(INT))
        out.row(0x0A, OBJECT_REF, ".ctor", NOTHING)
        out.row(0x0A, CONSOLE_REF, "WriteLine", method_signature(DEFAULT, one(VOID), one(INT)))
        code = call(self.method_row(0, 2, 2)) + b"\x7e" + token(0x04, 1) + b"\x28" + token(0x0A, 2) + RETURN
        out.add_method("Main", method_signature(DEFAULT, one(VOID)), STATIC, code)

    def run_code(self, group):
        """Adds to `total` what the classes that it makes, and the struct in its local, answer; then runs two groups."""
        abstract, virtual, value = (self.method_row(group, k, which) for k, which in ((1, 1), (1, 2), (0, 0)))
        asked = {2: abstract, 3: value, 4: value, 5: virtual, 6: virtual}
        code = b"\x7e" + token(0x04, 1)
        for k in MADE:
            code += make(self.method_row(group, k, 0)) + call_virtual(asked[k]) + ADD
        code += b"\x12\x00" + call(self.method_row(group, 9, 1)) + ADD + b"\x80" + token(0x04, 1)
        for following in (2 * group + 1, 2 * group + 2):
            if following < self.needed:
                code += call(self.method_row(following, 2, 2))
        return code + RETURN

    def constructor(self, base):
        self.out.add_method(".ctor", NOTHING, CONSTRUCTOR, b"\x02\x28" + base + RETURN)

    def number(self, name, flags, number):
        self.out.add_method(name, NUMBER, flags, b"\x20" + u32(number) + RETURN)

    def bases(self, group):
        out = self.out
        out.add_type("INumber%d" % group, "World.Part%d" % (group % 50), None, INTERFACE)
        out.add_method("Value", NUMBER, ABSTRACT)
        out.add_type("Base%d" % group, "World.Part%d" % (group % 50), OBJECT_REF, ABSTRACT_CLASS)
        self.constructor(token(0x0A, 1))
        out.add_method("Abstract", NUMBER, ABSTRACT)
        self.number("Virtual", NEW_SLOT, 1)

    def a_class(self, group, k):
        out, row = self.out, self.type_row(group, k)
        out.add_type("Class%dOf%d" % (k, group), "World.Part%d" % (group % 50), (0x02, self.type_row(group, 1)), CLASS)
        if k in (3, 4):
            out.row(0x09, row, (0x02, self.type_row(group, 0)))
        out.row(0x04, PUBLIC_FIELD, "field", one(FIELD) + one(INT))
        self.constructor(token(0x06, self.method_row(group, 1, 0)))
        field = b"\x02\x7b" + token(0x04, self.field_row(group, k))
        out.add_method("Abstract", NUMBER, OVERRIDE, field + b"\x1f" + bytes([k]) + ADD + RETURN)
        if k == 2:
            slots = 0x11000000 | out.row(0x11, bytes([7, 1]) + named((0x02, self.type_row(group, 9)), VALUE_TYPE))
            rva = out.bodies.add(fat(self.run_code(group), slots=slots))
            out.row(0x06, rva, 0, STATIC, "Run", method_signature(DEFAULT, one(VOID)), 1)
        elif k in (3, 4):
            self.number("Value", NEW_SLOT, k)
        else:
            self.number("Virtual", OVERRIDE, k)

    def struct(self, group):
        out = self.out
        out.add_type("Struct%d" % group, "World.Part%d" % (group % 50), VALUE_TYPE_REF, STRUCT)
        out.row(0x04, PUBLIC_FIELD, "first", one(FIELD) + one(INT))
        out.row(0x04, PUBLIC_FIELD, "second", one(FIELD) + one(INT))
        text = b"\x72" + u32(out.metadata.text("struct %d" % group)) + RETURN
        out.add_method("ToString", method_signature(HAS_THIS, one(STRING)), OVERRIDE, text)
        first, second = (b"\x02\x7b" + token(0x04, self.field_row(group, 9) + k) for k in (0, 1))
        out.add_method("Sum", NUMBER, 0x86, first + second + ADD + RETURN)
        for k in (7, 8, 6):
            code = make(self.method_row(group, k, 0)) + call_virtual(self.method_row(group, 1, 1)) + RETURN
            out.add_method("Uncalled%d" % k, NUMBER, 0x86, code)

    def bytes(self):
        self.program()
        for group in range(self.groups):
            self.bases(group)
            for k in range(2, 9):
                self.a_class(group, k)
            self.struct(group)
        self.out.row(0x20, 0x8004, 1, 0, 0, 0, 0, b"", "World", "")
        return image(self.out.bodies, self.out.metadata, 0x06000001)


def main(words):
    if len(words) != 2 or int(words[0]) % 20:
        sys.stderr.write(__doc__)
        return 2
    with open(words[1], "wb") as out:
        out.write(World(int(words[0])).bytes())
    return 0


if __name__ == "__main__":
    sys.exit(main(sys.argv[1:]))
