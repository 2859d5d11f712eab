#!/usr/bin/env python3
"""Writes assemblies with many references, which bench/run gives the program. Python's standard library alone.

    links.py library N OUT       a library of N types with 2N methods, N fields, N MemberRefs and 2N TypeRefs
    links.py same_names N OUT    N types of one name, in as many namespaces and in as many enclosing types
    links.py overloads N M OUT   a class with N methods of one name and as many signatures, and M MemberRefs to them
    links.py bases N M OUT       a chain of N classes, each with a method, and M MemberRefs from the last to the first's
    links.py scopes N OUT        a chain of N types, each in the one before, and a TypeRef in a TypeRef to each
    links.py modifiers N OUT     N fields, each with a modifier of a name that the core library lacks
    links.py cycle N OUT         a chain of N classes, and behind it two that are each other's bases
    links.py nesting N OUT       a chain of N types, each in the one before, and behind it two that enclose each other
    links.py wide N M OUT        a class of N parameters, and M MemberRefs in an instance of it
    links.py doubled N OUT       N generic classes, each with an argument twice as large for its base, and one MemberRef

None of them has an entry point, so `trim` answers `no entry` as soon as one is linked, or the demand of linking that it fails.
The same words give the same bytes each time.
"""
import sys

sys.dont_write_bytecode = True
from assembly import Bodies, Metadata, compressed, image, tiny, u32  # noqa: E402

VOID, BOOLEAN, CHAR, INT, LONG, STRING, OBJECT = 1, 2, 3, 8, 10, 14, 28
VALUE_TYPE, CLASS_TYPE, TYPE_VARIABLE, INSTANCE, ARRAY, OPTIONAL_MODIFIER = 0x11, 0x12, 0x13, 0x15, 0x1D, 0x20
DEFAULT, GENERIC, HAS_THIS, FIELD = 0x00, 0x10, 0x20, 0x06
# Flags of types (II.23.1.15), methods (II.23.1.10) and fields (II.23.1.5).
CLASS, NESTED_CLASS, INTERFACE, STRUCT = 0x100001, 0x100002, 0xA1, 0x100109
PUBLIC, STATIC, CONSTRUCTOR, ABSTRACT, PUBLIC_FIELD, STATIC_FIELD = 0x86, 0x96, 0x1886, 0x5C6, 0x06, 0x16
CORE_KEY = bytes.fromhex("b03f5f7f11d50a3a")
CORE_NAMES = ["System.Runtime", "System.Console", "System.Private.CoreLib", "mscorlib", "netstandard"]
OBJECT_REF, VALUE_TYPE_REF, CONSOLE_REF, STRING_REF = (0x01, 1), (0x01, 2), (0x01, 3), (0x01, 4)
CORE_TYPES = [
    ("System", name)
    for name in (
        "Object", "ValueType", "Console", "String", "Exception", "Int32", "Boolean", "Char", "Int64", "Byte", "Array",
        "Type", "Attribute", "IDisposable", "ArgumentException", "InvalidOperationException", "NotSupportedException",
        "FormatException", "OverflowException", "IndexOutOfRangeException", "Void", "UInt32", "UInt64", "Enum",
    )
] + [("System.Reflection", "MethodInfo"), ("System.Runtime.CompilerServices", "RuntimeHelpers")]


def coded(token):
    """A TypeDef, TypeRef or TypeSpec token in a signature (II.23.2.8): a table and a row."""
    table, row = token
    return compressed(row << 2 | (0x02, 0x01, 0x1B).index(table))


def named(token, kind=CLASS_TYPE):
    return bytes([kind]) + coded(token)


def method_signature(convention, result, *parameters):
    return bytes([convention, len(parameters)]) + result + b"".join(parameters)


def one(element):
    return bytes([element])


class Assembly:
    """The tables of an assembly as they grow. Each type owns the members that are added before the next one."""

    def __init__(self, name):
        self.name, self.metadata, self.bodies = name, Metadata(), Bodies()
        self.row(0x00, 0, name + ".dll", 1, 0, 0)
        for k, core_name in enumerate(CORE_NAMES):
            self.row(0x23, 8, 0, 0, 0, 0, CORE_KEY, core_name, "", b"")
        for namespace, type_name in CORE_TYPES[:4]:
            self.row(0x01, (0x23, 1), type_name, namespace)
        self.add_type("<Module>", "", None, 0)
        self.ret = self.bodies.add(tiny(b"\x2a"))

    def row(self, table, *cells):
        return self.metadata.row(table, *cells) & 0xFFFFFF

    def count(self, table):
        return self.metadata.count(table)

    def add_type(self, name, namespace, base, flags):
        """Adds a type and gives its row."""
        return self.row(0x02, flags, name, namespace, base, self.count(0x04) + 1, self.count(0x06) + 1)

    def add_method(self, name, signature, flags=PUBLIC, code=None):
        if flags & 0x400:
            rva = 0
        else:
            rva = self.ret if code is None else self.bodies.add(tiny(code))
        return self.row(0x06, rva, 0, flags, name, signature, 1)

    def bytes(self):
        self.row(0x20, 0x8004, 1, 0, 0, 0, 0, b"", self.name, "")
        return image(self.bodies, self.metadata, 0)


# ---- a library


class Library:
    """Types in groups of ten: a generic class, seven classes, each the base of the next, a struct and an interface."""

    def __init__(self, count):
        self.out, self.count = Assembly("Library"), count
        self.namespaces = ["Library.Part%d" % part for part in range(max(1, count // 100))]

    def namespace(self, k):
        return self.namespaces[k // 100 % len(self.namespaces)]

    def name(self, k):
        return ("Generic%d`1", "Class%d", "Struct%d", "IInterface%d")[self.kind(k)] % k

    def kind(self, k):
        return {0: 0, 8: 2, 9: 3}.get(k % 10, 1)

    def is_nested(self, k):
        return k % 20 == 7

    def type_row(self, k):
        return k + 2  # behind `<Module>`

    def own_ref(self, k):
        """The TypeRef row of a type of the library, in its own module."""
        return len(CORE_TYPES[:4]) + k + 1

    def references(self):
        out = self.out
        for k in range(self.count):
            if self.is_nested(k):
                out.row(0x01, (0x01, self.own_ref(k - 1)), self.name(k), "")
            else:
                out.row(0x01, (0x00, 1), self.name(k), self.namespace(k))
        for k in range(self.count - 4):
            namespace, name = CORE_TYPES[k % len(CORE_TYPES)]
            out.row(0x01, (0x23, 1 + k // len(CORE_TYPES) % len(CORE_NAMES)), name, namespace)

    def field(self, k):
        """The type of a field of a type."""
        kind = self.kind(k)
        if kind == 0:
            return bytes([TYPE_VARIABLE, 0])
        if kind == 2:
            # The struct of the group before, in chains of five.
            return named((0x02, self.type_row(k - 10)), VALUE_TYPE) if k % 50 > 10 else one(INT)
        near = k // 10 * 10 + (k + 3) % 7 + 1
        array = bytes([ARRAY]) + named((0x01, self.own_ref(near)))
        return (one(INT), one(STRING), named((0x02, self.type_row(near))), array)[k % 4]

    def parameters(self, k):
        near = k // 10 * 10 + (k + 5) % 7 + 1
        classes = named((0x02, self.type_row(near))), named((0x01, self.own_ref(near)))
        choices = (one(INT), one(STRING), one(BOOLEAN), *classes)
        return [choices[(k >> 2 * place) % len(choices)] for place in range(k % 4)]

    def types(self):
        out = self.out
        for k in range(self.count):
            kind, row = self.kind(k), self.type_row(k)
            if kind == 3:
                base = None
            elif kind == 2:
                base = VALUE_TYPE_REF
            elif k % 10 < 2:
                base = OBJECT_REF
            else:
                base = (0x02, row - 1) if k % 3 else (0x01, self.own_ref(k - 1))
            nested = self.is_nested(k)
            flags = (CLASS, NESTED_CLASS if nested else CLASS, STRUCT, INTERFACE)[kind]
            out.add_type(self.name(k), "" if nested else self.namespace(k), base, flags)
            if nested:
                out.row(0x29, row, row - 1)
            if kind == 0:
                out.row(0x2A, 0, 0, (0x02, row), "T")
            if kind == 1 and k % 10 in (1, 4):
                out.row(0x09, row, (0x02, self.type_row(k // 10 * 10 + 9)))
            access = STATIC_FIELD if kind == 3 else PUBLIC_FIELD
            out.row(0x04, access, "value" if k % 2 else "count", one(FIELD) + self.field(k))
            call = b"\x02\x28" + u32(0x0A000001 + k) + b"\x2a"
            if kind == 3:
                out.add_method("get_Value", method_signature(HAS_THIS, one(INT)), ABSTRACT)
            elif kind == 0:
                out.add_method("Get", method_signature(HAS_THIS, bytes([TYPE_VARIABLE, 0])), PUBLIC, call)
            else:
                out.add_method(".ctor", method_signature(HAS_THIS, one(VOID)), CONSTRUCTOR, call)
            signature = method_signature(HAS_THIS, one(VOID), *self.parameters(k))
            out.add_method("Method%d" % (k % 40), signature, ABSTRACT if kind == 3 else PUBLIC)

    def specifications(self):
        for k in range(0, self.count, 10):
            argument = (one(INT), one(STRING), named((0x02, self.type_row(k + 1))))[k // 10 % 3]
            self.out.row(0x1B, bytes([INSTANCE]) + named((0x02, self.type_row(k))) + b"\x01" + argument)

    def member_references(self):
        out = self.out
        for k in range(self.count):
            group, choice = k // 10 * 10, k % 10
            if choice == 0:
                out.row(0x0A, OBJECT_REF, ".ctor", method_signature(HAS_THIS, one(VOID)))
            elif choice == 1:
                out.row(0x0A, CONSOLE_REF, "WriteLine", method_signature(DEFAULT, one(VOID), one(STRING)))
            elif choice < 4:
                # Found in the first class of the group, by way of its last.
                signature = method_signature(HAS_THIS, one(VOID), *self.parameters(group + 1))
                out.row(0x0A, (0x01, self.own_ref(group + 4 + choice)), "Method%d" % ((group + 1) % 40), signature)
            elif choice < 6:
                out.row(0x0A, (0x1B, group // 10 + 1), "Get", method_signature(HAS_THIS, bytes([TYPE_VARIABLE, 0])))
            elif choice < 8:
                of = group + choice - 4
                out.row(0x0A, (0x02, self.type_row(of)), "value" if of % 2 else "count", one(FIELD) + self.field(of))
            else:
                out.row(0x0A, (0x02, self.type_row(group + choice - 6)), ".ctor", method_signature(HAS_THIS, one(VOID)))

    def bytes(self):
        self.references()
        self.types()
        self.specifications()
        self.member_references()
        return self.out.bytes()


def library(count):
    return Library(count // 10 * 10).bytes()


# ---- what compilers don't write


def same_names(count):
    """Half of the types in a namespace each, and in each of them one of the other half."""
    out = Assembly("SameNames")
    half = count // 2
    for k in range(half):
        out.row(0x01, (0x00, 1), "T", "N%d" % k)
        out.row(0x01, (0x01, 5 + 2 * k), "T", "")
    for k in range(half):
        out.add_type("T", "N%d" % k, OBJECT_REF, CLASS)
        out.add_method("M", method_signature(HAS_THIS, one(VOID)))
    for k in range(half):
        out.add_type("T", "", OBJECT_REF, NESTED_CLASS)
        out.add_method("M", method_signature(HAS_THIS, one(VOID)))
        out.row(0x29, 2 + half + k, 2 + k)
    for k in range(half):
        out.row(0x0A, (0x01, 6 + 2 * k), "M", method_signature(HAS_THIS, one(VOID)))
    return out.bytes()


def overload(k):
    """The signature of the k-th overload: its parameters are the digits of k in base 10."""
    digits = (BOOLEAN, CHAR, 4, 5, 6, 7, INT, 9, LONG, STRING)
    return method_signature(HAS_THIS, one(VOID), *[one(digits[int(digit)]) for digit in str(k)])


def overloads(count, references):
    out = Assembly("Overloads")
    out.add_type("T", "N", OBJECT_REF, CLASS)
    for k in range(count):
        out.add_method("M", overload(k))
    for k in range(references):
        out.row(0x0A, (0x02, 2), "M", overload(count - 1 - k % count))
    return out.bytes()


def bases(count, references):
    out = Assembly("Bases")
    for k in range(count):
        out.add_type("T%d" % k, "N", (0x02, k + 1) if k else OBJECT_REF, CLASS)
        out.add_method("M%d" % k, method_signature(HAS_THIS, one(VOID)))
    for k in range(references):
        out.row(0x0A, (0x02, count + 1), "M0", method_signature(HAS_THIS, one(VOID)))
    return out.bytes()


def nest(out, count):
    for k in range(count):
        out.add_type("T%d" % k, "" if k else "N", OBJECT_REF, NESTED_CLASS if k else CLASS)
        if k:
            out.row(0x29, k + 2, k + 1)


def scopes(count):
    out = Assembly("Scopes")
    for k in range(count):
        out.row(0x01, (0x01, 4 + k) if k else (0x00, 1), "T%d" % k, "" if k else "N")
    nest(out, count)
    return out.bytes()


def nesting(count):
    out = Assembly("Nesting")
    nest(out, count)
    for k in range(2):
        out.add_type("E%d" % k, "", OBJECT_REF, NESTED_CLASS)
        out.row(0x29, count + 2 + k, count + 3 - k)
    return out.bytes()


def modifiers(count):
    out = Assembly("Modifiers")
    out.add_type("T", "N", OBJECT_REF, CLASS)
    for k in range(count):
        out.row(0x01, (0x23, 1), "Modifier%d" % k, "Unknown")
        out.row(0x04, PUBLIC_FIELD, "field%d" % k, bytes([FIELD, OPTIONAL_MODIFIER]) + coded((0x01, 5 + k)) + one(INT))
    return out.bytes()


def cycle(count):
    out = Assembly("Cycle")
    for k in range(count):
        out.add_type("T%d" % k, "N", (0x02, k + 1) if k else OBJECT_REF, CLASS)
    for k in range(2):
        out.add_type("C%d" % k, "N", (0x02, count + 3 - k), CLASS)
    return out.bytes()


def doubled(count):
    """The base of `C<k><T>` is `C<k-1><P<T, T>>`; the reference is to a method of the first."""
    out = Assembly("Doubled")
    out.add_type("P`2", "N", OBJECT_REF, CLASS)
    out.row(0x2A, 0, 0, (0x02, 2), "T")
    out.row(0x2A, 1, 0, (0x02, 2), "U")
    variable = bytes([TYPE_VARIABLE, 0])
    pair = bytes([INSTANCE]) + named((0x02, 2)) + b"\x02" + variable + variable
    for k in range(count):
        out.add_type("C%d`1" % k, "N", (0x1B, k) if k else OBJECT_REF, CLASS)
        out.row(0x2A, 0, 0, (0x02, k + 3), "T")
        out.row(0x1B, bytes([INSTANCE]) + named((0x02, k + 3)) + b"\x01" + pair)
        if k == 0:
            out.add_method("M", method_signature(HAS_THIS, one(VOID)))
    own = out.row(0x1B, bytes([INSTANCE]) + named((0x02, count + 2)) + b"\x01" + one(INT))
    out.row(0x0A, (0x1B, own), "M", method_signature(HAS_THIS, one(VOID)))
    return out.bytes()


def wide(count, references):
    out = Assembly("Wide")
    out.add_type("T`%d" % count, "N", OBJECT_REF, CLASS)
    out.add_method("M", method_signature(HAS_THIS, one(VOID)))
    for k in range(count):
        out.row(0x2A, k, 0, (0x02, 2), "T%d" % k)
    out.row(0x1B, bytes([INSTANCE]) + named((0x02, 2)) + compressed(count) + one(INT) * count)
    for k in range(references):
        out.row(0x0A, (0x1B, 1), "M", method_signature(HAS_THIS, one(VOID)))
    return out.bytes()


KINDS = {
    f.__name__: f for f in (library, same_names, overloads, bases, scopes, modifiers, cycle, nesting, wide, doubled)
}


def main(words):
    if len(words) < 3 or words[0] not in KINDS:
        sys.stderr.write(__doc__)
        return 2
    with open(words[-1], "wb") as out:
        out.write(KINDS[words[0]](*map(int, words[1:-1])))
    return 0


if __name__ == "__main__":
    sys.exit(main(sys.argv[1:]))
