#!/usr/bin/env python3
"""Writes the files that bench/run and .ci/quick give the program. Python's standard library alone.

    files.py hello OUT            the example: a class with `Main`, which prints `Hi`
    files.py uncalled OUT         the example with a second method `F`, which nothing calls
    files.py mixed OUT            methods that are needed and that aren't, with rows and texts out of order, some of them twice
    files.py mixed_left OUT       what a trim leaves of it
    files.py calls OUT            a file of about 1 MiB with 2047 static methods, of which the entry needs every other one
    files.py needed OUT           that file with the methods alone that the entry needs
    files.py text N OUT           the example with a text of N letters
    files.py body N OUT           a file whose entry is a `ret` and behind it N instructions that are never run
    files.py large OUT            an assembly of about 4 MB with about half a million instructions in 16000 methods
    files.py flow OUT             a file whose entry has 10000 instructions and 20 locals, through which 50 texts go along branches
    files.py shared OUT           200000 rows of one signature of 1 MiB and 50000 methods of one body of 100 kB, both bad at their ends

The same words give the same bytes each time.
"""
import sys

sys.dont_write_bytecode = True
from assembly import Bodies, Metadata, compressed, fat, image, tiny, u32  # noqa: E402


VOID, INT, STRING, OBJECT = 1, 8, 14, 28
# A class without special layout that isn't public, and a private static method that is hidden by signature (II.23.1).
CLASS, STATIC = 0x100180, 0x91
CORE_KEY = bytes.fromhex("b03f5f7f11d50a3a")


def static_signature(result, *parameters):
    return bytes([0, len(parameters), result, *parameters])


def begin(own_name):
    """The first rows of each file here: its module, Object and Console, and `<Module>`."""
    metadata = Metadata()
    metadata.row(0x00, 0, own_name + ".exe", 1, 0, 0)
    metadata.row(0x01, (0x23, 1), "Object", "System")
    metadata.row(0x01, (0x23, 2), "Console", "System")
    metadata.row(0x02, 0, "<Module>", "", None, 1, 1)
    return metadata


def end(metadata, own_name):
    """The assembly and the two that it refers to."""
    metadata.row(0x20, 0x8004, 1, 0, 0, 0, 0, b"", own_name, "")
    metadata.row(0x23, 8, 0, 0, 0, 0, CORE_KEY, "System.Runtime", "", b"")
    metadata.row(0x23, 8, 0, 0, 0, 0, CORE_KEY, "System.Console", "", b"")


def call(token):
    return b"\x28" + u32(token)


def load_text(metadata, text):
    return b"\x72" + u32(metadata.text(text))


PRINT_TEXT, PRINT_NUMBER = call(0x0A000001), call(0x0A000002)


def small_program(methods):
    """A class whose static methods are these: pairs of a name and code. The first is the entry."""
    metadata, bodies = begin("App"), Bodies()
    metadata.row(0x02, CLASS, "Program", "", (0x01, 1), 1, 1)
    for name, code in methods:
        code = code(metadata)
        body = tiny(code) if len(code) < 64 else fat(code)
        metadata.row(0x06, bodies.add(body), 0, STATIC, name, static_signature(VOID), 1)
    metadata.row(0x0A, (0x01, 2), "WriteLine", static_signature(VOID, STRING))
    end(metadata, "App")
    return image(bodies, metadata, 0x06000001)


HELLO = ("Main", lambda metadata: load_text(metadata, "Hi") + PRINT_TEXT + b"\x2a")


def hello():
    return small_program([HELLO])


def text(count):
    return small_program([("Main", lambda metadata: load_text(metadata, "A" * count) + PRINT_TEXT + b"\x2a")])


def uncalled():
    return small_program([HELLO, ("F", lambda metadata: b"\x2a")])


def body(count):
    """Pairs of `ldc.i4.s` and `pop` behind the first `ret`, with `br.s` and `nop` for each tenth pair."""
    pairs = [b"\x2b\x00\x00" if k % 10 == 9 else bytes([0x1F, k % 100, 0x26]) for k in range(count // 2)]
    return small_program([("Main", lambda metadata: b"\x2a" + b"".join(pairs) + b"\x2a")])


# ---- a file whose references, texts and locals are in other orders than those in which a trim leaves them


def method(metadata, bodies, name, code, signature, slots=0):
    body = fat(code, slots=slots) if slots else tiny(code)
    metadata.row(0x06, bodies.add(body), 0, STATIC, name, signature, 1)


def helper_code(print_text, print_number):
    """Prints its string and its int32, and gives the next number."""
    return b"\x03" + print_text + b"\x02" + print_number + b"\x02\x17\x58\x2a"


def main_code(metadata, helper, last, empty_text):
    code = b"\x15" + load_text(metadata, "b") + call(helper) + b"\x0a"
    code += b"\x06" + load_text(metadata, "a'") + call(helper) + b"\x0a"
    code += b"\x1f\x07\x72" + u32(empty_text) + call(helper) + b"\x0a"
    code += b"\x06" + load_text(metadata, "b") + call(helper) + b"\x26"
    return code + call(last) + b"\x06\x2a"


def last_code(metadata, print_text):
    return load_text(metadata, "\u00fc\u20ac") + print_text + b"\x2b\x00\x38" + u32(0) + b"\xfe\x0c\x00\x00\x26\x2a"


MAIN_SIGNATURE, HELPER_SIGNATURE = static_signature(INT), static_signature(INT, INT, STRING)


def mixed():
    metadata, bodies = Metadata(), Bodies()
    metadata.row(0x00, 0, "App.exe", 1, 0, 0)
    for scope, name in ((1, "Console"), (2, "Object"), (3, "Object"), (1, "Console")):
        metadata.row(0x01, (0x23, scope), name, "System")
    metadata.row(0x02, 0, "<Module>", "", None, 1, 1)
    metadata.row(0x02, CLASS, "Program\u00e9", "N.S", (0x01, 3), 1, 1)
    load_text(metadata, "no method loads this")
    method(metadata, bodies, "Zero", load_text(metadata, "zero") + call(0x0A000002) + b"\x2a", static_signature(VOID))
    method(metadata, bodies, "Helper", helper_code(call(0x0A000003), call(0x0A000001)), HELPER_SIGNATURE)
    method(metadata, bodies, "Locals", b"\x06\x26\x2a", static_signature(VOID), slots=0x11000002)
    code = main_code(metadata, 0x06000002, 0x06000006, 0x70000000)
    method(metadata, bodies, "Main", code, MAIN_SIGNATURE, slots=0x11000004)
    method(metadata, bodies, "Helper", b"\x2a", static_signature(VOID, INT))
    method(metadata, bodies, "Last", last_code(metadata, call(0x0A000002)), static_signature(VOID), slots=0x11000003)
    for parent, parameter in ((4, INT), (1, STRING), (4, STRING), (4, STRING)):
        metadata.row(0x0A, (0x01, parent), "WriteLine", static_signature(VOID, parameter))
    for slots in ([STRING], [STRING], [INT, STRING], [INT, STRING]):
        metadata.row(0x11, bytes([7, len(slots), *slots]))
    metadata.row(0x20, 0x8004, 1, 2, 3, 4, 0, b"", "App", "")
    for name, hash_value in (("Console", b"\1\2\3"), ("Runtime", b"\4"), ("Runtime", b""), ("Console", b"")):
        metadata.row(0x23, 8, 0, 0, 0, 0, CORE_KEY, "System." + name, "", hash_value)
    return image(bodies, metadata, 0x06000004)


def mixed_left():
    metadata, bodies = Metadata(), Bodies()
    metadata.row(0x00, 0, "App.exe", 1, 0, 0)
    metadata.row(0x01, (0x23, 1), "Object", "System")
    metadata.row(0x01, (0x23, 2), "Console", "System")
    metadata.row(0x02, 0, "<Module>", "", None, 1, 1)
    metadata.row(0x02, CLASS, "Program\u00e9", "N.S", (0x01, 1), 1, 1)
    method(metadata, bodies, "Helper", helper_code(PRINT_TEXT, PRINT_NUMBER), HELPER_SIGNATURE)
    # Texts stand in the order in which code loads them; the empty one, too, has an item of its own.
    load_text(metadata, "b"), load_text(metadata, "a'")
    empty_text = 0x70000000 | len(metadata.texts.data)
    metadata.texts.data += b"\x01\x00"
    code = main_code(metadata, 0x06000001, 0x06000003, empty_text)
    method(metadata, bodies, "Main", code, MAIN_SIGNATURE, slots=0x11000001)
    method(metadata, bodies, "Last", last_code(metadata, PRINT_TEXT), static_signature(VOID), slots=0x11000001)
    metadata.row(0x0A, (0x01, 2), "WriteLine", static_signature(VOID, STRING))
    metadata.row(0x0A, (0x01, 2), "WriteLine", static_signature(VOID, INT))
    metadata.row(0x11, bytes([7, 2, INT, STRING]))
    metadata.row(0x20, 0x8004, 1, 2, 3, 4, 0, b"", "App", "")
    metadata.row(0x23, 8, 0, 0, 0, 0, CORE_KEY, "System.Runtime", "", b"")
    metadata.row(0x23, 8, 0, 0, 0, 0, CORE_KEY, "System.Console", "", b"")
    return image(bodies, metadata, 0x06000002)


class Numbers:
    """Numbers that look random and are the same each time."""

    def __init__(self, seed):
        self.state = seed

    def below(self, bound):
        self.state = (self.state * 6364136223846793005 + 1442695040888963407) % 2**64
        return (self.state >> 33) % bound

    def one_of(self, values):
        return values[self.below(len(values))]


# ---- about 1 MiB of methods that each call another

METHODS = 2047
TEXTS = 1500


def static_method(metadata, k, next_token):
    """Prints a text and a number, and calls the next method, if there is one."""
    numbers = Numbers(k)
    code = load_text(metadata, "text %d" % (k % TEXTS)) + PRINT_TEXT
    code += b"\x20" + u32(k) + b"\x0a\x06" + PRINT_NUMBER
    while len(code) < 430:
        choice = numbers.below(6)
        if choice == 0:
            code += b"\x06\x1f" + bytes([numbers.below(128)]) + b"\x58\x0a"
        elif choice == 1:
            code += b"\x20" + u32(numbers.below(2**31)) + b"\x26"
        elif choice == 2:
            code += load_text(metadata, "text %d" % numbers.below(TEXTS)) + b"\x26"
        elif choice == 3:
            code += b"\x06\x2c\x01\x00"
        elif choice == 4:
            code += b"\x06\x17\x5a\x16\xfe\x01\x26"
        else:
            code += b"\x11\x00\x13\x00\x2b\x00"
    return code + (call(next_token) if next_token else b"") + b"\x2a"


def slots_of(k):
    """An int32 and eleven slots behind it, a string for each 1 among the bits of `k`: no two methods have the same."""
    return bytes([7, 12, INT]) + bytes(STRING if k >> bit & 1 else INT for bit in range(11))


def chain(every, step):
    """Every `every`-th of the methods; each calls the one `step` rows behind."""
    metadata, bodies = begin("App"), Bodies()
    metadata.row(0x02, CLASS, "Program", "", (0x01, 1), 1, 1)
    numbers = range(1, METHODS + 1, every)
    for row, k in enumerate(numbers, 1):
        next_token = 0x06000000 | (row + step) if row + step <= len(numbers) else 0
        rva = bodies.add(fat(static_method(metadata, k, next_token), slots=0x11000000 | row))
        metadata.row(0x06, rva, 0, STATIC, "Main" if k == 1 else "Method%d" % k, static_signature(VOID), 1)
    metadata.row(0x0A, (0x01, 2), "WriteLine", static_signature(VOID, STRING))
    metadata.row(0x0A, (0x01, 2), "WriteLine", static_signature(VOID, INT))
    for k in numbers:
        metadata.row(0x11, slots_of(k))
    end(metadata, "App")
    return image(bodies, metadata, 0x06000001)


def calls():
    return chain(1, 2)


def needed():
    return chain(2, 1)


# ---- the large file

TYPES, FIELDS_OF, METHODS_OF, MEMBERS = 1000, 4, 16, 2000
# Opcodes by what stands behind them (III.3, III.4).
NO_OPERAND = [
    *range(0x02, 0x0E), 0x00, 0x14, *range(0x15, 0x1F), 0x25, 0x26, *range(0x46, 0x4E), *range(0x50, 0x56),
    *range(0x58, 0x67), *range(0x67, 0x6B), 0x6D, 0x6E, *range(0x82, 0x8C), 0x8E, *range(0x90, 0x98),
    *range(0x9A, 0xA0), 0xA2, *range(0xD1, 0xDC),
]
TWO_BYTES = [0x01, 0x02, 0x03, 0x04, 0x05, 0x13, 0x1E]
SLOT = [0x0E, 0x0F, 0x10, 0x11, 0x12, 0x13, 0x1F]
BRANCH = range(0x2B, 0x38)
OF_TYPE = [0x74, 0x75, 0x8C, 0x79, 0xA5, 0x8D, 0x8F, 0xA3, 0xA4, 0x70, 0x71, 0x81, 0xD0]
OF_FIELD = range(0x7B, 0x81)
OF_METHOD = [0x28, 0x28, 0x28, 0x6F, 0x6F, 0x73]


class LargeCode:
    """The code of the large file's methods."""

    def __init__(self, metadata):
        self.metadata, self.numbers = metadata, Numbers(2)

    def instruction(self):
        numbers, kind = self.numbers, self.numbers.below(20)
        if kind < 9:
            return bytes([numbers.one_of(NO_OPERAND)])
        if kind == 9:
            return bytes([0xFE, numbers.one_of(TWO_BYTES)])
        if kind < 12:
            return bytes([numbers.one_of(SLOT), numbers.below(8)])
        if kind == 12:
            return b"\x20" + u32(numbers.below(2**31))
        if kind == 13:
            return load_text(self.metadata, "the text of an instruction that prints it: %d" % numbers.below(12000))
        if kind == 14:
            return bytes([numbers.one_of(OF_TYPE)]) + u32(0x02000002 + numbers.below(TYPES))
        if kind == 15:
            return bytes([numbers.one_of(OF_FIELD)]) + u32(0x04000001 + numbers.below(TYPES * FIELDS_OF))
        if kind < 18:
            return bytes([numbers.one_of(OF_METHOD)]) + u32(0x06000001 + numbers.below(TYPES * METHODS_OF))
        if kind == 18:
            return bytes([numbers.one_of(OF_METHOD)]) + u32(0x0A000001 + numbers.below(MEMBERS))
        return None

    def block(self, count):
        """Code of `count` instructions; each branch goes to an instruction before it or to the next one."""
        code, starts = bytearray(), []
        for _ in range(count):
            part = self.instruction()
            starts.append(len(code))
            if part is None:
                near = [at for at in starts[-30:] if len(code) + 2 - at <= 128] + [len(code) + 2]
                back = self.numbers.one_of(near) - (len(code) + 2)
                part = bytes([self.numbers.one_of(BRANCH)]) + back.to_bytes(1, "little", signed=True)
            code += part
        return bytes(code)

    def body(self, k, slots):
        """Most bodies are short, one in 500 is long, and one in 16 has a try block with a finally block."""
        count = 2000 if k % 500 == 0 else 8 + self.numbers.below(40)
        code = self.block(count)
        if k % 16 != 3:
            return fat(code + b"\x2a", slots=slots)
        block, handler = self.block(6), self.block(3) + b"\xdc"
        tried = code + block + b"\xde" + bytes([len(handler)])  # `leave.s` over the handler
        clause = (2, len(code), len(block) + 2, len(tried), len(handler), 0)
        return fat(tried + handler + b"\x2a", slots=slots, handlers=[clause])


def large_types(metadata):
    """The classes with their fields, and what references and signatures name."""
    for k in range(TYPES):
        metadata.row(0x02, CLASS, "Class%d" % k, "Large.Part%d" % (k % 37), (0x01, 1), 1 + k * FIELDS_OF, 1 + k * METHODS_OF)
        for field in range(FIELDS_OF):
            kind = bytes([0x12]) + compressed((k + field) % TYPES + 2 << 2) if field % 2 else bytes([INT])
            metadata.row(0x04, 0x06, "field%dOf%d" % (field, k), b"\x06" + kind)
    for k in range(MEMBERS):
        metadata.row(0x0A, (0x02, 2 + k % TYPES), "Member%d" % k, static_signature(VOID, *[INT] * (k % 5)))
    for k in range(200):
        metadata.row(0x11, bytes([7, 8]) + bytes((INT, STRING, OBJECT, 2)[k >> 2 * bit & 3] for bit in range(8)))
    for k in range(500):
        metadata.row(0x1B, b"\x1d\x12" + compressed(k + 2 << 2))
    for k in range(0, TYPES, 3):
        metadata.row(0x09, k + 2, (0x02, (k + 7) % TYPES + 2))


def large_method(metadata, bodies, code, k):
    slots = 0x11000001 + k % 200
    rva = bodies.add(code.body(k, slots))
    kind = b"\x12" + compressed(k % TYPES + 2 << 2)
    signature = bytes([0, 2, VOID, INT]) + kind
    first = metadata.count(0x08) + 1
    metadata.row(0x06, rva, 0, STATIC, "Method%dOfTheClass%d" % (k % METHODS_OF, k // METHODS_OF), signature, first)
    for sequence in (1, 2):
        metadata.row(0x08, 0, sequence, "parameter%dOf%d" % (sequence, k % 5000))


def large():
    metadata, bodies = begin("Large"), Bodies()
    large_types(metadata)
    code = LargeCode(metadata)
    for k in range(TYPES * METHODS_OF):
        large_method(metadata, bodies, code, k)
    for k in range(8000):
        metadata.row(0x0C, (0x06, k + 1), (0x0A, 1), b"\x01\0" + bytes([k % 200]) * (k % 90) + b"\0\0")
    end(metadata, "Large")
    return image(bodies, metadata, 0x06000001)


def shared():
    metadata, bodies = begin("Shared"), Bodies()
    metadata.row(0x02, CLASS, "Program", "", (0x01, 1), 1, 1)
    count = 1 << 20
    locals_of = b"\x07" + compressed(count) + bytes([INT]) * (count - 1) + b"\0"  # no type begins with 0
    for _ in range(200000):
        metadata.row(0x11, locals_of)
    rva = bodies.add(fat(b"\0" * 100000 + b"\x24"))  # no instruction has the opcode 24
    for k in range(50000):
        metadata.row(0x06, rva, 0, STATIC, "Method%d" % k, static_signature(VOID), 1)
    end(metadata, "Shared")
    return image(bodies, metadata, 0x06000001)


def flow():
    """Blocks of 40 instructions, each of which goes back to the one before it: 18 pairs of a load and a store, a text now and then."""
    metadata, bodies = begin("Flow"), Bodies()
    metadata.row(0x02, CLASS, "Program", "", (0x01, 1), 1, 1)
    metadata.row(0x11, bytes([7, 20]) + bytes([STRING]) * 20)
    code, starts = b"", [0]
    for block in range(250):
        for pair in range(18):
            k = block * 18 + pair
            load = load_text(metadata, "text %d" % (k // 6 % 50)) if k % 6 == 0 else bytes([0x11, k * 7 % 20])
            code += load + bytes([0x13, (k * 3 + 1) % 20])  # `ldloc.s`, `stloc.s`
        code += b"\0\0\x16\x3a"  # two `nop`, `ldc.i4.0`, `brtrue` to the block before
        code += (starts[-2 if block else -1] - len(code) - 4).to_bytes(4, "little", signed=True)
        starts.append(len(code))
    metadata.row(0x06, bodies.add(fat(code + b"\x2a", slots=0x11000001)), 0, STATIC, "Main", static_signature(VOID), 1)
    end(metadata, "Flow")
    return image(bodies, metadata, 0x06000001)


FILES = {f.__name__: f for f in (hello, uncalled, mixed, mixed_left, calls, needed, large, shared, flow)}


def main(words):
    if words[:1] in (["body"], ["text"]) and len(words) == 3:
        data = {"body": body, "text": text}[words[0]](int(words[1]))
    elif len(words) == 2 and words[0] in FILES:
        data = FILES[words[0]]()
    else:
        sys.stderr.write(__doc__)
        return 2
    with open(words[-1], "wb") as out:
        out.write(data)
    return 0


if __name__ == "__main__":
    sys.exit(main(sys.argv[1:]))
