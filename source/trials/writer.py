"""Writes a module that is both: a relocatable object for the translation, and a module that an engine runs.

Each function takes an address and gives nothing. It imports a memory with addresses of 64 bits, and the stack pointer.
"""
import struct

I32, I64, F32, F64, V128 = 0x7F, 0x7E, 0x7D, 0x7C, 0x7B
CODES = {"i32": I32, "i64": I64, "f32": F32, "f64": F64, "v128": V128}
LONGEST = 10  # bytes of a number that a relocation may change
# Where constant data lies in the engine's memory.
DATA = 4096


def unsigned(value, length=0):
    """A number in bytes of seven bits; with a length, in that many bytes."""
    out = bytearray()
    while True:
        byte, value = value & 0x7F, value >> 7
        more = value or len(out) + 1 < length
        out.append(byte | (0x80 if more else 0))
        if not more:
            return bytes(out)


def signed(value, length=0):
    out = bytearray()
    while True:
        byte, value = value & 0x7F, value >> 7
        done = (value == 0 and not byte & 0x40) or (value == -1 and byte & 0x40)
        more = not done or len(out) + 1 < length
        out.append(byte | (0x80 if more else 0))
        if not more:
            return bytes(out)


def name(text):
    return unsigned(len(text)) + text.encode()


def vector(items):
    return unsigned(len(items)) + b"".join(items)


def section(code, content):
    return bytes([code]) + unsigned(len(content)) + content


class Code:
    """The bytes of a body, and its relocations: pairs of an offset and what follows the offset in the table."""

    def __init__(self, locals=()):
        self.locals, self.bytes, self.relocations = list(locals), bytearray(), []

    def add(self, *parts):
        for part in parts:
            self.bytes += bytes([part]) if isinstance(part, int) else part
        return self

    def relocated(self, kind, symbol, number, addend=None):
        self.relocations.append((len(self.bytes), bytes([kind]), unsigned(symbol) + (b"" if addend is None else signed(addend))))
        self.bytes += number
        return self

    def opcode(self, code):
        """A code of one byte, or a prefix and a number."""
        return self.add(bytes([code]) if code < 256 else bytes([code >> 8]) + unsigned(code & 0xFF))

    def get(self, number):
        return self.add(0x20, unsigned(number))

    def set(self, number):
        return self.add(0x21, unsigned(number))

    def tee(self, number):
        return self.add(0x22, unsigned(number))

    def i64(self, value):
        return self.add(0x42, signed(value))

    def i32(self, value):
        return self.add(0x41, signed(value))

    def body(self):
        return vector([unsigned(1) + bytes([CODES[type]]) for type in self.locals]), bytes(self.bytes) + b"\x0b"


class Module:
    """Functions, each of which has a type, and segments of data, each with addresses: pairs of an offset, and a segment and an
    offset in it."""

    def __init__(self):
        self.functions, self.types, self.segments = [], [((I64,), ())], []

    def type(self, parameters, results):
        key = tuple(CODES[each] for each in parameters), tuple(CODES[each] for each in results)
        if key not in self.types:
            self.types.append(key)
        return self.types.index(key)

    def function(self, code, type=0):
        """Returns the function's symbol, which is its index, too."""
        self.functions.append((code, type))
        return len(self.functions) - 1

    def data(self, bytes, addresses=()):
        """Returns the segment's number."""
        self.segments.append((bytearray(bytes), addresses))
        return len(self.segments) - 1

    # Symbols: the functions, the stack pointer, the segments.

    def stack_pointer(self):
        return len(self.functions)

    def segment_symbol(self, number):
        return len(self.functions) + 1 + number

    def segment_address(self, number):
        return DATA + sum(-len(bytes) % 16 + len(bytes) for bytes, _ in self.segments[:number])

    def bytes(self, is_object=False):
        """An engine needs the exports; an object has none."""
        code, code_relocations = self.code_section()
        data, data_relocations = self.data_section()
        types = vector([b"\x60" + vector([bytes([each]) for each in part[0]]) + vector([bytes([each]) for each in part[1]])
                        for part in self.types])
        imports = vector([name("env") + name("__linear_memory") + b"\x02\x04" + unsigned(1),
                          name("env") + name("__stack_pointer") + b"\x03" + bytes([I64, 1])])
        exports = vector([name(f"t{number}") + b"\0" + unsigned(number) for number in range(len(self.functions))])
        parts = [section(1, types), section(2, imports), section(3, vector([unsigned(type) for _, type in self.functions]))]
        parts += [] if is_object else [section(7, exports)]
        at = len(parts)
        parts += [section(10, code), section(11, data), section(0, name("linking") + self.linking()),
                  section(0, name("reloc.CODE") + unsigned(at) + vector(code_relocations)),
                  section(0, name("reloc.DATA") + unsigned(at + 1) + vector(data_relocations))]
        return b"\0asm\1\0\0\0" + b"".join(parts)

    def code_section(self):
        out, relocations = bytearray(unsigned(len(self.functions))), []
        for code, _ in self.functions:
            locals, body = code.body()
            out += unsigned(len(locals) + len(body)) + locals
            relocations += [kind + unsigned(len(out) + at) + rest for at, kind, rest in code.relocations]
            out += body
        return bytes(out), relocations

    def data_section(self):
        out, relocations = bytearray(unsigned(len(self.segments))), []
        for number, (content, addresses) in enumerate(self.segments):
            out += b"\0\x42" + signed(self.segment_address(number)) + b"\x0b" + unsigned(len(content))
            for at, target, offset in addresses:
                struct.pack_into("<Q", content, at, self.segment_address(target) + offset)
                relocations.append(b"\x10" + unsigned(len(out) + at) + unsigned(self.segment_symbol(target)) + signed(offset))
            out += content
        return bytes(out), relocations

    def linking(self):
        names = vector([name(f"data{number}") + unsigned(4) + unsigned(0) for number in range(len(self.segments))])
        symbols = [b"\0\0" + unsigned(number) + name(f"t{number}") for number in range(len(self.functions))]
        symbols.append(b"\x02\x10" + unsigned(0))
        symbols += [b"\x01\x02" + name(f"data{number}") + unsigned(number) + unsigned(0) + unsigned(len(content))
                    for number, (content, _) in enumerate(self.segments)]
        return unsigned(2) + section(5, names) + section(8, vector(symbols))
