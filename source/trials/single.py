"""One function for each opcode, at edge values and random ones. Memory: 16 bytes for each parameter, the result at 64, and what is
loaded and stored from 128 on."""
import struct

from translate.instructions import OPCODES
from translate.opcode import ATOMIC

from .writer import Code, unsigned

LOADS = {"i32": 0x28, "i64": 0x29, "f32": 0x2A, "f64": 0x2B, "v128": 0xFD00}
STORES = {"i32": 0x36, "i64": 0x37, "f32": 0x38, "f64": 0x39, "v128": 0xFD0B}
RESULT, MEMORY = 64, 128
RANDOM = 60  # cases of a function
MOST_EDGES = 400
INTEGERS = [0, 1, 2, 3, 7, 8, 15, 16, 31, 32, 33, 63, 64, 65, 127, 128, 255, 256, 32767, 32768, 65535]
FLOATS = [0.0, -0.0, 1.0, -1.0, 0.5, -0.5, 1.5, 0.1, 3.0, 1e-40, 5e-324, 1e300, 3e38, -3e38, 2147483647.0, 2147483648.0, -2147483648.0,
          -2147483649.0, 4294967295.0, 4294967295.5, 4294967296.0, 9.2e18, 9223372036854775808.0, -9223372036854775808.0,
          18446744073709549568.0, 18446744073709551616.0, float("inf"), float("-inf"), float("nan")]


def integer_edges(bits):
    most = 1 << bits
    found = INTEGERS + [most // 2 - 1, most // 2, most // 2 + 1] + [most - each for each in INTEGERS[1:8]]
    return [each % most for each in found]


def float_bits(value, type):
    if type == "f64":
        return struct.pack("<d", value)
    try:
        return struct.pack("<f", value)
    except OverflowError:
        return struct.pack("<f", float("inf") if value > 0 else float("-inf"))


def edges(type):
    if type in ("i32", "i64"):
        size = int(type[1:]) // 8
        return [each.to_bytes(size, "little") for each in integer_edges(8 * size)]
    if type in ("f32", "f64"):
        return [float_bits(each, type) for each in FLOATS]
    # Vectors: one lane's edge in all lanes, for each width.
    found = []
    for size in (1, 2, 4, 8):
        found += [each.to_bytes(size, "little") * (16 // size) for each in integer_edges(8 * size)[::2 if size < 8 else 1]]
    return found


def random_value(type, random):
    if type == "v128":
        size = random.choice((1, 2, 4, 8))
        pool = integer_edges(8 * size)
        return b"".join((random.choice(pool) if random.random() < 0.5 else random.getrandbits(8 * size)).to_bytes(size, "little")
                        for _ in range(16 // size))
    if type in ("f32", "f64") and random.random() < 0.7:
        return float_bits(random.uniform(-1, 1) * 10.0 ** random.randint(-20, 20), type)
    if type in ("i32", "i64") and random.random() < 0.5:
        return random.choice(edges(type))
    return random.randbytes(int(type[1:]) // 8)


def variants(opcode, random):
    """The immediates that an opcode is tried with."""
    kind = opcode.immediate
    if kind.startswith("memory"):
        size = int(opcode.name[1:3]) // 8
        align = {4: 2, 8: 3}[size] if opcode.code >> 8 == ATOMIC else 0
        access = unsigned(align) + unsigned(MEMORY)
        if kind == "memory":
            return [access]
        last = 128 // int("".join(filter(str.isdigit, opcode.name.split(".")[1]))) - 1
        return [access + bytes([lane]) for lane in (0, last)]
    if kind == "lane":
        last = int(opcode.name.split(".")[0].split("x")[1]) - 1
        return [bytes([lane]) for lane in (0, 1, last)]
    if kind == "16 lanes":
        return [bytes(random.randrange(32) for _ in range(16)) for _ in range(4)]
    return [b""]


def function(opcode, immediate):
    code = Code()
    if opcode.result:
        code.get(0)
    for number, type in enumerate(opcode.parameters):
        code.get(0)
        if number == 0 and opcode.touches_memory:
            code.get(0).opcode(0x29).add(unsigned(0), unsigned(0)).opcode(0x7C)
        else:
            code.opcode(LOADS[type]).add(unsigned(0), unsigned(16 * number))
    code.opcode(opcode.code).add(immediate)
    if opcode.result:
        code.opcode(STORES[opcode.result]).add(unsigned(0), unsigned(RESULT))
    return code


def filled(values, random):
    """The memory of a case."""
    memory = bytearray(random.randbytes(256))
    for number, value in enumerate(values):
        memory[16 * number:16 * number + len(value)] = value
    return bytes(memory)


def cases(opcode, random):
    if opcode.touches_memory:
        at = [(8 * number).to_bytes(8, "little") for number in range(6)]
        types = opcode.parameters[1:]
        return [filled([random.choice(at)] + [random_value(type, random) for type in types], random) for _ in range(RANDOM)]
    pools = [edges(type) for type in opcode.parameters]
    every = [()]
    for pool in pools:
        every = [row + (value,) for row in every for value in pool]
    chosen = every if len(every) <= MOST_EDGES else random.sample(every, MOST_EDGES)
    chosen += [tuple(random_value(type, random) for type in opcode.parameters) for _ in range(RANDOM)]
    return [filled(row, random) for row in chosen]


def add_to(module, random):
    """Gives rows of a function's number, its name, its result's type, and the memories that it is tried with."""
    rows = []
    for opcode in sorted(OPCODES.values(), key=lambda each: each.code):
        if opcode.form:
            for immediate in variants(opcode, random):
                number = module.function(function(opcode, immediate))
                rows.append((number, opcode.name, opcode.result, cases(opcode, random)))
    return rows
