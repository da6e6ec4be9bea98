"""Random functions: control, locals, frames, values that wait on the stack while memory and locals change, and calls."""
from .writer import Code, signed, unsigned

LOCALS = ["i64", "i64", "i64", "i32", "i32", "i32", "i64"]  # after the parameter; the last one is the frame
TYPES = {1: "i64", 2: "i64", 3: "i64", 4: "i32", 5: "i32", 6: "i32"}
FRAME, FRAME_SIZE = 7, 64
BINARY = {"i32": [0x6A, 0x6B, 0x6C, 0x71, 0x72, 0x73, 0x74, 0x75, 0x76, 0x77, 0x78],
          "i64": [0x7C, 0x7D, 0x7E, 0x83, 0x84, 0x85, 0x86, 0x87, 0x88, 0x89, 0x8A]}
COMPARE = {"i32": range(0x46, 0x50), "i64": range(0x51, 0x5B)}
LOAD = {"i32": [0x28, 0x2C, 0x2D, 0x2E, 0x2F], "i64": [0x29, 0x30, 0x31, 0x34, 0x35]}
STORE = {"i32": [0x36, 0x3A, 0x3B], "i64": [0x37, 0x3C, 0x3E]}
VALUE = {"i32": 0x7F, "i64": 0x7E}
STACK_POINTER_KIND, FUNCTION_KIND = 7, 0
DEEPEST = 4


class RandomFunction:
    def __init__(self, random, callees, stack_pointer):
        self.random, self.callees, self.stack_pointer = random, callees, stack_pointer
        self.code, self.depth, self.counters = Code(LOCALS), 0, []

    def made(self):
        """A function with a frame that is filled first; it ends by storing its locals."""
        code = self.code
        self.global_pointer(0x23)
        code.i64(FRAME_SIZE).opcode(0x7D).tee(FRAME)
        self.global_pointer(0x24)
        code.get(FRAME).i32(self.random.randrange(256)).i64(FRAME_SIZE).add(b"\xfc\x0b\x00")
        self.statements(self.random.randint(4, 10))
        for number, type in TYPES.items():
            code.get(0).get(number).opcode(0x37 if type == "i64" else 0x36).add(unsigned(0), unsigned(8 * number))
        code.get(0).get(FRAME).opcode(0x29).add(unsigned(0), unsigned(8)).opcode(0x37).add(unsigned(0), unsigned(72))
        code.get(FRAME).i64(FRAME_SIZE).opcode(0x7C)
        self.global_pointer(0x24)
        return code

    def global_pointer(self, code):
        self.code.opcode(code).relocated(STACK_POINTER_KIND, self.stack_pointer, unsigned(0, 5))

    def statements(self, count):
        for _ in range(count):
            kinds = [self.assign, self.assign, self.store, self.store, self.copy, self.fill]
            if self.depth < DEEPEST:
                kinds += [self.block, self.loop, self.table, self.calls, self.waiting]
            self.random.choice(kinds)()

    def inside(self, statements):
        self.depth += 1
        self.statements(statements)
        self.depth -= 1

    def assign(self):
        number = self.random.choice([each for each in TYPES if each not in self.counters])
        self.expression(TYPES[number], 2)
        self.code.set(number)

    def address(self):
        """A place of the case's memory or of the frame."""
        if self.random.random() < 0.5:
            self.code.get(0).i64(self.random.randrange(80, 120)).opcode(0x7C)
        else:
            self.code.get(FRAME)

    def offset(self):
        return unsigned(0) + unsigned(self.random.randrange(FRAME_SIZE - 8))

    def store(self):
        type = self.random.choice(("i32", "i64"))
        self.address()
        self.expression(type, 2)
        self.code.opcode(self.random.choice(STORE[type])).add(self.offset())

    def copy(self):
        self.address()
        self.address()
        self.code.i64(self.random.randrange(FRAME_SIZE)).add(b"\xfc\x0a\x00\x00")

    def fill(self):
        self.address()
        self.expression("i32", 1)
        self.code.i64(self.random.randrange(FRAME_SIZE)).add(b"\xfc\x0b\x00")

    def block(self):
        """A block that a condition leaves; sometimes with a result."""
        type = self.random.choice((None, "i32", "i64"))
        self.code.add(0x02, VALUE[type] if type else 0x40)
        self.inside(self.random.randint(0, 2))
        if type:
            self.expression(type, 1)
        self.expression("i32", 1)
        self.code.add(0x0D, 0)
        if type:
            self.code.add(0x1A)
        self.inside(self.random.randint(0, 2))
        if type:
            self.expression(type, 1)
            if self.random.random() < 0.3:
                self.code.add(0x0C, 0)
        self.code.add(0x0B)
        if type:
            self.code.set(self.settable(type))

    def spare(self, type):
        """A local that is no counter."""
        return 3 if type == "i64" else 6

    def settable(self, type):
        return self.random.choice([each for each in TYPES if TYPES[each] == type and each not in self.counters])

    def loop(self):
        """A loop of three rounds, whose counter nothing else sets."""
        free = [each for each in (1, 2, 4, 5) if each not in self.counters]
        if not free:
            return
        counter = self.random.choice(free)
        self.counters.append(counter)
        wide = TYPES[counter] == "i64"
        number = self.code.i64 if wide else self.code.i32
        number(0)
        self.code.set(counter).add(0x03, 0x40)
        self.inside(self.random.randint(1, 3))
        self.code.get(counter)
        number(1)
        self.code.opcode(0x7C if wide else 0x6A).tee(counter)
        number(3)
        self.code.opcode(0x54 if wide else 0x49).add(0x0D, 0, 0x0B)
        self.counters.remove(counter)

    def table(self):
        """Three blocks, and a jump out of one of them."""
        self.code.add(0x02, 0x40, 0x02, 0x40, 0x02, 0x40)
        self.expression("i32", 1)
        self.code.i32(7).opcode(0x71).add(0x0E, 4, *(self.random.randrange(3) for _ in range(5)), 0x0B)
        for _ in range(2):
            self.inside(self.random.randint(0, 2))
            if self.random.random() < 0.4:
                self.code.add(0x0C, 0)
            self.code.add(0x0B)

    def waiting(self):
        """Values that wait on the stack while statements run."""
        type = self.random.choice(("i32", "i64"))
        self.expression(type, 2)
        self.inside(self.random.randint(1, 3))
        self.expression(type, 1)
        self.code.opcode(self.random.choice(BINARY[type])).set(self.spare(type))

    def calls(self):
        if not self.callees:
            return
        callee = self.random.choice(self.callees)
        self.expression("i64", 1)
        self.address()
        self.expression("i32", 1)
        self.code.add(0x10).relocated(FUNCTION_KIND, callee, unsigned(callee, 5))
        if self.random.random() < 0.2:
            self.code.add(0x1A)
        else:
            self.code.set(self.spare("i64"))

    def expression(self, type, depth):
        code, choose = self.code, self.random.random()
        own = [each for each in TYPES if TYPES[each] == type]
        if depth <= 0 or choose < 0.2:
            if choose < 0.1:
                code.get(self.random.choice(own))
            else:
                value = self.random.choice((0, 1, -1, 8, self.random.getrandbits(31), -self.random.getrandbits(20)))
                code.i32(value) if type == "i32" else code.i64(value)
        elif choose < 0.35:
            self.address()
            code.opcode(self.random.choice(LOAD[type])).add(self.offset())
        elif choose < 0.65:
            self.expression(type, depth - 1)
            self.expression(type, depth - 1)
            code.opcode(self.random.choice(BINARY[type]))
        else:
            self.mixed(type, depth - 1)

    def mixed(self, type, depth):
        """An expression over both types, one that sets a local, or a choice."""
        code, kind = self.code, self.random.randrange(4)
        other = "i64" if type == "i32" else "i32"
        if kind == 0 and type == "i32":
            source = self.random.choice(("i32", "i64"))
            self.expression(source, depth)
            self.expression(source, depth)
            code.opcode(self.random.choice(COMPARE[source]))
            if self.random.random() < 0.4:
                code.opcode(0x45)
        elif kind <= 1:
            self.expression(other, depth)
            code.opcode(0xA7 if type == "i32" else self.random.choice((0xAC, 0xAD)))
        elif kind == 2:
            self.expression(type, depth)
            code.tee(self.settable(type))
        else:
            self.expression(type, depth)
            self.expression(type, depth)
            self.expression("i32", depth)
            code.add(0x1B)


def callee(random):
    """A function of two numbers of 64 bits and one of 32, the second of which is an address: it changes memory there."""
    code = Code(["i64"])
    code.get(1).get(0).get(2).opcode(0xAD).opcode(random.choice(BINARY["i64"])).tee(3).opcode(0x37).add(unsigned(0), unsigned(0))
    return code.get(3).get(1).opcode(0x29).add(unsigned(0), unsigned(4)).opcode(0x7C)


def constants(module):
    """Data that holds addresses, its own among them, and a function that reads it in all ways."""
    plain = module.data(bytes(range(1, 41)))
    linked = module.data(bytes(48), [(8, plain, 4), (16, plain + 1, 24), (40, plain, 0)])
    kinds = module.segment_symbol(plain), module.segment_symbol(linked)
    code = Code(["i64"])

    def base(number, addend):
        symbol, segment = kinds[number], (plain, linked)[number]
        return code.add(0x42).relocated(15, symbol, signed(module.segment_address(segment) + addend, 10), addend)

    # What the addresses in the data point to: the second one is that of the data itself, 24 bytes on, which holds no address.
    for at, (place, offset) in enumerate([(8, 0), (16, 3), (40, 3)]):
        code.get(0)
        base(1, place).opcode(0x29).add(unsigned(0), unsigned(0)).opcode(0x29).add(unsigned(0), unsigned(offset))
        code.opcode(0x37).add(unsigned(0), unsigned(8 * at))
    code.get(0).get(0).opcode(0x29).add(unsigned(0), unsigned(120)).i64(7).opcode(0x83)
    code.add(0x2D, unsigned(0)).relocated(14, kinds[0], unsigned(module.segment_address(plain) + 5, 10), 5)
    return code.opcode(0x36).add(unsigned(0), unsigned(40))


def late_frame(stack_pointer):
    """A frame as functions without calls have it: the stack pointer isn't changed, and its size is taken off later."""
    code = Code(["i64", "i64"])
    code.opcode(0x23).relocated(STACK_POINTER_KIND, stack_pointer, unsigned(0, 5)).set(1)
    code.get(1).i64(32).opcode(0x7D).tee(2).get(0).opcode(0x29).add(unsigned(0), unsigned(16)).opcode(0x37).add(unsigned(0), unsigned(8))
    # The first local is used for something else.
    code.get(2).opcode(0x29).add(unsigned(0), unsigned(8)).set(1).get(0).get(1)
    return code.opcode(0x37).add(unsigned(0), unsigned(0))


def add_to(module, random, count):
    """Gives rows as `single` does."""
    helper = module.type(("i64", "i64", "i32"), ("i64",))
    callees = [module.function(callee(random), helper) for _ in range(4)]
    first, rows = len(module.functions), []
    pointer = first + count + 2  # the symbol after all functions
    for number in range(count):
        code = RandomFunction(random, callees, pointer).made()
        rows.append((module.function(code), f"random function {number}", "", [random.randbytes(256) for _ in range(8)]))
    rows.append((module.function(late_frame(pointer)), "a late frame", "", [random.randbytes(256) for _ in range(8)]))
    rows.append((module.function(Code()), "constant data", "", [random.randbytes(256) for _ in range(8)]))
    module.functions[-1] = (constants(module), 0)
    return rows
