"""What an opcode is: how it is encoded, its types, and its meaning in C."""
from dataclasses import dataclass

# Codes of two bytes are the prefix and a number: 0xFD23.
BULK, VECTOR, ATOMIC = 0xFC, 0xFD, 0xFE
C_TYPES = {"i32": "u32", "i64": "u64", "f32": "f32", "f64": "f64", "v128": "v128"}
BITS = {"i32": 32, "i64": 64, "f32": 32, "f64": 64}


@dataclass(frozen=True)
class Opcode:
    """`form` is an expression or a call in C, with {0}, {1} .. for the parameters; {lane} for an immediate lane. If the opcode
    reads or writes memory, {0} is a pointer. Control, locals and constants have no form: function.py knows them by their names."""
    code: int
    name: str
    immediate: str = ""
    parameters: tuple = ()
    result: str = ""
    form: str = ""
    is_flag: bool = False  # whether the C expression is an `int`, 0 or 1
    may_trap: bool = False

    @property
    def touches_memory(self):
        return self.immediate.startswith("memory")


# How the bytes after each of these go: see instructions.py.
CONTROL = [
    Opcode(0x00, "unreachable"), Opcode(0x01, "nop"), Opcode(0x02, "block", "block"), Opcode(0x03, "loop", "block"),
    Opcode(0x0B, "end"), Opcode(0x0C, "br", "number"), Opcode(0x0D, "br_if", "number"), Opcode(0x0E, "br_table", "table"),
    Opcode(0x0F, "return"), Opcode(0x10, "call", "number"), Opcode(0x1A, "drop"), Opcode(0x1B, "select"),
    Opcode(0x20, "local.get", "number"), Opcode(0x21, "local.set", "number"), Opcode(0x22, "local.tee", "number"),
    Opcode(0x23, "global.get", "number"), Opcode(0x24, "global.set", "number"),
    Opcode(0x41, "i32.const", "signed"), Opcode(0x42, "i64.const", "signed"),
    Opcode(0x43, "f32.const", "4 bytes"), Opcode(0x44, "f64.const", "8 bytes"),
    Opcode(BULK << 8 | 10, "memory.copy", "two bytes"), Opcode(BULK << 8 | 11, "memory.fill", "byte"),
    Opcode(VECTOR << 8 | 12, "v128.const", "16 bytes"),
    Opcode(ATOMIC << 8 | 3, "atomic.fence", "byte"),
]
