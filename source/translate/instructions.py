"""The instructions of a function, with their immediates and relocations."""
import struct
from dataclasses import dataclass

from . import accesses, atomics, floats, integers, vectors
from .bytes_reader import BytesReader
from .errors import Unknown
from .opcode import ATOMIC, BULK, CONTROL, VECTOR

OPCODES = {opcode.code: opcode
           for module in (integers, floats, accesses, atomics, vectors) for opcode in module.OPCODES}
OPCODES.update({opcode.code: opcode for opcode in CONTROL})
NO_RESULT = 0x40


@dataclass
class Instruction:
    opcode: object
    immediate: object = None  # a number, or a tuple of what the opcode has
    relocation: object = None
    at: int = 0  # in the object


class InstructionReader:
    def __init__(self, object_file, function):
        self.reader = BytesReader(object_file.data, function.start, function.end)
        self.relocations = object_file.code_relocations
        self.found = None  # the relocation within this instruction

    def read_all(self):
        instructions = []
        while self.reader.at < self.reader.end:
            instructions.append(self.read())
        return instructions

    def read(self):
        at = self.reader.at
        code = self.reader.byte()
        if code in (BULK, VECTOR, ATOMIC):
            code = code << 8 | self.reader.unsigned()
        if code not in OPCODES:
            raise Unknown(f"opcode {code:#x}")
        opcode = OPCODES[code]
        self.found = None
        immediate = IMMEDIATES[opcode.immediate](self) if opcode.immediate else None
        return Instruction(opcode, immediate, self.found, at)

    def number(self):
        return self.relocated(self.reader.unsigned)

    def signed(self):
        return self.relocated(self.reader.signed)

    def relocated(self, read):
        self.found = self.relocations.get(self.reader.at)
        return read()

    def table(self):
        return self.reader.list(self.reader.unsigned), self.reader.unsigned()

    def read_memory(self):
        """The offset of an access. Its alignment is only a hint."""
        hint = self.reader.unsigned()
        if hint & ~7:
            raise Unknown("an access of a memory that isn't the first")
        return self.relocated(self.reader.unsigned)

    def read_block_type(self):
        if self.reader.data[self.reader.at] == NO_RESULT:
            self.reader.byte()
            return ""
        return self.reader.value_type()


def unpacked(form):
    """Reads numbers of a fixed size."""
    size = struct.calcsize(form)

    def read(self):
        numbers = struct.unpack(form, self.reader.take(size))
        return numbers if len(numbers) > 1 else numbers[0]

    return read


IMMEDIATES = {
    "number": InstructionReader.number, "signed": InstructionReader.signed, "block": InstructionReader.read_block_type,
    "table": InstructionReader.table, "memory": InstructionReader.read_memory,
    "memory and lane": lambda self: (self.read_memory(), self.reader.byte()),
    "lane": unpacked("<B"), "byte": unpacked("<B"), "two bytes": unpacked("<2B"), "4 bytes": unpacked("<I"),
    "8 bytes": unpacked("<Q"), "16 bytes": unpacked("<2Q"), "16 lanes": unpacked("<2Q"),
}
