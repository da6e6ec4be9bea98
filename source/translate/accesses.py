"""The opcodes that load and store numbers. {0} is a pointer."""
from .opcode import Opcode


def load(code, name, form):
    return Opcode(code, name, "memory", ("i64",), name[:3], form)


def store(code, name, form):
    return Opcode(code, name, "memory", ("i64", name[:3]), "", form)


OPCODES = [
    load(0x28, "i32.load", "ld32({0})"), load(0x29, "i64.load", "ld64({0})"),
    load(0x2A, "f32.load", "ldf32({0})"), load(0x2B, "f64.load", "ldf64({0})"),
    load(0x2C, "i32.load8_s", "(u32)(i32)(i8)ld8({0})"), load(0x2D, "i32.load8_u", "ld8({0})"),
    load(0x2E, "i32.load16_s", "(u32)(i32)(i16)ld16({0})"), load(0x2F, "i32.load16_u", "ld16({0})"),
    load(0x30, "i64.load8_s", "(u64)(i64)(i8)ld8({0})"), load(0x31, "i64.load8_u", "(u64)ld8({0})"),
    load(0x32, "i64.load16_s", "(u64)(i64)(i16)ld16({0})"), load(0x33, "i64.load16_u", "(u64)ld16({0})"),
    load(0x34, "i64.load32_s", "(u64)(i64)(i32)ld32({0})"), load(0x35, "i64.load32_u", "(u64)ld32({0})"),
    store(0x36, "i32.store", "st32({0}, {1})"), store(0x37, "i64.store", "st64({0}, {1})"),
    store(0x38, "f32.store", "stf32({0}, {1})"), store(0x39, "f64.store", "stf64({0}, {1})"),
    store(0x3A, "i32.store8", "st8({0}, {1})"), store(0x3B, "i32.store16", "st16({0}, {1})"),
    store(0x3C, "i64.store8", "st8({0}, (u32){1})"), store(0x3D, "i64.store16", "st16({0}, (u32){1})"),
    store(0x3E, "i64.store32", "st32({0}, (u32){1})"),
]
