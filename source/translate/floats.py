"""The opcodes of floating-point numbers, without roots and roundings, and of their conversions.

Sums and products are calls of functions whose results are volatile, so that no compiler fuses a product with a sum.
"""
from .opcode import BULK, Opcode

COMPARISONS = [("eq", "=="), ("ne", "!="), ("lt", "<"), ("gt", ">"), ("le", "<="), ("ge", ">=")]
# The codes after that of `abs`; those that are missing here are roundings and the root.
UNARY = [(0, "abs"), (1, "neg")]
BINARY = [(7, "add"), (8, "sub"), (9, "mul"), (10, "div"), (11, "min"), (12, "max"), (13, "copysign")]
CONVERSIONS = [
    Opcode(0xB2, "f32.convert_i32_s", "", ("i32",), "f32", "(f32)(i32){0}"),
    Opcode(0xB3, "f32.convert_i32_u", "", ("i32",), "f32", "(f32){0}"),
    Opcode(0xB4, "f32.convert_i64_s", "", ("i64",), "f32", "(f32)(i64){0}"),
    Opcode(0xB5, "f32.convert_i64_u", "", ("i64",), "f32", "(f32){0}"),
    Opcode(0xB6, "f32.demote_f64", "", ("f64",), "f32", "(f32){0}"),
    Opcode(0xB7, "f64.convert_i32_s", "", ("i32",), "f64", "(f64)(i32){0}"),
    Opcode(0xB8, "f64.convert_i32_u", "", ("i32",), "f64", "(f64){0}"),
    Opcode(0xB9, "f64.convert_i64_s", "", ("i64",), "f64", "(f64)(i64){0}"),
    Opcode(0xBA, "f64.convert_i64_u", "", ("i64",), "f64", "(f64){0}"),
    Opcode(0xBB, "f64.promote_f32", "", ("f32",), "f64", "(f64){0}"),
    Opcode(0xBC, "i32.reinterpret_f32", "", ("f32",), "i32", "f32_bits({0})"),
    Opcode(0xBD, "i64.reinterpret_f64", "", ("f64",), "i64", "f64_bits({0})"),
    Opcode(0xBE, "f32.reinterpret_i32", "", ("i32",), "f32", "f32_of({0})"),
    Opcode(0xBF, "f64.reinterpret_i64", "", ("i64",), "f64", "f64_of({0})"),
]


def comparisons(type, first):
    return [Opcode(first + number, f"{type}.{name}", "", (type, type), "i32", f"{{0}} {sign} {{1}}", is_flag=True)
            for number, (name, sign) in enumerate(COMPARISONS)]


def arithmetic(type, first):
    unary = [Opcode(first + number, f"{type}.{name}", "", (type,), type, f"{type}_{name}({{0}})") for number, name in UNARY]
    return unary + [Opcode(first + number, f"{type}.{name}", "", (type, type), type, f"{type}_{name}({{0}}, {{1}})")
                    for number, name in BINARY]


def saturating():
    """To an integer: the nearest one, and 0 for what is no number."""
    found = []
    for number in range(8):
        to, source, sign = ("i32", "i64")[number >> 2], ("f32", "f64")[number >> 1 & 1], "su"[number & 1]
        name = f"{to}.trunc_sat_{source}_{sign}"
        found.append(Opcode(BULK << 8 | number, name, "", (source,), to, f"{to}_{sign}_of_{source}({{0}})"))
    return found


OPCODES = (comparisons("f32", 0x5B) + comparisons("f64", 0x61) + arithmetic("f32", 0x8B) + arithmetic("f64", 0x99)
           + CONVERSIONS + saturating())
