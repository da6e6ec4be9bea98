"""The opcodes of integers, and the conversions between them."""
from .opcode import BITS, Opcode

COMPARISONS = [("eq", "=="), ("ne", "!="), ("lt_s", "<"), ("lt_u", "<"), ("gt_s", ">"), ("gt_u", ">"), ("le_s", "<="),
               ("le_u", "<="), ("ge_s", ">="), ("ge_u", ">=")]
# In the order of their codes. {w} is the width; shifts take their count modulo it.
ARITHMETIC = [
    ("clz", "clz{w}({{0}})"), ("ctz", "ctz{w}({{0}})"), ("popcnt", "popcnt{w}({{0}})"),
    ("add", "{{0}} + {{1}}"), ("sub", "{{0}} - {{1}}"), ("mul", "{{0}} * {{1}}"),
    ("div_s", "div{w}s({{0}}, {{1}})"), ("div_u", "div{w}({{0}}, {{1}})"),
    ("rem_s", "rem{w}s({{0}}, {{1}})"), ("rem_u", "rem{w}({{0}}, {{1}})"),
    ("and", "{{0}} & {{1}}"), ("or", "{{0}} | {{1}}"), ("xor", "{{0}} ^ {{1}}"),
    ("shl", "{{0}} << ({{1}} & {most})"), ("shr_s", "(u{w})((i{w}){{0}} >> ({{1}} & {most}))"),
    ("shr_u", "{{0}} >> ({{1}} & {most})"),
    ("rotl", "rotl{w}({{0}}, {{1}})"), ("rotr", "rotr{w}({{0}}, {{1}})"),
]
CONVERSIONS = [
    Opcode(0xA7, "i32.wrap_i64", "", ("i64",), "i32", "(u32){0}"),
    Opcode(0xAC, "i64.extend_i32_s", "", ("i32",), "i64", "(u64)(i64)(i32){0}"),
    Opcode(0xAD, "i64.extend_i32_u", "", ("i32",), "i64", "(u64){0}"),
    Opcode(0xC0, "i32.extend8_s", "", ("i32",), "i32", "(u32)(i32)(i8){0}"),
    Opcode(0xC1, "i32.extend16_s", "", ("i32",), "i32", "(u32)(i32)(i16){0}"),
    Opcode(0xC2, "i64.extend8_s", "", ("i64",), "i64", "(u64)(i64)(i8){0}"),
    Opcode(0xC3, "i64.extend16_s", "", ("i64",), "i64", "(u64)(i64)(i16){0}"),
    Opcode(0xC4, "i64.extend32_s", "", ("i64",), "i64", "(u64)(i64)(i32){0}"),
]


def comparisons(type, first):
    width = BITS[type]
    found = [Opcode(first, f"{type}.eqz", "", (type,), "i32", "!{0}", is_flag=True)]
    for number, (name, sign) in enumerate(COMPARISONS):
        cast = f"(i{width})" if name.endswith("_s") else ""
        form = f"{cast}{{0}} {sign} {cast}{{1}}"
        found.append(Opcode(first + 1 + number, f"{type}.{name}", "", (type, type), "i32", form, is_flag=True))
    return found


def arithmetic(type, first):
    width = BITS[type]
    found = []
    for number, (name, form) in enumerate(ARITHMETIC):
        parameters = (type,) if number < 3 else (type, type)
        text = form.format(w=width, most=width - 1)
        found.append(Opcode(first + number, f"{type}.{name}", "", parameters, type, text, may_trap=name[:3] in ("div", "rem")))
    return found


OPCODES = (comparisons("i32", 0x45) + comparisons("i64", 0x50) + arithmetic("i32", 0x67) + arithmetic("i64", 0x79)
           + CONVERSIONS)
