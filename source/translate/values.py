"""Expressions of C, as they stand for values of WebAssembly."""
from dataclasses import dataclass, replace

from . import integers
from .opcode import BITS, C_TYPES

# A number below is written in decimal.
DECIMAL = 65536


@dataclass(frozen=True)
class Value:
    """An expression. It is an address within an array if it has a `base`, and a constant if it has `bits`."""
    text: str
    type: str
    is_atom: bool = False  # whether it needs no parentheses
    is_flag: bool = False  # whether its type in C is `int`: it is 0 or 1
    depends: bool = False  # whether it reads memory, or may end the program
    locals: frozenset = frozenset()
    bits: int = None
    base: str = None
    offset: int = 0
    size: int = 0  # of the array
    opposite: str = None  # of a flag: the text of its opposite
    is_temporary: bool = False

    @property
    def is_fixed(self):
        """Whether it is the same wherever it is written. A block may be left before its end: it must not copy what it found."""
        return self.is_temporary or self.bits is not None or self.base is not None

    @property
    def is_outside(self):
        """Whether C knows no pointer to it: only a number can be that far from an array."""
        return not 0 <= self.offset <= self.size

    def pointer(self):
        """An address within an array, as a pointer."""
        if self.is_outside:
            return f"P{self.plain()}"
        return f"{self.base} + {self.offset}" if self.offset else self.base

    def plain(self):
        """The text, where its type in C doesn't matter."""
        if self.base is None:
            return self.text
        if self.is_outside:
            return f"(A({self.base}) {'-' if self.offset < 0 else '+'} {abs(self.offset)}u)"
        return f"A({self.pointer()})"

    def moved(self, amount):
        """An address that is so many bytes further on."""
        return replace(self, offset=self.offset + amount)

    def typed(self):
        """The text with the type of the value."""
        return f"({C_TYPES[self.type]})({self.text})" if self.is_flag else self.plain()

    def atom(self):
        """The text with the type of the value, as an operand."""
        if self.base is not None or self.is_atom:
            return self.plain()
        return f"({self.typed()})"

    def condition(self):
        return self.text if self.is_flag else self.atom()


def number(bits, type):
    suffix = "u" if type == "i32" else "ull"
    return f"{bits}{suffix}" if bits < DECIMAL else f"0x{bits:X}{suffix}"


def constant(value, type):
    bits = value & ((1 << BITS[type]) - 1)
    return Value(number(bits, type), type, is_atom=True, bits=bits)


def address(base, offset, size):
    return Value("", "i64", base=base, offset=offset, size=size)


def combined(text, type, parts, **more):
    """An expression of others."""
    depends = more.pop("depends", False) or any(part.depends for part in parts)
    names = frozenset().union(*(part.locals for part in parts))
    return Value(text, type, depends=depends, locals=names, **more)


def is_negative(value):
    return value.bits >> (BITS[value.type] - 1) == 1


def sum_of(opcode, first, second):
    """A sum or a difference, with the constant last and as a number that isn't negative."""
    sign = "-" if opcode.name.endswith("sub") else "+"
    if first.bits is not None and sign == "+":
        first, second = second, first
    if second.bits is None:
        return combined(f"{first.atom()} {sign} {second.atom()}", opcode.result, (first, second))
    amount = second.bits
    if is_negative(second):
        amount, sign = (1 << BITS[second.type]) - amount, "+" if sign == "-" else "-"
    if first.base is not None:
        return first.moved(amount if sign == "+" else -amount)
    # A small number is an `unsigned` for both widths.
    text = f"{amount}u" if amount < DECIMAL else number(amount, second.type)
    return combined(f"{first.atom()} {sign} {text}", opcode.result, (first,))


def shift_of(opcode, first, second):
    text = opcode.form
    if second.bits is not None:
        text = text.replace(f"({{1}} & {BITS[opcode.result] - 1})", str(second.bits % BITS[opcode.result]))
    return combined(text.format(first.atom(), second.atom()), opcode.result, (first, second))


def quotient_of(opcode, first, second):
    """A quotient or a remainder. By a number that is neither 0 nor negative there is nothing to be checked."""
    if second.bits and not is_negative(second) and opcode.name.endswith("_u"):
        sign = "/" if ".div" in opcode.name else "%"
        return combined(f"{first.atom()} {sign} {second.atom()}", opcode.result, (first, second))
    return called(opcode, (first, second))


def called(opcode, parts):
    text = opcode.form.format(*(part.typed() for part in parts))
    return combined(text, opcode.result, parts, is_atom=True, depends=opcode.may_trap)


def opposite_of(opcode, value):
    """Whether a value is 0."""
    if value.opposite:
        return combined(value.opposite, "i32", (value,), is_flag=True, opposite=value.plain())
    text = f"({value.plain()})" if value.is_flag else value.atom()
    return combined(f"!{text}", "i32", (value,), is_flag=True, opposite=f"{text} != 0")


def comparison_of(opcode, first, second):
    sign = opcode.form.split()[1]
    texts = [f"{opcode.form.replace(sign, each)}".format(first.atom(), second.atom()) for each in (sign, OPPOSITES[sign])]
    return combined(texts[0], "i32", (first, second), is_flag=True, opposite=texts[1])


OPPOSITES = {"==": "!=", "!=": "==", "<": ">=", ">=": "<", ">": "<=", "<=": ">"}
SPECIAL = {}
for _type in ("i32", "i64"):
    SPECIAL.update({f"{_type}.{name}": sum_of for name in ("add", "sub")})
    SPECIAL.update({f"{_type}.{name}": shift_of for name in ("shl", "shr_s", "shr_u")})
    SPECIAL.update({f"{_type}.{name}": quotient_of for name in ("div_u", "rem_u")})
    SPECIAL.update({f"{_type}.{name}": comparison_of for name, _ in integers.COMPARISONS})
    SPECIAL[f"{_type}.eqz"] = opposite_of


def value_of(opcode, parts):
    """The value of an opcode that touches no memory."""
    if opcode.name in SPECIAL:
        return SPECIAL[opcode.name](opcode, *parts)
    if opcode.form[0].isalpha():
        return called(opcode, parts)
    text = opcode.form.format(*(part.atom() for part in parts))
    return combined(text, opcode.result, parts, is_flag=opcode.is_flag)
