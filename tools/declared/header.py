"""Reads include/pef.h: its constants, structs and calls, in their order, each with its comment.

The header has a regular form: a comment, and then what it is about, without an empty line in between. What isn't understood is an
error, so a new form in the header shows here.
"""
import pathlib
import re
from typing import Dict, Iterator, List, NamedTuple, NoReturn, Sequence, Tuple, Union

ROOT = pathlib.Path(__file__).resolve().parent.parent.parent
PATH = ROOT / "include/pef.h"
#: Sizes, which are alignments too, of the types in structs. A pointer has 8 bytes in each struct.
SIZES = {"bool": 1, "uint8_t": 1, "int16_t": 2, "uint16_t": 2, "int32_t": 4, "uint32_t": 4, "uint64_t": 8, "pef_size": 8}
#: Types that a parameter may have besides: an address or a length as the machine has it.
PARAMETERS = {"size_t"}


class Field(NamedTuple):
    """A field of a struct, or a parameter of a call. The type is without `struct` and the star of a pointer."""

    name: str
    type: str
    is_struct: bool
    is_pointer: bool
    is_constant: bool
    comment: List[str]


class Place(NamedTuple):
    """Where a field is in its struct."""

    offset: int
    size: int


class Struct(NamedTuple):
    """A struct: its fields, and where they are on every machine."""

    name: str
    comment: List[str]
    fields: List[Field]
    places: Dict[str, Place]
    size: int
    align: int


class Call(NamedTuple):
    """A call: what it returns, its name and its parameters, also as they are written."""

    name: str
    comment: List[str]
    result: str
    parameters: List[Field]
    written: str


class Inline(NamedTuple):
    """An inline function: its parameters, and its body."""

    name: str
    parameters: List[Field]
    body: str


class Macro(NamedTuple):
    """A macro, with any parameters or with none. `group` says how many macros its comment is about."""

    name: str
    comment: List[str]
    value: str
    group: int


Item = Union[Struct, Call, Inline, Macro]


def fails(what: str) -> NoReturn:
    raise SystemExit(f"include/pef.h: {what}")


def comment_lines(text: str) -> List[str]:
    """The lines of a comment, without its marks."""
    lines = [re.sub(r"^ ?\* ?", "", line.rstrip()) for line in text[2:-2].strip("\n").split("\n")]
    lines[0] = lines[0].strip()
    while lines and not lines[-1].strip():
        lines.pop()
    while lines and not lines[0].strip():
        lines.pop(0)
    return [line.rstrip() for line in lines]


def statements(text: str) -> Iterator[Tuple[List[str], str]]:
    """What the header declares, in order: each with the lines of the comment before it, if one is right there."""
    text = re.sub(r"\\\n", " ", text)
    text = re.sub(r"^( +)PEF_WIDE ", r"\1", text, flags=re.M)
    pattern = re.compile(
        r"(?P<comment>/\*.*?\*/)|(?P<define>^#define [^\n]*)|(?P<other>^#[^\n]*)|(?P<struct>^struct \w+ \{.*?^\};)"
        r"|(?P<typedef>^typedef [^\n]* pef_size;)|(?P<inline>^static inline .*?^\})|(?P<call>^(?:uint32_t|void) \w+\([^;]*\);)|(?P<language>^extern \"C\" \{|^\})|(?P<space>\s+)",
        re.S | re.M,
    )
    at, said = 0, []
    while at < len(text):
        found = pattern.match(text, at)
        if not found:
            fails(f"there is something unknown: {text[at:at + 60]!r}")
        at, kind, it = found.end(), found.lastgroup, found[0]
        if kind == "comment":
            said = comment_lines(it)
        elif kind == "space":
            said = [] if it.count("\n") > 1 else said
        elif kind in ("define", "struct", "inline", "call"):
            yield said, it
            said = []


# --- what a statement is ---


def declared(written: str, comment: str = "") -> Field:
    """A field or a parameter."""
    found = re.fullmatch(r"(const )?(struct )?(\w+) ?(\*?) ?(\w+)", " ".join(written.split()))
    if not found:
        fails(f"{written.strip()!r} isn't understood")
    field = Field(found[5], found[3], bool(found[2]), bool(found[4]), bool(found[1]), comment_lines(comment) if comment else [])
    is_known = field.is_struct or field.type in SIZES or field.type in PARAMETERS or (field.type == "void" and field.is_pointer)
    return field if is_known else fails(f"the type of {written.strip()!r} is unknown")


def parameters(written: str) -> List[Field]:
    found = [] if written.strip() == "void" else [declared(it) for it in written.split(",")]
    for it in found:
        if it.is_pointer and it.type == "size_t":
            fails(f"the parameter {it.name} points to a size_t: it has to be a pef_size")
        if it.is_struct and not it.is_pointer:
            fails(f"the parameter {it.name} is a struct: it has to be a pointer")
    return found


def parts(pattern: str, written: str) -> Sequence[str]:
    """The groups of a pattern that a statement has."""
    found = re.fullmatch(pattern, written, re.S)
    return found.groups("") if found else fails(f"{written!r} isn't understood")


def struct(said: List[str], written: str, structs: Dict[str, Struct]) -> Struct:
    name, body = parts(r"struct (\w+) \{(.*)\};", written)
    fields = [declared(it, comment) for comment, it in re.findall(r"(/\*.*?\*/)?\s*([^;/]+);", body, re.S)]
    places, at, most = {}, 0, 1
    for field in fields:
        size, align = size_of(field, structs)
        at += -at % align
        places[field.name] = Place(at, size)
        at, most = at + size, max(most, align)
    return Struct(name, said, fields, places, at + -at % most, most)


def size_of(field: Field, structs: Dict[str, Struct]) -> Tuple[int, int]:
    """The size and the alignment of a field."""
    if field.is_pointer:
        return 8, 8
    if field.is_struct:
        it = structs.get(field.type) or fails(f"struct {field.type} is unknown")
        return it.size, it.align
    if field.type not in SIZES:
        fails(f"the field {field.name} is a {field.type}: in a struct it has to be a pef_size")
    return SIZES[field.type], SIZES[field.type]


def call(said: List[str], written: str) -> Call:
    result, name, inside = parts(r"(\w+) (\w+)\((.*)\);", written)
    return Call(name, said, result, parameters(inside), inside)


def inline(written: str) -> Inline:
    name, inside, body = parts(r"static inline \w+ (\w+)\((.*?)\)\n(.*)", written)
    return Inline(name, parameters(inside), body)


def macro(said: List[str], written: str) -> Macro:
    name, value = parts(r"#define (\w+)(?:\(\.\.\.\))?(?: +(.*?))?(?: */\*.*\*/)?", written)
    return Macro(name, said, value.strip(), 1)


class Header:
    """What the header declares, in its order."""

    def __init__(self, text: str):
        self.items: List[Item] = []
        self.structs: Dict[str, Struct] = {}
        first = -1
        for said, it in statements(text):
            made: Item
            if it.startswith("#define"):
                made = macro(said, it)
                head = self.items[first] if first >= 0 and not said else None
                if isinstance(head, Macro):
                    self.items[first] = head._replace(group=head.group + 1)
                else:
                    first = len(self.items)
            else:
                first = -1
                if it.startswith("struct"):
                    made = struct(said, it, self.structs)
                    self.structs[made.name] = made
                else:
                    made = inline(it) if it.startswith("static") else call(said, it)
            self.items.append(made)

    @property
    def calls(self) -> List[Call]:
        return [it for it in self.items if isinstance(it, Call)]

    @property
    def macros(self) -> List[Macro]:
        return [it for it in self.items if isinstance(it, Macro)]

    @property
    def constants(self) -> Dict[str, int]:
        """The macros that are plain numbers."""
        numbers = {it.name: it.value.strip("()") for it in self.macros if it.name.startswith("PEF_")}
        return {name: int(value, 0) for name, value in numbers.items() if re.fullmatch(r"-?\d+|0x[0-9A-Fa-f]+", value)}


def read() -> Header:
    return Header(PATH.read_text(encoding="utf-8"))
