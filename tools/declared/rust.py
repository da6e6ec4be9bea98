"""The declarations of the crate pef-sys."""
import pathlib
import re
from typing import Any, Dict, List, NoReturn, Tuple

from . import header
from .header import Call, Field, Header, Inline, Macro, Struct

FOLDER = "bindings/rust/pef-sys"
#: On machines with addresses of 64 bits, on which alone the crates are built, pef_size is size_t, and PEF_WIDE means nothing.
TYPES = {
    "void": "core::ffi::c_void",
    "bool": "bool",
    "size_t": "usize",
    "pef_size": "usize",
    **{f"{sign}int{bits}_t": f"{letter}{bits}" for sign, letter in (("u", "u"), ("", "i")) for bits in (8, 16, 32, 64)},
}
#: The types of constants, by their names or the beginnings of these: those of the fields and answers that have them.
CONSTANTS = [
    (("PEF_KIND_", "PEF_SHARE_", "PEF_CLASS_", "PEF_LIBRARY_WEAK", "PEF_LIBRARY_INIT_BEFORE", "PEF_USAGE_", "PEF_LOCATOR_", "PEF_DETAIL_"), "u8"),
    (("PEF_NO_ENTRY", "PEF_ABSOLUTE", "PEF_REEXPORT"), "i32"),
    (("PEF_NO_OFFSET", "PEF_NO_LIBRARY", "PEF_MAX_FRAGMENTS"), "usize"),
    (("PEF_",), "u32"),
]
FIRST = "// Written by tools/declarations from include/pef.h. Change that, and run it again.\n\n"
#: A value of a struct that takes more has a line for each field.
WIDTH = 140


def fails(what: str) -> NoReturn:
    raise SystemExit(f"tools/declarations: Rust: {what}")


def rust_type(field: Field) -> str:
    it = field.type if field.is_struct else TYPES[field.type]
    return f"*{'const' if field.is_constant else 'mut'} {it}" if field.is_pointer else it


def rust_name(name: str) -> str:
    return "r#type" if name == "type" else name


def doc(said: List[str], mark: str = "///", indent: str = "") -> str:
    """A comment. What is indented in it is C."""
    text, fenced = [], False
    for number, line in enumerate(said):
        code = line.startswith("    ")
        if code and not fenced and mark == "///":
            text.append("```c")
            fenced = True
        elif fenced and line and not code:
            text.append("```")
            fenced = False
        line = line[4:] if fenced and code else line
        text.append(line if fenced or mark != "///" else re.sub(r"(?<![`\w])(pef_\w+\(\)|\*\w+)(?![`\w])", r"`\1`", re.sub(r"(?<!`)`?(\*\w+)`?(?!`)", r"`\1`", line)))
        if fenced and number + 1 == len(said):
            text.append("```")
    return "".join(f"{indent}{mark} {line}".rstrip() + "\n" for line in text)


# --- initial values ---


def initial(it: Macro, before: List[Macro], structs: Dict[str, Struct]) -> Tuple[str, str]:
    """The type and the value of a macro that initializes a struct: PEF_NO_NAMES that of struct pef_names, say."""
    of = re.search(r"struct (\w+) \w+ = " + it.name + r"\b", " ".join(it.comment)) or re.search(r"sizeof\(struct (\w+)\)", it.value)
    name = of[1] if of else f"pef_{it.name[len('PEF_NO_'):].lower()}"
    if name not in structs:
        fails(f"{it.name} is for no struct that is known")
    values = parsed(it.value)
    return name, valued(structs[name], values, {other.name: other for other in before}, structs, 0)


def parsed(written: str) -> List[Any]:
    """The values of an initializer, with lists of those inside."""
    words = re.findall(r"[{}]|[^{},\s][^{},]*", written)

    def read(at: int) -> Tuple[List[Any], int]:
        found: List[Any] = []
        while words[at] != "}":
            value, at = read(at + 1) if words[at] == "{" else (words[at].strip(), at + 1)
            found.append(value)
        return found, at + 1

    return read(1)[0]


def valued(struct: Struct, values: List[Any], macros: Dict[str, Macro], structs: Dict[str, Struct], depth: int) -> str:
    """A value of a struct, on one line if it is short."""
    if len(values) != len(struct.fields):
        fails(f"struct {struct.name} has {len(struct.fields)} fields, and its initial value {len(values)}")
    fields = [f"{rust_name(field.name)}: {value_of(field, value, macros, structs, depth + 1)}" for field, value in zip(struct.fields, values)]
    line = f"{struct.name} {{ {', '.join(fields)} }}"
    if len(line) <= WIDTH and "\n" not in line:
        return line
    indent = "    " * (depth + 1)
    return f"{struct.name} {{\n" + "".join(f"{indent}{it},\n" for it in fields) + "    " * depth + "}"


def value_of(field: Field, value: object, macros: Dict[str, Macro], structs: Dict[str, Struct], depth: int) -> str:
    if isinstance(value, list):
        return valued(structs[field.type], value, macros, structs, depth)
    if value == "NULL":
        return f"core::ptr::null{'' if field.is_constant else '_mut'}()"
    size = re.fullmatch(r"sizeof\(struct (\w+)\)", str(value))
    return f"core::mem::size_of::<{size[1]}>() as {rust_type(field)}" if size else str(value)


# --- items ---


def constant(it: Macro) -> Tuple[str, str]:
    """The type and the value of a constant."""
    if it.value.startswith('"'):
        return "&str", it.value
    kind = next(kind for begins, kind in CONSTANTS if it.name in begins or it.name.startswith(tuple(word for word in begins if word.endswith("_"))))
    value = it.value.replace("UINT64_MAX", "usize::MAX").strip("()")
    if not re.fullmatch(r"-?\d+|0x[0-9A-Fa-f]+|usize::MAX|[A-Z_<|\d ]+", value):
        fails(f"the value {value!r} of {it.name} isn't understood")
    return kind, value


class Declarations:
    """What the header declares, as lists of Rust's items."""

    def __init__(self, declared: Header):
        self.items: List[str] = []
        self.structs = declared.structs
        self.constants: List[str] = []
        self.calls: List[str] = []
        self.readers: List[str] = []
        self.exported: List[str] = []
        self.read = {it.name[: -len("_const")] for it in declared.items if isinstance(it, Inline) and it.name.endswith("_const")}
        last = ""
        macros: List[Macro] = []
        for it in declared.items:
            if isinstance(it, Macro):
                self.macro(it, macros)
                macros.append(it)
            elif isinstance(it, Struct):
                fields = [(doc(field.comment, indent="    ") if field.comment else "") + f"    pub {rust_name(field.name)}: {rust_type(field)},\n" for field in it.fields]
                self.items.append(f"{doc(it.comment)}#[repr(C)]\n#[derive(Clone, Copy, Debug)]\npub struct {it.name} {{\n{''.join(fields)}}}\n")
            elif isinstance(it, Call):
                last = self.call(it, last)

    def macro(self, it: Macro, before: List[Macro]) -> None:
        if it.name in ("PEF_H", "PEF_WIDE") or it.name.startswith("pef_"):
            return
        comment = doc(it.comment, "///" if it.group == 1 else "//") if it.comment else ""
        if it.name == "PEF_NO_BYTES":  # which C++ writes in another way
            if "pub const PEF_NO_BYTES: pef_bytes = pef_bytes { at: [].as_ptr(), length: 0 };\n" not in self.items[-1]:
                self.items.append(f"{comment}pub const PEF_NO_BYTES: pef_bytes = pef_bytes {{ at: [].as_ptr(), length: 0 }};\n")
            return
        is_initial = it.value.startswith("{")
        kind, value = initial(it, before, self.structs) if is_initial else constant(it)
        if not is_initial and kind != "&str":
            self.constants.append(it.name)
        self.items.append(f"{comment}pub const {it.name}: {kind} = {value};\n")

    def call(self, it: Call, last: str) -> str:
        if not it.comment and not last:
            fails(f"{it.name} has no comment")
        parameters = ", ".join(f"{rust_name(field.name)}: {rust_type(field)}" for field in it.parameters)
        indent = "" if it.name in self.read else "    "
        comment = doc(it.comment, indent=indent) if it.comment else f"{indent}/// See [`{last}()`].\n"
        declaration = f"    pub fn {it.name}({parameters}){'' if it.result == 'void' else ' -> u32'};\n"
        if it.name in self.read:
            self.exported.append("    " + declaration)
            self.reader(it, comment)
        else:
            self.calls.append(comment + declaration)
        return it.name if it.comment else last

    def reader(self, it: Call, comment: str) -> None:
        """A call that hands a copy of a context to the library."""
        heads = ", ".join(f"{rust_name(field.name)}: {rust_type(field)}" for field in [it.parameters[0]._replace(is_constant=True), *it.parameters[1:]])
        tails = ", ".join(rust_name(field.name) for field in it.parameters[1:])
        self.readers.append(f"{comment}#[inline]\npub unsafe fn {it.name}({heads}) -> u32 {{\n    let mut copy = *context;\n    exported::{it.name}(&mut copy, {tails})\n}}\n")


def files(declared: Header) -> Dict[pathlib.Path, str]:
    it = Declarations(declared)
    exported = "// The library writes to the struct while it reads a context, so each of the calls above hands it a copy.\nmod exported {\n    use crate::*;\n\n    extern \"C\" {\n" + "".join(it.exported) + "    }\n}\n"
    source = FIRST + "\n".join(it.items) + "\nextern \"C\" {\n" + "\n".join(it.calls) + "}\n\n" + "\n".join([*it.readers, exported])
    places = [f"    {name} {{ {' '.join(rust_name(field.name) for field in struct.fields)} }}\n" for name, struct in it.structs.items()]
    test = FIRST + "places! {\n" + "".join(places) + "}\n\nconstants! {\n" + "".join(f"    {name}\n" for name in it.constants) + "}\n"
    folder = header.ROOT / FOLDER
    return {folder / "src/declarations.rs": source, folder / "tests/layout/places.rs": test}
