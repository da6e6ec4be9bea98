"""What the Python package has of the header: the structs of ctypes, and the forms of the calls."""
import keyword
import pathlib
from typing import Container, Dict, Iterator, List, Tuple

from . import header
from .header import Call, Field, Header, Struct

PATH = header.ROOT / "python/pef/_declarations.py"

HEAD = '''"""The structs and the calls of include/pef.h, for ctypes.

tools/declarations writes this file from the header, which says what all of it means. Change that, and run it again.
"""
from __future__ import annotations

import ctypes
from typing import Any, Dict, List, Tuple

#: What pef.h calls a pef_size, of 64 bits on every machine. A pointer has as many in a struct, the last of which count for nothing if it is
#: shorter.
_Size = ctypes.c_uint64
_POINTER_END = [("", ctypes.c_uint32)] if ctypes.sizeof(ctypes.c_void_p) == 4 else []
#: Mac Roman has a character for each byte, so names lose nothing.
ENCODING = "mac_roman"

'''
#: What a struct is in Python besides its fields.
DOCUMENTED = {
    "pef_bytes": '''
    def value(self) -> bytes:
        return ctypes.string_at(self.at, self.length)

    def text(self) -> str:
        return self.value().decode(ENCODING)
''',
}


def class_name(struct: str) -> str:
    """_FoundContainer of pef_found_container."""
    return "_" + "".join(word.capitalize() for word in struct.split("_")[1:])


def kind(field: Field) -> str:
    """A number or a struct in Python."""
    if field.is_struct:
        return class_name(field.type)
    return {"pef_size": "_Size", "size_t": "ctypes.c_size_t"}.get(field.type) or "ctypes.c_" + (field.type[:-2] if field.type.endswith("_t") else field.type)


def field_name(name: str) -> str:
    return name + "_" if keyword.iskeyword(name) else name


def fields(struct: Struct) -> Iterator[str]:
    """The fields of a struct. What is between two of them, or after the last, is a field too: not every machine aligns them alike."""
    at = 0
    for field in struct.fields:
        place = struct.places[field.name]
        yield from gap(at, place.offset)
        yield f'("{field_name(field.name)}", {"ctypes.c_void_p" if field.is_pointer else kind(field)})'
        if field.is_pointer:
            yield "*_POINTER_END"
        at = place.offset + place.size
    yield from gap(at, struct.size)


def gap(at: int, end: int) -> Iterator[str]:
    if at < end:
        yield f'("_at_{at}", ctypes.c_uint8 * {end - at})'


def class_of(struct: Struct) -> str:
    lines = "".join(f"        {it},\n" for it in fields(struct))
    return f"class {class_name(struct.name)}(ctypes.Structure):\n    _fields_ = [\n{lines}    ]\n{DOCUMENTED.get(struct.name, '')}"


def argument(field: Field) -> str:
    """What ctypes takes for a parameter. Bytes that are read are `bytes`; those that are written are any memory."""
    if not field.is_pointer:
        return kind(field)
    if field.type == "uint8_t":
        return "ctypes.c_char_p" if field.is_constant else "ctypes.c_void_p"
    return f"ctypes.POINTER({kind(field)})"


def call_of(call: Call) -> Tuple[str, str]:
    return f'"{call.name}"', f"[{', '.join(map(argument, call.parameters))}]"


def constants(declared: Header, others: Container[str]) -> str:
    """The constants that are neither errors nor codes, and not of the version."""
    numbers = {it: number for it, number in declared.constants.items() if it not in others and not it.startswith("PEF_VERSION")}
    return "".join(f"{name[len('PEF_') :]} = {number if number < 1 << 16 else hex(number)}\n" for name, number in numbers.items())


def files(declared: Header, others: Container[str]) -> Dict[pathlib.Path, str]:
    """`others` are the constants that the package has elsewhere."""
    classes: List[str] = [class_of(it) for it in declared.structs.values()]
    calls = "".join(f"    {name}: ({'None' if call.result == 'void' else 'ctypes.c_uint32'}, {given}),\n" for call in declared.calls for name, given in [call_of(call)])
    last = f"#: What each call returns and takes.\n_CALLS: Dict[str, Tuple[Any, List[Any]]] = {{\n{calls}}}\n"
    return {PATH: HEAD + constants(declared, others) + "\n\n" + "\n\n".join(classes) + "\n\n" + last}
