"""The calls of include/pef.h in C over the functions that the translation of the library has: f_NAME, in which each length and pointer
is a number of 64 bits.

The structs are shared as they are: a module that was built for 64 bits reads and writes them in place. So the text also checks, when it is
compiled, that each struct has the layout that it has there.
"""
from typing import Iterator

from .header import Call, Field, Header, fails

#: What a translated function takes for a type of C that is no pointer.
NARROW = {"bool", "uint8_t", "int16_t", "uint16_t", "int32_t", "uint32_t"}
WIDE = {"uint64_t", "size_t"}

HEAD = """/* --- the calls of pef.h --- */

#include "pef.h"

"""
#: In C11 a check at compile time is a statement of its own; before, an array of -1 elements is refused.
CHECK = """#if defined(__STDC_VERSION__) && __STDC_VERSION__ >= 201112L
#define PEF_CHECK(name, holds) _Static_assert(holds, #name);
#else
#define PEF_CHECK(name, holds) typedef char pef_check_##name[holds ? 1 : -1];
#endif
"""


def checks(declared: Header) -> Iterator[str]:
    yield CHECK
    for name, struct in declared.structs.items():
        yield f"PEF_CHECK({name}, sizeof(struct {name}) == {struct.size})"
        for field, place in struct.places.items():
            yield f"PEF_CHECK({name}_{field}, offsetof(struct {name}, {field}) == {place.offset})"


def passed(parameter: Field) -> str:
    """What the translated function is given for a parameter."""
    if parameter.is_pointer:
        return f"A({parameter.name})"
    if parameter.type not in NARROW | WIDE:
        fails(f"the type {parameter.type} of a parameter is unknown")
    # A number with a sign is extended by its sign.
    return f"(u32)(i32){parameter.name}" if parameter.type.startswith("int") else parameter.name


def wrapper(call: Call) -> str:
    begin = "return " if call.result != "void" else ""
    return f"{call.result} {call.name}({call.written})\n{{\n    {begin}f_{call.name}({', '.join(map(passed, call.parameters))});\n}}"


def text(declared: Header) -> str:
    """The C text of all calls of the header, over the functions f_NAME that come before it in the same file."""
    # Macros of the header check for null before some calls, which are defined here.
    macros = [f"#undef {it.name}" for it in declared.macros if it.name.startswith("pef_")]
    parts = ["\n".join(checks(declared)), "\n".join(macros), *map(wrapper, declared.calls)]
    return HEAD + "\n\n".join(parts) + "\n"
