"""The names of include/pef.h for the page: its constants, and where the members of its structs are."""
import json

from .header import Field, Header

#: What JavaScript reads of a member, by its type in C. The library has addresses and lengths of 64 bits on each machine.
SHOWN = {"pef_size": "u64", **{f"{sign}int{bits}_t": f"{letter}{bits}" for sign, letter in (("", "i"), ("u", "u")) for bits in (8, 16, 32, 64)}}


def shown(field: Field) -> str:
    return "u64" if field.is_pointer else SHOWN.get(field.type, field.type)


def text(declared: Header) -> str:
    """The text of web/pef.js."""
    lines = ["// Written by tools/page-module from include/pef.h, which says what all of it means.\n"]
    lines += [f"export const {name} = {value};" for name, value in declared.constants.items()]
    lines.append("\n/** The structs: how many bytes each has, and the types and the offsets of its members. */\nexport const STRUCTS = {")
    for name, struct in declared.structs.items():
        members = ", ".join(f"{it.name}: {{ type: {json.dumps(shown(it))}, at: {struct.places[it.name].offset} }}" for it in struct.fields)
        lines.append(f"    {name}: {{ size: {struct.size}, members: {{ {members} }} }},")
    return "\n".join([*lines, "};\n"])
