"""What examples/c/fields.c compares: where each field of each struct is."""
import pathlib
from typing import Dict, Iterator, List

from . import header
from .header import Header, Struct

PATH = header.ROOT / "examples/c/layout.h"
#: No line is longer.
WIDTH = 120

HEAD = """/*
 * Where the fields of pef.h are on every machine, and the numbers of its macros. tools/declarations writes this file from the header.
 */
"""


def lines(words: List[str]) -> Iterator[str]:
    """Words in lines, with a comma after each."""
    line = "   "
    for word in words:
        if len(line) + len(word) + 2 > WIDTH:
            yield line
            line = "   "
        line += f" {word},"
    yield line


def places(struct: Struct) -> List[str]:
    return [f"SIZE({struct.name}, {struct.size})", *(f"AT({struct.name}, {name}, {place.offset})" for name, place in struct.places.items())]


def files(declared: Header) -> Dict[pathlib.Path, str]:
    places_of_all = "".join("\n".join(lines(places(it))) + "\n" for it in declared.structs.values())
    numbers = "\n".join(lines([f"IS({name}, {number if number < 1 << 16 else hex(number)})" for name, number in declared.constants.items()]))
    table = "static const struct number {name}[] = {{\n{rows}}};\n"
    return {PATH: HEAD + table.format(name="places", rows=places_of_all) + "\n" + table.format(name="constants", rows=numbers + "\n")}
