"""What programs that were compiled before know of the structs: packaging/libpef0.structs.

A library with the name libpef.so.0 also serves programs with an older header. So a struct keeps its size, and each field its place: a new
field takes bytes that were padding. A struct is in the file once, from then on, and so is a field: what the file has is never changed
here, and `differences` says what the header has otherwise. A struct whose first field is its `size` may get longer, since its call asks for it.
"""
import pathlib
import re
from typing import Dict, Iterator, NamedTuple, Optional, Tuple

from . import header
from .header import Header, Place, Struct

PATH = header.ROOT / "packaging/libpef0.structs"
HEAD = """# What programs with any header of libpef.so.0 know of its structs: the size of each, and the offset and the size of each field.
# tools/declarations adds structs and fields here, and changes none.
"""


class Known(NamedTuple):
    """A struct as programs know it."""

    size: int
    places: Dict[str, Place]


def read() -> Dict[str, Known]:
    found = {}
    for line in PATH.read_text(encoding="utf-8").splitlines() if PATH.is_file() else []:
        if not line.startswith("#"):
            name, size, places = re.fullmatch(r"(\w+) (\d+):(.*)", line).groups()  # type: ignore[union-attr]
            found[name] = Known(int(size), {field: Place(int(at), int(length)) for field, at, length in re.findall(r" (\w+) (\d+)\+(\d+)", places)})
    return found


def may_grow(struct: Struct) -> bool:
    return struct.fields[0].name == "size"


def with_new(known: Optional[Known], struct: Struct) -> Known:
    """What programs know of a struct from now on."""
    if known is None:
        return Known(struct.size, struct.places)
    return Known(max(known.size, struct.size) if may_grow(struct) else known.size, {**struct.places, **known.places})


def line(name: str, known: Known) -> str:
    places = sorted(known.places.items(), key=lambda it: it[1])
    return f"{name} {known.size}:" + ",".join(f" {field} {place.offset}+{place.size}" for field, place in places) + "\n"


def files(declared: Header) -> Dict[pathlib.Path, str]:
    known = read()
    lines = {name: line(name, it) for name, it in known.items()}
    lines.update({name: line(name, with_new(known.get(name), it)) for name, it in declared.structs.items()})
    return {PATH: HEAD + "".join(lines[name] for name in sorted(lines))}


def differs(known: Known, struct: Optional[Struct]) -> Optional[str]:
    """Why a program that was compiled before can't use a struct."""
    if struct is None:
        return "programs know it, and pef.h has none"
    if known.size != struct.size and not (may_grow(struct) and known.size < struct.size):
        return f"programs know it with {known.size} bytes, and it has {struct.size}: a longer struct has a name and calls of its own"
    for field, place in known.places.items():
        if struct.places.get(field) != place:
            return f"programs know the field {field} at {place.offset}"
    return None


def differences(declared: Header) -> Iterator[Tuple[str, Optional[str]]]:
    """Each struct that programs know, and why they can't use it, or None."""
    for name, known in read().items():
        yield f"struct {name} of programs", differs(known, declared.structs.get(name))
