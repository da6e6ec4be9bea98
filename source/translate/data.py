"""Constant data in C: an array of bytes for each segment, or a struct if it holds addresses."""
import textwrap

from .errors import check
from .object_file import ADDRESS_DATA

WIDTH = 120


def wrapped(text):
    return "\n".join(textwrap.wrap(text, WIDTH, initial_indent="    ", subsequent_indent="    ", break_on_hyphens=False))


def listed(data):
    return ", ".join(map(str, data))


class DataWriter:
    """`names` has the name in C of each segment by its number."""

    def __init__(self, object_file, names):
        self.object, self.names = object_file, names

    def text(self, numbers):
        """The segments with these numbers. All are declared before those that hold addresses, since these may hold their own."""
        plain = [number for number in numbers if not self.object.segments[number].relocations]
        linked = [number for number in numbers if self.object.segments[number].relocations]
        parts = [self.array(number) for number in plain]
        parts += [self.struct(number) for number in linked]
        parts += [self.values(number) for number in linked]
        return "\n".join(parts)

    def align(self, number):
        align = self.object.segments[number].align
        return f"PEF__ALIGNED({align}) " if align > 1 else ""

    def array(self, number):
        data = self.object.segments[number].bytes
        head = f"static {self.align(number)}const u8 {self.names[number]}[{max(1, len(data))}] = {{"
        return f"{head}\n{wrapped(listed(data) or '0')}\n}};"

    def pieces(self, number):
        """The runs of bytes and the relocations of a segment, each with its offset."""
        segment, at = self.object.segments[number], 0
        for place, relocation in segment.relocations:
            check(relocation.kind == ADDRESS_DATA, f"{segment.name}: a relocation of kind {relocation.kind}")
            check(place % 8 == 0 and segment.align % 8 == 0, f"{segment.name}: an address at byte {place}, which isn't aligned")
            if place > at:
                yield at, segment.bytes[at:place]
            yield place, relocation
            at = place + 8
        if at < len(segment.bytes):
            yield at, segment.bytes[at:]

    def struct(self, number):
        name = self.names[number]
        members = " ".join(f"u8 b{at}[{len(piece)}];" if isinstance(piece, bytes) else f"PEF__MEMBER(p{at})"
                           for at, piece in self.pieces(number))
        return (f"struct pef__{name} {{\n{wrapped(members)}\n}};\nstatic {self.align(number)}const struct pef__{name} {name}_;\n"
                f"#define {name} ((const u8 *)&{name}_)")

    def values(self, number):
        name, values = self.names[number], []
        for _, piece in self.pieces(number):
            if isinstance(piece, bytes):
                values.append(f"{{{listed(piece)}}}")
                continue
            target, offset = self.object.data_address(piece)
            values.append(f"PEF__ADDRESS({self.names[target]}, {offset})")
        return f"static {self.align(number)}const struct pef__{name} {name}_ = {{\n{wrapped(', '.join(values))}\n}};"
