"""What the tables of cases are written with: a case of the program, and changed copies of bytes."""
import dataclasses


@dataclasses.dataclass(frozen=True)
class Begins:
    """Text that is known in part: how it begins, and what else is in it."""

    start: bytes
    has: tuple = ()

    def __eq__(self, other):
        return other.startswith(self.start) and all(it in other for it in self.has)


@dataclasses.dataclass(frozen=True)
class Case:
    """A run of the program in a folder of its own.

    words: its arguments, as text or bytes. files: what the folder has, by path; a value None is a folder, and text is where a
    symbolic link leads. closed: paths of these that the user may not read or write; root may, so such a case is left out for it.
    linked: scripts that the program links before, by the paths of their containers.
    certified: scripts of `files` for which the program prints certificates before, by the paths of these.
    stdin: the standard input, as bytes, or as text the path of a file or a folder that it is. printed_to: a device that is the
    standard output, or `|` for a pipe that nobody reads, if it isn't a pipe that is read.
    memory: how many bytes of memory the program may take at most, its own code and stack among them; 0 is any number.
    stdout, stderr: what is written, as bytes or as `Begins`. status: the exit status.
    after: what files hold afterwards, by path, if that isn't what they held; None is a file that is gone.
    Any other new, changed or missing file is wrong.
    """

    name: str
    words: list
    files: dict = dataclasses.field(default_factory=dict)
    stdin: object = b""
    stdout: object = b""
    stderr: object = b""
    status: int = 0
    after: dict = dataclasses.field(default_factory=dict)
    linked: dict = dataclasses.field(default_factory=dict)
    certified: dict = dataclasses.field(default_factory=dict)
    closed: tuple = ()
    printed_to: str = ""
    memory: int = 0


def changed(contents, *changes):
    """Returns a copy with other bytes at some offsets, given as (offset, bytes). A negative offset counts from the end."""
    copy = bytearray(contents)
    for at, replaced in changes:
        at = at if at >= 0 else len(copy) + at
        if at + len(replaced) > len(copy):
            raise ValueError(f"{len(replaced)} bytes at {at} pass the end, at {len(copy)}")
        copy[at : at + len(replaced)] = replaced
    return bytes(copy)


def from_hex(text):
    """Returns the bytes of hexadecimal digits; white space counts for nothing, and a # begins a comment."""
    return bytes.fromhex("".join(line.partition("#")[0] for line in text.splitlines()))
