"""Files of the classic Mac OS: their forks, resources, fragments and containers (docs/FORMATS.md, section 10)."""
from __future__ import annotations

import ctypes
import dataclasses
import functools
import os
import pathlib
from typing import Any, Dict, Iterator, List, Optional, Sequence, Tuple, Union

from . import _NO_OFFSET, NOT_THERE, OK, PefError, Text, _check, _no_bytes, _raw, library, name_of
from ._codes import Code, FileKind, Locator, Usage, _code
from ._declarations import ENCODING, FRAGMENT_TABLE_TYPE, _Bytes, _Forks, _Member, _Part, _Resource, _ResourceMap, _Size

#: A fork passes the end of the file, and is read as far as it goes.
_CUT = (Code.DATA_FORK_CUT, Code.RESOURCE_FORK_CUT)


def _empty(structure: Any) -> Any:
    """A structure whose slices aren't null."""
    it = structure()
    for name, kind in structure._fields_:
        if kind is _Bytes:
            setattr(it, name, _no_bytes())
        elif kind is _Part:
            setattr(it, name, _empty(_Part))
    return it


def _all(call: str, row: Any, *words: Any) -> List[Any]:
    """All rows of a table: more places are offered until some stay free."""
    room = 64
    while True:
        rows, found = (row * room)(*(_empty(row) for _ in range(room) if row is not _Size)), _Size()
        _check(getattr(library(), call)(*words, 0, rows, room, ctypes.byref(found)))
        if found.value < room:
            return list(rows[: found.value])
        room *= 4


def four_characters(code: int) -> str:
    """The characters of a type, a creator or an architecture."""
    return code.to_bytes(4, "big").decode(ENCODING)


# --- files ---


@dataclasses.dataclass(frozen=True)
class Damage:
    """An error of a part of a file: its number and name, the part, and the offset in that part, or None if it is about no field."""

    number: int
    name: str
    part: str
    offset: Optional[int]

    @property
    def code(self) -> int:
        """The number as a Code."""
        return _code(Code, self.number)

    def __str__(self) -> str:
        return f"{self.number} {self.name} in {self.part}" + ("" if self.offset is None else f" at 0x{self.offset:X}")


@dataclasses.dataclass(frozen=True)
class Finder:
    """What the Finder knows of a file."""

    file_type: str
    creator: str
    flags: int
    vertical: int
    horizontal: int
    window: int


@dataclasses.dataclass(frozen=True)
class Resource:
    """A resource. `contents` is None if its bytes aren't there. The bytes of a compressed one aren't those of the resource."""

    type: str
    id: int
    name: Optional[str]
    attributes: int
    contents: Optional[bytes] = dataclasses.field(repr=False)

    @property
    def is_compressed(self) -> bool:
        return bool(self.attributes & 1)


@dataclasses.dataclass(frozen=True)
class Member:
    """A member of the table of fragments: `usage` is a Usage and `locator` a Locator, or another number.

    `name` is None if it can't be read. `container` has the bytes in the data fork or in the resource that the member names, or is
    None.
    """

    number: int
    name: Optional[str]
    architecture: str
    update_level: int
    current_version: int
    old_def_version: int
    stack_size: int
    directory_or_flags: int
    usage: int
    locator: int
    offset: int
    length: int
    space_id: int
    fork_instance: int
    extension_count: int
    size: int
    container: Optional[bytes] = dataclasses.field(repr=False)


@dataclasses.dataclass(frozen=True)
class FoundContainer:
    """A container in a file: the part that it is in, its offset there, and the members that name it."""

    part: str
    offset: int
    members: Tuple[Member, ...]
    contents: bytes = dataclasses.field(repr=False)

    @property
    def names(self) -> List[str]:
        """The names of its fragments."""
        return [it.name for it in self.members if it.name is not None]


class MacFile:
    """A file of the classic Mac OS, read from its bytes. It may be damaged: `errors` has what is wrong, and the rest is read.

    `resources` is the file in which its resource fork is, if that is another one: as it is, or in AppleDouble.

    >>> from pef import link
    >>> file = MacFile(b"before " + link("section d data process 4 4\\nbytes d 0000002A\\n"))
    >>> file.kind, file.containers[0].offset, file.errors
    (<FileKind.OTHER: 0>, 7, [])
    """

    def __init__(self, contents: bytes, resources: Optional[bytes] = None):
        self.contents = bytes(contents)
        #: The file in which `from_file` found the resource fork, if it is another one.
        self.resource_path: Optional[pathlib.Path] = None
        #: The errors of the forks, the resources, the table of fragments and its members: a list of Damage.
        self.errors: List[Damage] = []
        #: A FileKind.
        self.kind: int = _code(FileKind, library().pef_file_kind(self.contents, len(self.contents)))
        self._forks = self._read_forks(self.contents, "file")
        #: The forks: bytes, or None.
        self.data_fork = self._part("data_fork", "file")
        self.resource_fork = self._part("resource_fork", "file")
        #: The name and the comment that the file had, or None.
        self.name = self._text("name")
        self.comment = self._text("comment")
        self.finder = self._finder()
        if resources is not None:
            self.resource_fork = self._other_fork(bytes(resources))
        self._resources: List[Tuple[_Resource, Resource]] = list(self._read_resources())
        #: The resources, type by type.
        self.resources: List[Resource] = [it for _, it in self._resources]
        #: The members of the table of fragments.
        self.members: List[Member] = list(self._read_members())

    @classmethod
    def from_file(cls, path: Union[str, os.PathLike[str]]) -> "MacFile":
        """The file at a path. If it can be a data fork, the usual places of its resource fork are looked at: `resource_files`.

        The first file there that can be read and has a resource fork is used. Raises OSError.
        """
        path = pathlib.Path(path)
        it = cls(path.read_bytes())
        if it.kind in (FileKind.OTHER, FileKind.CONTAINER) and not path.name.startswith("._"):
            for other in resource_files(path):
                contents = _read(other)
                if contents is not None and _has_resource_fork(contents):
                    it = cls(it.contents, contents)
                    it.resource_path = other
                    break
        return it

    def __repr__(self) -> str:
        kind = self.kind.name if isinstance(self.kind, FileKind) else str(self.kind)
        return f"<pef.MacFile: {kind}, {len(self.resources)} resources, {len(self.members)} members, {len(self.errors)} errors>"

    # What a file has.

    @functools.cached_property
    def containers(self) -> List[FoundContainer]:
        """The containers: those of members, those that are other resources, and those that a search finds in the data fork.

        Members over the same bytes have one container together.
        """
        found: Dict[Tuple[str, int], FoundContainer] = {}
        for member in self.members:
            place = self._place_of(member)
            if member.container is not None and place is not None:
                known = found.get(place)
                contents = known.contents if known else member.container
                found[place] = FoundContainer(*place, (*(known.members if known else ()), member), contents)
        for resource in self.resources:
            place = (f"resource {resource.type} {resource.id}", 0)
            if resource.contents is not None and place not in found and 0 in _places_in(resource.contents):
                found[place] = FoundContainer(*place, (), resource.contents)
        for offset in _places_in(self.data_fork or b""):
            if ("data fork", offset) not in found:
                found["data fork", offset] = FoundContainer("data fork", offset, (), (self.data_fork or b"")[offset:])
        return list(found.values())

    def container(self, name: Text) -> bytes:
        """The container of the fragment with a name: of the first member with this name that isn't for CFM-68K.

        Raises PefError: 80 if there is none, or 87 to 98.
        """
        if self.resource_fork is None:
            raise PefError(int(Code.NO_CONTAINER))
        raw, found = _raw(name), _no_bytes()
        if self.data_fork is None:
            answer = library().pef_file_container(self.resource_fork, len(self.resource_fork), raw, len(raw), ctypes.byref(found))
        else:
            forks = (self.data_fork, len(self.data_fork), self.resource_fork, len(self.resource_fork))
            answer = library().pef_fork_container(*forks, raw, len(raw), ctypes.byref(found))
        _check(answer)
        return found.value()

    # How it is read.

    def _note(self, number: int, offset: int, part: str) -> None:
        """Notes an error, unless the part is there or isn't."""
        if number not in (OK, NOT_THERE):
            self.errors.append(Damage(number, name_of(number) or "Unknown", part, None if offset == _NO_OFFSET else offset))

    def _read_forks(self, contents: bytes, part: str) -> Optional[_Forks]:
        forks: _Forks = _empty(_Forks)
        answer = library().pef_forks(contents, len(contents), ctypes.byref(forks))
        if answer != OK:
            self._note(answer, _NO_OFFSET, part)
            return None
        self._note(forks.error, forks.error_offset, part)
        return forks

    def _part(self, name: str, part: str, forks: Optional[_Forks] = None) -> Optional[bytes]:
        forks = forks or self._forks
        if forks is None:
            return None
        it = getattr(forks, name)
        self._note(it.error, it.error_offset, part)
        return it.bytes.value() if it.error in (OK, *_CUT) else None

    def _text(self, name: str) -> Optional[str]:
        it = self._part(name, "file")
        return None if it is None else it.decode(ENCODING)

    def _finder(self) -> Optional[Finder]:
        if self._forks is None:
            return None
        it = self._forks.finder
        self._note(it.error, it.error_offset, "file")
        if it.error != OK:
            return None
        return Finder(four_characters(it.file_type), four_characters(it.creator), it.flags, it.vertical, it.horizontal, it.window)

    def _other_fork(self, contents: bytes) -> Optional[bytes]:
        """The resource fork in another file. Bytes that aren't in a format are the fork as it is."""
        forks = self._read_forks(contents, "resource file")
        if forks is None:
            return None
        if forks.kind in (FileKind.MAC_BINARY, FileKind.APPLE_SINGLE, FileKind.APPLE_DOUBLE):
            return self._part("resource_fork", "resource file", forks)
        return contents

    def _read_resources(self) -> Iterator[Tuple[_Resource, Resource]]:
        fork = self.resource_fork
        if not fork:
            return
        head = _ResourceMap()
        answer = library().pef_resource_map(fork, len(fork), ctypes.byref(head))
        if answer != OK:
            self._note(answer, _NO_OFFSET, "resource fork")
            return
        self._note(head.error, head.error_offset, "resource fork")
        for row in _all("pef_resources", _Resource, fork, len(fork)):
            self._note(row.error, row.error_offset, "resource fork")
            self._note(row.name_error, row.name_error_offset, "resource fork")
            if not 89 <= row.error <= 91:
                name = row.name.text() if row.name_error == OK else None
                contents = row.bytes.value() if row.error == OK else None
                yield row, Resource(four_characters(row.type), row.id, name, row.attributes, contents)

    def _read_members(self) -> Iterator[Member]:
        fork, table = self.resource_fork or b"", _empty(_Resource)
        if not fork or library().pef_find_resource(fork, len(fork), FRAGMENT_TABLE_TYPE, 0, ctypes.byref(table)) != OK or table.error != OK:
            return
        data = self.data_fork or b""
        contents = table.bytes.value()
        try:
            rows = _all("pef_members", _Member, contents, len(contents), data, len(data))
        except PefError as damaged:
            self._note(damaged.number, _NO_OFFSET, "cfrg 0")
            return
        for number, row in enumerate(rows):
            self._note(row.name_error, row.name_error_offset, "cfrg 0")
            self._note(row.error, row.error_offset, "cfrg 0")
            if row.name_error != NOT_THERE:
                yield self._member(number, row)

    def _member(self, number: int, row: _Member) -> Member:
        container: Optional[bytes] = None
        if row.locator == Locator.DATA_FORK:
            error, offset = row.container_error, row.container_error_offset
            if self.data_fork is None:
                error, offset = int(Code.FRAGMENT_OUTSIDE), row.place + 24
            self._note(error, offset, "cfrg 0")
            container = row.container.value() if error == OK else None
        elif row.locator == Locator.RESOURCE:
            container = self._resource_contents(row.offset, row.length)
        return Member(
            number,
            row.name.text() if row.name_error == OK else None,
            four_characters(row.architecture),
            row.update_level,
            row.current_version,
            row.old_def_version,
            row.stack_size,
            row.directory_or_flags,
            _code(Usage, row.usage),
            _code(Locator, row.locator),
            row.offset,
            row.length,
            row.space_id,
            row.fork_instance,
            row.extension_count,
            row.size,
            container,
        )

    def _resource_contents(self, type_code: int, number: int) -> Optional[bytes]:
        fork, found = self.resource_fork or b"", _empty(_Resource)
        answer = library().pef_find_resource(fork, len(fork), type_code, _signed(number), ctypes.byref(found))
        return found.bytes.value() if answer == OK and found.error == OK else None

    def _place_of(self, member: Member) -> Optional[Tuple[str, int]]:
        if member.locator == Locator.DATA_FORK:
            return "data fork", member.offset
        if member.locator == Locator.RESOURCE:
            return f"resource {four_characters(member.offset)} {_signed(member.length)}", 0
        return None


def fragments_of(words: Sequence[str]) -> Dict[str, bytes]:
    """The containers for PowerPC in files, by the names of their fragments, as a command line says them: `FILE` or `NAME=FILE`.

    NAME ends before the first `=`. A fragment goes by its name in the file's table of fragments. Without one it has the file's, up to its
    last dot. NAME is that of the first fragment of its file. If several fragments have one name, the first is there. A file without a container for PowerPC is taken
    as one: a preparation says what is wrong with it. Raises OSError.
    """
    found: Dict[str, bytes] = {}
    for word in words:
        name, is_named, path = word.partition("=")
        path = path if is_named else word
        file = MacFile.from_file(path)
        of_file = [it for it in file.containers if it.contents[8:12] == b"pwpc"]
        fragments = [(own, it.contents) for it in of_file for own in it.names or [pathlib.Path(path).stem]] or [(pathlib.Path(path).stem, file.contents)]
        if is_named:
            fragments[0] = (os.fsencode(name).decode(ENCODING), fragments[0][1])
        for own, contents in fragments:
            found.setdefault(own, contents)
    return found


def _signed(number: int) -> int:
    """The lower half of a number of 32 bits, with its sign."""
    return ctypes.c_int16(number & 0xFFFF).value


def _places_in(contents: bytes) -> List[int]:
    """The places in some bytes where a container begins."""
    return list(_all("pef_find_containers", _Size, contents, len(contents)))


def _read(path: pathlib.Path) -> Optional[bytes]:
    """The bytes of a file, or None if it can't be read."""
    try:
        return path.read_bytes()
    except OSError:
        return None


def _has_resource_fork(contents: bytes) -> bool:
    """Whether a file has a resource fork that can be read."""
    forks: _Forks = _empty(_Forks)
    if library().pef_forks(contents, len(contents), ctypes.byref(forks)) != OK or forks.resource_fork.error not in (OK, *_CUT):
        return False
    fork = forks.resource_fork.bytes.value()
    return bool(fork) and library().pef_resource_map(fork, len(fork), ctypes.byref(_ResourceMap())) == OK


def resource_files(path: Union[str, os.PathLike[str]]) -> List[pathlib.Path]:
    """Where the resource fork of a file usually is, if it is a file of its own: the places of `pef inspect`, in its order."""
    path = pathlib.Path(path)
    folder, name = path.parent, path.name
    return [
        folder / f"._{name}",
        folder / "__MACOSX" / f"._{name}",
        folder / ".AppleDouble" / name,
        folder / ".rsrc" / name,
        folder / f"{name}.rsrc",
        folder / f"%{name}",
        folder / "resource.frk" / name,
        folder / ".resource" / name,
        *_mirrors(folder, f"._{name}"),
    ]


def _mirrors(folder: pathlib.Path, name: str) -> Iterator[pathlib.Path]:
    """Where archives by macOS have it: a folder `__MACOSX` above mirrors the folders beside it."""
    for above in folder.parents:
        below = folder.relative_to(above)
        if ".." in below.parts:
            return
        yield above / "__MACOSX" / below / name
