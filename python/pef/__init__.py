"""PEF containers, the executables of the classic Mac OS on PowerPC: linked, listed, read and prepared by libpef.

    >>> import pef
    >>> script = "section data data process 4 4\\nbytes data 0000002A\\nexport answer data data 0\\n"
    >>> container = pef.link(script)
    >>> pef.Container(container).exports
    [Export(name='answer', section=0, value=0, symbol_class=<SymbolClass.DATA: 1>)]

    >>> with pef.Context() as context:
    ...     context.add("Tools", container)
    ...     with context.prepare("Tools") as connection:
    ...         for fragment in connection.fragments:
    ...             for section in fragment.sections:
    ...                 print(fragment.name, hex(section.address), section.contents.hex())
    Tools 0x10000 0000002a

This module needs the shared library and nothing else. It looks for the file that the environment's PEF_LIBRARY names, then for the
library in this folder, where an installation puts it (libpef.so, libpef.dylib or pef.dll), then for out/libpef.so at the top of the
repository, then for an installed libpef.so.0.

Names of fragments, libraries and symbols are `str`. In a container they are bytes, and here each byte is the character that it
is in Mac Roman, so nothing is lost. Where a name is asked for, `bytes` are taken too.

A refusal is a PefError, with the number and the name of docs/ERRORS.md. inspect() finds all errors of a container that may be damaged.
"""
from __future__ import annotations

import ctypes
import ctypes.util
import dataclasses
import functools
import json
import os
import pathlib
import sys
import threading
from typing import Any, Dict, Iterator, List, Optional, Sequence, Tuple, Type, Union

from ._codes import _NUMBERED, CLASSES, FIXUP_KINDS, KINDS, PARTS, SHARES, TARGETS, Code, DetailKind, FileKind, Locator, Part, SectionKind, Share, SymbolClass, Usage, _code
from ._declarations import (
    _CALLS,
    ABSOLUTE,
    ENCODING,
    LIBRARY_INIT_BEFORE,
    LIBRARY_WEAK,
    MAX_FRAGMENTS,
    REEXPORT,
    STUB_MEMORY,
    STUB_NUMBERS,
    _Bytes,
    _Context,
    _Entries,
    _Export,
    _Fixup,
    _FoundContainer,
    _FragmentExport,
    _FragmentSection,
    _Header,
    _Import,
    _Lacking,
    _Library,
    _Listing,
    _Loader,
    _Location,
    _Missing,
    _Names,
    _NewSection,
    _Options,
    _Place,
    _Relocation,
    _Report,
    _RowRange,
    _Section,
    _Size,
    _StubOptions,
    _Target,
)

__all__ = [
    "ABSOLUTE",
    "CLASSES",
    "Code",
    "Connection",
    "Container",
    "Context",
    "DetailKind",
    "Entry",
    "Export",
    "Finding",
    "Fixup",
    "Fragment",
    "Header",
    "Import",
    "ImportTarget",
    "KINDS",
    "LackingLibrary",
    "Library",
    "Location",
    "MissingLibrary",
    "NewSection",
    "PARTS",
    "Part",
    "PefError",
    "PlacedExport",
    "PlacedSection",
    "REEXPORT",
    "Relocation",
    "SHARES",
    "Section",
    "SectionKind",
    "Share",
    "Stub",
    "StubMemory",
    "StubNumbers",
    "SymbolClass",
    "TARGETS",
    "distances",
    "help_of",
    "inspect",
    "library",
    "link",
    "name_of",
    "report",
    "report_excerpts",
    "report_parts",
    "report_rows",
    "version",
]

__version__ = "0.1.0"

OK, ROOM_TOO_SMALL, NOT_THERE = Code.OK, Code.ROOM_TOO_SMALL, Code.NOT_THERE
_NO_OFFSET = 2**64 - 1
#: The parts by their words in reports.
_PARTS = {part.word: part for part in Part}

Text = Union[str, bytes]
_Contents = bytes


class PefError(Exception):
    """A refusal, or another answer of the library that isn't success.

    `number` and `name` are those of docs/ERRORS.md. `names` has what the library says beside them, by the words
    "line", "fragment", "library" and "symbol": only those that there are.

    Where the error is: `part` is a word of PARTS, `row` the number of that part, `field` the offset of the field in it, and `offset`
    where that is in the container of the fragment that `names` has. In a script, `line` and `word` say which word of which line, `offset`
    where the word begins, and `earlier` the line that the error is also about. Each is None if the library says nothing.

    >>> try:
    ...     link("section d data process 4 4\\nbytes d 0000002A00\\n")
    ... except PefError as error:
    ...     print(error.number, error.name, error.names)
    47 OutsideSection {'line': 2}
    """

    def __init__(self, number: int, names: Optional[Dict[str, Union[int, str]]] = None, place: Optional["_Place"] = None, earlier: int = 0):
        self.number = number
        self.name = name_of(number) or "Unknown"
        self.names = names or {}
        self.part: Optional[str] = None
        self.row: Optional[int] = None
        self.field: Optional[int] = None
        self.offset: Optional[int] = None
        self.line: Optional[int] = None
        self.word: Optional[int] = None
        self.earlier: Optional[int] = earlier or None
        if place is not None and place.part:
            self.part, self.row, self.field = PARTS[place.part], place.row, place.field
            self.offset = None if place.offset == _NO_OFFSET else place.offset
        if self.part == "line":
            self.line, self.word = self.row, self.field
        super().__init__(" ".join([str(number), self.name, *(f"{word} {value}" for word, value in self.names.items()), *self._where()]))

    @property
    def code(self) -> int:
        """The number as a Code: three pairs of errors have the same `name`, and no two have the same Code."""
        return _code(Code, self.number)

    @property
    def help(self) -> Optional[str]:
        """What the number means, and what to do, in a sentence or two; None if nothing has the number."""
        return help_of(self.number)

    def __reduce__(self) -> Tuple[Any, ...]:
        """How it is copied and pickled: by its attributes, which __init__ doesn't take."""
        return _copied, (type(self), self.args), self.__dict__

    def _where(self) -> List[str]:
        """The words for the place."""
        said = []
        if self.part == "line":
            said.append(f"word {self.word}")
        elif self.part is not None:
            said.append(f"in {self.part}" + (f" {self.row}" if self.part in _NUMBERED else ""))
        return said + ([f"at 0x{self.offset:X}"] if self.offset is not None else [])


def _copied(kind: Type[PefError], words: Tuple[Any, ...]) -> PefError:
    return kind.__new__(kind, *words)


# --- what C has ---


# A place that isn't null, for slices of no bytes: the library is never handed a null pointer.
_NOWHERE = ctypes.create_string_buffer(1)


def _no_bytes() -> _Bytes:
    return _Bytes(ctypes.addressof(_NOWHERE), 0)


def _room(length: int) -> ctypes.Array[ctypes.c_uint8]:
    return (ctypes.c_uint8 * max(1, length))()


def _raw(text: Text) -> bytes:
    return text if isinstance(text, bytes) else text.encode(ENCODING)


@functools.lru_cache(maxsize=None)
def library() -> ctypes.CDLL:
    """The shared library, which is loaded by the first call of any kind. An OSError says where it was looked for."""
    beside = pathlib.Path(__file__).resolve().with_name({"win32": "pef.dll", "darwin": "libpef.dylib"}.get(sys.platform, "libpef.so"))
    built = beside.parent.parent.parent / "out" / "libpef.so"
    named = os.environ.get("PEF_LIBRARY")
    path = named or next((str(file) for file in (beside, built) if file.exists()), None) or ctypes.util.find_library("pef")
    if path is None:
        raise OSError(f"libpef isn't found: tools/build-library builds {built}, or PEF_LIBRARY names the file")
    loaded = ctypes.CDLL(path)
    for name, (result, arguments) in _CALLS.items():
        call = getattr(loaded, name)
        call.argtypes, call.restype = arguments, result
    return loaded


def _check(answer: int, place: Optional[_Place] = None, earlier: int = 0, **names: Union[int, str]) -> None:
    if answer != OK:
        raise PefError(answer, {word: value for word, value in names.items() if value}, place, earlier)


def _container_place(contents: bytes) -> _Place:
    """Where the first error of a container is."""
    place = _Place()
    library().pef_container_place(contents, len(contents), ctypes.byref(place))
    return place


def _script_place(text: bytes) -> Tuple[_Place, int]:
    """Where the first error of a script is, and the earlier line that it is about."""
    place, earlier = _Place(), _Size()
    library().pef_script_place(text, len(text), ctypes.byref(place), ctypes.byref(earlier))
    return place, earlier.value


def name_of(number: int) -> Optional[str]:
    """The name of a number that a call gave or of a note, as "BadTag"; None if nothing has the number.

    >>> name_of(2)
    'BadTag'
    """
    name = _no_bytes()
    return name.text() if library().pef_name(number, ctypes.byref(name)) == OK else None


def help_of(number: int) -> Optional[str]:
    """A sentence or two on a number that a call gave or on a note: what it means, and what to do."""
    text = _no_bytes()
    return text.text() if library().pef_help(number, ctypes.byref(text)) == OK else None


def version() -> str:
    """The version of the library that runs, as "0.1.0"."""
    number = library().pef_version()
    return f"{number >> 16}.{number >> 8 & 255}.{number & 255}"


# --- linking ---


def link(script: Text) -> bytes:
    """The container of a script (docs/SCRIPTS.md). A refusal's `names` has the line.

    Raises PefError: 41 to 49, or 99.

    >>> link("section d data process 4 4\\nbytes d 0000002A\\n")[:12]
    b'Joy!peffpwpc'
    """
    return _of_script("pef_link", script, 4096)


def distances(script: Text) -> str:
    """The certificates of a script, as `pef distances` prints them (docs/CERTIFICATES.md). Each has the relocation program that `link`
    writes for a section, and proves that no program without repeats is shorter.

    Raises what `link` raises.

    >>> distances("section d data process 4 4\\n").split("\\n")[:3]
    ['pefcert 2', 'section 0', 'fixups 0']
    """
    return _of_script("pef_distances", script, 65536).decode("ascii")


def _of_script(call: str, script: Text, length: int) -> bytes:
    text = _raw(script)
    while True:
        room, written, line = _room(length), _Size(), _Size()
        answer = getattr(library(), call)(text, len(text), room, length, ctypes.byref(written), ctypes.byref(line))
        if answer != ROOM_TOO_SMALL:
            if answer != OK:
                _check(answer, *_script_place(text), line=line.value)
            return ctypes.string_at(room, written.value)
        length = written.value


# --- what is wrong with a container ---


@dataclasses.dataclass(frozen=True)
class Finding:
    """An error of a container, or a note on it: something odd that breaks no rule.

    `part` is the kind of part that it is about, `row` the number of the part among those of its kind, `field` the offset in the part,
    and `offset` that in the container, or None. `detail` is the number that it has beside its place, or None, and `detail_kind` says what
    that number is.

    >>> damaged = bytearray(link("section d data process 4 4\\nbytes d 0000002A\\n"))
    >>> damaged[15] = 2
    >>> for finding in inspect(bytes(damaged)):
    ...     print(finding)
    4 BadFormatVersion in container header at 0xC
    """

    number: int
    name: str
    is_error: bool
    part: Part
    row: int
    field: int
    offset: Optional[int]
    detail: Optional[int] = None
    detail_kind: DetailKind = DetailKind.NONE

    @property
    def code(self) -> int:
        """The number as a Code: three pairs of errors have the same `name`, and no two have the same Code."""
        return _code(Code, self.number)

    @property
    def help(self) -> str:
        """What it means, and what to do, in a sentence or two."""
        return help_of(self.number) or ""

    def __str__(self) -> str:
        word = PARTS[self.part]
        row = f" {self.row}" if word in _NUMBERED else ""
        at = f" at 0x{self.offset:X}" if self.offset is not None else ""
        return f"{self.number} {self.name} in {word}{row}{at}"


def _finding(row: Dict[str, Any], is_error: bool) -> Finding:
    """An error or a note of a report. What is about no field is about the bytes at its offset."""
    field = row["offset"] if row["field"] is None else row["field"]
    kind = next((it for it in DetailKind if it.word in row), DetailKind.NONE)
    return Finding(row["number"], row["name"], is_error, _PARTS[row["part"]], row["row"], field, row["offset"], row.get(kind.word), kind)


def inspect(contents: bytes) -> List[Finding]:
    """All errors of a container, and then what is odd about it, each in the order of the rows that they are about.

    Bytes that are no container have one error. A container without errors is refused by no preparation, as far as its own bytes are
    concerned. Raises PefError: 99.

    >>> inspect(link("section d data process 4 4\\nbytes d 0000002A\\n"))
    []
    >>> [(finding.number, finding.name) for finding in inspect(b"Joy!")]
    [(1, 'TooShort')]
    """
    found = json.loads(_report("pef_report_open_container", contents))
    return [_finding(row, is_error) for key, is_error in (("errors", True), ("notes", False)) for row in found[key]]


def report(contents: bytes, path: Text = "") -> Dict[str, Any]:
    """What `pef inspect --json` prints of a file, whatever it is: its forks, fragments and containers, with all errors and notes. The
    members are those of docs/INSPECT.md. `path` is what the report calls the file. Raises PefError: 99.

    >>> report(b"Joy!", "a file")["file"]
    'a file'
    """
    found: Dict[str, Any] = json.loads(_report("pef_report_open", path.encode() if isinstance(path, str) else path, contents))
    return found


def report_parts(contents: bytes, path: Text = "") -> Iterator[str]:
    """The text of `pef inspect --json` for a file, part by part: what comes before its containers, each container, and what comes after
    them. Only one part is in memory. Raises PefError: 99.

    >>> two = 2 * link("section d data process 4 4\\nbytes d 0000002A\\n")
    >>> parts = list(report_parts(two))
    >>> len(parts), json.loads("".join(parts)) == report(two)
    (4, True)
    """
    raw, found = bytes(contents), _FoundContainer()
    yield _report("pef_report_open_head", path.encode() if isinstance(path, str) else path, raw).decode()
    for _ in _containers_in(raw, found):
        yield _report("pef_report_open_found", raw, more=(ctypes.byref(found),)).decode()
    yield _report("pef_report_open_end", raw, more=(ctypes.byref(found),)).decode()


def report_excerpts(contents: bytes, most: int) -> Iterator[Optional[Dict[str, Any]]]:
    """The containers of a file as report() has them, one after the other, with the first `most` rows of each kind, errors and notes alone,
    and without instructions. None is one that isn't inspected, because the report would cost too much. Raises PefError: 99."""
    raw, found = bytes(contents), _FoundContainer()
    for _ in _containers_in(raw, found):
        text = _report("pef_report_open_excerpt", raw, more=(ctypes.byref(found), most))
        yield json.loads(text) if text else None


def report_rows(contents: bytes, offset: int, part: Part, start: int, count: int) -> List[Dict[str, Any]]:
    """Rows of the container at an offset of a file, as report() has them: so many from the one that has the number `start`.

    `part` is SECTION, LIBRARY, IMPORT, RELOCATION or EXPORT. Raises PefError: 201 for another part, or 99.
    """
    rows = _RowRange(offset, part, start, count)
    found: List[Dict[str, Any]] = json.loads(b"[" + _report("pef_report_open_rows", bytes(contents), more=(ctypes.byref(rows),)).lstrip(b",") + b"]")
    return found


def _containers_in(contents: bytes, found: _FoundContainer) -> Iterator[None]:
    """Goes from container to container of a file, up to its end."""
    answer = library().pef_first_container(contents, len(contents), ctypes.byref(found))
    while answer == OK:
        yield
        answer = library().pef_next_container(contents, len(contents), ctypes.byref(found))
    if answer != NOT_THERE:
        _check(answer)


def _report(call: str, *given: bytes, more: Tuple[Any, ...] = ()) -> bytes:
    """The text of a report that a call opens."""
    it = _Report()
    try:
        _check(getattr(library(), call)(ctypes.byref(it), *(word for raw in map(bytes, given) for word in (raw, len(raw))), *more))
        return b"".join(_parts("pef_report_next", it, 1 << 16))
    finally:
        library().pef_report_free(ctypes.byref(it))


def _parts(call: str, handle: Union[_Listing, _Report], size: int) -> Iterator[bytes]:
    """The bytes that a call gives in parts of this size, up to the last one."""
    room, written = _room(size), _Size(size)
    while written.value == size:
        _check(getattr(library(), call)(ctypes.byref(handle), room, size, ctypes.byref(written)))
        if written.value > 0:
            yield ctypes.string_at(room, written.value)


def _all_rows(call: str, contents: bytes, row: Any, slice_name: Optional[str] = None) -> List[Any]:
    """All rows of a table, however many there are. Each call reads the whole container, so each asks for twice as many."""
    found: List[Any] = []
    room = 256
    while True:
        rows, count = (row * room)(), _Size()
        if slice_name is not None:
            for it in rows:
                setattr(it, slice_name, _no_bytes())
        _check(getattr(library(), call)(contents, len(contents), len(found), rows, room, ctypes.byref(count)))
        found += rows[: count.value]
        if count.value < room:
            return found
        room = min(2 * room, 1 << 20)


# --- containers ---


@dataclasses.dataclass(frozen=True)
class Header:
    """A container's header. The date is in seconds since the first of January 1904. The architecture is `pwpc`, or in a container that is
    read as a damaged one also `m68k` or any other.
    """

    date: int
    current_version: int
    old_def_version: int
    old_imp_version: int
    section_count: int
    instantiated_section_count: int
    architecture: str


@dataclasses.dataclass(frozen=True)
class Section:
    """A section's header and raw bytes.

    `kind` is a SectionKind and `share` a Share, or another number in a section that isn't instantiated. KINDS and SHARES have their
    names.
    """

    number: int
    name: Optional[str]
    kind: int
    share: int
    alignment: int
    default_address: int
    total_size: int
    unpacked_size: int
    container_offset: int
    raw: bytes = dataclasses.field(repr=False)
    instantiated: bool = True

    @property
    def kind_name(self) -> str:
        return KINDS.get(self.kind, str(self.kind))


@dataclasses.dataclass(frozen=True)
class Library:
    """An imported library: the fragment it names, and the versions that fit."""

    name: str
    current_version: int
    old_imp_version: int
    weak: bool
    init_before: bool


@dataclasses.dataclass(frozen=True)
class Import:
    """An imported symbol. `library` is the library's name; `symbol_class` is a SymbolClass; a weak symbol may be missing."""

    name: str
    library: str
    symbol_class: int
    weak: bool


@dataclasses.dataclass(frozen=True)
class Relocation:
    """A relocation header: the section that is relocated, and the bytes of its instructions, two for each halfword."""

    section: int
    instructions: bytes


@dataclasses.dataclass(frozen=True)
class Fixup:
    """An addition of a relocation program: the offset of a word in the section, and what is added to it.

    `kind` is "section" or "import", and `number` says which.
    """

    offset: int
    kind: str
    number: int


@dataclasses.dataclass(frozen=True)
class Export:
    """An exported symbol.

    `value` is an offset in the section, a number if `section` is ABSOLUTE, or the number of an import if it is REEXPORT. `symbol_class`
    is a SymbolClass.
    """

    name: str
    section: int
    value: int
    symbol_class: int


@dataclasses.dataclass(frozen=True)
class Entry:
    """An entry point: a place in a section."""

    section: int
    offset: int


def _export(row: _Export) -> Export:
    return Export(row.name.text(), row.section, row.value, _code(SymbolClass, row.symbol_class))


class Container:
    """A container, read from its bytes. Making one raises PefError if the bytes are refused (1 to 20).

    >>> container = Container(link("section d data process 4 4\\nbytes d 0000002A\\nmain d 0\\n"))
    >>> container
    <pef.Container: 2 sections, 0 libraries, 0 imports, 0 exports>
    >>> container.sections[0].kind, container.expand(container.sections[0]), container.entries
    (<SectionKind.DATA: 1>, b'\\x00\\x00\\x00*', {'main': Entry(section=0, offset=0)})

    With `damaged`, a container is read as far as it can be, and `findings` has what is wrong with it. PefError is raised only if nothing
    can be read of it (1 or 2). What is missing is left out: sections whose headers aren't in the bytes, rows that aren't in the loader
    section, and all rows if that has no header. The raw bytes of a section are those that there are. A name that can't be read is "",
    and so is the library of an import that is in no library's range.

    >>> cut = Container(container.contents[:-1], damaged=True)
    >>> cut, cut.findings[0].name
    (<pef.Container: 2 sections, 0 libraries, 0 imports, 0 exports, damaged>, 'SectionOutside')
    """

    def __init__(self, contents: bytes, *, damaged: bool = False):
        self.contents = bytes(contents)
        self._bytes = (self.contents, len(self.contents))
        self._damaged = damaged
        row = _Header()
        self._read(library().pef_partial_header(*self._bytes, ctypes.byref(row)) if damaged else library().pef_header(*self._bytes, ctypes.byref(row)))
        #: The container's header.
        self.header = Header(
            row.date_time_stamp,
            row.current_version,
            row.old_def_version,
            row.old_imp_version,
            row.section_count,
            row.instantiated_section_count,
            row.architecture.to_bytes(4, "big").decode(ENCODING),
        )
        self._loader = _Loader(main_section=-1, init_section=-1, term_section=-1)
        if damaged:
            self._has_loader = library().pef_partial_loader(*self._bytes, ctypes.byref(self._loader)) == OK
        else:
            self._read(library().pef_loader(*self._bytes, ctypes.byref(self._loader)))

    @classmethod
    def from_file(cls, path: Union[str, os.PathLike[str]], *, damaged: bool = False) -> Container:
        """The container in a file. Raises PefError as Container does, and OSError."""
        return cls(pathlib.Path(path).read_bytes(), damaged=damaged)

    def __repr__(self) -> str:
        loader = self._loader
        if self._damaged:
            rows = f"{len(self.libraries)} libraries, {len(self.imports)} imports, {len(self.exports)} exports, damaged"
            return f"<pef.Container: {len(self.sections)} sections, {rows}>"
        rows = f"{loader.library_count} libraries, {loader.import_count} imports, {loader.export_count} exports"
        return f"<pef.Container: {self.header.section_count} sections, {rows}>"

    @functools.cached_property
    def findings(self) -> List[Finding]:
        """The errors of the container, and the notes on it: what inspect() gives. The first error is the one that listing() reports. A
        preparation has an order of its own, in which packed data comes before programs."""
        return inspect(self.contents)

    def _read(self, answer: int) -> None:
        if answer != OK:
            _check(answer, _container_place(self.contents))

    @functools.cached_property
    def sections(self) -> List[Section]:
        """All sections, by their numbers."""
        found: List[Section] = []
        for number in range(self.header.section_count):
            section = self._section(number)
            if section is None:  # the headers after it aren't in the bytes either
                break
            found.append(section)
        return found

    def _section(self, number: int) -> Optional[Section]:
        row, raw, name = _Section(), _no_bytes(), _no_bytes()
        part = "pef_partial_section" if self._damaged else "pef_section"
        answer = getattr(library(), part)(*self._bytes, number, ctypes.byref(row), ctypes.byref(raw))
        if answer == NOT_THERE and self._damaged:
            return None
        _check(answer)
        answer = getattr(library(), f"{part}_name")(*self._bytes, number, ctypes.byref(name))
        if answer != NOT_THERE:
            _check(answer)
        return Section(
            number,
            name.text() if answer == OK else None,
            _code(SectionKind, row.kind),
            _code(Share, row.share),
            row.alignment,
            row.default_address,
            row.total_size,
            row.unpacked_size,
            row.container_offset,
            raw.value(),
            number < self.header.instantiated_section_count,
        )

    def expand(self, section: Section) -> bytes:
        """The image of a section, before it is relocated: its raw bytes, or what packed ones expand to.

        Zeros follow it in memory, up to total_size. Raises PefError: 21 to 25.
        """
        if section.kind != SectionKind.PATTERN:
            return section.raw[: section.unpacked_size]
        room = _room(section.unpacked_size)
        _check(library().pef_expand(section.raw, len(section.raw), room, section.unpacked_size))
        return ctypes.string_at(room, section.unpacked_size)

    def _rows(self, table: str, row: Any, count: int, slice_name: str = "name") -> List[Any]:
        if self._damaged:
            return _all_rows(f"pef_partial_{table}", self.contents, row, slice_name) if self._has_loader else []
        rows, found = (row * max(1, count))(), _Size()
        for it in rows:
            setattr(it, slice_name, _no_bytes())
        _check(getattr(library(), f"pef_{table}")(*self._bytes, 0, rows, count, ctypes.byref(found)))
        return list(rows[: found.value])

    @functools.cached_property
    def libraries(self) -> List[Library]:
        """The libraries that the fragment imports from."""
        rows = self._rows("libraries", _Library, self._loader.library_count)
        return [Library(it.name.text(), it.current_version, it.old_imp_version, bool(it.options & LIBRARY_WEAK), bool(it.options & LIBRARY_INIT_BEFORE)) for it in rows]

    @functools.cached_property
    def imports(self) -> List[Import]:
        """The imported symbols, by their numbers."""
        rows = self._rows("imports", _Import, self._loader.import_count)
        return [self._import(it) for it in rows]

    def _import(self, row: _Import) -> Import:
        return Import(row.name.text(), self._library_name(row.library), _code(SymbolClass, row.symbol_class), row.weak)

    def _library_name(self, number: int) -> str:
        return "" if number == _NO_OFFSET else self.libraries[number].name

    @functools.cached_property
    def relocations(self) -> List[Relocation]:
        """The relocation headers, with their instructions (docs/FORMATS.md)."""
        rows = self._rows("relocations", _Relocation, self._loader.relocation_count, "instructions")
        return [Relocation(it.section, it.instructions.value()) for it in rows]

    def fixups(self, header: int) -> Iterator[Fixup]:
        """The additions of the program that has this place in `relocations`, in the order in which it makes them.

        Words, sections and imports needn't exist. Raises PefError: 31 to 36, for a damaged program, or 201 past the last header. Of a
        container that is read as one that may be damaged also 201 if the instructions extend past the loader section.
        """
        call, start, room = library().pef_partial_fixups if self._damaged else library().pef_fixups, 0, 1024
        while True:
            rows, count = (_Fixup * room)(), _Size()
            self._read(call(*self._bytes, header, start, rows, room, ctypes.byref(count)))
            for it in rows[: count.value]:
                yield Fixup(it.offset, FIXUP_KINDS[it.kind], it.number)
            if count.value < room:
                return
            start += room
            room = min(2 * room, 1 << 20)

    @functools.cached_property
    def exports(self) -> List[Export]:
        """The exported symbols, in the order of the container's keys."""
        rows = self._rows("exports", _Export, self._loader.export_count)
        return [_export(it) for it in rows]

    def find_export(self, name: Text) -> Optional[Tuple[int, Export]]:
        """The place in `exports` of the first symbol with this name, and that symbol; None if there is none.

        Each call reads the loader section anew. To look up many names, make a dictionary of `exports`.
        """
        raw, number, row = _raw(name), _Size(), _Export(_no_bytes())
        if self._damaged:
            return next(((place, it) for place, it in enumerate(self.exports) if _raw(it.name) == raw), None)
        answer = library().pef_export_named(*self._bytes, raw, len(raw), ctypes.byref(number), ctypes.byref(row))
        if answer == NOT_THERE:
            return None
        _check(answer)
        return number.value, _export(row)

    def find_import(self, name: Text) -> Optional[Tuple[int, Import]]:
        """The place in `imports` of the first symbol with this name, and that symbol; None if there is none."""
        raw, number, row = _raw(name), _Size(), _Import(_no_bytes())
        if self._damaged:
            return next(((place, it) for place, it in enumerate(self.imports) if _raw(it.name) == raw), None)
        answer = library().pef_import_named(*self._bytes, raw, len(raw), ctypes.byref(number), ctypes.byref(row))
        if answer == NOT_THERE:
            return None
        _check(answer)
        return number.value, self._import(row)

    @functools.cached_property
    def entries(self) -> Dict[str, Entry]:
        """The entry points that there are, by "main", "init" and "term"."""
        found = {}
        for name in ("main", "init", "term"):
            section = getattr(self._loader, f"{name}_section")
            if section != -1:
                found[name] = Entry(section, getattr(self._loader, f"{name}_offset"))
        return found

    def listing(self) -> str:
        """The lines of `pef list`. Raises PefError: 31 to 36, for a damaged relocation program, and 1 to 20 for a damaged container."""
        length = 4096
        while True:
            room, written = _room(length), _Size()
            answer = library().pef_list(*self._bytes, room, length, ctypes.byref(written))
            if answer != ROOM_TOO_SMALL:
                _check(answer)
                return ctypes.string_at(room, written.value).decode("ascii")
            length = written.value

    def listing_parts(self, size: int = 65536) -> Iterator[str]:
        """The lines of `pef list`, in parts of `size` characters; the last part may be shorter. However many lines there are, only
        one part is in memory. Raises what `listing` raises, when the first part is asked for."""
        listing = _Listing()
        try:
            _check(library().pef_list_open(ctypes.byref(listing), *self._bytes))
            for part in _parts("pef_list_next", listing, size):
                yield part.decode("ascii")
        finally:
            library().pef_list_free(ctypes.byref(listing))


# --- contexts ---


@dataclasses.dataclass(frozen=True)
class PlacedSection:
    """A section in memory: where it is, and its bytes right after relocation. `kind` is a SectionKind and `share` a Share."""

    number: int
    address: int
    kind: int
    share: int
    contents: bytes = dataclasses.field(repr=False)


@dataclasses.dataclass(frozen=True)
class ImportTarget:
    """What an import means, or where an export ends: `kind` is a word of TARGETS, and `address` what is added wherever the import is relocated.

    `fragment`, `section` and `offset` say where a target in a section is, and are None for the others. `address` is 0 for a
    missing target, and the number for an absolute one.
    """

    kind: str
    address: int
    fragment: Optional["Fragment"] = None
    section: Optional[int] = None
    offset: Optional[int] = None


@dataclasses.dataclass(frozen=True)
class NewSection:
    """A section that a preparation would place.

    `fragment` is the name of its fragment, and `number` its number in the container. It takes `size` bytes, and its address has to be
    a multiple of `alignment`. `kind` is a SectionKind and `share` a Share, or another number.
    """

    fragment: str
    number: int
    kind: int
    share: int
    size: int
    alignment: int


@dataclasses.dataclass(frozen=True)
class PlacedExport:
    """An export of a fragment, with where it ends.

    `number` is its place in `Container.exports`, and `symbol_class` a SymbolClass. `target` says where it ends, with the address: in a
    section, also of another fragment, at an absolute number, or nowhere ("missing") if it passes on an import that is missing.
    `import_number` is the place in `Container.imports` of the import that it passes on, and None if it passes on none.
    """

    name: str
    number: int
    symbol_class: int
    target: ImportTarget
    import_number: Optional[int] = None


@dataclasses.dataclass(frozen=True)
class Location:
    """Where an address is: the fragment, the number of its section, and the offset there.

    `nearest` is the export in this section with the greatest offset that isn't greater, the first if several have it; None if there is
    none.
    """

    fragment: "Fragment"
    section: int
    offset: int
    nearest: Optional[PlacedExport] = None


@dataclasses.dataclass(frozen=True)
class MissingLibrary:
    """A library that a fragment names, and that no fragment of the context serves.

    `fragment` is the name of the fragment that names it, and the versions are those of the library that this one was linked with. A
    weak library may stay missing. If the context has a fragment with the library's name, its versions don't fit, and are
    `found_version` and `found_old_def_version`; otherwise both are None.
    """

    name: str
    fragment: str
    current_version: int
    old_imp_version: int
    weak: bool
    found_version: Optional[int] = None
    found_old_def_version: Optional[int] = None


@dataclasses.dataclass(frozen=True)
class LackingLibrary:
    """A library that fragments of a context name, and that no fragment of it has the name of. If it is weak, each of them can be prepared
    without it."""

    name: str
    weak: bool


@dataclasses.dataclass(frozen=True)
class StubNumbers:
    """What the symbols of a stub are: absolute numbers. The first symbol is `first`, and each later one `step` more."""

    first: int = 0xF0000000
    step: int = 16


@dataclasses.dataclass(frozen=True)
class StubMemory:
    """What the symbols of a stub are: memory. A symbol of code is a `word`, which an emulator catches (usually `sc`), and a `blr`. A
    transition vector leads to such code. A symbol of data or TOC is so many `zeros`."""

    word: int = 0x44000002
    zeros: int = 16


@dataclasses.dataclass(frozen=True)
class Stub:
    """A container in place of a library that nobody has."""

    library: str
    contents: bytes = dataclasses.field(repr=False)

    @functools.cached_property
    def symbols(self) -> List[Export]:
        """What it exports, in the order of the values. A symbol that is a number has the section ABSOLUTE, and the number as its value."""
        return sorted(Container(self.contents).exports, key=lambda it: (it.section, it.value, it.name))


def _stub_options(values: Union[StubNumbers, StubMemory]) -> _StubOptions:
    fields = dataclasses.asdict(values)
    if not all(0 <= it < 2**32 for it in fields.values()):
        raise ValueError(f"{' and '.join(fields)} have 32 bits")
    return _StubOptions(ctypes.sizeof(_StubOptions), STUB_NUMBERS if isinstance(values, StubNumbers) else STUB_MEMORY, **fields)


class Fragment:
    """A fragment of a connection's closure. What is read of it after the connection is closed raises PefError."""

    def __init__(self, connection: "Connection", number: int):
        self.connection = connection
        #: The number of the fragment in its context, counted from 0 in the order in which fragments were added.
        self.number = number

    def __repr__(self) -> str:
        try:
            return f"<pef.Fragment {self.number}: {self.name!r}>"
        except PefError:  # its context is freed
            return f"<pef.Fragment {self.number}>"

    @property
    def name(self) -> str:
        """The name that it was added with."""
        name, context = _no_bytes(), self.connection.context
        with context._lock:  # the name is a part of what was added
            context._call("pef_fragment_name", self.number, ctypes.byref(name))
            return name.text()

    @property
    def sections(self) -> List[PlacedSection]:
        """Its sections in memory, by their numbers."""
        count = _Size()
        self.connection.context._call("pef_fragment_sections", self.number, ctypes.byref(count))
        return [self._section(number) for number in range(count.value)]

    def _section(self, number: int) -> PlacedSection:
        row, written = _FragmentSection(), _Size()
        self._call("pef_fragment_section", number, ctypes.byref(row))
        room = _room(row.size)
        self.connection.context._call("pef_fragment_bytes", self.number, number, room, row.size, ctypes.byref(written))
        kind, share = _code(SectionKind, row.kind), _code(Share, row.share)
        return PlacedSection(number, row.address, kind, share, ctypes.string_at(room, written.value))

    @property
    def entries(self) -> Dict[str, int]:
        """The addresses of its entry points, by "init", "main" and "term": those that it has."""
        row = _Entries()
        self._call("pef_fragment_entries", ctypes.byref(row))
        return {name: getattr(row, name) for name in ("init", "main", "term") if getattr(row, f"has_{name}")}

    def symbol(self, name: Text) -> Optional[int]:
        """The address of its first export of a name; None if there is none."""
        raw, address = _raw(name), ctypes.c_uint32()
        return address.value if self._finds("pef_fragment_symbol", raw, len(raw), ctypes.byref(address)) else None

    def export_address(self, number: int) -> Optional[int]:
        """The address of the export that has this place in `Container.exports`; None past the last."""
        address = ctypes.c_uint32()
        return address.value if self._finds("pef_export_address", number, ctypes.byref(address)) else None

    def import_target(self, number: int) -> Optional[ImportTarget]:
        """What the import that has this place in `Container.imports` means; None past the last."""
        row = _Target()
        return self._target(row) if self._finds("pef_import_target", number, ctypes.byref(row)) else None

    def import_named(self, name: Text) -> Optional[int]:
        """The place in `Container.imports` of its first import with this name; None if there is none."""
        raw, number = _raw(name), _Size()
        return number.value if self._finds("pef_fragment_import_named", raw, len(raw), ctypes.byref(number)) else None

    @property
    def export_count(self) -> int:
        """How many exports it has."""
        count = _Size()
        self._call("pef_fragment_exports", ctypes.byref(count))
        return count.value

    def export(self, number: int) -> Optional[PlacedExport]:
        """The export that has this place in `Container.exports`, with where it ends; None past the last."""
        return self._export("pef_fragment_export", number)

    def export_named(self, name: Text) -> Optional[PlacedExport]:
        """Its first export with this name, with where it ends; None if there is none."""
        raw = _raw(name)
        return self._export("pef_fragment_export_named", raw, len(raw))

    def _export(self, call: str, *words: Any) -> Optional[PlacedExport]:
        row = _FragmentExport()
        with self.connection.context._lock:  # the name is a part of what was added
            return self._placed(row) if self._finds(call, *words, ctypes.byref(row)) else None

    def _placed(self, row: _FragmentExport) -> PlacedExport:
        passed = row.import_number if row.is_reexport else None
        return PlacedExport(row.name.text(), row.number, _code(SymbolClass, row.symbol_class), self._target(row.target), passed)

    def _target(self, row: _Target) -> ImportTarget:
        kind = TARGETS[row.kind]
        if kind != "in section":
            return ImportTarget(kind, row.address)
        return ImportTarget(kind, row.address, Fragment(self.connection, row.fragment), row.section, row.offset)

    def _finds(self, name: str, *words: Any) -> bool:
        """Makes a call, and says whether there is such a thing."""
        try:
            self._call(name, *words)
        except PefError as answer:
            if answer.number != NOT_THERE:
                raise
            return False
        return True

    def _call(self, name: str, *words: Any) -> None:
        self.connection.context._call(name, self.connection.number, self.number, *words)


class Connection:
    """An open connection to a fragment, with its closure. It is closed at the end of a `with`, or by close()."""

    def __init__(self, context: "Context", number: int):
        self.context = context
        self.number = number

    def __repr__(self) -> str:
        try:
            return f"<pef.Connection {self.number}: {', '.join(it.name for it in self.fragments)}>"
        except PefError:
            return f"<pef.Connection {self.number}: closed>"

    @property
    def fragments(self) -> List[Fragment]:
        """The closure: libraries before the fragments that need them, except in cycles, and the root last."""
        return self._fragments("pef_fragments")

    @property
    def init_order(self) -> List[Fragment]:
        """The same fragments in the order of initialization."""
        return self._fragments("pef_init_order")

    @property
    def new_fragments(self) -> List[Fragment]:
        """The fragments that its preparation placed, in the order of initialization.

        Copy and initialize exactly these: the others were present already, and may have run since.
        """
        return self._fragments("pef_new_fragments")

    @property
    def released(self) -> List[Fragment]:
        """The fragments that close() would release, the last to be initialized first.

        Call their termination routines in this order, and then close(). Raises PefError: 99.
        """
        return self._fragments("pef_released_by")

    @property
    def root(self) -> Fragment:
        """The fragment that was prepared."""
        return self.fragments[-1]

    def _fragments(self, call: str) -> List[Fragment]:
        places, count = (_Size * MAX_FRAGMENTS)(), _Size()
        self.context._call(call, self.number, places, MAX_FRAGMENTS, ctypes.byref(count))
        return [Fragment(self, number) for number in places[: count.value]]

    def close(self) -> None:
        """Closes the connection. Raises PefError: 68 if it is closed already."""
        self.context._call("pef_close", self.number)

    def __enter__(self) -> "Connection":
        return self

    def __exit__(self, *_: object) -> None:
        self.close()


class Context:
    """Fragments by name, and the memory in which they are prepared (docs/EMBEDDING.md).

    No section passes `limit`. The other options are those of docs/RULES.md: each section takes a multiple of `granule` at a
    multiple of it, `connections` are given in all, and one preparation takes at most so many `steps` and `bytes`. What is
    None has its usual value. The context is freed at the end of a `with`, or by free(). Several threads may use it: each call
    waits until the one before it is done.

    Raises PefError: 205 if `granule` isn't a power of two from 16 on, or 99. ValueError if an option is 0 or has too many bits.

    >>> with Context() as context:
    ...     context.add("Tools", link("section d data process 4 4\\nbytes d 0000002A\\nexport answer data d 0\\n"))
    ...     connection = context.prepare("Tools")
    ...     connection, connection.root, hex(connection.root.symbol("answer"))
    (<pef.Connection 0: Tools>, <pef.Fragment 0: 'Tools'>, '0x10000')
    """

    def __init__(
        self,
        limit: int = 0x10000000,
        granule: Optional[int] = None,
        connections: Optional[int] = None,
        steps: Optional[int] = None,
        bytes: Optional[int] = None,  # pylint: disable=redefined-builtin
    ):
        self._context = _Context()
        #: Held during each call: a call writes to the struct, even if it only reads.
        self._lock = threading.RLock()
        #: The names and containers that were added, in this order: the library reads them until they are removed or the context is
        #: freed.
        self._kept: List[Tuple[_Contents, _Contents]] = []
        if (granule, connections, steps, bytes) == (None, None, None, None):
            self._call("pef_open", limit)
            return
        options = _Options(ctypes.sizeof(_Options))
        for name, bits, value in [
            ("limit", 32, limit),
            ("granule", 32, granule),
            ("connections", 32, connections),
            ("steps", 64, steps),
            ("bytes", 64, bytes),
        ]:
            if value is not None:
                if not 0 < value < 2**bits:
                    raise ValueError(f"{name} is a number of {bits} bits, and not 0")
                setattr(options, name, value)
        self._call("pef_open_with", ctypes.byref(options))

    def __repr__(self) -> str:
        return f"<pef.Context: {'open' if self._context.is_open else 'freed'}>"

    def _call(self, name: str, *words: Any) -> None:
        with self._lock:
            answer = getattr(library(), name)(ctypes.byref(self._context), *words)
        _check(answer)

    def add(self, name: Text, contents: bytes) -> None:
        """Adds a fragment. Its container is read when it is prepared, and refused then.

        Fragments may be added at any time. The name and the container stay in memory until the fragment is removed or the
        context is freed. Raises PefError: 203 if a fragment of an open connection has a weak library of this name and was
        prepared without it, 204 for the 257th fragment, or 99.
        """
        self._add("pef_add", name, contents)

    def add_new(self, name: Text, contents: bytes) -> None:
        """Adds a fragment as add() does, if none has its name. Raises PefError: 209 otherwise, and those of add()."""
        self._add("pef_add_new", name, contents)

    def _add(self, call: str, name: Text, contents: bytes) -> None:
        raw, kept = _raw(name), bytes(contents)
        with self._lock:
            self._kept.append((raw, kept))
            try:
                self._call(call, raw, len(raw), kept, len(kept))
            except PefError:
                del self._kept[-1]
                raise

    def remove(self, name: Text) -> None:
        """Removes the first fragment of a name. If another one has the name, that is the first then.

        The numbers of the others don't change, and neither do open connections. The number of the removed one goes to the next
        fragment that is added and whose name isn't there. Raises PefError: 60 if no fragment has the name, 207 if it is present,
        208 if a fragment of an open connection names it as a library (a weak one, whose version didn't fit), or 99.
        """
        raw = _raw(name)
        with self._lock:
            self._call("pef_remove", raw, len(raw))
            del self._kept[next(number for number, (added, _) in enumerate(self._kept) if added == raw)]

    def reserve(self, address: int, size: int) -> None:
        """Takes addresses out of use: no section is placed in them.

        The range begins at the multiple of 16 at or below the address, and ends at the one at or above its end. A size of 0
        takes nothing. Raises PefError: 67 if the range meets a section in memory or another range, or passes the last
        address of 32 bits, or 99. ValueError if a number has more than 32 bits.
        """
        if not (0 <= address < 2**32 and 0 <= size < 2**32):
            raise ValueError("an address and a size have 32 bits")
        self._call("pef_reserve", address, size)

    def unreserve(self, address: int, size: int) -> None:
        """Gives back a range that reserve() took out of use: sections can be placed there again.

        A size of 0 gives nothing back. Raises PefError: 201 if the addresses aren't exactly such a range, also if they are a
        part of one or several. ValueError if a number has more than 32 bits.
        """
        if not (0 <= address < 2**32 and 0 <= size < 2**32):
            raise ValueError("an address and a size have 32 bits")
        self._call("pef_unreserve", address, size)

    def missing(self, name: Text) -> List[MissingLibrary]:
        """The libraries that are missing for a fragment and for all that it needs, in the order in which prepare() looks for them.

        Each name is there once, and weak libraries are among them. Add those that you have, and ask again, since these may name
        others; then prepare(). Raises PefError: 60 if no fragment has the name, 1 to 20 for a fragment that can't be read, or 99.
        """
        raw, room, count, place = _raw(name), 64, _Size(), _Place()
        found: List[MissingLibrary] = []
        with self._lock:  # the names are parts of what was added
            while True:
                rows, names = (_Missing * room)(), _Names(_no_bytes(), _no_bytes(), _no_bytes())
                for it in rows:
                    it.name = _no_bytes()
                words = (ctypes.byref(self._context), raw, len(raw), len(found), rows, room, ctypes.byref(count), ctypes.byref(names))
                answer = library().pef_missing_with_place(*words, ctypes.byref(place))
                _check(answer, place, fragment=names.fragment.text(), library=names.library.text(), symbol=names.symbol.text())
                found += [self._missing(it) for it in rows[: count.value]]
                if count.value < room:
                    return found
                room = min(2 * room, 1 << 16)

    def _missing(self, row: _Missing) -> MissingLibrary:
        fragment = _no_bytes()
        self._call("pef_fragment_name", row.fragment, ctypes.byref(fragment))
        it = MissingLibrary(row.name.text(), fragment.text(), row.current_version, row.old_imp_version, row.is_weak)
        found = {"found_version": row.found_version, "found_old_def_version": row.found_old_def_version}
        return dataclasses.replace(it, **found) if row.is_found else it

    def lacking(self) -> List[LackingLibrary]:
        """The libraries that the context lacks, whichever fragment is prepared: each name once, in the order of the fragments and of their
        entries. Fragments that can't be read are passed by. Raises PefError: 99."""
        room, count = 64, _Size()
        found: List[LackingLibrary] = []
        with self._lock:  # the names are parts of what was added
            while True:
                rows = (_Lacking * room)(*[_Lacking(_no_bytes()) for _ in range(room)])
                self._call("pef_lacking", len(found), rows, room, ctypes.byref(count))
                found += [LackingLibrary(it.name.text(), it.is_weak) for it in rows[: count.value]]
                if count.value < room:
                    return found
                room = min(2 * room, 1 << 16)

    def stub(self, name: Text, values: Union[StubNumbers, StubMemory] = StubNumbers()) -> Stub:
        """The stub of a library: a container that exports what the fragments of the context import from it (docs/RULES.md). It isn't added.

        Raises PefError: 211 to 216 if there is no such stub, or 99. ValueError if a number of `values` has more than 32 bits.
        """
        raw, length, options = _raw(name), 4096, _stub_options(values)
        while True:
            room, written, count = _room(length), _Size(), _Size()
            with self._lock:
                answer = library().pef_stub(
                    ctypes.byref(self._context), raw, len(raw), ctypes.byref(options), room, length, ctypes.byref(written), ctypes.byref(count)
                )
            if answer != ROOM_TOO_SMALL:
                _check(answer, library=raw.decode(ENCODING))
                return Stub(raw.decode(ENCODING), ctypes.string_at(room, written.value))
            length = written.value

    def add_stubs(
        self, name: Optional[Text] = None, values: Union[StubNumbers, StubMemory] = StubNumbers(), weak: bool = True
    ) -> List[Stub]:
        """Adds a stub of each library that the context lacks, or with a name of each that is missing for that fragment and all that it
        needs. Numbers go on from one stub to the next, so each belongs to one symbol.

        Without `weak`, a library that each fragment can do without gets none. Returns the stubs in their order. Raises what missing() and
        stub() raise, and 203 or 204 as add() does. Then no stub is added.

        >>> with Context() as context:
        ...     context.add("App", link("library System 1 0 -\\nimport beep tvector strong\\nsection d data process 4 4\\nfix d 0 import beep\\n"))
        ...     for stub in context.add_stubs("App"):
        ...         print(stub.library, [(it.name, hex(it.value)) for it in stub.symbols])
        ...     context.prepare("App").root.sections[0].contents.hex()
        System [('beep', '0xf0000000')]
        'f0000000'
        """
        with self._lock:
            if name is None:
                found = {it.name: it.weak for it in self.lacking()}
            else:
                found = {it.name: it.weak for it in self.missing(name) if it.found_version is None}
            made: List[Stub] = []
            for library_name, is_weak in found.items():
                if weak or not is_weak:
                    made.append(self._next_stub(library_name, values))
                    if isinstance(values, StubNumbers):
                        values = StubNumbers(values.first + values.step * len(made[-1].symbols), values.step)
            for number, stub in enumerate(made):
                try:
                    self.add(stub.library, stub.contents)
                except PefError:
                    for added in made[:number]:
                        self.remove(added.library)
                    raise
        return made

    def _next_stub(self, name: str, values: Union[StubNumbers, StubMemory]) -> Stub:
        """A stub whose numbers go on from others, which may have taken the last one."""
        if not (isinstance(values, StubNumbers) and values.first >= 2**32):
            return self.stub(name, values)
        stub = self.stub(name, StubNumbers(0, 0))
        if stub.symbols:
            raise PefError(int(Code.PAST_LAST_NUMBER), {"library": name})
        return stub

    def prepare(self, name: Text) -> Connection:
        """Opens a connection: places, fills and relocates what isn't present of a fragment and all that it needs.

        Raises PefError: 1 to 39, 60 to 70, 75, or 99. `names` has the fragment, library and symbol that a refusal is about.
        """
        raw, number = _raw(name), ctypes.c_uint32()
        names, place = _Names(_no_bytes(), _no_bytes(), _no_bytes()), _Place()
        words = (ctypes.byref(self._context), raw, len(raw), ctypes.byref(number), ctypes.byref(names))
        with self._lock:
            answer = library().pef_prepare_with_place(*words, ctypes.byref(place))
            _check(answer, place, fragment=names.fragment.text(), library=names.library.text(), symbol=names.symbol.text())
        return Connection(self, number.value)

    def new_sections(self, name: Text) -> List[NewSection]:
        """The sections that prepare() would place for a name, in the order in which it places them.

        Raises PefError: 1 to 20, 60 to 66, 68 to 70, 75, or 99: what prepare() raises before it places anything.
        """
        raw, room, count, place = _raw(name), 64, _Size(), _Place()
        found: List[NewSection] = []
        with self._lock:
            while True:
                rows, names = (_NewSection * room)(), _Names(_no_bytes(), _no_bytes(), _no_bytes())
                words = (ctypes.byref(self._context), raw, len(raw), len(found), rows, room, ctypes.byref(count), ctypes.byref(names))
                answer = library().pef_new_sections_with_place(*words, ctypes.byref(place))
                _check(answer, place, fragment=names.fragment.text(), library=names.library.text(), symbol=names.symbol.text())
                found += [self._new_section(it) for it in rows[: count.value]]
                if count.value < room:
                    return found
                room = min(2 * room, 1 << 16)

    def _new_section(self, row: _NewSection) -> NewSection:
        fragment = _no_bytes()
        self._call("pef_fragment_name", row.fragment, ctypes.byref(fragment))
        kind, share = _code(SectionKind, row.kind), _code(Share, row.share)
        return NewSection(fragment.text(), row.section, kind, share, row.size, row.alignment)

    def prepare_at(self, name: Text, addresses: Sequence[int]) -> Connection:
        """Opens a connection as prepare() does, but places the sections of new_sections() at these addresses, in its order.

        Raises PefError: what prepare() raises, and 210 if there are more or fewer addresses than sections. 67 is for the first section
        whose address is below 00010000 (hex) or isn't a multiple of its alignment, or which would meet a section or a reserved range,
        or pass the limit. ValueError if an address has more than 32 bits.
        """
        if not all(0 <= address < 2**32 for address in addresses):
            raise ValueError("an address has 32 bits")
        raw, number = _raw(name), ctypes.c_uint32()
        names, place = _Names(_no_bytes(), _no_bytes(), _no_bytes()), _Place()
        given = (ctypes.c_uint32 * len(addresses))(*addresses)
        with self._lock:
            answer = library().pef_prepare_at(
                ctypes.byref(self._context), raw, len(raw), given, len(given), ctypes.byref(number), ctypes.byref(names), ctypes.byref(place)
            )
            _check(answer, place, fragment=names.fragment.text(), library=names.library.text(), symbol=names.symbol.text())
        return Connection(self, number.value)

    def fragment_names(self) -> Dict[int, str]:
        """The names of all fragments, present or not, by their numbers. Those of removed fragments are left out, so there may be gaps."""
        found: Dict[int, str] = {}
        number, name = _Size(), _no_bytes()
        with self._lock:  # the names are parts of what was added
            while True:
                answer = library().pef_next_fragment(ctypes.byref(self._context), number, ctypes.byref(number))
                if answer == NOT_THERE:
                    return found
                _check(answer)
                self._call("pef_fragment_name", number, ctypes.byref(name))
                found[number.value] = name.text()
                number.value += 1

    def is_present(self, name: Text) -> bool:
        """Whether the fragment of a name is present: the closure of an open connection has it. False if none was added."""
        raw, answer = _raw(name), ctypes.c_bool()
        self._call("pef_is_present", raw, len(raw), ctypes.byref(answer))
        return answer.value

    def at(self, address: int) -> Optional[Location]:
        """Where an address is, with the nearest export at it or before it; None if it is in no section of a fragment that is present.

        ValueError if the address has more than 32 bits.
        """
        if not 0 <= address < 2**32:
            raise ValueError("an address has 32 bits")
        row = _Location()
        with self._lock:  # the name of an export is a part of what was added
            try:
                self._call("pef_at", address, ctypes.byref(row))
            except PefError as answer:
                if answer.number != NOT_THERE:
                    raise
                return None
            fragment = Fragment(Connection(self, row.connection), row.fragment)
            return Location(fragment, row.section, row.offset, fragment._placed(row.nearest) if row.has_nearest else None)

    def free(self) -> None:
        """Frees the context. What is called later raises PefError: 202."""
        with self._lock:
            library().pef_free(ctypes.byref(self._context))
            self._kept.clear()

    def __enter__(self) -> "Context":
        return self

    def __exit__(self, *_: object) -> None:
        self.free()

    def __del__(self) -> None:
        if hasattr(self, "_kept") and self._context.is_open:  # __init__ may have been refused its arguments
            self.free()


from .mac import Damage, Finder, FoundContainer, MacFile, Member, Resource, fragments_of, resource_files  # noqa: E402

__all__ += ["Damage", "FileKind", "Finder", "FoundContainer", "Locator", "MacFile", "Member", "Resource", "Usage", "fragments_of", "resource_files"]
