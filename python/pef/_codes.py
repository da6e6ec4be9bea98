"""The codes of the format, and the numbers of errors and notes.

tools/declarations writes this file from docs/codes.table and docs/errors.table. Change those, and run it again.
"""
from __future__ import annotations

import enum
from typing import Dict, Type


class _Number(enum.IntEnum):
    """A number with a name. It is an int, and prints as one in each version of Python."""

    def __str__(self) -> str:
        return str(int(self))

    def __format__(self, form: str) -> str:
        return format(int(self), form)


class _Code(_Number):
    """A code of the format. `word` is that of scripts or of reports, and `text` is for people.

    >>> SectionKind(2), SectionKind.PATTERN == 2, str(SectionKind.PATTERN)
    (<SectionKind.PATTERN: 2>, True, '2')
    >>> SectionKind.PATTERN.word, SectionKind.PATTERN.text
    ('pattern', 'pattern-initialized data')
    """

    word: str
    text: str

    def __new__(cls, number: int, word: str, text: str) -> _Code:
        it = int.__new__(cls, number)
        it._value_, it.word, it.text = number, word, text
        return it


def _code(kind: Type[_Number], number: int) -> int:
    """The constant with this number, or the number if there is none."""
    try:
        return kind(number)
    except ValueError:
        return number


class SectionKind(_Code):
    """What a section holds."""

    CODE = 0, "code", "code"
    DATA = 1, "data", "unpacked data"
    PATTERN = 2, "pattern", "pattern-initialized data"
    CONST = 3, "const", "constant"
    LOADER = 4, "loader", "loader"
    DEBUG = 5, "debug", "debug"
    EXEC = 6, "exec", "executable data"
    EXCEPTION = 7, "exception", "exception"
    TRACEBACK = 8, "traceback", "traceback"


class Share(_Code):
    """How instances of a section are shared."""

    PROCESS = 1, "process", "process"
    GLOBAL = 4, "global", "global"
    PROTECTED = 5, "protected", "protected"


class SymbolClass(_Code):
    """What a symbol names."""

    CODE = 0, "code", "code"
    DATA = 1, "data", "data"
    TVECTOR = 2, "tvector", "transition vector"
    TOC = 3, "toc", "TOC"
    GLUE = 4, "glue", "glue"


class Usage(_Code):
    """What a fragment is for."""

    IMPORT_LIBRARY = 0, "library", "import library"
    APPLICATION = 1, "application", "application"
    DROP_IN_ADDITION = 2, "addition", "drop-in addition"
    STUB_LIBRARY = 3, "stub", "stub library"
    WEAK_STUB_LIBRARY = 4, "weak-stub", "weak stub library"


class Locator(_Code):
    """Where the container of a fragment is."""

    MEMORY = 0, "memory", "memory"
    DATA_FORK = 1, "data", "data fork"
    RESOURCE = 2, "resource", "resource"


class FileKind(_Code):
    """What a file is."""

    OTHER = 0, "other", "unknown; containers are found by a search"
    CONTAINER = 1, "container", "a bare container"
    MAC_BINARY = 2, "macbinary", "MacBinary"
    APPLE_SINGLE = 3, "applesingle", "AppleSingle"
    APPLE_DOUBLE = 4, "appledouble", "AppleDouble"
    DAMAGED_APPLE = 5, "damaged", "AppleSingle or AppleDouble, damaged"
    RESOURCE_FORK = 6, "resources", "a resource fork"


class Part(_Code):
    """A part of a container or of a script that an error or a note can be about."""

    CONTAINER_HEADER = 1, "header", "container header"
    SECTION = 2, "section", "section"
    LOADER_HEADER = 3, "loader", "loader header"
    LIBRARY = 4, "library", "library"
    IMPORT = 5, "import", "import"
    MAIN = 6, "main", "main entry point"
    INIT = 7, "init", "initialization routine"
    TERM = 8, "term", "termination routine"
    RELOCATION = 9, "relocation", "relocation header"
    EXPORT = 10, "export", "export"
    PACKED_DATA = 11, "packed", "packed data of section"
    PROGRAM = 12, "program", "program of relocation header"
    LINE = 13, "line", "line"


class DetailKind(_Code):
    """What the detail of an error or a note is."""

    NONE = 0, "none", "nothing"
    WORD = 1, "word", "offset of a word in its section"
    LENGTH = 2, "length", "number of bytes"
    SECTIONS = 3, "sections", "number of sections"


class Code(_Number):
    """What an error, a note or an answer is, by the names of pef.h: docs/ERRORS.md and docs/INSPECT.md explain each.

    Three pairs of errors have one printed name, and two names here.

    >>> Code(1), Code(25)
    (<Code.TOO_SHORT: 1>, <Code.PACKED_TOO_SHORT: 25>)
    """

    OK = 0
    TOO_SHORT = 1
    BAD_TAG = 2
    BAD_ARCHITECTURE = 3
    BAD_FORMAT_VERSION = 4
    BAD_SECTION_COUNTS = 5
    SECTION_OUTSIDE = 6
    BAD_SECTION_KIND = 7
    BAD_SIZES = 8
    BAD_ALIGNMENT = 9
    NO_LOADER = 10
    LOADER_SHORT = 11
    BAD_TABLE_OFFSET = 12
    BAD_NAME = 13
    BAD_LIBRARY_RANGE = 14
    ORPHAN_IMPORT = 15
    BAD_ENTRY = 16
    BAD_RELOC_SECTION = 17
    RELOC_OUTSIDE = 18
    BAD_EXPORT_TABLE = 19
    BAD_EXPORT_SECTION = 20
    PACKED_TRUNCATED = 21
    PACKED_BAD_OPCODE = 22
    PACKED_COUNT_TOO_LARGE = 23
    PACKED_TOO_LONG = 24
    PACKED_TOO_SHORT = 25
    RELOC_BAD_OPCODE = 31
    RELOC_CUT_INSTRUCTION = 32
    RELOC_REPEAT_TOO_FAR = 33
    RELOC_REPEAT_CUTS = 34
    RELOC_NESTED_REPEAT = 35
    RELOC_TOO_MANY_STEPS = 36
    RELOC_WORD_OUTSIDE = 37
    RELOC_IMPORT_OUTSIDE = 38
    RELOC_SECTION_OUTSIDE = 39
    SCRIPT_BAD_LINE = 41
    SCRIPT_BAD_NUMBER = 42
    SCRIPT_UNKNOWN_NAME = 43
    SCRIPT_REPEATED_NAME = 44
    SCRIPT_OUT_OF_ORDER = 45
    SCRIPT_OVERLAP = 46
    SCRIPT_OUTSIDE_SECTION = 47
    SCRIPT_TOO_MANY = 48
    SCRIPT_BAD_KIND = 49
    ROOT_MISSING = 60
    LIBRARY_MISSING = 61
    SYMBOL_MISSING = 62
    IMPLEMENTATION_TOO_OLD = 63
    IMPLEMENTATION_TOO_NEW = 64
    REEXPORT_LOOP = 65
    INIT_LOOP = 66
    NO_ROOM = 67
    BAD_CONNECTION = 68
    TOO_MANY_CONNECTIONS = 69
    TOO_MANY_STEPS_IN_ALL = 70
    TOO_MANY_BYTES = 75
    DATA_FORK_CUT = 76
    RESOURCE_FORK_CUT = 77
    COMMENT_CUT = 78
    NO_CONTAINER = 80
    BAD_MAC_BINARY_CRC = 81
    APPLE_HEADER_CUT = 82
    BAD_APPLE_VERSION = 83
    APPLE_ENTRY_CUT = 84
    APPLE_ENTRY_OUTSIDE = 85
    APPLE_ENTRY_SHORT = 86
    RESOURCE_MAP_OUTSIDE = 87
    BAD_TYPE_LIST = 88
    RESOURCE_TYPE_CUT = 89
    TOO_MANY_REFERENCES = 90
    REFERENCE_CUT = 91
    RESOURCE_NAME_CUT = 92
    RESOURCE_DATA_OUTSIDE = 93
    FRAGMENT_TABLE_CUT = 94
    BAD_FRAGMENT_TABLE = 95
    MEMBER_CUT = 96
    MEMBER_NAME_CUT = 97
    FRAGMENT_OUTSIDE = 98
    OUT_OF_MEMORY = 99
    NOTE_RESERVED_NOT_ZERO = 101
    NOTE_UNKNOWN_KIND = 102
    NOTE_UNKNOWN_SHARE = 103
    NOTE_VERSION_BELOW_OLDEST = 104
    NOTE_ENTRY_OUTSIDE = 105
    NOTE_EXPORT_OUTSIDE = 106
    NOTE_WORD_OUTSIDE_IMAGE = 107
    NOTE_IRREGULAR_EXPORTS = 108
    NOTE_TRAILING_BYTES = 109
    NOTE_PROGRAMS_UNVERIFIED = 110
    NOTE_IMAGES_UNVERIFIED = 111
    NOTE_OVERLAP = 112
    NOTE_UNOWNED_BYTES = 113
    NOTE_WORD_RELOCATED_TWICE = 114
    NOTE_CONTAINERS_UNVERIFIED = 115
    NOTE_SECTIONS_OUT_OF_ORDER = 116
    NOTE_BYTES_AFTER_FORKS = 117
    NOTE_FRAGMENT_SHORT = 118
    NOTE_DATA_FORK_ELSEWHERE = 119
    NOTE_NOT_UNPACKED = 120
    NOTE_NAME_OUTSIDE = 121
    NOTE_FRAGMENT_ARCHITECTURE = 122
    NOTE_FRAGMENT_USAGE = 123
    NOTE_TEXT_DAMAGE = 124
    NOTE_ZERO_ROWS = 125
    ROOM_TOO_SMALL = 200
    NOT_THERE = 201
    NOT_OPEN = 202
    ADDED_TOO_LATE = 203
    STORE_FULL = 204
    BAD_GRANULE = 205
    BAD_OPTIONS = 206
    STILL_PRESENT = 207
    STILL_NAMED = 208
    NAME_TAKEN = 209
    WRONG_ADDRESS_COUNT = 210
    TOO_MANY_SYMBOLS = 211
    LONG_NAME = 212
    TOO_MANY_NAME_BYTES = 213
    PAST_LAST_NUMBER = 214
    UNSPELLABLE_NAME = 215
    TOO_MANY_STUB_BYTES = 216


KINDS: Dict[int, str] = {
    0: "code",
    1: "data",
    2: "pattern",
    3: "const",
    4: "loader",
    5: "debug",
    6: "exec",
    7: "exception",
    8: "traceback",
}
SHARES: Dict[int, str] = {
    1: "process",
    4: "global",
    5: "protected",
}
CLASSES: Dict[int, str] = {
    0: "code",
    1: "data",
    2: "tvector",
    3: "toc",
    4: "glue",
}
FIXUP_KINDS: Dict[int, str] = {
    1: "section",
    2: "import",
}
TARGETS: Dict[int, str] = {
    0: "missing",
    1: "absolute",
    2: "in section",
}
PARTS: Dict[int, str] = {
    1: "container header",
    2: "section",
    3: "loader header",
    4: "library",
    5: "import",
    6: "main entry point",
    7: "initialization routine",
    8: "termination routine",
    9: "relocation header",
    10: "export",
    11: "packed data of section",
    12: "program of relocation header",
    13: "line",
}
#: The parts of which there can be several.
_NUMBERED = {PARTS[number] for number in (2, 4, 5, 9, 10, 11, 12, 13)}
