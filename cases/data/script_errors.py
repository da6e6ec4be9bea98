"""Scripts with an error, its place and what is said of it, and lines that have none. The places were counted in the texts by hand."""
import dataclasses

from data.help import HELP

NAMES = {
    41: "BadLine",
    42: "BadNumber",
    43: "UnknownName",
    44: "RepeatedName",
    45: "OutOfOrder",
    46: "Overlap",
    47: "OutsideSection",
    48: "TooMany",
    49: "BadKind",
}


@dataclasses.dataclass(frozen=True)
class Error:
    """The first error of a text.

    number, line: those of the error. word: the number of the word at fault. at: where it begins in the text. spelled: the word.
    earlier: the line that the error is also about, or None. reason: the sentence that the standard error has on it, if any.
    """

    text: str
    number: int
    line: int
    word: int
    at: int
    spelled: str
    earlier: object = None
    reason: str = ""

    @property
    def contents(self):
        """The bytes of the text: each character is one."""
        return self.text.encode("latin-1")

    @property
    def printed(self):
        return f"refused {self.number} {NAMES[self.number]} line {self.line}\n".encode()

    @property
    def explained(self):
        """The standard error: the help, the reason, and the line with the word marked (docs/ERRORS.md)."""
        line = self.text.split("\n")[self.line - 1]
        column = self.at - sum(len(before) + 1 for before in self.text.split("\n")[: self.line - 1])
        reason = self.reason and self.reason + "\n"
        return HELP[self.number] + (reason + marked(line, column, len(self.spelled))).encode()


def marked(line, column, length):
    """A line with a word marked under it: at most 72 bytes, at most 32 of them before the word. Bytes that don't print are `?`."""
    start = max(0, column - 32)
    shown = "".join(it if " " <= it <= "~" else "?" for it in line[start : start + 72])
    marks = "^" * min(max(1, length), 72 - (column - start))
    return f"    {shown}\n    {' ' * (column - start)}{marks}\n"


# Reasons for 41.
CARRIAGE_RETURN = "The line has a carriage return. Save the script with line feeds alone."
TAB = "The line has a tab. Write one space in its place."
BYTE = "The line has a byte that isn't printing ASCII."
SPACE_AT_START = "The line begins with a space."
SPACE_AT_END = "The line ends with a space."
TWO_SPACES = "The line has two spaces in a row."
FIRST_WORD = "No line of a script begins with its first word."
SPELLING = "A name has more than 255 bytes, or the hex digits aren't pairs."


def words(has, wants):
    return f"A line with this first word has {wants} words. This one has {has}."


# Reasons for 43 to 46. Each has the number of the earlier line.
NO_LIBRARY = "No library comes before this import."


def near(line):
    return f"Line {line} declares a name that is nearly this one."


def repeated(line):
    return f"Line {line} has the same name."


def later(line):
    return f"It has to come before line {line}, which is of a later group."


def again(line):
    return f"Line {line} is of the same kind, and a script has one such line."


def overlaps(line):
    return f"It overlaps a word that line {line} fills."


# Reasons for 49: the words that can be there.
OPTION = "The word has to be one of these: - weak before weak,before"
CLASS = "The word has to be one of these: code data tvector toc glue"
STRENGTH = "The word has to be one of these: strong weak"
KIND = "The word has to be one of these: code data pattern const exec"
SHARE = "The word has to be one of these: process global protected"
BASE = "The word has to be one of these: section import"

TWO_LINES = "section d data process 4 8\nfix d 0 section d\n"

# Third lines, after these two: the number of the error, that of the word, where it begins in the line, the word, the earlier line
# and the reason.
THIRD_LINES = [
    (" ", 41, 0, 0, "", None, SPACE_AT_START),
    ("\r", 41, 0, 0, "\r", None, CARRIAGE_RETURN),
    ("entry", 41, 0, 0, "entry", None, FIRST_WORD),
    ("entry d 0", 41, 0, 0, "entry", None, FIRST_WORD),
    ("Main d 0", 41, 0, 0, "Main", None, FIRST_WORD),
    ("main", 41, 1, 4, "", None, words(1, 3)),
    ("main d", 41, 2, 6, "", None, words(2, 3)),
    ("fix d 4 section d ", 41, 4, 16, "d", None, SPACE_AT_END),
    ("fix  d 4 section d", 41, 1, 4, "", None, TWO_SPACES),
    ("fix d\t4 section d", 41, 1, 4, "d\t4", None, TAB),
    ("fix d 4", 41, 3, 7, "", None, words(3, 5)),
    ("fix d 4 section", 41, 4, 15, "", None, words(4, 5)),
    ("fix d 4 section d d", 41, 4, 16, "d", None, words(6, 5)),
    ("bytes d ", 41, 2, 8, "", None, SPACE_AT_END),
    ("bytes d 123", 41, 2, 8, "123", None, SPELLING),
    ("bytes d 0g", 41, 2, 8, "0g", None, SPELLING),
    ("tvector d 4 d", 41, 4, 13, "", None, words(4, 5)),
    ("absolute k data", 41, 3, 15, "", None, words(3, 4)),
    ("reexport k data d 0", 41, 3, 16, "d", None, words(5, 4)),
    ("fix d 04 section d", 42, 2, 6, "04", None, ""),
    ("fix d 0X4 section d", 42, 2, 6, "0X4", None, ""),
    ("fix d 0x000000004 section d", 42, 2, 6, "0x000000004", None, ""),
    ("fix d 4294967296 section d", 42, 2, 6, "4294967296", None, ""),
    ("tvector d x d d", 42, 2, 10, "x", None, ""),
    ("absolute k data 4294967296", 42, 3, 16, "4294967296", None, ""),
    ("export k data d x", 42, 4, 16, "x", None, ""),
    ("main d -1", 42, 2, 7, "-1", None, ""),
    ("fix dd 4 section d", 43, 1, 4, "dd", 1, near(1)),
    ("fix data 4 section d", 43, 1, 4, "data", None, ""),
    ("fix d 0x4 section e", 43, 4, 18, "e", 1, near(1)),
    ("fix d 4 section D", 43, 4, 16, "D", 1, near(1)),
    ("fix d 4 import d", 43, 4, 15, "d", None, ""),
    ("tvector d 0 dd d", 43, 3, 12, "dd", 1, near(1)),
    ("tvector d 0 d D", 43, 4, 14, "D", 1, near(1)),
    ("bytes code 00", 43, 1, 6, "code", None, ""),
    ("export k data D 0", 43, 3, 14, "D", 1, near(1)),
    ("reexport k data d", 43, 3, 16, "d", None, ""),
    ("term D 8", 43, 1, 5, "D", 1, near(1)),
    ("section e data process 4 8", 45, 0, 0, "section", 2, later(2)),
    ("versions 1 0 0", 45, 0, 0, "versions", 1, later(1)),
    ("library L 1 0 -", 45, 0, 0, "library", 1, later(1)),
    ("fix d 2 section d", 46, 2, 6, "2", 2, overlaps(2)),
    ("tvector d 0 d d", 46, 2, 10, "0", 2, overlaps(2)),
    ("bytes d 000102030405060708", 47, 2, 8, "000102030405060708", None, ""),
    ("fix d 5 section d", 47, 2, 6, "5", None, ""),
    ("fix d 4294967295 section d", 47, 2, 6, "4294967295", None, ""),
    ("tvector d 4 d d", 47, 2, 10, "4", None, ""),
    ("export e glue d 9", 47, 4, 16, "9", None, ""),
    ("init d 9", 47, 2, 7, "9", None, ""),
    ("fix e x symbol e", 49, 3, 8, "symbol", None, BASE),
    ("export k odd d 0", 49, 2, 9, "odd", None, CLASS),
    ("reexport k odd d", 49, 2, 11, "odd", None, CLASS),
    ("absolute k odd 0", 49, 2, 11, "odd", None, CLASS),
]

# Third lines without an error.
SOUND_THIRD_LINES = [
    "",
    "# any \x7f bytes ",
    "bytes d aAfF09",
    "fix d 4 section d",
    "export e glue d 8",
    "absolute k data 0x2A",
    "absolute k data 4294967295",
    "term d 8",
]

TEXTS = [
    # 41
    Error("section d", 41, 1, 2, 9, "", None, words(2, 6)),
    Error("section \x7f data process 4 8", 41, 1, 1, 8, "\x7f", None, BYTE),
    Error("section d data process 4 8\r\n", 41, 1, 5, 25, "8\r", None, CARRIAGE_RETURN),
    Error(" section d data process 4 8", 41, 1, 0, 0, "", None, SPACE_AT_START),
    Error("section d  data process 4 8", 41, 1, 2, 10, "", None, TWO_SPACES),
    Error("section d data process 4 8\nbytes d 00\nsection d odd process 13", 41, 3, 5, 62, "", None, words(5, 6)),
    Error("versions 1 2", 41, 1, 3, 12, "", None, words(3, 4)),
    # What is said of a bad line: its bytes come first, then its spaces, then its words.
    Error("main d 0\r", 41, 1, 2, 7, "0\r", None, CARRIAGE_RETURN),
    Error("main\td 0", 41, 1, 0, 0, "main\td", None, TAB),
    Error(" main d \x7f", 41, 1, 0, 0, "", None, BYTE),
    Error("\xc3\xa4\t", 41, 1, 0, 0, "\xc3\xa4\t", None, BYTE),
    Error(" ", 41, 1, 0, 0, "", None, SPACE_AT_START),
    Error(" main  d 0 ", 41, 1, 0, 0, "", None, SPACE_AT_START),
    Error("main d 0 ", 41, 1, 2, 7, "0", None, SPACE_AT_END),
    Error("main  d 0", 41, 1, 1, 5, "", None, TWO_SPACES),
    Error("entry d 0", 41, 1, 0, 0, "entry", None, FIRST_WORD),
    Error("entry", 41, 1, 0, 0, "entry", None, FIRST_WORD),
    Error("main", 41, 1, 1, 4, "", None, words(1, 3)),
    Error("main d 0 0", 41, 1, 2, 7, "0", None, words(4, 3)),
    Error("section d data process 4", 41, 1, 5, 24, "", None, words(5, 6)),
    Error("bytes d 123", 41, 1, 2, 8, "123", None, SPELLING),
    # A name of 256 bytes, of which 64 are shown.
    Error(f"section {'abcdefghijklmnop' * 16} data process 4 8", 41, 1, 1, 8, "abcdefghijklmnop" * 16, None, SPELLING),
    Error(f"library {0:0256} 1 0 -", 41, 1, 1, 8, "0" * 256, None, SPELLING),
    # 42
    Error("section d data process 13 8", 42, 1, 4, 23, "13"),
    Error("section d data process 4 16777217", 42, 1, 5, 25, "16777217"),
    Error("versions 1 0 -1", 42, 1, 3, 13, "-1"),
    Error("versions 1 2 x", 42, 1, 3, 13, "x"),
    Error("library L x 0 -", 42, 1, 2, 10, "x"),
    Error("library L 1 x -", 42, 1, 3, 12, "x"),
    Error("section d data process 4 8\nexport e data f x", 42, 2, 4, 43, "x"),
    # 43
    Error("fix d 0 section d", 43, 1, 1, 4, "d"),
    Error("section a data process 4 4\nterm e 9", 43, 2, 1, 32, "e", 1, near(1)),
    # The name is nearly that of a section of line 3, and of an import of line 2.
    Error("#a\n\nsection text code process 4 8\ninit txet 0", 43, 4, 1, 39, "txet", 3, near(3)),
    Error("library L 1 0 -\nimport draw code strong\nreexport d code Draw", 43, 3, 3, 56, "Draw", 2, near(2)),
    Error(
        "library L 1 0 -\nimport draw code strong\nsection drew data process 4 8\nfix drew 0 import drew",
        43, 4, 4, 88, "drew", 2, near(2),
    ),
    # 44
    Error("\n#\nsection d data process 4 8\nsection d code global 0 0", 44, 4, 1, 38, "d", 3, repeated(3)),
    Error("section a data process 4 4\n\nsection a code global 0 0", 44, 3, 1, 36, "a", 1, repeated(1)),
    Error("absolute k data 0\nabsolute k code 1", 44, 2, 1, 27, "k", 1, repeated(1)),
    # Two exports with one name, of two forms of lines.
    Error("section d data process 4 8\nexport k data d 0\nabsolute k data 0", 44, 3, 1, 54, "k", 2, repeated(2)),
    Error("library L 1 0 -\nimport v data strong\nabsolute k data 0\nreexport k data v", 44, 4, 1, 64, "k", 3, repeated(3)),
    Error(
        "library L 1 0 -\nimport v data strong\nsection d data process 4 8\nreexport k data v\nexport k data d 9",
        44, 5, 1, 89, "k", 4, repeated(4),
    ),
    Error("section d data process 4 8\nexport e data d 0\nexport e data d 9", 44, 3, 1, 52, "e", 2, repeated(2)),
    Error("library L 1 0 -\nlibrary L 2 0 weak", 44, 2, 1, 24, "L", 1, repeated(1)),
    Error("library L 1 0 -\nlibrary M 1 0 -\nlibrary L 2 0 weak", 44, 3, 1, 40, "L", 1, repeated(1)),
    Error("library L 1 0 -\nimport x data strong\nlibrary M 1 0 -\nimport x code weak", 44, 4, 1, 60, "x", 2, repeated(2)),
    # A library and an import may have the same name, two imports may not.
    Error("library x 1 0 -\nimport x data weak\nlibrary M 1 0 -\nimport x code weak", 44, 4, 1, 58, "x", 2, repeated(2)),
    # 45
    Error("section d data process 4 8\nbytes d 00\nsection d odd process 13 8", 45, 3, 0, 38, "section", 2, later(2)),
    Error("absolute k data 0\nsection d data process 4 8", 45, 2, 0, 18, "section", 1, later(1)),
    Error("library L 1 0 -\nversions 1 0 0", 45, 2, 0, 16, "versions", 1, later(1)),
    Error("versions 1 0 0\nversions 1 0 0", 45, 2, 0, 15, "versions", 1, again(1)),
    Error("versions 1 0 0\nlibrary L 1 0 -\nversions 1 0 0", 45, 3, 0, 31, "versions", 1, again(1)),
    Error("import draw tvector strong", 45, 1, 0, 0, "import", None, NO_LIBRARY),
    Error("import draw odd odd", 45, 1, 0, 0, "import", None, NO_LIBRARY),
    Error("#\nimport draw tvector strong", 45, 2, 0, 2, "import", None, NO_LIBRARY),
    Error("library L 1 0 -\nsection d data process 4 8\nimport x data strong", 45, 3, 0, 43, "import", 2, later(2)),
    Error("section a data process 4 4\ninit a 0\nmain a 0", 45, 3, 0, 36, "main", 2, later(2)),
    Error("section a data process 4 4\nmain a 0\nmain a 4", 45, 3, 0, 36, "main", 2, again(2)),
    # 46. The same offsets in another section are passed over. The second word of the transition vector is overlapped.
    Error(
        "section d data process 4 32\nsection e data process 4 32\nfix e 14 section d\ntvector d 8 d d\nfix d 4 section d\nfix d 0xE section d",
        46, 6, 2, 115, "0xE", 4, overlaps(4),
    ),
    # The first of two lines that are overlapped.
    Error(
        "section d data process 4 32\nfix d 8 section d\nfix d 4 section d\ntvector d 2 d d",
        46, 4, 2, 74, "2", 2, overlaps(2),
    ),
    # 47
    Error("section a data process 4 4\nsection b data process 4 4\nbytes b 00\nfix a 9 section a", 47, 4, 2, 71, "9"),
    Error(
        "section a data process 4 2\nsection b data process 4 2\nbytes a 00\nbytes b 00\nbytes a 0000",
        47, 5, 2, 84, "0000",
    ),
    Error("section a data process 4 4\nterm a 5", 47, 2, 2, 34, "5"),
    # 48: one section too many. Ten lines have 28 bytes, six have 29, and the name is 8 bytes into the last line.
    Error("".join(f"section s{number} data process 4 0\n" for number in range(17)), 48, 17, 1, 462, "s16"),
    # 49
    Error("section d odd process 4 8", 49, 1, 2, 10, "odd", None, KIND),
    Error("section d data odd 4 8", 49, 1, 3, 15, "odd", None, SHARE),
    Error("section d data odd 13 8", 49, 1, 3, 15, "odd", None, SHARE),
    Error("library L 1 0 before,weak", 49, 1, 4, 14, "before,weak", None, OPTION),
    Error("library L 1 0 -\nimport x odd strong", 49, 2, 2, 25, "odd", None, CLASS),
    Error("library L 1 0 -\nimport x data odd", 49, 2, 3, 30, "odd", None, STRENGTH),
    Error("section d data process 4 8\nexport e odd f x", 49, 2, 2, 36, "odd", None, CLASS),
]

# A section's name, another one, and whether they are nearly the same.
NEAR_NAMES = [
    ("text", "TEXT", True),
    ("text", "tExT", True),
    ("text", "tezt", True),
    ("text", "Wext", True),
    ("text", "texT2", False),
    ("text", "text2", True),
    ("text", "ttext", True),
    ("text", "tet", True),
    ("text", "ext", True),
    ("text", "tex", True),
    ("text", "etxt", True),
    ("text", "tetx", True),
    ("text", "xtet", False),
    ("text", "te", False),
    ("text", "textab", False),
    ("text", "data", False),
]

# Sections of some bytes, and lines for fixups in any order: the error of the last line, and the line whose word it overlaps.
ANY_ORDER = [
    ("16", ["fix d 8 section d", "fix d 4 section d"], None),
    ("16", ["fix d 8 section d", "fix d 5 section d"], (46, 2)),
    ("16", ["fix d 8 section d", "fix d 8 section d"], (46, 2)),
    ("16", ["fix d 8 section d", "fix d 11 section d"], (46, 2)),
    ("16", ["fix d 8 section d", "fix d 12 section d"], None),
    ("16", ["fix d 8 section d", "fix d 13 section d"], (47, None)),
    ("16", ["fix d 8 section d", "tvector d 0 d d"], None),
    ("16", ["fix d 8 section d", "tvector d 1 d d"], (46, 2)),
    ("16", ["fix d 8 section d", "tvector d 4 d d"], (46, 2)),
    ("16", ["fix d 8 section d", "tvector d 8 d d"], (46, 2)),
    ("20", ["fix d 8 section d", "tvector d 11 d d"], (46, 2)),
    ("20", ["fix d 8 section d", "tvector d 12 d d"], None),
    ("9", ["tvector d 0 d d", "fix d 3 section d"], (46, 2)),
    ("10", ["fix d 4 section d", "tvector d 4 d d"], (47, None)),
    ("9", ["fix d 0 section d", "tvector d 1 d d"], (46, 2)),
    # Compared with a line before the previous one, from above and from below.
    ("16", ["fix d 0 section d", "fix d 12 section d", "fix d 2 section d"], (46, 2)),
    ("16", ["fix d 12 section d", "fix d 0 section d", "fix d 10 section d"], (46, 2)),
    ("16", ["fix d 12 section d", "fix d 0 section d", "fix d 6 section d"], None),
    # Once they are in any order: bytes 5 to 8 and 12 to 15 are taken.
    ("24", ["fix d 12 section d", "fix d 5 section d", "fix d 0 section d"], None),
    ("24", ["fix d 12 section d", "fix d 5 section d", "fix d 1 section d"], None),
    ("24", ["fix d 12 section d", "fix d 5 section d", "fix d 2 section d"], (46, 3)),
    ("24", ["fix d 12 section d", "fix d 5 section d", "fix d 4 section d"], (46, 3)),
    ("24", ["fix d 12 section d", "fix d 5 section d", "fix d 8 section d"], (46, 3)),
    ("24", ["fix d 12 section d", "fix d 5 section d", "fix d 9 section d"], (46, 2)),
    ("24", ["fix d 12 section d", "fix d 5 section d", "fix d 15 section d"], (46, 2)),
    ("24", ["fix d 12 section d", "fix d 5 section d", "fix d 16 section d"], None),
    ("24", ["fix d 12 section d", "fix d 5 section d", "tvector d 0 d d"], (46, 3)),
    ("24", ["fix d 12 section d", "fix d 5 section d", "tvector d 9 d d"], (46, 2)),
    ("24", ["fix d 12 section d", "fix d 5 section d", "tvector d 16 d d"], None),
    # Bytes 1 to 4 and 20 to 23 are taken.
    ("28", ["fix d 20 section d", "fix d 1 section d", "tvector d 4 d d"], (46, 3)),
    ("28", ["fix d 20 section d", "fix d 1 section d", "tvector d 5 d d"], None),
    ("28", ["fix d 20 section d", "fix d 1 section d", "tvector d 12 d d"], None),
    ("28", ["fix d 20 section d", "fix d 1 section d", "tvector d 13 d d"], (46, 2)),
    ("28", ["fix d 20 section d", "fix d 1 section d", "tvector d 17 d d"], (46, 2)),
    # A transition vector takes bytes 9 to 16.
    ("28", ["fix d 24 section d", "tvector d 9 d d", "fix d 5 section d"], None),
    ("28", ["fix d 24 section d", "tvector d 9 d d", "fix d 6 section d"], (46, 3)),
    ("28", ["fix d 24 section d", "tvector d 9 d d", "fix d 13 section d"], (46, 3)),
    ("28", ["fix d 24 section d", "tvector d 9 d d", "fix d 16 section d"], (46, 3)),
    ("28", ["fix d 24 section d", "tvector d 9 d d", "fix d 17 section d"], None),
    # The greatest section with marks, and the least without: bytes 4194292 to 4194295 are taken, and the last four.
    ("4194304", ["fix d 4194300 section d", "fix d 4194292 section d", "fix d 4194288 section d"], None),
    ("4194304", ["fix d 4194300 section d", "fix d 4194292 section d", "fix d 4194295 section d"], (46, 3)),
    ("4194304", ["fix d 4194300 section d", "fix d 4194292 section d", "fix d 4194296 section d"], None),
    ("4194304", ["fix d 4194300 section d", "fix d 4194292 section d", "fix d 4194297 section d"], (46, 2)),
    ("4194305", ["fix d 4194301 section d", "fix d 4194292 section d", "fix d 4194289 section d"], (46, 3)),
    ("4194305", ["fix d 4194301 section d", "fix d 4194292 section d", "fix d 4194297 section d"], None),
    ("4194305", ["fix d 4194301 section d", "fix d 4194292 section d", "fix d 4194298 section d"], (46, 2)),
    ("4194305", ["fix d 4194301 section d", "fix d 4194292 section d", "tvector d 4194293 d d"], (46, 3)),
]


def third(line, number, word, at, spelled, earlier, reason):
    return Error(TWO_LINES + line, number, 3, word, len(TWO_LINES) + at, spelled, earlier, reason)


def near_name(declared, name, is_near):
    first = f"section {declared} data process 4 8\n"
    return Error(f"{first}main {name} 0", 43, 2, 1, len(first) + 5, name, 1 if is_near else None, near(1) if is_near else "")


def in_any_order(total, lines, number, earlier):
    """The error of the last line, whose word 2, the offset, is at fault."""
    *before, last = [f"section d data process 4 {total}", *lines]
    first, section, offset, *_ = last.split(" ")
    at = sum(len(line) + 1 for line in before) + len(f"{first} {section} ")
    return Error("\n".join([*before, last]), number, len(lines) + 1, 2, at, offset, earlier, overlaps(earlier) if earlier else "")


ERRORS = [third(*row) for row in THIRD_LINES] + TEXTS + [near_name(*row) for row in NEAR_NAMES]
ERRORS += [in_any_order(total, lines, *error) for total, lines, error in ANY_ORDER if error]

SOUND = [TWO_LINES + line for line in SOUND_THIRD_LINES]
SOUND += ["\n".join([f"section d data process 4 {total}", *lines]) for total, lines, error in ANY_ORDER if error is None]
