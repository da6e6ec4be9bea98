"""The words that relocation fills, computed from the text of scripts, without the library: for the tests of what shows prepared memory."""
from __future__ import annotations

from typing import Dict, Iterator, List, Optional, Tuple


class Script:
    """What the lines of a script say of memory. Numbers of sections and imports are places in the lists."""

    def __init__(self, text: str):
        self.sections: List[str] = []
        self.images: Dict[str, bytes] = {}
        self.libraries: Dict[str, bool] = {}
        self.imports: Dict[str, Tuple[str, bool]] = {}
        self.fixups: List[Tuple[str, int, str, str]] = []
        self.exports: Dict[str, Tuple[str, int]] = {}
        self.absolute: Dict[str, int] = {}
        self.passed: Dict[str, str] = {}
        library = ""
        for line in text.splitlines():
            words = line.split(" ")
            if words[0] == "library":
                library = words[1]
                self.libraries[library] = "weak" in words[4]
            elif words[0] == "import":
                self.imports[words[1]] = (library, words[3] == "weak")
            elif words[0] == "section":
                self.sections.append(words[1])
            elif words[0] == "bytes":
                self.images[words[1]] = self.images.get(words[1], b"") + bytes.fromhex(words[2])
            elif words[0] == "fix":
                self.fixups.append((words[1], int(words[2], 0), words[3], words[4]))
            elif words[0] == "tvector":
                self.fixups += [(words[1], int(words[2], 0) + more, "section", name) for more, name in ((0, words[3]), (4, words[4]))]
            elif words[0] == "export":
                self.exports[words[1]] = (words[3], int(words[4], 0))
            elif words[0] == "absolute":
                self.absolute[words[1]] = int(words[3], 0)
            elif words[0] == "reexport":
                self.passed[words[1]] = words[3]


def stub_numbers(scripts: Dict[str, str], first: int = 0xF0000000, step: int = 16) -> Dict[Tuple[str, str], int]:
    """The numbers of the symbols of libraries that aren't among the fragments, by the rules of docs/RULES.md: library by library in the
    order in which they are named, and then import by import."""
    read = [Script(text) for text in scripts.values()]
    lacking = [name for name in dict.fromkeys(name for it in read for name in it.libraries) if name not in scripts]
    symbols = [symbol for library in lacking for symbol in dict.fromkeys((library, name) for it in read for name, (of, _) in it.imports.items() if of == library)]
    return {symbol: first + step * number for number, symbol in enumerate(symbols)}


class Fragments:
    """Fragments of scripts in memory: the addresses of their sections by FRAGMENT.NUMBER, and the numbers of symbols of stubs."""

    def __init__(self, scripts: Dict[str, str], addresses: Dict[str, int], numbers: Dict[Tuple[str, str], int]):
        self.scripts = {name: Script(text) for name, text in scripts.items()}
        self.addresses, self.numbers = addresses, numbers

    def section(self, fragment: str, name: str) -> int:
        return self.addresses[f"{fragment}.{self.scripts[fragment].sections.index(name)}"]

    def target(self, fragment: str, name: str) -> int:
        """What an import means: 0 if it is weak and missing."""
        library, _ = self.scripts[fragment].imports[name]
        if (library, name) in self.numbers:
            return self.numbers[library, name]
        it: Optional[Script] = self.scripts.get(library)
        if it is None:
            return 0
        if name in it.passed:
            return self.target(library, it.passed[name])
        if name in it.absolute:
            return it.absolute[name]
        if name in it.exports:
            section, offset = it.exports[name]
            return self.section(library, section) + offset
        return 0

    def words(self) -> Iterator[Tuple[str, int, int, int]]:
        """Each word that is relocated: its fragment, the number of its section, its offset, and what it is afterwards."""
        for fragment, it in self.scripts.items():
            for section, offset, kind, name in it.fixups:
                before = int.from_bytes(it.images.get(section, b"")[offset : offset + 4].ljust(4, b"\0"), "big")
                added = self.section(fragment, name) if kind == "section" else self.target(fragment, name)
                yield fragment, it.sections.index(section), offset, (before + added) % 2**32

    def imports(self) -> Iterator[Tuple[str, int, int, str]]:
        """Those that get an import: the fragment, the section, the offset, and the name."""
        for fragment, it in self.scripts.items():
            for section, offset, kind, name in it.fixups:
                if kind == "import":
                    yield fragment, it.sections.index(section), offset, name
