"""Translates a whole object."""
import re

from . import helpers
from .data import DataWriter
from .errors import Unknown, check
from .function import FunctionTranslator
from .machine import HOST, MEMORY, c_function
from .object_file import FUNCTION_SYMBOL
from .opcode import C_TYPES


class Names:
    """Names in C, each given once."""

    def __init__(self):
        self.taken = set()

    def make(self, prefix, text):
        # Instances of a generic function carry a hash, which stays.
        words = re.sub(r"[^A-Za-z0-9]+", "_", text).strip("_")
        name, count = f"{prefix}{words}", 1
        while name in self.taken:
            count += 1
            name = f"{prefix}{words}_{count}"
        self.taken.add(name)
        return name


class ModuleTranslator:
    def __init__(self, object_file):
        self.object, given = object_file, Names()
        self.exports = [function for function in object_file.functions if function.is_exported]
        given.taken.update(f"f_{function.name}" for function in self.exports)
        self.names = {}  # of functions, by their identity
        for function in object_file.functions:
            if function.is_exported:
                self.names[id(function)] = f"f_{function.name}"
            elif not function.is_imported:
                self.names[id(function)] = given.make("f_", function.name)
        self.segment_names = [given.make("d_", re.sub(r"^\.rodata\.+L?(static\.)?", "", segment.name))
                              for segment in object_file.segments]

    def function_of(self, relocation):
        symbol = self.object.symbols[relocation.symbol]
        check(symbol.kind == FUNCTION_SYMBOL, f"a call of {symbol.name}")
        function = self.object.functions[symbol.index]
        if function.is_imported and id(function) not in self.names:
            self.names[id(function)] = c_function(function.name)
        return function

    def place_of(self, relocation):
        """The name of the array that an address is in, the offset, and the array's size."""
        number, offset = self.object.data_address(relocation)
        return self.segment_names[number], offset, len(self.object.segments[number].bytes)

    def signature(self, function, names=None):
        names = names or [""] * len(function.parameters)
        listed = ", ".join(f"{C_TYPES[type]} {name}".strip() for type, name in zip(function.parameters, names)) or "void"
        result = C_TYPES[function.results[0]] if function.results else "void"
        return f"{result} {self.names[id(function)]}({listed})"

    def translated(self, roots):
        """The text of each function that the roots need, by its name in C, in the object's order."""
        own = {self.names[id(function)]: function for function in self.object.functions if not function.is_imported}
        texts, work = {}, [self.names[id(function)] for function in roots]
        while work:
            name = work.pop()
            if name not in texts:
                texts[name] = self.body(own[name])
                work += [word for word in helpers.words(texts[name]) if word in own]
        return {name: texts[name] for name in own if name in texts}

    def data_of(self, text):
        """The numbers of the segments that a text names, and of those that they point to."""
        named = helpers.words(text)
        work = [number for number, name in enumerate(self.segment_names) if name in named]
        found = set()
        while work:
            number = work.pop()
            if number not in found:
                found.add(number)
                work += [self.object.data_address(inner)[0] for _, inner in self.object.segments[number].relocations]
        return sorted(found)

    def body(self, function):
        try:
            text = FunctionTranslator(self, function).text()
        except Unknown as unknown:
            raise Unknown(f"{function.name}: {unknown}") from None
        return f"/* {function.name.replace('*/', '* /')} */\n{text}"

    def text(self, roots, after):
        """The module in C: what the roots need, and `after` at its end, which calls them."""
        texts = self.translated(roots)
        bodies = "\n".join(texts.values())
        segments, called = self.data_of(bodies), helpers.words(bodies)
        own = [function for function in self.object.functions if self.names.get(id(function)) in texts]
        asked = [function for function in self.object.functions[:self.object.imported] if self.names.get(id(function)) in called]
        memory = [f"static PEF__APART {self.signature(function)};" for function in asked if function.name in MEMORY]
        memory = ["\n".join(memory), helpers.c_file("../memory.c")] if memory else []
        externs = [f"extern {self.signature(function)};" for function in asked if function.name in HOST]
        called = helpers.used_helpers("\n".join(memory) + bodies)
        heads = [helpers.c_file("head.h")]
        if any("v128" in text for text in called):
            heads.append(helpers.c_file("vectors.h"))
        if any("PEF__ATOMICS" in text for text in called):
            heads.append(helpers.c_file("atomics.h"))
        forgotten = helpers.defined_macros(heads + memory + [after])
        parts = heads + called + memory + ["\n".join(externs)]
        data = DataWriter(self.object, self.segment_names).text(segments)
        parts += ["/* --- constant data --- */", data, "/* --- functions --- */"]
        parts += ["\n".join(f"static {self.signature(function)};" for function in own), bodies.strip(), after]
        parts.append("\n".join(f"#undef {name}" for name in forgotten + self.data_macros(segments)))
        return "\n\n".join(part for part in parts if part) + "\n"

    def data_macros(self, segments):
        return [self.segment_names[number] for number in segments if self.object.segments[number].relocations]
