"""The calls that read a context: those of pef_c whose contracts say that it stays the same, and that have it as what can't be changed. Others
keep in it what they read.

The library writes to the struct while it reads. So a program that includes the header makes them by inline functions, which hand a copy of
the struct to the library: several threads may read one context. This writes the functions at the end of include/pef.h.
"""
import re
from typing import Set

from . import compared, header
from .header import Call
from .regions import with_regions

BEGIN, END = "/* Written by tools/declarations from the calls above that read a context: */", "/* The end of the readers. */"
#: What such a call has in its contract, and in its body.
SAME, UNCHANGED = "ensures same { held context.new ≡ held context.old }", "let Some(boxed) = take("
OWN = "struct pef_context *context"

FUNCTION = """
static inline uint32_t {name}_const({parameters})
{{
    struct pef_context copy = *context;
    return {name}({arguments});
}}
#define {name}(...) {name}_const(__VA_ARGS__)
"""


def names() -> Set[str]:
    found = set()
    for path in sorted(compared.CALLS.rglob("*.rt")):
        calls = re.findall(r'^pub extern "C" fn (\w+)(.*?)^}$', path.read_text(encoding="utf-8"), re.M | re.S)
        found |= {name for name, text in calls if SAME in text and UNCHANGED in text}
    return found


def function(call: Call) -> str:
    if not call.written.startswith(OWN):
        header.fails(f"{call.name} reads a context, and doesn't take it first")
    arguments = ", ".join(["&copy", *(it.name for it in call.parameters[1:])])
    return FUNCTION.format(name=call.name, parameters="const " + call.written, arguments=arguments)


def with_readers(text: str) -> str:
    """The header with the functions for its readers, in the order of their calls."""
    reading = names()
    calls = [it for it in header.Header(text).calls if it.name in reading]
    if {it.name for it in calls} != reading:
        header.fails("it lacks calls that read a context")
    return with_regions(header.PATH, {"": "".join(map(function, calls)) + "\n"}, BEGIN, END, text)
