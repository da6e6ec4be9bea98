"""Compares what is said once with the sources in Rattle.

Of include/pef.h: the fields of each struct, and the parameters of each call, by name, type and order; and that programs which were
compiled before can use the structs. Of docs/errors.table: that a crate declares each row. Of docs/codes.table: the constants of pef.h and of
pef_format, and the words of scripts and of reports.

A slice is a pointer with a length: as a field it is a struct pef_bytes, as a parameter two parameters of C. The allocator, which a call
takes first, is none in C. Where the two languages have different names, RENAMED says so.
"""
import re
from typing import Dict, Iterator, List, NamedTuple, Optional, Tuple

from . import codes, errors, header, structs
from .header import Field

RECORDS = header.ROOT / "crates/pef_records/src"
CALLS = header.ROOT / "crates/pef_c/src"
TYPES = {
    "bool": "bool",
    "usize": "pef_size",
    **{f"{letter}{bits}": f"{sign}int{bits}_t" for sign, letter in (("u", "u"), ("", "i")) for bits in (8, 16, 32, 64)},
}
#: Names in Rattle, and what C has in their places.
ALIASES = {
    ("class", "symbol_class"),  # a word of C++
    ("type_code", "type"),  # a word of Rust
    ("index", "number"),
    ("buffer", "places"),
    ("export", "found"),
    ("import", "found"),
    ("bytes", "container"),
}
#: What is a pointer in a struct.
POINTERS = {"Handle": "void *", "TextHandle": "void *", "*const u8": "const uint8_t *"}
#: Structs in Rattle that C has twice, by the names of the parameters that are of the one or the other.
SHARED = {"PefText": {"listing": "struct pef_listing", "report": "struct pef_report"}}


class Declared(NamedTuple):
    """A struct's fields or a call's parameters, as Rattle has them: names and types. A call also has what it returns."""

    words: List[Tuple[str, str]]
    result: str = ""


# --- Rattle ---


def without_comments(text: str) -> str:
    return re.sub(r"//[^\n]*", "", text)


def split(inside: str) -> List[str]:
    """What is between commas, apart from those in brackets."""
    found, depth, last = [], 0, 0
    for at, character in enumerate(inside):
        depth += (character in "<([{") - (character in ">)]}")
        if character == "," and depth == 0:
            found.append(inside[last:at])
            last = at + 1
    return [" ".join(it.split()) for it in [*found, inside[last:]] if it.strip()]


def pairs(inside: str) -> List[Tuple[str, str]]:
    """Names and types. Ghosts are in no memory."""
    words = [it for it in split(inside) if not re.match(r"(?:pub )?ghost ", it)]
    return [(name.replace("pub ", "").strip(), kind.strip()) for name, _, kind in (it.partition(":") for it in words)]


def structs_in_rattle() -> Dict[str, Declared]:
    found = {}
    for folder in (RECORDS, CALLS):
        for path in sorted(folder.rglob("*.rt")):
            text = without_comments(path.read_text(encoding="utf-8"))
            for name, body in re.findall(r"#\[repr\(C\)\]\s*#\[derive\([^]]*\)\]\s*pub struct (Pef\w+)(?:<'a>)? \{(.*?)\n\}", text, re.S):
                found[name] = Declared(pairs(body))
    return found


def calls_in_rattle() -> Dict[str, Declared]:
    found = {}
    for path in sorted(CALLS.rglob("*.rt")):
        text = without_comments(path.read_text(encoding="utf-8"))
        for name, inside, result in re.findall(r'pub (?:unsafe )?extern "C" fn (\w+)(?:<\'a>)?\((.*?)\)(?:\s*->\s*(\w+))?', text, re.S):
            found[name] = Declared(pairs(inside), result)
    return found


def struct_name(rattle: str) -> str:
    """pef_found_container of PefFoundContainer."""
    return re.sub(r"(?<!^)([A-Z])", r"_\1", rattle).lower()


# --- the form that both have ---


def plain(kind: str) -> str:
    """A type without lifetimes."""
    return re.sub(r"<'a>|'\w+ ", "", kind)


def in_c(kind: str, name: str) -> str:
    """A type of Rattle that isn't behind a reference, as C has it for what has this name."""
    if kind == "&[u8]":
        return "struct pef_bytes"
    if kind in SHARED:
        return SHARED[kind].get(name, kind)
    if kind in POINTERS:
        return POINTERS[kind]
    return TYPES.get(kind) or ("struct " + struct_name(kind) if kind.startswith("Pef") else kind)


def field_shown(field: Field) -> Tuple[str, str]:
    kind = ("struct " if field.is_struct else "") + field.type
    return field.name, ("const " if field.is_constant else "") + kind + " *" * field.is_pointer


def fields_of(declared: Declared) -> List[Tuple[str, str]]:
    return [(name, in_c(plain(kind), name)) for name, kind in declared.words]


def parameters_of(declared: Declared) -> List[Tuple[str, str]]:
    """The parameters that C has for those of Rattle. `*` is the name of a length, which C names in several ways."""
    found = []
    for name, kind in ((name, plain(kind)) for name, kind in declared.words if kind != "Global"):
        slice_of = re.fullmatch(r"&(mut )?\[(.*)\]", kind)
        if slice_of:
            found += [(name, f"{'' if slice_of[1] else 'const '}{in_c(slice_of[2], name)} *"), ("*", "size_t")]
        elif kind.startswith("&mut "):
            found.append((name, in_c(kind[len("&mut ") :], name) + " *"))
        elif kind.startswith("&"):
            found.append((name, "const " + in_c(kind[1:], name) + " *"))
        else:
            found.append((name, "size_t" if kind == "usize" else in_c(kind, name)))
    return found


# --- differences ---


def is_named(found: str, wanted: str) -> bool:
    return found in (wanted, "*") or (found, wanted) in ALIASES


def differs(wanted: List[Field], found: List[Tuple[str, str]]) -> Optional[str]:
    """The first that differs of what the header has and what Rattle has."""
    for number, (field, (name, kind)) in enumerate(zip(wanted, found)):
        its_name, its_kind = field_shown(field)
        if its_kind != kind or not is_named(name, its_name):
            return f"number {number} is `{its_kind} {its_name}` in pef.h and `{kind} {name}` in Rattle"
    return None if len(wanted) == len(found) else f"there are {len(wanted)} in pef.h and {len(found)} in Rattle"


def of_header() -> Iterator[Tuple[str, Optional[str]]]:
    """Each struct and each call, and what differs, or None."""
    declared = header.read()
    structs = {struct_name(name): it for name, it in structs_in_rattle().items() if name not in SHARED}
    structs.update({of[len("struct ") :]: structs_in_rattle()[name] for name, both in SHARED.items() for of in both.values()})
    structs["pef_bytes"] = Declared([("at", "*const u8"), ("length", "usize")])  # a slice in Rattle
    for name in sorted({*declared.structs, *structs}):
        if name not in declared.structs or name not in structs:
            yield f"struct {name}", "pef.h has none" if name in structs else "Rattle has none"
            continue
        yield f"struct {name}", differs(declared.structs[name].fields, fields_of(structs[name]))
    calls, in_c_calls = calls_in_rattle(), {it.name: it for it in declared.calls}
    for name in sorted({*calls, *in_c_calls}):
        if name not in calls or name not in in_c_calls:
            yield name, "pef.h has none" if name in calls else "Rattle has none"
            continue
        result = in_c(calls[name].result, "") or "void"
        its = in_c_calls[name]
        yield name, differs(its.parameters, parameters_of(calls[name])) if result == its.result else f"it returns {its.result} in pef.h and {result} in Rattle"


# --- errors ---


def of_errors() -> Iterator[Tuple[str, Optional[str]]]:
    """Each row, and whether the crate that it names has its number and its name."""
    sources: Dict[str, str] = {}
    for row in errors.read().rows:
        if row.found == "each":
            continue
        if row.found not in sources:
            sources[row.found] = "\n".join(it.read_text(encoding="utf-8") for it in sorted((header.ROOT / "crates" / row.found / "src").rglob("*.rt")))
        text = without_comments(sources[row.found])
        name = row.c_name[len("PEF_") :] if row.found == "pef_records" and row.c_name else row.name
        has = re.search(rf"(?:=> |= |:){row.number}\b", text) and re.search(rf"\b{name}\b", text)
        yield f"{row.number} {row.name}", None if has else f"{row.found} doesn't declare it"


# --- codes ---

#: What a constant of pef.h begins and ends with, by the group of its code.
FORMS = {
    "SectionKind": r"PEF_KIND_\w+",
    "Share": r"PEF_SHARE_\w+",
    "SymbolClass": r"PEF_CLASS_\w+",
    "Usage": r"PEF_USAGE_\w+",
    "Locator": r"PEF_LOCATOR_\w+",
    "FileKind": r"PEF_FILE_\w+",
    "Part": r"PEF_\w+_PART",
    "DetailKind": r"PEF_DETAIL_\w+",
    "FixupKind": r"PEF_FIXUP_\w+",
    "TargetKind": r"PEF_TARGET_\w+",
}
#: Definitions that give a word for each code, and those that list them, with the groups of the codes.
WORDS = {
    "crates/pef_rows/specs/Codes.antt": {"kind_text": "SectionKind", "share_text": "Share", "class_member": "SymbolClass"},
    "crates/mac_rows/specs/Fragments.antt": {"usage_word": "Usage", "where_word": "Locator"},
    "crates/pef_script/specs/Text/Declarations.antt": {"kind_words": "SectionKind", "share_words": "Share", "class_words": "SymbolClass"},
}
#: What the names of constants of pef_format end with.
FORMAT = {"SECTION": "SectionKind", "SHARE": "Share", "SYMBOL": "SymbolClass"}


def of_codes() -> Iterator[Tuple[str, Optional[str]]]:
    groups, declared = codes.read(), header.read().constants
    for name, group in groups.items():
        wanted = {it.c_name: it.number for it in group.codes}
        found = {it: number for it, number in declared.items() if re.fullmatch(FORMS[name], it)}
        yield f"{name} in pef.h", None if wanted == found else f"{found} in place of {wanted}"
    layout = (header.ROOT / "crates/pef_format/src/layout.rt").read_text(encoding="utf-8")
    for ending, name in FORMAT.items():
        numbers = [int(it) for it in re.findall(rf"pub const \w+_{ending}: u8 = (\d+);", layout)]
        yield f"{name} in pef_format", None if numbers == [it.number for it in groups[name].codes] else f"the numbers are {numbers}"
    for path, definitions in WORDS.items():
        text = (header.ROOT / path).read_text(encoding="utf-8")
        for definition, name in definitions.items():
            words, all_words = words_of(text, definition), [it.word for it in groups[name].codes]
            is_right = words == [it for it in all_words if it in words] and (definition == "kind_words" or len(words) == len(all_words))
            yield f"{definition} of {path}", None if is_right else f"{words} in place of {all_words}"
    report = (header.ROOT / "crates/mac_report/specs/Reports.antt").read_text(encoding="utf-8")
    formats = dict(re.findall(r'^kind_word (\w+) = codes "(\w+)"$', report, re.M))
    yield "the formats of files", None if formats == {it.rust_name: it.word for it in groups["FileKind"].codes} else f"they are {formats}"


def words_of(text: str, definition: str) -> List[str]:
    """The words that a definition has, in its order."""
    lines = re.findall(rf"^{definition} .*= .*$", text, re.M)
    found = [it for line in lines for it in re.findall(r'codes "((?:[^"\\]|\\.)*)"', line)]
    return [it.replace('\\"', "").rpartition(":")[2] for it in found if "null" not in it]


def differences() -> Iterator[Tuple[str, Optional[str]]]:
    yield from of_header()
    yield from structs.differences(header.read())
    yield from of_errors()
    yield from of_codes()
