"""Writes the cases for check.c: those of the program, of cases/, that need no more than files, and those of conformance/ for the library.

The file has items, each a word, a length in decimal digits and so many bytes, on lines of their own. The same cases give the same bytes.
"""
from __future__ import annotations

import ast
import json
import os
import pathlib
import re
import runpy
import sys
from typing import Dict, Iterator, Tuple, Union

ROOT = pathlib.Path(__file__).resolve().parent.parent
sys.path[:0] = [str(ROOT / "cases"), str(ROOT / "conformance")]

from suite import Begins  # noqa: E402

#: A case with more bytes tries a limit, and takes long.
MOST_BYTES = 1 << 16

Item = Tuple[str, bytes]


def encoded(what: Union[str, bytes]) -> bytes:
    return os.fsencode(what) if isinstance(what, str) else what


# --- the program ---


def is_plain(case) -> bool:
    """Whether a case needs nothing but files, an input and two outputs whose bytes are known."""
    links = any(isinstance(it, str) for it in case.files.values())
    known = all(isinstance(it, (bytes, Begins)) for it in (case.stdout, case.stderr)) and all(isinstance(it, (bytes, type(None))) for it in case.after.values())
    devices = any(encoded(it).startswith(b"/dev/") for it in case.words)
    return known and not (links or devices or case.memory or case.printed_to or case.closed or isinstance(case.stdin, str))


def written(kind: str, what) -> Iterator[Item]:
    """What an output has to be: all of it, or how it begins and what is in it."""
    if isinstance(what, bytes):
        yield kind, what
        return
    yield f"{kind}-begins", what.start
    for it in what.has:
        yield f"{kind}-has", it


def files_after(case) -> Dict[str, bytes]:
    """What files hold after a case, of those whose contents are known before it."""
    known = {path: contents for path, contents in case.files.items() if contents is not None}
    return {**known, **case.after}


def items_of(name: str, case) -> Iterator[Item]:
    yield "program", name.encode()
    for word in case.words:
        yield "word", encoded(word)
    for path, contents in case.files.items():
        if contents is None:
            yield "folder", encoded(path)
        else:
            yield from (("file", encoded(path)), ("contents", contents))
    for path, script in case.linked.items():
        yield from (("linked", encoded(path)), ("contents", script))
    for path, script in case.certified.items():
        yield from (("certified", encoded(path)), ("script", encoded(script)))
    yield "stdin", case.stdin
    yield "status", str(case.status).encode()
    yield from written("stdout", case.stdout)
    yield from written("stderr", case.stderr)
    for path, contents in files_after(case).items():
        yield "gone" if contents is None else "after", encoded(path)
        yield "contents", contents or b""


def cases_of_program() -> Iterator[bytes]:
    run = runpy.run_path(str(ROOT / "cases/run"), run_name="run")
    for path in sorted((ROOT / "cases/commands").glob("*.py")):
        for case in run["load"](path).CASES:
            if is_plain(case):
                made = packed(items_of(f"{path.stem}: {case.name}", case))
                if len(made) <= MOST_BYTES:
                    yield made


# --- the library ---


def answer_of(case, numbers: Dict[str, int]) -> str:
    """What the runner prints of a right answer."""
    answer = case["answer"]
    if "refused" in answer:
        names = [f"{it} {answer[it]}\n" for it in ("fragment", "library", "symbol") if it in answer]
        return f"refused {numbers[answer['refused']]}\n" + "".join(names)
    if case["ask"] == "read":
        return ""
    if case["ask"] == "find":
        return "".join(map(found_of, answer["found"]))
    return "".join(fragment_of(name, answer) for name in answer["order"])


def found_of(export) -> str:
    if export is None:
        return "found nothing\n"
    section = -2 if "absolute" in export else -3 if "import" in export else export["section"]
    value = next(export[it] for it in ("absolute", "import", "offset") if it in export)
    return f"found {section % 2**32:08X} {value:08X}\n"


def fragment_of(name: str, answer) -> str:
    addresses = answer["addresses"][name]
    sections = [f"section of {name} at {at:08X} {memory}\n" for at, memory in zip(addresses, answer["memory"][name])]
    entries = {it: (addresses[section] + offset) % 2**32 for it, (section, offset) in answer["entries"][name].items()}
    return "".join(sections) + "".join(f"{it} {entries[it]:08X}\n" for it in ("main", "init", "term") if it in entries)


def cases_of_library() -> Iterator[bytes]:
    folder = ROOT / "conformance/cases"
    numbers = {rule: number for number, rule in rules().items()}
    for path in sorted(folder.glob("*.json")):
        case = json.loads(path.read_text())
        items = [("library", path.stem.encode())]
        for name, file in case["fragments"]:
            items += [("fragment", name.encode()), ("contents", (folder / file).read_bytes())]
        items += [("find", bytes.fromhex(it)) for it in case.get("names", [])]
        items += [("root", case["root"].encode())] if "root" in case else []
        yield packed([*items, ("answer", answer_of(case, numbers).encode())])


def rules() -> Dict[int, str]:
    """The numbers of the rules, by the table of conformance/answer-pef."""
    text = (ROOT / "conformance/answer-pef").read_text()
    return ast.literal_eval(re.search(r"^RULES = (\{.*?^\})", text, re.M | re.S)[1])


def packed(items) -> bytes:
    return b"".join(b"%s %d\n%s\n" % (kind.encode(), len(contents), contents) for kind, contents in items)


def cases() -> bytes:
    """The contents of the file."""
    return b"".join([*cases_of_program(), *cases_of_library()])


if __name__ == "__main__":
    sys.stdout.buffer.write(cases())
