"""What the `run` of each example shares: what it needs, its checks, and results that are stored.

PEF is the built program, the first argument of a `run`, or crates/pef/out/pef. The library is the file that the environment's
PEF_LIBRARY names, or out/libpef.so of tools/build-library, and libpef.a is beside it. The header is in the folder that PEF_INCLUDE
names, or in include.
STORE=write stores results anew.
"""
from __future__ import annotations

import contextlib
import difflib
import importlib.machinery
import importlib.util
import os
import pathlib
import shutil
import subprocess
import sys
import tempfile
from typing import Iterator, Optional, Sequence, Tuple

ROOT = pathlib.Path(__file__).resolve().parent.parent
sys.path.append(str(ROOT / "fuzz"))  # which has `damage`
DEBIAN_PYTHON = "/usr/bin/python3"
PEF = pathlib.Path(sys.argv[1] if len(sys.argv) > 1 else ROOT / "crates/pef/out/pef").resolve()
LIBRARY = pathlib.Path(os.environ.get("PEF_LIBRARY") or ROOT / "out/libpef.so").resolve()
ARCHIVE = LIBRARY.with_suffix(".a")
INCLUDE = pathlib.Path(os.environ.get("PEF_INCLUDE") or ROOT / "include").resolve()

passed = 0
failed = 0


# --- what has to be there ---


def missing(what: str) -> str:
    return f"{what} is missing: `sudo tools/needs` installs it"


def program(name: str) -> Optional[str]:
    return None if shutil.which(name) else missing(name)


def module(name: str) -> Optional[str]:
    """A module of Debian's Python, which the example's programs run under."""
    there = os.access(DEBIAN_PYTHON, os.X_OK) and not subprocess.run([DEBIAN_PYTHON, "-c", f"import {name}"], capture_output=True).returncode
    return None if there else missing(f"{name} of {DEBIAN_PYTHON}")


def header(name: str) -> Optional[str]:
    compiler = os.environ.get("CC", "cc")
    if shutil.which(compiler) is None:
        return missing(compiler)
    found = subprocess.run([compiler, "-E", "-x", "c", "-"], input=f"#include <{name}>\n".encode(), capture_output=True)
    return missing(name) if found.returncode else None


def built_program() -> Optional[str]:
    there = os.access(PEF, os.X_OK) and PEF.is_file()
    return None if there else f"{PEF} isn't there: `rt run` in crates/pef builds it, or name another: {sys.argv[0]} PEF"


def built_library(path: pathlib.Path = LIBRARY) -> Optional[str]:
    return None if path.is_file() else f"{path} isn't there: tools/build-library builds it, or PEF_LIBRARY names libpef.so"


def needs(*lacking: Optional[str]) -> None:
    """Ends with status 77 if something is missing, and a line that says what."""
    found = [it for it in lacking if it]
    if found:
        print("; ".join(found))
        raise SystemExit(77)
    os.environ["PEF_LIBRARY"] = str(LIBRARY)


def script(path: pathlib.Path):
    """A script without a suffix, as a module."""
    loader = importlib.machinery.SourceFileLoader(path.name.replace("-", "_"), str(path))
    made = importlib.util.module_from_spec(importlib.util.spec_from_loader(loader.name, loader))
    sys.modules[loader.name] = made
    loader.exec_module(made)
    return made


# --- checks ---


def check(name: str, holds: bool, said: str = "") -> bool:
    global passed, failed
    if holds:
        passed += 1
    else:
        failed += 1
        print(f"failed: {name}")
        print("\n".join(said.splitlines()[:12]), end="\n" if said else "")
    return holds


def same(name: str, got: str, wanted: str) -> bool:
    lines = difflib.unified_diff(wanted.splitlines(), got.splitlines(), "wanted", "got", lineterm="", n=1)
    return check(name, got == wanted, "\n".join(lines))


def stored(name: str, got: str, path: pathlib.Path) -> bool:
    """Compares a result with the one that is stored."""
    if os.environ.get("STORE") == "write":
        path.parent.mkdir(exist_ok=True)
        path.write_text(got, encoding="utf-8")
    return same(name, got, path.read_text(encoding="utf-8") if path.exists() else "")


def shown(readme: pathlib.Path, text: str) -> None:
    """Checks that the lines of a README's block are lines of a text, in their order, if the first is one."""
    lines, blocks = text.splitlines(), readme.read_text(encoding="utf-8").split("```")[1::2]
    for block in (it.strip("\n").splitlines() for it in blocks):
        if block and block[0] in lines:
            rest = iter(lines)
            check(f"{readme.name}: {block[0]} ..", all(line in rest for line in block), "\n".join(block))


def run(command: Sequence, timeout: int = 120, **options) -> Tuple[int, str]:
    """The status and the output of a command; of a status that isn't 0, with what went to the standard error."""
    done = subprocess.run([str(word) for word in command], capture_output=True, text=True, errors="replace", timeout=timeout, **options)
    return done.returncode, done.stdout + (done.stderr if done.returncode else "")


def does(name: str, command: Sequence, **options) -> str:
    """Checks that a command succeeds, and gives its output."""
    status, said = run(command, **options)
    check(name, status == 0, said)
    return said


def need(name: str, command: Sequence, **options) -> str:
    """The same for a command that the rest can't do without."""
    status, said = run(command, **options)
    if not check(name, status == 0, said):
        finish()
    return said


@contextlib.contextmanager
def room() -> Iterator[pathlib.Path]:
    """A folder for the time of a run."""
    with tempfile.TemporaryDirectory() as name:
        yield pathlib.Path(name)


def finish() -> None:
    print(f"{passed} passed, {failed} failed")
    raise SystemExit(1 if failed else 0)

