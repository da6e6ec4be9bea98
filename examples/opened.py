"""The files of a folder, and those in its archives and disks: what examples/inventory and examples/survey look at.

Archives are opened by `unar`, and disks of HFS by hfsutils, if these are installed. Each is opened in a temporary folder that goes
away, within limits. What leads outside of that folder, and what is no file, is left out. Nothing is written anywhere else.
"""
from __future__ import annotations

import argparse
import contextlib
import dataclasses
import json
import os
import pathlib
import re
import resource
import shutil
import signal
import stat
import subprocess
import tempfile
import time
import zlib
from typing import Any, Callable, Dict, Iterator, List, Optional, Tuple, Union

Read = Callable[[int, int], bytes]
Word = Union[str, bytes, pathlib.Path]
Entry = Dict[str, Any]
Files = List[Tuple[pathlib.Path, str]]

ARCHIVE, DISK = "archive", "disk"
PACKAGES = {"unar": "unar", "hmount": "hfsutils"}
# What one of the programs may allocate, and print.
MEMORY, PRINTED = 2 << 30, 64 << 20
MAC_BINARY_HEAD, DISK_COPY_HEAD, BLOCK = 128, 84, 512


@dataclasses.dataclass(frozen=True)
class Limits:
    """What one file of the folder may become, with all archives and disks in it, and how long its programs may run."""

    size: int = 1 << 30
    seconds: float = 300
    files: int = 100_000
    depth: int = 4


@dataclasses.dataclass(frozen=True)
class Form:
    """What an archive or a disk is, the program that opens it, and where in its file it is."""

    name: str
    program: Optional[str]
    offset: int = 0
    length: int = 0

    @property
    def inside(self) -> str:
        return ARCHIVE if self.program == "unar" else DISK


@dataclasses.dataclass(frozen=True)
class Found:
    """A file.

    `name` is its path in the folder. A path in an archive follows the path of the archive. `inside` says what the file is in, if it
    isn't in a folder. An archive or a disk has a `form`. If it `is_open`, its files follow, and it needn't be looked at itself.
    """

    path: pathlib.Path
    name: str
    inside: str = ""
    form: str = ""
    is_open: bool = False
    problems: Tuple[str, ...] = ()


def add_options(parser: argparse.ArgumentParser) -> None:
    usual = Limits()
    parser.add_argument("--size", type=int, default=usual.size, help=f"how many bytes an archive or a disk may become ({usual.size})")
    parser.add_argument("--seconds", type=float, default=usual.seconds, help=f"how long it may take to open one ({usual.seconds:.0f})")


def limits_of(words: argparse.Namespace) -> Limits:
    return Limits(size=words.size, seconds=words.seconds)


def shown(words: str) -> str:
    """A line without control characters and what isn't a character."""
    return "".join(it if it.isprintable() else f"\\x{ord(it) & 0xFF:02X}" for it in words)


def groups(folder: pathlib.Path, limits: Limits = Limits()) -> Iterator[List[Found]]:
    """The files of a folder, or a file alone, and those in archives and disks. Files of a group stay until the next one is asked for."""
    if folder.is_file():
        files = [(folder, folder.name)]
    else:
        files = [(it, str(it.relative_to(folder))) for it in sorted(folder.rglob("*")) if os.path.isfile(it)]
    yield from _looked_into(files, "", _Work(limits), 0)


def _looked_into(files: Files, inside: str, work: _Work, depth: int) -> Iterator[List[Found]]:
    forms = {path: form_of(path) for path, _ in files}
    yield [Found(path, name, inside) for path, name in files if forms[path] is None]
    for path, name in files:
        form = forms[path]
        if form is None:
            continue
        with tempfile.TemporaryDirectory() as room:
            # What is in an archive counts for the archive in the folder.
            own = work if depth else _Work(work.limits)
            inner = own.open(path, form, pathlib.Path(room), depth)
            yield [Found(path, name, inside, form.name, inner is not None, own.taken_problems())]
            if inner is not None:
                yield from _looked_into([(it, f"{name}/{below}") for it, below in inner], form.inside, own, depth + 1)


# --- what a file is ---


def form_of(path: pathlib.Path) -> Optional[Form]:
    """What an archive or a disk is, also if it is in MacBinary; None for all other files."""
    try:
        with open(path, "rb") as file:
            length = os.fstat(file.fileno()).st_size

            def read(at: int, count: int) -> bytes:
                file.seek(at)
                return file.read(count)

            return _form_at(read, 0, length)
    except OSError:
        return None


def _form_at(read: Read, start: int, length: int, wrapped: int = 0) -> Optional[Form]:
    def here(at: int, count: int) -> bytes:
        return read(start + at, max(0, min(count, length - at)))

    head = here(0, 4096)
    name = next((name for name, is_one in _ARCHIVES if is_one(head)), None)
    if name is None and _is_compact_pro(here, length):
        name = "Compact Pro archive"
    if name is not None:
        return Form(name, "unar", start, length)
    name = _disk_at(here)
    if name is not None:
        return Form(name, "hmount" if name == "HFS disk" else None, start, length)
    inner = _wrapped_in(head, length) if wrapped < 2 else None
    return _form_at(read, start + inner[0], inner[1], wrapped + 1) if inner else None


_BIN_HEX = re.compile(rb"\(This file must be converted with BinHex[^\r\n]*\)[\r\n]+:")
_ARCHIVES: List[Tuple[str, Callable[[bytes], bool]]] = [
    ("StuffIt archive", lambda head: head[:2] in (b"SI", b"ST") and head[10:14] == b"rLau"),
    ("StuffIt archive", lambda head: head.startswith((b"StuffIt (c)1997-", b"StuffIt!", b"StuffIt?"))),
    ("BinHex file", lambda head: _BIN_HEX.search(head) is not None),
    ("zip archive", lambda head: head.startswith(b"PK\3\4")),
    ("gzip file", lambda head: head.startswith(b"\x1F\x8B\x08")),
    ("tar archive", lambda head: head[257:262] == b"ustar"),
]


def _number(head: bytes, at: int, size: int = 4) -> int:
    return int.from_bytes(head[at : at + size], "big")


def _is_compact_pro(here: Read, length: int) -> bool:
    """Whether the CRC of the directory is right: its first byte alone says little."""
    head = here(0, 8)
    if len(head) < 8 or head[0] != 1 or _number(head, 4) + 7 > length:
        return False
    rows = here(_number(head, 4), 1 << 22)
    end = 7 + rows[6]
    for _ in range(_number(rows, 4, 2)):
        if end >= len(rows):
            return False
        name = rows[end]
        end += 1 + (name & 0x7F) + (2 if name & 0x80 else 45)
    return end <= len(rows) and zlib.crc32(rows[4:end]) ^ 0xFFFFFFFF == _number(rows, 0)


def _disk_at(here: Read) -> Optional[str]:
    volume = here(2 * BLOCK, BLOCK)
    block = _number(volume, 20)
    if volume[:2] == b"BD" and 0 < _number(volume, 36, 1) < 28 and block > 0 and block % BLOCK == 0:
        return "HFS Plus disk" if volume[124:126] == b"H+" else "HFS disk"
    if volume[:2] in (b"H+", b"HX") and _number(volume, 2, 2) in (4, 5):
        return "HFS Plus disk"
    return "HFS disk" if _partitions(here) else None


def _partitions(here: Read) -> int:
    """How many partitions of HFS a disk has."""
    rows = [here(number * BLOCK, BLOCK) for number in range(1, 1 + min(_number(here(BLOCK, BLOCK), 4), 64))]
    return sum(row[:2] == b"PM" and row[48:80].split(b"\0")[0] == b"Apple_HFS" for row in rows)


def _wrapped_in(head: bytes, length: int) -> Optional[Tuple[int, int]]:
    """Where the data fork of a MacBinary file is, or the disk of a Disk Copy file."""
    if len(head) < MAC_BINARY_HEAD:
        return None
    data = _number(head, 83)
    if head[0] == head[74] == head[82] == 0 and 0 < head[1] < 64 and 0 < data <= length - MAC_BINARY_HEAD:
        start = MAC_BINARY_HEAD + (_number(head, 120, 2) + 127) // 128 * 128
        return (start, data) if start + data <= length else None
    data = _number(head, 64)
    if 0 < head[0] < 64 and head[82:84] == b"\1\0" and 0 < data <= length - DISK_COPY_HEAD:
        return DISK_COPY_HEAD, data
    return None


# --- opening ---


class _Stopped(Exception):
    """A limit is passed. The text says which one."""


class _Work:
    """What is left of the limits of one file of the folder, and the problems that were met since they were last taken."""

    def __init__(self, limits: Limits):
        self.limits = limits
        self.size, self.seconds, self.files = limits.size, limits.seconds, limits.files
        self._problems: List[str] = []

    def taken_problems(self) -> Tuple[str, ...]:
        found, self._problems = self._problems, []
        return tuple(found)

    def open(self, path: pathlib.Path, form: Form, room: pathlib.Path, depth: int) -> Optional[Files]:
        """The files in an archive or a disk, each with its path there; None if it isn't opened."""
        if form.program is None:
            self._problems.append("no program here opens it: mount it, and name its folder")
        elif shutil.which(form.program) is None:
            self._problems.append(f"{PACKAGES[form.program]} would open it, and isn't installed")
        elif depth >= self.limits.depth:
            self._problems.append(f"it is inside {depth} others, and isn't opened")
        else:
            try:
                return (self._unpack if form.program == "unar" else self._copy_disk)(path, form, room)
            except _Stopped as stopped:
                self._problems.append(f"{stopped}, and isn't opened")
            except OSError as fault:
                self._problems.append(f"it isn't opened: {fault.strerror}")
        return None

    # Programs.

    def _list(self, command: List[Word], room: pathlib.Path) -> Tuple[int, bytes]:
        """The status of a program, and what it prints."""
        printed = room / "printed"
        return self._run(command, room, PRINTED, _Stopped("its listing is too long"), printed=printed), printed.read_bytes()

    def _make(self, command: List[Word], room: pathlib.Path, made: Optional[pathlib.Path] = None) -> int:
        """The status of a program that makes a file, or files in a folder."""
        return self._run(command, room, self.size, self._too_large(), made=made)

    def _run(
        self,
        command: List[Word],
        room: pathlib.Path,
        size: int,
        too_large: _Stopped,
        printed: Optional[pathlib.Path] = None,
        made: Optional[pathlib.Path] = None,
    ) -> int:
        """The status of a program. It is ended if a file that it writes has more than `size` bytes, or a folder passes the limits."""
        environment = {**os.environ, "HOME": str(room), "TMPDIR": str(room), "LC_ALL": "C.UTF-8"}
        begun = time.monotonic()
        with open(printed or os.devnull, "wb") as output:
            with subprocess.Popen(
                command,
                stdin=subprocess.DEVNULL,
                stdout=output,
                stderr=subprocess.DEVNULL,
                env=environment,
                cwd=room,
                start_new_session=True,
                preexec_fn=lambda: _bound(size),
            ) as program:
                try:
                    self._wait(program, begun, made)
                finally:
                    if program.poll() is None:
                        os.killpg(program.pid, signal.SIGKILL)
                    self.seconds -= time.monotonic() - begun
        if program.returncode == -signal.SIGXFSZ:
            raise too_large
        return program.returncode

    def _wait(self, program: subprocess.Popen[bytes], begun: float, made: Optional[pathlib.Path]) -> None:
        pause = 0.05
        while True:
            left = self.seconds - (time.monotonic() - begun)
            try:
                program.wait(max(0.0, min(pause, left)))
                return
            except subprocess.TimeoutExpired:
                if left <= pause:
                    raise _Stopped(f"it takes more than {self.limits.seconds:g} seconds") from None
            if made is not None:
                since = time.monotonic()
                self._test(*_measured(made))
                # Most of the time is left to the program.
                pause = max(0.05, 4 * (time.monotonic() - since))

    def _too_large(self) -> _Stopped:
        return _Stopped(f"it becomes more than {self.limits.size} bytes")

    def _test(self, size: int, files: int) -> None:
        if size > self.size:
            raise self._too_large()
        if files > self.files:
            raise _Stopped(f"it has more than {self.limits.files} files")

    def _take(self, size: int, files: int) -> None:
        self._test(size, files)
        self.size -= size
        self.files -= files

    # Archives.

    def _unpack(self, path: pathlib.Path, form: Form, room: pathlib.Path) -> Optional[Files]:
        folder = room / "files"
        folder.mkdir()
        archive = self._at_hand(path, form, room)
        entries = self._listed(archive, room)
        if entries is None:
            self._problems.append("unar can't open it")
            return None
        wanted = [it for it in entries if not _is_special(it) and not _leads_outside(it)]
        self._note("left out, since they are links or devices", sum(map(_is_special, entries)))
        self._note("left out, since their paths lead outside", sum(map(_leads_outside, entries)))
        sizes = [it.get("XADFileSize") for it in wanted]
        self._test(sum(it for it in sizes if isinstance(it, int) and it > 0), len(wanted))
        if not wanted:
            return []
        chosen = ["-i", *(str(it["XADIndex"]) for it in wanted)] if len(wanted) < len(entries) else []
        command = ["unar", "-q", "-nr", "-r", "-D", "-k", "visible", "-o", folder, archive, *chosen]
        if self._make(command, room, folder) != 0:
            self._problems.append("unar can't open all of it")
        files, others = _files_in(folder)
        self._note("left out, since they are no files", others)
        self._take(sum(it.lstat().st_size for it in files), len(files))
        return [(it, str(it.relative_to(folder))) for it in files]

    def _note(self, what: str, count: int) -> None:
        if count > 0:
            self._problems.append(f"{what}: {count}")

    def _at_hand(self, path: pathlib.Path, form: Form, room: pathlib.Path) -> pathlib.Path:
        """The archive under a name of plain characters, alone in a folder."""
        (room / "given").mkdir()
        here = room / "given" / re.sub("[^A-Za-z0-9.]", "_", path.name)[-100:]
        if form.offset == 0 and form.length == path.stat().st_size:
            here.symlink_to(path.resolve())
        else:
            self._copy_part(path, form, here)
        return here

    def _copy_part(self, path: pathlib.Path, form: Form, target: pathlib.Path) -> None:
        if form.length > self.size:
            raise _Stopped(f"it has more than {self.limits.size} bytes")
        with open(path, "rb") as source, open(target, "wb") as copy:
            source.seek(form.offset)
            left = form.length
            while left > 0:
                part = source.read(min(left, 1 << 20))
                if not part:
                    break
                copy.write(part)
                left -= len(part)

    def _listed(self, archive: pathlib.Path, room: pathlib.Path) -> Optional[List[Entry]]:
        """What lsar says of each file in an archive; None if it finds none and an error."""
        try:
            said = json.loads(self._list(["lsar", "-nr", "-ja", archive], room)[1])
        except ValueError:
            return None
        entries = said.get("lsarContents") or []
        return None if not entries and "lsarError" in said else entries

    # Disks.

    def _copy_disk(self, path: pathlib.Path, form: Form, room: pathlib.Path) -> Optional[Files]:
        """Copies the files of a disk in MacBinary. They come from a copy of the disk, since hmount may repair what it opens."""
        disk, found, mounted = room / "disk", [], False
        (room / "files").mkdir()
        self._copy_part(path, form, disk)
        with open(disk, "rb") as file:
            count = _partitions(lambda at, size: os.pread(file.fileno(), size, at))
        for number in range(1, count + 1) if count else [0]:
            if self._list(["hmount", disk, str(number)], room)[0] == 0:
                mounted = True
                found += self._copy_volume(room, f"{number}/" if count > 1 else "", len(found))
            else:
                self._problems.append("hmount can't open it" if count < 2 else f"hmount can't open partition {number} of it")
        return found if mounted else None

    def _copy_volume(self, room: pathlib.Path, prefix: str, first: int) -> Files:
        found: Files = []
        folders: List[Tuple[bytes, ...]] = [()]
        uncopied = 0
        while folders:
            names = folders.pop()
            for name, is_folder in self._folder(names, room):
                target = room / "files" / str(first + len(found))
                self._take(0, 1)
                if is_folder:
                    folders.append((*names, name))
                elif self._make(["hcopy", "-m", _hfs_path(*names, name), target], room) == 0 and target.is_file():
                    self._take(target.stat().st_size, 0)
                    text = "/".join(it.decode("mac_roman").replace("/", ":") for it in (*names, name))
                    found.append((target, prefix + text))
                else:
                    uncopied += 1
        self._note("hcopy can't copy all files of it", uncopied)
        return found

    def _folder(self, names: Tuple[bytes, ...], room: pathlib.Path) -> List[Tuple[bytes, bool]]:
        """The names in a folder of the mounted disk, and whether they are those of folders."""
        status, listing = self._list(["hls", "-a", "-1", "-U", "-Q", "-F", _hfs_path(*names, b"")], room)
        if status != 0:
            self._problems.append("hls can't list all of it")
        found = re.findall(rb'^"((?:[^"\\\n]|\\.)*)"(:?)', listing, re.M)
        return [(re.sub(rb"\\([0-7]{3}|.)", _unescaped, name), mark == b":") for name, mark in found]


_ESCAPES = {b"a": b"\a", b"b": b"\b", b"t": b"\t", b"n": b"\n", b"v": b"\v", b"f": b"\f", b"r": b"\r"}


def _unescaped(found: re.Match[bytes]) -> bytes:
    word = found[1]
    return bytes([int(word, 8) & 0xFF]) if len(word) == 3 else _ESCAPES.get(word, word)


def _hfs_path(*names: bytes) -> bytes:
    """A path from the root of the mounted disk, in which no character stands for others."""
    return b"".join(b":" + re.sub(rb"([*?\[\]{}\\])", rb"\\\1", name) for name in names)


def _bound(size: int) -> None:
    """Bounds the program that is about to run: the size of each file, and its memory. Not each system has each bound."""
    for what, most in ((resource.RLIMIT_FSIZE, size), (resource.RLIMIT_AS, MEMORY), (resource.RLIMIT_CORE, 0)):
        with contextlib.suppress(ValueError, OSError):
            hard = resource.getrlimit(what)[1]
            most = most if hard == resource.RLIM_INFINITY else min(most, hard)
            resource.setrlimit(what, (most, most))


def _is_special(entry: Entry) -> bool:
    return any(entry.get(f"XADIs{what}") for what in ("Link", "HardLink", "FIFO", "CharacterDevice", "BlockDevice"))


def _leads_outside(entry: Entry) -> bool:
    name = str(entry.get("XADFileName", ""))
    # A path of Windows may begin with the letter of a disk.
    return re.match("([A-Za-z]:)?/", name) is not None or ".." in name.split("/")


def _entries_of(folder: pathlib.Path) -> Iterator[os.DirEntry[str]]:
    """All that is in a folder and those below, without following a link."""
    folders = [str(folder)]
    while folders:
        with os.scandir(folders.pop()) as rows:
            for row in rows:
                yield row
                if row.is_dir(follow_symlinks=False):
                    folders.append(row.path)


def _measured(folder: pathlib.Path) -> Tuple[int, int]:
    """The size of what is in a folder, and how many. What goes or can't be read meanwhile isn't counted."""
    size = files = 0
    with contextlib.suppress(OSError):
        for row in _entries_of(folder):
            files += 1
            with contextlib.suppress(OSError):
                size += row.stat(follow_symlinks=False).st_size
    return size, files


def _files_in(folder: pathlib.Path) -> Tuple[List[pathlib.Path], int]:
    """The files in a folder, which are made readable, and how many other things are in it: links, and what is no file."""
    files, others = [], 0
    for row in _entries_of(folder):
        status = row.stat(follow_symlinks=False)
        if stat.S_ISDIR(status.st_mode):
            os.chmod(row.path, 0o700)
        elif stat.S_ISREG(status.st_mode) and status.st_nlink == 1:
            os.chmod(row.path, 0o600)
            files.append(pathlib.Path(row.path))
        else:
            others += 1
    return sorted(files), others
