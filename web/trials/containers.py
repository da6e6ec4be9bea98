"""Containers that are written by hand, with what is known of them."""
import struct

#: Names that would do harm as markup or as part of a line.
MARKUP, SCRIPT, CONTROL = b"<b>x</b>", b"<img src=x onerror=alert(1)>", b"\x8e\x01&\"\\"


def hash_word(name):
    """The hash word of an exported name (Mac OS Runtime Architectures, "Hashing Export Names")."""
    pseudo = 0
    for byte in name:
        pseudo = ((pseudo << 1) - (pseudo >> 16)) ^ byte
    return len(name) << 16 | (pseudo ^ pseudo >> 16) & 0xFFFF


def section_header(name, total, unpacked, packed, at, kind, share, align):
    return struct.pack(">iIIIIIBBBB", name, 0, total, unpacked, packed, at, kind, share, align, 0)


#: Adds the address of section 0 to one word, and those of three imports to the next three.
PROGRAM = (0x4000, 0x4A02)


def container(program=PROGRAM):
    """A container of 372 bytes with three sections, a library, three imports, a relocation program and two exports."""
    strings = b"Lib\0" + MARKUP + b"\0" + CONTROL + b"\0" + b"plain\0" + SCRIPT + b"e2"
    names = [4, 13, 19, 25, 53]
    assert len(strings) == 55 and strings[names[3] : names[4]] == SCRIPT
    strings += b"\0"
    programs, texts = 104, 104 + 2 * len(program)
    table = texts + len(strings)
    loader = struct.pack(">iIiIiI", 1, 8, -1, 0, -1, 0) + struct.pack(">IIIIIIII", 1, 3, 1, programs, texts, table, 0, 2)
    loader += struct.pack(">iIIIIBBH", 0, 0x01006003, 0x01208001, 3, 0, 0x40, 0, 0)
    loader += struct.pack(">III", 0x02000000 | names[0], 0x81000000 | names[1], names[2])
    loader += struct.pack(">HHII", 1, 0, len(program), 0)
    loader += struct.pack(f">{len(program)}H", *program)
    loader += strings
    loader += struct.pack(">III", 2 << 18, hash_word(SCRIPT), hash_word(b"e2"))
    loader += struct.pack(">IIh", 0x02000000 | names[3], 8, 1) + struct.pack(">IIh", 0x01000000 | names[4], 77, -2)
    header = b"Joy!peffpwpc" + struct.pack(">IIIIIHHI", 1, 2082844800, 0x01008000, 0x01006003, 0x01208001, 3, 2, 0)
    header += section_header(0, 16, 16, 16, 144, 0, 4, 4)
    header += section_header(-1, 24, 16, 1, 160, 2, 1, 3)
    header += section_header(-1, 0, 0, len(loader), 176, 4, 4, 4)
    made = header + b"code\0" + bytes(15) + bytes(range(0x41, 0x51)) + b"\x10" + bytes(15) + loader
    assert program != PROGRAM or len(made) == 372
    return made


VERSION = {"current": 0x01208001, "current_text": "1.2f1"}
OLD_IMP = {"oldimp": 0x01006003, "oldimp_text": "1.0b3"}


def verdict(state="whole", needs=372, has=372, damaged=()):
    """A verdict, by the parts that are damaged."""
    parts = {part: "damaged" if part in damaged else "whole" for part in ("sections", "imports", "exports", "relocations")}
    return {"state": state, "needs": needs, "has": has, **parts, "as_text": False}


def known(base=0, has=372):
    """What is known of that container if it begins at an offset of a file, and has so many bytes."""
    return {
        "offset": base,
        "header": {
            "architecture": "pwpc", "format_version": 1, **VERSION, "olddef": 0x01008000, "olddef_text": "1.0", **OLD_IMP,
            "date": 2082844800, "date_text": "1970-01-01T00:00:00", "sections": 3, "instantiated": 2, "reserved": 0,
        },
        "sections": [
            {"offset": base + 40, "kind": 0, "kind_text": "code", "share": 4, "share_text": "global", "align": 4, "total": 16, "unpacked": 16, "packed": 16, "default": 0, "raw": base + 144, "name": "code"},
            {"offset": base + 68, "kind": 2, "kind_text": "pattern", "share": 1, "share_text": "process", "align": 3, "total": 24, "unpacked": 16, "packed": 1, "default": 0, "raw": base + 160, "name": None},
            {"offset": base + 96, "kind": 4, "kind_text": "loader", "share": 4, "share_text": "global", "align": 4, "total": 0, "unpacked": 0, "packed": 196, "default": 0, "raw": base + 176, "name": None},
        ],
        "loader": {"offset": base + 176, "libraries": 1, "imports": 3, "relocations": 1, "programs": 104, "strings": 108, "hash": 164, "power": 0, "exports": 2},
        "libraries": [{"offset": base + 232, "name": "Lib", **VERSION, **OLD_IMP, "options": 64, "first": 0, "count": 3}],
        "imports": [
            {"offset": base + 256, "name": "<b>x</b>", "library": 0, "class": 2, "class_text": "tvector", "weak": False},
            {"offset": base + 260, "name": "\u00e9\x01&\"\\", "name_hex": "8E0126225C", "library": 0, "class": 1, "class_text": "data", "weak": True},
            {"offset": base + 264, "name": "plain", "library": 0, "class": 0, "class_text": "code", "weak": False},
        ],
        "relocations": [{"offset": base + 268, "section": 1, "halfwords": 2, "first": 0, "instructions": [
            {"offset": base + 280, "code": "4000", "kind": "BySectC", "numbers": [1]},
            {"offset": base + 282, "code": "4A02", "kind": "ImportRun", "numbers": [3]},
        ]}],
        "exports": [
            {"offset": base + 352, "name": "<img src=x onerror=alert(1)>", "class": 2, "class_text": "tvector", "section": 1, "value": 8},
            {"offset": base + 362, "name": "e2", "class": 1, "class_text": "data", "section": -2, "value": 77},
        ],
        "entries": {"main": {"offset": base + 176, "section": 1, "value": 8}, "init": None, "term": None},
        "errors": [],
        "notes": [],
        "verdict": verdict(has=has),
    }


def trailing(at, length):
    """The note on bytes after the last part."""
    return {"number": 109, "name": "TrailingBytes", "part": "header", "row": 0, "field": None, "offset": at, "length": length}


def damaged():
    """The same container with an alignment of 40, a library's name past the end, and seven bytes after the last part, and what is known."""
    made = bytearray(container())
    made[40 + 26] = 40
    made[232:236] = struct.pack(">I", 5000)
    it = known()
    it["sections"][0]["align"] = 40
    it["libraries"][0]["name"] = None
    it["errors"] = [
        {"number": 9, "name": "BadAlignment", "part": "section", "row": 0, "field": 26, "offset": 66},
        {"number": 13, "name": "BadName", "part": "library", "row": 0, "field": 0, "offset": 232},
    ]
    it["notes"] = [trailing(372, 7)]
    it["verdict"] = verdict("damaged", has=379, damaged=("sections", "imports"))
    return bytes(made) + b"seven b", it


def counted():
    """The same container, in which also the loader section counts as instantiated, and what is known of it."""
    made = bytearray(container())
    made[34:36] = struct.pack(">H", 3)
    it = known()
    it["header"]["instantiated"] = 3
    it["errors"] = [
        {"number": 10, "name": "NoLoader", "part": "header", "row": 0, "field": None, "offset": 0},
        {"number": 7, "name": "BadSectionKind", "part": "section", "row": 2, "field": 24, "offset": 120},
    ]
    it["notes"] = [{"number": 116, "name": "SectionsOutOfOrder", "part": "header", "row": 0, "field": 34, "offset": 34, "sections": 2}]
    it["verdict"] = verdict("stub", damaged=("sections",))
    return bytes(made), it


def cut():
    """The first 100 bytes of it, which are the header and two section headers without their raw bytes, and what is known."""
    it = known()
    it.update(loader=None, libraries=[], imports=[], relocations=[], exports=[], entries={"main": None, "init": None, "term": None})
    it["sections"] = it["sections"][:2]
    it["sections"][0]["name"] = None
    it["errors"] = [
        {"number": 1, "name": "TooShort", "part": "header", "row": 0, "field": None, "offset": 0},
        {"number": 10, "name": "NoLoader", "part": "header", "row": 0, "field": None, "offset": 0},
        {"number": 6, "name": "SectionOutside", "part": "section", "row": 0, "field": 20, "offset": 60},
        {"number": 6, "name": "SectionOutside", "part": "section", "row": 1, "field": 20, "offset": 88},
    ]
    # The name of section 0 is past the end, too.
    it["notes"] = [{"number": 121, "name": "NameOutside", "part": "section", "row": 0, "field": 0, "offset": 40}]
    # Section 1 would end last of those whose header is there, at 161.
    it["verdict"] = verdict("cut", 161, 100, damaged=("sections", "imports", "exports", "relocations"))
    return container()[:100], it


def mac_binary(place=384):
    """A file in MacBinary I whose data fork is two times the container, with a table of fragments for the one at a place, and what is
    known of its containers and forks."""
    data = container() + bytes(12) + container()
    name = b"Two"
    member = b"pwpc" + bytes(4) + struct.pack(">IIIHBBII", 0x01208001, 0x01008000, 0, 0, 1, 1, place, 372)
    member += struct.pack(">IHHH", 0, 0, 0, 48) + b"\x04Calc" + b"\0"
    assert len(member) == 48
    table = bytes(10) + struct.pack(">H", 1) + bytes(18) + struct.pack(">H", 1) + member
    area = struct.pack(">I", len(table)) + table
    kinds = struct.pack(">H", 0) + b"cfrg" + struct.pack(">HH", 0, 10)
    reference = struct.pack(">hHI", 0, 0xFFFF, 0) + bytes(4)
    fork_map = bytes(24) + struct.pack(">HH", 28, 28 + len(kinds) + len(reference)) + kinds + reference
    fork = struct.pack(">IIII", 16, 16 + len(area), len(area), len(fork_map)) + area + fork_map
    header = b"\0" + bytes([len(name)]) + name.ljust(63, b"\0") + b"APPLTEST" + bytes(10)
    header += struct.pack(">II", len(data), len(fork)) + bytes(37)
    assert len(header) == 128
    pad = lambda part: part + bytes(-len(part) % 128)
    first = known(128, 756)
    # Between the two are 12 bytes. The data fork ends with the second.
    first["notes"] = [trailing(128 + 372, 12 + 372)]
    at = 128 + len(pad(data))
    forks = [{"kind": "data", "offset": 128, "length": 756}, {"kind": "resource", "offset": at, "length": len(fork)}]
    return header + pad(data) + pad(fork), [first, known(128 + 384)], forks


#: What a file of mac_binary says of itself.
SAID = {
    "name": "Two", "type": "APPL", "creator": "TEST", "flags": 0, "created": 0, "created_text": "1904-01-01T00:00:00", "modified": 0,
    "modified_text": "1904-01-01T00:00:00",
}
#: What a file in AppleDouble says of itself that has none of the entries for it.
NOT_SAID = dict.fromkeys(SAID)


def table_at(offset):
    """The resource with the table of fragments of a file of mac_binary, by the offset of its bytes."""
    return {"type": "cfrg", "id": 0, "name": None, "offset": offset, "length": 80, "attributes": 0}


def file_of(name, content, form, containers, mac=None, forks=(), resources=(), fragments=(), errors=(), notes=()):
    known = {"forks": list(forks), "mac": mac, "resources": list(resources), "fragments": list(fragments), "containers": containers}
    return {"file": name, "file_bytes": name.replace(" ", "%20"), "size": len(content), "format": form, **known, "errors": list(errors), "notes": list(notes)}


def fragment_of(table, offset, size, place):
    """What is known of the fragment of the table at an offset of the file."""
    return {
        "name": "Calc", "offset": offset, "size": size, "row": 0, "at": table + 32, "architecture": "pwpc", "usage": 1, "usage_text": "application", "where": 1, "where_text": "data", **VERSION,
        "olddef": 0x01008000, "olddef_text": "1.0", "level": 0, "stack": 0, "directory": 0, "place": place, "length": 372, "space": 0,
        "instance": 0, "extensions": 0,
    }


def loader(count, word, headers=b"", programs=b"", strings=b""):
    """A loader section with a library, many imports of the same word, and relocation headers of 12 bytes with their programs."""
    programs_at = 80 + 4 * count + len(headers)
    strings_at = programs_at + len(programs)
    made = struct.pack(">iIiIiI", -1, 0, -1, 0, -1, 0)
    made += struct.pack(">IIIIIIII", 1, count, len(headers) // 12, programs_at, strings_at, strings_at + len(strings), 0, 0)
    return made + struct.pack(">iIIIIBBH", 0, 0, 0, count, 0, 0x40, 0, 0) + struct.pack(">I", word) * count + headers + programs + strings


def slow():
    """A container of 64 megabytes that takes seconds: 200,000 imports share a name of a megabyte, and programs have millions of steps."""
    # A program that moves on by 16,777,212 bytes, one after the other, and two that add to the same 1,048,576 words.
    programs = struct.pack(">9H", 0x8000, 0x8000, 0x8000, 0x8000, 0xB0FF, 0xFFFE, 0x41FF, 0xB000, 0x07FF)
    headers = struct.pack(">HHII", 1, 0, 6, 0) + struct.pack(">HHII", 1, 0, 3, 12) * 2
    made = loader(200000, 0x82000000, headers, programs, b"\x8e" * (1 << 20) + bytes(5))
    data = 124 + len(made)
    size = (64 << 20) - data
    header = b"Joy!peffpwpc" + struct.pack(">IIIIIHHI", 1, 0, 0, 0, 0, 3, 2, 0) + section_header(-1, 0, 0, 0, 124, 0, 4, 4)
    header += section_header(-1, size, size, size, data, 1, 1, 4) + section_header(-1, 0, 0, len(made), 124, 4, 4, 4)
    return header + made + bytes(size)
