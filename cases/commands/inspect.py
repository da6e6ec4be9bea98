"""`pef inspect` of files of each form, of lists of files, and of damaged containers. conformance/inspect has many more of those."""
from data import mac_files
from data.containers import STUB, VECTORS
from suite import Begins, Case, changed

OTHER = b"format other\ntotal containers 0 errors 0 notes 0\n"


def unread(path, why):
    """Returns the report on a file that can't be read, with the word for the reason."""
    return b"file %s\nerror 71 FileUnreadable reason %s\ntotal containers 0 errors 1 notes 0\n" % (path, why)


def unread_object(path, why):
    """The same as JSON. A path that isn't UTF-8 is no text."""
    text = b"null" if b"%" in path else b'"%s"' % path
    return (
        b'{"file":%s,"file_bytes":"%s","size":null,"format":null,"forks":[],"mac":null,"resources":[],"fragments":[],"containers":[],"errors":[{"number":71,"name":"FileUnreadable",'
        b'"part":null,"row":null,"field":null,"offset":null,"reason":"%s"}],"notes":[]}\n' % (text, path, why)
    )


# A header of AppleDouble that is cut, and one with version 3.
CUT = b"\x00\x05\x16\x07\x00\x02"
VERSION_3 = b"\x00\x05\x16\x07\x00\x03" + bytes(20)
# Where the resource fork of the file `a` would be looked for first, and a fork that would be found there.
BESIDE = {"._a": mac_files.FRAGMENT_FORK}

CASES = [
    Case("a file without bytes", ["inspect", "a"], {"a": b""}, stdout=b"file a size 0 " + OTHER),
    Case(
        "a file without containers as JSON", ["inspect", "--json", "a"], {"a": b"text"},
        stdout=b'{"file":"a","file_bytes":"a","size":4,"format":"other","forks":[],"mac":null,"resources":[],"fragments":[],"containers":[],"errors":[],"notes":[]}\n',
    ),
    Case(
        "a cut header of AppleDouble", ["inspect", "a"], {"a": CUT, **BESIDE}, status=1,
        stdout=b"file a size 6 format damaged\nerror 82 AppleHeaderCut fork\ntotal containers 0 errors 1 notes 0\n",
    ),
    Case(
        "a version of AppleDouble as JSON", ["inspect", "--json", "a"], {"a": VERSION_3, **BESIDE}, status=1,
        stdout=b'{"file":"a","file_bytes":"a","size":26,"format":"damaged","forks":[],"mac":null,"resources":[],"fragments":[],"containers":[],"errors":[{"number":83,'
        b'"name":"BadAppleVersion","part":"fork","row":null,"field":null,"offset":4}],"notes":[]}\n',
    ),
    Case(
        "a missing file and one after it", ["inspect", "missing", "a"], {"a": b"text"}, status=1,
        stdout=unread(b"missing", b"missing") + b"file a size 4 " + OTHER,
    ),
    Case(
        "a folder and a file after it", ["inspect", "a", "b"], {"a": None, "b": b"b"}, status=1,
        stdout=unread(b"a", b"folder") + b"file b size 1 " + OTHER,
    ),
    Case("the standard input", ["inspect", "-"], stdin=b"text", stdout=b"file - size 4 " + OTHER),
]

# Invalid command lines. `--resources` is for one file, which the command line names.
CASES += [
    Case(" ".join(["the words", *words]), words, {"a": b""}, stdout=b"usage\n", status=2,
         stderr=Begins(b"error: ", has=(b"\n\nFor more information, try '--help'.\n",)))
    for words in (
        ["inspect"],
        ["inspect", "--files0", "a"],
        ["inspect", "--jsonl", "a"],
        ["inspect", "--resources"],
        ["inspect", "--resources", "a"],
        ["inspect", "--resources", "a", "a", "a"],
        ["inspect", "--resources", "a", "--resources", "a", "a"],
        ["inspect", "--resources", "a", "--files0"],
    )
]

# A path as text in JSON: a space, a percent sign, a quotation mark, an accent, and a character with two units of UTF-16.
CASES.append(Case(
    "a path that is no plain word", ["inspect", "--json", 'a b%"\u00e9\U0001f600'], {'a b%"\u00e9\U0001f600': b""},
    stdout=b'{"file":"a b%\\"\\u00E9\\uD83D\\uDE00","file_bytes":"a%20b%25\\"%C3%A9%F0%9F%98%80","size":0,"format":"other","forks":[],"mac":null,'
    b'"resources":[],"fragments":[],"containers":[],"errors":[],"notes":[]}\n',
))

# Lists of files on the standard input, and what is printed. The last path needs no zero byte, and an empty path is no file.
CASES += [
    Case(f"the list {listed}", ["inspect", "--files0"], {"a": b"text"}, listed, printed, status=status)
    for listed, printed, status in (
        (b"", b"", 0),
        (b"a\0", b"file a size 4 " + OTHER, 0),
        (b"a\0\0a", b"file a size 4 " + OTHER + unread(b"", b"missing") + b"file a size 4 " + OTHER, 1),
    )
]

# As many paths as a command line may have, and one more.
MANY = 65_537
CASES.append(Case(
    f"a list of {MANY:,} paths", ["inspect", "--files0"], {}, MANY * b"n\0", stdout=MANY * unread(b"n", b"missing"), status=1,
))

# Paths that can't be read, and why, in text and JSON. The path C3 isn't UTF-8, so it can only come in a list.
CASES += [
    Case(f"an unread file in {form}: {path}, {why}", ["inspect", *json, "--files0"], {"a": b"text", "d": None, "link": "none", "shut": b""}, path + b"\0",
         stdout=printed(path.replace(b"\xC3", b"%C3"), why.encode()), status=1, closed=("shut",) if path == b"shut" else ())
    for path, why in ((b"none", "missing"), (b"a/b", "missing"), (b"link", "missing"), (b"d", "folder"), (b"shut", "forbidden"), (b"\xC3", "path"), (b"/dev/zero", "long"))
    for form, json, printed in (("text", [], unread), ("JSON", ["--json"], unread_object))
]
# The standard input has its own error, without a reason.
CASES.append(Case(
    "a folder as the standard input", ["inspect", "-"], stdin=".", status=1,
    stdout=b"file -\nerror 73 InputUnreadable\ntotal containers 0 errors 1 notes 0\n",
))

# A file in MacBinary with three fragments, none of which has a container: `Calc` for CFM-68K is all of the data fork at 128, `Calc` for
# PowerPC is at 136, and `Drv` is the resource at 712.
CASES.append(Case(
    "three fragments", ["inspect", "a"], {"a": mac_files.fragment_file(b""), **BESIDE}, status=1,
    stdout=b"""file a size 785 format macbinary
00000080 fork data size 264
00000200 fork resource size 273
mac name File type %00%00%00%00 creator %00%00%00%00 created 1904-01-01T00:00:00 modified 1904-01-01T00:00:00
00000214 resource cfrg 0 size 176 attributes 0
000002C8 resource ndrv 128 size 3 attributes 0
00000234 fragment 0 Calc architecture m68k usage 0 library where 1 data container 00000080 size 264 versions - - current 0 olddef 0 \
level 0 stack 0 directory 0 place 00000000 length 0 space 0 instance 0 extensions 0
00000264 fragment 1 Calc architecture pwpc usage 0 library where 1 data container 00000088 size 250 versions - - current 0 olddef 0 \
level 0 stack 0 directory 0 place 00000008 length 250 space 0 instance 0 extensions 0
00000294 fragment 2 Drv architecture pwpc usage 0 library where 2 resource container 000002C8 size 3 versions - - current 0 olddef 0 \
level 0 stack 0 directory 0 place 6E647276 length 128 space 0 instance 0 extensions 0
error 80 NoContainer fragment 0 at 00000234
error 80 NoContainer fragment 1 at 00000264
error 80 NoContainer fragment 2 at 00000294
total containers 0 errors 3 notes 0
""",
))

# Each container takes 8,406 from a budget of 67,108,864 and the length of the file. What isn't inspected makes the status 1.
CASES += [
    Case(f"{count} containers", ["inspect", "a"], {"a": VECTORS * count}, status=status, stdout=Begins(
        b"file a size %d format container\n" % (250 * count), (b"%stotal containers %d errors 0 notes %d\n" % (note, count, notes),),
    ))
    for count, status, note, notes in ((8228, 0, b"", 8227), (8300, 1, b"note 115 ContainersUnverified containers 70\n", 8231))
]

# The container is 16 bytes into the file. The code's raw bytes end past the end, over those of the other sections, and the program's
# section doesn't exist.
DAMAGED = {"a": bytes(16) + changed(VECTORS, (56, b"\x00\x00\x02\x00"), (216, b"\x00\x09\x00\x00"))}
# The loader header is cut, so its errors come after the sections, and no table is read.
CUT_LOADER = {"a": VECTORS[:200]}
CASES += [
    Case("a damaged container in a file", ["inspect", "a"], DAMAGED, status=1, stdout=b"""\
file a size 266 format other
00000010 container current 1 olddef 0 oldimp 0 date 0 versions - - - time 1904-01-01T00:00:00 sections 3 instantiated 2 architecture pwpc
00000038 section 0 kind 0 share 4 align 4 total 8 unpacked 8 packed 512 default 00000000 name - raw 00000090
error 6 SectionOutside section 0 containerOffset at 0000004C
00000054 section 1 kind 1 share 1 align 4 total 16 unpacked 16 packed 16 default 00000000 name - raw 000000A0
note 112 Overlap section 1 containerOffset at 00000068 length 16
00000070 section 2 kind 4 share 4 align 4 total 0 unpacked 0 packed 90 default 00000000 name - raw 000000B0
note 112 Overlap section 2 containerOffset at 00000084 length 90
000000B0 loader libraries 0 imports 0 relocs 1 programs 00000044 strings 00000046 hash 00000048 power 0 exports 1
000000B0 main 1 00000000
000000E8 reloc section 9 halfwords 1 first 0
error 17 BadRelocSection reloc 0 sectionIndex at 000000E8
000000F4 4601 TVector8 2
00000100 export go class 2 section 1 value 00000000
verdict cut needs 640 has 250 sections damaged imports whole exports whole relocations damaged
total containers 1 errors 2 notes 2
"""),
    Case("a cut loader header", ["inspect", "a"], CUT_LOADER, status=1, stdout=b"""\
file a size 200 format container
00000000 container current 1 olddef 0 oldimp 0 date 0 versions - - - time 1904-01-01T00:00:00 sections 3 instantiated 2 architecture pwpc
00000028 section 0 kind 0 share 4 align 4 total 8 unpacked 8 packed 8 default 00000000 name - raw 00000080
00000044 section 1 kind 1 share 1 align 4 total 16 unpacked 16 packed 16 default 00000000 name - raw 00000090
00000060 section 2 kind 4 share 4 align 4 total 0 unpacked 0 packed 90 default 00000000 name - raw 000000A0
error 6 SectionOutside section 2 containerOffset at 00000074
error 11 LoaderShort loader mainSection at 000000A0
verdict cut needs 250 has 200 sections damaged imports damaged exports damaged relocations damaged
total containers 1 errors 2 notes 0
"""),
    # The resource has those 200 bytes, and the map of 50 bytes follows: the container would end with it.
    Case("a resource with a cut container", ["inspect", "a"], {"a": mac_files.resource_fork(VECTORS[:200])}, status=1, stdout=b"""\
file a size 270 format resources
00000000 fork resource size 270
00000014 resource ndrv 1 size 200 attributes 0
00000014 container current 1 olddef 0 oldimp 0 date 0 versions - - - time 1904-01-01T00:00:00 sections 3 instantiated 2 architecture pwpc
0000003C section 0 kind 0 share 4 align 4 total 8 unpacked 8 packed 8 default 00000000 name - raw 00000094
00000058 section 1 kind 1 share 1 align 4 total 16 unpacked 16 packed 16 default 00000000 name - raw 000000A4
00000074 section 2 kind 4 share 4 align 4 total 0 unpacked 0 packed 90 default 00000000 name - raw 000000B4
error 6 SectionOutside section 2 containerOffset at 00000088
error 11 LoaderShort loader mainSection at 000000B4
verdict cut needs 250 has 200 sections damaged imports damaged exports damaged relocations damaged
total containers 1 errors 2 notes 0
"""),
]

# The state of a container, how many bytes it needs, and which of its parts are damaged: the architecture is at 8, the version of the
# format at 12, the alignment of section 0 at 66, and the section of the stub library's export 0 at 188.
M68K = changed(VECTORS, (8, b"m68k"))
UNLIKELY = changed(VECTORS, (8, b"text\0\0\0\2"))
PARTS = (b"sections", b"imports", b"exports", b"relocations")
CASES += [
    Case(f"the state {state.decode()} of {name}", ["inspect", "a"], {"a": file}, status=0 if state == b"whole" else 1, stdout=Begins(
        b"file a size %d format container\n" % len(file),
        (b"\nverdict %s needs %d has %d %s\n" % (state, needs, len(file), b" ".join(it + (b" damaged" if it in damaged else b" whole") for it in PARTS)),),
    ))
    for state, name, file, needs, damaged in (
        (b"whole", "a sound container", VECTORS, 250, ()),
        (b"m68k", "a container for CFM-68K", M68K, 250, ()),
        (b"damaged", "a damaged one", changed(M68K, (66, b"\x28")), 250, PARTS[:1]),
        (b"cut", "a cut one", M68K[:200], 250, PARTS),
        (b"stub", "a stub library", STUB, 236, PARTS[:1]),
        (b"damaged", "one with a damaged export", changed(STUB, (188, b"\0\2")), 236, (b"sections", b"exports")),
        (b"damaged", "a container of another version", changed(VECTORS, (15, b"\2")), 250, ()),
        (b"damaged", "one for CFM-68K of another version", changed(M68K, (15, b"\2")), 250, ()),
        (b"unlikely", "another architecture and version", UNLIKELY, 250, ()),
        (b"unlikely", "a part of such bytes", UNLIKELY[:200], 250, PARTS),
    )
]

# A version is written as such if its first four digits are decimal and its stage is known. currentVersion is at 28.
CASES += [
    Case(f"the version {number.hex()}", ["inspect", "a"], {"a": changed(VECTORS, (28, number))}, stdout=Begins(
        b"file a size 250 format container\n",
        (b"00000000 container current %d olddef 0 oldimp 0 date 0 versions %s - - time " % (int.from_bytes(number, "big"), text),),
    ))
    for number, text in (
        (b"\x01\x20\x60\x03", b"1.2b3"),
        (b"\x99\x99\x80\x00", b"99.9.9"),
        (b"\x99\x99\x80\xff", b"99.9.9f255"),
        (b"\xff\xff\x80\xff", b"-"),
        (b"\xa0\x00\x80\x00", b"-"),
        (b"\x0a\x00\x80\x00", b"-"),
        (b"\x00\xa0\x80\x00", b"-"),
        (b"\x00\x0a\x80\x00", b"-"),
        (b"\x01\x20\x61\x03", b"-"),
    )
]

# The same in JSON: the file up to its containers, a container up to its sections, a section without a name, and the end of the file.
JSON_FILE = '{"file":"a","file_bytes":"a","size":%d,"format":"%s","forks":[],"mac":null,"resources":[],"fragments":[],"containers":['
JSON_HEADER = (
    '{"offset":%d,"header":{"architecture":"pwpc","format_version":1,"current":1,"current_text":"-","olddef":0,"olddef_text":"-","oldimp":0,'
    '"oldimp_text":"-","date":0,"date_text":"1904-01-01T00:00:00","sections":3,"instantiated":2,"reserved":0},"sections":['
)
JSON_SECTION = (
    '{"offset":%d,"kind":%d,"kind_text":"%s","share":%d,"share_text":"%s","align":4,"total":%d,"unpacked":%d,"packed":%d,"default":0,"raw":%d,"name":null}'
)
JSON_END = '],"errors":[],"notes":[]}\n'
CASES += [
    Case(f"{name} as JSON", ["inspect", "--json", "a"], files, stdout="".join(text).encode(), status=1)
    for name, files, text in (
        ("a damaged container in a file", DAMAGED, (
            JSON_FILE % (266, "other"), JSON_HEADER % 16,
            JSON_SECTION % (56, 0, "code", 4, "global", 8, 8, 512, 144), ",",
            JSON_SECTION % (84, 1, "data", 1, "process", 16, 16, 16, 160), ",",
            JSON_SECTION % (112, 4, "loader", 4, "global", 0, 0, 90, 176), "],",
            '"loader":{"offset":176,"libraries":0,"imports":0,"relocations":1,"programs":68,"strings":70,"hash":72,"power":0,"exports":1},',
            '"libraries":[],"imports":[],"relocations":[{"offset":232,"section":9,"halfwords":1,"first":0,',
            '"instructions":[{"offset":244,"code":"4601","kind":"TVector8","numbers":[2]}]}],',
            '"exports":[{"offset":256,"name":"go","class":2,"class_text":"tvector","section":1,"value":0}],',
            '"entries":{"main":{"offset":176,"section":1,"value":0},"init":null,"term":null},',
            '"errors":[{"number":6,"name":"SectionOutside","part":"section","row":0,"field":20,"offset":76},',
            '{"number":17,"name":"BadRelocSection","part":"relocation","row":0,"field":0,"offset":232}],',
            '"notes":[{"number":112,"name":"Overlap","part":"section","row":1,"field":20,"offset":104,"length":16},',
            '{"number":112,"name":"Overlap","part":"section","row":2,"field":20,"offset":132,"length":90}],',
            '"verdict":{"state":"cut","needs":640,"has":250,"sections":"damaged","imports":"whole","exports":"whole",',
            '"relocations":"damaged","as_text":false}}',
            JSON_END,
        )),
        ("a cut loader header", CUT_LOADER, (
            JSON_FILE % (200, "container"), JSON_HEADER % 0,
            JSON_SECTION % (40, 0, "code", 4, "global", 8, 8, 8, 128), ",",
            JSON_SECTION % (68, 1, "data", 1, "process", 16, 16, 16, 144), ",",
            JSON_SECTION % (96, 4, "loader", 4, "global", 0, 0, 90, 160), "],",
            '"loader":null,"libraries":[],"imports":[],"relocations":[],"exports":[],"entries":{"main":null,"init":null,"term":null},',
            '"errors":[{"number":6,"name":"SectionOutside","part":"section","row":2,"field":20,"offset":116},',
            '{"number":11,"name":"LoaderShort","part":"loader","row":0,"field":0,"offset":160}],"notes":[],',
            '"verdict":{"state":"cut","needs":250,"has":200,"sections":"damaged","imports":"damaged","exports":"damaged",',
            '"relocations":"damaged","as_text":false}}',
            JSON_END,
        )),
    )
]


def named(offset, letters, end=b""):
    """Returns a file with letters after the container, and the offset of the name of section 0 in the section name table, at 124."""
    return {"a": changed(VECTORS, (40, offset.to_bytes(4, "big"))) + letters * b"a" + end}


# What is printed before the name of section 0.
TEXT_TO_NAME = """\
file a size %d format container
00000000 container current 1 olddef 0 oldimp 0 date 0 versions - - - time 1904-01-01T00:00:00 sections 3 instantiated 2 architecture pwpc
00000028 section 0 kind 0 share 4 align 4 total 8 unpacked 8 packed 8 default 00000000 name """
JSON_TO_NAME = JSON_FILE + JSON_HEADER % 0 + (JSON_SECTION % (40, 0, "code", 4, "global", 8, 8, 8, 128)).removesuffix("null}")

# An empty name has its column, and `?` isn't shown like a name that can't be read.
CASES += [
    Case(f"the name of a section, {name}", ["inspect", "a"], files, stdout=Begins((TEXT_TO_NAME % size + shown + " raw 00000080\n").encode()))
    for name, files, size, shown in (("empty", named(126, 0, b"\0"), 251, "%-"), ("a question mark", named(126, 0, b"?\0"), 252, "%3F"))
]
# The name of the export is at 230, and its length at 237.
CASES += [
    Case(f"the name of an export, {name}", ["inspect", "a"], {"a": changed(VECTORS, *changes)}, stdout=Begins(
        b"file a size 250 format container\n", (b"\n000000F0 export %s class 2 section 1 value 00000000\n" % shown,),
    ))
    for name, changes, shown in (("empty", ((237, b"\x00"),), b"%-"), ("a question mark", ((230, b"?"), (237, b"\x01")), b"%3F"))
]

# Names with a zero byte after so many letters. Of a long one the first 1,024 are printed, and its length if it is at most 4,096.
for letters, text, json in (
    (1024, "", ""),
    (1025, "%..", ',"name_length":1025'),
    (4096, "%..", ',"name_length":4096'),
    (4097, "%..", ',"name_length":null'),
):
    files, size, shown = named(126, letters, b"\0"), 250 + letters + 1, 1024 * "a"
    begins = TEXT_TO_NAME % size + shown + text + " raw 00000080\n"
    CASES.append(Case(f"a name of {letters} letters", ["inspect", "a"], files, stdout=Begins(begins.encode())))
    begins = JSON_TO_NAME % (size, "container") + '"' + shown + '"' + json + "},"
    CASES.append(Case(f"a name of {letters} letters as JSON", ["inspect", "--json", "a"], files, stdout=Begins(begins.encode())))

# Names that end with no zero byte, or begin past the end, are none.
CASES += [
    Case(f"{letters} letters and no name at {offset}", ["inspect", "--json", "a"], named(offset, letters),
         stdout=Begins((JSON_TO_NAME % (250 + letters, "container") + "null},").encode()))
    for offset, letters in ((126, 1), (126, 4096), (126, 4097), (126, 5000), (200, 4), (0x7FFFFFFF, 4))
]
