/*
 * libpef: a linker, lister, reader and loader for PEF containers, the executable format of the classic Mac OS on PowerPC.
 *
 * Build it by tools/build-library, and link with out/libpef.a or out/libpef.so. It needs nothing but the C library.
 *
 * Every call returns a number: PEF_OK; or that of a refusal, below 200; or one of the library's own, from 200 on.
 * docs/ERRORS.md explains the refusals; pef_name() gives their names, and pef_help() a sentence or two on each. Only the
 * first refusal is reported, except by pef_findings().
 *
 * What every call asks of its caller:
 *
 * - No pointer is null, but one with a length of 0 may be: such bytes, names, buffers and places are none.
 * - A pointer with a length points to at least that many bytes, which nobody else changes during the call.
 * - What a call fills, it fills whatever was there: structs may come as zero bytes, or not initialized. What a call leaves
 *   unchanged keeps the bytes that it had. Only a struct pef_context, a struct pef_listing and a struct pef_report have to start as
 *   zero bytes.
 * - What a call writes overlaps nothing else that it takes.
 * - A context, a listing or a report is used by one thread at a time; but several may read a context at once, by the calls that take a
 *   `const struct pef_context *`. Apart from that, several threads may make calls at once: the library has no state outside of contexts,
 *   listings and reports.
 * - A thread that makes calls has 64 KB of stack for them, and 160 KB for those whose names begin with pef_report_open. No call
 *   takes more, whatever it reads.
 * - No call is made from a signal handler.
 * - malloc, realloc and free are those of the C library, or others whose blocks are aligned to 16 bytes.
 *
 * A program that was compiled with an older header runs over a later library of the same name, libpef.so.0: structs keep their size, and
 * fields their place. A new field takes bytes that were padding, in a struct that the library fills; a struct that has to be longer is a new
 * one, with calls of its own. So a program with a newer header runs over an earlier library, too, if that has its calls. But a field that
 * the library doesn't know may hold anything: pef_version() says which library it is.
 *
 * What is borrowed is read during the call only, unless a call says that a result points into it. Then the bytes have to
 * stay, unchanged, while the result is used. What pef_add() takes has to stay until pef_free() of that context returns, or until
 * pef_open() of it, which frees it first. What pef_list_open() takes has to stay until pef_list_free() of that listing returns, or
 * until pef_list_open() of it. Nothing that the library gives has to be freed, except for a context, a listing and a report.
 */
#ifndef PEF_H
#define PEF_H

#include <stdbool.h>
#include <stddef.h>
#include <stdint.h>

#ifdef __cplusplus
extern "C" {
#endif

/* The version of this header. */
#define PEF_VERSION_MAJOR 0
#define PEF_VERSION_MINOR 1
#define PEF_VERSION_PATCH 0
#define PEF_VERSION "0.1.0"

/* The same as one number, to be compared with pef_version(). */
#define PEF_VERSION_NUMBER (PEF_VERSION_MAJOR << 16 | PEF_VERSION_MINOR << 8 | PEF_VERSION_PATCH)

/*
 * A length, a count or an offset in a struct or behind a pointer: a size_t on machines with addresses of 64 bits. On those with 32 bits it
 * has 64 bits as well, and PEF_WIDE puts a field at a multiple of 8 bytes. So a struct has the same layout on every machine.
 */
#if SIZE_MAX > 0xFFFFFFFF
#define PEF_WIDE
typedef size_t pef_size;
#elif defined(_MSC_VER)
#define PEF_WIDE __declspec(align(8))
typedef PEF_WIDE uint64_t pef_size;
#else
#define PEF_WIDE __attribute__((aligned(8)))
typedef PEF_WIDE uint64_t pef_size;
#endif

/* Bytes that somebody else owns. They have no zero byte at their end. */
struct pef_bytes {
    const uint8_t *at;
    pef_size length;
};

/* No bytes, at a place that isn't null: struct pef_bytes name = PEF_NO_BYTES; */
#ifdef __cplusplus
#define PEF_NO_BYTES {reinterpret_cast<const uint8_t *>(""), 0}
#else
#define PEF_NO_BYTES {(const uint8_t *)"", 0}
#endif

/* The call did what it says. */
#define PEF_OK 0

/* Written by tools/declarations from docs/errors.table: */

/* The container is refused. */
#define PEF_TOO_SHORT 1
#define PEF_BAD_TAG 2
#define PEF_BAD_ARCHITECTURE 3
#define PEF_BAD_FORMAT_VERSION 4
#define PEF_BAD_SECTION_COUNTS 5
#define PEF_SECTION_OUTSIDE 6
#define PEF_BAD_SECTION_KIND 7
#define PEF_BAD_SIZES 8
#define PEF_BAD_ALIGNMENT 9
#define PEF_NO_LOADER 10

/* Its loader section is refused. */
#define PEF_LOADER_SHORT 11
#define PEF_BAD_TABLE_OFFSET 12
#define PEF_BAD_NAME 13
#define PEF_BAD_LIBRARY_RANGE 14
#define PEF_ORPHAN_IMPORT 15
#define PEF_BAD_ENTRY 16
#define PEF_BAD_RELOC_SECTION 17
#define PEF_RELOC_OUTSIDE 18
#define PEF_BAD_EXPORT_TABLE 19
#define PEF_BAD_EXPORT_SECTION 20

/* Packed data is refused. */
#define PEF_PACKED_TRUNCATED 21
#define PEF_PACKED_BAD_OPCODE 22
#define PEF_PACKED_COUNT_TOO_LARGE 23
#define PEF_PACKED_TOO_LONG 24
#define PEF_PACKED_TOO_SHORT 25

/* A relocation program is refused. */
#define PEF_RELOC_BAD_OPCODE 31
#define PEF_RELOC_CUT_INSTRUCTION 32
#define PEF_RELOC_REPEAT_TOO_FAR 33
#define PEF_RELOC_REPEAT_CUTS 34
#define PEF_RELOC_NESTED_REPEAT 35
#define PEF_RELOC_TOO_MANY_STEPS 36
#define PEF_RELOC_WORD_OUTSIDE 37
#define PEF_RELOC_IMPORT_OUTSIDE 38
#define PEF_RELOC_SECTION_OUTSIDE 39

/* A line of a script is refused. */
#define PEF_SCRIPT_BAD_LINE 41
#define PEF_SCRIPT_BAD_NUMBER 42
#define PEF_SCRIPT_UNKNOWN_NAME 43
#define PEF_SCRIPT_REPEATED_NAME 44
#define PEF_SCRIPT_OUT_OF_ORDER 45
#define PEF_SCRIPT_OVERLAP 46
#define PEF_SCRIPT_OUTSIDE_SECTION 47
#define PEF_SCRIPT_TOO_MANY 48
#define PEF_SCRIPT_BAD_KIND 49

/* A fragment isn't prepared, or a connection isn't closed. */
#define PEF_ROOT_MISSING 60
#define PEF_LIBRARY_MISSING 61
#define PEF_SYMBOL_MISSING 62
#define PEF_IMPLEMENTATION_TOO_OLD 63
#define PEF_IMPLEMENTATION_TOO_NEW 64
#define PEF_REEXPORT_LOOP 65
#define PEF_INIT_LOOP 66
#define PEF_NO_ROOM 67
#define PEF_BAD_CONNECTION 68
#define PEF_TOO_MANY_CONNECTIONS 69
#define PEF_TOO_MANY_STEPS_IN_ALL 70
#define PEF_TOO_MANY_BYTES 75

/* A file of the classic Mac OS has no container with this name or number, or a part of it is damaged. */
#define PEF_DATA_FORK_CUT 76
#define PEF_RESOURCE_FORK_CUT 77
#define PEF_COMMENT_CUT 78
#define PEF_NO_CONTAINER 80
#define PEF_BAD_MAC_BINARY_CRC 81
#define PEF_APPLE_HEADER_CUT 82
#define PEF_BAD_APPLE_VERSION 83
#define PEF_APPLE_ENTRY_CUT 84
#define PEF_APPLE_ENTRY_OUTSIDE 85
#define PEF_APPLE_ENTRY_SHORT 86
#define PEF_RESOURCE_MAP_OUTSIDE 87
#define PEF_BAD_TYPE_LIST 88
#define PEF_RESOURCE_TYPE_CUT 89
#define PEF_TOO_MANY_REFERENCES 90
#define PEF_REFERENCE_CUT 91
#define PEF_RESOURCE_NAME_CUT 92
#define PEF_RESOURCE_DATA_OUTSIDE 93
#define PEF_FRAGMENT_TABLE_CUT 94
#define PEF_BAD_FRAGMENT_TABLE 95
#define PEF_MEMBER_CUT 96
#define PEF_MEMBER_NAME_CUT 97
#define PEF_FRAGMENT_OUTSIDE 98

/* An allocation failed. */
#define PEF_OUT_OF_MEMORY 99

/* Notes: oddities that break no rule. No call returns them; findings and reports have them. */
#define PEF_NOTE_RESERVED_NOT_ZERO 101
#define PEF_NOTE_UNKNOWN_KIND 102
#define PEF_NOTE_UNKNOWN_SHARE 103
#define PEF_NOTE_VERSION_BELOW_OLDEST 104
#define PEF_NOTE_ENTRY_OUTSIDE 105
#define PEF_NOTE_EXPORT_OUTSIDE 106
#define PEF_NOTE_WORD_OUTSIDE_IMAGE 107
#define PEF_NOTE_IRREGULAR_EXPORTS 108
#define PEF_NOTE_TRAILING_BYTES 109
#define PEF_NOTE_PROGRAMS_UNVERIFIED 110
#define PEF_NOTE_IMAGES_UNVERIFIED 111
#define PEF_NOTE_OVERLAP 112
#define PEF_NOTE_UNOWNED_BYTES 113
#define PEF_NOTE_WORD_RELOCATED_TWICE 114
#define PEF_NOTE_CONTAINERS_UNVERIFIED 115
#define PEF_NOTE_SECTIONS_OUT_OF_ORDER 116
#define PEF_NOTE_BYTES_AFTER_FORKS 117
#define PEF_NOTE_FRAGMENT_SHORT 118
#define PEF_NOTE_DATA_FORK_ELSEWHERE 119
#define PEF_NOTE_NOT_UNPACKED 120
#define PEF_NOTE_NAME_OUTSIDE 121
#define PEF_NOTE_FRAGMENT_ARCHITECTURE 122
#define PEF_NOTE_FRAGMENT_USAGE 123
#define PEF_NOTE_TEXT_DAMAGE 124
#define PEF_NOTE_ZERO_ROWS 125

/* Only this library returns these: the caller's buffer is too small; there is no such thing; the context isn't open; a
 * fragment of an open connection was prepared without the weak library that is added; the context has as many fragments
 * as it may; the granule is none; the options have another size; the fragment is present; a fragment of an open
 * connection names it as a library; a fragment has the name already; there are more or fewer addresses than new
 * sections; no container can export so many symbols, or a name of this length, or so many bytes of names; a number of a
 * stub has more than 32 bits; a stub in memory can't have this name, or so many bytes. */
#define PEF_ROOM_TOO_SMALL 200
#define PEF_NOT_THERE 201
#define PEF_NOT_OPEN 202
#define PEF_ADDED_TOO_LATE 203
#define PEF_STORE_FULL 204
#define PEF_BAD_GRANULE 205
#define PEF_BAD_OPTIONS 206
#define PEF_STILL_PRESENT 207
#define PEF_STILL_NAMED 208
#define PEF_NAME_TAKEN 209
#define PEF_WRONG_ADDRESS_COUNT 210
#define PEF_TOO_MANY_SYMBOLS 211
#define PEF_LONG_NAME 212
#define PEF_TOO_MANY_NAME_BYTES 213
#define PEF_PAST_LAST_NUMBER 214
#define PEF_UNSPELLABLE_NAME 215
#define PEF_TOO_MANY_STUB_BYTES 216

/* The end of what is written. */

/* How many fragments a context has at most at a time, and how many connections it gives if no other number was asked for, closed ones
 * included. */
#define PEF_MAX_FRAGMENTS 256
#define PEF_MAX_CONNECTIONS 65536

/* Section kinds. PEF_KIND_PACKED is pattern-initialized data, which pef_expand() expands. */
#define PEF_KIND_CODE 0
#define PEF_KIND_DATA 1
#define PEF_KIND_PACKED 2
#define PEF_KIND_CONSTANT 3
#define PEF_KIND_LOADER 4
#define PEF_KIND_DEBUG 5
#define PEF_KIND_EXECUTABLE_DATA 6
#define PEF_KIND_EXCEPTION 7
#define PEF_KIND_TRACEBACK 8

/* How instances of a section are shared. */
#define PEF_SHARE_PROCESS 1
#define PEF_SHARE_GLOBAL 4
#define PEF_SHARE_PROTECTED 5

/* Classes of symbols. */
#define PEF_CLASS_CODE 0
#define PEF_CLASS_DATA 1
#define PEF_CLASS_TVECTOR 2
#define PEF_CLASS_TOC 3
#define PEF_CLASS_GLUE 4

/* The section of an entry that isn't there. */
#define PEF_NO_ENTRY (-1)

/* Sections of exports that are no section: an absolute value, and an import that is passed on, by its number. */
#define PEF_ABSOLUTE (-2)
#define PEF_REEXPORT (-3)

/* Options of a library. */
#define PEF_LIBRARY_WEAK 0x40
#define PEF_LIBRARY_INIT_BEFORE 0x80

/*
 * Links a script: writes its container to the front of `buffer`.
 *
 * Returns PEF_OK, and stores the container's length in `*written`; or PEF_ROOM_TOO_SMALL, and stores the length that is
 * needed in `*written`; or the script's first refusal, 41 to 49, and stores the number of its line in `*line`, counted
 * from 1; or PEF_OUT_OF_MEMORY. `*line` is 0 in all other cases. Unless PEF_OK is returned, `buffer` is left unchanged;
 * and after a refusal `*written` is too.
 *
 * The container has a shortest relocation program without repeats for each section, so linking is more work than reading.
 * To know the length first, a call with a small buffer does all of that work.
 */
uint32_t pef_link(const uint8_t *script, size_t script_length, uint8_t *buffer, size_t buffer_length, pef_size *written, pef_size *line);

/*
 * Gives the certificates of a script: writes the lines that `pef distances` prints to the front of `buffer`, with no zero byte at their
 * end. Each certificate has the relocation program that pef_link() writes for a section, and proves that no program without repeats is
 * shorter.
 *
 * Returns PEF_OK, and stores the length of the lines in `*written`; or PEF_ROOM_TOO_SMALL, and stores the length that is needed in
 * `*written`; or the script's first refusal with its line, or PEF_OUT_OF_MEMORY, as pef_link() does. `*line`, `buffer` and `*written`
 * are changed and left unchanged as by pef_link().
 *
 * This is as much work as linking, and a call with a small buffer does all of it. The lines can be far longer than the container.
 */
uint32_t pef_distances(const uint8_t *script, size_t script_length, uint8_t *buffer, size_t buffer_length, pef_size *written, pef_size *line);

/*
 * Lists a container: writes the lines that `pef list` prints to the front of `buffer`, with no zero byte at their end.
 *
 * Returns PEF_OK, and stores the length of the lines in `*written`; or PEF_ROOM_TOO_SMALL, and stores the length that is
 * needed in `*written`; or the first refusal, 1 to 20 or 31 to 36; or PEF_OUT_OF_MEMORY, if there is none. Unless PEF_OK is
 * returned, `buffer` is left unchanged; and after a refusal `*written` is too.
 */
uint32_t pef_list(const uint8_t *container, size_t container_length, uint8_t *buffer, size_t buffer_length, pef_size *written);

/*
 * A listing that is read part by part. It starts as zero bytes:
 *
 *     struct pef_listing listing = PEF_NO_LISTING;
 *
 * Only the three calls below change it, and it isn't copied. Several listings may be open at once.
 */
struct pef_listing {
    void *handle;
    PEF_WIDE bool is_open;
};

/* No listing, which are zero bytes: struct pef_listing listing = PEF_NO_LISTING; */
#define PEF_NO_LISTING {NULL, false}

/*
 * Opens the listing of a container, to be read by pef_list_next(). A listing that is open already is freed first.
 *
 * `container` is kept, not copied: it has to stay, unchanged, until pef_list_free() of this listing returns.
 *
 * Returns PEF_OK; or the first refusal, 1 to 20 or 31 to 36, or PEF_OUT_OF_MEMORY if there is none, and then the listing isn't open.
 */
uint32_t pef_list_open(struct pef_listing *listing, const uint8_t *container, size_t container_length);

/*
 * Writes the next bytes of the lines that `pef list` prints to the front of `buffer`, as many as fit. Each line is made once,
 * whatever the size of the buffer, and the listing keeps no more of them in memory than a buffer, a few kilobytes and a line. A
 * buffer of 64 KB is fastest: larger ones leave the processor's cache.
 *
 * Returns PEF_OK, and stores the number of bytes in `*written`: it is less than `buffer_length` only at the end of the lines, and
 * 0 after it. Or returns PEF_NOT_OPEN, if the listing isn't open; or PEF_OUT_OF_MEMORY, and then the next call goes on where
 * this one began. After both `buffer` and `*written` are left unchanged.
 */
uint32_t pef_list_next(struct pef_listing *listing, uint8_t *buffer, size_t buffer_length, pef_size *written);

/*
 * Frees a listing. It may be opened again. A listing that isn't open stays as it is, so one may be freed twice.
 *
 * A program that includes this header may also free NULL, which does nothing.
 */
void pef_list_free(struct pef_listing *listing);

static inline void pef_list_free_unless_null(struct pef_listing *listing)
{
    if (listing != NULL)
        pef_list_free(listing);
}
#define pef_list_free pef_list_free_unless_null

/*
 * Gives the name of a number that a call returned or of a note, as "BadTag". PEF_OK has none.
 *
 * Returns PEF_OK, and stores the name in `*name`: it is valid until the program ends. Or returns PEF_NOT_THERE, if nothing
 * has the number, and leaves `*name` unchanged.
 */
uint32_t pef_name(uint32_t number, struct pef_bytes *name);

/*
 * Gives one or two sentences of ASCII on a number that a call returned or on a note: what it means, and what to do.
 *
 * Returns and stores as pef_name() does: each number that has a name has help.
 */
uint32_t pef_help(uint32_t number, struct pef_bytes *help);

/*
 * Where an error is. docs/ERRORS.md says what each error is about.
 *
 * `part` is one of the numbers below. `row` is the number of the part among those of its kind, from 0: of a section, say, or an
 * import. Packed data has the number of its section, a program that of its relocation header. A line counts from 1. `field` is the
 * offset of the field in the part, as PEFBinaryFormat.h has the part; in packed data and in programs the offset of the
 * instruction; in a line the number of the word, from 0. `offset` is where that field, instruction or word begins in the container
 * or the text.
 */
struct pef_place {
    uint32_t part;
    pef_size row;
    pef_size field;
    pef_size offset;
};

/* An error that is at no place has PEF_NOWHERE and PEF_NO_OFFSET. */
#define PEF_NOWHERE 0
#define PEF_CONTAINER_HEADER_PART 1
#define PEF_SECTION_PART 2
#define PEF_LOADER_HEADER_PART 3
#define PEF_LIBRARY_PART 4
#define PEF_IMPORT_PART 5
#define PEF_MAIN_PART 6
#define PEF_INIT_PART 7
#define PEF_TERM_PART 8
#define PEF_RELOCATION_PART 9
#define PEF_EXPORT_PART 10
#define PEF_PACKED_DATA_PART 11
#define PEF_PROGRAM_PART 12
#define PEF_LINE_PART 13

/* The offset of what has none. */
#define PEF_NO_OFFSET UINT64_MAX

/*
 * Finds the first error of a container, in the order in which pef_list() reports them. Every call that reads a container reports
 * it, if it gets so far. It allocates nothing.
 *
 * Returns PEF_OK if there is none, and stores no place in `*place`. Or returns the error, 1 to 20 or 31 to 36, and stores its
 * place.
 */
uint32_t pef_container_place(const uint8_t *container, size_t container_length, struct pef_place *place);

/*
 * Finds the first error of a script.
 *
 * Returns PEF_OK if there is none; or the error, 41 to 49, and stores the place of the word in `*place`, and in `*earlier` the number
 * of the earlier line that the error is about, or 0: for PEF_SCRIPT_OVERLAP the line whose word is overlapped, for PEF_SCRIPT_OUT_OF_ORDER the
 * line that must not come first, for PEF_SCRIPT_REPEATED_NAME the line that has the name, and for PEF_SCRIPT_UNKNOWN_NAME a line that declares
 * nearly the name. Or returns PEF_OUT_OF_MEMORY. In all other cases it stores no place, and 0.
 */
uint32_t pef_script_place(const uint8_t *script, size_t script_length, struct pef_place *place, pef_size *earlier);

/*
 * What the detail of an error or a note is: nothing, and 0; the offset of a relocated word in its section; a number of bytes; or a number
 * of sections.
 */
#define PEF_DETAIL_NONE 0
#define PEF_DETAIL_WORD 1
#define PEF_DETAIL_LENGTH 2
#define PEF_DETAIL_SECTIONS 3

/*
 * An error of a container, or a note on it, and where it is. Errors have numbers below 100, notes from 101 on.
 *
 * `detail_kind` says what `detail` is. PEF_RELOC_WORD_OUTSIDE, PEF_RELOC_IMPORT_OUTSIDE, PEF_RELOC_SECTION_OUTSIDE,
 * PEF_NOTE_WORD_OUTSIDE_IMAGE and PEF_NOTE_WORD_RELOCATED_TWICE have a PEF_DETAIL_WORD; PEF_NOTE_TRAILING_BYTES, PEF_NOTE_OVERLAP and
 * PEF_NOTE_UNOWNED_BYTES a PEF_DETAIL_LENGTH; and PEF_NOTE_SECTIONS_OUT_OF_ORDER a PEF_DETAIL_SECTIONS: how many sections there are of a
 * kind that may be instantiated.
 */
struct pef_finding {
    struct pef_place place;
    uint64_t detail;
    uint32_t number;
    bool is_error;
    uint8_t detail_kind;
};

/*
 * Finds all errors of a container, 1 to 39, and then what is odd about it, except what pef_more_notes() finds. It reads them from number
 * `from` on into the first of `places`, and stores how many they were in `*count`: as many as there are from there on, or as there are
 * places. The other places are left unchanged. Returns PEF_OK. It allocates nothing.
 *
 * Packed data is expanded and relocation programs are run, without keeping what they make. So a container without errors is refused
 * by no preparation, as far as its own bytes are concerned. If its programs or its packed data ask for too much, a note says
 * from which one on they weren't verified. An error that is about no field is at the beginning of the container.
 *
 * Errors come in the order of pef_list(): if it reports one, that is the first here. Packed data (21 to 25) and what programs would do
 * (37 to 39) come after all that pef_list() reads. A preparation has an order of its own: it fills all sections before it reads a program,
 * so of a container with errors in both it reports packed data, and pef_findings() has the program first.
 *
 * Each call reads the whole container, so read many at once.
 */
uint32_t pef_findings(const uint8_t *container, size_t container_length, size_t from, struct pef_finding *places, size_t place_count, pef_size *count);

/*
 * Finds the notes that need memory, PEF_NOTE_TRAILING_BYTES, PEF_NOTE_OVERLAP, PEF_NOTE_UNOWNED_BYTES and
 * PEF_NOTE_WORD_RELOCATED_TWICE, and reads and counts them as pef_findings() does. If programs name too many words, there is also
 * PEF_NOTE_PROGRAMS_UNVERIFIED.
 *
 * Returns PEF_OK; or PEF_OUT_OF_MEMORY, and leaves `places` and `*count` unchanged.
 */
uint32_t pef_more_notes(const uint8_t *container, size_t container_length, size_t from, struct pef_finding *places, size_t place_count, pef_size *count);

/*
 * A report that is read part by part. It starts as zero bytes:
 *
 *     struct pef_report report = PEF_NO_REPORT;
 *
 * Only the calls below change it, and it isn't copied. Several reports may be open at once.
 */
struct pef_report {
    void *handle;
    PEF_WIDE bool is_open;
};

/* No report, which are zero bytes: struct pef_report report = PEF_NO_REPORT; */
#define PEF_NO_REPORT {NULL, false}

/*
 * Makes the report on a file, to be read by pef_report_next(): the object of JSON that `pef inspect --json` prints of it, on one line
 * with its end. docs/INSPECT.md says what it has. `path` is what the object calls the file. A report that is open already is freed
 * first. Neither `path` nor `file` is kept.
 *
 * The whole text is kept in memory until pef_report_free(). If there is too little memory to look into a container, its object has
 * the error 99.
 *
 * Returns PEF_OK; or PEF_OUT_OF_MEMORY, and then the report isn't open.
 */
uint32_t pef_report_open(struct pef_report *report, const uint8_t *path, size_t path_length, const uint8_t *file, size_t file_length);

/*
 * Makes the object that such a report has for a container, of bytes that are looked at as a container whatever they are. The offsets
 * are those in these bytes, and there is no end of a line. The bytes aren't kept.
 *
 * Returns PEF_OK; or PEF_OUT_OF_MEMORY, and then the report isn't open.
 */
uint32_t pef_report_open_container(struct pef_report *report, const uint8_t *container, size_t container_length);

/*
 * A report may also be made in parts, by a viewer that doesn't want all of a large file at once. What pef_report_open_head() makes, what
 * pef_report_open_found() makes of each container, and what pef_report_open_end() makes are, one after the other, the text of
 * pef_report_open():
 *
 *     uint32_t answer;
 *     struct pef_found_container found;
 *
 *     (open the head, and read it)
 *     for (answer = pef_first_container(file, length, &found); answer == PEF_OK; answer = pef_next_container(file, length, &found))
 *         (open what was found, and read it)
 *     (open the end by what was found last, and read it)
 *
 * These calls keep none of the bytes. Each keeps its text in memory until pef_report_free() or the next part is opened, and frees the
 * part before it first. They return PEF_OK; or PEF_OUT_OF_MEMORY, also if there is too little memory to look into the container, and
 * then the report isn't open.
 */

/*
 * A container in a file: where it begins, how many bytes it can have, and its number, from 0. Its bytes are those up to the end of its
 * fork, or of the file if it begins in no fork. If the report inspects no further containers, because it would cost more, they are all
 * up to the end of the file. The other fields are what the containers before it leave of what the report on the file
 * may cost, and how many of them weren't inspected, because it would have cost more. A program passes them on. It may copy the struct,
 * and use it as long as the file is the same.
 *
 * After the last container `offset` is the length of the file, and `length` is 0.
 */
struct pef_found_container {
    pef_size offset;
    pef_size length;
    uint64_t number;
    uint64_t skipped;
    uint64_t budget;
    uint64_t program_bytes;
    uint64_t steps;
    uint64_t packed_bytes;
    uint64_t words;
};

/*
 * Finds the first container in a file, by the places that pef_find_containers() gives. It allocates nothing.
 *
 * Returns PEF_OK, and stores it in `*found`; or PEF_NOT_THERE if there is none, and stores the end of the file.
 */
uint32_t pef_first_container(const uint8_t *file, size_t file_length, struct pef_found_container *found);

/*
 * Goes on to the next container. It allocates nothing.
 *
 * Returns PEF_OK, and stores it in `*found`; or PEF_NOT_THERE if there is none, and stores the end of the file. If `*found` is at the
 * end, it stays as it is.
 */
uint32_t pef_next_container(const uint8_t *file, size_t file_length, struct pef_found_container *found);

/* Makes the report up to its containers. `path` is what the object calls the file. */
uint32_t pef_report_open_head(struct pef_report *report, const uint8_t *path, size_t path_length, const uint8_t *file, size_t file_length);

/*
 * Makes the object of a container as the report has it, after a comma unless it is the first. It has no bytes if the container isn't
 * inspected, because the report would cost too much.
 */
uint32_t pef_report_open_found(struct pef_report *report, const uint8_t *file, size_t file_length, const struct pef_found_container *found);

/* Makes the report after its containers. `end` is what pef_next_container() stored last, or pef_first_container() if there is none. */
uint32_t pef_report_open_end(struct pef_report *report, const uint8_t *file, size_t file_length, const struct pef_found_container *end);

/*
 * Makes the beginning of a container's object, as an object: the first `most` rows of each kind or all if there are fewer, without their
 * instructions, and of the errors and notes in their order the first `most`. It has no bytes if the container isn't inspected.
 */
uint32_t pef_report_open_excerpt(struct pef_report *report, const uint8_t *file, size_t file_length, const struct pef_found_container *found, uint32_t most);

/*
 * Rows of a container that begins at `offset` of a file: their kind, the number of the first one, from 0, and how many. `part` is
 * PEF_SECTION_PART, PEF_LIBRARY_PART, PEF_IMPORT_PART, PEF_RELOCATION_PART or PEF_EXPORT_PART.
 */
struct pef_row_range {
    pef_size offset;
    uint32_t part;
    uint32_t from;
    uint32_t count;
};

/*
 * Makes the objects of rows, or of those that there are, as a container's object has them in the list of their kind: after a comma,
 * unless it is row 0. Rows from an excerpt's `most` on go on where the excerpt ends.
 *
 * Returns what the others do; or PEF_NOT_THERE if there is no such kind, and then the report isn't open.
 */
uint32_t pef_report_open_rows(struct pef_report *report, const uint8_t *file, size_t file_length, const struct pef_row_range *rows);

/*
 * Writes the next bytes of a report to the front of `buffer`, as many as fit.
 *
 * Returns PEF_OK, and stores the number of bytes in `*written`: it is less than `buffer_length` only at the end of the report, and
 * 0 after it. Or returns PEF_NOT_OPEN, if the report isn't open, and then `buffer` and `*written` are left unchanged. It allocates
 * nothing.
 */
uint32_t pef_report_next(struct pef_report *report, uint8_t *buffer, size_t buffer_length, pef_size *written);

/*
 * Frees a report. It may be opened again. A report that isn't open stays as it is, so one may be freed twice.
 *
 * A program that includes this header may also free NULL, which does nothing.
 */
void pef_report_free(struct pef_report *report);

static inline void pef_report_free_unless_null(struct pef_report *report)
{
    if (report != NULL)
        pef_report_free(report);
}
#define pef_report_free pef_report_free_unless_null

/*
 * The calls below read a container anew from its bytes each time, and allocate nothing. They return PEF_OK; or the first
 * refusal of what they read, and then they leave all that they would write unchanged.
 */

/* Architectures, of four characters each: `pwpc` of PowerPC, and `m68k` of CFM-68K, whose containers aren't read. */
#define PEF_ARCHITECTURE_POWERPC 0x70777063
#define PEF_ARCHITECTURE_68K 0x6D36386B

/*
 * A container's header. Dates are seconds since the first of January 1904. The architecture is PEF_ARCHITECTURE_POWERPC, unless
 * pef_partial_header() reads the header.
 */
struct pef_header {
    uint32_t date_time_stamp;
    uint32_t old_def_version;
    uint32_t old_imp_version;
    uint32_t current_version;
    uint16_t section_count;
    uint16_t instantiated_section_count;
    uint32_t architecture;
};

/* Reads a container's header. Refusals are 1 to 10. */
uint32_t pef_header(const uint8_t *container, size_t container_length, struct pef_header *header);

/* A section's header. Lengths and the offset into the container count bytes; the alignment is an exponent of two. */
struct pef_section {
    uint32_t default_address;
    uint32_t total_size;
    uint32_t unpacked_size;
    uint32_t packed_size;
    uint32_t container_offset;
    uint8_t kind;
    uint8_t share;
    uint8_t alignment;
};

/*
 * Reads a section by its number, counted from 0, and stores its raw bytes, which are a part of the container, in `*raw`.
 *
 * Returns PEF_NOT_THERE past the last section.
 */
uint32_t pef_section(const uint8_t *container, size_t container_length, size_t number, struct pef_section *section, struct pef_bytes *raw);

/*
 * Gives a section's name, which is a part of the container.
 *
 * Returns PEF_NOT_THERE past the last section, and if the section has no name.
 */
uint32_t pef_section_name(const uint8_t *container, size_t container_length, size_t number, struct pef_bytes *name);

/*
 * Expands the raw bytes of a section of kind PEF_KIND_PACKED, until `out` is full: its length is the section's
 * unpacked_size. Refusals are 21 to 25, after which the contents of `out` are unspecified.
 */
uint32_t pef_expand(const uint8_t *packed, size_t packed_length, uint8_t *out, size_t out_length);

/* How many things a loader section has, and its entries: a section, or PEF_NO_ENTRY, and an offset. */
struct pef_loader {
    int32_t main_section;
    uint32_t main_offset;
    int32_t init_section;
    uint32_t init_offset;
    int32_t term_section;
    uint32_t term_offset;
    uint32_t library_count;
    uint32_t import_count;
    uint32_t relocation_count;
    uint32_t export_count;
};

/* Reads the header of a container's loader section. Refusals are 1 to 20, in this call and in those below. */
uint32_t pef_loader(const uint8_t *container, size_t container_length, struct pef_loader *loader);

/* An imported library: its imports are import_count symbols from first_import on. */
struct pef_library {
    struct pef_bytes name;
    uint32_t current_version;
    uint32_t old_imp_version;
    uint32_t import_count;
    uint32_t first_import;
    uint8_t options;
};

/* An imported symbol, and the number of its library. A weak one may be missing. */
struct pef_import {
    struct pef_bytes name;
    pef_size library;
    uint8_t symbol_class;
    bool weak;
};

/* A relocation header: the section that is relocated, and the bytes of its instructions, two for each halfword, the high one
 * first. docs/FORMATS.md has the instructions. */
struct pef_relocation {
    struct pef_bytes instructions;
    uint32_t section;
};

/* The kinds of what is added to a word. */
#define PEF_FIXUP_SECTION 1
#define PEF_FIXUP_IMPORT 2

/* An addition of a relocation program: the offset of a word in the section that is relocated, and what is added to the word:
 * the address of the section with this number, or of the target of the import with this number. */
struct pef_fixup {
    PEF_WIDE uint64_t offset;
    uint64_t number;
    uint32_t kind;
};

/* An exported symbol: its value is an offset in a section, a number if the section is PEF_ABSOLUTE, or the number of an
 * import if it is PEF_REEXPORT. */
struct pef_export {
    struct pef_bytes name;
    int32_t section;
    uint32_t value;
    uint8_t symbol_class;
};

/*
 * Read the libraries, imports, relocation headers and exports from number `from` on into the first of `places`, and store how
 * many they were in `*count`: as many as there are from there on, or as there are places. The other places are left unchanged.
 * Names and instructions are parts of the container.
 *
 * Each call reads the whole loader section, so read many at once: then n rows cost no more than n of these.
 */
uint32_t pef_libraries(const uint8_t *container, size_t container_length, size_t from, struct pef_library *places, size_t place_count, pef_size *count);
uint32_t pef_imports(const uint8_t *container, size_t container_length, size_t from, struct pef_import *places, size_t place_count, pef_size *count);
uint32_t pef_relocations(const uint8_t *container, size_t container_length, size_t from, struct pef_relocation *places, size_t place_count, pef_size *count);
uint32_t pef_exports(const uint8_t *container, size_t container_length, size_t from, struct pef_export *places, size_t place_count, pef_size *count);

/*
 * Reads the additions of the program of relocation header `header` from number `from` on into the first of `places`, in the
 * order in which the program makes them, and stores how many they were in `*count`: as many as there are from there on, or as
 * there are places. The other places are left unchanged. The numbers of headers are those of pef_relocations().
 *
 * Nothing is asked of words, sections and imports: a program may name some that don't exist, which refuses the preparation.
 * Refusals are 1 to 20, and 31 to 36 for the program. Returns PEF_NOT_THERE past the last header. Each call runs the program
 * from its start up to the last of `places`, so read many at once. A program can make up to 17,179,869,184 additions.
 */
uint32_t pef_fixups(const uint8_t *container, size_t container_length, size_t header, size_t from, struct pef_fixup *places, size_t place_count, pef_size *count);

/*
 * Reads the first export with this name into `*found`, and stores its number, which is that of pef_exports(), in `*number`.
 * Names are compared byte by byte.
 *
 * Returns PEF_NOT_THERE, if no export has the name. Each call reads the whole loader section, so to look up many names, read
 * all exports once.
 */
uint32_t pef_export_named(const uint8_t *container, size_t container_length, const uint8_t *name, size_t name_length, pef_size *number, struct pef_export *found);

/*
 * Reads the first import with this name into `*found`, and stores its number, which is that of pef_imports(), in `*number`.
 *
 * Returns PEF_NOT_THERE, if no import has the name. Each call reads the whole loader section, and then one import after the
 * other, as they have no hash table.
 */
uint32_t pef_import_named(const uint8_t *container, size_t container_length, const uint8_t *name, size_t name_length, pef_size *number, struct pef_import *found);

/*
 * The calls below read a container that may be damaged, as far as it can be read, with the structs of the calls above. An error in
 * one part hides no other part; pef_findings() has the errors. They allocate nothing. If they don't return PEF_OK, they leave all
 * that they would write unchanged.
 */

/*
 * Reads the header of a container. Returns PEF_TOO_SHORT or PEF_BAD_TAG if the bytes have none, in this call and in those below. If
 * the architecture is another one, such as PEF_ARCHITECTURE_68K, the container isn't damaged, but one of another machine.
 */
uint32_t pef_partial_header(const uint8_t *container, size_t container_length, struct pef_header *header);

/*
 * Reads a section, and stores its raw bytes in `*raw`, as far as they are in the container: they are fewer than `packed_size` if the
 * section extends past the end. Returns PEF_NOT_THERE past the last section, and if the section's header isn't in the bytes.
 */
uint32_t pef_partial_section(const uint8_t *container, size_t container_length, size_t number, struct pef_section *section, struct pef_bytes *raw);

/* Gives a section's name. Returns PEF_NOT_THERE as pef_partial_section() does, and if the section has no name. */
uint32_t pef_partial_section_name(const uint8_t *container, size_t container_length, size_t number, struct pef_bytes *name);

/*
 * Reads the header of a loader section: the first that isn't instantiated, or if each one is, the first of all. Its counts are those that
 * it declares, however many rows are there. Returns PEF_LOADER_SHORT if there is no loader section, or it has no header, in this call and
 * in those below.
 */
uint32_t pef_partial_loader(const uint8_t *container, size_t container_length, struct pef_loader *loader);

/* The library of an import that is in no library's range. */
#define PEF_NO_LIBRARY UINT64_MAX

/*
 * Read the libraries, imports, relocation headers and exports that are in the bytes, as pef_libraries() and the others do. A name that
 * can't be read has no bytes, and so have instructions that extend past the loader section. Exports are there if the slots, keys and
 * rows of their table are.
 */
uint32_t pef_partial_libraries(const uint8_t *container, size_t container_length, size_t from, struct pef_library *places, size_t place_count, pef_size *count);
uint32_t pef_partial_imports(const uint8_t *container, size_t container_length, size_t from, struct pef_import *places, size_t place_count, pef_size *count);
uint32_t pef_partial_relocations(const uint8_t *container, size_t container_length, size_t from, struct pef_relocation *places, size_t place_count, pef_size *count);
uint32_t pef_partial_exports(const uint8_t *container, size_t container_length, size_t from, struct pef_export *places, size_t place_count, pef_size *count);

/*
 * Reads the additions of the program of relocation header `header`, as pef_fixups() does. Returns PEF_NOT_THERE past the last header
 * that is in the bytes, and if its instructions extend past the loader section. Errors of the program are 31 to 36.
 */
uint32_t pef_partial_fixups(const uint8_t *container, size_t container_length, size_t header, size_t from, struct pef_fixup *places, size_t place_count, pef_size *count);

/*
 * Files of the classic Mac OS (docs/FORMATS.md, section 10). The calls below read them anew from their bytes, and allocate nothing.
 * All bytes that they give are parts of what they are handed. Damage in one part hides no other part: each has its error, which is
 * PEF_OK if the part is there, PEF_NOT_THERE if there is none, or its number, and the offset that the error is about, or
 * PEF_NO_OFFSET. If a call returns another number than PEF_OK, it leaves all that it would write unchanged.
 */

/* What a file is. */
#define PEF_FILE_OTHER 0
#define PEF_FILE_CONTAINER 1
#define PEF_FILE_MAC_BINARY 2
#define PEF_FILE_APPLE_SINGLE 3
#define PEF_FILE_APPLE_DOUBLE 4
#define PEF_FILE_DAMAGED_APPLE 5
#define PEF_FILE_RESOURCE_FORK 6

/* Returns what a file is: one of the numbers above. */
uint32_t pef_file_kind(const uint8_t *file, size_t file_length);

/*
 * A part of a file: its bytes, where they begin in the file, and its error. Only a fork of MacBinary that passes the end of the file has
 * both: PEF_DATA_FORK_CUT or PEF_RESOURCE_FORK_CUT, and the bytes that are there.
 */
struct pef_part {
    struct pef_bytes bytes;
    pef_size offset;
    pef_size error_offset;
    uint32_t error;
};

/* No part. */
#define PEF_NO_PART {PEF_NO_BYTES, 0, 0, 0}

/* What the Finder knows of a file. The type and the creator are four characters, the first in the highest byte. */
struct pef_finder {
    pef_size error_offset;
    uint32_t error;
    uint32_t file_type;
    uint32_t creator;
    uint16_t flags;
    int16_t vertical;
    int16_t horizontal;
    uint16_t window;
};

/*
 * The forks of a file, its name, its comment and what the Finder knows of it; the error of its header, which is PEF_OK or
 * PEF_BAD_MAC_BINARY_CRC; and what it is. A file in no format is a resource fork if it has the form of one, else a data fork.
 */
struct pef_forks {
    struct pef_part data_fork;
    struct pef_part resource_fork;
    struct pef_part name;
    struct pef_part comment;
    struct pef_finder finder;
    pef_size error_offset;
    uint32_t error;
    uint32_t kind;
};

/* No forks: struct pef_forks forks = PEF_NO_FORKS; */
#define PEF_NO_FORKS {PEF_NO_PART, PEF_NO_PART, PEF_NO_PART, PEF_NO_PART, {0, 0, 0, 0, 0, 0, 0, 0}, 0, 0, 0}

/* Reads the forks of a file. Returns PEF_OK, or the error of its header: PEF_APPLE_HEADER_CUT or PEF_BAD_APPLE_VERSION. */
uint32_t pef_forks(const uint8_t *file, size_t file_length, struct pef_forks *forks);

/* The header and the map of a resource fork. The error is PEF_OK, or PEF_RESOURCE_MAP_OUTSIDE if the map passes the end. */
struct pef_resource_map {
    pef_size error_offset;
    uint32_t error;
    uint32_t data_offset;
    uint32_t map_offset;
    uint32_t data_length;
    uint32_t map_length;
    uint16_t attributes;
    uint16_t type_count;
};

/* Reads the header and the map of a resource fork. Errors are 87 and 88, in this call and in the two below. */
uint32_t pef_resource_map(const uint8_t *fork, size_t fork_length, struct pef_resource_map *map);

/*
 * A resource: its name, its bytes, where they begin in the fork, and the errors of both. The type is four characters, the first in the
 * highest byte. `type_row` is the row of its type, and `row` its row in the list of that type. If bit 0 of the attributes is set, the
 * bytes are compressed.
 *
 * A row with an error from 89 to 91 is no resource: a row that can't be read. Then all but the errors and the rows is 0.
 */
struct pef_resource {
    struct pef_bytes name;
    struct pef_bytes bytes;
    pef_size offset;
    pef_size error_offset;
    pef_size name_error_offset;
    uint32_t error;
    uint32_t name_error;
    uint32_t type;
    int16_t id;
    uint16_t type_row;
    uint16_t row;
    uint8_t attributes;
};

/*
 * Reads the resources from number `from` on into the first of `places`, and stores how many they were in `*count`: as many as there
 * are from there on, or as there are places. The other places are left unchanged. Each call passes over the rows before `from`.
 */
uint32_t pef_resources(const uint8_t *fork, size_t fork_length, size_t from, struct pef_resource *places, size_t place_count, pef_size *count);

/* Reads the resource with a type and an id. Returns PEF_NOT_THERE if there is none. */
uint32_t pef_find_resource(const uint8_t *fork, size_t fork_length, uint32_t type, int16_t id, struct pef_resource *resource);

/* The type of a table of fragments, `cfrg`. Its id is 0. */
#define PEF_FRAGMENT_TABLE_TYPE 0x63667267

/* What a member is for, and where its container is. */
#define PEF_USAGE_IMPORT_LIBRARY 0
#define PEF_USAGE_APPLICATION 1
#define PEF_USAGE_DROP_IN_ADDITION 2
#define PEF_USAGE_STUB_LIBRARY 3
#define PEF_USAGE_WEAK_STUB_LIBRARY 4
#define PEF_LOCATOR_MEMORY 0
#define PEF_LOCATOR_DATA_FORK 1
#define PEF_LOCATOR_RESOURCE 2

/*
 * A member of a table of fragments: its name, its container in the data fork, where it begins in the table, and what the table says of
 * it. `error` is PEF_OK, or PEF_MEMBER_CUT. `container_error` is PEF_NOT_THERE if the container isn't in the data fork. If it is in a
 * resource, `offset` is the resource's type and `length` its id.
 *
 * The last row may be no member: one with PEF_MEMBER_CUT and no name, whose fields aren't all there. Then all but `place` and the errors
 * is 0.
 */
struct pef_member {
    struct pef_bytes name;
    struct pef_bytes container;
    pef_size place;
    pef_size error_offset;
    pef_size name_error_offset;
    pef_size container_error_offset;
    uint32_t error;
    uint32_t name_error;
    uint32_t container_error;
    uint32_t architecture;
    uint32_t current_version;
    uint32_t old_def_version;
    uint32_t stack_size;
    uint32_t offset;
    uint32_t length;
    uint32_t space_id;
    uint16_t directory_or_flags;
    uint16_t fork_instance;
    uint16_t extension_count;
    uint16_t size;
    uint8_t update_level;
    uint8_t usage;
    uint8_t locator;
};

/*
 * Reads the members of a table of fragments as pef_resources() reads resources, with their containers in a data fork. The table is the
 * bytes of the resource `cfrg` 0. Errors are PEF_FRAGMENT_TABLE_CUT and PEF_BAD_FRAGMENT_TABLE.
 */
uint32_t pef_members(const uint8_t *table, size_t table_length, const uint8_t *data_fork, size_t data_fork_length, size_t from, struct pef_member *places, size_t place_count, pef_size *count);

/*
 * Finds the places of some bytes where a container begins: it stores their offsets from number `from` on in the first of `places`, and
 * how many they were in `*count`. Returns PEF_OK.
 */
uint32_t pef_find_containers(const uint8_t *bytes, size_t length, size_t from, pef_size *places, size_t place_count, pef_size *count);

/*
 * Gives the container of the fragment with this name in a file: of the first member of the table that has the name and isn't for
 * CFM-68K. The names are compared byte by byte.
 *
 * Returns PEF_OK; or the first error of what it reads, 82 to 98; or PEF_NO_CONTAINER if there is no such fragment, or its container is
 * neither in the data fork nor in a resource. A container isn't tested.
 */
uint32_t pef_file_container(const uint8_t *file, size_t file_length, const uint8_t *name, size_t name_length, struct pef_bytes *container);

/* Does the same by the bytes of both forks. */
uint32_t pef_fork_container(const uint8_t *data_fork, size_t data_fork_length, const uint8_t *resource_fork, size_t resource_fork_length, const uint8_t *name, size_t name_length, struct pef_bytes *container);

/*
 * Gives the container with a number, from 0, among those of pef_find_containers(), with all bytes after it up to the end of its member
 * of `cfrg` 0, its resource or its fork, or of the bytes if it begins in no fork. Returns PEF_OK, or PEF_NO_CONTAINER past the last one.
 */
uint32_t pef_numbered_container(const uint8_t *bytes, size_t length, size_t number, struct pef_bytes *container);

/*
 * A context: fragments by name, and the memory in which they are prepared. It starts as zero bytes:
 *
 *     struct pef_context context = PEF_NO_CONTEXT;
 *
 * Only the calls below change it, and it isn't copied. Each of these calls returns PEF_NOT_OPEN, and changes
 * nothing, if the context isn't open: pef_open() wasn't called, failed, or was followed by pef_free(). Several contexts may be
 * open at once, also in different threads.
 *
 * A fragment is named by its number, counted from 0 in the order in which fragments were added. The number of a removed one is
 * free, and goes to the next fragment whose name isn't there, so numbers can have gaps: pef_next_fragment() gives each number that a
 * fragment has. A fragment is present while the
 * closure of an open connection has it: the fragment that was prepared, with all fragments that it needs. A present
 * fragment keeps its addresses. Its sections are numbered as in its container, and only instantiated sections are in
 * memory. A call on a fragment looks it up, however many there are.
 */
struct pef_context {
    void *handle;
    PEF_WIDE bool is_open;
};

/* No context, which are zero bytes: struct pef_context context = PEF_NO_CONTEXT; */
#define PEF_NO_CONTEXT {NULL, false}

/*
 * Opens a context without fragments. Sections are placed from address 00010000 on, and none passes `limit`; `pef load`
 * has the limit 10000000 (hexadecimal). A context that is open already is freed first.
 *
 * Returns PEF_OK; or PEF_OUT_OF_MEMORY, and then the context isn't open.
 */
uint32_t pef_open(struct pef_context *context, uint32_t limit);

/*
 * What a context is opened with. A field of 0 has its usual value, so a program sets what it wants to be otherwise:
 *
 *     struct pef_options options = PEF_USUAL_OPTIONS;
 *     options.granule = 4096;
 */
struct pef_options {
    /* The size of this struct, by which a later library knows an older program's. */
    uint32_t size;
    /* No section passes this address; usually 10000000 (hexadecimal). */
    uint32_t limit;
    /* Each section begins at a multiple of this, and takes a multiple of it: a power of two from 16 on; usually 16. */
    uint32_t granule;
    /* How many connections the context gives in all, closed ones included; usually PEF_MAX_CONNECTIONS. */
    uint32_t connections;
    /* How many steps the relocation programs of one preparation may take together; usually there is no bound. */
    uint64_t steps;
    /* How many bytes the new sections of one preparation may take together; usually there is no bound. */
    uint64_t bytes;
};

/* Options that have their usual values. */
#define PEF_USUAL_OPTIONS {sizeof(struct pef_options), 0, 0, 0, 0, 0}

/*
 * Opens a context without fragments, with options. A context that is open already is freed first.
 *
 * Returns PEF_OK; or PEF_BAD_OPTIONS, if `size` isn't that of the struct in this library; or PEF_BAD_GRANULE; or
 * PEF_OUT_OF_MEMORY, and then the context isn't open. After the other two nothing is changed.
 */
uint32_t pef_open_with(struct pef_context *context, const struct pef_options *options);

/* Returns the version of the library that runs. It is PEF_VERSION_NUMBER of the header that belongs to it. */
uint32_t pef_version(void);

/*
 * Frees a context and everything that it owns. It may be opened again. A context that isn't open stays as it is, so one may be
 * freed twice. When pef_free() returns, the library has nothing any more of what pef_add() took.
 *
 * A program that includes this header may also free NULL, which does nothing.
 */
void pef_free(struct pef_context *context);

static inline void pef_free_unless_null(struct pef_context *context)
{
    if (context != NULL)
        pef_free(context);
}
#define pef_free pef_free_unless_null

/*
 * Adds a fragment: its name, and the bytes of its container. They are read by each preparation, and refused then. If two
 * fragments have the same name, the first is used.
 *
 * `name` and `bytes` are kept, not copied: both have to stay, unchanged, until pef_remove() of this fragment or pef_free() of this
 * context returns. From then on they are the caller's again. Names that the library gave are parts of them.
 *
 * Fragments may be added at any time, also while connections are open. Those stay as they are. A fragment whose name isn't there
 * gets the first number that is free, and any other the number after all others, so that the first with a name stays the first.
 *
 * Returns PEF_OK; or PEF_ADDED_TOO_LATE, if a fragment of an open connection has a weak library of this name, and was
 * prepared without it; or PEF_STORE_FULL, if the context has PEF_MAX_FRAGMENTS fragments; or PEF_OUT_OF_MEMORY. The
 * context is changed only if PEF_OK is returned.
 */
uint32_t pef_add(struct pef_context *context, const uint8_t *name, size_t name_length, const uint8_t *bytes, size_t bytes_length);

/*
 * Adds a fragment as pef_add() does, if none has its name. Otherwise returns PEF_NAME_TAKEN, and the context is unchanged: a second
 * fragment of a name is never used as long as the first one is there.
 */
uint32_t pef_add_new(struct pef_context *context, const uint8_t *name, size_t name_length, const uint8_t *bytes, size_t bytes_length);

/*
 * Removes the first fragment of a name. If another one has the name, that is the first then. The numbers of the others don't change,
 * and neither do open connections. The name and the bytes that were added are the caller's again.
 *
 * Returns PEF_OK; or PEF_ROOT_MISSING, if no fragment has the name; or PEF_STILL_PRESENT, if the fragment is present; or
 * PEF_STILL_NAMED, if a fragment of an open connection names it as a library: a weak one, whose version didn't fit; or
 * PEF_OUT_OF_MEMORY. The context is changed only if PEF_OK is returned.
 */
uint32_t pef_remove(struct pef_context *context, const uint8_t *name, size_t name_length);

/*
 * Takes `size` addresses from `address` on out of use, until pef_unreserve gives them back: no section is placed in them. The
 * range begins at the multiple of 16 at or below `address`, and ends at the one at or above its end. A size of 0 takes
 * nothing.
 *
 * Returns PEF_OK; or PEF_NO_ROOM, if the range meets a section in memory or another range, or passes the last address of 32
 * bits; or PEF_OUT_OF_MEMORY. The context is changed only if PEF_OK is returned.
 */
uint32_t pef_reserve(struct pef_context *context, uint32_t address, uint32_t size);

/*
 * Gives back a range that pef_reserve took out of use for the same numbers, or for others with the same ends: sections can
 * be placed there again. A size of 0 gives nothing back.
 *
 * Returns PEF_OK; or PEF_NOT_THERE, if the addresses aren't exactly such a range, also if they are a part of one or several.
 * The context is changed only if PEF_OK is returned.
 */
uint32_t pef_unreserve(struct pef_context *context, uint32_t address, uint32_t size);

/* The names that are reported with a refusal. A name that isn't reported is empty. */
struct pef_names {
    struct pef_bytes fragment;
    struct pef_bytes library;
    struct pef_bytes symbol;
};

/* No names: struct pef_names names = PEF_NO_NAMES; */
#define PEF_NO_NAMES {PEF_NO_BYTES, PEF_NO_BYTES, PEF_NO_BYTES}

/*
 * A library that a fragment names, and that no fragment of the context serves: its name, the number of the fragment that names it,
 * and the versions of the library that this fragment was linked with. If `is_weak` is true, the fragment can be prepared without it.
 *
 * If `is_found` is true, a fragment has the library's name, but its versions don't fit: `found_version` and
 * `found_old_def_version`. Otherwise no fragment has the name, and both are 0.
 */
struct pef_missing {
    struct pef_bytes name;
    pef_size fragment;
    uint32_t current_version;
    uint32_t old_imp_version;
    uint32_t found_version;
    uint32_t found_old_def_version;
    bool is_weak;
    bool is_found;
};

/*
 * Gives the libraries that are missing for the fragment of a name and for all that it needs, in the order in which pef_prepare()
 * looks for them, each name once: those from number `from` on in the first of `places`, and how many they were in `*count`, which
 * is as many as there are from there on, or as there are places. The other places are left unchanged. Weak ones are among them.
 *
 * Ask before pef_prepare(), add what you have, and ask again, since what was added may name other libraries. If all that is missing
 * then is weak, the preparation isn't refused for a library. Weak libraries have to be added now: later pef_add() returns
 * PEF_ADDED_TOO_LATE.
 *
 * Returns PEF_OK; or PEF_ROOT_MISSING, if no fragment has the name; or the first refusal (1 to 20) of a fragment that can't be read;
 * or PEF_OUT_OF_MEMORY. If it isn't PEF_OK, `*names` has the names that belong to it, and `places` and `*count` are unchanged. What was
 * read is kept for later calls; otherwise the context is unchanged.
 */
uint32_t pef_missing(struct pef_context *context, const uint8_t *name, size_t name_length, size_t from, struct pef_missing *places, size_t place_count, pef_size *count, struct pef_names *names);

/*
 * Gives what pef_missing() does. If it returns an error other than PEF_NOT_OPEN, it also stores in `*place` where the error is, in the
 * container of the fragment that `*names` names. Otherwise `*place` is left unchanged.
 */
uint32_t pef_missing_with_place(struct pef_context *context, const uint8_t *name, size_t name_length, size_t from, struct pef_missing *places, size_t place_count, pef_size *count, struct pef_names *names, struct pef_place *place);

/*
 * A library that fragments of a context name, and that no fragment of the context has the name of. If `is_weak` is true, each of them can
 * be prepared without it. The name is a part of what was added.
 */
struct pef_lacking {
    struct pef_bytes name;
    bool is_weak;
};

/*
 * Gives the libraries that a context lacks, whichever fragment is prepared: each name once, in the order of the fragments and of their
 * entries, those from number `from` on in the first of `places`, and how many they were in `*count`, which is as many as there are from
 * there on, or as there are places. The other places are left unchanged. Fragments that can't be read are passed by.
 *
 * Returns PEF_OK; or PEF_OUT_OF_MEMORY, and leaves `places` and `*count` unchanged. The context is unchanged.
 */
uint32_t pef_lacking(struct pef_context *context, size_t from, struct pef_lacking *places, size_t place_count, pef_size *count);

/* What the symbols of a stub are: numbers, or memory. */
#define PEF_STUB_NUMBERS 1
#define PEF_STUB_MEMORY 2

/*
 * What a stub is made with: one of the two above, and what belongs to it.
 *
 * Numbers: the first symbol is the absolute number `first`, and each later one `step` more. Memory: a symbol of code is a `word`, which
 * an emulator catches, and a `blr`; a transition vector leads to such code; and a symbol of data or TOC is `zeros` bytes of zeros.
 */
struct pef_stub_options {
    /* The size of this struct, by which a later library knows an older program's. */
    uint32_t size;
    uint32_t values;
    uint32_t first;
    uint32_t step;
    uint32_t word;
    uint32_t zeros;
};

/* Numbers from F0000000 (hexadecimal) on, 16 apart; and memory with `sc` as the word, and 16 zeros. */
#define PEF_NUMBERED_STUBS {sizeof(struct pef_stub_options), PEF_STUB_NUMBERS, 0xF0000000, 16, 0, 0}
#define PEF_STUBS_IN_MEMORY {sizeof(struct pef_stub_options), PEF_STUB_MEMORY, 0, 0, 0x44000002, 16}

/*
 * Makes the stub of a library that nobody has: a container that exports what the fragments of the context import from it, each name
 * once, with versions that fit each of them. Its bytes are written to the front of `buffer`. docs/RULES.md, "Stubs", says what it has.
 * Fragments that can't be read are passed by.
 *
 * A stub isn't kept: pef_add() adds it under the library's name, with bytes that stay. Then the library isn't lacking, and a preparation
 * isn't refused for it. pef_exports() of the stub gives its symbols with their classes and values, which say what a number in memory
 * means. The numbers of the next stub go on after those of this one if its `first` is `*symbol_count` steps more.
 *
 * Returns PEF_OK, and stores the stub's length in `*written`; or PEF_ROOM_TOO_SMALL, and stores the length that is needed; and both
 * times stores how many symbols it exports in `*symbol_count`. Or returns PEF_BAD_OPTIONS, if `size` isn't that of the struct in this
 * library, or `values` is neither of the two; or why there is no stub: PEF_TOO_MANY_SYMBOLS, PEF_LONG_NAME, PEF_TOO_MANY_NAME_BYTES,
 * PEF_PAST_LAST_NUMBER, and of a stub in memory PEF_UNSPELLABLE_NAME or PEF_TOO_MANY_STUB_BYTES; or PEF_OUT_OF_MEMORY; and leaves both
 * unchanged. Unless PEF_OK is returned, `buffer` is left unchanged. The context is unchanged.
 */
uint32_t pef_stub(struct pef_context *context, const uint8_t *library, size_t library_length, const struct pef_stub_options *options, uint8_t *buffer, size_t buffer_length, pef_size *written, pef_size *symbol_count);

/*
 * Prepares the fragment of a name and all that it needs: places them, fills them and relocates them, unless they are
 * present already.
 *
 * Returns PEF_OK, and stores the number of the connection in `*connection`. Or returns the first refusal (1 to 39, 60 to
 * 70, or 75) or PEF_OUT_OF_MEMORY, stores its names in `*names`, and leaves the context and `*connection` unchanged. Names
 * are parts of what was added.
 */
uint32_t pef_prepare(struct pef_context *context, const uint8_t *name, size_t name_length, uint32_t *connection, struct pef_names *names);

/*
 * Prepares as pef_prepare() does. If it returns an error other than PEF_NOT_OPEN, it also stores in `*place` where the error is, in
 * the container of the fragment that `*names` names. Otherwise `*place` is left unchanged.
 */
uint32_t pef_prepare_with_place(struct pef_context *context, const uint8_t *name, size_t name_length, uint32_t *connection, struct pef_names *names, struct pef_place *place);

/*
 * A section that a preparation would place: the number of its fragment, and its number in the fragment's container. `kind` and
 * `share` are codes (PEF_KIND_.., PEF_SHARE_..). It takes `size` bytes, and its address has to be a multiple of `alignment`: both
 * count in the granule of the context. A section of 4 GB less a few bytes takes 2^32 bytes.
 */
struct pef_new_section {
    pef_size fragment;
    uint32_t section;
    uint8_t kind;
    uint8_t share;
    uint64_t size;
    uint64_t alignment;
};

/*
 * Gives the sections that pef_prepare() would place for a name, in the order in which it places them: those from number `from` on in
 * the first of `places`, and how many they were in `*count`, which is as many as there are from there on, or as there are places. The
 * other places are left unchanged. If all that the fragment needs is present, there are none.
 *
 * Returns PEF_OK; or an error that pef_prepare() returns before it places anything (1 to 20, 60 to 66, 68 to 70, or 75), or
 * PEF_OUT_OF_MEMORY. If it isn't PEF_OK, `*names` has the names that belong to it, and `places` and `*count` are unchanged. What was
 * read is kept for later calls; otherwise the context is unchanged.
 */
uint32_t pef_new_sections(struct pef_context *context, const uint8_t *name, size_t name_length, size_t from, struct pef_new_section *places, size_t place_count, pef_size *count, struct pef_names *names);

/* Gives what pef_new_sections() does, and the place of an error as pef_missing_with_place() does. */
uint32_t pef_new_sections_with_place(struct pef_context *context, const uint8_t *name, size_t name_length, size_t from, struct pef_new_section *places, size_t place_count, pef_size *count, struct pef_names *names, struct pef_place *place);

/*
 * Prepares as pef_prepare_with_place() does, but places the sections at these addresses: there is one for each section that
 * pef_new_sections() gives, in its order. An address has to be a multiple of the section's alignment and 00010000 (hex) or above. The
 * bytes that the section takes have to be free, and below the limit.
 *
 * Returns what pef_prepare_with_place() returns. PEF_WRONG_ADDRESS_COUNT, if there are more or fewer addresses than sections, comes
 * after PEF_TOO_MANY_STEPS_IN_ALL and before PEF_NO_ROOM, which is for the first section that can't lie at its address.
 */
uint32_t pef_prepare_at(struct pef_context *context, const uint8_t *name, size_t name_length, const uint32_t *addresses, size_t address_count, uint32_t *connection, struct pef_names *names, struct pef_place *place);

/*
 * Closes a connection. Fragments that no other open connection needs are no longer present. The number of the connection isn't
 * given again.
 *
 * Returns PEF_OK; or PEF_BAD_CONNECTION, if no open connection has this number, and changes nothing.
 */
uint32_t pef_close(struct pef_context *context, uint32_t connection);

/*
 * The calls below read a context, and so do pef_lacking() and pef_stub(). A program that includes this header hands them a
 * `const struct pef_context *`. They write nothing of the struct and nothing of the context, so any number of threads may be in them at
 * once, also with one context: a debugger's thread may read what another thread prepared. While one is in them, no thread makes another
 * call with this context. What such a call changed has to be ordered before the reading, by a lock or by the start of a thread, say.
 *
 * They return PEF_OK; or PEF_NOT_THERE, and then they leave all that they would write unchanged. pef_released_by() takes memory for
 * itself, as pef_lacking() and pef_stub() do, and as any thread may.
 */

/*
 * Gives the fragments that the preparation of a connection placed, because they weren't present before, in the order in
 * which fragments are initialized. Copy exactly these into the machine, and initialize exactly these: the others of the
 * closure were there already, and may have run since.
 *
 * Returns and stores what pef_fragments() does.
 */
uint32_t pef_new_fragments(struct pef_context *context, uint32_t connection, pef_size *places, size_t place_count, pef_size *count);

/*
 * Gives the fragments that pef_close() of a connection would release, because no other open connection needs them, the last
 * to be initialized first. Call their termination routines in this order, and then pef_close().
 *
 * Returns and stores what pef_fragments() does; or returns PEF_OUT_OF_MEMORY, and leaves `places` and `*count` unchanged.
 */
uint32_t pef_released_by(struct pef_context *context, uint32_t connection, pef_size *places, size_t place_count, pef_size *count);

/*
 * Give the fragments of a connection's closure: the first in closure order, in which the fragment that was prepared is the
 * last; the other in the order in which the fragments are initialized.
 *
 * Return PEF_OK, and store the numbers in the first of `places`; or PEF_ROOM_TOO_SMALL, if there are fewer places than
 * fragments; and both times store how many fragments there are in `*count`. Or return PEF_NOT_THERE, if the connection
 * isn't open. PEF_MAX_FRAGMENTS places are enough.
 */
uint32_t pef_fragments(struct pef_context *context, uint32_t connection, pef_size *places, size_t place_count, pef_size *count);
uint32_t pef_init_order(struct pef_context *context, uint32_t connection, pef_size *places, size_t place_count, pef_size *count);

/*
 * Gives a fragment's name, which is what was added. It needn't be present. Returns PEF_NOT_THERE if no fragment has this number: past the
 * last one, and also before it if the fragment was removed.
 */
uint32_t pef_fragment_name(struct pef_context *context, size_t fragment, struct pef_bytes *name);

/*
 * Gives the first number from `from` on that a fragment has, present or not. So this is a loop over all fragments of a context:
 *
 *     for (size_t number = 0; pef_next_fragment(&context, number, &number) == PEF_OK; number++)
 *
 * Returns PEF_OK; or PEF_NOT_THERE if no fragment has such a number.
 */
uint32_t pef_next_fragment(struct pef_context *context, size_t from, pef_size *fragment);

/*
 * Tells whether the fragment of a name is present: the closure of an open connection has it. If several fragments have the same
 * name, the first is used. If none has it, false is stored.
 */
uint32_t pef_is_present(struct pef_context *context, const uint8_t *name, size_t name_length, bool *is_present);

/* Counts the sections that a fragment has in memory: none, if it isn't present. */
uint32_t pef_fragment_sections(struct pef_context *context, size_t fragment, pef_size *count);

/* A section in memory. `kind` is one of PEF_KIND_CODE and the others, `share` of PEF_SHARE_PROCESS and the others. */
struct pef_fragment_section {
    uint32_t address;
    pef_size size;
    uint8_t kind;
    uint8_t share;
};

/*
 * Reads where a section lies. Returns PEF_NOT_THERE, if the fragment has no such section in memory, or the connection
 * isn't open, or its closure lacks the fragment.
 */
uint32_t pef_fragment_section(struct pef_context *context, uint32_t connection, size_t fragment, size_t number, struct pef_fragment_section *section);

/*
 * Copies a section's bytes to the front of `buffer`, as the memory of a machine.
 *
 * Returns PEF_OK; or PEF_ROOM_TOO_SMALL; and both times stores the section's size in `*written`. Or returns PEF_NOT_THERE,
 * if the fragment has no such section in memory.
 */
uint32_t pef_fragment_bytes(struct pef_context *context, size_t fragment, size_t number, uint8_t *buffer, size_t buffer_length, pef_size *written);

/* The addresses at which a fragment is entered. The address of an entry that isn't there is 0. */
struct pef_entries {
    uint32_t init;
    uint32_t main;
    uint32_t term;
    bool has_init;
    bool has_main;
    bool has_term;
};

/* Reads a fragment's entries. Returns PEF_NOT_THERE, if the connection isn't open, or its closure lacks the fragment. */
uint32_t pef_fragment_entries(struct pef_context *context, uint32_t connection, size_t fragment, struct pef_entries *entries);

/*
 * Gives the address of a fragment's first export of a name. Returns PEF_NOT_THERE, if there is none, or the connection
 * isn't open, or its closure lacks the fragment.
 */
uint32_t pef_fragment_symbol(struct pef_context *context, uint32_t connection, size_t fragment, const uint8_t *name, size_t name_length, uint32_t *address);

/* The kinds of targets. A missing one is that of a weak import, or of an import from a weak library. */
#define PEF_TARGET_MISSING 0
#define PEF_TARGET_ABSOLUTE 1
#define PEF_TARGET_IN_SECTION 2

/*
 * What an import means: one of the kinds above, and the address that was added wherever the import is relocated, which is 0
 * for a missing target, and the number for an absolute one. `fragment`, `section` and `offset` are 0 unless the target is in
 * a section.
 */
struct pef_target {
    uint32_t kind;
    pef_size fragment;
    uint32_t section;
    uint32_t offset;
    uint32_t address;
};

/*
 * Reads what import `number` of a fragment means. Exports that are passed on have been followed. The numbers of imports are
 * those of pef_imports().
 *
 * Returns PEF_NOT_THERE past the last import, and if the connection isn't open, or its closure lacks the fragment.
 */
uint32_t pef_import_target(struct pef_context *context, uint32_t connection, size_t fragment, size_t number, struct pef_target *target);

/*
 * Gives the address of export `number` of a fragment. The numbers of exports are those of pef_exports().
 *
 * Returns PEF_NOT_THERE past the last export, and if the connection isn't open, or its closure lacks the fragment.
 */
uint32_t pef_export_address(struct pef_context *context, uint32_t connection, size_t fragment, size_t number, uint32_t *address);

/*
 * Counts the exports of a fragment, whose numbers are from 0 on and are those of pef_exports(). This call and the next two
 * use what the context keeps of a fragment, so they don't read the container again.
 *
 * Returns PEF_NOT_THERE, if the connection isn't open, or its closure lacks the fragment.
 */
uint32_t pef_fragment_exports(struct pef_context *context, uint32_t connection, size_t fragment, pef_size *count);

/*
 * An export of a fragment: its name, its number, where it ends, and its class. `target.kind` is PEF_TARGET_IN_SECTION, also
 * if the section is another fragment's; or PEF_TARGET_ABSOLUTE; or PEF_TARGET_MISSING if it passes on an import that is
 * missing: its address is 0, and it isn't the number 0. If `is_reexport` is true, it passes on the import with the
 * number `import_number` of its fragment. The name is a part of the container.
 */
struct pef_fragment_export {
    struct pef_bytes name;
    pef_size number;
    struct pef_target target;
    pef_size import_number;
    uint8_t symbol_class;
    bool is_reexport;
};

/*
 * Read export `number` of a fragment, and a fragment's first export with a name. `target.address` is the address that
 * pef_export_address() and pef_fragment_symbol() give.
 *
 * Return PEF_NOT_THERE past the last export or if none has the name, and if the connection isn't open, or its closure lacks
 * the fragment.
 */
uint32_t pef_fragment_export(struct pef_context *context, uint32_t connection, size_t fragment, size_t number, struct pef_fragment_export *found);
uint32_t pef_fragment_export_named(struct pef_context *context, uint32_t connection, size_t fragment, const uint8_t *name, size_t name_length, struct pef_fragment_export *found);

/*
 * Gives the number of a fragment's first import with a name, for pef_import_target(). It reads one import after the other.
 *
 * Returns PEF_NOT_THERE, if no import has the name, or the connection isn't open, or its closure lacks the fragment.
 */
uint32_t pef_fragment_import_named(struct pef_context *context, uint32_t connection, size_t fragment, const uint8_t *name, size_t name_length, pef_size *number);

/*
 * Where an address is: the fragment, the number of its section, the offset there, and the nearest export. That is, of the
 * fragment's exports in this section whose offset isn't greater, the one with the greatest offset, and the first in the table if
 * several have it. If there is none, `has_nearest` is false, and `nearest` has an empty name and zeros. `connection` is the lowest
 * number of an open connection whose closure has the fragment, for the calls that ask for one.
 */
struct pef_location {
    pef_size fragment;
    pef_size section;
    uint32_t connection;
    uint32_t offset;
    bool has_nearest;
    struct pef_fragment_export nearest;
};

/*
 * Finds where an address is, as a debugger or the report of an error in a program has to. It reads the exports of one fragment,
 * one after the other.
 *
 * Returns PEF_NOT_THERE, if the address is in no section of a fragment that is present.
 */
uint32_t pef_at(struct pef_context *context, uint32_t address, struct pef_location *location);

/*
 * A program that includes this header makes the calls that read a context by these functions. Each hands a copy of the struct to the
 * library, which writes to the copy while it reads, and drops the copy. A language without inline functions does the same. A copy may be
 * handed to no call that changes a context.
 */
/* Written by tools/declarations from the calls above that read a context: */

static inline uint32_t pef_lacking_const(const struct pef_context *context, size_t from, struct pef_lacking *places, size_t place_count, pef_size *count)
{
    struct pef_context copy = *context;
    return pef_lacking(&copy, from, places, place_count, count);
}
#define pef_lacking(...) pef_lacking_const(__VA_ARGS__)

static inline uint32_t pef_stub_const(const struct pef_context *context, const uint8_t *library, size_t library_length, const struct pef_stub_options *options, uint8_t *buffer, size_t buffer_length, pef_size *written, pef_size *symbol_count)
{
    struct pef_context copy = *context;
    return pef_stub(&copy, library, library_length, options, buffer, buffer_length, written, symbol_count);
}
#define pef_stub(...) pef_stub_const(__VA_ARGS__)

static inline uint32_t pef_new_fragments_const(const struct pef_context *context, uint32_t connection, pef_size *places, size_t place_count, pef_size *count)
{
    struct pef_context copy = *context;
    return pef_new_fragments(&copy, connection, places, place_count, count);
}
#define pef_new_fragments(...) pef_new_fragments_const(__VA_ARGS__)

static inline uint32_t pef_released_by_const(const struct pef_context *context, uint32_t connection, pef_size *places, size_t place_count, pef_size *count)
{
    struct pef_context copy = *context;
    return pef_released_by(&copy, connection, places, place_count, count);
}
#define pef_released_by(...) pef_released_by_const(__VA_ARGS__)

static inline uint32_t pef_fragments_const(const struct pef_context *context, uint32_t connection, pef_size *places, size_t place_count, pef_size *count)
{
    struct pef_context copy = *context;
    return pef_fragments(&copy, connection, places, place_count, count);
}
#define pef_fragments(...) pef_fragments_const(__VA_ARGS__)

static inline uint32_t pef_init_order_const(const struct pef_context *context, uint32_t connection, pef_size *places, size_t place_count, pef_size *count)
{
    struct pef_context copy = *context;
    return pef_init_order(&copy, connection, places, place_count, count);
}
#define pef_init_order(...) pef_init_order_const(__VA_ARGS__)

static inline uint32_t pef_fragment_name_const(const struct pef_context *context, size_t fragment, struct pef_bytes *name)
{
    struct pef_context copy = *context;
    return pef_fragment_name(&copy, fragment, name);
}
#define pef_fragment_name(...) pef_fragment_name_const(__VA_ARGS__)

static inline uint32_t pef_next_fragment_const(const struct pef_context *context, size_t from, pef_size *fragment)
{
    struct pef_context copy = *context;
    return pef_next_fragment(&copy, from, fragment);
}
#define pef_next_fragment(...) pef_next_fragment_const(__VA_ARGS__)

static inline uint32_t pef_is_present_const(const struct pef_context *context, const uint8_t *name, size_t name_length, bool *is_present)
{
    struct pef_context copy = *context;
    return pef_is_present(&copy, name, name_length, is_present);
}
#define pef_is_present(...) pef_is_present_const(__VA_ARGS__)

static inline uint32_t pef_fragment_sections_const(const struct pef_context *context, size_t fragment, pef_size *count)
{
    struct pef_context copy = *context;
    return pef_fragment_sections(&copy, fragment, count);
}
#define pef_fragment_sections(...) pef_fragment_sections_const(__VA_ARGS__)

static inline uint32_t pef_fragment_section_const(const struct pef_context *context, uint32_t connection, size_t fragment, size_t number, struct pef_fragment_section *section)
{
    struct pef_context copy = *context;
    return pef_fragment_section(&copy, connection, fragment, number, section);
}
#define pef_fragment_section(...) pef_fragment_section_const(__VA_ARGS__)

static inline uint32_t pef_fragment_bytes_const(const struct pef_context *context, size_t fragment, size_t number, uint8_t *buffer, size_t buffer_length, pef_size *written)
{
    struct pef_context copy = *context;
    return pef_fragment_bytes(&copy, fragment, number, buffer, buffer_length, written);
}
#define pef_fragment_bytes(...) pef_fragment_bytes_const(__VA_ARGS__)

static inline uint32_t pef_fragment_entries_const(const struct pef_context *context, uint32_t connection, size_t fragment, struct pef_entries *entries)
{
    struct pef_context copy = *context;
    return pef_fragment_entries(&copy, connection, fragment, entries);
}
#define pef_fragment_entries(...) pef_fragment_entries_const(__VA_ARGS__)

static inline uint32_t pef_fragment_symbol_const(const struct pef_context *context, uint32_t connection, size_t fragment, const uint8_t *name, size_t name_length, uint32_t *address)
{
    struct pef_context copy = *context;
    return pef_fragment_symbol(&copy, connection, fragment, name, name_length, address);
}
#define pef_fragment_symbol(...) pef_fragment_symbol_const(__VA_ARGS__)

static inline uint32_t pef_import_target_const(const struct pef_context *context, uint32_t connection, size_t fragment, size_t number, struct pef_target *target)
{
    struct pef_context copy = *context;
    return pef_import_target(&copy, connection, fragment, number, target);
}
#define pef_import_target(...) pef_import_target_const(__VA_ARGS__)

static inline uint32_t pef_export_address_const(const struct pef_context *context, uint32_t connection, size_t fragment, size_t number, uint32_t *address)
{
    struct pef_context copy = *context;
    return pef_export_address(&copy, connection, fragment, number, address);
}
#define pef_export_address(...) pef_export_address_const(__VA_ARGS__)

static inline uint32_t pef_fragment_exports_const(const struct pef_context *context, uint32_t connection, size_t fragment, pef_size *count)
{
    struct pef_context copy = *context;
    return pef_fragment_exports(&copy, connection, fragment, count);
}
#define pef_fragment_exports(...) pef_fragment_exports_const(__VA_ARGS__)

static inline uint32_t pef_fragment_export_const(const struct pef_context *context, uint32_t connection, size_t fragment, size_t number, struct pef_fragment_export *found)
{
    struct pef_context copy = *context;
    return pef_fragment_export(&copy, connection, fragment, number, found);
}
#define pef_fragment_export(...) pef_fragment_export_const(__VA_ARGS__)

static inline uint32_t pef_fragment_export_named_const(const struct pef_context *context, uint32_t connection, size_t fragment, const uint8_t *name, size_t name_length, struct pef_fragment_export *found)
{
    struct pef_context copy = *context;
    return pef_fragment_export_named(&copy, connection, fragment, name, name_length, found);
}
#define pef_fragment_export_named(...) pef_fragment_export_named_const(__VA_ARGS__)

static inline uint32_t pef_fragment_import_named_const(const struct pef_context *context, uint32_t connection, size_t fragment, const uint8_t *name, size_t name_length, pef_size *number)
{
    struct pef_context copy = *context;
    return pef_fragment_import_named(&copy, connection, fragment, name, name_length, number);
}
#define pef_fragment_import_named(...) pef_fragment_import_named_const(__VA_ARGS__)

static inline uint32_t pef_at_const(const struct pef_context *context, uint32_t address, struct pef_location *location)
{
    struct pef_context copy = *context;
    return pef_at(&copy, address, location);
}
#define pef_at(...) pef_at_const(__VA_ARGS__)

/* The end of the readers. */

#ifdef __cplusplus
}
#endif

#endif
