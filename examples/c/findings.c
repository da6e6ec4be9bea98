/*
 * Finds what is wrong with damaged containers. `findings` alone reads containers that are written here by hand, and compares what each
 * call gives with numbers written by hand. `findings FILE` cuts the container at every length, and turns each of its bytes in three
 * ways: what is found may never contradict pef_list() and pef_prepare(), and what can be read of a damaged container has to be what is
 * read of a sound one. Each container is in a block of its own length, so that an address sanitizer sees a read past its end. What is
 * wrong is printed, a line each, and the status is then 1.
 */
#include "file.h"

#include <string.h>

enum { ROOM = 1 << 20, ROWS = 256, PLACES = 16 };

static uint8_t room[ROOM];
static size_t tried, wrong;

static void expect(bool holds, const char *what)
{
    tried++;
    if (holds)
        return;
    wrong++;
    if (wrong < 20)
        printf("%s\n", what);
}

/* --- by hand --- */

/* A section, which is a loader section of 56 bytes at 68. The format version is 2, the reserved field is 7, and the main entry point is
 * in section 5. */
static const uint8_t one_section[] =
    "Joy!peffpwpc\0\0\0\2\0\0\0\0\0\0\0\0\0\0\0\0\0\0\0\0\0\1\0\0\0\0\0\7"
    "\xff\xff\xff\xff\0\0\0\0\0\0\0\0\0\0\0\0\0\0\0\x38\0\0\0\x44\4\0\0\0"
    "\0\0\0\5\0\0\0\0\xff\xff\xff\xff\0\0\0\0\xff\xff\xff\xff\0\0\0\0\0\0\0\0\0\0\0\0\0\0\0\0\0\0\0\x38\0\0\0\x38\0\0\0\x38\0\0\0\0\0\0\0";
enum { ONE_SECTION = sizeof one_section };

/* What the detail of an error or a note is, by the header. */
static uint8_t detail_kind_of(uint32_t number)
{
    switch (number) {
    case PEF_RELOC_WORD_OUTSIDE:
    case PEF_RELOC_IMPORT_OUTSIDE:
    case PEF_RELOC_SECTION_OUTSIDE:
    case PEF_NOTE_WORD_OUTSIDE_IMAGE:
    case PEF_NOTE_WORD_RELOCATED_TWICE:
        return PEF_DETAIL_WORD;
    case PEF_NOTE_TRAILING_BYTES:
    case PEF_NOTE_OVERLAP:
    case PEF_NOTE_UNOWNED_BYTES:
        return PEF_DETAIL_LENGTH;
    case PEF_NOTE_SECTIONS_OUT_OF_ORDER:
        return PEF_DETAIL_SECTIONS;
    default:
        return PEF_DETAIL_NONE;
    }
}

static void expect_finding(const struct pef_finding *found, uint32_t number, uint32_t part, size_t row, size_t field, size_t offset, uint64_t detail)
{
    bool same = found->number == number && found->is_error == (number < 100) && found->place.part == part && found->place.row == row
        && found->place.field == field && found->place.offset == offset && found->detail == detail && found->detail_kind == detail_kind_of(number);
    expect(same, "a finding of a container that is written by hand");
}

static void test_by_hand(void)
{
    struct pef_finding found[4];
    struct pef_header header = {0};
    struct pef_section section = {0};
    struct pef_loader loader = {0};
    struct pef_bytes raw = PEF_NO_BYTES;
    size_t count = 7;
    expect(ONE_SECTION == 124, "the length");
    expect(pef_findings(one_section, ONE_SECTION, 0, found, 4, &count) == PEF_OK && count == 3, "three findings");
    expect_finding(&found[0], PEF_BAD_FORMAT_VERSION, PEF_CONTAINER_HEADER_PART, 0, 12, 12, 0);
    expect_finding(&found[1], PEF_BAD_ENTRY, PEF_MAIN_PART, 0, 0, 68, 0);
    expect_finding(&found[2], PEF_NOTE_RESERVED_NOT_ZERO, PEF_CONTAINER_HEADER_PART, 0, 36, 36, 0);
    expect(pef_findings(one_section, ONE_SECTION, 2, found, 4, &count) == PEF_OK && count == 1 && found[0].number == PEF_NOTE_RESERVED_NOT_ZERO, "the last one");
    expect(pef_header(one_section, ONE_SECTION, &header) == PEF_BAD_FORMAT_VERSION, "the header is refused");
    expect(pef_partial_header(one_section, ONE_SECTION, &header) == PEF_OK && header.section_count == 1, "and it can be read");
    expect(pef_partial_section(one_section, ONE_SECTION, 0, &section, &raw) == PEF_OK && section.kind == PEF_KIND_LOADER, "the section");
    expect(raw.at == one_section + 68 && raw.length == 56, "its bytes");
    expect(pef_partial_section(one_section, 100, 0, &section, &raw) == PEF_OK && section.packed_size == 56 && raw.length == 32, "those that are left of them");
    expect(pef_partial_loader(one_section, ONE_SECTION, &loader) == PEF_OK && loader.main_section == 5 && loader.init_section == PEF_NO_ENTRY, "the loader header");
    expect(pef_partial_loader(one_section, 100, &loader) == PEF_LOADER_SHORT, "no loader header");
    expect(header.architecture == PEF_ARCHITECTURE_POWERPC, "its architecture");
    expect(pef_partial_header(one_section, 39, &header) == PEF_TOO_SHORT, "39 bytes");
}

/* A container of CFM-68K isn't read, and tells what it is. */
static void test_another_architecture(void)
{
    uint8_t changed[ONE_SECTION];
    struct pef_header header = {0};
    memcpy(changed, one_section, ONE_SECTION);
    memcpy(changed + 8, "m68k", 4);
    expect(pef_header(changed, ONE_SECTION, &header) == PEF_BAD_ARCHITECTURE && header.architecture == 0, "a container of CFM-68K is refused");
    expect(pef_partial_header(changed, ONE_SECTION, &header) == PEF_OK && header.architecture == PEF_ARCHITECTURE_68K, "and tells what it is");
}

/* The same section counts as instantiated, and main is in it. */
static void test_out_of_order(void)
{
    uint8_t changed[ONE_SECTION];
    struct pef_finding found[7];
    struct pef_loader loader = {0};
    size_t count = 0;
    memcpy(changed, one_section, ONE_SECTION);
    changed[35] = 1;
    changed[71] = 0;
    expect(pef_findings(changed, ONE_SECTION, 0, found, 7, &count) == PEF_OK && count == 6, "six findings");
    expect_finding(&found[0], PEF_BAD_FORMAT_VERSION, PEF_CONTAINER_HEADER_PART, 0, 12, 12, 0);
    expect_finding(&found[1], PEF_BAD_SECTION_KIND, PEF_SECTION_PART, 0, 24, 64, 0);
    expect_finding(&found[2], PEF_NO_LOADER, PEF_CONTAINER_HEADER_PART, 0, 0, 0, 0);
    expect_finding(&found[3], PEF_NOTE_SECTIONS_OUT_OF_ORDER, PEF_CONTAINER_HEADER_PART, 0, 34, 34, 0);
    expect_finding(&found[4], PEF_NOTE_RESERVED_NOT_ZERO, PEF_CONTAINER_HEADER_PART, 0, 36, 36, 0);
    expect_finding(&found[5], PEF_NOTE_UNKNOWN_SHARE, PEF_SECTION_PART, 0, 25, 65, 0);
    expect(pef_partial_loader(changed, ONE_SECTION, &loader) == PEF_OK && loader.main_section == 0, "its loader header");
}

/* Six bytes after the last part. */
static void test_more_notes(void)
{
    uint8_t longer[ONE_SECTION + 6];
    struct pef_finding found[2];
    size_t count = 7;
    memset(longer, 1, sizeof longer);
    memcpy(longer, one_section, ONE_SECTION);
    expect(pef_more_notes(longer, sizeof longer, 0, found, 2, &count) == PEF_OK && count == 1, "one note");
    expect_finding(&found[0], PEF_NOTE_TRAILING_BYTES, PEF_CONTAINER_HEADER_PART, 0, ONE_SECTION, ONE_SECTION, 6);
    expect(pef_more_notes(longer, sizeof longer, 1, found, 2, &count) == PEF_OK && count == 0, "no other");
    expect(pef_more_notes(one_section, ONE_SECTION, 0, found, 2, &count) == PEF_OK && count == 0, "none without these bytes");
    expect(pef_more_notes(NULL, 0, 0, NULL, 0, &count) == PEF_OK && count == 0, "none of no bytes");
}

static void put(uint8_t *at, size_t length, uint64_t number)
{
    while (length-- > 0) {
        at[length] = (uint8_t)number;
        number >>= 8;
    }
}

/* A section of one word, to which 100,000 relocation headers add by one program, so that each but the first has a note. The section is
 * at 96, the loader section at 112 with a header of 56 bytes, and the program of one halfword comes last. */
static void test_many_notes(void)
{
    enum { HEADERS = 100000, START = 56 + 12 * HEADERS, LENGTH = 112 + START + 2, LAST = HEADERS - 1 };
    struct pef_finding found[PLACES];
    size_t count = 7;
    uint8_t *bytes = calloc(1, LENGTH);
    if (bytes == NULL)
        exit(2);
    memcpy(bytes, "Joy!peffpwpc\0\0\0\1", 16);
    put(bytes + 32, 4, 2 << 16 | 1);
    uint8_t *section = bytes + 40, *own = bytes + 68, *loader = bytes + 112;
    memset(section, 0xff, 4);
    put(section + 8, 4, 4);
    put(section + 12, 4, 4);
    put(section + 16, 4, 4);
    put(section + 20, 4, 96);
    put(section + 24, 4, 0x01010400);
    memset(own, 0xff, 4);
    put(own + 16, 4, START + 2);
    put(own + 20, 4, 112);
    put(own + 24, 4, 0x04040400);
    for (size_t entry = 0; entry < 3; entry++)
        memset(loader + 8 * entry, 0xff, 4);
    put(loader + 32, 4, HEADERS);
    put(loader + 36, 4, START);
    put(loader + 40, 4, START + 2);
    put(loader + 44, 4, START + 2);
    for (size_t header = 0; header < HEADERS; header++)
        put(loader + 56 + 12 * header, 8, 1);
    put(loader + START, 2, 0x4000);
    expect(pef_findings(bytes, LENGTH, 0, found, PLACES, &count) == PEF_OK && count == 0, "no finding of 100,000 programs");
    expect(pef_more_notes(bytes, LENGTH, LAST - 1, found, PLACES, &count) == PEF_OK && count == 1, "a note on each program but the first");
    expect_finding(&found[0], PEF_NOTE_WORD_RELOCATED_TWICE, PEF_PROGRAM_PART, LAST, 0, 112 + START, 0);
    free(bytes);
}

/* A word that is relocated past its section. The section has 8 bytes, and its program, a run of two words (4001), is changed to a run
 * of three (4002): the third is at 8. */
static void test_detail(void)
{
    static const char script[] = "section d data process 4 8\nbytes d 0102030405060708\nfix d 0 section d\nfix d 4 section d\n";
    struct pef_relocation header = {PEF_NO_BYTES, 0};
    struct pef_finding found[2];
    size_t written = 0, line = 0, count = 0;
    expect(pef_link((const uint8_t *)script, strlen(script), room, ROOM, &written, &line) == PEF_OK, "the script");
    expect(pef_relocations(room, written, 0, &header, 1, &count) == PEF_OK && count == 1 && header.instructions.length == 2, "its program of one halfword");
    size_t at = header.instructions.at - room;
    expect(room[at] == 0x40 && room[at + 1] == 1, "a run of two words");
    room[at + 1] = 2;
    expect(pef_findings(room, written, 0, found, 2, &count) == PEF_OK && count == 1, "one finding");
    expect_finding(&found[0], PEF_RELOC_WORD_OUTSIDE, PEF_PROGRAM_PART, 0, 0, at, 8);
}

/* --- against the other calls --- */

static bool is_part(struct pef_bytes part, const uint8_t *bytes, size_t length)
{
    return part.length == 0 || (part.at >= bytes && part.length <= length && (size_t)(part.at - bytes) <= length - part.length);
}

static bool is_same_finding(const struct pef_finding *one, const struct pef_finding *other)
{
    return one->place.part == other->place.part && one->place.row == other->place.row && one->place.field == other->place.field
        && one->place.offset == other->place.offset && one->detail == other->detail && one->number == other->number && one->is_error == other->is_error
        && one->detail_kind == other->detail_kind;
}

static bool is_same(struct pef_bytes one, struct pef_bytes other)
{
    return one.length == other.length && (one.length == 0 || one.at == other.at);
}

/* Reads the first findings, at once and in parts: they are the same. Returns how many they are. */
static size_t find(const uint8_t *bytes, size_t length, struct pef_finding *rows)
{
    static struct pef_finding parts[ROWS];
    size_t count = 0, from = 0, some = 0;
    expect(pef_findings(bytes, length, 0, rows, ROWS, &count) == PEF_OK && count <= ROWS, "pef_findings");
    do {
        size_t most = ROWS - from < 7 ? ROWS - from : 7;
        expect(pef_findings(bytes, length, from, parts + from, most, &some) == PEF_OK && some <= most, "pef_findings, in parts");
        from += some;
    } while (some == 7 && from < ROWS);
    expect(from == count, "as many findings in parts");
    for (size_t i = 0; i < count && i < from; i++)
        expect(is_same_finding(&parts[i], &rows[i]), "the same findings in parts");
    return count;
}

/* The notes that need memory are notes, too. */
static void check_more_notes(const uint8_t *bytes, size_t length)
{
    static struct pef_finding rows[PLACES];
    size_t count = 0;
    expect(pef_more_notes(bytes, length, 0, rows, PLACES, &count) == PEF_OK && count <= PLACES, "pef_more_notes");
    for (size_t i = 0; i < count; i++) {
        struct pef_bytes name = PEF_NO_BYTES;
        expect(!rows[i].is_error && rows[i].number > 100 && pef_name(rows[i].number, &name) == PEF_OK, "a note");
        expect(rows[i].detail_kind == detail_kind_of(rows[i].number), "the kind of its detail");
        expect(rows[i].place.offset < length && (rows[i].number == PEF_NOTE_PROGRAMS_UNVERIFIED || rows[i].number == PEF_NOTE_WORD_RELOCATED_TWICE || rows[i].detail <= length), "its place");
    }
}

static void check_rows(const struct pef_finding *rows, size_t count, size_t length)
{
    bool is_after_error = false;
    for (size_t i = 0; i < count; i++) {
        struct pef_bytes name = PEF_NO_BYTES, help = PEF_NO_BYTES;
        expect(pef_name(rows[i].number, &name) == PEF_OK && name.length != 0 && pef_help(rows[i].number, &help) == PEF_OK && help.length != 0, "a name and help");
        expect(rows[i].is_error == (rows[i].number < 40) || (!rows[i].is_error && rows[i].number > 100), "an error or a note");
        expect(rows[i].place.part >= PEF_CONTAINER_HEADER_PART && rows[i].place.part <= PEF_PROGRAM_PART, "a part");
        expect(rows[i].place.offset <= length + 56 || rows[i].place.offset == PEF_NO_OFFSET || rows[i].number > 10, "an offset");
        /* only the notes that programs or packed data weren't verified are among the errors */
        if (rows[i].is_error)
            expect(!is_after_error, "errors first");
        else if (rows[i].number != PEF_NOTE_PROGRAMS_UNVERIFIED && rows[i].number != PEF_NOTE_IMAGES_UNVERIFIED)
            is_after_error = true;
    }
}

static const struct pef_finding *first_error(const struct pef_finding *rows, size_t count)
{
    for (size_t i = 0; i < count; i++)
        if (rows[i].is_error)
            return &rows[i];
    return NULL;
}

static bool has_error(const struct pef_finding *rows, size_t count, uint32_t number)
{
    for (size_t i = 0; i < count; i++)
        if (rows[i].number == number || rows[i].number == PEF_NOTE_PROGRAMS_UNVERIFIED || rows[i].number == PEF_NOTE_IMAGES_UNVERIFIED)
            return true;
    return count == ROWS;
}

/* What pef_list() and pef_prepare() report is found, and if there is no error they report none. */
static void check_against_readers(const uint8_t *bytes, size_t length, const struct pef_finding *rows, size_t count)
{
    const struct pef_finding *first = first_error(rows, count);
    struct pef_context context = PEF_NO_CONTEXT;
    struct pef_names names = PEF_NO_NAMES;
    struct pef_options options = PEF_USUAL_OPTIONS;
    uint32_t connection = 0;
    size_t written = 0;
    options.bytes = 1 << 20;
    options.steps = 1 << 20;
    uint32_t answer = pef_list(bytes, length, room, ROOM, &written);
    if (answer == PEF_OK || answer == PEF_ROOM_TOO_SMALL)
        expect(first == NULL || first->number > 20, "an error of a container that is listed");
    else
        expect(first != NULL && first->number == answer, "the first error isn't that of pef_list");
    answer = pef_open_with(&context, &options);
    if (answer == PEF_OK)
        answer = pef_add(&context, (const uint8_t *)"it", 2, bytes, length);
    if (answer == PEF_OK)
        answer = pef_prepare(&context, (const uint8_t *)"it", 2, &connection, &names);
    if (answer != PEF_OK && answer < 40)
        expect(has_error(rows, count, answer), "an error of pef_prepare that isn't found");
    if (first == NULL)
        expect(answer == PEF_OK || answer > 40, "no error is found, and pef_prepare reports one");
    pef_free(&context);
}

/* What is read of a container that is refused nowhere is the same. What is read of any other is a part of it. */
static void check_parts(const uint8_t *bytes, size_t length)
{
    struct pef_header header = {0}, sound = {0};
    uint32_t answer = pef_partial_header(bytes, length, &header);
    expect(answer == PEF_OK || answer == PEF_TOO_SHORT || answer == PEF_BAD_TAG, "pef_partial_header");
    if (pef_header(bytes, length, &sound) == PEF_OK)  /* a struct without padding */
        expect(answer == PEF_OK && memcmp(&header, &sound, sizeof header) == 0, "the same header");
    for (size_t i = 0; i < 8; i++) {
        struct pef_section section, other;
        struct pef_bytes raw = PEF_NO_BYTES, more = PEF_NO_BYTES, name = PEF_NO_BYTES;
        memset(&section, 0, sizeof section);
        memset(&other, 0, sizeof other);
        answer = pef_partial_section(bytes, length, i, &section, &raw);
        expect(answer != PEF_OK || (is_part(raw, bytes, length) && raw.length <= section.packed_size), "pef_partial_section");
        if (pef_section(bytes, length, i, &other, &more) == PEF_OK)
            expect(answer == PEF_OK && memcmp(&section, &other, offsetof(struct pef_section, alignment) + 1) == 0 && is_same(raw, more), "the same section");
        answer = pef_partial_section_name(bytes, length, i, &name);
        expect(answer != PEF_OK || is_part(name, bytes, length), "pef_partial_section_name");
    }
    struct pef_loader loader = {0}, tables = {0};
    answer = pef_partial_loader(bytes, length, &loader);
    if (pef_loader(bytes, length, &tables) == PEF_OK)
        expect(answer == PEF_OK && memcmp(&loader, &tables, sizeof loader) == 0, "the same loader header");
}

/* Compares a table of rows as both calls read it. */
#define CHECK_TABLE(call, partial, row, slice, fields)                                                                         \
    do {                                                                                                                       \
        struct row places[PLACES], others[PLACES];                                                                             \
        size_t count = 0, many = 0;                                                                                            \
        uint32_t answer = partial(bytes, length, 0, places, PLACES, &count);                                                   \
        expect(answer == PEF_OK || answer == PEF_TOO_SHORT || answer == PEF_BAD_TAG || answer == PEF_LOADER_SHORT, #partial);  \
        for (size_t i = 0; i < count; i++)                                                                                     \
            expect(is_part(places[i].slice, bytes, length), #partial ", a part");                                              \
        if (call(bytes, length, 0, others, PLACES, &many) != PEF_OK)                                                           \
            break;                                                                                                             \
        expect(answer == PEF_OK && many == count, #partial ", the same number of rows");                                       \
        for (size_t i = 0; i < many && i < count; i++)                                                                         \
            expect(is_same(places[i].slice, others[i].slice) && (fields), #partial ", the same row");                          \
    } while (0)

#define SAME(field) (places[i].field == others[i].field)

static void check_tables(const uint8_t *bytes, size_t length)
{
    CHECK_TABLE(pef_libraries, pef_partial_libraries, pef_library, name, SAME(current_version) && SAME(old_imp_version) && SAME(import_count) && SAME(first_import) && SAME(options));
    CHECK_TABLE(pef_imports, pef_partial_imports, pef_import, name, SAME(library) && SAME(symbol_class) && SAME(weak));
    CHECK_TABLE(pef_relocations, pef_partial_relocations, pef_relocation, instructions, SAME(section));
    CHECK_TABLE(pef_exports, pef_partial_exports, pef_export, name, SAME(section) && SAME(value) && SAME(symbol_class));
}

/* The additions of the first program are the same by both calls, if the container isn't damaged. */
static void check_fixups(const uint8_t *bytes, size_t length)
{
    static struct pef_fixup places[PLACES], others[PLACES];
    size_t count = 0, many = 0;
    uint32_t answer = pef_partial_fixups(bytes, length, 0, 0, places, PLACES, &count), other = pef_fixups(bytes, length, 0, 0, others, PLACES, &many);
    if (other == PEF_OK || other == PEF_NOT_THERE)
        expect(answer == other && count == many, "pef_partial_fixups, as many");
    for (size_t i = 0; other == PEF_OK && i < count; i++)
        expect(SAME(offset) && SAME(number) && SAME(kind), "pef_partial_fixups, the same addition");
}

/* Inspects a copy of a container with one byte turned. */
static void inspect(const uint8_t *bytes, size_t length, size_t at, uint8_t turned)
{
    static struct pef_finding rows[ROWS];
    uint8_t *copy = malloc(length == 0 ? 1 : length);
    if (copy == NULL)
        exit(2);
    memcpy(copy, bytes, length);
    if (at < length)
        copy[at] ^= turned;
    size_t count = find(copy, length, rows);
    check_rows(rows, count, length);
    check_more_notes(copy, length);
    check_against_readers(copy, length, rows, count);
    check_parts(copy, length);
    check_tables(copy, length);
    check_fixups(copy, length);
    free(copy);
}

static void inspect_file(const char *path)
{
    static const uint8_t turns[] = {0x01, 0x80, 0xff};
    size_t length;
    uint8_t *bytes = read_file(path, &length);
    if (bytes == NULL) {
        perror(path);
        exit(2);
    }
    inspect(bytes, length, length, 0);
    for (size_t at = 0; at < length; at++) {
        inspect(bytes, at, at, 0);
        for (size_t i = 0; i < sizeof turns; i++)
            inspect(bytes, length, at, turns[i]);
    }
    free(bytes);
}

int main(int count, char **words)
{
    if (count > 2) {
        fputs("usage: findings [FILE]\n", stderr);
        return 2;
    }
    if (count == 2) {
        inspect_file(words[1]);
    } else {
        test_by_hand();
        test_another_architecture();
        test_out_of_order();
        test_more_notes();
        test_many_notes();
        test_detail();
    }
    printf("%zu tried, %zu wrong\n", tried, wrong);
    return wrong == 0 ? 0 : 1;
}
