/*
 * Tries the calls that link, list and read a container, on a script, a container and a listing that docs/FORMATS.md shows, and those
 * that give certificates, places, names and help. What is expected is written by hand. What differs is printed, a line each, and the status is then 1.
 */
#include "expect.h"

/* Two transition vectors. The first is exported. */
static const char script[] =
    "versions 1 0 0\n"
    "section code code global 4 8\n"
    "section data data process 4 16\n"
    "bytes code 0011223344556677\n"
    "bytes data 00000000000000000000000400000000\n"
    "tvector data 0 code data\n"
    "tvector data 8 code data\n"
    "export go tvector data 0\n"
    "main data 0\n";

static const char lines[] =
    "container current 1 olddef 0 oldimp 0 date 0\n"
    "section 0 kind 0 share 4 align 4 total 8 unpacked 8 packed 8 default 00000000 name -\n"
    "section 1 kind 1 share 1 align 4 total 16 unpacked 16 packed 16 default 00000000 name -\n"
    "section 2 kind 4 share 4 align 4 total 0 unpacked 0 packed 90 default 00000000 name -\n"
    "main 1 00000000\n"
    "reloc section 1 halfwords 1\n"
    "4601 TVector8 2\n"
    "export go class 2 section 1 value 00000000\n";

/* The certificates of its sections, by the definition of labels in docs/CERTIFICATES.md. */
static const char certificates[] =
    "pefcert 2\n"
    "section 0\n"
    "fixups 0\n"
    "length 0\n"
    "program -\n"
    "registers *\n"
    "at 0 0 0\n"
    "section 1\n"
    "fixups 4\n"
    "length 1\n"
    "program 4601\n"
    "registers 0 1 *\n"
    "at 0 0 2 1 2 3 2 3 3 2 3\n"
    "at 1 1 3 2 3 2 3 3 3 3 3\n"
    "at 2 2 2 1 2 2 2 2 2 2 2\n"
    "at 3 3 1 1 1 1 1 1 1 1 1\n"
    "at 4 4 0 0 0 0 0 0 0 0 0\n"
    "end\n";

enum { LENGTH = 250, LINES = sizeof lines - 1, CERTIFICATES = sizeof certificates - 1 };

/* The container of the script. */
static uint8_t container[LENGTH];

static const struct pef_export no_export = {PEF_NO_BYTES, 7, 7, 7};

static void link_script(void)
{
    size_t written = 0, line = 0;
    EXPECT(pef_link(TEXT(script), container, LENGTH, &written, &line) == PEF_OK && written == LENGTH);
}

static void test_linked_and_listed(void)
{
    uint8_t buffer[512] = {0}, text[1024] = {0};
    size_t written = 0, line = 7;
    EXPECT(pef_link(TEXT(script), buffer, sizeof buffer, &written, &line) == PEF_OK && line == 0 && written == LENGTH);
    EXPECT(pef_list(buffer, LENGTH, text, sizeof text, &written) == PEF_OK && written == LINES);
    EXPECT(memcmp(text, lines, LINES) == 0);
}

/* The lines of certificates, in a buffer that is large enough by one byte more, and in one that isn't. */
static void test_distances(void)
{
    uint8_t buffer[CERTIFICATES + 1], unchanged[CERTIFICATES];
    size_t written = 0, line = 7;
    memset(buffer, 7, sizeof buffer);
    memset(unchanged, 7, sizeof unchanged);
    EXPECT(pef_distances(TEXT(script), buffer, CERTIFICATES - 1, &written, &line) == PEF_ROOM_TOO_SMALL);
    EXPECT(line == 0 && written == CERTIFICATES && memcmp(buffer, unchanged, CERTIFICATES) == 0);
    written = 3;
    EXPECT(pef_distances(TEXT("# a\nsection a\n"), buffer, sizeof buffer, &written, &line) == PEF_SCRIPT_BAD_LINE);
    EXPECT(line == 2 && written == 3 && memcmp(buffer, unchanged, CERTIFICATES) == 0);
    EXPECT(pef_distances(TEXT(script), buffer, sizeof buffer, &written, &line) == PEF_OK);
    EXPECT(line == 0 && written == CERTIFICATES && memcmp(buffer, certificates, CERTIFICATES) == 0 && buffer[CERTIFICATES] == 7);
}

/* A container is read part by part. */
static void test_parts(void)
{
    struct pef_header header = {7, 7, 7, 7, 7, 7, 7};
    struct pef_section section = {7, 7, 7, 7, 7, 7, 7, 7};
    struct pef_bytes raw = PEF_NO_BYTES;
    EXPECT(pef_header(container, LENGTH, &header) == PEF_OK);
    EXPECT(header.current_version == 1 && header.section_count == 3);
    EXPECT(header.instantiated_section_count == 2 && header.date_time_stamp == 0);
    EXPECT(pef_section(container, LENGTH, 0, &section, &raw) == PEF_OK);
    EXPECT(section.kind == PEF_KIND_CODE && section.share == PEF_SHARE_GLOBAL && section.total_size == 8);
    EXPECT(has(raw, "\x00\x11\x22\x33\x44\x55\x66\x77", 8));
    EXPECT(pef_section(container, LENGTH, 3, &section, &raw) == PEF_NOT_THERE);
    EXPECT(pef_section_name(container, LENGTH, 0, &raw) == PEF_NOT_THERE);
}

/* The tables of a loader section. */
static void test_tables(void)
{
    struct pef_export exports[3] = {no_export, no_export, no_export};
    size_t written = 7;
    EXPECT(pef_exports(container, LENGTH, 0, exports, 3, &written) == PEF_OK && written == 1);
    EXPECT(is_named(exports[0].name, "go") && exports[0].section == 1 && exports[0].symbol_class == PEF_CLASS_TVECTOR);
    EXPECT(exports[1].symbol_class == 7);
    EXPECT(pef_imports(container, LENGTH, 0, NULL, 0, &written) == PEF_OK && written == 0);
    written = 7;
    EXPECT(pef_libraries(container, LENGTH, 5, NULL, 0, &written) == PEF_OK && written == 0);
}

/* A relocation header has the bytes of its instructions (docs/FORMATS.md, section 7). */
static void test_relocations(void)
{
    struct pef_relocation places[2] = {{PEF_NO_BYTES, 7}, {PEF_NO_BYTES, 7}};
    size_t count = 7;
    EXPECT(pef_relocations(container, LENGTH, 0, places, 2, &count) == PEF_OK && count == 1);
    EXPECT(places[0].section == 1 && has(places[0].instructions, "\x46\x01", 2));
    EXPECT(places[1].section == 7);
    EXPECT(pef_relocations(container, LENGTH, 1, places, 2, &count) == PEF_OK && count == 0);
    EXPECT(pef_relocations(TEXT(""), 0, places, 2, &count) == PEF_TOO_SHORT && count == 0);
}

/* An export is found by its name (docs/FORMATS.md, section 7). */
static void test_named_exports(void)
{
    struct pef_export found = no_export;
    size_t number = 7;
    EXPECT(pef_export_named(container, LENGTH, TEXT("g"), &number, &found) == PEF_NOT_THERE);
    EXPECT(pef_export_named(TEXT(""), TEXT("go"), &number, &found) == PEF_TOO_SHORT);
    EXPECT(number == 7 && found.section == 7);
    EXPECT(pef_export_named(container, LENGTH, TEXT("go"), &number, &found) == PEF_OK);
    EXPECT(number == 0 && is_named(found.name, "go"));
    EXPECT(found.section == 1 && found.value == 0 && found.symbol_class == PEF_CLASS_TVECTOR);
}

/* If a buffer is too small, the length that is needed is reported. */
static void test_small_buffer(void)
{
    uint8_t buffer[LENGTH - 1], unchanged[LENGTH - 1];
    size_t written = 0, line = 7;
    memset(buffer, 7, sizeof buffer);
    memset(unchanged, 7, sizeof unchanged);
    EXPECT(pef_link(TEXT(script), buffer, sizeof buffer, &written, &line) == PEF_ROOM_TOO_SMALL);
    EXPECT(line == 0 && written == LENGTH);
    EXPECT(memcmp(buffer, unchanged, sizeof buffer) == 0);
}

/* A refusal is reported by its number, its line and its name. */
static void test_refusals(void)
{
    uint8_t buffer[8] = {7, 7, 7, 7, 7, 7, 7, 7};
    size_t written = 3, line = 0;
    struct pef_bytes name = PEF_NO_BYTES;
    EXPECT(pef_link(TEXT("# a\nsection a\n"), buffer, 8, &written, &line) == PEF_SCRIPT_BAD_LINE);
    EXPECT(line == 2 && written == 3);
    EXPECT(pef_list(TEXT(script), buffer, 8, &written) == PEF_BAD_TAG && written == 3);
    EXPECT(pef_name(PEF_BAD_TAG, &name) == PEF_OK && is_named(name, "BadTag"));
    EXPECT(pef_name(59, &name) == PEF_NOT_THERE && is_named(name, "BadTag"));
}

/* The help for a refusal and for an answer of the library are found by their numbers. */
static void test_help(void)
{
    struct pef_bytes help = PEF_NO_BYTES;
    EXPECT(pef_help(PEF_OUT_OF_MEMORY, &help) == PEF_OK);
    EXPECT(is_named(help, "An allocation failed. Give the program more memory."));
    EXPECT(pef_help(PEF_NOT_THERE, &help) == PEF_OK && is_named(help, "There is nothing under this number."));
    EXPECT(pef_help(100, &help) == PEF_NOT_THERE && pef_help(0, &help) == PEF_NOT_THERE);
    EXPECT(is_named(help, "There is nothing under this number."));
}

static void test_notes(void)
{
    struct pef_bytes name = PEF_NO_BYTES;
    EXPECT(pef_name(PEF_NOTE_RESERVED_NOT_ZERO, &name) == PEF_OK && is_named(name, "ReservedNotZero"));
    EXPECT(pef_name(PEF_NOTE_WORD_RELOCATED_TWICE, &name) == PEF_OK && is_named(name, "WordRelocatedTwice"));
    EXPECT(pef_name(PEF_NOTE_SECTIONS_OUT_OF_ORDER, &name) == PEF_OK && is_named(name, "SectionsOutOfOrder"));
    EXPECT(pef_help(PEF_NOTE_TRAILING_BYTES, &name) == PEF_OK && name.length > 20);
    EXPECT(pef_name(199, &name) == PEF_NOT_THERE && pef_help(199, &name) == PEF_NOT_THERE);
}

/* Packed bytes are expanded (docs/FORMATS.md, section 3). */
static void test_expand(void)
{
    uint8_t out[3] = {7, 7, 7};
    EXPECT(pef_expand((const uint8_t *)"\x41\x02\x7F", 3, out, 3) == PEF_OK && memcmp(out, "\x7F\x7F\x7F", 3) == 0);
    EXPECT(pef_expand((const uint8_t *)"\xA0", 1, out, 3) == PEF_PACKED_BAD_OPCODE);
}

/* Whether a place has these numbers. */
static bool is_at(const struct pef_place *place, uint32_t part, size_t row, size_t field, size_t offset)
{
    return place->part == part && place->row == row && place->field == field && place->offset == offset;
}

/* A library and two sections. The headers have 40 + 3 * 28 = 124 bytes. The bytes of section `a` are at 128, and the loader section at
 * 144, each at the next multiple of 16. */
static const char placed_script[] =
    "library L 1 0 -\n"
    "import v data strong\n"
    "section a data global 0 4\n"
    "section b data process 0 8\n"
    "bytes a 0000002A\n"
    "fix b 0 import v\n";

/* The kind of section 1, at 92, becomes that of a loader section. Fewer bytes than a header has are at no place. */
static void test_container_places(void)
{
    struct pef_bytes sound = linked(placed_script);
    struct pef_place place = {7, 7, 7, 7};
    uint8_t damaged[LONGEST_CONTAINER];
    EXPECT(pef_container_place(BYTES(sound), &place) == PEF_OK && is_at(&place, PEF_NOWHERE, 0, 0, PEF_NO_OFFSET));
    memcpy(damaged, sound.at, sound.length);
    damaged[92] = PEF_KIND_LOADER;
    EXPECT(pef_container_place(damaged, sound.length, &place) == PEF_BAD_SECTION_KIND && is_at(&place, PEF_SECTION_PART, 1, 24, 92));
    EXPECT(pef_container_place(TEXT("Joy!"), &place) == PEF_TOO_SHORT && is_at(&place, PEF_NOWHERE, 0, 0, PEF_NO_OFFSET));
}

/* The word that overlaps is in a line at 27 + 18, after six characters. */
static void test_script_places(void)
{
    static const char overlap[] = "section d data process 4 8\nfix d 0 section d\nfix d 2 section d\n";
    struct pef_place place = {7, 7, 7, 7};
    size_t earlier = 7;
    EXPECT(pef_script_place(TEXT(placed_script), &place, &earlier) == PEF_OK);
    EXPECT(is_at(&place, PEF_NOWHERE, 0, 0, PEF_NO_OFFSET) && earlier == 0);
    EXPECT(pef_script_place(TEXT(overlap), &place, &earlier) == PEF_SCRIPT_OVERLAP);
    EXPECT(is_at(&place, PEF_LINE_PART, 3, 2, 27 + 18 + 6) && earlier == 2);
    EXPECT(pef_script_place(TEXT("x\n"), &place, &earlier) == PEF_SCRIPT_BAD_LINE);
    EXPECT(is_at(&place, PEF_LINE_PART, 1, 0, 0) && earlier == 0);
}

/* A library that is missing is at its row, after the loader header of 56 bytes. */
static void test_prepare_places(void)
{
    struct pef_bytes user = linked(placed_script), library = linked("section l data process 4 4\nbytes l 0000002A\nexport v data l 0\n");
    struct pef_context context = PEF_NO_CONTEXT;
    struct pef_names names = PEF_NO_NAMES;
    struct pef_place place = {7, 7, 7, 7};
    uint32_t connection = 7;
    EXPECT(pef_prepare_with_place(&context, TEXT("A"), &connection, &names, &place) == PEF_NOT_OPEN);
    EXPECT(is_at(&place, 7, 7, 7, 7));
    EXPECT(pef_open(&context, 0x10000000) == PEF_OK && pef_add(&context, TEXT("A"), BYTES(user)) == PEF_OK);
    EXPECT(pef_prepare_with_place(&context, TEXT("A"), &connection, &names, &place) == PEF_LIBRARY_MISSING);
    EXPECT(is_at(&place, PEF_LIBRARY_PART, 0, 0, 144 + 56) && is_named(names.library, "L"));
    EXPECT(pef_add(&context, TEXT("L"), BYTES(library)) == PEF_OK);
    EXPECT(pef_prepare_with_place(&context, TEXT("A"), &connection, &names, &place) == PEF_OK && connection == 0);
    EXPECT(is_at(&place, PEF_LIBRARY_PART, 0, 0, 144 + 56));
    pef_free(&context);
}

int main(void)
{
    link_script();
    test_linked_and_listed();
    test_distances();
    test_parts();
    test_tables();
    test_relocations();
    test_named_exports();
    test_small_buffer();
    test_refusals();
    test_help();
    test_notes();
    test_expand();
    test_container_places();
    test_script_places();
    test_prepare_places();
    printf("%zu failures\n", failures);
    return failures == 0 ? 0 : 1;
}
