/*
 * Tests the structs and the numbers of pef.h: where each field lies, and what it holds. layout.h has the sizes, the offsets and the numbers.
 * The fields are read from real containers. Each has a value that no other field of its struct has, so two fields that are exchanged
 * show. What differs is printed, a line each, and the status is then 1.
 */
#include "../../include/pef.h"

#include <stdio.h>
#include <string.h>

/* A number that a place or a field has, and the one that it must have. */
struct number {
    const char *name;
    uint64_t found, wanted;
};

#define SIZE(type, wanted) {"the size of " #type, sizeof(struct type), wanted}
#define AT(type, field, wanted) {"the offset of " #type "." #field, offsetof(struct type, field), wanted}

#define IS(name, wanted) {#name, (uint64_t)(name), (uint64_t)(wanted)}

#include "layout.h"

static size_t compared, different;

static void compare(const struct number *numbers, size_t count)
{
    for (size_t i = 0; i < count; i++) {
        compared++;
        if (numbers[i].found == numbers[i].wanted)
            continue;
        different++;
        printf("%s: %llu and not %llu\n", numbers[i].name, (unsigned long long)numbers[i].found, (unsigned long long)numbers[i].wanted);
    }
}

#define COMPARE(numbers) compare(numbers, sizeof(numbers) / sizeof(numbers)[0])

/* Whether these bytes are found, as a number. */
static uint64_t has(struct pef_bytes found, const char *wanted, size_t length)
{
    return found.length == length && memcmp(found.at, wanted, length) == 0;
}

static uint64_t is_named(struct pef_bytes found, const char *wanted)
{
    return has(found, wanted, strlen(wanted));
}

static const char script[] =
    "versions 11 12 13\n"
    "library Tools 21 22 weak,before\n"
    "import draw tvector strong\n"
    "import beep code strong\n"
    "library Idle 23 24 -\n"
    "library Other 31 32 before\n"
    "import one data strong\n"
    "import two glue weak\n"
    "import three toc strong\n"
    "section a code global 4 16\n"
    "section b pattern protected 3 40\n"
    "section c const process 2 24\n"
    "section d exec protected 1 20\n"
    "section e data process 0 28\n"
    "bytes a 01020304\n"
    "bytes b 0000000000000000000000000000000005060708\n"
    "fix d 4 section b\n"
    "export one data a 4\n"
    "export two code b 8\n"
    "reexport three glue two\n"
    "export four toc e 20\n"
    "absolute five tvector 0x89ABCDEF\n"
    "export six code c 12\n"
    "main c 8\n"
    "init e 12\n"
    "term a 16\n";

/* The container of the script, with a date, and with a default address of section 1. Its packed bytes are at 224. */
enum { LENGTH = 556 };
static uint8_t container[LENGTH];

static void link_script(void)
{
    size_t written = 0, line = 0;
    const struct number numbers[] = {
        {"pef_link", pef_link((const uint8_t *)script, strlen(script), container, LENGTH, &written, &line), PEF_OK},
        {"the length of the container", written, LENGTH},
    };
    COMPARE(numbers);
    memcpy(container + 16, "\1\2\3\4", 4);
    memcpy(container + 72, "\5\6\7\10", 4);
}

static void test_header(void)
{
    struct pef_header it = {0};
    uint32_t answer = pef_header(container, LENGTH, &it);
    const struct number numbers[] = {
        {"pef_header", answer, PEF_OK},
        {"pef_header.date_time_stamp", it.date_time_stamp, 0x01020304},
        {"pef_header.old_def_version", it.old_def_version, 12},
        {"pef_header.old_imp_version", it.old_imp_version, 13},
        {"pef_header.current_version", it.current_version, 11},
        {"pef_header.section_count", it.section_count, 6},
        {"pef_header.instantiated_section_count", it.instantiated_section_count, 5},
        {"pef_header.architecture", it.architecture, 0x70777063},
    };
    COMPARE(numbers);
}

/* The kind of section 1, at 92, is that of a loader section, and then its own again. */
static void test_place(void)
{
    struct pef_place it = {0};
    uint8_t kind = container[92];
    container[92] = 4;
    uint32_t answer = pef_container_place(container, LENGTH, &it);
    container[92] = kind;
    const struct number numbers[] = {
        {"pef_container_place", answer, PEF_BAD_SECTION_KIND},
        {"pef_place.part", it.part, PEF_SECTION_PART},
        {"pef_place.row", it.row, 1},
        {"pef_place.field", it.field, 24},
        {"pef_place.offset", it.offset, 92},
    };
    COMPARE(numbers);
}

static void test_section(void)
{
    struct pef_section it = {0};
    struct pef_bytes raw = PEF_NO_BYTES;
    uint32_t answer = pef_section(container, LENGTH, 1, &it, &raw);
    const struct number numbers[] = {
        {"pef_section", answer, PEF_OK},
        {"pef_section.default_address", it.default_address, 0x05060708},
        {"pef_section.total_size", it.total_size, 40},
        {"pef_section.unpacked_size", it.unpacked_size, 20},
        {"pef_section.packed_size", it.packed_size, 6},
        {"pef_section.container_offset", it.container_offset, 224},
        {"pef_section.kind", it.kind, PEF_KIND_PACKED},
        {"pef_section.share", it.share, PEF_SHARE_PROTECTED},
        {"pef_section.alignment", it.alignment, 3},
        {"the packed bytes", has(raw, "\x10\x24\5\6\7\10", 6), true},
        {"pef_bytes.at", raw.at == container + 224, true},
        {"pef_bytes.length", raw.length, 6},
    };
    COMPARE(numbers);
}

static void test_loader(void)
{
    struct pef_loader it = {.term_section = 7};
    uint32_t answer = pef_loader(container, LENGTH, &it);
    const struct number numbers[] = {
        {"pef_loader", answer, PEF_OK},
        {"pef_loader.main_section", it.main_section, 2},
        {"pef_loader.main_offset", it.main_offset, 8},
        {"pef_loader.init_section", it.init_section, 4},
        {"pef_loader.init_offset", it.init_offset, 12},
        {"pef_loader.term_section", it.term_section, 0},
        {"pef_loader.term_offset", it.term_offset, 16},
        {"pef_loader.library_count", it.library_count, 3},
        {"pef_loader.import_count", it.import_count, 5},
        {"pef_loader.relocation_count", it.relocation_count, 1},
        {"pef_loader.export_count", it.export_count, 6},
    };
    COMPARE(numbers);
}

static void test_library(void)
{
    struct pef_library it = {.name = PEF_NO_BYTES};
    size_t count = 0;
    uint32_t answer = pef_libraries(container, LENGTH, 2, &it, 1, &count);
    const struct number numbers[] = {
        {"pef_libraries", answer, PEF_OK},
        {"the count of libraries", count, 1},
        {"pef_library.name", is_named(it.name, "Other"), true},
        {"pef_library.current_version", it.current_version, 31},
        {"pef_library.old_imp_version", it.old_imp_version, 32},
        {"pef_library.import_count", it.import_count, 3},
        {"pef_library.first_import", it.first_import, 2},
        {"pef_library.options", it.options, PEF_LIBRARY_INIT_BEFORE},
    };
    COMPARE(numbers);
}

static void test_imports(void)
{
    struct pef_import it[] = {{.name = PEF_NO_BYTES}, {.name = PEF_NO_BYTES}};
    size_t count = 0;
    uint32_t answer = pef_imports(container, LENGTH, 3, it, 2, &count);
    const struct number numbers[] = {
        {"pef_imports", answer, PEF_OK},
        {"the count of imports", count, 2},
        {"pef_import.name", is_named(it[0].name, "two"), true},
        {"pef_import.library", it[0].library, 2},
        {"pef_import.symbol_class", it[0].symbol_class, PEF_CLASS_GLUE},
        {"pef_import.weak", it[0].weak, true},
        {"pef_import.name, of the next", is_named(it[1].name, "three"), true},
        {"pef_import.weak, of the next", it[1].weak, false},
    };
    COMPARE(numbers);
}

static void test_relocation(void)
{
    struct pef_relocation it = {.instructions = PEF_NO_BYTES};
    size_t count = 0;
    uint32_t answer = pef_relocations(container, LENGTH, 0, &it, 1, &count);
    const struct number numbers[] = {
        {"pef_relocations", answer, PEF_OK},
        {"the count of relocation headers", count, 1},
        {"pef_relocation.instructions", has(it.instructions, "\x00\x41", 2), true},
        {"pef_relocation.section", it.section, 3},
    };
    COMPARE(numbers);
}

/* The one addition of the relocation header, and none of a header that doesn't exist. */
static void test_fixups(void)
{
    struct pef_fixup it[] = {{7, 7, 7}, {7, 7, 7}};
    size_t count = 7;
    uint32_t missing = pef_fixups(container, LENGTH, 1, 0, it, 2, &count);
    size_t unchanged = count;
    uint32_t answer = pef_fixups(container, LENGTH, 0, 0, it, 2, &count);
    const struct number numbers[] = {
        {"pef_fixups, of no header", missing, PEF_NOT_THERE},
        {"the count of additions, of no header", unchanged, 7},
        {"pef_fixups", answer, PEF_OK},
        {"the count of additions", count, 1},
        {"pef_fixup.offset", it[0].offset, 4},
        {"pef_fixup.number", it[0].number, 1},
        {"pef_fixup.kind", it[0].kind, PEF_FIXUP_SECTION},
        {"pef_fixup.offset, of the next place", it[1].offset, 7},
        {"pef_fixup.number, of the next place", it[1].number, 7},
        {"pef_fixup.kind, of the next place", it[1].kind, 7},
    };
    COMPARE(numbers);
}

/* An import that is passed on, an export in a section, and a number. */
static void test_exports(void)
{
    struct pef_export it[] = {{.name = PEF_NO_BYTES}, {.name = PEF_NO_BYTES}, {.name = PEF_NO_BYTES}};
    size_t count = 0;
    uint32_t answer = pef_exports(container, LENGTH, 2, it, 3, &count);
    const struct number numbers[] = {
        {"pef_exports", answer, PEF_OK},
        {"the count of exports", count, 3},
        {"pef_export.name, of the import", is_named(it[0].name, "three"), true},
        {"pef_export.section, of the import", it[0].section == PEF_REEXPORT, true},
        {"pef_export.value, of the import", it[0].value, 3},
        {"pef_export.symbol_class, of the import", it[0].symbol_class, PEF_CLASS_GLUE},
        {"pef_export.name", is_named(it[1].name, "four"), true},
        {"pef_export.section", it[1].section, 4},
        {"pef_export.value", it[1].value, 20},
        {"pef_export.symbol_class", it[1].symbol_class, PEF_CLASS_TOC},
        {"pef_export.name, of the number", is_named(it[2].name, "five"), true},
        {"pef_export.section, of the number", it[2].section == PEF_ABSOLUTE, true},
        {"pef_export.value, of the number", it[2].value, 0x89ABCDEF},
        {"pef_export.symbol_class, of the number", it[2].symbol_class, PEF_CLASS_TVECTOR},
    };
    COMPARE(numbers);
}

/* The containers of fragments, which stay until the program ends. */
enum { ROOMS = 24, ROOM = 512 };
static uint8_t rooms[ROOMS][ROOM];
static size_t used_rooms;

/* Adds the container of a script, and returns the answer of the call that fails, if one does. */
static uint32_t add_script(struct pef_context *context, const char *name, const char *text)
{
    size_t written = 0, line = 0;
    uint8_t *room = rooms[used_rooms++];
    uint32_t answer = pef_link((const uint8_t *)text, strlen(text), room, ROOM, &written, &line);
    return answer != PEF_OK ? answer : pef_add(context, (const uint8_t *)name, strlen(name), room, written);
}

/* Opens a context in which the fragment of a script is prepared, as its connection 0. */
static uint32_t prepare_script(struct pef_context *context, const char *text)
{
    struct pef_names names = PEF_NO_NAMES;
    uint32_t connection = 7;
    uint32_t answer = pef_open(context, 0x10000000);
    if (answer == PEF_OK)
        answer = add_script(context, "A", text);
    if (answer == PEF_OK)
        answer = pef_prepare(context, (const uint8_t *)"A", 1, &connection, &names);
    return answer == PEF_OK ? connection : answer;
}

/* The second section is after the eight bytes of the first, at the next multiple of 16. */
static void test_fragment_section(void)
{
    struct pef_context context = {0};
    struct pef_fragment_section it = {0};
    bool was_open = context.is_open;
    uint32_t prepared = prepare_script(&context, "section a code global 4 8\nsection b pattern protected 3 40\n");
    bool is_open = context.is_open, has_handle = context.handle != NULL;
    uint32_t answer = pef_fragment_section(&context, 0, 0, 1, &it);
    pef_free(&context);
    const struct number numbers[] = {
        {"pef_prepare", prepared, 0},
        {"pef_context.is_open, at first", was_open, false},
        {"pef_context.is_open", is_open, true},
        {"pef_context.handle", has_handle, true},
        {"pef_context.is_open, after pef_free", context.is_open, false},
        {"pef_fragment_section", answer, PEF_OK},
        {"pef_fragment_section.address", it.address, 0x00010010},
        {"pef_fragment_section.size", it.size, 40},
        {"pef_fragment_section.kind", it.kind, PEF_KIND_PACKED},
        {"pef_fragment_section.share", it.share, PEF_SHARE_PROTECTED},
    };
    COMPARE(numbers);
}

/* A listing is open from pef_list_open to pef_list_free. */
static void test_listing(void)
{
    struct pef_listing it = PEF_NO_LISTING;
    bool was_open = it.is_open;
    uint32_t answer = pef_list_open(&it, container, LENGTH);
    bool is_open = it.is_open, has_handle = it.handle != NULL;
    pef_list_free(&it);
    const struct number numbers[] = {
        {"pef_list_open", answer, PEF_OK},
        {"pef_listing.is_open, at first", was_open, false},
        {"pef_listing.is_open", is_open, true},
        {"pef_listing.handle", has_handle, true},
        {"pef_listing.is_open, after pef_list_free", it.is_open, false},
    };
    COMPARE(numbers);
}

/* Tests the entries of a fragment whose section is at 00010000. The address of one that isn't there is 0. */
static void test_entries_of(const char *text, uint32_t main, uint32_t init, uint32_t term)
{
    struct pef_context context = {0};
    struct pef_entries it = {7, 7, 7, init == 0, main == 0, term == 0};
    uint32_t prepared = prepare_script(&context, text);
    uint32_t answer = pef_fragment_entries(&context, 0, 0, &it);
    pef_free(&context);
    const struct number numbers[] = {
        {"pef_prepare", prepared, 0},
        {"pef_fragment_entries", answer, PEF_OK},
        {"pef_entries.init", it.init, init},
        {"pef_entries.main", it.main, main},
        {"pef_entries.term", it.term, term},
        {"pef_entries.has_init", it.has_init, init != 0},
        {"pef_entries.has_main", it.has_main, main != 0},
        {"pef_entries.has_term", it.has_term, term != 0},
    };
    COMPARE(numbers);
}

static void test_entries(void)
{
    test_entries_of("section a data process 4 16\nmain a 4\ninit a 8\nterm a 12\n", 0x00010004, 0x00010008, 0x0001000C);
    test_entries_of("section a data process 4 16\nmain a 4\n", 0x00010004, 0, 0);
    test_entries_of("section a data process 4 16\ninit a 8\n", 0, 0x00010008, 0);
    test_entries_of("section a data process 4 16\nterm a 12\n", 0, 0, 0x0001000C);
}

/* An import from a library whose second section is after the four bytes of the first, at the next multiple of 16. */
static void test_target(void)
{
    struct pef_context context = {0};
    struct pef_names names = PEF_NO_NAMES;
    struct pef_target it = {0};
    uint32_t connection = 7;
    uint32_t opened = pef_open(&context, 0x10000000);
    uint32_t user = add_script(&context, "User", "library N 1 0 -\nimport v data strong\nsection a data process 4 4\n");
    uint32_t library = add_script(&context, "N", "versions 1 0 0\nsection k const process 2 4\nsection l data process 4 8\nexport v data l 4\n");
    uint32_t prepared = pef_prepare(&context, (const uint8_t *)"User", 4, &connection, &names);
    uint32_t answer = pef_import_target(&context, connection, 0, 0, &it);
    pef_free(&context);
    const struct number numbers[] = {
        {"pef_open", opened, PEF_OK},
        {"pef_add, of the user", user, PEF_OK},
        {"pef_add, of the library", library, PEF_OK},
        {"pef_prepare", prepared, PEF_OK},
        {"pef_import_target", answer, PEF_OK},
        {"pef_target.kind", it.kind, PEF_TARGET_IN_SECTION},
        {"pef_target.fragment", it.fragment, 1},
        {"pef_target.section", it.section, 1},
        {"pef_target.offset", it.offset, 4},
        {"pef_target.address", it.address, 0x00010014},
    };
    COMPARE(numbers);
}

/* A library that is there in a version that doesn't fit, and that a library of the fragment names. */
static void test_missing(void)
{
    struct pef_context context = {0};
    struct pef_names names = PEF_NO_NAMES;
    struct pef_missing it = {0};
    size_t count = 7;
    uint32_t opened = pef_open(&context, 0x10000000);
    uint32_t user = add_script(&context, "User", "library L 0 0 -\n");
    uint32_t library = add_script(&context, "L", "library M 5 4 weak\n");
    uint32_t other = add_script(&context, "M", "versions 3 2 1\n");
    uint32_t answer = pef_missing(&context, (const uint8_t *)"User", 4, 0, &it, 1, &count, &names);
    pef_free(&context);
    const struct number numbers[] = {
        {"pef_open", opened, PEF_OK},
        {"pef_add, of the user", user, PEF_OK},
        {"pef_add, of the library", library, PEF_OK},
        {"pef_add, of its library", other, PEF_OK},
        {"pef_missing", answer, PEF_OK},
        {"count", count, 1},
        {"pef_missing.name", is_named(it.name, "M"), true},
        {"pef_missing.fragment", it.fragment, 1},
        {"pef_missing.current_version", it.current_version, 5},
        {"pef_missing.old_imp_version", it.old_imp_version, 4},
        {"pef_missing.found_version", it.found_version, 3},
        {"pef_missing.found_old_def_version", it.found_old_def_version, 2},
        {"pef_missing.is_weak", it.is_weak, true},
        {"pef_missing.is_found", it.is_found, true},
    };
    COMPARE(numbers);
}

/* The second section of a library of the fragment. */
static void test_new_section(void)
{
    struct pef_context context = {0};
    struct pef_names names = PEF_NO_NAMES;
    struct pef_new_section it = {0};
    size_t count = 7;
    uint32_t opened = pef_open(&context, 0x10000000);
    uint32_t user = add_script(&context, "User", "library L 0 0 -\nsection code code global 4 4\n");
    uint32_t library = add_script(&context, "L", "section code code global 4 4\nsection data data process 6 100\n");
    uint32_t answer = pef_new_sections(&context, (const uint8_t *)"User", 4, 1, &it, 1, &count, &names);
    pef_free(&context);
    const struct number numbers[] = {
        {"pef_open", opened, PEF_OK},
        {"pef_add, of the user", user, PEF_OK},
        {"pef_add, of the library", library, PEF_OK},
        {"pef_new_sections", answer, PEF_OK},
        {"count", count, 1},
        {"pef_new_section.fragment", it.fragment, 1},
        {"pef_new_section.section", it.section, 1},
        {"pef_new_section.kind", it.kind, PEF_KIND_DATA},
        {"pef_new_section.share", it.share, PEF_SHARE_PROCESS},
        {"pef_new_section.size", it.size, 112},
        {"pef_new_section.alignment", it.alignment, 64},
    };
    COMPARE(numbers);
}

/* A symbol that a library lacks is reported with all three names. */
static void test_names(void)
{
    struct pef_context context = {0};
    struct pef_names it = PEF_NO_NAMES;
    uint32_t connection = 7;
    uint32_t opened = pef_open(&context, 0x10000000);
    uint32_t user = add_script(&context, "User", "library L 1 0 -\nimport w data strong\n");
    uint32_t library = add_script(&context, "L", "versions 1 0 0\nabsolute v data 0\n");
    uint32_t prepared = pef_prepare(&context, (const uint8_t *)"User", 4, &connection, &it);
    pef_free(&context);
    const struct number numbers[] = {
        {"pef_open", opened, PEF_OK},
        {"pef_add, of the user", user, PEF_OK},
        {"pef_add, of the library", library, PEF_OK},
        {"pef_prepare", prepared, PEF_SYMBOL_MISSING},
        {"pef_names.fragment", is_named(it.fragment, "User"), true},
        {"pef_names.library", is_named(it.library, "L"), true},
        {"pef_names.symbol", is_named(it.symbol, "w"), true},
    };
    COMPARE(numbers);
}

int main(void)
{
    COMPARE(places);
    COMPARE(constants);
    link_script();
    test_header();
    test_place();
    test_section();
    test_loader();
    test_library();
    test_imports();
    test_relocation();
    test_fixups();
    test_exports();
    test_fragment_section();
    test_listing();
    test_entries();
    test_target();
    test_missing();
    test_new_section();
    test_names();
    printf("%zu numbers, %zu of them differ\n", compared, different);
    return different == 0 ? 0 : 1;
}
