/*
 * Prepares fragments whose scripts are here, and compares what a context says of them with what is written by hand: sections, memory,
 * entry points, imports and exports; what is missing, new, present and released; addresses out of use; options; and refusals with their names.
 * What differs is printed, a line each, and the status is then 1.
 */
#include "expect.h"

/* A fragment that imports the address of a word of a library, and is initialized after it. */
static const char user[] =
    "library L 1 0 before\n"
    "import v data strong\n"
    "section a data global 4 8\n"
    "fix a 0 import v\n"
    "export own data a 4\n"
    "main a 4\n";

static const char library[] =
    "versions 1 0 0\n"
    "section l data process 4 4\n"
    "bytes l 0000002A\n"
    "export v data l 0\n";

static const uint32_t limit = 0x10000000;

static void add(struct pef_context *context, const char *name, const char *script)
{
    struct pef_bytes container = linked(script);
    EXPECT(pef_add(context, TEXT(name), BYTES(container)) == PEF_OK);
}

/* Opens a context over the fragment, and over its library if that is wanted. */
static void open_user(struct pef_context *context, bool with_library)
{
    EXPECT(pef_open(context, limit) == PEF_OK);
    add(context, "A", user);
    if (with_library)
        add(context, "L", library);
}

/* Prepares a fragment, whose connection has this number. */
static void prepare(struct pef_context *context, const char *name, uint32_t wanted)
{
    struct pef_names names = PEF_NO_NAMES;
    uint32_t connection = 7;
    EXPECT(pef_prepare(context, TEXT(name), &connection, &names) == PEF_OK && connection == wanted);
}

static bool are_three(const size_t *places, size_t first, size_t second, size_t third)
{
    return places[0] == first && places[1] == second && places[2] == third;
}

/* The fragments of the connection, and their names. */
static void expect_fragments(struct pef_context *context)
{
    size_t places[3] = {7, 7, 7}, one[1] = {7}, count = 7;
    struct pef_bytes name = PEF_NO_BYTES;
    EXPECT(pef_fragments(context, 0, places, 3, &count) == PEF_OK);
    EXPECT(are_three(places, 1, 0, 7) && count == 2);
    EXPECT(pef_init_order(context, 0, places, 3, &count) == PEF_OK);
    EXPECT(are_three(places, 1, 0, 7) && count == 2);
    EXPECT(pef_fragments(context, 0, one, 1, &count) == PEF_ROOM_TOO_SMALL);
    EXPECT(one[0] == 7 && count == 2);
    EXPECT(pef_fragment_name(context, 1, &name) == PEF_OK && is_named(name, "L"));
    EXPECT(pef_fragment_name(context, 2, &name) == PEF_NOT_THERE);
}

/* What the fragment has in memory: its word is the library's address. */
static void expect_memory(struct pef_context *context)
{
    struct pef_fragment_section section = {7, 7, 7, 7};
    uint8_t buffer[9] = {7, 7, 7, 7, 7, 7, 7, 7, 7};
    size_t count = 7;
    EXPECT(pef_fragment_sections(context, 0, &count) == PEF_OK && count == 1);
    EXPECT(pef_fragment_section(context, 0, 0, 0, &section) == PEF_OK);
    EXPECT(section.address == 0x00010010 && section.size == 8);
    EXPECT(section.kind == PEF_KIND_DATA && section.share == PEF_SHARE_GLOBAL);
    EXPECT(pef_fragment_section(context, 0, 0, 1, &section) == PEF_NOT_THERE);
    EXPECT(pef_fragment_bytes(context, 0, 0, buffer, 9, &count) == PEF_OK && count == 8);
    EXPECT(memcmp(buffer, "\x00\x01\x00\x00\x00\x00\x00\x00\x07", 9) == 0);
}

/* The fragment's entry points and the exports. */
static void expect_addresses(struct pef_context *context)
{
    struct pef_entries entries = {7, 7, 7, true, false, true};
    uint32_t address = 7;
    EXPECT(pef_fragment_entries(context, 0, 0, &entries) == PEF_OK);
    EXPECT(entries.has_main && entries.main == 0x00010014);
    EXPECT(!entries.has_init && entries.init == 0 && !entries.has_term && entries.term == 0);
    EXPECT(pef_fragment_symbol(context, 0, 1, TEXT("v"), &address) == PEF_OK && address == 0x00010000);
    EXPECT(pef_fragment_symbol(context, 0, 0, TEXT("v"), &address) == PEF_NOT_THERE && address == 0x00010000);
}

/* A fragment and its library are prepared, read, and closed. */
static void test_prepared(void)
{
    struct pef_context context = PEF_NO_CONTEXT;
    size_t count = 7;
    open_user(&context, true);
    prepare(&context, "A", 0);
    expect_fragments(&context);
    expect_memory(&context);
    expect_addresses(&context);
    EXPECT(pef_add(&context, TEXT("B"), TEXT("")) == PEF_OK);
    EXPECT(pef_close(&context, 0) == PEF_OK);
    EXPECT(pef_close(&context, 0) == PEF_BAD_CONNECTION);
    EXPECT(pef_fragment_sections(&context, 0, &count) == PEF_OK && count == 0);
    pef_free(&context);
}

/* The second connection places what the first one lacks, and closing it releases that alone. */
static void test_new_and_released(void)
{
    struct pef_context context = PEF_NO_CONTEXT;
    size_t places[3] = {7, 7, 7}, count = 7;
    open_user(&context, true);
    prepare(&context, "L", 0);
    prepare(&context, "A", 1);
    EXPECT(pef_new_fragments(&context, 0, places, 3, &count) == PEF_OK);
    EXPECT(are_three(places, 1, 7, 7) && count == 1);
    EXPECT(pef_new_fragments(&context, 1, places, 3, &count) == PEF_OK);
    EXPECT(are_three(places, 0, 7, 7) && count == 1);
    EXPECT(pef_new_fragments(&context, 2, places, 3, &count) == PEF_NOT_THERE);
    EXPECT(pef_released_by(&context, 0, places, 3, &count) == PEF_OK);
    EXPECT(are_three(places, 0, 7, 7) && count == 0);
    EXPECT(pef_close(&context, 0) == PEF_OK);
    EXPECT(pef_released_by(&context, 0, places, 3, &count) == PEF_NOT_THERE);
    EXPECT(pef_released_by(&context, 1, NULL, 0, &count) == PEF_ROOM_TOO_SMALL && count == 2);
    EXPECT(pef_released_by(&context, 1, places, 3, &count) == PEF_OK);
    EXPECT(are_three(places, 0, 1, 7) && count == 2);
    pef_free(&context);
    EXPECT(pef_released_by(&context, 1, places, 3, &count) == PEF_NOT_OPEN);
    EXPECT(pef_new_fragments(&context, 1, places, 3, &count) == PEF_NOT_OPEN);
    EXPECT(are_three(places, 0, 1, 7) && count == 2);
}

static bool has_presence(struct pef_context *context, const char *name, bool wanted)
{
    bool is_present = !wanted;
    return pef_is_present(context, TEXT(name), &is_present) == PEF_OK && is_present == wanted;
}

/* The library is present until no connection needs it. A name that was not added is never that of a fragment. */
static void test_present(void)
{
    struct pef_context context = PEF_NO_CONTEXT;
    bool is_present = true;
    open_user(&context, true);
    EXPECT(has_presence(&context, "L", false));
    prepare(&context, "A", 0);
    prepare(&context, "L", 1);
    EXPECT(has_presence(&context, "A", true));
    EXPECT(pef_close(&context, 0) == PEF_OK);
    EXPECT(has_presence(&context, "A", false));
    EXPECT(has_presence(&context, "L", true));
    EXPECT(has_presence(&context, "M", false));
    EXPECT(has_presence(&context, "", false));
    EXPECT(pef_close(&context, 1) == PEF_OK);
    EXPECT(has_presence(&context, "L", false));
    pef_free(&context);
    EXPECT(pef_is_present(&context, TEXT("L"), &is_present) == PEF_NOT_OPEN && is_present);
}

/* Sections are placed around a range until it is given back, and no range meets a section or another range. */
static void test_reserved(void)
{
    struct pef_context context = PEF_NO_CONTEXT;
    uint32_t address = 7;
    open_user(&context, true);
    EXPECT(pef_reserve(&context, 0x00010001, 15) == PEF_OK);
    EXPECT(pef_reserve(&context, 0x0001000F, 1) == PEF_NO_ROOM);
    EXPECT(pef_reserve(&context, 0x0001000F, 0) == PEF_OK);
    EXPECT(pef_reserve(&context, 0xFFFFFFF0, 17) == PEF_NO_ROOM);
    prepare(&context, "L", 0);
    EXPECT(pef_export_address(&context, 0, 1, 0, &address) == PEF_OK && address == 0x00010010);
    EXPECT(pef_reserve(&context, 0x0001001F, 1) == PEF_NO_ROOM);
    EXPECT(pef_close(&context, 0) == PEF_OK);
    EXPECT(pef_reserve(&context, 0x00010010, 16) == PEF_OK);
    EXPECT(pef_unreserve(&context, 0x00010000, 32) == PEF_NOT_THERE);
    EXPECT(pef_unreserve(&context, 0x00010020, 1) == PEF_NOT_THERE);
    EXPECT(pef_unreserve(&context, 0x00010020, 0) == PEF_OK);
    EXPECT(pef_unreserve(&context, 0x0001000F, 1) == PEF_OK);
    EXPECT(pef_unreserve(&context, 0x00010000, 16) == PEF_NOT_THERE);
    prepare(&context, "L", 1);
    EXPECT(pef_export_address(&context, 1, 1, 0, &address) == PEF_OK && address == 0x00010000);
    pef_free(&context);
    EXPECT(pef_reserve(&context, 0, 1) == PEF_NOT_OPEN);
    EXPECT(pef_unreserve(&context, 0, 1) == PEF_NOT_OPEN);
}

/* Three imports of a library: a place, a number, and a weak one that it lacks. */
static const char importing[] =
    "library N 1 0 -\n"
    "import v data strong\n"
    "import n data strong\n"
    "import x data weak\n"
    "section a data process 4 4\n";

static const char exporting[] =
    "versions 1 0 0\n"
    "section k const process 2 4\n"
    "section l data process 4 8\n"
    "export v data l 4\n"
    "absolute n data 0x89ABCDEF\n";

static bool is_target(struct pef_target found, struct pef_target wanted)
{
    return found.kind == wanted.kind && found.fragment == wanted.fragment && found.section == wanted.section
        && found.offset == wanted.offset && found.address == wanted.address;
}

/* The library is fragment 1. Its second section is after the four bytes of the first, at the next multiple of 16. */
static void test_meanings(void)
{
    static const struct pef_target unread = {7, 7, 7, 7, 7};
    static const struct pef_target wanted[] = {
        {PEF_TARGET_IN_SECTION, 1, 1, 4, 0x00010014},
        {PEF_TARGET_ABSOLUTE, 0, 0, 0, 0x89ABCDEF},
        {PEF_TARGET_MISSING, 0, 0, 0, 0},
    };
    struct pef_context context = PEF_NO_CONTEXT;
    struct pef_target target;
    uint32_t address = 7;
    EXPECT(pef_open(&context, limit) == PEF_OK);
    add(&context, "A", importing);
    add(&context, "N", exporting);
    prepare(&context, "A", 0);
    for (size_t i = 0; i < 3; i++) {
        target = unread;
        EXPECT(pef_import_target(&context, 0, 0, i, &target) == PEF_OK && is_target(target, wanted[i]));
    }
    target = unread;
    EXPECT(pef_import_target(&context, 0, 0, 3, &target) == PEF_NOT_THERE);
    EXPECT(pef_import_target(&context, 0, 1, 0, &target) == PEF_NOT_THERE);
    EXPECT(pef_import_target(&context, 1, 0, 0, &target) == PEF_NOT_THERE);
    EXPECT(is_target(target, unread));
    EXPECT(pef_export_address(&context, 0, 1, 2, &address) == PEF_NOT_THERE);
    EXPECT(pef_export_address(&context, 0, 0, 0, &address) == PEF_NOT_THERE);
    EXPECT(address == 7);
    pef_free(&context);
    EXPECT(pef_import_target(&context, 0, 0, 0, &target) == PEF_NOT_OPEN);
    EXPECT(pef_export_address(&context, 0, 1, 0, &address) == PEF_NOT_OPEN);
}

/* Exports of each kind, some of which pass on the imports of `importing`. Two are at one place. */
static const char passing[] =
    "library N 1 0 -\n"
    "import v data strong\n"
    "import n data strong\n"
    "import x code weak\n"
    "section a data process 4 16\n"
    "export low tvector a 4\n"
    "export twin data a 4\n"
    "export high code a 12\n"
    "absolute none glue 0\n"
    "reexport v data v\n"
    "reexport n data n\n"
    "reexport gone data x\n";

/* What is expected of an export by its name. Those that pass no import on have the import 0. */
struct passed {
    const char *name;
    struct pef_target target;
    size_t import_number;
    uint8_t symbol_class;
    bool is_reexport;
};

/* The section of fragment 0 is after the second one of the library, which is fragment 1. */
static const struct passed passed[] = {
    {"low", {PEF_TARGET_IN_SECTION, 0, 0, 4, 0x00010024}, 0, PEF_CLASS_TVECTOR, false},
    {"twin", {PEF_TARGET_IN_SECTION, 0, 0, 4, 0x00010024}, 0, PEF_CLASS_DATA, false},
    {"high", {PEF_TARGET_IN_SECTION, 0, 0, 12, 0x0001002C}, 0, PEF_CLASS_CODE, false},
    {"none", {PEF_TARGET_ABSOLUTE, 0, 0, 0, 0}, 0, PEF_CLASS_GLUE, false},
    {"v", {PEF_TARGET_IN_SECTION, 1, 1, 4, 0x00010014}, 0, PEF_CLASS_DATA, true},
    {"n", {PEF_TARGET_ABSOLUTE, 0, 0, 0, 0x89ABCDEF}, 1, PEF_CLASS_DATA, true},
    {"gone", {PEF_TARGET_MISSING, 0, 0, 0, 0}, 2, PEF_CLASS_DATA, true},
};

enum { PASSED = sizeof passed / sizeof passed[0] };

static bool is_passed(struct pef_fragment_export found, const struct passed *wanted)
{
    return is_named(found.name, wanted->name) && is_target(found.target, wanted->target) && found.import_number == wanted->import_number
        && found.symbol_class == wanted->symbol_class && found.is_reexport == wanted->is_reexport;
}

static void expect_passed(struct pef_context *context, struct pef_bytes container)
{
    struct pef_fragment_export found = {.number = 7}, numbered = {.number = 7};
    struct pef_export row;
    size_t number = 7, count = 7;
    uint32_t address = 7;
    EXPECT(pef_fragment_exports(context, 0, 0, &count) == PEF_OK && count == PASSED);
    for (size_t i = 0; i < PASSED; i++) {
        const char *name = passed[i].name;
        EXPECT(pef_fragment_export_named(context, 0, 0, TEXT(name), &found) == PEF_OK && is_passed(found, &passed[i]));
        EXPECT(pef_export_named(BYTES(container), TEXT(name), &number, &row) == PEF_OK && found.number == number);
        EXPECT(pef_fragment_export(context, 0, 0, number, &numbered) == PEF_OK && is_passed(numbered, &passed[i]) && numbered.number == number);
        EXPECT(pef_export_address(context, 0, 0, number, &address) == PEF_OK && address == passed[i].target.address);
    }
    found.number = count = 7;
    EXPECT(pef_fragment_export(context, 0, 0, PASSED, &found) == PEF_NOT_THERE);
    EXPECT(pef_fragment_export_named(context, 0, 0, TEXT("lo"), &found) == PEF_NOT_THERE);
    EXPECT(pef_fragment_export(context, 1, 0, 0, &found) == PEF_NOT_THERE && pef_fragment_export(context, 0, 2, 0, &found) == PEF_NOT_THERE);
    EXPECT(pef_fragment_exports(context, 1, 0, &count) == PEF_NOT_THERE && pef_fragment_exports(context, 0, 2, &count) == PEF_NOT_THERE);
    EXPECT(found.number == 7 && count == 7);
}

static void expect_imports(struct pef_context *context, struct pef_bytes container)
{
    struct pef_import found = {.library = 7};
    size_t number = 7;
    EXPECT(pef_import_named(BYTES(container), TEXT("x"), &number, &found) == PEF_OK && number == 2);
    EXPECT(is_named(found.name, "x") && found.library == 0 && found.symbol_class == PEF_CLASS_CODE && found.weak);
    EXPECT(pef_import_named(BYTES(container), TEXT("high"), &number, &found) == PEF_NOT_THERE && number == 2 && found.weak);
    EXPECT(pef_import_named(BYTES(container), TEXT(""), &number, &found) == PEF_NOT_THERE);
    EXPECT(pef_import_named(container.at, 40, TEXT("x"), &number, &found) != PEF_OK && number == 2);
    EXPECT(pef_fragment_import_named(context, 0, 0, TEXT("n"), &number) == PEF_OK && number == 1);
    EXPECT(pef_fragment_import_named(context, 0, 0, TEXT("high"), &number) == PEF_NOT_THERE);
    EXPECT(pef_fragment_import_named(context, 0, 1, TEXT("n"), &number) == PEF_NOT_THERE);
    EXPECT(pef_fragment_import_named(context, 1, 0, TEXT("n"), &number) == PEF_NOT_THERE && number == 1);
}

/* Where an address is: the name of the nearest export, and its offset. No name is no export. Twins are told apart by their numbers. */
struct located {
    uint32_t address;
    size_t fragment, section;
    uint32_t offset;
    const char *nearest;
    uint32_t nearest_offset;
};

static void expect_located(struct pef_context *context, const char *first)
{
    const struct located located[] = {
        {0x00010000, 1, 0, 0, NULL, 0},
        {0x00010003, 1, 0, 3, NULL, 0},
        {0x00010013, 1, 1, 3, NULL, 0},
        {0x00010014, 1, 1, 4, "v", 4},
        {0x00010017, 1, 1, 7, "v", 4},
        {0x00010020, 0, 0, 0, NULL, 0},
        {0x00010023, 0, 0, 3, NULL, 0},
        {0x00010024, 0, 0, 4, first, 4},
        {0x0001002B, 0, 0, 11, first, 4},
        {0x0001002C, 0, 0, 12, "high", 12},
        {0x0001002F, 0, 0, 15, "high", 12},
    };
    static const uint32_t nowhere[] = {0, 0x0000FFFF, 0x00010004, 0x0001000F, 0x00010018, 0x00010030, 0xFFFFFFFF};
    struct pef_location it;
    for (size_t i = 0; i < sizeof located / sizeof located[0]; i++) {
        const struct located *wanted = &located[i];
        memset(&it, 0xFF, sizeof it);
        EXPECT(pef_at(context, wanted->address, &it) == PEF_OK && it.connection == 0);
        EXPECT(it.fragment == wanted->fragment && it.section == wanted->section && it.offset == wanted->offset);
        EXPECT(it.has_nearest == (wanted->nearest != NULL) && is_named(it.nearest.name, wanted->nearest == NULL ? "" : wanted->nearest));
        EXPECT(it.nearest.target.offset == wanted->nearest_offset && it.nearest.target.kind == (wanted->nearest == NULL ? PEF_TARGET_MISSING : PEF_TARGET_IN_SECTION));
    }
    it.offset = 7;
    for (size_t i = 0; i < sizeof nowhere / sizeof nowhere[0]; i++)
        EXPECT(pef_at(context, nowhere[i], &it) == PEF_NOT_THERE && it.offset == 7);
}

/* A second connection has the library alone. */
static void expect_located_later(struct pef_context *context)
{
    struct pef_location it = {.connection = 7};
    prepare(context, "N", 1);
    EXPECT(pef_at(context, 0x00010014, &it) == PEF_OK && it.connection == 0);
    EXPECT(pef_close(context, 0) == PEF_OK);
    EXPECT(pef_at(context, 0x00010014, &it) == PEF_OK && it.connection == 1 && it.fragment == 1 && is_named(it.nearest.name, "v"));
    EXPECT(pef_at(context, 0x00010024, &it) == PEF_NOT_THERE);
}

static void test_passed(void)
{
    struct pef_context context = PEF_NO_CONTEXT;
    struct pef_bytes container = linked(passing);
    struct pef_fragment_export low = {.number = 7}, twin = {.number = 7};
    struct pef_location it = {.connection = 7};
    size_t number = 7;
    EXPECT(pef_open(&context, limit) == PEF_OK);
    EXPECT(pef_add(&context, TEXT("A"), BYTES(container)) == PEF_OK);
    add(&context, "N", exporting);
    prepare(&context, "A", 0);
    expect_passed(&context, container);
    expect_imports(&context, container);
    EXPECT(pef_fragment_export_named(&context, 0, 0, TEXT("low"), &low) == PEF_OK && pef_fragment_export_named(&context, 0, 0, TEXT("twin"), &twin) == PEF_OK);
    expect_located(&context, low.number < twin.number ? "low" : "twin");
    expect_located_later(&context);
    pef_free(&context);
    EXPECT(pef_at(&context, 0x00010014, &it) == PEF_NOT_OPEN && it.connection == 7);
    EXPECT(pef_fragment_exports(&context, 0, 0, &number) == PEF_NOT_OPEN && pef_fragment_import_named(&context, 0, 0, TEXT("n"), &number) == PEF_NOT_OPEN);
    EXPECT(pef_fragment_export(&context, 0, 0, 0, &low) == PEF_NOT_OPEN && pef_fragment_export_named(&context, 0, 0, TEXT("v"), &low) == PEF_NOT_OPEN);
    EXPECT(number == 7);
}

/* Names a weak library, one that needs another weak one and the first, and one of another version. */
static const char lacking[] =
    "library W 1 0 weak\n"
    "library V 1 0 -\n"
    "library S 7 5 -\n";

static bool is_missing(struct pef_missing found, const char *name, struct pef_missing wanted)
{
    return is_named(found.name, name) && found.fragment == wanted.fragment && found.current_version == wanted.current_version
        && found.old_imp_version == wanted.old_imp_version && found.found_version == wanted.found_version
        && found.found_old_def_version == wanted.found_old_def_version && found.is_weak == wanted.is_weak && found.is_found == wanted.is_found;
}

/* What is missing is asked for before a preparation, from any number on, and once more when something was added. */
static void test_missing(void)
{
    static const struct pef_missing unread = {PEF_NO_BYTES, 7, 7, 7, 7, 7, true, true};
    struct pef_context context = PEF_NO_CONTEXT;
    struct pef_names names = PEF_NO_NAMES;
    struct pef_missing rows[3] = {unread, unread, unread};
    size_t count = 7;
    EXPECT(pef_open(&context, limit) == PEF_OK);
    EXPECT(pef_missing(&context, TEXT("A"), 0, rows, 3, &count, &names) == PEF_ROOT_MISSING);
    EXPECT(count == 7 && is_missing(rows[0], "", unread));
    add(&context, "A", lacking);
    EXPECT(pef_missing(&context, TEXT("A"), 0, rows, 2, &count, &names) == PEF_OK && count == 2);
    EXPECT(is_missing(rows[0], "W", (struct pef_missing){PEF_NO_BYTES, 0, 1, 0, 0, 0, true, false}));
    EXPECT(is_missing(rows[1], "V", (struct pef_missing){PEF_NO_BYTES, 0, 1, 0, 0, 0, false, false}));
    EXPECT(is_missing(rows[2], "", unread));
    EXPECT(pef_missing(&context, TEXT("A"), 2, rows, 3, &count, &names) == PEF_OK && count == 1);
    EXPECT(is_missing(rows[0], "S", (struct pef_missing){PEF_NO_BYTES, 0, 7, 5, 0, 0, false, false}));
    EXPECT(pef_missing(&context, TEXT("A"), 3, NULL, 0, &count, &names) == PEF_OK && count == 0);
    add(&context, "V", "versions 1 0 0\nlibrary X 1 0 weak\nlibrary W 2 1 -\n");
    add(&context, "S", "versions 3 2 0\n");
    EXPECT(pef_missing(&context, TEXT("A"), 0, rows, 3, &count, &names) == PEF_OK && count == 3);
    EXPECT(is_missing(rows[0], "W", (struct pef_missing){PEF_NO_BYTES, 1, 2, 1, 0, 0, false, false}));
    EXPECT(is_missing(rows[1], "X", (struct pef_missing){PEF_NO_BYTES, 1, 1, 0, 0, 0, true, false}));
    EXPECT(is_missing(rows[2], "S", (struct pef_missing){PEF_NO_BYTES, 0, 7, 5, 3, 2, false, true}));
    EXPECT(pef_missing(&context, TEXT("S"), 0, rows, 3, &count, &names) == PEF_OK && count == 0);
    EXPECT(pef_add(&context, TEXT("W"), TEXT("")) == PEF_OK);
    EXPECT(pef_missing(&context, TEXT("A"), 0, rows, 3, &count, &names) == PEF_TOO_SHORT && count == 0);
    EXPECT(is_named(names.fragment, "W"));
    pef_free(&context);
    EXPECT(pef_missing(&context, TEXT("A"), 0, rows, 3, &count, &names) == PEF_NOT_OPEN && count == 0);
}

static const char importer[] =
    "library S 7 5 -\n"
    "import f tvector strong\n"
    "import g data weak\n"
    "library W 1 0 weak\n";

/* What is lacking, whichever fragment is prepared, from any number on. */
static void test_lacking(void)
{
    static const struct pef_lacking unread = {PEF_NO_BYTES, false};
    struct pef_context context = PEF_NO_CONTEXT;
    struct pef_lacking rows[3] = {unread, unread, unread};
    size_t count = 7;
    EXPECT(pef_lacking(&context, 0, rows, 3, &count) == PEF_NOT_OPEN && count == 7);
    EXPECT(pef_open(&context, limit) == PEF_OK);
    EXPECT(pef_lacking(&context, 0, rows, 3, &count) == PEF_OK && count == 0);
    EXPECT(pef_add(&context, TEXT("no container"), TEXT("")) == PEF_OK);
    add(&context, "A", importer);
    EXPECT(pef_lacking(&context, 0, rows, 3, &count) == PEF_OK && count == 2);
    EXPECT(is_named(rows[0].name, "S") && !rows[0].is_weak && is_named(rows[1].name, "W") && rows[1].is_weak && rows[2].name.length == 0);
    add(&context, "B", "library W 2 0 -\n");
    EXPECT(pef_lacking(&context, 1, rows, 3, &count) == PEF_OK && count == 1 && is_named(rows[0].name, "W") && !rows[0].is_weak);
    EXPECT(pef_lacking(&context, 0, rows, 1, &count) == PEF_OK && count == 1 && is_named(rows[0].name, "S"));
    EXPECT(pef_lacking(&context, 2, NULL, 0, &count) == PEF_OK && count == 0);
    add(&context, "S", "versions 1 1 0\n");
    EXPECT(pef_lacking(&context, 0, rows, 3, &count) == PEF_OK && count == 1 && is_named(rows[0].name, "W"));
    pef_free(&context);
}

static bool is_symbol(const uint8_t *stub, size_t length, const char *name, struct pef_export wanted)
{
    struct pef_export found = {PEF_NO_BYTES, 7, 7, 7};
    size_t number = 7;
    return pef_export_named(stub, length, TEXT(name), &number, &found) == PEF_OK && found.section == wanted.section && found.value == wanted.value
        && found.symbol_class == wanted.symbol_class;
}

/* A stub has the symbols that are imported from it, and versions that fit. It takes the place of its library. */
static void test_stub(void)
{
    struct pef_context context = PEF_NO_CONTEXT;
    struct pef_stub_options options = PEF_NUMBERED_STUBS;
    struct pef_names names = PEF_NO_NAMES;
    struct pef_header header = {0};
    struct pef_target target = {0};
    uint8_t buffer[512] = {7};
    size_t written = 7, symbols = 7;
    uint32_t connection = 7;
    EXPECT(pef_stub(&context, TEXT("S"), &options, buffer, 512, &written, &symbols) == PEF_NOT_OPEN && written == 7 && symbols == 7);
    EXPECT(pef_open(&context, limit) == PEF_OK);
    add(&context, "A", importer);
    EXPECT(pef_stub(&context, TEXT("S"), &options, NULL, 0, &written, &symbols) == PEF_ROOM_TOO_SMALL && written > 7 && symbols == 2);
    EXPECT(pef_stub(&context, TEXT("S"), &options, buffer, written - 1, &written, &symbols) == PEF_ROOM_TOO_SMALL && buffer[0] == 7);
    EXPECT(pef_stub(&context, TEXT("S"), &options, buffer, written, &written, &symbols) == PEF_OK && buffer[written] == 0 && symbols == 2);
    EXPECT(pef_header(buffer, written, &header) == PEF_OK && header.section_count == 1);
    EXPECT(header.current_version == 7 && header.old_def_version == 7 && header.old_imp_version == 5);
    EXPECT(is_symbol(buffer, written, "f", (struct pef_export){PEF_NO_BYTES, PEF_ABSOLUTE, 0xF0000000, PEF_CLASS_TVECTOR}));
    EXPECT(is_symbol(buffer, written, "g", (struct pef_export){PEF_NO_BYTES, PEF_ABSOLUTE, 0xF0000010, PEF_CLASS_DATA}));
    EXPECT(pef_add(&context, TEXT("S"), buffer, written) == PEF_OK);
    EXPECT(pef_prepare(&context, TEXT("A"), &connection, &names) == PEF_OK);
    EXPECT(pef_import_target(&context, connection, 0, 1, &target) == PEF_OK && target.kind == PEF_TARGET_ABSOLUTE && target.address == 0xF0000010);
    pef_free(&context);
}

/* What a stub may be: other numbers, memory, or none. */
static void test_stub_options(void)
{
    struct pef_context context = PEF_NO_CONTEXT;
    struct pef_stub_options options = PEF_STUBS_IN_MEMORY;
    uint8_t buffer[512] = {7};
    size_t written = 7, symbols = 7;
    EXPECT(pef_open(&context, limit) == PEF_OK);
    add(&context, "A", importer);
    EXPECT(pef_stub(&context, TEXT("S"), &options, buffer, 512, &written, &symbols) == PEF_OK && symbols == 2);
    EXPECT(is_symbol(buffer, written, "f", (struct pef_export){PEF_NO_BYTES, 1, 0, PEF_CLASS_TVECTOR}));
    EXPECT(is_symbol(buffer, written, "g", (struct pef_export){PEF_NO_BYTES, 1, 16, PEF_CLASS_DATA}));
    EXPECT(pef_stub(&context, TEXT("W"), &options, buffer, 512, &written, &symbols) == PEF_OK && symbols == 0);
    options = (struct pef_stub_options)PEF_NUMBERED_STUBS;
    options.first = 0xFFFFFFFF;
    options.step = 0;
    EXPECT(pef_stub(&context, TEXT("S"), &options, buffer, 512, &written, &symbols) == PEF_OK && symbols == 2);
    EXPECT(is_symbol(buffer, written, "g", (struct pef_export){PEF_NO_BYTES, PEF_ABSOLUTE, 0xFFFFFFFF, PEF_CLASS_DATA}));
    options.step = 1;
    written = symbols = 7;
    buffer[0] = 7;
    EXPECT(pef_stub(&context, TEXT("S"), &options, buffer, 512, &written, &symbols) == PEF_PAST_LAST_NUMBER);
    options.values = 3;
    EXPECT(pef_stub(&context, TEXT("S"), &options, buffer, 512, &written, &symbols) == PEF_BAD_OPTIONS);
    options.values = PEF_STUB_NUMBERS;
    options.size = 0;
    EXPECT(pef_stub(&context, TEXT("S"), &options, buffer, 512, &written, &symbols) == PEF_BAD_OPTIONS);
    EXPECT(buffer[0] == 7 && written == 7 && symbols == 7);
    pef_free(&context);
}

/* Sections are placed at the addresses that are given, or none is. */
static void test_prepare_at(void)
{
    static const uint32_t unaligned[] = {0x20000, 0x20020}, given[] = {0x20000, 0x10040};
    struct pef_context context = PEF_NO_CONTEXT;
    struct pef_names names = PEF_NO_NAMES;
    struct pef_place place = {7, 7, 7, 7};
    struct pef_fragment_section section = {0};
    struct pef_new_section rows[3] = {{.fragment = 7}, {.fragment = 7}, {.fragment = 7}};
    size_t count = 7;
    uint32_t connection = 7;
    EXPECT(pef_open(&context, limit) == PEF_OK);
    EXPECT(pef_new_sections(&context, TEXT("A"), 0, rows, 3, &count, &names) == PEF_ROOT_MISSING && count == 7 && rows[0].fragment == 7);
    EXPECT(pef_prepare_at(&context, TEXT("A"), NULL, 0, &connection, &names, &place) == PEF_ROOT_MISSING);
    add(&context, "A", "section s data process 4 20\nsection t data process 6 16\n");
    EXPECT(pef_new_sections(&context, TEXT("A"), 0, rows, 3, &count, &names) == PEF_OK && count == 2 && rows[2].fragment == 7);
    EXPECT(rows[0].fragment == 0 && rows[0].section == 0 && rows[0].size == 32 && rows[0].alignment == 16);
    EXPECT(rows[1].fragment == 0 && rows[1].section == 1 && rows[1].size == 16 && rows[1].alignment == 64);
    EXPECT(pef_new_sections(&context, TEXT("A"), 2, NULL, 0, &count, &names) == PEF_OK && count == 0);
    EXPECT(pef_prepare_at(&context, TEXT("A"), NULL, 0, &connection, &names, &place) == PEF_WRONG_ADDRESS_COUNT);
    EXPECT(names.fragment.length == 0 && place.part == PEF_NOWHERE && connection == 7);
    EXPECT(pef_prepare_at(&context, TEXT("A"), unaligned, 2, &connection, &names, &place) == PEF_NO_ROOM);
    EXPECT(is_named(names.fragment, "A") && place.row == 1 && connection == 7);
    EXPECT(pef_prepare_at(&context, TEXT("A"), given, 2, &connection, &names, &place) == PEF_OK && connection == 0);
    EXPECT(pef_fragment_section(&context, 0, 0, 0, &section) == PEF_OK && section.address == 0x20000);
    EXPECT(pef_fragment_section(&context, 0, 0, 1, &section) == PEF_OK && section.address == 0x10040);
    EXPECT(pef_new_sections(&context, TEXT("A"), 0, rows, 3, &count, &names) == PEF_OK && count == 0);
    EXPECT(pef_prepare_at(&context, TEXT("A"), NULL, 0, &connection, &names, &place) == PEF_OK && connection == 1);
    pef_free(&context);
}

/* A library isn't added while a connection is open that was prepared without it. */
static void test_added_too_late(void)
{
    static const char weak[] = "library M 1 0 weak\nimport m data strong\nsection w data process 4 4\nfix w 0 import m\n";
    struct pef_context context = PEF_NO_CONTEXT;
    EXPECT(pef_open(&context, limit) == PEF_OK);
    add(&context, "W", weak);
    prepare(&context, "W", 0);
    EXPECT(pef_add(&context, TEXT("M"), TEXT("")) == PEF_ADDED_TOO_LATE);
    EXPECT(pef_close(&context, 0) == PEF_OK);
    EXPECT(pef_add(&context, TEXT("M"), TEXT("")) == PEF_OK);
    pef_free(&context);
}

/* A loop over all fragments passes by the numbers of those that were removed. */
static void expect_numbers(const struct pef_context *context, size_t first, size_t second)
{
    size_t found[3] = {7, 7, 7}, count = 0, past = 7;
    for (size_t number = 0; count < 3 && pef_next_fragment(context, number, &number) == PEF_OK; number++)
        found[count++] = number;
    EXPECT(count == 2 && found[0] == first && found[1] == second);
    EXPECT(pef_next_fragment(context, second + 1, &past) == PEF_NOT_THERE && past == 7);
    EXPECT(pef_next_fragment(context, SIZE_MAX, &past) == PEF_NOT_THERE && past == 7);
}

/* A fragment is removed that isn't present and that no open connection misses. Its number is free for the next one. */
static void test_removed(void)
{
    static const char weak[] = "library M 5 5 weak\nimport m data strong\nsection w data process 4 4\nfix w 0 import m\n";
    struct pef_context context = PEF_NO_CONTEXT;
    struct pef_bytes name = PEF_NO_BYTES;
    EXPECT(pef_open(&context, limit) == PEF_OK);
    EXPECT(pef_remove(&context, TEXT("M")) == PEF_ROOT_MISSING);
    add(&context, "M", "versions 1 1 1\n");
    add(&context, "W", weak);
    EXPECT(pef_add_new(&context, TEXT("M"), TEXT("")) == PEF_NAME_TAKEN);
    EXPECT(pef_add(&context, TEXT("M"), TEXT("")) == PEF_OK);
    prepare(&context, "W", 0);
    EXPECT(pef_remove(&context, TEXT("W")) == PEF_STILL_PRESENT);
    EXPECT(pef_remove(&context, TEXT("M")) == PEF_STILL_NAMED);
    EXPECT(pef_close(&context, 0) == PEF_OK);
    EXPECT(pef_remove(&context, TEXT("M")) == PEF_OK);
    EXPECT(pef_fragment_name(&context, 0, &name) == PEF_NOT_THERE);
    expect_numbers(&context, 1, 2);
    EXPECT(pef_add_new(&context, TEXT("M"), TEXT("")) == PEF_NAME_TAKEN);
    EXPECT(pef_add_new(&context, TEXT("N"), TEXT("")) == PEF_OK);
    EXPECT(pef_fragment_name(&context, 0, &name) == PEF_OK && is_named(name, "N"));
    EXPECT(pef_remove(&context, TEXT("M")) == PEF_OK && pef_remove(&context, TEXT("M")) == PEF_ROOT_MISSING);
    expect_numbers(&context, 0, 1);
    prepare(&context, "W", 1);
    pef_free(&context);
    EXPECT(pef_remove(&context, TEXT("N")) == PEF_NOT_OPEN);
}

/* A refusal is reported with its names. A context that isn't open is reported, also after it was freed twice. */
static void test_refused(void)
{
    struct pef_context context = PEF_NO_CONTEXT;
    struct pef_names names = PEF_NO_NAMES;
    uint32_t connection = 7, address = 7;
    open_user(&context, false);
    EXPECT(pef_prepare(&context, TEXT("A"), &connection, &names) == PEF_LIBRARY_MISSING && connection == 7);
    EXPECT(is_named(names.fragment, "A") && is_named(names.library, "L") && is_named(names.symbol, ""));
    pef_free(&context);
    pef_free(&context);
    EXPECT(pef_prepare(&context, TEXT("A"), &connection, &names) == PEF_NOT_OPEN && connection == 7);
    EXPECT(pef_add(&context, TEXT("A"), TEXT("")) == PEF_NOT_OPEN);
    EXPECT(pef_fragment_symbol(&context, 0, 0, TEXT("v"), &address) == PEF_NOT_OPEN && address == 7);
}

/* A symbol that a library lacks is reported with all three names. */
static void test_symbol_missing(void)
{
    struct pef_context context = PEF_NO_CONTEXT;
    struct pef_names names = PEF_NO_NAMES;
    uint32_t connection = 7;
    EXPECT(pef_open(&context, limit) == PEF_OK);
    add(&context, "A", "library L 1 0 -\nimport w data strong\n");
    add(&context, "L", library);
    EXPECT(pef_prepare(&context, TEXT("A"), &connection, &names) == PEF_SYMBOL_MISSING && connection == 7);
    EXPECT(is_named(names.fragment, "A") && is_named(names.library, "L") && is_named(names.symbol, "w"));
    pef_free(&context);
}

/* Two sections, which take 32 and 16 bytes, and one step of relocation each. */
static const char two[] =
    "versions 1 0 0\n"
    "section a data process 4 17\n"
    "section b data process 4 4\n"
    "fix a 0 section a\n"
    "fix b 0 section a\n";

/* Options, the answer when a context is opened with them, then that to the preparation of the two sections, and the address of the
 * second. */
struct opening {
    struct pef_options options;
    uint32_t opened, prepared, address;
};

static const struct opening openings[] = {
    {{.size = 32}, PEF_OK, PEF_OK, 0x00010020},
    {{.size = 31}, PEF_BAD_OPTIONS, 0, 0},
    {{.size = 33, .granule = 8}, PEF_BAD_OPTIONS, 0, 0},
    {{.size = 32, .granule = 8}, PEF_BAD_GRANULE, 0, 0},
    {{.size = 32, .granule = 48}, PEF_BAD_GRANULE, 0, 0},
    {{.size = 32, .granule = 16}, PEF_OK, PEF_OK, 0x00010020},
    {{.size = 32, .granule = 4096}, PEF_OK, PEF_OK, 0x00011000},
    {{.size = 32, .limit = 0x00010030}, PEF_OK, PEF_OK, 0x00010020},
    {{.size = 32, .limit = 0x0001002F}, PEF_OK, PEF_NO_ROOM, 0},
    {{.size = 32, .steps = 2}, PEF_OK, PEF_OK, 0x00010020},
    {{.size = 32, .steps = 1}, PEF_OK, PEF_TOO_MANY_STEPS_IN_ALL, 0},
    {{.size = 32, .bytes = 48}, PEF_OK, PEF_OK, 0x00010020},
    {{.size = 32, .bytes = 47, .steps = 1}, PEF_OK, PEF_TOO_MANY_BYTES, 0},
    {{.size = 32, .granule = 4096, .bytes = 8191}, PEF_OK, PEF_TOO_MANY_BYTES, 0},
};

/* Prepares the fragment `A`, and returns the answer. A refusal about the fragment names it. */
static uint32_t prepare_two(struct pef_context *context)
{
    struct pef_names names = PEF_NO_NAMES;
    uint32_t connection = 7, answer = pef_prepare(context, TEXT("A"), &connection, &names);
    EXPECT(answer == PEF_OK || answer == PEF_TOO_MANY_CONNECTIONS || is_named(names.fragment, "A"));
    return answer;
}

/* Opens a context, and prepares the two sections in it if that is possible. Returns whether all is as the row says. */
static bool is_opened(const struct opening *row, struct pef_bytes container)
{
    struct pef_context context = PEF_NO_CONTEXT;
    struct pef_fragment_section section = {0, 0, 0, 0};
    bool same = pef_open_with(&context, &row->options) == row->opened;
    uint32_t added = pef_add(&context, TEXT("A"), BYTES(container));
    if (row->opened != PEF_OK)
        return same && added == PEF_NOT_OPEN;
    same = same && added == PEF_OK && prepare_two(&context) == row->prepared;
    if (row->prepared == PEF_OK)
        same = same && pef_fragment_section(&context, 0, 0, 1, &section) == PEF_OK && section.address == row->address;
    pef_free(&context);
    return same;
}

static void test_options(void)
{
    struct pef_bytes container = linked(two);
    for (size_t i = 0; i < sizeof openings / sizeof openings[0]; i++) {
        bool same = is_opened(&openings[i], container);
        EXPECT(same);
        if (!same)
            fprintf(stderr, "in row %zu of the options\n", i);
    }
}

/* A context gives as many connections as was asked for, and refused options leave it open. */
static void test_two_connections(void)
{
    struct pef_context context = PEF_NO_CONTEXT;
    struct pef_options options = PEF_USUAL_OPTIONS, refused = PEF_USUAL_OPTIONS;
    options.connections = 2;
    refused.granule = 1;
    EXPECT(pef_open_with(&context, &options) == PEF_OK);
    add(&context, "A", two);
    EXPECT(prepare_two(&context) == PEF_OK);
    EXPECT(pef_close(&context, 0) == PEF_OK);
    EXPECT(pef_open_with(&context, &refused) == PEF_BAD_GRANULE);
    EXPECT(prepare_two(&context) == PEF_OK);
    EXPECT(prepare_two(&context) == PEF_TOO_MANY_CONNECTIONS);
    pef_free(&context);
}

int main(void)
{
    test_prepared();
    test_new_and_released();
    test_present();
    test_reserved();
    test_meanings();
    test_passed();
    test_missing();
    test_lacking();
    test_stub();
    test_stub_options();
    test_prepare_at();
    test_added_too_late();
    test_removed();
    test_refused();
    test_symbol_missing();
    test_options();
    test_two_connections();
    EXPECT(pef_version() == 0x00000100 && PEF_VERSION_NUMBER == 0x00000100);
    printf("%zu failures\n", failures);
    return failures == 0 ? 0 : 1;
}
