/*
 * What callers do all the same, and what pef.h promises: slices of no bytes that are null, structs that come as zero bytes or
 * with any bytes, pef_free() of NULL and of a context that isn't open, and names and containers that go after pef_free() or
 * pef_remove().
 * With --memory it opens, fills and frees a context 100,000 times instead, and the process may not grow; and it frees contexts that have a
 * megabyte, contexts that have nothing, and contexts by opening them again.
 */
#include "file.h"

#include <string.h>
#include <unistd.h>

static size_t failures;

static void expect(bool holds, const char *what)
{
    if (!holds) {
        fprintf(stderr, "promised: %s\n", what);
        failures++;
    }
}

static const char script[] = "library L 1 0 weak\nimport i data weak\nsection a data process 4 16\nbytes a 01020304\n"
                             "fix a 4 section a\nfix a 8 import i\nexport x data a 4\nmain a 0\n";

static uint8_t container[1024];
static size_t container_length;

static void link_script(void)
{
    size_t line = 0;
    expect(pef_link((const uint8_t *)script, strlen(script), container, sizeof container, &container_length, &line) == PEF_OK, "the script");
}

static bool is_named(struct pef_bytes found, const char *wanted)
{
    return found.length == strlen(wanted) && memcmp(found.at, wanted, found.length) == 0;
}

/* A null pointer with a length of 0 is no bytes, in every call. */
static void test_null_slices(void)
{
    struct pef_header header;
    struct pef_section section;
    struct pef_bytes bytes;
    struct pef_loader loader;
    struct pef_place place;
    struct pef_export export;
    struct pef_import import;
    struct pef_finding finding;
    size_t count = 7, number = 7, line = 7;
    expect(pef_header(NULL, 0, &header) == PEF_TOO_SHORT, "pef_header of null");
    expect(pef_section(NULL, 0, 0, &section, &bytes) == PEF_TOO_SHORT, "pef_section of null");
    expect(pef_section_name(NULL, 0, 0, &bytes) == PEF_TOO_SHORT, "pef_section_name of null");
    expect(pef_loader(NULL, 0, &loader) == PEF_TOO_SHORT, "pef_loader of null");
    expect(pef_list(NULL, 0, NULL, 0, &count) == PEF_TOO_SHORT && count == 7, "pef_list of null");
    expect(pef_container_place(NULL, 0, &place) == PEF_TOO_SHORT && place.part == PEF_NOWHERE, "pef_container_place of null");
    expect(pef_findings(NULL, 0, 0, NULL, 0, &count) == PEF_OK && count == 0, "pef_findings of null to no places");
    expect(pef_findings(NULL, 0, 0, &finding, 1, &count) == PEF_OK && count == 1 && finding.number == PEF_TOO_SHORT, "pef_findings of null");
    count = 7;
    expect(pef_partial_header(NULL, 0, &header) == PEF_TOO_SHORT, "pef_partial_header of null");
    expect(pef_partial_section(NULL, 0, 0, &section, &bytes) == PEF_TOO_SHORT, "pef_partial_section of null");
    expect(pef_partial_section_name(NULL, 0, 0, &bytes) == PEF_TOO_SHORT, "pef_partial_section_name of null");
    expect(pef_partial_loader(NULL, 0, &loader) == PEF_TOO_SHORT, "pef_partial_loader of null");
    expect(pef_partial_libraries(NULL, 0, 0, NULL, 0, &count) == PEF_TOO_SHORT && count == 7, "pef_partial_libraries of null");
    expect(pef_script_place(NULL, 0, &place, &line) == PEF_OK && place.part == PEF_NOWHERE && line == 0, "pef_script_place of null");
    expect(pef_partial_imports(NULL, 0, 0, NULL, 0, &count) == PEF_TOO_SHORT && count == 7, "pef_partial_imports of null");
    expect(pef_partial_relocations(NULL, 0, 0, NULL, 0, &count) == PEF_TOO_SHORT && count == 7, "pef_partial_relocations of null");
    expect(pef_partial_exports(NULL, 0, 0, NULL, 0, &count) == PEF_TOO_SHORT && count == 7, "pef_partial_exports of null");
    expect(pef_partial_fixups(NULL, 0, 0, 0, NULL, 0, &count) == PEF_TOO_SHORT && count == 7, "pef_partial_fixups of null");
    expect(pef_libraries(NULL, 0, 0, NULL, 0, &count) == PEF_TOO_SHORT, "pef_libraries of null");
    expect(pef_imports(NULL, 0, 0, NULL, 0, &count) == PEF_TOO_SHORT, "pef_imports of null");
    expect(pef_relocations(NULL, 0, 0, NULL, 0, &count) == PEF_TOO_SHORT, "pef_relocations of null");
    expect(pef_exports(NULL, 0, 0, NULL, 0, &count) == PEF_TOO_SHORT, "pef_exports of null");
    expect(pef_fixups(NULL, 0, 0, 0, NULL, 0, &count) == PEF_TOO_SHORT, "pef_fixups of null");
    expect(pef_export_named(NULL, 0, NULL, 0, &number, &export) == PEF_TOO_SHORT, "pef_export_named of null");
    expect(pef_import_named(NULL, 0, NULL, 0, &number, &import) == PEF_TOO_SHORT, "pef_import_named of null");
    expect(pef_expand(NULL, 0, NULL, 0) == PEF_OK, "pef_expand of no bytes to none");
    expect(pef_link((const uint8_t *)"", 0, container, 0, &number, &line) == PEF_ROOM_TOO_SMALL && number > 40, "pef_link of no line");
    expect(pef_link(NULL, 0, NULL, 0, &count, &line) == PEF_ROOM_TOO_SMALL && count == number && line == 0, "pef_link of null");
    line = 7;
    expect(pef_distances(NULL, 0, NULL, 0, &count, &line) == PEF_ROOM_TOO_SMALL && count == 14 && line == 0, "pef_distances of null");
    number = 7;
    count = 7;
    expect(pef_libraries(container, container_length, 0, NULL, 0, &count) == PEF_OK && count == 0, "pef_libraries to no places");
    count = 7;
    expect(pef_partial_imports(container, container_length, 0, NULL, 0, &count) == PEF_OK && count == 0, "pef_partial_imports to no places");
    count = 7;
    expect(pef_fixups(container, container_length, 0, 0, NULL, 0, &count) == PEF_OK && count == 0, "pef_fixups to no places");
    expect(pef_export_named(container, container_length, NULL, 0, &number, &export) == PEF_NOT_THERE && number == 7, "an export without a name");
}

/* A fragment whose name and container have no bytes: it is there, and refused as such. */
static void test_null_fragment(void)
{
    struct pef_context context = PEF_NO_CONTEXT;
    struct pef_names names;
    struct pef_place place;
    struct pef_bytes name;
    uint32_t connection = 7;
    size_t count = 7;
    bool is_present;
    memset(&is_present, 0xFF, sizeof is_present);
    memset(&names, 0xFF, sizeof names);
    expect(pef_open(&context, 0x10000000) == PEF_OK, "pef_open");
    expect(pef_add(&context, NULL, 0, NULL, 0) == PEF_OK, "pef_add of null");
    expect(pef_prepare_with_place(&context, NULL, 0, &connection, &names, &place) == PEF_TOO_SHORT, "pef_prepare of null");
    expect(names.fragment.length == 0 && place.part == PEF_NOWHERE && connection == 7, "what is reported of it");
    expect(pef_fragment_name(&context, 0, &name) == PEF_OK && name.length == 0, "the name of it");
    expect(pef_fragment_name(&context, 1, &name) == PEF_NOT_THERE, "a fragment after it");
    expect(pef_next_fragment(&context, 0, &count) == PEF_OK && count == 0, "the first number");
    expect(pef_next_fragment(&context, 1, &count) == PEF_NOT_THERE && count == 0, "a number after it");
    expect(pef_is_present(&context, NULL, 0, &is_present) == PEF_OK && !is_present, "whether it is present");
    expect(pef_fragment_sections(&context, 0, &count) == PEF_OK && count == 0, "its sections");
    pef_free(&context);
}

/* All structs that a call fills come with the same byte in each place. */
static void test_filled(int byte)
{
    struct pef_section section;
    struct pef_bytes raw, name;
    struct pef_library library;
    struct pef_import import;
    struct pef_relocation relocation;
    struct pef_fixup fixups[3];
    struct pef_export exports[2], found;
    struct pef_finding finding;
    size_t count = 0, number = 7;
    memset(&section, byte, sizeof section);
    memset(&raw, byte, sizeof raw);
    memset(&name, byte, sizeof name);
    memset(&library, byte, sizeof library);
    memset(&import, byte, sizeof import);
    memset(&relocation, byte, sizeof relocation);
    memset(fixups, byte, sizeof fixups);
    memset(exports, byte, sizeof exports);
    memset(&found, byte, sizeof found);
    memset(&finding, byte, sizeof finding);
    expect(pef_section(container, container_length, 0, &section, &raw) == PEF_OK && section.total_size == 16, "a section");
    expect(raw.length >= 4 && raw.at == container + section.container_offset && raw.at[3] == 4, "its bytes");
    expect(pef_findings(container, container_length - 1, 0, &finding, 1, &count) == PEF_OK && count == 1 && finding.number == PEF_SECTION_OUTSIDE && finding.is_error, "an error");
    memset(&section, byte, sizeof section);
    expect(pef_partial_section(container, container_length - 1, 0, &section, &raw) == PEF_OK && section.total_size == 16, "a section of a damaged container");
    memset(&library, byte, sizeof library);
    expect(pef_partial_libraries(container, container_length, 0, &library, 1, &count) == PEF_OK && count == 1 && is_named(library.name, "L"), "a library, as far as it can be read");
    memset(&library, byte, sizeof library);
    expect(pef_name(PEF_BAD_TAG, &name) == PEF_OK && is_named(name, "BadTag"), "the name of a number");
    expect(pef_libraries(container, container_length, 0, &library, 1, &count) == PEF_OK && count == 1 && is_named(library.name, "L"), "a library");
    expect(pef_imports(container, container_length, 0, &import, 1, &count) == PEF_OK && count == 1 && import.weak && is_named(import.name, "i"), "an import");
    expect(pef_relocations(container, container_length, 0, &relocation, 1, &count) == PEF_OK && count == 1 && relocation.section == 0, "a relocation header");
    expect(pef_fixups(container, container_length, 0, 0, fixups, 3, &count) == PEF_OK && count == 2, "two additions");
    expect(fixups[0].offset == 4 && fixups[0].kind == PEF_FIXUP_SECTION && fixups[0].number == 0, "the first");
    expect(fixups[1].offset == 8 && fixups[1].kind == PEF_FIXUP_IMPORT && fixups[1].number == 0, "the second");
    expect(pef_fixups(container, container_length, 0, 1, fixups, 3, &count) == PEF_OK && count == 1 && fixups[0].offset == 8, "the second alone");
    expect(pef_fixups(container, container_length, 0, 2, fixups, 3, &count) == PEF_OK && count == 0, "those after the last");
    expect(pef_fixups(container, container_length, 1, 0, fixups, 3, &count) == PEF_NOT_THERE, "those of no header");
    expect(pef_exports(container, container_length, 0, exports, 2, &count) == PEF_OK && count == 1 && is_named(exports[0].name, "x"), "an export");
    expect(pef_export_named(container, container_length, (const uint8_t *)"x", 1, &number, &found) == PEF_OK && number == 0 && found.value == 4, "an export by its name");
}

/* The structs that a context fills come with the same byte in each place, and buffers of no bytes are null. */
static void test_filled_by_context(int byte)
{
    struct pef_context context = PEF_NO_CONTEXT;
    struct pef_names names;
    struct pef_place place;
    struct pef_fragment_section section;
    struct pef_entries entries;
    struct pef_target target;
    struct pef_bytes name;
    uint32_t connection = 7, address = 7;
    size_t count = 7;
    bool is_present;
    memset(&is_present, byte, sizeof is_present);
    memset(&names, byte, sizeof names);
    memset(&place, byte, sizeof place);
    memset(&section, byte, sizeof section);
    memset(&entries, byte, sizeof entries);
    memset(&target, byte, sizeof target);
    memset(&name, byte, sizeof name);
    expect(pef_open(&context, 0x10000000) == PEF_OK && pef_add(&context, (const uint8_t *)"it", 2, container, container_length) == PEF_OK, "a context");
    expect(pef_prepare_with_place(&context, (const uint8_t *)"no", 2, &connection, &names, &place) == PEF_ROOT_MISSING && connection == 7, "no fragment of a name");
    expect(names.fragment.length + names.library.length + names.symbol.length == 0, "its names");
    expect(place.part == PEF_NOWHERE && place.row == 0 && place.field == 0 && place.offset == PEF_NO_OFFSET, "its place");
    expect(pef_prepare(&context, (const uint8_t *)"it", 2, &connection, &names) == PEF_OK && connection == 0, "pef_prepare");
    expect(pef_fragment_name(&context, 0, &name) == PEF_OK && is_named(name, "it"), "the name of a fragment");
    expect(pef_is_present(&context, (const uint8_t *)"it", 2, &is_present) == PEF_OK && is_present, "a fragment that is present");
    expect(pef_fragment_section(&context, 0, 0, 0, &section) == PEF_OK && section.address == 0x10000 && section.size == 16, "a section in memory");
    expect(section.kind == PEF_KIND_DATA && section.share == PEF_SHARE_PROCESS, "its kind and its share");
    expect(pef_fragment_entries(&context, 0, 0, &entries) == PEF_OK && entries.has_main && entries.main == 0x10000, "the main entry point");
    expect(!entries.has_init && !entries.has_term && entries.init + entries.term == 0, "the other entry points");
    expect(pef_import_target(&context, 0, 0, 0, &target) == PEF_OK && target.kind == PEF_TARGET_MISSING && target.fragment == 0, "a missing target");
    expect(target.section + target.offset + target.address == 0, "where it is");
    expect(pef_export_address(&context, 0, 0, 0, &address) == PEF_OK && address == 0x10004, "the address of an export");
    expect(pef_fragment_symbol(&context, 0, 0, NULL, 0, &address) == PEF_NOT_THERE && address == 0x10004, "a symbol without a name");
    expect(pef_fragments(&context, 0, NULL, 0, &count) == PEF_ROOM_TOO_SMALL && count == 1, "pef_fragments to null");
    count = 7;
    expect(pef_init_order(&context, 0, NULL, 0, &count) == PEF_ROOM_TOO_SMALL && count == 1, "pef_init_order to null");
    count = 7;
    expect(pef_new_fragments(&context, 0, NULL, 0, &count) == PEF_ROOM_TOO_SMALL && count == 1, "pef_new_fragments to null");
    count = 7;
    expect(pef_released_by(&context, 0, NULL, 0, &count) == PEF_ROOM_TOO_SMALL && count == 1, "pef_released_by to null");
    expect(pef_fragment_bytes(&context, 0, 0, NULL, 0, &count) == PEF_ROOM_TOO_SMALL && count == 16, "pef_fragment_bytes to null");
    pef_free(&context);
}

static void test_free(void)
{
    struct pef_context context = PEF_NO_CONTEXT, zeros;
    memset(&zeros, 0, sizeof zeros);
    pef_free(NULL);
    pef_free(&context);
    pef_free(&zeros);
    expect(pef_open(&context, 0x10000000) == PEF_OK && context.is_open, "pef_open");
    pef_free(&context);
    pef_free(&context);
    expect(!context.is_open && pef_close(&context, 0) == PEF_NOT_OPEN, "a context that was freed twice");
}

static uint8_t *copy(const void *bytes, size_t length)
{
    uint8_t *made = malloc(length);
    if (made == NULL)
        exit(2);
    return memcpy(made, bytes, length);
}

/* A listing that isn't open, of a container without bytes, and one that is opened again and freed twice. */
static void test_listing(void)
{
    struct pef_listing listing = PEF_NO_LISTING, zeros;
    uint8_t byte = 7;
    size_t count = 7;
    memset(&zeros, 0, sizeof zeros);
    pef_list_free(NULL);
    pef_list_free(&listing);
    pef_list_free(&zeros);
    expect(pef_list_next(&listing, &byte, 1, &count) == PEF_NOT_OPEN && byte == 7 && count == 7, "pef_list_next of a listing that isn't open");
    expect(pef_list_open(&listing, NULL, 0) == PEF_TOO_SHORT && !listing.is_open, "pef_list_open of null");
    expect(pef_list_open(&listing, container, container_length) == PEF_OK && listing.is_open, "pef_list_open");
    expect(pef_list_next(&listing, &byte, 1, &count) == PEF_OK && byte == 'c' && count == 1, "the first byte of a listing");
    expect(pef_list_next(&listing, NULL, 0, &count) == PEF_OK && count == 0, "no bytes of a listing");
    expect(pef_list_next(&listing, &byte, 1, &count) == PEF_OK && byte == 'o' && count == 1, "the second byte of a listing");
    uint8_t *bytes = copy(container, container_length);
    expect(pef_list_open(&listing, bytes, container_length) == PEF_OK, "pef_list_open of a listing that is open");
    expect(pef_list_next(&listing, &byte, 1, &count) == PEF_OK && byte == 'c' && count == 1, "the first byte again");
    pef_list_free(&listing);
    memset(bytes, 0xA5, container_length);
    free(bytes);
    expect(pef_list_next(&listing, &byte, 1, &count) == PEF_NOT_OPEN, "a listing that was freed");
    expect(pef_list_open(&listing, container, container_length) == PEF_OK, "pef_list_open of a listing that was freed");
    expect(pef_list_open(&listing, container, 3) == PEF_TOO_SHORT && !listing.is_open, "a listing that was open");
    pef_list_free(&listing);
    pef_list_free(&listing);
}

/* The name and the container of a fragment that was removed go, while a connection is open to another one that was prepared when the
 * removed one was there. */
static void test_removed(void)
{
    struct pef_context context = PEF_NO_CONTEXT;
    struct pef_names names;
    uint32_t connection = 7, address = 7;
    uint8_t *name = copy("gone", 4), *bytes = copy(container, container_length), found[16];
    size_t written = 0, symbols = 7;
    expect(pef_open(&context, 0x10000000) == PEF_OK && pef_add(&context, name, 4, bytes, container_length) == PEF_OK, "a fragment");
    expect(pef_add(&context, (const uint8_t *)"it", 2, container, container_length) == PEF_OK, "another one");
    expect(pef_prepare(&context, name, 4, &connection, &names) == PEF_OK && pef_close(&context, connection) == PEF_OK, "the first one");
    expect(pef_prepare(&context, (const uint8_t *)"it", 2, &connection, &names) == PEF_OK, "the other one");
    expect(pef_remove(&context, NULL, 0) == PEF_ROOT_MISSING, "pef_remove of null");
    struct pef_stub_options options = PEF_NUMBERED_STUBS;
    expect(pef_lacking(&context, 0, NULL, 0, &written) == PEF_OK && written == 0, "pef_lacking into null");
    expect(pef_stub(&context, NULL, 0, &options, NULL, 0, &written, &symbols) == PEF_ROOM_TOO_SMALL && symbols == 0, "pef_stub of null");
    uint8_t *library = copy("lib", 3);
    expect(pef_stub(&context, library, 3, &options, NULL, 0, &written, &symbols) == PEF_ROOM_TOO_SMALL, "pef_stub");
    memset(library, 0xA5, 3);
    free(library);
    expect(pef_remove(&context, name, 4) == PEF_OK, "pef_remove");
    memset(name, 0xA5, 4);
    memset(bytes, 0xA5, container_length);
    free(name);
    free(bytes);
    expect(pef_fragment_bytes(&context, 1, 0, found, sizeof found, &written) == PEF_OK && written == 16 && found[3] == 4, "what is still there");
    expect(pef_fragment_symbol(&context, connection, 1, (const uint8_t *)"x", 1, &address) == PEF_OK && address == 0x00010004, "its symbol");
    expect(pef_add_new(&context, (const uint8_t *)"new", 3, container, container_length) == PEF_OK, "one in the free place");
    expect(pef_prepare(&context, (const uint8_t *)"new", 3, &connection, &names) == PEF_OK && pef_close(&context, connection) == PEF_OK, "its preparation");
    pef_free(&context);
}

/* Two fragments have one name. The name and the container of the one that was removed go, and the name is looked up. */
static void test_removed_namesake(void)
{
    struct pef_context context = PEF_NO_CONTEXT;
    struct pef_names names;
    uint32_t connection = 7;
    bool is_present = true;
    uint8_t *first = copy("same", 4), *second = copy("same", 4), *bytes = copy(container, container_length);
    expect(pef_open(&context, 0x10000000) == PEF_OK && pef_add(&context, first, 4, bytes, container_length) == PEF_OK, "the first fragment");
    expect(pef_add(&context, second, 4, container, container_length) == PEF_OK, "the second one with its name");
    expect(pef_remove(&context, (const uint8_t *)"same", 4) == PEF_OK, "pef_remove of the first one");
    memset(first, 0xA5, 4);
    memset(bytes, 0xA5, container_length);
    free(first);
    free(bytes);
    expect(pef_is_present(&context, (const uint8_t *)"same", 4, &is_present) == PEF_OK && !is_present, "a look-up of the second one");
    expect(pef_add(&context, (const uint8_t *)"other", 5, container, container_length) == PEF_OK, "a third fragment");
    expect(pef_prepare(&context, (const uint8_t *)"same", 4, &connection, &names) == PEF_OK && pef_close(&context, connection) == PEF_OK, "the second one's preparation");
    expect(pef_remove(&context, (const uint8_t *)"same", 4) == PEF_OK, "pef_remove of the second one");
    free(second);
    expect(pef_prepare(&context, (const uint8_t *)"same", 4, &connection, &names) == PEF_ROOT_MISSING, "a look-up of a name that went");
    pef_free(&context);
}

/* Opens a context, prepares a fragment whose name and container are blocks of their own, and frees all of it. */
static void open_once(void)
{
    struct pef_context context = PEF_NO_CONTEXT;
    struct pef_names names;
    struct pef_fragment_section section = {0};
    uint32_t connection = 7;
    uint8_t *name = copy("it", 2), *bytes = copy(container, container_length), wanted[] = {1, 2, 3, 4}, found[16];
    size_t written = 0;
    bool is_prepared = pef_open(&context, 0x10000000) == PEF_OK && pef_add(&context, name, 2, bytes, container_length) == PEF_OK
                       && pef_prepare(&context, name, 2, &connection, &names) == PEF_OK
                       && pef_fragment_section(&context, connection, 0, 0, &section) == PEF_OK && section.size == 16
                       && pef_fragment_bytes(&context, 0, 0, found, sizeof found, &written) == PEF_OK
                       && memcmp(found, wanted, sizeof wanted) == 0;
    expect(is_prepared, "a fragment in a context");
    pef_free(&context);
    memset(name, 0xEE, 2);
    memset(bytes, 0xEE, container_length);
    free(name);
    free(bytes);
}

/* How many bytes of addresses the process has, or how many of memory. */
enum measure { ADDRESSED, RESIDENT };
static long measure(enum measure which)
{
    long pages[2] = {0};
    FILE *file = fopen("/proc/self/statm", "r");
    if (file == NULL || fscanf(file, "%ld %ld", &pages[ADDRESSED], &pages[RESIDENT]) != 2)
        exit(2);
    fclose(file);
    return pages[which] * sysconf(_SC_PAGESIZE);
}

/* Opens a context, which may be open, and prepares a fragment in it. */
static void open_large(struct pef_context *context, const uint8_t *bytes, size_t length)
{
    struct pef_names names;
    uint32_t connection = 7;
    expect(pef_open(context, 0x10000000) == PEF_OK && pef_add(context, (const uint8_t *)"A", 1, bytes, length) == PEF_OK, "a large context");
    expect(pef_prepare(context, (const uint8_t *)"A", 1, &connection, &names) == PEF_OK, "a section of a megabyte");
}

/* If one of these freed nothing, the process would have 100 megabytes more. */
static void test_large(void)
{
    static const char large[] = "section d data process 4 1048576\n";
    struct pef_context context = PEF_NO_CONTEXT;
    uint8_t bytes[512];
    size_t length = 0, line = 0;
    expect(pef_link((const uint8_t *)large, strlen(large), bytes, sizeof bytes, &length, &line) == PEF_OK, "the script of a megabyte");
    long before = measure(ADDRESSED);
    for (int i = 0; i < 200; i++) {
        open_large(&context, bytes, length);
        pef_free(&context);
    }
    for (int i = 0; i < 200; i++)
        open_large(&context, bytes, length);
    for (int i = 0; i < 1000000 && failures == 0; i++) {
        expect(pef_open(&context, 0x10000000) == PEF_OK, "pef_open");
        pef_free(&context);
    }
    long grown = measure(ADDRESSED) - before;
    if (grown >= 16384 * 4096L)
        fprintf(stderr, "promised: %ld bytes more\n", grown);
    expect(grown < 16384 * 4096L, "large contexts, or many, keep memory");
}

static void test_memory(void)
{
    for (int i = 0; i < 1000; i++)  // the heap has found its size
        open_once();
    measure(RESIDENT);
    long before = measure(RESIDENT);
    for (int i = 0; i < 100000 && failures == 0; i++)
        open_once();
    long grown = measure(RESIDENT) - before;
    if (grown > 131072)
        fprintf(stderr, "promised: %ld bytes more\n", grown);
    expect(grown <= 131072, "100,000 contexts take more memory than one");
}

int main(int count, char **words)
{
    link_script();
    if (count == 2 && strcmp(words[1], "--memory") == 0) {
        test_memory();
        test_large();
    } else {
        test_null_slices();
        test_null_fragment();
        test_filled(0);
        test_filled(0xA5);
        test_filled(0xFF);
        test_filled_by_context(0);
        test_filled_by_context(0xA5);
        test_filled_by_context(0xFF);
        test_free();
        test_listing();
        test_removed();
        test_removed_namesake();
        open_once();
    }
    return failures == 0 ? 0 : 1;
}
