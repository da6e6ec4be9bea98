/*
 * Measures how much stack each call takes: stack FILE.. has every call read, list and prepare the containers of the files, and
 * then containers that were made to take much: libraries out of order, 256 fragments that need one another in a row, and a
 * chain of exports that are passed on. A call runs in a thread whose stack is full of one byte, and what it changed is counted.
 * A call that takes more than 64 KB, or one that opens a report and takes more than 160 KB, is told, and the status is then 1.
 */
#define _DEFAULT_SOURCE
#include "file.h"
#include "mac_file.h"

#include <pthread.h>
#include <string.h>
#include <sys/mman.h>

/* Another build of the library may take another number of bytes. */
#ifndef LIMIT
#define LIMIT (64 << 10)
#define REPORT_LIMIT (160 << 10)
#endif

enum { STACK = 1 << 21, FILLED = 0xA5, ROOM = 1 << 20, PLACES = 1024 };

/* --- what a piece of work takes --- */

static uint8_t *stack;

static void *run(void *work)
{
    (*(void (**)(void))work)();
    return NULL;
}

/* How many bytes of the stack a piece of work changes. */
static size_t changed_by(void (*work)(void))
{
    pthread_attr_t attributes;
    pthread_t thread;
    memset(stack, FILLED, STACK);
    if (pthread_attr_init(&attributes) != 0 || pthread_attr_setstack(&attributes, stack, STACK) != 0
        || pthread_create(&thread, &attributes, run, &work) != 0 || pthread_join(thread, NULL) != 0)
        exit(2);
    pthread_attr_destroy(&attributes);
    size_t left = 0;
    while (left < STACK && stack[left] == FILLED)
        left++;
    return STACK - left;
}

static void nothing(void)
{
}

static size_t most, failures;

static void measure_within(size_t limit, const char *name, const char *what, void (*work)(void))
{
    size_t all = changed_by(work), thread = changed_by(nothing);
    size_t taken = all > thread ? all - thread : 0;
    if (taken > most)
        most = taken;
    if (taken > limit) {
        printf("%s takes %zu bytes of stack: %s\n", name, taken, what);
        failures++;
    }
}

static void measure(const char *name, const char *what, void (*work)(void))
{
    measure_within(LIMIT, name, what, work);
}

/* --- the calls --- */

static struct pef_bytes it;
static const char *text;
static uint8_t room[ROOM];
static size_t written, line, places[PEF_MAX_FRAGMENTS], count;
static uint32_t connection, answer;
static struct pef_context context = PEF_NO_CONTEXT;
static struct pef_bytes bytes;

static void call_link(void)
{
    answer = pef_link((const uint8_t *)text, strlen(text), room, ROOM, &written, &line);
}

static void call_distances(void)
{
    answer = pef_distances((const uint8_t *)text, strlen(text), room, ROOM, &written, &line);
}

static void call_script_place(void)
{
    static struct pef_place place;
    answer = pef_script_place((const uint8_t *)text, strlen(text), &place, &line);
}

static void call_container_place(void)
{
    static struct pef_place place;
    answer = pef_container_place(it.at, it.length, &place);
}

static void call_list(void)
{
    answer = pef_list(it.at, it.length, room, ROOM, &written);
}

static struct pef_report report;

static void call_report_open(void)
{
    answer = pef_report_open(&report, NULL, 0, it.at, it.length);
}

static void call_report_open_container(void)
{
    answer = pef_report_open_container(&report, it.at, it.length);
}

static struct pef_found_container found;

static void call_first_container(void)
{
    answer = pef_first_container(it.at, it.length, &found);
}

static void call_report_open_head(void)
{
    answer = pef_report_open_head(&report, NULL, 0, it.at, it.length);
}

static void call_report_open_found(void)
{
    answer = pef_report_open_found(&report, it.at, it.length, &found);
}

static void call_report_open_excerpt(void)
{
    answer = pef_report_open_excerpt(&report, it.at, it.length, &found, PLACES);
}

static void call_report_open_rows(void)
{
    static const struct pef_row_range rows = {.part = PEF_RELOCATION_PART, .count = PLACES};
    answer = pef_report_open_rows(&report, it.at, it.length, &rows);
}

static void call_next_container(void)
{
    answer = pef_next_container(it.at, it.length, &found);
}

static void call_report_open_end(void)
{
    answer = pef_report_open_end(&report, it.at, it.length, &found);
}

static void call_report_next(void)
{
    answer = pef_report_next(&report, room, ROOM, &written);
}

static void call_report_free(void)
{
    pef_report_free(&report);
}

static struct pef_listing listing;

static void call_list_open(void)
{
    answer = pef_list_open(&listing, it.at, it.length);
}

static void call_list_next(void)
{
    answer = pef_list_next(&listing, room, ROOM, &written);
}

static void call_list_free(void)
{
    pef_list_free(&listing);
}

static void call_section(void)
{
    static struct pef_section section;
    answer = pef_section(it.at, it.length, 0, &section, &bytes);
    answer = pef_section_name(it.at, it.length, 0, &bytes);
    if (section.kind == PEF_KIND_PACKED && section.unpacked_size <= ROOM)
        answer = pef_expand(bytes.at, bytes.length, room, section.unpacked_size);
}

static void call_loader(void)
{
    static struct pef_loader loader;
    answer = pef_loader(it.at, it.length, &loader);
}

static void call_libraries(void)
{
    static struct pef_library rows[PLACES];
    answer = pef_libraries(it.at, it.length, 0, rows, PLACES, &count);
}

static void call_imports(void)
{
    static struct pef_import rows[PLACES];
    answer = pef_imports(it.at, it.length, 0, rows, PLACES, &count);
}

static void call_relocations(void)
{
    static struct pef_relocation rows[PLACES];
    answer = pef_relocations(it.at, it.length, 0, rows, PLACES, &count);
}

static void call_fixups(void)
{
    static struct pef_fixup rows[PLACES];
    answer = pef_fixups(it.at, it.length, 0, 0, rows, PLACES, &count);
}

static void call_exports(void)
{
    static struct pef_export rows[PLACES], found;
    answer = pef_exports(it.at, it.length, 0, rows, PLACES, &count);
    answer = pef_export_named(it.at, it.length, (const uint8_t *)"x", 1, &count, &found);
}

static void call_findings(void)
{
    static struct pef_finding rows[PLACES];
    answer = pef_findings(it.at, it.length, 0, rows, PLACES, &count);
}

static void call_more_notes(void)
{
    static struct pef_finding rows[PLACES];
    answer = pef_more_notes(it.at, it.length, 0, rows, PLACES, &count);
}

static void call_partial(void)
{
    static struct pef_header header;
    static struct pef_section section;
    static struct pef_loader loader;
    static struct pef_library libraries[PLACES];
    static struct pef_import imports[PLACES];
    static struct pef_relocation relocations[PLACES];
    static struct pef_export exports[PLACES];
    static struct pef_fixup fixups[PLACES];
    answer = pef_partial_header(it.at, it.length, &header);
    answer = pef_partial_section(it.at, it.length, 0, &section, &bytes);
    answer = pef_partial_section_name(it.at, it.length, 0, &bytes);
    answer = pef_partial_loader(it.at, it.length, &loader);
    answer = pef_partial_libraries(it.at, it.length, 0, libraries, PLACES, &count);
    answer = pef_partial_imports(it.at, it.length, 0, imports, PLACES, &count);
    answer = pef_partial_relocations(it.at, it.length, 0, relocations, PLACES, &count);
    answer = pef_partial_exports(it.at, it.length, 0, exports, PLACES, &count);
    answer = pef_partial_fixups(it.at, it.length, 0, 0, fixups, PLACES, &count);
}

/* The calls that read a file of the classic Mac OS, on that of mac_file.h. */
static void call_mac(void)
{
    static struct pef_forks forks;
    static struct pef_resource_map map;
    static struct pef_resource resources[PLACES];
    static struct pef_member members[PLACES];
    static uint8_t file[FILE_LENGTH];
    write_mac_file(file);
    answer = pef_file_kind(file, FILE_LENGTH);
    answer = pef_forks(file, FILE_LENGTH, &forks);
    answer = pef_resource_map(forks.resource_fork.bytes.at, forks.resource_fork.bytes.length, &map);
    answer = pef_resources(forks.resource_fork.bytes.at, forks.resource_fork.bytes.length, 0, resources, PLACES, &count);
    answer = pef_find_resource(forks.resource_fork.bytes.at, forks.resource_fork.bytes.length, PEF_FRAGMENT_TABLE_TYPE, 0, &resources[0]);
    answer = pef_members(resources[0].bytes.at, resources[0].bytes.length, forks.data_fork.bytes.at, forks.data_fork.bytes.length, 0, members, PLACES, &count);
    answer = pef_find_containers(file, FILE_LENGTH, 0, places, PEF_MAX_FRAGMENTS, &count);
    answer = pef_fork_container(forks.data_fork.bytes.at, forks.data_fork.bytes.length, forks.resource_fork.bytes.at, forks.resource_fork.bytes.length, (const uint8_t *)"Calc", 4, &bytes);
    answer = pef_numbered_container(file, FILE_LENGTH, 0, &bytes);
    answer = pef_file_container(file, FILE_LENGTH, (const uint8_t *)"Drv", 3, &bytes);
}

static void call_export_named(void)
{
    static struct pef_export export;
    answer = pef_export_named(it.at, it.length, (const uint8_t *)"x", 1, &count, &export);
}

/* Expands the packed bytes of docs/RULES.md. */
static void call_expand(void)
{
    static const uint8_t packed[] = {0x62, 0x01, 0x02, 0xAA, 0xBB, 0x01, 0x02};
    answer = pef_expand(packed, sizeof packed, room, 8);
}

static void call_add(void)
{
    answer = pef_add(&context, (const uint8_t *)"0", 1, it.at, it.length);
}

static void call_reserve(void)
{
    answer = pef_reserve(&context, 0x10000, 0x100);
}

static void call_unreserve(void)
{
    answer = pef_unreserve(&context, 0x10000, 0x100);
}

static void call_missing(void)
{
    static struct pef_missing missing[16];
    static struct pef_names names;
    static struct pef_place place;
    answer = pef_missing_with_place(&context, (const uint8_t *)"0", 1, 0, missing, 16, &count, &names, &place);
}

static void call_lacking(void)
{
    static struct pef_lacking lacking[16];
    answer = pef_lacking(&context, 0, lacking, 16, &count);
}

/* The stub of the first library that the context lacks, or of one that nobody names. */
static void call_stub(void)
{
    static const struct pef_stub_options options = PEF_NUMBERED_STUBS;
    static uint8_t stub[1 << 20];
    struct pef_lacking first = {PEF_NO_BYTES, false};
    pef_size written = 0;
    pef_lacking(&context, 0, &first, 1, &count);
    answer = pef_stub(&context, first.name.at, first.name.length, &options, stub, sizeof stub, &written, &count);
}

static void call_new_sections(void)
{
    static struct pef_new_section sections[16];
    static struct pef_names names;
    static struct pef_place place;
    answer = pef_new_sections_with_place(&context, (const uint8_t *)"0", 1, 0, sections, 16, &count, &names, &place);
}

/* With an address too few or too many, and so before anything is placed. */
static void call_prepare_at(void)
{
    static struct pef_names names;
    static struct pef_place place;
    static const uint32_t address = 0;
    answer = pef_prepare_at(&context, (const uint8_t *)"0", 1, &address, 1, &connection, &names, &place);
}

static void call_prepare(void)
{
    static struct pef_names names;
    static struct pef_place place;
    answer = pef_prepare_with_place(&context, (const uint8_t *)"0", 1, &connection, &names, &place);
}

static void call_readers(void)
{
    static struct pef_fragment_section section;
    static struct pef_entries entries;
    static struct pef_target target;
    static struct pef_fragment_export export;
    static struct pef_location location;
    static uint32_t address;
    static bool is_present;
    pef_fragments(&context, connection, places, PEF_MAX_FRAGMENTS, &count);
    pef_init_order(&context, connection, places, PEF_MAX_FRAGMENTS, &count);
    pef_new_fragments(&context, connection, places, PEF_MAX_FRAGMENTS, &count);
    pef_released_by(&context, connection, places, PEF_MAX_FRAGMENTS, &count);
    pef_fragment_name(&context, 0, &bytes);
    pef_next_fragment(&context, 0, &count);
    pef_is_present(&context, (const uint8_t *)"0", 1, &is_present);
    pef_fragment_sections(&context, 0, &count);
    pef_fragment_section(&context, connection, 0, 0, &section);
    pef_fragment_bytes(&context, 0, 0, room, ROOM, &written);
    pef_fragment_entries(&context, connection, 0, &entries);
    pef_fragment_symbol(&context, connection, 0, (const uint8_t *)"x", 1, &address);
    pef_import_target(&context, connection, 0, 0, &target);
    pef_export_address(&context, connection, 0, 0, &address);
    pef_fragment_exports(&context, connection, 0, &count);
    pef_fragment_export(&context, connection, 0, 0, &export);
    pef_fragment_export_named(&context, connection, 0, (const uint8_t *)"x", 1, &export);
    pef_fragment_import_named(&context, connection, 0, (const uint8_t *)"x", 1, &count);
    pef_at(&context, address, &location);
}

static void call_close(void)
{
    answer = pef_close(&context, connection);
}

static void call_free(void)
{
    pef_free(&context);
}

static void call_open(void)
{
    answer = pef_open(&context, 0x10000000);
}

/* Prepares the fragment 0 of the context. */
static void measure_context(const char *what)
{
    measure("pef_missing_with_place", what, call_missing);
    measure("pef_lacking", what, call_lacking);
    measure("pef_stub", what, call_stub);
    measure("pef_new_sections_with_place", what, call_new_sections);
    measure("pef_prepare_at", what, call_prepare_at);
    measure("pef_prepare_with_place", what, call_prepare);
    measure("a reader of a context", what, call_readers);
    measure("pef_close", what, call_close);
    measure("pef_free", what, call_free);
}

static void measure_container(const char *what)
{
    measure("pef_container_place", what, call_container_place);
    measure("pef_list", what, call_list);
    measure_within(REPORT_LIMIT, "pef_report_open", what, call_report_open);
    measure_within(REPORT_LIMIT, "pef_report_open_container", what, call_report_open_container);
    measure("pef_first_container", what, call_first_container);
    measure_within(REPORT_LIMIT, "pef_report_open_head", what, call_report_open_head);
    measure_within(REPORT_LIMIT, "pef_report_open_found", what, call_report_open_found);
    measure_within(REPORT_LIMIT, "pef_report_open_excerpt", what, call_report_open_excerpt);
    measure_within(REPORT_LIMIT, "pef_report_open_rows", what, call_report_open_rows);
    measure("pef_next_container", what, call_next_container);
    measure_within(REPORT_LIMIT, "pef_report_open_end", what, call_report_open_end);
    measure("pef_report_next", what, call_report_next);
    measure("pef_report_free", what, call_report_free);
    measure("pef_list_open", what, call_list_open);
    measure("pef_list_next", what, call_list_next);
    measure("pef_list_free", what, call_list_free);
    measure("pef_section", what, call_section);
    measure("pef_loader", what, call_loader);
    measure("pef_libraries", what, call_libraries);
    measure("pef_imports", what, call_imports);
    measure("pef_relocations", what, call_relocations);
    measure("pef_fixups", what, call_fixups);
    measure("pef_exports", what, call_exports);
    measure("pef_export_named", what, call_export_named);
    measure("pef_findings", what, call_findings);
    measure("pef_more_notes", what, call_more_notes);
    measure("a call that reads damaged containers", what, call_partial);
    measure("pef_open", what, call_open);
    measure("pef_add", what, call_add);
    if (answer != PEF_OK)
        exit(2);
    measure("pef_reserve", what, call_reserve);
    measure("pef_unreserve", what, call_unreserve);
    measure_context(what);
}

/* --- containers that were made for it --- */

static struct pef_bytes linked(const char *script)
{
    text = script;
    measure("pef_distances", script, call_distances);
    measure("pef_link", script, call_link);
    measure("pef_script_place", script, call_script_place);
    uint8_t *made = malloc(written);
    if (answer != PEF_OK || made == NULL)
        exit(2);
    return (struct pef_bytes){memcpy(made, room, written), written};
}

/* Two libraries whose rows are exchanged, so that their imports are out of order. */
static void measure_out_of_order(void)
{
    static char script[400000];
    char *end = script + sprintf(script, "library A 0 0 weak\n");
    for (int i = 0; i < 5000; i++)
        end += sprintf(end, "import a%d data weak\n", i);
    end += sprintf(end, "library B 0 0 weak\n");
    for (int i = 0; i < 5000; i++)
        end += sprintf(end, "import b%d data weak\n", i);
    sprintf(end, "section d data process 4 8\nfix d 0 import a0\nexport x data d 0\n");
    it = linked(script);
    struct pef_section section = {0};
    struct pef_bytes raw = PEF_NO_BYTES;
    uint8_t row[24];
    if (pef_section(it.at, it.length, 1, &section, &raw) != PEF_OK || section.kind != PEF_KIND_LOADER)
        exit(2);
    uint8_t *rows = (uint8_t *)it.at + section.container_offset + 56;
    memcpy(row, rows, 24);
    memmove(rows, rows + 24, 24);
    memcpy(rows + 24, row, 24);
    measure_container("libraries out of order");
    free((void *)it.at);
}

/* As many fragments as a context has, each of which needs the next one, and passes its export on. */
static void measure_chain(void)
{
    static struct pef_bytes fragments[PEF_MAX_FRAGMENTS];
    static char names[PEF_MAX_FRAGMENTS][4];
    call_open();
    for (int i = 0; i < PEF_MAX_FRAGMENTS; i++) {
        char script[200];
        sprintf(script, i == PEF_MAX_FRAGMENTS - 1 ? "versions 0 0 0\nsection d data process 4 4\nexport x data d 0\ninit d 0\n"
                                                   : "versions 0 0 0\nlibrary %d 0 0 before\nimport x data strong\n"
                                                     "section d data process 4 4\nfix d 0 import x\nreexport x data x\ninit d 0\n", i + 1);
        fragments[i] = linked(script);
        sprintf(names[i], "%d", i);
        if (pef_add(&context, (const uint8_t *)names[i], strlen(names[i]), fragments[i].at, fragments[i].length) != PEF_OK)
            exit(2);
    }
    call_prepare();
    if (answer != PEF_OK)
        exit(2);
    call_close();
    measure_context("256 fragments in a row");
    for (int i = 0; i < PEF_MAX_FRAGMENTS; i++)
        free((void *)fragments[i].at);
}

int main(int words_count, char **words)
{
    stack = mmap(NULL, STACK, PROT_READ | PROT_WRITE, MAP_PRIVATE | MAP_ANONYMOUS, -1, 0);
    if (stack == MAP_FAILED)
        return 2;
    for (int i = 1; i < words_count; i++) {
        uint8_t *read = read_file(words[i], &it.length);
        if (read == NULL) {
            perror(words[i]);
            return 2;
        }
        it.at = read;
        measure_container(words[i]);
        free(read);
    }
    measure("a call that reads files of the classic Mac OS", "mac_file.h", call_mac);
    if (answer != PEF_OK)
        exit(2);
    measure("pef_expand", "packed bytes", call_expand);
    if (answer != PEF_OK)
        exit(2);
    measure_out_of_order();
    measure_chain();
    printf("at most %zu bytes of stack\n", most);
    return failures == 0 ? 0 : 1;
}
