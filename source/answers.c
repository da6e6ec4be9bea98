/*
 * Tells what the calls of pef.h answer, for a comparison of two builds:
 *
 *     answers FILE ..                        a line for each file: the sum of all answers on it, and its path
 *     answers --random SEED COUNT FILE ..    the sum over COUNT damaged copies of the files, after each 500 and in all
 *     answers --show FILE ..                 each answer on a line, to find where two builds differ
 */
#include "pef.h"

#include <stdio.h>
#include <stdlib.h>
#include <string.h>

enum { MOST_ROWS = 3000, MOST_SECTIONS = 24, MOST_HEADERS = 6, MOST_CONTAINERS = 3, MOST_EXPANDED = 1 << 20, LONGEST_DAMAGED = 1 << 17 };

/* --- the sum --- */

static uint64_t sum;
static bool shows;

static void tell(const char *what, uint64_t number)
{
    for (int i = 0; i < 8; i++)
        sum = (sum ^ (uint8_t)(number >> 8 * i)) * 0x100000001B3;
    if (shows)
        printf("%s %llu\n", what, (unsigned long long)number);
}

/* Tells bytes by where they are in others. */
static void tell_part(const char *what, struct pef_bytes part, struct pef_bytes whole)
{
    tell(what, part.length);
    if (part.length != 0)
        tell(what, (uint64_t)(part.at - whole.at));
}

static void tell_contents(const char *what, const uint8_t *bytes, size_t length)
{
    uint64_t part = 0xCBF29CE484222325;
    for (size_t i = 0; i < length; i++)
        part = (part ^ bytes[i]) * 0x100000001B3;
    tell(what, length);
    tell(what, part);
}

static void tell_place(const struct pef_place *place)
{
    tell("part", place->part);
    tell("row", place->row);
    tell("field", place->field);
    tell("place", place->offset);
}

/* --- tables --- */

/* A row of any table. */
union row {
    struct pef_library library;
    struct pef_import import;
    struct pef_relocation relocation;
    struct pef_export export;
    struct pef_finding finding;
    struct pef_fixup fixup;
    struct pef_resource resource;
    struct pef_member member;
    pef_size offset;
};

static union row rows[MOST_ROWS];

static void tell_libraries(const struct pef_library *them, size_t count, struct pef_bytes whole)
{
    for (size_t i = 0; i < count; i++) {
        tell_part("name", them[i].name, whole);
        tell("current version", them[i].current_version);
        tell("old version", them[i].old_imp_version);
        tell("imports", them[i].import_count);
        tell("first import", them[i].first_import);
        tell("options", them[i].options);
    }
}

static void tell_imports(const struct pef_import *them, size_t count, struct pef_bytes whole)
{
    for (size_t i = 0; i < count; i++) {
        tell_part("name", them[i].name, whole);
        tell("library", them[i].library);
        tell("class", them[i].symbol_class);
        tell("weak", them[i].weak);
    }
}

static void tell_relocations(const struct pef_relocation *them, size_t count, struct pef_bytes whole)
{
    for (size_t i = 0; i < count; i++) {
        tell_part("instructions", them[i].instructions, whole);
        tell("section", them[i].section);
    }
}

static void tell_exports(const struct pef_export *them, size_t count, struct pef_bytes whole)
{
    for (size_t i = 0; i < count; i++) {
        tell_part("name", them[i].name, whole);
        tell("section", (uint32_t)them[i].section);
        tell("value", them[i].value);
        tell("class", them[i].symbol_class);
    }
}

static void tell_fixups(const struct pef_fixup *them, size_t count)
{
    for (size_t i = 0; i < count; i++) {
        tell("offset", them[i].offset);
        tell("number", them[i].number);
        tell("kind", them[i].kind);
    }
}

static void tell_findings(const struct pef_finding *them, size_t count)
{
    for (size_t i = 0; i < count; i++) {
        tell("finding", them[i].number);
        tell("error", them[i].is_error);
        tell("detail", them[i].detail);
        tell("kind", them[i].detail_kind);
        tell_place(&them[i].place);
    }
}

typedef uint32_t rows_call(struct pef_bytes whole, size_t from, size_t most, pef_size *count);

/* Tells the rows of a table from the first one on, and then few from the middle. */
static void tell_rows(const char *what, rows_call *call, struct pef_bytes whole)
{
    pef_size count = 0;
    tell(what, call(whole, 0, MOST_ROWS, &count));
    tell("count", count);
    if (count < 2)
        return;
    pef_size few = 0;
    tell(what, call(whole, count / 2, 3, &few));
    tell("count", few);
    few = 0;
    tell(what, call(whole, count, 0, &few));
    tell("count", few);
}

/* The rows of a table into `rows`, and told. The counts are told even if the call gave none, since then it changes nothing. */
#define ROWS(name, type, tells)                                                                              \
    static uint32_t name##_rows(struct pef_bytes whole, size_t from, size_t most, pef_size *count)             \
    {                                                                                                        \
        struct type *them = (struct type *)rows;                                                             \
        const uint32_t answer = pef_##name(whole.at, whole.length, from, them, most, count);                 \
        tells;                                                                                               \
        return answer;                                                                                       \
    }
ROWS(libraries, pef_library, tell_libraries(them, *count, whole))
ROWS(imports, pef_import, tell_imports(them, *count, whole))
ROWS(relocations, pef_relocation, tell_relocations(them, *count, whole))
ROWS(exports, pef_export, tell_exports(them, *count, whole))
ROWS(partial_libraries, pef_library, tell_libraries(them, *count, whole))
ROWS(partial_imports, pef_import, tell_imports(them, *count, whole))
ROWS(partial_relocations, pef_relocation, tell_relocations(them, *count, whole))
ROWS(partial_exports, pef_export, tell_exports(them, *count, whole))
ROWS(findings, pef_finding, tell_findings(them, *count))
ROWS(more_notes, pef_finding, tell_findings(them, *count))

/* --- containers --- */

static void tell_header(const struct pef_header *header)
{
    tell("date", header->date_time_stamp);
    tell("old definition", header->old_def_version);
    tell("old implementation", header->old_imp_version);
    tell("current", header->current_version);
    tell("sections", header->section_count);
    tell("instantiated", header->instantiated_section_count);
    tell("architecture", header->architecture);
}

static void tell_loader(const struct pef_loader *loader)
{
    tell("main", (uint32_t)loader->main_section);
    tell("main", loader->main_offset);
    tell("init", (uint32_t)loader->init_section);
    tell("init", loader->init_offset);
    tell("term", (uint32_t)loader->term_section);
    tell("term", loader->term_offset);
    tell("libraries", loader->library_count);
    tell("imports", loader->import_count);
    tell("headers", loader->relocation_count);
    tell("exports", loader->export_count);
}

static void tell_section(const struct pef_section *section)
{
    tell("default", section->default_address);
    tell("total", section->total_size);
    tell("unpacked", section->unpacked_size);
    tell("packed", section->packed_size);
    tell("offset", section->container_offset);
    tell("kind", section->kind);
    tell("share", section->share);
    tell("alignment", section->alignment);
}

static void tell_expanded(struct pef_bytes packed, size_t length)
{
    static uint8_t out[MOST_EXPANDED];
    if (length > MOST_EXPANDED)
        return;
    const uint32_t answer = pef_expand(packed.at, packed.length, out, length);
    tell("expand", answer);
    if (answer == PEF_OK)
        tell_contents("expanded", out, length);
}

static void tell_sections(struct pef_bytes container, size_t count)
{
    for (size_t i = 0; i <= count && i < MOST_SECTIONS; i++) {
        struct pef_section section = {0};
        struct pef_bytes raw = PEF_NO_BYTES, name = PEF_NO_BYTES;
        tell("section", pef_section(container.at, container.length, i, &section, &raw));
        tell_section(&section);
        tell_part("raw", raw, container);
        tell("name", pef_section_name(container.at, container.length, i, &name));
        tell_part("name", name, container);
        tell("partial section", pef_partial_section(container.at, container.length, i, &section, &raw));
        tell_section(&section);
        tell_part("raw", raw, container);
        tell("partial name", pef_partial_section_name(container.at, container.length, i, &name));
        tell_part("name", name, container);
        if (section.kind == PEF_KIND_PACKED)
            tell_expanded(raw, section.unpacked_size);
    }
}

static void tell_programs(struct pef_bytes container, size_t count)
{
    for (size_t i = 0; i <= count && i < MOST_HEADERS; i++) {
        pef_size found = 0;
        tell("fixups", pef_fixups(container.at, container.length, i, 0, &rows->fixup, MOST_ROWS, &found));
        tell("count", found);
        tell_fixups((const struct pef_fixup *)rows, found);
        tell("fixups", pef_fixups(container.at, container.length, i, found / 2, &rows->fixup, 2, &found));
        tell("count", found);
    }
}

/* Looks up the names of the last export and of the last import that are found, and names that there aren't. */
static void tell_names(struct pef_bytes container)
{
    struct pef_export found = {PEF_NO_BYTES, 0, 0, 0};
    struct pef_import import = {PEF_NO_BYTES, 0, 0, false};
    pef_size number = 0, count = 0;
    if (pef_exports(container.at, container.length, 0, &rows->export, MOST_ROWS, &count) == PEF_OK && count != 0) {
        const struct pef_bytes name = ((const struct pef_export *)rows)[count - 1].name;
        tell("export", pef_export_named(container.at, container.length, name.at, name.length, &number, &found));
        tell("number", number);
        tell_exports(&found, 1, container);
    }
    tell("export", pef_export_named(container.at, container.length, (const uint8_t *)"no such name", 12, &number, &found));
    tell("number", number);
    if (pef_imports(container.at, container.length, 0, &rows->import, MOST_ROWS, &count) == PEF_OK && count != 0) {
        const struct pef_bytes name = ((const struct pef_import *)rows)[count - 1].name;
        tell("import", pef_import_named(container.at, container.length, name.at, name.length, &number, &import));
        tell("number", number);
        tell_imports(&import, 1, container);
    }
    tell("import", pef_import_named(container.at, container.length, (const uint8_t *)"no such name", 12, &number, &import));
    tell("number", number);
}

static void tell_container(struct pef_bytes container)
{
    struct pef_header header = {0};
    struct pef_loader loader = {0};
    struct pef_place place = {0, 0, 0, 0};
    tell("header", pef_header(container.at, container.length, &header));
    tell_header(&header);
    tell("partial header", pef_partial_header(container.at, container.length, &header));
    tell_header(&header);
    tell("loader", pef_loader(container.at, container.length, &loader));
    tell_loader(&loader);
    tell("partial loader", pef_partial_loader(container.at, container.length, &loader));
    tell_loader(&loader);
    tell("error", pef_container_place(container.at, container.length, &place));
    tell_place(&place);
    tell_sections(container, header.section_count);
    tell_rows("libraries", libraries_rows, container);
    tell_rows("imports", imports_rows, container);
    tell_rows("relocations", relocations_rows, container);
    tell_rows("exports", exports_rows, container);
    tell_rows("partial libraries", partial_libraries_rows, container);
    tell_rows("partial imports", partial_imports_rows, container);
    tell_rows("partial relocations", partial_relocations_rows, container);
    tell_rows("partial exports", partial_exports_rows, container);
    tell_rows("findings", findings_rows, container);
    tell_rows("more notes", more_notes_rows, container);
    tell_programs(container, loader.relocation_count);
    tell_names(container);
}

/* --- files of the classic Mac OS --- */

static void tell_resource(const struct pef_resource *it, struct pef_bytes fork)
{
    tell_part("name", it->name, fork);
    tell_part("bytes", it->bytes, fork);
    tell("offset", it->offset);
    tell("error at", it->error_offset);
    tell("name error at", it->name_error_offset);
    tell("error", it->error);
    tell("name error", it->name_error);
    tell("type", it->type);
    tell("id", (uint16_t)it->id);
    tell("type row", it->type_row);
    tell("row", it->row);
    tell("attributes", it->attributes);
}

static void tell_member(const struct pef_member *it, struct pef_bytes table, struct pef_bytes data_fork)
{
    tell_part("name", it->name, table);
    tell_part("container", it->container, data_fork);
    tell("place", it->place);
    tell("error at", it->error_offset);
    tell("name error at", it->name_error_offset);
    tell("container error at", it->container_error_offset);
    tell("error", it->error);
    tell("name error", it->name_error);
    tell("container error", it->container_error);
    const uint32_t words[] = {it->architecture, it->current_version, it->old_def_version, it->stack_size, it->offset, it->length, it->space_id,
        it->directory_or_flags, it->fork_instance, it->extension_count, it->size, it->update_level, it->usage, it->locator};
    for (size_t i = 0; i < sizeof words / sizeof words[0]; i++)
        tell("field", words[i]);
}

/* Tells the members of a table, and the container that each name has. */
static void tell_members(struct pef_bytes table, struct pef_bytes data_fork, struct pef_bytes resource_fork)
{
    pef_size count = 0;
    tell("members", pef_members(table.at, table.length, data_fork.at, data_fork.length, 0, &rows->member, 64, &count));
    tell("count", count);
    const struct pef_member *them = (const struct pef_member *)rows;
    for (size_t i = 0; i < count; i++) {
        struct pef_bytes container = PEF_NO_BYTES;
        tell_member(&them[i], table, data_fork);
        tell("container", pef_fork_container(data_fork.at, data_fork.length, resource_fork.at, resource_fork.length, them[i].name.at, them[i].name.length, &container));
        tell("length", container.length);
    }
}

static void tell_fork(struct pef_bytes fork, struct pef_bytes data_fork)
{
    struct pef_resource_map map = {0, 0, 0, 0, 0, 0, 0, 0};
    struct pef_resource table;
    pef_size count = 0;
    tell("map", pef_resource_map(fork.at, fork.length, &map));
    const uint32_t words[] = {map.error, map.data_offset, map.map_offset, map.data_length, map.map_length, map.attributes, map.type_count};
    for (size_t i = 0; i < sizeof words / sizeof words[0]; i++)
        tell("field", words[i]);
    tell("error at", map.error_offset);
    tell("resources", pef_resources(fork.at, fork.length, 0, &rows->resource, MOST_ROWS, &count));
    tell("count", count);
    for (size_t i = 0; i < count; i++)
        tell_resource(&((const struct pef_resource *)rows)[i], fork);
    const uint32_t answer = pef_find_resource(fork.at, fork.length, PEF_FRAGMENT_TABLE_TYPE, 0, &table);
    tell("table", answer);
    tell("resource", pef_find_resource(fork.at, fork.length, 0x53545220, -1, &table));
    if (answer == PEF_OK && pef_find_resource(fork.at, fork.length, PEF_FRAGMENT_TABLE_TYPE, 0, &table) == PEF_OK) {
        tell_resource(&table, fork);
        tell_members(table.bytes, data_fork, fork);
    }
}

static void tell_part_of(const struct pef_part *part, struct pef_bytes file)
{
    tell_part("part", part->bytes, file);
    tell("offset", part->offset);
    tell("error at", part->error_offset);
    tell("error", part->error);
}

static void tell_forks(struct pef_bytes file)
{
    struct pef_forks forks = PEF_NO_FORKS;
    tell("kind", pef_file_kind(file.at, file.length));
    tell("forks", pef_forks(file.at, file.length, &forks));
    tell_part_of(&forks.data_fork, file);
    tell_part_of(&forks.resource_fork, file);
    tell_part_of(&forks.name, file);
    tell_part_of(&forks.comment, file);
    const uint32_t words[] = {forks.finder.error, forks.finder.file_type, forks.finder.creator, forks.finder.flags, (uint16_t)forks.finder.vertical,
        (uint16_t)forks.finder.horizontal, forks.finder.window, forks.error, forks.kind};
    for (size_t i = 0; i < sizeof words / sizeof words[0]; i++)
        tell("field", words[i]);
    tell("error at", forks.finder.error_offset);
    tell("error at", forks.error_offset);
    if (forks.resource_fork.bytes.length != 0)
        tell_fork(forks.resource_fork.bytes, forks.data_fork.bytes);
    else
        tell_fork(file, file);
}

/* Tells the text of a report, which is free then. */
static void tell_whole(struct pef_report *report)
{
    static uint8_t part[4093];
    pef_size written = 0;
    do {
        tell("next", pef_report_next(report, part, sizeof part, &written));
        tell_contents("text", part, written);
    } while (written == sizeof part);
    pef_report_free(report);
}

static void tell_report(struct pef_bytes file)
{
    struct pef_report report = PEF_NO_REPORT;
    tell("report", pef_report_open(&report, (const uint8_t *)"some path", 9, file.at, file.length));
    tell_whole(&report);
    tell("report on a container", pef_report_open_container(&report, file.at, file.length));
    tell_whole(&report);
}

/* --- contexts --- */

static uint8_t room[MOST_EXPANDED];

static void tell_target(const struct pef_target *target)
{
    tell("kind", target->kind);
    tell("fragment", target->fragment);
    tell("section", target->section);
    tell("offset", target->offset);
    tell("address", target->address);
}

/* The only fragment of the context is the number 0. */
static void tell_memory(const struct pef_context *context, uint32_t connection)
{
    struct pef_fragment_section section;
    struct pef_entries entries = {0, 0, 0, false, false, false};
    struct pef_location location;
    for (size_t i = 0; i < MOST_SECTIONS && pef_fragment_section(context, connection, 0, i, &section) == PEF_OK; i++) {
        pef_size written = 0;
        tell("section at", section.address);
        tell("kind", section.kind);
        tell("share", section.share);
        tell("bytes", pef_fragment_bytes(context, 0, i, room, sizeof room, &written));
        tell_contents("memory", room, (size_t)(written < sizeof room ? written : 0));
        memset(&location, 0, sizeof location);
        tell("at", pef_at(context, section.address + 2, &location));
        tell("offset", location.offset);
        tell("nearest", location.nearest.number);
    }
    tell("entries", pef_fragment_entries(context, connection, 0, &entries));
    tell("init", entries.has_init ? entries.init : 1);
    tell("main", entries.has_main ? entries.main : 1);
    tell("term", entries.has_term ? entries.term : 1);
}

static void tell_meanings(const struct pef_context *context, uint32_t connection)
{
    struct pef_target target;
    struct pef_fragment_export export;
    for (size_t i = 0; i < MOST_SECTIONS && pef_import_target(context, connection, 0, i, &target) == PEF_OK; i++)
        tell_target(&target);
    for (size_t i = 0; i < MOST_SECTIONS && pef_fragment_export(context, connection, 0, i, &export) == PEF_OK; i++) {
        tell_target(&export.target);
        tell("class", export.symbol_class);
        tell("import", export.import_number);
    }
}

/* What would be placed, and what is missing. */
static void tell_before(struct pef_context *context)
{
    struct pef_names names = PEF_NO_NAMES;
    struct pef_place place = {0, 0, 0, 0};
    struct pef_missing missing;
    struct pef_new_section section;
    pef_size count = 0;
    memset(&missing, 0, sizeof missing);
    memset(&section, 0, sizeof section);
    tell("missing", pef_missing_with_place(context, (const uint8_t *)"it", 2, 0, &missing, 1, &count, &names, &place));
    tell_place(&place);
    tell("count", count);
    tell("name", missing.name.length);
    tell("weak", missing.is_weak);
    count = 0;
    tell("new", pef_new_sections_with_place(context, (const uint8_t *)"it", 2, 0, &section, 1, &count, &names, &place));
    tell_place(&place);
    tell("count", count);
    tell("size", section.size);
    tell("alignment", section.alignment);
}

/* What is lacking, and the stub of the first library that is, as numbers and as memory. */
static void tell_stubs(struct pef_context *context)
{
    struct pef_stub_options numbers = PEF_NUMBERED_STUBS, memory = PEF_STUBS_IN_MEMORY;
    const struct pef_stub_options *both[2] = {&numbers, &memory};
    struct pef_lacking lacking;
    pef_size count = 0;
    memset(&lacking, 0, sizeof lacking);
    tell("lacking", pef_lacking(context, 0, &lacking, 1, &count));
    tell("count", count);
    tell("name", lacking.name.length);
    tell("weak", lacking.is_weak);
    for (size_t i = 0; i < 2; i++) {
        pef_size written = 0, symbols = 0;
        uint32_t answer = pef_stub(context, lacking.name.at, (size_t)lacking.name.length, both[i], room, sizeof room, &written, &symbols);
        tell("stub", answer);
        tell("symbols", symbols);
        tell_contents("container", room, answer == PEF_OK ? (size_t)written : 0);
    }
}

/* Prepares a file as the only fragment of a context with bounds. */
static void tell_prepared(struct pef_bytes file)
{
    struct pef_context context = PEF_NO_CONTEXT;
    struct pef_options options = PEF_USUAL_OPTIONS;
    struct pef_names names = PEF_NO_NAMES;
    struct pef_place place = {0, 0, 0, 0};
    uint32_t connection = 0, answer;
    options.steps = 100000;
    options.bytes = 1 << 22;
    tell("open", pef_open_with(&context, &options));
    tell("add", pef_add(&context, (const uint8_t *)"it", 2, file.at, (size_t)file.length));
    tell_before(&context);
    tell_stubs(&context);
    answer = pef_prepare_with_place(&context, (const uint8_t *)"it", 2, &connection, &names, &place);
    tell("prepare", answer);
    tell_place(&place);
    tell("fragment", names.fragment.length);
    tell("library", names.library.length);
    tell("symbol", names.symbol.length);
    if (answer == PEF_OK) {
        tell_memory(&context, connection);
        tell_meanings(&context, connection);
        tell("close", pef_close(&context, connection));
    }
    tell("remove", pef_remove(&context, (const uint8_t *)"it", 2));
    pef_free(&context);
}

/* --- listings and scripts --- */

static void tell_listing(struct pef_bytes file)
{
    struct pef_listing listing = PEF_NO_LISTING;
    uint32_t answer = pef_list_open(&listing, file.at, (size_t)file.length);
    tell("list", answer);
    for (size_t part = 0; answer == PEF_OK && part < 64; part++) {
        pef_size written = 0;
        answer = pef_list_next(&listing, room, 1021, &written);
        tell_contents("lines", room, (size_t)written);
    }
    pef_list_free(&listing);
}

/* Reads a file as a script. Linking takes long if there is much, so a long one isn't linked. */
static void tell_script(struct pef_bytes file)
{
    struct pef_place place = {0, 0, 0, 0};
    pef_size earlier = 0, written = 0, line = 0;
    tell("script", pef_script_place(file.at, (size_t)file.length, &place, &earlier));
    tell_place(&place);
    tell("earlier", earlier);
    if (file.length > 4096)
        return;
    tell("link", pef_link(file.at, (size_t)file.length, room, sizeof room, &written, &line));
    tell("line", line);
    tell_contents("container", room, (size_t)(written < sizeof room ? written : 0));
    written = 0;
    tell("distances", pef_distances(file.at, (size_t)file.length, room, sizeof room, &written, &line));
    tell("line", line);
    tell_contents("certificates", room, (size_t)(written < sizeof room ? written : 0));
}

/* --- files --- */

static void tell_file(struct pef_bytes file)
{
    struct pef_bytes named = PEF_NO_BYTES;
    pef_size count = 0;
    tell_forks(file);
    tell_container(file);
    tell("file container", pef_file_container(file.at, file.length, (const uint8_t *)"Calculator", 10, &named));
    tell_part("container", named, file);
    tell("containers", pef_find_containers(file.at, file.length, 0, &rows->offset, MOST_ROWS, &count));
    tell("count", count);
    for (size_t i = 0; i < count; i++)
        tell("at", ((const pef_size *)rows)[i]);
    for (size_t i = 0; i <= count && i < MOST_CONTAINERS; i++) {
        struct pef_bytes container = PEF_NO_BYTES;
        tell("numbered", pef_numbered_container(file.at, file.length, i, &container));
        tell_part("container", container, file);
        if (container.length != 0 && container.at != file.at)
            tell_container(container);
    }
    tell_report(file);
    tell_prepared(file);
    tell_listing(file);
    tell_script(file);
}

static void tell_texts(void)
{
    for (uint32_t number = 0; number < 260; number++) {
        struct pef_bytes text = PEF_NO_BYTES;
        tell("name", pef_name(number, &text));
        tell_contents("text", text.at, text.length);
        tell("help", pef_help(number, &text));
        tell_contents("text", text.at, text.length);
    }
    tell("version", pef_version());
}

static struct pef_bytes read_file(const char *path)
{
    struct pef_bytes none = PEF_NO_BYTES;
    FILE *file = fopen(path, "rb");
    if (file == NULL || fseek(file, 0, SEEK_END) != 0) {
        perror(path);
        exit(1);
    }
    const size_t length = (size_t)ftell(file);
    uint8_t *bytes = malloc(length == 0 ? 1 : length);
    rewind(file);
    if (bytes == NULL || fread(bytes, 1, length, file) != length) {
        perror(path);
        exit(1);
    }
    fclose(file);
    none.at = bytes;
    none.length = length;
    return none;
}

/* --- damage --- */

static uint64_t state;

/* A number below `most`, the same on each machine. */
static size_t chance(size_t most)
{
    state ^= state << 13;
    state ^= state >> 7;
    state ^= state << 17;
    return (size_t)((state >> 11) % most);
}

/* Changes bytes in one of several ways, and returns how many there are then. */
static size_t damage(uint8_t *bytes, size_t length)
{
    static const uint8_t numbers[] = {0, 1, 2, 3, 4, 0x10, 0x7F, 0x80, 0xFE, 0xFF};
    if (length < 8)
        return length;
    const size_t at = chance(2) == 0 ? chance(length) : chance(length < 512 ? length : 512), count = length - at < 4 ? length - at : 4;
    switch (chance(6)) {
    case 0:
        bytes[at] ^= (uint8_t)(1 << chance(8));
        return length;
    case 1:
        bytes[at] = numbers[chance(sizeof numbers)];
        return length;
    case 2: {
        /* Two calls in one expression would be made in an order of the compiler's. */
        const int number = (int)numbers[chance(sizeof numbers)];
        memset(bytes + at, number, 1 + chance(count));
        return length;
    }
    case 3:
        return at;
    case 4:
        memmove(bytes + at, bytes + chance(length - count), count);
        return length;
    default:
        for (size_t i = 0; i < count; i++)
            bytes[at + i] = (uint8_t)chance(256);
        return length;
    }
}

static void tell_damaged(const struct pef_bytes *files, size_t file_count, size_t count)
{
    for (size_t i = 0; i < count; i++) {
        const struct pef_bytes *from = &files[chance(file_count)];
        size_t length = from->length < LONGEST_DAMAGED ? from->length : LONGEST_DAMAGED;
        uint8_t *bytes = malloc(length + 1);
        if (bytes == NULL)
            exit(1);
        memcpy(bytes, from->at, length);
        for (size_t k = 1 + chance(6); k > 0; k--)
            length = damage(bytes, length);
        const struct pef_bytes file = {bytes, length};
        tell_file(file);
        free(bytes);
        if (i % 500 == 499 || i + 1 == count)
            printf("%016llX after %llu\n", (unsigned long long)sum, (unsigned long long)i + 1);
    }
}

static int usage(void)
{
    fputs("usage: answers [--show | --random SEED COUNT] FILE ..\n", stderr);
    return 2;
}

int main(int count, char **words)
{
    const bool is_random = count > 4 && strcmp(words[1], "--random") == 0;
    int first = is_random ? 4 : 1;
    if (count > 1 && strcmp(words[1], "--show") == 0) {
        shows = true;
        first = 2;
    }
    if (first >= count)
        return usage();
    tell_texts();
    printf("%016llX texts\n", (unsigned long long)sum);
    struct pef_bytes *files = malloc((size_t)count * sizeof *files);
    if (files == NULL)
        return 1;
    for (int i = first; i < count; i++) {
        files[i - first] = read_file(words[i]);
        if (is_random)
            continue;
        sum = 0xCBF29CE484222325;
        tell_file(files[i - first]);
        printf("%016llX %s\n", (unsigned long long)sum, words[i]);
    }
    if (is_random) {
        state = 0x9E3779B97F4A7C15 ^ strtoull(words[2], NULL, 10);
        tell_damaged(files, (size_t)(count - first), (size_t)strtoull(words[3], NULL, 10));
    }
    for (int i = first; i < count; i++)
        free((void *)files[i - first].at);
    free(files);
    return 0;
}
