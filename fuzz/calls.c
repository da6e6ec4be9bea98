/*
 * A driver for libFuzzer over libpef. The first byte of an input says what the rest is:
 *
 *     c   a container, which all calls read
 *     s   a script: it is linked, and what is linked has to be read
 *     m   a file of the classic Mac OS, which is also read as a resource fork and as a table of fragments
 *     q   a sequence of calls on two contexts, a few bytes each
 *
 * Each call has to answer PEF_OK or a number that has a name, and has to write nothing outside of what it may. The library isn't
 * instrumented, so what is handed in ends at a page that can't be touched.
 */
#define _DEFAULT_SOURCE
#include <pef.h>

#include <stdio.h>
#include <stdlib.h>
#include <string.h>
#include <sys/mman.h>

enum { ROOM = 1 << 20, PLACES = 64, FINDINGS = 1024, CONTAINERS = 256 };

/* --- what the calls are handed --- */

/* A megabyte before a page that can't be touched. */
struct room {
    uint8_t *end;
};

static struct room inputs, outputs, more;

static void make_room(struct room *room)
{
    uint8_t *at = mmap(NULL, ROOM + 4096, PROT_READ | PROT_WRITE, MAP_PRIVATE | MAP_ANONYMOUS, -1, 0);
    if (at == MAP_FAILED || mprotect(at + ROOM, 4096, PROT_NONE) != 0)
        abort();
    room->end = at + ROOM;
}

/* The last bytes of a room. */
static uint8_t *take(const struct room *room, size_t length)
{
    if (length > ROOM)
        abort();
    return room->end - length;
}

static const uint8_t *put(const struct room *room, const uint8_t *bytes, size_t length)
{
    return memcpy(take(room, length), bytes, length);
}

/* --- what they answer --- */

static void fails(const char *what, uint32_t answer)
{
    fprintf(stderr, "%s: %u\n", what, (unsigned)answer);
    abort();
}

/* Whether a call did what it says. Another answer has to have a name. */
static bool is_ok(const char *what, uint32_t answer)
{
    struct pef_bytes name = PEF_NO_BYTES;
    if (answer != PEF_OK && (pef_name(answer, &name) != PEF_OK || name.length == 0))
        fails(what, answer);
    return answer == PEF_OK;
}

/* Whether a slice is a part of some bytes, or has none. */
static void check_part(struct pef_bytes part, const uint8_t *bytes, size_t length)
{
    if (part.length != 0 && (part.at < bytes || part.length > length || part.at - bytes > (ptrdiff_t)(length - part.length)))
        fails("a slice outside of the container", (uint32_t)part.length);
}

/* --- containers --- */

static void read_section(const uint8_t *bytes, size_t length, size_t number)
{
    struct pef_section it = {0};
    struct pef_bytes raw = PEF_NO_BYTES, name = PEF_NO_BYTES;
    if (!is_ok("pef_section", pef_section(bytes, length, number, &it, &raw)))
        return;
    check_part(raw, bytes, length);
    if (is_ok("pef_section_name", pef_section_name(bytes, length, number, &name)))
        check_part(name, bytes, length);
    if (it.kind == PEF_KIND_PACKED && it.unpacked_size <= ROOM)
        is_ok("pef_expand", pef_expand(raw.at, raw.length, take(&outputs, it.unpacked_size), it.unpacked_size));
}

/* Reads a table of rows that have a name or another slice, in parts. */
#define READ_TABLE(call, row, slice)                                                                                           \
    do {                                                                                                                       \
        struct row places[PLACES];                                                                                             \
        size_t from = 0, count = 0;                                                                                            \
        do {                                                                                                                   \
            for (size_t i = 0; i < PLACES; i++)                                                                                \
                places[i] = (struct row){.slice = PEF_NO_BYTES};                                                               \
            if (!is_ok(#call, call(bytes, length, from, places, PLACES, &count)))                                              \
                break;                                                                                                         \
            for (size_t i = 0; i < count; i++)                                                                                 \
                check_part(places[i].slice, bytes, length);                                                                    \
            from += count;                                                                                                     \
        } while (count == PLACES && from < 1024);                                                                              \
    } while (0)

/* Finds each of the first exports by its name: it, or one before it, has the name. */
static void find_exports(const uint8_t *bytes, size_t length)
{
    struct pef_export places[PLACES], found = {.name = PEF_NO_BYTES};
    size_t count = 0, number = 0;
    for (size_t i = 0; i < PLACES; i++)
        places[i] = (struct pef_export){.name = PEF_NO_BYTES};
    if (!is_ok("pef_exports", pef_exports(bytes, length, 0, places, PLACES, &count)))
        return;
    for (size_t i = 0; i < count; i++) {
        struct pef_bytes name = places[i].name;
        if (pef_export_named(bytes, length, name.at, name.length, &number, &found) != PEF_OK || number > i)
            fails("pef_export_named", (uint32_t)i);
        check_part(found.name, bytes, length);
        if (found.name.length != name.length || (name.length != 0 && memcmp(found.name.at, name.at, name.length) != 0))
            fails("pef_export_named, the name", (uint32_t)i);
    }
}

/* Reads the additions of the first relocation programs, in two parts. The rows are the same in one part. */
static void read_fixups(const uint8_t *bytes, size_t length)
{
    for (size_t header = 0; header < 8; header++) {
        struct pef_fixup all[PLACES], some[PLACES];
        size_t count = 0, first = 0, others = 0;
        if (!is_ok("pef_fixups", pef_fixups(bytes, length, header, 0, all, PLACES, &count)))
            continue;
        memset(some, 0, sizeof some);
        memset(all + count, 0, (PLACES - count) * sizeof *all);
        if (pef_fixups(bytes, length, header, 0, some, PLACES / 3, &first) != PEF_OK || pef_fixups(bytes, length, header, first, some + first, PLACES - first, &others) != PEF_OK)
            fails("pef_fixups, in parts", (uint32_t)header);
        if (first + others != count || first > PLACES / 3 || memcmp(some, all, sizeof all) != 0)
            fails("pef_fixups, other rows", (uint32_t)header);
    }
}

/* Reads a listing part by part, and compares it with the lines. */
static void list_in_parts(const uint8_t *bytes, size_t length, const uint8_t *lines, size_t count)
{
    struct pef_listing listing = PEF_NO_LISTING;
    size_t most = 1 + count / 3, from = 0, written = most;
    uint8_t *part = malloc(most);
    if (part == NULL || pef_list_open(&listing, bytes, length) != PEF_OK)
        fails("pef_list_open", (uint32_t)count);
    while (written == most) {
        if (pef_list_next(&listing, part, most, &written) != PEF_OK || written > count - from || memcmp(part, lines + from, written) != 0)
            fails("pef_list_next", (uint32_t)from);
        from += written;
    }
    if (from != count)
        fails("pef_list_next, at the end", (uint32_t)from);
    pef_list_free(&listing);
    free(part);
}

/* Reads the report on a container part by part, and the report on a file of these bytes, which has the container's if it is one. */
static void report_in_parts(const uint8_t *bytes, size_t length)
{
    struct pef_report report = PEF_NO_REPORT;
    uint8_t part[97];
    size_t written = sizeof part, all = 0;
    uint8_t last = 0;
    uint32_t answer = length % 2 == 0 ? pef_report_open(&report, part, 0, bytes, length) : pef_report_open_container(&report, bytes, length);
    if (!is_ok("pef_report_open", answer))
        return;
    while (written == sizeof part) {
        if (pef_report_next(&report, part, sizeof part, &written) != PEF_OK || written > sizeof part || (all == 0 && part[0] != '{'))
            fails("pef_report_next", (uint32_t)all);
        all += written;
        last = written == 0 ? last : part[written - 1];
    }
    if (last != (length % 2 == 0 ? '\n' : '}') || pef_report_next(&report, part, sizeof part, &written) != PEF_OK || written != 0)
        fails("pef_report_next, at the end", (uint32_t)all);
    pef_report_free(&report);
}

/* How many bytes the text of an open report has, which is freed. */
static size_t report_length(struct pef_report *report)
{
    uint8_t part[4096];
    size_t written = sizeof part, all = 0;
    while (written == sizeof part) {
        if (pef_report_next(report, part, sizeof part, &written) != PEF_OK)
            fails("pef_report_next", (uint32_t)all);
        all += written;
    }
    pef_report_free(report);
    return all;
}

/* Makes the report on a file in parts. They have as many bytes as the whole report. */
static void report_by_containers(const uint8_t *bytes, size_t length)
{
    struct pef_report report = PEF_NO_REPORT;
    struct pef_found_container found;
    if (!is_ok("pef_report_open_head", pef_report_open_head(&report, bytes, 0, bytes, length)))
        return;
    size_t all = report_length(&report);
    uint32_t answer = pef_first_container(bytes, length, &found);
    while (answer == PEF_OK) {
        if (found.offset >= length || found.length > length - found.offset)
            fails("pef_next_container", (uint32_t)found.offset);
        if (!is_ok("pef_report_open_found", pef_report_open_found(&report, bytes, length, &found)))
            return;
        all += report_length(&report);
        if (is_ok("pef_report_open_excerpt", pef_report_open_excerpt(&report, bytes, length, &found, 3)))
            report_length(&report);
        answer = pef_next_container(bytes, length, &found);
    }
    if (answer != PEF_NOT_THERE || found.offset != length || !is_ok("pef_report_open_end", pef_report_open_end(&report, bytes, length, &found)))
        fails("pef_next_container, at the end", answer);
    all += report_length(&report);
    if (is_ok("pef_report_open", pef_report_open(&report, bytes, 0, bytes, length)) && report_length(&report) != all)
        fails("the parts of a report", (uint32_t)all);
}

/* Lists into a room that is too small by one byte, and into one that isn't. The first stays as it is. */
static void list(const uint8_t *bytes, size_t length)
{
    size_t written = 0, again = 0;
    uint32_t answer = pef_list(bytes, length, take(&outputs, 0), 0, &written);
    if (answer == PEF_OK || (!is_ok("pef_list", answer) && answer != PEF_ROOM_TOO_SMALL) || written > ROOM)
        return;
    uint8_t *room = take(&outputs, written);
    memset(room, 0xA5, written);
    if (pef_list(bytes, length, room, written - 1, &again) != PEF_ROOM_TOO_SMALL || again != written || room[0] != 0xA5)
        fails("pef_list, one byte short", (uint32_t)again);
    if (pef_list(bytes, length, room, written, &again) != PEF_OK || again != written || room[written - 1] != '\n')
        fails("pef_list, with room", (uint32_t)again);
    list_in_parts(bytes, length, room, written);
}

static bool is_same_finding(const struct pef_finding *one, const struct pef_finding *other)
{
    return one->place.part == other->place.part && one->place.row == other->place.row && one->place.field == other->place.field
        && one->place.offset == other->place.offset && one->detail == other->detail && one->number == other->number && one->is_error == other->is_error
        && one->detail_kind == other->detail_kind;
}

/* Finds what is wrong with a container, in two parts, and compares it with what the other calls reported: `read` is what reading the
 * container answered, and `prepared` what its preparation alone did. */
static void find(const uint8_t *bytes, size_t length, uint32_t read, uint32_t prepared)
{
    static struct pef_finding all[FINDINGS], some[FINDINGS];
    size_t count = 0, first = 0, others = 0;
    if (pef_findings(bytes, length, 0, all, FINDINGS, &count) != PEF_OK || pef_findings(bytes, length, 0, some, PLACES, &first) != PEF_OK
        || pef_findings(bytes, length, first, some + first, FINDINGS - first, &others) != PEF_OK)
        fails("pef_findings", (uint32_t)count);
    if (first + others != count)
        fails("pef_findings, in parts", (uint32_t)count);
    uint32_t error = PEF_OK;
    bool is_among = count == FINDINGS;
    for (size_t i = 0; i < count; i++) {
        struct pef_bytes name = PEF_NO_BYTES;
        if (!is_same_finding(&all[i], &some[i]) || pef_name(all[i].number, &name) != PEF_OK || name.length == 0 || all[i].is_error != (all[i].number < 100))
            fails("a finding", all[i].number);
        if (error == PEF_OK && all[i].is_error)
            error = all[i].number;
        if (all[i].number == prepared || all[i].number == PEF_NOTE_PROGRAMS_UNVERIFIED || all[i].number == PEF_NOTE_IMAGES_UNVERIFIED)
            is_among = true;
    }
    if (read == PEF_OK ? error != PEF_OK && error <= PEF_BAD_EXPORT_SECTION : error != read)
        fails("the first error", error);
    if (prepared != PEF_OK && prepared <= PEF_RELOC_SECTION_OUTSIDE && !is_among)
        fails("an error of a preparation that isn't found", prepared);
    if (is_ok("pef_more_notes", pef_more_notes(bytes, length, 0, some, FINDINGS, &others)))
        for (size_t i = 0; i < others; i++)
            if (some[i].is_error || some[i].number < 100)
                fails("a note", some[i].number);
}

/* Reads a container that may be damaged as far as it can be read. */
static void read_partly(const uint8_t *bytes, size_t length)
{
    struct pef_header header = {0};
    struct pef_section section = {0};
    struct pef_loader loader = {0};
    struct pef_bytes raw = PEF_NO_BYTES, name = PEF_NO_BYTES;
    if (!is_ok("pef_partial_header", pef_partial_header(bytes, length, &header)))
        return;
    for (size_t i = 0; i <= header.section_count && i < PLACES; i++) {
        if (!is_ok("pef_partial_section", pef_partial_section(bytes, length, i, &section, &raw)))
            break;
        check_part(raw, bytes, length);
        if (is_ok("pef_partial_section_name", pef_partial_section_name(bytes, length, i, &name)))
            check_part(name, bytes, length);
    }
    is_ok("pef_partial_loader", pef_partial_loader(bytes, length, &loader));
    READ_TABLE(pef_partial_libraries, pef_library, name);
    READ_TABLE(pef_partial_imports, pef_import, name);
    READ_TABLE(pef_partial_relocations, pef_relocation, instructions);
    READ_TABLE(pef_partial_exports, pef_export, name);
}

/* What the preparation of a container alone answers. */
static uint32_t prepare(const uint8_t *bytes, size_t length)
{
    struct pef_context context = {0};
    struct pef_names names = PEF_NO_NAMES;
    struct pef_options options = PEF_USUAL_OPTIONS;
    uint32_t connection = 0;
    options.steps = 1 << 20;
    options.bytes = 1 << 26;
    uint32_t answer = pef_open_with(&context, &options);
    if (answer == PEF_OK)
        answer = pef_add(&context, (const uint8_t *)"it", 2, bytes, length);
    if (answer == PEF_OK)
        answer = pef_prepare(&context, (const uint8_t *)"it", 2, &connection, &names);
    pef_free(&context);
    return answer;
}

/* --- files of the classic Mac OS --- */

/* An error of a part: 0, 201 or one that has a name. Returns whether the part is there. */
static bool is_there(const char *what, uint32_t error)
{
    return error == PEF_OK || (error != PEF_NOT_THERE && is_ok(what, error));
}

static void read_members(const uint8_t *table, size_t table_length, const uint8_t *bytes, size_t length)
{
    struct pef_member places[PLACES];
    size_t from = 0, count = 0;
    do {
        for (size_t i = 0; i < PLACES; i++)
            places[i] = (struct pef_member){.name = PEF_NO_BYTES, .container = PEF_NO_BYTES};
        if (!is_ok("pef_members", pef_members(table, table_length, bytes, length, from, places, PLACES, &count)))
            return;
        for (size_t i = 0; i < count; i++) {
            is_there("a member", places[i].error);
            is_there("a member's name", places[i].name_error);
            is_there("a member's container", places[i].container_error);
            check_part(places[i].name, table, table_length);
            check_part(places[i].container, bytes, length);
        }
        from += count;
    } while (count == PLACES && from < 1024);
}

static void read_fork(const uint8_t *fork, size_t length)
{
    struct pef_resource_map map = {0};
    struct pef_resource places[PLACES], table = {.name = PEF_NO_BYTES, .bytes = PEF_NO_BYTES};
    size_t from = 0, count = 0;
    if (!is_ok("pef_resource_map", pef_resource_map(fork, length, &map)))
        return;
    is_there("a map", map.error);
    do {
        for (size_t i = 0; i < PLACES; i++)
            places[i] = table;
        if (!is_ok("pef_resources", pef_resources(fork, length, from, places, PLACES, &count)))
            break;
        for (size_t i = 0; i < count; i++) {
            is_there("a resource", places[i].error);
            is_there("a resource's name", places[i].name_error);
            check_part(places[i].name, fork, length);
            check_part(places[i].bytes, fork, length);
        }
        from += count;
    } while (count == PLACES && from < 1024);
    if (is_ok("pef_find_resource", pef_find_resource(fork, length, PEF_FRAGMENT_TABLE_TYPE, 0, &table)) && table.error == PEF_OK)
        read_members(table.bytes.at, table.bytes.length, fork, length);
}

static void read_mac_file(const uint8_t *bytes, size_t length)
{
    struct pef_forks forks = PEF_NO_FORKS;
    struct pef_bytes container = PEF_NO_BYTES;
    size_t places[PLACES], count = 0;
    if (pef_file_kind(bytes, length) > PEF_FILE_RESOURCE_FORK)
        fails("pef_file_kind", pef_file_kind(bytes, length));
    read_fork(bytes, length);
    read_members(bytes, length, bytes, length);
    if (is_ok("pef_find_containers", pef_find_containers(bytes, length, 0, places, PLACES, &count)))
        for (size_t i = 0; i < count; i++)
            if (places[i] > length || length - places[i] < 40 || memcmp(bytes + places[i], "Joy!peff", 8) != 0)
                fails("a place of no container", (uint32_t)places[i]);
    if (is_ok("pef_numbered_container", pef_numbered_container(bytes, length, 0, &container)) != (count != 0))
        fails("pef_numbered_container", (uint32_t)count);
    check_part(container, bytes, length);
    if (!is_ok("pef_forks", pef_forks(bytes, length, &forks)))
        return;
    const struct pef_part each[] = {forks.data_fork, forks.resource_fork, forks.name, forks.comment};
    for (size_t i = 0; i < 4; i++) {
        is_there("a part", each[i].error);
        check_part(each[i].bytes, bytes, length);
    }
    is_there("the Finder information", forks.finder.error);
    is_there("a header", forks.error);
    read_fork(forks.resource_fork.bytes.at, forks.resource_fork.bytes.length);
    const uint8_t *name = length == 0 ? bytes : bytes + length - 1;
    if (is_ok("pef_file_container", pef_file_container(bytes, length, name, length == 0 ? 0 : 1, &container)))
        check_part(container, bytes, length);
    if (forks.data_fork.error == PEF_OK && is_ok("pef_fork_container", pef_fork_container(forks.data_fork.bytes.at, forks.data_fork.bytes.length, forks.resource_fork.bytes.at, forks.resource_fork.bytes.length, (const uint8_t *)"Calc", 4, &container)))
        check_part(container, bytes, length);
}

/* Reads a container by all calls. Returns whether its header and loader section are accepted. */
static bool read_container(const uint8_t *bytes, size_t length)
{
    struct pef_header header = {0};
    struct pef_loader loader = {0};
    uint32_t read = pef_loader(bytes, length, &loader);
    find(bytes, length, read, prepare(bytes, length));
    read_partly(bytes, length);
    report_in_parts(bytes, length);
    report_by_containers(bytes, length);
    if (!is_ok("pef_header", pef_header(bytes, length, &header)))
        return false;
    for (size_t number = 0; number <= header.section_count && number < 32; number++)
        read_section(bytes, length, number);
    bool is_loaded = is_ok("pef_loader", read);
    READ_TABLE(pef_libraries, pef_library, name);
    READ_TABLE(pef_imports, pef_import, name);
    READ_TABLE(pef_relocations, pef_relocation, instructions);
    READ_TABLE(pef_exports, pef_export, name);
    find_exports(bytes, length);
    read_fixups(bytes, length);
    list(bytes, length);
    return is_loaded;
}

/* --- scripts --- */

/* Certificates are refused as the container is. Their lines end with `end`. */
static void certify_script(const uint8_t *script, size_t length, uint32_t linked, size_t linked_line)
{
    size_t written = 0, again = 0, line = 0;
    uint32_t answer = pef_distances(script, length, take(&outputs, 0), 0, &written, &line);
    if (answer != linked || line != linked_line)
        fails("pef_distances, which isn't as pef_link", answer);
    if (answer != PEF_ROOM_TOO_SMALL || written > ROOM)
        return;
    uint8_t *lines = take(&more, written);
    if (pef_distances(script, length, lines, written, &again, &line) != PEF_OK || again != written || memcmp(lines + written - 4, "end\n", 4) != 0)
        fails("pef_distances, with room", (uint32_t)again);
}

static void link_script(const uint8_t *script, size_t length)
{
    size_t written = 0, again = 0, line = 0;
    uint32_t answer = pef_link(script, length, take(&outputs, 0), 0, &written, &line);
    is_ok("pef_link", answer);
    if ((answer >= PEF_SCRIPT_BAD_LINE && answer <= PEF_SCRIPT_BAD_KIND) != (line != 0))
        fails("a refusal's line", answer);
    certify_script(script, length, answer, line);
    if (answer != PEF_ROOM_TOO_SMALL || written > ROOM)
        return;
    uint8_t *container = take(&more, written);
    if (pef_link(script, length, container, written, &again, &line) != PEF_OK || again != written)
        fails("pef_link, with room", (uint32_t)again);
    if (!read_container(container, written))
        fails("a linked container is refused", (uint32_t)written);
}

/* --- contexts --- */

/* Containers that stay until the program ends, as pef_add() asks: linked ones, and damaged copies of them. */
static struct pef_bytes containers[CONTAINERS];
static const char *const names[] = {"A", "B", "Tools", "Core", "Interface", "System", "it", ""};
enum { NAMES = sizeof names / sizeof *names };

static const char *const scripts[] = {
    "library Tools 1 0 -\nimport t data strong\nlibrary B 1 0 weak\nimport b data weak\nsection a data process 4 12\n"
    "fix a 0 import t\nfix a 4 import b\nfix a 8 section a\nexport a data a 0\nmain a 0\n",
    "versions 1 0 0\nlibrary A 0 0 before\nimport a data weak\nsection b pattern process 4 64\nbytes b 0102030405060708\n"
    "fix b 32 import a\nreexport b data a\ninit b 0\nterm b 8\n",
    "versions 1 0 0\nsection t data process 4 8\nbytes t 0000002A\nexport t data t 4\n",
    "versions 1 0 0\nlibrary Core 1 0 -\nimport n tvector strong\nsection c code global 4 8\nsection d data process 4 16\n"
    "tvector d 0 c d\nfix d 8 import n\nreexport n tvector n\n",
    "versions 1 0 0\nabsolute n tvector 0x40B0\n",
    "section a data process 12 16777216\nsection b data process 12 16777216\n",
};

static void make_containers(void)
{
    uint32_t state = 1;
    for (size_t i = 0; i < CONTAINERS; i++) {
        const char *script = scripts[i % (sizeof scripts / sizeof *scripts)];
        size_t length = 0, line = 0;
        uint8_t *room = malloc(4096);
        if (room == NULL || pef_link((const uint8_t *)script, strlen(script), room, 4096, &length, &line) != PEF_OK)
            fails("a script of the driver", (uint32_t)line);
        for (size_t damage = i / 64; damage > 0; damage--) {
            state = state * 1664525 + 1013904223;
            room[state % length] ^= (uint8_t)(state >> 24);
        }
        containers[i] = (struct pef_bytes){room, length};
    }
}

/* Reads all that a connection has. */
static void read_connection(struct pef_context *context, uint32_t connection)
{
    size_t order[PEF_MAX_FRAGMENTS], count = 0;
    if (!is_ok("pef_fragments", pef_fragments(context, connection, order, PEF_MAX_FRAGMENTS, &count)))
        return;
    if (pef_init_order(context, connection, order, count, &count) != PEF_OK)
        fails("pef_init_order", connection);
    size_t some[PEF_MAX_FRAGMENTS], some_count = 0;
    if (pef_new_fragments(context, connection, some, count, &some_count) != PEF_OK || some_count > count)
        fails("pef_new_fragments", connection);
    if (pef_released_by(context, connection, some, count, &some_count) != PEF_OK || some_count > count)
        fails("pef_released_by", connection);
    for (size_t i = 0; i < count; i++) {
        struct pef_entries entries = {0};
        struct pef_bytes name = PEF_NO_BYTES;
        size_t sections = 0, written = 0;
        uint32_t address = 0;
        bool is_present = false;
        if (pef_fragment_entries(context, connection, order[i], &entries) != PEF_OK)
            fails("pef_fragment_entries", (uint32_t)order[i]);
        if (pef_fragment_name(context, order[i], &name) != PEF_OK || pef_fragment_sections(context, order[i], &sections) != PEF_OK)
            fails("pef_fragment_name", (uint32_t)order[i]);
        if (pef_is_present(context, name.at, name.length, &is_present) != PEF_OK || !is_present)
            fails("pef_is_present", (uint32_t)order[i]);
        is_ok("pef_fragment_symbol", pef_fragment_symbol(context, connection, order[i], (const uint8_t *)"t", 1, &address));
        struct pef_target target = {0};
        struct pef_fragment_export export = {.number = 0};
        struct pef_location location = {.connection = 0};
        is_ok("pef_fragment_import_named", pef_fragment_import_named(context, connection, order[i], (const uint8_t *)"t", 1, &written));
        for (size_t number = 0; number < 32; number++) {
            is_ok("pef_export_address", pef_export_address(context, connection, order[i], number, &address));
            if (is_ok("pef_fragment_export", pef_fragment_export(context, connection, order[i], number, &export)) && export.target.address != address)
                fails("pef_fragment_export", (uint32_t)number);
            is_ok("pef_at", pef_at(context, export.target.address, &location));
            if (is_ok("pef_import_target", pef_import_target(context, connection, order[i], number, &target)) && target.kind > PEF_TARGET_IN_SECTION)
                fails("pef_import_target", target.kind);
        }
        for (size_t number = 0; number < sections; number++) {
            struct pef_fragment_section it = {0};
            if (pef_fragment_section(context, connection, order[i], number, &it) != PEF_OK)
                fails("pef_fragment_section", (uint32_t)number);
            if (it.size <= ROOM && (pef_fragment_bytes(context, order[i], number, take(&outputs, it.size), it.size, &written) != PEF_OK || written != it.size))
                fails("pef_fragment_bytes", (uint32_t)number);
            if (it.size != 0 && pef_fragment_bytes(context, order[i], number, take(&outputs, 0), 0, &written) != PEF_ROOM_TOO_SMALL)
                fails("pef_fragment_bytes, without room", (uint32_t)number);
        }
    }
}

/* Asks for what is missing, and asks again with too few places. */
static void ask(struct pef_context *context, const char *name)
{
    struct pef_names told = PEF_NO_NAMES;
    struct pef_missing rows[PEF_MAX_FRAGMENTS], one = {0};
    size_t count = 0, few = 0;
    memset(rows, 0, sizeof rows);
    if (!is_ok("pef_missing", pef_missing(context, (const uint8_t *)name, strlen(name), 0, rows, PEF_MAX_FRAGMENTS, &count, &told)))
        return;
    if (pef_missing(context, (const uint8_t *)name, strlen(name), 0, &one, 1, &few, &told) != PEF_OK || few != (count > 0))
        fails("pef_missing, with one place", (uint32_t)few);
    for (size_t i = 0; i < count; i++) {
        struct pef_bytes fragment = PEF_NO_BYTES;
        size_t number = 0;
        if (pef_fragment_name(context, rows[i].fragment, &fragment) != PEF_OK)
            fails("pef_missing, its fragment", (uint32_t)i);
        if (pef_next_fragment(context, rows[i].fragment, &number) != PEF_OK || number != rows[i].fragment)
            fails("pef_next_fragment", (uint32_t)i);
        for (size_t k = 0; k < i && i < 32; k++)
            if (rows[k].name.length == rows[i].name.length && memcmp(rows[k].name.at, rows[i].name.at, rows[i].name.length) == 0)
                fails("pef_missing, a name twice", (uint32_t)i);
    }
}

/* Makes a stub of each library that is lacking, up to 32, and reads its symbols. */
static void make_stubs(struct pef_context *context, uint8_t values)
{
    static uint8_t stub[1 << 16];
    struct pef_stub_options options = PEF_NUMBERED_STUBS;
    struct pef_lacking rows[32];
    struct pef_loader loader;
    size_t count = 0, written = 0, symbols = 0;
    memset(rows, 0, sizeof rows);
    options.values = values;
    if (!is_ok("pef_lacking", pef_lacking(context, 0, rows, 32, &count)))
        return;
    for (size_t i = 0; i < count; i++) {
        if (!is_ok("pef_stub", pef_stub(context, rows[i].name.at, rows[i].name.length, &options, stub, sizeof stub, &written, &symbols)))
            continue;
        if (pef_loader(stub, written, &loader) != PEF_OK || loader.export_count != symbols)
            fails("pef_stub, its symbols", (uint32_t)i);
    }
}

/* Prepares at addresses one after another, from that of a page on. Of many sections only the first have one. */
static bool prepare_at(struct pef_context *context, const char *name, uint8_t page, uint32_t *connection)
{
    struct pef_names told = PEF_NO_NAMES;
    struct pef_place where = {0};
    struct pef_new_section rows[64];
    uint32_t addresses[64];
    size_t count = 0;
    memset(rows, 0, sizeof rows);
    if (!is_ok("pef_new_sections", pef_new_sections(context, (const uint8_t *)name, strlen(name), 0, rows, 64, &count, &told)))
        return false;
    uint64_t next = 0x10000 + page * 0x1000ull;
    for (size_t i = 0; i < count; i++) {
        next = (next + rows[i].alignment - 1) / rows[i].alignment * rows[i].alignment;
        addresses[i] = (uint32_t)next;
        next += rows[i].size;
    }
    return is_ok("pef_prepare_at", pef_prepare_at(context, (const uint8_t *)name, strlen(name), addresses, count, connection, &told, &where));
}

/* One call on a context: what it is, and two numbers for it. */
static void call(struct pef_context *context, uint8_t what, uint8_t one, uint8_t other)
{
    struct pef_names told = PEF_NO_NAMES;
    const char *name = names[one % NAMES];
    uint32_t connection = 0;
    switch (what % 8) {
    case 0:
        is_ok("pef_open", pef_open(context, other % 4 == 0 ? 0x00010000u + one * 16u : 0x10000000));
        break;
    case 1:
        if (one % 8 == 0)
            pef_free(context);
        else if (one % 8 == 1)
            is_ok("pef_reserve", pef_reserve(context, 0x00010000u + other * 16u, one));
        else if (one % 16 == 2)
            is_ok("pef_unreserve", pef_unreserve(context, 0x00010000u + other * 16u, one - 1u));
        else if (one % 8 <= 3)
            is_ok("pef_remove", pef_remove(context, (const uint8_t *)names[other % NAMES], strlen(names[other % NAMES])));
        break;
    case 2:
    case 3:
        is_ok("pef_add", pef_add(context, (const uint8_t *)name, strlen(name), containers[other].at, containers[other].length));
        break;
    case 4:
    case 5:
        ask(context, name);
        make_stubs(context, other % 3);
        if (other % 4 == 3 && prepare_at(context, name, other, &connection))
            read_connection(context, connection);
        if (is_ok("pef_prepare", pef_prepare(context, (const uint8_t *)name, strlen(name), &connection, &told)))
            read_connection(context, connection);
        break;
    case 6:
        is_ok("pef_close", pef_close(context, one % 16));
        break;
    default:
        read_connection(context, one % 16);
    }
}

static void call_in_sequence(const uint8_t *data, size_t size)
{
    struct pef_context contexts[2] = {{0}, {0}};
    for (size_t i = 0; i + 3 <= size && i < 300; i += 3)
        call(&contexts[data[i] >> 7], data[i], data[i + 1], data[i + 2]);
    pef_free(&contexts[0]);
    pef_free(&contexts[1]);
}

int LLVMFuzzerTestOneInput(const uint8_t *data, size_t size);

int LLVMFuzzerTestOneInput(const uint8_t *data, size_t size)
{
    if (inputs.end == NULL) {
        make_room(&inputs);
        make_room(&outputs);
        make_room(&more);
        make_containers();
    }
    if (size == 0 || size > ROOM)
        return 0;
    const uint8_t *rest = put(&inputs, data + 1, size - 1);
    if (data[0] == 's')
        link_script(rest, size - 1);
    else if (data[0] == 'm')
        read_mac_file(rest, size - 1);
    else if (data[0] == 'q')
        call_in_sequence(rest, size - 1);
    else
        read_container(rest, size - 1);
    return 0;
}
