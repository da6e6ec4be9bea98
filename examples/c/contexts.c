/*
 * Uses two contexts at once: contexts NAME=FILE .. prepares the first fragment in both. Each says the same of it, also
 * after the other is closed or freed. A context that isn't open answers PEF_NOT_OPEN to every call, and changes nothing.
 */
#include "files.h"
#include "told.h"

static struct told first_told, second_told;
static size_t failures;

static void expect(bool holds, const char *what)
{
    if (!holds) {
        fprintf(stderr, "contexts: %s\n", what);
        failures++;
    }
}

/* All calls on a context that isn't open. */
static void expect_not_open(struct pef_context *context)
{
    struct pef_names names = PEF_NO_NAMES;
    struct pef_bytes name = PEF_NO_BYTES;
    struct pef_fragment_section section = {0};
    struct pef_entries entries = {0};
    struct pef_target target = {.kind = 7};
    struct pef_fragment_export export = {.number = 7};
    struct pef_location location = {.connection = 7};
    struct pef_missing missing = {.fragment = 7};
    struct pef_new_section new_section = {.fragment = 7};
    struct pef_place place = {.row = 7};
    uint32_t connection = 7, address = 7;
    size_t order[1] = {7}, count = 7;
    uint8_t room[1] = {7};
    bool is_present = true;
    expect(add_fragment(context, &fragments[0]) == PEF_NOT_OPEN, "pef_add on a closed context");
    expect(prepare_first(context, &connection, &names) == PEF_NOT_OPEN, "pef_prepare on a closed context");
    expect(pef_close(context, 0) == PEF_NOT_OPEN, "pef_close on a closed context");
    expect(pef_fragments(context, 0, order, 1, &count) == PEF_NOT_OPEN, "pef_fragments on a closed context");
    expect(pef_init_order(context, 0, order, 1, &count) == PEF_NOT_OPEN, "pef_init_order on a closed context");
    expect(pef_fragment_name(context, 0, &name) == PEF_NOT_OPEN, "pef_fragment_name on a closed context");
    expect(pef_next_fragment(context, 0, &count) == PEF_NOT_OPEN && count == 7, "pef_next_fragment on a closed context");
    expect(pef_is_present(context, room, 1, &is_present) == PEF_NOT_OPEN && is_present, "pef_is_present on a closed context");
    expect(pef_fragment_sections(context, 0, &count) == PEF_NOT_OPEN, "pef_fragment_sections on a closed context");
    expect(pef_fragment_section(context, 0, 0, 0, &section) == PEF_NOT_OPEN, "pef_fragment_section on a closed context");
    expect(pef_fragment_bytes(context, 0, 0, room, 1, &count) == PEF_NOT_OPEN, "pef_fragment_bytes on a closed context");
    expect(pef_fragment_entries(context, 0, 0, &entries) == PEF_NOT_OPEN, "pef_fragment_entries on a closed context");
    expect(pef_fragment_symbol(context, 0, 0, room, 1, &address) == PEF_NOT_OPEN, "pef_fragment_symbol on a closed context");
    expect(pef_add_new(context, room, 1, room, 1) == PEF_NOT_OPEN, "pef_add_new on a closed context");
    expect(pef_remove(context, room, 1) == PEF_NOT_OPEN, "pef_remove on a closed context");
    expect(pef_reserve(context, 0, 1) == PEF_NOT_OPEN, "pef_reserve on a closed context");
    expect(pef_unreserve(context, 0, 1) == PEF_NOT_OPEN, "pef_unreserve on a closed context");
    expect(pef_missing(context, room, 1, 0, &missing, 1, &count, &names) == PEF_NOT_OPEN && missing.fragment == 7, "pef_missing on a closed context");
    expect(pef_new_sections(context, room, 1, 0, &new_section, 1, &count, &names) == PEF_NOT_OPEN && new_section.fragment == 7, "pef_new_sections on a closed context");
    expect(pef_missing_with_place(context, room, 1, 0, &missing, 1, &count, &names, &place) == PEF_NOT_OPEN && place.row == 7, "pef_missing_with_place on a closed context");
    expect(pef_new_sections_with_place(context, room, 1, 0, &new_section, 1, &count, &names, &place) == PEF_NOT_OPEN && place.row == 7, "pef_new_sections_with_place on a closed context");
    expect(pef_prepare_at(context, room, 1, NULL, 0, &connection, &names, &place) == PEF_NOT_OPEN && place.row == 7, "pef_prepare_at on a closed context");
    expect(pef_new_fragments(context, 0, order, 1, &count) == PEF_NOT_OPEN, "pef_new_fragments on a closed context");
    expect(pef_released_by(context, 0, order, 1, &count) == PEF_NOT_OPEN, "pef_released_by on a closed context");
    expect(pef_import_target(context, 0, 0, 0, &target) == PEF_NOT_OPEN, "pef_import_target on a closed context");
    expect(pef_export_address(context, 0, 0, 0, &address) == PEF_NOT_OPEN, "pef_export_address on a closed context");
    expect(pef_fragment_exports(context, 0, 0, &count) == PEF_NOT_OPEN, "pef_fragment_exports on a closed context");
    expect(pef_fragment_export(context, 0, 0, 0, &export) == PEF_NOT_OPEN, "pef_fragment_export on a closed context");
    expect(pef_fragment_export_named(context, 0, 0, room, 1, &export) == PEF_NOT_OPEN && export.number == 7, "pef_fragment_export_named on a closed context");
    expect(pef_fragment_import_named(context, 0, 0, room, 1, &count) == PEF_NOT_OPEN, "pef_fragment_import_named on a closed context");
    expect(pef_at(context, 0, &location) == PEF_NOT_OPEN && location.connection == 7, "pef_at on a closed context");
    expect(connection == 7 && address == 7 && order[0] == 7 && count == 7 && room[0] == 7 && target.kind == 7, "a closed context writes");
    pef_free(context);
}

/* A fragment more, connections that aren't open, and rooms that are too small. */
static void expect_refusals(struct pef_context *context, uint32_t connection)
{
    size_t order[PEF_MAX_FRAGMENTS] = {7}, count = 7;
    struct pef_bytes name = PEF_NO_BYTES;
    uint32_t address = 7;
    expect(add_fragment(context, &fragments[0]) == PEF_OK, "a fragment that is added while a connection is open");
    expect(pef_close(context, connection + 1) == PEF_BAD_CONNECTION, "a connection that never was");
    expect(pef_fragments(context, connection + 1, order, PEF_MAX_FRAGMENTS, &count) == PEF_NOT_THERE && count == 7, "its fragments");
    expect(pef_fragments(context, connection, order, 0, &count) == PEF_ROOM_TOO_SMALL && count >= 1, "no room for fragments");
    expect(order[0] == 7, "a room that is too small is written to");
    expect(pef_fragment_name(context, fragment_count + 1, &name) == PEF_NOT_THERE, "a fragment past the last");
    expect(pef_fragment_symbol(context, connection, 0, (const uint8_t *)"no such name", 12, &address) == PEF_NOT_THERE && address == 7, "a symbol that isn't there");
}

/* The first connection placed all of its closure, in the order of initialization. No other one needs it, so closing it
 * releases all, in the reverse order. */
static void expect_all_new(struct pef_context *context, uint32_t connection)
{
    size_t order[PEF_MAX_FRAGMENTS], new[PEF_MAX_FRAGMENTS], released[PEF_MAX_FRAGMENTS], count = 0, new_count = 0, released_count = 0;
    expect(pef_init_order(context, connection, order, PEF_MAX_FRAGMENTS, &count) == PEF_OK, "the initialization order");
    expect(pef_new_fragments(context, connection, new, PEF_MAX_FRAGMENTS, &new_count) == PEF_OK && new_count == count, "all are new");
    expect(pef_released_by(context, connection, released, PEF_MAX_FRAGMENTS, &released_count) == PEF_OK && released_count == count, "all are released");
    for (size_t i = 0; i < count && new_count == count && released_count == count; i++)
        expect(new[i] == order[i] && released[count - 1 - i] == order[i], "the order of what is new and what is released");
}

/* A second connection to the same fragment places nothing, and closing one of the two releases nothing. */
static void expect_none_new(struct pef_context *context, uint32_t connection)
{
    size_t order[1] = {7}, count = 7;
    expect(pef_new_fragments(context, connection, order, 1, &count) == PEF_OK && count == 0, "nothing is new");
    count = 7;
    expect(pef_released_by(context, connection, order, 1, &count) == PEF_OK && count == 0, "nothing is released");
    expect(order[0] == 7, "no fragments are written");
}

/* The symbol of each export has the address of the export's number, unless an earlier export has its name. Each import means
 * something. */
static void expect_meanings(struct pef_context *context, uint32_t connection, size_t fragment)
{
    struct pef_bytes it = fragments[fragment].container;
    struct pef_export row = {.name = PEF_NO_BYTES};
    struct pef_target target = {.kind = 7};
    struct pef_loader loader = {0};
    struct pef_fragment_export export = {.number = 7};
    size_t count = 0, first = 0;
    uint32_t address = 0, by_name = 1;
    expect(pef_loader(it.at, it.length, &loader) == PEF_OK, "the loader section");
    for (size_t i = 0; i < loader.export_count; i++) {
        expect(pef_exports(it.at, it.length, i, &row, 1, &count) == PEF_OK && count == 1, "an export");
        expect(pef_export_named(it.at, it.length, row.name.at, row.name.length, &first, &row) == PEF_OK, "its name");
        expect(pef_export_address(context, connection, fragment, first, &address) == PEF_OK, "its address");
        expect(pef_fragment_symbol(context, connection, fragment, row.name.at, row.name.length, &by_name) == PEF_OK && by_name == address, "its address by name");
        expect(pef_fragment_export_named(context, connection, fragment, row.name.at, row.name.length, &export) == PEF_OK && export.number == first, "the export of its name");
        expect(export.target.address == address && export.symbol_class == row.symbol_class && export.is_reexport == (row.section == PEF_REEXPORT), "what it is");
    }
    for (size_t i = 0; i < loader.import_count; i++)
        expect(pef_import_target(context, connection, fragment, i, &target) == PEF_OK && target.kind <= PEF_TARGET_IN_SECTION, "an import");
    expect(pef_fragment_exports(context, connection, fragment, &count) == PEF_OK && count == loader.export_count, "how many exports there are");
    address = 7;
    target.kind = 7;
    expect(pef_export_address(context, connection, fragment, loader.export_count, &address) == PEF_NOT_THERE && address == 7, "an export past the last");
    expect(pef_import_target(context, connection, fragment, loader.import_count, &target) == PEF_NOT_THERE && target.kind == 7, "an import past the last");
}

/* The first address is taken by a section or not. Once it is out of use, it can't be taken again. */
static void expect_reserved(void)
{
    struct pef_context context = {0};
    struct pef_names names = PEF_NO_NAMES;
    struct pef_fragment_section section = {0};
    size_t order[PEF_MAX_FRAGMENTS], count = 0, sections = 0;
    uint32_t connection = 7;
    expect(open_all(&context, 0x10000000) == PEF_OK, "a third context");
    expect(pef_reserve(&context, 0x00010000, 0x100) == PEF_OK && pef_reserve(&context, 0x000100FF, 0) == PEF_OK, "a range");
    expect(pef_reserve(&context, 0x000100FF, 1) == PEF_NO_ROOM && pef_reserve(&context, 0xFFFFFFF0, 17) == PEF_NO_ROOM, "a range that is taken");
    expect(pef_unreserve(&context, 0x00010000, 0x10) == PEF_NOT_THERE, "a part of a range");
    expect(pef_unreserve(&context, 0x00010000, 0x100) == PEF_OK && pef_reserve(&context, 0x00010000, 0x100) == PEF_OK, "a range that is given back");
    expect(prepare_first(&context, &connection, &names) == PEF_OK, "a preparation around a range");
    expect(pef_fragments(&context, connection, order, PEF_MAX_FRAGMENTS, &count) == PEF_OK, "its fragments");
    for (size_t i = 0; i < count; i++) {
        expect(pef_fragment_sections(&context, order[i], &sections) == PEF_OK, "its sections");
        for (size_t k = 0; k < sections; k++)
            expect(pef_fragment_section(&context, connection, order[i], k, &section) == PEF_OK && section.address >= 0x00010100, "a section in a range");
    }
    pef_free(&context);
}

/* The first fragment is present or not. No other name is that of a fragment that is present. */
static void expect_present(struct pef_context *context, bool wanted, const char *what)
{
    bool is_present = !wanted;
    expect(pef_is_present(context, fragments[0].name.at, fragments[0].name.length, &is_present) == PEF_OK && is_present == wanted, what);
    expect(pef_is_present(context, (const uint8_t *)"no such name", 12, &is_present) == PEF_OK && !is_present, "no fragment of a name is present");
}

/* A context takes PEF_MAX_FRAGMENTS fragments and no more. */
static void expect_full(struct pef_context *context)
{
    uint32_t answer = pef_open(context, 0);
    for (size_t i = 0; answer == PEF_OK && i < PEF_MAX_FRAGMENTS; i++)
        answer = add_fragment(context, &fragments[0]);
    expect(answer == PEF_OK, "as many fragments as a context may have");
    expect(add_fragment(context, &fragments[0]) == PEF_STORE_FULL, "one fragment more");
    pef_free(context);
}

int main(int count, char **words)
{
    struct pef_context first = {0}, second = {0};
    struct pef_names names = PEF_NO_NAMES;
    uint32_t one = 7, other = 7, again = 7;
    if (!read_fragments(count - 1, words + 1))
        return 2;
    expect_not_open(&first);
    expect(open_all(&first, 0x10000000) == PEF_OK && open_all(&second, 0x10000000) == PEF_OK, "two contexts");
    expect_present(&first, false, "a fragment that isn't prepared yet");
    expect(prepare_first(&first, &one, &names) == PEF_OK && prepare_first(&second, &other, &names) == PEF_OK, "two preparations");
    expect(one == 0 && other == 0, "the numbers of two connections");
    expect(tell_connection(&first_told, &first, one) && tell_connection(&second_told, &second, other), "all is told");
    expect(is_same(&first_told, &second_told), "two contexts say the same");
    expect_all_new(&second, other);
    expect_meanings(&second, other, 0);
    expect_reserved();
    expect_refusals(&first, one);
    expect(prepare_first(&first, &again, &names) == PEF_OK && again == 1, "a second connection");
    expect_none_new(&first, again);
    expect(pef_close(&first, one) == PEF_OK && !tell_connection(&first_told, &first, one), "a connection is closed");
    expect(tell_connection(&first_told, &first, again) && is_same(&first_told, &second_told), "the other one stays");
    expect_present(&first, true, "a fragment that two connections needed, and one still needs");
    expect(pef_close(&first, again) == PEF_OK, "the last connection is closed");
    expect_present(&first, false, "a fragment that no connection needs");
    expect_present(&second, true, "the same fragment in another context");
    pef_free(&first);
    expect_not_open(&first);
    expect(tell_connection(&first_told, &second, other) && is_same(&first_told, &second_told), "the second context stays");
    expect_full(&first);
    expect(open_all(&second, 0x10000000) == PEF_OK && !tell_connection(&first_told, &second, other), "an open context is opened anew");
    pef_free(&second);
    pef_free(&second);
    printf("%zu failures\n", failures);
    return failures == 0 ? 0 : 1;
}
