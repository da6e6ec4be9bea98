/*
 * Fragments in the machine: a context of libpef, what comes into memory with a connection, and what goes with it.
 *
 * libpef has each section as it is right after relocation. The machine has it as the program changed it. So a section is copied
 * once, when its fragment is new.
 */
#include "emulator.h"

#include <stdio.h>
#include <stdlib.h>
#include <string.h>

enum entry { INIT, MAIN, TERM };
enum { ROWS = 64 };

static struct pef_context context;
static struct {
    struct pef_bytes name, container;
} store[PEF_MAX_FRAGMENTS]; /* what was added, in its order. The library reads it until the context is freed */
static size_t store_count;
static uint32_t connection_count; /* the numbers of all connections that were given are below it */
static const char *folder;
static bool shows_map;

/* --- telling --- */

void print_name(struct pef_bytes name)
{
    for (size_t i = 0; i < name.length; i++)
        printf(name.at[i] > 0x20 && name.at[i] < 0x7f && name.at[i] != '%' ? "%c" : "%%%02X", name.at[i]);
}

static void print_fragment_name(size_t fragment)
{
    struct pef_bytes name = PEF_NO_BYTES;
    pef_fragment_name(&context, fragment, &name);
    print_name(name);
}

static void print_label(const char *label, struct pef_bytes name)
{
    if (name.length != 0) {
        printf(" %s ", label);
        print_name(name);
    }
}

/* Prints a refusal, as `pef load` prints it. */
static void print_refusal(uint32_t number, const struct pef_names *names)
{
    struct pef_bytes name = PEF_NO_BYTES;
    pef_name(number, &name);
    printf("refused %" PRIu32 " %.*s", number, (int)name.length, (const char *)name.at);
    print_label("in", names->fragment);
    print_label("library", names->library);
    print_label("symbol", names->symbol);
    puts("");
}

/* Ends the program if a call failed: memory or the store is full, or a range isn't free. */
static void check(uint32_t answer)
{
    const struct pef_names none = PEF_NO_NAMES;
    if (answer != PEF_OK) {
        print_refusal(answer, &none);
        exit(1);
    }
}

/* --- the store --- */

/* Keeps addresses free of sections, for what the machine has there. */
static void reserve(uint32_t address, uint32_t size)
{
    check(pef_reserve(&context, address, size));
}

void open_store(const struct options *options)
{
    folder = options->folder;
    shows_map = options->shows_map;
    check(pef_open(&context, RAM_END));
    reserve(RAM, options->base - RAM);
    if (options->stack + STACK_SIZE > options->base)
        reserve(options->stack, STACK_SIZE);
    if (shows_map)
        printf("+ %08" PRIX32 " size %d stack\n", options->stack, STACK_SIZE);
}

void free_store(void)
{
    pef_free(&context);
}

/* Reads a file, or returns NULL. */
static uint8_t *read_file(const char *path, size_t *length)
{
    FILE *file = fopen(path, "rb");
    uint8_t *bytes = NULL;
    if (file == NULL)
        return NULL;
    if (fseek(file, 0, SEEK_END) == 0) {
        *length = (size_t)ftell(file);
        rewind(file);
        bytes = malloc(*length + 1);
        if (bytes != NULL && fread(bytes, 1, *length, file) != *length) {
            free(bytes);
            bytes = NULL;
        }
    }
    fclose(file);
    return bytes;
}

static uint32_t add(struct pef_bytes name, struct pef_bytes container)
{
    uint32_t answer = pef_add(&context, name.at, name.length, container.at, container.length);
    if (answer == PEF_OK) {
        store[store_count].name = name;
        store[store_count++].container = container;
    }
    return answer;
}

void add_file(const char *name, size_t name_length, const char *path)
{
    size_t length;
    const uint8_t *bytes = read_file(path, &length);
    if (bytes == NULL) {
        perror(path);
        exit(2);
    }
    check(add((struct pef_bytes){(const uint8_t *)name, name_length}, (struct pef_bytes){bytes, length}));
}

/* Adds a fragment from the folder, where it is NAME.pef. Returns PEF_NOT_THERE, if it isn't. */
static uint32_t add_from_folder(struct pef_bytes name)
{
    char path[1024];
    size_t length;
    if (folder == NULL || memchr(name.at, '/', name.length) != NULL)
        return PEF_NOT_THERE;
    if (snprintf(path, sizeof path, "%s/%.*s.pef", folder, (int)name.length, (const char *)name.at) >= (int)sizeof path)
        return PEF_NOT_THERE;
    uint8_t *bytes = read_file(path, &length), *kept = malloc(name.length + 1);
    uint32_t answer = PEF_NOT_THERE;
    if (bytes != NULL && kept != NULL) {
        memcpy(kept, name.at, name.length);
        answer = add((struct pef_bytes){kept, name.length}, (struct pef_bytes){bytes, length});
    }
    if (answer != PEF_OK) {
        free(bytes);
        free(kept);
    }
    return answer;
}

/* --- coming into memory --- */

static void print_area(const char *sign, const struct area *it)
{
    if (!shows_map)
        return;
    printf("%s %08" PRIX32 " size %zu ", sign, it->address, it->size);
    print_fragment_name(it->fragment);
    printf(" section %zu\n", it->number);
}

/* Copies the sections of a new fragment to their addresses in the machine. */
static void place_sections(uint32_t connection, size_t fragment)
{
    struct pef_fragment_section it = {0};
    size_t written;
    for (size_t number = 0; pef_fragment_section(&context, connection, fragment, number, &it) == PEF_OK; number++) {
        struct area area = {it.address, it.size, it.kind, fragment, number};
        check(pef_fragment_bytes(&context, fragment, number, ram_at(it.address), RAM_END - it.address, &written));
        add_area(area);
        print_area("+", &area);
    }
}

/* Reads exports of a fragment, as many at a time as there are places, since each call reads the whole table. */
static size_t read_exports(size_t fragment, size_t from, struct pef_export places[ROWS])
{
    const struct pef_bytes *it = &store[fragment].container;
    size_t count = 0;
    for (size_t i = 0; i < ROWS; i++)
        places[i].name = (struct pef_bytes)PEF_NO_BYTES;
    check(pef_exports(it->at, it->length, from, places, ROWS, &count));
    return count;
}

static void make_traps(size_t fragment)
{
    struct pef_export places[ROWS];
    for (size_t from = 0, count = ROWS; count == ROWS; from += count) {
        count = read_exports(fragment, from, places);
        for (size_t i = 0; i < count; i++)
            make_trap(&places[i]);
    }
}

/*
 * Adds libraries that are missing from the folder, those that are there. Returns PEF_OK; or why one that has to be there isn't added. A
 * weak one may stay away.
 */
static uint32_t add_libraries(const struct pef_missing missing[], size_t count, size_t *added)
{
    *added = 0;
    for (size_t i = 0; i < count; i++) {
        uint32_t answer = missing[i].is_found ? PEF_NOT_THERE : add_from_folder(missing[i].name);
        if (answer == PEF_OK)
            ++*added;
        else if (answer != PEF_NOT_THERE && !missing[i].is_weak)
            return answer;
    }
    return PEF_OK;
}

/* Adds what is missing for a fragment, weak or not, and what is missing for that, as long as something is found in the folder. */
static uint32_t add_missing(struct pef_bytes name)
{
    struct pef_missing missing[ROWS];
    struct pef_names names = PEF_NO_NAMES;
    size_t from = 0, count = ROWS, added = 0;
    while (added > 0 || count == ROWS) {
        uint32_t answer = pef_missing(&context, name.at, name.length, from, missing, ROWS, &count, &names);
        if (answer != PEF_OK)
            return answer == PEF_ROOT_MISSING ? answer : PEF_OK; /* the preparation finds the others, too */
        answer = add_libraries(missing, count, &added);
        if (answer != PEF_OK)
            return answer;
        from = added > 0 ? 0 : from + count;
    }
    return PEF_OK;
}

/* Prepares a fragment, with all that is found in the folder of what it needs. */
static uint32_t prepare(struct pef_bytes name, uint32_t *connection, struct pef_names *names)
{
    uint32_t answer = add_missing(name);
    if (answer == PEF_ROOT_MISSING) {
        answer = add_from_folder(name);
        answer = answer == PEF_OK ? add_missing(name) : answer == PEF_NOT_THERE ? PEF_ROOT_MISSING : answer;
    }
    return answer == PEF_OK ? pef_prepare(&context, name.at, name.length, connection, names) : answer;
}

uint32_t prepare_fragment(struct pef_bytes name, uint32_t *connection)
{
    size_t fragments[PEF_MAX_FRAGMENTS], count;
    struct pef_names names = PEF_NO_NAMES;
    uint32_t answer = prepare(name, connection, &names);
    if (answer != PEF_OK) {
        print_refusal(answer, &names);
        return answer;
    }
    connection_count = *connection + 1;
    check(pef_new_fragments(&context, *connection, fragments, PEF_MAX_FRAGMENTS, &count));
    for (size_t i = 0; i < count; i++) {
        place_sections(*connection, fragments[i]);
        make_traps(fragments[i]);
    }
    return PEF_OK;
}

/* --- entry points --- */

/* The address of an entry point of a fragment. Returns whether it has that. */
static bool entry_of(uint32_t connection, size_t fragment, enum entry entry, uint32_t *address)
{
    struct pef_entries it = {0};
    if (pef_fragment_entries(&context, connection, fragment, &it) != PEF_OK)
        return false;
    *address = entry == INIT ? it.init : entry == MAIN ? it.main : it.term;
    return entry == INIT ? it.has_init : entry == MAIN ? it.has_main : it.has_term;
}

/* Runs an entry of a fragment, if it has that and nothing has stopped the machine, and prints what it returns. */
static void enter(uint32_t connection, size_t fragment, enum entry entry)
{
    static const char *const labels[] = {"init", "main", "term"};
    uint32_t address;
    if (is_stopped() || !entry_of(connection, fragment, entry, &address))
        return;
    uint32_t result = call_routine(address);
    if (is_stopped())
        return;
    printf("%s ", labels[entry]);
    print_fragment_name(fragment);
    printf(" returned %" PRId32 "\n", (int32_t)result);
    if (entry == INIT && result != 0)
        stop_by("the init routine failed:", result);
}

void initialize(uint32_t connection)
{
    size_t fragments[PEF_MAX_FRAGMENTS], count;
    check(pef_new_fragments(&context, connection, fragments, PEF_MAX_FRAGMENTS, &count));
    for (size_t i = 0; i < count; i++)
        enter(connection, fragments[i], INIT);
}

/* The fragment that was prepared, which is the last of its closure. Returns whether the connection is open. */
static bool root_of(uint32_t connection, size_t *root)
{
    size_t fragments[PEF_MAX_FRAGMENTS], count;
    if (pef_fragments(&context, connection, fragments, PEF_MAX_FRAGMENTS, &count) != PEF_OK)
        return false;
    *root = fragments[count - 1];
    return true;
}

void run_main(uint32_t connection)
{
    size_t root;
    if (root_of(connection, &root))
        enter(connection, root, MAIN);
}

uint32_t main_of(uint32_t connection)
{
    uint32_t address = 0;
    size_t root;
    if (root_of(connection, &root))
        entry_of(connection, root, MAIN, &address);
    return address;
}

bool find_export(uint32_t connection, struct pef_bytes name, uint32_t *address, uint8_t *symbol_class)
{
    struct pef_export found = {.name = PEF_NO_BYTES};
    size_t root, number;
    if (!root_of(connection, &root))
        return false;
    const struct pef_bytes *it = &store[root].container;
    if (pef_export_named(it->at, it->length, name.at, name.length, &number, &found) != PEF_OK)
        return false;
    *symbol_class = found.symbol_class;
    return pef_export_address(&context, connection, root, number, address) == PEF_OK;
}

/* --- going --- */

static void remove_sections(uint32_t connection, size_t fragment)
{
    struct pef_fragment_section it = {0};
    for (size_t number = 0; pef_fragment_section(&context, connection, fragment, number, &it) == PEF_OK; number++)
        print_area("-", &(struct area){it.address, it.size, it.kind, fragment, number});
    remove_areas(fragment);
}

bool close_connection(uint32_t connection)
{
    size_t fragments[PEF_MAX_FRAGMENTS], count;
    if (pef_released_by(&context, connection, fragments, PEF_MAX_FRAGMENTS, &count) != PEF_OK)
        return false;
    for (size_t i = 0; i < count; i++)
        enter(connection, fragments[i], TERM);
    /* A termination routine may have opened or closed a connection. */
    if (pef_released_by(&context, connection, fragments, PEF_MAX_FRAGMENTS, &count) != PEF_OK)
        return false;
    for (size_t i = 0; i < count; i++)
        remove_sections(connection, fragments[i]);
    check(pef_close(&context, connection));
    return true;
}

void close_all(void)
{
    for (uint32_t connection = connection_count; connection-- > 0;)
        close_connection(connection);
}

/* --- the report --- */

/* The nearest export at or before an address of a section, as it is found. */
struct nearest {
    const struct area *section;
    uint32_t address;
    struct pef_bytes name;
    uint32_t distance;
    bool is_found;
};

static void consider(struct nearest *it, struct pef_bytes name, uint32_t address)
{
    uint32_t distance = it->address - address;
    if (address < it->section->address || address > it->address || (it->is_found && distance >= it->distance))
        return;
    it->name = name;
    it->distance = distance;
    it->is_found = true;
}

/* Looks at all exports of the section's fragment. An exported function is a transition vector, and its code counts too. */
static void find_nearest(uint32_t connection, struct nearest *it)
{
    struct pef_export places[ROWS];
    size_t fragment = it->section->fragment;
    for (size_t from = 0, count = ROWS; count == ROWS; from += count) {
        count = read_exports(fragment, from, places);
        for (size_t i = 0; i < count; i++) {
            uint32_t address = 0;
            check(pef_export_address(&context, connection, fragment, from + i, &address));
            consider(it, places[i].name, address);
            if (places[i].symbol_class == PEF_CLASS_TVECTOR && area_at(address, 8) != NULL)
                consider(it, places[i].name, word_at(address));
        }
    }
}

/* Finds an open connection whose closure has a fragment. */
static bool connection_of(size_t fragment, uint32_t *connection)
{
    struct pef_entries entries;
    for (*connection = connection_count; (*connection)-- > 0;)
        if (pef_fragment_entries(&context, *connection, fragment, &entries) == PEF_OK)
            return true;
    return false;
}

/* Prints where an address is: in which section of which fragment, and after which export. Returns whether it is in one. */
static bool print_place(const char *label, uint32_t address)
{
    struct nearest it = {area_at(address, 1), address, PEF_NO_BYTES, 0, false};
    uint32_t connection;
    if (it.section == NULL || it.section->fragment == NO_FRAGMENT || !connection_of(it.section->fragment, &connection))
        return false;
    printf("  %s %08" PRIX32 ": ", label, address);
    print_fragment_name(it.section->fragment);
    printf(" section %zu + 0x%" PRIX32, it.section->number, address - it.section->address);
    find_nearest(connection, &it);
    if (it.is_found) {
        printf(", ");
        print_name(it.name);
        printf(" + 0x%" PRIX32, it.distance);
    }
    puts("");
    return true;
}

/* Prints which imports of a fragment have an address for their value: at 0 those that are missing. */
static void print_imports(size_t fragment, uint32_t address)
{
    const struct pef_bytes *container = &store[fragment].container;
    struct pef_import it = {.name = PEF_NO_BYTES};
    struct pef_target target;
    uint32_t connection;
    size_t count;
    if (!connection_of(fragment, &connection))
        return;
    for (size_t number = 0; pef_import_target(&context, connection, fragment, number, &target) == PEF_OK; number++) {
        if (target.address != address)
            continue;
        check(pef_imports(container->at, container->length, number, &it, 1, &count));
        printf("  value %08" PRIX32 ": import ", address);
        print_name(it.name);
        puts(target.kind == PEF_TARGET_MISSING ? ", which is missing" : "");
    }
}

void print_report(uint32_t at, uint32_t address, uint32_t link)
{
    const struct area *it = area_at(at, 1);
    bool is_in_section = print_place("at", at);
    if (address != at && !print_place("to", address) && is_in_section)
        print_imports(it->fragment, address);
    print_place("lr", link);
}

/* --- the machine's memory, printed --- */

static void print_section(const struct pef_fragment_section *it, size_t number)
{
    printf("section %zu at %08" PRIX32 " size %zu\n", number, it->address, it->size);
    for (size_t i = 0; i < it->size; i++) {
        if (i % 16 == 0)
            printf("%08" PRIX32, it->address + (uint32_t)i);
        printf(i % 4 == 0 ? " %02X" : "%02X", ram_at(it->address)[i]);
        if (i % 16 == 15 || i + 1 == it->size)
            puts("");
    }
}

void print_memory(uint32_t connection)
{
    size_t fragments[PEF_MAX_FRAGMENTS], count;
    struct pef_fragment_section it = {0};
    check(pef_fragments(&context, connection, fragments, PEF_MAX_FRAGMENTS, &count));
    for (size_t i = 0; i < count; i++) {
        printf("fragment ");
        print_fragment_name(fragments[i]);
        puts("");
        for (size_t number = 0; pef_fragment_section(&context, connection, fragments[i], number, &it) == PEF_OK; number++)
            print_section(&it, number);
    }
}
