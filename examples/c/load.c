/*
 * Loads fragments: load NAME=FILE .. prepares the first, with the others as its libraries, and prints its memory, as
 * `pef load` does.
 */
#include "printed.h"

static struct pef_context context;
static uint32_t app;

/* Prints a refusal with those of its names that it tells. */
static void print_fault(uint32_t number, const struct pef_names *names)
{
    struct pef_bytes name = PEF_NO_BYTES;
    pef_name(number, &name);
    printf("refused %u %.*s", number, (int)name.length, (const char *)name.at);
    if (names->fragment.length != 0) {
        fputs(" in ", stdout);
        print_name(names->fragment);
    }
    if (number >= PEF_LIBRARY_MISSING && number <= PEF_IMPLEMENTATION_TOO_NEW) {
        fputs(" library ", stdout);
        print_name(names->library);
    }
    if (number == PEF_SYMBOL_MISSING || number == PEF_REEXPORT_LOOP) {
        fputs(" symbol ", stdout);
        print_name(names->symbol);
    }
    putchar('\n');
}

static uint32_t print_section(size_t fragment, size_t number)
{
    struct pef_fragment_section section = {0};
    pef_size written = 0;
    uint32_t answer = pef_fragment_section(&context, app, fragment, number, &section);
    if (answer != PEF_OK)
        return answer;
    uint8_t *room = malloc(section.size == 0 ? 1 : section.size);
    if (room == NULL)
        return PEF_OUT_OF_MEMORY;
    answer = pef_fragment_bytes(&context, fragment, number, room, section.size, &written);
    if (answer == PEF_OK)
        print_memory(number, section.address, room, written);
    free(room);
    return answer;
}

static uint32_t print_fragment(size_t fragment)
{
    struct pef_bytes name = PEF_NO_BYTES;
    pef_size count = 0;
    uint32_t answer = pef_fragment_name(&context, fragment, &name);
    if (answer == PEF_OK)
        answer = pef_fragment_sections(&context, fragment, &count);
    fputs("fragment ", stdout);
    print_name(name);
    putchar('\n');
    for (size_t number = 0; answer == PEF_OK && number < count; number++)
        answer = print_section(fragment, number);
    return answer;
}

/* Prints the address of an initialization or termination routine. */
static void print_routine(const char *label, size_t fragment, uint32_t address)
{
    struct pef_bytes name = PEF_NO_BYTES;
    pef_fragment_name(&context, fragment, &name);
    printf("%s ", label);
    print_name(name);
    printf(" %08X\n", (unsigned)address);
}

/* Prints the entries: routines in the order of initialization, the main symbol of the last fragment, and the reverse. */
static uint32_t print_entries(size_t root)
{
    pef_size order[PEF_MAX_FRAGMENTS], count = 0;
    struct pef_entries entries = {0};
    uint32_t answer = pef_init_order(&context, app, order, PEF_MAX_FRAGMENTS, &count);
    for (size_t i = 0; answer == PEF_OK && i < count; i++) {
        answer = pef_fragment_entries(&context, app, order[i], &entries);
        if (answer == PEF_OK && entries.has_init)
            print_routine("init", order[i], entries.init);
    }
    if (answer == PEF_OK)
        answer = pef_fragment_entries(&context, app, root, &entries);
    if (answer == PEF_OK && entries.has_main)
        printf("main %08X\n", (unsigned)entries.main);
    for (size_t i = count; answer == PEF_OK && i > 0; i--) {
        answer = pef_fragment_entries(&context, app, order[i - 1], &entries);
        if (answer == PEF_OK && entries.has_term)
            print_routine("term", order[i - 1], entries.term);
    }
    return answer;
}

/* Prints the fragments of the connection, and their entries. */
static uint32_t print_connection(void)
{
    pef_size order[PEF_MAX_FRAGMENTS], count = 0;
    uint32_t answer = pef_fragments(&context, app, order, PEF_MAX_FRAGMENTS, &count);
    for (size_t i = 0; answer == PEF_OK && i < count; i++)
        answer = print_fragment(order[i]);
    return answer == PEF_OK ? print_entries(order[count - 1]) : answer;
}

int main(int count, char **words)
{
    struct pef_names names = PEF_NO_NAMES;
    if (!read_fragments(count - 1, words + 1)) {
        fputs("usage: load NAME=FILE ..\n", stderr);
        return 2;
    }
    uint32_t answer = open_all(&context, 0x10000000);
    if (answer == PEF_OK)
        answer = prepare_first(&context, &app, &names);
    if (answer == PEF_OK)
        answer = print_connection();
    if (answer == PEF_OK)
        answer = pef_close(&context, app);
    pef_free(&context);
    if (answer != PEF_OK)
        print_fault(answer, &names);
    return answer == PEF_OK ? 0 : 1;
}
