/*
 * Prepares a fragment without its libraries: stubs NAME=FILE .. adds a stub of each library that isn't among the fragments, prepares the
 * first of them, and prints which number in memory means which symbol.
 */
#include "printed.h"

enum { ROWS = 16 };

static struct pef_context context;
/* The stubs. They stay until the program ends, and so longer than the context. */
static struct fragment stubs[PEF_MAX_FRAGMENTS];
static size_t stub_count;

static int compare_values(const void *one, const void *other)
{
    uint32_t a = ((const struct pef_export *)one)->value, b = ((const struct pef_export *)other)->value;
    return (a > b) - (a < b);
}

/* Prints the symbols of a stub by their numbers. */
static uint32_t print_symbols(const struct fragment *stub, size_t count)
{
    pef_size found = 0;
    struct pef_export *rows = malloc((count == 0 ? 1 : count) * sizeof *rows);
    if (rows == NULL)
        return PEF_OUT_OF_MEMORY;
    uint32_t answer = pef_exports(stub->container.at, stub->container.length, 0, rows, count, &found);
    qsort(rows, found, sizeof *rows, compare_values);
    fputs("stub ", stdout);
    print_name(stub->name);
    putchar('\n');
    for (size_t i = 0; answer == PEF_OK && i < found; i++) {
        printf("symbol %08X ", (unsigned)rows[i].value);
        print_name(rows[i].name);
        putchar('\n');
    }
    free(rows);
    return answer;
}

/* Adds the stub of a library, in a block of its own. The numbers of the next one go on after it: `options` has the first. */
static uint32_t add_stub(struct pef_bytes library, struct pef_stub_options *options)
{
    pef_size length = 0, symbols = 0;
    if (stub_count == PEF_MAX_FRAGMENTS)
        return PEF_STORE_FULL;
    uint32_t answer = pef_stub(&context, library.at, library.length, options, NULL, 0, &length, &symbols);
    uint8_t *block = answer == PEF_ROOM_TOO_SMALL ? malloc(length) : NULL;
    if (block == NULL)
        return answer == PEF_ROOM_TOO_SMALL ? PEF_OUT_OF_MEMORY : answer;
    answer = pef_stub(&context, library.at, library.length, options, block, length, &length, &symbols);
    struct fragment stub = {library, {block, length}};
    if (answer == PEF_OK)
        answer = add_fragment(&context, &stub);
    if (answer != PEF_OK) {
        free(block);
        return answer;
    }
    stubs[stub_count++] = stub;
    options->first += options->step * (uint32_t)symbols;
    return print_symbols(&stub, symbols);
}

/* Adds stubs until nothing is lacking. What has a stub isn't lacking any more. 256 stubs have fewer symbols than there are numbers. */
static uint32_t add_stubs(void)
{
    struct pef_stub_options options = PEF_NUMBERED_STUBS;
    struct pef_lacking rows[ROWS];
    pef_size count = 0;
    uint32_t answer;
    do {
        answer = pef_lacking(&context, 0, rows, ROWS, &count);
        for (size_t i = 0; answer == PEF_OK && i < count; i++)
            answer = add_stub(rows[i].name, &options);
    } while (answer == PEF_OK && count != 0);
    return answer;
}

int main(int count, char **words)
{
    struct pef_names names = PEF_NO_NAMES;
    uint32_t connection = 0;
    if (!read_fragments(count - 1, words + 1)) {
        fputs("usage: stubs NAME=FILE ..\n", stderr);
        return 2;
    }
    uint32_t answer = open_all(&context, 0x10000000);
    if (answer == PEF_OK)
        answer = add_stubs();
    if (answer == PEF_OK)
        answer = prepare_first(&context, &connection, &names);
    if (answer == PEF_OK)
        answer = pef_close(&context, connection);
    pef_free(&context);
    for (size_t i = 0; i < stub_count; i++)
        free((void *)stubs[i].container.at);
    if (answer != PEF_OK)
        print_refusal(words[1], answer, 0);
    return answer == PEF_OK ? 0 : 1;
}
