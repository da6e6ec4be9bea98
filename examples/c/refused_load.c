/*
 * Refuses each growth in turn: refused_load NAME=FILE .. opens a context, adds the fragments, asks what is missing and prepares
 * the first, once for each growth that these calls ask for. The call that lacks it has to return PEF_OUT_OF_MEMORY and to change
 * nothing; or, where it can do without the growth, to return what it returns with memory. The same call works when it is made
 * again. When the context is freed no block is left.
 */
#include "files.h"
#include "heap.h"
#include "told.h"

static struct told wanted, told;

/* Says that a call gave a wrong answer. */
static bool wrong(const char *what, uint32_t answer)
{
    fprintf(stderr, "refused_load: growth %zu: %s: %u\n", refused_growth, what, (unsigned)answer);
    return false;
}

/* Opens a context and adds the fragments. A call that lacks memory is made again. */
static bool adds_all(struct pef_context *context, size_t *lacking)
{
    struct pef_bytes name = PEF_NO_BYTES;
    uint32_t answer = pef_open(context, 0x10000000);
    if (answer == PEF_OUT_OF_MEMORY) {
        (*lacking)++;
        if (context->is_open || live_blocks != 0)
            return wrong("pef_open leaves something", answer);
        answer = pef_open(context, 0x10000000);
    }
    for (size_t i = 0; answer == PEF_OK && i < fragment_count; i++) {
        answer = add_fragment(context, &fragments[i]);
        if (answer != PEF_OUT_OF_MEMORY)
            continue;
        (*lacking)++;
        if (pef_fragment_name(context, i, &name) != PEF_NOT_THERE)
            return wrong("pef_add adds without memory", answer);
        answer = add_fragment(context, &fragments[i]);
    }
    return answer == PEF_OK || wrong("adding", answer);
}

/* Asks what is missing for the first fragment. If memory is lacking, it is asked again. */
static bool asks(struct pef_context *context, size_t *lacking)
{
    struct pef_names names = PEF_NO_NAMES;
    struct pef_missing row = {.fragment = 7};
    struct pef_bytes name = fragments[0].name;
    size_t count = 7;
    uint32_t answer = pef_missing(context, name.at, name.length, 0, &row, 1, &count, &names);
    if (answer == PEF_OUT_OF_MEMORY) {
        (*lacking)++;
        if (count != 7 || row.fragment != 7 || names.fragment.length != 0)
            return wrong("pef_missing writes without memory", answer);
        answer = pef_missing(context, name.at, name.length, 0, &row, 1, &count, &names);
    }
    return (answer == PEF_OK && count <= 1) || wrong("asking", answer);
}

/* Makes a stub of a library that the fragments lack, or of one that nobody names. If memory is lacking, it is made again. */
static bool stubs(struct pef_context *context, size_t *lacking)
{
    static const struct pef_stub_options options = PEF_NUMBERED_STUBS;
    static uint8_t stub[4096];
    struct pef_lacking row = {PEF_NO_BYTES, false};
    size_t count = 7, written = 7, symbols = 7;
    uint32_t answer = pef_lacking(context, 0, &row, 1, &count);
    if (answer == PEF_OUT_OF_MEMORY) {
        (*lacking)++;
        if (count != 7 || row.name.length != 0)
            return wrong("pef_lacking writes without memory", answer);
        answer = pef_lacking(context, 0, &row, 1, &count);
    }
    if (answer != PEF_OK)
        return wrong("asking what is lacking", answer);
    answer = pef_stub(context, row.name.at, row.name.length, &options, stub, sizeof stub, &written, &symbols);
    if (answer == PEF_OUT_OF_MEMORY) {
        (*lacking)++;
        if (written != 7 || symbols != 7)
            return wrong("pef_stub writes without memory", answer);
        answer = pef_stub(context, row.name.at, row.name.length, &options, stub, sizeof stub, &written, &symbols);
    }
    return answer == PEF_OK || wrong("a stub", answer);
}

/* Prepares the first fragment. If memory is lacking, it is prepared again. */
static bool prepares(struct pef_context *context, size_t *lacking)
{
    struct pef_names names = PEF_NO_NAMES;
    uint32_t connection = 7;
    size_t count = 7;
    uint32_t answer = prepare_first(context, &connection, &names);
    if (answer == PEF_OUT_OF_MEMORY) {
        (*lacking)++;
        if (connection != 7 || names.fragment.length != 0)
            return wrong("pef_prepare writes without memory", answer);
        if (pef_fragment_sections(context, 0, &count) != PEF_OK || count != 0)
            return wrong("pef_prepare prepares without memory", answer);
        answer = prepare_first(context, &connection, &names);
    }
    if (answer != PEF_OK || connection != 0)
        return wrong("preparing", answer);
    return tell_connection(&told, context, connection) || wrong("telling", 0);
}

/* Removes the first fragment after its connection was closed, and adds it again. If memory is lacking, either is done again. */
static bool removes(struct pef_context *context, size_t *lacking)
{
    struct pef_bytes first = fragments[0].name, name = PEF_NO_BYTES;
    uint32_t answer = pef_close(context, 0);
    if (answer == PEF_OK)
        answer = pef_remove(context, first.at, first.length);
    if (answer == PEF_OUT_OF_MEMORY) {
        (*lacking)++;
        if (pef_fragment_name(context, 0, &name) != PEF_OK)
            return wrong("pef_remove removes without memory", answer);
        answer = pef_remove(context, first.at, first.length);
    }
    if (answer != PEF_OK || pef_fragment_name(context, 0, &name) != PEF_NOT_THERE)
        return wrong("removing", answer);
    answer = pef_add_new(context, first.at, first.length, fragments[0].container.at, fragments[0].container.length);
    if (answer == PEF_OUT_OF_MEMORY) {
        (*lacking)++;
        if (pef_fragment_name(context, 0, &name) != PEF_NOT_THERE)
            return wrong("pef_add_new adds without memory", answer);
        answer = pef_add_new(context, first.at, first.length, fragments[0].container.at, fragments[0].container.length);
    }
    return (answer == PEF_OK && pef_fragment_name(context, 0, &name) == PEF_OK) || wrong("adding once more", answer);
}

/* Makes all calls with one growth refused, or none for 0. */
static bool is_right(size_t refused, size_t *lacking)
{
    struct pef_context context = {0};
    refuse_growth(refused);
    bool right = adds_all(&context, lacking) && asks(&context, lacking) && stubs(&context, lacking) && prepares(&context, lacking);
    if (right && refused != 0 && !is_same(&told, &wanted))
        right = wrong("something else is told", 0);
    right = right && removes(&context, lacking);
    pef_free(&context);
    return right && (live_blocks == 0 || wrong("blocks are left", (uint32_t)live_blocks));
}

int main(int count, char **words)
{
    size_t lacking = 0, number = 0;
    if (!read_fragments(count - 1, words + 1) || !is_right(0, &lacking) || lacking != 0)
        return 2;
    wanted = told;
    do {
        number++;
        if (!is_right(number, &lacking))
            return 1;
    } while (growths >= number);
    printf("%zu growths, %zu of them refused by 99\n", number - 1, lacking);
    return lacking != 0 ? 0 : 1;
}
