/*
 * Prepares damaged containers: damaged_load NAME=FILE .. cuts the container of the first fragment at every length, and turns
 * each of its bytes in three ways. Every answer has to be PEF_OK or a refusal with a name, and a refusal has to leave the
 * context as it was. Each container lies in a block of its own length, so that an address sanitizer sees a read past its
 * end. The blocks stay until the program ends.
 */
#include "files.h"
#include "told.h"

struct block {
    struct block *before;
    uint8_t *bytes;
};

static struct block *blocks;
static struct told told;

/* A copy of some bytes that stays until the program ends. */
static uint8_t *keep(const uint8_t *bytes, size_t length)
{
    struct block *block = malloc(sizeof *block);
    if (block == NULL)
        exit(2);
    block->bytes = malloc(length == 0 ? 1 : length);
    if (block->bytes == NULL)
        exit(2);
    memcpy(block->bytes, bytes, length);
    block->before = blocks;
    blocks = block;
    return block->bytes;
}

/* Opens a context in which the first fragment has other bytes. */
static uint32_t open_damaged(struct pef_context *context, struct pef_bytes container)
{
    struct fragment whole = fragments[0];
    fragments[0].container = container;
    uint32_t answer = open_all(context, 0x10000000);
    fragments[0] = whole;
    return answer;
}

/* Prepares a copy of the first container with one byte turned. Returns whether the answer is one that may come. */
static bool is_answered(size_t length, size_t at, uint8_t turned)
{
    struct pef_context context = {0};
    struct pef_names names = PEF_NO_NAMES;
    struct pef_bytes name = PEF_NO_BYTES;
    uint32_t connection = 7;
    size_t count = 7;
    uint8_t *copy = keep(fragments[0].container.at, length);
    if (at < length)
        copy[at] ^= turned;
    if (open_damaged(&context, (struct pef_bytes){copy, length}) != PEF_OK)
        return false;
    uint32_t answer = prepare_first(&context, &connection, &names);
    bool right;
    if (answer == PEF_OK)
        right = connection == 0 && tell_connection(&told, &context, connection) && pef_close(&context, connection) == PEF_OK;
    else
        right = answer < PEF_OUT_OF_MEMORY && pef_name(answer, &name) == PEF_OK && name.length != 0 && names.fragment.length != 0 && connection == 7;
    right = right && pef_fragment_sections(&context, 0, &count) == PEF_OK && count == 0;
    pef_free(&context);
    return right;
}

int main(int count, char **words)
{
    static const uint8_t turns[] = {0x01, 0x80, 0xff};
    size_t tried = 0, wrong = 0;
    if (!read_fragments(count - 1, words + 1))
        return 2;
    for (size_t at = 0; at < fragments[0].container.length; at++) {
        wrong += !is_answered(at, at, 0);
        for (size_t i = 0; i < sizeof turns; i++)
            wrong += !is_answered(fragments[0].container.length, at, turns[i]);
        tried += 1 + sizeof turns;
    }
    printf("%zu tried, %zu wrong\n", tried, wrong);
    return wrong == 0 ? 0 : 1;
}
