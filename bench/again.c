/* `again COUNT NAME=FILE ..` over the library: opens and closes connections to fragments that are present. */
#include <stdio.h>
#include <stdlib.h>
#include <string.h>

#include "../include/pef.h"

struct fragment {
    const uint8_t *name;
    size_t name_length;
    uint8_t *bytes;
    size_t length;
};

struct totals {
    size_t fragments;
    uint64_t addresses;
};

static bool read_fragment(const char *word, struct fragment *fragment) {
    const char *path = strchr(word, '=');
    FILE *file = path ? fopen(path + 1, "rb") : NULL;
    if (!file || fseek(file, 0, SEEK_END) != 0)
        return false;
    fragment->name = (const uint8_t *)word;
    fragment->name_length = (size_t)(path - word);
    fragment->length = (size_t)ftell(file);
    fragment->bytes = malloc(fragment->length);
    rewind(file);
    return fragment->bytes && fread(fragment->bytes, 1, fragment->length, file) == fragment->length && fclose(file) == 0;
}

static bool add(struct pef_context *context, const struct fragment *fragment) {
    return pef_add(context, fragment->name, fragment->name_length, fragment->bytes, fragment->length) == PEF_OK;
}

static bool prepare(struct pef_context *context, const struct fragment *fragment, uint32_t *connection) {
    struct pef_names names = {0};
    return pef_prepare(context, fragment->name, fragment->name_length, connection, &names) == PEF_OK;
}

/* Opens and closes one connection. Adds the number of its fragments, and the address of its root's first section. */
static bool open_and_close(struct pef_context *context, const struct fragment *fragment, size_t number, struct totals *totals) {
    size_t order[PEF_MAX_FRAGMENTS], count;
    struct pef_fragment_section section;
    uint32_t connection;
    if (!prepare(context, fragment, &connection) || pef_init_order(context, connection, order, PEF_MAX_FRAGMENTS, &count) != PEF_OK
        || pef_fragment_section(context, connection, number, 0, &section) != PEF_OK)
        return false;
    totals->fragments += count;
    totals->addresses += section.address;
    return pef_close(context, connection) == PEF_OK;
}

static bool again(struct pef_context *context, size_t connections, char **words, size_t count, struct totals *totals) {
    static struct fragment fragments[PEF_MAX_FRAGMENTS];
    for (size_t i = 0; i < count; i++)
        if (!read_fragment(words[i], &fragments[i]) || !add(context, &fragments[i]))
            return false;
    uint32_t first;
    if (!prepare(context, &fragments[0], &first))
        return false;
    for (size_t i = 0; i < connections; i++)
        if (!open_and_close(context, &fragments[i % count], i % count, totals))
            return false;
    return pef_close(context, first) == PEF_OK;
}

int main(int argc, char **argv) {
    struct pef_context context = {0};
    struct totals totals = {0, 0};
    size_t count = argc < 3 ? 0 : (size_t)argc - 2;
    size_t connections = argc < 3 ? 0 : strtoul(argv[1], NULL, 10);
    if (count == 0 || count > PEF_MAX_FRAGMENTS || pef_open(&context, 0x10000000) != PEF_OK)
        return 2;
    bool answered = again(&context, connections, argv + 2, count, &totals);
    pef_free(&context);
    if (answered)
        printf("%zu connections, %zu fragments, addresses %llu\n", connections, totals.fragments, (unsigned long long)totals.addresses);
    return answered ? 0 : 1;
}
