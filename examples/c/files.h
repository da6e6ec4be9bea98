/* Fragments from words NAME=FILE, which stay until the program ends. */
#ifndef FILES_H
#define FILES_H

#include "file.h"

#include <string.h>

/* What a word names. */
struct fragment {
    struct pef_bytes name;
    struct pef_bytes container;
};

static struct fragment fragments[PEF_MAX_FRAGMENTS];
static size_t fragment_count;

/* Reads the files of some words, or says which one can't be read. */
static inline bool read_fragments(int count, char **words)
{
    for (int i = 0; i < count; i++) {
        const char *path = strchr(words[i], '=');
        struct fragment *fragment = &fragments[fragment_count];
        if (path == NULL || fragment_count == PEF_MAX_FRAGMENTS)
            return false;
        fragment->name = (struct pef_bytes){(const uint8_t *)words[i], (size_t)(path - words[i])};
        size_t length = 0;
        fragment->container.at = read_file(path + 1, &length);
        fragment->container.length = length;
        if (fragment->container.at == NULL) {
            perror(path + 1);
            return false;
        }
        fragment_count++;
    }
    return fragment_count != 0;
}

/* Adds a fragment. */
static inline uint32_t add_fragment(struct pef_context *context, const struct fragment *fragment)
{
    return pef_add(context, fragment->name.at, fragment->name.length, fragment->container.at, fragment->container.length);
}

/* Opens a context over all fragments. */
static inline uint32_t open_all(struct pef_context *context, uint32_t limit)
{
    uint32_t answer = pef_open(context, limit);
    for (size_t i = 0; answer == PEF_OK && i < fragment_count; i++)
        answer = add_fragment(context, &fragments[i]);
    return answer;
}

/* Prepares the first fragment. */
static inline uint32_t prepare_first(struct pef_context *context, uint32_t *connection, struct pef_names *names)
{
    return pef_prepare(context, fragments[0].name.at, fragments[0].name.length, connection, names);
}

#endif
