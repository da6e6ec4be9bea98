/* Expectations, and the containers of scripts, for the programs that test one call after the other. */
#ifndef EXPECT_H
#define EXPECT_H

#include "../../include/pef.h"

#include <stdio.h>
#include <stdlib.h>
#include <string.h>

static size_t failures;

static inline void expect(bool holds, const char *file, int line, const char *what)
{
    if (!holds) {
        fprintf(stderr, "%s:%d: not so: %s\n", file, line, what);
        failures++;
    }
}

/* Counts a failure, and prints what was expected, unless it holds. */
#define EXPECT(condition) expect(condition, __FILE__, __LINE__, #condition)

/* The two arguments of a text, and of bytes. */
#define TEXT(text) (const uint8_t *)(text), strlen(text)
#define BYTES(bytes) (bytes).at, (bytes).length

/* Whether these bytes are found. */
static inline bool has(struct pef_bytes found, const void *wanted, size_t length)
{
    return found.length == length && memcmp(found.at, wanted, length) == 0;
}

static inline bool is_named(struct pef_bytes found, const char *wanted)
{
    return has(found, wanted, strlen(wanted));
}

enum { CONTAINERS = 64, LONGEST_CONTAINER = 512 };

/* Links a script. The container stays until the program ends. It is a block of its own length, so that an address sanitizer sees a read
 * past its end. */
static inline struct pef_bytes linked(const char *script)
{
    static struct pef_bytes containers[CONTAINERS];
    static size_t count;
    uint8_t buffer[LONGEST_CONTAINER], *block = NULL;
    size_t written = 0, line = 0;
    uint32_t answer = pef_link(TEXT(script), buffer, LONGEST_CONTAINER, &written, &line);
    if (answer == PEF_OK && count < CONTAINERS)
        block = malloc(written);
    if (block == NULL) {
        fprintf(stderr, "no container of a script: %u, line %zu\n", (unsigned)answer, line);
        exit(1);
    }
    memcpy(block, buffer, written);
    containers[count] = (struct pef_bytes){block, written};
    return containers[count++];
}

#endif
