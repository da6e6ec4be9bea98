/*
 * What a host does: it links two scripts, prepares an application with its library, opens a plug-in, and closes it. Last it prints where the
 * application is, and what the library's word holds.
 */
#include "pef.h"

#include <stdio.h>
#include <string.h>

static const char tools_script[] =
    "versions 1 0 0\n"
    "section data data process 4 4\n"
    "bytes data 0000002A\n"
    "export answer data data 0\n";

static const char user_script[] =
    "library Tools 1 0 -\n"
    "import answer data strong\n"
    "section data data process 4 8\n"
    "bytes data 0000000000000004\n"
    "fix data 0 import answer\n"
    "fix data 4 section data\n"
    "main data 0\n";

static uint8_t tools[1024], user[1024];
static uint8_t memory[0x20000];

/* Prints an error with its name. Returns the status of the program. */
static int refused(uint32_t number, struct pef_bytes fragment)
{
    struct pef_bytes name = PEF_NO_BYTES;
    pef_name(number, &name);
    fprintf(stderr, "refused %u %.*s %.*s\n", (unsigned)number, (int)name.length, (const char *)name.at, (int)fragment.length, (const char *)fragment.at);
    return 1;
}

/* Links a script, and adds its container to a context. */
static uint32_t add_script(struct pef_context *context, const char *name, const char *script, uint8_t *buffer, size_t size)
{
    pef_size length = 0, line = 0;
    uint32_t answer = pef_link((const uint8_t *)script, strlen(script), buffer, size, &length, &line);
    if (answer == PEF_OK)
        answer = pef_add(context, (const uint8_t *)name, strlen(name), buffer, (size_t)length);
    return answer;
}

static uint32_t prepare(struct pef_context *context, const char *name, uint32_t *connection, struct pef_names *names)
{
    return pef_prepare(context, (const uint8_t *)name, strlen(name), connection, names);
}

/* Copies the fragments that a preparation placed into the memory of the machine. Returns how many these were. */
static size_t copy_new(struct pef_context *context, uint32_t connection)
{
    pef_size fragments[PEF_MAX_FRAGMENTS], count = 0;
    pef_new_fragments(context, connection, fragments, PEF_MAX_FRAGMENTS, &count);
    for (size_t i = 0; i < count; i++) {
        const size_t fragment = (size_t)fragments[i];
        struct pef_fragment_section section;
        for (size_t k = 0; pef_fragment_section(context, connection, fragment, k, &section) == PEF_OK; k++)
            pef_fragment_bytes(context, fragment, k, memory + section.address, (size_t)section.size, &section.size);
    }
    return (size_t)count;
}

int main(void)
{
    struct pef_context context = PEF_NO_CONTEXT;
    struct pef_names names = PEF_NO_NAMES;
    struct pef_entries entries;
    uint32_t app = 0, plug_in = 0, answer = pef_open(&context, sizeof memory);
    if (answer == PEF_OK)
        answer = add_script(&context, "Tools", tools_script, tools, sizeof tools);
    if (answer == PEF_OK)
        answer = add_script(&context, "user", user_script, user, sizeof user);
    /* The same bytes by a name of their own are a fragment of their own, which shares the library. */
    if (answer == PEF_OK)
        answer = add_script(&context, "plug-in", user_script, user, sizeof user);
    if (answer == PEF_OK)
        answer = prepare(&context, "user", &app, &names);
    if (answer == PEF_OK) {
        printf("user: %lu new fragments\n", (unsigned long)copy_new(&context, app));
        answer = prepare(&context, "plug-in", &plug_in, &names);
    }
    if (answer == PEF_OK) {
        printf("plug-in: %lu new fragments\n", (unsigned long)copy_new(&context, plug_in));
        answer = pef_close(&context, plug_in);
    }
    if (answer == PEF_OK && pef_fragment_entries(&context, app, 1, &entries) == PEF_OK)
        printf("main at %08lX, answer %u\n", (unsigned long)entries.main, memory[0x10003]);
    pef_free(&context);
    return answer == PEF_OK ? 0 : refused(answer, names.fragment);
}
