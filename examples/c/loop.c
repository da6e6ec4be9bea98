/*
 * Runs the first example of docs/EMBEDDING.md in C: loop TOOLS APP. `test` writes its lines into opening.inc, and those from
 * pef_new_fragments() on, which copy what is new, into loop.inc. The second connection shares a library whose data the program
 * in the machine has changed since: it has to stay as it is there.
 */
#include "file.h"

#include <string.h>

enum { RAM = 1 << 17, DATA = 0x10000, APP_DATA = 0x10010, OTHER_DATA = 0x10020 };

static uint8_t ram[RAM];

/* Says what is wrong, and returns the status. */
static int refused(uint32_t answer, const struct pef_names *names)
{
    fprintf(stderr, "loop: %u in %.*s\n", (unsigned)answer, (int)names->fragment.length, (const char *)names->fragment.at);
    return 1;
}

static bool has(uint32_t address, const char *bytes)
{
    return memcmp(ram + address, bytes, 4) == 0;
}

static int run(const uint8_t *tools, size_t tools_length, const uint8_t *app_bytes, size_t app_length)
{
#include "opening.inc"
#include "loop.inc"
    if (!has(DATA, "\0\0\0\x2A") || !has(APP_DATA, "\0\1\0\0"))
        return 1;
    memcpy(ram + DATA, "\0\0\0\x63", 4);
    answer = pef_add(&context, (const uint8_t *)"Other", 5, app_bytes, app_length);
    if (answer == PEF_OK)
        answer = pef_prepare(&context, (const uint8_t *)"Other", 5, &app, &names);
    if (answer != PEF_OK)
        return refused(answer, &names);
#include "loop.inc"
    pef_free(&context);
    return has(DATA, "\0\0\0\x63") && has(OTHER_DATA, "\0\1\0\0") ? 0 : 1;
}

int main(int count, char **words)
{
    size_t tools_length = 0, app_length = 0;
    uint8_t *tools = count == 3 ? read_file(words[1], &tools_length) : NULL;
    uint8_t *app = count == 3 ? read_file(words[2], &app_length) : NULL;
    int status = tools == NULL || app == NULL ? 2 : run(tools, tools_length, app, app_length);
    free(tools);
    free(app);
    return status;
}
