/*
 * Counts the growths that preparations ask for, before and after fragments are removed. The imports of a fragment whose targets are kept
 * aren't resolved again, which would take two growths. So a removal that drops what is kept of the others would show in the count.
 */
#include "expect.h"
#include "heap.h"

#define LIBRARIES 200

/* How many growths more a table may take that got its size anew. */
#define FEW 8

static struct pef_context context = PEF_NO_CONTEXT;
static uint8_t containers[LIBRARIES + 8][512];
static char fragment_names[LIBRARIES + 8][16];
static size_t added;

/* Adds a fragment that imports `s` of its first library and `m` of its second one, and exports both. */
static void add(const char *name, const char *first, const char *second)
{
    char script[512];
    size_t length = 0, written = 0, line = 0;
    const char *const libraries[] = {first, second};
    length += (size_t)snprintf(script + length, sizeof script - length, "versions 1 0 0\n");
    for (size_t i = 0; i < 2; i++)
        if (libraries[i] != NULL)
            length += (size_t)snprintf(script + length, sizeof script - length, "library %s 1 0 -\nimport %c data strong\n", libraries[i], "sm"[i]);
    length += (size_t)snprintf(script + length, sizeof script - length, "section d data process 4 4\nexport s data d 0\nexport m data d 0\n");
    EXPECT(pef_link((const uint8_t *)script, length, containers[added], sizeof containers[added], &written, &line) == PEF_OK);
    snprintf(fragment_names[added], sizeof fragment_names[added], "%s", name);
    EXPECT(pef_add(&context, (const uint8_t *)fragment_names[added], strlen(name), containers[added], written) == PEF_OK);
    added++;
}

static uint32_t opened(const char *name)
{
    struct pef_names names = PEF_NO_NAMES;
    uint32_t connection = 0;
    EXPECT(pef_prepare(&context, (const uint8_t *)name, strlen(name), &connection, &names) == PEF_OK);
    return connection;
}

/* How many growths a preparation takes, whose connection is closed again. */
static size_t growths_of(const char *name)
{
    refuse_growth(0);
    uint32_t connection = opened(name);
    size_t found = growths;
    EXPECT(pef_close(&context, connection) == PEF_OK);
    return found;
}

static void remove_fragment(const char *name)
{
    EXPECT(pef_remove(&context, (const uint8_t *)name, strlen(name)) == PEF_OK);
}

int main(void)
{
    char name[16], last[16] = "";
    struct pef_names names = PEF_NO_NAMES;
    uint32_t connection = 7;
    EXPECT(pef_open(&context, 0x10000000) == PEF_OK);
    for (int i = 0; i < LIBRARIES; i++) {
        snprintf(name, sizeof name, "L%d", i);
        add(name, i == 0 ? NULL : last, NULL);
        memcpy(last, name, sizeof last);
    }
    add("P", last, NULL);
    add("Q", last, NULL);
    add("M", NULL, NULL);
    add("T", last, "M");
    add("U", last, NULL);
    refuse_growth(0);
    opened(last);
    size_t all = growths;
    growths_of("P");
    size_t kept = growths_of("Q");
    EXPECT(kept + LIBRARIES < all);
    // a fragment that no other needs
    remove_fragment("P");
    EXPECT(growths_of("Q") <= kept + FEW);
    // a library that was prepared for one, which is prepared anew
    growths_of("T");
    remove_fragment("M");
    EXPECT(growths_of("U") <= kept + FEW);
    EXPECT(pef_prepare(&context, (const uint8_t *)"T", 1, &connection, &names) == PEF_LIBRARY_MISSING && connection == 7);
    add("M", NULL, NULL);
    EXPECT(growths_of("T") <= kept + 2 * FEW);
    // a fragment that was never prepared
    add("V", last, "M");
    remove_fragment("V");
    EXPECT(growths_of("U") <= kept + FEW);
    pef_free(&context);
    EXPECT(live_blocks == 0);
    printf("%zu growths with kept targets, %zu without\n", kept, all);
    return failures == 0 ? 0 : 1;
}
