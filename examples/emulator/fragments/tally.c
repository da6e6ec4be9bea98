/* A library that the plug-ins share. Its data counts their calls. */
#include "lines.h"

static int calls;

int tally(void) { return ++calls; }

int tally_start(void)
{
    print("Tally starts, calls: ", calls);
    return 0;
}

int tally_end(void)
{
    print("Tally ends, calls: ", calls);
    return 0;
}
