/* Another plug-in over the same library. Its init routine is a caller of that. */
#include "lines.h"

int tally(void);

int doubler_main(int number)
{
    tally();
    return 2 * number;
}

int doubler_tally(void) { return tally(); }

int doubler_start(void)
{
    print("Doubler starts, calls: ", tally());
    return 0;
}

int doubler_end(void)
{
    print("Doubler ends, calls: ", tally());
    return 0;
}
