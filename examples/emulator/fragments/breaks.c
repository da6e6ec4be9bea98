/* A fragment that does what it may not do, one thing in each of its builds: CASE says which. */
#include "mac.h"

void NotMade(void);

static const int constants[] = {1, 2, 3};
static int data[] = {4, 5, 6};

int main_routine(void)
{
    volatile int *at = data;
    DebugStr((const unsigned char *)"\x06" "Begins");
#if CASE == 1
    at = (int *)constants;
#elif CASE == 2
    at = *(int **)main_routine; /* the first word of a transition vector: the address of the code */
#elif CASE == 3
    at = (int *)0x00F00000;
#elif CASE == 4
    static int *vector[] = {data, data};
    ((void (*)(void))vector)();
#elif CASE == 5
    NotMade();
#elif CASE == 6
    for (;;)
        at[1]++;
#elif CASE == 7
    at = (int *)0x20000000;
#endif
    at[0] = 7;
    return at[0] + constants[1];
}
