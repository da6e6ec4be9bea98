/* A fragment with several routines, one of which fails: CASE says how. The report names the routine, which isn't the first. */
#include "mac.h"

int extra(int number) __attribute__((weak)); /* of a library that may be missing, as it is here */

int fault_main(void);
int fails(int *at);
int follows(int number);

static int data[] = {4, 5, 6};

int fault_main(void)
{
    DebugStr((const unsigned char *)"\x06" "Begins");
    return follows(fails(data));
}

__attribute__((noinline)) int fails(int *at)
{
#if CASE == 1
    at = (int *)0x20000000;
#elif CASE == 2
    __asm__ volatile(".long 0"); /* no instruction */
#elif CASE == 3
    static volatile unsigned vector[] = {0x30000000, 0};
    ((void (*)(void))(unsigned)vector)();
#elif CASE == 4
    extra(1); /* a caller has to test first whether it is there, as the next routine does */
#endif
    at[1]++;
    return at[1];
}

int follows(int number) { return extra ? extra(number) : number + 1; }
