/* An application that uses a plug-in after it closed it: CASE says how. */
#include "cfm.h"
#include "lines.h"

int stale_main(void)
{
    static const unsigned char name[] = "\x05" "Adder";
    unsigned connection;
    volatile unsigned vector[2];
    unsigned char symbol_class;
    void *main, *sum;
    if (GetSharedLibrary(name, POWERPC, REFERENCE, &connection, &main, 0) != 0 ||
        FindSymbol(connection, (const unsigned char *)"\x03" "sum", &sum, &symbol_class) != 0)
        return -1;
    vector[0] = ((unsigned *)main)[0];
    vector[1] = ((unsigned *)main)[1];
    CloseConnection(&connection);
    print("closed, and now: ", CASE);
    if (CASE == 1)
        return ((int (*)(int))main)(5); /* reads its transition vector */
    if (CASE == 2)
        return ((int (*)(int))(unsigned)vector)(5); /* runs its code */
    *(int *)sum = 7; /* writes into its data */
    return 0;
}
