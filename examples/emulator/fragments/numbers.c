/* A library with data, an init routine and a term routine. */
#define HAS_THEM
#include "mac.h"
#include "numbers.h"

int step = 3;
static int calls;

static int twice(int number) { return 2 * number + step; }
static int square(int number) { return number * number + step; }

/* Constants that hold addresses: they are in the data section, since each process has its own. */
static int (*const functions[])(int) = {twice, square};

/* The routine itself is handed out: a pointer to its transition vector. */
int (*choose(int which))(int)
{
    calls++;
    return functions[which & 1];
}

int add_up(const int *row, int count)
{
    int sum = 0;
    calls++;
    for (int i = 0; i < count; i++)
        sum += row[i];
    return sum;
}

int bonus(int number) { return number + 100 * step; }

int numbers_start(void)
{
    DebugStr((const unsigned char *)"\x0e" "Numbers starts");
    step += 4;
    return 0;
}

int numbers_end(void)
{
    static unsigned char text[] = "\x0d" "Numbers:    0";
    text[13] += calls;
    DebugStr(text);
    return 0;
}
