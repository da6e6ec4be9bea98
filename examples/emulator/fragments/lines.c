/* Lines with numbers, for the application: a second file of its fragment. */
#include "lines.h"
#include "mac.h"

/* The line that is being made: its first byte is its length. */
static unsigned char line[80];

static void add_text(const char *text)
{
    while (*text != 0)
        line[++line[0]] = (unsigned char)*text++;
}

static void add_number(int number)
{
    unsigned rest = number < 0 ? -(unsigned)number : (unsigned)number;
    unsigned place = 1;
    if (number < 0)
        add_text("-");
    while (rest / place >= 10)
        place *= 10;
    for (; place != 0; place /= 10)
        line[++line[0]] = '0' + rest / place % 10;
}

void print(const char *text, int number)
{
    line[0] = 0;
    add_text(text);
    add_number(number);
    DebugStr(line);
}
