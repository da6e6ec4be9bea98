/* A plug-in. Its main adds to a sum, which it keeps from call to call. */
#include "lines.h"

int tally(void);

int sum = 100;

int adder_main(int number)
{
    tally();
    sum += number;
    return sum;
}

int adder_start(void)
{
    print("Adder starts, sum: ", sum);
    return 0;
}

int adder_end(void)
{
    print("Adder ends, sum: ", sum);
    return 0;
}
