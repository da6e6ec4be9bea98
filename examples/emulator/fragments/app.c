/* The application, with lines.c. It knows Layer, and Numbers only for a routine that may be missing. */
#include "lines.h"
#include "mac.h"
#include "numbers.h"

int average(const int *row, int count);

static const int row[] = {3, 14, 15, 92, 65, 35};
static const double share = 0.25;

/* Pointers in data: to a string, to data of another fragment, and to a routine of another one. */
static const char *volatile greeting = "ticks: ";
static int *volatile far_step = &step;
static int (*volatile far_average)(const int *, int) = average;

int app_main(void)
{
    print(greeting, TickCount());
    print("sum: ", add_up(row, 6));
    print("below zero: ", row[0] - row[1]);
    print("average: ", far_average(row, 6));
    print("average of two: ", average(row, 2));
    print("twice 21: ", choose(0)(21));
    step++;
    print("square of 9: ", choose(1)(9));
    print("step: ", *far_step);
    print("a quarter of 1000: ", (int)(share * 1000 * *far_step) / *far_step);
    if (bonus)
        print("bonus: ", bonus(1));
    if (extra)
        print("extra: ", extra(1));
    else
        print("no extra: ", 0);
    return *far_step;
}
