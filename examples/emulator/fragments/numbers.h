/* The library Numbers. Layer passes its symbols on. */
#ifndef NUMBERS_H
#define NUMBERS_H

extern int step;

int add_up(const int *row, int count);
int (*choose(int which))(int);

/* Routines that are imported weakly: `bonus` is there, and `extra` is in a library that may be missing. */
#ifdef HAS_THEM
#define MAY_BE_MISSING
#else
#define MAY_BE_MISSING __attribute__((weak))
#endif
int bonus(int number) MAY_BE_MISSING;
int extra(int number) MAY_BE_MISSING;

#endif
