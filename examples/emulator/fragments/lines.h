#ifndef LINES_H
#define LINES_H

/* Prints a text and a number. */
void print(const char *text, int number);

#endif
