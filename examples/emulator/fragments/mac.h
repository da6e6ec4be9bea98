/* What the fragments use of the system: two routines of InterfaceLib, which the emulator makes. */
#ifndef MAC_H
#define MAC_H

/* Prints a line. The text's first byte is its length. */
void DebugStr(const unsigned char *text);

/* The sixtieths of a second since the machine was started. In this machine no time goes by. */
unsigned TickCount(void);

#endif
