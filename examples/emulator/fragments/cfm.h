/* The routines that open and close fragments, as the Code Fragment Manager has them. They return 0, or the number of an error. */
#ifndef CFM_H
#define CFM_H

#define POWERPC 0x70777063 /* 'pwpc' */
#define REFERENCE 1        /* kReferenceCFrag: a fragment that is there already is opened as it is */

/* Opens a fragment by its name, and gives the number of the connection and the address of its main entry point. */
short GetSharedLibrary(const unsigned char *name, unsigned architecture, unsigned flags, unsigned *connection, void **main, unsigned char *message);

/* Gives the address and the class of an export of the fragment that was opened. */
short FindSymbol(unsigned connection, const unsigned char *name, void **address, unsigned char *symbol_class);

short CloseConnection(unsigned *connection);

#endif
