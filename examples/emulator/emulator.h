/* What the files of the emulator share. */
#ifndef EMULATOR_H
#define EMULATOR_H

#include <pef.h>

#include <inttypes.h>
#include <stdbool.h>

/* --- machine.c: Unicorn's PowerPC, its memory, and what may be done where --- */

enum {
    RAM = 0x00010000, /* where libpef places the first section, unless that is reserved */
    RAM_END = 0x01000000,
    STACK_SIZE = 0x00010000,
    TRAPS_SIZE = 0x00010000,
    NO_FRAGMENT = PEF_MAX_FRAGMENTS,
};

/* Addresses outside of RAM, at which stub libraries have their symbols. */
static const uint32_t TRAPS = 0xF0000000;

/* A part of RAM that may be used: a section of a fragment, or the stack, which is no fragment's. */
struct area {
    uint32_t address;
    size_t size;
    uint8_t kind;
    size_t fragment;
    size_t number;
};

void make_machine(uint32_t stack);
void end_machine(void);

/* The memory at an address of RAM, to copy a section to. */
uint8_t *ram_at(uint32_t address);

void add_area(struct area area);
void remove_areas(size_t fragment);

/* The area that has all of some bytes, or NULL. */
const struct area *area_at(uint64_t address, size_t size);

/* What a routine of the system does with the program that called it. A bad address stops the machine. */
uint32_t argument(size_t number);
void give_back(int32_t result);
uint32_t word_at(uint32_t address);
void put_word(uint32_t address, uint32_t value);
void put_byte(uint32_t address, uint8_t value);
struct pef_bytes text_at(uint32_t address, uint8_t text[256]);

/* Writes the transition vector of a trap, which leads to the address right after it. */
void put_trap(uint32_t address);

/* Runs the routine of a transition vector until it returns, and gives what it returns. */
uint32_t call_routine(uint32_t vector);

/* Stop the machine, and say where and why: the one by an address, the other by a number. Only the first reason is told. */
void stop(const char *why, uint32_t address);
void stop_by(const char *why, uint32_t number);
bool is_stopped(void);

/* --- fragments.c: the context, and its fragments in the machine --- */

struct options {
    uint32_t base;      /* no section is placed below it */
    uint32_t stack;     /* the first address of the stack, in which no section is placed */
    const char *folder; /* where a fragment is looked for that wasn't named, or NULL */
    bool shows_map;     /* whether it is printed what comes into memory, and what goes */
};

void open_store(const struct options *options);
void add_file(const char *name, size_t name_length, const char *path);
void free_store(void);

/* Prepares a fragment, and copies what is new into the machine. A refusal is printed and returned. */
uint32_t prepare_fragment(struct pef_bytes name, uint32_t *connection);

/* Runs the initialization routines of what a connection's preparation placed. */
void initialize(uint32_t connection);

/* Runs the main routine of the fragment that was prepared, if it has one. */
void run_main(uint32_t connection);

/* The address of the main entry point of the fragment that was prepared, or 0. */
uint32_t main_of(uint32_t connection);

/* Finds an export of the fragment that was prepared. */
bool find_export(uint32_t connection, struct pef_bytes name, uint32_t *address, uint8_t *symbol_class);

/* Runs the termination routines of what only this connection needs, and closes it. Returns whether it was open. */
bool close_connection(uint32_t connection);
void close_all(void);

/* Prints the memory of a connection's fragments, as `pef load` does. */
void print_memory(uint32_t connection);

/* Prints what is known of three addresses: where the machine stopped, what that is about, and what is in the link register. */
void print_report(uint32_t at, uint32_t address, uint32_t link);

/* Prints a name, with each byte that isn't printable and each % as % and two digits. */
void print_name(struct pef_bytes name);

/* --- system.c: the routines of the system --- */

/* Makes the trap of a stub's export, if this is one. */
void make_trap(const struct pef_export *it);

/* Does what is asked at a trap. */
void catch_call(uint32_t address);

#endif
