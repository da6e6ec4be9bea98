/*
 * The machine: Unicorn's PowerPC, with RAM in which libpef places sections, a stack in it, and traps outside of it.
 *
 * Several sections share a page, so pages can't protect them. Each access is looked up in a list of areas instead.
 */
#include "emulator.h"

#include <stdio.h>
#include <stdlib.h>
#include <unicorn/unicorn.h>

enum {
    PAGE = 0x1000,
    MAX_AREAS = 16 * PEF_MAX_FRAGMENTS,
    MAX_INSTRUCTIONS = 10000000,
    MAX_DEPTH = 16,
    FRAME = 64,              /* bytes of stack for a call: the linkage area, and room for eight arguments */
    FLOATING_POINT = 0x2000, /* this bit of the MSR lets floating-point instructions run */
    NO_SUCH_INSTRUCTION = 96, /* Unicorn's number of this exception */
};

/* The routine of a transition vector returns here. */
static const uint32_t END = 0xFFFFF000;

static uc_engine *machine;
static uint8_t *ram;
static struct area areas[MAX_AREAS];
static size_t area_count;
static uint32_t instruction; /* the address of the one that runs */
static unsigned depth;       /* how many routines have been called that haven't returned */
static unsigned count;       /* how many instructions have run since the first of these was called */
static bool stopped;

static uint32_t reg(int number)
{
    uint32_t value = 0;
    uc_reg_read(machine, number, &value);
    return value;
}

static void set_reg(int number, uint32_t value)
{
    uc_reg_write(machine, number, &value);
}

/* --- stopping --- */

bool is_stopped(void)
{
    return stopped;
}

/* Stops at an instruction. What is wrong is with `number`, and with an address that the report explains: maybe the same. */
static void stop_at(uint32_t at, const char *why, uint32_t number, uint32_t address)
{
    if (stopped)
        return;
    stopped = true;
    printf("stopped at %08" PRIX32 ": %s %08" PRIX32 "\n", at, why, number);
    print_report(at, address, reg(UC_PPC_REG_LR));
    uc_emu_stop(machine);
}

void stop(const char *why, uint32_t address)
{
    stop_at(reg(UC_PPC_REG_PC), why, address, address);
}

void stop_by(const char *why, uint32_t number)
{
    uint32_t at = reg(UC_PPC_REG_PC);
    stop_at(at, why, number, at);
}

/* Ends the program, if Unicorn failed in what can't fail. */
static void unicorn(uc_err answer)
{
    if (answer != UC_ERR_OK) {
        printf("the machine isn't made: %s\n", uc_strerror(answer));
        exit(1);
    }
}

/* --- memory --- */

uint8_t *ram_at(uint32_t address)
{
    return ram + (address - RAM);
}

/* Adds an area that has been filled. Code that ran at these addresses before may have been translated: it is forgotten. */
void add_area(struct area area)
{
    if (area_count == MAX_AREAS) {
        puts("too many sections");
        exit(1);
    }
    areas[area_count++] = area;
    if (area.size != 0)
        unicorn(uc_ctl_remove_cache(machine, area.address, area.address + area.size));
}

void remove_areas(size_t fragment)
{
    size_t kept = 0;
    for (size_t i = 0; i < area_count; i++)
        if (areas[i].fragment != fragment)
            areas[kept++] = areas[i];
    area_count = kept;
}

const struct area *area_at(uint64_t address, size_t size)
{
    for (size_t i = 0; i < area_count; i++)
        if (address >= areas[i].address && address + size <= (uint64_t)areas[i].address + areas[i].size)
            return &areas[i];
    return NULL;
}

static bool is_code(const struct area *it)
{
    return it->kind == PEF_KIND_CODE || it->kind == PEF_KIND_EXECUTABLE_DATA;
}

/* Looks at an access to RAM. Returns whether it is allowed; if not, the machine is stopped. */
static bool may_access(bool is_write, uint32_t address, size_t size)
{
    const struct area *it = area_at(address, size);
    if (it == NULL)
        stop(is_write ? "a write outside of all sections, to" : "a read outside of all sections, from", address);
    else if (is_write && (it->kind == PEF_KIND_CODE || it->kind == PEF_KIND_CONSTANT))
        stop(it->kind == PEF_KIND_CODE ? "a write into code, to" : "a write into constants, to", address);
    return !stopped;
}

/* --- what Unicorn calls --- */

static void on_access(uc_engine *engine, uc_mem_type type, uint64_t address, int size, int64_t value, void *data)
{
    (void)engine, (void)value, (void)data;
    may_access(type == UC_MEM_WRITE, (uint32_t)address, (size_t)size);
}

static void on_instruction(uc_engine *engine, uint64_t address, uint32_t size, void *data)
{
    const struct area *it = area_at(address, size);
    (void)engine, (void)data;
    instruction = (uint32_t)address;
    if (count++ == MAX_INSTRUCTIONS)
        stop("too many instructions: not yet at", END);
    else if (it == NULL || !is_code(it))
        stop("no code at", instruction);
}

/* Ends the run before the instruction at a trap, which needn't be one. `run` goes on from there. */
static void on_trap(uc_engine *engine, uint64_t address, uint32_t size, void *data)
{
    (void)address, (void)size, (void)data;
    count++;
    uc_emu_stop(engine);
}

static bool on_invalid(uc_engine *engine, uc_mem_type type, uint64_t address, int size, int64_t value, void *data)
{
    bool is_fetch = type == UC_MEM_FETCH_UNMAPPED || type == UC_MEM_FETCH_PROT;
    (void)engine, (void)size, (void)value, (void)data;
    stop(is_fetch ? "no memory with code at" : "no such memory at", (uint32_t)address);
    return false;
}

/* An exception. The register for the next instruction is past the one that made it. */
static void on_interrupt(uc_engine *engine, uint32_t number, void *data)
{
    (void)engine, (void)data;
    if (number == NO_SUCH_INSTRUCTION)
        stop_at(instruction, "no such instruction:", word_at(instruction), instruction);
    else
        stop_at(instruction, "interrupt", number, instruction);
}

/* --- for the routines of the system --- */

uint32_t argument(size_t number)
{
    return reg(UC_PPC_REG_3 + (int)number);
}

void give_back(int32_t result)
{
    set_reg(UC_PPC_REG_3, (uint32_t)result);
}

uint32_t word_at(uint32_t address)
{
    uint8_t it[4] = {0};
    if (uc_mem_read(machine, address, it, sizeof it) != UC_ERR_OK)
        stop("no word at", address);
    return (uint32_t)it[0] << 24 | (uint32_t)it[1] << 16 | (uint32_t)it[2] << 8 | it[3];
}

void put_word(uint32_t address, uint32_t value)
{
    for (unsigned i = 0; i < 4; i++)
        put_byte(address + i, (uint8_t)(value >> (24 - 8 * i)));
}

void put_byte(uint32_t address, uint8_t value)
{
    if (may_access(true, address, 1))
        *ram_at(address) = value;
}

/* A text whose first byte is its length. */
struct pef_bytes text_at(uint32_t address, uint8_t text[256])
{
    if (uc_mem_read(machine, address, text, 1) != UC_ERR_OK || uc_mem_read(machine, address + 1, text + 1, text[0]) != UC_ERR_OK) {
        stop("no string at", address);
        return (struct pef_bytes)PEF_NO_BYTES;
    }
    return (struct pef_bytes){text + 1, text[0]};
}

void put_trap(uint32_t address)
{
    uint32_t code = address + 8;
    uint8_t vector[8] = {code >> 24, code >> 16 & 0xFF, code >> 8 & 0xFF, code & 0xFF};
    unicorn(uc_mem_write(machine, address, vector, sizeof vector));
}

/* --- running --- */

static bool is_trap(uint32_t address)
{
    return address >= TRAPS && address - TRAPS < TRAPS_SIZE;
}

/* Runs from an address until END is reached. At a trap Unicorn's run ends, so a routine of the system may run others. */
static void run(uint32_t at)
{
    while (!stopped && at != END) {
        uc_err answer = uc_emu_start(machine, at, END, 0, 0);
        at = reg(UC_PPC_REG_PC);
        if (answer != UC_ERR_OK)
            stop(uc_strerror(answer), at);
        else if (is_trap(at)) {
            catch_call(at);
            at = reg(UC_PPC_REG_LR);
        } else if (at != END)
            stop("the machine ended before", END);
    }
}

/* The routine gets a frame below the one that came to a trap, if that is why it is called. */
uint32_t call_routine(uint32_t vector)
{
    uint32_t stack = reg(UC_PPC_REG_1), back = reg(UC_PPC_REG_LR), code = word_at(vector);
    if (depth == MAX_DEPTH)
        stop("too many routines call each other, at", vector);
    if (stopped)
        return 0;
    if (depth++ == 0)
        count = 0;
    set_reg(UC_PPC_REG_1, stack - FRAME);
    put_word(stack - FRAME, stack);
    set_reg(UC_PPC_REG_2, word_at(vector + 4));
    set_reg(UC_PPC_REG_3, 0);
    set_reg(UC_PPC_REG_LR, END);
    run(code);
    set_reg(UC_PPC_REG_1, stack);
    set_reg(UC_PPC_REG_LR, back);
    depth--;
    return reg(UC_PPC_REG_3);
}

/* --- making it --- */

static void hook(int kind, void *call, uint32_t begin, uint32_t end)
{
    static uc_hook hooks[8];
    static size_t hook_count;
    unicorn(uc_hook_add(machine, &hooks[hook_count++], kind, call, NULL, begin, end));
}

void make_machine(uint32_t stack)
{
    ram = calloc(1, RAM_END - RAM);
    unicorn(ram == NULL ? UC_ERR_NOMEM : uc_open(UC_ARCH_PPC, UC_MODE_PPC32 | UC_MODE_BIG_ENDIAN, &machine));
    unicorn(uc_mem_map_ptr(machine, RAM, RAM_END - RAM, UC_PROT_ALL, ram));
    unicorn(uc_mem_map(machine, TRAPS, TRAPS_SIZE, UC_PROT_READ | UC_PROT_EXEC));
    unicorn(uc_mem_map(machine, END, PAGE, UC_PROT_READ | UC_PROT_EXEC));
    hook(UC_HOOK_MEM_READ | UC_HOOK_MEM_WRITE, (void *)on_access, RAM, RAM_END - 1);
    hook(UC_HOOK_CODE, (void *)on_instruction, RAM, RAM_END - 1);
    hook(UC_HOOK_CODE, (void *)on_trap, TRAPS, TRAPS + TRAPS_SIZE - 1);
    hook(UC_HOOK_INTR, (void *)on_interrupt, 1, 0);
    hook(UC_HOOK_MEM_INVALID, (void *)on_invalid, 1, 0);
    set_reg(UC_PPC_REG_MSR, FLOATING_POINT);
    set_reg(UC_PPC_REG_1, stack + STACK_SIZE - FRAME);
    add_area((struct area){stack, STACK_SIZE, PEF_KIND_DATA, NO_FRAGMENT, 0});
}

void end_machine(void)
{
    uc_close(machine);
    free(ram);
}
