/*
 * Runs a program for Armv6-M that asks Linux to read, to write and to end: thumb PROGRAM takes standard input and output.
 */
#include "thumb.h"

#include <stdio.h>
#include <stdlib.h>
#include <string.h>

static uint8_t program[1u << 20];

static uint32_t word(uint32_t at)
{
    return program[at] | (uint32_t)program[at + 1] << 8 | (uint32_t)program[at + 2] << 16 | (uint32_t)program[at + 3] << 24;
}

/* Says what is wrong, and ends. */
static void stop(const char *why)
{
    fprintf(stderr, "thumb: %s\n", why);
    exit(2);
}

/* Copies the parts of a program to their addresses, and sets the program counter and the stack. */
static void load_program(const char *name)
{
    FILE *from = fopen(name, "rb");
    size_t got = from == NULL ? 0 : fread(program, 1, sizeof program, from);
    uint32_t at, i;
    if (from == NULL || fclose(from) != 0 || got < 52 || got == sizeof program || memcmp(program, "\177ELF\1\1", 6) != 0)
        stop("no program of 32 bits, low byte first");
    at = word(28);
    for (i = 0; i < (uint32_t)(program[44] | program[45] << 8); i++, at += 32) {
        uint32_t offset, address, bytes;
        if (at > got - 32)
            stop("the program is cut off");
        if (word(at) != 1)
            continue;
        offset = word(at + 4), address = word(at + 8), bytes = word(at + 16);
        if (bytes > got || offset > got - bytes || bytes > THUMB_MEMORY || address > THUMB_MEMORY - bytes)
            stop("a part of the program has no room");
        memcpy(thumb_memory + address, program + offset, bytes);
    }
    thumb_registers[15] = word(24) & ~1u;
    thumb_registers[13] = THUMB_MEMORY - 4096;
}

/* What Linux does for the program: 1 ends it, 3 reads, 4 writes. */
static void system_call(uint32_t *r)
{
    if (r[7] == 1)
        exit(fflush(stdout) == 0 ? (int)r[0] : 2);
    if (r[7] != 3 && r[7] != 4)
        stop("a call of the system that is not known");
    if (r[2] > THUMB_MEMORY || r[1] > THUMB_MEMORY - r[2])
        stop("a call of the system outside of the memory");
    r[0] = (uint32_t)(r[7] == 3 ? fread(thumb_memory + r[1], 1, r[2], stdin) : fwrite(thumb_memory + r[1], 1, r[2], stdout));
}

int main(int count, char **argument)
{
    if (count != 2)
        stop("thumb PROGRAM");
    load_program(argument[1]);
    for (;;)
        if (thumb_step())
            system_call(thumb_registers);
}
