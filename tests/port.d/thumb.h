/*
 * The memory of the Armv6-M processor of tests/port, and what the processor gives to the program that loads it.
 */
#ifndef THUMB_H
#define THUMB_H

#include <stdint.h>

/* The bytes of memory, from address 0; the first 4,096 cannot be accessed. */
#define THUMB_MEMORY (16u << 20)

extern uint8_t thumb_memory[THUMB_MEMORY];
extern uint32_t thumb_registers[16];

/* Takes the next instruction; 1 where it calls the system. */
int thumb_step(void);

/* Says what went wrong at the instruction that is running, and ends. */
void thumb_stop(const char *why, uint32_t number);

/* The bytes of an access, if it lies in the memory and is aligned. */
static inline uint8_t *at(uint32_t address, uint32_t size)
{
    if (address >= THUMB_MEMORY || address < 4096)
        thumb_stop("no memory", address);
    if (address % size != 0)
        thumb_stop("not aligned", address);
    return thumb_memory + address;
}

static inline uint32_t load(uint32_t address, uint32_t size)
{
    const uint8_t *b = at(address, size);
    if (size == 4)
        return b[0] | (uint32_t)b[1] << 8 | (uint32_t)b[2] << 16 | (uint32_t)b[3] << 24;
    return size == 2 ? b[0] | (uint32_t)b[1] << 8 : b[0];
}

static inline void store(uint32_t address, uint32_t size, uint32_t word)
{
    uint8_t *b = at(address, size);
    for (; size > 0; size--, word >>= 8)
        *b++ = (uint8_t)word;
}

#endif
