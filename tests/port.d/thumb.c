/*
 * An Armv6-M processor (Cortex-M0): takes one instruction at a time. It knows those that a compiler uses, and stops with a sentence at any
 * other, at an access outside of its memory and, as the processor does, at one that is not aligned.
 */
#include "thumb.h"

#include <stdio.h>
#include <stdlib.h>

enum { SP = 13, LR = 14, PC = 15 };

uint8_t thumb_memory[THUMB_MEMORY];
uint32_t thumb_registers[16];
static uint32_t *const r = thumb_registers;
static uint32_t here;
static unsigned n, z, c, v;

void thumb_stop(const char *why, uint32_t number)
{
    fprintf(stderr, "thumb: %s %08x at %08x\n", why, (unsigned)number, (unsigned)here);
    exit(2);
}

/* Sets the flags N and Z. */
static uint32_t flags(uint32_t word)
{
    n = word >> 31;
    z = word == 0;
    return word;
}

/* The sum of two words and a carry, with all flags. */
static uint32_t add(uint32_t a, uint32_t b, uint32_t carry)
{
    uint64_t sum = (uint64_t)a + b + carry;
    uint32_t word = (uint32_t)sum;
    c = (unsigned)(sum >> 32);
    v = (~(a ^ b) & (a ^ word)) >> 31;
    return flags(word);
}

/* A shift by 0 to 255: left, right, or right with the sign; the carry is the last bit that went out. */
static uint32_t shift(unsigned kind, uint32_t word, uint32_t by)
{
    uint32_t fill = kind == 2 && word >> 31 ? 0xffffffffu : 0;
    if (by == 0)
        return flags(word);
    if (by > 32) {
        c = fill & 1;
        return flags(fill);
    }
    c = (kind == 0 ? word >> (32 - by) : word >> (by - 1)) & 1;
    if (by == 32)
        return flags(fill);
    return flags(kind == 0 ? word << by : word >> by | fill << (32 - by));
}

static uint32_t rotate(uint32_t word, uint32_t by)
{
    if (by % 32 != 0)
        word = word >> by % 32 | word << (32 - by % 32);
    if (by != 0)
        c = word >> 31;
    return flags(word);
}

static uint32_t extended(uint32_t word, unsigned bits)
{
    uint32_t sign = 1u << (bits - 1);
    return (word ^ sign) - sign;
}

static void jump(uint32_t to)
{
    if (to % 2 == 0)
        thumb_stop("not to Thumb code:", to);
    r[PC] = to - 1;
}

/* Operations on two registers. */
static void operate(unsigned h)
{
    uint32_t *d = &r[h & 7], m = r[h >> 3 & 7];
    switch (h >> 6 & 15) {
    case 0: *d = flags(*d & m); break;
    case 1: *d = flags(*d ^ m); break;
    case 2: *d = shift(0, *d, m & 255); break;
    case 3: *d = shift(1, *d, m & 255); break;
    case 4: *d = shift(2, *d, m & 255); break;
    case 5: *d = add(*d, m, c); break;
    case 6: *d = add(*d, ~m, c); break;
    case 7: *d = rotate(*d, m & 255); break;
    case 8: flags(*d & m); break;
    case 9: *d = add(~m, 0, 1); break;
    case 10: add(*d, ~m, 1); break;
    case 11: add(*d, m, 0); break;
    case 12: *d = flags(*d | m); break;
    case 13: *d = flags(*d * m); break;
    case 14: *d = flags(*d & ~m); break;
    default: *d = flags(~m);
    }
}

/* Operations on all registers, and jumps to one. */
static void operate_high(unsigned h)
{
    unsigned d = (h >> 4 & 8) | (h & 7), m = h >> 3 & 15;
    uint32_t word = m == PC ? here + 4 : r[m];
    if ((h >> 8 & 3) == 1)
        add(r[d], ~word, 1);
    else if ((h >> 8 & 3) == 3) {
        if (h >> 7 & 1)
            r[LR] = (here + 2) | 1;
        jump(word);
    } else {
        if ((h >> 8 & 3) == 0)
            word += d == PC ? here + 4 : r[d];
        if (d == PC)
            jump(word | 1);
        else
            r[d] = word;
    }
}

/* Loads and stores at the sum of two registers. */
static void access(unsigned h)
{
    uint32_t address = r[h >> 3 & 7] + r[h >> 6 & 7], *d = &r[h & 7];
    switch (h >> 9 & 7) {
    case 0: store(address, 4, *d); break;
    case 1: store(address, 2, *d); break;
    case 2: store(address, 1, *d); break;
    case 3: *d = extended(load(address, 1), 8); break;
    case 4: *d = load(address, 4); break;
    case 5: *d = load(address, 2); break;
    case 6: *d = load(address, 1); break;
    default: *d = extended(load(address, 2), 16);
    }
}

/* Loads or stores registers from an address upwards, and gives the address after them. */
static uint32_t several(uint32_t address, unsigned list, int loads)
{
    unsigned i;
    for (i = 0; i < 16; i++)
        if (list >> i & 1) {
            if (!loads)
                store(address, 4, r[i]);
            else if (i == PC)
                jump(load(address, 4));
            else
                r[i] = load(address, 4);
            address += 4;
        }
    return address;
}

static void push(unsigned h)
{
    unsigned list = (h & 255) | (h & 256) << 6, i;
    for (i = 0; i < 16; i++)
        r[SP] -= 4 * (list >> i & 1);
    several(r[SP], list, 0);
}

/* The stack pointer, extensions, reversals, push and pop, and hints that do nothing. */
static void miscellany(unsigned h)
{
    uint32_t *d = &r[h & 7], m = r[h >> 3 & 7];
    if ((h & 0xff00) == 0xb000)
        r[SP] += (h & 128 ? 0u - 4 * (h & 127) : 4 * (h & 127));
    else if ((h & 0xff00) == 0xb200)
        *d = (h & 64) == 0 ? (h & 128 ? m & 65535 : extended(m & 65535, 16)) : (h & 128 ? m & 255 : extended(m & 255, 8));
    else if ((h & 0xfe00) == 0xb400)
        push(h);
    else if ((h & 0xffc0) == 0xba00)
        *d = m << 24 | (m << 8 & 0xff0000) | (m >> 8 & 0xff00) | m >> 24;
    else if ((h & 0xfe00) == 0xbc00)
        r[SP] = several(r[SP], (h & 255) | (h & 256) << 7, 1);
    else if ((h & 0xff0f) != 0xbf00)
        thumb_stop("no instruction", h);
}

/* Whether a branch is taken. */
static int holds(unsigned condition)
{
    unsigned is;
    switch (condition >> 1) {
    case 0: is = z; break;
    case 1: is = c; break;
    case 2: is = n; break;
    case 3: is = v; break;
    case 4: is = c && !z; break;
    case 5: is = n == v; break;
    default: is = n == v && !z;
    }
    return is != (condition & 1);
}

/* Shifts by a number, sums of registers and small numbers, and operations with a byte. */
static void arithmetic(unsigned h)
{
    uint32_t *d = &r[h & 7], *b = &r[h >> 8 & 7], m = r[h >> 3 & 7], by = h >> 6 & 31, byte = h & 255;
    switch (h >> 11) {
    case 0: *d = shift(0, m, by); break;
    case 1: *d = shift(1, m, by == 0 ? 32 : by); break;
    case 2: *d = shift(2, m, by == 0 ? 32 : by); break;
    case 3:
        by = h & 1024 ? h >> 6 & 7 : r[h >> 6 & 7];
        *d = h & 512 ? add(m, ~by, 1) : add(m, by, 0);
        break;
    case 4: *b = flags(byte); break;
    case 5: add(*b, ~byte, 1); break;
    case 6: *b = add(*b, byte, 0); break;
    default: *b = add(*b, ~byte, 1);
    }
}

/* Loads and stores at a register and a number, or at the stack pointer or the program and a number; sums of the latter. */
static void access_near(unsigned h)
{
    uint32_t base = r[h >> 3 & 7], by = h >> 6 & 31, *d = &r[h & 7], *b = &r[h >> 8 & 7], far = 4 * (h & 255);
    switch (h >> 11) {
    case 9: *b = load(((here + 4) & ~3u) + far, 4); break;
    case 12: store(base + 4 * by, 4, *d); break;
    case 13: *d = load(base + 4 * by, 4); break;
    case 14: store(base + by, 1, *d); break;
    case 15: *d = load(base + by, 1); break;
    case 16: store(base + 2 * by, 2, *d); break;
    case 17: *d = load(base + 2 * by, 2); break;
    case 18: store(r[SP] + far, 4, *b); break;
    case 19: *b = load(r[SP] + far, 4); break;
    case 20: *b = ((here + 4) & ~3u) + far; break;
    default: *b = r[SP] + far;
    }
}

/* Branches, calls, and calls of the system, for which 1 is answered. */
static int branch(unsigned h)
{
    unsigned low, sign = h >> 10 & 1;
    if (h >> 11 == 28)
        r[PC] = here + 4 + 2 * extended(h & 2047, 11);
    else if (h >> 12 == 13 && (h >> 8 & 15) < 14) {
        if (holds(h >> 8 & 15))
            r[PC] = here + 4 + 2 * extended(h & 255, 8);
    } else if (h >> 8 == 0xdf)
        return 1;
    else {
        low = load(here + 2, 2);
        if (h >> 11 != 30 || low >> 14 != 3 || (low >> 12 & 1) == 0)
            thumb_stop("no instruction", h);
        r[LR] = (here + 4) | 1;
        low = sign << 23 | (~(low >> 13 ^ sign) & 1) << 22 | (~(low >> 11 ^ sign) & 1) << 21 | (h & 1023) << 11 | (low & 2047);
        r[PC] = here + 4 + 2 * extended(low, 24);
    }
    return 0;
}

int thumb_step(void)
{
    unsigned h, b;
    here = r[PC];
    h = load(here, 2);
    r[PC] = here + 2;
    b = h >> 8 & 7;
    if (h >> 11 < 8)
        arithmetic(h);
    else if (h >> 10 == 16)
        operate(h);
    else if (h >> 10 == 17)
        operate_high(h);
    else if (h >> 12 == 5)
        access(h);
    else if (h >> 12 == 11)
        miscellany(h);
    else if (h >> 11 < 22)
        access_near(h);
    else if (h >> 11 == 24)
        r[b] = several(r[b], h & 255, 0);
    else if (h >> 11 == 25) {
        uint32_t after = several(r[b], h & 255, 1);
        if ((h >> b & 1) == 0)
            r[b] = after;
    } else
        return branch(h);
    return 0;
}
