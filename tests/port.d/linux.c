/*
 * The driver as a program of Linux without a C library, for a library made by c/port: it makes its system calls by itself and brings what
 * the library needs. tests/port --qemu compiles it.
 */
#include "port.h"

typedef __UINTPTR_TYPE__ number;
typedef __SIZE_TYPE__ count_of;

#if defined __x86_64__
enum { READ = 0, WRITE = 1, EXIT = 60 };
static number call(number which, number a, number b, number c)
{
    __asm__ volatile("syscall" : "+a"(which) : "D"(a), "S"(b), "d"(c) : "rcx", "r11", "memory");
    return which;
}
#elif defined __aarch64__
enum { READ = 63, WRITE = 64, EXIT = 93 };
static number call(number which, number a, number b, number c)
{
    register number r8 __asm__("x8") = which, r0 __asm__("x0") = a, r1 __asm__("x1") = b, r2 __asm__("x2") = c;
    __asm__ volatile("svc 0" : "+r"(r0) : "r"(r8), "r"(r1), "r"(r2) : "memory");
    return r0;
}
#elif defined __arm__
enum { READ = 3, WRITE = 4, EXIT = 1 };
static number call(number which, number a, number b, number c)
{
    register number r7 __asm__("r7") = which, r0 __asm__("r0") = a, r1 __asm__("r1") = b, r2 __asm__("r2") = c;
    __asm__ volatile("svc 0" : "+r"(r0) : "r"(r7), "r"(r1), "r"(r2) : "memory");
    return r0;
}
#elif defined __riscv
enum { READ = 63, WRITE = 64, EXIT = 93 };
static number call(number which, number a, number b, number c)
{
    register number r7 __asm__("a7") = which, r0 __asm__("a0") = a, r1 __asm__("a1") = b, r2 __asm__("a2") = c;
    __asm__ volatile("ecall" : "+r"(r0) : "r"(r7), "r"(r1), "r"(r2) : "memory");
    return r0;
}
#else
#error "no system calls for this processor"
#endif

unsigned port_read(uint8_t *into, unsigned count)
{
    unsigned got = 0;
    while (got < count) {
        number more = call(READ, 0, (number)(into + got), count - got);
        if (more == 0 || more > count)
            break;
        got += (unsigned)more;
    }
    return got;
}

void port_write(const uint8_t *from, unsigned count)
{
    unsigned put = 0;
    while (put < count) {
        number more = call(WRITE, 1, (number)(from + put), count - put);
        if (more == 0 || more > count)
            call(EXIT, 1, 0, 0);
        put += (unsigned)more;
    }
}

/* Begins with the stack as Linux gives it, aligned to 16 bytes on all of these processors but in the eyes of x86-64's C. */
#if defined __x86_64__
__attribute__((force_align_arg_pointer))
#endif
void _start(void)
{
    port_drive();
    call(EXIT, 0, 0, 0);
    __builtin_trap();
}

/* What the library and the driver need, a byte at a time. */
void *memcpy(void *to, const void *from, count_of bytes)
{
    volatile uint8_t *at = to;
    const uint8_t *of = from;
    while (bytes-- > 0)
        *at++ = *of++;
    return to;
}

void *memset(void *to, int byte, count_of bytes)
{
    volatile uint8_t *at = to;
    while (bytes-- > 0)
        *at++ = (uint8_t)byte;
    return to;
}

#ifdef __ARM_ARCH_6M__
/* Arithmetic that Armv6-M has no instructions for; a pair is a number of 64 bits, the first of it below. */
static uint64_t pair(uint32_t low, uint32_t high) { return (uint64_t)high << 32 | low; }

uint64_t __aeabi_uidivmod(uint32_t a, uint32_t b)
{
    uint32_t quotient = 0, rest = 0;
    int bit;
    for (bit = 31; bit >= 0; bit--) {
        int over = rest >> 31 != 0;
        rest = rest << 1 | (a >> bit & 1);
        if (over || rest >= b) {
            rest -= b;
            quotient |= (uint32_t)1 << bit;
        }
    }
    return pair(quotient, rest);
}

uint64_t __aeabi_idivmod(int a, int b)
{
    uint64_t both = __aeabi_uidivmod(a < 0 ? 0u - (uint32_t)a : (uint32_t)a, b < 0 ? 0u - (uint32_t)b : (uint32_t)b);
    uint32_t quotient = (uint32_t)both, rest = (uint32_t)(both >> 32);
    return pair((a < 0) != (b < 0) ? 0u - quotient : quotient, a < 0 ? 0u - rest : rest);
}

uint32_t __aeabi_uidiv(uint32_t a, uint32_t b) { return (uint32_t)__aeabi_uidivmod(a, b); }
int __aeabi_idiv(int a, int b) { return (int)(uint32_t)__aeabi_idivmod(a, b); }

uint64_t __aeabi_lmul(uint64_t a, uint64_t b)
{
    uint32_t al = (uint32_t)a, bl = (uint32_t)b, low = (al & 65535) * (bl & 65535);
    uint32_t middle = (al >> 16) * (bl & 65535) + (low >> 16), other = (al & 65535) * (bl >> 16) + (middle & 65535);
    uint32_t high = (al >> 16) * (bl >> 16) + (middle >> 16) + (other >> 16);
    return pair((low & 65535) | other << 16, high + al * (uint32_t)(b >> 32) + (uint32_t)(a >> 32) * bl);
}

uint64_t __aeabi_llsl(uint64_t a, int by)
{
    uint32_t low = (uint32_t)a, high = (uint32_t)(a >> 32);
    if (by >= 32)
        return pair(0, low << (by - 32));
    return by == 0 ? a : pair(low << by, high << by | low >> (32 - by));
}

uint64_t __aeabi_llsr(uint64_t a, int by)
{
    uint32_t low = (uint32_t)a, high = (uint32_t)(a >> 32);
    if (by >= 32)
        return pair(high >> (by - 32), 0);
    return by == 0 ? a : pair(low >> by | high << (32 - by), high >> by);
}
#endif

#ifdef __arm__
void __aeabi_memcpy(void *to, const void *from, count_of bytes) { memcpy(to, from, bytes); }
void __aeabi_memcpy4(void *to, const void *from, count_of bytes) { memcpy(to, from, bytes); }
void __aeabi_memcpy8(void *to, const void *from, count_of bytes) { memcpy(to, from, bytes); }
void __aeabi_memset(void *to, count_of bytes, int byte) { memset(to, byte, bytes); }
void __aeabi_memset4(void *to, count_of bytes, int byte) { memset(to, byte, bytes); }
void __aeabi_memset8(void *to, count_of bytes, int byte) { memset(to, byte, bytes); }
void __aeabi_memclr(void *to, count_of bytes) { memset(to, 0, bytes); }
void __aeabi_memclr4(void *to, count_of bytes) { memset(to, 0, bytes); }
void __aeabi_memclr8(void *to, count_of bytes) { memset(to, 0, bytes); }
#endif
