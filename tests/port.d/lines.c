/*
 * Lines that the driver of tests/port writes, and numbers that it reads.
 */
#include "port.h"

static uint8_t line[256];
static unsigned at;

void port_put(const char *text)
{
    while (*text != '\0')
        line[at++] = (uint8_t)*text++;
}

void port_put_number(uint64_t number)
{
    int shift = 60;
    line[at++] = ' ';
    while (shift > 0 && number >> shift == 0)
        shift -= 4;
    for (; shift >= 0; shift -= 4)
        line[at++] = (uint8_t)"0123456789abcdef"[number >> shift & 15];
}

void port_end_line(void)
{
    line[at++] = '\n';
    port_write(line, at);
    at = 0;
}

int port_read_number(uint32_t *number)
{
    uint8_t bytes[4];
    if (port_read(bytes, 4) != 4)
        return 0;
    *number = bytes[0] | (uint32_t)bytes[1] << 8 | (uint32_t)bytes[2] << 16 | (uint32_t)bytes[3] << 24;
    return 1;
}
