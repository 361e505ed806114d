/*
 * The driver as a program with a C library, which reads standard input and writes standard output.
 */
#include "port.h"

#include <stdio.h>

unsigned port_read(uint8_t *into, unsigned count)
{
    return (unsigned)fread(into, 1, count, stdin);
}

void port_write(const uint8_t *from, unsigned count)
{
    fwrite(from, 1, count, stdout);
}

/* Ends with 0 where all that was written went out. */
int main(void)
{
    port_drive();
    return fflush(stdout) == 0 && !ferror(stdout) ? 0 : 1;
}
