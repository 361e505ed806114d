/*
 * What the driver of tests/port needs of the place where it runs, and what it gives.
 */
#ifndef PORT_H
#define PORT_H

#include "panelrue.h"

/* What WebAssembly takes from outside has a name there. */
#ifdef __wasm__
#define FROM_OUTSIDE(name) __attribute__((import_module("host"), import_name(name)))
#else
#define FROM_OUTSIDE(name)
#endif

/* Reads so many bytes of the input; less than asked for only at its end. */
FROM_OUTSIDE("read") unsigned port_read(uint8_t *into, unsigned count);

/* Writes so many bytes to the output. */
FROM_OUTSIDE("write") void port_write(const uint8_t *from, unsigned count);

/* Puts every procedure of the input through the list of calls. */
void port_drive(void);

/* Puts a text into the line, and a number with a space before it; at its end the line is written. */
void port_put(const char *text);
void port_put_number(uint64_t number);
void port_end_line(void);

/* Reads a number of four bytes; 0 at the end of the input. */
int port_read_number(uint32_t *number);

/* Packs the words of an image that may be other than zero, and answers how many; 0 where there is too little room, or no image. */
unsigned port_pack(uint32_t *memory, uint32_t *packed, unsigned room);

/* Writes the image of packed words over the memory; 0 where the words are no packed image. What it writes is for the memory check. */
int port_unpack(uint32_t *packed, unsigned count, uint32_t *memory);

#endif
