/*
 * The integers of C's stdint.h that the headers here use, for a compiler that comes without its own.
 */
#ifndef PORT_STDINT_H
#define PORT_STDINT_H

typedef __UINT8_TYPE__ uint8_t;
typedef __UINT32_TYPE__ uint32_t;
typedef __UINT64_TYPE__ uint64_t;

#endif
