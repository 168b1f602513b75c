/* Where a sample stands in a buffer. */
#ifndef ADDRESS_H
#define ADDRESS_H

#include "picture.h"

/* "A byte at column b, row r is at (r div 32)·32·pitch + (b div 128)·4096 + ((b mod 128) div 16)·512 + (r mod 32)·16 + b mod 16."
 * So a row of tiles has 32 rows and is made of strips of 16 columns, 512 bytes each, one after the other. The byte grows with b
 * in a row and with r in a column, so that the first sample of a block is its lowest byte, and the last its highest. */
static inline uint64_t byte_at(const picture *p, uint32_t b, uint32_t r)
{
    return (uint64_t)(r >> 5) * (32 * p->pitch) + ((b >> 4) << 9 | (r & 31) << 4 | (b & 15));
}

/* Luma sample (x, y) is at column x, row y. */
static inline uint64_t luma_byte(const picture *p, uint32_t x, uint32_t y)
{
    return byte_at(p, x, y);
}

/* "Chroma rows are C+y and columns are 2x and 2x+1": Cb and Cr. */
static inline uint64_t cr_byte(const picture *p, uint32_t x, uint32_t y)
{
    return byte_at(p, 2 * x + 1, p->chroma_row + y);
}

#endif
