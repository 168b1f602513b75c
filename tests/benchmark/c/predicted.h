/* Predicted blocks, and how much of a reference buffer they touch. */
#ifndef PREDICTED_H
#define PREDICTED_H

#include "address.h"

typedef struct {
    /* One more than the highest byte touched so far, or 0. */
    uint64_t end;
    /* The key of the strip where the chroma ends that was counted with it, or 0. A vector with a lower key does not raise the
     * end: its chroma ends in an earlier strip, and its luma, at most one column further than its Cr, in no later strip than
     * that one, and there in a row above chroma's. */
    uint32_t key;
    /* The lowest byte touched so far, or the largest number. */
    uint64_t first;
    /* A block that starts in this strip or a later one does not lower it: the row of tiles in 31:22, and the column in 15:0, in
     * half samples, of which 32 are a strip. */
    int32_t settled;
} reference;

static const reference untouched = {.first = UINT64_MAX, .settled = INT32_MAX};

/* The first and the last column or row of a block. "The luma block starts at column 16X + floor(vx/2) and has 16 columns, 17 if
 * vx is odd", so that it ends ceil(vx/2) later than its macroblock; "rows likewise". In a field there are 8 rows of luma and 4
 * of chroma. */
static inline uint32_t luma_first(uint32_t size, uint32_t place, int32_t v)
{
    return size * place + (uint32_t)(v >> 1);
}

static inline uint32_t luma_last(uint32_t size, uint32_t place, int32_t v)
{
    return size * place + size - 1 + (uint32_t)((v + 1) >> 1);
}

/* "Chroma halves each component towards zero; the block starts at 8X plus the floor of half that, 8 columns, 9 if it is odd;
 * rows likewise." */
static inline uint32_t chroma_last(uint32_t size, uint32_t place, int32_t v)
{
    return luma_last(size, place, v / 2);
}

/* What a vector predicts from: "reference row is twice the field row plus the chosen field". */
typedef enum { WHOLE_FRAME, TOP_FIELD, BOTTOM_FIELD } source;

static inline uint32_t rows_of(source s, uint32_t size)
{
    return s == WHOLE_FRAME ? size : size / 2;
}

static inline uint32_t reference_row(source s, uint32_t row)
{
    return s == WHOLE_FRAME ? row : 2 * row + (s == BOTTOM_FIELD);
}

/* A key says in which strip chroma ends: the row of tiles, from that of row C on, in 31:23, and the column in 15:0, in quarters
 * of a sample, of which 32 are a strip. A vector's key is its word added to this, without the bits between. It is never too low:
 * chroma_last is (32·place + 30 + v) div 4, with 31 if v is negative, and a negative vx adds one to the upper half. */
static inline uint32_t key_at(const picture *p, uint32_t position)
{
    return 32 * position + ((4 * (p->chroma_row & 31) + 31) << 16 | 31);
}

/* The same where a vector may be a field's, its y doubled. Chroma's last row is then 2((16·place + 14 + vy) div 4), with 15 if vy is
 * negative, or one more in the bottom field. That one begins a row of tiles only if C is odd. */
static inline uint32_t field_key_at(const picture *p, uint32_t position)
{
    return key_at(p, position) + ((p->chroma_row & 1) << 18);
}

static inline uint32_t key_of(uint32_t at, uint32_t vector)
{
    return (at + vector) & 0xff80ffff;
}

/* Counts where the blocks end that the macroblock at this position predicts with this vector. */
static inline void count_end(const picture *p, reference *r, uint32_t position, uint32_t vector, source s)
{
    uint32_t column = position & 0xffff, row = position >> 16;
    int32_t vx = (int16_t)vector, vy = (int16_t)(vector >> 16);
    uint32_t luma_row = reference_row(s, luma_last(rows_of(s, 16), row, vy));
    uint32_t x = chroma_last(8, column, vx), y = reference_row(s, chroma_last(rows_of(s, 8), row, vy));
    uint64_t luma = luma_byte(p, luma_last(16, column, vx), luma_row);
    uint64_t chroma = cr_byte(p, x, y);
    uint64_t end = (luma > chroma ? luma : chroma) + 1;
    if (end <= r->end)
        return;
    r->end = end;
    r->key = ((p->chroma_row & 31) + y) >> 5 << 23 | x >> 3 << 5;
}

/* Counts where they start. That is where luma does: Cb starts in a later row, as C ≥ 16H, and in luma's strip or the next one, as
 * it starts at most one column before luma, and then at an even one. */
static inline void count_first(const picture *p, reference *r, uint32_t position, uint32_t vector, source s)
{
    uint32_t x = luma_first(16, position & 0xffff, (int16_t)vector);
    uint32_t y = reference_row(s, luma_first(rows_of(s, 16), position >> 16, (int16_t)(vector >> 16)));
    uint64_t first = luma_byte(p, x, y);
    if (first >= r->first)
        return;
    r->first = first;
    r->settled = first == 0 ? 0 : (int32_t)(y >> 5 << 22 | ((x >> 4) + 1) << 5);
}

/* Whether a block can start before the first byte that a macroblock in this row predicts. A field's y has half the range, but its
 * rows are every second one. */
static inline int can_lower(const picture *p, const reference *r, uint32_t row, int32_t reach)
{
    int32_t top = 16 * (int32_t)row - reach / 2;
    return luma_byte(p, 0, top < 0 ? 0 : (uint32_t)top) < r->first;
}

#endif
