/* What the lower half of a macroblock's word 1 decides of its other words. */
#ifndef KINDS_H
#define KINDS_H

#include "picture.h"

/* Four words, as they are loaded and compared together. */
typedef struct {
    uint32_t word[4];
} __attribute__((aligned(16))) quad;

typedef struct {
    /* Words 1 to 4: the bits that are judged, and what they are, the position and the flags of a first macroblock apart. */
    quad judged, value;
    /* Words 5 to 8 are words 5, 6, 5, 6 in these bits and zero in the others. */
    quad paired;
    /* Word 5 is word 6 in these bits. */
    quad equal;
    /* Words 5 to 8 are those of the macroblock before in these bits. */
    quad repeated;
    /* The vectors that predict. */
    quad present;
    /* Components in half samples of a field, two of which are one of the frame. */
    quad twice;
    /* Bits of word 4 that are zero in a skipped macroblock: neither first nor last in slice. */
    uint32_t inside_slice;
    /* Bits of word 1 that are those of the macroblock before. */
    uint32_t same_type;
} __attribute__((aligned(128))) kind;

/* Judged in word 4: the bits that are zero, and first in slice and in group. */
#define JUDGED_4 0x71ffffe0u

#define ALL {{~0u, ~0u, ~0u, ~0u}}
#define ABSENT {{0, 0, 0, 0}}
#define FORWARD {{~0u, 0, 0, 0}}
#define BACKWARD {{0, ~0u, 0, 0}}
#define BOTH {{~0u, ~0u, 0, 0}}
#define FIELDS {{~0u, 0, ~0u, 0}}
#define EQUAL {{~0u, 0, 0, 0}}
#define NOT_EQUAL {{0, 0, 0, 0}}

/* Judged of the lower half of word 1, except in skipped macroblocks: bit 15 too, or, where PICTURE bit 10 is 0, not. */
#define FRAME_HALF 0xffffu
#define FIELD_HALF 0x7fffu

/* "15:12 zero, pattern 11:6, 5:0 zero. Intra: pattern 63." Words 5 to 8 are zero. */
#define INTRA(half, judged_4) {.value = {{0x3a00, 0, 0x0fc0, 0}}, .judged = {{half, ~0u, 0xffff, judged_4}}}

#define PREDICTED(half, type, vectors, alike) \
    {.value = {{(type) << 8, 0, 0, 0}}, .judged = {{half, ~0u, 0xf03f, JUDGED_4}}, \
     .paired = ALL, .equal = alike, .present = vectors}

/* "Type 04h is allowed in P with bit 14 = 1 and bits 1:0 = 1"; "word 4 bits 16 and 18 choose the reference field for the two". */
#define PREDICTED_BY_FIELDS \
    {.value = {{0x4401, 0, 0, 0}}, .judged = {{FIELD_HALF, ~0u, 0xf03f, JUDGED_4 & ~0x00050000u}}, \
     .paired = ALL, .present = FIELDS, .twice = {{0xffff0000, 0, 0xffff0000, 0}}}

/* "Pattern zero; in P words 5 to 8 all zero", so that its vector need not be judged. */
#define SKIPPED_IN_P \
    {.value = {{0x104, 0, 0, 0}}, .judged = {{0xffff, ~0u, 0xffff, JUDGED_4}}, .present = ABSENT, .inside_slice = 0xc0000000}

/* "In B the macroblock before it is inter with the same type and the same words 5 to 8." */
#define SKIPPED_IN_B(type, vectors, alike) \
    {.value = {{(type) << 8 | 4, 0, 0, 0}}, .judged = {{0xffff, ~0u, 0xffff, JUDGED_4}}, \
     .paired = ALL, .equal = alike, .repeated = ALL, .present = vectors, .inside_slice = 0xc0000000, .same_type = 0x3f00}

/* No macroblock keeps to this: the half that it asks for stands elsewhere. */
#define NONE {.value = {{0x100, 0, 0, 0}}, .judged = {{0xffff, 0, 0, 0}}}

enum { KINDS = 32 };

/* Where the kind of a half stands: bits 11:8, and then bit 2, which tell the permitted halves apart. Any half may be asked, as
 * the kind judges all its bits. */
static inline uint32_t kind_of(uint32_t half)
{
    return half * 0x2021 >> 7 & (KINDS - 1);
}

/* In P pictures, and where PICTURE bit 10 is 0. */
static const kind kinds_in_p[KINDS] = {
    [0 ... 1] = NONE, [2] = PREDICTED(FRAME_HALF, 1, FORWARD, EQUAL), [3] = SKIPPED_IN_P,
    [4 ... 19] = NONE, [20] = INTRA(FRAME_HALF, JUDGED_4), [21 ... KINDS - 1] = NONE,
};

static const kind kinds_in_field_p[KINDS] = {
    [0 ... 1] = NONE, [2] = PREDICTED(FIELD_HALF, 1, FORWARD, EQUAL), [3] = SKIPPED_IN_P,
    [4 ... 7] = NONE, [8] = PREDICTED_BY_FIELDS,
    [9 ... 19] = NONE, [20] = INTRA(FIELD_HALF, JUDGED_4), [21 ... KINDS - 1] = NONE,
};

/* In B pictures likewise. */
#define KINDS_IN_B(half) { \
    [0 ... 1] = NONE, \
    [2] = PREDICTED(half, 1, FORWARD, EQUAL), [3] = SKIPPED_IN_B(1, FORWARD, EQUAL), \
    [4] = PREDICTED(half, 2, BACKWARD, EQUAL), [5] = SKIPPED_IN_B(2, BACKWARD, EQUAL), \
    [6] = PREDICTED(half, 3, BOTH, NOT_EQUAL), [7] = SKIPPED_IN_B(3, BOTH, NOT_EQUAL), \
    [8 ... 19] = NONE, [20] = INTRA(half, JUDGED_4), [21 ... KINDS - 1] = NONE, \
}

static const kind kinds_in_b[KINDS] = KINDS_IN_B(FRAME_HALF);
static const kind kinds_in_field_b[KINDS] = KINDS_IN_B(FIELD_HALF);

#endif
