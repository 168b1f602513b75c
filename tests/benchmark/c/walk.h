/* A batch while it is walked through. */
#ifndef WALK_H
#define WALK_H

#include "macroblock.h"
#include "predicted.h"

#include <emmintrin.h>

enum {
    NOOP = 0x00000000,
    END = 0x05000000,
    SURFACE = 0x70010004,
    PICTURE = 0x7300000b,
    SLICEGROUP = 0x73430006,
    MACROBLOCK = 0x73490007,
    MACROBLOCK_WORDS = 9,
    /* Carried commands, by their words, of which the lower bits hold two less. */
    CARRIED_5 = 0x70000003,
    CARRIED_61 = 0x7002003b,
    CARRIED_26 = 0x70030018,
    CARRIED_10 = 0x70040008,
    CARRIED_18 = 0x70070010,
    CARRIED_34 = 0x70080020
};

typedef struct {
    /* The batch, and where it ends. */
    const uint32_t *words, *end;
    int surface_seen, picture_seen, group_seen, group_open;
    picture p;
    progress s;
    /* Buffers 2 and 3. */
    reference forward, backward;
    /* What is broken, and where; number 0 as long as nothing is. */
    uint64_t number, place;
} walk;

static inline void refuse(walk *w, uint32_t number, const uint32_t *at)
{
    w->number = number;
    w->place = (uint64_t)(at - w->words);
}

static inline int eight_zeros(const uint32_t *words)
{
    const __m128i *four = (const __m128i *)words;
    __m128i either = _mm_or_si128(_mm_loadu_si128(four), _mm_loadu_si128(four + 1));
    return _mm_movemask_epi8(_mm_cmpeq_epi32(either, _mm_setzero_si128())) == 0xffff;
}

/* The first word from here on that is not zero. Runs are short or long: the first words are looked at one by one. */
static inline const uint32_t *after_zeros(const uint32_t *at, const uint32_t *end)
{
    for (const uint32_t *few = at + (end - at < 8 ? end - at : 8); at != few; at++)
        if (*at != 0)
            return at;
    while (end - at >= 8 && eight_zeros(at))
        at += 8;
    while (at != end && *at == 0)
        at++;
    return at;
}

/* Macroblocks and the NOOPs between them, from a whole macroblock in an open group on, to the end of the group or of the
 * picture, to another command, or to where fewer than nine words are left. Where it stopped; or the batch is refused. */
const uint32_t *walk_macroblocks(walk *w, const uint32_t *at);

#endif
