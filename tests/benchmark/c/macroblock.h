/* A macroblock's rules one by one, in the order in which document 01 reports them. */
#ifndef MACROBLOCK_H
#define MACROBLOCK_H

#include "picture.h"

/* How far the batch has come before a macroblock. */
typedef struct {
    /* What word 2 has to be: row in 31:16, column in 15:0. */
    uint32_t position;
    /* What bits 30 and 24 of word 4 have to be, the others zero: first in slice "exactly when no slice is open", first in
     * group "exactly on the first macroblock after SLICEGROUP". */
    uint32_t firsts;
    /* The words of the macroblock before, or nine zero words. */
    const uint32_t *before;
} progress;

/* The first rule that the macroblock breaks. */
fault macroblock_fault(const picture *p, const progress *s, const uint32_t *m);

#endif
