/* Document 01's check of a whole batch, with document 02's tiles, first bytes and field prediction, in C for x86-64: what the
 * proved check is measured by.
 *
 * It was written from those documents' text alone, and shares nothing with the proved crates or with the second program. The
 * tests of rust/benchmark hold its answers to the second program's. It goes through the words once, up to the first fault, and
 * neither allocates nor copies anything.
 *
 *     batch_check.c    the commands in order
 *     picture.c        SURFACE and PICTURE
 *     macroblocks.c    the loop over macroblocks, with the table kinds.h
 *     macroblock.c     the rules of one macroblock, one by one: asked only when one is broken
 *     predicted.h      predicted blocks, and how much of the reference buffers they touch
 *     address.h        where a sample stands
 */
#ifndef BATCH_CHECK_H
#define BATCH_CHECK_H

#include <stddef.h>
#include <stdint.h>

/* With numbers 0 and 13 the lengths are those needed, and the firsts are each buffer's first touched byte, 0 if none is touched.
 * Else all are zeros. */
typedef struct {
    uint64_t number;
    uint64_t place;
    uint64_t lengths[4];
    uint64_t firsts[4];
} batch_answer;

/* The answer to `count` words beside buffers of these lengths. */
batch_answer batch_check(const uint32_t *words, size_t count, const uint64_t lengths[4]);

/* The same with another number in place of 4294967295, so that number 27 can be tried with few words. */
batch_answer batch_check_up_to(size_t most, const uint32_t *words, size_t count, const uint64_t lengths[4]);

#endif
