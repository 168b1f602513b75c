/* 27: "more than 4294967295 words, and the first 4294967295 alone give none of 2 to 12", at 4294967295. A run of zero words is handed over
 * again and again, before any command and after P1's END, up to the last word that is judged; what follows is tried on copies of the state.
 * A whole batch of zero words is pages that nobody wrote. What is due is written down from document 01. Prints the enumerator's name, and
 * ends with 1 at another answer. */
#define _DEFAULT_SOURCE
#include "p1.h"
#include <hromulice.h>
#include <stdio.h>
#include <stdlib.h>
#include <sys/mman.h>

#define MOST 4294967295u
#define PART 65536u

static const uint32_t zeros[PART];

static int all(hromulice_lengths of, uint64_t pictures, uint64_t references)
{
    return of.source == pictures && of.reconstructed == pictures && of.forward == references && of.backward == references;
}

/* A report with `length` for both pictures, 0 for the references, and 0 for all first bytes. */
static void compare(hromulice_report r, uint8_t number, uint64_t place, uint64_t length)
{
    if (r.number != number || r.place != place || !all(r.lengths, length, 0) || !all(r.firsts, 0, 0)) {
        fprintf(stderr, "many: due %d at %llu, given %d at %llu\n", number, (unsigned long long)place, r.number, (unsigned long long)r.place);
        exit(1);
    }
}

/* What is reported after the state's words and these. */
static void expect(const hromulice_state *state, const uint32_t *words, size_t count, uint8_t number, uint64_t place, uint64_t length)
{
    hromulice_state copy = *state;
    hromulice_hand_over(&copy, words, count);
    compare(hromulice_report_of(&copy), number, place, length);
}

/* These words and as many zero words as make `total` of them. */
static hromulice_state handed(const uint32_t *words, size_t count, uint64_t total, uint64_t source)
{
    hromulice_lengths lengths = {0, 384, 0, 0};
    hromulice_state state;
    uint64_t left;
    lengths.source = source;
    hromulice_begin(lengths, &state);
    hromulice_hand_over(&state, words, count);
    for (left = total - count; left > PART; left -= PART)
        hromulice_hand_over(&state, zeros, PART);
    hromulice_hand_over(&state, zeros, (size_t)left);
    return state;
}

/* Zero words alone are NOOPs, and END has not come. */
static void before_end(void)
{
    static const uint32_t end = 0x05000000, surface = 0x70010004, unknown = 7;
    hromulice_state most = handed(zeros, 0, MOST - 1, 384), cut = most;
    expect(&most, &unknown, 1, HROMULICE_UNKNOWN_HEADER, MOST - 1, 0);
    expect(&most, &end, 1, HROMULICE_OUT_OF_SEQUENCE, MOST - 1, 0);
    expect(&most, zeros, 3, HROMULICE_TOO_MANY_WORDS, MOST, 0);
    hromulice_hand_over(&most, zeros, 1);
    expect(&most, zeros, 0, HROMULICE_WORDS_RUN_OUT, MOST, 0);
    expect(&most, zeros, 1, HROMULICE_TOO_MANY_WORDS, MOST, 0);
    expect(&most, zeros, PART, HROMULICE_TOO_MANY_WORDS, MOST, 0);
    expect(&most, &unknown, 1, HROMULICE_TOO_MANY_WORDS, MOST, 0);
    expect(&most, p1, 37, HROMULICE_TOO_MANY_WORDS, MOST, 0);
    hromulice_hand_over(&cut, &surface, 1);
    expect(&cut, zeros, 0, HROMULICE_WORDS_RUN_OUT, MOST, 0);
    expect(&cut, p1 + 1, 5, HROMULICE_TOO_MANY_WORDS, MOST, 0);
}

/* "After END only zero words may follow"; "27 .. comes before 13". */
static void after_end(uint64_t source, uint8_t number)
{
    static const uint32_t unknown = 7;
    hromulice_state most = handed(p1, 37, MOST - 1, source);
    expect(&most, &unknown, 1, HROMULICE_AFTER_END, MOST - 1, 0);
    expect(&most, zeros, 2, HROMULICE_TOO_MANY_WORDS, MOST, 0);
    hromulice_hand_over(&most, zeros, 1);
    expect(&most, zeros, 0, number, 0, 384);
    expect(&most, zeros, 1, HROMULICE_TOO_MANY_WORDS, MOST, 0);
    expect(&most, &unknown, 1, HROMULICE_TOO_MANY_WORDS, MOST, 0);
    hromulice_hand_over(&most, zeros, 1);
    expect(&most, p1, 37, HROMULICE_TOO_MANY_WORDS, MOST, 0);
}

/* One word too many, in one call. */
static void whole(void)
{
    hromulice_lengths lengths = {384, 384, 0, 0};
    size_t count = (size_t)MOST + 1;
    void *words = mmap(NULL, 4 * count, PROT_READ, MAP_PRIVATE | MAP_ANONYMOUS | MAP_NORESERVE, -1, 0);
    if (words == MAP_FAILED) {
        fprintf(stderr, "many: there are no addresses for so many words\n");
        exit(1);
    }
    compare(hromulice_check((const uint32_t *)words, count, lengths), HROMULICE_TOO_MANY_WORDS, MOST, 0);
    munmap(words, 4 * count);
}

int main(void)
{
    before_end();
    after_end(384, HROMULICE_ACCEPTED);
    after_end(383, HROMULICE_BUFFER_SHORT);
    whole();
    printf("HROMULICE_TOO_MANY_WORDS\n");
    return 0;
}
