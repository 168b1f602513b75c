#include "batch_check.h"

#include "walk.h"

/* So many words further. The compiler may not make one addition out of several that come after different branches. */
static inline const uint32_t *step(const uint32_t *at, size_t words)
{
    at += words;
    __asm__("" : "+r"(at));
    return at;
}

/* After the carried commands from here on, as far as the longest would fit. Each has a branch of its own: where they come in
 * one order the processor predicts it, and need not wait for a header to know where the next command begins. */
static const uint32_t *after_carried(const uint32_t *at, const uint32_t *end)
{
    while (end - at >= 61) {
        switch (*at) {
        case CARRIED_5:
            at = step(at, 5);
            break;
        case CARRIED_61:
            at = step(at, 61);
            break;
        case CARRIED_26:
            at = step(at, 26);
            break;
        case CARRIED_10:
            at = step(at, 10);
            break;
        case CARRIED_18:
            at = step(at, 18);
            break;
        case CARRIED_34:
            at = step(at, 34);
            break;
        default:
            return at;
        }
    }
    return at;
}

/* The words of a command, or 0 if the header begins none. */
static size_t words_of(uint32_t header)
{
    switch (header) {
    case END:
        return 1;
    case SURFACE:
        return 6;
    case PICTURE:
        return 13;
    case SLICEGROUP:
        return 8;
    case MACROBLOCK:
        return MACROBLOCK_WORDS;
    case CARRIED_5:
    case CARRIED_61:
    case CARRIED_26:
    case CARRIED_10:
    case CARRIED_18:
    case CARRIED_34:
        return (header & 0xff) + 2;
    default:
        return 0;
    }
}

/* Whether as many macroblocks have come as the picture has. */
static int complete(const walk *w)
{
    return w->picture_seen && w->s.position >> 16 == w->p.rows;
}

/* "SURFACE once; PICTURE once, after it; SLICEGROUP only after PICTURE, with no group open and the picture unfinished; carried
 * commands only before the first SLICEGROUP; MACROBLOCK only in an open group and before W×H of them have come; END only with
 * exactly W×H seen and no group open." */
static int in_sequence(const walk *w, uint32_t header)
{
    switch (header) {
    case SURFACE:
        return !w->surface_seen;
    case PICTURE:
        return w->surface_seen && !w->picture_seen;
    case SLICEGROUP:
        return w->picture_seen && !w->group_open && !complete(w);
    case MACROBLOCK:
        return w->group_open && !complete(w);
    case END:
        return complete(w) && !w->group_open;
    default:
        return !w->group_seen;
    }
}

/* A command of so many words that may stand here, END apart: where the next one stands, or the batch is refused. */
static const uint32_t *command(walk *w, const uint32_t *at, size_t words)
{
    fault f = no_fault;
    switch (*at) {
    case SURFACE:
        w->surface_seen = 1;
        f = read_surface(&w->p, at);
        break;
    case PICTURE:
        w->picture_seen = 1;
        f = read_picture(&w->p, at);
        break;
    case SLICEGROUP:
        w->group_seen = w->group_open = 1;
        w->s.firsts |= 0x01000000;
        break;
    case MACROBLOCK:
        return walk_macroblocks(w, at);
    }
    if (f.number)
        refuse(w, f.number, at + f.word);
    return at + words;
}

/* "Commands in order; in each 2, then 1, then 3, then words upwards." */
static void walk_batch(walk *w)
{
    const uint32_t *at = w->words;
    while (w->number == 0) {
        at = after_zeros(at, w->end);
        if (!w->group_seen)
            at = after_zeros(after_carried(at, w->end), w->end);
        if (at == w->end)
            return refuse(w, 1, w->end);
        size_t words = words_of(*at);
        if (words == 0)
            return refuse(w, 2, at);
        if ((size_t)(w->end - at) < words)
            return refuse(w, 1, w->end);
        if (!in_sequence(w, *at))
            return refuse(w, 3, at);
        if (*at == END)
            break;
        at = command(w, at, words);
    }
    /* "After END only zero words may follow." */
    if (w->number == 0 && (at = after_zeros(at + 1, w->end)) != w->end)
        refuse(w, 12, at);
}

static uint64_t first_of(const reference *r)
{
    return r->end == 0 ? 0 : r->first;
}

/* "13 comes after the whole batch", at the "lowest such buffer". Every macroblock touches its own samples in buffers 0 and
 * 1, so the first one touches byte 0, and the last one the highest byte, and that is Cr's: it stands below the last luma sample,
 * in the same column. */
static batch_answer beside(const walk *w, const uint64_t lengths[4])
{
    const picture *p = &w->p;
    uint64_t whole = cr_byte(p, 8 * p->columns - 1, 8 * p->rows - 1) + 1;
    batch_answer answer = {
        .lengths = {whole, whole, w->forward.end, w->backward.end},
        .firsts = {0, 0, first_of(&w->forward), first_of(&w->backward)},
    };
    for (uint64_t n = 0; n < 4; n++) {
        if (lengths[n] < answer.lengths[n]) {
            answer.number = 13;
            answer.place = n;
            break;
        }
    }
    return answer;
}

/* "27 stands in place of 1 and comes before 13, and no word beyond the first 4294967295 is judged." */
batch_answer batch_check_up_to(size_t most, const uint32_t *words, size_t count, const uint64_t lengths[4])
{
    static const uint32_t no_macroblock[MACROBLOCK_WORDS] = {0};
    walk w = {.words = words, .end = words + (count < most ? count : most), .forward = untouched, .backward = untouched};
    w.s = (progress){.position = 0, .firsts = 0x40000000, .before = no_macroblock};
    walk_batch(&w);
    if (count > most && w.number < 2)
        return (batch_answer){.number = 27, .place = most};
    if (w.number != 0)
        return (batch_answer){.number = w.number, .place = w.place};
    return beside(&w, lengths);
}

batch_answer batch_check(const uint32_t *words, size_t count, const uint64_t lengths[4])
{
    return batch_check_up_to(4294967295, words, count, lengths);
}
