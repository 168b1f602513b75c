/* The loop over macroblocks. One that keeps every rule goes through it by a few comparisons of four words at once. What is
 * compared depends on the macroblock's kind by masks that are looked up, and not by branches: kinds follow each other
 * in any order, and a branch that is predicted wrongly takes longer than the whole macroblock. If a comparison fails,
 * macroblock.c finds out what is broken.
 *
 * An address is computed only for a block that reaches the strip of the buffer's end or a later one, or starts in that of its
 * first byte or an earlier one. Starts are looked at only in rows from which the f codes let a block reach so far up: these are
 * mostly few, and have a loop of their own. So have pictures whose bit 10 is 0. */
#include "kinds.h"
#include "walk.h"

#include <stdlib.h>

#define rarely(condition) __builtin_expect(!!(condition), 0)
#define in_loop static inline __attribute__((always_inline))

#define QUANTISER 0x0000001fu
#define LAST_IN_SLICE 0x80000000u
#define LAST_IN_GROUP 0x04000000u

/* What changes from macroblock to macroblock, kept in registers. */
typedef struct {
    const uint32_t *before;
    uint32_t row;
    /* What is due in words 1 to 4: the position in word 2, bits 30 and 24 in word 4. */
    __m128i position, firsts;
    /* 32X, 32Y, 32X, 32Y: where the macroblock stands, in half samples. */
    __m128i place;
    /* What a vector word makes a key with, here and in the row's last column; it says how far the row has come, too. */
    uint32_t key, last_key;
    /* The keys from which on a block is counted; where fields predict, the last ones for words 5 and 7 that are not counted. */
    uint32_t forward, backward;
    __m128i ended;
    /* The last strips for words 5 and 6, or 5 and 7, in which a start is counted. */
    __m128i unsettled;
} cursor;

/* What vectors are judged by: forward x, forward y, backward x, backward y, and again. */
typedef struct {
    /* 32(W−1) and 32(H−1): where the last macroblock stands. */
    __m128i greatest;
    /* The f codes' 16·2^(c−1), and the bits that are zero in its sum with any component that is permitted. */
    __m128i reach, beyond;
    /* What makes keys of a place and words 5 to 8, where fields predict. */
    __m128i keys;
} range;

static __m128i words_of(uint32_t w1, uint32_t w2, uint32_t w3, uint32_t w4)
{
    return _mm_set_epi32((int32_t)w4, (int32_t)w3, (int32_t)w2, (int32_t)w1);
}

in_loop __m128i quad_of(const quad *four)
{
    return _mm_load_si128((const __m128i *)four);
}

in_loop __m128i load(const uint32_t *words)
{
    return _mm_loadu_si128((const __m128i *)words);
}

in_loop int any(__m128i bits)
{
    return _mm_movemask_epi8(_mm_cmpeq_epi32(bits, _mm_setzero_si128())) != 0xffff;
}

static __m128i place_of(uint32_t position)
{
    return _mm_slli_epi16(_mm_set1_epi32((int32_t)position), 5);
}

static range range_of(const picture *p)
{
    __m128i codes = _mm_loadl_epi64((const __m128i *)p->reach), reach = _mm_unpacklo_epi64(codes, codes);
    __m128i beyond = _mm_sub_epi16(_mm_setzero_si128(), _mm_add_epi16(reach, reach));
    __m128i keys = _mm_set1_epi32((int32_t)field_key_at(p, 0));
    return (range){place_of((p->rows - 1) << 16 | (p->columns - 1)), reach, beyond, keys};
}

in_loop void go_to(cursor *g, const walk *w, uint32_t position)
{
    g->row = position >> 16;
    g->position = words_of(0, position, 0, 0);
    g->place = place_of(position);
    g->key = key_at(&w->p, position);
    g->last_key = key_at(&w->p, (g->row << 16) + w->p.columns - 1);
}

in_loop uint32_t position_of(const cursor *g, const picture *p)
{
    return (g->row << 16) + p->columns - 1 - (g->last_key - g->key) / 32;
}

in_loop void keep(walk *w, const cursor *g)
{
    uint32_t firsts = (uint32_t)_mm_cvtsi128_si32(_mm_shuffle_epi32(g->firsts, 3));
    w->s = (progress){position_of(g, &w->p), firsts, g->before};
}

in_loop int has_forward(const uint32_t *m)
{
    return (m[1] & 0x0100) != 0;
}

in_loop int has_backward(const uint32_t *m)
{
    return (m[1] & 0x2200) == 0x0200;
}

in_loop int has_fields(const uint32_t *m)
{
    return (m[1] & 0x0400) != 0;
}

/* "Word 4 bits 16 and 18 choose the reference field for the two", words 5 and 7. */
in_loop source field_of(const uint32_t *m, uint32_t word)
{
    return TOP_FIELD + (m[4] >> (word + 11) & 1);
}

static __attribute__((noinline)) uint32_t raised(const picture *p, reference *r, uint32_t position, uint32_t vector)
{
    count_end(p, r, position, vector, WHOLE_FRAME);
    return r->key;
}

/* By word 5 of a forward macroblock, or words 5 and 7 of a field one, or one of them. */
static __attribute__((noinline)) void raise_by_fields(walk *w, uint32_t position, const uint32_t *m, int five, int seven)
{
    uint32_t word = five ? 5 : 7;
    if (has_forward(m))
        return count_end(&w->p, &w->forward, position, m[5], WHOLE_FRAME);
    count_end(&w->p, &w->forward, position, m[word], field_of(m, word));
    if (rarely(five && seven))
        count_end(&w->p, &w->forward, position, m[7], field_of(m, 7));
}

static __attribute__((noinline)) void lower(walk *w, uint32_t position, const uint32_t *m)
{
    if (has_forward(m))
        count_first(&w->p, &w->forward, position, m[5], WHOLE_FRAME);
    if (has_backward(m))
        count_first(&w->p, &w->backward, position, m[6], WHOLE_FRAME);
    if (has_fields(m)) {
        count_first(&w->p, &w->forward, position, m[5], field_of(m, 5));
        count_first(&w->p, &w->forward, position, m[7], field_of(m, 7));
    }
}

in_loop __m128i ended(const walk *w)
{
    int32_t last = (int32_t)w->forward.key - 1;
    return _mm_set_epi32(INT32_MAX, last, INT32_MAX, last);
}

in_loop __m128i unsettled(const walk *w, uint32_t type, int by_fields)
{
    int32_t forward = w->forward.settled - 1, backward = type == B_PICTURE ? w->backward.settled - 1 : -1;
    return _mm_set_epi32(-1, by_fields ? forward : -1, backward, forward);
}

/* Words 5 to 8 in half samples of the frame. A field's y is doubled; beyond sixteen bits it stays beyond every f code. */
in_loop __m128i in_frame(const kind *k, __m128i v)
{
    return _mm_adds_epi16(v, _mm_and_si128(v, quad_of(&k->twice)));
}

/* Counts where the blocks end that a macroblock predicts. It has not been judged yet; if it is broken, nothing that was counted
 * is reported. */
in_loop void count_ends(walk *w, cursor *g, const uint32_t *m, uint32_t type)
{
    if (rarely(key_of(g->key, m[5]) >= g->forward) && has_forward(m))
        g->forward = raised(&w->p, &w->forward, position_of(g, &w->p), m[5]);
    if (type == B_PICTURE && rarely(key_of(g->key, m[6]) >= g->backward) && has_backward(m))
        g->backward = raised(&w->p, &w->backward, position_of(g, &w->p), m[6]);
}

/* The same where fields predict, for both vectors at once. */
in_loop void count_ends_by_fields(walk *w, cursor *g, const range *r, const uint32_t *m, __m128i vectors)
{
    __m128i keys = _mm_add_epi32(_mm_add_epi32(vectors, g->place), r->keys);
    keys = _mm_and_si128(keys, _mm_set1_epi32((int32_t)0xff80ffff));
    int further = _mm_movemask_epi8(_mm_cmpgt_epi32(keys, g->ended));
    if (rarely(further) && (has_forward(m) || has_fields(m))) {
        raise_by_fields(w, position_of(g, &w->p), m, further & 0x000f, further & 0x0f00);
        g->ended = ended(w);
    }
}

/* The same for where they start, row in 31:16 and column in 15:0, in half samples. It has been judged. */
in_loop void count_firsts(walk *w, cursor *g, const uint32_t *m, __m128i starts, uint32_t type, int by_fields)
{
    __m128i strips = _mm_and_si128(starts, _mm_set1_epi32((int32_t)0xffc0ffff));
    if (rarely(_mm_movemask_epi8(_mm_cmpgt_epi32(strips, g->unsettled)) != 0xffff)) {
        lower(w, position_of(g, &w->p), m);
        g->unsettled = unsettled(w, type, by_fields);
    }
}

/* The bits of words 1 to 4 that are not what is due. */
in_loop __m128i wrong_words(const cursor *g, const kind *k, __m128i words)
{
    __m128i due = _mm_xor_si128(_mm_xor_si128(g->position, g->firsts), quad_of(&k->value));
    return _mm_and_si128(_mm_xor_si128(words, due), quad_of(&k->judged));
}

/* The same for words 5 to 8. In a P picture there is one vector that is copied, and where fields predict, another one. */
in_loop __m128i wrong_copies(const cursor *g, const kind *k, __m128i v, uint32_t type, int by_fields)
{
    if (type == P_PICTURE) {
        __m128i one = _mm_and_si128(_mm_shuffle_epi32(v, _MM_SHUFFLE(0, 0, 0, 0)), quad_of(&k->paired));
        __m128i others = _mm_xor_si128(v, one);
        return by_fields ? _mm_andnot_si128(quad_of(&k->present), others) : others;
    }
    __m128i pair = _mm_and_si128(_mm_shuffle_epi32(v, _MM_SHUFFLE(1, 0, 1, 0)), quad_of(&k->paired));
    __m128i other = _mm_shuffle_epi32(v, _MM_SHUFFLE(2, 3, 0, 1));
    __m128i wrong = _mm_xor_si128(v, pair);
    wrong = _mm_or_si128(wrong, _mm_and_si128(_mm_xor_si128(v, other), quad_of(&k->equal)));
    return _mm_or_si128(wrong, _mm_and_si128(_mm_xor_si128(v, load(g->before + 5)), quad_of(&k->repeated)));
}

/* Not zero where a component that predicts is beyond its f code, or its luma block outside the picture: it is inside if it
 * starts at 0 to 32(W−1) half samples, since 16 columns, or 17 from an odd start, then end at 16W−1 or before. */
in_loop __m128i wrong_vectors(const cursor *g, const range *r, const kind *k, __m128i v)
{
    __m128i outside = _mm_subs_epu16(_mm_add_epi16(v, g->place), r->greatest);
    __m128i beyond = _mm_and_si128(_mm_add_epi16(v, r->reach), r->beyond);
    return _mm_and_si128(_mm_or_si128(outside, beyond), quad_of(&k->present));
}

in_loop const kind *kind_at(const uint32_t *m, uint32_t type, int fields)
{
    static const kind in_i = INTRA(FRAME_HALF, JUDGED_4 | 0x02000000), in_field_i = INTRA(FIELD_HALF, JUDGED_4 | 0x02000000);
    if (type == I_PICTURE)
        return fields ? &in_field_i : &in_i;
    const kind *in_p = fields ? kinds_in_field_p : kinds_in_p, *in_b = fields ? kinds_in_field_b : kinds_in_b;
    return (type == P_PICTURE ? in_p : in_b) + kind_of(m[1] & 0xffff);
}

/* Whether the macroblock keeps every rule but those on last-in-slice; the place is then the next one's. Its vectors are those of
 * words 5 to 8 in half samples of the frame. */
in_loop int judge(cursor *g, const range *r, const uint32_t *m, const kind *k, __m128i vectors, uint32_t type, int by_fields)
{
    if (rarely(!(m[4] & QUANTISER)))
        return 0;
    __m128i words = load(m + 1), v = load(m + 5);
    if (type == I_PICTURE)
        return !any(_mm_or_si128(wrong_words(g, k, words), v));
    if (rarely(m[4] & k->inside_slice))
        return 0;
    if (type == B_PICTURE && rarely((m[1] ^ g->before[1]) & k->same_type))
        return 0;
    __m128i wrong = _mm_or_si128(wrong_words(g, k, words), wrong_copies(g, k, v, type, by_fields));
    wrong = _mm_or_si128(wrong, wrong_vectors(g, r, k, vectors));
    g->place = _mm_add_epi16(g->place, _mm_set1_epi32(32));
    return !any(wrong);
}

/* Goes to the next column. */
in_loop void advance(cursor *g, const uint32_t *m)
{
    g->before = m;
    g->key += 32;
    g->firsts = _mm_and_si128(_mm_srli_epi32(load(m + 1), 1), words_of(0, 0, 0, 0x40000000));
    g->position = _mm_add_epi32(g->position, words_of(0, 1, 0, 0));
}

static __attribute__((noinline, cold)) void find_fault(walk *w, const uint32_t *m)
{
    fault f = macroblock_fault(&w->p, &w->s, m);
    if (f.number == 0)
        abort();
    refuse(w, f.number, m + f.word);
}

in_loop const uint32_t *broken(walk *w, const cursor *g, const uint32_t *m)
{
    keep(w, g);
    find_fault(w, m);
    return m;
}

/* Whether a macroblock in this row can lower a first byte. If not, none further down can. */
static __attribute__((noinline)) int is_high(const walk *w, uint32_t row, uint32_t type)
{
    return can_lower(&w->p, &w->forward, row, w->p.reach[1]) ||
           (type == B_PICTURE && can_lower(&w->p, &w->backward, row, w->p.reach[3]));
}

in_loop cursor begin(const walk *w, uint32_t type, int by_fields)
{
    cursor g = {.before = w->s.before, .firsts = words_of(0, 0, 0, w->s.firsts)};
    g.forward = w->forward.key, g.backward = w->backward.key;
    g.ended = ended(w);
    g.unsettled = unsettled(w, type, by_fields);
    go_to(&g, w, w->s.position);
    return g;
}

/* In high rows, as far as they are high, or in those below them. */
in_loop const uint32_t *macroblocks(walk *w, const uint32_t *m, uint32_t type, int fields, int high)
{
    const int by_fields = fields && type == P_PICTURE;
    const uint32_t *last = w->end - MACROBLOCK_WORDS;
    const range r = range_of(&w->p);
    cursor g = begin(w, type, by_fields);
    while (m <= last) {
        if (rarely(*m != MACROBLOCK)) {
            if (*m != NOOP)
                break;
            m = after_zeros(m, w->end);
            continue;
        }
        if (type != I_PICTURE && !by_fields)
            count_ends(w, &g, m, type);
        const kind *k = kind_at(m, type, fields);
        const __m128i vectors = by_fields ? in_frame(k, load(m + 5)) : load(m + 5);
        if (by_fields)
            count_ends_by_fields(w, &g, &r, m, vectors);
        const __m128i starts = high ? _mm_add_epi16(vectors, g.place) : _mm_setzero_si128();
        if (rarely(!judge(&g, &r, m, k, vectors, type, by_fields)))
            return broken(w, &g, m);
        if (high)
            count_firsts(w, &g, m, starts, type, by_fields);
        /* "last-in-slice wherever the column is W−1; last-in-group only with last-in-slice" */
        const uint32_t word_4 = m[4];
        const int row_ends = g.key == g.last_key;
        if (rarely(word_4 & LAST_IN_GROUP) || rarely(row_ends)) {
            if (!(word_4 & LAST_IN_SLICE))
                return broken(w, &g, m);
        }
        advance(&g, m);
        m += MACROBLOCK_WORDS;
        if (rarely(row_ends))
            go_to(&g, w, (g.row + 1) << 16);
        if (rarely(word_4 & LAST_IN_GROUP)) {
            w->group_open = 0;
            break;
        }
        if (rarely(row_ends) && (g.row == w->p.rows || (high && !is_high(w, g.row, type))))
            break;
    }
    keep(w, &g);
    return m;
}

typedef const uint32_t *loop(walk *w, const uint32_t *m);

#define LOOP(name, type, fields, high) \
    static __attribute__((noinline)) const uint32_t *name(walk *w, const uint32_t *m) \
    { \
        return macroblocks(w, m, type, fields, high); \
    }

LOOP(in_i, I_PICTURE, 0, 0)
LOOP(in_p, P_PICTURE, 0, 0)
LOOP(high_in_p, P_PICTURE, 0, 1)
LOOP(in_b, B_PICTURE, 0, 0)
LOOP(high_in_b, B_PICTURE, 0, 1)
LOOP(in_field_i, I_PICTURE, 1, 0)
LOOP(in_field_p, P_PICTURE, 1, 0)
LOOP(high_in_field_p, P_PICTURE, 1, 1)
LOOP(in_field_b, B_PICTURE, 1, 0)
LOOP(high_in_field_b, B_PICTURE, 1, 1)

const uint32_t *walk_macroblocks(walk *w, const uint32_t *at)
{
    static loop *const loops[2][3][2] = {
        {{in_i, in_i}, {in_p, high_in_p}, {in_b, high_in_b}},
        {{in_field_i, in_field_i}, {in_field_p, high_in_field_p}, {in_field_b, high_in_field_b}},
    };
    uint32_t type = w->p.type;
    int high = type != I_PICTURE && is_high(w, w->s.position >> 16, type);
    return loops[w->p.fields][type - 1][high](w, at);
}
