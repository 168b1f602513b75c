#include "macroblock.h"

#include <string.h>

static int is_intra(const uint32_t *m)
{
    return m[1] >> 13 & 1;
}

static uint32_t type_of(const uint32_t *m)
{
    return m[1] >> 8 & 0x1f;
}

/* "Type 04h is allowed in P", with PICTURE bit 10 zero. */
static int is_field(const picture *p, const uint32_t *m)
{
    return p->fields && p->type == P_PICTURE && !is_intra(m) && type_of(m) == 4;
}

/* 1: 7:3 zero. Bit 15 "is free on macroblocks that are not skipped", with PICTURE bit 10 zero. Bits 14 and 1:0 are 1 in type 04h
 * where it is allowed, else zero. */
static int fixed_bits_kept(const picture *p, const uint32_t *m)
{
    uint32_t judged = p->fields && !(m[1] & 4) ? 0x000040fb : 0x0000c0fb;
    return (m[1] & judged) == (is_field(p, m) ? 0x00004001 : 0);
}

/* "Intra: type 1Ah, skip zero. Inter: 1 forward, 2 backward, 3 both. I allows intra only, P intra and 1, B all." */
static int type_permitted(const picture *p, const uint32_t *m)
{
    uint32_t type = type_of(m);
    if (is_field(p, m))
        return 1;
    if (is_intra(m))
        return type == 0x1a && !(m[1] & 4);
    if (p->type == I_PICTURE)
        return 0;
    return type == 1 || (p->type == B_PICTURE && (type == 2 || type == 3));
}

/* "Skip: neither first nor last in slice; pattern zero; in P words 5 to 8 all zero; in B the macroblock before it is inter with
 * the same type and the same words 5 to 8." "A skipped type 04h gives 11." */
static int skip_permitted(const picture *p, const progress *s, const uint32_t *m)
{
    if (m[4] & 0xc0000000 || m[3] & 0x00000fc0 || is_field(p, m))
        return 0;
    if (p->type == P_PICTURE)
        return (m[5] | m[6] | m[7] | m[8]) == 0;
    return ((m[1] ^ s->before[1]) & 0x00003f00) == 0 && memcmp(m + 5, s->before + 5, 16) == 0;
}

static fault words_1_to_3(const picture *p, const progress *s, const uint32_t *m)
{
    /* 1: 13 intra; 12:8 type; 2 skip. */
    if (!fixed_bits_kept(p, m))
        return fault_at(4, 1);
    if (!type_permitted(p, m))
        return fault_at(5, 1);
    if (m[1] & 4 && !skip_permitted(p, s, m))
        return fault_at(11, 1);
    /* 2: "The k-th macroblock, from 0, is at column k mod W, row k div W." */
    if (m[2] != s->position)
        return fault_at(6, 2);
    /* 3: 15:12 zero, pattern 11:6, 5:0 zero. Intra: pattern 63. */
    if (m[3] & 0x0000f03f)
        return fault_at(4, 3);
    if (is_intra(m) && (m[3] & 0x00000fc0) != 0x00000fc0)
        return fault_at(5, 3);
    return no_fault;
}

/* 4: 31 last in slice, 30 first in slice, 27 clamp, 26 last in group, 25 no skip conversion (zero in I), 24 first in group,
 * 18 and 16 in type 04h the reference fields, 4:0 quantiser 1 to 31, all else zero. */
static fault word_4(const picture *p, const progress *s, const uint32_t *m)
{
    uint32_t word = m[4];
    if (word & (is_field(p, m) ? 0x30faffe0 : 0x30ffffe0))
        return fault_at(4, 4);
    if ((p->type == I_PICTURE && word & 0x02000000) || (word & 0x1f) == 0)
        return fault_at(5, 4);
    /* "last-in-slice wherever the column is W−1; last-in-group only with last-in-slice" */
    int has_to_end = (s->position & 0xffff) == p->columns - 1 || word & 0x04000000;
    if ((word & 0x41000000) != s->firsts || (has_to_end && !(word & 0x80000000)))
        return fault_at(7, 4);
    return no_fault;
}

/* One component of a vector: the number of the rule that it breaks. "The luma block starts at column 16X + floor(vx/2) and has
 * 16 columns, 17 if vx is odd; rows likewise. It must lie in columns 0 to 16W−1, rows 0 to 16H−1"; "a 16-column, 8-row field
 * block starting from field row 8Y, inside 8H field rows". */
static uint32_t component_fault(int32_t size, int32_t v, int32_t reach, int32_t place, int32_t places)
{
    if (v < -reach || v >= reach)
        return 9;
    int32_t first = size * place + (v >> 1), count = size + (v & 1);
    return first < 0 || first + count > size * places ? 10 : 0;
}

/* A present vector, by its word: "in a word the smaller number first"; "vertical components keep half the f code's range". */
static fault vector_fault(const picture *p, const progress *s, const uint32_t *m, uint32_t word)
{
    const int16_t *reach = p->reach + (word == 6 ? 2 : 0);
    int32_t parts = is_field(p, m) ? 2 : 1;
    int32_t vx = (int16_t)m[word], vy = (int16_t)(m[word] >> 16);
    uint32_t x = component_fault(16, vx, reach[0], (int32_t)(s->position & 0xffff), (int32_t)p->columns);
    uint32_t y = component_fault(16 / parts, vy, reach[1] / parts, (int32_t)(s->position >> 16), (int32_t)p->rows);
    uint32_t number = x == 9 || y == 9 ? 9 : x | y;
    return number ? fault_at(number, word) : no_fault;
}

/* "A missing vector is a copy: intra, all zero; forward only or backward only, all four equal; both, 7 = 5 and 8 = 6." "Word 5 is
 * the top field's vector, word 7 the bottom's, 6 and 8 copy 5." By type, 0 intra: where the word stands that each is equal to. */
static fault vectors_fault(const picture *p, const progress *s, const uint32_t *m)
{
    static const uint8_t equal_to[5][4] = {{0}, {5, 5, 5, 5}, {6, 6, 6, 6}, {5, 6, 5, 6}, {5, 5, 7, 5}};
    static const uint8_t present[5] = {0, 1 << 5, 1 << 6, 1 << 5 | 1 << 6, 1 << 5 | 1 << 7};
    uint32_t type = is_intra(m) ? 0 : type_of(m);
    for (uint32_t word = 5; word < 9; word++) {
        if (m[word] != (type == 0 ? 0 : m[equal_to[type][word - 5]]))
            return fault_at(8, word);
        fault f = present[type] >> word & 1 ? vector_fault(p, s, m, word) : no_fault;
        if (f.number)
            return f;
    }
    return no_fault;
}

fault macroblock_fault(const picture *p, const progress *s, const uint32_t *m)
{
    fault f = words_1_to_3(p, s, m);
    if (f.number == 0)
        f = word_4(p, s, m);
    if (f.number == 0)
        f = vectors_fault(p, s, m);
    return f;
}
