/* Has the library give each number that its functions give, HROMULICE_TOO_MANY_WORDS apart (many.c): the answer is the enumerator, at the
 * place that document 01 says. The inputs are document 01's cases and variants of them, and what is due is written down from that paper, the
 * lengths from document 02's R-3, the first bytes from its R-8, and all of mount sheets from its R-9. Prints the names of the enumerators
 * that were given, and ends with 1 at another answer. */
#include "p1.h"
#include <hromulice.h>
#include <inttypes.h>
#include <stdio.h>
#include <stdlib.h>
#include <string.h>

#define NAMED(name) #name, name
#define COUNT(array) (sizeof(array) / sizeof *(array))

/* What is needed and touched of the buffers. */
typedef struct {
    hromulice_lengths lengths;
    hromulice_lengths firsts;
} windows;

static const windows none = {{0, 0, 0, 0}, {0, 0, 0, 0}};

/* The record of P1's macroblock, and what P1 touches. */
static const uint8_t p1_record[24] = {0, 0, 0, 0, 0, 0, 0, 0, 0x3F, 0, 0, 1, 0x0F, 0, 0, 0, 0, 0, 0, 0, 0, 0, 0, 0};
static const windows p1_windows = {{384, 384, 0, 0}, {0, 0, 0, 0}};

/* "W 2, H 1, pitch 128, C 16, P picture, f code 3, column 0 forward, column 1 intra": P8, with vector (0, 0). P11 has (32, 0), and its
 * block begins at column 16, row 0. */
static const uint32_t p8[46] = {
    0x70010004, 0, 0x003C01F0, 0x480003FB, 0x10, 0,
    0x7300000B, 0xFF333400, 0x400, 1, 0, 0, 0, 0, 0, 0, 0, 0, 0,
    0x73430006, 0, 0, 0, 0, 0, 0, 0,
    0x73490007, 0x00000100, 0, 0, 0x41000001, 0, 0, 0, 0,
    0x73490007, 0x00003A00, 1, 0xFC0, 0x84000001, 0, 0, 0, 0,
    0x05000000
};
static const windows p11_windows = {{896, 896, 896, 0}, {0, 0, 512, 0}};

static void expect(int fact, const char *name, const char *operation)
{
    if (!fact) {
        fprintf(stderr, "numbers: %s does not answer %s where it is due\n", operation, name);
        exit(1);
    }
}

static int same(hromulice_lengths a, hromulice_lengths b)
{
    return a.source == b.source && a.reconstructed == b.reconstructed && a.forward == b.forward && a.backward == b.backward;
}

static int is(hromulice_report report, uint8_t number, uint64_t place, windows due)
{
    return report.number == number && report.place == place && same(report.lengths, due.lengths) && same(report.firsts, due.firsts);
}

static int answers(hromulice_answer answer, uint8_t number, uint64_t place)
{
    return answer.number == number && answer.place == place;
}

/* A batch beside buffers of P1's lengths but for the second one: checked whole, decoded, and checked in parts of one word. */
static void batch(const char *name, uint8_t number, uint64_t place, windows due, const uint32_t *words, size_t count,
                  uint64_t reconstructed)
{
    hromulice_lengths lengths = p1_windows.lengths;
    hromulice_state state;
    uint8_t log[48];
    size_t i;
    lengths.reconstructed = reconstructed;
    expect(is(hromulice_check(words, count, lengths), number, place, due), name, "the check");
    expect(is(hromulice_decode(words, count, lengths, log, sizeof log), number, place, due), name, "decoding");
    hromulice_begin(lengths, &state);
    for (i = 0; i < count; i++)
        hromulice_hand_over(&state, words + i, 1);
    expect(is(hromulice_report_of(&state), number, place, due), name, "the check in parts");
    printf("%s\n", name);
}

/* P1 with one word changed, or with so many words. */
typedef struct {
    const char *name;
    uint8_t number;
    uint64_t place;
    size_t changed;
    uint32_t word;
    size_t count;
} variant;

static const variant variants[] = {
    {NAMED(HROMULICE_WORDS_RUN_OUT), 0, 0, 0x70010004, 0},    /* P3, "empty" */
    {NAMED(HROMULICE_WORDS_RUN_OUT), 36, 0, 0x70010004, 36},  /* P4, "P1 without END" */
    {NAMED(HROMULICE_UNKNOWN_HEADER), 6, 6, 0x7300000C, 37},  /* "The whole header must match": PICTURE's with another count */
    {NAMED(HROMULICE_OUT_OF_SEQUENCE), 0, 0, 0x05000000, 1},  /* P5, "END alone" */
    {NAMED(HROMULICE_FIXED_BIT), 1, 1, 1, 37},                /* SURFACE "1: zero" */
    {NAMED(HROMULICE_FIELD), 31, 31, 0xC5000000, 37},         /* P7, quantiser 0 */
    {NAMED(HROMULICE_POSITION), 29, 29, 1, 37},               /* column 1 of the first macroblock */
    {NAMED(HROMULICE_FLAG), 31, 31, 0x85000001, 37},          /* not first in slice, where no slice is open */
    {NAMED(HROMULICE_VECTOR_COPY), 32, 32, 1, 37},            /* P6 */
    {NAMED(HROMULICE_AFTER_END), 37, 37, 7, 38}
};

static void check_p1(void)
{
    uint32_t words[COUNT(p1) + 1];
    uint8_t log[23];
    size_t i;
    batch(NAMED(HROMULICE_ACCEPTED), 0, p1_windows, p1, COUNT(p1), 384);
    batch(NAMED(HROMULICE_BUFFER_SHORT), 1, p1_windows, p1, COUNT(p1), 383); /* P2 */
    for (i = 0; i < COUNT(variants); i++) {
        const variant *v = variants + i;
        memcpy(words, p1, sizeof p1);
        words[v->changed] = v->word;
        batch(v->name, v->number, v->place, none, words, v->count, 384);
    }
    expect(is(hromulice_decode(p1, COUNT(p1), p1_windows.lengths, log, 23), HROMULICE_ROOM_SHORT, 24, p1_windows), "14", "decoding");
}

/* P8 with another vector. */
static void move(uint32_t *words, uint32_t vector)
{
    size_t i;
    memcpy(words, p8, sizeof p8);
    for (i = 32; i < 36; i++)
        words[i] = vector;
}

/* P8 with other f codes, word 1 of its first macroblock and vector. */
static void check_p8(const char *name, uint8_t number, uint64_t place, uint32_t codes, uint32_t word, uint32_t vector)
{
    uint32_t words[COUNT(p8)];
    move(words, vector);
    words[7] = codes;
    words[28] = word;
    batch(name, number, place, none, words, COUNT(words), 384);
}

/* P11, with a first byte that is not 0: beside P1's lengths, and with room for one record and beside its own. */
static void check_p11(void)
{
    uint32_t words[COUNT(p8)];
    uint8_t log[24];
    move(words, 32);
    batch(NAMED(HROMULICE_BUFFER_SHORT), 0, p11_windows, words, COUNT(words), 384);
    expect(is(hromulice_check(words, COUNT(words), p11_windows.lengths), HROMULICE_ACCEPTED, 0, p11_windows), "0", "the check");
    expect(is(hromulice_decode(words, COUNT(words), p11_windows.lengths, log, 24), HROMULICE_ROOM_SHORT, 48, p11_windows), "14", "decoding");
}

static void read_one(const char *name, uint8_t number, uint64_t place, const uint32_t *words, size_t count, size_t bytes)
{
    uint8_t record[24];
    expect(answers(hromulice_read_command(words, count, record, bytes), number, place), name, "reading a command");
    expect(number != 0 || memcmp(record, p1_record, 24) == 0, name, "with another record, reading a command");
    printf("%s\n", name);
}

static void write_one(const char *name, uint8_t number, uint64_t place, const uint8_t *record, size_t bytes, size_t count)
{
    uint32_t words[9];
    expect(answers(hromulice_write_command(record, bytes, words, count), number, place), name, "writing a command");
    expect(number != 0 || memcmp(words, p1 + 27, sizeof words) == 0, name, "with another command, writing a command");
    printf("%s\n", name);
}

/* "One command read alone", "The log record". */
static void check_singles(void)
{
    uint8_t record[24];
    read_one(NAMED(HROMULICE_ACCEPTED), 0, p1 + 27, 10, 24);
    read_one(NAMED(HROMULICE_WORDS_RUN_OUT), 8, p1 + 27, 8, 24);
    read_one(NAMED(HROMULICE_UNKNOWN_HEADER), 0, p1, 37, 24);
    read_one(NAMED(HROMULICE_ROOM_SHORT), 24, p1 + 27, 9, 23);
    write_one(NAMED(HROMULICE_ACCEPTED), 0, p1_record, 24, 9);
    write_one(NAMED(HROMULICE_ROOM_SHORT), 9, p1_record, 24, 8);
    write_one(NAMED(HROMULICE_RECORD), 0, p1_record, 23, 9);
    memcpy(record, p1_record, sizeof record);
    record[13] = 1;
    write_one(NAMED(HROMULICE_RECORD), 13, record, 24, 9);
}

/* Boat 12 on port, boat 30 on starboard, then boat 12 on starboard; behind these three sheets there is room for one more and a byte. */
static const uint8_t sheets[65] = {
    12, 0, 0, 0, 1, 0, 0, 0, 1, 0, 0, 0, 0, 0, 0, 0,
    30, 0, 0, 0, 1, 0, 0, 0, 0, 0, 0, 0, 0, 0, 0, 0,
    12, 0, 0, 0, 2, 0, 0, 0, 0, 0, 0, 0, 0, 0, 0, 0,
    0xEE, 0xEE, 0xEE, 0xEE, 0xEE, 0xEE, 0xEE, 0xEE, 0xEE, 0xEE, 0xEE, 0xEE, 0xEE, 0xEE, 0xEE, 0xEE, 0xEE
};

static void ask(const char *name, uint8_t number, uint64_t place, const uint8_t *lent, size_t bytes, uint64_t count, uint32_t boat,
                uint32_t edition, hromulice_mount due)
{
    hromulice_mount mount = hromulice_ask_mount(lent, bytes, count, boat, edition);
    expect(mount.number == number && mount.place == place, name, "asking for a sheet");
    expect(mount.edition == due.edition && mount.side == due.side, name, "with another sheet, asking for a sheet");
    printf("%s\n", name);
}

/* Boat 12's next edition is 3. Only an accepted one is written, behind the third sheet, and counted. */
static void add(const char *name, uint8_t number, uint64_t place, const uint8_t *before, size_t bytes, uint64_t count, uint32_t edition,
                uint32_t side)
{
    uint8_t lent[COUNT(sheets)], due[COUNT(sheets)];
    hromulice_mounts mounts;
    memcpy(lent, before, sizeof lent);
    memcpy(due, before, sizeof due);
    if (number == HROMULICE_ACCEPTED) {
        memcpy(due + 48, sheets, 16);
        due[52] = (uint8_t)edition;
        due[56] = (uint8_t)side;
    }
    mounts = hromulice_add_mount(lent, bytes, count, 12, edition, side);
    expect(mounts.number == number && mounts.place == place, name, "adding a sheet");
    expect(mounts.count == (number == HROMULICE_ACCEPTED ? count + 1 : count), name, "with another count, adding a sheet");
    expect(memcmp(lent, due, sizeof lent) == 0, name, "with other bytes, adding a sheet");
    printf("%s\n", name);
}

/* One byte changed, or so many bytes or sheets: 20 at this place, whoever asks or adds, and whatever else is wrong. */
typedef struct {
    uint64_t place;
    size_t changed;
    uint8_t value;
    size_t bytes;
    uint64_t count;
} damage;

static const damage damages[] = {
    {2, 0, 12, 47, 3},                 /* "A number of records that the bytes can't hold gives 20 with the number they can" */
    {4, 8, 2, 65, 5},                  /* before "the first bad stored record" */
    {4, 0, 12, 65, UINT64_MAX},
    {4, 0, 12, 65, (uint64_t)1 << 60}, /* 16 times that is 0 in 64 bits */
    {0, 8, 2, 65, 3},                  /* "side above 1" */
    {1, 25, 1, 65, 3},                 /* "non-zero filler", its first and its last byte */
    {2, 47, 0x80, 65, 3},
    {0, 4, 0, 65, 3},                  /* "not its boat's next edition" */
    {1, 20, 2, 65, 3},
    {2, 36, 3, 65, 3},
    {1, 0, 30, 65, 3}                  /* boat 30 twice with edition 1 */
};

/* "The checks come as 20, 19, 22, 21, 14." */
static void check_mounts(void)
{
    static const hromulice_mount no_sheet = {0, 0, 0, 0}, port_1 = {0, 0, 1, 1}, starboard_1 = {0, 0, 1, 0}, starboard_2 = {0, 0, 2, 0};
    uint8_t lent[COUNT(sheets)];
    size_t i;
    for (i = 0; i < COUNT(damages); i++) {
        const damage *d = damages + i;
        memcpy(lent, sheets, sizeof lent);
        lent[d->changed] = d->value;
        ask(NAMED(HROMULICE_SHEETS), d->place, lent, d->bytes, d->count, 12, 1, no_sheet);
        ask(NAMED(HROMULICE_SHEETS), d->place, lent, d->bytes, d->count, 7, 0, no_sheet);
        add(NAMED(HROMULICE_SHEETS), d->place, lent, d->bytes, d->count, 3, 1);
        add(NAMED(HROMULICE_SHEETS), d->place, lent, d->bytes, d->count, 9, 2);
    }
    ask(NAMED(HROMULICE_ACCEPTED), 0, sheets, 65, 3, 12, 1, port_1);
    ask(NAMED(HROMULICE_ACCEPTED), 0, sheets, 48, 3, 12, 2, starboard_2);
    ask(NAMED(HROMULICE_ACCEPTED), 0, sheets, 65, 3, 12, 4294967295u, starboard_2);
    ask(NAMED(HROMULICE_ACCEPTED), 0, sheets, 65, 2, 12, 2, port_1);
    ask(NAMED(HROMULICE_ACCEPTED), 0, sheets, 65, 3, 30, 2, starboard_1);
    ask(NAMED(HROMULICE_NO_SHEET), 0, sheets, 65, 3, 12, 0, no_sheet);
    ask(NAMED(HROMULICE_NO_SHEET), 0, sheets, 65, 3, 7, 4294967295u, no_sheet);
    ask(NAMED(HROMULICE_NO_SHEET), 0, NULL, 0, 0, 12, 1, no_sheet);
    add(NAMED(HROMULICE_ACCEPTED), 0, sheets, 64, 3, 3, 1);
    add(NAMED(HROMULICE_ACCEPTED), 0, sheets, 65, 3, 3, 0);
    add(NAMED(HROMULICE_SIDE), 0, sheets, 63, 3, 4, 2);
    add(NAMED(HROMULICE_SIDE), 0, sheets, 65, 3, 3, 256);
    add(NAMED(HROMULICE_EDITION), 0, sheets, 63, 3, 4, 1);
    add(NAMED(HROMULICE_EDITION), 0, sheets, 65, 3, 2, 1);
    add(NAMED(HROMULICE_EDITION), 0, sheets, 65, 3, 0, 1);
    add(NAMED(HROMULICE_ROOM_SHORT), 0, sheets, 63, 3, 3, 1);
}

static void turn(const char *name, uint8_t number, uint32_t side, int16_t x, int16_t y, int16_t due_x, int16_t due_y)
{
    hromulice_shift shift = hromulice_mount_vector(side, x, y);
    expect(shift.number == number && shift.place == 0, name, "the vector of a shift");
    expect(shift.x == due_x && shift.y == due_y, name, "with another vector, the vector of a shift");
    printf("%s\n", name);
}

/* "(x, y) on starboard and (-x, y) on port". */
static void check_vectors(void)
{
    turn(NAMED(HROMULICE_ACCEPTED), 0, 5, -3, 5, -3);
    turn(NAMED(HROMULICE_ACCEPTED), 1, 5, -3, -5, -3);
    turn(NAMED(HROMULICE_ACCEPTED), 1, -32767, 32767, 32767, 32767);
    turn(NAMED(HROMULICE_ACCEPTED), 0, -32768, -32768, -32768, -32768);
    turn(NAMED(HROMULICE_ACCEPTED), 1, 32767, -32768, -32767, -32768);
    turn(NAMED(HROMULICE_SHIFT), 1, -32768, 5, 0, 0);
    turn(NAMED(HROMULICE_SIDE), 2, -32768, 5, 0, 0);
    turn(NAMED(HROMULICE_SIDE), 256, 5, 5, 0, 0);
    turn(NAMED(HROMULICE_SIDE), 4294967295u, 5, 5, 0, 0);
}

int main(void)
{
    check_p1();
    check_p8(NAMED(HROMULICE_VECTOR_RANGE), 32, 0xFF113400, 0x00000100, 16);   /* P13, f code 1 and (16, 0) */
    check_p8(NAMED(HROMULICE_VECTOR_OUTSIDE), 32, 0xFF333400, 0x00000100, 33); /* P12, (33, 0) */
    check_p8(NAMED(HROMULICE_SKIP), 28, 0xFF333400, 0x00000104, 0);            /* skipped, and first in its slice */
    check_p11();
    check_singles();
    check_mounts();
    check_vectors();
    return 0;
}
