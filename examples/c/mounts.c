/* Keeps a book of mount sheets, and tells which sign a boat had in March.
 *
 *     mounts
 *
 * Adds sheets of two boats to lent memory, asks for them by edition, and turns a measured shift into the vector that each side wants. Then
 * it shows what is refused, with the meanings. Ends with 0, or with 2 where the library is of another version or standard output could not
 * be written.
 *
 *     gcc -std=c99 -I include examples/c/mounts.c target/staticlib/libhromulice.a -o mounts
 */
#include <hromulice.h>
#include <hromulice_text.h>
#include <inttypes.h>
#include <stdio.h>
#include <stdlib.h>

#define SHEET_BYTES 16
#define MOST_SHEETS 4

enum { STARBOARD = 0, PORT = 1 };

/* The bytes that are lent, and how many sheets are in them. Who stores a book stores both, where nobody else writes them. */
typedef struct {
    uint8_t sheets[MOST_SHEETS * SHEET_BYTES];
    uint64_t count;
} book;

static void fail(const char *why)
{
    fprintf(stderr, "mounts: %s\n", why);
    exit(2);
}

static void print_refusal(uint8_t number, uint64_t place)
{
    printf("refused with number %d, place %" PRIu64 ": %s\n", number, place, hromulice_meaning(number));
}

/* Adds a sheet. The count that is answered is the one to go on with, also after a refusal. */
static void add(book *b, uint32_t boat, uint32_t edition, uint32_t side)
{
    hromulice_mounts mounts = hromulice_add_mount(b->sheets, sizeof b->sheets, b->count, boat, edition, side);
    printf("  add boat %" PRIu32 ", edition %" PRIu32 ", side %" PRIu32 ": ", boat, edition, side);
    b->count = mounts.count;
    if (mounts.number == HROMULICE_ACCEPTED)
        printf("%s, %" PRIu64 " in the book\n", hromulice_side_name((uint8_t)side), mounts.count);
    else
        print_refusal(mounts.number, mounts.place);
}

/* Asks which side a boat had, and makes the vector of a measured shift with it. No sign is turned here. */
static void ask(const book *b, uint32_t boat, uint32_t edition, int16_t x, int16_t y)
{
    hromulice_mount mount = hromulice_ask_mount(b->sheets, sizeof b->sheets, b->count, boat, edition);
    hromulice_shift shift;
    printf("  ask boat %" PRIu32 ", edition %" PRIu32 ": ", boat, edition);
    if (mount.number != HROMULICE_ACCEPTED) {
        print_refusal(mount.number, mount.place);
        return;
    }
    printf("edition %" PRIu32 ", %s; shift (%d, %d): ", mount.edition, hromulice_side_name(mount.side), x, y);
    shift = hromulice_mount_vector(mount.side, x, y);
    if (shift.number == HROMULICE_ACCEPTED)
        printf("vector (%d, %d)\n", shift.x, shift.y);
    else
        print_refusal(shift.number, shift.place);
}

/* A byte of a copy changed, as a damaged file would have it. */
static book damaged(const book *b, size_t at, uint8_t value)
{
    book copy = *b;
    copy.sheets[at] = value;
    return copy;
}

int main(void)
{
    book b = {{0}, 0}, other;
    if (hromulice_version() != HROMULICE_VERSION)
        fail("the library is not of version " HROMULICE_VERSION_TEXT);
    printf("March: boats 12 and 30 are fitted.\n");
    add(&b, 12, 1, PORT);
    add(&b, 30, 1, STARBOARD);
    ask(&b, 12, 1, 40, -7);
    ask(&b, 30, 1, 40, -7);
    printf("June: boat 12's unit is moved.\n");
    add(&b, 12, 2, STARBOARD);
    ask(&b, 12, 2, 40, -7);
    printf("Which sign did boat 12 have in March, and which has it now?\n");
    ask(&b, 12, 1, 40, -7);
    ask(&b, 12, 4294967295u, 40, -7);
    printf("What is not in the book, or not the next edition, or no side:\n");
    ask(&b, 12, 0, 40, -7);
    ask(&b, 7, 1, 40, -7);
    add(&b, 12, 1, STARBOARD);
    add(&b, 12, 4, STARBOARD);
    add(&b, 12, 3, 2);
    printf("The least number has no opposite:\n");
    ask(&b, 12, 1, -32768, -7);
    ask(&b, 12, 2, -32768, -7);
    printf("A book that is full, two that are damaged, and one that is counted wrong:\n");
    add(&b, 30, 2, PORT);
    add(&b, 30, 3, PORT);
    other = damaged(&b, 1 * SHEET_BYTES + 8, 2);
    ask(&other, 12, 1, 40, -7);
    other = damaged(&b, 2 * SHEET_BYTES + 4, 1);
    add(&other, 12, 3, PORT);
    other = b;
    other.count = 5;
    ask(&other, 12, 1, 40, -7);
    if (fflush(stdout) != 0 || ferror(stdout))
        fail("standard output cannot be written");
    return 0;
}
