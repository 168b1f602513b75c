/* Ends with 0 if a hromulice_state has the words that the library takes: all of them are written, and none beside them; if a
 * hromulice_report and the answers on mount sheets are laid out as the library answers them, which the header itself asks for from C11 and
 * C++11 on; and if a mount sheet has the bytes that the library writes, and none beside them. */
#include <hromulice.h>
#include <stdio.h>
#include <stdlib.h>
#include <string.h>

#define BESIDE 20 /* states on each side of the one that is lent */
#define ALL (2 * BESIDE + 1)

static void expect(int fact, const char *said)
{
    if (!fact) {
        fprintf(stderr, "layout: %s\n", said);
        exit(1);
    }
}

/* Whether so many bytes are as they were filled. */
static int stand(const void *at, size_t count, int filled)
{
    const unsigned char *bytes = (const unsigned char *)at;
    size_t i;
    for (i = 0; i < count; i++)
        if (bytes[i] != filled)
            return 0;
    return 1;
}

/* A check in parts whose state is lent in the middle of others. */
static void lend(hromulice_state *states, int filled)
{
    static const uint32_t part[] = {0x70010004, 0, 0x003C00F0, 0x480003FB, 0x10}; /* P1's first words, a command that is not whole */
    hromulice_lengths lengths = {1, 2, 3, 4};
    hromulice_state *state = states + BESIDE, before;
    hromulice_report report;
    size_t i;
    memset(states, filled, ALL * sizeof *states);
    hromulice_begin(lengths, state);
    for (i = 0; i < 3; i++)
        hromulice_hand_over(state, part + i, i == 2 ? 3 : 1);
    before = *state;
    report = hromulice_report_of(state);
    expect(report.number == HROMULICE_WORDS_RUN_OUT && report.place == 5, "the words so far are not counted");
    expect(memcmp(&before, state, sizeof before) == 0, "asking for the report changes the state");
    expect(stand(states, BESIDE * sizeof *states, filled), "words in front of the state are written");
    expect(stand(state + 1, BESIDE * sizeof *states, filled), "words behind the state are written");
}

/* A mount sheet that is lent in the middle of other bytes, and answers whose fields each have a value of their own. */
static void mount(int filled)
{
    static const uint8_t sheet[16] = {0x78, 0x56, 0x34, 0x12, 1, 0, 0, 0, 1, 0, 0, 0, 0, 0, 0, 0};
    uint8_t bytes[80];
    hromulice_mounts mounts;
    hromulice_mount mount;
    hromulice_shift shift;
    memset(bytes, filled, sizeof bytes);
    mounts = hromulice_add_mount(bytes + 32, 16, 0, 0x12345678, 1, 1);
    expect(mounts.number == HROMULICE_ACCEPTED && mounts.place == 0 && mounts.count == 1, "a sheet is not added");
    expect(memcmp(bytes + 32, sheet, sizeof sheet) == 0, "a sheet has other bytes");
    expect(stand(bytes, 32, filled) && stand(bytes + 48, 32, filled), "bytes beside a sheet are written");
    mounts = hromulice_add_mount(bytes + 32, 16, 7, 0x12345678, 1, 1);
    expect(mounts.number == HROMULICE_SHEETS && mounts.place == 1 && mounts.count == 7, "the answer to an adding has other fields");
    mount = hromulice_ask_mount(bytes + 32, 16, 1, 0x12345678, 0x01020304);
    expect(mount.number == HROMULICE_ACCEPTED && mount.place == 0 && mount.edition == 1 && mount.side == 1, "a sheet is not found");
    mount = hromulice_ask_mount(bytes + 32, 16, 7, 0x12345678, 0x01020304);
    expect(mount.number == HROMULICE_SHEETS && mount.place == 1 && mount.edition == 0 && mount.side == 0, "what is asked has other fields");
    shift = hromulice_mount_vector(1, 0x0102, 0x0304);
    expect(shift.number == HROMULICE_ACCEPTED && shift.place == 0 && shift.x == -0x0102 && shift.y == 0x0304, "a vector has other fields");
}

int main(void)
{
    static hromulice_state one[ALL], other[ALL];
    expect(hromulice_state_words() == HROMULICE_STATE_WORDS, "the header gives a state another number of words");
    expect(8 * hromulice_state_words() == sizeof(hromulice_state), "a state has another size");
    expect(sizeof(hromulice_report) == 80 && offsetof(hromulice_report, firsts) == 48, "a report is laid out in another way");
    expect(sizeof(hromulice_mount) == 24 && offsetof(hromulice_mount, place) == 8 && offsetof(hromulice_mount, edition) == 16
               && offsetof(hromulice_mount, side) == 20, "the answer to a question for a sheet is laid out in another way");
    expect(sizeof(hromulice_mounts) == 24 && offsetof(hromulice_mounts, place) == 8 && offsetof(hromulice_mounts, count) == 16,
           "the answer to an adding is laid out in another way");
    expect(sizeof(hromulice_shift) == 24 && offsetof(hromulice_shift, place) == 8 && offsetof(hromulice_shift, x) == 16
               && offsetof(hromulice_shift, y) == 18, "a vector is laid out in another way");
    mount(0x5a);
    mount(0xa5);
    lend(one, 0x5a);
    lend(other, 0xa5);
    expect(memcmp(one + BESIDE, other + BESIDE, sizeof *one) == 0, "words of the state are not written");
    return 0;
}
