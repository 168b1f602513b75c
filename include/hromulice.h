/* Hromulice: checks a batch of MPEG-2 commands before the video engine reads it, and reads and adds mount sheets, which say on which side
 * of a boat the unit is mounted.
 *
 * Link libhromulice.a (x86-64 Linux; `tests/build library` builds it). It needs nothing but memcpy and memset, keeps no state of its
 * own, allocates nothing, does no input or output, and may be called from any number of threads. Each function is proved: it returns for
 * all arguments that keep the rules on pointers below, whatever the words, bytes, counts and lengths are, and it answers what is said
 * here. That there is stack enough is not proved.
 *
 * A batch is a run of 32-bit words. Beside it come the lengths in bytes of the four picture buffers. Mount sheets are records of 16 bytes
 * in memory that the caller keeps, one for each edition of each boat: on which side the unit is mounted, and so which sign a measured
 * shift gets. No word of a batch tells the boat or the side, and no check of a batch looks at a sheet.
 *
 * An answer is a number, 0 for accepted, and a place, with what was asked for beside them. A refusal writes nothing into the log, the
 * record, the words or the sheets that were lent. hromulice_text.h has a text for each number.
 *
 * Check a batch where nobody changes it afterwards: copy it into memory that the builder cannot write, check that copy, and hand that
 * copy to the engine. Words that are changed after the check were not checked.
 *
 * Pointers. The compiler cannot check these rules, so the caller keeps them:
 * - A pointer with a size_t behind it is to so many elements of one object. Any other pointer is to one whole hromulice_state.
 * - It is aligned for what it points at, and is not null. With 0 elements nothing is read or written through it, and null will do.
 * - Memory behind a pointer to const is not written by anybody during the call; two such runs may overlap.
 * - Memory behind another pointer is neither read nor written by anybody else during the call, and overlaps nothing that another
 *   pointer of the same call is to.
 */
#ifndef HROMULICE_H
#define HROMULICE_H

#include <stddef.h>
#include <stdint.h>

/* The version of this header. A major step: an earlier caller has to be changed or compiled again. A minor step: functions were added,
 * and an earlier caller works as it is. A patch step: neither, but answers may be others. HROMULICE_VERSION is one number, greater for a
 * later version.
 *
 * 3.1.1: batches whose PICTURE has bit 10 of word 1 as 0 are checked, with field prediction in P pictures and the dct type; 3.1.0 refused
 *        them with 4.
 * 3.1.0: hromulice_ask_mount, hromulice_add_mount and hromulice_mount_vector.
 * 3.0.0: a hromulice_report has `firsts` behind `lengths`, and a caller that takes one has to be compiled again.
 * 2.1.0: hromulice_state_words.
 * 2.0.0: a hromulice_state has 128 words; it had 99, and a caller that lends one has to be compiled again.
 * 1.0.1: lengths are counted in Y tiles; 1.0.0 counted plain rows. */
#define HROMULICE_VERSION_MAJOR 3
#define HROMULICE_VERSION_MINOR 1
#define HROMULICE_VERSION_PATCH 1
#define HROMULICE_VERSION_TEXT "3.1.1"
#define HROMULICE_VERSION (HROMULICE_VERSION_MAJOR * 65536u + HROMULICE_VERSION_MINOR * 256u + HROMULICE_VERSION_PATCH)

/* Before a function: an answer that is dropped is a warning. */
#if defined(__GNUC__) || defined(__clang__)
#define HROMULICE_MUST_USE __attribute__((warn_unused_result))
#elif defined(__cplusplus) && __cplusplus >= 201703L
#define HROMULICE_MUST_USE [[nodiscard]]
#elif defined(__STDC_VERSION__) && __STDC_VERSION__ >= 202311L
#define HROMULICE_MUST_USE [[nodiscard]]
#else
#define HROMULICE_MUST_USE
#endif

#ifdef __cplusplus
extern "C" {
#endif

/* The numbers of the answers, with what the place is. Places count from 0; of a batch they are words from its start, of one command
 * words from its header, of mount sheets whole sheets from the first. */
enum {
    HROMULICE_ACCEPTED = 0,        /* 0 */
    HROMULICE_WORDS_RUN_OUT = 1,   /* in a command or before END: the words given */
    HROMULICE_UNKNOWN_HEADER = 2,  /* the header */
    HROMULICE_OUT_OF_SEQUENCE = 3, /* the header */
    HROMULICE_FIXED_BIT = 4,       /* the word */
    HROMULICE_FIELD = 5,           /* a field's value is not permitted: the word */
    HROMULICE_POSITION = 6,        /* a macroblock that is not at its position: its word 2 */
    HROMULICE_FLAG = 7,            /* a slice or group flag: the macroblock's word 4 */
    HROMULICE_VECTOR_COPY = 8,     /* a missing vector that is not the copy it has to be: the word */
    HROMULICE_VECTOR_RANGE = 9,    /* a vector beyond its f code: the macroblock's word 5, 6 or 7 */
    HROMULICE_VECTOR_OUTSIDE = 10, /* a vector that points outside the picture: the macroblock's word 5, 6 or 7 */
    HROMULICE_SKIP = 11,           /* a macroblock that may not be skipped: its word 1 */
    HROMULICE_AFTER_END = 12,      /* a word after END that is not zero: that word */
    HROMULICE_BUFFER_SHORT = 13,   /* the lowest buffer that is too short: 0 source, 1 reconstructed, 2 forward, 3 backward reference */
    HROMULICE_ROOM_SHORT = 14,     /* the bytes or words that have to be lent; by hromulice_add_mount 0 */
    HROMULICE_RECORD = 15,         /* a record that is not legal: its first bad byte */
    HROMULICE_NO_LENGTHS = 16,     /* of programs alone, no function gives it: a file of fewer than 32 bytes: the bytes read */
    HROMULICE_NO_SHEET = 19,       /* the boat has no sheet of that edition or an earlier one: 0 */
    HROMULICE_SHEETS = 20,         /* more sheets counted than the bytes hold: how many they can hold; otherwise the first bad sheet */
    HROMULICE_EDITION = 21,        /* not the boat's next edition: 0 */
    HROMULICE_SIDE = 22,           /* a side that is neither 0 nor 1: 0 */
    HROMULICE_SHIFT = 23,          /* a shift of -32768 that would have to be turned: 0 */
    HROMULICE_TOO_MANY_WORDS = 27  /* 4294967295 */
};

/* Lengths in bytes of the four picture buffers: source, reconstructed picture, forward and backward reference; or a byte of each. All are
 * Y-tiled, and bytes are counted from 0 as they stand in memory: byte b of row r is at
 *
 *     r / 32 * 32 * pitch + b / 128 * 4096 + b % 128 / 16 * 512 + r % 32 * 16 + b % 16
 *
 * where luma (x, y) is byte x of row y, and Cb and Cr (x, y) are bytes 2x and 2x + 1 of the row that is y below the first chroma row. */
typedef struct {
    uint64_t source;
    uint64_t reconstructed;
    uint64_t forward;
    uint64_t backward;
} hromulice_lengths;

/* The answer to a batch. With numbers 0, 13 and 14 `lengths` is what each buffer must have at least: 0 if the batch touches no byte of
 * it, otherwise one more than the highest byte that it touches; and `firsts` is the lowest byte that it touches, 0 if it touches none.
 * With every other number all eight are 0.
 *
 * From its first byte to below its length is a buffer's window: no sample that the batch has the engine read or write lies outside, so that
 * a driver can map by it, with byte 0 where it would be. Whether the engine fetches more than the samples that it uses is not said here.
 * Lengths are counted from byte 0 all the same, and whether a buffer is too short is judged by them alone. */
typedef struct {
    uint8_t number;
    uint64_t place;
    hromulice_lengths lengths;
    hromulice_lengths firsts;
} hromulice_report;

/* The answer to one command or one record. */
typedef struct {
    uint8_t number;
    uint64_t place;
} hromulice_answer;

/* The answer to a question for a mount sheet. With number 0 `edition` and `side`, 0 starboard or 1 port, are the sheet's. With every
 * other number both are 0, and 0 is starboard's number too: look at the number before the side. */
typedef struct {
    uint8_t number;
    uint64_t place;
    uint32_t edition;
    uint8_t side;
} hromulice_mount;

/* The answer to an adding. `count` is how many mount sheets there are after it: with number 0 one more than was given, with every other
 * number as many as were given. */
typedef struct {
    uint8_t number;
    uint64_t place;
    uint64_t count;
} hromulice_mounts;

/* The vector of a measured shift. With every number but 0 `x` and `y` are 0, which is a vector too: look at the number first. */
typedef struct {
    uint8_t number;
    uint64_t place;
    int16_t x;
    int16_t y;
} hromulice_shift;

/* The state of a check in parts, in memory that the caller lends. What the words mean is the library's own matter. Any content is
 * taken: words that hromulice_begin or hromulice_hand_over did not leave stand for some state too. It may be copied. There are more words
 * than a state has, so that a later library can keep more in them; a check goes on with the library version that began it. hromulice_state_words answers how many the library takes. */
#define HROMULICE_STATE_WORDS 128
typedef struct {
    uint64_t words[HROMULICE_STATE_WORDS];
} hromulice_state;

/* The version of the library, as HROMULICE_VERSION is that of this header. A header and a library of two versions are found out by
 *
 *     if (hromulice_version() != HROMULICE_VERSION)
 *
 * before any other call. A caller that takes later libraries too asks whether the library has the same major number and is not an
 * earlier one:
 *
 *     if (hromulice_version() / 65536 != HROMULICE_VERSION_MAJOR || hromulice_version() < HROMULICE_VERSION)
 */
HROMULICE_MUST_USE
uint32_t hromulice_version(void);

/* The words of a hromulice_state, as the library takes and writes them. A header that gives it another size is found out by
 *
 *     if (8 * hromulice_state_words() != sizeof(hromulice_state))
 *
 * before any call that lends one: with fewer words the library would write over what stands behind them. */
HROMULICE_MUST_USE
uint64_t hromulice_state_words(void);

/* Checks `count` words as a whole batch, with four buffers of these lengths. Writes nothing. */
HROMULICE_MUST_USE
hromulice_report hromulice_check(const uint32_t *words, size_t count, hromulice_lengths lengths);

/* Checks likewise, and with number 0 writes the log: the 24-byte record of the k-th macroblock at log + 24 * k, k from 0. Bytes beyond
 * the last record stay as they are, and with any other number all of them do. 14 comes last: the batch has no other fault, and its
 * place is the bytes that the log needs, 24 for each macroblock of the picture.
 *
 * A record has no room for the dct type (bit 15 of word 1) and for field prediction (type 04h). Of a macroblock that uses them it leaves
 * out the dct type, and holds a field prediction as forward by word 5's vector. Written back, it gives another command than it came from;
 * those of all other macroblocks give their own. */
HROMULICE_MUST_USE
hromulice_report hromulice_decode(const uint32_t *words, size_t count, hromulice_lengths lengths, uint8_t *log, size_t bytes);

/* Reads one MACROBLOCK command, its nine words from the header on; words after the ninth are not read. With number 0 the first 24
 * bytes of `record` are its record and the others stay; with any other number all of them do. The numbers are 0, 1, 2, 4, 5, 8, 11 and
 * 14, with place 24. What a record leaves out is said above. */
HROMULICE_MUST_USE
hromulice_answer hromulice_read_command(const uint32_t *words, size_t count, uint8_t *record, size_t bytes);

/* Writes the command of one record of 24 bytes. With number 0 the first nine words of `words` are the command and the others stay; with
 * any other number all of them do. The numbers are 0, 14, with place 9, and 15, with place 0 where `bytes` is not 24. */
HROMULICE_MUST_USE
hromulice_answer hromulice_write_command(const uint8_t *record, size_t bytes, uint32_t *words, size_t count);

/* A batch in parts: begin, hand over its parts in order, and ask for the report after any of them. The report is what hromulice_check
 * answers to all words so far, as one batch, with the lengths of hromulice_begin: for every list of parts, empty parts and no part at
 * all among them, and also after a refusal. */

/* Begins a check. Writes the whole state and reads nothing of it. */
void hromulice_begin(hromulice_lengths lengths, hromulice_state *state);

/* Takes the next `count` words of the batch. They are not needed after the call. After a refusal by another number than 1 and 13, which
 * more words can change, the state stays as it is, every word of it, whatever is handed over. */
void hromulice_hand_over(hromulice_state *state, const uint32_t *part, size_t count);

/* The report on all words so far. The state stays as it is, so that more parts can follow. */
HROMULICE_MUST_USE
hromulice_report hromulice_report_of(const hromulice_state *state);

/* Mount sheets. A sheet has 16 bytes, its numbers little-endian: the boat (4 bytes), the edition (4), the side (1: 0 starboard, 1 port)
 * and seven zero bytes. Sheets stand one behind the other from the first lent byte on, those of several boats mixed in any way. The
 * editions of one boat are 1, 2, 3 and so on, in this order; a boat is any number. The caller keeps the bytes and, beside them, `count`,
 * how many sheets there are: 0 before the first, then what hromulice_add_mount answered.
 *
 * Whoever asks or adds has all counted sheets judged first. 20 comes before every other number:
 * - `count` is more than the bytes hold: the place is the number that they can hold, bytes / 16 rounded down;
 * - otherwise the first counted sheet that is bad: the place is its number, from 0. Its side is above 1, one of its last seven bytes is
 *   not zero, or its edition is not its boat's next one, which is 1 on the boat's first sheet and on each other one more than on the
 *   boat's sheet before it.
 * Bytes behind the counted sheets are not judged.
 *
 * How long that takes is not proved. It is one pass over the counted sheets, with a look back from each for its boat's sheet before. With
 * a few hundred boats its time grows about as the number of sheets does; in the worst case, as many boats as sheets, as the square of
 * that number. */

/* The boat's newest sheet whose edition is not above `edition`: on which side the unit was then. With number 0 the answer has that
 * sheet's side and its edition, which is below `edition` where the boat has no sheet so new. Writes nothing. The numbers are 0 and, in
 * this order, 20 as above and 19, with place 0: the boat has no sheet of that edition or an earlier one. Edition 0 is on no sheet.
 *
 * No later adding changes the answer for an edition that the boat has, as long as each call gets the bytes as the last one left them and
 * the count that it answered. The answer for a later one changes with the boat's next sheet.
 *
 * What is judged is these bytes at this moment, and only whether they are sheets of this form. A side that somebody has changed, or a
 * count that is too small, is not found out: keep bytes and count where nobody else writes them. */
HROMULICE_MUST_USE
hromulice_mount hromulice_ask_mount(const uint8_t *sheets, size_t bytes, uint64_t count, uint32_t boat, uint32_t edition);

/* Adds the boat's next sheet behind the last one. With number 0 the 16 bytes at sheets + 16 * count are the sheet, all other bytes stay,
 * and the answer's count is `count` + 1. With any other number all bytes stay, and the answer's count is `count`. The numbers are 0 and,
 * in this order,
 * - 20 as above;
 * - 22, with place 0: `side` is above 1;
 * - 21, with place 0: `edition` is not the boat's next one, which is 1 for a boat without a sheet and otherwise one more than on its
 *   newest sheet. None follows 4294967295;
 * - 14, with place 0: fewer than 16 bytes are behind the counted sheets.
 *
 * A sheet that was added stays: what was wrong on it is put right by the next edition. But what is judged is these bytes at this moment,
 * and a count below the one that was answered last is not found out: the sheet that stands there is written over. */
HROMULICE_MUST_USE
hromulice_mounts hromulice_add_mount(uint8_t *sheets, size_t bytes, uint64_t count, uint32_t boat, uint32_t edition, uint32_t side);

/* The vector of a measured shift (x, y): (x, y) on starboard (`side` 0), (-x, y) on port (1). y is never touched. This is the one place
 * where a side becomes a sign: hand in the shift as it was measured, and turn no sign before or after, or it is turned twice. With any
 * other number than 0 the vector is (0, 0). The numbers are 0 and, in this order and with place 0, 22: `side` is above 1; and 23: x is
 * -32768 on port, since 32768 is no 16-bit number. */
HROMULICE_MUST_USE
hromulice_shift hromulice_mount_vector(uint32_t side, int16_t x, int16_t y);

#ifdef __cplusplus
}
#endif

/* The library was compiled for these layouts. */
#if SIZE_MAX != UINT64_MAX
#error "hromulice: size_t has 64 bits"
#endif
#if defined(__cplusplus) && __cplusplus >= 201103L
#define HROMULICE_LAYOUT(fact) static_assert(fact, "hromulice: another layout")
#elif defined(__STDC_VERSION__) && __STDC_VERSION__ >= 201112L
#define HROMULICE_LAYOUT(fact) _Static_assert(fact, "hromulice: another layout")
#endif
#ifdef HROMULICE_LAYOUT
HROMULICE_LAYOUT(sizeof(hromulice_lengths) == 32);
HROMULICE_LAYOUT(sizeof(hromulice_report) == 80 && offsetof(hromulice_report, place) == 8 && offsetof(hromulice_report, lengths) == 16
                 && offsetof(hromulice_report, firsts) == 48);
HROMULICE_LAYOUT(sizeof(hromulice_answer) == 16 && offsetof(hromulice_answer, place) == 8);
HROMULICE_LAYOUT(sizeof(hromulice_mount) == 24 && offsetof(hromulice_mount, place) == 8 && offsetof(hromulice_mount, edition) == 16
                 && offsetof(hromulice_mount, side) == 20);
HROMULICE_LAYOUT(sizeof(hromulice_mounts) == 24 && offsetof(hromulice_mounts, place) == 8 && offsetof(hromulice_mounts, count) == 16);
HROMULICE_LAYOUT(sizeof(hromulice_shift) == 24 && offsetof(hromulice_shift, place) == 8 && offsetof(hromulice_shift, x) == 16
                 && offsetof(hromulice_shift, y) == 18);
#undef HROMULICE_LAYOUT
#endif

#endif
