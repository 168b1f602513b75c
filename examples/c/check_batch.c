/* Checks a batch of commands before it would go to the engine, and shows what it holds.
 *
 *     check_batch FILE [LOG]
 *
 * FILE is what `./check` reads: the lengths in bytes of the four picture buffers, 8 bytes each, then the words of the batch, 4 bytes
 * each, all little-endian. The first line that is printed is the one of `./check`. Behind it stand the answers with their meanings, and
 * what the batch needs and touches of each buffer: it is checked in parts as it is read, then whole, which gives the same answer. One
 * that is accepted is decoded: its records are written to the file LOG, or printed. Ends with 0 if the batch is accepted, 1 if it is
 * refused, 2 if a file could not be read or written.
 *
 *     gcc -std=c99 -I include examples/c/check_batch.c target/staticlib/libhromulice.a -o check_batch
 */
#include <hromulice.h>
#include <hromulice_text.h>
#include <inttypes.h>
#include <stdio.h>
#include <stdlib.h>

#define LENGTHS_BYTES 32
#define PART_WORDS 1024
#define RECORD_BYTES 24

/* The words of a batch in memory that nobody else writes. */
typedef struct {
    uint32_t *words;
    size_t count;
    size_t room;
    size_t leftover; /* bytes behind the last whole word */
} batch;

static void fail(const char *why)
{
    fprintf(stderr, "check_batch: %s\n", why);
    exit(2);
}

/* Whether a report tells what the batch touches of the buffers. */
static int has_windows(hromulice_report report)
{
    return report.number == HROMULICE_ACCEPTED || report.number == HROMULICE_BUFFER_SHORT;
}

static void print_numbers(hromulice_lengths of)
{
    printf(" %" PRIu64 " %" PRIu64 " %" PRIu64 " %" PRIu64, of.source, of.reconstructed, of.forward, of.backward);
}

/* The line that `./check` prints. */
static void print_line(hromulice_report report)
{
    if (report.number == HROMULICE_ACCEPTED)
        printf("accept");
    else
        printf("refuse %d %" PRIu64, report.number, report.place);
    if (has_windows(report)) {
        print_numbers(report.lengths);
        print_numbers(report.firsts);
    }
    printf("\n");
}

/* What a driver maps of a buffer: from the first byte to below the length. */
static void print_window(int buffer, uint64_t first, uint64_t length)
{
    printf("  %s: ", hromulice_buffer_name((uint64_t)buffer));
    if (length == 0)
        printf("not touched\n");
    else
        printf("%" PRIu64 " bytes needed, touched from byte %" PRIu64 " to byte %" PRIu64 "\n", length, first, length - 1);
}

/* An answer with its meaning. */
static void print_report(const char *how, hromulice_report report)
{
    printf("%s: number %d, place %" PRIu64 ": %s", how, report.number, report.place, hromulice_meaning(report.number));
    if (report.number == HROMULICE_BUFFER_SHORT)
        printf(" (%s)", hromulice_buffer_name(report.place));
    printf("\n");
    if (has_windows(report)) {
        print_window(0, report.firsts.source, report.lengths.source);
        print_window(1, report.firsts.reconstructed, report.lengths.reconstructed);
        print_window(2, report.firsts.forward, report.lengths.forward);
        print_window(3, report.firsts.backward, report.lengths.backward);
    }
}

/* Reads up to `most` bytes. Fewer come only at the end of the file. */
static size_t read_bytes(FILE *file, uint8_t *bytes, size_t most)
{
    size_t count = fread(bytes, 1, most, file);
    if (ferror(file))
        fail("the file cannot be read");
    return count;
}

static uint32_t word_at(const uint8_t *b)
{
    return (uint32_t)b[0] | (uint32_t)b[1] << 8 | (uint32_t)b[2] << 16 | (uint32_t)b[3] << 24;
}

static uint64_t length_at(const uint8_t *b)
{
    return word_at(b) | (uint64_t)word_at(b + 4) << 32;
}

static hromulice_lengths lengths_at(const uint8_t *b)
{
    hromulice_lengths lengths;
    lengths.source = length_at(b);
    lengths.reconstructed = length_at(b + 8);
    lengths.forward = length_at(b + 16);
    lengths.backward = length_at(b + 24);
    return lengths;
}

/* Room for one more part. */
static void make_room(batch *b)
{
    if (b->room - b->count >= PART_WORDS)
        return;
    b->room = 2 * b->room + PART_WORDS;
    b->words = (uint32_t *)realloc(b->words, b->room * sizeof *b->words);
    if (b->words == NULL)
        fail("there is no memory for the batch");
}

/* Reads the batch to the end of the file, and hands over each part of it as it comes. The state has one size, however long the batch is;
 * a caller that does not decode need not keep the words. */
static void read_batch(FILE *file, batch *b, hromulice_state *state)
{
    uint8_t bytes[4 * PART_WORDS];
    size_t given, words, i;
    do {
        given = read_bytes(file, bytes, sizeof bytes);
        words = given / 4;
        make_room(b);
        for (i = 0; i < words; i++)
            b->words[b->count + i] = word_at(bytes + 4 * i);
        hromulice_hand_over(state, b->words + b->count, words);
        b->count += words;
        b->leftover = given % 4;
    } while (given == sizeof bytes);
}

static hromulice_report refusal(uint8_t number, uint64_t place)
{
    hromulice_report report = {0, 0, {0, 0, 0, 0}, {0, 0, 0, 0}};
    report.number = number;
    report.place = place;
    return report;
}

/* One to three bytes behind the whole words are a word that is cut off, unless something else was refused. */
static hromulice_report of_file(hromulice_report report, const batch *b)
{
    if (report.number == HROMULICE_ACCEPTED && b->leftover != 0)
        return refusal(HROMULICE_WORDS_RUN_OUT, b->count);
    return report;
}

/* One record: 16-bit numbers are little-endian, vectors two's complement in half samples. */
static void print_record(const uint8_t *r)
{
    static const char *const kinds[] = {"intra", "forward", "backward", "both"};
    int v[4], i;
    for (i = 0; i < 4; i++) {
        int half = r[16 + 2 * i] | r[17 + 2 * i] << 8;
        v[i] = half < 0x8000 ? half : half - 0x10000;
    }
    printf("  column %d, row %d: %s%s, pattern %d, quantiser %d, forward (%d, %d), backward (%d, %d)\n", r[0] | r[1] << 8,
           r[2] | r[3] << 8, kinds[r[6]], r[7] ? ", skipped" : "", r[8], r[11], v[0], v[1], v[2], v[3]);
}

static void write_log(const char *path, const uint8_t *log, size_t bytes)
{
    FILE *file = fopen(path, "wb");
    if (file == NULL || fwrite(log, 1, bytes, file) != bytes || fclose(file) != 0)
        fail("the log cannot be written");
}

/* An accepted batch to its records. Without a log the answer is 14, and its place the bytes that are needed. */
static void decode(const batch *b, hromulice_lengths lengths, const char *path)
{
    uint8_t none;
    size_t bytes = (size_t)hromulice_decode(b->words, b->count, lengths, &none, 0).place, at;
    uint8_t *log = (uint8_t *)malloc(bytes);
    if (log == NULL || hromulice_decode(b->words, b->count, lengths, log, bytes).number != HROMULICE_ACCEPTED)
        fail("there is no memory for the log");
    printf("decoded: %lu records\n", (unsigned long)(bytes / RECORD_BYTES));
    if (path != NULL)
        write_log(path, log, bytes);
    else
        for (at = 0; at < bytes; at += RECORD_BYTES)
            print_record(log + at);
    free(log);
}

/* Checks the batch behind the lengths, and shows it. */
static hromulice_report check(FILE *file, hromulice_lengths lengths, const char *log)
{
    batch b = {NULL, 0, 0, 0};
    hromulice_state state;
    hromulice_report report;
    hromulice_begin(lengths, &state);
    read_batch(file, &b, &state);
    report = of_file(hromulice_check(b.words, b.count, lengths), &b);
    print_line(report);
    print_report("in parts", of_file(hromulice_report_of(&state), &b));
    print_report("whole", report);
    if (report.number == HROMULICE_ACCEPTED)
        decode(&b, lengths, log);
    free(b.words);
    return report;
}

int main(int argc, char **argv)
{
    uint8_t lengths[LENGTHS_BYTES];
    hromulice_report report;
    size_t given;
    FILE *file;
    if (argc < 2 || argc > 3)
        fail("usage: check_batch FILE [LOG]");
    if (hromulice_version() != HROMULICE_VERSION)
        fail("the library is not of version " HROMULICE_VERSION_TEXT);
    if (8 * hromulice_state_words() != sizeof(hromulice_state))
        fail("the library takes a state of another size");
    file = fopen(argv[1], "rb");
    if (file == NULL)
        fail("the file cannot be opened");
    given = read_bytes(file, lengths, sizeof lengths);
    if (given == sizeof lengths) {
        report = check(file, lengths_at(lengths), argc == 3 ? argv[2] : NULL);
    } else {
        report = refusal(HROMULICE_NO_LENGTHS, given);
        print_line(report);
        print_report("file", report);
    }
    fclose(file);
    if (fflush(stdout) != 0 || ferror(stdout))
        fail("standard output cannot be written");
    return report.number == HROMULICE_ACCEPTED ? 0 : 1;
}
