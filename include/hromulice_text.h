/* Hromulice: texts for the numbers of hromulice.h, to be shown to people. They are no part of the library, nothing proves them, and they
 * may be worded anew in any version. */
#ifndef HROMULICE_TEXT_H
#define HROMULICE_TEXT_H

#include "hromulice.h"

/* What an answer's number means. A number that no answer has gets a text that says so. */
HROMULICE_MUST_USE
static inline const char *hromulice_meaning(uint8_t number)
{
    switch (number) {
    case HROMULICE_ACCEPTED: return "accepted";
    case HROMULICE_WORDS_RUN_OUT: return "the words run out in a command or before END";
    case HROMULICE_UNKNOWN_HEADER: return "a word begins no command";
    case HROMULICE_OUT_OF_SEQUENCE: return "a command may not come here";
    case HROMULICE_FIXED_BIT: return "a bit that always has one value has the other";
    case HROMULICE_FIELD: return "a field has a value that is not permitted";
    case HROMULICE_POSITION: return "a macroblock is not at its position";
    case HROMULICE_FLAG: return "a slice or group flag does not agree";
    case HROMULICE_VECTOR_COPY: return "a missing vector is not the copy that it has to be";
    case HROMULICE_VECTOR_RANGE: return "a vector is beyond its f code";
    case HROMULICE_VECTOR_OUTSIDE: return "a vector points outside the picture";
    case HROMULICE_SKIP: return "a macroblock may not be skipped";
    case HROMULICE_AFTER_END: return "a word after END is not zero";
    case HROMULICE_BUFFER_SHORT: return "a picture buffer is too short";
    case HROMULICE_ROOM_SHORT: return "the lent room is too small";
    case HROMULICE_RECORD: return "a record is not legal";
    case HROMULICE_NO_LENGTHS: return "fewer than 32 bytes came before the batch";
    case HROMULICE_NO_SHEET: return "the boat has no sheet of that edition or an earlier one";
    case HROMULICE_SHEETS: return "the stored sheets are damaged, or fewer than were counted";
    case HROMULICE_EDITION: return "not the boat's next edition";
    case HROMULICE_SIDE: return "a side is neither starboard (0) nor port (1)";
    case HROMULICE_SHIFT: return "a shift of -32768 cannot be turned for port";
    case HROMULICE_TOO_MANY_WORDS: return "there are more than 4294967295 words";
    default: return "no answer has this number";
    }
}

/* The picture buffer that the place of HROMULICE_BUFFER_SHORT names. A place that names none gets a text that says so. */
HROMULICE_MUST_USE
static inline const char *hromulice_buffer_name(uint64_t place)
{
    switch (place) {
    case 0: return "source";
    case 1: return "reconstructed";
    case 2: return "forward reference";
    case 3: return "backward reference";
    default: return "no picture buffer has this number";
    }
}

/* The side of a mount sheet. A number that is no side's gets a text that says so. */
HROMULICE_MUST_USE
static inline const char *hromulice_side_name(uint8_t side)
{
    switch (side) {
    case 0: return "starboard";
    case 1: return "port";
    default: return "no side has this number";
    }
}

#endif
