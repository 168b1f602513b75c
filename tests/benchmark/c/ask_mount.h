/* Document 02's mount sheets, R-9, in C for a little-endian processor: what asking for one is measured by.
 *
 * It is what one would write without allocating: for each record a look back from the one before it for its boat's last. The
 * tests of rust/benchmark hold its answers to the second program's.
 */
#ifndef ASK_MOUNT_H
#define ASK_MOUNT_H

#include <stddef.h>
#include <stdint.h>

/* With number 0 the sheet that is found. Else edition and side are zeros. */
typedef struct {
    uint64_t number;
    uint64_t place;
    uint32_t edition;
    uint32_t side;
} mount_answer;

/* The boat's newest sheet not above the edition, among the first `count` in so many bytes. */
mount_answer ask_mount(const uint8_t *sheets, size_t bytes, uint64_t count, uint32_t boat, uint32_t edition);

#endif
