#include "ask_mount.h"

#include <string.h>

static inline uint32_t boat_of(const uint8_t *record)
{
    uint32_t boat;
    memcpy(&boat, record, 4);
    return boat;
}

static inline uint32_t edition_of(const uint8_t *record)
{
    uint32_t edition;
    memcpy(&edition, record + 4, 4);
    return edition;
}

/* With the "seven zero bytes" above it. */
static inline uint64_t side_of(const uint8_t *record)
{
    uint64_t side;
    memcpy(&side, record + 8, 8);
    return side;
}

/* The boat's newest record not above the edition, before this one, or NULL. */
static inline const uint8_t *look_back(const uint8_t *sheets, const uint8_t *record, uint32_t boat, uint32_t edition)
{
    while (record != sheets) {
        record -= 16;
        if (boat_of(record) == boat && edition_of(record) <= edition)
            return record;
    }
    return NULL;
}

/* "Editions of one boat start at 1 and rise by one", and none follows 4294967295. */
static inline int good(const uint8_t *sheets, const uint8_t *record)
{
    const uint8_t *before = look_back(sheets, record, boat_of(record), UINT32_MAX);
    uint64_t newest = before == NULL ? 0 : edition_of(before);
    return side_of(record) <= 1 && edition_of(record) == newest + 1;
}

/* At a border of 64 bytes: the loop that looks back takes nearly twice as long if its jump lies across one, and the linker would
 * decide that. */
__attribute__((aligned(64)))
mount_answer ask_mount(const uint8_t *sheets, size_t bytes, uint64_t count, uint32_t boat, uint32_t edition)
{
    if (count > bytes / 16)
        return (mount_answer){.number = 20, .place = bytes / 16};
    for (uint64_t k = 0; k < count; k++)
        if (!good(sheets, sheets + 16 * k))
            return (mount_answer){.number = 20, .place = k};
    const uint8_t *found = look_back(sheets, sheets + 16 * count, boat, edition);
    if (found == NULL)
        return (mount_answer){.number = 19};
    return (mount_answer){.edition = edition_of(found), .side = side_of(found)};
}
