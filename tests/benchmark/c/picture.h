/* What the state commands say, and their rules. */
#ifndef PICTURE_H
#define PICTURE_H

#include "fault.h"

enum { I_PICTURE = 1, P_PICTURE = 2, B_PICTURE = 3 };

typedef struct {
    /* SURFACE */
    uint32_t width, height, pitch, chroma_row;
    /* PICTURE */
    uint32_t type, columns, rows;
    /* "PICTURE bit 10 may now be 0": whether it is. */
    int fields;
    /* "With f code c a component lies from −16·2^(c−1) to 16·2^(c−1)−1": this is 16·2^(c−1) for forward x, forward y,
     * backward x, backward y, and 16 for a direction that the picture does not have. */
    int16_t reach[4];
} picture;

fault read_surface(picture *p, const uint32_t *command);
fault read_picture(picture *p, const uint32_t *command);

#endif
