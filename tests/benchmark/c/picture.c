#include "picture.h"

fault read_surface(picture *p, const uint32_t *command)
{
    /* 1: zero. */
    if (command[1] != 0)
        return fault_at(4, 1);
    /* 2: height−1 in 31:18, width−1 in 17:4, 3:0 zero. */
    if (command[2] & 0x0000000f)
        return fault_at(4, 2);
    p->height = (command[2] >> 18) + 1;
    p->width = (command[2] >> 4 & 0x3fff) + 1;
    /* 3: 31:28 = 4, 27 = 1, 26:20 zero, pitch−1 in 19:3, bit 2 zero, 1:0 = 3; the pitch is a multiple of 128. */
    if ((command[3] & 0xfff00007) != 0x48000003)
        return fault_at(4, 3);
    p->pitch = (command[3] >> 3 & 0x1ffff) + 1;
    if (p->pitch % 128 != 0)
        return fault_at(5, 3);
    /* 4: first chroma row C in 14:0, the rest zero. */
    if (command[4] & 0xffff8000)
        return fault_at(4, 4);
    p->chroma_row = command[4];
    return no_fault;
}

/* "With I all f codes are 15; with P forward 1 to 9, backward 15; with B all 1 to 9." */
static int f_codes_permitted(uint32_t type, uint32_t codes)
{
    for (uint32_t n = 0; n < 4; n++) {
        uint32_t code = codes >> (4 * n) & 15;
        int predicts = type == B_PICTURE || (type == P_PICTURE && n < 2);
        if (predicts ? code < 1 || code > 9 : code != 15)
            return 0;
    }
    return 1;
}

fault read_picture(picture *p, const uint32_t *command)
{
    /* 1: f codes forward x 19:16, forward y 23:20, backward x 27:24, backward y 31:28; 13:12 = 3, 9 = 0, 5:0 zero. */
    if ((command[1] & 0x0000323f) != 0x00003000)
        return fault_at(4, 1);
    p->fields = !(command[1] & 0x00000400);
    /* 2: type in 10:9, 1 I, 2 P, 3 B. The f codes are judged here. */
    uint32_t codes = command[1] >> 16;
    p->type = command[2] >> 9 & 3;
    if (p->type == 0 || !f_codes_permitted(p->type, codes))
        return fault_at(5, 2);
    for (uint32_t n = 0; n < 4; n++) {
        uint32_t code = codes >> (4 * n) & 15;
        p->reach[n] = (int16_t)(code == 15 ? 16 : 8 << code);
    }
    /* 3: W−1 in 7:0, H−1 in 23:16; H at most 175, 16(W−1) < width ≤ 16W, 16(H−1) < height ≤ 16H, pitch ≥ 16W, C ≥ 16H. */
    p->columns = (command[3] & 0xff) + 1;
    p->rows = (command[3] >> 16 & 0xff) + 1;
    uint32_t whole_width = 16 * p->columns, whole_height = 16 * p->rows;
    if (p->rows > 175 || p->width > whole_width || p->width + 16 <= whole_width || p->height > whole_height ||
        p->height + 16 <= whole_height || p->pitch < whole_width || p->chroma_row < whole_height)
        return fault_at(5, 3);
    return no_fault;
}
