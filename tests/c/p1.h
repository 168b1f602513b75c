/* Document 01's case P1, "whole, 37 words in hex"; its macroblock's command is words 27 to 35. */
#include <stdint.h>

static const uint32_t p1[37] = {
    0x70010004, 0, 0x003C00F0, 0x480003FB, 0x10, 0,
    0x7300000B, 0xFFFF3400, 0x200, 0, 0, 0, 0, 0, 0, 0, 0, 0, 0,
    0x73430006, 0, 0, 0, 0, 0, 0, 0,
    0x73490007, 0x00003A00, 0, 0xFC0, 0xC5000001, 0, 0, 0, 0,
    0x05000000
};
