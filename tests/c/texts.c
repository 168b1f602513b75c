/* Prints the texts of hromulice_text.h as texts.txt has them: each number, each buffer and each side with a text of its own. 255 is no
 * answer's number and no side, and the greatest place is no buffer's: their texts are those of all others. */
#include <hromulice_text.h>
#include <stdio.h>
#include <string.h>

int main(void)
{
    int number;
    for (number = 0; number < 256; number++)
        if (strcmp(hromulice_meaning((uint8_t)number), hromulice_meaning(255)) != 0)
            printf("%d %s\n", number, hromulice_meaning((uint8_t)number));
    for (number = 0; number < 1000; number++)
        if (strcmp(hromulice_buffer_name((uint64_t)number), hromulice_buffer_name(UINT64_MAX)) != 0)
            printf("buffer %d %s\n", number, hromulice_buffer_name((uint64_t)number));
    for (number = 0; number < 256; number++)
        if (strcmp(hromulice_side_name((uint8_t)number), hromulice_side_name(255)) != 0)
            printf("side %d %s\n", number, hromulice_side_name((uint8_t)number));
    return 0;
}
