/* Ends with 0 if the header's numbers, its text and the library's version agree, and prints the text. */
#include <hromulice.h>
#include <stdio.h>
#include <string.h>

/* The packed number is a constant expression, for the preprocessor too. */
#if HROMULICE_VERSION / 65536 != HROMULICE_VERSION_MAJOR
#error "the packed number is another version's"
#endif
enum { constant = HROMULICE_VERSION };

int main(void)
{
    char text[32];
    snprintf(text, sizeof text, "%d.%d.%d", HROMULICE_VERSION_MAJOR, HROMULICE_VERSION_MINOR, HROMULICE_VERSION_PATCH);
    printf("%s\n", HROMULICE_VERSION_TEXT);
    if (strcmp(text, HROMULICE_VERSION_TEXT) != 0 || hromulice_version() != HROMULICE_VERSION)
        return 1;
    return constant / 256 % 256 != HROMULICE_VERSION_MINOR || constant % 256 != HROMULICE_VERSION_PATCH;
}
