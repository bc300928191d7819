/* Reads the words of the command line as values: prints the fraction that each spells, or its refusal. README.md has the
 * commands. */
#include <stdio.h>
#include <string.h>

#include "vipr.h"

int main(int argc, char **argv)
{
    int32_t num, den;
    uint8_t status;
    int word, refused = 0;

    for (word = 1; word < argc; word++) {
        status = vipr_read_value((const uint8_t *)argv[word], strlen(argv[word]), &num, &den);
        if (status == VIPR_OK) {
            printf("%s = %ld/%ld\n", argv[word], (long)num, (long)den);
        } else {
            printf("%s: refused %d\n", argv[word], status);
            refused = 1;
        }
    }
    return refused;
}
