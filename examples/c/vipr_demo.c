/* Checks the certificate in the file that is named: prints `verified` and the names of its constraints, or the refusal. README.md
 * has the commands. */
#include <stdio.h>

#include "vipr.h"

/* One byte more than may be read, so that a longer file is refused as too long. */
static uint8_t text[32768 + 1];
static uint16_t index_table[VIPR_INDEX_CELLS];
static int32_t value_table[VIPR_VALUE_CELLS];
static uint16_t row_table[VIPR_ROW_CELLS];

int main(int argc, char **argv)
{
    FILE *file;
    size_t length, size;
    uint32_t line;
    uint8_t status;
    int row, failed;

    if (argc != 2) {
        fprintf(stderr, "usage: vipr_demo FILE\n");
        return 2;
    }
    file = fopen(argv[1], "rb");
    if (file == NULL) {
        perror(argv[1]);
        return 2;
    }
    length = fread(text, 1, sizeof text, file);
    failed = ferror(file);
    fclose(file);
    if (failed) {
        fprintf(stderr, "%s: cannot be read\n", argv[1]);
        return 2;
    }

    status = vipr_verify(text, length, index_table, VIPR_INDEX_CELLS, value_table, VIPR_VALUE_CELLS, row_table, VIPR_ROW_CELLS,
                         &line);
    if (status != VIPR_OK) {
        printf("refused %d %lu\n", status, (unsigned long)line);
        return 1;
    }
    printf("verified\n");

    /* Row r has the place of the name of constraint r in its first cell; a row without a constraint has length 0. */
    for (row = 0; row < 1024 && row_table[4 * row + 1] != 0; row++) {
        const uint16_t *cells = row_table + 4 * row;
        size = vipr_show_token(text, length, cells[0]);
        printf("%d: %.*s\n", row, (int)size, (const char *)text + cells[0]);
    }
    return 0;
}
