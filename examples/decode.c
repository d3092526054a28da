/* Decodes document 01's frame and prints the line that the program decode prints for it: 0001010100,
 * found, one iteration, symbols 1, 1, 0. The margins, not printed, are 1, 1, 1: with each symbol the
 * next one costs 1 more. The code line says how long the buffers have to be, so that main would do the
 * same for any other; encode.c has buffers for one code, without a heap. From the repository's root,
 * after make library:
 *
 *     gcc -std=c99 -Wall -Wextra -Werror -pedantic -Iinclude examples/decode.c \
 *         target/staticlib/libpetsivola.a -o target/example-c && target/example-c
 */
#include <stdio.h>
#include <stdlib.h>

#include "petsivola.h"

/* The code line: p = 2, k = 2 and the sum, N = 3, M = 1, g = 16, I = 1, and one check on columns 0, 1, 2
 * with weights 1. With PETSIVOLA_FIRST(2, 3, 0), for k = 3, or PETSIVOLA_FIRST(2, 2, 1), for Min-Max,
 * all else below stays as it is. */
static const uint8_t code[] = {
    PETSIVOLA_FIRST(2, 2, 0), 0, 3, 1, 16, 1,
    3, 0, 0, 1, 0, 1, 1, 0, 2, 1,
};

/* What the radio received: four costs for each column. */
static const uint8_t frame[] = {
    5, 0, 9, 7,
    0, 4, 8, 3,
    0, 6, 2, 10,
};

/* Number and value, then the symbols if there are any. */
static void print(unsigned number, unsigned value, const uint8_t *symbols, size_t count)
{
    printf("%02X%02X", number, value);
    for (size_t n = 0; n < count; n++) {
        printf("%02X", (unsigned)symbols[n]);
    }
    printf("\n");
}

int main(void)
{
    struct petsivola_code c = petsivola_code_line(code, sizeof code);

    if (c.number != PETSIVOLA_ACCEPTED) {
        print(c.number, 0, NULL, 0);
        return 0;
    }

    /* The lent buffers, exactly as long as this code line needs them. */
    size_t costs_len = PETSIVOLA_FRAME_LENGTH(c.first, c.columns);
    uint8_t *symbols = malloc(c.columns);
    uint16_t *costs = malloc(costs_len * sizeof *costs);
    uint8_t *store = malloc(c.store);
    uint16_t *margins = malloc(c.columns * sizeof *margins);

    if (symbols == NULL || costs == NULL || store == NULL || margins == NULL) {
        fprintf(stderr, "no memory\n");
        return 1;
    }

    uint32_t result = petsivola_decode(code, sizeof code, frame, sizeof frame,
                                       symbols, c.columns,
                                       costs, costs_len,
                                       store, c.store,
                                       margins, c.columns);
    unsigned number = (unsigned)PETSIVOLA_NUMBER(result);
    int decoded = number == PETSIVOLA_FOUND || number == PETSIVOLA_NOT_FOUND;

    print(number, (unsigned)PETSIVOLA_VALUE(result), symbols, decoded ? c.columns : 0);
    free(symbols);
    free(costs);
    free(store);
    free(margins);
    return 0;
}
