/* Combines the frames of two blows, as a crew needs it that strikes twice because the radio is weak. The
 * box sends the same six symbols after each blow. Three of them arrive wrong each time, and neither frame
 * is found; combined, two are still wrong, and decoding corrects them. A second frame that is cut short is
 * refused. Prints what became of each frame, as in combine.out. From the repository's root, after
 * make library:
 *
 *     gcc -std=c99 -Wall -Wextra -Werror -pedantic -Iinclude examples/combine.c \
 *         target/staticlib/libpetsivola.a -o target/example-combine && target/example-combine
 */
#include <stdio.h>

#include "petsivola.h"

/* The code: p = 2, k = 2 and the sum, N = 6, M = 4, g = 12, I = 8, and four checks of degree 3. */
enum { FIRST = PETSIVOLA_FIRST(2, 2, 0), COLUMNS = 6, CHECKS = 4, EDGES = 12, LIMIT = 8 };
enum { FRAME = PETSIVOLA_FRAME_LENGTH(FIRST, COLUMNS) };

static const uint8_t code[PETSIVOLA_CODE_LENGTH(CHECKS, EDGES)] = {
    FIRST, 0, COLUMNS, CHECKS, 12, LIMIT,
    3,  0, 0, 1,  0, 1, 2,  0, 3, 1,
    3,  0, 1, 1,  0, 2, 3,  0, 4, 1,
    3,  0, 0, 2,  0, 2, 1,  0, 5, 1,
    3,  0, 3, 1,  0, 4, 2,  0, 5, 3,
};

/* What the box sent, both times. */
static const uint8_t sent[COLUMNS] = { 2, 2, 0, 1, 2, 3 };

/* What the radio received. The symbols 3, 1, 1, 1, 2, 3 cost 0, then 0, 1, 0, 1, 2, 1. */
static const uint8_t first[FRAME] = {
    9, 11, 5, 0,  12, 0, 4, 8,  5, 0, 11, 9,  12, 0, 8, 7,  13, 4, 0, 9,  11, 7, 11, 0,
};
static const uint8_t second[FRAME] = {
    0, 11, 4, 5,  14, 0, 1, 9,  0, 15, 7, 15,  12, 0, 4, 5,  8, 13, 0, 7,  4, 0, 5, 5,
};

/* The lent buffers, exactly as long as this code needs them. */
static uint8_t combined[FRAME];
static uint8_t symbols[COLUMNS];
static uint16_t costs[FRAME];
static uint8_t store[PETSIVOLA_STORE_LENGTH(FIRST, CHECKS, EDGES)];
static uint16_t margins[PETSIVOLA_MARGINS_LENGTH(COLUMNS)];

static void print_symbols(const uint8_t *list)
{
    for (size_t n = 0; n < COLUMNS; n++) {
        printf("%02X", (unsigned)list[n]);
    }
    printf("\n");
}

/* Decodes a frame and prints what became of it. */
static void decode(const char *name, const uint8_t *frame)
{
    uint32_t result = petsivola_decode(code, sizeof code, frame, FRAME,
                                       symbols, sizeof symbols,
                                       costs, sizeof costs / sizeof costs[0],
                                       store, sizeof store,
                                       margins, sizeof margins / sizeof margins[0]);

    printf("%-8s number %u, iterations %u, symbols ", name,
           (unsigned)PETSIVOLA_NUMBER(result), (unsigned)PETSIVOLA_VALUE(result));
    print_symbols(symbols);
}

/* Combines the first frame with so many costs of the second, and prints the answer. */
static uint32_t combine(size_t second_length)
{
    uint32_t result = petsivola_combine(code, sizeof code, first, sizeof first,
                                        second, second_length, combined, sizeof combined);

    printf("combine  number %u, costs %u\n",
           (unsigned)PETSIVOLA_NUMBER(result), (unsigned)PETSIVOLA_VALUE(result));
    return result;
}

int main(void)
{
    printf("%-8s symbols ", "sent");
    print_symbols(sent);
    decode("first", first);
    decode("second", second);
    if (PETSIVOLA_NUMBER(combine(sizeof second)) == PETSIVOLA_ACCEPTED) {
        decode("combined", combined);
    }
    /* A cost is missing: PETSIVOLA_SECOND_FRAME. */
    combine(sizeof second - 1);
    return 0;
}
