/* Stops a decoding inside an iteration, as a receiver on a battery does. Two frames carry the same six
 * symbols, of which three arrive wrong in the first and one in the second. Both calls find them;
 * petsivola_decode tests after each iteration, which is four check updates, and petsivola_decode_early
 * after each update, so it needs fewer. Stopped inside the first iteration it writes the records of the
 * updated checks alone. A frame that is cut short is refused. Prints the updates of both calls, as in
 * early.out. From the repository's root, after make library:
 *
 *     gcc -std=c99 -Wall -Wextra -Werror -pedantic -Iinclude examples/early.c \
 *         target/staticlib/libpetsivola.a -o target/example-early && target/example-early
 */
#include <stdio.h>
#include <string.h>

#include "petsivola.h"

/* The code: p = 2, k = 2 and the sum, N = 6, M = 4, g = 12, I = 8, and four checks of degree 3. */
enum { FIRST = PETSIVOLA_FIRST(2, 2, 0), COLUMNS = 6, CHECKS = 4, DEGREE = 3, LIMIT = 8 };
enum { EDGES = CHECKS * DEGREE, FRAME = PETSIVOLA_FRAME_LENGTH(FIRST, COLUMNS) };

static const uint8_t code[PETSIVOLA_CODE_LENGTH(CHECKS, EDGES)] = {
    FIRST, 0, COLUMNS, CHECKS, 12, LIMIT,
    DEGREE,  0, 0, 1,  0, 1, 2,  0, 3, 1,
    DEGREE,  0, 1, 1,  0, 2, 3,  0, 4, 1,
    DEGREE,  0, 0, 2,  0, 2, 1,  0, 5, 1,
    DEGREE,  0, 3, 1,  0, 4, 2,  0, 5, 3,
};

/* What the radio received. The symbols 2, 2, 0, 1, 2, 3 were sent; 0, 3, 2, 1, 2, 3 cost 0 in the first
 * frame, and 0, 2, 0, 1, 2, 3 in the second. */
static const uint8_t three_wrong[FRAME] = {
    0, 9, 3, 11,  4, 15, 2, 0,  4, 8, 0, 13,  6, 0, 13, 10,  11, 10, 0, 8,  8, 7, 10, 0,
};
static const uint8_t one_wrong[FRAME] = {
    0, 11, 2, 12,  14, 8, 0, 10,  0, 9, 13, 12,  7, 0, 13, 10,  11, 10, 0, 8,  8, 7, 10, 0,
};

/* The lent buffers, exactly as long as this code needs them. */
static uint8_t symbols[COLUMNS];
static uint16_t costs[FRAME];
static uint8_t store[PETSIVOLA_STORE_LENGTH(FIRST, CHECKS, EDGES)];
static uint16_t margins[PETSIVOLA_MARGINS_LENGTH(COLUMNS)];

/* What symbols and store hold before each call. No record starts with it: a shift is below q. */
enum { MARK = 0xEE };

static void mark(void)
{
    memset(symbols, MARK, sizeof symbols);
    memset(store, MARK, sizeof store);
}

/* The places of the store that hold a record. */
static unsigned records(void)
{
    unsigned count = 0;

    for (size_t m = 0; m < CHECKS; m++) {
        count += store[m * PETSIVOLA_RECORD_LENGTH(FIRST, DEGREE)] != MARK;
    }
    return count;
}

/* Prints what a call answered and left. */
static void print(const char *name, uint32_t result, unsigned updates)
{
    printf("%-12s number %2u, updates %2u, records %u, symbols ", name,
           (unsigned)PETSIVOLA_NUMBER(result), updates, records());
    for (size_t n = 0; n < COLUMNS; n++) {
        printf("%02X", (unsigned)symbols[n]);
    }
    printf("\n");
}

/* Decodes so many costs of a frame by both calls. */
static void receive(const uint8_t *frame, size_t length)
{
    uint32_t result;

    mark();
    result = petsivola_decode(code, sizeof code, frame, length, symbols, sizeof symbols,
                              costs, sizeof costs / sizeof costs[0], store, sizeof store,
                              margins, sizeof margins / sizeof margins[0]);
    /* An iteration updates every check once. */
    print("decode", result, CHECKS * (unsigned)PETSIVOLA_VALUE(result));
    mark();
    result = petsivola_decode_early(code, sizeof code, frame, length, symbols, sizeof symbols,
                                    costs, sizeof costs / sizeof costs[0], store, sizeof store,
                                    margins, sizeof margins / sizeof margins[0]);
    print("decode_early", result, (unsigned)PETSIVOLA_VALUE(result));
}

int main(void)
{
    receive(three_wrong, FRAME);
    receive(one_wrong, FRAME);
    /* A cost is missing: PETSIVOLA_COST_COUNT, and nothing is written. */
    receive(one_wrong, FRAME - 1);
    return 0;
}
