/* Decodes four frames with one allowance of iterations, as a base station does that serves several
 * boxes: a clean frame, two with errors, and one that is refused. An allowance of 3 iterations is too
 * small for all: one frame with errors is found and the other is spent. With an allowance that is
 * enough both are found. Prints what became of each channel, as in channels.out. From the repository's
 * root, after make library:
 *
 *     gcc -std=c99 -Wall -Wextra -Werror -pedantic -Iinclude examples/channels.c \
 *         target/staticlib/libpetsivola.a -o target/example-channels && target/example-channels
 */
#include <stdio.h>

#include "petsivola.h"

/* The code: p = 2, k = 2 and the sum, N = 6, M = 4, g = 12, I = 8, and four checks of degree 3. */
enum { FIRST = PETSIVOLA_FIRST(2, 2, 0), COLUMNS = 6, CHECKS = 4, EDGES = 12, LIMIT = 8 };
enum { CHANNELS = 4, FRAME = PETSIVOLA_FRAME_LENGTH(FIRST, COLUMNS) };

static const uint8_t code[PETSIVOLA_CODE_LENGTH(CHECKS, EDGES)] = {
    FIRST, 0, COLUMNS, CHECKS, 12, LIMIT,
    3,  0, 0, 1,  0, 1, 2,  0, 3, 1,
    3,  0, 1, 1,  0, 2, 3,  0, 4, 1,
    3,  0, 0, 2,  0, 2, 1,  0, 5, 1,
    3,  0, 3, 1,  0, 4, 2,  0, 5, 3,
};

/* What the radio received, end to end by channel. Every box sent the symbols 2, 2, 0, 1, 2, 3. */
static const uint8_t frames[CHANNELS * FRAME] = {
    /* Channel 0: clean. */
    9, 11, 0, 12,  14, 8, 0, 10,  0, 9, 13, 12,  7, 0, 13, 10,  11, 10, 0, 8,  8, 7, 10, 0,
    /* Channel 1: the symbols 0, 3, 2, 1, 2, 3 cost 0. */
    0, 9, 3, 11,  4, 15, 2, 0,  4, 8, 0, 13,  6, 0, 13, 10,  11, 10, 0, 8,  8, 7, 10, 0,
    /* Channel 2: its first column has no cost of 0. */
    9, 11, 1, 12,  14, 8, 0, 10,  0, 9, 13, 12,  7, 0, 13, 10,  11, 10, 0, 8,  8, 7, 10, 0,
    /* Channel 3: the symbols 0, 2, 0, 1, 2, 3 cost 0. */
    0, 11, 2, 12,  14, 8, 0, 10,  0, 9, 13, 12,  7, 0, 13, 10,  11, 10, 0, 8,  8, 7, 10, 0,
};

/* The lent buffers, exactly as long as the four channels need them. */
static uint8_t symbols[CHANNELS * COLUMNS];
static uint16_t costs[CHANNELS * FRAME];
static uint8_t store[CHANNELS * PETSIVOLA_STORE_LENGTH(FIRST, CHECKS, EDGES)];
static uint16_t margins[CHANNELS * PETSIVOLA_MARGINS_LENGTH(COLUMNS)];

static const char *status_name(uint8_t status)
{
    switch (status) {
    case PETSIVOLA_FOUND:
        return "found";
    case PETSIVOLA_NOT_FOUND:
        return "not found";
    case PETSIVOLA_SPENT:
        return "spent";
    default:
        return "refused";
    }
}

/* Serves all channels and prints what became of them. A refused channel's symbols are those of before
 * the call. */
static void serve(uint32_t allowance)
{
    struct petsivola_served served =
        petsivola_channels(CHANNELS, allowance, code, sizeof code, frames, sizeof frames,
                           symbols, sizeof symbols,
                           costs, sizeof costs / sizeof costs[0],
                           store, sizeof store,
                           margins, sizeof margins / sizeof margins[0]);

    if (served.number != PETSIVOLA_ACCEPTED) {
        printf("allowance %u: refused by %u\n", (unsigned)allowance, (unsigned)served.number);
        return;
    }
    printf("allowance %u: spent %u\n", (unsigned)allowance, (unsigned)served.spent);
    for (size_t c = 0; c < CHANNELS; c++) {
        printf("channel %u: status %2u, %-7s iterations %u, symbols ", (unsigned)c,
               (unsigned)served.status[c], status_name(served.status[c]),
               (unsigned)served.iterations[c]);
        for (size_t n = 0; n < COLUMNS; n++) {
            printf("%02X", (unsigned)symbols[c * COLUMNS + n]);
        }
        printf("\n");
    }
}

int main(void)
{
    serve(3);
    /* Always enough. */
    serve(CHANNELS * LIMIT);
    return 0;
}
