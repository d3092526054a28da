/* Encodes a message, sends it bit by bit through noise, and decodes what arrives. Prints the message,
 * the word that was sent, the symbols that arrived, the word that was decoded and how sure each of its
 * symbols is, as in encode.out. From the repository's root, after make library:
 *
 *     gcc -std=c99 -Wall -Wextra -Werror -pedantic -Iinclude examples/encode.c \
 *         target/staticlib/libpetsivola.a -o target/example-encode && target/example-encode
 */
#include <stdio.h>
#include <stdlib.h>

#include "petsivola.h"

/* The code: p = 4, k = 2 and the sum, N = 12, M = 6, g = 14, I = 20. Check m, counted from 0, contains
 * column 6 + m and no higher one, which is what petsivola_encode asks for; each line below ends with
 * that column. */
enum { P = 4, FIRST = PETSIVOLA_FIRST(P, 2, 0), Q = 16, COLUMNS = 12, CHECKS = 6, EDGES = 23 };

static const uint8_t code[PETSIVOLA_CODE_LENGTH(CHECKS, EDGES)] = {
    FIRST, 0, COLUMNS, CHECKS, 14, 20,
    3,  0, 0, 1,   0, 1, 7,               0, 6, 3,
    4,  0, 2, 5,   0, 3, 2,   0, 6, 9,    0, 7, 12,
    4,  0, 4, 11,  0, 5, 6,   0, 7, 1,    0, 8, 14,
    4,  0, 0, 8,   0, 3, 13,  0, 8, 4,    0, 9, 1,
    4,  0, 1, 10,  0, 4, 3,   0, 9, 15,   0, 10, 7,
    4,  0, 2, 2,   0, 5, 9,   0, 10, 5,   0, 11, 8,
};

static const uint8_t message[PETSIVOLA_MESSAGE_LENGTH(COLUMNS, CHECKS)] = {4, 11, 0, 7, 15, 2};

/* The lent buffers, exactly as long as this code needs them. */
static uint8_t sent[COLUMNS];
static uint8_t frame[PETSIVOLA_FRAME_LENGTH(FIRST, COLUMNS)];
static uint8_t decoded[COLUMNS];
static uint16_t costs[PETSIVOLA_FRAME_LENGTH(FIRST, COLUMNS)];
static uint8_t store[PETSIVOLA_STORE_LENGTH(FIRST, CHECKS, EDGES)];
static uint16_t margins[PETSIVOLA_MARGINS_LENGTH(COLUMNS)];

/* Noise from -18 to 18, the same in every run. */
static int noise(void)
{
    static uint32_t state = 1;
    int sum = 0;

    for (int i = 0; i < 3; i++) {
        state = state * 1664525u + 1013904223u;
        sum += (int)(state >> 16) % 13 - 6;
    }
    return sum;
}

/* Sends one symbol. A bit goes out as -8 or 8 and arrives with noise; a symbol's cost is what the bits
 * in which it differs from the signs that arrived weigh. The signs themselves make the symbol of cost
 * 0, which is the one returned. */
static uint8_t receive(uint8_t symbol, uint8_t *column)
{
    uint8_t arrived = 0;
    int weight[P];

    for (int i = 0; i < P; i++) {
        int level = ((symbol >> i & 1) ? 8 : -8) + noise();

        if (level > 0) {
            arrived |= (uint8_t)(1 << i);
        }
        weight[i] = abs(level);
    }
    for (int x = 0; x < Q; x++) {
        int cost = 0;

        for (int i = 0; i < P; i++) {
            cost += ((x ^ arrived) >> i & 1) ? weight[i] : 0;
        }
        column[x] = (uint8_t)cost;
    }
    return arrived;
}

static void print(const char *name, const uint8_t *symbols, size_t count)
{
    printf("%-9s", name);
    for (size_t n = 0; n < count; n++) {
        printf("%02X", (unsigned)symbols[n]);
    }
    printf("\n");
}

/* The margins, with a mark at the weakest: a small margin is a decision to doubt. */
static void print_margins(void)
{
    uint16_t least = margins[0];

    for (size_t n = 1; n < COLUMNS; n++) {
        least = margins[n] < least ? margins[n] : least;
    }
    printf("%-8s", "margins");
    for (size_t n = 0; n < COLUMNS; n++) {
        printf(" %u%s", (unsigned)margins[n], margins[n] == least ? "*" : "");
    }
    printf("\n");
}

int main(void)
{
    uint8_t arrived[COLUMNS];
    uint32_t result = petsivola_encode(code, sizeof code, message, sizeof message,
                                       sent, sizeof sent);

    if (PETSIVOLA_NUMBER(result) != PETSIVOLA_ACCEPTED) {
        printf("refused by %u\n", (unsigned)PETSIVOLA_NUMBER(result));
        return 1;
    }
    for (size_t n = 0; n < COLUMNS; n++) {
        arrived[n] = receive(sent[n], &frame[n * Q]);
    }
    result = petsivola_decode(code, sizeof code, frame, sizeof frame,
                              decoded, sizeof decoded,
                              costs, sizeof costs / sizeof costs[0],
                              store, sizeof store,
                              margins, sizeof margins / sizeof margins[0]);

    print("message", message, sizeof message);
    print("sent", sent, sizeof sent);
    print("arrived", arrived, sizeof arrived);
    print("decoded", decoded, sizeof decoded);
    print_margins();
    printf("status %u, t %u\n", (unsigned)PETSIVOLA_NUMBER(result),
           (unsigned)PETSIVOLA_VALUE(result));
    return 0;
}
