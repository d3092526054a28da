/* Reads the record of a check in two ways: the truck's display gets the symbol that each column was urged
 * towards and nothing else, and the bench gets every cost that was sent. Two checks with the same decisions
 * and other costs look the same in the truck, and not at the bench. A damaged record is refused by both.
 * Prints what each of them reads, as in display.out. From the repository's root, after
 * make library:
 *
 *     gcc -std=c99 -Wall -Wextra -Werror -pedantic -Iinclude examples/display.c \
 *         target/staticlib/libpetsivola.a -o target/example-display && target/example-display
 */
#include <stdio.h>

#include "petsivola.h"

/* One check: p = 2, k = 2 and the sum, three columns with these weights. */
enum { FIRST = PETSIVOLA_FIRST(2, 2, 0), DEGREE = 3 };
enum { COSTS = PETSIVOLA_EXPANSION_LENGTH(FIRST, DEGREE) };

static const uint8_t weights[DEGREE] = { 1, 2, 3 };

/* What the columns bring, q costs each: both times they decide 1, 1, 2. */
static const uint8_t quiet[COSTS] = { 5, 0, 9, 7,  8, 0, 4, 3,  6, 2, 0, 10 };
static const uint8_t noisy[COSTS] = { 1, 0, 2, 2,  1, 0, 1, 3,  3, 1, 0, 1 };

/* The lent buffers, exactly as long as this check needs them. */
static uint8_t record[PETSIVOLA_RECORD_LENGTH(FIRST, DEGREE)];
static uint8_t symbols[PETSIVOLA_DISPLAY_LENGTH(DEGREE)];
static uint8_t sent[COSTS];

/* Prints the answer of a call and the bytes that it wrote. */
static void print(const char *name, uint32_t result, const uint8_t *bytes)
{
    printf("%-7s number %u, bytes", name, (unsigned)PETSIVOLA_NUMBER(result));
    for (size_t n = 0; n < PETSIVOLA_VALUE(result); n++) {
        printf(" %02X", (unsigned)bytes[n]);
    }
    printf("\n");
}

/* What the truck's display and the bench read of the record. */
static void read_record(void)
{
    print("display",
          petsivola_display(FIRST, weights, sizeof weights, record, sizeof record,
                            symbols, sizeof symbols),
          symbols);
    print("bench",
          petsivola_expand(FIRST, weights, sizeof weights, record, sizeof record,
                           sent, sizeof sent),
          sent);
}

/* Works out the check, prints its record and what is read of it. */
static void show(const uint8_t *costs)
{
    print("record",
          petsivola_check(FIRST, weights, sizeof weights, costs, COSTS, record, sizeof record),
          record);
    read_record();
}

int main(void)
{
    show(quiet);
    show(noisy);
    /* An unused pair that is not FF 00: PETSIVOLA_RECORD, though a display would not show it. */
    record[sizeof record - 1] = 1;
    read_record();
    return 0;
}
