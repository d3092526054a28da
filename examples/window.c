/* Decodes through the register window, as a receiver board does: unmask, load, one iteration after
 * another until the interrupt is raised, read what came, clear it. A second frame is refused. Prints the
 * registers after each step, and the symbols of that moment, as in window.out. From the repository's
 * root, after make library:
 *
 *     gcc -std=c99 -Wall -Wextra -Werror -pedantic -Iinclude examples/window.c \
 *         target/staticlib/libpetsivola.a -o target/example-window && target/example-window
 */
#include <stdio.h>

#include "petsivola.h"

/* The code: p = 2, k = 2 and the sum, N = 6, M = 4, g = 12, I = 8, and four checks of degree 3. */
enum { FIRST = PETSIVOLA_FIRST(2, 2, 0), COLUMNS = 6, CHECKS = 4, EDGES = 12 };

static const uint8_t code[PETSIVOLA_CODE_LENGTH(CHECKS, EDGES)] = {
    FIRST, 0, COLUMNS, CHECKS, 12, 8,
    3,  0, 0, 1,  0, 1, 2,  0, 3, 1,
    3,  0, 1, 1,  0, 2, 3,  0, 4, 1,
    3,  0, 0, 2,  0, 2, 1,  0, 5, 1,
    3,  0, 3, 1,  0, 4, 2,  0, 5, 3,
};

/* What the radio received: the symbols 0, 3, 2, 1, 2, 3 cost 0. Those that were sent are
 * 2, 2, 0, 1, 2, 3. */
static uint8_t frame[PETSIVOLA_FRAME_LENGTH(FIRST, COLUMNS)] = {
    0, 9, 3, 11,
    4, 15, 2, 0,
    4, 8, 0, 13,
    6, 0, 13, 10,
    11, 10, 0, 8,
    8, 7, 10, 0,
};

/* The lent buffers, exactly as long as this code needs them. */
static uint8_t symbols[COLUMNS];
static uint16_t costs[PETSIVOLA_FRAME_LENGTH(FIRST, COLUMNS)];
static uint8_t store[PETSIVOLA_STORE_LENGTH(FIRST, CHECKS, EDGES)];
static uint16_t margins[PETSIVOLA_MARGINS_LENGTH(COLUMNS)];

/* The registers; all 0 is idle. */
static struct petsivola_window window;

static void write_byte(uint8_t address, uint8_t value)
{
    window = petsivola_window_write(window, address, value,
                                    code, sizeof code, frame, sizeof frame,
                                    symbols, sizeof symbols,
                                    costs, sizeof costs / sizeof costs[0],
                                    store, sizeof store,
                                    margins, sizeof margins / sizeof margins[0]);
}

static unsigned read_byte(uint8_t address)
{
    return petsivola_window_read(window, address);
}

/* Writes a command and prints what it leaves. */
static void command(const char *name, uint8_t value)
{
    write_byte(PETSIVOLA_WINDOW_COMMAND, value);
    printf("%-9s state %u, refusal %u, t %u, mask %u, pending %u, symbols ", name,
           read_byte(PETSIVOLA_WINDOW_STATE), read_byte(PETSIVOLA_WINDOW_REFUSAL),
           read_byte(PETSIVOLA_WINDOW_ITERATIONS), read_byte(PETSIVOLA_WINDOW_MASK),
           read_byte(PETSIVOLA_WINDOW_PENDING));
    for (size_t n = 0; n < sizeof symbols; n++) {
        printf("%02X", (unsigned)symbols[n]);
    }
    printf("\n");
}

/* What is done when the interrupt is raised. */
static void serve(void)
{
    unsigned t = read_byte(PETSIVOLA_WINDOW_ITERATIONS);

    switch (read_byte(PETSIVOLA_WINDOW_STATE)) {
    case PETSIVOLA_WINDOW_FOUND:
        printf("interrupt found, t = %u\n", t);
        break;
    case PETSIVOLA_WINDOW_NOT_FOUND:
        printf("interrupt not found, t = %u\n", t);
        break;
    case PETSIVOLA_WINDOW_REFUSED:
        printf("interrupt refused by %u\n", read_byte(PETSIVOLA_WINDOW_REFUSAL));
        break;
    }
    command("clear", PETSIVOLA_WINDOW_CLEAR);
}

/* One frame. Between two iterations a board is free for other work; here is none. The loop ends: after
 * at most I iterations the state is 2, 3 or 4, and the mask lets both bits pass. */
static void receive(void)
{
    command("load", PETSIVOLA_WINDOW_LOAD);
    while (!petsivola_window_interrupt(window)) {
        command("iterate", PETSIVOLA_WINDOW_ITERATE);
    }
    serve();
}

int main(void)
{
    write_byte(PETSIVOLA_WINDOW_MASK,
               PETSIVOLA_WINDOW_RESULT_BIT | PETSIVOLA_WINDOW_REFUSAL_BIT);
    receive();
    /* Column 0 has no cost of 0 any more. */
    frame[0] = 1;
    receive();
    return 0;
}
