/* A client in C99 of the installed library; scripts/test-install builds it. Decodes document 01's frame and prints the line that the
 * program prints for it, then a refusal in words and the version. Takes every macro of the header once. */
#include <petsivola.h>
#include <stdio.h>
#include <string.h>

enum { FIRST = PETSIVOLA_FIRST(2, 2, 0), COLUMNS = 3, CHECKS = 1, EDGES = 3, MOST_NUMBER = 23 };

static const uint8_t code[PETSIVOLA_CODE_LENGTH(CHECKS, EDGES)] = {
    FIRST, 0, COLUMNS, CHECKS, 16, 1,
    EDGES, 0, 0, 1, 0, 1, 1, 0, 2, 1,
};
static const uint8_t frame[PETSIVOLA_FRAME_LENGTH(FIRST, COLUMNS)] = {
    5, 0, 9, 7, 0, 4, 8, 3, 0, 6, 2, 10,
};
static uint8_t symbols[COLUMNS];
static uint16_t costs[sizeof frame];
static uint8_t store[PETSIVOLA_STORE_LENGTH(FIRST, CHECKS, EDGES)];
static uint16_t margins[PETSIVOLA_MARGINS_LENGTH(COLUMNS)];

/* The other macros, with what the header's comments say of them. */
#define IS(macro, number) {#macro, macro, number}
static const struct {
    const char *name;
    size_t value, expected;
} macros[] = {
    IS(PETSIVOLA_Q(0x36), 64),
    IS(PETSIVOLA_DEVIATIONS(0x22), 3),
    IS(PETSIVOLA_GREATEST(0x12), 1),
    IS(PETSIVOLA_RECORD_LENGTH(FIRST, EDGES), sizeof store),
    IS(PETSIVOLA_EXPANSION_LENGTH(FIRST, EDGES), sizeof frame),
    IS(PETSIVOLA_DISPLAY_LENGTH(EDGES), 3),
    IS(PETSIVOLA_MESSAGE_LENGTH(COLUMNS, CHECKS), 2),
    IS(PETSIVOLA_MOST_RECORD, 473),
    IS(PETSIVOLA_MOST_EXPANSION, 2048),
    IS(PETSIVOLA_MOST_DISPLAY, 32),
    IS(PETSIVOLA_MOST_SYMBOLS, 256),
    IS(PETSIVOLA_MOST_MESSAGE, 255),
    IS(PETSIVOLA_MOST_COSTS, 16384),
    IS(PETSIVOLA_MOST_STORE, 57472),
    IS(PETSIVOLA_MOST_MARGINS, 256),
    IS(PETSIVOLA_MOST_CODE, 3206),
    IS(PETSIVOLA_MOST_LINE, 32768),
    IS(PETSIVOLA_MOST_CHANNELS, 8),
    IS(PETSIVOLA_WINDOW_RESULT_BIT, 1),
    IS(PETSIVOLA_WINDOW_REFUSAL_BIT, 2),
};

static int macros_wrong(void)
{
    char version[32];
    int wrong = 0;

    for (size_t i = 0; i < sizeof macros / sizeof macros[0]; i++) {
        if (macros[i].value != macros[i].expected) {
            fprintf(stderr, "%s is %zu\n", macros[i].name, macros[i].value);
            wrong = 1;
        }
    }
    snprintf(version, sizeof version, "%d.%d.%d", PETSIVOLA_VERSION_MAJOR, PETSIVOLA_VERSION_MINOR, PETSIVOLA_VERSION_PATCH);
    if (strcmp(version, PETSIVOLA_VERSION) != 0) {
        fprintf(stderr, "PETSIVOLA_VERSION is not %s\n", version);
        wrong = 1;
    }
    return wrong;
}

/* Each number has words of its own, and every other one the same. */
static int texts_wrong(void)
{
    const char *unknown = petsivola_number_text(UINT32_MAX);
    int wrong = strcmp(unknown, "unknown number") != 0;

    for (uint32_t number = 0; number <= 0xFFFF; number++) {
        const char *text = petsivola_number_text(number);

        wrong |= (strcmp(text, unknown) != 0) != (number <= MOST_NUMBER);
        for (uint32_t other = 0; other < number && number <= MOST_NUMBER; other++) {
            wrong |= strcmp(text, petsivola_number_text(other)) == 0;
        }
    }
    if (wrong) {
        fprintf(stderr, "two numbers have the same words, or one has those of others\n");
    }
    return wrong;
}

static uint32_t decode(size_t length)
{
    return petsivola_decode(code, sizeof code, frame, length, symbols, sizeof symbols,
                            costs, sizeof costs / sizeof costs[0], store, sizeof store,
                            margins, sizeof margins / sizeof margins[0]);
}

int main(void)
{
    uint32_t result = decode(sizeof frame);

    printf("%02X%02X", (unsigned)PETSIVOLA_NUMBER(result), (unsigned)PETSIVOLA_VALUE(result));
    for (size_t n = 0; n < sizeof symbols; n++) {
        printf("%02X", (unsigned)symbols[n]);
    }
    printf("\n%s\n%s\n", petsivola_number_text(PETSIVOLA_NUMBER(decode(sizeof frame - 1))), PETSIVOLA_VERSION);
    return macros_wrong() | texts_wrong();
}
