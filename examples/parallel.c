/* Decodes frames with several threads: prints what the program decode prints for the same input, in the
 * same order, and on standard error how many frames a second that were. The library keeps no state, so
 * a frame is the unit of work and each thread needs no more than lent buffers of its own. From the
 * repository's root, after make library:
 *
 *     gcc -std=c99 -Wall -Wextra -Werror -pedantic -O2 -pthread -Iinclude examples/parallel.c \
 *         target/staticlib/libpetsivola.a -o target/example-parallel
 *     target/example-parallel 2 < examples/gf32-248-137.hex
 *
 * It reads to the end of the input, however long; decode takes 4,294,967,295 bytes of it. Exit status: 0;
 * 1 where reading, writing or starting a thread failed; 2 for a wrong number of threads.
 */
#define _POSIX_C_SOURCE 200809L

#include <pthread.h>
#include <stdio.h>
#include <stdlib.h>
#include <string.h>
#include <time.h>

#include "petsivola.h"

enum {
    MOST_THREADS = 256,
    /* Lines a thread in one batch: a batch ends when its last frame is decoded, and this keeps the time
     * that the other threads wait then small beside that of the batch. */
    LINES = 64,
    BLOCK = 65536,
    MOST_BYTES = PETSIVOLA_MOST_LINE / 2
};

/* One line of the input and the line that is printed for it. Of a longer line the first 32,769 bytes
 * are enough to refuse it. */
struct slot {
    size_t text_len, printed_len;
    uint8_t text[PETSIVOLA_MOST_LINE + 1];
    char printed[2 * (2 + PETSIVOLA_MOST_SYMBOLS) + 1];
};

/* What one thread lends, long enough for every code line. */
struct lent {
    uint8_t frame[MOST_BYTES];
    uint8_t symbols[PETSIVOLA_MOST_SYMBOLS];
    uint16_t costs[PETSIVOLA_MOST_COSTS];
    uint8_t store[PETSIVOLA_MOST_STORE];
    uint16_t margins[PETSIVOLA_MOST_MARGINS];
};

/* The code line and what it says, written by main before the threads start. */
static uint8_t code[MOST_BYTES];
static size_t code_len;
static struct petsivola_code described;

/* The batch: filled and printed by main, decoded by the threads between two meetings at the barrier. */
static struct slot *slots;
static size_t used;
static int ended;
static pthread_barrier_t barrier;

/* The next slot that no thread has taken: frames take different times, so each thread takes the next one
 * when it is free. */
static pthread_mutex_t taking = PTHREAD_MUTEX_INITIALIZER;
static size_t next;

static void fail(const char *what)
{
    fprintf(stderr, "parallel: %s failed\n", what);
    exit(EXIT_FAILURE);
}

/* Memory from the heap is this example's own; the library takes none. */
static void *memory(size_t count, size_t size)
{
    void *got = calloc(count, size);

    if (got == NULL) {
        fail("calloc");
    }
    return got;
}

/* Reads one line without its 0A; 0 at the end of the input. A last line without 0A counts if it is not
 * empty. */
static int read_line(struct slot *slot)
{
    static uint8_t block[BLOCK];
    static size_t at, end;

    slot->text_len = 0;
    for (;;) {
        const uint8_t *start, *stop;
        size_t count, kept;

        if (at == end) {
            at = 0;
            end = fread(block, 1, sizeof block, stdin);
            if (end == 0) {
                return slot->text_len > 0;
            }
        }
        start = block + at;
        stop = memchr(start, '\n', end - at);
        count = stop != NULL ? (size_t)(stop - start) : end - at;
        kept = sizeof slot->text - slot->text_len;
        kept = count < kept ? count : kept;
        memcpy(slot->text + slot->text_len, start, kept);
        slot->text_len += kept;
        at += count;
        if (stop != NULL) {
            at++;
            return 1;
        }
    }
}

static void print_byte(struct slot *slot, unsigned byte)
{
    static const char digits[] = "0123456789ABCDEF";

    slot->printed[slot->printed_len++] = digits[byte >> 4];
    slot->printed[slot->printed_len++] = digits[byte & 15];
}

/* A line of the output: the number, t, which is 0 on a refusal, and so many symbols. */
static void print_answer(struct slot *slot, unsigned number, unsigned t,
                         const uint8_t *symbols, size_t count)
{
    slot->printed_len = 0;
    print_byte(slot, number);
    print_byte(slot, t);
    for (size_t n = 0; n < count; n++) {
        print_byte(slot, symbols[n]);
    }
    slot->printed[slot->printed_len++] = '\n';
}

/* One frame, from its digits to its line of the output. */
static void decode_slot(struct slot *slot, struct lent *lent)
{
    uint32_t result = petsivola_line(slot->text, slot->text_len, lent->frame, sizeof lent->frame);
    uint32_t number = PETSIVOLA_NUMBER(result);
    size_t count = 0;

    if (number == PETSIVOLA_ACCEPTED) {
        result = petsivola_decode(code, code_len, lent->frame, PETSIVOLA_VALUE(result),
                                  lent->symbols, sizeof lent->symbols,
                                  lent->costs, sizeof lent->costs / sizeof lent->costs[0],
                                  lent->store, sizeof lent->store,
                                  lent->margins, sizeof lent->margins / sizeof lent->margins[0]);
        number = PETSIVOLA_NUMBER(result);
        if (number == PETSIVOLA_FOUND || number == PETSIVOLA_NOT_FOUND) {
            count = described.columns;
        }
    }
    print_answer(slot, (unsigned)number, (unsigned)PETSIVOLA_VALUE(result), lent->symbols, count);
}

/* Takes the next slot of the batch; null when all are taken. */
static struct slot *take(void)
{
    struct slot *slot = NULL;

    pthread_mutex_lock(&taking);
    if (next < used) {
        slot = &slots[next++];
    }
    pthread_mutex_unlock(&taking);
    return slot;
}

/* A thread: decodes its part of each batch. Between batches it waits twice, so that main alone touches
 * the slots while it reads and prints. */
static void *work(void *argument)
{
    struct lent *lent = argument;
    struct slot *slot;

    for (;;) {
        pthread_barrier_wait(&barrier);
        if (ended) {
            return NULL;
        }
        while ((slot = take()) != NULL) {
            decode_slot(slot, lent);
        }
        pthread_barrier_wait(&barrier);
    }
}

/* Reads the code line, by way of a slot. A refused one is printed, and nothing else: 0 then. */
static int read_code(void)
{
    struct slot *slot = &slots[0];
    uint32_t result, number;

    /* An empty input is an empty code line. */
    if (!read_line(slot)) {
        slot->text_len = 0;
    }
    result = petsivola_line(slot->text, slot->text_len, code, sizeof code);
    number = PETSIVOLA_NUMBER(result);
    if (number == PETSIVOLA_ACCEPTED) {
        code_len = PETSIVOLA_VALUE(result);
        described = petsivola_code_line(code, code_len);
        number = described.number;
    }
    if (number == PETSIVOLA_ACCEPTED) {
        return 1;
    }
    print_answer(slot, (unsigned)number, 0, NULL, 0);
    fwrite(slot->printed, 1, slot->printed_len, stdout);
    return 0;
}

/* Batch after batch: read, decoded by all threads, printed in order. After a write that failed no more is
 * read, so that the threads end as at the end of the input. The number of frames. */
static unsigned long decode_batches(size_t lines)
{
    unsigned long frames = 0;

    for (;;) {
        used = 0;
        while (!ferror(stdout) && used < lines && read_line(&slots[used])) {
            used++;
        }
        next = 0;
        ended = used == 0;
        pthread_barrier_wait(&barrier);
        if (ended) {
            return frames;
        }
        pthread_barrier_wait(&barrier);
        for (size_t i = 0; i < used; i++) {
            fwrite(slots[i].printed, 1, slots[i].printed_len, stdout);
        }
        frames += used;
    }
}

static double seconds(void)
{
    struct timespec now;

    clock_gettime(CLOCK_MONOTONIC, &now);
    return (double)now.tv_sec + (double)now.tv_nsec / 1e9;
}

static void decode_frames(unsigned threads)
{
    pthread_t *all = memory(threads, sizeof *all);
    struct lent *lent = memory(threads, sizeof *lent);
    double start = seconds();
    unsigned long frames;

    if (pthread_barrier_init(&barrier, NULL, threads + 1) != 0) {
        fail("pthread_barrier_init");
    }
    for (unsigned i = 0; i < threads; i++) {
        if (pthread_create(&all[i], NULL, work, &lent[i]) != 0) {
            fail("pthread_create");
        }
    }
    frames = decode_batches((size_t)threads * LINES);
    for (unsigned i = 0; i < threads; i++) {
        pthread_join(all[i], NULL);
    }
    fprintf(stderr, "%lu frames, %u threads, %.0f frames a second\n", frames, threads,
            (double)frames / (seconds() - start));
    free(lent);
    free(all);
}

int main(int argc, char **argv)
{
    char *rest = NULL;
    long threads = argc == 2 ? strtol(argv[1], &rest, 10) : 0;

    if (threads < 1 || threads > MOST_THREADS || *rest != '\0') {
        fprintf(stderr, "usage: parallel THREADS < FRAMES, 1 to %d threads\n", MOST_THREADS);
        return 2;
    }
    slots = memory((size_t)threads * LINES, sizeof *slots);
    if (read_code()) {
        decode_frames((unsigned)threads);
    }
    if (ferror(stdin) || fflush(stdout) != 0 || ferror(stdout)) {
        fail("input or output");
    }
    free(slots);
    return 0;
}
