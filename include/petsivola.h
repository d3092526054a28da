/* petsivola.h - decoder and encoder for nonbinary LDPC frames, over buffers that the caller lends.
 *
 * C99. Link with libpetsivola.a or libpetsivola.so (Linux on x86-64-v2: a processor with SSE4.2). No
 * heap, no files, no state between calls, so calls from several threads need no lock.
 *
 * Stack of a call, as measured: decode, decode_early, window_write and channels 30 KB, check 19 KB,
 * sweep 36 KB, expand and display 5 KB, encode 9 KB, combine and code_line 4 KB, product and line under
 * 1 KB.
 *
 * Every input is answered: each function ends, stays inside its buffers, and refuses for the numbered
 * reasons below and no others. A refused call changes no byte. An accepted call fills the first bytes
 * of its buffers, as long as said below, and leaves the rest as it was.
 *
 * A buffer is a pointer and a length in ELEMENTS, which is bytes except for the 16-bit costs and
 * margins. A null pointer with length 0 is an empty buffer. A buffer that is written overlaps no other
 * buffer of the call.
 *
 * The result is one number: PETSIVOLA_NUMBER(result) says what happened, PETSIVOLA_VALUE(result) is
 * the product, the bytes written, the iterations t or the check updates; it is 0 on a refusal. The
 * register window answers in registers, petsivola_code_line and petsivola_channels in a struct.
 *
 * The first byte of a code line, "first" below, gives the field, the number of deviations and the
 * edition. Its low hexadecimal digit is p, 2 to 6: the field has q = 2^p elements. What a check sends
 * is the least cost over choices that depart from at most k hard decisions, and the high digit says
 * what k is and what a choice costs:
 *
 *   0   k = 2, the sum of its columns' costs
 *   1   k = 2, the greatest of its columns' costs (Min-Max)
 *   2   k = 3, the sum
 *   3   k = 3, the greatest
 */
#ifndef PETSIVOLA_H
#define PETSIVOLA_H

#include <stddef.h>
#include <stdint.h>

#ifdef __cplusplus
extern "C" {
#endif

/* The version; CHANGELOG.md says what each one brought. */
#define PETSIVOLA_VERSION_MAJOR 1
#define PETSIVOLA_VERSION_MINOR 14
#define PETSIVOLA_VERSION_PATCH 1
#define PETSIVOLA_VERSION "1.14.1"

#define PETSIVOLA_NUMBER(result) ((uint32_t)(result) >> 16)
#define PETSIVOLA_VALUE(result) ((uint32_t)(result) & 0xFFFFu)

/* What happened. */
enum petsivola_number {
    PETSIVOLA_ACCEPTED = 0,
    PETSIVOLA_FOUND = 0,            /* decode, decode_early: the symbols satisfy every check */
    PETSIVOLA_NOT_FOUND = 1,        /* decode, decode_early: they do not after I iterations */

    /* refusals caused by the caller */
    PETSIVOLA_SHORT_BUFFER = 2,     /* decode's, decode_early's, channels' or encode's symbols, or
                                       the out of another call too short */
    PETSIVOLA_SHORT_COSTS = 3,      /* cost buffer shorter than N * q (channels: count * N * q) */
    PETSIVOLA_SHORT_STORE = 4,      /* record buffer or store too short */
    /* by the code line's writer */
    PETSIVOLA_CODE_BYTES = 5,       /* bytes missing or left over */
    PETSIVOLA_FIELD_SIZE = 6,       /* first byte with a high digit above 3 or a low digit not 2
                                       to 6; in the product: p not 2 to 6 */
    PETSIVOLA_COLUMNS_CHECKS = 7,   /* N not 1 to 256, or M not 1 to 128 */
    PETSIVOLA_SCALE_LIMIT = 8,      /* g not 1 to 16, or I not 1 to 255 */
    PETSIVOLA_DEGREE = 9,           /* degree not 2 to 32, or more than 1,024 edges */
    PETSIVOLA_COLUMN = 10,          /* column not below N, or not above the one before */
    PETSIVOLA_WEIGHT = 11,          /* weight 0, or a weight or element not below q */
    /* by the frame's sender */
    PETSIVOLA_COST_COUNT = 12,      /* number of costs is not N * q (check, sweep: d * q, channels:
                                       count * N * q); in combine of the first frame */
    PETSIVOLA_NO_ZERO_COST = 13,    /* a column without a cost of 0; in the window also a cost above
                                       510 in the cost buffer; in channels one channel's own; in
                                       combine of the first frame */
    /* by the line's writer */
    PETSIVOLA_DIGITS = 14,          /* odd digit count, or a byte other than 0-9 and A-F */
    PETSIVOLA_LONG_LINE = 15,       /* more than 32,768 bytes */
    /* by the record's writer */
    PETSIVOLA_RECORD = 16,          /* wrong length, shift not below q, an unused pair that is not
                                       FF 00 or stands before a used one, columns not rising or not
                                       below d, or S not above E */
    /* encode: by the code line's writer */
    PETSIVOLA_NO_FORM = 17,         /* N not above M, or a check m without column N - M + m or with
                                       a higher one */
    /* encode: by the message's writer */
    PETSIVOLA_MESSAGE = 18,         /* message length is not N - M, or a symbol not below q */
    /* decode, decode_early, window, channels: by the caller */
    PETSIVOLA_SHORT_MARGINS = 19,   /* margin buffer shorter than N (channels: count * N) */
    /* channels: no refusal, a channel's status */
    PETSIVOLA_SPENT = 20,           /* still running when the allowance was spent */
    /* channels: by the caller */
    PETSIVOLA_CHANNEL_COUNT = 21,   /* channel count not 1 to 8 */
    PETSIVOLA_NO_ALLOWANCE = 22,    /* allowance 0 */
    /* combine: by the second frame's sender */
    PETSIVOLA_SECOND_FRAME = 23     /* number of its costs is not N * q, or a column of it without a
                                       cost of 0 */
};

/* All below are constant expressions for constant arguments.
 *
 * The first byte for p 2 to 6, k 2 or 3, and greatest 1 for Min-Max or 0 for the sum; then what a
 * first byte stands for: q, k, and 1 or 0 for the edition. */
#define PETSIVOLA_FIRST(p, k, greatest) \
    ((uint8_t)(((k) == 3 ? 0x20 : 0) | ((greatest) ? 0x10 : 0) | (p)))
#define PETSIVOLA_Q(first) ((size_t)1 << ((first) & 15))
#define PETSIVOLA_DEVIATIONS(first) (2 + (size_t)((first) >> 5 & 1))
#define PETSIVOLA_GREATEST(first) ((first) >> 4 & 1)

/* Lengths in elements; they are the same in both editions. */
#define PETSIVOLA_RECORD_LENGTH(first, d) PETSIVOLA_STORE_LENGTH(first, 1, d)
#define PETSIVOLA_EXPANSION_LENGTH(first, d) ((size_t)(d) * PETSIVOLA_Q(first))
#define PETSIVOLA_DISPLAY_LENGTH(d) ((size_t)(d))
#define PETSIVOLA_FRAME_LENGTH(first, n) ((size_t)(n) * PETSIVOLA_Q(first))
#define PETSIVOLA_STORE_LENGTH(first, m, edges) \
    ((size_t)(edges) + \
     (size_t)(m) * (1 + 2 * PETSIVOLA_DEVIATIONS(first)) * (PETSIVOLA_Q(first) - 1))
#define PETSIVOLA_MARGINS_LENGTH(n) ((size_t)(n))
#define PETSIVOLA_CODE_LENGTH(m, edges) (6 + (size_t)(m) + 3 * (size_t)(edges))
#define PETSIVOLA_MESSAGE_LENGTH(n, m) ((size_t)(n) - (size_t)(m))  /* for n above m */

/* Lengths that are enough for every accepted input. */
#define PETSIVOLA_MOST_RECORD PETSIVOLA_RECORD_LENGTH(0x26, 32)        /*    473 */
#define PETSIVOLA_MOST_EXPANSION PETSIVOLA_EXPANSION_LENGTH(0x26, 32)  /*  2,048 */
#define PETSIVOLA_MOST_DISPLAY PETSIVOLA_DISPLAY_LENGTH(32)
#define PETSIVOLA_MOST_SYMBOLS ((size_t)256)
#define PETSIVOLA_MOST_MESSAGE PETSIVOLA_MESSAGE_LENGTH(256, 1)        /*    255 */
#define PETSIVOLA_MOST_COSTS PETSIVOLA_FRAME_LENGTH(0x26, 256)         /* 16,384 */
#define PETSIVOLA_MOST_STORE PETSIVOLA_STORE_LENGTH(0x26, 128, 1024)   /* 57,472 */
#define PETSIVOLA_MOST_MARGINS PETSIVOLA_MARGINS_LENGTH(256)
#define PETSIVOLA_MOST_CODE PETSIVOLA_CODE_LENGTH(128, 1024)           /*  3,206 */
#define PETSIVOLA_MOST_LINE ((size_t)32768)                            /* digits */

/* The channels of one petsivola_channels. */
#define PETSIVOLA_MOST_CHANNELS 8

/* What petsivola_code_line answers. All but the number is 0 on a refusal. */
struct petsivola_code {
    uint8_t number;     /* 0, or the refusal of the code line, 5 to 11 */
    uint8_t first;      /* the first byte: p, k and the edition */
    uint16_t columns;   /* N */
    uint8_t checks;     /* M */
    uint8_t scale;      /* g */
    uint8_t limit;      /* I */
    uint32_t store;     /* the length of the store: as many bytes as the M records have together */
};

/* Reads a code line: whether it is accepted, the numbers at its start, and how long a store it needs.
 * Call it first where the code line comes from elsewhere: the lengths of all buffers follow.
 *
 *   code     the code line, as for petsivola_decode
 *
 * Under an accepted code line, with the answer c, petsivola_decode takes
 *
 *   frame    PETSIVOLA_FRAME_LENGTH(c.first, c.columns), exactly
 *   symbols  at least c.columns
 *   costs    at least PETSIVOLA_FRAME_LENGTH(c.first, c.columns)
 *   store    at least c.store
 *   margins  at least PETSIVOLA_MARGINS_LENGTH(c.columns)
 *
 * and petsivola_encode, for N above M, a message of PETSIVOLA_MESSAGE_LENGTH(c.columns, c.checks).
 * The calls below refuse a code line by 5 to 11 for the same reasons and by the same number.
 *
 * Number: 0, or 5 to 11 as the code line is read front to back.
 */
struct petsivola_code petsivola_code_line(const uint8_t *code, size_t code_len);

/* Decodes one frame: the layered decoder with the trellis extended min-sum rule, or with Min-Max.
 *
 *   code     the code line: first, N (two bytes, high first), M, g, I, then M checks: the degree, 2
 *            to 32, then for each edge the column (two bytes, high first, rising in the check) and
 *            the weight. g/16 scales the sent costs; I limits the iterations.
 *   frame    N * q costs, column by column, each 0 to 255, a 0 in every column:
 *            PETSIVOLA_FRAME_LENGTH(first, N), exactly
 *   symbols  gets the N decisions: at least N
 *   costs    gets the last N * q costs, 0 to 510: at least PETSIVOLA_FRAME_LENGTH(first, N)
 *   store    gets the M records, end to end; untouched when t = 0: at least
 *            PETSIVOLA_STORE_LENGTH(first, M, edges)
 *   margins  gets N margins, 0 to 510: how sure each decision is. A margin is the least of the last
 *            costs of the other symbols, less the least of all, which is the decision's; 0 is a tie.
 *            Shade the samples with small ones: at least PETSIVOLA_MARGINS_LENGTH(N)
 *
 * Number: 0 found, 1 not found, or a refusal; tested in this order: 5 to 11 as the code line is read
 * front to back, 12, 13, 2, 3, 4, 19. Value: the iterations t, 0 to I.
 */
uint32_t petsivola_decode(const uint8_t *code, size_t code_len,
                          const uint8_t *frame, size_t frame_len,
                          uint8_t *symbols, size_t symbols_len,
                          uint16_t *costs, size_t costs_len,
                          uint8_t *store, size_t store_len,
                          uint16_t *margins, size_t margins_len);

/* Decodes one frame and stops as soon as the decisions satisfy every check, tested at the start and after
 * each check update. petsivola_decode tests after whole iterations, of M check updates each; this call,
 * for receivers on a battery, never makes more updates, and may stop inside an iteration.
 *
 *   code     the code line, as for petsivola_decode
 *   frame    N * q costs, as for petsivola_decode: PETSIVOLA_FRAME_LENGTH(first, N), exactly
 *   symbols  gets the N decisions of the moment at which it stops: at least N
 *   costs    gets the N * q costs of that moment, 0 to 510: at least PETSIVOLA_FRAME_LENGTH(first, N)
 *   store    gets the records of the checks that were updated, each in its place. The other checks keep
 *            the old bytes of theirs: with fewer than M updates only the first records are of this frame,
 *            as many as there were updates. Wherever it stops: at least
 *            PETSIVOLA_STORE_LENGTH(first, M, edges)
 *   margins  gets the N margins of that moment, 0 to 510, as for petsivola_decode: at least
 *            PETSIVOLA_MARGINS_LENGTH(N)
 *
 * Update u, counted from 0, is of check u mod M. It stops at the first moment at which the decisions
 * satisfy every check, with 0 updates if the first ones do, or else after M * I updates. A frame that
 * petsivola_decode finds is found, now and then as another word, and one that it does not find may be.
 *
 * Number: 0 found, 1 not found, or a refusal; tested in the order of petsivola_decode: 5 to 11 as the
 * code line is read front to back, 12, 13, 2, 3, 4, 19. Value: the check updates, 0 to M * I, which is at
 * most 32,640.
 */
uint32_t petsivola_decode_early(const uint8_t *code, size_t code_len,
                                const uint8_t *frame, size_t frame_len,
                                uint8_t *symbols, size_t symbols_len,
                                uint16_t *costs, size_t costs_len,
                                uint8_t *store, size_t store_len,
                                uint16_t *margins, size_t margins_len);

/* What petsivola_channels answers. Unused channels and a refused call: 0. */
struct petsivola_served {
    uint8_t number;                                 /* 0, or the refusal of the whole call */
    uint16_t spent;                                 /* the iterations of all channels added up */
    uint8_t status[PETSIVOLA_MOST_CHANNELS];        /* PETSIVOLA_FOUND, PETSIVOLA_NOT_FOUND,
                                                       PETSIVOLA_NO_ZERO_COST or PETSIVOLA_SPENT */
    uint8_t iterations[PETSIVOLA_MOST_CHANNELS];    /* j of each channel */
};

/* Decodes up to eight frames under one code line, with one allowance of iterations for all of them. A
 * clean frame leaves its iterations to the noisy ones.
 *
 *   count      the channels, 1 to PETSIVOLA_MOST_CHANNELS
 *   allowance  the iterations that all channels together may make, from 1 on. count * I is always
 *              enough.
 *   code       as for petsivola_decode
 *   frames     the frames, end to end by channel: count * PETSIVOLA_FRAME_LENGTH(first, N), exactly
 *   symbols    at least count * N
 *   costs      at least count * PETSIVOLA_FRAME_LENGTH(first, N)
 *   store      at least count * PETSIVOLA_STORE_LENGTH(first, M, edges)
 *   margins    at least count * PETSIVOLA_MARGINS_LENGTH(N)
 *
 * Channel c, counted from 0, has the part of each buffer that starts at c times one channel's length.
 * Elements past the last channel's part are left as they were.
 *
 * The channels are served by number in turn, one iteration each, until all are finished or the
 * allowance is spent. Finished ones are skipped: found, refused, or at I iterations. A frame whose first
 * decisions satisfy every check is found with 0 iterations and costs nothing. With u channels unfinished
 * and at least u iterations left, each of these gets its next iteration within u.
 *
 * Status of a channel:
 *
 *   PETSIVOLA_FOUND          its symbols satisfy every check
 *   PETSIVOLA_NOT_FOUND      they do not after I iterations
 *   PETSIVOLA_NO_ZERO_COST   its frame has a column without a cost of 0: its parts are unchanged, its
 *                            iterations 0, and the others are served as without it
 *   PETSIVOLA_SPENT          still running when the allowance was spent; no refusal
 *
 * After j iterations the parts of a channel that is not refused hold what petsivola_decode gives for its
 * frame alone with iteration limit j, whatever the other channels hold. With j = 0 that is the first
 * decisions with their margins and the frame as costs; the store's part is untouched. The iterations add
 * up to at most the allowance, and to exactly the allowance if any channel is spent.
 *
 * Number: 0, or a refusal of the whole call, which changes no buffer; tested in this order: 21, 22, 5 to
 * 11 as the code line is read front to back, 12, 2, 3, 4, 19.
 */
struct petsivola_served petsivola_channels(uint8_t count, uint32_t allowance,
                                           const uint8_t *code, size_t code_len,
                                           const uint8_t *frames, size_t frames_len,
                                           uint8_t *symbols, size_t symbols_len,
                                           uint16_t *costs, size_t costs_len,
                                           uint8_t *store, size_t store_len,
                                           uint16_t *margins, size_t margins_len);

/* The register window: the same decoding in steps, driven by writes to six bytes. The call keeps
 * nothing; the caller keeps bytes 1 to 5 in this struct and takes the new ones from each write.
 *
 *   byte  register    reads
 *   0     command     0
 *   1     state       PETSIVOLA_WINDOW_IDLE and so on
 *   2     refusal     the refusal's number in state 4, else 0
 *   3     iterations  t
 *   4     mask        what was written last
 *   5     pending     bit 0: a result came, state 2 or 3; bit 1: a refusal came, state 4
 *
 * All bytes 0: idle, as static storage and {0} make it. */
struct petsivola_window {
    uint8_t state, refusal, iterations, mask, pending;
};

enum petsivola_window_address {
    PETSIVOLA_WINDOW_COMMAND = 0,
    PETSIVOLA_WINDOW_STATE = 1,
    PETSIVOLA_WINDOW_REFUSAL = 2,
    PETSIVOLA_WINDOW_ITERATIONS = 3,
    PETSIVOLA_WINDOW_MASK = 4,
    PETSIVOLA_WINDOW_PENDING = 5
};

enum petsivola_window_command {
    PETSIVOLA_WINDOW_LOAD = 1,      /* starts on the lent code and frame, from any state */
    PETSIVOLA_WINDOW_ITERATE = 2,   /* runs one iteration, in state 1 alone */
    PETSIVOLA_WINDOW_CLEAR = 3      /* sets pending to 0 */
};

enum petsivola_window_state {
    PETSIVOLA_WINDOW_IDLE = 0,
    PETSIVOLA_WINDOW_RUNNING = 1,
    PETSIVOLA_WINDOW_FOUND = 2,     /* the symbols satisfy every check */
    PETSIVOLA_WINDOW_NOT_FOUND = 3, /* they do not after I iterations */
    PETSIVOLA_WINDOW_REFUSED = 4
};

/* Bits of mask and pending. */
#define PETSIVOLA_WINDOW_RESULT_BIT 1u      /* set on entering state 2 or 3 */
#define PETSIVOLA_WINDOW_REFUSAL_BIT 2u     /* set on entering state 4 */

/* Writes one byte of the window.
 *
 *   w        the registers; any five bytes are answered
 *   address  PETSIVOLA_WINDOW_COMMAND or PETSIVOLA_WINDOW_MASK; a write to any other is ignored
 *   value    the command, or the mask
 *   code, frame, symbols, costs, store, margins
 *            as for petsivola_decode. Lend the same ones, unchanged, from a load to its last
 *            iteration. Only LOAD and ITERATE touch them: other writes may lend null with length 0.
 *
 * LOAD takes the frame as costs and tests the first decisions: state 2 if they satisfy every check,
 * else 1. Iterations start at 0 again; mask and pending are kept.
 *
 * ITERATE, in state 1 and with iterations below 255, goes on from the lent costs and, unless
 * iterations is 0, from the records in the store. It adds 1 to iterations: state 2 if the decisions
 * then satisfy every check, else 3 if iterations is I or more, else 1.
 *
 * After each of them the buffers hold the symbols, costs, records and margins of that moment; a load
 * leaves the store untouched. ITERATE in other states or with iterations at 255, and other values of
 * the command, do nothing: a load that is not refused and I times ITERATE end with the outcome,
 * iterations and buffers of petsivola_decode.
 *
 * A refused LOAD or ITERATE changes no buffer; state becomes 4, refusal the number and iterations 0.
 * Numbers of LOAD: those of petsivola_decode, in its order: 5 to 11, 12, 13, 2, 3, 4, 19. Numbers of
 * ITERATE: the same, then 13 for a cost above 510 or a column without a cost of 0 among the first
 * N * q of costs, then, unless iterations is 0, 16 for a record in the store.
 *
 * Result: the registers after the write.
 */
struct petsivola_window petsivola_window_write(struct petsivola_window w,
                                               uint8_t address, uint8_t value,
                                               const uint8_t *code, size_t code_len,
                                               const uint8_t *frame, size_t frame_len,
                                               uint8_t *symbols, size_t symbols_len,
                                               uint16_t *costs, size_t costs_len,
                                               uint8_t *store, size_t store_len,
                                               uint16_t *margins, size_t margins_len);

/* Reads one byte of the window: 0 at address 0 and past address 5. */
uint8_t petsivola_window_read(struct petsivola_window w, uint8_t address);

/* The interrupt line: 1 when mask and pending share a bit, else 0. */
uint8_t petsivola_window_interrupt(struct petsivola_window w);

/* Combines two frames of one word. Crews strike twice and the box sends the same symbols again: neither
 * frame may be found alone, and what both say about a symbol is the sum of its two costs. Decode the
 * combined frame as any other.
 *
 *   code     the code line that both are sent under, as for petsivola_decode. It says how long a frame
 *            is; nothing else of it matters, but all of it has to be accepted.
 *   first    the frame of one blow: N * q costs, column by column, each 0 to 255, a 0 in every column:
 *            PETSIVOLA_FRAME_LENGTH(code[0], N), exactly
 *   second   the frame of the other, of the same form and length; it may be the same buffer
 *   out      gets the combined frame: at each column and symbol the sum of the two costs, less the
 *            column's least sum, and at most 255: at least PETSIVOLA_FRAME_LENGTH(code[0], N)
 *
 * The combined frame has a 0 in every column, so it is accepted under the same code line, here too: a
 * third blow is combined with what the first two gave. The order of the two does not matter. A frame of
 * zeros says nothing: the other one comes out as it was.
 *
 * Number: 0, or a refusal; tested in this order: 5 to 11 as the code line is read front to back, 12 and
 * 13 for the first frame, 23 for the second, 2. Value: the bytes written, N * q.
 */
uint32_t petsivola_combine(const uint8_t *code, size_t code_len,
                           const uint8_t *first, size_t first_len,
                           const uint8_t *second, size_t second_len,
                           uint8_t *out, size_t out_len);

/* Encodes one message: N - M symbols become the N symbols that decoding looks for.
 *
 *   code     a code line as for petsivola_decode, of this form: N is above M, and check m, counted
 *            from 0, contains column N - M + m and no higher one. k, the edition, g and I do not
 *            matter.
 *   message  N - M symbols, each 0 to q - 1: PETSIVOLA_MESSAGE_LENGTH(N, M), exactly
 *   symbols  gets the message and behind it M symbols with which every check is satisfied; no others
 *            behind this message satisfy them all: at least N
 *
 * Number: 0, or a refusal; tested in this order: 5 to 11 as the code line is read front to back, 17,
 * 18, 2. Value: the bytes written, N.
 */
uint32_t petsivola_encode(const uint8_t *code, size_t code_len,
                          const uint8_t *message, size_t message_len,
                          uint8_t *symbols, size_t symbols_len);

/* Reads a line of hexadecimal digits 0-9 and A-F, two a byte.
 *
 *   text     the line without its 0A: at most 32,768 digits
 *   out      gets the bytes: at least text_len / 2
 *
 * Number: 0, or 15, 14, 2 in this order. Value: the bytes written.
 */
uint32_t petsivola_line(const uint8_t *text, size_t text_len,
                        uint8_t *out, size_t out_len);

/* Works out one check's messages and writes their packed record.
 *
 *   first    as a code line's first byte
 *   weights  one for each column, 1 to q - 1; their number is the degree d, 2 to 32
 *   costs    d * q costs, column by column, each 0 to 255, a 0 in every column
 *   record   gets d shifts, then for each a from 1 to q - 1: E(a) and k pairs, each a column and its
 *            S, FF 00 where unused: at least PETSIVOLA_RECORD_LENGTH(first, d)
 *
 * Number: 0, or 6, 9, 11, 12, 13, 4 in this order. Value: the bytes written.
 */
uint32_t petsivola_check(uint8_t first,
                         const uint8_t *weights, size_t weights_len,
                         const uint8_t *costs, size_t costs_len,
                         uint8_t *record, size_t record_len);

/* Writes the same record as petsivola_check, by an engine that can be followed on paper: two sweeps
 * over the trellis of the check. docs/SWEEP.md goes through them by hand. For each column n they keep
 * the least cost for each partial sum and each count of deviations, 0 to k, over the columns before n
 * and over those after n, and join the two.
 *
 * It is many times slower than petsivola_check. Parameters, lengths, refusals with their order, result
 * and record are the same for every input; use it to check a record by hand, not in a receiver.
 *
 * Number: 0, or 6, 9, 11, 12, 13, 4 in this order. Value: the bytes written.
 */
uint32_t petsivola_sweep(uint8_t first,
                         const uint8_t *weights, size_t weights_len,
                         const uint8_t *costs, size_t costs_len,
                         uint8_t *record, size_t record_len);

/* Writes the unscaled sent costs that a record stands for.
 *
 *   first    as a code line's first byte
 *   weights  as for petsivola_check
 *   record   PETSIVOLA_RECORD_LENGTH(first, d), exactly; any record of the right form
 *   out      gets the d * q sent costs, column by column: at least
 *            PETSIVOLA_EXPANSION_LENGTH(first, d)
 *
 * Number: 0, or 6, 9, 11, 16, 2 in this order. Value: the bytes written.
 */
uint32_t petsivola_expand(uint8_t first,
                          const uint8_t *weights, size_t weights_len,
                          const uint8_t *record, size_t record_len,
                          uint8_t *out, size_t out_len);

/* Shows which symbol each column was urged towards, and nothing else of a record: what a display may
 * show, where a bench reads all of the record by petsivola_expand.
 *
 *   first    as a code line's first byte
 *   weights  as for petsivola_check
 *   record   PETSIVOLA_RECORD_LENGTH(first, d), exactly; any record of the right form
 *   out      gets d symbols, 0 to q - 1, one for each column: its shift divided by its weight, the symbol
 *            that costs 0 whatever else the record holds: at least PETSIVOLA_DISPLAY_LENGTH(d)
 *
 * For one field, weights and degree the symbols of two records are equal exactly when their shifts are:
 * costs, pairs, k and the edition do not show.
 *
 * Number: 0, or 6, 9, 11, 16, 2 in this order, as for petsivola_expand; 16 for a fault anywhere in the
 * record. Value: the bytes written, d.
 */
uint32_t petsivola_display(uint8_t first,
                           const uint8_t *weights, size_t weights_len,
                           const uint8_t *record, size_t record_len,
                           uint8_t *out, size_t out_len);

/* The product of two elements a and b, 0 to q - 1, of the field with q = 2^p elements. It takes p
 * alone, 2 to 6, where the calls above take a first byte.
 *
 * Number: 0, or 6, 11 in this order. Value: the product.
 */
uint32_t petsivola_product(uint8_t p, uint8_t a, uint8_t b);

#ifndef PETSIVOLA_NO_NUMBER_TEXT    /* define it for a compiler without inline, as C89 */
/* A number's cause in words, for a log or a display: never null, and no newline. */
static inline const char *petsivola_number_text(uint32_t number)
{
    switch (number) {
    case PETSIVOLA_ACCEPTED: return "accepted; of a decoding: found";
    case PETSIVOLA_NOT_FOUND: return "not found: the symbols do not satisfy every check";
    case PETSIVOLA_SHORT_BUFFER: return "symbol or output buffer too short";
    case PETSIVOLA_SHORT_COSTS: return "cost buffer too short";
    case PETSIVOLA_SHORT_STORE: return "record buffer or store too short";
    case PETSIVOLA_CODE_BYTES: return "bytes of the code line missing or left over";
    case PETSIVOLA_FIELD_SIZE: return "first byte with a high digit above 3, or p not 2 to 6";
    case PETSIVOLA_COLUMNS_CHECKS: return "N not 1 to 256, or M not 1 to 128";
    case PETSIVOLA_SCALE_LIMIT: return "g not 1 to 16, or I not 1 to 255";
    case PETSIVOLA_DEGREE: return "degree not 2 to 32, or more than 1,024 edges";
    case PETSIVOLA_COLUMN: return "column not below N, or not above the one before";
    case PETSIVOLA_WEIGHT: return "weight 0, or a weight or element not below q";
    case PETSIVOLA_COST_COUNT: return "wrong number of costs";
    case PETSIVOLA_NO_ZERO_COST: return "column without a cost of 0, or in the window a cost above 510";
    case PETSIVOLA_DIGITS: return "odd digit count, or a byte other than 0-9 and A-F";
    case PETSIVOLA_LONG_LINE: return "line of more than 32,768 bytes";
    case PETSIVOLA_RECORD: return "record of a wrong length or form";
    case PETSIVOLA_NO_FORM: return "code line not of the form that encoding needs";
    case PETSIVOLA_MESSAGE: return "message length not N - M, or a symbol not below q";
    case PETSIVOLA_SHORT_MARGINS: return "margin buffer too short";
    case PETSIVOLA_SPENT: return "still running when the allowance was spent";
    case PETSIVOLA_CHANNEL_COUNT: return "channel count not 1 to 8";
    case PETSIVOLA_NO_ALLOWANCE: return "allowance 0";
    case PETSIVOLA_SECOND_FRAME: return "second frame: wrong number of costs, or a column without a 0";
    default: return "unknown number";
    }
}
#endif

#ifdef __cplusplus
}
#endif

#endif
