/* common.h - what both checks share: the tests, the products, the lines and the bytes of a record.
 *
 * q is 2 to the p. The functions that take it are inlined, and it is a constant in each copy, so that
 * the compiler unrolls their loops.
 */
#ifndef HAND_COMMON_H
#define HAND_COMMON_H

#include <emmintrin.h>
#include <stddef.h>
#include <stdint.h>
#include <string.h>

#define INLINE static inline __attribute__((always_inline))

enum {
    LEAST_COLUMNS = 2,
    MOST_COLUMNS = 32,
    MOST_ROWS = 64,
    GROUP = 5 /* the bytes of each a in a record */
};

/* The costs of a column that are 0, one bit each. */
INLINE uint64_t zeros(int q, const uint8_t *costs)
{
    const __m128i zero = _mm_setzero_si128();
    if (q == 4) {
        int few;
        memcpy(&few, costs, sizeof few);
        return _mm_movemask_epi8(_mm_cmpeq_epi8(_mm_cvtsi32_si128(few), zero)) & 0xF;
    }
    if (q == 8) {
        const __m128i block = _mm_loadl_epi64((const __m128i *)costs);
        return _mm_movemask_epi8(_mm_cmpeq_epi8(block, zero)) & 0xFF;
    }
    uint64_t bits = 0;
    for (int x = 0; x < q; x += 16) {
        const __m128i block = _mm_loadu_si128((const __m128i *)(costs + x));
        bits |= (uint64_t)_mm_movemask_epi8(_mm_cmpeq_epi8(block, zero)) << x;
    }
    return bits;
}

/* The hard decision of each column; false where a column has none. */
INLINE int decide(int q, size_t d, const uint8_t *costs, uint8_t *decisions)
{
    for (size_t n = 0; n < d; n++) {
        const uint64_t bits = zeros(q, costs + n * (size_t)q);
        if (bits == 0)
            return 0;
        decisions[n] = (uint8_t)__builtin_ctzll(bits);
    }
    return 1;
}

/* 0, or the number of the refusal that petsivola_check would give before it looks at the costs: 6, 9,
 * 11 or 12. */
static inline uint32_t refused(uint8_t p, const uint8_t *weights, size_t d, size_t costs_len)
{
    if (p < 2 || 6 < p)
        return 6;
    if (d < LEAST_COLUMNS || MOST_COLUMNS < d)
        return 9;
    for (size_t n = 0; n < d; n++)
        if (weights[n] == 0 || weights[n] >> p != 0)
            return 11;
    return costs_len == d << p ? 0 : 12;
}

/* A factor doubled: shifted, and reduced by the field's polynomial. */
INLINE uint8_t twice(int q, uint8_t a)
{
    const int polynomial = q == 4 ? 0x07 : q == 8 ? 0x0B : q == 16 ? 0x13 : q == 32 ? 0x25 : 0x43;
    const int shifted = a << 1;
    return (uint8_t)(shifted & q ? shifted ^ polynomial : shifted);
}

/* A byte times this number is that byte eight times. */
#define EACH 0x0101010101010101

/* h times x for each symbol x, eight in a number, the lowest first. A byte times a number whose bytes are
 * 0 or 1 is that byte at these places. */
INLINE void products(int q, uint8_t h, uint64_t *row)
{
    const uint8_t by_2 = twice(q, h), by_4 = twice(q, by_2);
    row[0] = (h * 0x0100010001000100) ^ (by_2 * 0x0101000001010000) ^ (by_4 * 0x0101010100000000);
    uint8_t term = twice(q, by_4);
    for (int known = 1; 8 * known < q; known *= 2, term = twice(q, term))
        for (int i = 0; i < known; i++)
            row[known + i] = row[i] ^ (term * EACH);
}

/* The line of a column, in costs: row h x + h z has the cost of symbol x, where z is the decision. Rows
 * from q to 15 have 255. Answers h z. */
INLINE uint8_t fill(int q, uint8_t h, uint8_t decision, const uint8_t *costs, uint8_t *line)
{
    uint64_t row[MOST_ROWS / 8];
    products(q, h, row);
    const uint8_t term = (uint8_t)(row[decision / 8] >> (decision % 8 * 8));
    if (q < 16)
        memset(line, 255, 16);
    for (int x = 0; x < q; x += 8) {
        uint64_t to = row[x / 8] ^ (term * EACH);
        for (int i = x; i < x + 8 && i < q; i++, to >>= 8)
            line[to & 0xFF] = costs[i];
    }
    return term;
}

/* The shift of each column from its own term: the terms of all others. */
INLINE void put_shifts(size_t d, const uint8_t *terms, uint8_t *shifts)
{
    uint8_t sum = 0;
    for (size_t n = 0; n < d; n++)
        sum ^= terms[n];
    for (size_t n = 0; n < d; n++)
        shifts[n] = terms[n] ^ sum;
}

/* E and two pairs of each row, in costs. */
struct lists {
    _Alignas(32) uint8_t extra[MOST_ROWS];
    _Alignas(32) uint8_t column[2][MOST_ROWS];
    _Alignas(32) uint8_t sent[2][MOST_ROWS];
};

/* Sixteen pairs: column and S in turn. */
INLINE void pairs(const struct lists *lists, int j, int a, __m128i *low, __m128i *high)
{
    const __m128i column = _mm_load_si128((const __m128i *)(lists->column[j] + a));
    const __m128i sent = _mm_load_si128((const __m128i *)(lists->sent[j] + a));
    *low = _mm_unpacklo_epi8(column, sent);
    *high = _mm_unpackhi_epi8(column, sent);
}

/* The bytes of each a from 1 on: E, then four bytes of pairs. */
INLINE void put_groups(int q, const struct lists *lists, uint8_t *out)
{
    _Alignas(16) uint32_t both[MOST_ROWS];
    for (int a = 0; a < q; a += 16) {
        __m128i first[2], second[2];
        pairs(lists, 0, a, &first[0], &first[1]);
        pairs(lists, 1, a, &second[0], &second[1]);
        for (int i = 0; i < 2; i++) {
            __m128i *to = (__m128i *)(both + a + 8 * i);
            _mm_store_si128(to, _mm_unpacklo_epi16(first[i], second[i]));
            _mm_store_si128(to + 1, _mm_unpackhi_epi16(first[i], second[i]));
        }
    }
    for (int a = 1; a < q; a++, out += GROUP) {
        out[0] = lists->extra[a];
        memcpy(out + 1, both + a, 4);
    }
}

#endif
