/* sse2.c - the check with SSE2 intrinsics, which every x86-64 processor has. */
#include "check.h"

#include <emmintrin.h>

/* Sixteen rows. */
typedef __m128i vector;
enum { LANES = 16 };

#include "common.h"

INLINE vector better(vector x, vector y)
{
    return _mm_max_epu8(x, y);
}

INLINE vector minus(vector x, vector y)
{
    return _mm_sub_epi8(x, y);
}

INLINE vector equal(vector x, vector y)
{
    return _mm_cmpeq_epi8(x, y);
}

INLINE vector choose(vector bits, vector x, vector y)
{
    return _mm_or_si128(_mm_and_si128(bits, x), _mm_andnot_si128(bits, y));
}

INLINE vector all(int number)
{
    return _mm_set1_epi8((char)number);
}

/* 255 less each number: from costs to rests, and back. */
INLINE vector complement(vector x)
{
    return _mm_xor_si128(x, all(255));
}

INLINE void load_costs(int q, const uint8_t *costs, vector *table)
{
    for (int v = 0; v < q; v += LANES)
        table[v / LANES] = complement(_mm_load_si128((const vector *)(costs + v)));
}

INLINE void store(vector x, uint8_t *to)
{
    _mm_store_si128((vector *)to, x);
}

INLINE void store_costs(vector rests, uint8_t *to)
{
    store(complement(rests), to);
}

/* Row i of the answer is row i + 1, i + 2, i + 4 or i + 8 of the vector. */
INLINE vector by_1(vector x)
{
    return _mm_or_si128(_mm_slli_epi16(x, 8), _mm_srli_epi16(x, 8));
}

INLINE vector by_2(vector x)
{
    return _mm_shufflehi_epi16(_mm_shufflelo_epi16(x, 0xB1), 0xB1);
}

INLINE vector by_4(vector x)
{
    return _mm_shuffle_epi32(x, 0xB1);
}

INLINE vector by_8(vector x)
{
    return _mm_shuffle_epi32(x, 0x4E);
}

/* Copy j of a table has row x + j at x. */
struct turns {
    vector copy[16][4];
};

INLINE void turn(int q, const vector *table, struct turns *turns)
{
    for (int v = 0; v < q; v += LANES) {
        vector copy[16];
        copy[0] = table[v / LANES];
        copy[1] = by_1(copy[0]);
        for (int j = 0; j < 2; j++)
            copy[2 + j] = by_2(copy[j]);
        for (int j = 0; j < 4 && q > 4; j++)
            copy[4 + j] = by_4(copy[j]);
        for (int j = 0; j < 8 && q > 8; j++)
            copy[8 + j] = by_8(copy[j]);
        for (int j = 0; j < 16 && j < q; j++)
            turns->copy[j][v / LANES] = copy[j];
    }
}

/* The costs of a table, each four times: from one such vector four rows are taken with a shuffle each. */
struct spread {
    vector four[MOST_ROWS / 4];
};

INLINE void spread(int q, const vector *table, struct spread *spread)
{
    for (int v = 0; v < q; v += LANES) {
        vector *four = spread->four + v / 4;
        const vector costs = complement(table[v / LANES]);
        const vector low = _mm_unpacklo_epi8(costs, costs), high = _mm_unpackhi_epi8(costs, costs);
        four[0] = _mm_unpacklo_epi16(low, low);
        four[1] = _mm_unpackhi_epi16(low, low);
        four[2] = _mm_unpacklo_epi16(high, high);
        four[3] = _mm_unpackhi_epi16(high, high);
    }
}

/* Row 16 h + j meets block v in block v + h of copy j; four rows at a time. */
INLINE void join(int q, const struct turns *turns, const struct spread *spread, vector *best)
{
    const int blocks = q <= LANES ? 1 : q / LANES;
    vector so_far[4];
    for (int v = 0; v < blocks; v++)
        so_far[v] = best[v];
    for (int j = 0; j < 16 && j < q; j += 4) {
        const vector(*copy)[4] = turns->copy + j;
#pragma GCC unroll 4
        for (int h = 0; h < blocks; h++) {
            const vector four = spread->four[4 * h + j / 4];
            const vector c0 = _mm_shuffle_epi32(four, 0x00), c1 = _mm_shuffle_epi32(four, 0x55);
            const vector c2 = _mm_shuffle_epi32(four, 0xAA), c3 = _mm_shuffle_epi32(four, 0xFF);
#pragma GCC unroll 4
            for (int v = 0; v < blocks; v++) {
                const vector x = better(_mm_subs_epu8(copy[0][v ^ h], c0),
                                        _mm_subs_epu8(copy[1][v ^ h], c1));
                const vector y = better(_mm_subs_epu8(copy[2][v ^ h], c2),
                                        _mm_subs_epu8(copy[3][v ^ h], c3));
                so_far[v] = better(so_far[v], better(x, y));
            }
        }
    }
    for (int v = 0; v < blocks; v++)
        best[v] = so_far[v];
}

#include "sweeps.h"

uint32_t hand_check_sse2(uint8_t p,
                         const uint8_t *weights, size_t weights_len,
                         const uint8_t *costs, size_t costs_len,
                         uint8_t *record, size_t record_len)
{
    return check(p, weights, weights_len, costs, costs_len, record, record_len);
}
