/* avx2.c - the check with AVX2 intrinsics. Compiled for AVX2: its caller tests the processor first. */
#include "check.h"

#include <immintrin.h>

/* Thirty-two rows. Where q is at most 16 a table stands in both halves. */
typedef __m256i vector;
enum { LANES = 32 };

#include "common.h"

INLINE vector better(vector x, vector y)
{
    return _mm256_max_epu8(x, y);
}

INLINE vector minus(vector x, vector y)
{
    return _mm256_sub_epi8(x, y);
}

INLINE vector equal(vector x, vector y)
{
    return _mm256_cmpeq_epi8(x, y);
}

INLINE vector choose(vector bits, vector x, vector y)
{
    return _mm256_blendv_epi8(y, x, bits);
}

INLINE vector all(int number)
{
    return _mm256_set1_epi8((char)number);
}

/* 255 less each number: from costs to rests, and back. */
INLINE vector complement(vector x)
{
    return _mm256_xor_si256(x, all(255));
}

INLINE void load_costs(int q, const uint8_t *costs, vector *table)
{
    if (q <= 16) {
        table[0] = complement(_mm256_broadcastsi128_si256(_mm_load_si128((const __m128i *)costs)));
        return;
    }
    for (int v = 0; v < q; v += LANES)
        table[v / LANES] = complement(_mm256_load_si256((const vector *)(costs + v)));
}

INLINE void store(vector x, uint8_t *to)
{
    _mm256_store_si256((vector *)to, x);
}

INLINE void store_costs(vector rests, uint8_t *to)
{
    store(complement(rests), to);
}

/* The halves change places. */
INLINE vector swapped(vector x)
{
    return _mm256_permute4x64_epi64(x, 0x4E);
}

/* x in the lower half, y in the upper. */
INLINE vector halves(int x, int y)
{
    return _mm256_setr_m128i(_mm_set1_epi8((char)x), _mm_set1_epi8((char)y));
}

/* The lower half turned by x and the upper half by y: row i is then row i + x or i + y of the half. */
INLINE vector turned(vector table, int x, int y)
{
    const __m128i rows = _mm_setr_epi8(0, 1, 2, 3, 4, 5, 6, 7, 8, 9, 10, 11, 12, 13, 14, 15);
    const vector places = _mm256_xor_si256(_mm256_broadcastsi128_si256(rows), halves(x, y));
    return _mm256_shuffle_epi8(table, places);
}

/* A table as it is, and with its halves swapped: a row more or less by 16. */
struct turns {
    vector table[MOST_ROWS / LANES];
    vector swapped[MOST_ROWS / LANES];
};

INLINE void turn(int q, const vector *table, struct turns *turns)
{
    for (int v = 0; v < q; v += LANES) {
        turns->table[v / LANES] = table[v / LANES];
        turns->swapped[v / LANES] = swapped(table[v / LANES]);
    }
}

/* The costs of a table. */
struct spread {
    vector costs[MOST_ROWS / LANES];
};

INLINE void spread(int q, const vector *table, struct spread *spread)
{
    for (int v = 0; v < q; v += LANES)
        spread->costs[v / LANES] = complement(table[v / LANES]);
}

/* Row x of the lower half all over it, and row y of the upper half. */
INLINE vector rows(vector costs, int x, int y)
{
    return _mm256_shuffle_epi8(costs, halves(x, y));
}

/* q up to 16: rows j in the lower halves and j + q / 2 in the upper ones. */
INLINE void join_halves(int q, vector table, vector costs, vector *best)
{
    vector so_far = *best;
#pragma GCC unroll 8
    for (int j = 0; j < q / 2; j++) {
        const vector taken = rows(costs, j, j + q / 2);
        so_far = better(so_far, _mm256_subs_epu8(turned(table, j, j + q / 2), taken));
    }
    *best = better(so_far, swapped(so_far));
}

/* q from 32 on: rows j of both halves. A half of a table taken with the same half of the costs goes to a
 * lower half of the answer, with the other half to an upper one; a vector with the vector that differs by
 * h goes to vector h. */
INLINE void join_vectors(int q, const struct turns *turns, const vector *costs, vector *best)
{
    const int count = q / LANES;
    vector low[2] = { all(0), all(0) }, high[2] = { all(0), all(0) };
#pragma GCC unroll 16
    for (int j = 0; j < 16; j++)
        for (int v = 0; v < count; v++) {
            const vector straight = turned(turns->table[v], j, j);
            const vector crossed = turned(turns->swapped[v], j, j);
            for (int h = 0; h < count; h++) {
                const vector taken = rows(costs[v ^ h], j, j);
                low[h] = better(low[h], _mm256_subs_epu8(straight, taken));
                high[h] = better(high[h], _mm256_subs_epu8(crossed, taken));
            }
        }
    for (int h = 0; h < count; h++) {
        const vector x = _mm256_permute2x128_si256(low[h], high[h], 0x20);
        const vector y = _mm256_permute2x128_si256(low[h], high[h], 0x31);
        best[h] = better(best[h], better(x, y));
    }
}

INLINE void join(int q, const struct turns *turns, const struct spread *spread, vector *best)
{
    if (q <= 16)
        join_halves(q, turns->table[0], spread->costs[0], best);
    else
        join_vectors(q, turns, spread->costs, best);
}

#include "sweeps.h"

uint32_t hand_check_avx2(uint8_t p,
                         const uint8_t *weights, size_t weights_len,
                         const uint8_t *costs, size_t costs_len,
                         uint8_t *record, size_t record_len)
{
    return check(p, weights, weights_len, costs, costs_len, record, record_len);
}
