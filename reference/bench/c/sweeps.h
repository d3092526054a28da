/* sweeps.h - the check around a join of two tables.
 *
 * A table has, for each row a, the best choice of some columns whose weighted difference is a. It holds
 * rests: what is left of 255 after a cost. The best choice has the greatest rest, and a cost is taken off
 * by a difference that stops at 0.
 *
 * The file that includes this one says first what a vector of rows is:
 *
 *   vector, LANES            its type, and how many rows it has
 *   better, minus            of two vectors the greater numbers, and the differences
 *   equal, choose            all bits where two numbers are equal; x where the bits are set, else y
 *   all                      one number in every row
 *   load_costs               a table from costs in memory
 *   store, store_costs       a vector into memory; rests as costs
 *   struct turns, turn       a table as the first of a join
 *   struct spread, spread    a table as the second of a join
 *   join                     best[a] takes in the best of rows b and a + b over all b, where + is
 *                            exclusive or
 */
#ifndef HAND_SWEEPS_H
#define HAND_SWEEPS_H

#include "common.h"

enum { MOST_VECTORS = MOST_ROWS / LANES };

/* The vectors of a table. */
INLINE int vectors(int q)
{
    return q <= LANES ? 1 : q / LANES;
}

/* A column: its line, and the tables over the columns after it with at most one and two deviations. At
 * the end `two` is S, the best choices of all other columns. */
struct column {
    vector line[MOST_VECTORS];
    struct spread costs;
    vector one[MOST_VECTORS];
    vector two[MOST_VECTORS];
};

INLINE void copy(int q, const vector *from, vector *to)
{
    for (int v = 0; v < vectors(q); v++)
        to[v] = from[v];
}

/* best takes in a table. */
INLINE void raise(int q, const vector *table, vector *best)
{
    for (int v = 0; v < vectors(q); v++)
        best[v] = better(best[v], table[v]);
}

/* The lines, and the shifts of the record. */
INLINE void fill_columns(int q, size_t d, const uint8_t *weights, const uint8_t *costs,
                         const uint8_t *decisions, struct column *columns, uint8_t *shifts)
{
    uint8_t terms[MOST_COLUMNS];
    _Alignas(32) uint8_t lines[MOST_COLUMNS][MOST_ROWS];
    for (size_t n = 0; n < d; n++)
        terms[n] = fill(q, weights[n], decisions[n], costs + n * (size_t)q, lines[n]);
    put_shifts(d, terms, shifts);
    /* A loop of its own: bytes that were just written one by one cannot be read as a vector at once. */
    for (size_t n = 0; n < d; n++) {
        load_costs(q, lines[n], columns[n].line);
        spread(q, columns[n].line, &columns[n].costs);
    }
}

/* The tables after each column but the last. */
INLINE void sweep_back(int q, size_t d, struct column *columns)
{
    copy(q, columns[d - 1].line, columns[d - 2].one);
    copy(q, columns[d - 1].line, columns[d - 2].two);
    for (size_t n = d - 2; n > 0; n--) {
        struct column *column = columns + n, *earlier = column - 1;
        struct turns turns;
        turn(q, column->one, &turns);
        copy(q, column->one, earlier->one);
        copy(q, column->two, earlier->two);
        join(q, &turns, &column->costs, earlier->two);
        raise(q, column->line, earlier->one);
    }
}

/* S of each column but the first, which has no column before it: from the tables before and after. */
INLINE void sweep_forth(int q, size_t d, struct column *columns)
{
    vector one[MOST_VECTORS], two[MOST_VECTORS];
    copy(q, columns[0].line, one);
    copy(q, columns[0].line, two);
    for (size_t n = 1; n + 1 < d; n++) {
        struct column *column = columns + n;
        struct turns turns;
        struct spread after;
        turn(q, one, &turns);
        spread(q, column->one, &after);
        raise(q, two, column->two);
        join(q, &turns, &after, column->two);
        join(q, &turns, &column->costs, two);
        raise(q, column->line, one);
    }
    copy(q, two, columns[d - 1].two);
}

/* E, the best S of all columns, and the columns with another: a lower one goes in front. */
INLINE void list(int q, size_t d, const struct column *columns, struct lists *lists)
{
    for (int v = 0; v < vectors(q); v++) {
        vector extra = columns[0].two[v];
        for (size_t n = 1; n < d; n++)
            extra = better(extra, columns[n].two[v]);
        vector column[2] = { all(255), all(255) }, sent[2] = { all(255), all(255) };
        vector number = all((int)d);
        for (size_t n = d; n-- > 0;) {
            const vector own = columns[n].two[v], same = equal(own, extra);
            number = minus(number, all(1));
            column[1] = choose(same, column[1], column[0]);
            sent[1] = choose(same, sent[1], sent[0]);
            column[0] = choose(same, column[0], number);
            sent[0] = choose(same, sent[0], own);
        }
        store_costs(extra, lists->extra + v * LANES);
        for (int j = 0; j < 2; j++) {
            store(column[j], lists->column[j] + v * LANES);
            store_costs(sent[j], lists->sent[j] + v * LANES);
        }
    }
}

/* The answer of petsivola_check, from the costs on. */
INLINE uint32_t check_of(int q, const uint8_t *weights, size_t d, const uint8_t *costs,
                         uint8_t *record, size_t record_len)
{
    const size_t length = d + GROUP * (size_t)(q - 1);
    uint8_t decisions[MOST_COLUMNS];
    struct column columns[MOST_COLUMNS];
    struct lists lists;
    if (!decide(q, d, costs, decisions))
        return 13u << 16;
    if (record_len < length)
        return 4u << 16;
    fill_columns(q, d, weights, costs, decisions, columns, record);
    sweep_back(q, d, columns);
    sweep_forth(q, d, columns);
    list(q, d, columns, &lists);
    put_groups(q, &lists, record + d);
    return (uint32_t)length;
}

static inline uint32_t check(uint8_t p, const uint8_t *weights, size_t d, const uint8_t *costs,
                             size_t costs_len, uint8_t *record, size_t record_len)
{
    const uint32_t number = refused(p, weights, d, costs_len);
    if (number != 0)
        return number << 16;
    switch (p) {
    case 2:
        return check_of(4, weights, d, costs, record, record_len);
    case 3:
        return check_of(8, weights, d, costs, record, record_len);
    case 4:
        return check_of(16, weights, d, costs, record, record_len);
    case 5:
        return check_of(32, weights, d, costs, record, record_len);
    default:
        return check_of(64, weights, d, costs, record, record_len);
    }
}

#endif
