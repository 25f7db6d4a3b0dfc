/* The calls of buvcsolta.h in plain C, as fast as we could write them: the same arguments, refusals and results. A compiler's copy of
 * them has that compiler's PREFIX. */
#ifndef PLAIN_H
#define PLAIN_H

#include <stddef.h>
#include <stdint.h>

#ifndef PREFIX
#define PREFIX plain_
#endif
#define PLAIN_JOINED(prefix, name) prefix##name
#define PLAIN_NAME(prefix, name) PLAIN_JOINED(prefix, name)
#define PLAIN(name) PLAIN_NAME(PREFIX, name)

#define D INT64_C(65536)
#define CEILING (INT64_C(32767) << 28)

enum { ROWS = 64 };

/* The moving columns of each row: from..to - 1. */
struct edges {
    size_t from[ROWS], to[ROWS];
};

static inline int has_size(uint64_t kind, size_t columns, size_t rows)
{
    if (kind <= 4)
        return rows == 1 && columns - 3 <= 1021;
    return columns - 3 <= 61 && (kind == 6 ? rows == columns : rows - 3 <= 61);
}

/* 1 and 2, where kinds 1..last are known. */
static inline uint64_t grid_refusal(uint64_t kind, uint64_t last, size_t columns, size_t rows)
{
    return kind - 1 >= last ? 1 : has_size(kind, columns, rows) ? 0 : 2;
}

/* Settings within 0..65536 that 5 lets pass. */
static inline int is_stable(uint64_t kind, uint64_t q, uint64_t m)
{
    if (m > 0 && kind != 4 && kind != 7)
        return 0;
    return kind < 4 || (kind == 4 ? q + 4 * m : 2 * q + 16 * m) <= 65536;
}

static inline void set_row(struct edges *e, size_t row, size_t from, size_t to)
{
    e->from[row] = from;
    e->to[row] = to;
}

/* The first moving column can only fall from the first row to the middle one; the lower half is the mirror image. */
static inline void round_edges(int64_t g, struct edges *e)
{
    int64_t a = (g + 1) / 2;
    for (int64_t row = 0; row < (g + 1) / 2; row++) {
        int64_t y = 2 * row - g + 1, room = (g - 1) * (g - 1) - y * y;
        while (a > 0 && (2 * a - g - 1) * (2 * a - g - 1) < room)
            a--;
        set_row(e, (size_t)row, (size_t)a, (size_t)(a < g - a ? g - a : a));
        set_row(e, (size_t)(g - 1 - row), e->from[row], e->to[row]);
    }
}

/* Of a grid whose size the table has. */
static inline void find_edges(uint64_t kind, size_t columns, size_t rows, struct edges *e)
{
    if (kind <= 4) {
        set_row(e, 0, kind != 3, kind == 2 || kind == 3 ? columns : columns - 1);
    } else if (kind == 6) {
        round_edges((int64_t)columns, e);
    } else {
        set_row(e, 0, 0, 0);
        for (size_t row = 1; row + 1 < rows; row++)
            set_row(e, row, 1, columns - 1);
        set_row(e, rows - 1, 0, 0);
    }
}

static inline int is_moving(const struct edges *e, size_t columns, size_t rows, size_t point)
{
    size_t row = point / columns, column = point % columns;
    return row < rows && column >= e->from[row] && column < e->to[row];
}

/* Negative if x is beyond limit on either side of zero. */
static inline int64_t passes(int64_t x, int64_t limit)
{
    return (int64_t)((uint64_t)x + (uint64_t)limit) | (int64_t)((uint64_t)limit - (uint64_t)x);
}

static inline int some_beyond(const int64_t *level, size_t points)
{
    int64_t sign = 0;
    for (size_t k = 0; k < points; k++)
        sign |= passes(level[k], CEILING);
    return sign < 0;
}

static inline int some_fixed_not_zero(const struct edges *e, size_t columns, size_t rows, const int64_t *level)
{
    int64_t bits = 0;
    for (size_t row = 0; row < rows; row++, level += columns) {
        for (size_t k = 0; k < e->from[row]; k++)
            bits |= level[k];
        for (size_t k = e->to[row]; k < columns; k++)
            bits |= level[k];
    }
    return bits != 0;
}

#endif
