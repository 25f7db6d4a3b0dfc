/* Plucks, a reading and a sheet. */
#include "plain.h"
#include "table.h"
#include <math.h>
#include <string.h>

/* Both levels of a pluck that nothing refuses: each distance is worked out once, from the rim to the centre. */
static inline void shape(const uint32_t *restrict from, const struct edges *e, int64_t *restrict older, int64_t *restrict newer,
                         size_t columns, size_t centre, size_t width, int64_t height)
{
    size_t whole = 1024 / width, part = 1024 % width, i = 0, rest = 0;
    memset(older, 0, columns * sizeof *older);
    memset(newer, 0, columns * sizeof *newer);
    for (size_t d = width; d > 0; d--) {
        int64_t v = height * from[i] / 65536;
        if (d + e->from[0] <= centre)
            older[centre - d] = newer[centre - d] = v;
        if (centre + d < e->to[0])
            older[centre + d] = newer[centre + d] = v;
        i += whole;
        rest += part;
        i += rest >= width;
        rest -= rest >= width ? width : 0;
    }
    older[centre] = newer[centre] = height * from[i] / 65536;
}

/* What refuses a pluck, its table apart; where nothing does, the line's moving points. */
static inline uint64_t pluck_refusal(uint64_t kind, size_t columns, size_t rows, size_t older_length, size_t newer_length, size_t centre,
                                     size_t half_width, int64_t height, struct edges *e)
{
    uint64_t refusal = grid_refusal(kind, 4, columns, rows);
    if (refusal)
        return refusal;
    find_edges(kind, columns, rows, e);
    if (older_length != columns || newer_length != columns)
        return 6;
    if (!is_moving(e, columns, 1, centre))
        return 7;
    if (passes(height, CEILING) < 0)
        return 8;
    return half_width - 1 >= columns - 1 ? 10 : 0;
}

uint64_t PLAIN(pluck)(uint64_t kind, size_t columns, size_t rows, int64_t *older, size_t older_length, int64_t *newer, size_t newer_length,
                      size_t centre, size_t half_width, int64_t height)
{
    struct edges e;
    uint64_t refusal = pluck_refusal(kind, columns, rows, older_length, newer_length, centre, half_width, height, &e);
    if (refusal == 0)
        shape(table, &e, older, newer, columns, centre, half_width, height);
    return refusal;
}

/* Every pair of neighbours is looked at, without a branch. A fall sets the top bit of a difference where no entry has it; where one has,
 * the table falls later, since it ends at 65536. */
static int keeps_rule(const uint32_t *lent, size_t length)
{
    uint32_t bits = 0;
    if (length != 1025 || lent[0] != 0 || lent[1024] != 65536)
        return 0;
    for (size_t j = 1; j < 1025; j++)
        bits |= (lent[j] - lent[j - 1]) | lent[j];
    return bits >> 31 == 0;
}

uint64_t PLAIN(pluck_with)(uint64_t kind, size_t columns, size_t rows, int64_t *older, size_t older_length, int64_t *newer,
                           size_t newer_length, size_t centre, size_t half_width, int64_t height, const uint32_t *lent,
                           size_t lent_length)
{
    struct edges e;
    uint64_t refusal = pluck_refusal(kind, columns, rows, older_length, newer_length, centre, half_width, height, &e);
    if (refusal)
        return refusal;
    if (!keeps_rule(lent, lent_length))
        return 14;
    shape(lent, &e, older, newer, columns, centre, half_width, height);
    return 0;
}

uint64_t PLAIN(reading)(uint64_t kind, size_t columns, size_t rows, const int64_t *newer, size_t newer_length, size_t pick_up,
                        double *value)
{
    uint64_t refusal = grid_refusal(kind, 7, columns, rows);
    struct edges e;
    *value = 0;
    if (refusal)
        return refusal;
    if (newer_length != columns * rows)
        return 6;
    if (pick_up >= columns * rows)
        return 9;
    if (some_beyond(newer, newer_length))
        return 11;
    find_edges(kind, columns, rows, &e);
    if (some_fixed_not_zero(&e, columns, rows, newer))
        return 12;
    *value = (double)newer[pick_up] / 8796093022208.0;
    return 0;
}

/* The nearest whole number to 65536 x, halves up; -1 where that is not in 0..65536. x is not negative. */
static int64_t nearest(double x)
{
    double y = x * 65536;
    int64_t n = y < 65537 ? (int64_t)y : -1;
    n += n >= 0 && y - (double)n >= 0.5;
    return n > 65536 ? -1 : n;
}

static int is_allowed(double x)
{
    return x >= 0 && x < INFINITY;
}

static int is_above_zero(double x)
{
    return x > 0 && x < INFINITY;
}

uint64_t PLAIN(sheet)(uint64_t kind, size_t columns, size_t rows, double rate, double length, double bending, uint64_t by_tension,
                      double speed, double density, uint64_t by_seconds, double loss, uint64_t *q, uint64_t *m, uint64_t *s)
{
    uint64_t refusal = grid_refusal(kind, 7, columns, rows);
    double g = (double)(columns - 1), h = length / g, z = 2 * speed * g / rate;
    int64_t a, b, c;
    *q = *m = *s = 0;
    if (refusal)
        return refusal;
    if (!is_above_zero(rate) || !is_above_zero(length) || !is_allowed(bending) || !is_allowed(speed)
        || (by_tension ? !is_above_zero(density) : kind >= 5) || !(by_seconds ? is_above_zero(loss) : is_allowed(loss)))
        return 3;
    a = nearest(by_tension ? speed / density / (rate * rate) / (h * h) : z * z);
    b = nearest(bending / (rate * rate) / (h * h) / (h * h));
    c = nearest((by_seconds ? 6.907755278982137 / loss : loss) / rate);
    if (a < 0 || b < 0 || c < 0)
        return 4;
    if (!is_stable(kind, (uint64_t)a, (uint64_t)b))
        return 5;
    *q = (uint64_t)a, *m = (uint64_t)b, *s = (uint64_t)c;
    return 0;
}
