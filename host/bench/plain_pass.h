/* A pass over the moving points: p is older, u newer, and of the next values it DOES one thing: TEST them against the ceiling, WRITE them
 * over older, or BOTH, where next is a third level. plain_block.c includes this file once for each, so that each has loops of its own,
 * named by PASS. */

/* Where older is written over, p and next are one. */
#if DOES == WRITE
#define APART
#else
#define APART restrict
#endif

#define PUT(place, value)      \
    do {                       \
        int64_t put = (value); \
        if (DOES != TEST)      \
            (place) = put;     \
    } while (0)

/* n over the divisor to the nearest whole number, halves away from zero. Within the ceiling y is 0..2 limit + 1, and its quotient, cut, is
 * the answer plus CEILING; n is even, so y leaves rest only below n = 0 and rest + 1 only from there on, where it is 1 more. */
static inline int64_t PASS(round_away)(const struct plan *x, int64_t n, struct tally *t)
{
    uint64_t y = (uint64_t)n + x->limit, v;
    if (DOES != WRITE)
        t->beyond += y > x->twice;
    if (DOES == TEST)
        return 0;
    y += y >= x->half;
#ifdef RECIPROCAL
    v = ((uint64_t)((__extension__(unsigned __int128) y * x->reciprocal) >> 64) >> 16) - x->ceiling;
    t->inexact += is_from(1, (uint64_t)n - v * x->divisor);
#else
#ifdef __clang__
    y ^= x->zero; /* clang tests before a division whether 32 bits would do, but of no exclusive or */
#endif
    v = y / x->divisor;
    t->inexact += is_from(2, y % x->divisor - x->rest);
    v -= x->ceiling;
#endif
    return (int64_t)v;
}

/* The next value at a point from its newer and older values and the sum of its neighbours. */
static inline int64_t PASS(next_value)(const struct plan *x, int64_t u, int64_t p, int64_t beside, struct tally *t)
{
    return PASS(round_away)(x, x->here * u + x->near * beside - x->kept * p, t);
}

/* The same of a bar, with the sum of the second neighbours. */
static inline int64_t PASS(bar_value)(const struct plan *x, int64_t u, int64_t p, int64_t beside, int64_t second, struct tally *t)
{
    return PASS(round_away)(x, x->here * u + x->near * beside - x->far * second - x->kept * p, t);
}

/* count points of a string. Each neighbour has a pointer of its own, so that it is read where it is used. */
static inline struct tally PASS(string_points)(const struct plan *x, const int64_t *APART p, const int64_t *restrict left,
                                               const int64_t *restrict u, const int64_t *restrict right, int64_t *APART next,
                                               size_t count)
{
    struct tally t = {0, 0};
    UNROLLED for (size_t k = 0; k < count; k++)
        PUT(next[k], PASS(next_value)(x, u[k], p[k], left[k] + right[k], &t));
    return t;
}

/* The same of a row of a membrane. */
static inline struct tally PASS(membrane_points)(const struct plan *x, const int64_t *APART p, const int64_t *restrict left,
                                                 const int64_t *restrict u, const int64_t *restrict right, const int64_t *restrict up,
                                                 const int64_t *restrict down, int64_t *APART next, size_t count)
{
    struct tally t = {0, 0};
    UNROLLED for (size_t k = 0; k < count; k++)
        PUT(next[k], PASS(next_value)(x, u[k], p[k], left[k] + right[k] + up[k] + down[k], &t));
    return t;
}

/* Points a..e - 1 of a bar, none of them beside an end. */
static struct tally PASS(bar_points)(const struct plan *x, const int64_t *APART p, const int64_t *restrict u, int64_t *APART next,
                                     size_t a, size_t e)
{
    struct tally t = {0, 0};
    for (size_t k = a; k < e; k++)
        PUT(next[k], PASS(bar_value)(x, u[k], p[k], u[k - 1] + u[k + 1], u[k - 2] + u[k + 2], &t));
    return t;
}

/* One point of any kind but a plate, with its force. */
static struct tally PASS(point_run)(const struct plan *x, const int64_t *p, const int64_t *u, int64_t *next, size_t k, int64_t f)
{
    struct tally t = {0, 0};
    int64_t n = x->here * u[k] + x->near * neighbours(x, u, k) - x->kept * p[k] + 2 * D * f;
    if (x->kind == 4)
        n -= x->far * second_neighbours(x, u, k);
    PUT(next[k], PASS(round_away)(x, n, &t));
    return t;
}

/* Points a..e - 1 of a bar, all of them inner ones. */
static struct tally PASS(bar_run)(const struct plan *x, const int64_t *p, const int64_t *u, int64_t *next, size_t a, size_t e)
{
    struct tally t = {0, 0};
    if (a == 1)
        add(&t, PASS(point_run)(x, p, u, next, a++, 0));
    if (e + 1 == x->columns && a < e)
        add(&t, PASS(point_run)(x, p, u, next, --e, 0));
    add(&t, PASS(bar_points)(x, p, u, next, a, e));
    return t;
}

/* The next value at a point of a plate from L there and the sum of L at the neighbours. */
static inline int64_t PASS(plate_value)(const struct plan *x, int64_t u, int64_t p, int64_t l, int64_t beside, int64_t f, struct tally *t)
{
    return PASS(round_away)(x, 4 * D * u + x->near * l - x->far * beside - x->kept * p + 2 * D * f, t);
}

/* Points a..e - 1 of a row of a plate, from L of the row above, of this row and of the row below. */
static inline struct tally PASS(plate_run)(const struct plan *x, const int64_t *APART p, const int64_t *restrict u,
                                           int64_t *APART next, const int64_t *restrict above, const int64_t *restrict l,
                                           const int64_t *restrict below, size_t a, size_t e)
{
    struct tally t = {0, 0};
    int64_t before = l[a - 1], here = l[a];
    for (size_t k = a; k < e; k++) {
        int64_t after = l[k + 1];
        PUT(next[k], PASS(plate_value)(x, u[k], p[k], here, before + after + above[k] + below[k], 0, &t));
        before = here;
        here = after;
    }
    return t;
}

/* A row of a plate with a hit at column at. */
static struct tally PASS(struck_plate_row)(const struct plan *x, const int64_t *p, const int64_t *u, int64_t *next, const int64_t *above,
                                           const int64_t *l, const int64_t *below, size_t at, int64_t force)
{
    struct tally t = PASS(plate_run)(x, p, u, next, above, l, below, 1, at);
    PUT(next[at], PASS(plate_value)(x, u[at], p[at], l[at], l[at - 1] + l[at + 1] + above[at] + below[at], force, &t));
    add(&t, PASS(plate_run)(x, p, u, next, above, l, below, at + 1, x->columns - 1));
    return t;
}

/* The points of a plate. L is worked out once at each point, a row ahead, and three rows of it turn. The ring's own rows, which are 0,
 * serve as their L. */
static inline struct tally PASS(plate_level)(const struct plan *x, const int64_t *p, const int64_t *u, int64_t *next, int is_hit,
                                             size_t point, int64_t force)
{
    int64_t rows[3][ROWS], *l = rows[0], *ahead = rows[1], *spare = rows[2], *done;
    struct tally t = {0, 0};
    const int64_t *above = u;
    size_t c = x->columns;
    plate_l(c, u + c, l);
    for (size_t row = 1; row + 1 < x->rows; row++) {
        size_t at = row * c;
        const int64_t *below = u + at + c;
        if (row + 2 < x->rows) {
            plate_l(c, below, ahead);
            below = ahead;
        }
        if (is_hit && point / c == row)
            add(&t, PASS(struck_plate_row)(x, p + at, u + at, next + at, above, l, below, point % c, force));
        else
            add(&t, PASS(plate_run)(x, p + at, u + at, next + at, above, l, below, 1, c - 1));
        above = done = l;
        l = ahead;
        ahead = spare;
        spare = done;
    }
    return t;
}

/* Points a..e - 1 of a row, none of them hit. */
static struct tally PASS(run)(const struct plan *x, const int64_t *p, const int64_t *u, int64_t *next, size_t a, size_t e)
{
    struct tally t = {0, 0};
    size_t c = x->columns;
    if (a >= e)
        return t;
    if (x->kind >= 5)
        return PASS(membrane_points)(x, p + a, u + a - 1, u + a, u + a + 1, u + a - c, u + a + c, next + a, e - a);
    if (x->kind == 4)
        return PASS(bar_run)(x, p, u, next, a, e);
    if (a == 0)
        add(&t, PASS(point_run)(x, p, u, next, a++, 0));
    if (e == c && a < e)
        add(&t, PASS(point_run)(x, p, u, next, --e, 0));
    if (a < e)
        add(&t, PASS(string_points)(x, p + a, u + a - 1, u + a, u + a + 1, next + a, e - a));
    return t;
}

/* All points, none of them hit. */
static struct tally PASS(level)(const struct plan *x, const int64_t *p, const int64_t *u, int64_t *next)
{
    struct tally t = {0, 0};
    if (x->kind == 7)
        return PASS(plate_level)(x, p, u, next, 0, 0, 0);
    for (size_t row = 0; row < x->rows; row++)
        add(&t, PASS(run)(x, p, u, next, row * x->columns + x->edges.from[row], row * x->columns + x->edges.to[row]));
    return t;
}

/* All points, with a hit at a moving one. */
static struct tally PASS(struck_level)(const struct plan *x, const int64_t *p, const int64_t *u, int64_t *next, size_t point, int64_t force)
{
    struct tally t;
    if (x->kind == 7)
        return PASS(plate_level)(x, p, u, next, 1, point, force);
    t = PASS(point_run)(x, p, u, next, point, force);
    for (size_t row = 0; row < x->rows; row++) {
        size_t a = row * x->columns + x->edges.from[row], e = row * x->columns + x->edges.to[row];
        size_t middle = point < a || point > e ? e : point;
        add(&t, PASS(run)(x, p, u, next, a, middle));
        add(&t, PASS(run)(x, p, u, next, middle + 1, e));
    }
    return t;
}

/* The pass of a step. */
static inline struct tally PASS(pass)(const struct plan *x, const int64_t *p, const int64_t *u, int64_t *next, int is_hit, size_t point,
                                      int64_t force)
{
    return is_hit ? PASS(struck_level)(x, p, u, next, point, force) : PASS(level)(x, p, u, next);
}

#undef APART
#undef PUT
#undef PASS
#undef DOES
