/* A block, on three levels that change their roles from step to step, or in place: there a step is a pass that only tests the numerators,
 * then one that writes over older, and two levels change their roles. Numerators and the divisor are doubled, so that the remainders tell
 * an exact point of an odd D + s as of an even one. With RECIPROCAL the division of a point is a multiplication by a number that is worked
 * out once a block; it is exact, since nothing within the ceiling reaches 2^62 and no divisor 2^18 + 1. */
#include "plain.h"
#include <string.h>

#ifdef RECIPROCAL
#define UNROLLED _Pragma("GCC unroll 4")
#else
#define UNROLLED
#endif

/* The numerator of a point is here u + near (the sum of the neighbours) - far (that of the second ones) - kept p + 2 D f; of a plate it is
 * 4 D u + near L - far (the sum of L at the neighbours) - kept p + 2 D f. */
struct plan {
    uint64_t kind;
    size_t columns, rows;
    int64_t here, near, far, kept;
    uint64_t divisor;
    uint64_t limit, half; /* both the largest numerator within the ceiling: of one number compilers make longer code */
    uint64_t twice;       /* 2 limit */
    uint64_t rest;        /* a numerator that is a multiple of the divisor leaves rest or rest + 1 */
    uint64_t ceiling;     /* CEILING; the constant would take an instruction more */
    uint64_t zero;        /* 0, for clang */
    uint64_t reciprocal;  /* above 2^80 / divisor */
    struct edges edges;
};

/* Of some points: how many are beyond the ceiling, and how many are inexact. */
struct tally {
    uint64_t beyond, inexact;
};

static inline void add(struct tally *t, struct tally more)
{
    t->beyond += more.beyond;
    t->inexact += more.inexact;
}

/* 1 where x is n or more, as the carry of a sum: added to a count it is one instruction. */
static inline uint64_t is_from(uint64_t n, uint64_t x)
{
    uint64_t sum;
    return __builtin_add_overflow(x, -n, &sum);
}

/* The sum of a point's neighbours; a free end has its one neighbour twice. */
static inline int64_t neighbours(const struct plan *x, const int64_t *u, size_t k)
{
    size_t c = x->columns;
    if (x->rows > 1)
        return u[k - 1] + u[k + 1] + u[k - c] + u[k + c];
    if (k == 0 || k + 1 == c)
        return 2 * u[k == 0 ? 1 : k - 1];
    return u[k - 1] + u[k + 1];
}

/* The sum of the second neighbours in a bar; beyond a supported end, where L is 0, lies a point's mirror image with its sign turned. */
static inline int64_t second_neighbours(const struct plan *x, const int64_t *u, size_t k)
{
    return (k == 1 ? -u[k] : u[k - 2]) + (k + 2 == x->columns ? -u[k] : u[k + 2]);
}

/* L of a row of a plate, 0 on the ring. */
static inline void plate_l(size_t c, const int64_t *restrict u, int64_t *restrict l)
{
    const int64_t *left = u - 1, *right = u + 1, *up = u - c, *down = u + c;
    for (size_t k = 0; k < c; k++)
        l[k] = left[k] + right[k] + up[k] + down[k] - 4 * u[k];
    l[0] = l[c - 1] = 0;
}

/* What a pass may do with the next values. */
#define TEST 1
#define WRITE 2
#define BOTH 3

#define PASS(name) test_##name
#define DOES TEST
#include "plain_pass.h"

#define PASS(name) write_##name
#define DOES WRITE
#include "plain_pass.h"

#define PASS(name) both_##name
#define DOES BOTH
#include "plain_pass.h"

/* A point over 2^28 to the nearest whole number, halves away from zero. */
static inline int64_t sample(int64_t v)
{
    return (v + (INT64_C(1) << 27) + (v >> 63)) >> 28;
}

/* The steps done; inexact grows by the inexact points of each, and stays at 2^64 - 1 once it would pass that. In place the third level
 * plays no part. */
static inline size_t play(const struct plan *x, int is_in_place, int64_t *levels[3], int16_t *samples, size_t places, size_t pick_up,
                          int is_hit, size_t point, int64_t force, uint64_t *inexact)
{
    for (size_t n = 0; n < places; n++) {
        int64_t *p = levels[0], *u = levels[1], *next = is_in_place ? p : levels[2];
        int is_struck = n == 0 && is_hit;
        struct tally t;
        if (is_in_place && test_pass(x, p, u, next, is_struck, point, force).beyond)
            return n;
        t = is_in_place ? write_pass(x, p, u, next, is_struck, point, force) : both_pass(x, p, u, next, is_struck, point, force);
        if (t.beyond)
            return n;
        *inexact = t.inexact > UINT64_MAX - *inexact ? UINT64_MAX : *inexact + t.inexact;
        levels[2] = p;
        levels[0] = u;
        levels[1] = next;
        samples[n] = (int16_t)sample(next[pick_up]);
    }
    return places;
}

/* The levels back in their places. */
static void settle(int64_t *levels[3], int64_t *older, int64_t *newer, int64_t *work, size_t bytes)
{
    if (levels[1] == work) {
        memcpy(older, newer, bytes);
        memcpy(newer, work, bytes);
    } else if (levels[0] == work) {
        memcpy(newer, older, bytes);
        memcpy(older, work, bytes);
    }
    memset(work, 0, bytes);
}

static void exchange(int64_t *restrict a, int64_t *restrict b, size_t points)
{
    for (size_t k = 0; k < points; k++) {
        int64_t v = a[k];
        a[k] = b[k];
        b[k] = v;
    }
}

/* Not inlined: constants that a compiler sees through do not stay in memory. */
__attribute__((noinline)) static void make_plan(struct plan *x, uint64_t kind, size_t columns, size_t rows, int64_t q, int64_t m, int64_t s)
{
    x->kind = kind == 7 && m == 0 ? 5 : kind, x->columns = columns, x->rows = rows;
    x->here = 4 * D - (rows > 1 ? 8 * q : 4 * q + 12 * m), x->near = 2 * q + 8 * m, x->far = 2 * m, x->kept = 2 * (D - s);
    x->divisor = 2 * (uint64_t)(D + s), x->rest = x->divisor / 2 - 1, x->ceiling = CEILING, x->zero = 0;
    x->limit = x->half = (uint64_t)CEILING * x->divisor + x->rest, x->twice = 2 * x->limit;
#ifdef RECIPROCAL
    x->reciprocal = (uint64_t)(((__extension__(unsigned __int128) 1) << 80) / x->divisor + 1);
#endif
    find_edges(kind, columns, rows, &x->edges);
}

static uint64_t settings_refusal(uint64_t kind, uint64_t q, uint64_t m, uint64_t s)
{
    if (q > 65536 || m > 65536 || s > 65536)
        return 4;
    return is_stable(kind, q, m) ? 0 : 5;
}

/* What refuses a block before its first step, and its plan where 1 to 5 let it pass. */
static inline uint64_t refusal_of(struct plan *x, uint64_t kind, size_t columns, size_t rows, uint64_t q, uint64_t m, uint64_t s,
                                  int has_lengths, const int64_t *older, const int64_t *newer, size_t pick_up, int is_hit, size_t point,
                                  int64_t force)
{
    size_t points = columns * rows;
    uint64_t refusal = grid_refusal(kind, 7, columns, rows);
    if (!refusal)
        refusal = settings_refusal(kind, q, m, s);
    if (refusal)
        return refusal;
    make_plan(x, kind, columns, rows, (int64_t)q, (int64_t)m, (int64_t)s);
    if (!has_lengths)
        return 6;
    if (is_hit && !is_moving(&x->edges, columns, rows, point))
        return 7;
    if (is_hit && passes(force, CEILING) < 0)
        return 8;
    if (pick_up >= points)
        return 9;
    if (some_beyond(older, points) || some_beyond(newer, points))
        return 11;
    if (some_fixed_not_zero(&x->edges, columns, rows, older) || some_fixed_not_zero(&x->edges, columns, rows, newer))
        return 12;
    return 0;
}

uint64_t PLAIN(block)(uint64_t kind, size_t columns, size_t rows, uint64_t q, uint64_t m, uint64_t s,
                      int64_t *older, size_t older_length, int64_t *newer, size_t newer_length,
                      int64_t *work, size_t work_length, int16_t *samples, size_t samples_length,
                      size_t pick_up, uint64_t hit, size_t point, int64_t force, size_t *steps, uint64_t *inexact)
{
    int64_t *levels[3] = {older, newer, work};
    size_t points = columns * rows;
    int has_lengths = older_length == points && newer_length == points && work_length == points;
    struct plan x;
    uint64_t refusal = refusal_of(&x, kind, columns, rows, q, m, s, has_lengths, older, newer, pick_up, hit != 0, point, force);
    *steps = 0;
    *inexact = 0;
    if (refusal)
        return refusal;
    memset(work, 0, points * sizeof *work);
    *steps = play(&x, 0, levels, samples, samples_length, pick_up, hit != 0, point, force, inexact);
    settle(levels, older, newer, work, points * sizeof *work);
    return *steps < samples_length ? 13 : 0;
}

uint64_t PLAIN(block_in_place)(uint64_t kind, size_t columns, size_t rows, uint64_t q, uint64_t m, uint64_t s,
                               int64_t *older, size_t older_length, int64_t *newer, size_t newer_length,
                               int16_t *samples, size_t samples_length,
                               size_t pick_up, uint64_t hit, size_t point, int64_t force, size_t *steps, uint64_t *inexact)
{
    int64_t *levels[3] = {older, newer, NULL};
    size_t points = columns * rows;
    struct plan x;
    uint64_t refusal = refusal_of(&x, kind, columns, rows, q, m, s, older_length == points && newer_length == points, older, newer,
                                  pick_up, hit != 0, point, force);
    *steps = 0;
    *inexact = 0;
    if (refusal)
        return refusal;
    *steps = play(&x, 1, levels, samples, samples_length, pick_up, hit != 0, point, force, inexact);
    if (levels[1] == older)
        exchange(older, newer, points);
    return *steps < samples_length ? 13 : 0;
}
