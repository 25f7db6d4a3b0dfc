#include "doubles.h"
#include "plain.h"

struct factors {
    double q, m, keep, lose;
};

static void put(const struct factors *x, const double *p, const double *u, double *next, size_t k, double l, double b, double f)
{
    next[k] = (2 * u[k] + x->q * l - x->m * b - x->keep * p[k] + f) * x->lose;
}

static double supported(const struct buvcsolta_instrument *i, const double *u, size_t k)
{
    return k == 0 || k + 1 == i->columns ? 0 : u[k - 1] + u[k + 1] - 2 * u[k];
}

static double laplacian(const struct buvcsolta_instrument *i, const double *u, size_t k)
{
    size_t c = i->columns;
    if (i->rows > 1)
        return u[k - 1] + u[k + 1] + u[k - c] + u[k + c] - 4 * u[k];
    if (k == 0)
        return 2 * (u[1] - u[0]);
    if (k + 1 == c)
        return 2 * (u[k - 1] - u[k]);
    return u[k - 1] + u[k + 1] - 2 * u[k];
}

static int is_on_ring(const struct buvcsolta_instrument *i, size_t k)
{
    size_t row = k / i->columns, column = k % i->columns;
    return row == 0 || row + 1 == i->rows || column == 0 || column + 1 == i->columns;
}

static double plate_l(const struct buvcsolta_instrument *i, const double *u, size_t k)
{
    return is_on_ring(i, k) ? 0 : laplacian(i, u, k);
}

static double biharmonic(const struct buvcsolta_instrument *i, const double *u, size_t k)
{
    size_t c = i->columns;
    if (i->kind == 4)
        return supported(i, u, k - 1) + supported(i, u, k + 1) - 2 * supported(i, u, k);
    if (i->kind == 7)
        return plate_l(i, u, k - 1) + plate_l(i, u, k + 1) + plate_l(i, u, k - c) + plate_l(i, u, k + c) - 4 * plate_l(i, u, k);
    return 0;
}

static void string_points(const struct factors *x, const double *p, const double *u, double *next, size_t a, size_t e)
{
    for (size_t k = a; k < e; k++)
        put(x, p, u, next, k, u[k - 1] + u[k + 1] - 2 * u[k], 0, 0);
}

static void bar_points(const struct factors *x, const double *p, const double *u, double *next, size_t a, size_t e)
{
    for (size_t k = a; k < e; k++)
        put(x, p, u, next, k, u[k - 1] + u[k + 1] - 2 * u[k], u[k - 2] - 4 * u[k - 1] + 6 * u[k] - 4 * u[k + 1] + u[k + 2], 0);
}

static void membrane_points(const struct factors *x, const double *p, const double *u, double *next, size_t a, size_t e, size_t c)
{
    for (size_t k = a; k < e; k++)
        put(x, p, u, next, k, u[k - 1] + u[k + 1] + u[k - c] + u[k + c] - 4 * u[k], 0, 0);
}

/* L of the rows between the ring's, 0 at their ends. */
static void plate_rows(const double *restrict u, double *restrict l, size_t c, size_t end)
{
    for (size_t k = c; k < end; k++)
        l[k] = u[k - 1] + u[k + 1] + u[k - c] + u[k + c] - 4 * u[k];
    for (size_t k = c; k < end; k += c)
        l[k] = l[k + c - 1] = 0;
}

static void plate_points(const struct factors *x, const double *restrict p, const double *restrict u, double *restrict next,
                         const double *restrict above, const double *restrict l, const double *restrict below, size_t c)
{
    for (size_t k = 1; k + 1 < c; k++)
        put(x, p, u, next, k, l[k], l[k - 1] + l[k + 1] + above[k] + below[k] - 4 * l[k], 0);
}

static void point(const struct buvcsolta_instrument *i, const struct factors *x, const double *p, const double *u, double *next, size_t k,
                  double f)
{
    put(x, p, u, next, k, laplacian(i, u, k), biharmonic(i, u, k), f);
}

/* The points whose neighbours are not all on the grid, then the others. */
static void line_step(const struct buvcsolta_instrument *i, const struct factors *x, const double *p, const double *u, double *next)
{
    size_t c = i->columns;
    if (i->kind == 3)
        point(i, x, p, u, next, 0, 0);
    if (i->kind == 2 || i->kind == 3)
        point(i, x, p, u, next, c - 1, 0);
    if (i->kind != 4) {
        string_points(x, p, u, next, 1, c - 1);
        return;
    }
    point(i, x, p, u, next, 1, 0);
    point(i, x, p, u, next, c - 2, 0);
    bar_points(x, p, u, next, 2, c - 2);
}

static void grid_step(const struct buvcsolta_instrument *i, const struct factors *x, const struct edges *e, const double *p,
                      const double *u, double *next)
{
    size_t c = i->columns;
    for (size_t row = 1; row + 1 < i->rows; row++)
        membrane_points(x, p, u, next, row * c + e->from[row], row * c + e->to[row], c);
}

/* The ring's own rows, which are 0, serve as their L. */
static void plate_step(const struct buvcsolta_instrument *i, const struct factors *x, const double *p, const double *u, double *next)
{
    double l[ROWS * ROWS];
    size_t c = i->columns, end = (i->rows - 1) * c;
    plate_rows(u, l, c, end);
    for (size_t at = c; at < end; at += c)
        plate_points(x, p + at, u + at, next + at, at == c ? u : l + at - c, l + at, at + c == end ? u + end : l + at + c, c);
}

void double_block(const struct buvcsolta_instrument *i, double *levels[3], float *samples, size_t places, size_t pick_up,
                  size_t hit, double force)
{
    struct factors x = {(double)i->q / 65536, (double)i->m / 65536, 1 - (double)i->s / 65536, 1 / (1 + (double)i->s / 65536)};
    struct edges e;
    find_edges(i->kind, i->columns, i->rows, &e);
    for (size_t n = 0; n < places; n++) {
        double *next = levels[2];
        if (i->rows == 1)
            line_step(i, &x, levels[0], levels[1], next);
        else if (i->kind == 7)
            plate_step(i, &x, levels[0], levels[1], next);
        else
            grid_step(i, &x, &e, levels[0], levels[1], next);
        if (n == 0)
            point(i, &x, levels[0], levels[1], next, hit, force);
        levels[2] = levels[0];
        levels[0] = levels[1];
        levels[1] = next;
        samples[n] = (float)next[pick_up];
    }
}
