/* The calls of the C library, of plain C by each compiler, and the block in double precision, on the same input in turn; then the rows of
 * blocks once more, in place, beside the library's block on three levels. Prints a line for each row and table.py makes the tables of them:
 *     what;grid;units of a call;the levels and results are the same;nanoseconds of a call by each
 * where the nanoseconds are the least of ROUNDS of processor time. Each round starts from half the ceiling. `bench count` runs each row
 * once by each, in `counted`, for callgrind. */
#include "buvcsolta.h"
#include "doubles.h"
#include <stdio.h>
#include <stdlib.h>
#include <string.h>
#include <time.h>

/* A level has room to spare, so that point k of one does not lie a multiple of 4 KB from point k of another. */
enum { ROOM = 4096 + 40, PLACES = 64, ROUNDS = 40, THREE_LEVELS = 4, ENGINES, CALLS_COUNTED = 20 };

extern __typeof__(buvcsolta_block) gcc_block, clang_block, reciprocal_block;
extern __typeof__(buvcsolta_block_in_place) gcc_block_in_place, clang_block_in_place;
extern __typeof__(buvcsolta_pluck) gcc_pluck, clang_pluck;
extern __typeof__(buvcsolta_pluck_with) gcc_pluck_with, clang_pluck_with;
extern __typeof__(buvcsolta_reading) gcc_reading, clang_reading;
extern __typeof__(buvcsolta_sheet) gcc_sheet, clang_sheet;

struct engine {
    const char *name;
    __typeof__(buvcsolta_block) *block;
    __typeof__(buvcsolta_block_in_place) *block_in_place;
    __typeof__(buvcsolta_pluck) *pluck;
    __typeof__(buvcsolta_pluck_with) *pluck_with;
    __typeof__(buvcsolta_reading) *reading;
    __typeof__(buvcsolta_sheet) *sheet;
};

static const struct engine engines[ENGINES] = {
    {"proved", buvcsolta_block, buvcsolta_block_in_place, buvcsolta_pluck, buvcsolta_pluck_with, buvcsolta_reading, buvcsolta_sheet},
    {"gcc", gcc_block, gcc_block_in_place, gcc_pluck, gcc_pluck_with, gcc_reading, gcc_sheet},
#ifdef WITH_CLANG
    {"clang", clang_block, clang_block_in_place, clang_pluck, clang_pluck_with, clang_reading, clang_sheet},
#else
    {0},
#endif
    {"reciprocal", reciprocal_block, 0, 0, 0, 0, 0},
    {"three levels", buvcsolta_block, 0, 0, 0, 0, 0}, /* of rows in place */
};

/* What an engine is lent and what it leaves. */
struct state {
    int64_t older[ROOM], newer[ROOM], work[ROOM];
    int16_t samples[PLACES];
    size_t steps;
    uint64_t refusal, inexact, q, m, s;
    double value;
};

static struct state states[ENGINES];
static uint32_t straight[BUVCSOLTA_TABLE_LENGTH];
static double double_levels[3][ROOM], *doubles[3];
static float double_samples[PLACES];

struct row {
    const char *what;
    void (*call)(const struct engine *, struct state *, const struct row *, int64_t force);
    uint64_t kind;
    size_t size;
};

static struct buvcsolta_instrument instrument_of(const struct row *r)
{
    static const uint64_t q[] = {0, 60000, 60000, 60000, 20000, 30000, 30000, 20000}, m[] = {0, 0, 0, 0, 9000, 0, 0, 1500};
    struct buvcsolta_instrument i = {r->kind, r->size, r->kind >= 5 ? r->size : 1, q[r->kind], m[r->kind], 3};
    return i;
}

static size_t middle(const struct buvcsolta_instrument *i)
{
    return i->rows / 2 * i->columns + i->columns / 2;
}

static void some_steps(const struct engine *e, struct state *x, const struct row *r, size_t places, int is_in_place, int64_t force)
{
    struct buvcsolta_instrument i = instrument_of(r);
    size_t n = i.columns * i.rows, at = middle(&i);
    uint64_t inexact;
    if (is_in_place && e->block_in_place)
        x->refusal |= e->block_in_place(i.kind, i.columns, i.rows, i.q, i.m, i.s, x->older, n, x->newer, n, x->samples, places, at + 1, 1,
                                        at, force, &x->steps, &inexact);
    else
        x->refusal |= e->block(i.kind, i.columns, i.rows, i.q, i.m, i.s, x->older, n, x->newer, n, x->work, n, x->samples, places, at + 1,
                               1, at, force, &x->steps, &inexact);
    x->inexact += inexact;
}

static void long_block(const struct engine *e, struct state *x, const struct row *r, int64_t force)
{
    some_steps(e, x, r, PLACES, 0, force);
}

static void short_block(const struct engine *e, struct state *x, const struct row *r, int64_t force)
{
    some_steps(e, x, r, 1, 0, force);
}

static void long_block_in_place(const struct engine *e, struct state *x, const struct row *r, int64_t force)
{
    some_steps(e, x, r, PLACES, 1, force);
}

static void short_block_in_place(const struct engine *e, struct state *x, const struct row *r, int64_t force)
{
    some_steps(e, x, r, 1, 1, force);
}

static void pluck(const struct engine *e, struct state *x, const struct row *r, int64_t force)
{
    x->refusal |= e->pluck(r->kind, r->size, 1, x->older, r->size, x->newer, r->size, r->size / 2, r->size / 4, force);
}

static void pluck_with(const struct engine *e, struct state *x, const struct row *r, int64_t force)
{
    x->refusal |= e->pluck_with(r->kind, r->size, 1, x->older, r->size, x->newer, r->size, r->size / 2, r->size / 4, force, straight,
                                BUVCSOLTA_TABLE_LENGTH);
}

static void reading(const struct engine *e, struct state *x, const struct row *r, int64_t force)
{
    struct buvcsolta_instrument i = instrument_of(r);
    x->newer[middle(&i)] = force;
    x->refusal |= e->reading(i.kind, i.columns, i.rows, x->newer, i.columns * i.rows, middle(&i), &x->value);
}

static void sheet(const struct engine *e, struct state *x, const struct row *r, int64_t force)
{
    struct buvcsolta_instrument i = instrument_of(r);
    double speed = force < 0 ? 100 : 101;
    x->refusal |= e->sheet(i.kind, i.columns, i.rows, 48000, 1, 0, i.kind >= 5, speed, 1, i.kind >= 5, 6, &x->q, &x->m, &x->s);
}

static const struct row rows[] = {
    {"string, fixed", long_block, 1, 32}, {"string, fixed", long_block, 1, 1024},
    {"string, one end free", long_block, 2, 32}, {"string, one end free", long_block, 2, 1024},
    {"string, free", long_block, 3, 32}, {"string, free", long_block, 3, 1024},
    {"bar", long_block, 4, 32}, {"bar", long_block, 4, 1024},
    {"membrane", long_block, 5, 8}, {"membrane", long_block, 5, 64},
    {"round membrane", long_block, 6, 8}, {"round membrane", long_block, 6, 64},
    {"plate", long_block, 7, 8}, {"plate", long_block, 7, 64},
    {"block of one step, string", short_block, 1, 32}, {"block of one step, string", short_block, 1, 1024},
    {"block of one step, bar", short_block, 4, 1024},
    {"block of one step, membrane", short_block, 5, 8}, {"block of one step, membrane", short_block, 5, 64},
    {"block of one step, round membrane", short_block, 6, 8}, {"block of one step, round membrane", short_block, 6, 64},
    {"block of one step, plate", short_block, 7, 8}, {"block of one step, plate", short_block, 7, 64},
    {"pluck", pluck, 1, 32}, {"pluck", pluck, 1, 1024},
    {"pluck by a lent table", pluck_with, 1, 32}, {"pluck by a lent table", pluck_with, 1, 1024},
    {"reading, string", reading, 1, 32}, {"reading, string", reading, 1, 1024}, {"reading, round membrane", reading, 6, 64},
    {"sheet in hertz", sheet, 1, 101}, {"sheet by tension", sheet, 5, 64},
};

enum { ROW_COUNT = sizeof rows / sizeof *rows };

static int is_block(const struct row *r)
{
    return r->call == long_block || r->call == short_block;
}

static int is_in_place(const struct row *r)
{
    return r->call == long_block_in_place || r->call == short_block_in_place;
}

/* The row of a block in place. */
static struct row in_place(const struct row *r)
{
    struct row other = *r;
    other.call = r->call == long_block ? long_block_in_place : short_block_in_place;
    return other;
}

static int is_there(const struct row *r, int which)
{
    if (which == ENGINES)
        return r->call == long_block;
    if (which == THREE_LEVELS)
        return is_in_place(r);
    if (is_in_place(r))
        return engines[which].block_in_place != NULL;
    return is_block(r) ? engines[which].block != NULL : engines[which].pluck != NULL;
}

/* Points times steps of a block of 64; other calls are counted whole. */
static size_t units(const struct row *r)
{
    return r->call != long_block && r->call != long_block_in_place ? 1 : PLACES * r->size * (r->kind >= 5 ? r->size : 1);
}

/* 0 at the ends, size squared in the middle. */
static int64_t arch(int64_t size, int64_t k)
{
    return 4 * k * (size - k);
}

/* A smooth shape as high as half the ceiling, 0 at the fixed points. */
static int64_t loud(const struct buvcsolta_instrument *i, size_t point)
{
    int64_t size = (int64_t)i->columns - 1, whole = size * size;
    int64_t a = arch(size, (int64_t)(point % i->columns)), b = i->rows == 1 ? whole : arch(size, (int64_t)(point / i->columns));
    if (i->kind == 6) {
        a = a + b > whole ? a + b - whole : 0;
        b = whole;
    }
    return BUVCSOLTA_CEILING / 2 / whole * a * b / whole;
}

/* All engines in the same loud state, so that no step is known beforehand to stay within the ceiling. */
static void start(const struct row *r)
{
    struct buvcsolta_instrument i = instrument_of(r);
    memset(states, 0, sizeof states);
    memset(double_levels, 0, sizeof double_levels);
    for (size_t k = 0; k < i.columns * i.rows; k++) {
        states[0].older[k] = states[0].newer[k] = loud(&i, k);
        double_levels[0][k] = double_levels[1][k] = (double)states[0].newer[k];
    }
    for (int which = 1; which < ENGINES; which++)
        states[which] = states[0];
    for (int k = 0; k < 3; k++)
        doubles[k] = double_levels[k];
}

/* Calls of one row by one engine. The force changes its sign from call to call, so that a free string stays in its place. */
__attribute__((noinline, noclone)) void counted(const struct row *r, int which, size_t calls)
{
    struct buvcsolta_instrument i = instrument_of(r);
    int64_t force = INT64_C(1) << 34;
    for (size_t k = 0; k < calls; k++, force = -force) {
        if (which == ENGINES)
            double_block(&i, doubles, double_samples, PLACES, middle(&i) + 1, middle(&i), (double)force);
        else
            r->call(&engines[which], &states[which], r, force);
    }
}

static double nanoseconds(const struct row *r, int which, size_t calls)
{
    struct timespec a, b;
    clock_gettime(CLOCK_PROCESS_CPUTIME_ID, &a);
    counted(r, which, calls);
    clock_gettime(CLOCK_PROCESS_CPUTIME_ID, &b);
    return (1e9 * (double)(b.tv_sec - a.tv_sec) + (double)(b.tv_nsec - a.tv_nsec)) / (double)calls;
}

static int are_same(const struct row *r)
{
    for (int which = 1; which < ENGINES; which++)
        if (is_there(r, which) && memcmp(&states[0], &states[which], sizeof *states) != 0)
            return 0;
    return states[0].refusal == 0;
}

/* One row; whether all did the same. */
static int measure(const struct row *r)
{
    double least[ENGINES + 1];
    size_t calls = 2;
    int same = 1;
    start(r);
    while (nanoseconds(r, 1, calls) * (double)calls < 2e6) /* plain C by gcc, which refuses no row */
        calls *= 2;
    for (int round = 0; round < ROUNDS; round++) {
        start(r);
        for (int which = 0; which <= ENGINES; which++)
            if (is_there(r, which)) {
                double t = nanoseconds(r, which, calls);
                least[which] = round == 0 || t < least[which] ? t : least[which];
            }
        same &= are_same(r);
    }
    printf("%s;%zu × %zu;%zu;%s", r->what, r->size, r->kind >= 5 ? r->size : 1, units(r), same ? "yes" : "NO");
    for (int which = 0; which <= ENGINES; which++)
        if (is_there(r, which))
            printf(";%s %.3f", which == ENGINES ? "double" : engines[which].name, least[which]);
    puts("");
    return same;
}

/* The same for callgrind. */
static int count(const struct row *r)
{
    start(r);
    for (int which = 0; which <= ENGINES; which++)
        if (is_there(r, which))
            counted(r, which, CALLS_COUNTED);
    return are_same(r);
}

int main(int argc, char **argv)
{
    int (*run)(const struct row *) = argc == 1 ? measure : count, same = 1;
    if (argc > 2 || (argc == 2 && strcmp(argv[1], "count") != 0)) {
        fputs("usage: bench [count]\n", stderr);
        return 2;
    }
    for (uint32_t j = 0; j < BUVCSOLTA_TABLE_LENGTH; j++)
        straight[j] = 64 * j;
    for (int k = 0; k < ROW_COUNT; k++)
        same &= run(&rows[k]);
    for (int k = 0; k < ROW_COUNT; k++)
        if (is_block(&rows[k])) {
            struct row r = in_place(&rows[k]);
            same &= run(&r);
        }
    return !same;
}
