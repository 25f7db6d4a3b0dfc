/* The inexact points of each step of an instrument at rest that is hit in its first step, one line a step, and their sum: the moving
 * points whose numerator was not a multiple of 65536 + s. While all are 0 the levels are those of the unrounded scheme itself. */
#include "buvcsolta.h"
#include <inttypes.h>
#include <stdio.h>
#include <stdlib.h>

enum { MOST_POINTS = 4096, ARGUMENTS = 9 };

/* A whole number of digits alone, at most `most`; whether it is one. */
static int is_number(const char *text, uint64_t most, uint64_t *number)
{
    *number = 0;
    if (!*text)
        return 0;
    for (; *text; text++) {
        uint64_t digit = (uint64_t)*text - '0';
        if (digit > 9 || *number > (most - digit) / 10)
            return 0;
        *number = 10 * *number + digit;
    }
    return 1;
}

/* The same with a minus before it where it is below 0. */
static int is_force(const char *text, int64_t *force)
{
    uint64_t size;
    int is_below = *text == '-';
    if (!is_number(text + is_below, (uint64_t)INT64_MAX + (uint64_t)is_below, &size))
        return 0;
    *force = is_below && size > 0 ? -(int64_t)(size - 1) - 1 : (int64_t)size;
    return 1;
}

/* Whether the arguments are kind columns rows q m s steps point force. */
static int is_use(int argc, char **argv, struct buvcsolta_instrument *i, uint64_t *steps, struct buvcsolta_hit *hit)
{
    uint64_t numbers[ARGUMENTS - 1];
    if (argc != ARGUMENTS + 1 || !is_force(argv[ARGUMENTS], &hit->force))
        return 0;
    for (int k = 0; k < ARGUMENTS - 1; k++)
        if (!is_number(argv[k + 1], UINT64_MAX, &numbers[k]))
            return 0;
    i->kind = numbers[0], i->columns = numbers[1], i->rows = numbers[2];
    i->q = numbers[3], i->m = numbers[4], i->s = numbers[5];
    *steps = numbers[6], hit->point = numbers[7];
    return 1;
}

/* columns x rows, or 0 where no grid has as many points: then the library refuses the size. */
static size_t points_of(const struct buvcsolta_instrument *i)
{
    return i->rows > 0 && i->columns > MOST_POINTS / i->rows ? 0 : i->columns * i->rows;
}

/* Blocks of one step, each with its line, up to the first that is refused. The first block of all has no step and meets every check. */
static uint64_t play(const struct buvcsolta_instrument *i, const struct buvcsolta_levels *levels, const struct buvcsolta_hit *hit,
                     uint64_t steps, uint64_t *sum)
{
    int16_t sample;
    size_t done;
    uint64_t inexact, refusal = buvcsolta_instrument_block(i, levels, &sample, 0, 0, hit, &done, &inexact);
    for (uint64_t k = 0; k < steps && refusal == BUVCSOLTA_NOTHING; k++) {
        refusal = buvcsolta_instrument_block(i, levels, &sample, 1, 0, k == 0 ? hit : NULL, &done, &inexact);
        if (refusal == BUVCSOLTA_NOTHING)
            printf("%" PRIu64 " %" PRIu64 "\n", k + 1, inexact);
        *sum = inexact > UINT64_MAX - *sum ? UINT64_MAX : *sum + inexact;
    }
    return refusal;
}

int main(int argc, char **argv)
{
    struct buvcsolta_instrument i;
    struct buvcsolta_levels levels;
    struct buvcsolta_hit hit;
    uint64_t steps, refusal, sum = 0;
    int64_t *cells;
    if (!is_use(argc, argv, &i, &steps, &hit)) {
        fputs("usage: inexact KIND COLUMNS ROWS Q M S STEPS POINT FORCE, with a hit of FORCE at POINT in the first step\n", stderr);
        return 2;
    }
    levels.length = points_of(&i);
    cells = calloc(3 * levels.length + 1, sizeof *cells);
    if (!cells) {
        fputs("inexact: no memory\n", stderr);
        return 1;
    }
    levels.older = cells, levels.newer = cells + levels.length, levels.work = levels.newer + levels.length;
    refusal = play(&i, &levels, &hit, steps, &sum);
    free(cells);
    printf("sum %" PRIu64 "\n", sum);
    if (refusal != BUVCSOLTA_NOTHING)
        printf("refused: %s\n", buvcsolta_refusal_text(refusal));
    return fflush(stdout) != 0 || refusal != BUVCSOLTA_NOTHING;
}
