/* Prints the table of docs/EMBEDDING.md: how loud a pluck of a height, or a hit of a force, is at the pick-up. */
#include "buvcsolta.h"
#include <stdio.h>
#include <stdlib.h>
#include <string.h>

enum { RATE = 48000, POINTS = 101, CENTRE = 50, QUARTER = 25, HALF_WIDTH = 20 };

static int64_t older[POINTS], newer[POINTS], work[POINTS];
static int16_t samples[RATE];

/* A cell: the largest sample of a second, its sign dropped, of a string at rest that is plucked, or hit, in its middle. */
static void cell(const struct buvcsolta_instrument *string, int64_t loud, int is_hit, size_t pick_up)
{
    struct buvcsolta_levels levels = {older, newer, work, POINTS};
    struct buvcsolta_hit hit = {CENTRE, loud * BUVCSOLTA_UNITS_PER_SAMPLE};
    size_t steps;
    uint64_t refusal = 0, inexact;
    int most = 0;
    memset(older, 0, sizeof older);
    memset(newer, 0, sizeof newer);
    if (!is_hit)
        refusal = buvcsolta_instrument_pluck(string, &levels, CENTRE, HALF_WIDTH, hit.force);
    if (!refusal)
        refusal = buvcsolta_instrument_block(string, &levels, samples, RATE, pick_up, is_hit ? &hit : NULL, &steps, &inexact);
    if (refusal) {
        printf(" refused, %d |", (int)refusal);
        return;
    }
    for (size_t k = 0; k < RATE; k++)
        most = abs(samples[k]) > most ? abs(samples[k]) : most;
    printf(" %d |", most);
}

int main(void)
{
    static const int64_t loud[] = {1, 100, 1000, 8000, 16000, 32767};
    struct buvcsolta_instrument string = {BUVCSOLTA_STRING_FIXED, POINTS, 1, 11378, 0, 8};
    puts("| height or force, sample units | pluck, at its centre | pluck, at a quarter | hit, at its point | hit, at a quarter |");
    puts("|---|---|---|---|---|");
    for (size_t k = 0; k < sizeof loud / sizeof *loud; k++) {
        printf("| %d |", (int)loud[k]);
        for (int is_hit = 0; is_hit < 2; is_hit++) {
            cell(&string, loud[k], is_hit, CENTRE);
            cell(&string, loud[k], is_hit, QUARTER);
        }
        putchar('\n');
    }
    return 0;
}
