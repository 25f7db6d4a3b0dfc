/* The header's calls: the paper's sheet, plucks, a block with a hit, a reading, a fading string, a struck plate, blocks in place, refused
 * calls, and both blocks by the exported functions themselves, for writers of bindings. Prints what differs. Compiled as C99 and as
 * C++11. */
#include "buvcsolta.h"
#include <stdio.h>
#include <string.h>

enum { COLUMNS = 101, PLACES = 64 };

static const struct buvcsolta_instrument string = {BUVCSOLTA_STRING_FIXED, COLUMNS, 1, 11378, 0, 8};
static int64_t older[COLUMNS], newer[COLUMNS], work[COLUMNS];
static const struct buvcsolta_levels levels = {older, newer, work, COLUMNS};
static int failures;

static void expect(const char *what, int64_t seen, int64_t wanted)
{
    if (seen != wanted) {
        printf("%s: %lld, not %lld\n", what, (long long)seen, (long long)wanted);
        failures++;
    }
}

static void expect_refusal(const char *what, uint64_t seen, uint64_t wanted)
{
    if (seen != wanted) {
        printf("%s: %s, not %s\n", what, buvcsolta_refusal_text(seen), buvcsolta_refusal_text(wanted));
        failures++;
    }
}

static void sheet_of_the_paper(void)
{
    struct buvcsolta_instrument i = {BUVCSOLTA_STRING_FIXED, COLUMNS, 1, 9, 9, 9};
    struct buvcsolta_instrument drum = {BUVCSOLTA_MEMBRANE_RECTANGULAR, 8, 8, 9, 9, 9};
    struct buvcsolta_player_sheet sheet = {48000.0, 1.0, 0.0, 0, 100.0, 0.0, 0, 6.0};
    expect_refusal("sheet", buvcsolta_instrument_sheet(&i, &sheet), BUVCSOLTA_NOTHING);
    expect("q", (int64_t)i.q, 11378);
    expect("m", (int64_t)i.m, 0);
    expect("s", (int64_t)i.s, 8);
    expect_refusal("a drum in hertz", buvcsolta_instrument_sheet(&drum, &sheet), BUVCSOLTA_SHEET_NUMBER);
    expect("settings of a refused sheet", (int64_t)(drum.q | drum.m | drum.s), 0);
}

/* What a block leaves beside the levels. */
static int16_t samples[PLACES];
static size_t steps;
static uint64_t inexact;

static void forget(void)
{
    memset(samples, 0, sizeof samples);
    steps = 99;
    inexact = 99999;
}

static void expect_listing(uint64_t refusal)
{
    static const int16_t wanted[4] = {1, 0, -1, 0};
    expect_refusal("block", refusal, BUVCSOLTA_NOTHING);
    expect("steps", (int64_t)steps, 4);
    expect("inexact points", (int64_t)inexact, 0);
    expect("samples", memcmp(samples, wanted, sizeof wanted), 0);
}

static void listing_of_the_paper(void)
{
    int64_t a[3] = {0, 0, 0}, b[3] = {0, 0, 0}, c[3] = {7, 7, 7};
    forget();
    expect_listing(buvcsolta_block(1, 3, 1, 65536, 0, 0, a, 3, b, 3, c, 3, samples, 4, 1, 1, 1, 268435456, &steps, &inexact));
    expect("work", c[0] | c[1] | c[2], 0);
}

static void listing_in_place(void)
{
    int64_t a[3] = {0, 0, 0}, b[3] = {0, 0, 0};
    forget();
    expect_listing(buvcsolta_block_in_place(1, 3, 1, 65536, 0, 0, a, 3, b, 3, samples, 4, 1, 1, 1, 268435456, &steps, &inexact));
    expect_refusal("newer too short", buvcsolta_block_in_place(1, 3, 1, 65536, 0, 0, a, 3, b, 2, samples, 4, 1, 0, 0, 0, &steps, &inexact),
                   BUVCSOLTA_WRONG_LENGTH);
}

/* A block of the string, picked up in its middle. */
static uint64_t block(const struct buvcsolta_levels *lent, const struct buvcsolta_hit *hit)
{
    forget();
    return buvcsolta_instrument_block(&string, lent, samples, PLACES, 50, hit, &steps, &inexact);
}

static void plucked_string(void)
{
    double value = 9.0;
    expect_refusal("pluck", buvcsolta_instrument_pluck(&string, &levels, 50, 10, 4096 * BUVCSOLTA_UNITS_PER_SAMPLE), BUVCSOLTA_NOTHING);
    expect("centre", newer[50], 4096 * BUVCSOLTA_UNITS_PER_SAMPLE);
    expect("beyond the width", newer[39], 0);
    expect_refusal("reading", buvcsolta_instrument_reading(&string, &levels, 50, &value), BUVCSOLTA_NOTHING);
    expect("an eighth", value == 0.125, 1);
    expect_refusal("block", block(&levels, NULL), BUVCSOLTA_NOTHING);
    expect("steps", (int64_t)steps, PLACES);
    expect("inexact, some but no more than move", inexact > 0 && inexact <= PLACES * (COLUMNS - 2), 1);
}

/* A straight table, its entries 64 apart; then each way to break its rule alone. */
static void plucked_by_a_table(void)
{
    static const int64_t wanted[5] = {0, 666, 1000, 666, 0}, before[5] = {5, 5, 5, 5, 5};
    struct buvcsolta_instrument i = {BUVCSOLTA_STRING_FIXED, 5, 1, 0, 0, 0};
    int64_t a[5], b[5];
    struct buvcsolta_levels lent = {a, b, NULL, 5};
    uint32_t table[BUVCSOLTA_TABLE_LENGTH + 1];
    const struct {
        size_t length, place;
        uint32_t entry;
        uint64_t answer;
    } cases[] = {
        {BUVCSOLTA_TABLE_LENGTH, 0, 0, BUVCSOLTA_NOTHING}, {BUVCSOLTA_TABLE_LENGTH, 9, 8 * 64, BUVCSOLTA_NOTHING},
        {BUVCSOLTA_TABLE_LENGTH, 0, 1, BUVCSOLTA_BROKEN_TABLE}, {BUVCSOLTA_TABLE_LENGTH, 9, 8 * 64 - 1, BUVCSOLTA_BROKEN_TABLE},
        {BUVCSOLTA_TABLE_LENGTH, 1023, BUVCSOLTA_TABLE_END + 1, BUVCSOLTA_BROKEN_TABLE},
        {BUVCSOLTA_TABLE_LENGTH, 1024, BUVCSOLTA_TABLE_END - 1, BUVCSOLTA_BROKEN_TABLE},
        {BUVCSOLTA_TABLE_LENGTH, 1024, BUVCSOLTA_TABLE_END + 1, BUVCSOLTA_BROKEN_TABLE},
        {BUVCSOLTA_TABLE_LENGTH - 1, 1023, BUVCSOLTA_TABLE_END, BUVCSOLTA_BROKEN_TABLE},
        {BUVCSOLTA_TABLE_LENGTH + 1, 1025, BUVCSOLTA_TABLE_END, BUVCSOLTA_BROKEN_TABLE},
    };
    for (size_t k = 0; k < sizeof cases / sizeof *cases; k++) {
        int refused = cases[k].answer != BUVCSOLTA_NOTHING;
        for (uint32_t j = 0; j <= BUVCSOLTA_TABLE_LENGTH; j++)
            table[j] = 64 * j;
        table[cases[k].place] = cases[k].entry;
        memcpy(a, before, sizeof a);
        memcpy(b, before, sizeof b);
        expect_refusal("a pluck by a table", buvcsolta_instrument_pluck_with(&i, &lent, 2, 3, 1000, table, cases[k].length),
                       cases[k].answer);
        expect("older by a table", memcmp(a, refused ? before : wanted, sizeof a), 0);
        expect("newer by a table", memcmp(b, refused ? before : wanted, sizeof b), 0);
    }
    expect_refusal("half width before the table", buvcsolta_pluck_with(1, 5, 1, a, 5, b, 5, 2, 0, 1000, table, 3), BUVCSOLTA_HALF_WIDTH);
}

/* A string that fades to 3 units below zero and stays there: its samples end in zeros. */
static void fading_string(void)
{
    struct buvcsolta_instrument i = {BUVCSOLTA_STRING_FIXED, 5, 1, 8192, 0, 10000};
    int64_t a[5] = {0}, b[5] = {0}, c[5];
    struct buvcsolta_levels lent = {a, b, c, 5};
    struct buvcsolta_hit hit = {2, 100 * BUVCSOLTA_UNITS_PER_SAMPLE};
    int16_t heard[200];
    int differ = 0;
    expect_refusal("a fading string", buvcsolta_instrument_block(&i, &lent, heard, 200, 1, &hit, &steps, &inexact),
                   BUVCSOLTA_NOTHING);
    expect("where it stays", b[1], -3);
    for (int n = 100; n < 200; n++)
        differ += heard[n] != 0;
    expect("samples of silence that are not 0", differ, 0);
}

/* A plate of 5 x 5 points, one apart and with one step a second, so that m is 65536 times the bending; hit in its middle. */
static void struck_plate(void)
{
    static int64_t points[3][25];
    static const int16_t wanted[3] = {16, 12, 10};
    struct buvcsolta_instrument plate = {BUVCSOLTA_PLATE, 5, 5, 9, 9, 9};
    struct buvcsolta_player_sheet sheet = {1.0, 4.0, 0.0625, 1, 0.0, 1.0, 0, 0.0};
    struct buvcsolta_levels lent = {points[0], points[1], points[2], 25};
    struct buvcsolta_hit hit = {12, 16 * BUVCSOLTA_UNITS_PER_SAMPLE};
    int16_t heard[3];
    expect_refusal("a plate's sheet", buvcsolta_instrument_sheet(&plate, &sheet), BUVCSOLTA_NOTHING);
    expect("a plate's m", (int64_t)plate.m, 4096);
    expect_refusal("a plate", buvcsolta_instrument_block(&plate, &lent, heard, 3, 12, &hit, &steps, &inexact), BUVCSOLTA_NOTHING);
    expect("a plate's samples", memcmp(heard, wanted, sizeof wanted), 0);
    expect("a plate's inexact points", (int64_t)inexact, 0);
    expect_refusal("a plate plucked", buvcsolta_instrument_pluck(&plate, &lent, 12, 1, 1), BUVCSOLTA_UNKNOWN_KIND);
    plate.m++;
    expect_refusal("a plate beyond its limit", buvcsolta_instrument_block(&plate, &lent, heard, 3, 12, &hit, &steps, &inexact),
                   BUVCSOLTA_UNSTABLE);
}

/* Both blocks of an instrument at rest, each with a hit in its middle: the first has so many places, each later one 7 more. They answer
 * and leave the same, and the last answers so. */
static void expect_agreement(const struct buvcsolta_instrument *i, size_t places, int64_t force, uint64_t last)
{
    int64_t three[3][COLUMNS] = {{0}}, two[2][COLUMNS] = {{0}};
    struct buvcsolta_levels lent = {three[0], three[1], three[2], i->columns * i->rows};
    struct buvcsolta_levels lent_in_place = {two[0], two[1], NULL, lent.length};
    struct buvcsolta_hit hit = {i->rows / 2 * i->columns + i->columns / 2, force};
    int16_t heard[PLACES] = {0};
    size_t done;
    uint64_t rounded, refusal = BUVCSOLTA_NOTHING;
    forget();
    for (; places < PLACES && refusal == BUVCSOLTA_NOTHING; places += 7) {
        refusal = buvcsolta_instrument_block(i, &lent, samples, places, hit.point, &hit, &steps, &inexact);
        expect_refusal("in place", buvcsolta_instrument_block_in_place(i, &lent_in_place, heard, places, hit.point, &hit, &done, &rounded),
                       refusal);
        expect("steps in place", (int64_t)done, (int64_t)steps);
        expect("inexact points in place", (int64_t)rounded, (int64_t)inexact);
        expect("samples in place", memcmp(heard, samples, sizeof heard), 0);
        expect("levels in place", memcmp(two, three, sizeof two), 0);
    }
    expect_refusal("the last block", refusal, last);
}

static void blocks_in_place(void)
{
    for (uint64_t kind = BUVCSOLTA_STRING_FIXED; kind <= BUVCSOLTA_PLATE; kind++) {
        size_t rows = kind <= BUVCSOLTA_BAR ? 1 : 10;
        uint64_t m = kind == BUVCSOLTA_BAR || kind == BUVCSOLTA_PLATE ? 500 : 0;
        struct buvcsolta_instrument i = {kind, 100 / rows, rows, 11378, m, 8};
        expect_agreement(&i, 0, 100 * BUVCSOLTA_UNITS_PER_SAMPLE, BUVCSOLTA_NOTHING);
        expect_agreement(&i, 0, BUVCSOLTA_CEILING, BUVCSOLTA_NEXT_BEYOND);     /* after the second block's first step */
        expect_agreement(&i, 1, BUVCSOLTA_CEILING / 2, BUVCSOLTA_NEXT_BEYOND); /* by the second block's hit */
    }
}

static void refused_calls(void)
{
    struct buvcsolta_levels shorter = {older, newer, work, COLUMNS - 1};
    struct buvcsolta_hit at_the_end = {0, 1}, hard = {50, BUVCSOLTA_CEILING}, harder = {50, BUVCSOLTA_CEILING + 1};
    expect_refusal("short buffers", block(&shorter, NULL), BUVCSOLTA_WRONG_LENGTH);
    expect("steps of a refused block", (int64_t)steps, 0);
    expect("inexact points of a refused block", (int64_t)inexact, 0);
    expect_refusal("a fixed point", block(&levels, &at_the_end), BUVCSOLTA_NOT_MOVING);
    expect_refusal("too hard", block(&levels, &harder), BUVCSOLTA_TOO_STRONG);
    memset(older, 0, sizeof older);
    memset(newer, 0, sizeof newer);
    expect_refusal("the ceiling", block(&levels, &hard), BUVCSOLTA_NEXT_BEYOND);
    expect("steps before the ceiling", (int64_t)steps, 1);
    expect("inexact points before the ceiling: the hit one alone", (int64_t)inexact, 1);
    expect("the sample before it", samples[0], 32763);
}

int main(void)
{
    sheet_of_the_paper();
    listing_of_the_paper();
    listing_in_place();
    plucked_string();
    plucked_by_a_table();
    fading_string();
    struck_plate();
    blocks_in_place();
    refused_calls();
    if (failures)
        printf("example: %d differences\n", failures);
    else
        printf("example: as the header says\n");
    return failures != 0;
}
