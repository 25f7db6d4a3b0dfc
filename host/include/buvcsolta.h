/* Buvcsolta: strings, bars, membranes and plates by finite-difference schemes in whole numbers.
 *
 * Programs in C and C++ use the calls buvcsolta_instrument_..., at the end of this file. They hand their arguments to the six
 * exported functions, which are for bindings of other languages. Every call answers a refusal number, 0 where it was carried out;
 * the lowest number that applies answers, and buvcsolta_refusal_text tells it in words.
 *
 * Points count from 0, row by row. An instrument's state is two levels, the older and the newer, of columns x rows points.
 * A point is a whole number of units, 2^28 to a sample unit, and lies within the ceiling, 32767 x 2^28, on either side of zero.
 * Settings are q, m and s over 65536: the squared Courant number, the stiffness, the loss per step.
 * Stable is: kinds 1 to 3, q <= 65536; kind 4, q + 4m <= 65536; kinds 5 and 6, 2q <= 65536; kind 7, 2q + 16m <= 65536.
 * Only kinds 4 and 7 may have m above 0.
 *
 * Memory. The library allocates nothing and keeps nothing between calls: every buffer belongs to the caller before, during and after
 * a call. Each pointer is not null, is aligned for its type and points to as many elements as its length says, also where that is 0.
 * The buffers and results of one call must not overlap. Calls on different buffers may run at the same time.
 * Any numbers may be handed over: numbers that cannot be negative are unsigned, so -1 arrives as 2^64 - 1 and meets its refusal.
 *
 * Floating point. buvcsolta_sheet computes in doubles and expects the default environment: rounding to nearest, and subnormal numbers
 * (other than 0 and below 2.3e-308 in size) taken as they are. Where they are flushed to zero, as audio hosts set it (FTZ, DAZ), a sheet
 * that has such a number, or whose operations give one, may answer otherwise: 3 where the number counts as 0, 4 where it is divided by.
 * Every other sheet answers the same. The float reading is exact in every environment, and the other calls use no floats.
 */
#ifndef BUVCSOLTA_H
#define BUVCSOLTA_H

#include <stddef.h>
#include <stdint.h>

#if SIZE_MAX != UINT64_MAX
#error "libbuvcsolta is built for machines whose sizes have 64 bits"
#endif

#ifdef __cplusplus
extern "C" {
#endif

/* The version of this header: a new major number where a program must be changed, a new minor one where there is a call more, or
 * a call takes more or gives another number. Since 1.2 samples are rounded to the nearest; since 2.0 a block has an argument more,
 * inexact, at its end; since 2.1 there is a block in place, which needs no work; since 2.2 a pluck by a table of your own, and with it
 * refusal 14. */
#define BUVCSOLTA_VERSION_MAJOR 2
#define BUVCSOLTA_VERSION_MINOR 2
#define BUVCSOLTA_VERSION_PATCH 1
#define BUVCSOLTA_VERSION (BUVCSOLTA_VERSION_MAJOR * 10000 + BUVCSOLTA_VERSION_MINOR * 100 + BUVCSOLTA_VERSION_PATCH)

#define BUVCSOLTA_UNITS_PER_SAMPLE (INT64_C(1) << 28)
#define BUVCSOLTA_CEILING (INT64_C(32767) * BUVCSOLTA_UNITS_PER_SAMPLE)

/* A table for buvcsolta_pluck_with: how many entries it has, and the number that it ends at. */
#define BUVCSOLTA_TABLE_LENGTH 1025
#define BUVCSOLTA_TABLE_END UINT32_C(65536)

/* The most bytes of stack that each call takes below its caller's frame, in the library as built for x86-64 Linux: measured, not proved. */
#define BUVCSOLTA_STACK_BLOCK 2560
#define BUVCSOLTA_STACK_BLOCK_IN_PLACE 3584
#define BUVCSOLTA_STACK_PLUCK 4608 /* an upper bound: the built-in table is constant data of the library */
#define BUVCSOLTA_STACK_PLUCK_WITH 512
#define BUVCSOLTA_STACK_READING 512
#define BUVCSOLTA_STACK_SHEET 512

/* Kinds, and the columns x rows that each may have. */
enum buvcsolta_kind {
    BUVCSOLTA_STRING_FIXED = 1,         /* both ends fixed                        3..1024 x 1 */
    BUVCSOLTA_STRING_FIXED_FREE = 2,    /* point 0 fixed, the last free           3..1024 x 1 */
    BUVCSOLTA_STRING_FREE = 3,          /* both ends free                         3..1024 x 1 */
    BUVCSOLTA_BAR = 4,                  /* stiff string or bar, ends supported    3..1024 x 1 */
    BUVCSOLTA_MEMBRANE_RECTANGULAR = 5, /* fixed edge                             3..64 x 3..64 */
    BUVCSOLTA_MEMBRANE_ROUND = 6,       /* fixed edge                             3..64, square */
    BUVCSOLTA_PLATE = 7                 /* rectangular, edge supported            3..64 x 3..64 */
};

/* Refusals. 1 to 10 and 14 are of what was handed over, 11 to 13 of the state. 14 is looked at after 10. */
enum buvcsolta_refusal {
    BUVCSOLTA_NOTHING = 0,         /* carried out */
    BUVCSOLTA_UNKNOWN_KIND = 1,    /* the kind is not 1..7; for a pluck not 1..4 */
    BUVCSOLTA_WRONG_SIZE = 2,      /* columns or rows are not those of the kind */
    BUVCSOLTA_SHEET_NUMBER = 3,    /* a number of the sheet is not finite, is negative, or is zero where it is the rate, length,
                                      density or decay time; or a pitch in hertz for kinds 5 to 7 */
    BUVCSOLTA_COEFFICIENT = 4,     /* q, m or s is not in 0..65536 */
    BUVCSOLTA_UNSTABLE = 5,        /* not stable, or m above 0 outside kinds 4 and 7 */
    BUVCSOLTA_WRONG_LENGTH = 6,    /* a lent level does not have columns x rows points */
    BUVCSOLTA_NOT_MOVING = 7,      /* the hit's point or the pluck's centre is not a moving point */
    BUVCSOLTA_TOO_STRONG = 8,      /* the force or height is beyond the ceiling */
    BUVCSOLTA_PICK_UP = 9,         /* the pick-up is not a point of the grid */
    BUVCSOLTA_HALF_WIDTH = 10,     /* the pluck's half width is not 1..columns - 1 */
    BUVCSOLTA_POINT_BEYOND = 11,   /* a point of older or newer is beyond the ceiling */
    BUVCSOLTA_FIXED_NOT_ZERO = 12, /* a fixed point of older or newer is not 0 */
    BUVCSOLTA_NEXT_BEYOND = 13,    /* the next step would put some point beyond the ceiling */
    BUVCSOLTA_BROKEN_TABLE = 14    /* the lent table does not have 1025 entries, does not begin at 0 or end at 65536, or falls */
};

/* The exported functions. A level, sample buffer or table is a pointer and the number of its elements. */

/* A block: as many steps as samples has places.
 *
 * older, newer, work: levels of columns x rows points. The old content of work plays no part.
 * pick_up:            the point whose value over 2^28, to the nearest whole number, halves away from zero, is a step's sample.
 * hit:                0 for none; any other number: force units at point, in the first step.
 * steps:              becomes the number of steps done.
 * inexact:            becomes how many points the steps done had to round, summed over the steps and held at 2^64 - 1: moving points
 *                     whose next value, a numerator over 65536 + s, was no whole number. While it is 0 in every block since the start
 *                     or the last pluck, the levels are those of the unrounded scheme itself.
 *
 * 0 and 13: older and newer are the levels after exactly *steps steps, their samples are written, later places are unchanged, and
 * work is all zeros. 1, 2, 4 to 9, 11 and 12: *steps and *inexact are 0 and everything lent is unchanged. With samples_length 0 the
 * call passes the same checks, does no step and drops its hit. 7 and 8 are met only with a hit. */
uint64_t buvcsolta_block(uint64_t kind, size_t columns, size_t rows, uint64_t q, uint64_t m, uint64_t s,
                         int64_t *older, size_t older_length, int64_t *newer, size_t newer_length,
                         int64_t *work, size_t work_length, int16_t *samples, size_t samples_length,
                         size_t pick_up, uint64_t hit, size_t point, int64_t force, size_t *steps, uint64_t *inexact);

/* A block in place: as buvcsolta_block, on two levels instead of three, in more time.
 *
 * No third level is lent, and none is kept: no point of older is written over unless every next value lies within the ceiling. A level
 * of at most 64 points is worked out on the stack, which this call takes 1.1 KB more of than buvcsolta_block.
 * The answer, *steps, *inexact, older, newer and samples are those of buvcsolta_block with a work of columns x rows points; 6 looks at
 * older and newer alone. */
uint64_t buvcsolta_block_in_place(uint64_t kind, size_t columns, size_t rows, uint64_t q, uint64_t m, uint64_t s,
                                  int64_t *older, size_t older_length, int64_t *newer, size_t newer_length,
                                  int16_t *samples, size_t samples_length,
                                  size_t pick_up, uint64_t hit, size_t point, int64_t force, size_t *steps, uint64_t *inexact);

/* A pluck, kinds 1 to 4: both levels become the same raised-cosine shape of the given height around centre, 0 at fixed points and
 * beyond half_width.
 *
 * 0: both levels are overwritten, whatever they held. 1, 2, 6, 7, 8 and 10: both are unchanged. */
uint64_t buvcsolta_pluck(uint64_t kind, size_t columns, size_t rows,
                         int64_t *older, size_t older_length, int64_t *newer, size_t newer_length,
                         size_t centre, size_t half_width, int64_t height);

/* A pluck by a table of your own: as buvcsolta_pluck, with this table in place of the raised cosine.
 *
 * table: 1025 entries from the rim to the centre: the first is 0, the last 65536, and none is below the one before it; equal ones are
 *        fine. A moving point at distance d from the centre, d at most half_width, gets height times entry
 *        1024 (half_width - d) / half_width, rounded down, over 65536, cut toward zero. The table is only read. It is looked at in
 *        every call that nothing else refuses: 14 where it breaks a rule or has another length.
 *
 * 0: both levels are overwritten, whatever they held. 1, 2, 6, 7, 8, 10 and 14: both are unchanged. */
uint64_t buvcsolta_pluck_with(uint64_t kind, size_t columns, size_t rows,
                              int64_t *older, size_t older_length, int64_t *newer, size_t newer_length,
                              size_t centre, size_t half_width, int64_t height, const uint32_t *table, size_t table_length);

/* The float reading: newer at the pick-up over 2^43.
 *
 * value: becomes the reading; +0.0 for 1, 2, 6, 9, 11 and 12. newer is only read. */
uint64_t buvcsolta_reading(uint64_t kind, size_t columns, size_t rows, const int64_t *newer, size_t newer_length,
                           size_t pick_up, double *value);

/* A player's sheet turned into settings.
 *
 * rate:       samples per second. length: metres. bending: kappa squared.
 * by_tension: 0: speed is a pitch in hertz, wave speed over twice the length, and density plays no part (kinds 1 to 4);
 *             any other number: speed is a tension, with density.
 * by_seconds: 0: loss is per second; any other number: loss is the seconds to a thousandth.
 * q, m, s:    become the settings, which a block accepts for this kind and grid; all 0 for 1 to 5. */
uint64_t buvcsolta_sheet(uint64_t kind, size_t columns, size_t rows, double rate, double length, double bending,
                         uint64_t by_tension, double speed, double density, uint64_t by_seconds, double loss,
                         uint64_t *q, uint64_t *m, uint64_t *s);

/* The same calls over structs. */

/* A kind with its grid and settings. */
struct buvcsolta_instrument {
    uint64_t kind; /* enum buvcsolta_kind */
    size_t columns, rows;
    uint64_t q, m, s;
};

/* The buffers of a voice, all zeros for a voice at rest. A voice that is played in place alone needs two: work plays no part there, nor in
 * a pluck or a reading, and may be null. length is the number of elements that each buffer really has, not columns x rows worked out
 * again: a grid that does not fit its buffers is then refused 6, and nothing is written. */
struct buvcsolta_levels {
    int64_t *older, *newer, *work;
    size_t length;
};

/* Force units at a moving point. */
struct buvcsolta_hit {
    size_t point;
    int64_t force;
};

/* What buvcsolta_sheet takes. */
struct buvcsolta_player_sheet {
    double rate, length, bending;
    uint64_t by_tension;
    double speed, density;
    uint64_t by_seconds;
    double loss;
};

/* Works out q, m and s for the instrument's kind and grid. They are all 0 after a refusal, and a block accepts those too: look at
 * the answer. */
static inline uint64_t buvcsolta_instrument_sheet(struct buvcsolta_instrument *i, const struct buvcsolta_player_sheet *sheet)
{
    return buvcsolta_sheet(i->kind, i->columns, i->rows, sheet->rate, sheet->length, sheet->bending, sheet->by_tension, sheet->speed,
                           sheet->density, sheet->by_seconds, sheet->loss, &i->q, &i->m, &i->s);
}

/* A block of samples_length steps; hit is null for none. */
static inline uint64_t buvcsolta_instrument_block(const struct buvcsolta_instrument *i, const struct buvcsolta_levels *levels,
                                                  int16_t *samples, size_t samples_length, size_t pick_up,
                                                  const struct buvcsolta_hit *hit, size_t *steps, uint64_t *inexact)
{
    return buvcsolta_block(i->kind, i->columns, i->rows, i->q, i->m, i->s, levels->older, levels->length, levels->newer, levels->length,
                           levels->work, levels->length, samples, samples_length, pick_up, hit ? 1 : 0, hit ? hit->point : 0,
                           hit ? hit->force : 0, steps, inexact);
}

/* The same in place: work plays no part. */
static inline uint64_t buvcsolta_instrument_block_in_place(const struct buvcsolta_instrument *i, const struct buvcsolta_levels *levels,
                                                           int16_t *samples, size_t samples_length, size_t pick_up,
                                                           const struct buvcsolta_hit *hit, size_t *steps, uint64_t *inexact)
{
    return buvcsolta_block_in_place(i->kind, i->columns, i->rows, i->q, i->m, i->s, levels->older, levels->length, levels->newer,
                                    levels->length, samples, samples_length, pick_up, hit ? 1 : 0, hit ? hit->point : 0,
                                    hit ? hit->force : 0, steps, inexact);
}

/* A pluck. The settings and work play no part. */
static inline uint64_t buvcsolta_instrument_pluck(const struct buvcsolta_instrument *i, const struct buvcsolta_levels *levels,
                                                  size_t centre, size_t half_width, int64_t height)
{
    return buvcsolta_pluck(i->kind, i->columns, i->rows, levels->older, levels->length, levels->newer, levels->length, centre,
                           half_width, height);
}

/* A pluck by a table of your own; table_length is the number of entries that it really has, BUVCSOLTA_TABLE_LENGTH where it is right.
 * The settings and work play no part. */
static inline uint64_t buvcsolta_instrument_pluck_with(const struct buvcsolta_instrument *i, const struct buvcsolta_levels *levels,
                                                       size_t centre, size_t half_width, int64_t height, const uint32_t *table,
                                                       size_t table_length)
{
    return buvcsolta_pluck_with(i->kind, i->columns, i->rows, levels->older, levels->length, levels->newer, levels->length, centre,
                                half_width, height, table, table_length);
}

/* The float reading of newer. */
static inline uint64_t buvcsolta_instrument_reading(const struct buvcsolta_instrument *i, const struct buvcsolta_levels *levels,
                                                    size_t pick_up, double *value)
{
    return buvcsolta_reading(i->kind, i->columns, i->rows, levels->newer, levels->length, pick_up, value);
}

/* A refusal in words. */
static inline const char *buvcsolta_refusal_text(uint64_t refusal)
{
    switch (refusal) {
    case BUVCSOLTA_NOTHING: return "carried out";
    case BUVCSOLTA_UNKNOWN_KIND: return "the call does not take this kind";
    case BUVCSOLTA_WRONG_SIZE: return "columns or rows are not those of the kind";
    case BUVCSOLTA_SHEET_NUMBER: return "a number of the sheet is not allowed";
    case BUVCSOLTA_COEFFICIENT: return "q, m or s is not in 0..65536";
    case BUVCSOLTA_UNSTABLE: return "not stable, or m above 0 outside kinds 4 and 7";
    case BUVCSOLTA_WRONG_LENGTH: return "a level does not have columns x rows points";
    case BUVCSOLTA_NOT_MOVING: return "the hit's point or the pluck's centre does not move";
    case BUVCSOLTA_TOO_STRONG: return "the force or height is beyond the ceiling";
    case BUVCSOLTA_PICK_UP: return "the pick-up is not a point of the grid";
    case BUVCSOLTA_HALF_WIDTH: return "the half width is not 1..columns - 1";
    case BUVCSOLTA_POINT_BEYOND: return "a point is beyond the ceiling";
    case BUVCSOLTA_FIXED_NOT_ZERO: return "a fixed point is not 0";
    case BUVCSOLTA_NEXT_BEYOND: return "the next step would pass the ceiling";
    case BUVCSOLTA_BROKEN_TABLE: return "the table does not run from 0 to 65536 in 1025 entries without a fall";
    default: return "not a refusal";
    }
}

#ifdef __cplusplus
}
#endif

#endif
