/* The stack that each call needs: calls of every kind and size on a painted stack, and the lowest byte that lost its paint. Prints the
 * bytes below the caller's frame, arguments and return address included, and fails where they are more than the header says. A block of
 * a plate keeps rows of its own, and is counted apart. */
#include "buvcsolta.h"
#include <stdio.h>
#include <stdlib.h>
#include <string.h>
#include <ucontext.h>

enum { STACK = 65536, PAINT = 0xA5, POINTS = 4096, PLACES = 5 };

static unsigned char stack[STACK];
static unsigned char *frame;
static int64_t older[POINTS], newer[POINTS], work[POINTS];
static int16_t samples[PLACES];
static struct buvcsolta_instrument instrument;
static size_t steps;
static uint64_t refusal, inexact;
static ucontext_t here, there;

static struct buvcsolta_levels levels(void)
{
    struct buvcsolta_levels lent = {older, newer, work, instrument.columns * instrument.rows};
    return lent;
}

static struct buvcsolta_hit middle_hit(void)
{
    struct buvcsolta_hit hit = {instrument.rows / 2 * instrument.columns + instrument.columns / 2, 1000000};
    return hit;
}

static void call_block(void)
{
    struct buvcsolta_levels lent = levels();
    struct buvcsolta_hit hit = middle_hit();
    frame = __builtin_frame_address(0);
    refusal = buvcsolta_instrument_block(&instrument, &lent, samples, PLACES, hit.point, &hit, &steps, &inexact);
}

static void call_block_in_place(void)
{
    struct buvcsolta_levels lent = levels();
    struct buvcsolta_hit hit = middle_hit();
    frame = __builtin_frame_address(0);
    refusal = buvcsolta_instrument_block_in_place(&instrument, &lent, samples, PLACES, hit.point, &hit, &steps, &inexact);
}

static void call_pluck(void)
{
    struct buvcsolta_levels lent = levels();
    frame = __builtin_frame_address(0);
    refusal = buvcsolta_instrument_pluck(&instrument, &lent, 1, 1, 1000000);
}

static void call_pluck_with(void)
{
    static uint32_t table[BUVCSOLTA_TABLE_LENGTH];
    struct buvcsolta_levels lent = levels();
    table[BUVCSOLTA_TABLE_LENGTH - 1] = BUVCSOLTA_TABLE_END;
    frame = __builtin_frame_address(0);
    refusal = buvcsolta_instrument_pluck_with(&instrument, &lent, 1, 1, 1000000, table, BUVCSOLTA_TABLE_LENGTH);
}

static void call_reading(void)
{
    struct buvcsolta_levels lent = levels();
    double value;
    frame = __builtin_frame_address(0);
    refusal = buvcsolta_instrument_reading(&instrument, &lent, 1, &value);
}

static void call_sheet(void)
{
    struct buvcsolta_player_sheet sheet = {48000.0, 1.0, 0.0, 1, 1.0, 1.0, 0, 6.0};
    struct buvcsolta_instrument i = instrument;
    frame = __builtin_frame_address(0);
    refusal = buvcsolta_instrument_sheet(&i, &sheet);
}

/* The bytes below its frame that a call on a stack of its own needs. */
static size_t needed(void (*call)(void))
{
    size_t clean = 0;
    memset(stack, PAINT, sizeof stack);
    memset(older, 0, sizeof older);
    memset(newer, 0, sizeof newer);
    getcontext(&there);
    there.uc_stack.ss_sp = stack;
    there.uc_stack.ss_size = sizeof stack;
    there.uc_link = &here;
    makecontext(&there, call, 0);
    swapcontext(&here, &there);
    while (clean < sizeof stack && stack[clean] == PAINT)
        clean++;
    return (size_t)(frame - (stack + clean));
}

struct row {
    const char *name;
    void (*call)(void);
    uint64_t first, last; /* kinds */
    size_t allowed;       /* bytes */
};

static uint64_t stiffness(uint64_t kind)
{
    return kind == BUVCSOLTA_BAR ? 9000 : kind == BUVCSOLTA_PLATE ? 2500 : 0;
}

/* The most of a call, over its kinds at their least and largest size. */
static size_t most(const struct row *r)
{
    static const size_t sides[2][2] = {{3, 1024}, {5, 64}};
    size_t found = 0;
    for (uint64_t kind = r->first; kind <= r->last; kind++)
        for (int large = 0; large < 2; large++) {
            size_t side = sides[kind >= 5][large], bytes;
            struct buvcsolta_instrument i = {kind, side, kind >= 5 ? side : 1, 10000, stiffness(kind), 3};
            instrument = i;
            bytes = needed(r->call);
            if (refusal != BUVCSOLTA_NOTHING && !((r->call == call_pluck || r->call == call_pluck_with) && kind >= 5)) {
                printf("kind %d, %d columns: %s\n", (int)kind, (int)side, buvcsolta_refusal_text(refusal));
                exit(1);
            }
            found = bytes > found ? bytes : found;
        }
    return found;
}

int main(void)
{
    static const struct row rows[] = {
        {"block", call_block, 1, 6, BUVCSOLTA_STACK_BLOCK},
        {"block of a plate", call_block, 7, 7, BUVCSOLTA_STACK_BLOCK},
        {"block in place", call_block_in_place, 1, 6, BUVCSOLTA_STACK_BLOCK_IN_PLACE},
        {"block in place of a plate", call_block_in_place, 7, 7, BUVCSOLTA_STACK_BLOCK_IN_PLACE},
        {"pluck", call_pluck, 1, 7, BUVCSOLTA_STACK_PLUCK},
        {"pluck by a lent table", call_pluck_with, 1, 7, BUVCSOLTA_STACK_PLUCK_WITH},
        {"reading", call_reading, 1, 7, BUVCSOLTA_STACK_READING},
        {"sheet", call_sheet, 1, 7, BUVCSOLTA_STACK_SHEET},
    };
    enum { ROWS = sizeof rows / sizeof *rows };
    int passed = 0;
    for (int k = 0; k < ROWS; k++)
        most(&rows[k]); /* a dynamic linker looks memset up on the caller's stack in the first call */
    for (int k = 0; k < ROWS; k++) {
        size_t bytes = most(&rows[k]);
        printf("%s%s %zu", k ? ", " : "bytes of stack: ", rows[k].name, bytes);
        passed |= bytes > rows[k].allowed;
    }
    puts(passed ? ": more than allowed" : "");
    return passed;
}
