/* What the header says of subnormal numbers: where they are flushed to zero, a sheet that has one or whose operations give one may answer
 * otherwise; other sheets and the float reading answer the same. For x86-64. */
#include "buvcsolta.h"
#include <pmmintrin.h>
#include <stdio.h>
#include <string.h>

struct answer {
    uint64_t refusal, q, m, s;
};

static struct answer asked(const struct buvcsolta_player_sheet *sheet, uint64_t kind, int is_flushed)
{
    struct buvcsolta_instrument i = {kind, 9, kind >= 5 ? 9 : 1, 0, 0, 0};
    struct answer a;
    unsigned before = _mm_getcsr();
    if (is_flushed) {
        _MM_SET_FLUSH_ZERO_MODE(_MM_FLUSH_ZERO_ON);
        _MM_SET_DENORMALS_ZERO_MODE(_MM_DENORMALS_ZERO_ON);
    }
    a.refusal = buvcsolta_instrument_sheet(&i, sheet);
    _mm_setcsr(before);
    a.q = i.q, a.m = i.m, a.s = i.s;
    return a;
}

struct row {
    const char *what;
    uint64_t kind;
    struct buvcsolta_player_sheet sheet; /* rate, length, bending, by_tension, speed, density, by_seconds, loss */
    uint64_t refusal, flushed;
};

int main(void)
{
    static const struct row rows[] = {
        {"a string", BUVCSOLTA_STRING_FIXED, {48000, 1, 0, 0, 100, 0, 0, 6}, 0, 0},
        {"a plate", BUVCSOLTA_PLATE, {48000, 0.75, 1, 1, 0, 7.8, 1, 2}, 0, 0},
        {"no loss", BUVCSOLTA_STRING_FREE, {44100, 0.3, 0, 1, 60, 0.005, 0, 0}, 0, 0},
        {"a subnormal decay time", BUVCSOLTA_STRING_FIXED, {48000, 1, 0, 0, 100, 0, 1, 1e-310}, 4, 3},
        {"a subnormal rate", BUVCSOLTA_STRING_FIXED, {1e-310, 1, 0, 0, 0, 0, 0, 0}, 4, 3},
        {"a subnormal loss, rounded away", BUVCSOLTA_STRING_FIXED, {48000, 1, 0, 0, 100, 0, 0, 1e-310}, 0, 0},
        {"a length whose square is subnormal", BUVCSOLTA_STRING_FIXED, {1e308, 1e-155, 0, 0, 0, 0, 0, 0}, 0, 4},
    };
    int wrong = 0;
    for (size_t k = 0; k < sizeof rows / sizeof *rows; k++) {
        struct answer a = asked(&rows[k].sheet, rows[k].kind, 0), b = asked(&rows[k].sheet, rows[k].kind, 1);
        int is_alike = memcmp(&a, &b, sizeof a) == 0;
        if (a.refusal != rows[k].refusal || b.refusal != rows[k].flushed || is_alike != (rows[k].refusal == rows[k].flushed)) {
            printf("%s: answers %d, flushed %d\n", rows[k].what, (int)a.refusal, (int)b.refusal);
            wrong = 1;
        }
    }
    for (int64_t unit = 1; unit <= BUVCSOLTA_CEILING && !wrong; unit *= 2) {
        int64_t level[3] = {0, -unit, 0};
        double plain, flushed;
        unsigned before = _mm_getcsr();
        wrong |= buvcsolta_reading(BUVCSOLTA_STRING_FIXED, 3, 1, level, 3, 1, &plain) != 0;
        _mm_setcsr(before | _MM_FLUSH_ZERO_ON | _MM_DENORMALS_ZERO_ON | _MM_ROUND_UP);
        wrong |= buvcsolta_reading(BUVCSOLTA_STRING_FIXED, 3, 1, level, 3, 1, &flushed) != 0;
        _mm_setcsr(before);
        wrong |= memcmp(&plain, &flushed, sizeof plain) != 0;
    }
    puts(wrong ? "not as the header says" : "subnormal numbers: as the header says");
    return wrong;
}
