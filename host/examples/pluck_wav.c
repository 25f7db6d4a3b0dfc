/* A second of a plucked string, written to a WAV file: pluck_wav FILE.wav [straight]
 * With `straight` it is plucked by a table of this program. It is played in place, on two levels, for a board without room for a third;
 * with one, buvcsolta_instrument_block takes less time. */
#include "buvcsolta.h"
#include <errno.h>
#include <stdio.h>
#include <stdlib.h>
#include <string.h>

enum { RATE = 48000, POINTS = 101, BLOCK = 64, PICK_UP = 30, HALF_WIDTH = 25, LOUD = 16000 };

static int64_t older[POINTS], newer[POINTS];

static void check(uint64_t refusal)
{
    if (refusal == BUVCSOLTA_NOTHING)
        return;
    fprintf(stderr, "refused: %s\n", buvcsolta_refusal_text(refusal));
    exit(1);
}

/* Says why the file could not be opened or written. */
static int no_file(const char *name)
{
    fprintf(stderr, "pluck_wav: %s: %s\n", name, strerror(errno));
    return 1;
}

/* A number in so many bytes, the lowest first. */
static void put(FILE *file, uint32_t number, int bytes)
{
    for (int k = 0; k < bytes; k++)
        fputc((int)(number >> 8 * k & 255), file);
}

/* One channel of 16-bit samples. */
static void put_header(FILE *file, uint32_t samples)
{
    fputs("RIFF", file), put(file, 36 + 2 * samples, 4), fputs("WAVEfmt ", file);
    put(file, 16, 4), put(file, 1, 2), put(file, 1, 2), put(file, RATE, 4), put(file, 2 * RATE, 4), put(file, 2, 2), put(file, 16, 2);
    fputs("data", file), put(file, 2 * samples, 4);
}

/* A sharp plectrum: the string is drawn out in two straight lines. */
static uint64_t pluck_straight(const struct buvcsolta_instrument *string, const struct buvcsolta_levels *levels, int64_t height)
{
    static uint32_t table[BUVCSOLTA_TABLE_LENGTH];
    for (uint32_t j = 0; j < BUVCSOLTA_TABLE_LENGTH; j++)
        table[j] = j * BUVCSOLTA_TABLE_END / (BUVCSOLTA_TABLE_LENGTH - 1);
    return buvcsolta_instrument_pluck_with(string, levels, PICK_UP, HALF_WIDTH, height, table, BUVCSOLTA_TABLE_LENGTH);
}

int main(int argc, char **argv)
{
    struct buvcsolta_instrument string = {BUVCSOLTA_STRING_FIXED, POINTS, 1, 0, 0, 0};
    struct buvcsolta_player_sheet sheet = {.rate = RATE, .length = 1.0, .speed = 220.0, .loss = 4.0};
    struct buvcsolta_levels levels = {older, newer, NULL, POINTS};
    int64_t height = LOUD * BUVCSOLTA_UNITS_PER_SAMPLE;
    int16_t samples[BLOCK];
    size_t steps;
    uint64_t inexact;
    int straight = argc == 3 && strcmp(argv[2], "straight") == 0;
    FILE *file;
    if (argc != 2 && !straight) {
        fputs("usage: pluck_wav FILE.wav [straight]\n", stderr);
        return 2;
    }
    file = fopen(argv[1], "wb");
    if (!file)
        return no_file(argv[1]);
    check(buvcsolta_instrument_sheet(&string, &sheet));
    check(straight ? pluck_straight(&string, &levels, height)
                   : buvcsolta_instrument_pluck(&string, &levels, PICK_UP, HALF_WIDTH, height));
    put_header(file, RATE);
    for (int done = 0; done < RATE; done += BLOCK) {
        check(buvcsolta_instrument_block_in_place(&string, &levels, samples, BLOCK, PICK_UP, NULL, &steps, &inexact));
        for (int k = 0; k < BLOCK; k++)
            put(file, (uint16_t)samples[k], 2);
    }
    return fflush(file) != 0 || fclose(file) != 0 ? no_file(argv[1]) : 0;
}
