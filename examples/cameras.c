/* A hall with three sheets and one processor: filters their frames by turns, within the limits of control periods, and
 * prints what is answered after each period, a dash where a pixel has to wait. */
#include "icemedian.h"
#include <stdio.h>

enum { SHEETS = 3, PERIODS = 3, LEVELS = 8, LONGEST = 5, PIXELS = 3 + 5 + 2 };
/* No filter answers this, so it shows which answers are still as lent. */
enum { WAITING = ICEMEDIAN_UNKNOWN_MOVE };

static const struct {
    uint16_t width, guides, kind, radius, smoothing, values[LONGEST], guide[LONGEST];
} sheets[SHEETS] = {
    {3, 4, ICEMEDIAN_GUIDED, 1, 1, {5, 1, 3}, {0, 0, 2}},
    {5, 16, ICEMEDIAN_GUIDED, 2, 1, {1, 2, 5, 3, 4}, {7, 7, 15, 7, 0}},
    {2, 2, ICEMEDIAN_TABLE, 1, 0, {2, 6}, {0, 0}}
};
/* The files end to end; then the buffers, in which each sheet has its own part. */
static uint8_t files[ICEMEDIAN_FILE_LENGTH(3, 1, 0) + ICEMEDIAN_FILE_LENGTH(5, 1, 0) + ICEMEDIAN_FILE_LENGTH(2, 1, 0)];
static uint16_t counts[ICEMEDIAN_COUNTS_LENGTH(LEVELS, 4 + 16 + 2)], answers[PIXELS];
static uint64_t words[SHEETS * ICEMEDIAN_WORDS_LENGTH(LEVELS, 64)];

static void print_answers(uint64_t grants) {
    size_t sheet, pixel, place = 0;
    printf("%u pixels:", (unsigned)grants);
    for (sheet = 0; sheet < SHEETS; sheet++) {
        for (pixel = 0; pixel < sheets[sheet].width; pixel++, place++) {
            if (answers[place] == WAITING)
                printf(" -");
            else
                printf(" %u", answers[place]);
        }
        putchar(sheet + 1 < SHEETS ? ',' : '\n');
    }
}

int main(void) {
    const uint32_t limits[PERIODS] = {4, 0, 3};
    size_t lengths[SHEETS], length = 0, sheet, periods, place;
    uint64_t grants, offset;
    uint32_t status = 0;

    for (sheet = 0; sheet < SHEETS && status == 0; sheet++) {
        status = icemedian_write(sheets[sheet].width, 1, LEVELS, sheets[sheet].guides, sheets[sheet].kind,
                                 sheets[sheet].radius, sheets[sheet].smoothing, sheets[sheet].values,
                                 sheets[sheet].width, sheets[sheet].guide, sheets[sheet].width, NULL, 0,
                                 files + length, sizeof files - length, &lengths[sheet], &offset);
        if (status == 0) length += lengths[sheet];
    }
    for (periods = 1; periods <= PERIODS && status == 0; periods++) {
        for (place = 0; place < PIXELS; place++) answers[place] = WAITING;
        status = icemedian_cameras(files, length, lengths, SHEETS, limits, periods, counts,
                                   sizeof counts / sizeof *counts, words, sizeof words / sizeof *words, answers,
                                   PIXELS, &grants, &offset);
        if (status == 0) print_answers(grants);
    }
    if (status != 0)
        return fprintf(stderr, "refused %u\n", (unsigned)status), 1;
    return 0;
}
