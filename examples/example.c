/* Writes a frame of 3 by 1 pixels, filters it by way 1, prints the answers and the shift count, and why the middle
 * pixel has its level. */
#include "icemedian.h"
#include <stdio.h>

enum { W = 3, H = 1, LEVELS = 8, GUIDES = 4, RADIUS = 1, SMOOTHING = 1 };

int main(void) {
    const uint16_t values[W * H] = {5, 1, 3}, guide[W * H] = {0, 0, 2};
    uint8_t file[ICEMEDIAN_FILE_LENGTH(W, H, 0)];
    uint16_t counts[ICEMEDIAN_COUNTS_LENGTH(LEVELS, GUIDES)], output[ICEMEDIAN_OUTPUT_LENGTH(W, H)], level;
    uint64_t words[ICEMEDIAN_WORDS_LENGTH(LEVELS, GUIDES)], shifts, offset;
    int64_t total, below, reached;
    uint32_t cause;
    size_t length, pixels;

    uint32_t status = icemedian_write(W, H, LEVELS, GUIDES, ICEMEDIAN_GUIDED, RADIUS, SMOOTHING, values, W * H,
                                      guide, W * H, NULL, 0, file, sizeof file, &length, &offset);
    if (status == 0)
        status = icemedian_filter(file, length, ICEMEDIAN_JOINT, counts, sizeof counts / sizeof *counts, words,
                                  sizeof words / sizeof *words, NULL, 0, NULL, 0, output, W * H, &shifts, &offset);
    if (status == 0)
        status = icemedian_explain(file, length, 1, 0, &pixels, &total, &level, &below, &reached, &cause, &offset);
    if (status != 0)
        return fprintf(stderr, "refused %u\n", (unsigned)status), 1;
    printf("%u %u %u, shifts %llu\n", output[0], output[1], output[2], (unsigned long long)shifts);
    printf("level %u: of %lld, the levels below it weigh %lld, with it %lld\n", level, (long long)total,
           (long long)below, (long long)reached);
    return 0;
}
