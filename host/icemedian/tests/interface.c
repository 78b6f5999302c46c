/* What the header promises a C program: NULL where a length is 0, numbers that are too wide refused and not
 * cut down, results left alone by refusals, what is read may overlap, a weight may be any number, way 4's
 * count and summary, a window in which nothing weighs, an explanation of each cause, dead pixels, tolerances, byte
 * planes, several cameras, and the macros. It prints each promise that is not kept. */
#include "icemedian.h"
#include <stdio.h>
#include <string.h>

enum { W = 3, H = 1, PIXELS = W * H, LEVELS = 8, GUIDES = 4, RADIUS = 1, SMOOTHING = 1 };
enum { COUNTS = LEVELS * GUIDES, WORDS = LEVELS, NUMBERS = 2 * (W + 1) * LEVELS, BLOCKS = 1, FILE_BYTES = 40 };

static const uint16_t values[PIXELS] = {5, 1, 3}, guide[PIXELS] = {0, 0, 2};
static const uint8_t moves[2] = {ICEMEDIAN_RIGHT, ICEMEDIAN_DOWN};
static uint8_t file[FILE_BYTES];
static uint16_t counts[COUNTS], levels[PIXELS];
static uint64_t words[WORDS];
static uint32_t numbers[NUMBERS];
static int64_t summary[BLOCKS];
static int failures;

/* All results of a call, full of one byte before it. */
static struct {
    uint64_t shifts, least_shifts, greatest_shifts, grants, offset;
    int64_t balance, total, below, reached;
    size_t length, pixels;
    uint32_t cause;
    uint16_t cut, level;
    int16_t box[ICEMEDIAN_BOX_LENGTH];
} result, untouched;

static void expect(const char *what, unsigned long got, unsigned long wanted) {
    if (got == wanted) return;
    printf("%s: %lu, expected %lu\n", what, got, wanted);
    failures++;
}

/* The status; no result changed by a refusal, and never the offset: expect_contents is for number 7. */
static void expect_status(const char *what, uint32_t got, uint32_t wanted) {
    expect(what, got, wanted);
    if (result.offset != untouched.offset || (wanted != 0 && memcmp(&result, &untouched, sizeof result) != 0)) {
        printf("%s: a result changed\n", what);
        failures++;
    }
    memcpy(&result, &untouched, sizeof result);
}

/* Number 7 and its offset; no other result changed. */
static void expect_contents(const char *what, uint32_t status, uint64_t offset) {
    expect("its offset", result.offset == offset, 1);
    expect("its number", status, 7);
    result.offset = untouched.offset;
    if (memcmp(&result, &untouched, sizeof result) != 0) expect(what, 1, 0);
    memcpy(&result, &untouched, sizeof result);
}

/* Calls with buffers of these lengths: NULL where a length is 0. */
static uint32_t filter(size_t file_length, uint32_t way, size_t c, size_t w, size_t n, size_t s, size_t output_length) {
    return icemedian_filter(file_length ? file : NULL, file_length, way, c ? counts : NULL, c, w ? words : NULL, w,
                            n ? numbers : NULL, n, s ? summary : NULL, s, output_length ? levels : NULL, output_length,
                            &result.shifts, &result.offset);
}

static uint32_t walk(size_t file_length, uint32_t way, size_t moves_length, size_t c, size_t w, size_t n, size_t s,
                     size_t answers_length) {
    return icemedian_walk(file_length ? file : NULL, file_length, way, 0, 0, moves_length ? moves : NULL, moves_length,
                          c ? counts : NULL, c, w ? words : NULL, w, n ? numbers : NULL, n, s ? summary : NULL, s,
                          answers_length ? levels : NULL, answers_length, &result.shifts, &result.cut, result.box,
                          &result.offset);
}

static uint32_t balance(size_t file_length, uint32_t level) {
    return icemedian_balance(file_length ? file : NULL, file_length, 1, 0, level, &result.balance, &result.offset);
}

static uint32_t explain(const uint8_t *frame, size_t frame_length, size_t column, size_t row) {
    return icemedian_explain(frame, frame_length, column, row, &result.pixels, &result.total, &result.level,
                             &result.below, &result.reached, &result.cause, &result.offset);
}

static uint32_t write_parts(size_t values_length, size_t guide_length, size_t output_length) {
    return icemedian_write(W, H, LEVELS, GUIDES, ICEMEDIAN_GUIDED, RADIUS, SMOOTHING, values_length ? values : NULL,
                           values_length, guide_length ? guide : NULL, guide_length, NULL, 0,
                           output_length ? file : NULL, output_length, &result.length, &result.offset);
}

/* The settings as ints, the way that a C program would have them. */
static uint32_t write_ints(int width, int height, int level_count, int guide_count, int kind, int radius,
                           int smoothing) {
#ifdef __cplusplus
#define WIDE(number) static_cast<uint32_t>(number)
#else
#define WIDE(number) ((uint32_t)(number))
#endif
    return icemedian_write(WIDE(width), WIDE(height), WIDE(level_count), WIDE(guide_count), WIDE(kind), WIDE(radius),
                           WIDE(smoothing), values, PIXELS, guide, PIXELS, NULL, 0, file, FILE_BYTES, &result.length,
                           &result.offset);
}

static void test_null(void) {
    expect_status("check, no file", icemedian_check(NULL, 0, &result.offset), 1);
    expect_status("filter, no file", filter(0, 1, COUNTS, WORDS, 0, 0, PIXELS), 1);
    expect_status("walk, no file", walk(0, 1, 2, COUNTS, WORDS, 0, 0, 3), 1);
    expect_status("balance, no file", balance(0, 0), 1);
    expect_status("explain, no file", explain(NULL, 0, 0, 0), 1);
    expect_status("filter, no counts", filter(FILE_BYTES, 1, 0, WORDS, 0, 0, PIXELS), 11);
    expect_status("filter, no words", filter(FILE_BYTES, 1, COUNTS, 0, 0, 0, PIXELS), 11);
    expect_status("filter, no numbers", filter(FILE_BYTES, 2, 0, 0, 0, 0, PIXELS), 11);
    expect_status("filter, no summary", filter(FILE_BYTES, 4, COUNTS, WORDS, 0, 0, PIXELS), 11);
    expect_status("filter, no output", filter(FILE_BYTES, 1, COUNTS, WORDS, 0, 0, 0), 11);
    expect_status("filter, no store that way 1 needs not", filter(FILE_BYTES, 1, COUNTS, WORDS, 0, 0, PIXELS), 0);
    expect_status("filter, no store that way 2 needs not", filter(FILE_BYTES, 2, 0, 0, NUMBERS, 0, PIXELS), 0);
    expect_status("filter, no store that way 3 needs not", filter(FILE_BYTES, 3, 0, 0, NUMBERS, 0, PIXELS), 0);
    expect_status("filter, no store that way 4 needs not", filter(FILE_BYTES, 4, COUNTS, WORDS, 0, BLOCKS, PIXELS), 0);
    expect_status("walk, no counts", walk(FILE_BYTES, 1, 2, 0, WORDS, 0, 0, 3), 11);
    expect_status("walk, no words", walk(FILE_BYTES, 1, 2, COUNTS, 0, 0, 0, 3), 11);
    expect_status("walk, no numbers", walk(FILE_BYTES, 3, 2, 0, 0, 0, 0, 3), 11);
    expect_status("walk, no summary", walk(FILE_BYTES, 4, 2, COUNTS, WORDS, 0, 0, 3), 11);
    expect_status("walk, no answers", walk(FILE_BYTES, 1, 2, COUNTS, WORDS, 0, 0, 0), 11);
    expect_status("walk, no moves and no answers", walk(FILE_BYTES, 1, 0, COUNTS, WORDS, 0, 0, 0), 11);
    expect_status("walk, no moves", walk(FILE_BYTES, 1, 0, COUNTS, WORDS, 0, 0, 1), 0);
    expect("its answer", levels[0], 1);
    expect_status("write, no values", write_parts(0, PIXELS, FILE_BYTES), 6);
    expect_status("write, no guide", write_parts(PIXELS, 0, FILE_BYTES), 6);
    expect_status("write, no output", write_parts(PIXELS, PIXELS, 0), 11);
    expect_status("write, no parts and no output", write_parts(0, 0, 0), 6);
}

static void test_overlap(void) {
    static const uint16_t shared[4] = {1, 0, 1, 1};
    uint8_t output[ICEMEDIAN_FILE_LENGTH(2, 2, 4)];
    uint32_t status = icemedian_write(2, 2, 2, 2, ICEMEDIAN_TABLE, RADIUS, 0, shared, 4, shared, 4, shared, 4, output,
                                      sizeof output, &result.length, &result.offset);
    expect_status("write, one plane for all parts", status, 0);
    expect_status("check of it", icemedian_check(output, sizeof output, &result.offset), 0);
    /* The file's first bytes are 0, right, and 5, no move. */
    status = icemedian_walk(file, FILE_BYTES, ICEMEDIAN_JOINT, 0, 0, file, 2, counts, COUNTS, words, WORDS, NULL, 0,
                            NULL, 0, levels, PIXELS, &result.shifts, &result.cut, result.box, &result.offset);
    expect_status("walk, moves within the file", status, 0);
    expect("its second answer", levels[1], 3);
    expect("its third answer", levels[2], ICEMEDIAN_UNKNOWN_MOVE);
}

/* A frame of guides 0 1 0 under a table of its own. */
static uint8_t own_table[ICEMEDIAN_FILE_LENGTH(W, H, 4)];

/* Writes it, checks it, and filters it by way 1. */
static void filter_own_table(const uint16_t *value, const uint16_t *table, const uint16_t *answers, uint64_t shifts) {
    static const uint16_t picture[PIXELS] = {0, 1, 0};
    size_t pixel;
    uint32_t status = icemedian_write(W, H, LEVELS, 2, ICEMEDIAN_TABLE, RADIUS, 0, value, PIXELS, picture, PIXELS, table,
                                      4, own_table, sizeof own_table, &result.length, &result.offset);
    expect_status("write, a table of its own", status, 0);
    expect_status("check of it", icemedian_check(own_table, sizeof own_table, &result.offset), 0);
    status = icemedian_filter(own_table, sizeof own_table, ICEMEDIAN_JOINT, counts, COUNTS, words, WORDS, NULL, 0, NULL,
                              0, levels, PIXELS, &result.shifts, &result.offset);
    expect("its shifts", result.shifts == shifts, 1);
    expect_status("filter of it", status, 0);
    for (pixel = 0; pixel < PIXELS; pixel++) expect("its level", levels[pixel], answers[pixel]);
}

/* The balance of its middle window. */
static void balance_own_table(uint32_t level, int64_t balance) {
    uint32_t status = icemedian_balance(own_table, sizeof own_table, 1, 0, level, &result.balance, &result.offset);
    expect("its balance", result.balance == balance, 1);
    expect_status("balance of it", status, 0);
}

/* Why a pixel of the first row has its level. */
static void expect_explained(const uint8_t *frame, size_t frame_length, size_t column, size_t pixels, int64_t total,
                             uint16_t level, int64_t below, int64_t reached, uint32_t cause) {
    uint32_t status = explain(frame, frame_length, column, 0);
    expect("its pixels", result.pixels == pixels, 1);
    expect("its weight", result.total == total, 1);
    expect("its level", result.level, level);
    expect("the weight below", result.below == below, 1);
    expect("the weight reached", result.reached == reached, 1);
    expect("its cause", result.cause, cause);
    expect_status("explain", status, 0);
}

/* Levels 1 5 3 under weights 65535 257 / 1 65535. */
static void test_weights(void) {
    static const uint16_t value[PIXELS] = {1, 5, 3}, table[4] = {65535, 257, 1, 65535};
    filter_own_table(value, table, value, 7);
    balance_own_table(3, -65533);
    expect_explained(own_table, sizeof own_table, 1, 3, 65537, 5, 2, 65537, ICEMEDIAN_ORDINARY);
}

/* Way 4: its count is not the cut's, and its summary is of the last window. */
static void test_coarse(void) {
    static int16_t no_box[ICEMEDIAN_BOX_LENGTH];
    uint32_t status = filter(FILE_BYTES, ICEMEDIAN_COARSE, COUNTS, WORDS, 0, BLOCKS, PIXELS);
    expect("its shifts are 7", result.shifts == 7, 1);
    expect_status("filter by way 4", status, 0);
    status = walk(FILE_BYTES, ICEMEDIAN_COARSE, 1, COUNTS, WORDS, 0, BLOCKS, 2);
    expect("its shifts are 4", result.shifts == 4, 1);
    expect("its cut", result.cut, 3);
    expect("its box is zeros", memcmp(result.box, no_box, sizeof no_box) == 0, 1);
    expect("its summary is 51", summary[0] == 51, 1);
    expect_status("walk by way 4", status, 0);
    expect_status("filter by way 5", filter(FILE_BYTES, 5, COUNTS, WORDS, NUMBERS, BLOCKS, PIXELS), 8);
}

/* A lamp, level 7, alone in its guide class: nothing weighs in its window, which is answered as if each pixel
 * weighed 1. */
static void test_lamp(void) {
    static const uint16_t value[PIXELS] = {2, 7, 4}, table[4] = {1, 0, 0, 0}, answers[PIXELS] = {2, 4, 4};
    uint32_t status;
    filter_own_table(value, table, answers, 4);
    balance_own_table(2, -1);
    expect_explained(own_table, sizeof own_table, 1, 3, 3, 4, 1, 2, ICEMEDIAN_HOLLOW);
    status = icemedian_walk(own_table, sizeof own_table, ICEMEDIAN_COARSE, 1, 0, NULL, 0, counts, COUNTS, words, WORDS, NULL,
                            0, summary, BLOCKS, levels, 1, &result.shifts, &result.cut, result.box, &result.offset);
    expect("its shifts by way 4 are 4", result.shifts == 4, 1);
    expect("its cut by way 4", result.cut, 4);
    expect("its summary is 3", summary[0] == 3, 1);
    expect_status("walk to a lamp by way 4", status, 0);
}

/* Bench windows A and B; in B the weight formula is negative at one end of the guides, then at the other. */
static void test_explain(void) {
    static const uint16_t value[5] = {1, 2, 5, 3, 4}, picture[5] = {7, 7, 15, 7, 0};
    uint8_t b[ICEMEDIAN_FILE_LENGTH(5, 1, 0)];
    uint32_t status = icemedian_write(5, 1, LEVELS, 16, ICEMEDIAN_GUIDED, 2, SMOOTHING, value, 5, picture, 5, NULL, 0, b,
                                      sizeof b, &result.length, &result.offset);
    expect_status("write, bench window B", status, 0);
    expect_explained(file, FILE_BYTES, 0, 2, 8, 1, 0, 4, ICEMEDIAN_ORDINARY);
    expect_explained(file, FILE_BYTES, 1, 3, 51, 3, 21, 30, ICEMEDIAN_ORDINARY);
    expect_explained(b, sizeof b, 2, 5, 2945, 3, 1100, 1650, ICEMEDIAN_NEGATIVE_AT_ZERO);
    expect_explained(b, sizeof b, 4, 3, 1041, 4, 369, 1200, ICEMEDIAN_NEGATIVE_AT_LAST);
    expect_status("explain, column 5", explain(b, sizeof b, 5, 0), 9);
    expect_status("explain, row 1", explain(b, sizeof b, 0, 1), 9);
    expect_status("explain, without the mark", explain(b, sizeof b - 1, 5, 0), 1);
}

/* A frame of one row with dead pixels, and buffers for every way. */
enum { DEAD = ICEMEDIAN_NO_READING, ROW = 5 };
static uint8_t dead_file[ICEMEDIAN_FILE_LENGTH(ROW, 1, 4)];
static size_t dead_bytes;
static uint16_t dead_counts[ICEMEDIAN_COUNTS_LENGTH(LEVELS, 16)], dead_answers[ROW];
static uint64_t dead_words[ICEMEDIAN_WORDS_LENGTH(LEVELS, 16)];
static uint32_t dead_numbers[ICEMEDIAN_CHAIN_LENGTH(2)];
static int64_t dead_summary[ICEMEDIAN_SUMMARY_LENGTH(LEVELS)];

static uint32_t filter_dead(uint32_t way, size_t width) {
    return icemedian_filter(dead_file, dead_bytes, way, dead_counts, LEVELS * 16, dead_words, LEVELS, dead_numbers,
                            ICEMEDIAN_CHAIN_LENGTH(2), dead_summary, 1, dead_answers, width, &result.shifts,
                            &result.offset);
}

static uint32_t walk_dead(uint32_t way, size_t column, const uint8_t *list, size_t list_length) {
    return icemedian_walk(dead_file, dead_bytes, way, column, 0, list, list_length, dead_counts, LEVELS * 16, dead_words,
                          LEVELS, dead_numbers, ICEMEDIAN_CHAIN_LENGTH(2), dead_summary, 1, dead_answers, ROW,
                          &result.shifts, &result.cut, result.box, &result.offset);
}

/* The filter by a way: its answers and its count. */
static void expect_dead(uint32_t way, size_t width, const uint16_t *answers, uint64_t shifts) {
    size_t pixel;
    uint32_t status = filter_dead(way, width);
    expect("its shifts", result.shifts == shifts, 1);
    expect_status("filter of dead pixels", status, 0);
    for (pixel = 0; pixel < width; pixel++) expect("its answer", dead_answers[pixel], answers[pixel]);
}

/* A node of the chain: its number's place, level, count, guide sum; the number of the next. */
static uint32_t expect_node(uint32_t node, uint32_t level, uint32_t count, uint32_t guide_sum) {
    expect("its level in the chain", dead_numbers[4 * node - 3], level);
    expect("its count in the chain", dead_numbers[4 * node - 2], count);
    expect("its guide sum in the chain", dead_numbers[4 * node - 1], guide_sum);
    return dead_numbers[4 * node];
}

/* Bench window B with two dead pixels. */
static void test_dead_b(void) {
    static const uint16_t value[ROW] = {1, DEAD, 5, 3, DEAD}, picture[ROW] = {7, 7, 15, 7, 0};
    static const uint16_t answers[ROW] = {1, 3, 5, 3, 3};
    uint32_t status = icemedian_write(ROW, 1, LEVELS, 16, ICEMEDIAN_GUIDED, 2, 1, value, ROW, picture, ROW, NULL, 0,
                                      dead_file, sizeof dead_file, &result.length, &result.offset);
    dead_bytes = ICEMEDIAN_FILE_LENGTH(ROW, 1, 0);
    expect_status("write, dead pixels", status, 0);
    expect("a dead pixel's high byte", dead_file[2], 255);
    expect("a dead pixel's low byte", dead_file[3], 255);
    expect_status("check of dead pixels", icemedian_check(dead_file, dead_bytes, &result.offset), 0);
    expect_dead(ICEMEDIAN_JOINT, ROW, answers, 13);
    expect_dead(ICEMEDIAN_CHAIN, ROW, answers, 13);
    expect_dead(ICEMEDIAN_COLUMNS, ROW, answers, 13);
    expect_dead(ICEMEDIAN_COARSE, ROW, answers, 15);
    expect_explained(dead_file, dead_bytes, 0, 2, 136, 1, 0, 132, ICEMEDIAN_ORDINARY);
    expect_explained(dead_file, dead_bytes, 1, 3, 411, 3, 201, 402, ICEMEDIAN_ORDINARY);
    expect_explained(dead_file, dead_bytes, 2, 3, 411, 5, 18, 411, ICEMEDIAN_NEGATIVE_AT_ZERO);
    expect_explained(dead_file, dead_bytes, 3, 2, 136, 3, 0, 132, ICEMEDIAN_ORDINARY);
    expect_explained(dead_file, dead_bytes, 4, 2, 136, 3, 0, 244, ICEMEDIAN_NEGATIVE_AT_LAST);
    status = walk_dead(ICEMEDIAN_CHAIN, 4, NULL, 0);
    expect_status("walk to a dead pixel by way 3", status, 0);
    expect("the chain's end", expect_node(expect_node(dead_numbers[0], 3, 1, 7), 5, 1, 15), 0);
}

/* A reading at the end of a row of dead pixels: the first two windows have none. */
static void test_empty(void) {
    static const uint16_t value[4] = {DEAD, DEAD, DEAD, 5}, picture[4] = {0, 0, 0, 0}, ones[4] = {1, 1, 1, 1};
    static const uint16_t answers[4] = {DEAD, DEAD, 5, 5};
    static const uint8_t back[2] = {ICEMEDIAN_LEFT, ICEMEDIAN_LEFT};
    static const int16_t no_box[ICEMEDIAN_BOX_LENGTH] = {0};
    uint32_t status = icemedian_write(4, 1, LEVELS, 2, ICEMEDIAN_TABLE, 1, 0, value, 4, picture, 4, ones, 4, dead_file,
                                      sizeof dead_file, &result.length, &result.offset);
    size_t cell, counted = 0;
    dead_bytes = ICEMEDIAN_FILE_LENGTH(4, 1, 4);
    expect_status("write, mostly dead pixels", status, 0);
    expect_dead(ICEMEDIAN_JOINT, 4, answers, 5);
    expect_dead(ICEMEDIAN_COARSE, 4, answers, 10);
    expect_explained(dead_file, dead_bytes, 0, 0, 0, DEAD, 0, 0, ICEMEDIAN_EMPTY);
    expect_explained(dead_file, dead_bytes, 2, 1, 1, 5, 0, 1, ICEMEDIAN_ORDINARY);
    status = icemedian_balance(dead_file, dead_bytes, 0, 0, 5, &result.balance, &result.offset);
    expect("its balance is 0", result.balance == 0, 1);
    expect_status("balance without a reading", status, 0);
    status = walk_dead(ICEMEDIAN_JOINT, 2, back, 2);
    expect("its shifts are 5", result.shifts == 5, 1);
    expect("its cut is kept", result.cut, 5);
    expect("its box is zeros", memcmp(result.box, no_box, sizeof no_box) == 0, 1);
    expect_status("walk into dead pixels", status, 0);
    expect("its last answer", dead_answers[2], DEAD);
    for (cell = 0; cell < ICEMEDIAN_COUNTS_LENGTH(LEVELS, 2); cell++) counted += dead_counts[cell];
    expect("what it counts", counted == 0, 1);
}

/* 65,535 is no reading in the value plane only, and no other number is. */
static void test_no_reading(void) {
    uint16_t plane[PIXELS] = {5, DEAD, DEAD - 1};
    uint8_t output[FILE_BYTES];
    uint32_t status = icemedian_write(W, H, LEVELS, GUIDES, ICEMEDIAN_GUIDED, RADIUS, SMOOTHING, plane, PIXELS, guide,
                                      PIXELS, NULL, 0, output, sizeof output, &result.length, &result.offset);
    expect_contents("write, value 65534", status, 4);
    plane[0] = 0, plane[1] = 0, plane[2] = DEAD;
    status = icemedian_write(W, H, LEVELS, GUIDES, ICEMEDIAN_GUIDED, RADIUS, SMOOTHING, plane, PIXELS, plane, PIXELS,
                             NULL, 0, output, sizeof output, &result.length, &result.offset);
    expect_contents("write, guide 65535", status, 10);
}

/* Request 7's row, built-in weights, and what lies beyond each buffer. */
enum { SPANNED = 5, SPAN_COUNTS = LEVELS * GUIDES, SPAN_WORDS = LEVELS };
static const uint16_t span_values[SPANNED] = {5, 1, 3, 2, 7}, span_guide[SPANNED] = {0, 0, 2, 1, 3};
static uint8_t span_file[ICEMEDIAN_FILE_LENGTH(SPANNED, 1, 0)];
static uint16_t span_upper[SPANNED + 1], span_counts[SPAN_COUNTS + 1], span_least[SPANNED + 1], span_greatest[SPANNED + 1];
static uint64_t span_words[SPAN_WORDS + 1];

static void write_spanned(uint32_t kind) {
    uint32_t status = icemedian_write(SPANNED, 1, LEVELS, GUIDES, kind, RADIUS, kind - 1, span_values, SPANNED, span_guide,
                                      SPANNED, NULL, 0, span_file, sizeof span_file, &result.length, &result.offset);
    expect_status("write, a row with a tolerance", status, 0);
}

static void fill_span(void) {
    memset(span_counts, 0xA5, sizeof span_counts);
    memset(span_words, 0xA5, sizeof span_words);
    memset(span_least, 0xA5, sizeof span_least);
    memset(span_greatest, 0xA5, sizeof span_greatest);
}

/* Buffers of these lengths, NULL where a length is 0, all full of one byte before the call. */
static uint32_t tolerance(size_t file_length, size_t u, size_t c, size_t w, size_t l, size_t g) {
    fill_span();
    return icemedian_tolerance(file_length ? span_file : NULL, file_length, u ? span_upper : NULL, u,
                               c ? span_counts : NULL, c, w ? span_words : NULL, w, l ? span_least : NULL, l,
                               g ? span_greatest : NULL, g, &result.least_shifts, &result.greatest_shifts,
                               &result.offset);
}

/* A refusal, and that no buffer is touched. */
static void expect_refused(const char *what, uint32_t status, uint32_t number) {
    static uint8_t filled[sizeof span_counts + sizeof span_words];
    memset(filled, 0xA5, sizeof filled);
    expect_status(what, status, number);
    expect("counts left", memcmp(span_counts, filled, sizeof span_counts) == 0, 1);
    expect("words left", memcmp(span_words, filled, sizeof span_words) == 0, 1);
    expect("least left", memcmp(span_least, filled, sizeof span_least) == 0, 1);
    expect("greatest left", memcmp(span_greatest, filled, sizeof span_greatest) == 0, 1);
}

/* Upper levels with one of them changed. */
static uint32_t tolerance_with(size_t pixel, uint16_t level) {
    static const uint16_t upper[SPANNED + 1] = {6, 1, 5, 4, 7, 7};
    memcpy(span_upper, upper, sizeof upper);
    span_upper[pixel] = level;
    return tolerance(sizeof span_file, SPANNED, SPAN_COUNTS, SPAN_WORDS, SPANNED, SPANNED);
}

static void expect_bounds(const uint16_t *least, uint64_t least_shifts, const uint16_t *greatest, uint64_t greatest_shifts,
                          uint32_t status) {
    size_t pixel;
    expect("its least shifts", result.least_shifts == least_shifts, 1);
    expect("its greatest shifts", result.greatest_shifts == greatest_shifts, 1);
    expect_status("tolerance", status, 0);
    for (pixel = 0; pixel < SPANNED; pixel++) expect("its least level", span_least[pixel], least[pixel]);
    for (pixel = 0; pixel < SPANNED; pixel++) expect("its greatest level", span_greatest[pixel], greatest[pixel]);
    expect("beyond least", span_least[SPANNED], 0xA5A5);
    expect("beyond greatest", span_greatest[SPANNED], 0xA5A5);
    expect("beyond counts", span_counts[SPAN_COUNTS], 0xA5A5);
    expect("beyond words", memcmp(span_words + SPAN_WORDS, &untouched, sizeof *span_words) == 0, 1);
}

/* The least and the greatest answers, and the stores of the upper levels' last window: 4 and 7, of guides 1 and 3. */
static void test_bounds(void) {
    static const uint16_t least[SPANNED] = {1, 3, 2, 3, 7}, greatest[SPANNED] = {1, 5, 4, 5, 7};
    size_t cell, counted = 0;
    write_spanned(ICEMEDIAN_TABLE);
    expect_bounds(least, 9, greatest, 9, tolerance_with(0, 6));
    for (cell = 0; cell < SPAN_COUNTS; cell++) counted += span_counts[cell];
    expect("what it counts", counted == 2, 1);
    expect("its upper reading", span_counts[4 * GUIDES + 1], 1);
    expect("its other reading", span_counts[7 * GUIDES + 3], 1);
    expect("its upper reading's word", span_words[4] == 2 && span_words[2] == 0, 1);
    memcpy(span_upper, span_values, sizeof span_values);
    expect_bounds(least, 9, least, 9, tolerance(sizeof span_file, SPANNED, SPAN_COUNTS + 1, SPAN_WORDS + 1, SPANNED + 1,
                                                SPANNED + 1));
}

/* Three dead pixels beside two that weigh nothing: no reading in the first two windows, hollow ones then. */
static uint32_t tolerance_dead(uint16_t first, uint16_t last) {
    uint16_t upper[ROW] = {DEAD, DEAD, DEAD, 6, 7};
    upper[0] = first, upper[4] = last;
    fill_span();
    return icemedian_tolerance(dead_file, dead_bytes, upper, ROW, span_counts, SPAN_COUNTS, span_words, SPAN_WORDS,
                               span_least, ROW, span_greatest, ROW, &result.least_shifts, &result.greatest_shifts,
                               &result.offset);
}

static void test_bounds_dead(void) {
    static const uint16_t value[ROW] = {DEAD, DEAD, DEAD, 5, 2}, picture[ROW] = {0, 0, 0, 0, 0}, none[4] = {0, 0, 0, 0};
    static const uint16_t least[ROW] = {DEAD, DEAD, 5, 2, 2}, greatest[ROW] = {DEAD, DEAD, 6, 6, 6};
    uint32_t status = icemedian_write(ROW, 1, LEVELS, 2, ICEMEDIAN_TABLE, 1, 0, value, ROW, picture, ROW, none, 4, dead_file,
                                      sizeof dead_file, &result.length, &result.offset);
    dead_bytes = ICEMEDIAN_FILE_LENGTH(ROW, 1, 4);
    expect_status("write, dead pixels under a table", status, 0);
    expect_bounds(least, 8, greatest, 6, tolerance_dead(DEAD, 7));
    expect_refused("tolerance, an upper level for a dead pixel", tolerance_dead(7, 7), 13);
    expect_refused("tolerance, none for a reading", tolerance_dead(DEAD, DEAD), 13);
}

static void test_tolerance_refused(void) {
    const size_t f = sizeof span_file, u = SPANNED, c = SPAN_COUNTS, w = SPAN_WORDS;
    expect_refused("tolerance, no file", tolerance(0, u, c, w, u, u), 1);
    expect_refused("tolerance, no mark", tolerance(f - 1, 0, 0, 0, 0, 0), 1);
    expect_refused("tolerance, no upper levels", tolerance(f, 0, c, w, u, u), 13);
    expect_refused("tolerance, no upper levels and no room", tolerance(f, 0, 0, 0, 0, 0), 13);
    expect_refused("tolerance, an upper level too few", tolerance(f, u - 1, c, w, u, u), 13);
    expect_refused("tolerance, an upper level too many", tolerance(f, u + 1, c, w, u, u), 13);
    expect_refused("tolerance, no counts", tolerance(f, u, 0, w, u, u), 11);
    expect_refused("tolerance, no words", tolerance(f, u, c, 0, u, u), 11);
    expect_refused("tolerance, no least", tolerance(f, u, c, w, 0, u), 11);
    expect_refused("tolerance, no greatest", tolerance(f, u, c, w, u, 0), 11);
    expect_refused("tolerance, a greatest too short", tolerance(f, u, c, w, u, u - 1), 11);
    expect_refused("tolerance, an upper level below its reading", tolerance_with(2, 2), 13);
    expect_refused("tolerance, an upper level of 8", tolerance_with(4, LEVELS), 13);
    expect_refused("tolerance, a dead upper level", tolerance_with(1, ICEMEDIAN_NO_READING), 13);
    write_spanned(ICEMEDIAN_GUIDED);
    expect_refused("tolerance, kind 2", tolerance(f, u, c, w, u, u), 8);
    expect_refused("tolerance, kind 2, nothing else", tolerance(f, 0, 0, 0, 0, 0), 8);
}

/* Numbers whose two bytes are alike are the same in the file and in memory: the value plane is the upper plane too. */
static void test_tolerance_overlap(void) {
    static const uint16_t value[2] = {257, 514}, picture[2] = {0, 0};
    static uint16_t shared[ICEMEDIAN_FILE_LENGTH(2, 1, 0) / 2];
    static uint16_t many[ICEMEDIAN_COUNTS_LENGTH(1024, 2)];
    static uint64_t bits[ICEMEDIAN_WORDS_LENGTH(1024, 2)];
    void *start = shared;
#ifdef __cplusplus
    uint8_t *bytes = static_cast<uint8_t *>(start);
#else
    uint8_t *bytes = start;
#endif
    uint32_t status = icemedian_write(2, 1, 1024, 2, ICEMEDIAN_TABLE, 0, 0, value, 2, picture, 2, NULL, 0, bytes,
                                      sizeof shared, &result.length, &result.offset);
    expect_status("write, to where numbers are", status, 0);
    status = icemedian_tolerance(bytes, sizeof shared, shared, 2, many, sizeof many / sizeof *many, bits,
                                 sizeof bits / sizeof *bits, span_least, 2, span_greatest, 2, &result.least_shifts,
                                 &result.greatest_shifts, &result.offset);
    expect_status("tolerance, upper levels within the file", status, 0);
    expect("its least", span_least[0] == 257 && span_least[1] == 514, 1);
    expect("its greatest", span_greatest[0] == 257 && span_greatest[1] == 514, 1);
}

/* A file that may only be read: a byte that is no part's, values 0102 0304 0203, their guides, a table, another such
 * byte, the trailer. Then the same file split. */
enum { MOVED = 50 };
#define MOVED_GUIDES 0, 0, 0, 1, 0, 0
#define MOVED_TABLE 0, 9, 0, 8, 0, 7, 0, 6
#define MOVED_TRAILER 0, 3, 0, 1, 4, 0, 0, 2, 1, 1, 0, 0, 0, 0, 0, 21, 0, 0, 0, 15, 0, 0, 0, 9, 0x49, 0x43, 0x45, 0x31
#define MOVED_REST MOVED_GUIDES, MOVED_TABLE, 0x66, MOVED_TRAILER
static const uint8_t moved[MOVED] = {0x77, 1, 2, 3, 4, 2, 3, MOVED_REST};
static const uint8_t moved_split[MOVED] = {0x77, 1, 3, 2, 2, 4, 3, MOVED_REST};
static uint8_t moved_output[MOVED + 1], moved_wrong[MOVED];

/* An output of this length, NULL where it is 0, full of one byte before the call. */
static uint32_t split(const uint8_t *frame, size_t frame_length, size_t output_length) {
    memset(moved_output, 0xA5, sizeof moved_output);
    return icemedian_split(frame_length ? frame : NULL, frame_length, output_length ? moved_output : NULL,
                           output_length, &result.offset);
}

static uint32_t join(const uint8_t *frame, size_t frame_length, size_t output_length) {
    memset(moved_output, 0xA5, sizeof moved_output);
    return icemedian_join(frame_length ? frame : NULL, frame_length, output_length ? moved_output : NULL,
                          output_length);
}

/* The whole output, and what lies beyond it. */
static void expect_moved(const char *what, uint32_t status, const uint8_t *wanted) {
    expect_status(what, status, 0);
    expect("its bytes", memcmp(moved_output, wanted, MOVED) == 0, 1);
    expect("beyond them", moved_output[MOVED], 0xA5);
}

static void expect_output_left(const char *what) {
    static uint8_t filled[sizeof moved_output];
    memset(filled, 0xA5, sizeof filled);
    expect(what, memcmp(moved_output, filled, sizeof filled) == 0, 1);
}

/* A refusal, and that no byte is written. */
static void expect_unmoved(const char *what, uint32_t status, uint32_t number) {
    expect_status(what, status, number);
    expect_output_left("its output left");
}

static void test_byte_planes(void) {
    static const uint8_t joined[MOVED] = {0x77, 1, 4, 2, 2, 3, 3, MOVED_REST};
    expect_moved("split", split(moved, MOVED, MOVED), moved_split);
    expect_moved("split, a longer output", split(moved, MOVED, MOVED + 1), moved_split);
    expect_moved("join", join(moved_split, MOVED, MOVED), moved);
    expect_moved("join, a longer output", join(moved_split, MOVED, MOVED + 1), moved);
    expect_moved("join, a file that is not split", join(moved, MOVED, MOVED), joined);
    expect_unmoved("split, no file", split(moved, 0, MOVED), 1);
    expect_unmoved("join, no file", join(moved, 0, MOVED), 1);
    expect_unmoved("split, no mark and no output", split(moved, MOVED - 1, 0), 1);
    expect_unmoved("join, no mark and no output", join(moved, MOVED - 1, 0), 1);
    expect_unmoved("split, no output", split(moved, MOVED, 0), 11);
    expect_unmoved("join, no output", join(moved, MOVED, 0), 11);
    expect_unmoved("split, an output too short", split(moved, MOVED, MOVED - 1), 11);
    expect_unmoved("join, an output too short", join(moved, MOVED, MOVED - 1), 11);
}

/* The last bytes of the guide plane's distance and of the table's. */
enum { GUIDE_DISTANCE = MOVED - 9, TABLE_DISTANCE = MOVED - 5 };

static void test_byte_planes_refused(void) {
    memcpy(moved_wrong, moved, sizeof moved);
    moved_wrong[1] = 4;
    expect_contents("split, value 1026", split(moved_wrong, MOVED, MOVED), 1);
    expect_output_left("its output left");
    expect_contents("split, value 1026, no output", split(moved_wrong, MOVED, 0), 1);
    expect_status("join, value 1026", join(moved_wrong, MOVED, MOVED), 0);
    expect_unmoved("join, value 1026, no output", join(moved_wrong, MOVED, 0), 11);
    moved_wrong[GUIDE_DISTANCE] = 16;
    expect_unmoved("split, a guide within the last value", split(moved_wrong, MOVED, MOVED), 14);
    expect_unmoved("join, a guide within the last value", join(moved_wrong, MOVED, MOVED), 14);
    expect_unmoved("split, such a guide, no output", split(moved_wrong, MOVED, 0), 14);
    expect_unmoved("join, such a guide, no output", join(moved_wrong, MOVED, 0), 14);
    moved_wrong[TABLE_DISTANCE] = 23;
    expect_unmoved("split, such a guide, a table before the file", split(moved_wrong, MOVED, MOVED), 6);
    expect_unmoved("join, such a guide, a table before the file", join(moved_wrong, MOVED, MOVED), 6);
    memcpy(moved_wrong, moved, sizeof moved);
    moved_wrong[TABLE_DISTANCE] = 16;
    expect_unmoved("split, a weight within the last value", split(moved_wrong, MOVED, MOVED), 14);
    expect_unmoved("join, a weight within the last value", join(moved_wrong, MOVED, MOVED), 14);
    moved_wrong[TABLE_DISTANCE] = 15;
    expect_status("split, a table from the guide plane's first byte", split(moved_wrong, MOVED, MOVED), 0);
    expect_status("join, a table from the guide plane's first byte", join(moved_wrong, MOVED, MOVED), 0);
}

/* Document 01's frame twice, end to end. */
enum { HALL = 2 * FILE_BYTES, HALL_COUNTS = 2 * COUNTS, HALL_WORDS = 2 * WORDS, HALL_PIXELS = 2 * PIXELS };
static uint8_t hall[HALL];
static uint16_t hall_counts[HALL_COUNTS + 1], hall_answers[HALL_PIXELS + 1];
static uint64_t hall_words[HALL_WORDS + 1];
static uint8_t hall_filled[sizeof hall_words];

/* Buffers of these lengths, NULL where one is 0, full of one byte before the call. */
static uint32_t hall_with(size_t files_length, const size_t *lengths, size_t file_count, const uint32_t *limits,
                          size_t period_count, size_t c, size_t w, size_t a) {
    memset(hall_counts, 0xA5, sizeof hall_counts);
    memset(hall_words, 0xA5, sizeof hall_words);
    memset(hall_answers, 0xA5, sizeof hall_answers);
    return icemedian_cameras(files_length ? hall : NULL, files_length, lengths, file_count, limits, period_count,
                             c ? hall_counts : NULL, c, w ? hall_words : NULL, w, a ? hall_answers : NULL, a,
                             &result.grants, &result.offset);
}

/* One period, and room for both files. */
static uint32_t hall_period(const size_t *lengths, size_t file_count, uint32_t limit) {
    return hall_with(HALL, lengths, file_count, &limit, 1, HALL_COUNTS + 1, HALL_WORDS + 1, HALL_PIXELS + 1);
}

static void expect_grants(const char *what, uint32_t status, uint64_t grants) {
    expect("its grants", result.grants == grants, 1);
    expect_status(what, status, 0);
}

/* That a place of each buffer, and all behind it, is as lent. */
static void expect_hall_left(size_t c, size_t w, size_t a) {
    memset(hall_filled, 0xA5, sizeof hall_filled);
    expect("counts left", memcmp(hall_counts + c, hall_filled, sizeof hall_counts - c * sizeof *hall_counts) == 0, 1);
    expect("words left", memcmp(hall_words + w, hall_filled, sizeof hall_words - w * sizeof *hall_words) == 0, 1);
    expect("answers left", memcmp(hall_answers + a, hall_filled, sizeof hall_answers - a * sizeof *hall_answers) == 0, 1);
}

static void expect_hall_refused(const char *what, uint32_t status, uint32_t number) {
    expect_status(what, status, number);
    expect_hall_left(0, 0, 0);
}

static const size_t hall_lengths[ICEMEDIAN_CAMERAS_MOST_FILES + 1] = {FILE_BYTES, FILE_BYTES};

static void test_cameras(void) {
    static const uint64_t middle[WORDS] = {0, 1, 0, 4, 0, 1, 0, 0};
    memcpy(hall, file, FILE_BYTES);
    memcpy(hall + FILE_BYTES, file, FILE_BYTES);
    expect_grants("cameras, no file and no period", hall_with(0, NULL, 0, NULL, 0, 0, 0, 0), 0);
    expect_grants("cameras, no period", hall_with(HALL, hall_lengths, 2, NULL, 0, HALL_COUNTS, HALL_WORDS, 6), 0);
    expect_hall_left(0, 0, 0);
    expect_grants("cameras, no grant", hall_period(hall_lengths, 2, 0), 0);
    expect_hall_left(0, 0, 0);
    expect_grants("cameras, one grant", hall_period(hall_lengths, 2, 1), 1);
    expect_hall_left(COUNTS, WORDS, 1);
    expect_grants("cameras, three grants", hall_period(hall_lengths, 2, 3), 3);
    expect_hall_left(HALL_COUNTS, HALL_WORDS, PIXELS + 1);
    expect("its answers", hall_answers[0] == 1 && hall_answers[1] == 3 && hall_answers[PIXELS] == 1, 1);
    expect("one that waits", hall_answers[2], 0xA5A5);
    expect("a count of the middle window", hall_counts[3 * GUIDES + 2], 1);
    expect("its words", memcmp(hall_words, middle, sizeof middle) == 0, 1);
    expect_grants("cameras, all", hall_period(hall_lengths, 2, ICEMEDIAN_CAMERAS_MOST_GRANTS), HALL_PIXELS);
    expect("its last answer", hall_answers[HALL_PIXELS - 1], 3);
    expect_hall_left(HALL_COUNTS, HALL_WORDS, HALL_PIXELS);
}

static void test_cameras_refused(void) {
    const size_t wrapping[2] = {ICEMEDIAN_SIZE(-1), HALL + 1}, none[2] = {0, HALL};
    const uint32_t one = 1, c = HALL_COUNTS, w = HALL_WORDS, a = HALL_PIXELS;
    expect_hall_refused("cameras, a limit of 4097", hall_period(hall_lengths, 2, 4097), 15);
    expect_hall_refused("cameras, a limit of 65536", hall_period(hall_lengths, 2, 65536), 15);
    expect_hall_refused("cameras, nine files", hall_period(hall_lengths, 9, 1), 15);
    expect_hall_refused("cameras, no lengths", hall_period(NULL, 0, 1), 15);
    expect_hall_refused("cameras, a length too few", hall_period(hall_lengths, 1, 1), 15);
    expect_hall_refused("cameras, lengths that wrap", hall_period(wrapping, 2, 1), 15);
    expect_hall_refused("cameras, no files", hall_with(0, hall_lengths, 2, &one, 1, 0, 0, 0), 15);
    expect_hall_refused("cameras, eight files, six of no byte", hall_period(hall_lengths, 8, 1), 1);
    expect_hall_refused("cameras, a first file of no byte", hall_period(none, 2, 1), 1);
    expect_hall_refused("cameras, no counts", hall_with(HALL, hall_lengths, 2, &one, 1, 0, w, a), 11);
    expect_hall_refused("cameras, no words", hall_with(HALL, hall_lengths, 2, &one, 1, c, 0, a), 11);
    expect_hall_refused("cameras, no answers", hall_with(HALL, hall_lengths, 2, &one, 1, c, w, 0), 11);
    expect_hall_refused("cameras, a count too few", hall_with(HALL, hall_lengths, 2, &one, 1, c - 1, w, a), 11);
    expect_hall_refused("cameras, a word too few", hall_with(HALL, hall_lengths, 2, &one, 1, c, w - 1, a), 11);
    expect_hall_refused("cameras, an answer too few", hall_with(HALL, hall_lengths, 2, NULL, 0, c, w, a - 1), 11);
    hall[FILE_BYTES + 3] = LEVELS;
    expect_contents("cameras, a second file with value 8", hall_with(HALL, hall_lengths, 2, &one, 1, 0, 0, 0), 2);
    expect_hall_left(0, 0, 0);
    expect_hall_refused("cameras, value 8 and a limit of 4097", hall_period(hall_lengths, 2, 4097), 15);
}

static void test_wide(void) {
    expect_status("filter, way 257", filter(FILE_BYTES, 257, COUNTS, WORDS, NUMBERS, BLOCKS, PIXELS), 8);
    expect_status("walk, way 257", walk(FILE_BYTES, 257, 2, COUNTS, WORDS, NUMBERS, BLOCKS, 3), 8);
    expect_status("balance, level 65537", balance(FILE_BYTES, 65537), 9);
    expect_status("explain, column 65536", explain(file, FILE_BYTES, 65536, 0), 9);
    expect_status("write, width 65539", write_ints(65539, H, LEVELS, GUIDES, 2, RADIUS, SMOOTHING), 2);
    expect_status("write, width -1", write_ints(-1, H, LEVELS, GUIDES, 2, RADIUS, SMOOTHING), 2);
    expect_status("write, height 65537", write_ints(W, 65537, LEVELS, GUIDES, 2, RADIUS, SMOOTHING), 2);
    expect_status("write, levels 65544", write_ints(W, H, 65544, GUIDES, 2, RADIUS, SMOOTHING), 3);
    expect_status("write, guides 65540", write_ints(W, H, LEVELS, 65540, 2, RADIUS, SMOOTHING), 3);
    expect_status("write, kind 258", write_ints(W, H, LEVELS, GUIDES, 258, RADIUS, SMOOTHING), 4);
    expect_status("write, smoothing 65537", write_ints(W, H, LEVELS, GUIDES, 2, RADIUS, 65537), 4);
    expect_status("write, kind 1, smoothing 65536", write_ints(W, H, LEVELS, GUIDES, 1, RADIUS, 65536), 4);
    expect_status("write, radius 257", write_ints(W, H, LEVELS, GUIDES, 2, 257, SMOOTHING), 5);
}

static void test_macros(void) {
    expect("version, major", ICEMEDIAN_VERSION_MAJOR, 0);
    expect("version, minor", ICEMEDIAN_VERSION_MINOR, 11);
    expect("no reading", ICEMEDIAN_NO_READING, 65535);
    expect("most files", ICEMEDIAN_CAMERAS_MOST_FILES, 8);
    expect("most grants", ICEMEDIAN_CAMERAS_MOST_GRANTS, 4096);
    expect("width", ICEMEDIAN_WIDTH(file, FILE_BYTES), W);
    expect("height", ICEMEDIAN_HEIGHT(file, FILE_BYTES), H);
    expect("levels", ICEMEDIAN_LEVELS(file, FILE_BYTES), LEVELS);
    expect("guides", ICEMEDIAN_GUIDES(file, FILE_BYTES), GUIDES);
    expect("kind", ICEMEDIAN_KIND(file, FILE_BYTES), ICEMEDIAN_GUIDED);
    expect("radius", ICEMEDIAN_RADIUS(file, FILE_BYTES), RADIUS);
    expect("smoothing", ICEMEDIAN_SMOOTHING(file, FILE_BYTES), SMOOTHING);
    expect("counts", ICEMEDIAN_COUNTS_LENGTH(LEVELS, 65), LEVELS * 65);
    expect("words", ICEMEDIAN_WORDS_LENGTH(LEVELS, 65), LEVELS * 2);
    expect("columns", ICEMEDIAN_COLUMNS_LENGTH(W, LEVELS), NUMBERS);
    expect("chain", ICEMEDIAN_CHAIN_LENGTH(RADIUS), 1 + 4 * 9);
    expect("summary", ICEMEDIAN_SUMMARY_LENGTH(LEVELS), BLOCKS);
    expect("summary, whole blocks", ICEMEDIAN_SUMMARY_LENGTH(1024), 64);
    expect("summary, a short block", ICEMEDIAN_SUMMARY_LENGTH(33), 3);
    expect("answers", ICEMEDIAN_ANSWERS_LENGTH(2), 3);
    expect("output", ICEMEDIAN_OUTPUT_LENGTH(W, H), PIXELS);
    expect("file", ICEMEDIAN_FILE_LENGTH(W, H, 0), FILE_BYTES);
    expect("file with a table", ICEMEDIAN_FILE_LENGTH(W, H, 16), FILE_BYTES + 32);
}

int main(void) {
    memset(&untouched, 0xA5, sizeof untouched);
    memcpy(&result, &untouched, sizeof result);
    expect_status("write, built-in weights", write_ints(W, H, LEVELS, GUIDES, ICEMEDIAN_TABLE, RADIUS, 0), 0);
    expect_status("write", write_parts(PIXELS, PIXELS, FILE_BYTES), 0);
    expect_status("check", icemedian_check(file, FILE_BYTES, &result.offset), 0);
    test_null();
    test_overlap();
    test_weights();
    test_coarse();
    test_lamp();
    test_explain();
    test_dead_b();
    test_empty();
    test_no_reading();
    test_bounds();
    test_bounds_dead();
    test_tolerance_refused();
    test_tolerance_overlap();
    test_byte_planes();
    test_byte_planes_refused();
    test_cameras();
    test_cameras_refused();
    test_wide();
    test_macros();
    return failures != 0;
}
