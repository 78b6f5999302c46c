/* icemedian: weighted median filter for thermal frames of ice sheets, proved against document 01.
 *
 * Link with libicemedian_c.a. Every call works on the bytes of a whole frame, or of several, makes all checks
 * itself and keeps nothing between calls, so calls on different buffers may run at the same time.
 *
 * Every call returns a status: 0, or the number of the first check that fires.
 *
 *   Number  Given exactly if
 *   1       the file is under 28 bytes, or its mark is not 49 43 45 31 (hexadecimal)
 *   2       width or height is not 1 to 1,024, or their product is above 262,144
 *   3       the level count is not 2 to 1,024, or the guide count not 2 to 256
 *   4       the kind is not 1 or 2, or the smoothing not 0 (kind 1) or 1 to 65,025 (kind 2)
 *   5       the radius is above 15
 *   6       a plane or table does not lie in the bytes before the trailer: the distance of the value
 *           plane, of the guide plane, or a nonzero one of the table is shorter than the plane or table,
 *           or reaches before the file; or kind 2 has a table.
 *           In icemedian_write: the length of a plane is not width * height, or that of the table is
 *           neither 0 nor, in kind 1, guides * guides
 *   7       a value >= level count that is not 65,535 (no reading), or a guide >= guide count, searched in that
 *           order; `offset` is the byte offset of the first such number's high byte in the file, for
 *           icemedian_write the one that it would have, for icemedian_cameras within the one file that is refused.
 *           A weight may be any 16-bit number
 *   8       the way is not 1 to 4, or does not serve the kind (ways 2 and 3 serve kind 2 only).
 *           In icemedian_tolerance: the kind is 2
 *   9       the pixel is outside the picture, or the level of a balance outside the levels
 *   10      over 1,048,576 moves
 *   11      a store that the way uses, the answers or the output is too short.
 *           In icemedian_tolerance: counts, words or either output.
 *           In icemedian_split and icemedian_join: the output is shorter than the file.
 *           In icemedian_cameras: counts, words or answers is shorter than the parts of all files together
 *   13      the length of the upper plane is not width * height, a reading is above its upper level, an upper level
 *           that is not 65,535 is >= level count, or only one of a pixel's reading and upper level is 65,535;
 *           checked after 8 and before 11
 *   14      icemedian_split and icemedian_join alone: the guide plane or a table of the file's own has a byte in common
 *           with the value plane; checked after 6 and before 7
 *   15      icemedian_cameras alone: over 8 files, the lengths do not add up to `files_length` (by their true sum, never
 *           cut to a size_t), or a limit is above 4,096; checked before all else
 *
 * 12 is of the program icemedian alone.
 *
 * A refused call changes nothing that it was lent, buffer or result, but for `offset` with 7. A call that
 * is not refused writes all its results but `offset`: that is written with 7 and never else.
 *
 * Buffers may be longer than needed: what lies beyond the needed length is not touched, nor are the
 * stores of the other ways.
 *
 * Numbers come 32 bits wide, or as size_t, and are checked as they come: a way of 257 is refused with 8, a
 * width of 65,539 with 2, and a negative int like the large number that it becomes. Only what is wider than
 * that is cut down, by C and before the call.
 *
 * Pointers must be aligned for their type. A pointer may be NULL where its length is 0; pointers to
 * results (`shifts`, `least_shifts`, `greatest_shifts`, `grants`, `cut`, `balance_box`, `balance`, `pixels`, `total`,
 * `level`, `below`, `reached`, `cause`, `length`, `offset`) never. What is only read (`file`, `files`, `lengths`,
 * `limits`, `upper`, `moves`, `values`, `guide`, `table`) may overlap. Whatever is written (stores, `answers`,
 * `output`, `least`, `greatest`, every result) must overlap nothing else of the same call, nor one result another.
 */
#ifndef ICEMEDIAN_H
#define ICEMEDIAN_H

#include <stddef.h>
#include <stdint.h>

/* The interface's version. From 1.0 on MAJOR rises where a caller's program would have to change, MINOR
 * where something is added; while MAJOR is 0, MINOR rises for either.
 * 0.2: way, level and the settings of icemedian_write are 32 bits wide; a refused call leaves its results
 * as they were, and `offset` is written with 7 only.
 * 0.3: a weight may be any 16-bit number, 0 to 65,535; icemedian_check and icemedian_write refuse none.
 * 0.4: way 4, coarse; icemedian_filter and icemedian_walk take its summary, a store behind `numbers`.
 * 0.5: no call takes other arguments, but a window in which no pixel weighs anything is answered as if each pixel
 * weighed 1. Before, it gave the centre's level and balance 0, added nothing and left the cut point.
 * 0.6: icemedian_explain and its causes are new; nothing else changes.
 * 0.7: the stack that is enough for a call is said by macros; no call changes.
 * 0.8: no call takes other arguments, but a value of 65,535 means no reading, which 7 refused before, so that an
 * answer may be 65,535 too; ICEMEDIAN_NO_READING and the cause ICEMEDIAN_EMPTY are new.
 * 0.9: icemedian_tolerance and its number 13 are new; nothing else changes.
 * 0.10: icemedian_split, icemedian_join and their number 14 are new; nothing else changes.
 * 0.11: icemedian_cameras and its number 15 are new; nothing else changes. */
#define ICEMEDIAN_VERSION_MAJOR 0
#define ICEMEDIAN_VERSION_MINOR 11

#ifdef __cplusplus
#define ICEMEDIAN_SIZE(number) static_cast<size_t>(number)
extern "C" {
#else
#define ICEMEDIAN_SIZE(number) ((size_t)(number))
#endif

/* A value that is no reading: a dead pixel of the camera, in the value plane only. It belongs to no window: it counts,
 * weighs and adds nothing, and no store holds it. It may still be the pixel that is asked for: its own guide then
 * chooses the table's row or stands in kind 2's formula, and it gets the level of the readings around it. A window
 * without any reading answers ICEMEDIAN_NO_READING. */
enum { ICEMEDIAN_NO_READING = 65535 };

/* Ways of counting: all give the same answers. Ways 1 to 3 give the same shift count too. Way 4, made for
 * many levels, counts by a rule of its own: a window with answer m adds m / 16 (rounded down) plus m mod 16,
 * but m where kind 2's weight formula is negative for guide 0 or for the last guide. A window without a reading adds
 * nothing in any way. */
enum { ICEMEDIAN_JOINT = 1, ICEMEDIAN_COLUMNS = 2, ICEMEDIAN_CHAIN = 3, ICEMEDIAN_COARSE = 4 };

/* Kinds of weights: from a table (or built in), or from the guide by equation 22 of source 000. A table of the
 * file's own may leave a window in which no pixel weighs anything. Every call treats it as if each of its pixels
 * weighed 1: its answer is then their plain median (the lower one of two), and its balance and way 4's summary
 * count pixels. */
enum { ICEMEDIAN_TABLE = 1, ICEMEDIAN_GUIDED = 2 };

/* What sort of window icemedian_explain finds; exactly one applies. Hollow: no reading weighs anything, so that each
 * counts 1; only a table of the file's own leaves such windows. Negative: kind 2's weight formula is below 0 for
 * guide 0, or for the last guide, never for both; a pixel of such a guide counts against its own level, so that the
 * levels up to one may weigh less than those up to a lower one. Empty: no pixel has a reading; such a window is not
 * hollow. Ordinary: none of these, and no pixel weighs less than 0. */
enum {
    ICEMEDIAN_ORDINARY = 1,
    ICEMEDIAN_HOLLOW = 2,
    ICEMEDIAN_NEGATIVE_AT_ZERO = 3,
    ICEMEDIAN_NEGATIVE_AT_LAST = 4,
    ICEMEDIAN_EMPTY = 5
};

/* Move bytes, and the answers to a byte that moves nothing. ICEMEDIAN_NO_READING is none of these: it answers a move
 * that is made. */
enum { ICEMEDIAN_RIGHT = 0, ICEMEDIAN_LEFT = 1, ICEMEDIAN_DOWN = 2, ICEMEDIAN_UP = 3 };
enum { ICEMEDIAN_UNKNOWN_MOVE = 65533, ICEMEDIAN_OFF_PICTURE = 65534 };

/* A new frame's radius and smoothing, in kind 2, where nothing else is asked for. */
enum { ICEMEDIAN_DEFAULT_RADIUS = 7, ICEMEDIAN_DEFAULT_SMOOTHING = 64 };

/* Needed lengths, in elements. Way 1 needs counts and words, ways 2 and 3 need numbers, way 4 needs counts,
 * words and a summary: a number for each block of 16 levels, of which the last may be short. */
#define ICEMEDIAN_COUNTS_LENGTH(levels, guides) (ICEMEDIAN_SIZE(levels) * ICEMEDIAN_SIZE(guides))
#define ICEMEDIAN_WORDS_LENGTH(levels, guides) (ICEMEDIAN_SIZE(levels) * ((ICEMEDIAN_SIZE(guides) + 63) / 64))
#define ICEMEDIAN_COLUMNS_LENGTH(width, levels) (2 * (ICEMEDIAN_SIZE(width) + 1) * ICEMEDIAN_SIZE(levels))
#define ICEMEDIAN_CHAIN_LENGTH(radius) \
    (1 + 4 * (2 * ICEMEDIAN_SIZE(radius) + 1) * (2 * ICEMEDIAN_SIZE(radius) + 1))
#define ICEMEDIAN_SUMMARY_LENGTH(levels) ((ICEMEDIAN_SIZE(levels) + 15) / 16)
#define ICEMEDIAN_ANSWERS_LENGTH(moves) (ICEMEDIAN_SIZE(moves) + 1)
#define ICEMEDIAN_OUTPUT_LENGTH(width, height) (ICEMEDIAN_SIZE(width) * ICEMEDIAN_SIZE(height))
#define ICEMEDIAN_FILE_LENGTH(width, height, table_weights) \
    (4 * ICEMEDIAN_SIZE(width) * ICEMEDIAN_SIZE(height) + 2 * ICEMEDIAN_SIZE(table_weights) + 28)
#define ICEMEDIAN_BOX_LENGTH 256

/* The most files of icemedian_cameras, and the most grants of one period. Of its buffers a file's part takes
 * ICEMEDIAN_COUNTS_LENGTH counts, ICEMEDIAN_WORDS_LENGTH words and ICEMEDIAN_OUTPUT_LENGTH answers. */
#define ICEMEDIAN_CAMERAS_MOST_FILES 8
#define ICEMEDIAN_CAMERAS_MOST_GRANTS 4096

/* Settings of a file that icemedian_check accepts. */
#define ICEMEDIAN_TRAILER16(file, length, place) \
    ((file)[(length) - 28 + (place)] * 256u + (file)[(length) - 27 + (place)])
#define ICEMEDIAN_WIDTH(file, length) ICEMEDIAN_TRAILER16(file, length, 0)
#define ICEMEDIAN_HEIGHT(file, length) ICEMEDIAN_TRAILER16(file, length, 2)
#define ICEMEDIAN_LEVELS(file, length) ICEMEDIAN_TRAILER16(file, length, 4)
#define ICEMEDIAN_GUIDES(file, length) ICEMEDIAN_TRAILER16(file, length, 6)
#define ICEMEDIAN_KIND(file, length) ((file)[(length) - 20])
#define ICEMEDIAN_RADIUS(file, length) ((file)[(length) - 19])
#define ICEMEDIAN_SMOOTHING(file, length) ICEMEDIAN_TRAILER16(file, length, 10)

/* Stack in bytes that is enough for a call with all that it calls, as this library is compiled for x86-64: measured on
 * accepted frames of every way and kind that the call serves and rounded up, not proved. icemedian_write holds no
 * array: every byte goes straight to its place in `output`. */
#define ICEMEDIAN_FILTER_STACK 16384
#define ICEMEDIAN_TOLERANCE_STACK 16384
#define ICEMEDIAN_CAMERAS_STACK 16384
#define ICEMEDIAN_WALK_STACK 16384
#define ICEMEDIAN_EXPLAIN_STACK 16384
#define ICEMEDIAN_BALANCE_STACK 2048
#define ICEMEDIAN_CHECK_STACK 512
#define ICEMEDIAN_SPLIT_STACK 512
#define ICEMEDIAN_JOIN_STACK 256
#define ICEMEDIAN_WRITE_STACK 256

/* Checks 1 to 7. */
uint32_t icemedian_check(const uint8_t *file, size_t file_length, uint64_t *offset);

/* Filters a frame: checks 1 to 8 and 11. `output` gets a level for each pixel, row by row from the top
 * left, or ICEMEDIAN_NO_READING where the pixel's window has no reading; `shifts` the sum of level distances that the
 * cut point travelled along the serpentine, or way 4's own count. The way's stores hold the serpentine's last window,
 * as after a walk. */
uint32_t icemedian_filter(const uint8_t *file, size_t file_length, uint32_t way,
                          uint16_t *counts, size_t counts_length,
                          uint64_t *words, size_t words_length,
                          uint32_t *numbers, size_t numbers_length,
                          int64_t *summary, size_t summary_length,
                          uint16_t *output, size_t output_length,
                          uint64_t *shifts, uint64_t *offset);

/* Filters a frame of kind 1 whose readings are known within a tolerance: checks 1 to 8, 13 and 11, in this order. The
 * file's readings are the lower levels, `upper` has the upper ones, a 16-bit number for each pixel, row by row from the
 * top left; the two may be equal, and `upper` has ICEMEDIAN_NO_READING exactly where the file has. `least` and
 * `greatest` get a level for each pixel, or ICEMEDIAN_NO_READING where its window has no reading. Whatever the true
 * levels are between the two, the filter's answer lies between `least` and `greatest`, and both can happen: `least` is
 * what way 1 answers for the lower levels, `greatest` for the upper ones. `least_shifts` and `greatest_shifts` are the
 * shift counts of these two filters. The upper one is made last, and the stores hold its last window. */
uint32_t icemedian_tolerance(const uint8_t *file, size_t file_length,
                             const uint16_t *upper, size_t upper_length,
                             uint16_t *counts, size_t counts_length,
                             uint64_t *words, size_t words_length,
                             uint16_t *least, size_t least_length,
                             uint16_t *greatest, size_t greatest_length,
                             uint64_t *least_shifts, uint64_t *greatest_shifts, uint64_t *offset);

/* Filters up to 8 frames by turns, a pixel at a time, within the limits of control periods: check 15, then checks 1 to
 * 7 file by file in their order, then 11. The files lie end to end in `files`; `lengths` has the length of each in
 * bytes, and `limits` the most grants of each period, 0 to 4,096. There may be no file, and no period.
 * A grant answers one pixel, the next one of its frame's serpentine: row 0 rightward, row 1 leftward, and so on. It
 * goes to the next frame that has a pixel left, by rising number and from the last one round to the first, beginning
 * after the frame that was served last; the very first grant begins with file 0. A period makes as many grants as its
 * limit says, or fewer where every frame is finished; the next period goes on where it stopped. `grants` is how many
 * were made in all periods.
 * Each file has its own part of `counts`, `words` and `answers`; the parts lie end to end in the files' order. Where d
 * of a file's pixels were answered, the first d numbers of its answers are those of the serpentine, in its order and
 * not row by row, each a level or ICEMEDIAN_NO_READING, and the others stay as lent; its counts and words are way 1's
 * for the window of the last pixel answered, as icemedian_walk leaves them after d - 1 moves. With d = 0 all its parts
 * stay as lent. Which files lie beside it changes how many of its pixels are answered, never an answer. */
uint32_t icemedian_cameras(const uint8_t *files, size_t files_length,
                           const size_t *lengths, size_t file_count,
                           const uint32_t *limits, size_t period_count,
                           uint16_t *counts, size_t counts_length,
                           uint64_t *words, size_t words_length,
                           uint16_t *answers, size_t answers_length,
                           uint64_t *grants, uint64_t *offset);

/* Walks from a pixel along a list of moves: checks 1 to 11. `answers` gets the start's answer and then
 * one for each move byte: a level, ICEMEDIAN_NO_READING, or one of the two marks of a byte that moves nothing. The
 * way's stores hold the readings of the last window, way 2's columns those of its rows in all columns of the picture:
 * way 4's counts and words as way 1's, and `summary` the weight sum of each block. `cut` is the cut point there and
 * `balance_box`, of 256 cells, way 1's balance at it (zeros for the other ways). A window without a reading keeps the
 * cut point; where it is the last, its counts, words, sums and box are zeros and way 3's first node is 0. */
uint32_t icemedian_walk(const uint8_t *file, size_t file_length, uint32_t way,
                        size_t column, size_t row,
                        const uint8_t *moves, size_t moves_length,
                        uint16_t *counts, size_t counts_length,
                        uint64_t *words, size_t words_length,
                        uint32_t *numbers, size_t numbers_length,
                        int64_t *summary, size_t summary_length,
                        uint16_t *answers, size_t answers_length,
                        uint64_t *shifts, uint16_t *cut, int16_t *balance_box, uint64_t *offset);

/* The balance 2U(level) - T of the window at a pixel, T being its weight sum and U(level) that of its pixels of
 * level at most `level`: checks 1 to 7 and 9. It is 0 at every level where the window has no reading. */
uint32_t icemedian_balance(const uint8_t *file, size_t file_length,
                           size_t column, size_t row, uint32_t level,
                           int64_t *balance, uint64_t *offset);

/* Why a pixel has its level: checks 1 to 7 and 9. `pixels` is how many readings the window there has and `total` what
 * they weigh in all; `level` is the pixel's answer, as icemedian_filter and icemedian_walk give it; `below` is what
 * the pixels of lower levels weigh (0 for level 0) and `reached` the same with those of `level` itself. `cause` is what
 * sort of window it is. But for ICEMEDIAN_EMPTY always 2 * below < total <= 2 * reached; there `level` is
 * ICEMEDIAN_NO_READING, and `pixels` and all three sums are 0. Where it is hollow, the sums count pixels. In kind 2
 * `below` may be under 0 and `reached` above `total`. */
uint32_t icemedian_explain(const uint8_t *file, size_t file_length,
                           size_t column, size_t row,
                           size_t *pixels, int64_t *total, uint16_t *level, int64_t *below, int64_t *reached,
                           uint32_t *cause, uint64_t *offset);

/* Writes a frame without gaps: checks 2 to 7 and 11. A value is a level or ICEMEDIAN_NO_READING. A table has a row of
 * weights, 0 to 65,535 each, for each guide of the centre; one of length 0 means, in kind 1, the built-in weights.
 * `length` is the file's length in bytes. */
uint32_t icemedian_write(uint32_t width, uint32_t height, uint32_t levels, uint32_t guides,
                         uint32_t kind, uint32_t radius, uint32_t smoothing,
                         const uint16_t *values, size_t values_length,
                         const uint16_t *guide, size_t guide_length,
                         const uint16_t *table, size_t table_length,
                         uint8_t *output, size_t output_length,
                         size_t *length, uint64_t *offset);

/* Splits the value plane of a file into byte planes, which pack better: checks 1 to 6, 14, 7 and 11, in this order.
 * `output` gets the file's bytes, as many as it has, each in its place but for the value plane: there the high bytes of
 * all values come first, pixel by pixel, and then the low bytes. A split file has the frame's trailer and nothing marks
 * it, but its value plane holds no levels: join it before any other call. `output` must not be `file` itself. */
uint32_t icemedian_split(const uint8_t *file, size_t file_length,
                         uint8_t *output, size_t output_length, uint64_t *offset);

/* Joins the byte planes of a split file, so that `output` gets the very file that icemedian_split was handed: checks 1
 * to 6, 14 and 11, in this order. It does not look at what the planes hold, so 7 is never given, there is no `offset`,
 * and a file that is not split is rearranged all the same. */
uint32_t icemedian_join(const uint8_t *file, size_t file_length, uint8_t *output, size_t output_length);

#ifdef __cplusplus
}
#endif

#endif
