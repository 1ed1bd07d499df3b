/* The filter library of a bore reader, for C99 and C++. Link with target/staticlib/libbore.a.
 *
 * Every call returns a number: 0 where it is accepted, else the refusal of document 01 or 02 (enum
 * bore_refusal). A call looks at its arguments in the order that its comment names, returns the first number
 * that applies, and then has written nothing. The exceptions are fields that stand beside the number: a
 * refused bore_start leaves a state of zeros, a refused bore_push or bore_drain a count of 0, a refused
 * bore_read_job a job of zeros. No call keeps a pointer, allocates memory or waits, so calls on different
 * memory may run at the same time. A call needs less than 64 KiB of stack. bore_moments and
 * bore_sample_mean divide floats, in the default floating-point environment.
 *
 * A slice is a pointer and, behind it, the number of its elements: `pixels` and `pixels_len`. A null pointer
 * is allowed with length 0 and only there. Every other pointer is to a whole object and is never null.
 * Pointers are aligned as their type asks.
 *
 * What a call can write (every pointer without const, over its whole length) may not overlap anything else
 * that the call is lent. What it only reads may overlap what it only reads.
 *
 * Words. A cascade is a list of box widths along one axis; a filter (document 01: a recipe) is a cascade for
 * the rows and one for the columns. A box of width n has n coefficients 1, and the coefficients of a cascade
 * are those of its boxes convolved: R along the rows, C along the columns. The order (reach) of a cascade is
 * the sum of its widths less 1 each, so that it has order + 1 coefficients. The weight of a filter is the
 * product of all its widths.
 *
 * A picture of width by height pixels grows to full_width by full_height, each side by the order of its axis;
 * the grown size is their product. The exact sum at grown column i and row j is the sum of R[a] times C[b]
 * times the pixel at column i - a and row j - b, over all a and b. A pixel outside the picture is 0. Pictures
 * and sums stand row by row, columns and rows are counted from 0.
 *
 * For a place of the picture, column x and row y, the grown sum at x plus half the rows' order and y plus half
 * the columns' order is taken, both halves downwards. The inside weight of the place (document 02) is the sum
 * that is taken there for a picture of the same sides whose pixels are all 1: what of the weight falls on the
 * picture, from 1 up to the whole weight. Greys, leftovers and quotients of a place (bore_blur,
 * bore_sample_gray, bore_sample_mean) are by its inside weight, so that a blur is as bright at the rim as
 * elsewhere: no grey of a place is below the least or above the greatest pixel, and raising any pixels lowers
 * none. bore_round and bore_difference are by the weight.
 *
 * Document 01, and of document 02 the fading ladder, the leftovers and the inside weight, stand as definitions
 * in crates/spec/specs. */
#ifndef BORE_H
#define BORE_H

#include <stddef.h>
#include <stdint.h>

#ifdef __cplusplus
#define BORE_RESTRICT __restrict
extern "C" {
#else
#define BORE_RESTRICT restrict
#endif

/* What a compiler is told, so that it can warn: a number must be used; which arguments are never null; which
 * argument is a slice that is read, written, or read and written, and which one is its length. */
#if defined(__GNUC__) || defined(__clang__)
#define BORE_CALL __attribute__((warn_unused_result)) uint8_t
#define BORE_NONNULL(...) __attribute__((nonnull(__VA_ARGS__)))
#else
#define BORE_CALL uint8_t
#define BORE_NONNULL(...)
#endif
#if defined(__GNUC__) && !defined(__clang__) && __GNUC__ >= 10
#define BORE_READS(slice, length) __attribute__((access(read_only, slice, length)))
#define BORE_WRITES(slice, length) __attribute__((access(write_only, slice, length)))
#define BORE_UPDATES(slice, length) __attribute__((access(read_write, slice, length)))
#else
#define BORE_READS(slice, length)
#define BORE_WRITES(slice, length)
#define BORE_UPDATES(slice, length)
#endif
#define BORE_STATIC_ASSERT(name, condition) typedef char bore_assert_##name[(condition) ? 1 : -1]

/* The most widths of a cascade, and the longest side of a picture. */
#define BORE_MOST_WIDTHS 48
#define BORE_MOST_SIDE 1024

/* The numbers. */
enum bore_refusal {
    BORE_ACCEPTED = 0,
    BORE_LIST_TOO_LONG = 1,
    BORE_ZERO_WIDTH = 2,
    BORE_REACH_TOO_FAR = 3,
    BORE_WEIGHT_TOO_LARGE = 4,
    BORE_BAD_SIDE = 5,
    BORE_OTHER_PIXELS = 6,
    BORE_OTHER_OUTPUT = 7,
    BORE_TOO_FEW_CELLS = 8,
    BORE_BAD_STATE = 9,
    BORE_ROW_NOT_DUE = 10,
    BORE_SUM_TOO_LARGE = 11,
    BORE_PARITY_DIFFERS = 12,
    BORE_PRODUCT_TOO_LARGE = 13,
    BORE_BAD_JOB = 14,
    BORE_OUTSIDE = 15,
    BORE_BAD_LEVEL = 16
};

/* What a number says, in words. */
static inline const char *bore_refusal_text(uint8_t number)
{
    switch (number) {
    case BORE_ACCEPTED: return "accepted";
    case BORE_LIST_TOO_LONG: return "a list is longer than 48 widths";
    case BORE_ZERO_WIDTH: return "a width is 0";
    case BORE_REACH_TOO_FAR: return "a reach is above 255";
    case BORE_WEIGHT_TOO_LARGE: return "the weight is above 2^44";
    case BORE_BAD_SIDE: return "a side of the picture is 0 or above 1024";
    case BORE_OTHER_PIXELS: return "the pixels are not as many as the row or the picture has";
    case BORE_OTHER_OUTPUT: return "an output has another length than the call asks for";
    case BORE_TOO_FEW_CELLS: return "there are fewer work cells than the call needs";
    case BORE_BAD_STATE: return "not a state: its recipe or sides would be refused, or more rows are yielded than there are";
    case BORE_ROW_NOT_DUE: return "a row when all are in, a drain before that, or a drain when all rows are out";
    case BORE_SUM_TOO_LARGE: return "a sum is above 255 times the weight";
    case BORE_PARITY_DIFFERS: return "the reaches of the two recipes differ in parity on an axis";
    case BORE_PRODUCT_TOO_LARGE: return "the product of the two weights is above 2^44";
    case BORE_BAD_JOB: return "the mark, the version or the length of the job is wrong";
    case BORE_OUTSIDE: return "the place is outside the picture";
    case BORE_BAD_LEVEL: return "the level is outside 1 to 8";
    default: return "no number of this library";
    }
}

/* A list of box widths along one axis. Only the first `count` widths have a meaning; a count above 48 is
 * refused by 1, in a state by 9. */
typedef struct bore_cascade {
    uint8_t count;
    uint8_t widths[BORE_MOST_WIDTHS];
} bore_cascade;

/* The widths of both axes (document 01: a recipe). Two filters whose bytes differ can be the same filter:
 * ask bore_equivalent. */
typedef struct bore_filter {
    bore_cascade rows;
    bore_cascade columns;
} bore_filter;

/* The state of the stream between two calls: the filter, the sides of the picture and the grown rows
 * yielded. Its filter and its words go to a call as two arguments. */
typedef struct bore_state_words {
    size_t width;
    size_t height;
    size_t emitted;
} bore_state_words;

typedef struct bore_state {
    bore_filter filter;
    bore_state_words words;
} bore_state;

/* What reading a job gives: the filter, the sides of the picture, and the offset in the file at which the
 * width times height pixels begin. */
typedef struct bore_job_words {
    size_t width;
    size_t height;
    size_t offset;
} bore_job_words;

typedef struct bore_job {
    bore_filter filter;
    bore_job_words words;
} bore_job;

BORE_STATIC_ASSERT(size_t, sizeof(size_t) == 8);
BORE_STATIC_ASSERT(double, sizeof(double) == 8);
BORE_STATIC_ASSERT(cascade, sizeof(bore_cascade) == 49);
BORE_STATIC_ASSERT(cascade_count, offsetof(bore_cascade, count) == 0);
BORE_STATIC_ASSERT(cascade_widths, offsetof(bore_cascade, widths) == 1);
BORE_STATIC_ASSERT(filter, sizeof(bore_filter) == 98);
BORE_STATIC_ASSERT(filter_rows, offsetof(bore_filter, rows) == 0);
BORE_STATIC_ASSERT(filter_columns, offsetof(bore_filter, columns) == 49);
BORE_STATIC_ASSERT(state_words, sizeof(bore_state_words) == 24);
BORE_STATIC_ASSERT(state_width, offsetof(bore_state_words, width) == 0);
BORE_STATIC_ASSERT(state_height, offsetof(bore_state_words, height) == 8);
BORE_STATIC_ASSERT(state_emitted, offsetof(bore_state_words, emitted) == 16);
BORE_STATIC_ASSERT(state, sizeof(bore_state) == 128);
BORE_STATIC_ASSERT(state_filter, offsetof(bore_state, filter) == 0);
BORE_STATIC_ASSERT(state_of_words, offsetof(bore_state, words) == 104);
BORE_STATIC_ASSERT(job_words, sizeof(bore_job_words) == 24);
BORE_STATIC_ASSERT(job_width, offsetof(bore_job_words, width) == 0);
BORE_STATIC_ASSERT(job_height, offsetof(bore_job_words, height) == 8);
BORE_STATIC_ASSERT(job_offset, offsetof(bore_job_words, offset) == 16);
BORE_STATIC_ASSERT(job, sizeof(bore_job) == 128);
BORE_STATIC_ASSERT(job_filter, offsetof(bore_job, filter) == 0);
BORE_STATIC_ASSERT(job_of_words, offsetof(bore_job, words) == 104);

/* Fills a cascade from a slice of widths, with zeros past them. Refuses more than 48 widths by 1 and then
 * writes nothing; what the widths are is for bore_check to say. The widths may lie in the cascade itself. */
BORE_NONNULL(1) BORE_READS(2, 3)
static inline BORE_CALL bore_set_cascade(bore_cascade *list, const uint8_t *widths, size_t widths_len)
{
    bore_cascade made = {0, {0}};
    if (widths_len > BORE_MOST_WIDTHS) {
        return BORE_LIST_TOO_LONG;
    }
    while (made.count < widths_len) {
        made.widths[made.count] = widths[made.count];
        made.count++;
    }
    *list = made;
    return BORE_ACCEPTED;
}

/* Fills a filter from the widths along the rows and those along the columns, in the same way. Either may lie
 * in the filter itself. */
BORE_NONNULL(1) BORE_READS(2, 3) BORE_READS(4, 5)
static inline BORE_CALL bore_set_filter(bore_filter *filter, const uint8_t *rows, size_t rows_len,
                                        const uint8_t *columns, size_t columns_len)
{
    bore_filter made;
    uint8_t number = bore_set_cascade(&made.rows, rows, rows_len);
    if (number == BORE_ACCEPTED) {
        number = bore_set_cascade(&made.columns, columns, columns_len);
    }
    if (number == BORE_ACCEPTED) {
        *filter = made;
    }
    return number;
}

/* Each comment below says what a call takes, the numbers by which it refuses, in their order, what it writes
 * where it is accepted, and which of its arguments may not overlap any other. */

/* ---- Calls on a filter ---- */

/* Whether a filter is accepted.
 * Takes: a filter.
 * Refuses: 1, 2, 3, 4.
 * Writes: nothing. */
BORE_NONNULL(1)
BORE_CALL bore_check(const bore_filter *block);

/* The coefficients of one cascade.
 * Takes: a cascade, and room for its coefficients.
 * Refuses: 1, 2, 3, 4 for the cascade with none on the other axis; 7 unless out_len is its order + 1.
 * Writes: all of out.
 * Overlaps nothing: out. */
BORE_NONNULL(1) BORE_WRITES(2, 3)
BORE_CALL bore_kernel(const bore_cascade *list, uint64_t *BORE_RESTRICT out, size_t out_len);

/* The sides of the grown picture.
 * Takes: a filter and the sides of a picture.
 * Refuses: 1, 2, 3, 4; 5 unless both sides are from 1 to 1,024.
 * Writes: full_width and full_height.
 * Overlaps nothing: full_width, full_height. */
BORE_NONNULL(1, 4, 5)
BORE_CALL bore_full_size(const bore_filter *block, size_t width, size_t height,
                         size_t *BORE_RESTRICT full_width, size_t *BORE_RESTRICT full_height);

/* How many work cells the stream needs: those of the rows' widths, and the grown width times those of the
 * columns' widths, where a width of 1 has no cell, a width of 2 one, and a wider one as many as it is wide.
 * Takes: a filter and the width of a picture.
 * Refuses: 1, 2, 3, 4; 5 unless the width is from 1 to 1,024.
 * Writes: cells.
 * Overlaps nothing: cells. */
BORE_NONNULL(1, 3)
BORE_CALL bore_stream_cells(const bore_filter *block, size_t width, size_t *BORE_RESTRICT cells);

/* The scale card: the weight, the order of each axis, and its variance, which is the sum of n * n - 1 over its
 * widths n, divided by 12.
 * Takes: a filter.
 * Refuses: 1, 2, 3, 4.
 * Writes: all five values.
 * Overlaps nothing: weight, row_order, column_order, row_variance, column_variance. */
BORE_NONNULL(1, 2, 3, 4, 5, 6)
BORE_CALL bore_moments(const bore_filter *block, uint64_t *BORE_RESTRICT weight,
                       size_t *BORE_RESTRICT row_order, size_t *BORE_RESTRICT column_order,
                       double *BORE_RESTRICT row_variance, double *BORE_RESTRICT column_variance);

/* Whether two filters are the same: whether on every picture they give the same grown size, weight and sums.
 * Takes: two filters.
 * Refuses: 1, 2, 3, 4 of a; 1, 2, 3, 4 of b.
 * Writes: same, 1 where they are and else 0.
 * Overlaps nothing: same. */
BORE_NONNULL(1, 2, 3)
BORE_CALL bore_equivalent(const bore_filter *a, const bore_filter *b, uint8_t *BORE_RESTRICT same);

/* ---- All sums of a picture ----
 *
 * Three ways to the same sums: bore_direct forms each as it is defined, slowly for wide filters; bore_passes
 * runs one width after another over the whole grown picture; the stream works row after row, with few cells. */

/* Every exact sum, as it is defined.
 * Takes: a filter, a picture, room for the coefficients of both axes and for the sums.
 * Refuses: 1, 2, 3, 4; 5 unless both sides are from 1 to 1,024; 6 unless pixels_len is width times height;
 * 7 unless row_kernel_len is the rows' order + 1, column_kernel_len the columns' order + 1, and out_len the
 * grown size.
 * Writes: the coefficients of both axes, and all sums into out.
 * Overlaps nothing: row_kernel, column_kernel, out. */
BORE_NONNULL(1) BORE_READS(4, 5) BORE_WRITES(6, 7) BORE_WRITES(8, 9) BORE_WRITES(10, 11)
BORE_CALL bore_direct(const bore_filter *block, size_t width, size_t height,
                      const uint8_t *pixels, size_t pixels_len,
                      uint64_t *BORE_RESTRICT row_kernel, size_t row_kernel_len,
                      uint64_t *BORE_RESTRICT column_kernel, size_t column_kernel_len,
                      uint64_t *BORE_RESTRICT out, size_t out_len);

/* The same sums, width after width over the whole grown picture.
 * Takes: a filter, a picture, room for the sums, and work cells.
 * Refuses: 1, 2, 3, 4; 5 unless both sides are from 1 to 1,024; 6 unless pixels_len is width times height;
 * 7 unless out_len is the grown size; 8 where cells_len is below the grown size.
 * Writes: all sums into out. The first cells, as many as the grown size, then hold anything; those beyond
 * are left.
 * Overlaps nothing: out, cells. */
BORE_NONNULL(1) BORE_READS(4, 5) BORE_WRITES(6, 7) BORE_WRITES(8, 9)
BORE_CALL bore_passes(const bore_filter *block, size_t width, size_t height,
                      const uint8_t *pixels, size_t pixels_len,
                      uint64_t *BORE_RESTRICT out, size_t out_len,
                      uint64_t *BORE_RESTRICT cells, size_t cells_len);

/* ---- The fading ladder ----
 *
 * Blurs that widen by about half an octave (document 02). Level 1 has the widths 2, 3, 4, and levels 2 to 8
 * add 6, 8, 12, 16, 24, 32, 48 in turn, so that an axis with a level's widths grows by 6, 11, 18, 29, 44, 67,
 * 98 or 145. The sums are those that bore_passes gives for a filter of these widths; each level is worked
 * from the sums of the level below by its one new width. */

/* Every exact sum of a level with its widths along the rows and none along the columns.
 * Takes: a level, a picture, room for the sums, and work cells.
 * Refuses: 16 unless the level is from 1 to 8; 5 unless both sides are from 1 to 1,024; 6 unless pixels_len is
 * width times height; 7 unless out_len is the grown size; 8 where cells_len is below the grown size.
 * Writes: all sums into out. The first cells, as many as the grown size, then hold anything; those beyond
 * are left.
 * Overlaps nothing: out, cells. */
BORE_READS(4, 5) BORE_WRITES(6, 7) BORE_WRITES(8, 9)
BORE_CALL bore_ladder_rows(size_t level, size_t width, size_t height,
                           const uint8_t *pixels, size_t pixels_len,
                           uint64_t *BORE_RESTRICT out, size_t out_len,
                           uint64_t *BORE_RESTRICT cells, size_t cells_len);

/* Every exact sum of a level with its widths along the rows and along the columns.
 * Takes: a level, a picture, room for the sums, and work cells.
 * Refuses: 16 unless the level is from 1 to 8; 4 for levels 6 to 8, which are too heavy; 5 unless both sides
 * are from 1 to 1,024; 6 unless pixels_len is width times height; 7 unless out_len is the grown size; 8 where
 * cells_len is below the grown size.
 * Writes: as bore_ladder_rows does.
 * Overlaps nothing: out, cells. */
BORE_READS(4, 5) BORE_WRITES(6, 7) BORE_WRITES(8, 9)
BORE_CALL bore_ladder_both(size_t level, size_t width, size_t height,
                           const uint8_t *pixels, size_t pixels_len,
                           uint64_t *BORE_RESTRICT out, size_t out_len,
                           uint64_t *BORE_RESTRICT cells, size_t cells_len);

/* ---- The stream ----
 *
 * After an accepted bore_start, `height` calls of bore_push, each with the next row of the picture, and then
 * as many of bore_drain as the columns' order yield the grown rows from the first to the last. Each call gets
 * the state and the cells as the one before left them; a refused call in between changes neither. With a state
 * or cells that others have altered a call is as safe, and its sums need not be those of the picture. */

/* Starts the stream: sets the needed cells to zero and fills in the state.
 * Takes: a filter, the sides of a picture, work cells, and a state, as its filter and its words.
 * Refuses: 1, 2, 3, 4; 5 unless both sides are from 1 to 1,024; 8 where cells_len is below what
 * bore_stream_cells tells.
 * Writes: the needed cells, all of state (the filter, byte by byte) and words; cells beyond the needed ones
 * are left. A refusal leaves the cells and writes a state of zeros, which the next call refuses by 9.
 * Overlaps nothing: cells, state, words. To start with a state's own filter, copy that first. */
BORE_NONNULL(1, 6, 7) BORE_WRITES(4, 5)
BORE_CALL bore_start(const bore_filter *block, size_t width, size_t height,
                     uint64_t *BORE_RESTRICT cells, size_t cells_len,
                     bore_filter *BORE_RESTRICT state, bore_state_words *BORE_RESTRICT words);

/* Takes in the next row of the picture and yields a grown row.
 * Takes: a state, the row, room for the grown row, and the cells.
 * Refuses: 9 for a state whose filter or sides would be refused, or with more rows yielded than the grown
 * height; 10 where all rows of the picture are in; 6 unless pixels_len is the width; 7 unless out_len is the
 * grown width; 8 where cells_len is below what bore_stream_cells tells.
 * Writes: the grown row into out, the needed cells, words, and the count of additions and subtractions, which
 * is the grown width times the cost of all widths (a width of 1 costs 0, a width of 2 costs 1, a wider one 2);
 * cells beyond the needed ones are left. A refusal writes the count, 0, and leaves words, out and cells.
 * Overlaps nothing: words, out, cells, count. */
BORE_NONNULL(1, 2, 9) BORE_READS(3, 4) BORE_WRITES(5, 6) BORE_UPDATES(7, 8)
BORE_CALL bore_push(const bore_filter *state, bore_state_words *BORE_RESTRICT words,
                    const uint8_t *pixels, size_t pixels_len,
                    uint64_t *BORE_RESTRICT out, size_t out_len,
                    uint64_t *BORE_RESTRICT cells, size_t cells_len, uint64_t *BORE_RESTRICT count);

/* Yields a grown row when all rows of the picture are in, as if a black one had come.
 * Takes: a state, room for the grown row, and the cells.
 * Refuses: 9 as bore_push does; 10 before the last row of the picture is in and after the last grown row is
 * out; 7 unless out_len is the grown width; 8 where cells_len is below what bore_stream_cells tells.
 * Writes: as bore_push does.
 * Overlaps nothing: words, out, cells, count. */
BORE_NONNULL(1, 2, 7) BORE_WRITES(3, 4) BORE_UPDATES(5, 6)
BORE_CALL bore_drain(const bore_filter *state, bore_state_words *BORE_RESTRICT words,
                     uint64_t *BORE_RESTRICT out, size_t out_len,
                     uint64_t *BORE_RESTRICT cells, size_t cells_len, uint64_t *BORE_RESTRICT count);

/* ---- Greys, differences and readings ---- */

/* The greys of a row of sums: each sum over the weight, rounded to the nearest, a half upwards. And what
 * rounding left over: each sum less the weight times its grey, from minus half the weight to the weight less 1
 * and less half the weight, both halves downwards. The weight is that of the filter, wherever the sums come
 * from.
 * Takes: a filter, the sums, and room for the greys and for the leftovers.
 * Refuses: 1, 2, 3, 4; 7 unless out_len and leftovers_len are sums_len; 11 where a sum is above 255 times the
 * weight.
 * Writes: all of out and of leftovers.
 * Overlaps nothing: out, leftovers. */
BORE_NONNULL(1) BORE_READS(2, 3) BORE_WRITES(4, 5) BORE_WRITES(6, 7)
BORE_CALL bore_round(const bore_filter *block, const uint64_t *sums, size_t sums_len,
                     uint8_t *BORE_RESTRICT out, size_t out_len,
                     int64_t *BORE_RESTRICT leftovers, size_t leftovers_len);

/* The picture blurred in its own size: at each place the sum that is taken for it over the inside weight of
 * the place, rounded to the nearest, a half upwards. And what rounding left over: the sum less the inside
 * weight times the grey, from minus half the inside weight to the inside weight less 1 and less half the
 * inside weight, both halves downwards. The inside weight is the sum that is taken at the place for a picture
 * of the same sides whose pixels are all 1; where all coefficients fall on the picture it is the weight, and
 * grey and leftover are as bore_round has them.
 * Takes: a filter, a picture, room for the greys and for the leftovers, and work cells.
 * Refuses: 1, 2, 3, 4; 5 unless both sides are from 1 to 1,024; 6 unless pixels_len is width times height;
 * 7 unless out_len and leftovers_len are width times height; 8 where cells_len is below twice the grown size.
 * Writes: all of out and of leftovers. The first cells, twice the grown size of them, then hold anything;
 * those beyond are left.
 * Overlaps nothing: out, leftovers, cells. */
BORE_NONNULL(1) BORE_READS(4, 5) BORE_WRITES(6, 7) BORE_WRITES(8, 9) BORE_WRITES(10, 11)
BORE_CALL bore_blur(const bore_filter *block, size_t width, size_t height,
                    const uint8_t *pixels, size_t pixels_len,
                    uint8_t *BORE_RESTRICT out, size_t out_len,
                    int64_t *BORE_RESTRICT leftovers, size_t leftovers_len,
                    uint64_t *BORE_RESTRICT cells, size_t cells_len);

/* At each place of the picture the sum of a over its weight less the sum of b over its weight, rounded once
 * to the nearest, a half away from zero: from -255 to 255. The weights are those of the filters at every
 * place, at the rim too.
 * Takes: two filters, a picture, room for the differences, and work cells.
 * Refuses: 1, 2, 3, 4 of a; 1, 2, 3, 4 of b; 5 unless both sides are from 1 to 1,024; 6 unless pixels_len is
 * width times height; 7 unless out_len is width times height; 8 where cells_len is below twice both grown
 * sizes together; 12 where the orders differ in parity on an axis; 13 where the product of the weights is
 * above 2^44.
 * Writes: all of out. The first cells, twice both grown sizes of them, then hold anything; those beyond are
 * left.
 * Overlaps nothing: out, cells. */
BORE_NONNULL(1, 2) BORE_READS(5, 6) BORE_WRITES(7, 8) BORE_WRITES(9, 10)
BORE_CALL bore_difference(const bore_filter *a, const bore_filter *b, size_t width, size_t height,
                          const uint8_t *pixels, size_t pixels_len,
                          int16_t *BORE_RESTRICT out, size_t out_len,
                          uint64_t *BORE_RESTRICT cells, size_t cells_len);

/* The grey that bore_blur gives at one place, and its leftover, both by the inside weight of the place.
 * Takes: a filter, a picture, and a column and a row of it, counted from 0.
 * Refuses: 1, 2, 3, 4; 5 unless both sides are from 1 to 1,024; 6 unless pixels_len is width times height;
 * 15 for a place outside the picture.
 * Writes: gray and leftover.
 * Overlaps nothing: gray, leftover. */
BORE_NONNULL(1, 8, 9) BORE_READS(4, 5)
BORE_CALL bore_sample_gray(const bore_filter *block, size_t width, size_t height,
                           const uint8_t *pixels, size_t pixels_len,
                           size_t column, size_t row, uint8_t *BORE_RESTRICT gray,
                           int64_t *BORE_RESTRICT leftover);

/* The exact sum that bore_blur rounds at one place.
 * Takes and refuses: as bore_sample_gray does.
 * Writes: sum.
 * Overlaps nothing: sum. */
BORE_NONNULL(1, 8) BORE_READS(4, 5)
BORE_CALL bore_sample_sum(const bore_filter *block, size_t width, size_t height,
                          const uint8_t *pixels, size_t pixels_len,
                          size_t column, size_t row, uint64_t *BORE_RESTRICT sum);

/* The quotient of that sum and the inside weight of the place, by one rounded division.
 * Takes and refuses: as bore_sample_gray does.
 * Writes: mean.
 * Overlaps nothing: mean. */
BORE_NONNULL(1, 8) BORE_READS(4, 5)
BORE_CALL bore_sample_mean(const bore_filter *block, size_t width, size_t height,
                           const uint8_t *pixels, size_t pixels_len,
                           size_t column, size_t row, double *BORE_RESTRICT mean);

/* ---- Job files ---- */

/* What a job file says.
 * Takes: the bytes of the file, and a job, as its filter and its words.
 * Refuses: 14 for fewer than 7 bytes, another mark or another version; 1; 14 where lists or sides are cut
 * short; 2, 3, 4, 5; 14 for any other length.
 * Writes: all of block and words, with zeros past the counts. A refusal writes zeros throughout.
 * Overlaps nothing: block, words. */
BORE_NONNULL(3, 4) BORE_READS(1, 2)
BORE_CALL bore_read_job(const uint8_t *bytes, size_t bytes_len, bore_filter *BORE_RESTRICT block,
                        bore_job_words *BORE_RESTRICT words);

/* The length of a job file in bytes: 11, and one for each width and for each pixel.
 * Takes: a filter and the sides of a picture.
 * Refuses: 1, 2, 3, 4; 5 unless both sides are from 1 to 1,024.
 * Writes: size.
 * Overlaps nothing: size. */
BORE_NONNULL(1, 4)
BORE_CALL bore_job_size(const bore_filter *block, size_t width, size_t height, size_t *BORE_RESTRICT size);

/* The bytes of a job file.
 * Takes: a filter, a picture, and room for the file.
 * Refuses: 1, 2, 3, 4; 5 unless both sides are from 1 to 1,024; 6 unless pixels_len is width times height;
 * 7 unless out_len is what bore_job_size tells.
 * Writes: all of out.
 * Overlaps nothing: out. */
BORE_NONNULL(1) BORE_READS(4, 5) BORE_WRITES(6, 7)
BORE_CALL bore_write_job(const bore_filter *block, size_t width, size_t height,
                         const uint8_t *pixels, size_t pixels_len,
                         uint8_t *BORE_RESTRICT out, size_t out_len);

#ifdef __cplusplus
}
#endif

#endif
