/* Works a job file with the library: prints its sums as the stream yields them, its blur, the reading in the
 * middle of the picture, and whether its recipe is the same as another one.
 *
 * Usage: wall JOB ROWS COLUMNS, the lists of the other recipe as widths with commas, - for an empty list.
 * A refusal is printed in words on standard error, and the status is then 1. */
#include "bore.h"

#include <inttypes.h>
#include <stdio.h>
#include <stdlib.h>
#include <string.h>

/* The most widths of a list as it is typed. */
#define MOST_TYPED 255

/* What is lent to the calls. */
struct buffers {
    uint64_t *cells;
    uint64_t *row;
    uint8_t *grays;
    int64_t *leftovers;
};

static void *reserve(size_t count, size_t size)
{
    void *memory = calloc(count ? count : 1, size);
    if (!memory) {
        fprintf(stderr, "wall: out of memory\n");
        exit(1);
    }
    return memory;
}

/* Prints a refusal in words; whether the call was accepted. */
static int accepted(const char *call, uint8_t number)
{
    if (number != BORE_ACCEPTED) {
        fprintf(stderr, "wall: %s: refused %u: %s\n", call, (unsigned)number, bore_refusal_text(number));
    }
    return number == BORE_ACCEPTED;
}

/* All bytes of a file, as many as `length` then says; null where it cannot be read. */
static uint8_t *read_file(const char *name, size_t *length)
{
    FILE *file = fopen(name, "rb");
    size_t room = 4096, got;
    uint8_t *bytes;
    if (!file) {
        return NULL;
    }
    bytes = reserve(room, 1);
    *length = 0;
    while ((got = fread(bytes + *length, 1, room - *length, file)) > 0) {
        *length += got;
        if (*length == room) {
            room *= 2;
            bytes = realloc(bytes, room);
            if (!bytes) {
                fprintf(stderr, "wall: out of memory\n");
                exit(1);
            }
        }
    }
    if (ferror(file)) {
        free(bytes);
        bytes = NULL;
    }
    fclose(file);
    return bytes;
}

/* The widths of a list as it is typed; 0 where it is none. */
static int read_list(const char *text, uint8_t *widths, size_t *count)
{
    *count = 0;
    if (strcmp(text, "-") == 0) {
        return 1;
    }
    for (;;) {
        char *end;
        unsigned long width = strtoul(text, &end, 10);
        if (*text < '0' || *text > '9' || width > 255 || *count == MOST_TYPED) {
            return 0;
        }
        widths[(*count)++] = (uint8_t)width;
        if (*end == '\0') {
            return 1;
        }
        if (*end != ',') {
            return 0;
        }
        text = end + 1;
    }
}

static void print_sums(const uint64_t *sums, size_t count)
{
    size_t i;
    for (i = 0; i < count; i++) {
        printf("%s%" PRIu64, i ? " " : "", sums[i]);
    }
    printf("\n");
}

/* Every grown row, by a push for each row of the picture and then by drains. */
static int print_stream(const bore_job *job, const uint8_t *pixels, const struct buffers *lent, size_t cells_len)
{
    size_t width = job->words.width, height = job->words.height, full_width, full_height, j;
    bore_state state;
    uint64_t count;
    if (!accepted("sizes", bore_full_size(&job->filter, width, height, &full_width, &full_height)) ||
        !accepted("start", bore_start(&job->filter, width, height, lent->cells, cells_len, &state.filter, &state.words))) {
        return 0;
    }
    for (j = 0; j < full_height; j++) {
        uint8_t number = j < height
            ? bore_push(&state.filter, &state.words, pixels + j * width, width, lent->row, full_width,
                        lent->cells, cells_len, &count)
            : bore_drain(&state.filter, &state.words, lent->row, full_width, lent->cells, cells_len, &count);
        if (!accepted("row", number)) {
            return 0;
        }
        print_sums(lent->row, full_width);
    }
    return 1;
}

static int print_blur(const bore_job *job, const uint8_t *pixels, const struct buffers *lent, size_t cells_len)
{
    size_t width = job->words.width, height = job->words.height, size = width * height, i;
    if (!accepted("blur", bore_blur(&job->filter, width, height, pixels, size, lent->grays, size,
                                    lent->leftovers, size, lent->cells, cells_len))) {
        return 0;
    }
    for (i = 0; i < size; i++) {
        printf("%u%s", (unsigned)lent->grays[i], (i + 1) % width ? " " : "\n");
    }
    return 1;
}

/* The grey with its leftover, the sum and the quotient in the middle of the picture. */
static int print_reading(const bore_job *job, const uint8_t *pixels)
{
    size_t width = job->words.width, height = job->words.height;
    size_t size = width * height, column = width / 2, row = height / 2;
    uint8_t gray;
    int64_t leftover;
    uint64_t sum;
    double mean;
    if (!accepted("grey", bore_sample_gray(&job->filter, width, height, pixels, size, column, row, &gray, &leftover)) ||
        !accepted("sum", bore_sample_sum(&job->filter, width, height, pixels, size, column, row, &sum)) ||
        !accepted("quotient", bore_sample_mean(&job->filter, width, height, pixels, size, column, row, &mean))) {
        return 0;
    }
    printf("at %zu %zu: sum %" PRIu64 ", grey %u, leftover %" PRId64 ", quotient %.17g\n",
           column, row, sum, (unsigned)gray, leftover, mean);
    return 1;
}

static int print_comparison(const bore_filter *filter, const bore_filter *other)
{
    uint8_t same;
    if (!accepted("comparison", bore_equivalent(filter, other, &same))) {
        return 0;
    }
    printf("%s\n", same ? "the same recipe" : "another recipe");
    return 1;
}

/* All of it, for a job that was read. The cells are enough for the stream and for the blur. */
static int print_job(const bore_job *job, const uint8_t *pixels, const bore_filter *other)
{
    size_t width = job->words.width, height = job->words.height, full_width, full_height, cells_len;
    struct buffers lent;
    int is_printed;
    if (!accepted("sizes", bore_full_size(&job->filter, width, height, &full_width, &full_height))) {
        return 0;
    }
    cells_len = 2 * full_width * full_height;
    lent.cells = reserve(cells_len, sizeof *lent.cells);
    lent.row = reserve(full_width, sizeof *lent.row);
    lent.grays = reserve(width * height, sizeof *lent.grays);
    lent.leftovers = reserve(width * height, sizeof *lent.leftovers);
    is_printed = print_stream(job, pixels, &lent, cells_len) && print_blur(job, pixels, &lent, cells_len) &&
                 print_reading(job, pixels) && print_comparison(&job->filter, other);
    free(lent.cells);
    free(lent.row);
    free(lent.grays);
    free(lent.leftovers);
    return is_printed;
}

int main(int argc, char **argv)
{
    uint8_t rows[MOST_TYPED], columns[MOST_TYPED];
    size_t rows_len, columns_len, length;
    bore_filter other;
    bore_job job;
    uint8_t *bytes;
    int is_done;
    if (argc != 4 || !read_list(argv[2], rows, &rows_len) || !read_list(argv[3], columns, &columns_len)) {
        fprintf(stderr, "usage: wall JOB ROWS COLUMNS, as in: wall wall.job 2,2 2,2\n");
        return 1;
    }
    bytes = read_file(argv[1], &length);
    if (!bytes) {
        fprintf(stderr, "wall: %s cannot be read\n", argv[1]);
        return 1;
    }
    is_done = accepted("recipe", bore_set_filter(&other, rows, rows_len, columns, columns_len)) &&
              accepted("job", bore_read_job(bytes, length, &job.filter, &job.words)) &&
              print_job(&job, bytes + job.words.offset, &other);
    free(bytes);
    if (fflush(stdout) != 0 || ferror(stdout)) {
        fprintf(stderr, "wall: standard output cannot be written\n");
        return 1;
    }
    return is_done ? 0 : 1;
}
