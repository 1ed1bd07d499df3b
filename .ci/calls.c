/* Every call on wide pictures in a thread with 64 KiB of stack, as bore.h promises: all have to be accepted.
 * .ci/c compiles and runs it. */
#include "bore.h"

#include <pthread.h>
#include <stdio.h>

enum { WIDTH = 1024, HEIGHT = 2, GROWN = (WIDTH + 255) * (HEIGHT + 254) };

static int64_t leftovers[GROWN];
static uint8_t pixels[WIDTH * HEIGHT], grays[GROWN], file[WIDTH * HEIGHT + 107];
static uint64_t sums[GROWN], cells[4 * GROWN], kernels[2][256];
static int16_t differences[WIDTH * HEIGHT];

static unsigned filters(const bore_filter *a)
{
    size_t wide, tall, some;
    uint64_t weight;
    double means[2];
    uint8_t same;
    return (unsigned)bore_check(a) + bore_kernel(&a->rows, kernels[0], 256) +
           bore_full_size(a, WIDTH, HEIGHT, &wide, &tall) + bore_stream_cells(a, WIDTH, &some) +
           bore_moments(a, &weight, &wide, &tall, &means[0], &means[1]) + bore_equivalent(a, a, &same);
}

static unsigned methods(const bore_filter *a)
{
    bore_state state;
    uint64_t count;
    size_t j;
    unsigned number =
        (unsigned)bore_direct(a, WIDTH, HEIGHT, pixels, WIDTH * HEIGHT, kernels[0], 256, kernels[1], 255, sums, GROWN) +
        bore_passes(a, WIDTH, HEIGHT, pixels, WIDTH * HEIGHT, sums, GROWN, cells, GROWN) +
        bore_start(a, WIDTH, HEIGHT, cells, 4 * GROWN, &state.filter, &state.words);
    for (j = 0; j < HEIGHT; j++) {
        number += bore_push(&state.filter, &state.words, pixels, WIDTH, sums, WIDTH + 255, cells, 4 * GROWN, &count);
    }
    return number + bore_drain(&state.filter, &state.words, sums, WIDTH + 255, cells, 4 * GROWN, &count);
}

/* The highest levels that are accepted: grown to 1,169 by 2 and to 1,068 by 46. */
static unsigned ladder(void)
{
    const size_t size = WIDTH * HEIGHT;
    return (unsigned)bore_ladder_rows(8, WIDTH, HEIGHT, pixels, size, sums, 1169 * 2, cells, 1169 * 2) +
           bore_ladder_both(5, WIDTH, HEIGHT, pixels, size, sums, 1068 * 46, cells, 1068 * 46);
}

static unsigned greys(const bore_filter *a)
{
    const size_t size = WIDTH * HEIGHT;
    uint8_t gray;
    int64_t leftover;
    uint64_t sum;
    double mean;
    return (unsigned)bore_round(a, sums, WIDTH + 255, grays, WIDTH + 255, leftovers, WIDTH + 255) +
           bore_blur(a, WIDTH, HEIGHT, pixels, size, grays, size, leftovers, size, cells, 4 * GROWN) +
           bore_difference(a, a, WIDTH, HEIGHT, pixels, size, differences, size, cells, 4 * GROWN) +
           bore_sample_gray(a, WIDTH, HEIGHT, pixels, size, 9, 1, &gray, &leftover) +
           bore_sample_sum(a, WIDTH, HEIGHT, pixels, size, 9, 1, &sum) +
           bore_sample_mean(a, WIDTH, HEIGHT, pixels, size, 9, 1, &mean);
}

static unsigned jobs(const bore_filter *a)
{
    const size_t size = WIDTH * HEIGHT;
    bore_job job;
    size_t length = 0;
    return (unsigned)bore_job_size(a, WIDTH, HEIGHT, &length) +
           bore_write_job(a, WIDTH, HEIGHT, pixels, size, file, length) +
           bore_read_job(file, length, &job.filter, &job.words);
}

static void *all(void *number)
{
    static const uint8_t rows[] = {255, 2}, columns[] = {255};
    bore_filter a;
    *(unsigned *)number = bore_set_filter(&a, rows, 2, columns, 1);
    *(unsigned *)number += filters(&a) + methods(&a) + ladder() + greys(&a) + jobs(&a);
    return NULL;
}

int main(void)
{
    unsigned number = 1;
    pthread_attr_t attributes;
    pthread_t thread;
    if (pthread_attr_init(&attributes) || pthread_attr_setstacksize(&attributes, 65536) ||
        pthread_create(&thread, &attributes, all, &number) || pthread_join(thread, NULL)) {
        puts("there is no thread");
        return 1;
    }
    return number != 0;
}
