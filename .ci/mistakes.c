/* Mistakes of which a compiler warns by what bore.h tells it: each, alone, must not compile with -Werror.
 * .ci/c defines MISTAKE as its number; 0 is none. */
#include "bore.h"

#if MISTAKE == 9 /* an assertion that does not hold */
BORE_STATIC_ASSERT(never, sizeof(bore_filter) == 99);
#endif

int main(void)
{
    bore_filter filter;
    uint64_t out[3], cells[9];
    int64_t leftovers[2];
    uint8_t pixel[1] = {1};
    uint8_t widths[3] = {2, 6, 6};
    uint8_t number = bore_set_filter(&filter, widths, 3, NULL, 0);
#if MISTAKE == 1 /* an output shorter than its length */
    number |= bore_kernel(&filter.rows, out, 4);
#elif MISTAKE == 2 /* a picture shorter than its length */
    number |= bore_blur(&filter, 2, 1, pixel, 2, widths, 2, leftovers, 2, cells, 9);
#elif MISTAKE == 3 /* three widths where 48 are read */
    number |= bore_set_filter(&filter, widths, 48, NULL, 0);
#elif MISTAKE == 4 /* no filter */
    number |= bore_check(NULL);
#elif MISTAKE == 5 /* a null pointer with a length */
    number |= bore_kernel(&filter.rows, NULL, 3);
#elif MISTAKE == 6 /* a list of bytes for a filter */
    number |= bore_check(widths);
#elif MISTAKE == 7 /* one buffer as output and as cells */
    number |= bore_passes(&filter, 1, 1, pixel, 1, cells, 9, cells, 9);
#elif MISTAKE == 8 /* a number that nobody looks at */
    bore_check(&filter);
#elif MISTAKE == 10 /* no filter to fill */
    number |= bore_set_filter(NULL, widths, 3, NULL, 0);
#elif MISTAKE == 11 /* no list to fill */
    number |= bore_set_cascade(NULL, widths, 3);
#elif MISTAKE == 12 /* three widths where 48 are read, along the columns */
    number |= bore_set_filter(&filter, NULL, 0, widths, 48);
#elif MISTAKE == 13 /* three widths where 48 are read, for a list */
    number |= bore_set_cascade(&filter.rows, widths, 48);
#elif MISTAKE == 14 /* one buffer as output and as cells of the ladder */
    number |= bore_ladder_rows(1, 1, 1, pixel, 1, cells, 7, cells, 7);
#elif MISTAKE == 15 /* a filter for a level */
    number |= bore_ladder_rows(&filter, 1, 1, pixel, 1, out, 3, cells, 9);
#elif MISTAKE == 16 /* an output shorter than its length, on both axes */
    number |= bore_ladder_both(1, 1, 1, pixel, 1, out, 49, cells, 9);
#elif MISTAKE == 17 /* leftovers shorter than their length */
    number |= bore_round(&filter, out, 3, widths, 3, leftovers, 3);
#elif MISTAKE == 18 /* words without a sign for leftovers */
    number |= bore_round(&filter, out, 2, widths, 2, cells, 2);
#endif
    number |= bore_kernel(&filter.rows, out, 3);
    number |= bore_passes(&filter, 1, 1, pixel, 1, out, 3, cells, 9);
    number |= bore_kernel(&filter.columns, NULL, 0);
    number |= bore_ladder_rows(1, 1, 1, pixel, 1, out, 3, cells, 9);
    number |= bore_ladder_both(1, 1, 1, NULL, 0, NULL, 0, NULL, 0);
    number |= bore_round(&filter, out, 2, widths, 2, leftovers, 2);
    return number;
}
