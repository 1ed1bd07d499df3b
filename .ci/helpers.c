/* What bore.h does by itself: cascades and filters filled from lists of widths, and the words of the numbers.
 * The status is the number of checks that fail. .ci/c compiles and runs it. */
#include "bore.h"

#include <string.h>

/* Whether a cascade has these widths and zeros past them. */
static int has(const bore_cascade *list, const uint8_t *widths, size_t count)
{
    size_t k;
    for (k = 0; k < BORE_MOST_WIDTHS; k++) {
        if (list->widths[k] != (k < count ? widths[k] : 0)) {
            return 0;
        }
    }
    return list->count == count;
}

/* Lists of up to 48 widths, and of as many along the columns as make up 48. */
static unsigned short_lists(const uint8_t *rows, const uint8_t *columns, const bore_filter *before)
{
    unsigned failed = 0;
    size_t n;
    for (n = 0; n <= 48; n++) {
        bore_filter filter = *before;
        failed += bore_set_cascade(&filter.rows, rows, n) != 0 || !has(&filter.rows, rows, n);
        failed += memcmp(&filter.columns, &before->columns, 49) != 0;
        filter = *before;
        failed += bore_set_filter(&filter, rows, n, columns, 48 - n) != 0;
        failed += !has(&filter.rows, rows, n) || !has(&filter.columns, columns, 48 - n);
    }
    return failed;
}

/* Longer lists are refused by 1, and nothing is written. */
static unsigned long_lists(const uint8_t *rows, const uint8_t *columns, const bore_filter *before)
{
    unsigned failed = 0;
    size_t n;
    for (n = 49; n <= 600; n++) {
        bore_filter filter = *before;
        failed += bore_set_cascade(&filter.rows, rows, n) != 1;
        failed += bore_set_filter(&filter, rows, n, columns, 2) != 1;
        failed += bore_set_filter(&filter, rows, 2, columns, n) != 1;
        failed += bore_set_filter(&filter, rows, n, columns, n) != 1;
        failed += memcmp(&filter, before, sizeof filter) != 0;
    }
    return failed;
}

/* Widths may lie in what is filled, and there may be none. */
static unsigned own_lists(const uint8_t *rows, const uint8_t *columns)
{
    bore_filter filter;
    unsigned failed = bore_set_filter(&filter, rows, 48, columns, 48) != 0;
    failed += bore_set_filter(&filter, filter.columns.widths, 40, filter.rows.widths + 5, 30) != 0;
    failed += !has(&filter.rows, columns, 40) || !has(&filter.columns, rows + 5, 30);
    failed += bore_set_cascade(&filter.rows, filter.rows.widths + 1, 39) != 0 || !has(&filter.rows, columns + 1, 39);
    failed += bore_set_filter(&filter, NULL, 0, NULL, 0) != 0;
    return failed + (!has(&filter.rows, NULL, 0) || !has(&filter.columns, NULL, 0));
}

/* The numbers up to 16 have words of their own, all others the same. */
static unsigned words(void)
{
    const char *none = "no number of this library";
    unsigned failed = strcmp(bore_refusal_text(BORE_BAD_LEVEL), "the level is outside 1 to 8") != 0;
    unsigned n, m;
    for (n = 0; n <= 255; n++) {
        const char *text = bore_refusal_text((uint8_t)n);
        failed += (strcmp(text, none) != 0) != (n <= BORE_BAD_LEVEL);
        for (m = 0; m < n && n <= BORE_BAD_LEVEL; m++) {
            failed += strcmp(text, bore_refusal_text((uint8_t)m)) == 0;
        }
    }
    return failed;
}

int main(void)
{
    uint8_t rows[600], columns[600];
    bore_filter before;
    unsigned k, failed;
    for (k = 0; k < 600; k++) {
        rows[k] = (uint8_t)(k % 251 + 1);
        columns[k] = (uint8_t)(k % 241 + 7);
    }
    memset(&before, 0xAA, sizeof before);
    failed = short_lists(rows, columns, &before) + long_lists(rows, columns, &before) + own_lists(rows, columns);
    failed += words();
    return failed > 100 ? 100 : (int)failed;
}
