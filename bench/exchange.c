/* The exchange of crates/tableau_words, written plainly in C: the same copy of the words, divisor, rows and tests of width. */
#include <inttypes.h>
#include <stdint.h>
#include <stdio.h>
#include <stdlib.h>
#include <string.h>
#include <time.h>

enum { COMMANDS = 4, LIMITS = 16, READINGS = 3, ROW = 1 + COMMANDS + LIMITS, ROWS = COMMANDS + 1 + READINGS, FIRST_ROW = 1 + COMMANDS, SIZE = FIRST_ROW + ROWS * ROW };
#define WIDTH INT64_C(134217727)

#include "corners.h"

static uint64_t size_of(int64_t x) { return x < 0 ? 0 - (uint64_t)x : (uint64_t)x; }

static uint64_t euclid(uint64_t x, uint64_t y)
{
    while (y != 0) {
        uint64_t rest = x % y;
        x = y;
        y = rest;
    }
    return x;
}

static int64_t divisor(const int64_t *rows, size_t row, size_t column, int64_t denominator)
{
    const int64_t *pivot = rows + row * ROW;
    uint64_t common = size_of(denominator * pivot[column]);
    for (size_t s = 0; s < COMMANDS; s++)
        for (size_t c = 1; c <= COMMANDS; c++) {
            int64_t number = s == row ? denominator * pivot[c] : pivot[column] * rows[s * ROW + c] - rows[s * ROW + column] * pivot[c];
            if (common == 1)
                return 1;
            common = euclid(size_of(number), common);
        }
    return (int64_t)common;
}

static int in_width(int64_t x) { return -WIDTH <= x && x <= WIDTH; }

static int rewrite_row(int64_t *row, const int64_t *pivot, size_t column, int64_t by, int64_t divisor)
{
    int64_t f = row[column];
    for (size_t j = 0; j < ROW; j++) {
        int64_t number = by * row[j] - f * pivot[j];
        if (divisor != 1)
            number /= divisor;
        if (!in_width(number))
            return 0;
        row[j] = number;
    }
    return 1;
}

static int scale_row(int64_t *row, int64_t by, int64_t divisor)
{
    for (size_t j = 0; j < ROW; j++) {
        int64_t number = by * row[j];
        if (divisor != 1)
            number /= divisor;
        if (!in_width(number))
            return 0;
        row[j] = number;
    }
    return 1;
}

__attribute__((noinline)) static int exchange(int64_t *words, size_t row, size_t limit)
{
    int64_t *rows = words + FIRST_ROW;
    size_t column = FIRST_ROW + limit;
    int64_t pivot[ROW];
    memcpy(pivot, rows + row * ROW, sizeof pivot);
    int64_t denominator = words[0];
    int64_t common = divisor(rows, row, column, denominator);
    int64_t next = denominator * pivot[column] / common;
    if (!in_width(next))
        return 0;
    for (size_t r = 0; r < ROWS; r++)
        if (r != row && !rewrite_row(rows + r * ROW, pivot, column, pivot[column], common))
            return 0;
    if (!scale_row(rows + row * ROW, denominator, common))
        return 0;
    words[0] = next;
    words[1 + row] = (int64_t)limit;
    return 1;
}

static void repeat(const char *name, const int64_t *corner, size_t row, size_t limit, size_t count)
{
    struct timespec begin, end;
    int64_t words[SIZE], sum = 0;
    clock_gettime(CLOCK_MONOTONIC, &begin);
    for (size_t k = 0; k < count; k++) {
        memcpy(words, corner, sizeof words);
        if (!exchange(words, row, limit))
            exit(1);
        sum += words[k % SIZE];
    }
    clock_gettime(CLOCK_MONOTONIC, &end);
    printf("%s: %zu exchanges, sum %" PRId64 "\n", name, count, sum);
    fprintf(stderr, "%s: %" PRId64 " ns\n", name, (int64_t)(end.tv_sec - begin.tv_sec) * 1000000000 + (end.tv_nsec - begin.tv_nsec));
}

int main(int count, char **words)
{
    size_t many = count > 1 ? strtoull(words[1], NULL, 10) : 1000;
    repeat("divisor 1", DIVISOR_1, DIVISOR_1_ROW, DIVISOR_1_LIMIT, many);
    repeat("common divisor", COMMON_DIVISOR, COMMON_DIVISOR_ROW, COMMON_DIVISOR_LIMIT, many);
    return 0;
}
