/* Writing and reading the largest file (4,096 rows of 16 numbers), beside memcpy of as many bytes and beside the same in C, in one run.
 *
 *   files REPETITIONS   a table: best time of each, and memcpy's time over it; all must agree first */
#include "dezgula_text.h"

#include <stdbool.h>
#include <stdio.h>
#include <stdlib.h>
#include <string.h>
#include <time.h>

enum { P = 8, Q = 16, ROWS = 4096, COEFS = P * Q, NUMBERS = ROWS * Q, STREAM = COEFS + NUMBERS, LENGTH = DEZGULA_FILE_LENGTH(P, Q, ROWS), TIMES = 200 };

static int32_t coefs[COEFS], read_coefs[COEFS];
static uint32_t rows[NUMBERS], read_rows[NUMBERS];
static uint8_t file[LENGTH], other[LENGTH];
static const dezgula_system map = {P, Q, coefs, COEFS};
static const dezgula_list list = {rows, NUMBERS, ROWS};

static void fail(const char *what)
{
    fprintf(stderr, "files: %s\n", what);
    exit(1);
}

/* ---- the same in C: as a program would that checks as the document says */

static uint32_t word(const uint8_t *at)
{
    return at[0] | (uint32_t)at[1] << 8 | (uint32_t)at[2] << 16 | (uint32_t)at[3] << 24;
}

static void put(uint8_t *at, uint32_t w)
{
    for (int k = 0; k < 4; k++) at[k] = (uint8_t)(w >> 8 * k);
}

static uint32_t sum(const uint8_t *block, size_t words)
{
    uint32_t s = 0;
    for (size_t j = 0; j < words; j++) s += word(block + 4 * j);
    return s;
}

static bool c_write(void)
{
    for (size_t i = 0; i < COEFS; i++)
        if (coefs[i] < -10000 || 10000 < coefs[i]) return false;
    bool within = true;
    for (size_t i = 0; i < NUMBERS; i++) within &= rows[i] <= 1000000;
    if (!within) return false;
    memset(other, 0, sizeof other);
    put(other + 4, P), put(other + 8, Q), put(other + 12, ROWS);
    for (size_t i = 0; i < STREAM; i += 126) {
        uint8_t *block = other + 512 * (i / 126 + 1);
        put(block, (uint32_t)(i / 126 + 1));
        for (size_t j = 0; j < 126 && i + j < STREAM; j++) put(block + 4 + 4 * j, i + j < COEFS ? (uint32_t)coefs[i + j] : rows[i + j - COEFS]);
    }
    for (size_t b = 0; b < LENGTH / 512; b++) put(other + 512 * b + 508, -sum(other + 512 * b, 127));
    return true;
}

static bool c_read(void)
{
    for (size_t b = 0; b < LENGTH / 512; b++) {
        const uint8_t *block = file + 512 * b;
        if (sum(block, 128) != 0 || word(block) != b) return false;
        bool within = true;
        for (size_t j = 0; b > 0 && j < 126; j++) {
            size_t i = 126 * (b - 1) + j;
            uint32_t w = word(block + 4 + 4 * j);
            within &= i < COEFS ? -10000 <= (int32_t)w && (int32_t)w <= 10000 : i < STREAM ? w <= 1000000 : w == 0;
        }
        if (!within) return false;
    }
    for (size_t i = 0; i < STREAM; i++) {
        uint32_t w = word(file + 512 * (i / 126 + 1) + 4 * (i % 126 + 1));
        if (i < COEFS) read_coefs[i] = (int32_t)w;
        else read_rows[i - COEFS] = w;
    }
    return true;
}

/* ---- what is timed */

static bool library_write(void)
{
    return dezgula_write_list(&map, &list, DEZGULA_FILE_COMPLETE, file, LENGTH) == DEZGULA_LIST_WRITTEN;
}

static bool library_read(void)
{
    dezgula_system read_map;
    dezgula_list read_list;
    uint32_t ending;
    return dezgula_read_list(file, LENGTH, read_coefs, COEFS, read_rows, NUMBERS, &read_map, &read_list, &ending) == DEZGULA_LIST_READ;
}

static bool copy(void)
{
    memcpy(other, file, LENGTH);
    return true;
}

static double nanoseconds(bool (*work)(void))
{
    struct timespec from, to;
    clock_gettime(CLOCK_PROCESS_CPUTIME_ID, &from);
    for (int i = 0; i < TIMES; i++) {
        if (!work()) fail("refused");
        __asm__ volatile("" ::: "memory");
    }
    clock_gettime(CLOCK_PROCESS_CPUTIME_ID, &to);
    return ((double)(to.tv_sec - from.tv_sec) * 1e9 + (double)(to.tv_nsec - from.tv_nsec)) / TIMES;
}

int main(int count, char **words)
{
    int repetitions = count > 1 ? atoi(words[1]) : 10;
    uint32_t draw = 1;
    for (size_t i = 0; i < COEFS; i++) coefs[i] = (int32_t)((draw = draw * 1664525 + 1013904223) >> 8) % 10001;
    for (size_t i = 0; i < NUMBERS; i++) rows[i] = ((draw = draw * 1664525 + 1013904223) >> 8) % 1000001;
    if (!library_write() || !c_write() || memcmp(file, other, LENGTH) != 0) fail("the two files differ");
    if (!library_read() || memcmp(coefs, read_coefs, sizeof coefs) != 0 || memcmp(rows, read_rows, sizeof rows) != 0) fail("another list is read");

    static const struct {
        const char *name;
        bool (*work)(void);
    } kinds[] = {{"memcpy", copy}, {"write, library", library_write}, {"write, C", c_write}, {"read, library", library_read}, {"read, C", c_read}};
    enum { KINDS = sizeof kinds / sizeof *kinds };
    double best[KINDS];
    for (int k = 0; k < KINDS; k++) best[k] = 1e300;
    for (int r = 0; r < repetitions; r++)
        for (int k = 0; k < KINDS; k++) {
            double ns = nanoseconds(kinds[k].work);
            if (ns < best[k]) best[k] = ns;
        }
    printf("| %d bytes | µs | GB a second | of memcpy's speed |\n|---|---:|---:|---:|\n", LENGTH);
    for (int k = 0; k < KINDS; k++) printf("| %s | %.1f | %.1f | %.2f |\n", kinds[k].name, best[k] / 1e3, LENGTH / best[k], best[0] / best[k]);
    return best[0] / best[1] < 0.1 || best[0] / best[3] < 0.1;
}
