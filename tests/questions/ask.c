/* Asks the library the questions of tests/questions/model.py, which come on standard input, and compares. Each begins with 1 where the engine's calls are asked,
 * and with 0 where document 02's are. */
#include "dezgula_engine.h"

#include <inttypes.h>
#include <stdio.h>
#include <string.h>

enum { MOST = 2048 };

static int64_t word(void)
{
    int64_t n;
    return scanf("%" SCNd64, &n) == 1 ? n : INT64_MIN;
}

static size_t words(uint32_t *to)
{
    size_t n = (size_t)word();
    for (size_t i = 0; i < n && i < MOST; i++) to[i] = (uint32_t)word();
    return n;
}

static const struct {
    uint64_t (*locate)(const dezgula_system *, const dezgula_list *, const uint32_t *, size_t);
    uint64_t (*reason)(const dezgula_system *, const dezgula_list *, const uint32_t *, size_t, int64_t *);
    uint64_t (*decompose)(const dezgula_system *, const dezgula_list *, const uint32_t *, size_t, uint32_t *, size_t, int64_t *);
} calls[2] = {{dezgula_locate, dezgula_reason, dezgula_decompose}, {dezgula_engine_locate, dezgula_engine_reason, dezgula_engine_decompose}};

int main(void)
{
    static uint32_t coefs[MOST], list[MOST], tuple[MOST], times[MOST], after[MOST];
    size_t seen[256] = {0}, questions = 0;
    for (int64_t engine; (engine = word()) != INT64_MIN; questions++) {
        dezgula_system system = {.p = (size_t)word(), .q = (size_t)word(), .coefs = (const int32_t *)coefs};
        system.coefs_len = words(coefs);
        dezgula_list rows = {.rows = list};
        rows.rows_len = words(list);
        rows.found = (size_t)word();
        size_t length = words(tuple);
        size_t times_len = words(times);
        uint64_t reason = (uint64_t)word(), located = (uint64_t)word(), told = (uint64_t)word();
        int64_t amount = word(), off = 9, by = 9;
        for (size_t i = 0; i < times_len; i++) after[i] = (uint32_t)word();
        uint64_t why = calls[engine].reason(&system, &rows, tuple, length, &off);
        uint64_t made = calls[engine].decompose(&system, &rows, tuple, length, times, times_len, &by);
        int same = why == reason && off == amount && calls[engine].locate(&system, &rows, tuple, length) == located && made == told && by == amount;
        if (!same || memcmp(times, after, times_len * sizeof *times) != 0) {
            fprintf(stderr, "question %zu differs: %" PRIu64 " %" PRId64 ", %" PRIu64 "\n", questions + 1, why, off, made);
            return 1;
        }
        if (calls[engine].reason(&system, &rows, tuple, length, NULL) != why) return 1;
        seen[dezgula_number(why)]++;
        seen[dezgula_number(located)]++;
        if (told == DEZGULA_MADE) seen[told]++;
    }
    printf("%zu questions agree:", questions);
    for (size_t n = 0; n < 256; n++)
        if (seen[n] != 0) printf(" %zu of %zu", seen[n], n);
    puts("");
    return questions == 0;
}
