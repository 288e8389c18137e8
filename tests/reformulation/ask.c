/* Asks the library the questions of tests/reformulation/model.py, which come on standard input, and compares: s, whether numbers show that two maps have the same
 * minimal solutions; p, rows without their further unknowns. */
#include "dezgula_engine.h"

#include <inttypes.h>
#include <stdio.h>
#include <string.h>

enum { MOST = 4500 };

/* A number, or a size that has all 64 bits; at the end 0. */
static uint64_t word(void)
{
    char text[32];
    int64_t below = 0;
    uint64_t above = 0;
    if (scanf("%31s", text) != 1) return 0;
    if (text[0] == '-') return sscanf(text, "%" SCNd64, &below) == 1 ? (uint64_t)below : 0;
    return sscanf(text, "%" SCNu64, &above) == 1 ? above : 0;
}

static size_t numbers(uint32_t *to)
{
    size_t n = (size_t)word();
    for (size_t i = 0; i < n; i++) to[i] = (uint32_t)word();
    return n;
}

static size_t multiples(int64_t *to)
{
    size_t n = (size_t)word();
    for (size_t i = 0; i < n; i++) to[i] = (int64_t)word();
    return n;
}

static uint32_t maps[3][MOST], kept[MOST];
static int64_t by[3][MOST], same[3][MOST];

static uint64_t shown(void)
{
    dezgula_system system = {.coefs = (const int32_t *)maps[0]};
    system.p = (size_t)word();
    system.q = (size_t)word();
    dezgula_reformulation asked = {.extended = (const int32_t *)maps[1], .other = (const int32_t *)maps[2], .onto = by[0], .back = by[1], .above = by[2]};
    asked.further = (size_t)word();
    asked.equations = (size_t)word();
    system.coefs_len = numbers(maps[0]);
    asked.extended_len = numbers(maps[1]);
    asked.other_len = numbers(maps[2]);
    asked.onto_len = multiples(by[0]);
    asked.back_len = multiples(by[1]);
    asked.above_len = multiples(by[2]);
    memcpy(same, by, sizeof same);
    uint64_t answer = dezgula_engine_reformulates(&system, &asked);
    return memcmp(same, by, sizeof same) == 0 ? answer : 255;
}

static uint64_t projected(size_t *length)
{
    size_t q = (size_t)word(), further = (size_t)word();
    dezgula_list list = {.rows = maps[0], .found = (size_t)word()};
    list.rows_len = numbers(maps[0]);
    *length = numbers(kept);
    return dezgula_engine_project(q, further, &list, kept, *length);
}

int main(void)
{
    size_t seen[256] = {0}, asked = 0;
    char kind[2];
    for (; scanf("%1s", kind) == 1; asked++) {
        size_t length = 0;
        uint64_t answer = kind[0] == 's' ? shown() : projected(&length), expected = word();
        int agrees = answer == expected;
        for (size_t i = 0; i < length; i++) agrees &= kept[i] == (uint32_t)word();
        if (!agrees) {
            fprintf(stderr, "question %zu differs: %" PRIu64 ", not %" PRIu64 "\n", asked + 1, answer, expected);
            return 1;
        }
        seen[dezgula_number(answer)]++;
    }
    printf("%zu questions about maps in the place of others agree:", asked);
    for (size_t n = 0; n < 256; n++)
        if (seen[n] != 0) printf(" %zu of %zu", seen[n], n);
    puts("");
    return asked == 0;
}
