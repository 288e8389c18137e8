/* The library and the baseline side by side on maps, in one run.
 *
 *   bench REPETITIONS MAP BUDGET [MAP BUDGET ..]   a table of ns a step, best of REPETITIONS, the three taking turns
 *   bench WHO MAP BUDGET                           one run of one of them, for a tool that counts; prints the steps
 *   bench REPETITIONS                              a table of one call whose work is the check on a list of 4,096 rows
 *
 * WHO is baseline, native or library. A run is a plain start and one continuing call with BUDGET steps. Before anything is timed, all three must agree:
 * answer, record, stack table and list table; and so must the library when it is paused after every 1,000 steps. */
#include "baseline.h"
#include "raw.h"

#include <inttypes.h>
#include <stdbool.h>
#include <stdio.h>
#include <stdlib.h>
#include <string.h>
#include <time.h>

enum { STACK = DEZGULA_STACK_LENGTH(DEZGULA_MOST_UNKNOWNS), LIST = 1 << 20, KINDS = 3, LIBRARY = 2, PAUSE = 1000, WORTH_TIMING = 2000000 };

typedef struct {
    const char *name;
    size_t p, q;
    int32_t coefs[DEZGULA_MOST_EQUATIONS * DEZGULA_MOST_UNKNOWNS];
    uint64_t budget;
} map;

typedef struct {
    uint32_t stack[STACK], list[LIST];
    uint64_t record[DEZGULA_RECORD_LENGTH], answer;
} run;

typedef struct {
    const char *name;
    start_call *start;
    resume_call *resume;
} kind;

static const kind kinds[KINDS] = {
    {"baseline", baseline_start, baseline_resume},
    {"native", native_start, native_resume},
    {"library", dezgula_raw_start, dezgula_raw_resume},
};

static run runs[KINDS];

static uint64_t found(const run *r)
{
    return r->record[1];
}

static uint64_t steps(const run *r)
{
    return r->record[2];
}

static void fail(const char *what, const char *which)
{
    fprintf(stderr, "bench: %s: %s\n", which, what);
    exit(1);
}

static map read_map(const char *path, const char *budget)
{
    FILE *file = fopen(path, "r");
    if (file == NULL) fail("cannot be read", path);
    const char *base = strrchr(path, '/');
    map m = {.name = base == NULL ? path : base + 1, .budget = strtoull(budget, NULL, 10)};
    bool good = fscanf(file, "%zu %zu", &m.p, &m.q) == 2 && m.p <= DEZGULA_MOST_EQUATIONS && m.q <= DEZGULA_MOST_UNKNOWNS;
    for (size_t i = 0; good && i < m.p * m.q; i++) good = fscanf(file, "%" SCNd32, &m.coefs[i]) == 1;
    fclose(file);
    if (!good) fail("is no map", path);
    return m;
}

/* ---- runs */

static void go(const kind *k, const map *m, run *r, uint64_t budget)
{
    r->answer = k->resume(m->p, m->q, m->coefs, m->p * m->q, r->stack, STACK, r->list, LIST, r->record, DEZGULA_RECORD_LENGTH, budget);
}

static void start(const kind *k, const map *m, run *r)
{
    r->answer = k->start(m->p, m->q, m->coefs, m->p * m->q, r->stack, STACK, r->list, LIST, r->record, DEZGULA_RECORD_LENGTH);
    if (r->answer != DEZGULA_STARTED) fail("does not start", m->name);
}

static void whole(const kind *k, const map *m, run *r)
{
    start(k, m, r);
    go(k, m, r, m->budget);
}

static void in_pieces(const kind *k, const map *m, run *r)
{
    start(k, m, r);
    do {
        uint64_t left = m->budget - steps(r);
        go(k, m, r, left < PAUSE ? left : PAUSE);
    } while (r->answer == DEZGULA_PAUSED && steps(r) < m->budget);
}

/* Tables that hold no zeros, so that a place written too many shows. */
static void blank(run *r)
{
    memset(r, 0xa5, sizeof *r);
}

static void compare(const map *m)
{
    blank(&runs[0]);
    whole(&kinds[0], m, &runs[0]);
    for (size_t i = 1; i < KINDS; i++) {
        blank(&runs[i]);
        whole(&kinds[i], m, &runs[i]);
        if (memcmp(&runs[i], &runs[0], sizeof(run)) != 0) fail("differs from the baseline", m->name);
    }
    blank(&runs[LIBRARY]);
    in_pieces(&kinds[LIBRARY], m, &runs[LIBRARY]);
    if (memcmp(&runs[LIBRARY], &runs[0], sizeof(run)) != 0) fail("differs when paused", m->name);
}

/* ---- times: of the processor, so that other programs on the machine count little */

static double nanoseconds(const kind *k, const map *m, run *r, unsigned times)
{
    struct timespec from, to;
    clock_gettime(CLOCK_PROCESS_CPUTIME_ID, &from);
    for (unsigned i = 0; i < times; i++) whole(k, m, r);
    clock_gettime(CLOCK_PROCESS_CPUTIME_ID, &to);
    return ((double)(to.tv_sec - from.tv_sec) * 1e9 + (double)(to.tv_nsec - from.tv_nsec)) / times;
}

static const char *ending(uint64_t answer)
{
    static char text[32];
    if (answer == DEZGULA_COMPLETE) return "complete";
    if (answer == DEZGULA_PAUSED) return "paused";
    snprintf(text, sizeof text, "refused %u", dezgula_number(answer));
    return text;
}

static void measure(const map *m, int repetitions)
{
    compare(m);
    double once = nanoseconds(&kinds[0], m, &runs[0], 1);
    unsigned times = once < WORTH_TIMING ? (unsigned)(WORTH_TIMING / once) + 1 : 1;
    double best[KINDS] = {1e300, 1e300, 1e300};
    for (int r = 0; r < repetitions; r++)
        for (size_t i = 0; i < KINDS; i++) {
            double ns = nanoseconds(&kinds[i], m, &runs[i], times);
            if (ns < best[i]) best[i] = ns;
        }
    double taken = (double)steps(&runs[0]);
    printf("| %s | %zu × %zu | %" PRIu64 " | %" PRIu64 " | %s | %.1f | %.1f | %.1f | %.2f | %.2f |\n", m->name, m->p, m->q, steps(&runs[0]), found(&runs[0]),
           ending(runs[0].answer), best[0] / taken, best[1] / taken, best[2] / taken, best[2] / best[0], best[2] / best[1]);
    fflush(stdout);
}

/* ---- the check on the list: 4,096 rows, only one of them at or below the tuples that are tried */

enum { ROWS = 4096, CALLS = 200 };

static const kind orders[KINDS] = {
    {"oldest", oldest_start, oldest_resume},
    {"baseline", baseline_start, baseline_resume},
    {"library", dezgula_raw_start, dezgula_raw_resume},
};

/* x1 = x2 + .. + xq from the tuple 1 0 .. 0: every unknown but the first is tried, and the row 1 0 .. 0 stops it; rows 2 0 .. 0 do not. */
static map one_row_stops(size_t q, size_t place, run *r)
{
    map m = {.name = "list", .p = 1, .q = q, .coefs = {1}, .budget = 1};
    for (size_t j = 1; j < q; j++) m.coefs[j] = -1;
    memset(r, 0, sizeof *r);
    r->stack[0] = 1;
    for (size_t k = 0; k < ROWS; k++) r->list[k * q] = k == place ? 1 : 2;
    return m;
}

static double one_step(const kind *k, const map *m, run *r)
{
    struct timespec from, to;
    clock_gettime(CLOCK_PROCESS_CPUTIME_ID, &from);
    for (unsigned i = 0; i < CALLS; i++) {
        memset(r->record, 0, sizeof r->record);
        r->record[0] = 1, r->record[1] = ROWS;
        go(k, m, r, m->budget);
    }
    clock_gettime(CLOCK_PROCESS_CPUTIME_ID, &to);
    if (r->answer != DEZGULA_COMPLETE || r->record[0] != 0 || steps(r) != 1) fail("is not stopped", k->name);
    return ((double)(to.tv_sec - from.tv_sec) * 1e9 + (double)(to.tv_nsec - from.tv_nsec)) / CALLS;
}

static void measure_list(size_t q, size_t place, const char *which, int repetitions)
{
    double best[KINDS] = {1e300, 1e300, 1e300};
    for (int r = 0; r < repetitions; r++)
        for (size_t i = 0; i < KINDS; i++) {
            map m = one_row_stops(q, place, &runs[i]);
            double ns = one_step(&orders[i], &m, &runs[i]);
            if (ns < best[i]) best[i] = ns;
        }
    printf("| 1 × %zu | %s | %.0f | %.0f | %.0f | %.3f |\n", q, which, best[0], best[1], best[2], best[2] / best[0]);
}

static void measure_lists(int repetitions)
{
    static const size_t sizes[] = {4, 8, 16};
    puts("| size | the only row at or below | oldest first in C, ns a call | newest first in C | library | library / oldest first |");
    puts("|---|---|---:|---:|---:|---:|");
    for (size_t i = 0; i < sizeof sizes / sizeof *sizes; i++) {
        measure_list(sizes[i], 0, "first", repetitions);
        measure_list(sizes[i], ROWS - 1, "last", repetitions);
    }
}

int main(int count, char **words)
{
    if (count == 2) return measure_lists(atoi(words[1])), 0;
    if (count < 4 || count % 2 != 0) fail("see the head of bench.c for its words", "usage");
    for (size_t i = 0; i < KINDS; i++)
        if (strcmp(words[1], kinds[i].name) == 0) {
            map m = read_map(words[2], words[3]);
            whole(&kinds[i], &m, &runs[i]);
            printf("%" PRIu64 "\n", steps(&runs[i]));
            return 0;
        }
    puts("| map | size | steps | solutions | ending | baseline -O3, ns a step | baseline native | library | library / -O3 | library / native |");
    puts("|---|---|---:|---:|---|---:|---:|---:|---:|---:|");
    for (int i = 2; i < count; i += 2) {
        map m = read_map(words[i], words[i + 1]);
        measure(&m, atoi(words[1]));
    }
    return 0;
}
