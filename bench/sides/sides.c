/* The library and the same walk in C on maps with right sides, in one run.
 *
 *   sides REPETITIONS MAP RIGHT BUDGET [MAP RIGHT BUDGET ..]   a table of ns a step, best of REPETITIONS, the three taking turns
 *   sides WHO MAP RIGHT BUDGET                                 one run of one of them, for a tool that counts; prints the steps
 *
 * WHO is baseline, native or library; every equation of the map has the right side RIGHT. A run is a start and one continuing call with BUDGET steps. Before
 * anything is timed, all three must agree in answer, record and all tables; and so must the library when it is paused after every 1,000 steps. */
#include "capped.h"
#include "raw.h"

#include <inttypes.h>
#include <stdbool.h>
#include <stdio.h>
#include <stdlib.h>
#include <string.h>
#include <time.h>

enum { STACK = DEZGULA_RIGHTS_STACK_LENGTH(DEZGULA_MOST_UNKNOWNS_WITH_RIGHTS), LIST = 1 << 20, KINDS = 3, LIBRARY = 2, PAUSE = 1000, WORTH_TIMING = 2000000 };
enum { FOUND = 1, STEPS = 2, SECOND = 4 };

typedef struct {
    const char *name;
    size_t p, q;
    int32_t coefs[DEZGULA_MOST_EQUATIONS * DEZGULA_MOST_UNKNOWNS_WITH_RIGHTS], rights[DEZGULA_MOST_EQUATIONS];
    uint64_t budget;
} map;

typedef struct {
    uint32_t stack[STACK], list[LIST], second[LIST];
    uint64_t record[DEZGULA_RECORD_LENGTH], answer;
} run;

typedef struct {
    const char *name;
    capped_start_call *start;
    capped_resume_call *resume;
} kind;

static const kind kinds[KINDS] = {
    {"baseline", capped_start, capped_resume},
    {"native", capped_native_start, capped_native_resume},
    {"library", dezgula_raw_start_rights, dezgula_raw_resume_rights},
};

static run runs[KINDS];

static void fail(const char *what, const char *which)
{
    fprintf(stderr, "sides: %s: %s\n", which, what);
    exit(1);
}

static map read_map(char *const *words)
{
    FILE *file = fopen(words[0], "r");
    if (file == NULL) fail("cannot be read", words[0]);
    const char *base = strrchr(words[0], '/');
    map m = {.name = base == NULL ? words[0] : base + 1, .budget = strtoull(words[2], NULL, 10)};
    bool good = fscanf(file, "%zu %zu", &m.p, &m.q) == 2 && m.p <= DEZGULA_MOST_EQUATIONS && m.q <= DEZGULA_MOST_UNKNOWNS_WITH_RIGHTS;
    for (size_t i = 0; good && i < m.p * m.q; i++) good = fscanf(file, "%" SCNd32, &m.coefs[i]) == 1;
    for (size_t i = 0; good && i < m.p; i++) m.rights[i] = atoi(words[1]);
    fclose(file);
    if (!good) fail("is no map of at most 15 unknowns", words[0]);
    return m;
}

/* ---- runs */

static void go(const kind *k, const map *m, run *r, uint64_t budget)
{
    r->answer = k->resume(m->p, m->q, m->coefs, m->p * m->q, m->rights, m->p, r->stack, STACK, r->list, LIST, r->second, LIST, r->record,
                          DEZGULA_RECORD_LENGTH, budget);
}

static void start(const kind *k, const map *m, run *r)
{
    r->answer = k->start(m->p, m->q, m->coefs, m->p * m->q, m->rights, m->p, r->stack, STACK, r->list, LIST, r->second, LIST, r->record,
                         DEZGULA_RECORD_LENGTH);
    if (r->answer != DEZGULA_STARTED) fail("does not start", m->name);
}

static void whole(const kind *k, const map *m, run *r)
{
    start(k, m, r);
    go(k, m, r, m->budget);
}

static void in_pieces(const kind *k, const map *m, run *r)
{
    start(k, m, r);
    do {
        uint64_t left = m->budget - r->record[STEPS];
        go(k, m, r, left < PAUSE ? left : PAUSE);
    } while (r->answer == DEZGULA_PAUSED && r->record[STEPS] < m->budget);
}

static void compare(const map *m)
{
    for (size_t i = 0; i < KINDS; i++) {
        memset(&runs[i], 0xa5, sizeof(run));
        whole(&kinds[i], m, &runs[i]);
        if (memcmp(&runs[i], &runs[0], sizeof(run)) != 0) fail("differs from the baseline", m->name);
    }
    memset(&runs[LIBRARY], 0xa5, sizeof(run));
    in_pieces(&kinds[LIBRARY], m, &runs[LIBRARY]);
    if (memcmp(&runs[LIBRARY], &runs[0], sizeof(run)) != 0) fail("differs when paused", m->name);
}

/* ---- times: of the processor, so that other programs on the machine count little */

static double nanoseconds(const kind *k, const map *m, run *r, unsigned times)
{
    struct timespec from, to;
    clock_gettime(CLOCK_PROCESS_CPUTIME_ID, &from);
    for (unsigned i = 0; i < times; i++) whole(k, m, r);
    clock_gettime(CLOCK_PROCESS_CPUTIME_ID, &to);
    return ((double)(to.tv_sec - from.tv_sec) * 1e9 + (double)(to.tv_nsec - from.tv_nsec)) / times;
}

static void measure(const map *m, int repetitions)
{
    compare(m);
    double once = nanoseconds(&kinds[0], m, &runs[0], 1), best[KINDS] = {1e300, 1e300, 1e300};
    unsigned times = once < WORTH_TIMING ? (unsigned)(WORTH_TIMING / once) + 1 : 1;
    for (int r = 0; r < repetitions; r++)
        for (size_t i = 0; i < KINDS; i++) {
            double ns = nanoseconds(&kinds[i], m, &runs[i], times);
            if (ns < best[i]) best[i] = ns;
        }
    const uint64_t *record = runs[0].record;
    double taken = (double)record[STEPS];
    printf("| %s | %zu × %zu | %" PRId32 " | %" PRIu64 " | %" PRIu64 " | %" PRIu64 " | %s | %.1f | %.1f | %.1f | %.2f | %.2f |\n", m->name, m->p, m->q,
           m->rights[0], record[STEPS], record[FOUND], record[SECOND], runs[0].answer == DEZGULA_COMPLETE ? "complete" : "cut short", best[0] / taken,
           best[1] / taken, best[2] / taken, best[2] / best[0], best[2] / best[1]);
    fflush(stdout);
}

int main(int count, char **words)
{
    if (count < 5 || count % 3 != 2) fail("see the head of sides.c for its words", "usage");
    for (size_t i = 0; i < KINDS; i++)
        if (strcmp(words[1], kinds[i].name) == 0) {
            map m = read_map(words + 2);
            whole(&kinds[i], &m, &runs[i]);
            printf("%" PRIu64 "\n", runs[i].record[STEPS]);
            return 0;
        }
    puts("| map | size | right sides | steps | rows at 0 | rows at 1 | ending | C -O3, ns a step | C native | library | library / -O3 | library / native |");
    puts("|---|---|---:|---:|---:|---:|---|---:|---:|---:|---:|---:|");
    for (int i = 2; i < count; i += 3) {
        map m = read_map(words + i);
        measure(&m, atoi(words[1]));
    }
    return 0;
}
