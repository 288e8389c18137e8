/* What a continuing call of the engine costs by itself: own < MAP
 *
 * Takes the equations as they come until a stage has 30,000 rows, then calls with a budget of 0: such a call checks and writes anew what is kept beside the
 * rows, and takes no turn. Prints the rows of table and basis and the best nanoseconds a row. Linked as solve.c is. The status is 1 where no stage gets so
 * long. */
#include "dezgula_engine.h"

#include <inttypes.h>
#include <stdio.h>
#include <stdlib.h>
#include <time.h>

enum { ROOM = 200000, ENOUGH = 30000, BUDGET = 100000, CALLS = 30 };

static void *lent(size_t n, size_t size)
{
    void *table = calloc(n, size);
    if (table == NULL) exit(1);
    return table;
}
static dezgula_engine_run lent_run(size_t p, size_t q)
{
    dezgula_engine_run run = {0};
    run.equations = lent(p * q, 4), run.equations_len = p * q;
    run.basis = lent(ROOM * q, 4), run.basis_len = ROOM * q, run.sizes = lent(ROOM, 4), run.sizes_len = ROOM;
    run.table = lent(ROOM * q, 4), run.table_len = ROOM * q;
    run.values = lent(ROOM, 8), run.words = lent(ROOM, 8), run.degrees = lent(ROOM, 4), run.marks = lent(ROOM, 8), run.mothers = lent(ROOM, 4);
    run.values_len = run.words_len = run.degrees_len = run.marks_len = run.mothers_len = ROOM;
    return run;
}
/* works until a stage has enough rows */
static int grown(size_t p, size_t q, dezgula_engine_run *run)
{
    for (size_t e = 0; e < p; e++) {
        if (dezgula_engine_take(p, q, run, e, q) != DEZGULA_STARTED) return 0;
        while (run->record.equation < p && run->record.rows < ENOUGH) {
            uint64_t answer = dezgula_engine_resume(p, q, run, BUDGET);
            if (answer != DEZGULA_PAUSED && answer != DEZGULA_COMPLETE) return 0;
        }
        if (run->record.equation < p) return 1;
    }
    return 0;
}
static double nanoseconds(size_t p, size_t q, dezgula_engine_run *run)
{
    double best = 1e300;
    for (int i = 0; i < CALLS; i++) {
        clock_t before = clock();
        if (dezgula_engine_resume(p, q, run, 0) != DEZGULA_PAUSED) exit(1);
        double took = (double)(clock() - before) * 1e9 / CLOCKS_PER_SEC;
        if (took < best) best = took;
    }
    return best;
}

int main(void)
{
    static int32_t coefs[DEZGULA_ENGINE_COEFFICIENTS];
    dezgula_system map = {0, 0, coefs, 0};
    if (scanf("%zu %zu", &map.p, &map.q) != 2 || map.p > DEZGULA_ENGINE_MOST || map.q > DEZGULA_ENGINE_MOST) return 2;
    map.coefs_len = map.p * map.q;
    for (size_t i = 0; i < map.coefs_len; i++)
        if (scanf("%" SCNd32, &coefs[i]) != 1) return 2;
    dezgula_engine_run run = lent_run(map.p, map.q);
    if (dezgula_engine_start(&map, &run) != DEZGULA_STARTED || !grown(map.p, map.q, &run)) return 1;
    double rows = (double)(run.record.rows + run.record.count);
    printf("%.0f rows, %.1f ns a row\n", rows, nanoseconds(map.p, map.q, &run) / rows);
    return 0;
}
