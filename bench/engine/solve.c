/* Lists the minimal solutions of a map of up to 32 x 32 by the solver of dezgula_engine.h: solve [-v] < MAP
 *
 * Prints "N q" and the N rows, as 4ti2 does; with -v also the turns and the seconds of each order tried, to standard error. Linked with the library or, with
 * the engine's calls renamed (see run), with their twin. The status is 0 where the list is complete, 1 where the run is refused, 2 where the text is no map. */
#include "dezgula_engine.h"

#include <inttypes.h>
#include <stdio.h>

int main(int argc, char **argv)
{
    static int32_t coefs[DEZGULA_ENGINE_COEFFICIENTS];
    dezgula_system map = {0, 0, coefs, 0};
    if (scanf("%zu %zu", &map.p, &map.q) != 2 || map.p > DEZGULA_ENGINE_MOST || map.q > DEZGULA_ENGINE_MOST) return 2;
    map.coefs_len = map.p * map.q;
    for (size_t i = 0; i < map.coefs_len; i++)
        if (scanf("%" SCNd32, &coefs[i]) != 1) return 2;
    uint64_t answer;
    dezgula_solver *solver = dezgula_solver_new(&map, &answer);
    while (solver != NULL && (answer == DEZGULA_STARTED || answer == DEZGULA_PAUSED)) answer = dezgula_solver_work(solver, 0);
    if (answer != DEZGULA_COMPLETE) {
        fprintf(stderr, "solve: %s\n", dezgula_sentence(answer));
        dezgula_solver_free(solver);
        return 1;
    }
    dezgula_solver_progress told = dezgula_solver_told(solver);
    if (argc > 1) fprintf(stderr, "%s turns %" PRIu64 " rows %" PRIu64 "\n", argv[1], told.steps.count, told.rows);
    size_t count;
    const uint32_t *rows = dezgula_solver_rows(solver, &count);
    printf("%zu %zu\n", count, map.q);
    for (size_t i = 0; i < count; i++)
        for (size_t j = 0; j < map.q; j++) printf("%" PRIu32 "%c", rows[i * map.q + j], j + 1 < map.q ? ' ' : '\n');
    dezgula_solver_free(solver);
    return fflush(stdout) == 0 && !ferror(stdout) ? 0 : 1;
}
