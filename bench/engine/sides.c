/* What right sides cost: sides [MAPS [SECONDS]], 14 drawn maps and 8 seconds for each way if not given. Each map goes to its end without right sides; with them on
 * the system written out, which has one unknown more and no cap; and by the solver for right sides, which has the cap. Prints the seconds (or "over"), the turns
 * and the rows of each.
 *   library/build && cc -O2 -Iinclude bench/engine/sides.c target/library/libdezgula.a -lm -o target/sides && target/sides */
#include "dezgula_engine.h"

#include <inttypes.h>
#include <stdio.h>
#include <stdlib.h>
#include <string.h>
#include <time.h>

enum { MOST_P = 4, MOST_Q = 12 };

static uint64_t seed = 7;
static uint64_t draw(uint64_t n)
{
    seed = seed * UINT64_C(6364136223846793005) + UINT64_C(1442695040888963407);
    return (seed >> 33) % n;
}
static double now(void) { return (double)clock() / CLOCKS_PER_SEC; }

/* to the end, or for so long */
static void timed(const char *what, dezgula_solver *solver, double seconds)
{
    const double begun = now();
    uint64_t answer = DEZGULA_PAUSED;
    size_t rows = 0, smallest = 0;
    while (solver != NULL && answer == DEZGULA_PAUSED && now() - begun < seconds) answer = dezgula_solver_work(solver, 0);
    if (solver == NULL) return;
    const double took = now() - begun;
    (void)dezgula_solver_rows(solver, &rows);
    (void)dezgula_solver_smallest(solver, &smallest);
    if (answer == DEZGULA_COMPLETE) printf("  %s %.3f s, ", what, took);
    else printf("  %s over, ", what);
    printf("%" PRIu64 " turns, %zu rows\n", dezgula_solver_told(solver).steps.count, rows + smallest);
    dezgula_solver_free(solver);
}

int main(int argc, char **argv)
{
    const int maps = argc > 1 ? atoi(argv[1]) : 14;
    const double seconds = argc > 2 ? atof(argv[2]) : 8;
    for (int k = 0; k < maps; k++) {
        const size_t p = 2 + draw(MOST_P - 1), q = 8 + draw(MOST_Q - 7);
        int32_t coefs[MOST_P * MOST_Q], rights[MOST_P], whole[MOST_P * (MOST_Q + 1)];
        for (size_t i = 0; i < p * q; i++) coefs[i] = draw(2) ? (int32_t)draw(9) - 4 : 0;
        for (size_t i = 0; i < p; i++) {
            rights[i] = (int32_t)draw(21) - 10;
            whole[i * (q + 1)] = -rights[i];
            memcpy(whole + i * (q + 1) + 1, coefs + i * q, q * sizeof *coefs);
        }
        const dezgula_system map = {p, q, coefs, p * q}, written = {p, q + 1, whole, p * (q + 1)};
        uint64_t answer;
        printf("%zu x %zu\n", p, q);
        timed("without right sides", dezgula_solver_new(&map, &answer), seconds);
        timed("with them, written out", dezgula_solver_new(&written, &answer), seconds);
        timed("with them, capped", dezgula_solver_new_sides(&map, rights, NULL, &answer), seconds);
    }
    return fflush(stdout) == 0 ? 0 : 1;
}
