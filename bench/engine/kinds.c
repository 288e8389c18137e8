/* Lists other kinds of maps by the solver of dezgula_engine.h: kinds sides < TEXT, kinds desks N .. < MAP
 *
 * sides: TEXT is "p q", p lines of q coefficients and a right side, and q numbers, the lower bound. Prints the loops, and the smallest tuples that meet the right
 * sides at or above the bound, each row after 0 or 1. desks: first a solver for the first N equations, then one from its list for the next N, and so on; the
 * last is for the others. Prints the rows.
 * The status is 0 where the list is complete, 1 where the run is refused, 2 where the text is none. */
#include "dezgula_engine.h"

#include <inttypes.h>
#include <stdio.h>
#include <stdlib.h>
#include <string.h>

static int32_t coefs[DEZGULA_ENGINE_COEFFICIENTS], rights[DEZGULA_ENGINE_MOST];
static uint32_t lower[DEZGULA_ENGINE_MOST];

static dezgula_solver *to_the_end(dezgula_solver *solver, uint64_t answer)
{
    while (solver != NULL && (answer == DEZGULA_STARTED || answer == DEZGULA_PAUSED)) answer = dezgula_solver_work(solver, 0);
    if (answer == DEZGULA_COMPLETE) return solver;
    fprintf(stderr, "kinds: %s\n", dezgula_sentence(answer));
    exit(1);
}
static void print(const char *before, const uint32_t *rows, size_t count, size_t q)
{
    for (size_t i = 0; i < count * q; i++) {
        if (i % q == 0) fputs(before, stdout);
        printf("%" PRIu32 "%c", rows[i], i % q + 1 < q ? ' ' : '\n');
    }
}
/* p lines of q coefficients, and where `sided` a right side */
static int read_map(dezgula_system *map, int sided)
{
    if (scanf("%zu %zu", &map->p, &map->q) != 2 || map->p > DEZGULA_ENGINE_MOST || map->q > DEZGULA_ENGINE_MOST) return 0;
    map->coefs_len = map->p * map->q;
    for (size_t i = 0; i < map->coefs_len; i++) {
        if (scanf("%" SCNd32, &coefs[i]) != 1) return 0;
        if (sided && i % map->q + 1 == map->q && scanf("%" SCNd32, &rights[i / map->q]) != 1) return 0;
    }
    for (size_t j = 0; sided && j < map->q; j++)
        if (scanf("%" SCNu32, &lower[j]) != 1) return 0;
    return 1;
}
static int list_sides(const dezgula_system *map)
{
    uint64_t answer;
    size_t count;
    dezgula_solver *solver = dezgula_solver_new_sides(map, rights, lower, &answer);
    solver = to_the_end(solver, answer);
    const uint32_t *rows = dezgula_solver_rows(solver, &count);
    print("0 ", rows, count, map->q);
    rows = dezgula_solver_smallest(solver, &count);
    print("1 ", rows, count, map->q);
    dezgula_solver_free(solver);
    return fflush(stdout) == 0 && !ferror(stdout) ? 0 : 1;
}
/* the groups' numbers of equations but for the last */
static int list_desks(const dezgula_system *map, char **sizes, int groups)
{
    uint64_t answer;
    size_t count = 0, done = 0;
    const uint32_t *rows = NULL;
    dezgula_solver *before = NULL;
    for (int k = 0; k <= groups; k++) {
        const size_t n = k < groups ? strtoul(sizes[k], NULL, 10) : map->p - done;
        if (n < 1 || n > map->p - done) return 2;
        const dezgula_system group = {n, map->q, coefs + done * map->q, n * map->q};
        const dezgula_list list = {rows, count * map->q, count};
        dezgula_solver *solver = k == 0 ? dezgula_solver_new(&group, &answer) : dezgula_solver_new_from(&group, &list, &answer);
        solver = to_the_end(solver, answer);
        rows = dezgula_solver_rows(solver, &count);
        dezgula_solver_free(before);
        before = solver, done += n;
    }
    print("", rows, count, map->q);
    dezgula_solver_free(before);
    return fflush(stdout) == 0 && !ferror(stdout) ? 0 : 1;
}

int main(int argc, char **argv)
{
    const int sided = argc == 2 && strcmp(argv[1], "sides") == 0, desks = argc > 2 && strcmp(argv[1], "desks") == 0;
    dezgula_system map = {0, 0, coefs, 0};
    if ((!sided && !desks) || !read_map(&map, sided)) return 2;
    return sided ? list_sides(&map) : list_desks(&map, argv + 2, argc - 2);
}
