/* Times a map of 8 equations as a whole and desk by desk, in two, four and eight groups: desks MAP SECONDS. Prints a line of a table: solutions, and of each
 * way the steps of all its walks and the seconds of the processor; "over" is past the limit, 25 where a list is not one that the next desk can
 * start from. */
#include "dezgula_text.h"

#include <inttypes.h>
#include <stdio.h>
#include <stdlib.h>
#include <time.h>

enum { BUDGET = 20000, ROWS = 65536, TEXT = 4097 };

static double limit;
static uint32_t stack[DEZGULA_DESK_STACK_LENGTH(DEZGULA_MOST_UNKNOWNS, ROWS)], lists[2][DEZGULA_MOST_UNKNOWNS * ROWS];

typedef struct {
    uint64_t steps, found, answer;
    double seconds;
} outcome;

static double now(void)
{
    return (double)clock() / CLOCKS_PER_SEC;
}

/* The map in some groups of as many equations each. */
static outcome solve(const dezgula_system *map, size_t groups)
{
    size_t each = map->p / groups;
    outcome all = {0, 0, DEZGULA_COMPLETE, now()};
    dezgula_list first = {NULL, 0, 0};
    for (size_t k = 0; k < groups; k++) {
        dezgula_system group = {each, map->q, map->coefs + k * each * map->q, each * map->q};
        dezgula_run run = {stack, sizeof stack / sizeof *stack, lists[k % 2], sizeof lists[0] / sizeof **lists, NULL, 0, {0}};
        uint64_t answer = k == 0 ? dezgula_start(&group, &run) : dezgula_start_desk(&group, &first, &run);
        if (answer == DEZGULA_STARTED)
            do answer = k == 0 ? dezgula_resume(&group, &run, BUDGET) : dezgula_resume_desk(&group, &first, &run, BUDGET);
            while (answer == DEZGULA_PAUSED && now() - all.seconds < limit);
        if (answer != DEZGULA_GENERATORS) all.steps += run.record.steps.count;
        all.found = run.record.found.count;
        all.answer = answer;
        if (answer != DEZGULA_COMPLETE) break;
        first = dezgula_listed(&run);
    }
    all.seconds = now() - all.seconds;
    return all;
}

static void tell(outcome o)
{
    if (o.answer == DEZGULA_COMPLETE) printf(" %" PRIu64 " | %.3f |", o.steps, o.seconds);
    else if (o.answer == DEZGULA_PAUSED) printf(" over %" PRIu64 " | - |", o.steps);
    else printf(" refused %u | - |", dezgula_number(o.answer));
}

int main(int count, char **words)
{
    static char text[TEXT];
    static int32_t coefs[DEZGULA_MAP_COEFFICIENTS];
    dezgula_system map;
    FILE *file = count == 3 ? fopen(words[1], "r") : NULL;
    if (file == NULL || dezgula_read_map(text, fread(text, 1, sizeof text, file), coefs, &map) != DEZGULA_MAP_READ || map.p != 8) {
        fprintf(stderr, "desks: this is no map of 8 equations\n");
        return 2;
    }
    limit = atof(words[2]);
    outcome ways[] = {solve(&map, 1), solve(&map, 2), solve(&map, 4), solve(&map, 8)};
    const outcome *told = NULL;
    for (size_t i = 0; i < 4; i++)
        if (ways[i].answer == DEZGULA_COMPLETE) {
            if (told != NULL && told->found != ways[i].found) return fprintf(stderr, "desks: %s: the lists differ\n", words[1]), 1;
            told = &ways[i];
        }
    if (told != NULL) printf(" %" PRIu64 " |", told->found);
    else printf(" - |");
    for (size_t i = 0; i < 4; i++) tell(ways[i]);
    puts("");
    return 0;
}
