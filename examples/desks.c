/* The minimal solutions of a map that comes as several groups of equations, one desk after the other: desks FIRST SECOND ..
 *
 * The first file is solved by itself; each further one from the list of those before it. All have the same unknowns. Standard error tells steps and solutions
 * after each desk; standard output gets the rows. The status is 0 for a complete list, 1 where the library refuses, 2 where something cannot be read or
 * written.
 *
 *   cc -O2 -Iinclude examples/desks.c target/library/libdezgula.a -o desks */
#include "dezgula_text.h"

#include <inttypes.h>
#include <stdio.h>
#include <stdlib.h>

enum { MOST = DEZGULA_MOST_UNKNOWNS, ROWS = 4096 };

static uint32_t stack[DEZGULA_DESK_STACK_LENGTH(MOST, DEZGULA_MOST_GENERATORS)], lists[2][ROWS * MOST];

static void check(uint64_t answer, unsigned expected, const char *name)
{
    if (dezgula_number(answer) == expected) return;
    fprintf(stderr, "%s: %s\n", name, dezgula_sentence(answer));
    exit(1);
}

static dezgula_system read_group(const char *name, int32_t coefs[DEZGULA_MAP_COEFFICIENTS])
{
    static char text[DEZGULA_MOST_TEXT + 1];
    dezgula_system group;
    FILE *file = fopen(name, "r");
    if (file == NULL) perror(name), exit(2);
    check(dezgula_read_map(text, fread(text, 1, sizeof text, file), coefs, &group), DEZGULA_MAP_READ, name);
    fclose(file);
    return group;
}

int main(int count, char **words)
{
    int32_t coefs[DEZGULA_MAP_COEFFICIENTS];
    dezgula_system group = {0, 0, NULL, 0};
    dezgula_list solved = {NULL, 0, 0};
    dezgula_run run = {0};
    for (int k = 1; k < count; k++) {
        size_t q = group.q;
        group = read_group(words[k], coefs);
        if (k > 1 && group.q != q) return fprintf(stderr, "%s: the number of unknowns is another than before\n", words[k]), 1;
        run = (dezgula_run){.stack = stack, .stack_len = sizeof stack / sizeof *stack, .list = lists[k % 2], .list_len = ROWS * MOST};
        uint64_t answer = k == 1 ? dezgula_start(&group, &run) : dezgula_start_desk(&group, &solved, &run);
        check(answer, DEZGULA_STARTED, words[k]);
        do answer = k == 1 ? dezgula_resume(&group, &run, 10000000) : dezgula_resume_desk(&group, &solved, &run, 10000000);
        while (answer == DEZGULA_PAUSED);
        check(answer, DEZGULA_COMPLETE, words[k]);
        fprintf(stderr, "%s: %" PRIu64 " steps, %" PRIu64 " solutions\n", words[k], run.record.steps.count, run.record.found.count);
        solved = dezgula_listed(&run);
    }
    uint32_t row[MOST];
    for (size_t n = 1; dezgula_row(&group, &run, n, row, MOST) == DEZGULA_ROW; n++)
        for (size_t j = 0; j < group.q; j++) printf("%" PRIu32 "%c", row[j], j + 1 < group.q ? ' ' : '\n');
    return fflush(stdout) != 0 || ferror(stdout) ? 2 : 0;
}
