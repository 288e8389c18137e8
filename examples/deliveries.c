/* Lists to its end what a system with right sides has: deliveries <EQUATIONS
 *
 * The first line has the number of unknowns, 1 to 15, and each further line is an equation, as "2*(x1 + x3) - x2 = 3": see maps/deliveries.eqs. Of the two
 * lists the one that is full is made longer. Standard output gets what the program `equations` prints. The status is 0 for complete lists, 1 where the library
 * refuses, 2 where something cannot be read or written.
 *
 *   cc -O2 -Iinclude examples/deliveries.c target/library/libdezgula.a -o deliveries */
#include "dezgula_text.h"

#include <inttypes.h>
#include <stdio.h>
#include <stdlib.h>

typedef uint64_t reader(const dezgula_system *, const dezgula_run *, size_t, uint32_t *, size_t);

static void lengthen(uint32_t **list, size_t *length, size_t q)
{
    *length = *length > 0 ? 2 * *length : 64 * q;
    *list = realloc(*list, *length * sizeof **list);
    if (*list == NULL) exit(2);
}

static void report(const dezgula_system *system, const dezgula_run *run, int at, uint64_t count, reader *read)
{
    uint32_t row[DEZGULA_MOST_UNKNOWNS];
    printf("at %d solutions %" PRIu64 "\n", at, count);
    for (size_t n = 1; read(system, run, n, row, DEZGULA_MOST_UNKNOWNS) == DEZGULA_ROW; n++)
        for (size_t j = 0; j < system->q; j++) printf("%" PRIu32 "%c", row[j], j + 1 < system->q ? ' ' : '\n');
}

int main(void)
{
    static char text[DEZGULA_MOST_TEXT + 1], line[8];
    static int32_t coefs[DEZGULA_MAP_COEFFICIENTS], rights[DEZGULA_MAP_RIGHTS];
    static uint32_t stack[DEZGULA_RIGHTS_STACK_LENGTH(DEZGULA_MOST_UNKNOWNS_WITH_RIGHTS)];
    size_t q = fgets(line, sizeof line, stdin) != NULL ? strtoul(line, NULL, 10) : 0;
    uint64_t within = 0;
    dezgula_system system;
    uint64_t answer = dezgula_read_system(text, fread(text, 1, sizeof text, stdin), q, coefs, DEZGULA_MAP_COEFFICIENTS, rights, DEZGULA_MAP_RIGHTS, &system,
                                          &within);
    if (dezgula_number(answer) != DEZGULA_SYSTEM_READ) {
        fprintf(stderr, "equation %" PRIu64 ", place %" PRIu64 ": %s\n", dezgula_place(answer), within, dezgula_sentence(answer));
        return 1;
    }
    dezgula_run run = {.stack = stack, .stack_len = sizeof stack / sizeof *stack};
    answer = dezgula_start_rights(&system, rights, system.p, &run);
    if (answer != DEZGULA_STARTED) return fprintf(stderr, "%s\n", dezgula_sentence(answer)), 1;
    do {
        answer = dezgula_resume_rights(&system, rights, system.p, &run, 10000000);
        if (answer == DEZGULA_LIST_FULL && dezgula_full_list(&system, &run) == DEZGULA_LIST) lengthen(&run.list, &run.list_len, q);
        else if (answer == DEZGULA_LIST_FULL) lengthen(&run.second, &run.second_len, q);
    } while (answer == DEZGULA_PAUSED || answer == DEZGULA_LIST_FULL);

    printf("equations %zu\nunknowns %zu\nsteps %" PRIu64 "\n", system.p, q, run.record.steps.count);
    report(&system, &run, 0, run.record.found.count, dezgula_row);
    report(&system, &run, 1, run.record.second.count, dezgula_second_row);
    if (answer == DEZGULA_COMPLETE) puts("end complete");
    else printf("end refused %u\n", dezgula_number(answer));
    free(run.list);
    free(run.second);
    if (fflush(stdout) != 0 || ferror(stdout)) return 2;
    return answer == DEZGULA_COMPLETE ? 0 : 1;
}
