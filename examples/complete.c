/* Lists the minimal solutions of a map to the end, however long that takes: complete <MAP
 *
 * The map is "p q" and then p lines of q numbers. A run that pauses is gone on with, and a full list is made twice as long. Standard error shows how far it
 * is after each call; standard output gets what the program `basis` prints. The status is 0 for a complete list, 1 where the library refuses, 2 where
 * something cannot be read or written.
 *
 *   cc -O2 -Iinclude examples/complete.c target/library/libdezgula.a -o complete */
#include "dezgula_text.h"

#include <inttypes.h>
#include <stdio.h>
#include <stdlib.h>

static int stop(int status, const char *why)
{
    fprintf(stderr, "complete: %s\n", why);
    return status;
}

int main(void)
{
    static char text[DEZGULA_MOST_TEXT + 1];
    static int32_t coefs[DEZGULA_MAP_COEFFICIENTS];
    static uint32_t stack[DEZGULA_STACK_LENGTH(DEZGULA_MOST_UNKNOWNS)];
    dezgula_system system;
    uint64_t answer = dezgula_read_map(text, fread(text, 1, sizeof text, stdin), coefs, &system);
    if (answer != DEZGULA_MAP_READ) return stop(ferror(stdin) ? 2 : 1, dezgula_sentence(answer));

    dezgula_run run = {.stack = stack, .stack_len = sizeof stack / sizeof *stack};
    answer = dezgula_start(&system, &run);
    if (answer != DEZGULA_STARTED) return stop(1, dezgula_sentence(answer));
    do {
        answer = dezgula_resume(&system, &run, 10000000);
        fprintf(stderr, "%" PRIu64 " steps, %" PRIu64 " solutions, greatest sum %" PRIu64 "\n", run.record.steps.count, run.record.found.count,
                run.record.deepest);
        if (answer == DEZGULA_LIST_FULL) {
            size_t longer = run.list_len > 0 ? 2 * run.list_len : 64 * system.q;
            uint32_t *list = realloc(run.list, longer * sizeof *list);
            if (list == NULL) return stop(2, "there is no memory for a longer list");
            run.list = list;
            run.list_len = longer;
        }
    } while (answer == DEZGULA_PAUSED || answer == DEZGULA_LIST_FULL);

    printf("equations %zu\nunknowns %zu\nsteps %" PRIu64 "\nsolutions %" PRIu64 "\n", system.p, system.q, run.record.steps.count, run.record.found.count);
    uint32_t row[DEZGULA_MOST_UNKNOWNS];
    for (size_t n = 1; dezgula_row(&system, &run, n, row, DEZGULA_MOST_UNKNOWNS) == DEZGULA_ROW; n++)
        for (size_t j = 0; j < system.q; j++) printf("%" PRIu32 "%c", row[j], j + 1 < system.q ? ' ' : '\n');
    if (answer == DEZGULA_COMPLETE) puts("end complete");
    else printf("end refused %u\n", dezgula_number(answer));
    free(run.list);
    if (fflush(stdout) != 0 || ferror(stdout)) return stop(2, "the list cannot be written");
    return answer == DEZGULA_COMPLETE ? 0 : 1;
}
