/* Takes a plan apart: decompose X1 X2 X3 X4 lists the minimal solutions of -x1 + x2 + 2 x3 - 3 x4 = 0, and says which of them, and how often, make up the
 * tuple; or why none do. The status is 0 where they do, 1 where they do not, 2 where standard output cannot be written.
 *
 *   cc -O2 -Iinclude examples/decompose.c target/library/libdezgula.a -o decompose */
#include "dezgula.h"

#include <inttypes.h>
#include <stdio.h>
#include <stdlib.h>

enum { UNKNOWNS = 4, ROWS = 16 };

static uint32_t stack[DEZGULA_STACK_LENGTH(UNKNOWNS)], list[ROWS * UNKNOWNS], times[ROWS];

int main(int count, char **words)
{
    static const int32_t coefs[UNKNOWNS] = {-1, 1, 2, -3};
    dezgula_system system = {.p = 1, .q = UNKNOWNS, .coefs = coefs, .coefs_len = UNKNOWNS};
    dezgula_run run = {.stack = stack, .stack_len = sizeof stack / sizeof *stack, .list = list, .list_len = sizeof list / sizeof *list};
    uint32_t tuple[UNKNOWNS];
    if (count != UNKNOWNS + 1) return fprintf(stderr, "usage: decompose X1 X2 X3 X4\n"), 2;
    for (size_t j = 0; j < UNKNOWNS; j++) tuple[j] = (uint32_t)strtoul(words[j + 1], NULL, 10);
    if (dezgula_start(&system, &run) != DEZGULA_STARTED || dezgula_resume(&system, &run, 1000000) != DEZGULA_COMPLETE) return 2;

    dezgula_list rows = dezgula_listed(&run);
    int64_t amount = 0;
    uint64_t answer = dezgula_decompose(&system, &rows, tuple, UNKNOWNS, times, ROWS, &amount);
    if (answer == DEZGULA_MADE) {
        for (size_t i = 0; i < rows.found; i++) {
            const uint32_t *row = rows.rows + i * UNKNOWNS;
            if (times[i] > 0) printf("%" PRIu32 " times %" PRIu32 " %" PRIu32 " %" PRIu32 " %" PRIu32 "\n", times[i], row[0], row[1], row[2], row[3]);
        }
    } else if (dezgula_number(answer) == DEZGULA_OFF) {
        printf("equation %" PRIu64 " is off by %" PRId64 "\n", dezgula_place(answer), amount);
    } else {
        puts(dezgula_sentence(answer));
    }
    if (fflush(stdout) != 0 || ferror(stdout)) return 2;
    return answer == DEZGULA_MADE ? 0 : 1;
}
