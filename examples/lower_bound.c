/* The minimal solutions at or above a lower bound: lower_bound
 *
 * x1 + x2 = x3 with at least two of x2: first the plain walk, whose list a run from a lower bound needs, then the walk above it. The lists are lent short, and
 * made longer by a row when they are full, so that both cases are seen. The status is 0 for a complete list, 1 where the library refuses, 2 where standard
 * output cannot be written.
 *
 *   cc -O2 -Iinclude examples/lower_bound.c target/library/libdezgula.a -o lower_bound */
#include "dezgula.h"

#include <inttypes.h>
#include <stdio.h>

enum { UNKNOWNS = 3, ROWS = 16 };

static uint32_t stack[DEZGULA_STACK_LENGTH(UNKNOWNS)], list[ROWS * UNKNOWNS], second[ROWS * UNKNOWNS];

int main(void)
{
    static const int32_t coefs[] = {1, 1, -1};
    static const uint32_t lower[] = {0, 2, 0};
    const dezgula_system system = {.p = 1, .q = UNKNOWNS, .coefs = coefs, .coefs_len = UNKNOWNS};
    dezgula_run run = {.stack = stack, .stack_len = DEZGULA_STACK_LENGTH(UNKNOWNS), .list = list, .second = second};
    uint64_t answer = dezgula_start_from(&system, lower, UNKNOWNS, &run);
    while (answer == DEZGULA_STARTED || answer == DEZGULA_PAUSED || answer == DEZGULA_LIST_FULL) {
        if (answer == DEZGULA_LIST_FULL) {
            size_t *length = dezgula_full_list(&system, &run) == DEZGULA_LIST ? &run.list_len : &run.second_len;
            if (*length == ROWS * UNKNOWNS) break;
            *length += UNKNOWNS;
        }
        answer = dezgula_resume_from(&system, lower, UNKNOWNS, &run, 1000000);
    }
    printf("plain: %" PRIu64 " steps, %" PRIu64 " solutions\n", run.record.before.count, run.record.second.count);
    printf("above the lower bound: %" PRIu64 " steps, %" PRIu64 " solutions\n", run.record.steps.count, run.record.found.count);
    uint32_t row[UNKNOWNS];
    for (size_t n = 1; dezgula_row(&system, &run, n, row, UNKNOWNS) == DEZGULA_ROW; n++)
        printf("%" PRIu32 " %" PRIu32 " %" PRIu32 "\n", row[0], row[1], row[2]);
    puts(dezgula_sentence(answer));
    if (fflush(stdout) != 0 || ferror(stdout)) return 2;
    return answer == DEZGULA_COMPLETE ? 0 : 1;
}
