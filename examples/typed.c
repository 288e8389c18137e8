/* Lists the minimal solutions of a system that somebody typed: typed Q <EQUATIONS
 *
 * Q is the number of unknowns; each line is an equation, as "2*(x1 + x3) - x2 = 0", with the right side zero. A line that is refused is shown with its place.
 * The status is 0 for a complete list, 1 where the library refuses, 2 where something cannot be read or written.
 *
 *   cc -O2 -Iinclude examples/typed.c target/library/libdezgula.a -o typed */
#include "dezgula_text.h"

#include <inttypes.h>
#include <stdio.h>
#include <stdlib.h>

static char text[DEZGULA_MOST_TEXT + 1];
static int32_t coefs[DEZGULA_MAP_COEFFICIENTS], rights[DEZGULA_MAP_RIGHTS];
static uint32_t stack[DEZGULA_STACK_LENGTH(DEZGULA_MOST_UNKNOWNS)], list[8192];

int main(int count, char **words)
{
    if (count != 2) return fprintf(stderr, "usage: typed Q <EQUATIONS\n"), 2;
    dezgula_system system;
    uint64_t within = 0;
    uint64_t answer = dezgula_read_system(text, fread(text, 1, sizeof text, stdin), strtoul(words[1], NULL, 10), coefs, DEZGULA_MAP_COEFFICIENTS, rights,
                                          DEZGULA_MAP_RIGHTS, &system, &within);
    if (dezgula_number(answer) != DEZGULA_SYSTEM_READ) {
        fprintf(stderr, "refused %u, line %" PRIu64 ", place %" PRIu64 ": ", dezgula_number(answer), dezgula_place(answer), within);
        fprintf(stderr, "%s\n", dezgula_sentence(answer));
        return 1;
    }
    for (size_t i = 0; i < system.p; i++)
        if (rights[i] != 0) return fprintf(stderr, "line %zu: the right side is not zero\n", i + 1), 1;

    dezgula_run run = {.stack = stack, .stack_len = sizeof stack / sizeof *stack, .list = list, .list_len = sizeof list / sizeof *list};
    answer = dezgula_start(&system, &run);
    while (answer == DEZGULA_STARTED || answer == DEZGULA_PAUSED) answer = dezgula_resume(&system, &run, 1000000);
    uint32_t row[DEZGULA_MOST_UNKNOWNS];
    for (size_t n = 1; dezgula_row(&system, &run, n, row, DEZGULA_MOST_UNKNOWNS) == DEZGULA_ROW; n++)
        for (size_t k = 0; k < system.q; k++) printf("%" PRIu32 "%c", row[k], k + 1 < system.q ? ' ' : '\n');
    puts(dezgula_sentence(answer));
    if (fflush(stdout) != 0 || ferror(stdout)) return 2;
    return answer == DEZGULA_COMPLETE ? 0 : 1;
}
