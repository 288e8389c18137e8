/* One desk after the other, as an editor calls it: a first group solved by itself, a second one from its list in short calls, a list that is lent longer
 * when it is full, records of the wrong kind, and the refusals that an editor can meet. Prints what it did, and exits with 1 at the first surprise. */
#include "raw.h"

#include <stdbool.h>
#include <stdio.h>
#include <stdlib.h>
#include <string.h>

enum { ROWS = 16 };

/* the paper's example: its two equations as two desks */
static const int32_t first_coefs[] = {-1, 1, 2, -3}, second_coefs[] = {-1, 3, -2, -1};
static uint32_t first_stack[DEZGULA_STACK_LENGTH(4)], first_list[4 * ROWS], stack[DEZGULA_DESK_STACK_LENGTH(4, ROWS)], list[4 * ROWS];
static unsigned checked;

static void expect(bool holds, const char *what)
{
    if (!holds) {
        printf("SURPRISE: %s\n", what);
        exit(1);
    }
    checked++;
}

static uint64_t answered(const char *title, uint64_t answer)
{
    printf("%s: %u, %s\n", title, dezgula_number(answer), dezgula_sentence(answer));
    return answer;
}

static void refusals(const dezgula_system *second, const dezgula_list *first, dezgula_run *run)
{
    dezgula_list many_rows = {first->rows, first->rows_len, first->rows_len / 4 + 1}, none = {NULL, 0, 0};
    const dezgula_record before = run->record;
    uint64_t words[DEZGULA_RECORD_LENGTH] = {0};
    expect(dezgula_raw_start_desk(1, 4, second_coefs, 4, first_list, 23, stack, 36, list, 4, words, 7) == DEZGULA_COUNT, "3 for a row that is not whole");
    expect(answered("a row more than there are", dezgula_start_desk(second, &many_rows, run)) == DEZGULA_OUT_OF_ORDER, "6 for more than their table has");
    many_rows.found = SIZE_MAX;
    expect(answered("far more", dezgula_resume_desk(second, &many_rows, run, 1)) == DEZGULA_OUT_OF_ORDER, "6");
    run->stack_len = 5 * 6;
    expect(answered("on a short stack", dezgula_start_desk(second, &many_rows, run)) == DEZGULA_STACK_SHORT, "4 comes before 6");
    expect(memcmp(&before, &run->record, sizeof before) == 0, "and the record is as it was");
    run->stack_len = 5 * 6;
    expect(answered("a row too few", dezgula_start_desk(second, first, run)) == DEZGULA_STACK_SHORT, "4");
    run->stack_len = sizeof stack / sizeof *stack;
    static uint32_t many[4 * 65], large[] = {1000001, 0, 0, 0}, wide[] = {0, 700001, 0, 0};
    static uint32_t room[DEZGULA_DESK_STACK_LENGTH(4, 65)];
    dezgula_run longer = {room, sizeof room / sizeof *room, list, 0, NULL, 0, {0}};
    dezgula_list sixty_five = {many, sizeof many / sizeof *many, 65}, too_large = {large, 4, 1}, too_wide = {wide, 4, 1};
    expect(answered("65 rows", dezgula_start_desk(second, &sixty_five, &longer)) == DEZGULA_GENERATORS, "25");
    sixty_five.found = 64;
    expect(answered("64 rows", dezgula_start_desk(second, &sixty_five, &longer)) == DEZGULA_STARTED && longer.record.height == 64, "64 are taken");
    expect(answered("a component too large", dezgula_start_desk(second, &too_large, run)) == DEZGULA_OUT_OF_ORDER, "6 at a start");
    int32_t greatest[] = {0, 10000, 0, 0};
    dezgula_system other = {1, 4, greatest, 4};
    expect(answered("an image too large", dezgula_start_desk(&other, &too_wide, run)) == DEZGULA_GENERATORS, "25 for an image");
    greatest[1] = 10001;
    expect(answered("a coefficient too large", dezgula_start_desk(&other, &too_wide, run)) == DEZGULA_COEFFICIENT + 256 * 2, "7 comes first");
    expect(answered("no rows", dezgula_start_desk(second, &none, run)) == DEZGULA_STARTED && run->record.height == 0, "none is a start too");
    expect(dezgula_resume_desk(second, &none, run, 0) == DEZGULA_COMPLETE && run->record.found.count == 0, "and complete at once");
}

int main(void)
{
    dezgula_system one = {1, 4, first_coefs, 4}, two = {1, 4, second_coefs, 4};
    dezgula_run before = {first_stack, sizeof first_stack / sizeof *first_stack, first_list, sizeof first_list / sizeof *first_list, NULL, 0, {0}};
    expect(dezgula_start(&one, &before) == DEZGULA_STARTED && dezgula_resume(&one, &before, 1000) == DEZGULA_COMPLETE, "the first group is solved");
    dezgula_list first = dezgula_listed(&before);
    expect(first.found == 6, "six minimal solutions");

    dezgula_run run = {stack, sizeof stack / sizeof *stack, list, 4, NULL, 0, before.record};
    expect(answered("a record of another kind", dezgula_resume_desk(&two, &first, &run, 1)) == DEZGULA_OUT_OF_ORDER, "a plain record is refused");
    expect(answered("a start", dezgula_start_desk(&two, &first, &run)) == DEZGULA_STARTED, "the start");
    expect(run.record.kind == DEZGULA_RUN_DESK && run.record.height == 6 && run.record.deepest == 0, "the record says so");
    expect(dezgula_resume(&two, &run, 1) == DEZGULA_OUT_OF_ORDER, "and is refused by the plain call");

    unsigned full = 0;
    uint64_t answer;
    while ((answer = dezgula_resume_desk(&two, &first, &run, 1)) != DEZGULA_COMPLETE) {
        expect(answer == DEZGULA_PAUSED || answer == DEZGULA_LIST_FULL, "a step, or no room");
        if (answer == DEZGULA_LIST_FULL) full++, run.list_len += 4;
    }
    answered("the end", answer);
    const uint32_t rows[] = {4, 2, 1, 0, 0, 1, 1, 1};
    expect(full == 1 && run.record.found.count == 2 && memcmp(list, rows, sizeof rows) == 0, "a list that was full, and the two minimal solutions of both");
    expect(run.record.steps.count == 19 && run.record.deepest == 24, "19 steps, and the greatest sum");

    refusals(&two, &first, &run);
    printf("%u checks\n", checked);
    return 0;
}
