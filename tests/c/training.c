/* The training seat, as a trainer's program would use it: a run to its end, as the office's after as many steps; six and seven unknowns; components of 20 and
 * of 21 in a row, in a lower bound and in a child; every other refusal that a caller can meet; and tables that are not there. Exits with 1 at the first
 * surprise. */
#include "dezgula.h"

#include <stdbool.h>
#include <stdio.h>
#include <stdlib.h>
#include <string.h>

enum { STACK = DEZGULA_STACK_LENGTH(17), LIST = 64 };

static uint32_t stack[STACK], list[LIST], second[LIST];
static unsigned checked;

static void expect(bool holds, const char *what)
{
    if (!holds) {
        printf("SURPRISE: %s\n", what);
        exit(1);
    }
    checked++;
}

static dezgula_run lend(size_t list_len)
{
    memset(stack, 0xa5, sizeof stack);
    memset(list, 0xa5, sizeof list);
    dezgula_run run = {stack, STACK, list, list_len, NULL, 0, {0}};
    memset(&run.record, 0xa5, sizeof run.record);
    return run;
}

/* Document 01's map, step by step at both seats. */
static void as_the_office(void)
{
    static const int32_t coefs[] = {-1, 1, 2, -3, -1, 3, -2, -1};
    static const dezgula_system map = {2, 4, coefs, 8};
    static uint32_t other_stack[STACK], other_list[LIST];
    dezgula_run here = lend(LIST), there = here;
    memcpy(other_stack, stack, sizeof stack);
    memcpy(other_list, list, sizeof list);
    there.stack = other_stack;
    there.list = other_list;
    expect(dezgula_start_training(&map, &here) == DEZGULA_STARTED && dezgula_start(&map, &there) == DEZGULA_STARTED, "both seats start");
    for (unsigned n = 0;; n++) {
        expect(memcmp(&here.record, &there.record, sizeof here.record) == 0, "the records are equal");
        expect(memcmp(stack, other_stack, sizeof stack) == 0 && memcmp(list, other_list, sizeof list) == 0, "the tables are equal");
        uint64_t answer = dezgula_resume_training(&map, &here, 1);
        expect(answer == dezgula_resume(&map, &there, 1), "the answers are equal");
        if (answer == DEZGULA_COMPLETE) {
            expect(n == 15 && here.record.steps.count == 16 && here.record.found.count == 2, "complete after 16 steps with two rows");
            return;
        }
        expect(answer == DEZGULA_PAUSED, "paused");
    }
}

/* 20 -19 has 19 20; 21 -20 would need a component of 21. */
static void at_twenty(void)
{
    static const int32_t within[] = {20, -19}, past[] = {21, -20};
    dezgula_system map = {1, 2, within, 2};
    dezgula_run run = lend(LIST);
    expect(dezgula_start_training(&map, &run) == DEZGULA_STARTED, "it starts");
    expect(dezgula_resume_training(&map, &run, 1000) == DEZGULA_COMPLETE && list[0] == 19 && list[1] == 20, "a component of 20 is listed");
    map.coefs = past;
    expect(dezgula_start_training(&map, &run) == DEZGULA_STARTED, "it starts");
    uint64_t answer = dezgula_resume_training(&map, &run, 1000);
    expect(answer == DEZGULA_TRAINING_COMPONENT && run.record.steps.count == 40 && run.record.found.count == 0, "a child of 21 is refused after 40 steps");
    expect(dezgula_resume_training(&map, &run, 1000) == DEZGULA_TRAINING_COMPONENT && run.record.steps.count == 40, "again, with no step");
    expect(dezgula_resume(&map, &run, 1000) == DEZGULA_COMPLETE && list[0] == 20 && list[1] == 21, "the office goes on from there");
    static const dezgula_record row = {1, {0}, {0}, DEZGULA_RUN_PLAIN, {0}, {0}, 0};
    run.record = row;
    stack[1] = 0;
    stack[2] = 0;
    stack[0] = 20;
    expect(dezgula_resume_training(&map, &run, 0) == DEZGULA_PAUSED, "a row of 20 is in order");
    stack[0] = 21;
    expect(dezgula_resume_training(&map, &run, 0) == DEZGULA_OUT_OF_ORDER, "a row of 21 is not");
    expect(dezgula_resume(&map, &run, 0) == DEZGULA_PAUSED, "at the office it is");
}

/* From a lower bound: 1 -1 from 0 2 has 2 2; a bound of 20 and of 21; a child past 20 in the walk above the bound. */
static void from_a_bound(void)
{
    static const int32_t coefs[] = {1, -1}, doubled[] = {2, -1};
    static const uint32_t low[] = {0, 2}, edge[] = {20, 0}, past[] = {0, 21}, near[] = {20, 19};
    dezgula_system map = {1, 2, coefs, 2};
    dezgula_run run = lend(LIST);
    run.second = second;
    run.second_len = LIST;
    expect(dezgula_start_training_from(&map, low, 2, &run) == DEZGULA_STARTED && run.record.kind == DEZGULA_RUN_FROM_PLAIN, "it starts with the plain walk");
    expect(dezgula_resume_training_from(&map, low, 2, &run, 0) == DEZGULA_PAUSED, "no step is allowed");
    expect(dezgula_resume_training_from(&map, low, 2, &run, 1000) == DEZGULA_COMPLETE, "it ends");
    expect(run.record.found.count == 1 && list[0] == 2 && list[1] == 2 && run.record.steps.count == 3, "with 2 2 after 3 steps of the second walk");
    expect(run.record.second.count == 1 && second[0] == 1 && second[1] == 1, "and 1 1 in the second list");
    expect(dezgula_start_training_from(&map, edge, 2, &run) == DEZGULA_STARTED, "a bound of 20");
    expect(dezgula_resume_training_from(&map, edge, 2, &run, 1000) == DEZGULA_COMPLETE && list[0] == 20 && list[1] == 20, "has 20 20");
    dezgula_run before = run;
    uint64_t answer = dezgula_start_training_from(&map, past, 2, &run);
    expect(answer == DEZGULA_TUPLE_RANGE && memcmp(&run.record, &before.record, sizeof run.record) == 0, "a bound of 21 is refused");
    expect(dezgula_start_from(&map, past, 2, &run) == DEZGULA_STARTED, "the office takes it");
    expect(dezgula_start_training_from(&map, low, 1, &run) == DEZGULA_TUPLE_LENGTH, "a bound of another length");
    map.coefs = doubled;
    expect(dezgula_start_training_from(&map, near, 2, &run) == DEZGULA_STARTED, "2 -1 from 20 19");
    answer = dezgula_resume_training_from(&map, near, 2, &run, 1000);
    expect(answer == DEZGULA_TRAINING_COMPONENT && run.record.kind == DEZGULA_RUN_FROM_ABOVE, "would pass 20 above the bound");
    map.q = 7;
    expect(dezgula_resume_training_from(&map, near, 2, &run, 1) == DEZGULA_TRAINING_WIDE, "seven unknowns come before all else");
}

static void refusals(void)
{
    static const int32_t ones[8 * 17] = {1, 1, 1, 1, 1, 1, 1, 1}, large[] = {1, -10001};
    static const struct {
        dezgula_system map;
        uint64_t start;
    } cases[] = {
        {{0, 7, ones, 7}, DEZGULA_EQUATIONS},       {{9, 17, ones, 7}, DEZGULA_EQUATIONS},   {{1, 0, ones, 0}, DEZGULA_UNKNOWNS},
        {{1, 17, ones, 17}, DEZGULA_UNKNOWNS},      {{1, 7, ones, 7}, DEZGULA_TRAINING_WIDE}, {{1, 16, ones, 3}, DEZGULA_TRAINING_WIDE},
        {{1, 6, ones, 5}, DEZGULA_COUNT}, {{1, 6, ones, 6}, DEZGULA_STARTED},      {{1, 6, NULL, 6}, DEZGULA_COUNT},
        {{1, 2, large, 2}, DEZGULA_COEFFICIENT | 2 << 8},
    };
    for (size_t n = 0; n < sizeof cases / sizeof *cases; n++) {
        dezgula_run run = lend(LIST), before = run;
        uint64_t answer = dezgula_start_training(&cases[n].map, &run);
        expect(answer == cases[n].start, "each refusal of a start in its case");
        expect(answer == DEZGULA_STARTED || (memcmp(&run.record, &before.record, sizeof run.record) == 0 && stack[0] == 0xa5a5a5a5u), "and nothing is written");
        run.record.height = 99;
        answer = dezgula_resume_training(&cases[n].map, &run, 1);
        bool later = cases[n].start == DEZGULA_STARTED || dezgula_number(cases[n].start) == DEZGULA_COEFFICIENT;
        expect(answer == (later ? DEZGULA_OUT_OF_ORDER : cases[n].start), "and of a continuing call");
    }
    dezgula_system map = {1, 2, ones, 2};
    dezgula_run run = lend(0);
    run.stack_len = 5;
    expect(dezgula_start_training(&map, &run) == DEZGULA_STACK_SHORT, "a short stack");
    run.stack = NULL;
    expect(dezgula_start_training(&map, &run) == DEZGULA_STACK_SHORT, "no stack");
    static const int32_t zeros[] = {0, 0};
    map.coefs = zeros;
    run = lend(0);
    run.list = NULL;
    expect(dezgula_start_training(&map, &run) == DEZGULA_STARTED, "a start asks for no list");
    expect(dezgula_resume_training(&map, &run, 9) == DEZGULA_LIST_FULL, "a solution without room");
}

int main(void)
{
    as_the_office();
    at_twenty();
    from_a_bound();
    refusals();
    printf("the training seat: %u checks\n", checked);
    return 0;
}
