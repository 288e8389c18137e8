/* Runs three maps at a time, turn by turn, and each alone, and compares answers, records and tables. Exits with 1 at the first surprise. */
#include "dezgula.h"

#include <stdbool.h>
#include <stdio.h>
#include <stdlib.h>
#include <string.h>

enum { RUNS = 3, STACK = 64, LIST = 64, QUANTUM = 3 };

static void expect(bool holds, const char *what)
{
    if (!holds) {
        printf("SURPRISE: %s\n", what);
        exit(1);
    }
}

static const int32_t coefs[] = {2, -3, 1, 1, -1, -1, 1, 2, -3, -1, 3, -2, -1};

static const dezgula_share shares[RUNS] = {
    {1, 2, {0, 2}, {40, 6}, {1, 7}},
    {1, 3, {2, 3}, {1, 13}, {9, 9}},
    {2, 4, {5, 8}, {14, 20}, {20, 8}},
};

static uint32_t stack[STACK], list[LIST];
static dezgula_round round_of_runs;

static dezgula_system system_of(const dezgula_share *s)
{
    dezgula_system m = {s->p, s->q, coefs + s->coefs.start, s->coefs.size};
    return m;
}

static dezgula_run run_of(const dezgula_share *s, uint32_t *stacks, uint32_t *lists, dezgula_record record)
{
    dezgula_run run = {stacks + s->stack.start, s->stack.size, lists + s->list.start, s->list.size, NULL, 0, record};
    return run;
}

static uint64_t serve(uint64_t turns)
{
    static const dezgula_tables tables = {coefs, sizeof coefs / sizeof *coefs, stack, STACK, list, LIST};
    return dezgula_dispatch(shares, RUNS, &tables, &round_of_runs, QUANTUM, turns);
}

/* One turn: the run that has it is where it is alone, and everything else is as it was. */
static void one_turn(void)
{
    static uint32_t stacks[STACK], lists[LIST];
    dezgula_round before = round_of_runs;
    memcpy(stacks, stack, sizeof stack);
    memcpy(lists, list, sizeof list);
    expect(serve(1) == DEZGULA_SERVED, "a turn is served");
    size_t i = round_of_runs.last - 1;
    dezgula_system m = system_of(&shares[i]);
    dezgula_run alone = run_of(&shares[i], stacks, lists, before.runs[i].record);
    expect(dezgula_resume(&m, &alone, QUANTUM) == round_of_runs.runs[i].answer, "its answer is that of a call alone");
    before.runs[i].record = alone.record;
    expect(!memcmp(stack, stacks, sizeof stack) && !memcmp(list, lists, sizeof list), "the tables are as after a call alone");
    for (size_t j = 0; j < DEZGULA_MOST_RUNS; j++)
        expect(!memcmp(&before.runs[j].record, &round_of_runs.runs[j].record, sizeof(dezgula_record)), "and so is each record");
}

int main(void)
{
    memset(stack, 9, sizeof stack);
    memset(list, 9, sizeof list);
    for (size_t i = 0; i < RUNS; i++) {
        dezgula_system m = system_of(&shares[i]);
        dezgula_run run = run_of(&shares[i], stack, list, round_of_runs.runs[i].record);
        expect(dezgula_start(&m, &run) == DEZGULA_STARTED, "it starts");
        round_of_runs.runs[i].record = run.record;
    }
    dezgula_round kept = round_of_runs;
    const dezgula_tables none = {NULL, 9, NULL, 9, NULL, 9};
    expect(dezgula_dispatch(NULL, RUNS, &none, &round_of_runs, QUANTUM, 1) == DEZGULA_SCHEDULE, "no shares are no runs");
    expect(dezgula_dispatch(shares, RUNS, &none, &round_of_runs, QUANTUM, 1) == DEZGULA_PARTS, "parts of no table");
    expect(memcmp(&kept, &round_of_runs, sizeof kept) == 0, "and nothing is changed");
    round_of_runs.last = 9;
    expect(serve(1) == DEZGULA_SCHEDULE, "a kept number above 8 is refused");
    round_of_runs = kept;
    round_of_runs.runs[1].record.kind = 1;
    round_of_runs.runs[2].record.deepest = DEZGULA_SUM_LIMIT + 1;
    expect(serve(0) == DEZGULA_SERVED && round_of_runs.runs[0].answer == DEZGULA_PAUSED, "a run in order is served");
    expect(round_of_runs.runs[1].answer == DEZGULA_OUT_OF_ORDER && round_of_runs.runs[1].record.kind == 1, "a record of another kind of run is not");
    expect(round_of_runs.runs[2].answer == DEZGULA_OUT_OF_ORDER, "nor one with a greatest sum above 16,000,000");
    round_of_runs = kept;
    unsigned turns = 0;
    while (round_of_runs.runs[0].record.height + round_of_runs.runs[1].record.height + round_of_runs.runs[2].record.height > 0) {
        one_turn();
        turns++;
    }
    expect(turns == 2 + 2 + 6, "as many turns as the steps ask for");
    expect(round_of_runs.runs[0].record.deepest == 5 && round_of_runs.runs[1].record.deepest == 2 && round_of_runs.runs[2].record.deepest == 7,
           "the greatest sum of each run");
    expect(serve(5) == DEZGULA_SERVED && round_of_runs.steps.count == 0, "then there is nothing to do");
    printf("dispatch: %u turns, each as alone\n", turns);
    return 0;
}
