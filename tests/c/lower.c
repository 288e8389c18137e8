/* Runs from a lower bound, as an editor would use them: both walks to the end with a pause at every step, a full list of either walk, every refusal that a
 * caller can meet, and tables that are not there. Prints what it did, and exits with 1 at the first surprise. */
#include "raw.h"

#include <inttypes.h>
#include <stdbool.h>
#include <stdio.h>
#include <stdlib.h>
#include <string.h>

enum { MOST = DEZGULA_MOST_UNKNOWNS, STACK = DEZGULA_STACK_LENGTH(MOST), LIST = 64 };

#define UNTOUCHED 0xa5a5a5a5u

static uint32_t stack[STACK], list[LIST], second[LIST];
static unsigned checked;

static void expect(bool holds, const char *what)
{
    if (!holds) {
        printf("SURPRISE: %s\n", what);
        exit(1);
    }
    checked++;
}

static dezgula_run lend(size_t list_len, size_t second_len)
{
    memset(stack, (int)(UNTOUCHED & 0xff), sizeof stack);
    memset(list, (int)(UNTOUCHED & 0xff), sizeof list);
    memset(second, (int)(UNTOUCHED & 0xff), sizeof second);
    dezgula_run run = {stack, STACK, list, list_len, second, second_len, {0}};
    memset(&run.record, (int)(UNTOUCHED & 0xff), sizeof run.record);
    return run;
}

/* x1 = x2 from 0 2: three steps of the plain walk, three above the lower bound */
static const int32_t difference[] = {1, -1};
static const dezgula_system equal = {1, 2, difference, 2};
static const uint32_t lower[] = {0, 2};

static dezgula_run begin(size_t list_len, size_t second_len)
{
    dezgula_run run = lend(list_len, second_len);
    expect(dezgula_start_from(&equal, lower, 2, &run) == DEZGULA_STARTED, "it starts");
    return run;
}

static bool is_plain(const dezgula_run *run)
{
    return run->record.kind == DEZGULA_RUN_FROM_PLAIN;
}

/* A row of the list, or of the second one, that of the plain walk. */
static void expect_row(const dezgula_run *run, bool plain, size_t n, uint32_t x1, uint32_t x2)
{
    uint64_t (*reader)(const dezgula_system *, const dezgula_run *, size_t, uint32_t *, size_t) = plain ? dezgula_second_row : dezgula_row;
    uint32_t row[3] = {9, 9, 9};
    expect(reader(&equal, run, n, row, 3) == DEZGULA_ROW, "there is such a row");
    expect(row[0] == x1 && row[1] == x2 && row[2] == 9, "the row holds the tuple, and what stood past it stays");
    expect(reader(&equal, run, n, row, 1) == DEZGULA_OUTPUT_SHORT, "one place is too few");
    expect(reader(&equal, run, n + 1, row, 3) == DEZGULA_NO_ROW, "and none after it");
}

static void to_the_end(uint64_t budget)
{
    dezgula_run run = begin(LIST, LIST);
    expect(is_plain(&run) && run.record.height == 2 && run.record.deepest == 0, "a start writes as a plain one");
    expect(stack[0] == 1 && stack[4] == 1 && stack[6] == UNTOUCHED && list[0] == UNTOUCHED && second[0] == UNTOUCHED, "and touches neither list");
    uint64_t answer, calls = 0;
    do {
        answer = dezgula_resume_from(&equal, lower, 2, &run, budget), calls++;
        bool plain = is_plain(&run);
        expect(plain == (run.record.before.count < 3), "the walk changes with the last step of the plain one");
        expect(!plain || (run.record.deepest == 0 && run.record.steps.count == 0), "which the other's numbers leave out");
    } while (answer == DEZGULA_PAUSED);
    expect(answer == DEZGULA_COMPLETE && calls == 5 / budget + 1, "it ends after six steps");
    expect(run.record.before.count == 3 && run.record.steps.count == 3 && run.record.height == 0 && run.record.deepest == 4, "three of each walk");
    expect_row(&run, true, 1, 1, 1);
    expect_row(&run, false, 1, 2, 2);
    expect(list[2] == UNTOUCHED && second[2] == UNTOUCHED, "rows past the counts are not touched");
    expect(dezgula_resume_from(&equal, lower, 2, &run, 5) == DEZGULA_COMPLETE && run.record.steps.count == 3, "a finished run stays finished");
}

/* The change of walk takes no step: a call with a budget of 0 may do it. */
static void change_without_a_step(void)
{
    dezgula_run run = begin(LIST, LIST);
    expect(dezgula_resume_from(&equal, lower, 2, &run, 0) == DEZGULA_PAUSED && run.record.height == 2, "a budget of 0 takes no step");
    dezgula_record ended = {.kind = DEZGULA_RUN_FROM_PLAIN, .second = {1}, .before = {3}};
    run.record = ended, second[0] = second[1] = 1;
    expect(dezgula_resume_from(&equal, lower, 2, &run, 0) == DEZGULA_PAUSED, "at the end of the plain walk it is paused too");
    expect(run.record.kind == DEZGULA_RUN_FROM_ABOVE && run.record.height == 1 && run.record.before.count == 3, "with the other walk under way");
    expect(stack[0] == 0 && stack[1] == 2 && stack[2] == 0, "and the lower bound on the stack");
    expect(dezgula_resume_from(&equal, lower, 2, &run, 3) == DEZGULA_COMPLETE && run.record.found.count == 1, "and goes on from there");
}

/* "The example ends with an empty list after 2 floor steps." A lower bound that is a solution: one step, after the plain run. */
static void lists_of_none_and_one(void)
{
    static const int32_t coefs[] = {2, -2, 1, 0, 0, 1};
    const dezgula_system m = {2, 3, coefs, 6};
    dezgula_run run = lend(LIST, LIST);
    expect(dezgula_start_from(&m, (uint32_t[]){0, 0, 1}, 3, &run) == DEZGULA_STARTED, "it starts");
    expect(dezgula_resume_from(&m, (uint32_t[]){0, 0, 1}, 3, &run, 2000000) == DEZGULA_COMPLETE, "it ends");
    expect(run.record.found.count == 0 && run.record.steps.count == 2 && run.record.second.count == 1, "with an empty list after two steps");
    expect(dezgula_start_from(&equal, (uint32_t[]){3, 3}, 2, &run) == DEZGULA_STARTED, "it starts");
    expect(dezgula_resume_from(&equal, (uint32_t[]){3, 3}, 2, &run, 3) == DEZGULA_PAUSED, "three steps are the plain run");
    expect(dezgula_resume_from(&equal, (uint32_t[]){3, 3}, 2, &run, 1) == DEZGULA_COMPLETE && run.record.steps.count == 1, "and one is enough above it");
    expect_row(&run, false, 1, 3, 3);
}

/* Sixteen unknowns, all of them free but the first two, which are equal: the second list has as many as the list of a plain run. */
static void widest(void)
{
    static const int32_t coefs[16] = {1, -1};
    static const uint32_t zero[16] = {0};
    static uint32_t rows[16 * 16], row[16];
    const dezgula_system m = {1, 16, coefs, 16};
    dezgula_run run = lend(LIST, LIST);
    run.second = rows, run.second_len = 16 * 16;
    expect(dezgula_start_from(&m, zero, 16, &run) == DEZGULA_STARTED, "it starts");
    expect(dezgula_resume_from(&m, zero, 16, &run, 1000) == DEZGULA_COMPLETE && run.record.second.count == 15, "fifteen minimal solutions");
    expect(dezgula_second_row(&m, &run, 15, row, 16) == DEZGULA_ROW && dezgula_second_row(&m, &run, 16, row, 16) == DEZGULA_NO_ROW, "each is shown");
    expect(dezgula_row(&m, &run, 1, row, 16) == DEZGULA_ROW && memcmp(row, zero, sizeof zero) == 0, "and zero at or above zero");
}

/* Lists that are not there at first, each made longer by one row when it is full. */
static void grown(void)
{
    dezgula_run run = begin(0, 0);
    run.list = run.second = NULL;
    uint64_t answer, plain = 0, above = 0;
    while ((answer = dezgula_resume_from(&equal, lower, 2, &run, 1000)) == DEZGULA_LIST_FULL) {
        dezgula_record before = run.record;
        expect(dezgula_resume_from(&equal, lower, 2, &run, 1000) == DEZGULA_LIST_FULL, "it is refused again");
        expect(memcmp(&before, &run.record, sizeof before) == 0, "and changes nothing");
        if (dezgula_full_list(&equal, &run) == DEZGULA_SECOND) run.second = second, run.second_len += 2, plain++;
        else run.list = list, run.list_len += 2, above++;
    }
    expect(answer == DEZGULA_COMPLETE && plain == 1 && above == 1, "each list is made longer for its row");
}

/* ---- refusals */

/* The answer of both calls to what is handed over, with nothing changed. */
static void refuses(const char *title, const dezgula_system *m, const uint32_t *bound, size_t bound_len, size_t stack_len, uint64_t answer)
{
    dezgula_run run = begin(LIST, LIST);
    run.stack_len = stack_len;
    dezgula_record before = run.record;
    uint32_t kept[STACK];
    memcpy(kept, stack, sizeof kept);
    expect(dezgula_resume_from(m, bound, bound_len, &run, 5) == answer, title);
    expect(dezgula_start_from(m, bound, bound_len, &run) == answer, title);
    expect(memcmp(&run.record, &before, sizeof before) == 0 && memcmp(kept, stack, sizeof kept) == 0, "nothing is changed");
    printf("%s: %s\n", title, dezgula_sentence(answer));
}

static void refusals(void)
{
    static const int32_t large[] = {1, -10001};
    static const uint32_t high[] = {0, 1000001, 0};
    dezgula_system m = equal;
    m.p = 9;
    refuses("nine equations", &m, lower, 2, STACK, DEZGULA_EQUATIONS);
    m = equal, m.q = 17;
    refuses("seventeen unknowns", &m, lower, 2, STACK, DEZGULA_UNKNOWNS);
    m = equal, m.coefs_len = 1;
    refuses("one coefficient", &m, lower, 2, STACK, DEZGULA_COUNT);
    refuses("a stack one number short", &equal, lower, 2, 5, DEZGULA_STACK_SHORT);
    m = equal, m.coefs = large;
    refuses("a lower bound too short, before a coefficient", &m, lower, 1, STACK, DEZGULA_TUPLE_LENGTH);
    refuses("a lower bound too long", &equal, high, 3, STACK, DEZGULA_TUPLE_LENGTH);
    refuses("no lower bound", &equal, NULL, 2, STACK, DEZGULA_TUPLE_LENGTH);
    refuses("a coefficient below -10,000, before the lower bound's range", &m, high, 2, STACK, 2 << 8 | DEZGULA_COEFFICIENT);
    refuses("a lower bound too large", &equal, high, 2, STACK, DEZGULA_TUPLE_RANGE);
}

/* What a continuing call refuses with 6, one thing at a time, in either walk. */
static void disorder(uint64_t steps)
{
    dezgula_run run = begin(LIST, LIST), other;
    expect(dezgula_resume_from(&equal, lower, 2, &run, steps) == DEZGULA_PAUSED, "it is paused");
    const dezgula_record good = run.record;
    dezgula_record bad[] = {good, good, good, good, good, good, good, good, good, good};
    bad[0].height = 3, bad[1].found.count = LIST / 2 + 1, bad[2].second.count = LIST / 2 + 1, bad[3].steps.count = bad[4].before.count = DEZGULA_STEP_LIMIT + 1;
    bad[5].deepest = DEZGULA_SUM_LIMIT + 1, bad[6].kind = DEZGULA_RUN_PLAIN, bad[7].kind = DEZGULA_RUN_RIGHTS, bad[8].kind = 4, bad[9].kind = 258;
    for (size_t i = 0; i < sizeof bad / sizeof *bad; i++) {
        other = run, other.record = bad[i];
        expect(dezgula_resume_from(&equal, lower, 2, &other, 5) == DEZGULA_OUT_OF_ORDER, "a record out of order");
        expect(memcmp(&other.record, &bad[i], sizeof good) == 0, "is not changed");
        expect(dezgula_start_from(&equal, lower, 2, &other) == DEZGULA_STARTED, "and a start does not look at it");
        expect(dezgula_start_from(&equal, lower, 2, &run) == DEZGULA_STARTED, "nor at the tables");
        expect(dezgula_resume_from(&equal, lower, 2, &run, steps) == DEZGULA_PAUSED, "which are as they were after as many steps");
    }
    dezgula_run plain = run;
    expect(dezgula_resume(&equal, &plain, 5) == DEZGULA_OUT_OF_ORDER, "the plain continuing call takes no such record");
    stack[0] += 1000001;
    expect(dezgula_resume_from(&equal, lower, 2, &run, 5) == DEZGULA_OUT_OF_ORDER, "too large a component");
    stack[0] -= 1000001, stack[2] = 1;
    expect(dezgula_resume_from(&equal, lower, 2, &run, 5) == DEZGULA_OUT_OF_ORDER, "a mark too many");
    stack[2] = 0;
    uint64_t expected = run.record.kind == DEZGULA_RUN_FROM_ABOVE ? DEZGULA_OUT_OF_ORDER : DEZGULA_PAUSED;
    expect(dezgula_resume_from(&equal, (uint32_t[]){900000, 2}, 2, &run, 0) == expected, "a row that is not at or above the lower bound of its walk");
    expect(dezgula_resume_from(&equal, lower, 2, &run, 1000) == DEZGULA_COMPLETE, "and all in order");
}

/* A record of words of another number: 6, after 5 and before 7, and nothing is changed. */
static void records_of_another_length(void)
{
    static const int32_t large[] = {1, 10001};
    static const uint64_t numbers[9] = {1, 2, 3, 4, 5, 6, 7, 8, 9};
    uint64_t record[9];
    lend(LIST, LIST);
    memcpy(record, numbers, sizeof record);
    for (size_t n = 0; n <= 9; n++) {
        if (n == DEZGULA_RECORD_LENGTH) continue;
        expect(dezgula_raw_start_from(1, 2, large, 2, lower, 2, stack, STACK, list, LIST, second, LIST, record, n) == DEZGULA_OUT_OF_ORDER, "a start");
        expect(dezgula_raw_start_from(1, 2, large, 2, lower, 1, stack, STACK, list, LIST, second, LIST, record, n) == DEZGULA_TUPLE_LENGTH, "after 5");
        expect(dezgula_raw_resume_from(1, 2, large, 2, lower, 2, stack, STACK, list, LIST, second, LIST, record, n, 9) == DEZGULA_OUT_OF_ORDER, "going on");
        expect(dezgula_raw_resume_from(1, 2, large, 2, lower, 1, stack, STACK, list, LIST, second, LIST, record, n, 9) == DEZGULA_TUPLE_LENGTH, "after 5");
        expect(memcmp(record, numbers, sizeof record) == 0 && stack[0] == UNTOUCHED, "nothing is changed");
    }
}

/* 12 and 14, which are about the walk under way. */
static void refusals_of_the_search(void)
{
    static const int32_t coefs[] = {2, -1};
    static const uint32_t near[] = {1000000, 999999};
    const dezgula_system twice = {1, 2, coefs, 2};
    dezgula_run run = lend(LIST, LIST);
    expect(dezgula_start_from(&twice, near, 2, &run) == DEZGULA_STARTED, "it starts");
    expect(dezgula_resume_from(&twice, near, 2, &run, 1000) == DEZGULA_COMPONENT, "x2 would pass 1,000,000");
    expect(run.record.kind == DEZGULA_RUN_FROM_ABOVE && run.record.steps.count == 1 && run.record.deepest == 1999999, "after one step above the bound");
    run = begin(LIST, LIST);
    run.record.before.count = DEZGULA_STEP_LIMIT - 1;
    expect(dezgula_resume_from(&equal, lower, 2, &run, 1000) == DEZGULA_STEPS_AT_LIMIT, "one plain step more, and no further");
    expect(run.record.before.count == DEZGULA_STEP_LIMIT && run.record.steps.count == 0, "which is not one of the other walk");
    run = begin(LIST, LIST);
    run.record.steps.count = DEZGULA_STEP_LIMIT;
    expect(dezgula_resume_from(&equal, lower, 2, &run, 1000) == DEZGULA_STEPS_AT_LIMIT, "the plain walk ends, and the other has no step left");
    expect(run.record.kind == DEZGULA_RUN_FROM_ABOVE && run.record.before.count == 3, "the plain walk's are three");
}

int main(void)
{
    for (uint64_t budget = 1; budget <= 8; budget++) to_the_end(budget);
    change_without_a_step();
    lists_of_none_and_one();
    widest();
    grown();
    refusals();
    for (uint64_t steps = 0; steps < 6; steps++) disorder(steps);
    records_of_another_length();
    refusals_of_the_search();
    printf("%u checks of runs from a lower bound\n", checked);
    return 0;
}
