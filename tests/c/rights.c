/* Maps with right sides, as an editor would use them: both lists to the end, with pauses, a full list of either kind, every refusal that a caller can meet, and
 * tables that are not there. Prints what it did, and exits with 1 at the first surprise. */
#include "raw.h"

#include <inttypes.h>
#include <stdbool.h>
#include <stdio.h>
#include <stdlib.h>
#include <string.h>

enum { MOST = DEZGULA_MOST_UNKNOWNS_WITH_RIGHTS, STACK = DEZGULA_RIGHTS_STACK_LENGTH(MOST), LIST = 64 };

static uint32_t stack[STACK], list[LIST], second[LIST];
static unsigned checked;

static void expect(bool holds, const char *what)
{
    if (!holds) {
        printf("SURPRISE: %s\n", what);
        exit(1);
    }
    checked++;
}

static dezgula_run lend(size_t list_len, size_t second_len)
{
    memset(stack, 0xa5, sizeof stack);
    memset(list, 0xa5, sizeof list);
    memset(second, 0xa5, sizeof second);
    dezgula_run run = {stack, STACK, list, list_len, second, second_len, {0}};
    memset(&run.record, 0xa5, sizeof run.record);
    return run;
}

/* x1 + 2 x2 - 3 x3 - x4 = 4 and x2 - x3 - x4 = -1 */
static const int32_t coefs[] = {1, 2, -3, -1, 0, 1, -1, -1}, rights[] = {4, -1}, zeros[] = {0, 0};
typedef struct {
    dezgula_system system;
    const int32_t *rights;
    size_t rights_len;
} sided;
static const sided deliveries = {{2, 4, coefs, 8}, rights, 2};

static uint64_t start(const sided *m, dezgula_run *run)
{
    return dezgula_start_rights(&m->system, m->rights, m->rights_len, run);
}

static uint64_t resume(const sided *m, dezgula_run *run, uint64_t budget)
{
    return dezgula_resume_rights(&m->system, m->rights, m->rights_len, run, budget);
}

static uint64_t row_at(unsigned at, const dezgula_run *run, size_t n, uint32_t *row, size_t row_len)
{
    return (at == 0 ? dezgula_row : dezgula_second_row)(&deliveries.system, run, n, row, row_len);
}

static void expect_row(const dezgula_run *run, unsigned at, size_t n, const uint32_t *components)
{
    uint32_t row[5] = {9, 9, 9, 9, 9};
    expect(row_at(at, run, n, row, 5) == DEZGULA_ROW, "there is such a row");
    expect(memcmp(row, components, 4 * sizeof *row) == 0 && row[4] == 9, "the row holds the tuple, and what stood past it stays");
    expect(row_at(at, run, n, row, 3) == DEZGULA_OUTPUT_SHORT, "three places are too few");
}

static void to_the_end(uint64_t budget)
{
    static const uint32_t at_zero[2][4] = {{0, 2, 1, 1}, {1, 1, 1, 0}};
    static const uint32_t at_one[7][4] = {{0, 5, 0, 6}, {1, 4, 0, 5}, {2, 3, 0, 4}, {3, 2, 0, 3}, {4, 1, 0, 2}, {5, 0, 0, 1}, {7, 0, 1, 0}};
    dezgula_run run = lend(LIST, LIST);
    uint64_t answer = start(&deliveries, &run), calls = 0;
    expect(answer == DEZGULA_STARTED && run.record.kind == DEZGULA_RUN_RIGHTS && run.record.height == 5 && run.record.deepest == 0, "it starts");
    do answer = resume(&deliveries, &run, budget), calls++;
    while (answer == DEZGULA_PAUSED);
    expect(answer == DEZGULA_COMPLETE && run.record.steps.count == 74 && calls == 73 / budget + 1, "it ends after 74 steps");
    expect(run.record.found.count == 2 && run.record.second.count == 7 && run.record.deepest == 12, "two rows at 0, seven at 1, a greatest sum of 12");
    for (size_t n = 0; n < 2; n++) expect_row(&run, 0, n + 1, at_zero[n]);
    for (size_t n = 0; n < 7; n++) expect_row(&run, 1, n + 1, at_one[n]);
    uint32_t row[4];
    expect(row_at(0, &run, 3, row, 4) == DEZGULA_NO_ROW, "there is no third row at 0");
    expect(row_at(1, &run, 0, row, 4) == DEZGULA_NO_ROW, "nor one before the first");
    expect(row_at(1, &run, 1, NULL, 0) == DEZGULA_OUTPUT_SHORT, "no space is too short");
    expect(list[8] == 0xa5a5a5a5u && second[28] == 0xa5a5a5a5u, "rows past the counts are not touched");
    const dezgula_system wide = {2, 16, coefs, 8};
    expect(dezgula_row(&wide, &run, 1, row, 4) == DEZGULA_UNKNOWNS, "no run has right sides and 16 unknowns");
    expect(dezgula_second_row(&wide, &run, 1, row, 4) == DEZGULA_UNKNOWNS, "in either list");
    expect(dezgula_full_list(&deliveries.system, &run) == DEZGULA_NEITHER, "at height 0 no list is full");
    run.record.height = 6;
    expect(dezgula_full_list(&deliveries.system, &run) == DEZGULA_NEITHER, "nor at a height that the stack does not have");
    run.record.height = UINT64_MAX;
    expect(dezgula_full_list(&deliveries.system, &run) == DEZGULA_NEITHER, "nor beyond all");
    run.record.height = 1, run.stack = NULL;
    expect(dezgula_full_list(&deliveries.system, &run) == DEZGULA_NEITHER, "nor without a stack");
}

/* Lists that are not there at first, each made longer by one row when it is full. */
static void grown(void)
{
    dezgula_run run = lend(0, 0);
    run.list = run.second = NULL;
    expect(start(&deliveries, &run) == DEZGULA_STARTED, "a start asks for no list");
    uint64_t answer, full[2] = {0, 0};
    while ((answer = resume(&deliveries, &run, 1000)) == DEZGULA_LIST_FULL) {
        unsigned at = dezgula_full_list(&deliveries.system, &run) == DEZGULA_LIST ? 0 : 1;
        uint64_t before = run.record.steps.count;
        expect(resume(&deliveries, &run, 1000) == DEZGULA_LIST_FULL && run.record.steps.count == before, "it is refused again");
        full[at]++;
        if (at == 0) run.list = list, run.list_len += 4;
        else run.second = second, run.second_len += 4;
    }
    expect(answer == DEZGULA_COMPLETE && full[0] == 2 && full[1] == 7, "each list is made longer for each of its rows");
}

/* The answer of both calls to what is handed over, with nothing changed. */
static void refuses(const char *title, const sided *m, size_t stack_len, uint64_t started, uint64_t resumed)
{
    dezgula_run run = lend(LIST, LIST);
    expect(start(&deliveries, &run) == DEZGULA_STARTED, "it starts");
    run.stack_len = stack_len;
    dezgula_run before = run;
    uint32_t kept[STACK];
    memcpy(kept, stack, sizeof kept);
    expect(resume(m, &run, 5) == resumed, title);
    expect(start(m, &run) == started, title);
    expect(memcmp(&run.record, &before.record, sizeof run.record) == 0 && memcmp(kept, stack, sizeof kept) == 0, "nothing is changed");
    printf("%s: %s\n", title, dezgula_sentence(started));
}

static void refusals(void)
{
    int32_t large[8] = {1, 2, -3, -1, 0, 10001, -1, -1}, sides[3] = {4, -10001, 0};
    sided m = deliveries;
    m.system.p = 9;
    refuses("nine equations", &m, STACK, DEZGULA_EQUATIONS, DEZGULA_EQUATIONS);
    m = deliveries, m.system.q = 16;
    refuses("sixteen unknowns", &m, STACK, DEZGULA_UNKNOWNS, DEZGULA_UNKNOWNS);
    m = deliveries, m.system.coefs_len = 7;
    refuses("seven coefficients", &m, STACK, DEZGULA_COUNT, DEZGULA_COUNT);
    m = deliveries, m.rights = NULL;
    refuses("no right sides", &m, STACK, DEZGULA_COUNT, DEZGULA_COUNT);
    m = deliveries, m.rights = sides, m.rights_len = 3;
    refuses("three right sides", &m, STACK, DEZGULA_COUNT, DEZGULA_COUNT);
    refuses("a stack for four unknowns", &deliveries, 29, DEZGULA_STACK_SHORT, DEZGULA_STACK_SHORT);
    m.rights_len = 2;
    refuses("a right side below -10,000", &m, STACK, DEZGULA_RIGHT_SIDE, DEZGULA_RIGHT_SIDE);
    m.system.coefs = large;
    refuses("a coefficient above 10,000 besides", &m, STACK, 6 << 8 | DEZGULA_COEFFICIENT, 6 << 8 | DEZGULA_COEFFICIENT);
}

/* Records and rows out of order, which a continuing call refuses with 6. */
static void disorder(void)
{
    dezgula_system plain = {2, 4, coefs, 8};
    dezgula_run run = lend(LIST, LIST), other;
    expect(start(&deliveries, &run) == DEZGULA_STARTED, "it starts");
    dezgula_run one = run;
    expect(dezgula_resume(&plain, &one, 5) == DEZGULA_OUT_OF_ORDER, "the plain continuing call takes no such record");
    other = run, other.record.kind = DEZGULA_RUN_PLAIN;
    expect(resume(&deliveries, &other, 5) == DEZGULA_OUT_OF_ORDER, "nor this one a plain record");
    other = run, other.record.height = 6;
    expect(resume(&deliveries, &other, 5) == DEZGULA_OUT_OF_ORDER, "a height above q + 1");
    other = run, other.record.second.count = 17;
    expect(resume(&deliveries, &other, 5) == DEZGULA_OUT_OF_ORDER, "more rows at 1 than there is room for");
    other = run, other.record.deepest = DEZGULA_SUM_LIMIT + 1;
    expect(resume(&deliveries, &other, 5) == DEZGULA_OUT_OF_ORDER, "too great a sum");
    stack[0] = 2;
    expect(resume(&deliveries, &run, 5) == DEZGULA_OUT_OF_ORDER, "an extra unknown above 1");
    stack[0] = 1;
    expect(resume(&deliveries, &run, 5) == DEZGULA_PAUSED, "and all in order");
    uint64_t words[8] = {0};
    expect(dezgula_raw_start_rights(2, 4, coefs, 8, rights, 2, stack, STACK, list, LIST, second, LIST, words, 8) == DEZGULA_OUT_OF_ORDER, "eight words");
    expect(dezgula_raw_row_of_either(list, LIST, second, LIST, 2, 4, 16, 1, stack, STACK) == DEZGULA_NO_ROW, "there is no list at 2");
}

/* "zero if all of them are zero" */
static void no_deliveries(void)
{
    sided m = deliveries;
    m.rights = zeros;
    dezgula_run run = lend(LIST, LIST);
    expect(start(&m, &run) == DEZGULA_STARTED, "it starts");
    expect(resume(&m, &run, 1000) == DEZGULA_COMPLETE && run.record.found.count == 2 && run.record.second.count == 1, "one row at 1");
    static const uint32_t none[4] = {0, 0, 0, 0};
    expect_row(&run, 1, 1, none);
}

int main(void)
{
    for (uint64_t budget = 1; budget <= 80; budget++) to_the_end(budget);
    grown();
    refusals();
    disorder();
    no_deliveries();
    printf("%u checks of maps with right sides\n", checked);
    return 0;
}
