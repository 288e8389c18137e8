/* Uses the library as an editor would: solves maps, pauses and goes on, lends a longer list, reads rows, and meets every refusal that a caller can meet.
 * Prints what it did, and exits with 1 at the first surprise. */
#include "raw.h"

#include <inttypes.h>
#include <stdbool.h>
#include <stdio.h>
#include <stdlib.h>
#include <string.h>

enum { MOST = DEZGULA_MOST_UNKNOWNS, STACK = DEZGULA_STACK_LENGTH(MOST), LIST = 256 };

#define UNTOUCHED 0xa5a5a5a5u

/* A run with tables of its own. */
typedef struct {
    uint32_t stack[STACK], list[LIST];
    dezgula_run run;
} tables;

static unsigned checked;

static void expect(bool holds, const char *what)
{
    if (!holds) {
        printf("SURPRISE: %s\n", what);
        exit(1);
    }
    checked++;
}

/* ---- calls on a system and a run */

static void lend(tables *t, size_t list_len)
{
    memset(t, (int)(UNTOUCHED & 0xff), sizeof *t);
    t->run.stack = t->stack;
    t->run.stack_len = STACK;
    t->run.list = t->list;
    t->run.list_len = list_len;
}

static void expect_start(const dezgula_system *m, tables *t)
{
    expect(dezgula_start(m, &t->run) == DEZGULA_STARTED, "it starts");
}

static const char *words(uint64_t answer)
{
    static char text[64];
    switch (dezgula_number(answer)) {
    case DEZGULA_COMPLETE: return "complete";
    case DEZGULA_STARTED: return "started";
    case DEZGULA_PAUSED: return "paused";
    case DEZGULA_COEFFICIENT: snprintf(text, sizeof text, "refused 7 place %" PRIu64, dezgula_place(answer)); return text;
    default: snprintf(text, sizeof text, "refused %u", dezgula_number(answer)); return text;
    }
}

/* What a run came to, and its rows as the reader shows them. */
static void show(const char *title, const dezgula_system *m, const tables *t, uint64_t answer)
{
    const dezgula_record *r = &t->run.record;
    printf("%s: %s, %" PRIu64 " steps, height %" PRIu64 ", %" PRIu64 " listed, greatest sum %" PRIu64 "\n", title, words(answer), r->steps.count, r->height,
           r->found.count, r->deepest);
    uint32_t row[MOST];
    for (size_t n = 1; dezgula_row(m, &t->run, n, row, MOST) == DEZGULA_ROW; n++) {
        printf("   ");
        for (size_t j = 0; j < m->q; j++) printf(" %" PRIu32, row[j]);
        printf("\n");
    }
}

static void expect_record(const tables *t, uint64_t steps, uint64_t height, uint64_t found, uint64_t deepest)
{
    expect(t->run.record.steps.count == steps, "steps taken");
    expect(t->run.record.height == height, "height");
    expect(t->run.record.found.count == found, "solutions found");
    expect(t->run.record.deepest == deepest, "the greatest sum of components taken off");
    expect(t->run.record.kind == DEZGULA_RUN_PLAIN && t->run.record.second.count == 0 && t->run.record.before.count == 0, "a plain run");
}

static void expect_row(const dezgula_system *m, const tables *t, size_t n, const uint32_t *components)
{
    uint32_t row[MOST];
    expect(dezgula_row(m, &t->run, n, row, MOST) == DEZGULA_ROW, "there is such a row");
    expect(memcmp(row, components, m->q * sizeof *row) == 0, "the row holds the solution");
}

/* The answer of a call that changes nothing, as a refusal before the walk. */
static void expect_unchanged(const char *title, uint64_t answer, uint64_t expected, const tables *before, const tables *after)
{
    printf("%s: %s\n", title, words(answer));
    expect(answer == expected, title);
    expect(memcmp(before->stack, after->stack, sizeof after->stack) == 0, "the stack is not changed");
    expect(memcmp(before->list, after->list, sizeof after->list) == 0, "the list is not changed");
    expect(memcmp(&before->run.record, &after->run.record, sizeof after->run.record) == 0, "the record is not changed");
}

/* ---- systems */

static const int32_t two_by_four[] = {-1, 1, 2, -3, -1, 3, -2, -1};
static const dezgula_system example = {2, 4, two_by_four, 8};

static const int32_t first_row[] = {-1, 1, 2, -3};
static const dezgula_system example4 = {1, 4, first_row, 4};

static const int32_t difference[] = {1, -1};
static const dezgula_system equal = {1, 2, difference, 2};

static void solve_systems(void)
{
    tables t;
    lend(&t, LIST);
    expect_start(&example, &t);
    expect_record(&t, 0, 4, 0, 0);
    expect(t.stack[20] == UNTOUCHED && t.list[0] == UNTOUCHED, "a start touches q rows of the stack and no list");
    uint64_t answer = dezgula_resume(&example, &t.run, 1000000);
    show("example", &example, &t, answer);
    expect(answer == DEZGULA_COMPLETE, "the example ends");
    expect_record(&t, 16, 0, 2, 7);
    expect_row(&example, &t, 1, (uint32_t[]){0, 1, 1, 1});
    expect_row(&example, &t, 2, (uint32_t[]){4, 2, 1, 0});
    expect(t.stack[20] == UNTOUCHED && t.list[8] == UNTOUCHED, "nothing past q rows of the stack, nothing past the rows found");
    expect(dezgula_resume(&example, &t.run, 5) == DEZGULA_COMPLETE && t.run.record.steps.count == 16, "a finished run stays finished");

    lend(&t, LIST);
    expect_start(&example4, &t);
    answer = dezgula_resume(&example4, &t.run, UINT64_MAX);
    show("its first equation alone", &example4, &t, answer);
    expect(answer == DEZGULA_COMPLETE, "one equation ends");
    expect_record(&t, 17, 0, 6, 5);
}

static void pause_and_go_on(void)
{
    tables t;
    lend(&t, LIST);
    expect_start(&example, &t);
    expect(dezgula_resume(&example, &t.run, 0) == DEZGULA_PAUSED, "a budget of 0 takes no step");
    expect_record(&t, 0, 4, 0, 0);
    uint64_t answer = dezgula_resume(&example, &t.run, 7);
    show("example, 7 steps", &example, &t, answer);
    expect(answer == DEZGULA_PAUSED, "paused after 7 steps");
    expect_record(&t, 7, 1, 1, 3);
    unsigned calls = 0;
    do {
        answer = dezgula_resume(&example, &t.run, 2);
        calls++;
    } while (answer == DEZGULA_PAUSED);
    show("and 2 at a time", &example, &t, answer);
    expect(answer == DEZGULA_COMPLETE && calls == 5, "nine steps more in five calls");
    expect_record(&t, 16, 0, 2, 7);
}

static void lend_a_longer_list(void)
{
    tables t;
    lend(&t, 7);
    expect_start(&example, &t);
    uint64_t answer = dezgula_resume(&example, &t.run, 1000);
    show("example, room for one row", &example, &t, answer);
    expect(answer == DEZGULA_LIST_FULL, "the list is full");
    expect_record(&t, 15, 1, 1, 6);
    expect(dezgula_resume(&example, &t.run, 1000) == DEZGULA_LIST_FULL, "the same call again is refused again");
    expect_record(&t, 15, 1, 1, 6);
    t.run.list_len = LIST;
    answer = dezgula_resume(&example, &t.run, 1000);
    show("with a longer list", &example, &t, answer);
    expect(answer == DEZGULA_COMPLETE, "it ends");
    expect_record(&t, 16, 0, 2, 7);
}

/* ---- refusals */

static void meet_shape_refusals(void)
{
    tables t;
    lend(&t, LIST);
    const tables before = t;
    dezgula_system m = example;
    m.p = 0;
    expect_unchanged("no equation", dezgula_start(&m, &t.run), DEZGULA_EQUATIONS, &before, &t);
    m.p = 9;
    expect_unchanged("nine equations", dezgula_resume(&m, &t.run, 1), DEZGULA_EQUATIONS, &before, &t);
    m = example;
    m.q = 0;
    expect_unchanged("no unknown", dezgula_start(&m, &t.run), DEZGULA_UNKNOWNS, &before, &t);
    m.q = 17;
    expect_unchanged("seventeen unknowns", dezgula_resume(&m, &t.run, 1), DEZGULA_UNKNOWNS, &before, &t);
    m = example;
    m.coefs_len = 7;
    expect_unchanged("a coefficient missing", dezgula_start(&m, &t.run), DEZGULA_COUNT, &before, &t);
    t.run.stack_len = 19;
    expect_unchanged("a stack one number short", dezgula_start(&example, &t.run), DEZGULA_STACK_SHORT, &before, &t);
    t.run.stack_len = STACK;
    static const int32_t large[] = {0, 0, 0, 0, 10001, 0, 0, -20000};
    m.coefs = large;
    m.coefs_len = 8;
    expect_unchanged("a coefficient of 10,001", dezgula_start(&m, &t.run), 5 << 8 | DEZGULA_COEFFICIENT, &before, &t);
}

/* NULL is an empty table, whatever length it comes with. */
static void lend_nothing(void)
{
    tables t;
    lend(&t, LIST);
    const tables before = t;
    dezgula_system m = {2, 4, NULL, 0};
    expect_unchanged("no coefficients", dezgula_start(&m, &t.run), DEZGULA_COUNT, &before, &t);
    m.coefs_len = 8;
    expect_unchanged("eight coefficients at NULL", dezgula_start(&m, &t.run), DEZGULA_COUNT, &before, &t);
    t.run.stack = NULL;
    expect_unchanged("no stack", dezgula_start(&example, &t.run), DEZGULA_STACK_SHORT, &before, &t);
    t.run.stack = t.stack;
    t.run.list = NULL;
    expect_start(&example, &t);
    expect(dezgula_resume(&example, &t.run, 1000) == DEZGULA_LIST_FULL, "no list has no room for a row");
    expect(dezgula_full_list(&example, &t.run) == DEZGULA_LIST, "and is the one that is full");
    expect(t.run.record.found.count == 0, "nothing is listed");
    expect(dezgula_row(&example, &t.run, 1, NULL, 0) == DEZGULA_NO_ROW, "and shows none");
    t.run.list = t.list;
    expect(dezgula_resume(&example, &t.run, 1000) == DEZGULA_COMPLETE, "with a list it goes on to its end");
    expect(dezgula_row(&example, &t.run, 1, NULL, 4) == DEZGULA_OUTPUT_SHORT, "no space for a row");
}

/* A record of words of another number: 6, after what is due before it, and nothing is changed. */
static void meet_records_of_another_length(void)
{
    tables t;
    lend(&t, LIST);
    const tables before = t;
    uint64_t record[9] = {1, 2, 3, 4, 5, 6, 7, 8, 9};
    static const int32_t large[] = {0, 0, 0, 0, 10001, 0, 0, 0};
    for (size_t n = 0; n <= 9; n++) {
        if (n == DEZGULA_RECORD_LENGTH) continue;
        expect_unchanged("a start", dezgula_raw_start(2, 4, large, 8, t.stack, STACK, t.list, LIST, record, n), DEZGULA_OUT_OF_ORDER, &before, &t);
        expect_unchanged("going on", dezgula_raw_resume(2, 4, large, 8, t.stack, STACK, t.list, LIST, record, n, 9), DEZGULA_OUT_OF_ORDER, &before, &t);
        expect_unchanged("a short stack", dezgula_raw_start(2, 4, large, 8, t.stack, 19, t.list, LIST, record, n), DEZGULA_STACK_SHORT, &before, &t);
        expect(memcmp(record, (uint64_t[]){1, 2, 3, 4, 5, 6, 7, 8, 9}, sizeof record) == 0, "the words are not changed");
    }
}

/* What is out of order in a run that has just started, one thing at a time. */
static void meet_disorder(void)
{
    tables t;
    lend(&t, LIST);
    expect_start(&example, &t);
    const tables good = t;
    static const struct {
        const char *title;
        size_t stack_place;
        uint32_t entry;
        dezgula_record record;
    } bad[] = {
        {"height above q", 0, 1, {.height = 5}},
        {"height beyond all", 0, 1, {.height = UINT64_MAX}},
        {"more found than there is room for", 0, 1, {.height = 4, .found = {LIST / 4 + 1}}},
        {"more than 10^12 steps", 0, 1, {.height = 4, .steps = {DEZGULA_STEP_LIMIT + 1}}},
        {"a capped run", 0, 1, {.height = 4, .kind = 1}},
        {"a run from a lower bound, the plain walk", 0, 1, {.height = 4, .kind = 2}},
        {"a run from a lower bound, the walk above it", 0, 1, {.height = 4, .kind = 3}},
        {"a run desk by desk", 0, 1, {.height = 4, .kind = 4}},
        {"no kind of run", 0, 1, {.height = 4, .kind = 5, .second = {6}, .before = {7}, .deepest = 8}},
        {"no kind of run in 8 bits", 0, 1, {.height = 4, .kind = 256}},
        {"no kind of run, beyond all", 0, 1, {.height = 4, .kind = UINT64_MAX}},
        {"a greatest sum of 16,000,001", 0, 1, {.height = 4, .deepest = DEZGULA_SUM_LIMIT + 1}},
        {"a greatest sum beyond all", 0, 1, {.height = 4, .deepest = UINT64_MAX}},
        {"a component of 1,000,001", 2, 1000001, {.height = 4}},
        {"a mark beyond unknown q", 19, 1u << 4 | 7, {.height = 4}},
        {"a mark too many", 14, 7, {.height = 4}},
        {"a mark too few", 9, 0, {.height = 4}},
    };
    for (size_t i = 0; i < sizeof bad / sizeof *bad; i++) {
        t = good;
        t.stack[bad[i].stack_place] = bad[i].entry;
        t.run.record = bad[i].record;
        t.run.stack = t.stack;
        t.run.list = t.list;
        const tables before = t;
        expect_unchanged(bad[i].title, dezgula_resume(&example, &t.run, 1), DEZGULA_OUT_OF_ORDER, &before, &t);
    }
    t = good;
    static const int32_t large[] = {-1, 1, 2, -3, -1, 3, -2, -10001};
    const dezgula_system other = {2, 4, large, 8};
    expect_unchanged("another system, out of range", dezgula_resume(&other, &t.run, 1), 8 << 8 | DEZGULA_COEFFICIENT, &good, &t);
}

/* What a continuing call of a plain run keeps, and what a start does not look at. */
static void keep_what_has_no_meaning(void)
{
    tables t;
    lend(&t, LIST);
    expect_start(&example, &t);
    t.run.record.second.count = UINT64_MAX;
    t.run.record.before.count = UINT64_MAX - 1;
    t.run.record.deepest = DEZGULA_SUM_LIMIT;
    expect(dezgula_resume(&example, &t.run, 1000) == DEZGULA_COMPLETE, "the largest greatest sum is in order");
    expect(t.run.record.second.count == UINT64_MAX && t.run.record.before.count == UINT64_MAX - 1, "the two counts are kept");
    expect(t.run.record.deepest == DEZGULA_SUM_LIMIT && t.run.record.kind == DEZGULA_RUN_PLAIN, "and so is a greater sum");
    for (uint64_t kind = 1; kind <= 6; kind++) {
        t.run.record.kind = kind;
        expect_start(&example, &t);
        expect_record(&t, 0, 4, 0, 0);
    }
}

static void meet_refusals_of_the_search(void)
{
    static const int32_t coefs[] = {2, -1};
    const dezgula_system twice = {1, 2, coefs, 2};
    tables t;
    lend(&t, LIST);
    expect_start(&twice, &t);
    memcpy(t.stack, (uint32_t[]){1000000, 999999, 0}, 3 * sizeof *t.stack);
    t.run.record.height = 1;
    uint64_t answer = dezgula_resume(&twice, &t.run, 1000);
    show("2 x1 = x2 with 1000000 999999 on the stack", &twice, &t, answer);
    expect(answer == DEZGULA_COMPONENT, "x2 would pass 1,000,000");
    expect_record(&t, 1, 1, 0, 1999999);
    tables before = t;
    expect_unchanged("the same call again", dezgula_resume(&twice, &t.run, 1000), DEZGULA_COMPONENT, &before, &t);

    expect_start(&twice, &t);
    t.run.record.steps.count = DEZGULA_STEP_LIMIT - 1;
    answer = dezgula_resume(&twice, &t.run, 1000);
    show("a run near 10^12 steps", &twice, &t, answer);
    expect(answer == DEZGULA_STEPS_AT_LIMIT && t.run.record.steps.count == DEZGULA_STEP_LIMIT, "one step more, and no further");
    before = t;
    expect_unchanged("the same call again", dezgula_resume(&twice, &t.run, 1000), DEZGULA_STEPS_AT_LIMIT, &before, &t);
    expect_unchanged("with a budget of 0", dezgula_resume(&twice, &t.run, 0), DEZGULA_PAUSED, &before, &t);
}

/* ---- the reader, and the sentences */

static void read_rows(void)
{
    tables t;
    lend(&t, 10);
    expect_start(&example, &t);
    expect(dezgula_resume(&example, &t.run, 1000) == DEZGULA_COMPLETE, "it ends");
    uint32_t out[6] = {1, 2, 3, 4, 5, 6};
    expect(dezgula_row(&example, &t.run, 0, out, 6) == DEZGULA_NO_ROW, "there is no row 0");
    expect(dezgula_row(&example, &t.run, 3, out, 6) == DEZGULA_NO_ROW, "there is none past the found count");
    expect(dezgula_raw_row(t.list, 10, 4, 100, 3, out, 6) == DEZGULA_NO_ROW, "there is none past the capacity");
    expect(dezgula_raw_row(t.list, 10, 0, 2, 1, out, 6) == DEZGULA_UNKNOWNS, "a reader for no unknown");
    expect(dezgula_raw_row(t.list, 10, 17, 2, 1, out, 6) == DEZGULA_UNKNOWNS, "a reader for seventeen");
    expect(dezgula_row(&example, &t.run, 2, out, 3) == DEZGULA_OUTPUT_SHORT, "no space for a row");
    expect(memcmp(out, (uint32_t[]){1, 2, 3, 4, 5, 6}, sizeof out) == 0, "none of these wrote anything");
    expect(dezgula_row(&example, &t.run, 2, out, 6) == DEZGULA_ROW, "row 2 is shown");
    expect(memcmp(out, (uint32_t[]){4, 2, 1, 0, 5, 6}, sizeof out) == 0, "and what stood past it stays");
    printf("the reader: rows 1 and 2, and no other\n");
}

/* Every number of every call has a sentence of its own, and no other has one. */
static bool is_given(unsigned number)
{
    return number != 13 && (number <= 36 || (number >= 100 && number <= 104) || (number >= 106 && number <= 108) || number == 110 ||
                            (number >= 120 && number <= 129) || (number >= 130 && number <= 132));
}

static void say_sentences(void)
{
    const char *other = dezgula_sentence(13);
    for (unsigned n = 0; n < 256; n++) {
        const char *sentence = dezgula_sentence((uint64_t)3 << 8 | n);
        expect(sentence != NULL && sentence[strlen(sentence) - 1] == '.', "each number has a sentence, with any place");
        expect((strcmp(sentence, other) != 0) == is_given(n), "and those that are given have one of their own");
        for (unsigned k = 0; is_given(n) && k < n; k++) expect(strcmp(sentence, dezgula_sentence(k)) != 0, "that no other has");
        if (is_given(n)) printf("%u: %s\n", n, sentence);
    }
    expect(strcmp(dezgula_version(), DEZGULA_VERSION) == 0, "library and header are of one version");
}

/* Activity 1 moves from tray 3 to tray 1, activity 2 from 2 to 3, activity 3 from 1 to 2. */
static const int32_t in_a_ring[] = {1, 0, -1, 0, -1, 1, -1, 1, 0};
static const dezgula_system ring = {3, 3, in_a_ring, 9};

static void list_single_file_maps(void)
{
    tables t, before;
    char out[24];
    static const char line[] = "1 2 3 order 1 3 2\n";
    lend(&t, LIST);
    expect(dezgula_start_single_file(&ring, &t.run) == DEZGULA_STARTED, "it starts");
    expect(dezgula_resume_single_file(&ring, &t.run, 1000) == DEZGULA_COMPLETE, "a ring is solved");
    memset(out, '#', sizeof out);
    dezgula_list rows = dezgula_listed(&t.run);
    uint64_t answer = dezgula_listing(&ring, &rows, out, sizeof out);
    printf("the listing of a ring: %.*s", (int)dezgula_place(answer), out);
    expect(dezgula_number(answer) == DEZGULA_LISTING_WRITTEN && dezgula_place(answer) == strlen(line), "it is written");
    expect(memcmp(out, line, strlen(line)) == 0 && out[strlen(line)] == '#', "one line, and what stood past it stays");

    expect(dezgula_listing(&ring, &rows, out, strlen(line) - 1) == DEZGULA_OUTPUT_SHORT, "one byte less is too short");
    t.list[0] = 2;
    expect(dezgula_listing(&ring, &rows, out, sizeof out) == (DEZGULA_NOT_MINIMAL | 1u << 8), "row 1 is no minimal solution");
    expect(dezgula_listing(&equal, &rows, out, sizeof out) == (DEZGULA_COLUMN | 1u << 8), "one equation has no such column");
    rows.found = LIST / 3 + 1;
    expect(dezgula_listing(&ring, &rows, out, sizeof out) == DEZGULA_OUT_OF_ORDER, "more rows than there is room for");
    lend(&t, LIST);
    before = t;
    expect_unchanged("a start on another map", dezgula_start_single_file(&example, &t.run), DEZGULA_COLUMN | 1u << 8, &before, &t);
    expect_start(&example, &t);
    before = t;
    expect_unchanged("going on with another map", dezgula_resume_single_file(&example, &t.run, 9), DEZGULA_COLUMN | 1u << 8, &before, &t);
}

int main(void)
{
    solve_systems();
    pause_and_go_on();
    lend_a_longer_list();
    meet_shape_refusals();
    lend_nothing();
    meet_records_of_another_length();
    meet_disorder();
    keep_what_has_no_meaning();
    meet_refusals_of_the_search();
    read_rows();
    list_single_file_maps();
    say_sentences();
    printf("%u checks, no surprise\n", checked);
    return 0;
}
