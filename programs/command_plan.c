#include <inttypes.h>
#include <stdlib.h>

#include "ask.h"
#include "asked.h"
#include "command.h"
#include "io.h"

static void say_parts(const asked *a, const uint32_t *times)
{
    size_t first = a->q.q - a->m.q;
    bool any = false;
    for (size_t i = 0; i < a->q.rows_len; i++) {
        bool wanted = i >= a->q.loops;
        if (times[i] == 0) continue;
        printf("%" PRIu32 " × %s %zu: ", times[i], wanted ? "delivery" : "loop", (wanted ? i - a->q.loops : i) + 1);
        row_in_words(stdout, &a->m, a->q.rows + i * a->q.q + first);
        putchar('\n');
        any = true;
    }
    if (!any) puts("Nothing is to be done: all counts are zero.");
}

static int say_plan(const options *o, const asked *a)
{
    fault refused = {0, ""};
    uint32_t *times = calloc(a->q.rows_len + 1, sizeof *times);
    if (times == NULL) {
        io_say("there is no memory");
        return STATUS_NOTHING;
    }
    reply r = ask_plan(&a->q, times, &refused);
    int status = a->s.complete ? STATUS_COMPLETE : STATUS_CUT_SHORT;
    if (r.kind == ANSWER_MADE) say_parts(a, times);
    else if (r.kind == ANSWER_UNLISTED) puts("The loops listed so far do not make it up; the list is not complete.");
    else status = io_refuse(file_of(o), &refused);
    free(times);
    return status;
}

static int plan(const options *o)
{
    asked a;
    size_t off = 0;
    int status = asked_begin(o, &a);
    if (status == STATUS_COMPLETE) status = asked_trays(&a, "No loops make it up: ", &off);
    if (status == STATUS_COMPLETE && off > 0) status = STATUS_REFUSED;
    if (status == STATUS_COMPLETE) {
        status = asked_solve(o, &a);
        if (status == STATUS_COMPLETE || status == STATUS_CUT_SHORT) status = say_plan(o, &a);
        if (status == STATUS_COMPLETE) status = finish(o, status);
    }
    asked_free(&a);
    return status;
}

const command command_plan = {
    "plan", "plan FILE COUNTS", "which loops make up these counts, and how often",
    "COUNTS is a number for each activity, or NAME=N for those that are done: \"write=2 send=1\". Where the counts leave the trays as they were,\n"
    "they are made of loops; else it says which trays would hold more or less, and the status is 1.\n",
    TAKES_WALK | TAKES_STEPS | TAKES_DELIVER | TAKES_CHECKPOINT | TAKES_STRICT, 2, (size_t)-1, plan
};
