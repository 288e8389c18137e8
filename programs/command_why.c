#include <inttypes.h>

#include "ask.h"
#include "asked.h"
#include "command.h"
#include "io.h"

static int say_reason(const asked *a, reply r)
{
    const map *m = &a->m;
    size_t q = a->q.q, first = q - m->q;
    bool wanted = r.row >= a->q.loops;
    const char *what = wanted ? "delivery" : "loop";
    size_t number = (wanted ? r.row - a->q.loops : r.row) + 1;
    switch (r.kind) {
    case ANSWER_ZERO: puts("All counts are zero; a loop does something."); break;
    case ANSWER_STANDS: printf("It is in the list: it is %s %zu.\n", what, number); break;
    case ANSWER_ABOVE:
        printf("It contains %s %zu: ", what, number);
        row_in_words(stdout, m, a->q.rows + r.row * q + first);
        puts(".");
        break;
    default: puts(a->s.complete ? "Nothing listed lies below it." : "Nothing listed so far lies below it; the list is not complete."); break;
    }
    return a->s.complete ? STATUS_COMPLETE : STATUS_CUT_SHORT;
}

static int why(const options *o)
{
    asked a;
    fault refused = {0, ""};
    size_t off = 0;
    int status = asked_begin(o, &a);
    if (status == STATUS_COMPLETE) status = asked_trays(&a, "", &off);
    if (status == STATUS_COMPLETE && off == 0) {
        status = asked_solve(o, &a);
        if (status == STATUS_COMPLETE || status == STATUS_CUT_SHORT) {
            reply r = ask_why(&a.q, &refused);
            status = r.kind == ANSWER_REFUSED ? io_refuse(file_of(o), &refused) : say_reason(&a, r);
        }
        if (status == STATUS_COMPLETE) status = finish(o, status);
    }
    asked_free(&a);
    return status;
}

const command command_why = {
    "why", "why FILE COUNTS", "why these counts are not in the list of loops",
    "COUNTS is a number for each activity, or NAME=N for those that are done: \"write=2 send=1\". It says which trays would hold more or less\n"
    "than before, or else which loop the counts contain, or which they are.\n",
    TAKES_WALK | TAKES_STEPS | TAKES_DELIVER | TAKES_CHECKPOINT | TAKES_STRICT, 2, (size_t)-1, why
};
