/* By Contejean and Devie's walk: plainly, with right sides, from a lower bound, or a further desk from the list of those before it. */
#include "solve_run.h"

static dezgula_run walk_of(const run *r)
{
    dezgula_run lent = {r->stack.at, r->stack.len, r->list.at, r->list.len, r->second.at, r->second.len, r->record};
    return lent;
}

static dezgula_list generators_of(const run *r)
{
    dezgula_list generators = {r->generators.at, r->generators.len, r->generators.len / r->what.q};
    return generators;
}

/* ---- the calls of each kind of walk */

static size_t stack_length(const run *r)
{
    size_t q = r->what.q;
    switch (r->machine) {
    case RIGHTS: return DEZGULA_RIGHTS_STACK_LENGTH(q);
    case DESK: return DEZGULA_DESK_STACK_LENGTH(q, r->generators.len / q);
    default: return DEZGULA_STACK_LENGTH(q);
    }
}

static uint64_t start_own(const run *r, const dezgula_system *system, dezgula_run *lent)
{
    dezgula_list generators = generators_of(r);
    switch (r->machine) {
    case RIGHTS: return dezgula_start_rights(system, r->what.rights, r->what.p, lent);
    case LOWER: return dezgula_start_from(system, r->what.lower, r->what.q, lent);
    case DESK: return dezgula_start_desk(system, &generators, lent);
    default: return dezgula_start(system, lent);
    }
}

static uint64_t resume_own(const run *r, const dezgula_system *system, dezgula_run *lent, uint64_t budget)
{
    dezgula_list generators = generators_of(r);
    switch (r->machine) {
    case RIGHTS: return dezgula_resume_rights(system, r->what.rights, r->what.p, lent, budget);
    case LOWER: return dezgula_resume_from(system, r->what.lower, r->what.q, lent, budget);
    case DESK: return dezgula_resume_desk(system, &generators, lent, budget);
    default: return dezgula_resume(system, lent, budget);
    }
}

/* ---- the machine */

static uint64_t start_walk(run *r)
{
    /* more than the call takes are refused before there is a stack for them */
    if (r->machine == DESK && generators_of(r).found > DEZGULA_MOST_GENERATORS) return DEZGULA_GENERATORS;
    if (!set_length(&r->stack, stack_length(r))) return DEZGULA_LIST_FULL;
    dezgula_system system = system_of(r);
    dezgula_run lent = walk_of(r);
    uint64_t answer = start_own(r, &system, &lent);
    r->record = lent.record;
    return answer;
}

static uint64_t go_on_walk(run *r, uint64_t budget)
{
    dezgula_system system = system_of(r);
    dezgula_run lent = walk_of(r);
    uint64_t answer = resume_own(r, &system, &lent, budget);
    r->record = lent.record;
    return answer;
}

/* Room for twice as many rows. */
static bool double_rows(table *t, size_t q)
{
    size_t rows = t->len / q;
    if (rows >= MOST_ROWS) return false;
    rows = rows == 0 ? FIRST_ROWS : 2 * rows;
    return set_length(t, (rows > MOST_ROWS ? MOST_ROWS : rows) * q);
}

/* Lengthens the list that is full, of one or two. */
static bool lengthen_walk(run *r)
{
    dezgula_system system = system_of(r);
    dezgula_run lent = walk_of(r);
    return double_rows(dezgula_full_list(&system, &lent) == DEZGULA_SECOND ? &r->second : &r->list, r->what.q);
}

const machine by_walk = {start_walk, go_on_walk, lengthen_walk, DEZGULA_LIST_FULL};
