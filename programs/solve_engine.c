/* By the engine: a whole group of equations; with right sides or a lower bound; from the list of the groups before. */
#include "solve_run.h"

#include <unistd.h>

#include "limits.h"

/* ---- by the engine */

/* Half of the memory that there is. */
static size_t most_bytes(void)
{
    long pages = sysconf(_SC_PHYS_PAGES), size = sysconf(_SC_PAGE_SIZE);
    return pages > 0 && size > 0 ? (size_t)pages / 2 * (size_t)size : SIZE_MAX;
}

void limit_engine(run *r)
{
    if (r->engine != NULL) dezgula_solver_limit(r->engine, most_bytes());
}

static uint64_t start_engine(run *r)
{
    dezgula_system system = system_of(r);
    uint64_t answer = DEZGULA_STARTED;
    r->engine = dezgula_solver_new(&system, &answer);
    limit_engine(r);
    return answer;
}

/* The solver measures by itself what takes about 50 ms. */
static uint64_t go_on_engine(run *r, uint64_t budget)
{
    (void)budget;
    return dezgula_solver_work(r->engine, 0);
}

static bool lengthen_engine(run *r)
{
    (void)r;
    return false;
}

/* ---- by the engine, with right sides or a lower bound: the solver for these hands out both lists */

static uint64_t start_wanted(run *r)
{
    const problem *w = &r->what;
    const dezgula_system system = {w->p, w->q, w->coefs, w->p * w->q};
    uint64_t answer = DEZGULA_STARTED;
    r->engine = dezgula_solver_new_sides(&system, w->rights, w->lower, &answer);
    limit_engine(r);
    return answer;
}

/* Copies rows to a table. Answers DEZGULA_COMPLETE; or 31, no memory, or 12, a count that is too large. */
static uint64_t take_rows(const run *r, const uint32_t *rows, size_t count, table *out, uint64_t *kept)
{
    const size_t numbers = count * r->what.q;
    *kept = count;
    if (!set_length(out, numbers)) return DEZGULA_ENGINE_FULL;
    for (size_t i = 0; i < numbers; i++) {
        if (rows[i] > MOST_COUNT) return DEZGULA_COMPONENT;
        out->at[i] = rows[i];
    }
    return DEZGULA_COMPLETE;
}

static uint64_t go_on_wanted(run *r, uint64_t budget)
{
    (void)budget;
    uint64_t answer = dezgula_solver_work(r->engine, 0);
    size_t loops = 0, smallest = 0;
    const uint32_t *first = dezgula_solver_rows(r->engine, &loops), *second = dezgula_solver_smallest(r->engine, &smallest);
    if (answer == DEZGULA_COMPLETE) answer = take_rows(r, first, loops, &r->list, &r->record.found.count);
    if (answer == DEZGULA_COMPLETE) answer = take_rows(r, second, smallest, &r->second, &r->record.second.count);
    return answer;
}

/* ---- by the engine, from the list of the groups before: the call that starts from a list is proved. That the list is whole is what the answer of those groups
 * says. */

static uint64_t start_further(run *r)
{
    dezgula_system system = system_of(r);
    dezgula_list list = {r->generators.at, r->generators.len, r->generators.len / r->what.q};
    uint64_t answer = DEZGULA_STARTED;
    r->engine = dezgula_solver_new_from(&system, &list, &answer);
    limit_engine(r);
    return answer;
}

const machine by_engine = {start_engine, go_on_engine, lengthen_engine, DEZGULA_ENGINE_FULL};
const machine by_engine_wanted = {start_wanted, go_on_wanted, lengthen_engine, DEZGULA_ENGINE_FULL};
const machine by_engine_further = {start_further, go_on_engine, lengthen_engine, DEZGULA_ENGINE_FULL};
