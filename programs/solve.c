#include "solve.h"

#include <inttypes.h>
#include <stdlib.h>
#include <string.h>
#include <time.h>

#include "limits.h"
#include "solve_run.h"

/* the steps of a first call, and what a call is to take */
enum { FIRST_BUDGET = 10000 };
static const double CALL_SECONDS = 0.05;

static const machine *const MACHINE_OF[MACHINES] = {&by_engine, &by_engine_wanted, &by_engine_further, &by_walk, &by_walk, &by_walk, &by_walk};

unsigned machine_of(const problem *what, size_t group)
{
    if (group > 0) return what->how == BY_WALK ? DESK : FURTHER;
    bool wanted = what->lower != NULL || what->rights != NULL;
    if (what->how != BY_WALK) return wanted ? WANTED : ENGINE;
    return what->lower != NULL ? LOWER : what->rights != NULL ? RIGHTS : WALK;
}

bool set_length(table *t, size_t len)
{
    uint32_t *longer = realloc(t->at, (len > 0 ? len : 1) * sizeof *longer);
    if (longer == NULL) return false;
    t->at = longer;
    t->len = len;
    return true;
}

/* How many equations the group under way has. */
static size_t own_equations(const run *r)
{
    return r->what.groups_len > 1 ? r->what.groups[r->group] : r->what.p;
}

dezgula_system system_of(const run *r)
{
    const problem *w = &r->what;
    size_t p = own_equations(r);
    dezgula_system system = {p, w->q, w->coefs + r->before * w->q, p * w->q};
    return system;
}

/* ---- what is said of an answer */

static bool say_size(const problem *what, unsigned machine, unsigned number, fault *why)
{
    bool engine = machine == ENGINE || machine == WANTED || machine == FURTHER, fewer = machine == WANTED || machine == RIGHTS;
    const char *how = machine == WANTED ? "with deliveries or a lower bound there are" : engine ? "there are" : "the walk takes";
    int most_p = engine ? MOST_TRAYS : DEZGULA_MOST_EQUATIONS;
    size_t most_q = (engine ? (size_t)MOST_ACTIVITIES : (size_t)DEZGULA_MOST_UNKNOWNS) - (fewer ? 1 : 0);
    if (number == DEZGULA_EQUATIONS) return fault_set(why, number, "%zu trays change; %s 1 to %d", what->p, how, most_p);
    return fault_set(why, number, "%zu activities; %s 1 to %zu", what->q, how, most_q);
}

static bool say(const run *r, uint64_t answer, fault *why)
{
    unsigned number = dezgula_number(answer);
    switch (number) {
    case DEZGULA_EQUATIONS:
    case DEZGULA_UNKNOWNS: return say_size(&r->what, r->machine, number, why);
    case DEZGULA_OUT_OF_ORDER: return fault_set(why, number, "the state of the run is not in order");
    case DEZGULA_COEFFICIENT:
        return fault_set(why, number, "coefficient %" PRIu64 " is outside -%d to %d", dezgula_place(answer), MOST_COEFFICIENT, MOST_COEFFICIENT);
    case DEZGULA_TUPLE_RANGE: return fault_set(why, number, "a count to begin from is above %d", MOST_COUNT);
    case DEZGULA_RIGHT_SIDE: return fault_set(why, number, "a tray would have to gain or lose more than %d", MOST_COEFFICIENT);
    case DEZGULA_ENGINE_SIDE:
        return fault_set(why, number, "tray %" PRIu64 " would have to gain or lose more than 1000000, given the lower bound", dezgula_place(answer));
    case DEZGULA_COMPONENT: return fault_set(why, number, "a count would be above %d", MOST_COUNT);
    case DEZGULA_STEPS_AT_LIMIT: return fault_set(why, number, "1,000,000,000,000 steps are taken");
    case DEZGULA_LIST_FULL:
    case DEZGULA_ENGINE_FULL: return fault_set(why, number, "there is no memory for more than %" PRIu64 " rows", solve_progress(r).rows);
    case DEZGULA_GENERATORS:
        return fault_set(why, number, "desk %zu: those before it have %zu loops, and it starts from at most %d, none of which moves more than %d documents",
                         r->group + 1, r->generators.len / r->what.q, DEZGULA_MOST_GENERATORS, DEZGULA_IMAGE_LIMIT);
    default: return fault_set(why, number, "%s", dezgula_sentence(answer));
    }
}

/* ---- a run */

static double now(void)
{
    struct timespec t;
    clock_gettime(CLOCK_MONOTONIC, &t);
    return (double)t.tv_sec + 1e-9 * (double)t.tv_nsec;
}

static bool fits(const problem *what, fault *why)
{
    bool wanted = what->rights != NULL || what->lower != NULL;
    if (wanted && what->groups_len > 1) return fault_set(why, 0, "with desks there are neither deliveries nor a lower bound");
    if (what->how == BY_WALK && what->rights != NULL && what->lower != NULL)
        return fault_set(why, 0, "the walk takes deliveries or a lower bound, not both");
    return true;
}

run *run_blank(const problem *what, fault *why)
{
    run *r = fits(what, why) ? calloc(1, sizeof *r) : NULL;
    if (r == NULL) {
        if (why->text[0] == 0) fault_set(why, 0, "there is no memory for the run");
        return NULL;
    }
    r->what = *what;
    r->machine = machine_of(what, 0);
    r->budget = FIRST_BUDGET;
    return r;
}

run *solve_begin(const problem *what, fault *why)
{
    why->text[0] = 0;
    run *r = run_blank(what, why);
    if (r == NULL) return NULL;
    uint64_t answer = MACHINE_OF[r->machine]->start(r);
    if (answer == DEZGULA_STARTED) return r;
    say(r, answer, why);
    solve_end(r);
    return NULL;
}

void solve_end(run *r)
{
    if (r == NULL) return;
    free(r->generators.at);
    free(r->stack.at);
    free(r->list.at);
    free(r->second.at);
    dezgula_solver_free(r->engine);
    free(r);
}

/* The list of the group under way, where it is done; of a walk also before. */
static table list_of(const run *r)
{
    size_t rows = (size_t)r->record.found.count;
    table list = {r->list.at, 0};
    if (r->machine == ENGINE || r->machine == FURTHER) list.at = (uint32_t *)(uintptr_t)dezgula_solver_rows(r->engine, &rows);
    list.len = rows * r->what.q;
    return list;
}

/* The list of the group that is done goes to the next one. */
static state next_group(run *r, fault *why)
{
    table list = list_of(r), kept = {NULL, 0};
    if (!set_length(&kept, list.len)) {
        fault_set(why, 0, "there is no memory for the list of desk %zu", r->group + 1);
        return RUN_CUT_SHORT;
    }
    if (list.len > 0) memcpy(kept.at, list.at, list.len * sizeof *kept.at);
    free(r->generators.at);
    r->generators = kept;
    dezgula_solver_free(r->engine);
    r->engine = NULL;
    r->before += r->what.groups[r->group++];
    r->machine = machine_of(&r->what, r->group);
    uint64_t answer = MACHINE_OF[r->machine]->start(r);
    if (answer == DEZGULA_STARTED) return RUN_GOES_ON;
    say(r, answer, why);
    return RUN_CUT_SHORT;
}

/* The steps of the next call, and whether there are any left. */
static bool steps_left(const run *r, uint64_t *budget)
{
    uint64_t taken = r->record.steps.count + r->record.before.count;
    *budget = r->budget;
    if (r->what.most_steps == 0 || r->what.how != BY_WALK) return true;
    if (taken >= r->what.most_steps) return false;
    if (*budget > r->what.most_steps - taken) *budget = r->what.most_steps - taken;
    return true;
}

state solve_go_on(run *r, fault *why)
{
    const machine *own = MACHINE_OF[r->machine];
    uint64_t budget;
    bool left = steps_left(r, &budget);
    double before = now();
    uint64_t answer = own->go_on(r, left ? budget : 0);
    double taken = now() - before;
    if (taken < CALL_SECONDS / 2 && r->budget < UINT64_MAX / 2) r->budget *= 2;
    else if (taken > CALL_SECONDS * 2 && r->budget > 1) r->budget /= 2;
    if (answer == DEZGULA_COMPLETE) {
        if (r->group + 1 < r->what.groups_len) return next_group(r, why);
        r->complete = true;
        return RUN_COMPLETE;
    }
    if (answer == DEZGULA_PAUSED && left) return RUN_GOES_ON;
    if (answer == own->full && own->lengthen(r)) return RUN_GOES_ON;
    if (answer == DEZGULA_PAUSED) fault_set(why, 0, "paused after %" PRIu64 " steps", r->what.most_steps);
    else say(r, answer, why);
    return RUN_CUT_SHORT;
}

progress solve_progress(const run *r)
{
    progress told = {.walking = true, .desk = r->group + 1, .desks = r->what.groups_len > 1 ? r->what.groups_len : 1, .of = system_of(r).p};
    if (r->machine == ENGINE || r->machine == WANTED || r->machine == FURTHER) {
        dezgula_solver_progress p = r->engine != NULL ? dezgula_solver_told(r->engine) : (dezgula_solver_progress){0, 0, 0, {0}};
        told.walking = false;
        told.done = p.done;
        told.rows = p.rows;
        told.steps = p.steps.count;
    } else {
        told.rows = r->record.found.count + r->record.second.count;
        told.steps = r->record.steps.count + r->record.before.count;
        told.deepest = r->record.deepest;
    }
    return told;
}

lists solve_lists(const run *r)
{
    lists shown = {NULL, NULL, 0, 0};
    if (!r->complete && (r->what.how != BY_WALK || r->what.groups_len > 1)) return shown;
    table list = list_of(r);
    shown.loops = list.at;
    shown.loops_len = list.len / r->what.q;
    if (r->machine == RIGHTS || r->machine == WANTED) {
        shown.wanted = r->second.at;
        shown.wanted_len = (size_t)r->record.second.count;
    } else if (r->machine == LOWER) {
        shown.wanted = list.at;
        shown.wanted_len = shown.loops_len;
        shown.loops = r->second.at;
        shown.loops_len = (size_t)r->record.second.count;
    }
    return shown;
}
