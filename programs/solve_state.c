/* A run that is kept: solve_state and solve_restore. */
#include "solve_run.h"

#include <stdlib.h>
#include <string.h>

/* ---- the state of a run: first these words, then the tables one after the other. Of the engine the solver's own words are the table. */

enum { TABLES = 4 };

typedef struct {
    uint64_t machine, group, before;
    uint64_t lengths[TABLES];
    dezgula_record record;
    uint64_t unused[10]; /* 0; runs of a version before had a record of the engine here, and the others are read as they were */
} words;

/* The tables as they are kept. */
static void tables_of(const run *r, const uint32_t *saved, table out[TABLES])
{
    size_t q = r->what.q, second = r->machine == RIGHTS || r->machine == LOWER ? (size_t)r->record.second.count * q : 0;
    const table walk[TABLES] = {r->generators, r->stack, {r->list.at, (size_t)r->record.found.count * q}, {r->second.at, second}};
    const table engine[TABLES] = {{(uint32_t *)(uintptr_t)saved, saved != NULL ? dezgula_solver_saved_length(r->engine) : 0}};
    memcpy(out, saved != NULL ? engine : walk, sizeof walk);
}

static void *packed(const run *r, const table tables[TABLES], size_t *len)
{
    words head = {.machine = r->machine, .group = r->group, .before = r->before, .record = r->record};
    *len = sizeof head;
    for (size_t i = 0; i < TABLES; i++) {
        head.lengths[i] = tables[i].len;
        *len += tables[i].len * sizeof *tables[i].at;
    }
    char *bytes = malloc(*len), *at = bytes;
    if (bytes == NULL) return NULL;
    memcpy(at, &head, sizeof head);
    at += sizeof head;
    for (size_t i = 0; i < TABLES; i++) {
        size_t size = tables[i].len * sizeof *tables[i].at;
        if (size > 0) memcpy(at, tables[i].at, size);
        at += size;
    }
    return bytes;
}

void *solve_state(const run *r, size_t *len)
{
    table tables[TABLES];
    uint32_t *saved = NULL;
    if (r->engine != NULL) {
        saved = malloc(dezgula_solver_saved_length(r->engine) * sizeof *saved);
        if (saved == NULL) return NULL;
        dezgula_solver_save(r->engine, saved);
    }
    tables_of(r, saved, tables);
    void *bytes = packed(r, tables, len);
    free(saved);
    return bytes;
}

static bool by_solver(uint64_t machine) { return machine == ENGINE || machine == WANTED || machine == FURTHER; }

/* Whether the words are those of a run of this problem, with tables that are as long as the bytes that follow. */
static bool in_order(const problem *what, const words *head, size_t len)
{
    uint64_t numbers = (len - sizeof *head) / sizeof(uint32_t), before = 0;
    if ((len - sizeof *head) % sizeof(uint32_t) != 0 || head->group >= (what->groups_len > 0 ? what->groups_len : 1)) return false;
    for (size_t i = 0; i < head->group; i++) before += what->groups[i];
    if (head->before != before || head->machine != machine_of(what, (size_t)head->group)) return false;
    for (size_t i = 0; i < TABLES; i++) {
        if (head->lengths[i] > numbers) return false;
        numbers -= head->lengths[i];
    }
    if (numbers != 0 || by_solver(head->machine)) return numbers == 0;
    uint64_t q = what->q;
    if (head->record.found.count > head->lengths[2] / q || head->lengths[2] % q != 0) return false;
    return head->machine == WALK || head->machine == DESK || head->record.second.count <= head->lengths[3] / q;
}

static bool take_walk(run *r, const words *head, const uint32_t *at)
{
    table *tables[TABLES] = {&r->generators, &r->stack, &r->list, &r->second};
    for (size_t i = 0; i < TABLES; i++) {
        size_t len = (size_t)head->lengths[i];
        if (len == 0) continue;
        if (!set_length(tables[i], len)) return false;
        memcpy(tables[i]->at, at, len * sizeof *at);
        at += len;
    }
    return true;
}

/* The solver from its words. */
static bool take_engine(run *r, const words *head, const uint32_t *at)
{
    uint64_t answer = 0;
    r->engine = dezgula_solver_load(at, (size_t)head->lengths[0], &answer);
    limit_engine(r);
    return r->engine != NULL && dezgula_solver_system(r->engine).q == r->what.q;
}

/* The tables from a copy of the bytes, which may stand at any place. */
static bool take_tables(run *r, const words *head, const char *bytes, size_t len)
{
    uint32_t *copy = malloc(len + sizeof *copy);
    if (copy == NULL) return false;
    memcpy(copy, bytes, len);
    bool taken = by_solver(r->machine) ? take_engine(r, head, copy) : take_walk(r, head, copy);
    free(copy);
    return taken;
}

run *solve_restore(const problem *what, const void *state, size_t len, fault *why)
{
    words head;
    why->text[0] = 0;
    if (len >= sizeof head) memcpy(&head, state, sizeof head);
    if (len < sizeof head || !in_order(what, &head, len)) {
        fault_set(why, 0, "the state in it is not that of such a run");
        return NULL;
    }
    run *r = run_blank(what, why);
    if (r == NULL) return NULL;
    r->machine = (unsigned)head.machine;
    r->group = (size_t)head.group;
    r->before = (size_t)head.before;
    r->record = head.record;
    if (take_tables(r, &head, (const char *)state + sizeof head, len - sizeof head)) return r;
    fault_set(why, 0, "the state in it cannot be taken, or there is no memory for it");
    solve_end(r);
    return NULL;
}
