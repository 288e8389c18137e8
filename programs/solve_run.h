/* A run from within: what solve.c (the run), solve_engine.c and solve_walk.c (ways to solve a group of equations) and solve_state.c (a run that is kept)
 * share. */
#ifndef SOLVE_RUN_H
#define SOLVE_RUN_H

#include "solve.h"

#include "dezgula.h"
#include "dezgula_engine.h"

/* the rows that a table has room for at first and at most */
enum { FIRST_ROWS = 1024, MOST_ROWS = 10000000 };

typedef struct {
    uint32_t *at;
    size_t len; /* in numbers */
} table;

/* One way to solve a group of equations: its calls, on the tables and the record of the run, and the answer by which it asks for longer tables. */
typedef struct {
    uint64_t (*start)(run *);
    uint64_t (*go_on)(run *, uint64_t budget);
    bool (*lengthen)(run *);
    unsigned full;
} machine;

/* What is solved how: by the engine, also with right sides or a lower bound, and from the list of the groups before; the same by the walk. */
enum { ENGINE, WANTED, FURTHER, WALK, RIGHTS, LOWER, DESK, MACHINES };

struct run {
    problem what;
    unsigned machine;     /* of the group under way */
    size_t group, before; /* that group, from 0, and how many equations the groups before it have */
    bool complete;
    table generators; /* the list of the groups before */
    table stack, list, second;
    dezgula_record record;  /* of the walks */
    dezgula_solver *engine; /* of the group under way, where it is not walked */
    uint64_t budget;
};

/* ---- solve.c */

/* A run of the problem that is not begun. NULL: refused, and `why` says why. */
run *run_blank(const problem *what, fault *why);

/* The machine of a group, from 0. */
unsigned machine_of(const problem *what, size_t group);

/* Room for so many numbers. */
bool set_length(table *t, size_t len);

/* The equations of the group under way by themselves. */
dezgula_system system_of(const run *r);

/* ---- solve_engine.c */

extern const machine by_engine, by_engine_wanted, by_engine_further;

/* Lets the solver of a run have half of the memory that there is. */
void limit_engine(run *r);

/* ---- solve_walk.c */

extern const machine by_walk;

#endif
