/* Everything that is solved is solved behind this: a map to its lists, by proved calls, in tables that grow, in calls of about 50 ms each, so that it can be
 * interrupted, told of and saved between any two.
 *
 * The loops are the minimal solutions with all right sides zero. With right sides or a lower bound there is a second list, of what is wanted: the smallest
 * tuples that meet the right sides, or the smallest solutions at or above the bound. Every tuple that is wanted is one of the second list and loops.
 * Only a walk has lists before its end; what the other method holds until then says nothing of the map. */
#ifndef SOLVE_H
#define SOLVE_H

#include "map.h"

typedef enum { BY_ENGINE, BY_WALK } method; /* the walk is Contejean and Devie's, on one group of at most 8 trays and 16 activities */

/* What is to be solved. All of it stays as it is, and where it is, until the run is given back. */
typedef struct {
    size_t p, q;
    const int32_t *coefs;
    const int32_t *rights; /* NULL: all zero */
    const uint32_t *lower; /* NULL: no lower bound */
    const size_t *groups;  /* how many equations each desk has, in their order, which add up to p; NULL: all are one group */
    size_t groups_len;
    method how;
    uint64_t most_steps; /* of a walk; 0: as many as it takes */
} problem;

typedef struct run run;

typedef enum { RUN_GOES_ON, RUN_COMPLETE, RUN_CUT_SHORT } state;

/* Begins a run. NULL: refused, and `why` says why. */
run *solve_begin(const problem *what, fault *why);

/* Goes on for about 50 ms. RUN_CUT_SHORT: it cannot go on, and `why` says why. */
state solve_go_on(run *r, fault *why);

void solve_end(run *r);

/* ---- what a run shows */

typedef struct {
    bool walking;
    size_t desk, desks; /* the group under way, from 1, and how many there are */
    size_t done, of;    /* equations of it, where it is not walked */
    uint64_t rows, steps;
    uint64_t deepest; /* of a walk: the greatest sum of components taken off */
} progress;

progress solve_progress(const run *r);

/* The lists as they stand; rows of q numbers, which stay where they are until the run goes on or is given back. `wanted` only with right sides or a bound. */
typedef struct {
    const uint32_t *loops, *wanted;
    size_t loops_len, wanted_len; /* in rows */
} lists;

lists solve_lists(const run *r);

/* ---- a run that is kept: the words of its record and what its tables hold */

/* Writes the state to a buffer that the caller gives back. NULL: there is no memory. */
void *solve_state(const run *r, size_t *len);

/* The run of this problem whose state it was. NULL: it is no such state, and `why` says why. */
run *solve_restore(const problem *what, const void *state, size_t len, fault *why);

#endif
