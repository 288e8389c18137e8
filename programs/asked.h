/* What `why` and `plan` share: a map, the counts that are asked about, and the map's lists. */
#ifndef ASKED_H
#define ASKED_H

#include "ask.h"
#include "command.h"

typedef struct {
    map m;
    uint32_t *counts;
    solved s;
    question q;
} asked;

/* Reads the map and the counts. Gives STATUS_COMPLETE, or another status and why was said. To be freed in either case. */
int asked_begin(const options *o, asked *out);

/* Says, after `before`, which trays would hold more or less than they are to; `off` is how many. */
int asked_trays(const asked *a, const char *before, size_t *off);

/* Solves the map, so that the question has its lists. The status is that of work(). */
int asked_solve(const options *o, asked *a);

void asked_free(asked *a);

#endif
