/* A problem worked at to its end, with what a person sees meanwhile: progress, interrupts, and a kept run where one is asked for. */
#ifndef WORK_H
#define WORK_H

#include "solve.h"

/* How a run ended. The lists are copies, in rows of q numbers. */
typedef struct {
    size_t q;
    uint32_t *loops, *wanted;
    size_t loops_len, wanted_len;
    bool has_wanted; /* right sides or a lower bound were asked for */
    bool walked, complete, interrupted;
    progress last;
    fault why; /* where it is not complete */
} solved;

void solved_free(solved *s);

/* Works until the end, a refusal or an interrupt. Gives STATUS_COMPLETE; STATUS_CUT_SHORT, with the lists as far as they are sure, and why was said;
 * STATUS_REFUSED or STATUS_NOTHING, and why was said, with no lists. `name` is the file that is spoken of, `kept` that of a kept run or NULL. A kept run stays
 * until checkpoint_remove. */
int work(const problem *what, const char *name, const char *kept, solved *out);

/* Puts both lists in the order in which they are shown: by size, which is the sum of the counts, and among equals those with more of the first activities
 * first. */
void solved_sort(solved *s);

/* That order: below 0 where x comes before y, 0 where they are the same. */
int compare_rows(const uint32_t *x, const uint32_t *y, size_t q);

/* The sum of the counts of a row. */
uint64_t size_of_row(const uint32_t *row, size_t q);

#endif
