/* Questions about counts: what they do to each tray, why they are no loop, which loops they are made of. Each answer is a proved call's.
 *
 * Right sides are asked about by one more unknown, placed first, which is 1 in the counts and in what meets the right sides, and 0 in loops. */
#ifndef ASK_H
#define ASK_H

#include "work.h"

typedef struct {
    size_t p, q;
    int32_t *coefs;
    uint32_t *rows; /* the loops, then what meets the right sides */
    size_t loops, rows_len;
    uint32_t *tuple;
} question;

/* The question for counts of a map, with the lists of `s`, or without lists where it is NULL. False: there is no memory. */
bool ask_about(const map *m, const uint32_t *counts, const solved *s, question *out);

void question_free(question *asked);

/* How much the counts miss the right side of tray i by, from 0: what it would gain, less what it is to gain. False: refused, and `why` says why. */
bool ask_tray(const question *asked, size_t i, int64_t *amount, fault *why);

/* Why the counts are not in the list, or what they are made of: `row` is a row of the list, from 0, where there is one. */
typedef enum { ANSWER_ZERO, ANSWER_OFF, ANSWER_STANDS, ANSWER_ABOVE, ANSWER_UNLISTED, ANSWER_MADE, ANSWER_REFUSED } kind_of_answer;

typedef struct {
    kind_of_answer kind;
    size_t row;
} reply;

reply ask_why(const question *asked, fault *why);

/* `times` has a place for each row: how often it is taken. */
reply ask_plan(const question *asked, uint32_t *times, fault *why);

#endif
