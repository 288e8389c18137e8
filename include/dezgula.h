/* Dezgula: the minimal solutions of systems of linear Diophantine equations, listed by the stack walk of Contejean and Devie.
 *
 * A system has p equations (1 to 8), q unknowns (1 to 16) and p * q coefficients (-10,000 to 10,000), given row by row. A tuple gives each unknown a
 * natural number of at most 1,000,000. A solution brings every equation to zero; it is minimal if it is not all zero and no other such solution is
 * at or below it in every component.
 *
 * Three headers: this one has systems, every kind of run and the questions about a list; dezgula_text.h has maps, equations and list files; and
 * dezgula_engine.h has the engine for large maps. These rules hold for every call of them:
 *
 *   answers   A call answers with one number of 64 bits: dezgula_number gives what it is, dezgula_place the place that it comes with, from 1, or 0, and
 *             dezgula_sentence says it in English. 0 is "complete", 1 to 99 are refusals, 100 and above are not. An answer must be looked at: a start that
 *             is refused writes nothing, and a call that goes on would then go on with whatever the tables and the record held before.
 *   tables    A table comes as a pointer and the number of its entries; NULL is an empty table, whatever its length says. A pointer to a struct, or to one
 *             number, is never NULL, unless its call says so.
 *   trust     No call trusts what it is lent: lengths, coefficients, tables and record are checked first, and what is not in order is refused.
 *   writing   A refusal changes nothing lent, unless it is one within the walk (11, 12, 14, 24), which leaves all as after the last whole step. What else is
 *             written, each call says; nothing more is. What a call may write lies apart from everything else that it is lent.
 *   threads   Nothing is kept between two calls, so runs may go on in several threads, each in one at a time.
 *   cost      Where a call says nothing of its cost, that is below some thousand operations, whatever it is lent.
 */
#ifndef DEZGULA_H
#define DEZGULA_H

#include <stddef.h>
#include <stdint.h>

#ifdef __cplusplus
extern "C" {
#endif

#define DEZGULA_VERSION "2.0.0"

#define DEZGULA_MOST_EQUATIONS 8
#define DEZGULA_MOST_UNKNOWNS 16
#define DEZGULA_MOST_UNKNOWNS_WITH_RIGHTS 15
#define DEZGULA_COEFFICIENT_LIMIT 10000
#define DEZGULA_COMPONENT_LIMIT 1000000
#define DEZGULA_STEP_LIMIT UINT64_C(1000000000000)
#define DEZGULA_SUM_LIMIT 16000000
#define DEZGULA_MOST_GENERATORS 64
#define DEZGULA_IMAGE_LIMIT 7000000
#define DEZGULA_TRAINING_UNKNOWNS 6
#define DEZGULA_TRAINING_LIMIT 20
#define DEZGULA_MOST_RUNS 8

/* How many numbers the stack table takes: for q unknowns; for q unknowns and right sides; for q unknowns and so many generators. */
#define DEZGULA_STACK_LENGTH(q) ((q) * ((q) + 1))
#define DEZGULA_RIGHTS_STACK_LENGTH(q) (((q) + 1) * ((q) + 2))
#define DEZGULA_DESK_STACK_LENGTH(q, generators) ((generators) * ((q) + 2))

#if defined(__GNUC__) || defined(__clang__)
#define DEZGULA_LOOK_AT_IT __attribute__((warn_unused_result))
#else
#define DEZGULA_LOOK_AT_IT
#endif

/* The version of the library that is linked, as "2.0.0"; DEZGULA_VERSION is that of this header. */
const char *dezgula_version(void);

/* ---- answers */

/* The numbers of the answers. dezgula_text.h names 9, 10, 16 to 22, 106 to 108 and 130 to 132, and dezgula_engine.h names 31 to 36, 128 and 129. 13 is
 * retired: it is given to nothing. Of the refusals before the walk the first, in rising number, is given, but for those whose place in the order is told
 * here. */
enum {
    DEZGULA_COMPLETE = 0, /* the run is at its end: what it lists is whole */

    /* Refused before the walk. Nothing lent was changed. */
    DEZGULA_EQUATIONS = 1,    /* p is outside 1 to 8 */
    DEZGULA_UNKNOWNS = 2,     /* q is outside 1 to 16; with right sides outside 1 to 15 */
    DEZGULA_COUNT = 3,        /* coefs_len is not p * q; rights_len is not p; or a row of an equation does not have q entries */
    DEZGULA_STACK_SHORT = 4,  /* stack_len is below what the stack takes */
    DEZGULA_TUPLE_LENGTH = 5, /* the lower bound, or the tuple asked about, does not have q components */
    DEZGULA_OUT_OF_ORDER = 6, /* the record is of another kind of run; height above the rows that the stack has; a count above the capacity of its list;
                                 steps above 10^12; deepest above 16,000,000; or in rows 1 to height of the stack a component above the limit, marks beyond
                                 the unknowns, or in row k not exactly k - 1 marks; with right sides also a first unknown above 1; from a lower bound also
                                 a row that is not at or above it; with generators also a component of one above 1,000,000 */
    DEZGULA_COEFFICIENT = 7,  /* a coefficient is outside -10,000 to 10,000; the place is that of the first such one, row by row */
    DEZGULA_TUPLE_RANGE = 8,  /* a component of the lower bound, or of the tuple asked about, is above the limit */
    DEZGULA_RIGHT_SIDE = 15,  /* a right side is outside -10,000 to 10,000 */

    /* Refused within the walk. Tables and record stand as after the last whole step; the same call again is refused again. */
    DEZGULA_LIST_FULL = 11,         /* the next row is a solution and its list has no room (dezgula_full_list says which): a longer one with the same rows
                                       may be lent */
    DEZGULA_COMPONENT = 12,         /* a component would pass 1,000,000 */
    DEZGULA_STEPS_AT_LIMIT = 14,    /* 10^12 steps are taken */
    DEZGULA_TRAINING_COMPONENT = 24, /* at the training seat, in the place of 12: a component would pass 20 */

    /* Refused before the walk, each by some calls only. Nothing lent was changed. */
    DEZGULA_TRAINING_WIDE = 23, /* at the training seat, straight after 2: q is above 6 */
    DEZGULA_GENERATORS = 25,    /* a desk, last: more than 64 generators, or one with an image above 7,000,000 in size under the group */
    DEZGULA_COLUMN = 26,        /* single-file maps, after 7: a column is neither one 1, one -1 and zeros, nor all zeros; the place is the first such column */
    DEZGULA_SCHEDULE = 27,      /* dezgula_dispatch: not 1 to 8 runs, a turn of 0 steps, or a kept number above 8 */
    DEZGULA_PARTS = 28,         /* dezgula_dispatch: two parts of a table overlap, or one leaves it */
    DEZGULA_OUTPUT_SHORT = 29,  /* the last that is looked at: what is to be written has no room in what is lent for it */
    DEZGULA_NOT_MINIMAL = 30,   /* dezgula_listing, after 26: a row is no minimal solution; the place is the first such row */

    /* Not refused. */
    DEZGULA_STARTED = 100,         /* a start has written its rows and its record */
    DEZGULA_PAUSED = 101,          /* the budget is used up; a further call goes on from here */
    DEZGULA_ROW = 102,             /* the row was copied */
    DEZGULA_NO_ROW = 103,          /* there is no such row */
    DEZGULA_LISTING_WRITTEN = 104, /* the listing was written; the place is the number of its bytes */
    DEZGULA_SERVED = 110,          /* turns were handed out; each run has its own answer */
    DEZGULA_ALL_ZERO = 120,        /* the tuple is all zero */
    DEZGULA_OFF = 121,             /* an equation is off; the place is the first such one, and the amount its left side */
    DEZGULA_STANDS = 122,          /* the tuple is in the list; the place is the highest where it stands */
    DEZGULA_ABOVE = 123,           /* a row of the list lies below the tuple; the place is the highest of such a row */
    DEZGULA_UNLISTED = 124,        /* nothing listed lies below the tuple, or below what is left of it: the list is not complete */
    DEZGULA_MADE = 125,            /* the tuple is made of rows of the list */
    DEZGULA_AT_OR_BELOW = 126,     /* a row of the list is at or below the tuple; the place is the highest of such a row */
    DEZGULA_NOWHERE = 127          /* no row of the list is at or below the tuple */
};

/* An answer is a number in its low 8 bits and a place in the others. */
unsigned dezgula_number(uint64_t answer);
uint64_t dezgula_place(uint64_t answer);

/* What an answer of any call says, as an English sentence; never NULL. The place is the caller's to add. */
const char *dezgula_sentence(uint64_t answer);

/* ---- what is handed over */

/* The two counts are types of their own, so that neither can be handed over where the other is asked. */
typedef struct {
    uint64_t count;
} dezgula_solutions;

typedef struct {
    uint64_t count;
} dezgula_steps;

/* The kinds of run that a record tells; a start sets it. A record of one kind is refused with 6 by a continuing call of another. */
enum {
    DEZGULA_RUN_PLAIN = 0,
    DEZGULA_RUN_RIGHTS = 1,     /* with right sides */
    DEZGULA_RUN_FROM_PLAIN = 2, /* from a lower bound: the plain walk, which comes first, is under way */
    DEZGULA_RUN_FROM_ABOVE = 3, /* from a lower bound: the walk above it is under way */
    DEZGULA_RUN_DESK = 4        /* one group of equations after others */
};

/* The run record. A version to come may add fields: what a program does not know of a record it leaves to the calls. */
typedef struct {
    uint64_t height;          /* rows on the stack */
    dezgula_solutions found;  /* solutions in the list, which are its rows 1 to found, in the order found */
    dezgula_steps steps;      /* steps taken since the start; from a lower bound those of the walk above it */
    uint64_t kind;            /* of the run */
    dezgula_solutions second; /* rows of the second list, in a run that has two */
    dezgula_steps before;     /* from a lower bound: the steps of the plain walk */
    uint64_t deepest;         /* the greatest sum of components among the tuples taken off so far; from a lower bound in the walk above it */
} dezgula_record;

typedef struct {
    size_t p, q;
    const int32_t *coefs;
    size_t coefs_len;
} dezgula_system;

/* What a run is lent, and its record. A start sets the record; until then it may hold anything.
 *
 *   stack    at least DEZGULA_STACK_LENGTH(q) numbers, in rows of q + 1: q components, then the marks, where bit j - 1 says that unknown j is frozen; what
 *            lies past the first q rows is never touched
 *   list     any number of numbers, also none, in rows of q; its capacity is list_len / q rows
 *   second   the same, for the kinds of run that have two lists; the others neither read nor write it */
typedef struct {
    uint32_t *stack;
    size_t stack_len;
    uint32_t *list;
    size_t list_len;
    uint32_t *second;
    size_t second_len;
    dezgula_record record;
} dezgula_run;

/* ---- plain runs: the minimal solutions of a system
 *
 * A step compares what it makes with the rows found so far, so that it costs up to q * found comparisons of rows. */

/* Answers DEZGULA_STARTED, or refuses with 1, 2, 3, 4 or 7.
 * Started: writes rows 1 to q of the stack, sets the record's height to q and all else in it to 0. The list and the rest of the stack stay as they were. What
 * tables and record held before does not matter. */
uint64_t dezgula_start(const dezgula_system *system, dezgula_run *run) DEZGULA_LOOK_AT_IT;

/* Goes on with a run for at most `budget` steps. Answers DEZGULA_COMPLETE, DEZGULA_PAUSED, a refusal before the walk (1, 2, 3, 4, 6, 7) or one within it
 * (14, 11, 12).
 * Not refused before the walk: advances the stack, appends to the list, and leaves in the record where the walk now stands. Rows of the list past the found
 * count are not touched. Rows of the stack above the height keep what they last held. */
uint64_t dezgula_resume(const dezgula_system *system, dezgula_run *run, uint64_t budget) DEZGULA_LOOK_AT_IT;

/* ---- single-file maps: each column has one 1, one -1 and otherwise zeros, or is all zeros. Every component of a minimal solution is 0 or 1 there. */

/* As dezgula_start and dezgula_resume, and with 26 after 7. */
uint64_t dezgula_start_single_file(const dezgula_system *system, dezgula_run *run) DEZGULA_LOOK_AT_IT;
uint64_t dezgula_resume_single_file(const dezgula_system *system, dezgula_run *run, uint64_t budget) DEZGULA_LOOK_AT_IT;

/* ---- runs with right sides, A x = b: p right sides from -10,000 to 10,000, and q from 1 to 15. The same right sides go to every call on a run.
 *
 *   list     at 0: the minimal solutions of the system without its right sides, A x = 0, as dezgula_resume lists them
 *   second   at 1: the smallest tuples that meet the right sides, A x = b; where all right sides are zero that is the zero tuple
 *
 * Every tuple that meets the right sides is a row of the second list plus rows of the list. The walk has one unknown more, placed first, which is 0 or 1 and
 * says which list a tuple is for; the stack and `deepest` count it, the rows of the lists leave it out.
 *
 *   stack    at least DEZGULA_RIGHTS_STACK_LENGTH(q) numbers, in rows of q + 2: the extra unknown, q components, then the marks */

/* Answers DEZGULA_STARTED, or refuses with 1, 2, 3, 4, 7 or 15.
 * Started: writes rows 1 to q + 1 of the stack, sets the record's height to q + 1, its kind to DEZGULA_RUN_RIGHTS and all else in it to 0. The lists and the
 * rest of the stack stay as they were. What tables and record held before does not matter. */
uint64_t dezgula_start_rights(const dezgula_system *system, const int32_t *rights, size_t rights_len, dezgula_run *run) DEZGULA_LOOK_AT_IT;

/* Goes on for at most `budget` steps. Answers DEZGULA_COMPLETE, DEZGULA_PAUSED, a refusal before the walk (1, 2, 3, 4, 6, 7, 15) or one within it (14, 11, 12).
 * Not refused before the walk: advances the stack, appends to the lists, and leaves in the record where the walk now stands. Rows of a list past its count are
 * not touched. Rows of the stack above the height keep what they last held. */
uint64_t dezgula_resume_rights(const dezgula_system *system, const int32_t *rights, size_t rights_len, dezgula_run *run, uint64_t budget) DEZGULA_LOOK_AT_IT;

/* ---- runs from a lower bound: the minimal ones among the solutions that are at or above it in every component; zero counts as a solution here. The lower
 * bound has q components of at most 1,000,000, and the same one goes to every call on a run. A run has two walks, each with a list of its own:
 *
 *   second   of the plain walk, which comes first: the minimal solutions of the system, as dezgula_resume lists them
 *   list     of the walk above the lower bound: what the run is for. A tuple that exceeds the lower bound by a row of the second list or more leads to nothing
 *            minimal and is dropped
 *
 * The plain walk is gone through whatever the lower bound is. A lower bound that is itself a solution is the whole list, after one step of the second walk; but
 * it costs the plain run first, which may be long. Where no solution is at or above the lower bound the run may end with an empty list, or be refused with 12.
 * The stack serves both walks, one after the other. */

/* Answers DEZGULA_STARTED, or refuses with 1, 2, 3, 4, 5, 7 or 8.
 * Started: writes rows 1 to q of the stack, as dezgula_start does, sets the record's height to q, its kind to DEZGULA_RUN_FROM_PLAIN and all else in it to 0.
 * The lists and the rest of the stack stay as they were. What tables and record held before does not matter. */
uint64_t dezgula_start_from(const dezgula_system *system, const uint32_t *lower, size_t lower_len, dezgula_run *run) DEZGULA_LOOK_AT_IT;

/* Goes on for at most `budget` steps, those of both walks together. Answers DEZGULA_COMPLETE, DEZGULA_PAUSED, a refusal before the walk (1 to 8) or one within
 * it (14, 11, 12), which is about the walk under way.
 * Not refused before the walk: advances the stack, appends to the lists, and leaves in the record where the run now stands. Once the plain walk is at its end,
 * the lower bound is written to row 1 of the stack and the other walk is under way; that takes no step, so that a call with a budget of 0 may do it and answer
 * DEZGULA_PAUSED. Rows of a list past its count are not touched. Rows of the stack above the height keep what they last held. */
uint64_t dezgula_resume_from(const dezgula_system *system, const uint32_t *lower, size_t lower_len, dezgula_run *run, uint64_t budget) DEZGULA_LOOK_AT_IT;

/* ---- the training seat, which is the same solver for small maps: at most 6 unknowns, and components up to 20.
 *
 * A run at this seat lists what the calls above list after as many steps, and for one equation a plain run ends with the whole list where the largest positive
 * coefficient and the largest size of a negative one add up to at most 20. Each call answers and writes as the one without "training", with these
 * differences: 23 straight after 2; 6 also for a component above 20 on the stack; 8 for a component of the lower bound above 20; 24 in the place of 12. */
uint64_t dezgula_start_training(const dezgula_system *system, dezgula_run *run) DEZGULA_LOOK_AT_IT;
uint64_t dezgula_resume_training(const dezgula_system *system, dezgula_run *run, uint64_t budget) DEZGULA_LOOK_AT_IT;
uint64_t dezgula_start_training_from(const dezgula_system *system, const uint32_t *lower, size_t lower_len, dezgula_run *run) DEZGULA_LOOK_AT_IT;
uint64_t dezgula_resume_training_from(const dezgula_system *system, const uint32_t *lower, size_t lower_len, dezgula_run *run,
                                      uint64_t budget) DEZGULA_LOOK_AT_IT;

/* ---- what a run has listed */

/* Copies row n, from 1, of the run's list, or of its second one, to out. Answers DEZGULA_ROW; DEZGULA_NO_ROW for n = 0, n above the list's count or n above its
 * capacity; or refuses with 2, or, where there is such a row, with 29. Reads q, the lists, their counts and the kind only.
 * DEZGULA_ROW: writes out[0] to out[q - 1], and what stood past them stays. Else: writes nothing. */
uint64_t dezgula_row(const dezgula_system *system, const dezgula_run *run, size_t n, uint32_t *out, size_t out_len) DEZGULA_LOOK_AT_IT;
uint64_t dezgula_second_row(const dezgula_system *system, const dezgula_run *run, size_t n, uint32_t *out, size_t out_len) DEZGULA_LOOK_AT_IT;

/* Rows of q numbers each, one behind the other, where they stand: the first `found` of a table of `rows_len` numbers. */
typedef struct {
    const uint32_t *rows;
    size_t rows_len;
    size_t found;
} dezgula_list;

/* What a run has listed, in its list or in its second one. It must stay as it is while it is used. */
dezgula_list dezgula_listed(const dezgula_run *run);
dezgula_list dezgula_second_listed(const dezgula_run *run);

/* After DEZGULA_LIST_FULL, for every kind of run: which list has no room. DEZGULA_NEITHER where that cannot be, as at height 0. */
enum { DEZGULA_NEITHER = 0, DEZGULA_LIST = 1, DEZGULA_SECOND = 2 };
unsigned dezgula_full_list(const dezgula_system *system, const dezgula_run *run);

/* ---- one group of equations after others, desk by desk
 *
 * The first group is solved by itself. The walk of the next one starts from its minimal solutions, which are handed over with every call, and raises by them;
 * here they are generators. Complete, its list is that of the groups together, as a set, each once. Cut short it holds solutions of all of them, some of which
 * may not be minimal. With that list handed over a further group follows, and so on.
 *
 *   stack    DEZGULA_DESK_STACK_LENGTH(q, generators) numbers, as many rows as there are generators, of q + 2: q components, then the marks in two numbers,
 *            those of generators 1 to 32 in the first
 *   list     rows of q numbers. Paths through different generators can meet, so before each "complete", and where a solution is due and the list is full,
 *            a sweep removes each row that lies above another or repeats an earlier one, and closes the gaps; past the rows left the table keeps what it
 *            held. A sweep costs up to found * found comparisons of rows
 *
 * The generators too may be any rows, and what is promised of the list is for those of a whole list. Each call looks at every number of them first. */

/* Answers DEZGULA_STARTED, or refuses with 1, 2, 3, 4, 6 (a generator's component, or more generators than their table has rows), 7 or 25.
 * Started: row k of the stack is generator k with the marks of those before it, the record says so, and nothing else is written. */
uint64_t dezgula_start_desk(const dezgula_system *group, const dezgula_list *generators, dezgula_run *run) DEZGULA_LOOK_AT_IT;

/* Goes on for at most `budget` steps, with the group and the generators of the start. Answers DEZGULA_COMPLETE, DEZGULA_PAUSED, a refusal before the walk (1,
 * 2, 3, 4, 6, 7, 25) or one within it (14; 11, only where a sweep frees no row; 12). Complete, with a whole list of the groups before as generators: rows 1 to
 * found of the list are exactly the minimal solutions of all groups together, each once. */
uint64_t dezgula_resume_desk(const dezgula_system *group, const dezgula_list *generators, dezgula_run *run, uint64_t budget) DEZGULA_LOOK_AT_IT;

/* ---- questions about a list, whoever made it. They read only, but for what each says, and cost up to `found` comparisons of rows. dezgula_engine.h has
 * the same for maps of up to 32 equations and 32 unknowns. */

/* Which row of the list is at or below a tuple: DEZGULA_AT_OR_BELOW with the highest place of one, or DEZGULA_NOWHERE; or refuses with 2, 5 or 6 (found is
 * above the capacity). Of the system it reads q only. */
uint64_t dezgula_locate(const dezgula_system *system, const dezgula_list *list, const uint32_t *tuple, size_t tuple_len) DEZGULA_LOOK_AT_IT;

/* Why a tuple is not in the list: the first of DEZGULA_ALL_ZERO, DEZGULA_OFF, DEZGULA_STANDS, DEZGULA_ABOVE and DEZGULA_UNLISTED that is true of it, with its
 * place; or refuses with 1, 2, 3, 5, 6 (found is above the capacity), 7 or 8.
 * DEZGULA_OFF: writes the left side of the equation to *amount, unless that is NULL. Else: writes nothing. */
uint64_t dezgula_reason(const dezgula_system *system, const dezgula_list *list, const uint32_t *tuple, size_t tuple_len, int64_t *amount) DEZGULA_LOOK_AT_IT;

/* What a solution is made of: the rows of the list that add up to it, each as often as `times` says, the first row's multiple first. Answers DEZGULA_MADE,
 * always so for a solution where the list is complete; DEZGULA_UNLISTED: something is left that nothing listed lies below; or DEZGULA_OFF, as dezgula_reason
 * does. Refuses as dezgula_reason does, and last with 29 where `times` has no place for each row.
 * Made or unlisted: the first `found` places of `times` are written, the last row being taken as often as it goes, then the one before it, and so on; what
 * stood past them stays. DEZGULA_OFF: writes *amount, unless that is NULL. Else: writes nothing. */
uint64_t dezgula_decompose(const dezgula_system *system, const dezgula_list *list, const uint32_t *tuple, size_t tuple_len, uint32_t *times, size_t times_len,
                           int64_t *amount) DEZGULA_LOOK_AT_IT;

/* Writes a line for each row of the list of a single-file map to out, as "1 2 3 order 1 3 2" and a newline: its unknowns rising, then in the order in which
 * each has its 1 where the next has its -1, back to the first, from the lowest on. Every minimal solution of such a map has such an order.
 * Answers DEZGULA_LISTING_WRITTEN with the number of bytes, or refuses with 1, 2, 3, 6 (found is above the capacity), 7, 26, 30 or 29, in this order.
 * Written: so many bytes, with no 0 after them, and what stood past them stays. Else: writes nothing. */
uint64_t dezgula_listing(const dezgula_system *system, const dezgula_list *list, char *out, size_t out_len) DEZGULA_LOOK_AT_IT;

/* ---- up to eight plain runs at a time */

/* A part of a table: where it begins, from 0, and how many numbers it has. */
typedef struct {
    size_t start, size;
} dezgula_part;

/* What a run goes by: its system, whose coefficients are a part of one table, and its parts of one stack and one list. */
typedef struct {
    size_t p, q;
    dezgula_part coefs, stack, list;
} dezgula_share;

/* The tables of which each run has its part. */
typedef struct {
    const int32_t *coefs;
    size_t coefs_len;
    uint32_t *stack;
    size_t stack_len;
    uint32_t *list;
    size_t list_len;
} dezgula_tables;

/* A run's record, and what it answered in the last call. */
typedef struct {
    dezgula_record record;
    uint64_t answer;
} dezgula_turn;

/* The dispatcher's record: the number of the run served last, from 1, and 0 at first; the steps that the runs took in the last call; and the runs. */
typedef struct {
    uint64_t last;
    dezgula_steps steps;
    dezgula_turn runs[DEZGULA_MOST_RUNS];
} dezgula_round;

/* Hands out `turns` turns of `quantum` steps each round the unfinished runs (height above 0), rising from the one after the run served last. A run that
 * refuses or finishes leaves the round for this call. `shares` are `count` of them. Before the first call each run is started on its parts, and its record is
 * put into the round; the same shares, quantum and round go to every call.
 * Answers DEZGULA_SERVED, or refuses with 27 or 28. Served: each run's record, answer and rows are those that it would have alone from one dezgula_resume for
 * each of its turns; a run without a turn answers as to budget 0. No run's parts are touched by another's turn, nor what lies in no part. From one turn of a
 * run that is paused to its next, the others take at most 7 * quantum steps. A place past `count` has the answer DEZGULA_STARTED. */
uint64_t dezgula_dispatch(const dezgula_share *shares, size_t count, const dezgula_tables *tables, dezgula_round *round, uint64_t quantum,
                          uint64_t turns) DEZGULA_LOOK_AT_IT;

/* ---- for headers over further proved functions, which take no NULL: a table as they take it, and its length */
void *dezgula_lent(const void *table);
size_t dezgula_lent_length(const void *table, size_t length);

#ifdef __cplusplus
}
#endif

#endif
