/* Dezgula: the whole basis of a map of up to 32 equations and 32 unknowns, one stage an equation, each stage by rising degree.
 *
 * Two ways to use it. The solver (dezgula_solver_new and the calls after it) does everything by itself: it chooses the order of the equations, grows its
 * tables, and works as long as it is let. The engine's own calls (dezgula_engine_start, _start_sides, _start_from, _combine, _take, _resume) are what it goes
 * by: they are proved, work in lent tables, and trust nothing that they are lent. No promise depends on the solver: it only says which of these is next.
 *
 * The degree of a row is the sum of its components. Between two stages the basis has exactly the minimal solutions of the equations done; at first none is
 * done and its rows are the unit tuples. A stage takes one equation more. Its table gets, by rising degree, the rows of the basis and the sums of pairs of rows
 * with values of opposite sign, unless some row of the table lies at or below the sum with a value between 0 and the sum's own. At the end of the stage the
 * rows of value 0 become the basis. An unknown f that no equation done mentions and of the basis only its unit tuple has, with the coefficient -1 in the
 * equation taken, may be named: then the stage goes without it, and the rows of value 0 or more become the basis, each with its value as the component of f.
 *
 *   equations  the working system, p * q coefficients from -1,000,000 to 1,000,000: at first the map's; row operations change it, and not its solutions
 *   basis      rows of q numbers: the first `count` are the basis
 *   table      rows of q numbers: the first `rows` are those of the stage under way, by rising degree
 *   mothers    one number a row of the table: where a row of the other sign lies that is below this one, or 2^32 - 1. It only saves time: where it is not
 *              true it is not used
 *   sizes      one number a row of the basis, and
 *   values, words, degrees, marks    one number a row of the table: the calls' own space. What they held before a call does not matter
 *   record     below
 *
 * There is room for the least of basis_len / q and sizes_len rows in the basis, and for the least of table_len / q and the other lengths in the table; for
 * no more than 1,000,000,000 in either. A table may be lent longer with each call, with the same rows. NULL is an empty table. Tables and record lie apart. */
#ifndef DEZGULA_ENGINE_H
#define DEZGULA_ENGINE_H

#include "dezgula.h"

#ifdef __cplusplus
extern "C" {
#endif

#define DEZGULA_ENGINE_MOST 32 /* equations, and unknowns */
#define DEZGULA_ENGINE_COEFFICIENTS (DEZGULA_ENGINE_MOST * DEZGULA_ENGINE_MOST)

/* The answers are those of dezgula.h: a start, a row operation and a taken equation answer DEZGULA_STARTED; a resume answers DEZGULA_COMPLETE, or
 * DEZGULA_PAUSED: the budget is used up, or the stage is at its end and record.equation is p, so that the next equation can be taken.
 * Refused, with nothing changed: 1, p is outside 1 to 32; 2, q is outside 1 to 32; 3, the coefficients are not p * q; 4, the working system has room for fewer
 * than p * q numbers, or the basis for fewer than q rows; 6, the record or the rows are out of order; 7, a coefficient of the map is outside -10,000 to
 * 10,000 (with its place); 32; 33; 34; of a start for right sides and lower bounds also 5, 8, 15 and 35. Refused by a turn, with all as after the last whole
 * turn: 12, a row that is needed has a component above 1,000,000; 14, the steps are at their limit; 31. */
enum {
    DEZGULA_ENGINE_FULL = 31,      /* there is no room for a row that is needed: with longer tables and the same rows the run goes on */
    DEZGULA_ENGINE_EQUATION = 32,  /* no such equation is left, or a stage is under way */
    DEZGULA_ENGINE_FRESH = 33,     /* the unknown is neither q, which is none, nor one that no equation done mentions and of the basis only its unit tuple has,
                                    * with -1; or there is a cap on it */
    DEZGULA_ENGINE_OPERATION = 34, /* 0 times the equation itself, or itself added, or a coefficient would be outside -1,000,000 to 1,000,000 */
    DEZGULA_ENGINE_SIDE = 35,      /* a right side less what the bound makes of its equation is outside -1,000,000 to 1,000,000 (with its place) */
    DEZGULA_ENGINE_NOT_SHOWN = 36, /* the numbers do not show that both maps have the same minimal solutions */

    /* Not refused. */
    DEZGULA_ENGINE_SAME_LOOPS = 128, /* both maps have the same minimal solutions */
    DEZGULA_ENGINE_PROJECTED = 129   /* the rows were written */
};

/* The record of a run. */
typedef struct {
    uint32_t done;         /* the equations done: bit i is equation i, from 0 */
    uint64_t equation;     /* the equation under way, from 0; p where none is */
    uint64_t fresh;        /* the unknown that the stage goes without, from 0; q where there is none */
    uint64_t count;        /* rows of the basis */
    uint64_t rows;         /* rows of the stage */
    uint64_t taken;        /* the first row of the basis that may still be of the present degree and not in the table */
    uint64_t degree;       /* the present degree */
    uint64_t upper, lower; /* the pair of rows to go on from */
    dezgula_steps steps;   /* turns taken since the start */
    uint64_t cap;          /* the most that the first unknown may be in any row; 0 where there is no such cap */
} dezgula_engine_record;

/* What a run is lent, and its record. A start sets the record; until then it may hold anything. */
typedef struct {
    int32_t *equations;
    size_t equations_len;
    uint32_t *basis;
    size_t basis_len;
    uint32_t *sizes;
    size_t sizes_len;
    uint32_t *table;
    size_t table_len;
    int64_t *values;
    size_t values_len;
    uint64_t *words;
    size_t words_len;
    uint32_t *degrees;
    size_t degrees_len;
    uint64_t *marks;
    size_t marks_len;
    uint32_t *mothers;
    size_t mothers_len;
    dezgula_engine_record record;
} dezgula_engine_run;

/* ---- the engine's calls. Each on a run looks first at the whole working system and at every number of the rows that the record counts. A turn compares one
 * sum with up to `rows` rows; one that goes to the next degree, and the end of a stage, look at every row. */

/* The record as words, in the order of its fields, to be kept in a file; and the record of such words. */
enum { DEZGULA_ENGINE_RECORD_LENGTH = 11 };
void dezgula_engine_pack(dezgula_engine_record record, uint64_t words[DEZGULA_ENGINE_RECORD_LENGTH]);
dezgula_engine_record dezgula_engine_unpack(const uint64_t words[DEZGULA_ENGINE_RECORD_LENGTH]);

/* The start: copies the map's coefficients to the working system. Answers DEZGULA_STARTED, or refuses with 1, 2, 3, 4 or 7.
 * Started: the first q rows of the basis are the unit tuples, the record says so, and nothing else is written. Refused: changes nothing. */
uint64_t dezgula_engine_start(const dezgula_system *system, dezgula_engine_run *run) DEZGULA_LOOK_AT_IT;

/* The start for right sides and lower bounds, A x = b with x at or above a bound: p right sides, all 0 where there are none, and a bound of q numbers, all 0
 * where there is none. An unknown more stands first in the working system and in every row, with the negated right sides, less what the bound makes of the
 * equations, as its column; no row ever has more than 1 there. So q is at most 31, the calls after it take q + 1, and tables have room for so many numbers a
 * row. Answers DEZGULA_STARTED, or refuses with 1, 2, 3 (also where the right sides are not p), 4, 5 (the bound is not q numbers), 7, 8 (a number of the bound
 * is above 1,000,000), 15 (a right side is outside -10,000 to 10,000) or 35. Started: as dezgula_engine_start, with 1 as the cap. Refused: changes nothing.
 * Of a complete run the rows with 0 first are the minimal solutions of A x = 0; those with 1 first, with the bound added, are the smallest tuples at or above
 * the bound that meet the right sides; each once and no other. Where there are none of these, nothing at or above the bound meets the right sides. */
uint64_t dezgula_engine_start_sides(const dezgula_system *system, const int32_t *rights, size_t rights_len, const uint32_t *lower, size_t lower_len,
                                    dezgula_engine_run *run) DEZGULA_LOOK_AT_IT;

/* The start from a list, whoever made it, with further equations: those of `system`, over the same unknowns. The list is `found` rows of q numbers, and
 * rows_len is found * q. Answers DEZGULA_STARTED, or refuses with 1, 2, 3, 4 (also where the basis has room for fewer rows than the list), 6 (the list is
 * not so many rows, or a row has a component above 1,000,000 or is all zero) or 7.
 * Started: the first rows of the basis are those of the list, the record says so, and nothing else is written. Refused: changes nothing.
 * Where the list was exactly the minimal solutions of the equations before, each once, a complete run leaves exactly those of all equations, each once.
 * That the list is whole cannot be seen: it is what the caller answers for. */
uint64_t dezgula_engine_start_from(const dezgula_system *system, const dezgula_list *list, dezgula_engine_run *run) DEZGULA_LOOK_AT_IT;

/* A row operation: equation r becomes u times itself plus t times equation s, both from 0. Equation r is not done, no stage is under way, u is not 0, and r is
 * not s unless t is 0. Answers DEZGULA_STARTED, or refuses with 1, 2, 4, 6, 32 or 34. Writes nothing but equation r. */
uint64_t dezgula_engine_combine(size_t p, size_t q, dezgula_engine_run *run, size_t r, int32_t u, size_t s, int32_t t) DEZGULA_LOOK_AT_IT;

/* Begins the stage of equation e, from 0, without the unknown f, from 0; with f = q, with all unknowns. Answers DEZGULA_STARTED, or refuses with 1, 2, 4, 6,
 * 32 or 33. Started: the record has the equation and the unknown, and the rows of the basis that have the unknown are taken out of it. */
uint64_t dezgula_engine_take(size_t p, size_t q, dezgula_engine_run *run, size_t e, size_t f) DEZGULA_LOOK_AT_IT;

/* Goes on with the stage under way for at most `budget` turns. Answers DEZGULA_PAUSED; DEZGULA_COMPLETE: all equations are done, and the first `count` rows of
 * the basis are exactly the minimal solutions of the map, each once (after a start from a list, of the equations before it as well); or a refusal: before the
 * first turn 1, 2, 4 or 6, by a turn 12, 14 or 31. */
uint64_t dezgula_engine_resume(size_t p, size_t q, dezgula_engine_run *run, uint64_t budget) DEZGULA_LOOK_AT_IT;

/* ---- questions about a list of such a map: those of dezgula.h, with the same answers, but that 1 and 2 are the engine's. A list may have any number of rows;
 * that of a run is its basis, with `count` as found. Where a run was complete, DEZGULA_UNLISTED is never the answer, and dezgula_engine_decompose answers
 * DEZGULA_MADE for every solution that is not refused and has a place of `times` for each row. */

uint64_t dezgula_engine_locate(const dezgula_system *system, const dezgula_list *list, const uint32_t *tuple, size_t tuple_len) DEZGULA_LOOK_AT_IT;

uint64_t dezgula_engine_reason(const dezgula_system *system, const dezgula_list *list, const uint32_t *tuple, size_t tuple_len,
                               int64_t *amount) DEZGULA_LOOK_AT_IT;

uint64_t dezgula_engine_decompose(const dezgula_system *system, const dezgula_list *list, const uint32_t *tuple, size_t tuple_len, uint32_t *times,
                                  size_t times_len, int64_t *amount) DEZGULA_LOOK_AT_IT;

/* ---- a map in the place of another: the same minimal solutions, but for further unknowns that the others determine. Small maps with large coefficients may be
 * slow to list where such a map is not; which one is found by whoever calls, and these calls check it.
 *
 * The map, `system`, has p equations in q unknowns. The extended one has `further` unknowns more, k of them, and as many equations: first the map's, with zeros
 * beside them; then one for each further unknown, with -1 in the column of its own, zeros in those of the others, and any numbers in the first q columns, which
 * say what it is. The other map has `equations` equations, m of them, in the same q + k unknowns. What shows that it may stand in the place of the first:
 *
 *   onto    for each equation of the other map a row of 1 + p + k numbers: how often it is taken, 1 or more, and then how often each equation of the extended
 *           one is, so that all of it adds up to zero in every column
 *   back    for each equation of the extended map a row of 1 + m numbers: the same with the equations of the other one
 *   above   for each further unknown a row of 1 + p numbers: how often its equation is taken, 1 or more, and then how often each of the map's is, so that none
 *           of the first q columns adds up to less than zero: then the unknown is never below zero */
typedef struct {
    size_t further;
    const int32_t *extended; /* (p + k) * (q + k) coefficients */
    size_t extended_len;
    size_t equations;
    const int32_t *other; /* m * (q + k) coefficients */
    size_t other_len;
    const int64_t *onto; /* m * (1 + p + k) numbers */
    size_t onto_len;
    const int64_t *back; /* (p + k) * (1 + m) numbers */
    size_t back_len;
    const int64_t *above; /* k * (1 + p) numbers */
    size_t above_len;
} dezgula_reformulation;

/* Whether the numbers show it. Answers DEZGULA_ENGINE_SAME_LOOPS: a list of exactly the minimal solutions of the other map, each once, is without its further
 * unknowns exactly that of the map, each once. Or refuses with 1 (p or m is outside 1 to 32), 2 (q is 0, or q + k above 32), 3 (a table has not as many numbers
 * as it should), 7 (a coefficient of the map, with its place) or 36, also where a coefficient of the others is outside -10,000 to 10,000 or a multiple outside
 * -10^12 to 10^12. Writes nothing. It costs up to 150,000 multiplications. */
uint64_t dezgula_engine_reformulates(const dezgula_system *system, const dezgula_reformulation *by) DEZGULA_LOOK_AT_IT;

/* Copies the first q numbers of each row of a list of rows of q + further to `out`, one row behind the other. Answers DEZGULA_ENGINE_PROJECTED, or refuses
 * with 2 (q is 0, or q + further above 32), 6 (the list is not so many rows) or 29 (`out` has no room for so many rows of q numbers).
 * Projected: writes the first found * q numbers of `out`, and what stood past them stays. Refused: writes nothing. */
uint64_t dezgula_engine_project(size_t q, size_t further, const dezgula_list *list, uint32_t *out, size_t out_len) DEZGULA_LOOK_AT_IT;

/* ---- the solver. It allocates with malloc what it needs, as it needs it: some kilobytes at first, then twice as much each time, up to the limit that it is
 * given. A solver is plain numbers and tables; several may go on in several threads, each in one at a time. A call that takes a solver const only reads it,
 * so that several threads may ask one that none works with. A pointer to a solver is never NULL, but for that to be freed. */

typedef struct dezgula_solver dezgula_solver;

/* How far a solver is. It may try one order of the equations up to the last and then another, or go over to another map with the same loops (a reformulation,
 * as above), so that `done` can fall and `equations` can change; `steps` never falls. */
typedef struct {
    size_t done, equations; /* equations done, of so many, of the map that is listed */
    uint64_t rows;          /* of the stage under way, or else of the basis */
    dezgula_steps steps;    /* turns taken, those of orders that were given up included */
} dezgula_solver_progress;

/* A solver for a map, of which it keeps a copy. NULL where the map is refused, or there is no memory: *answer then has 1, 2, 3, 7 or 31, and else
 * DEZGULA_STARTED. It costs up to some million operations, as equations that follow from others, sums that no solution meets, and reformulations are looked
 * for. */
dezgula_solver *dezgula_solver_new(const dezgula_system *system, uint64_t *answer) DEZGULA_LOOK_AT_IT;

/* The same from a list, whoever made it, and further equations over the same unknowns (dezgula_engine_start_from, with the same premise): those of `system`. It
 * keeps a copy of both. *answer may also have 6, the list is out of order. The complete list is that of the equations before and these together. */
dezgula_solver *dezgula_solver_new_from(const dezgula_system *system, const dezgula_list *list, uint64_t *answer) DEZGULA_LOOK_AT_IT;

/* The same for right sides and a lower bound (dezgula_engine_start_sides), of which it keeps a copy: p right sides and q numbers; NULL is all 0. *answer may
 * also have 5, 8, 15 or 35. dezgula_solver_rows has the minimal solutions without right sides, and dezgula_solver_smallest the smallest tuples at or above
 * the bound that meet the right sides. */
dezgula_solver *dezgula_solver_new_sides(const dezgula_system *system, const int32_t *rights, const uint32_t *lower, uint64_t *answer) DEZGULA_LOOK_AT_IT;

/* Works for about `budget` turns; 0 is as many as take about 50 ms. Answers DEZGULA_PAUSED, DEZGULA_COMPLETE, or a refusal: 12, 14, or 31 where no more rows
 * fit into memory or into the limit. After 31 it may be called again, when there is more memory or a higher limit. */
uint64_t dezgula_solver_work(dezgula_solver *solver, uint64_t budget) DEZGULA_LOOK_AT_IT;

/* The most bytes of all tables together. At first SIZE_MAX, which is no limit. */
void dezgula_solver_limit(dezgula_solver *solver, size_t bytes);

dezgula_solver_progress dezgula_solver_told(const dezgula_solver *solver);

/* The map that it is for, of one from a list the further equations: the copy of it, which is valid until the solver is freed. */
dezgula_system dezgula_solver_system(const dezgula_solver *solver);

/* The rows of the complete list, of q numbers each, and how many there are; NULL and 0 before it is complete. They are valid until the solver is freed. */
const uint32_t *dezgula_solver_rows(const dezgula_solver *solver, size_t *count);

/* The smallest tuples of a solver for right sides or a lower bound, with the bound added, as dezgula_solver_rows has its rows; NULL and 0 of any other. */
const uint32_t *dezgula_solver_smallest(const dezgula_solver *solver, size_t *count);

/* A solver as words, to be kept in a file and gone on from elsewhere: how many, and the words. Saving and loading cost some operations for each word. */
size_t dezgula_solver_saved_length(const dezgula_solver *solver);
void dezgula_solver_save(const dezgula_solver *solver, uint32_t *words);

/* A solver from such words; NULL where they are none, with 6 in *answer, or there is no memory, with 31, and else DEZGULA_STARTED. It has no limit of memory.
 * Words may be any: those that are out of order are refused, and no call on a solver that was loaded leaves its tables. The list is right where the words are
 * those saved; a row that is missing in them cannot be told. */
dezgula_solver *dezgula_solver_load(const uint32_t *words, size_t length, uint64_t *answer) DEZGULA_LOOK_AT_IT;

void dezgula_solver_free(dezgula_solver *solver);

#ifdef __cplusplus
}
#endif

#endif
