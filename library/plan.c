/* The solver over the engine's calls: which equation is next, which row operations and which fresh unknown, and tables that grow. See dezgula_engine.h.
 *
 * The order of the equations decides how long a map takes, and no rule is best for all. So one rule after the other is followed up to the last equation, as far
 * as it promises to be cheaper, and the last stage is done after the best one. None may take more turns than the round allows; where all would, the next
 * round allows more. What a try may take is counted in turns alone, so that the same map has the same list in the same order.
 *
 * Decided here: an equation that is a combination of others is made zero at the start by the row operations that tell it, and taken while the basis is small;
 * where the coefficients on the way would be too large, it is taken last, when all rows have the value 0 in it. Where a sum of equations has only
 * coefficients above 0, it is taken first: there is no solution but 0. Tables are grown twofold by realloc, and never before the engine has said that
 * they are full. A try that is refused (a component above 1,000,000) does not end the run where another rule is left.
 *
 * A map with large coefficients and few unknowns more than equations is listed by a reformulation (reformulate.c), where there is one; so is another such map
 * that takes long. Where that is refused, the map is listed as it is. */
#include "dezgula_engine.h"

#include "reformulate.h"

#include <math.h>
#include <stdbool.h>
#include <stdlib.h>
#include <string.h>
#include <time.h>

enum { MOST = DEZGULA_ENGINE_MOST, COEFFICIENTS = DEZGULA_ENGINE_COEFFICIENTS, RECORD = DEZGULA_ENGINE_RECORD_LENGTH };
enum { LARGE_COEFFICIENT = 12, LATE_TURNS = 1000000 }; /* a map with a coefficient so large is reformulated at once, others after so many turns */
/* the rules: the equations as they are; the same, or cleared by units; and from a list as they are, but first the second or the third best */
enum { AS_IS, UNITS, SECOND, THIRD, RULES };
enum { SPREAD_EQUATIONS = 5, PAIRS_LOOKED_AT = 20000 }; /* with fewer equations, that are not reformulated, values tell nothing more */
static const uint64_t ALL_RULES = (UINT64_C(1) << RULES) - 1;
enum { FIRST_ROWS = 64, FIRST_ROUND = 30000, ROUND_TIMES = 8, SOON = 20000, FIRST_PACE = 20000, CLEAR_LIMIT = 100000 };
enum { ABOVE_WORK = 300000, ABOVE_TURNS = 5000, ABOVE_MOST = 200 }; /* how long a sum of equations above 0 is looked for, and its largest multiplier */
enum { CLEARLY = 4 }; /* from a list another order is followed for so small a part of the turns that the best one promises */
/* measured: a stage without a fresh unknown, and the last one, cost so many times their first pairs */
enum { EQUAL = 2, LAST_EQUAL = 3, LAST_STAGE = 8, WEIGHT = 16 };
enum { TRYING, LAST, COMPLETE, BEYOND }; /* beyond: some minimal solution has a component above 1,000,000, however it is listed */
static const double NEVER = 1e300;
static const uint64_t MOST_PACE = UINT64_C(1) << 40;

/* right sides and a lower bound; the system that the engine's start makes of them, with the extra unknown first; and the rows handed out once the list is
 * complete, `loops` and then `smallest` of them */
typedef struct {
    int32_t rights[MOST], system[COEFFICIENTS];
    uint32_t lower[MOST], *rows;
    size_t loops, smallest;
} sides;

struct dezgula_solver {
    size_t given_p, given_q;
    int32_t given[COEFFICIENTS]; /* the map that it is for; what follows is of the one that is listed: the same, with an extra unknown, or its reformulation */
    sides *wanted;               /* NULL where there are none */
    uint64_t looked;             /* 1 where a reformulation was looked for */
    reformulation *form;         /* NULL where it is the same */
    uint32_t *projected;         /* the list of a reformulation, without its further unknowns */
    size_t p, q;
    int32_t coefs[COEFFICIENTS], equations[COEFFICIENTS], kept_equations[COEFFICIENTS];
    dezgula_engine_run run;
    uint32_t *list; /* the rows that it starts from, NULL where it starts from the unit tuples */
    size_t list_len;
    uint32_t tied;  /* bit by unknown: the list has not just its unit tuple, so that no stage can go without it */
    uint32_t *kept; /* the basis of the try that is kept while the other goes on */
    size_t kept_len, most;
    dezgula_engine_record kept_record;
    uint64_t phase, rule, kept_rule;
    uint64_t over, failed, late;     /* over: bit by rule, it got to the last stage; or failed: it was refused. late: bit by equation, taken last */
    uint64_t round, limit, promised; /* turns: of this round; that this try may take; that the kept one promises to take, UINT64_MAX where none is kept */
    uint64_t tried[RULES];           /* the turns that each rule was given */
    uint64_t past, pace;             /* turns of tries given up; those that take about 50 ms */
};

/* the equations to take by then, and what was done to get them */
typedef struct {
    size_t n, id[MOST];
    int64_t m[MOST][MOST];
    row_operation done[MOST * MOST];
    size_t operations;
} system_left;

/* ---- tables */

static size_t bytes(const dezgula_solver *s, size_t rows, size_t count)
{
    return rows * (4 * s->q + 32) + count * (4 * s->q + 4) + (s->kept_len + s->list_len) * sizeof *s->kept + (s->form != NULL ? sizeof *s->form : 0) +
           (s->wanted != NULL ? sizeof *s->wanted : 0);
}
static bool longer(void **table, size_t n, size_t size)
{
    void *now = realloc(*table, n * size);
    if (now == NULL) return false;
    *table = now;
    return true;
}
static bool grow_table(dezgula_solver *s)
{
    dezgula_engine_run *r = &s->run;
    size_t n = r->words_len == 0 ? FIRST_ROWS : 2 * r->words_len;
    if (bytes(s, n, r->sizes_len) > s->most) return false;
    void *tables[6] = {r->table, r->values, r->words, r->degrees, r->marks, r->mothers};
    const size_t each[6] = {s->q * sizeof *r->table, sizeof *r->values, sizeof *r->words, sizeof *r->degrees, sizeof *r->marks, sizeof *r->mothers};
    bool all = true;
    for (size_t i = 0; i < 6; i++) all = all && longer(&tables[i], n, each[i]);
    r->table = tables[0], r->values = tables[1], r->words = tables[2], r->degrees = tables[3], r->marks = tables[4], r->mothers = tables[5];
    if (!all) return false;
    r->table_len = n * s->q;
    r->values_len = r->words_len = r->degrees_len = r->marks_len = r->mothers_len = n;
    return true;
}
static bool grow_basis(dezgula_solver *s, size_t least)
{
    dezgula_engine_run *r = &s->run;
    size_t n = r->sizes_len == 0 ? FIRST_ROWS : 2 * r->sizes_len;
    if (n < least) n = least;
    if (bytes(s, r->words_len, n) > s->most) return false;
    void *tables[2] = {r->basis, r->sizes};
    bool all = longer(&tables[0], n, s->q * sizeof *r->basis) && longer(&tables[1], n, sizeof *r->sizes);
    r->basis = tables[0], r->sizes = tables[1];
    if (!all) return false;
    r->basis_len = n * s->q;
    r->sizes_len = n;
    return true;
}

/* ---- equations that are combinations of others */

static int64_t gcd(int64_t a, int64_t b)
{
    while (b != 0) {
        int64_t t = a % b;
        a = b, b = t;
    }
    return a < 0 ? -a : a;
}
/* row := its own times less the pivot's, without their common factor; false where the numbers grow large */
static bool reduce(int64_t *row, const int64_t *pivot, size_t at, size_t n)
{
    int64_t g = gcd(row[at], pivot[at]), a = pivot[at] / g, b = row[at] / g, all = 0;
    for (size_t j = 0; j < n; j++) {
        row[j] = a * row[j] - b * pivot[j];
        if (llabs(row[j]) > INT64_C(1) << 30) return false;
        all = gcd(all, row[j]);
    }
    for (size_t j = 0; all > 1 && j < n; j++) row[j] /= all;
    return true;
}
/* a row operation; a factor that is too large for the engine's call is refused as a coefficient would be */
static uint64_t combine(dezgula_solver *s, size_t row, int64_t own, size_t other, int64_t times)
{
    if (own < INT32_MIN || own > INT32_MAX || times < INT32_MIN || times > INT32_MAX) return DEZGULA_ENGINE_OPERATION;
    return dezgula_engine_combine(s->p, s->q, &s->run, row, (int32_t)own, other, (int32_t)times);
}
/* the sum of by[i] * equation i in the place of equation e, where by[e] is not 0; false where a coefficient on the way is too large */
static bool replace(dezgula_solver *s, size_t e, const int64_t *by)
{
    int64_t own = by[e];
    bool all = true;
    for (size_t i = 0; all && i < s->p; i++) {
        if (i == e || by[i] == 0) continue;
        all = combine(s, e, own, i, by[i]) == DEZGULA_STARTED;
        own = 1;
    }
    return all;
}
/* finds them by elimination, with the multipliers beside the coefficients */
static void find_combinations(dezgula_solver *s)
{
    int64_t m[MOST][2 * MOST] = {{0}};
    size_t pivot[MOST], at[MOST], pivots = 0;
    s->late = 0;
    for (size_t e = 0; e < s->p; e++) {
        bool small = true;
        for (size_t j = 0; j < s->q; j++) m[e][j] = s->equations[e * s->q + j];
        m[e][MOST + e] = 1;
        for (size_t i = 0; small && i < pivots; i++)
            if (m[e][at[i]] != 0) small = reduce(m[e], m[pivot[i]], at[i], MOST + s->p);
        size_t j = 0;
        while (j < s->q && m[e][j] == 0) j++;
        if (!small) continue;
        if (j < s->q) pivot[pivots] = e, at[pivots++] = j;
        else if (!replace(s, e, m[e] + MOST)) s->late |= UINT64_C(1) << e;
    }
}

/* ---- maps without a solution */

/* whether all coefficients of the sum of by[i] * equation i are above 0: then 0 is the only solution */
static bool all_above(const dezgula_solver *s, const int64_t *by)
{
    for (size_t j = 0; j < s->q; j++) {
        int64_t sum = 0;
        for (size_t i = 0; i < s->p; i++) sum += by[i] * s->equations[i * s->q + j];
        if (sum <= 0) return false;
    }
    return true;
}
/* the products of the columns, two and two: whole numbers below 2^53 */
static void multiply_columns(const dezgula_solver *s, double products[MOST][MOST])
{
    for (size_t j = 0; j < s->q; j++)
        for (size_t k = 0; k <= j; k++) {
            double sum = 0;
            for (size_t i = 0; i < s->p; i++) sum += (double)s->equations[i * s->q + j] * s->equations[i * s->q + k];
            products[j][k] = products[k][j] = sum;
        }
}
/* the column that a sum of equations is furthest below in, by its size; q where it is above 0 in all */
static size_t furthest(size_t q, const double *sum, const double *sizes)
{
    size_t at = q;
    double low = 1e-9;
    for (size_t j = 0; j < q; j++)
        if (sum[j] < low * sizes[j]) low = sum[j] / sizes[j], at = j;
    return at;
}
/* the multipliers y of a sum that is above 0 in all columns, where there is one: adds the column furthest below as long as there is one */
static void look_above(const dezgula_solver *s, const double *sizes, double *y)
{
    double sum[MOST] = {0}, products[MOST][MOST];
    multiply_columns(s, products);
    for (size_t turn = 0; turn < ABOVE_TURNS && turn * s->p * s->q < ABOVE_WORK; turn++) {
        size_t at = furthest(s->q, sum, sizes);
        if (at == s->q) break;
        for (size_t i = 0; i < s->p; i++) y[i] += s->equations[i * s->q + at] / sizes[at];
        for (size_t j = 0; j < s->q; j++) sum[j] += products[at][j] / sizes[at];
    }
}
/* looks for such a sum, and tries its multipliers in small whole numbers */
static bool find_above(const dezgula_solver *s, int64_t *by)
{
    double y[MOST] = {0}, sizes[MOST] = {0}, most = 0;
    for (size_t k = 0; k < s->p * s->q; k++) sizes[k % s->q] += fabs((double)s->equations[k]);
    for (size_t j = 0; j < s->q; j++)
        if (sizes[j] == 0) return false; /* an unknown that no equation mentions is a solution */
    look_above(s, sizes, y);
    for (size_t i = 0; i < s->p; i++) most = fabs(y[i]) > most ? fabs(y[i]) : most;
    for (int k = 1; most > 0 && k <= ABOVE_MOST; k++) {
        for (size_t i = 0; i < s->p; i++) by[i] = (int64_t)(y[i] * k / most + (y[i] < 0 ? -0.5 : 0.5));
        if (all_above(s, by)) return true;
    }
    return false;
}
/* puts the sum in the place of an equation that is in it: its stage leaves no row */
static void find_infeasible(dezgula_solver *s)
{
    int64_t by[MOST];
    size_t e = 0;
    if (!find_above(s, by)) return;
    while (by[e] == 0) e++;
    (void)!replace(s, e, by);
}

/* ---- which equation is next */

static bool is_zero(const dezgula_solver *s, size_t e)
{
    for (size_t j = 0; j < s->q; j++)
        if (s->equations[e * s->q + j] != 0) return false;
    return true;
}
static bool is_done(const dezgula_solver *s, size_t e) { return s->run.record.done >> e & 1; }
static uint32_t mentioned(const dezgula_solver *s)
{
    uint32_t in = s->tied;
    for (size_t e = 0; e < s->p; e++)
        for (size_t j = 0; is_done(s, e) && j < s->q; j++) in |= (uint32_t)(s->equations[e * s->q + j] != 0) << j;
    return in;
}
static void find_left(const dezgula_solver *s, system_left *l)
{
    l->n = l->operations = 0;
    for (size_t e = 0; e < s->p; e++) {
        if (is_done(s, e) || s->late >> e & 1) continue;
        for (size_t j = 0; j < s->q; j++) l->m[l->n][j] = s->equations[e * s->q + j];
        l->id[l->n++] = e;
    }
}
static bool stays_small(const system_left *l, size_t q, size_t r, size_t f)
{
    for (size_t k = 0; k < l->n; k++) {
        int64_t times = k == r ? 0 : l->m[k][f] * l->m[r][f];
        for (size_t i = 0; times != 0 && i < q; i++)
            if (llabs(l->m[k][i] - times * l->m[r][i]) > CLEAR_LIMIT) return false;
    }
    return true;
}
/* of the equations not cleared and the free unknowns with coefficient 1 or -1 the two that fill in least; false where there are none */
static bool find_pivot(const system_left *l, size_t q, uint32_t cleared, uint32_t used, size_t *r, size_t *f)
{
    size_t wide[MOST] = {0}, high[MOST] = {0}, least = SIZE_MAX;
    for (size_t e = 0; e < l->n; e++)
        for (size_t j = 0; j < q; j++) {
            bool some = l->m[e][j] != 0;
            wide[e] += some, high[j] += some;
        }
    for (size_t e = 0; e < l->n; e++)
        for (size_t j = 0; !(cleared >> e & 1) && j < q; j++) {
            if (used >> j & 1 || (l->m[e][j] != 1 && l->m[e][j] != -1) || (wide[e] - 1) * (high[j] - 1) >= least) continue;
            if (stays_small(l, q, e, j)) least = (wide[e] - 1) * (high[j] - 1), *r = e, *f = j;
        }
    return least != SIZE_MAX;
}
/* makes each equation, as far as it goes, the only one with some free unknown, of coefficient 1 or -1; how many it could not */
static size_t clear(system_left *l, size_t q, uint32_t used)
{
    uint32_t cleared = 0;
    size_t r = 0, f = 0, turn = 0;
    for (; turn < l->n && find_pivot(l, q, cleared, used, &r, &f); turn++) {
        cleared |= UINT32_C(1) << r;
        for (size_t k = 0; k < l->n; k++) {
            int64_t times = k == r ? 0 : -l->m[k][f] * l->m[r][f];
            if (times == 0) continue;
            for (size_t i = 0; i < q; i++) l->m[k][i] += times * l->m[r][i];
            l->done[l->operations++] = (row_operation){l->id[k], l->id[r], times};
        }
    }
    return l->n - turn;
}
static size_t bits(uint64_t v)
{
    size_t n = 0;
    for (; v > 0; v >>= 1) n++;
    return n;
}
/* about 2^(5/6 (n - 1)), where the values have n bits in the mean: so many times its first pairs a stage costs that keeps the value 0 alone (measured) */
static double spread(size_t all_bits, size_t values)
{
    double n = values == 0 || all_bits < values ? 0 : 5 * (double)(all_bits - values) / (6 * (double)values);
    const unsigned whole = (unsigned)n;
    return (1 + n - whole) * (double)(UINT64_C(1) << whole);
}
/* rows of the basis with a value above 0 and below 0, and the spread of these values without their common factor */
static double count_signs(const dezgula_solver *s, const int64_t *c, double *ups, double *downs)
{
    size_t in[MOST], n = 0, up = 0, down = 0, sum = 0;
    int64_t common = 0;
    for (size_t j = 0; j < s->q; j++)
        if (c[j] != 0) in[n++] = j;
    const uint32_t *x = s->run.basis;
    for (size_t i = 0; i < s->run.record.count; i++, x += s->q) {
        int64_t v = 0;
        for (size_t k = 0; k < n; k++) v += c[in[k]] * x[in[k]];
        up += v > 0, down += v < 0, sum += bits((uint64_t)llabs(v));
        if (common != 1) common = gcd(common, v);
    }
    *ups = (double)up, *downs = (double)down;
    size_t shared = common > 0 ? bits((uint64_t)common) - 1 : 0;
    return spread(sum - shared * (up + down), up + down);
}
/* a map with large coefficients, alone or with right sides */
static bool is_large(const dezgula_solver *s)
{
    bool large = false;
    for (size_t k = 0; s->list == NULL && k < s->given_p * s->given_q; k++) large |= llabs(s->given[k]) >= LARGE_COEFFICIENT;
    return large;
}
/* how many sums of multiples of a row of value a and one of value -b have a value of 0 or more and are no sums of others: by the continued fraction of a / b */
static uint64_t between(uint64_t a, uint64_t b)
{
    uint64_t sum = 0;
    for (bool even = true; b != 0; even = !even) {
        const uint64_t rest = a % b;
        if (even) sum += a / b;
        a = b, b = rest;
    }
    return sum;
}
/* the value of row i of the basis without unknown f */
static int64_t value_without(const dezgula_solver *s, const int64_t *c, size_t i, size_t f)
{
    const uint32_t *x = s->run.basis + i * s->q;
    int64_t v = -c[f] * x[f];
    for (size_t j = 0; j < s->q; j++) v += c[j] * x[j];
    return v;
}
/* so many, and one, over all pairs of rows of the basis, where f is fresh */
static double count_between(const dezgula_solver *s, const int64_t *c, size_t f)
{
    const size_t n = s->run.record.count;
    const int64_t sign = c[f] < 0 ? 1 : -1;
    double sum = 0;
    for (size_t i = 0; i < n; i++) {
        const int64_t up = sign * value_without(s, c, i, f);
        for (size_t k = 0; up > 0 && k < n; k++) {
            const int64_t down = sign * value_without(s, c, k, f);
            if (down < 0) sum += 1 + (double)between((uint64_t)up, (uint64_t)-down);
        }
    }
    return sum;
}
/* what stage e of l costs first, and its fresh unknown, q where it has none */
static double first_pairs(const dezgula_solver *s, const system_left *l, size_t e, uint32_t used, size_t *fresh)
{
    const int64_t *c = l->m[e];
    double ups, downs, wide = count_signs(s, c, &ups, &downs);
    if (s->p < SPREAD_EQUATIONS && s->form == NULL) wide = 1;
    size_t f = 0;
    while (f < s->q && (used >> f & 1 || (c[f] != 1 && c[f] != -1))) f++;
    *fresh = f;
    if (f < s->q && s->form != NULL && ups * downs <= PAIRS_LOOKED_AT) return count_between(s, c, f);
    return f == s->q ? EQUAL * ups * downs * wide : c[f] > 0 ? (ups - 1) * downs : ups * (downs - 1);
}
/* how many of the other equations would have no fresh unknown after equation e */
static size_t stuck(const system_left *l, size_t e, size_t q, uint32_t used)
{
    system_left rest;
    rest.n = rest.operations = 0;
    for (size_t j = 0; j < q; j++) used |= (uint32_t)(l->m[e][j] != 0) << j;
    for (size_t i = 0; i < l->n; i++)
        if (i != e) rest.id[rest.n] = l->id[i], memcpy(rest.m[rest.n++], l->m[i], sizeof *rest.m);
    return clear(&rest, q, used);
}

/* the choice: equation `e` of `left`, its fresh unknown, and what it costs */
typedef struct {
    system_left left;
    size_t e, fresh;
    double shown, cost;
    bool last; /* no other is left */
} choice;

/* of the equations that are not in `without` */
static void choose_of(const dezgula_solver *s, const system_left *l, uint32_t used, double weight, uint32_t without, choice *best)
{
    for (size_t e = 0; e < l->n; e++) {
        size_t fresh;
        if (without >> e & 1) continue;
        double cost = first_pairs(s, l, e, used, &fresh), shown = cost;
        if (cost >= best->shown) continue;
        if (weight > 1)
            for (size_t bad = stuck(l, e, s->q, used); bad > 0; bad--) shown *= weight;
        if (shown >= best->shown) continue;
        best->e = e, best->fresh = fresh, best->shown = shown, best->cost = fresh == s->q ? LAST_EQUAL * cost : cost;
        if (l != &best->left) best->left = *l;
    }
}
static void choose_as_is(const dezgula_solver *s, uint32_t used, choice *best)
{
    uint32_t without = 0;
    choose_of(s, &best->left, used, 1, 0, best);
    for (uint64_t rule = SECOND; rule <= s->rule && rule <= THIRD && s->run.record.done == 0 && best->shown < NEVER; rule++) {
        without |= UINT32_C(1) << best->e;
        best->shown = NEVER;
        choose_of(s, &best->left, used, 1, without, best);
    }
}
/* Rule UNITS: the equations as they are or cleared, and each later equation that would have no fresh unknown counts. The others: as they are, the fewest
 * pairs */
static void choose(const dezgula_solver *s, choice *best)
{
    const uint32_t used = mentioned(s);
    best->shown = best->cost = NEVER;
    best->e = 0, best->fresh = s->q;
    find_left(s, &best->left);
    best->last = best->left.n == 1;
    if (s->rule != UNITS || best->last) {
        choose_as_is(s, used, best);
        return;
    }
    system_left cleared = best->left;
    clear(&cleared, s->q, used);
    choose_of(s, &best->left, used, WEIGHT, 0, best);
    choose_of(s, &cleared, used, WEIGHT, 0, best);
}

/* ---- tries */

static uint64_t operate(dezgula_solver *s, const row_operation *o, size_t n)
{
    uint64_t answer = DEZGULA_STARTED;
    for (size_t i = 0; answer == DEZGULA_STARTED && i < n; i++) answer = combine(s, o[i].row, 1, o[i].by, o[i].times);
    return answer;
}
static dezgula_system given_map(const dezgula_solver *s) { return (dezgula_system){s->given_p, s->given_q, s->given, s->given_p * s->given_q}; }
/* the map as it is: with right sides, the system that the start makes of them */
static dezgula_system plain_map(const dezgula_solver *s)
{
    const dezgula_system given = given_map(s);
    return s->wanted == NULL ? given : (dezgula_system){given.p, given.q + 1, s->wanted->system, given.p * (given.q + 1)};
}
/* starts the reformulation of a map with right sides: the capped unknown is its first, so that its column is the right sides of the others, negated */
static uint64_t start_form_sides(const dezgula_solver *s, dezgula_engine_run *run)
{
    static const uint32_t nothing[MOST];
    int32_t coefs[COEFFICIENTS], rights[MOST];
    const size_t q = s->q - 1;
    for (size_t i = 0; i < s->p; i++) {
        rights[i] = -s->coefs[i * s->q];
        memcpy(coefs + i * q, s->coefs + i * s->q + 1, q * sizeof *coefs);
    }
    const dezgula_system map = {s->p, q, coefs, s->p * q};
    return dezgula_engine_start_sides(&map, rights, s->p, nothing, q, run);
}
static uint64_t start(const dezgula_solver *s, dezgula_engine_run *run)
{
    const dezgula_system given = given_map(s), map = {s->p, s->q, s->coefs, s->p * s->q};
    if (s->wanted != NULL && s->form != NULL) return start_form_sides(s, run);
    if (s->wanted != NULL) return dezgula_engine_start_sides(&given, s->wanted->rights, given.p, s->wanted->lower, given.q, run);
    const dezgula_list list = {s->list, s->list_len, s->list_len / s->q};
    return s->list != NULL ? dezgula_engine_start_from(&map, &list, run) : dezgula_engine_start(&map, run);
}
static uint64_t begin(dezgula_solver *s, uint64_t rule, uint64_t limit)
{
    s->past += s->run.record.steps.count;
    s->rule = rule, s->limit = limit, s->phase = s->form != NULL ? LAST : TRYING;
    uint64_t answer = start(s, &s->run);
    if (answer == DEZGULA_STARTED && s->form != NULL) answer = operate(s, s->form->undo, s->form->operations);
    if (answer != DEZGULA_STARTED) return answer;
    find_combinations(s);
    if (rule == AS_IS) find_infeasible(s);
    return answer;
}
static bool keep(dezgula_solver *s, uint64_t promised)
{
    size_t n = s->run.record.count * s->q;
    uint32_t *kept = malloc(n > 0 ? n * sizeof *kept : 1);
    if (kept == NULL) return false;
    memcpy(kept, s->run.basis, n * sizeof *kept);
    free(s->kept);
    s->kept = kept, s->kept_len = n, s->promised = promised, s->kept_rule = s->rule;
    s->kept_record = s->run.record;
    memcpy(s->kept_equations, s->equations, sizeof s->equations);
    return true;
}
/* back to the kept try, and on with its last stage */
static void give_back(dezgula_solver *s)
{
    s->past += s->run.record.steps.count;
    memcpy(s->run.basis, s->kept, s->kept_len * sizeof *s->kept);
    memcpy(s->equations, s->kept_equations, sizeof s->equations);
    s->past -= s->kept_record.steps.count;
    s->run.record = s->kept_record;
    s->rule = s->kept_rule, s->phase = LAST;
}
/* all rules that were not refused are due again, without a limit */
static void start_over(dezgula_solver *s)
{
    s->over = s->failed, s->promised = UINT64_MAX, s->round = UINT64_MAX - 1;
    memset(s->tried, 0, sizeof s->tried);
}
/* the next try: a rule that is left and has had fewer turns than are allowed now; or back to the kept one. 0, or the answer where nothing is left */
static uint64_t next_try(dezgula_solver *s, uint64_t refusal)
{
    for (;;) {
        for (uint64_t i = 1; i <= RULES; i++) {
            uint64_t rule = (s->rule + i) % RULES;
            const uint64_t turns = s->promised == UINT64_MAX ? s->round : s->list == NULL ? s->promised : s->promised / CLEARLY;
            if (s->over >> rule & 1 || s->tried[rule] >= turns) continue;
            s->tried[rule] = turns;
            return begin(s, rule, turns) == DEZGULA_STARTED ? 0 : DEZGULA_ENGINE_FULL;
        }
        if (s->promised != UINT64_MAX) return give_back(s), 0;
        if (s->failed == ALL_RULES || s->round == UINT64_MAX - 1) return refusal != 0 ? refusal : (uint64_t)DEZGULA_STEPS_AT_LIMIT;
        if (s->over == ALL_RULES) {
            start_over(s);
            continue;
        }
        s->round = s->round > UINT64_MAX / ROUND_TIMES ? UINT64_MAX - 1 : s->round * ROUND_TIMES;
    }
}
/* this try was refused (a component above 1,000,000, or steps at their limit): its rule is over. In the last stage the others are due again, without a limit */
static uint64_t give_up(dezgula_solver *s, uint64_t refusal)
{
    s->failed |= UINT64_C(1) << s->rule;
    s->over |= s->failed;
    if (s->phase == LAST) {
        free(s->kept);
        s->kept = NULL, s->kept_len = 0;
        start_over(s);
    }
    return next_try(s, refusal);
}
/* all but the last equation are done: true where this order is gone on with, and not kept while others are tried; *answer is then 0 */
static bool settled(dezgula_solver *s, double cost, uint64_t *answer)
{
    double all = (double)s->run.record.steps.count + LAST_STAGE * cost;
    uint64_t promised = all < 1e18 ? (uint64_t)all : UINT64_C(1000000000000000000);
    *answer = 0;
    s->over |= UINT64_C(1) << s->rule;
    if (promised <= SOON && promised <= s->promised) return true;
    if (promised < s->promised && !keep(s, promised)) return true;
    *answer = next_try(s, 0);
    return false;
}

/* ---- the next stage */

static uint64_t take(dezgula_solver *s, size_t e, size_t f)
{
    if (f < s->q && s->equations[e * s->q + f] == 1) {
        uint64_t answer = combine(s, e, -1, e, 0);
        if (answer != DEZGULA_STARTED) return answer;
    }
    uint64_t answer = dezgula_engine_take(s->p, s->q, &s->run, e, f);
    return answer == DEZGULA_STARTED ? 0 : answer;
}
static uint64_t take_choice(dezgula_solver *s, const choice *c)
{
    uint64_t answer = operate(s, c->left.done, c->left.operations);
    return answer == DEZGULA_STARTED ? take(s, c->left.id[c->e], c->fresh) : answer;
}
/* an equation that costs nothing now, p where there is none: a zero one, or, where only such are left, a late one */
static size_t find_free(const dezgula_solver *s)
{
    size_t late = s->p;
    bool others = false;
    for (size_t e = 0; e < s->p; e++) {
        if (is_done(s, e)) continue;
        if (is_zero(s, e)) return e;
        if (s->late >> e & 1) late = e;
        else others = true;
    }
    return others ? s->p : late;
}
static uint64_t next_stage(dezgula_solver *s)
{
    size_t e = find_free(s);
    if (e < s->p) return take(s, e, s->q);
    choice c;
    choose(s, &c);
    if (s->phase == TRYING && c.last) {
        uint64_t answer;
        if (!settled(s, c.cost, &answer)) return answer;
        s->phase = LAST;
    }
    if (s->phase == TRYING && (double)s->run.record.steps.count + c.cost > (double)s->limit) return next_try(s, 0);
    return take_choice(s, &c);
}

/* ---- the calls */

/* the map that is listed, with the tables as long as before */
static void set_map(dezgula_solver *s, size_t p, size_t q, const int32_t *coefs)
{
    s->p = p, s->q = q;
    memcpy(s->coefs, coefs, p * q * sizeof *coefs);
    s->run.equations = s->equations, s->run.equations_len = p * q;
    s->run.table_len = s->run.words_len * q, s->run.basis_len = s->run.sizes_len * q;
}
static dezgula_solver *blank(size_t p, size_t q, const int32_t *coefs)
{
    dezgula_solver *s = calloc(1, sizeof *s);
    if (s == NULL) return NULL;
    s->given_p = p, s->given_q = q;
    memcpy(s->given, coefs, p * q * sizeof *coefs);
    set_map(s, p, q, coefs);
    s->most = SIZE_MAX;
    s->promised = UINT64_MAX, s->pace = FIRST_PACE;
    return s;
}
/* looks for its reformulation; true where some minimal solution is seen to have a component above the limit */
static bool find_form(dezgula_solver *s)
{
    const dezgula_system map = plain_map(s);
    bool beyond = false;
    s->looked = 1, s->form = malloc(sizeof *s->form);
    if (s->form != NULL && reformulation_find(&map, s->wanted != NULL, s->form, &beyond) && !beyond) return false;
    free(s->form);
    s->form = NULL;
    return beyond;
}
static void set_form(dezgula_solver *s)
{
    const size_t q = plain_map(s).q;
    set_map(s, q, q + s->form->further, s->form->other);
}
/* each equation of a reformulation has its unit already, and where a list ties all unknowns none can; other orders are tried from a list, where there are so
 * many equations */
static uint64_t rules_left_out(const dezgula_solver *s)
{
    const uint64_t units = s->form != NULL || s->tied == UINT32_MAX, second = s->list == NULL || s->p < 2, third = s->list == NULL || s->p < 3;
    return units << UNITS | second << SECOND | third << THIRD;
}
static uint64_t first_try(dezgula_solver *s)
{
    s->round = FIRST_ROUND;
    s->over = s->failed = rules_left_out(s);
    memset(s->tried, 0, sizeof s->tried);
    s->tried[AS_IS] = s->round;
    return begin(s, AS_IS, s->round);
}
static void forget_try(dezgula_solver *s)
{
    free(s->kept);
    s->kept = NULL, s->kept_len = 0, s->promised = UINT64_MAX;
}
/* the map as it is, where its reformulation was refused */
static uint64_t leave_form(dezgula_solver *s)
{
    free(s->form);
    s->form = NULL;
    forget_try(s);
    const dezgula_system map = plain_map(s);
    set_map(s, map.p, map.q, map.coefs);
    return first_try(s);
}
/* the rows of the tables get longer; false where there is no memory */
static bool widen(dezgula_solver *s, size_t q)
{
    dezgula_engine_run *r = &s->run;
    void *tables[2] = {r->table, r->basis};
    const size_t more = (r->words_len + r->sizes_len) * sizeof *r->table * (q - s->q);
    bool all = bytes(s, r->words_len, r->sizes_len) + more <= s->most;
    all = all && longer(&tables[0], r->words_len, q * sizeof *r->table) && longer(&tables[1], r->sizes_len, q * sizeof *r->basis);
    r->table = tables[0], r->basis = tables[1];
    return all;
}
/* a map that takes long: its reformulation, where there is one, from the beginning; DEZGULA_PAUSED, or a refusal */
static uint64_t look_again(dezgula_solver *s)
{
    if (find_form(s)) return s->phase = BEYOND, DEZGULA_COMPONENT;
    if (s->form == NULL) return DEZGULA_PAUSED;
    if (!widen(s, s->q + s->form->further)) {
        free(s->form);
        s->form = NULL;
        return DEZGULA_PAUSED;
    }
    forget_try(s);
    set_form(s);
    uint64_t answer = first_try(s);
    if (answer != DEZGULA_STARTED) answer = leave_form(s);
    return answer == DEZGULA_STARTED ? (uint64_t)DEZGULA_PAUSED : answer;
}
/* the same before the first turn; DEZGULA_STARTED, or a refusal */
static uint64_t look_first(dezgula_solver *s)
{
    const uint64_t answer = look_again(s);
    return answer == DEZGULA_PAUSED || s->phase == BEYOND ? (uint64_t)DEZGULA_STARTED : answer;
}
static bool in_list(const uint32_t *rows, size_t len, size_t q)
{
    for (size_t i = 0; i < len; i += q) {
        uint32_t any = 0;
        for (size_t j = 0; j < q; j++) {
            if (rows[i + j] > DEZGULA_COMPONENT_LIMIT) return false;
            any |= rows[i + j];
        }
        if (any == 0) return false;
    }
    return true;
}
/* the unknowns that some row has with others, or no row has */
static uint32_t find_tied(const uint32_t *rows, size_t len, size_t q)
{
    uint32_t alone = 0, tied = 0;
    for (size_t i = 0; i < len; i += q) {
        uint32_t in = 0;
        uint64_t degree = 0;
        for (size_t j = 0; j < q; j++) in |= (uint32_t)(rows[i + j] != 0) << j, degree += rows[i + j];
        *(degree == 1 ? &alone : &tied) |= in;
    }
    return tied | ~alone;
}
/* a copy of the list; false where there is no memory */
static bool set_list(dezgula_solver *s, const uint32_t *rows, size_t len)
{
    s->list = malloc((len > 0 ? len : 1) * sizeof *s->list);
    if (s->list == NULL) return false;
    if (len > 0) memcpy(s->list, rows, len * sizeof *s->list);
    s->list_len = len, s->tied = find_tied(rows, len, s->q);
    return true;
}
/* from the unit tuples, or from a list where it is not NULL */
static dezgula_solver *new_solver(const dezgula_system *system, const dezgula_list *list, uint64_t *answer)
{
    const size_t p = system->p, q = system->q;
    *answer = p < 1 || p > MOST ? (uint64_t)DEZGULA_EQUATIONS
            : q < 1 || q > MOST ? (uint64_t)DEZGULA_UNKNOWNS
            : system->coefs == NULL || system->coefs_len != p * q ? (uint64_t)DEZGULA_COUNT : 0;
    if (*answer != 0) return NULL;
    const size_t rows = list != NULL ? list->found : q;
    if (list != NULL && (rows > SIZE_MAX / q || list->rows_len != rows * q || (rows > 0 && list->rows == NULL) || !in_list(list->rows, list->rows_len, q)))
        return *answer = DEZGULA_OUT_OF_ORDER, NULL;
    dezgula_solver *s = blank(p, q, system->coefs);
    *answer = DEZGULA_ENGINE_FULL;
    if (s != NULL && (list == NULL || set_list(s, list->rows, list->rows_len))) {
        if (grow_basis(s, rows > s->q ? rows : s->q) && grow_table(s)) *answer = first_try(s);
        if (*answer == DEZGULA_STARTED && is_large(s)) *answer = look_first(s);
    }
    if (*answer == DEZGULA_STARTED) return s;
    dezgula_solver_free(s);
    return NULL;
}
/* room for what is wanted besides the loops; false where there is no memory. The extra unknown is never fresh */
static bool set_sides(dezgula_solver *s)
{
    static const int32_t none[COEFFICIENTS];
    s->wanted = calloc(1, sizeof *s->wanted);
    s->tied = 1;
    set_map(s, s->given_p, s->given_q + 1, none);
    return s->wanted != NULL;
}
dezgula_solver *dezgula_solver_new_sides(const dezgula_system *system, const int32_t *rights, const uint32_t *lower, uint64_t *answer)
{
    const size_t p = system->p, q = system->q;
    *answer = p < 1 || p > MOST ? (uint64_t)DEZGULA_EQUATIONS
            : q < 1 || q > MOST - 1 ? (uint64_t)DEZGULA_UNKNOWNS
            : system->coefs == NULL || system->coefs_len != p * q ? (uint64_t)DEZGULA_COUNT : 0;
    if (*answer != 0) return NULL;
    dezgula_solver *s = blank(p, q, system->coefs);
    *answer = DEZGULA_ENGINE_FULL;
    if (s != NULL && set_sides(s) && grow_basis(s, q + 1) && grow_table(s)) {
        if (rights != NULL) memcpy(s->wanted->rights, rights, p * sizeof *rights);
        if (lower != NULL) memcpy(s->wanted->lower, lower, q * sizeof *lower);
        *answer = start(s, &s->run);
        memcpy(s->coefs, s->equations, sizeof s->coefs);
        memcpy(s->wanted->system, s->equations, sizeof s->equations);
    }
    if (*answer == DEZGULA_STARTED) *answer = first_try(s);
    if (*answer == DEZGULA_STARTED && is_large(s)) *answer = look_first(s);
    if (*answer == DEZGULA_STARTED) return s;
    dezgula_solver_free(s);
    return NULL;
}
dezgula_solver *dezgula_solver_new(const dezgula_system *system, uint64_t *answer) { return new_solver(system, NULL, answer); }
dezgula_solver *dezgula_solver_new_from(const dezgula_system *system, const dezgula_list *list, uint64_t *answer) { return new_solver(system, list, answer); }

/* of `count` rows those with `first` in the extra unknown, without it and with the bound added, from `to` on; how many */
static size_t hand_rows(const dezgula_solver *s, const uint32_t *row, uint32_t first, const uint32_t *bound, uint32_t *to)
{
    size_t n = 0, q = s->given_q;
    for (size_t i = 0; i < s->run.record.count; i++, row += q + 1) {
        if (row[0] != first) continue;
        for (size_t j = 0; j < q; j++) to[n * q + j] = row[1 + j] + (bound != NULL ? bound[j] : 0);
        n++;
    }
    return n;
}
/* room for as many rows of q numbers as the complete list has, beside those of `others`; NULL where there is no memory */
static uint32_t *room_for_list(const dezgula_solver *s, size_t q, size_t others)
{
    const size_t each = s->run.record.count * sizeof(uint32_t), all = each * q;
    return bytes(s, s->run.words_len, s->run.sizes_len) + all + each * others > s->most ? NULL : malloc(all > 0 ? all : 1);
}
/* the complete list of a reformulation, without its further unknowns; DEZGULA_ENGINE_FULL where there is no memory for that */
static uint64_t project(dezgula_solver *s)
{
    const size_t q = plain_map(s).q, count = s->run.record.count;
    if (s->projected != NULL) return DEZGULA_COMPLETE;
    s->projected = room_for_list(s, q, 0);
    if (s->projected == NULL) return DEZGULA_ENGINE_FULL;
    const dezgula_list list = {s->run.basis, count * s->q, count};
    const uint64_t answer = dezgula_engine_project(q, s->form->further, &list, s->projected, count * q);
    return answer == DEZGULA_ENGINE_PROJECTED ? (uint64_t)DEZGULA_COMPLETE : answer;
}
/* the complete list as it is handed out: without the further unknowns of a reformulation; with right sides or a lower bound both lists. DEZGULA_ENGINE_FULL
 * where there is no memory for that */
static uint64_t hand_out(dezgula_solver *s)
{
    const uint64_t answer = s->form != NULL ? project(s) : (uint64_t)DEZGULA_COMPLETE;
    if (s->wanted == NULL || s->wanted->rows != NULL || answer != DEZGULA_COMPLETE) return answer;
    const uint32_t *list = s->form != NULL ? s->projected : s->run.basis;
    s->wanted->rows = room_for_list(s, s->given_q, s->form != NULL ? s->given_q + 1 : 0);
    if (s->wanted->rows == NULL) return DEZGULA_ENGINE_FULL;
    s->wanted->loops = hand_rows(s, list, 0, NULL, s->wanted->rows);
    s->wanted->smallest = hand_rows(s, list, 1, s->wanted->lower, s->wanted->rows + s->wanted->loops * s->given_q);
    return DEZGULA_COMPLETE;
}
static uint64_t turns(const dezgula_solver *s) { return s->past + s->run.record.steps.count; }
/* one call of the engine, or the choice of the next equation; DEZGULA_PAUSED where there is more to do */
static uint64_t step(dezgula_solver *s, uint64_t budget)
{
    dezgula_engine_record *r = &s->run.record;
    const bool may_look = !s->looked && s->list == NULL;
    uint64_t answer;
    if (may_look && turns(s) >= LATE_TURNS) return look_again(s);
    if (may_look && budget > LATE_TURNS - turns(s)) budget = LATE_TURNS - turns(s);
    if (r->equation == s->p) {
        answer = next_stage(s);
        return answer == 0 ? (uint64_t)DEZGULA_PAUSED : answer;
    }
    if (s->phase == TRYING && r->steps.count >= s->limit) {
        answer = next_try(s, 0);
        return answer == 0 ? (uint64_t)DEZGULA_PAUSED : answer;
    }
    if (s->phase == TRYING && budget > s->limit - r->steps.count) budget = s->limit - r->steps.count;
    answer = dezgula_engine_resume(s->p, s->q, &s->run, budget);
    if (answer == DEZGULA_COMPLETE) s->phase = COMPLETE, answer = hand_out(s);
    if (answer == DEZGULA_ENGINE_FULL && (r->rows == s->run.words_len ? grow_table(s) : grow_basis(s, 0))) return DEZGULA_PAUSED;
    if (answer == DEZGULA_COMPONENT || answer == DEZGULA_STEPS_AT_LIMIT) {
        answer = give_up(s, answer);
        if (answer != 0 && s->form != NULL) answer = leave_form(s) == DEZGULA_STARTED ? 0 : answer;
        return answer == 0 ? (uint64_t)DEZGULA_PAUSED : answer;
    }
    return answer;
}
static uint64_t work(dezgula_solver *s, uint64_t budget)
{
    const uint64_t end = turns(s) > UINT64_MAX - budget ? UINT64_MAX : turns(s) + budget;
    uint64_t answer = DEZGULA_PAUSED;
    while (answer == DEZGULA_PAUSED && turns(s) < end) answer = step(s, end - turns(s));
    return answer;
}
uint64_t dezgula_solver_work(dezgula_solver *s, uint64_t budget)
{
    if (s->phase == COMPLETE) return hand_out(s);
    if (s->phase == BEYOND) return DEZGULA_COMPONENT;
    if (budget != 0) return work(s, budget);
    const clock_t fifty = CLOCKS_PER_SEC / 20, begun = clock();
    uint64_t answer = DEZGULA_PAUSED;
    for (clock_t before = begun, after; answer == DEZGULA_PAUSED && before - begun < fifty / 2; before = after) {
        answer = work(s, s->pace);
        after = clock();
        if (after - before < fifty / 2 && s->pace < MOST_PACE) s->pace *= 2;
        else if (after - before > fifty && s->pace > 1) s->pace /= 2;
    }
    return answer;
}

void dezgula_solver_limit(dezgula_solver *s, size_t most) { s->most = most; }

dezgula_system dezgula_solver_system(const dezgula_solver *s) { return given_map(s); }

dezgula_solver_progress dezgula_solver_told(const dezgula_solver *s)
{
    dezgula_solver_progress told = {0, s->p, s->run.record.equation < s->p ? s->run.record.rows : s->run.record.count, {turns(s)}};
    for (size_t e = 0; e < s->p; e++) told.done += is_done(s, e);
    return told;
}

const uint32_t *dezgula_solver_rows(const dezgula_solver *s, size_t *count)
{
    const uint32_t *rows = s->phase != COMPLETE ? NULL : s->wanted != NULL ? s->wanted->rows : s->form != NULL ? s->projected : s->run.basis;
    *count = rows == NULL ? 0 : s->wanted != NULL ? s->wanted->loops : s->run.record.count;
    return rows;
}
const uint32_t *dezgula_solver_smallest(const dezgula_solver *s, size_t *count)
{
    const bool complete = s->wanted != NULL && s->wanted->rows != NULL;
    *count = complete ? s->wanted->smallest : 0;
    return complete ? s->wanted->rows + s->wanted->loops * s->given_q : NULL;
}

void dezgula_solver_free(dezgula_solver *s)
{
    if (s == NULL) return;
    void *tables[12] = {s->run.basis, s->run.sizes, s->run.table, s->run.values, s->run.words, s->run.degrees, s->run.marks, s->run.mothers,
                        s->kept,      s->list,      s->form,      s->projected};
    for (size_t i = 0; i < 12; i++) free(tables[i]);
    if (s->wanted != NULL) free(s->wanted->rows);
    free(s->wanted);
    free(s);
}

/* ---- a solver as words: a sign and the sizes of its map; where it has the sign of right sides and a lower bound, the map and those; where it has the sign of
 * a reformulation, its sizes, the map without right sides, and its numbers; then the numbers, the three systems, and the rows of the tables; and where it has
 * the sign of a list, those of the list that it starts from, which are the words left */

enum { SIGN = 0x445A4739, LIST_SIGN, SIDES_SIGN, FORM_SIGN, SIDES_FORM_SIGN };
enum { HEAD = 3, SIZES = 2, OWN = 12 + RULES, NUMBERS = OWN + 2 * RECORD };

static void numbers_of(const dezgula_solver *s, uint64_t n[NUMBERS])
{
    const uint64_t own[12] = {s->phase, s->rule, s->kept_rule, s->over, s->late, s->round, s->limit, s->promised, s->past, s->pace, s->failed, s->looked};
    memcpy(n, own, sizeof own);
    memcpy(n + 12, s->tried, sizeof s->tried);
    dezgula_engine_pack(s->run.record, n + OWN);
    dezgula_engine_pack(s->kept_record, n + OWN + RECORD);
}
static void set_numbers(dezgula_solver *s, const uint64_t n[NUMBERS])
{
    s->phase = n[0], s->rule = n[1], s->kept_rule = n[2], s->over = n[3], s->late = n[4];
    s->round = n[5], s->limit = n[6], s->promised = n[7], s->past = n[8], s->pace = n[9], s->failed = n[10], s->looked = n[11];
    memcpy(s->tried, n + 12, sizeof s->tried);
    s->run.record = dezgula_engine_unpack(n + OWN);
    s->kept_record = dezgula_engine_unpack(n + OWN + RECORD);
}
/* the words of right sides and a lower bound, with the map; and those of a reformulation */
static size_t sides_words(const dezgula_solver *s) { return s->wanted != NULL ? s->given_p * s->given_q + s->given_p + s->given_q : 0; }
static size_t form_words(const dezgula_solver *s)
{
    const dezgula_system map = plain_map(s);
    return s->form != NULL ? SIZES + (s->wanted != NULL ? 0 : map.coefs_len) + reformulation_length(&map, s->form) : 0;
}
/* what stands between the head and the numbers */
static size_t given_words(const dezgula_solver *s) { return sides_words(s) + form_words(s); }
static size_t fixed_words(const dezgula_solver *s) { return HEAD + given_words(s) + 2 * NUMBERS + 3 * s->p * s->q; }

size_t dezgula_solver_saved_length(const dezgula_solver *s)
{
    return fixed_words(s) + s->run.record.count * s->q + s->run.record.rows * (s->q + 1) + s->kept_len + s->list_len;
}
static uint32_t *put(uint32_t *to, const void *from, size_t n)
{
    if (n > 0) memcpy(to, from, n * sizeof *to);
    return to + n;
}
static uint32_t *put_given(const dezgula_solver *s, uint32_t *to)
{
    const dezgula_system given = given_map(s), map = plain_map(s);
    if (s->wanted != NULL) to = put(put(put(to, given.coefs, given.coefs_len), s->wanted->rights, given.p), s->wanted->lower, given.q);
    if (s->form == NULL) return to;
    const uint32_t sizes[SIZES] = {(uint32_t)s->form->further, (uint32_t)s->form->operations};
    uint32_t *at = put(to, sizes, SIZES);
    if (s->wanted == NULL) at = put(at, map.coefs, map.coefs_len);
    reformulation_save(&map, s->form, at);
    return to + form_words(s);
}
static uint32_t sign_of(const dezgula_solver *s)
{
    if (s->wanted != NULL) return s->form != NULL ? SIDES_FORM_SIGN : SIDES_SIGN;
    return s->list != NULL ? LIST_SIGN : s->form != NULL ? FORM_SIGN : SIGN;
}
void dezgula_solver_save(const dezgula_solver *s, uint32_t *words)
{
    const uint32_t head[HEAD] = {sign_of(s), (uint32_t)s->given_p, (uint32_t)s->given_q};
    uint64_t n[NUMBERS];
    numbers_of(s, n);
    uint32_t *to = put_given(s, put(words, head, HEAD));
    for (size_t i = 0; i < NUMBERS; i++) *to++ = (uint32_t)n[i], *to++ = (uint32_t)(n[i] >> 32);
    to = put(to, s->coefs, s->p * s->q);
    to = put(to, s->equations, s->p * s->q);
    to = put(to, s->kept_equations, s->p * s->q);
    to = put(to, s->run.basis, s->run.record.count * s->q);
    to = put(to, s->run.table, s->run.record.rows * s->q);
    to = put(to, s->run.mothers, s->run.record.rows);
    to = put(to, s->kept, s->kept_len);
    put(to, s->list, s->list_len);
}

static bool right_numbers(const dezgula_solver *s, size_t length)
{
    const dezgula_engine_record *r = &s->run.record, *k = &s->kept_record;
    const size_t most = length / s->q;
    const bool done = r->equation == s->p && r->done == (s->p < 32 ? (UINT32_C(1) << s->p) - 1 : UINT32_MAX);
    if (s->phase > BEYOND || s->rule >= RULES || s->kept_rule >= RULES || s->over > ALL_RULES || s->failed > ALL_RULES || s->looked > 1) return false;
    if (s->late >> s->p != 0 || s->round == 0 || s->pace == 0 || s->pace > 2 * MOST_PACE || s->past > UINT64_MAX / 2) return false;
    const uint64_t cap = s->wanted != NULL;
    if (r->count > most || r->rows > most || done != (s->phase == COMPLETE) || r->cap != cap) return false;
    return s->promised == UINT64_MAX || (k->count <= most && k->equation == s->p && k->rows == 0 && k->cap == cap);
}
/* a basis as the engine is lent it has room for q rows at least */
static size_t kept_room(const dezgula_solver *s) { return s->kept_len > s->q * s->q ? s->kept_len : s->q * s->q; }
static size_t larger(size_t a, size_t b) { return a > b ? a : b; }
/* the tables from the words at `from`, of which the last `listed` are the list's; the numbers are in place */
static bool load_tables(dezgula_solver *s, const uint32_t *from, bool from_list, size_t listed)
{
    const size_t count = s->run.record.count, rows = s->run.record.rows, q = s->q;
    memcpy(s->coefs, from, s->p * q * sizeof *from), from += s->p * q;
    memcpy(s->equations, from, s->p * q * sizeof *from), from += s->p * q;
    memcpy(s->kept_equations, from, s->p * q * sizeof *from), from += s->p * q;
    if (!grow_basis(s, larger(larger(count, s->kept_len / q), listed / q))) return false;
    while (s->run.words_len < rows || s->run.words_len == 0)
        if (!grow_table(s)) return false;
    memcpy(s->run.basis, from, count * q * sizeof *from), from += count * q;
    memcpy(s->run.table, from, rows * q * sizeof *from), from += rows * q;
    memcpy(s->run.mothers, from, rows * sizeof *from), from += rows;
    s->kept = calloc(kept_room(s), sizeof *s->kept);
    if (s->kept == NULL) return false;
    memcpy(s->kept, from, s->kept_len * sizeof *from), from += s->kept_len;
    return !from_list || set_list(s, from, listed);
}
/* whether the coefficients of the map that is listed are in range, or they are those of the start for right sides, or of the reformulation */
static bool own_system(const dezgula_solver *s)
{
    const int32_t *system = s->form != NULL ? s->form->other : s->wanted != NULL ? s->wanted->system : s->coefs;
    for (size_t k = 0; system == s->coefs && k < s->p * s->q; k++)
        if (s->coefs[k] < -DEZGULA_COEFFICIENT_LIMIT || s->coefs[k] > DEZGULA_COEFFICIENT_LIMIT) return false;
    return memcmp(system, s->coefs, s->p * s->q * sizeof *system) == 0;
}
/* The engine's call looks at everything before its first turn; a solver reads rows and equations before it makes the next call, so it is asked first. */
static bool in_order(const dezgula_solver *s)
{
    dezgula_engine_run run = s->run, kept = s->run;
    if (!in_list(s->list, s->list_len, s->q) || !own_system(s)) return false;
    uint64_t answer = dezgula_engine_resume(s->p, s->q, &run, 0);
    if (answer != DEZGULA_PAUSED && answer != DEZGULA_COMPLETE) return false;
    if (s->promised == UINT64_MAX) return true;
    int32_t equations[COEFFICIENTS];
    memcpy(equations, s->kept_equations, sizeof equations);
    kept.equations = equations, kept.basis = s->kept, kept.basis_len = kept_room(s), kept.record = s->kept_record;
    return dezgula_engine_resume(s->p, s->q, &kept, 0) == DEZGULA_PAUSED;
}
/* the reformulation from the words left at `from`; false where they do not show it, or there is no memory, which *answer then tells */
static bool load_form(dezgula_solver *s, const uint32_t *from, size_t left, uint64_t *answer)
{
    const dezgula_system map = plain_map(s);
    const size_t more = s->wanted != NULL, own = s->wanted != NULL ? 0 : map.coefs_len;
    if (left < SIZES + own || map.q > REFORMULATED_UNKNOWNS + more) return false;
    if (from[0] > REFORMULATED_FURTHER + more || from[1] > REFORMULATED_OPERATIONS) return false;
    s->form = calloc(1, sizeof *s->form);
    if (s->form == NULL) return *answer = DEZGULA_ENGINE_FULL, false;
    s->form->further = from[0], s->form->operations = from[1];
    memcpy(s->given, from + SIZES, own * sizeof *from);
    if (left < form_words(s) || !reformulation_load(&map, from + SIZES + own, s->form)) return false;
    set_form(s);
    return true;
}
/* the system that the start for right sides makes of them; false where it refuses them */
static bool find_system(dezgula_solver *s)
{
    uint32_t basis[COEFFICIENTS], sizes[MOST];
    dezgula_engine_run run = {.equations = s->wanted->system, .equations_len = s->p * s->q, .basis = basis, .basis_len = COEFFICIENTS};
    run.sizes = sizes, run.sizes_len = MOST;
    return start(s, &run) == DEZGULA_STARTED;
}
/* right sides and a lower bound from the words left at `from` */
static bool load_sides(dezgula_solver *s, const uint32_t *from, size_t left, uint64_t *answer)
{
    const size_t p = s->given_p, q = s->given_q;
    if (q == MOST) return false;
    if (!set_sides(s)) return *answer = DEZGULA_ENGINE_FULL, false;
    if (left < sides_words(s)) return false;
    memcpy(s->given, from, p * q * sizeof *from);
    memcpy(s->wanted->rights, from + p * q, p * sizeof *from);
    memcpy(s->wanted->lower, from + p * q + p, q * sizeof *from);
    return find_system(s);
}
static bool load_given(dezgula_solver *s, const uint32_t *words, size_t length, uint64_t *answer)
{
    const bool sides = words[0] == SIDES_SIGN || words[0] == SIDES_FORM_SIGN, form = words[0] == FORM_SIGN || words[0] == SIDES_FORM_SIGN;
    if (sides && !load_sides(s, words + HEAD, length - HEAD, answer)) return false;
    return !form || load_form(s, words + HEAD + sides_words(s), length - HEAD - sides_words(s), answer);
}
/* the numbers, and the tables; DEZGULA_STARTED, or what it is refused with */
static uint64_t load_run(dezgula_solver *s, const uint32_t *words, size_t length)
{
    const bool from_list = words[0] == LIST_SIGN;
    const uint32_t *from = words + HEAD + given_words(s);
    uint64_t n[NUMBERS];
    if (length < fixed_words(s)) return DEZGULA_OUT_OF_ORDER;
    for (size_t i = 0; i < NUMBERS; i++) n[i] = from[2 * i] | (uint64_t)from[2 * i + 1] << 32;
    set_numbers(s, n);
    if (!right_numbers(s, length)) return DEZGULA_OUT_OF_ORDER;
    if (s->promised != UINT64_MAX) s->kept_len = s->kept_record.count * s->q;
    const size_t others = dezgula_solver_saved_length(s), listed = others <= length ? length - others : 0;
    if (others > length || (from_list ? listed % s->q != 0 : listed != 0)) return DEZGULA_OUT_OF_ORDER;
    if (!load_tables(s, from + 2 * NUMBERS, from_list, listed)) return DEZGULA_ENGINE_FULL;
    if (s->form == NULL && s->wanted == NULL) memcpy(s->given, s->coefs, s->p * s->q * sizeof *s->coefs);
    if (!in_order(s)) return DEZGULA_OUT_OF_ORDER;
    return s->phase == COMPLETE && hand_out(s) != DEZGULA_COMPLETE ? (uint64_t)DEZGULA_ENGINE_FULL : (uint64_t)DEZGULA_STARTED;
}
dezgula_solver *dezgula_solver_load(const uint32_t *words, size_t length, uint64_t *answer)
{
    static const int32_t none[COEFFICIENTS];
    *answer = DEZGULA_OUT_OF_ORDER;
    if (words == NULL || length < HEAD || words[1] < 1 || words[1] > MOST || words[2] < 1 || words[2] > MOST) return NULL;
    if (words[0] < SIGN || words[0] > SIDES_FORM_SIGN) return NULL;
    dezgula_solver *s = blank(words[1], words[2], none);
    if (s == NULL) return *answer = DEZGULA_ENGINE_FULL, NULL;
    if (load_given(s, words, length, answer)) *answer = load_run(s, words, length);
    if (*answer == DEZGULA_STARTED) return s;
    dezgula_solver_free(s);
    return NULL;
}
