/* Tries the solver of dezgula_engine.h: refused maps, equations that are zero, repeated or combinations, pauses after every few turns, saved and loaded at each
 * of them, reformulations, lists handed over to further equations, right sides and lower bounds, words that were damaged, and a limit of memory.
 * Status 1 at the first thing wrong. */
#include "dezgula_engine.h"

#include <inttypes.h>
#include <stdbool.h>
#include <stdio.h>
#include <stdlib.h>
#include <string.h>

static void is(bool right, const char *what)
{
    if (right) return;
    fprintf(stderr, "solver: %s\n", what);
    exit(1);
}

static uint64_t seed = 1;
static uint64_t draw(uint64_t n)
{
    seed = seed * UINT64_C(6364136223846793005) + UINT64_C(1442695040888963407);
    return (seed >> 33) % n;
}

static dezgula_solver *solver_of(size_t p, size_t q, const int32_t *coefs, uint64_t *answer)
{
    dezgula_system map = {p, q, coefs, p * q};
    return dezgula_solver_new(&map, answer);
}

/* ---- to the end, in calls of so many turns; with `carried` each call is on a solver loaded from what the last one saved */

static dezgula_solver *carry(dezgula_solver *solver)
{
    uint64_t answer;
    size_t n = dezgula_solver_saved_length(solver);
    uint32_t *words = malloc(n * sizeof *words);
    is(words != NULL, "no memory");
    dezgula_solver_save(solver, words);
    dezgula_solver_free(solver);
    solver = dezgula_solver_load(words, n, &answer);
    is(solver != NULL && answer == DEZGULA_STARTED, "what was saved is not loaded");
    is(dezgula_solver_load(words, n - 1, &answer) == NULL && answer == DEZGULA_OUT_OF_ORDER, "words that are cut off are loaded");
    words[0] ^= 1;
    is(dezgula_solver_load(words, n, &answer) == NULL && answer == DEZGULA_OUT_OF_ORDER, "other words are loaded");
    free(words);
    return solver;
}
static dezgula_solver *finish(dezgula_solver *solver, uint64_t budget, bool carried)
{
    uint64_t answer = DEZGULA_PAUSED, last = 0;
    while (answer == DEZGULA_PAUSED) {
        size_t count;
        is(dezgula_solver_rows(solver, &count) == NULL && count == 0, "rows before the end");
        if (carried) solver = carry(solver);
        answer = dezgula_solver_work(solver, budget);
        dezgula_solver_progress told = dezgula_solver_told(solver);
        is(told.steps.count >= last && told.done <= told.equations, "steps that fall");
        is(budget == 0 || told.steps.count <= last + budget, "more turns than the budget");
        last = told.steps.count;
    }
    is(answer == DEZGULA_COMPLETE, dezgula_sentence(answer));
    return solver;
}

/* ---- lists */

static size_t width;
static int by_row(const void *a, const void *b) { return memcmp(a, b, width * sizeof(uint32_t)); }
static uint32_t *sorted(const dezgula_solver *solver, size_t q, size_t *count)
{
    const uint32_t *rows = dezgula_solver_rows(solver, count);
    uint32_t *copy = malloc((*count * q + 1) * sizeof *copy);
    is(rows != NULL && copy != NULL, "no rows at the end");
    memcpy(copy, rows, *count * q * sizeof *copy);
    width = q;
    qsort(copy, *count, q * sizeof *copy, by_row);
    return copy;
}
static void same_lists(const dezgula_solver *a, const dezgula_solver *b, size_t q)
{
    size_t n, m;
    uint32_t *x = sorted(a, q, &n), *y = sorted(b, q, &m);
    is(n == m && memcmp(x, y, n * q * sizeof *x) == 0, "two ways to the end with two lists");
    free(x), free(y);
}

/* ---- what is tried */

static void refused_maps(void)
{
    static const int32_t coefs[33 * 33] = {10001};
    uint64_t answer;
    is(solver_of(0, 1, coefs, &answer) == NULL && answer == DEZGULA_EQUATIONS, "0 equations");
    is(solver_of(33, 1, coefs, &answer) == NULL && answer == DEZGULA_EQUATIONS, "33 equations");
    is(solver_of(1, 0, coefs, &answer) == NULL && answer == DEZGULA_UNKNOWNS, "0 unknowns");
    is(solver_of(1, 33, coefs, &answer) == NULL && answer == DEZGULA_UNKNOWNS, "33 unknowns");
    is(solver_of(1, 1, coefs, &answer) == NULL && answer == DEZGULA_COEFFICIENT + 256, "a coefficient out of range");
    is(solver_of(1, 1, NULL, &answer) == NULL && answer == DEZGULA_COUNT, "no coefficients");
    dezgula_solver_free(NULL);
}
static void largest_map(void)
{
    static int32_t coefs[32 * 32];
    uint64_t answer;
    for (size_t i = 0; i < 32; i++) coefs[i * 32 + i] = 1, coefs[i * 32 + (i + 1) % 32] = -1;
    dezgula_solver *ring = finish(solver_of(32, 32, coefs, &answer), 0, false);
    size_t count;
    const uint32_t *rows = dezgula_solver_rows(ring, &count);
    is(count == 1, "a ring of 32 has one loop");
    for (size_t j = 0; j < 32; j++) is(rows[j] == 1, "which goes round once");
    dezgula_solver_free(ring);
    memset(coefs, 0, sizeof coefs);
    dezgula_solver *none = finish(solver_of(32, 32, coefs, &answer), 0, false);
    (void)dezgula_solver_rows(none, &count);
    is(count == 32 && dezgula_solver_told(none).steps.count <= 32 * 35, "equations that are zero cost nothing");
    dezgula_solver_free(none);
}
/* equations added that say nothing new: the same list, and hardly more turns */
static void combinations(void)
{
    int32_t coefs[8 * 6];
    for (int n = 0; n < 200; n++) {
        uint64_t answer;
        for (size_t i = 0; i < 12; i++) coefs[i] = (int32_t)draw(7) - 3;
        for (size_t e = 2; e < 8; e++) {
            int32_t a = (int32_t)draw(9) - 4, b = (int32_t)draw(9) - 4;
            for (size_t j = 0; j < 6; j++) coefs[e * 6 + j] = a * coefs[j] + b * coefs[6 + j];
        }
        dezgula_solver *two = finish(solver_of(2, 6, coefs, &answer), 0, false), *eight = finish(solver_of(8, 6, coefs, &answer), 0, false);
        same_lists(two, eight, 6);
        is(dezgula_solver_told(eight).steps.count <= 20 * dezgula_solver_told(two).steps.count + 1000, "combinations cost more than nothing");
        dezgula_solver_free(two), dezgula_solver_free(eight);
    }
}
static void pauses(void)
{
    static const uint64_t budgets[4] = {1, 7, 1000, 0};
    int32_t coefs[3 * 6];
    for (int n = 0; n < 60; n++) {
        uint64_t answer;
        for (size_t i = 0; i < 18; i++) coefs[i] = (int32_t)draw(5) - 2;
        dezgula_solver *whole = finish(solver_of(3, 6, coefs, &answer), UINT64_MAX, false);
        for (int i = 0; i < 8; i++) {
            dezgula_solver *parts = finish(solver_of(3, 6, coefs, &answer), budgets[i % 4], i >= 4);
            same_lists(whole, parts, 6);
            dezgula_solver_free(parts);
        }
        dezgula_solver_free(whole);
    }
}
/* ---- from a list */

/* a solver for the equations from `from` on, from the list of one that is complete */
static dezgula_solver *solver_from(const dezgula_solver *before, size_t p, size_t q, const int32_t *coefs, uint64_t *answer)
{
    size_t count;
    const uint32_t *rows = dezgula_solver_rows(before, &count);
    dezgula_system map = {p, q, coefs, p * q};
    dezgula_list list = {rows, count * q, count};
    return dezgula_solver_new_from(&map, &list, answer);
}
/* any grouping of the equations gives the list of the whole map, in calls of any size, carried or not */
static void groups(void)
{
    enum { P = 5, Q = 7 };
    int32_t coefs[P * Q];
    for (int n = 0; n < 120; n++) {
        uint64_t answer;
        for (size_t i = 0; i < P * Q; i++) coefs[i] = draw(2) ? 0 : (int32_t)draw(5) - 2;
        dezgula_solver *whole = finish(solver_of(P, Q, coefs, &answer), 0, false);
        size_t done = 1 + draw(P - 1);
        dezgula_solver *grown = finish(solver_of(done, Q, coefs, &answer), 0, false);
        while (done < P) {
            size_t more = 1 + draw(P - done);
            dezgula_solver *next = solver_from(grown, more, Q, coefs + done * Q, &answer);
            is(next != NULL && answer == DEZGULA_STARTED, "a list is refused");
            dezgula_solver_free(grown);
            grown = finish(next, n % 3 == 0 ? 7 : 0, n % 3 == 0);
            done += more;
        }
        same_lists(whole, grown, Q);
        dezgula_solver_free(whole), dezgula_solver_free(grown);
    }
}
static void refused_lists(void)
{
    const int32_t coefs[2] = {1, -1};
    const uint32_t rows[4] = {1, 0, 0, 1}, zero[4] = {1, 0, 0, 0}, large[4] = {1, 0, 0, 1000001};
    const dezgula_system map = {1, 2, coefs, 2}, none = {0, 2, coefs, 0}, wide = {1, 33, coefs, 33}, other = {1, 2, coefs, 1};
    const dezgula_list list = {rows, 4, 2}, empty = {NULL, 0, 0}, wrong[5] = {{zero, 4, 2}, {large, 4, 2}, {rows, 4, 1}, {rows, 3, 2}, {rows, 4, SIZE_MAX}};
    uint64_t answer;
    is(dezgula_solver_new_from(&none, &list, &answer) == NULL && answer == DEZGULA_EQUATIONS, "0 equations and a list");
    is(dezgula_solver_new_from(&wide, &list, &answer) == NULL && answer == DEZGULA_UNKNOWNS, "33 unknowns and a list");
    is(dezgula_solver_new_from(&other, &list, &answer) == NULL && answer == DEZGULA_COUNT, "too few coefficients and a list");
    for (size_t i = 0; i < 5; i++)
        is(dezgula_solver_new_from(&map, &wrong[i], &answer) == NULL && answer == DEZGULA_OUT_OF_ORDER, "a list that is out of order");
    size_t count;
    dezgula_solver *solver = finish(dezgula_solver_new_from(&map, &list, &answer), 0, true);
    is(dezgula_solver_rows(solver, &count)[0] == 1 && count == 1, "the unit tuples are a list");
    dezgula_solver_free(solver);
    solver = finish(dezgula_solver_new_from(&map, &empty, &answer), 0, true);
    (void)dezgula_solver_rows(solver, &count);
    is(count == 0, "from an empty list nothing comes");
    dezgula_solver_free(solver);
}

/* ---- right sides and lower bounds */

/* the rows of a complete solver of the system with the extra unknown written out, that have `first` there: without it, and with the bound added */
static uint32_t *written_out(const dezgula_solver *solver, size_t q, uint32_t first, const uint32_t *lower, size_t *count)
{
    size_t n;
    const uint32_t *rows = dezgula_solver_rows(solver, &n);
    uint32_t *out = malloc((n * q + 1) * sizeof *out);
    is(rows != NULL && out != NULL, "no rows at the end");
    *count = 0;
    for (size_t i = 0; i < n; i++) {
        if (rows[i * (q + 1)] != first) continue;
        for (size_t j = 0; j < q; j++) out[*count * q + j] = rows[i * (q + 1) + 1 + j] + (first == 1 ? lower[j] : 0);
        ++*count;
    }
    width = q;
    qsort(out, *count, q * sizeof *out, by_row);
    return out;
}
static void same_rows(const uint32_t *rows, size_t n, size_t q, const uint32_t *expected, size_t m)
{
    uint32_t *copy = malloc((n * q + 1) * sizeof *copy);
    is(copy != NULL && rows != NULL, "no rows at the end");
    memcpy(copy, rows, n * q * sizeof *copy);
    width = q;
    qsort(copy, n, q * sizeof *copy, by_row);
    is(n == m && memcmp(copy, expected, n * q * sizeof *copy) == 0, "right sides with another list than the system written out");
    free(copy);
}
/* both lists are those of the system with the extra unknown written out, without a cap, however the run is cut and carried */
static void both_lists(size_t p, size_t q, const int32_t *coefs, const int32_t *rights, const uint32_t *lower)
{
    static const uint64_t budgets[4] = {1, 13, 0, 0};
    int32_t whole[3 * 6];
    uint64_t answer;
    for (size_t i = 0; i < p; i++) {
        whole[i * (q + 1)] = -rights[i];
        for (size_t j = 0; j < q; j++) whole[i * (q + 1)] += coefs[i * q + j] * (int32_t)lower[j], whole[i * (q + 1) + 1 + j] = coefs[i * q + j];
    }
    dezgula_system map = {p, q, coefs, p * q};
    dezgula_solver *other = finish(solver_of(p, q + 1, whole, &answer), 0, false);
    size_t loops, smallest, count;
    uint32_t *at_0 = written_out(other, q, 0, lower, &loops), *at_1 = written_out(other, q, 1, lower, &smallest);
    for (int i = 0; i < 4; i++) {
        dezgula_solver *s = finish(dezgula_solver_new_sides(&map, rights, lower, &answer), budgets[i], i != 3);
        if (i != 3) s = carry(s);
        const uint32_t *rows = dezgula_solver_rows(s, &count);
        same_rows(rows, count, q, at_0, loops);
        rows = dezgula_solver_smallest(s, &count);
        same_rows(rows, count, q, at_1, smallest);
        dezgula_system told = dezgula_solver_system(s);
        is(told.p == p && told.q == q && memcmp(told.coefs, coefs, p * q * sizeof *coefs) == 0, "a solver with right sides is for its map");
        dezgula_solver_free(s);
    }
    free(at_0), free(at_1);
    dezgula_solver_free(other);
}
/* coefficients up to 3, and up to 20, where the map is listed by a reformulation */
static void wanted(void)
{
    for (int n = 0; n < 300; n++) {
        const size_t p = 1 + draw(3), q = 1 + draw(5);
        const int32_t most = n % 3 == 2 ? 20 : 3;
        int32_t coefs[3 * 5], rights[3];
        uint32_t lower[5];
        for (size_t i = 0; i < p * q; i++) coefs[i] = (int32_t)draw(2 * (uint64_t)most + 1) - most;
        for (size_t i = 0; i < p; i++) rights[i] = draw(3) ? (int32_t)draw(9) - 4 : 0;
        for (size_t j = 0; j < q; j++) lower[j] = n % 2 ? (uint32_t)draw(3) : 0;
        both_lists(p, q, coefs, rights, lower);
    }
}
static void refused_sides(void)
{
    static const int32_t coefs[32] = {1, 1}, far[1] = {10001}, none[1] = {0};
    static const uint32_t high[2] = {1000001, 0}, far_off[2] = {1000000, 1}, zero[2] = {0, 0};
    uint64_t answer;
    dezgula_system map = {1, 2, coefs, 2}, wide = {1, 32, coefs, 32}, other = {1, 2, coefs, 1};
    is(dezgula_solver_new_sides(&wide, none, NULL, &answer) == NULL && answer == DEZGULA_UNKNOWNS, "32 unknowns and right sides");
    is(dezgula_solver_new_sides(&other, none, NULL, &answer) == NULL && answer == DEZGULA_COUNT, "too few coefficients and right sides");
    is(dezgula_solver_new_sides(&map, far, zero, &answer) == NULL && answer == DEZGULA_RIGHT_SIDE, "a right side out of range");
    is(dezgula_solver_new_sides(&map, none, high, &answer) == NULL && answer == DEZGULA_TUPLE_RANGE, "a bound out of range");
    is(dezgula_solver_new_sides(&map, NULL, far_off, &answer) == NULL && answer == DEZGULA_ENGINE_SIDE + 256, "a bound that makes too much");
    dezgula_solver *solver = finish(dezgula_solver_new_sides(&map, NULL, NULL, &answer), 0, true);
    size_t count;
    is(dezgula_solver_smallest(solver, &count) != NULL && count == 1, "right sides of zero are met by zero");
    dezgula_solver_free(solver);
    solver = finish(solver_of(1, 2, coefs, &answer), 0, false);
    is(dezgula_solver_smallest(solver, &count) == NULL && count == 0, "a plain solver has no second list");
    dezgula_solver_free(solver);
}

/* maps that are listed by a reformulation: the same rows in the same order, however the run is cut and carried */
static void reformulations(void)
{
    static const uint64_t budgets[5] = {7, 97, 20011, 0, 0};
    int32_t coefs[3 * 6];
    for (int n = 0; n < 60; n++) {
        const size_t p = 1 + draw(3), q = p + 1 + draw(3);
        uint64_t answer;
        for (size_t i = 0; i < p * q; i++) coefs[i] = (int32_t)draw(81) - 40;
        dezgula_solver *whole = finish(solver_of(p, q, coefs, &answer), UINT64_MAX, false);
        for (int i = 0; i < 5; i++) {
            dezgula_solver *parts = finish(solver_of(p, q, coefs, &answer), budgets[i], i < 4);
            size_t count, other;
            const uint32_t *rows = dezgula_solver_rows(whole, &count), *again = dezgula_solver_rows(parts, &other);
            is(count == other && memcmp(rows, again, count * q * sizeof *rows) == 0, "a reformulation that ends elsewhere");
            dezgula_solver_free(parts);
        }
        dezgula_solver_free(carry(whole));
    }
}
/* from the list of the first equation a map is listed as it is */
static void as_it_is(void)
{
    int32_t coefs[3 * 5];
    for (int n = 0; n < 60; n++) {
        const size_t p = 2 + draw(2), q = p + 1 + draw(2);
        uint64_t answer;
        for (size_t i = 0; i < p * q; i++) coefs[i] = (int32_t)draw(33) - 16;
        dezgula_solver *whole = finish(solver_of(p, q, coefs, &answer), 0, false), *first = finish(solver_of(1, q, coefs, &answer), 0, false);
        dezgula_solver *grown = finish(solver_from(first, p - 1, q, coefs + q, &answer), 0, false);
        same_lists(whole, grown, q);
        dezgula_solver_free(whole), dezgula_solver_free(first), dezgula_solver_free(grown);
    }
}
/* a solution with a component above 1,000,000 is told at once, and after the run was carried */
static void too_large(void)
{
    const int32_t coefs[6] = {9973, -9967, 0, 0, 9949, -9941};
    uint64_t answer;
    dezgula_solver *solver = carry(solver_of(2, 3, coefs, &answer));
    is(dezgula_solver_work(solver, 1) == DEZGULA_COMPONENT && dezgula_solver_work(solver, 0) == DEZGULA_COMPONENT, "a component above the limit");
    dezgula_solver_free(carry(solver));
}
/* one word, or some, made another; mostly among the numbers that stand first */
static void damage(uint32_t *words, size_t length)
{
    for (uint64_t n = draw(2) ? 1 : 1 + draw(4); n > 0; n--) {
        uint32_t *at = &words[draw(draw(2) ? length : 70)];
        *at = draw(3) == 0 ? (uint32_t)draw(10) : draw(2) ? *at ^ UINT32_C(1) << draw(32) : UINT32_MAX;
    }
}
/* what a solver saved, of a length of its own so that a step past it shows */
static uint32_t *saved(const dezgula_solver *solver, size_t *length)
{
    *length = dezgula_solver_saved_length(solver);
    uint32_t *words = malloc(*length * sizeof *words);
    is(words != NULL, "no memory");
    dezgula_solver_save(solver, words);
    return words;
}
/* any answer, and no step past a table: not by the work, and not by saving what it left. The second map has an order that is kept while another is tried. */
static void damaged_words(void)
{
    const int32_t coefs[12] = {2, -3, 1, 5, -4, -1, 1, 1, -2, 3, -5, 2}, reformulated[8] = {31, -17, 23, -29, -13, 19, 37, -41};
    const int32_t large[5 * 8] = {3,  -2, -2, -1, 3, 3, 2, -2, -3, 0, -1, -1, -3, -2, 2,  2,  -1, 0,  2, -1,
                                  -3, 0,  0,  3,  0, 2, 3, 0,  3,  3, -3, 1,  0,  3,  -3, -1, -1, -3, -2, 1};
    for (int n = 0; n < 3000; n++) {
        uint64_t answer;
        size_t length;
        dezgula_solver *solver = n % 4 ? solver_of(2, 6, coefs, &answer) : solver_of(5, 8, large, &answer);
        if (n % 4 == 2) {
            dezgula_solver_free(solver);
            solver = solver_of(2, 4, reformulated, &answer);
        }
        if (n % 4 == 3) {
            dezgula_solver *before = finish(solver_of(1, 6, coefs, &answer), 0, false);
            dezgula_solver_free(solver);
            solver = solver_from(before, 1, 6, coefs + 6, &answer);
            dezgula_solver_free(before);
        }
        if (n % 8 == 6) {
            const int32_t rights[2] = {3, -2};
            dezgula_system map = {2, 6, coefs, 12}, other = {2, 4, reformulated, 8};
            dezgula_solver_free(solver);
            solver = dezgula_solver_new_sides(n % 16 == 6 ? &map : &other, rights, NULL, &answer);
        }
        (void)!dezgula_solver_work(solver, n % 4 ? 1 + draw(400) : 9000 + draw(3000));
        uint32_t *words = saved(solver, &length);
        dezgula_solver_free(solver);
        damage(words, length);
        solver = dezgula_solver_load(words, length, &answer);
        is((solver != NULL) == (answer == DEZGULA_STARTED) && (solver != NULL || answer == DEZGULA_OUT_OF_ORDER), "words are loaded, or are out of order");
        free(words);
        if (solver == NULL) continue;
        (void)!dezgula_solver_work(solver, n % 4 ? 2000 : 20000);
        free(saved(solver, &length));
        dezgula_solver_free(solver);
    }
    uint64_t answer;
    is(dezgula_solver_load(NULL, 100, &answer) == NULL && answer == DEZGULA_OUT_OF_ORDER, "NULL is no words");
}
static void what_it_is_for(void)
{
    const int32_t coefs[6] = {2, -3, 1, 5, -4, -1};
    uint64_t answer;
    size_t length;
    dezgula_solver *solver = solver_of(2, 3, coefs, &answer);
    uint32_t *words = saved(solver, &length);
    dezgula_solver_free(solver);
    solver = dezgula_solver_load(words, length, &answer);
    free(words);
    dezgula_system map = dezgula_solver_system(solver);
    is(map.p == 2 && map.q == 3 && map.coefs_len == 6 && memcmp(map.coefs, coefs, sizeof coefs) == 0, "a solver is for its map");
    dezgula_solver_free(solver);
}
static void memory(void)
{
    const int32_t coefs[8] = {97, 89, 83, 79, -73, -71, -67, -61};
    uint64_t answer;
    dezgula_solver *solver = solver_of(1, 8, coefs, &answer), *other = finish(solver_of(1, 8, coefs, &answer), 0, false);
    dezgula_solver_limit(solver, 100000);
    do answer = dezgula_solver_work(solver, 0);
    while (answer == DEZGULA_PAUSED);
    is(answer == DEZGULA_ENGINE_FULL && dezgula_solver_work(solver, 0) == DEZGULA_ENGINE_FULL, "a limit of memory");
    dezgula_solver_limit(solver, SIZE_MAX);
    solver = finish(solver, 0, false);
    same_lists(solver, other, 8);
    dezgula_solver_free(solver), dezgula_solver_free(other);
}

int main(void)
{
    refused_maps();
    largest_map();
    combinations();
    pauses();
    reformulations();
    as_it_is();
    too_large();
    groups();
    refused_lists();
    wanted();
    refused_sides();
    damaged_words();
    what_it_is_for();
    memory();
    puts("the solver: refused maps, combinations, pauses, reformulations, saved and loaded, lists handed over, right sides, damaged words, memory");
    return 0;
}
