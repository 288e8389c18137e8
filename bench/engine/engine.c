/* The calls of the engine in C: one stage an equation, its rows by rising degree. See engine.h, and dezgula_engine.h for what each call promises.
 *
 * A turn is defined over the rows alone. What answers "is the sum reduced" sooner than the scan over all rows (marks, droppers, hash) only ever says yes, and
 * each yes has a row that reduces the sum. */
#include "engine.h"

#include <stdbool.h>
#include <string.h>

enum { MOST = 32, DROPPERS = 512, SLOT_BITS = 16, SLOTS = 1 << SLOT_BITS, CHUNK = 8, AHEAD = 32 };
enum { COMPLETE = 0, EQUATIONS = 1, UNKNOWNS = 2, COUNT = 3, SHORT = 4, BOUND = 5, ORDER = 6, COEFFICIENT = 7, LOW = 8, COMPONENT = 12, STEPS = 14 };
enum { RIGHT = 15, FULL = 31, EQUATION_LEFT = 32, FRESH = 33, OPERATION = 34, SIDE = 35, STARTED = 100, PAUSED = 101 };
enum { MAP_LIMIT = 10000, LIMIT = 1000000, MOST_ROWS = 1000000000 };
#define STEP_LIMIT UINT64_C(1000000000000)
#define GUARD UINT64_C(0x8888888888888888)
#define NO_MARK UINT64_MAX
#define NO_MOTHER UINT32_MAX
#define NO_DEGREE UINT64_MAX

__extension__ typedef __int128 wide;

/* the words of a record */
enum { DONE, EQUATION, UNKNOWN, BASIS_COUNT, ROWS, NEXT, DEGREE, UPPER, LOWER, STEP_COUNT, CAP, WORDS };

typedef struct {
    size_t q, room, rows;
    uint64_t cap; /* the most that a row may have first; 0 where there is none */
    const int32_t *c;
    uint32_t *table, *degrees, *mothers;
    int64_t *values;
    uint64_t *words, *marks;
    struct {
        uint64_t word[DROPPERS];
        uint32_t place[DROPPERS];
        size_t n, turn;
    } droppers[3]; /* by the sign of a sum: 0, above, below; words past the n-th hold anything */
    uint32_t slots[SLOTS];
} stage;

/* ---- rows */

static int64_t value_of(const int32_t *c, const uint32_t *x, size_t q)
{
    int64_t sum = 0;
    for (size_t j = 0; j < q; j++) sum += (int64_t)c[j] * x[j];
    return sum;
}
static uint32_t degree_of(const uint32_t *x, size_t q)
{
    uint32_t sum = 0;
    for (size_t j = 0; j < q; j++) sum += x[j];
    return sum;
}
/* sixteen fields of four bits: the sum of components j and j + 16, at most 7 */
static uint64_t word_of(const uint32_t *x, size_t q)
{
    uint64_t word = 0;
    uint32_t sums[16] = {0};
    for (size_t j = 0; j < q && j < 16; j++) sums[j] = x[j];
    for (size_t j = 16; j < q; j++) sums[j - 16] += x[j];
    for (size_t j = 0; j < 16; j++) word |= (uint64_t)(sums[j] > 7 ? 7 : sums[j]) << 4 * j;
    return word;
}
/* the word of the sum of two rows */
static uint64_t joined(uint64_t a, uint64_t b)
{
    uint64_t t = a + b, over = t & GUARD;
    return (t & ~GUARD) | (over - (over >> 3));
}
/* no field is above that of the word that `guarded` has with its guard bits set */
static bool fits(uint64_t word, uint64_t guarded) { return ((guarded - word) & GUARD) == GUARD; }
static bool below(const uint32_t *x, const uint32_t *y, size_t q)
{
    uint32_t over = 0;
    for (size_t j = 0; j < q; j++) over |= x[j] > y[j];
    return over == 0;
}
static bool below_sum(const uint32_t *x, const uint32_t *s, const uint32_t *t, size_t q)
{
    uint32_t over = 0;
    for (size_t j = 0; j < q; j++) over |= x[j] > s[j] + t[j];
    return over == 0;
}
static uint64_t size_of(int64_t v) { return v < 0 ? (uint64_t)-v : (uint64_t)v; }
static bool between(int64_t v, int64_t sum) { return sum < 0 ? sum <= v && v <= 0 : 0 <= v && v <= sum; }

/* ---- is a sum reduced */

typedef struct {
    const uint32_t *s, *t;
    uint64_t word;
    int64_t value;
    unsigned sign;
} pair;

static bool reduces(const stage *g, const pair *z, size_t i) { return between(g->values[i], z->value) && below_sum(g->table + i * g->q, z->s, z->t, g->q); }

/* whether one of a chunk of words may be below: no branch for each */
static bool some_fit(const uint64_t *words, uint64_t guarded)
{
    bool any = false;
    for (size_t k = 0; k < CHUNK; k++) any |= fits(words[k], guarded);
    return any;
}
/* a row that dropped a sum lately drops this one, and moves half the way ahead; past the first ones, chunks are looked at as a whole */
static bool dropped(stage *g, const pair *z)
{
    const uint64_t guarded = z->word | GUARD;
    uint64_t *word = g->droppers[z->sign].word;
    uint32_t *place = g->droppers[z->sign].place;
    for (size_t i = 0, n = g->droppers[z->sign].n; i < n; i++) {
        if (i >= AHEAD && i % CHUNK == 0 && !some_fit(word + i, guarded)) {
            i += CHUNK - 1;
            continue;
        }
        const size_t at = place[i], to = i / 2;
        if (!fits(word[i], guarded) || !reduces(g, z, at)) continue;
        uint64_t w = word[i];
        word[i] = word[to], word[to] = w;
        place[i] = place[to], place[to] = (uint32_t)at;
        return true;
    }
    return false;
}
/* a new one comes last, and where there is no more room in the second half in turn: there it does not push out the one before it */
static void remember(stage *g, unsigned sign, size_t i)
{
    size_t at = g->droppers[sign].n;
    if (at < DROPPERS) g->droppers[sign].n++;
    else at = DROPPERS / 2 + g->droppers[sign].turn++ % (DROPPERS / 2);
    g->droppers[sign].word[at] = g->words[i];
    g->droppers[sign].place[at] = (uint32_t)i;
}
static size_t slot(uint64_t word, int64_t value)
{
    return (size_t)((word * UINT64_C(0x9E3779B97F4A7C15) ^ (uint64_t)value * UINT64_C(0xC2B2AE3D27D4EB4F)) >> (64 - SLOT_BITS));
}
/* the last row with that hash: most often the same sum, found before */
static bool known(const stage *g, const pair *z)
{
    size_t i = g->slots[slot(z->word, z->value)];
    return i < g->rows && g->words[i] == z->word && reduces(g, z, i);
}
/* only this says no; chunks have no branch for each word */
static bool scanned(stage *g, const pair *z)
{
    const uint64_t guarded = z->word | GUARD, *words = g->words;
    const size_t n = g->rows;
    for (size_t i = 0, end; i < n; i = end) {
        bool any = n - i < CHUNK;
        end = any ? n : i + CHUNK;
        if (!any) any = some_fit(words + i, guarded);
        for (size_t k = i; any && k < end; k++) {
            if (!fits(words[k], guarded) || !reduces(g, z, k)) continue;
            remember(g, z->sign, k);
            return true;
        }
    }
    return false;
}

/* ---- a row more: 0, or the refusal */

static void put(stage *g, uint64_t degree, int64_t value, uint64_t word, uint64_t mark, uint32_t mother)
{
    g->values[g->rows] = value;
    g->words[g->rows] = word;
    g->degrees[g->rows] = (uint32_t)degree;
    g->marks[g->rows] = mark;
    g->mothers[g->rows] = mother;
    g->slots[slot(word, value)] = (uint32_t)g->rows;
    g->rows++;
}
static uint64_t add_row(stage *g, const uint32_t *x, uint64_t degree)
{
    if (g->rows == g->room) return FULL;
    memcpy(g->table + g->rows * g->q, x, g->q * sizeof *x);
    put(g, degree, value_of(g->c, x, g->q), word_of(x, g->q), NO_MARK, NO_MOTHER);
    return 0;
}
static uint64_t add_sum(stage *g, size_t h, size_t k, uint64_t degree, const pair *z)
{
    uint32_t over = 0;
    for (size_t j = 0; j < g->q; j++) over |= z->s[j] + z->t[j] > LIMIT;
    if (over != 0) return COMPONENT;
    if (g->rows == g->room) return FULL;
    uint32_t *to = g->table + g->rows * g->q;
    for (size_t j = 0; j < g->q; j++) to[j] = z->s[j] + z->t[j];
    if (z->value == 0) put(g, degree, 0, z->word, NO_MARK, NO_MOTHER);
    else if (z->value > 0) put(g, degree, z->value, z->word, size_of(g->values[h]), (uint32_t)k);
    else put(g, degree, z->value, z->word, size_of(g->values[k]), (uint32_t)h);
    return 0;
}
static uint64_t look(stage *g, size_t h, size_t k, uint64_t degree)
{
    pair z = {g->table + h * g->q, g->table + k * g->q, joined(g->words[h], g->words[k]), g->values[h] + g->values[k], 0};
    if (g->cap > 0 && (uint64_t)z.s[0] + z.t[0] > g->cap) return 0;
    z.sign = z.value == 0 ? 0 : z.value > 0 ? 1 : 2;
    if (dropped(g, &z) || known(g, &z) || scanned(g, &z)) return 0;
    return add_sum(g, h, k, degree, &z);
}

/* ---- turns: COMPLETE where there are no more of a kind, PAUSED where the budget is used up, or the refusal */

typedef struct {
    uint32_t *basis, *sizes;
    uint64_t *record;
    uint64_t budget;
    size_t room;
} walk;

static uint64_t stop(const walk *w) { return w->budget == 0 ? PAUSED : w->record[STEP_COUNT] == STEP_LIMIT ? STEPS : 0; }
static void turned(const stage *g, walk *w)
{
    w->record[ROWS] = g->rows;
    w->record[STEP_COUNT]++;
    w->budget--;
}
static uint64_t rows_of_degree(stage *g, walk *w)
{
    uint64_t *r = w->record, answer = 0;
    for (size_t i = r[NEXT]; i < r[BASIS_COUNT]; i++) {
        if (w->sizes[i] != r[DEGREE]) continue;
        answer = stop(w);
        if (answer == 0) answer = add_row(g, w->basis + i * g->q, r[DEGREE]);
        if (answer != 0) return answer;
        r[NEXT] = i + 1;
        turned(g, w);
    }
    return COMPLETE;
}
/* row h with rows first .. past - 1 of the other degree; the record is written when the row is done with, or the call stops */
static uint64_t pairs_of_row(stage *g, walk *w, size_t h, size_t first, size_t past)
{
    uint64_t *r = w->record, answer = COMPLETE;
    const uint64_t up = (uint64_t)g->values[h], mark = g->marks[h], most = STEP_LIMIT - r[STEP_COUNT];
    const uint64_t all = w->budget < most ? w->budget : most;
    uint64_t left = all;
    for (size_t k = first; k < past; k++) {
        if (g->values[k] >= 0) continue;
        if (left == 0) answer = w->budget == all ? PAUSED : STEPS;
        else if ((uint64_t)-g->values[k] < mark && up < g->marks[k]) answer = look(g, h, k, r[DEGREE]);
        if (answer != COMPLETE) break;
        left--;
        r[LOWER] = k + 1;
    }
    if (left < all) r[UPPER] = h;
    r[ROWS] = g->rows;
    r[STEP_COUNT] += all - left;
    w->budget -= all - left;
    return answer;
}
static uint64_t pairs_of_degree(stage *g, walk *w)
{
    uint64_t *r = w->record, answer = COMPLETE, last = NO_DEGREE;
    const size_t rows = g->rows; /* rows of this degree are in no pair of it */
    size_t past = rows, first = rows;
    for (size_t h = r[UPPER], from = r[LOWER]; answer == COMPLETE && h < rows && g->degrees[h] < r[DEGREE]; h++, from = 0) {
        if (g->values[h] <= 0) continue;
        const uint64_t other = r[DEGREE] - g->degrees[h];
        if (other != last) {
            while (past > 0 && g->degrees[past - 1] > other) past--;
            for (first = past; first > 0 && g->degrees[first - 1] == other;) first--;
            last = other;
        }
        answer = pairs_of_row(g, w, h, from > first ? from : first, past);
    }
    return answer;
}
/* the least degree above the present one of a row of the basis or of a pair */
static uint64_t next_degree(const stage *g, const walk *w)
{
    const uint64_t degree = w->record[DEGREE];
    uint64_t least = NO_DEGREE;
    for (size_t i = 0; i < w->record[BASIS_COUNT]; i++)
        if (w->sizes[i] > degree && w->sizes[i] < least) least = w->sizes[i];
    for (size_t h = 0, past = g->rows, low = g->rows; h < g->rows; h++) {
        if (g->values[h] <= 0) continue;
        /* low: the first row of a value below 0 from which on the degrees add up to more than the present one */
        for (; past > 0 && (uint64_t)g->degrees[h] + g->degrees[past - 1] > degree; past--)
            if (g->values[past - 1] < 0) low = past - 1;
        if (low < g->rows && (uint64_t)g->degrees[h] + g->degrees[low] < least) least = (uint64_t)g->degrees[h] + g->degrees[low];
    }
    return least;
}
static bool stays(const stage *g, size_t i, size_t f) { return f < g->q ? g->values[i] >= 0 : g->values[i] == 0; }
static uint64_t end_stage(const stage *g, walk *w)
{
    uint64_t *r = w->record;
    const size_t q = g->q, f = r[UNKNOWN];
    size_t many = 0;
    for (size_t i = 0; i < g->rows; i++) {
        if (f < q && g->values[i] > LIMIT) return COMPONENT;
        many += stays(g, i, f);
    }
    if (many > w->room) return FULL;
    many = 0;
    for (size_t i = 0; i < g->rows; i++) {
        if (!stays(g, i, f)) continue;
        memcpy(w->basis + many * q, g->table + i * q, q * sizeof *w->basis);
        if (f < q) w->basis[many * q + f] = (uint32_t)g->values[i];
        many++;
    }
    r[DONE] |= UINT64_C(1) << r[EQUATION];
    r[BASIS_COUNT] = many;
    return COMPLETE;
}

/* ---- what is lent */

typedef struct {
    size_t p, q, most, room; /* room in the basis and in the table */
    int32_t *equations;
    uint32_t *basis, *sizes, *table, *degrees, *mothers;
    int64_t *values;
    uint64_t *words, *marks, *record;
} lent;

static size_t least(size_t a, size_t b) { return a < b ? a : b; }
static bool small(const uint32_t *x, size_t n)
{
    uint32_t over = 0;
    for (size_t i = 0; i < n; i++) over |= x[i] > LIMIT;
    return over == 0;
}
/* no degree is 0, or below the one before, or above the present one */
static bool rising(const lent *l)
{
    uint32_t last = 1;
    for (size_t i = 0; i < l->record[ROWS]; i++) {
        uint32_t degree = degree_of(l->table + i * l->q, l->q);
        if (degree < last || degree > l->record[DEGREE]) return false;
        last = degree;
    }
    return true;
}
/* no row of the basis is all zero */
static bool above_zero(const lent *l)
{
    for (size_t i = 0; i < l->record[BASIS_COUNT]; i++) {
        uint32_t any = 0;
        for (size_t j = 0; j < l->q; j++) any |= l->basis[i * l->q + j];
        if (any == 0) return false;
    }
    return true;
}
static bool in_order(const lent *l)
{
    const uint64_t *r = l->record;
    if (r[BASIS_COUNT] > l->most || r[ROWS] > l->room || r[STEP_COUNT] > STEP_LIMIT || r[DONE] >> l->p != 0 || r[EQUATION] > l->p) return false;
    if (r[EQUATION] < l->p && r[DONE] >> r[EQUATION] & 1) return false;
    for (size_t i = 0; i < l->p * l->q; i++)
        if (l->equations[i] < -LIMIT || l->equations[i] > LIMIT) return false;
    return small(l->basis, r[BASIS_COUNT] * l->q) && above_zero(l) && small(l->table, r[ROWS] * l->q) && rising(l);
}
static uint64_t checked_size(size_t p, size_t q) { return p < 1 || p > MOST ? EQUATIONS : q < 1 || q > MOST ? UNKNOWNS : 0; }

uint64_t twin_engine_start(size_t p, size_t q, const int32_t *coefs, size_t coefs_len, int32_t *equations, size_t equations_len, uint32_t *basis,
                           size_t basis_len, uint32_t *sizes, size_t sizes_len, uint64_t *record, size_t record_len)
{
    (void)sizes;
    uint64_t refused = checked_size(p, q);
    if (refused) return refused;
    if (coefs_len != p * q) return COUNT;
    if (equations_len < p * q || basis_len / q < q || sizes_len < q) return SHORT;
    if (record_len != WORDS || record[DONE] > UINT32_MAX) return ORDER;
    for (size_t i = 0; i < p * q; i++)
        if (coefs[i] < -MAP_LIMIT || coefs[i] > MAP_LIMIT) return COEFFICIENT + 256 * (uint64_t)(i + 1);
    memcpy(equations, coefs, p * q * sizeof *coefs);
    memset(basis, 0, q * q * sizeof *basis);
    for (size_t i = 0; i < q; i++) basis[i * q + i] = 1;
    memset(record, 0, WORDS * sizeof *record);
    record[EQUATION] = p, record[UNKNOWN] = q, record[BASIS_COUNT] = q;
    return STARTED;
}

/* the first column of an equation: what the bound makes of it, less its right side */
static int64_t column(const int32_t *c, size_t q, int32_t right, const uint32_t *lower) { return value_of(c, lower, q) - right; }
/* 7, 8, 15 and 35 */
static uint64_t checked_numbers(size_t p, size_t q, const int32_t *coefs, const int32_t *rights, const uint32_t *lower)
{
    for (size_t i = 0; i < p * q; i++)
        if (coefs[i] < -MAP_LIMIT || coefs[i] > MAP_LIMIT) return COEFFICIENT + 256 * (uint64_t)(i + 1);
    for (size_t j = 0; j < q; j++)
        if (lower[j] > LIMIT) return LOW;
    for (size_t i = 0; i < p; i++)
        if (rights[i] < -MAP_LIMIT || rights[i] > MAP_LIMIT) return RIGHT;
    for (size_t i = 0; i < p; i++) {
        int64_t v = column(coefs + i * q, q, rights[i], lower);
        if (v < -LIMIT || v > LIMIT) return SIDE + 256 * (uint64_t)(i + 1);
    }
    return 0;
}
uint64_t twin_engine_start_sides(size_t p, size_t q, const int32_t *coefs, size_t coefs_len, const int32_t *rights, size_t rights_len, const uint32_t *lower,
                                 size_t lower_len, int32_t *equations, size_t equations_len, uint32_t *basis, size_t basis_len, uint32_t *sizes,
                                 size_t sizes_len, uint64_t *record, size_t record_len)
{
    (void)sizes;
    uint64_t refused = checked_size(p, q);
    if (refused) return refused;
    if (q == MOST) return UNKNOWNS;
    if (coefs_len != p * q || rights_len != p) return COUNT;
    const size_t wide = q + 1;
    if (equations_len < p * wide || basis_len / wide < wide || sizes_len < wide) return SHORT;
    if (lower_len != q) return BOUND;
    if (record_len != WORDS || record[DONE] > UINT32_MAX) return ORDER;
    refused = checked_numbers(p, q, coefs, rights, lower);
    if (refused) return refused;
    for (size_t i = 0; i < p; i++) {
        equations[i * wide] = (int32_t)column(coefs + i * q, q, rights[i], lower);
        memcpy(equations + i * wide + 1, coefs + i * q, q * sizeof *coefs);
    }
    memset(basis, 0, wide * wide * sizeof *basis);
    for (size_t i = 0; i < wide; i++) basis[i * wide + i] = 1;
    memset(record, 0, WORDS * sizeof *record);
    record[EQUATION] = p, record[UNKNOWN] = wide, record[BASIS_COUNT] = wide, record[CAP] = 1;
    return STARTED;
}

static bool is_list(size_t q, size_t n, const uint32_t *rows, size_t rows_len)
{
    if (rows_len != n * q) return false;
    for (size_t i = 0; i < n; i++) {
        uint32_t any = 0;
        for (size_t j = 0; j < q; j++) any |= rows[i * q + j];
        if (any == 0) return false;
    }
    return small(rows, rows_len);
}

uint64_t twin_engine_start_from(size_t p, size_t q, const int32_t *coefs, size_t coefs_len, size_t n, const uint32_t *rows, size_t rows_len,
                                int32_t *equations, size_t equations_len, uint32_t *basis, size_t basis_len, uint32_t *sizes, size_t sizes_len,
                                uint64_t *record, size_t record_len)
{
    (void)sizes;
    uint64_t refused = checked_size(p, q);
    if (refused) return refused;
    if (coefs_len != p * q) return COUNT;
    const size_t most = least(least(basis_len / q, sizes_len), MOST_ROWS);
    if (equations_len < p * q || most < q || most < n) return SHORT;
    if (record_len != WORDS || record[DONE] > UINT32_MAX || !is_list(q, n, rows, rows_len)) return ORDER;
    for (size_t i = 0; i < p * q; i++)
        if (coefs[i] < -MAP_LIMIT || coefs[i] > MAP_LIMIT) return COEFFICIENT + 256 * (uint64_t)(i + 1);
    memcpy(equations, coefs, p * q * sizeof *coefs);
    memcpy(basis, rows, rows_len * sizeof *rows);
    memset(record, 0, WORDS * sizeof *record);
    record[EQUATION] = p, record[UNKNOWN] = q, record[BASIS_COUNT] = n;
    return STARTED;
}

#define LENT \
    size_t p, size_t q, int32_t *equations, size_t equations_len, uint32_t *basis, size_t basis_len, uint32_t *sizes, size_t sizes_len, uint32_t *table, \
        size_t table_len, int64_t *values, size_t values_len, uint64_t *words, size_t words_len, uint32_t *degrees, size_t degrees_len, uint64_t *marks, \
        size_t marks_len, uint32_t *mothers, size_t mothers_len, uint64_t *record, size_t record_len

/* what every call on a run begins with: the checks, in their order, and what is lent */
#define CHECKED(l) \
    uint64_t refused = checked_size(p, q); \
    if (refused) return refused; \
    const lent l = {p, q, least(least(basis_len / q, sizes_len), MOST_ROWS), \
                    least(least(least(least(table_len / q, values_len), least(words_len, degrees_len)), least(marks_len, mothers_len)), MOST_ROWS), \
                    equations, basis, sizes, table, degrees, mothers, values, words, marks, record}; \
    if (equations_len < p * q || l.most < q) return SHORT; \
    if (record_len != WORDS || !in_order(&l)) return ORDER

static bool is_left(const lent *l, size_t e) { return l->record[EQUATION] == l->p && e < l->p && !(l->record[DONE] >> e & 1); }
static void begin(uint64_t *r, size_t e, size_t f)
{
    r[EQUATION] = e, r[UNKNOWN] = f;
    r[ROWS] = r[NEXT] = r[DEGREE] = r[UPPER] = r[LOWER] = 0;
}

uint64_t twin_engine_combine(LENT, size_t r, int32_t u, size_t s, int32_t t)
{
    CHECKED(l);
    if (!is_left(&l, r) || s >= p) return EQUATION_LEFT;
    if (u == 0 || (r == s && t != 0)) return OPERATION;
    int32_t sums[MOST];
    for (size_t j = 0; j < q; j++) {
        wide sum = (wide)u * equations[r * q + j] + (wide)t * equations[s * q + j];
        if (sum < -LIMIT || sum > LIMIT) return OPERATION;
        sums[j] = (int32_t)sum;
    }
    memcpy(equations + r * q, sums, q * sizeof *sums);
    return STARTED;
}

/* of the basis one row has the unknown f, and only rows of degree 1 */
static bool is_alone(const lent *l, size_t f)
{
    bool has = false;
    for (size_t i = 0; i < l->record[BASIS_COUNT]; i++) {
        if (l->basis[i * l->q + f] == 0) continue;
        if (degree_of(l->basis + i * l->q, l->q) != 1) return false;
        has = true;
    }
    return has;
}
static bool is_fresh(const lent *l, size_t e, size_t f)
{
    if ((l->record[CAP] > 0 && f == 0) || f >= l->q || l->equations[e * l->q + f] != -1) return false;
    for (size_t i = 0; i < l->p; i++)
        if (l->record[DONE] >> i & 1 && l->equations[i * l->q + f] != 0) return false;
    return is_alone(l, f);
}
uint64_t twin_engine_take(LENT, size_t e, size_t f)
{
    CHECKED(l);
    if (!is_left(&l, e)) return EQUATION_LEFT;
    if (f != q && !is_fresh(&l, e, f)) return FRESH;
    size_t many = 0;
    for (size_t i = 0; f < q && i < record[BASIS_COUNT]; i++)
        if (basis[i * q + f] == 0) memmove(basis + many++ * q, basis + i * q, q * sizeof *basis);
    if (f < q) record[BASIS_COUNT] = many;
    begin(record, e, f);
    return STARTED;
}

/* what is kept beside the rows, written anew */
static void prepare(stage *g, const lent *l)
{
    const size_t q = l->q, rows = l->record[ROWS];
    g->q = q, g->room = l->room, g->rows = rows, g->cap = l->record[CAP], g->c = l->equations + l->record[EQUATION] * q;
    g->table = l->table, g->degrees = l->degrees, g->mothers = l->mothers, g->values = l->values, g->words = l->words, g->marks = l->marks;
    for (size_t i = 0; i < 3; i++) g->droppers[i].n = g->droppers[i].turn = 0;
    memset(g->slots, 0xff, sizeof g->slots);
    for (size_t i = 0; i < l->record[BASIS_COUNT]; i++) l->sizes[i] = degree_of(l->basis + i * q, q);
    for (size_t i = 0; i < rows; i++) {
        const uint32_t *x = g->table + i * q;
        g->values[i] = value_of(g->c, x, q);
        g->words[i] = word_of(x, q);
        g->degrees[i] = degree_of(x, q);
        g->slots[slot(g->words[i], g->values[i])] = (uint32_t)i;
    }
    for (size_t i = 0; i < rows; i++) {
        const size_t m = g->mothers[i];
        g->marks[i] = NO_MARK;
        if (m >= rows) continue;
        const int64_t v = g->values[i], o = g->values[m];
        if (((v > 0 && o < 0) || (v < 0 && o > 0)) && below(g->table + m * q, g->table + i * q, q)) g->marks[i] = size_of(v) + size_of(o);
    }
}
static uint64_t rested(size_t p, const uint64_t *r) { return r[DONE] == (UINT64_C(1) << p) - 1 ? COMPLETE : PAUSED; }

uint64_t twin_engine_resume(LENT, uint64_t budget)
{
    CHECKED(l);
    if (record[EQUATION] == p) return rested(p, record);
    static _Thread_local stage g;
    walk w = {basis, sizes, record, budget, l.most};
    prepare(&g, &l);
    for (;;) {
        uint64_t answer = rows_of_degree(&g, &w);
        if (answer == COMPLETE) answer = pairs_of_degree(&g, &w);
        if (answer == COMPLETE) answer = stop(&w);
        if (answer != 0) return answer;
        uint64_t next = next_degree(&g, &w);
        if (next == NO_DEGREE) break;
        record[DEGREE] = next;
        record[NEXT] = record[UPPER] = record[LOWER] = 0;
        turned(&g, &w);
    }
    refused = end_stage(&g, &w);
    if (refused) return refused;
    record[STEP_COUNT]++;
    begin(record, p, q);
    return rested(p, record);
}
