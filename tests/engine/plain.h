/* The engine's calls as their definition reads, with no table beside the rows and no shortcut: what the fast ones are held against. Their parameters are those
 * of dezgula_engine.h. */
#ifndef DEZGULA_TESTS_PLAIN_H
#define DEZGULA_TESTS_PLAIN_H

#include <stdbool.h>
#include <stddef.h>
#include <stdint.h>
#include <string.h>

typedef struct {
    size_t p, q, most, room, equations_len, record_len;
    int32_t *equations;
    uint32_t *basis, *table;
    uint64_t *record;
} plain;

enum { P_DONE, P_EQUATION, P_FRESH, P_COUNT, P_ROWS, P_TAKEN, P_DEGREE, P_UPPER, P_LOWER, P_STEPS, P_CAP, P_WORDS };
enum { P_LIMIT = 1000000, P_PAUSED = 101, P_STARTED = 100 };
#define P_STEP_LIMIT UINT64_C(1000000000000)

static inline int64_t plain_value(const plain *w, const uint32_t *x)
{
    int64_t sum = 0;
    for (size_t j = 0; j < w->q; j++) sum += (int64_t)w->equations[w->record[P_EQUATION] * w->q + j] * x[j];
    return sum;
}
static inline uint64_t plain_degree(const plain *w, const uint32_t *x)
{
    uint64_t sum = 0;
    for (size_t j = 0; j < w->q; j++) sum += x[j];
    return sum;
}
static inline const uint32_t *plain_row(const plain *w, size_t i) { return w->table + i * w->q; }

/* ---- refusals */

static inline uint64_t plain_size(size_t p, size_t q) { return p < 1 || p > 32 ? 1 : q < 1 || q > 32 ? 2 : 0; }
static inline bool plain_in_order(const plain *w)
{
    const uint64_t *r = w->record;
    if (r[P_COUNT] > w->most || r[P_ROWS] > w->room || r[P_STEPS] > P_STEP_LIMIT || r[P_DONE] >= UINT64_C(1) << w->p || r[P_EQUATION] > w->p) return false;
    if (r[P_EQUATION] < w->p && (r[P_DONE] >> r[P_EQUATION] & 1)) return false;
    for (size_t i = 0; i < w->p * w->q; i++)
        if (w->equations[i] > P_LIMIT || w->equations[i] < -P_LIMIT) return false;
    for (size_t i = 0; i < r[P_COUNT] * w->q; i++)
        if (w->basis[i] > P_LIMIT) return false;
    for (size_t i = 0; i < r[P_COUNT]; i++)
        if (plain_degree(w, w->basis + i * w->q) == 0) return false;
    for (size_t i = 0; i < r[P_ROWS] * w->q; i++)
        if (w->table[i] > P_LIMIT) return false;
    for (size_t i = 0; i < r[P_ROWS]; i++) {
        uint64_t d = plain_degree(w, plain_row(w, i));
        if (d == 0 || d > r[P_DEGREE] || (i > 0 && d < plain_degree(w, plain_row(w, i - 1)))) return false;
    }
    return true;
}
static inline uint64_t plain_standing(const plain *w)
{
    uint64_t refused = plain_size(w->p, w->q);
    if (refused) return refused;
    if (w->equations_len < w->p * w->q || w->most < w->q) return 4;
    return w->record_len != P_WORDS || !plain_in_order(w) ? 6 : 0;
}
static inline bool plain_left(const plain *w, size_t e) { return w->record[P_EQUATION] == w->p && e < w->p && !(w->record[P_DONE] >> e & 1); }

/* ---- turns */

static inline bool plain_reduced(const plain *w, const uint32_t *z)
{
    int64_t v = plain_value(w, z);
    for (size_t i = 0; i < w->record[P_ROWS]; i++) {
        int64_t u = plain_value(w, plain_row(w, i));
        bool under = v < 0 ? v <= u && u <= 0 : 0 <= u && u <= v;
        for (size_t j = 0; j < w->q; j++) under = under && plain_row(w, i)[j] <= z[j];
        if (under) return true;
    }
    return false;
}
static inline uint64_t plain_append(const plain *w, const uint32_t *x)
{
    if (w->record[P_ROWS] == w->room) return 31;
    memcpy(w->table + w->record[P_ROWS]++ * w->q, x, w->q * sizeof *x);
    return 0;
}
static inline bool plain_due(const plain *w, size_t h, size_t k)
{
    return plain_value(w, plain_row(w, h)) > 0 && plain_value(w, plain_row(w, k)) < 0
        && plain_degree(w, plain_row(w, h)) + plain_degree(w, plain_row(w, k)) == w->record[P_DEGREE];
}
/* the next pair of the degree; false where there is none */
static inline bool plain_pair(const plain *w, size_t *h, size_t *k)
{
    const uint64_t *r = w->record;
    for (*h = r[P_UPPER]; *h < r[P_ROWS]; ++*h) {
        if (plain_value(w, plain_row(w, *h)) <= 0) continue;
        for (*k = *h == r[P_UPPER] ? r[P_LOWER] : 0; *k < r[P_ROWS]; ++*k)
            if (plain_due(w, *h, *k)) return true;
    }
    return false;
}
static inline uint64_t plain_look(const plain *w, size_t h, size_t k)
{
    uint32_t z[32];
    bool large = false;
    for (size_t j = 0; j < w->q; j++) z[j] = plain_row(w, h)[j] + plain_row(w, k)[j], large = large || z[j] > P_LIMIT;
    if ((w->record[P_CAP] == 0 || z[0] <= w->record[P_CAP]) && !plain_reduced(w, z)) {
        uint64_t refused = large ? 12 : plain_append(w, z);
        if (refused) return refused;
    }
    w->record[P_UPPER] = h, w->record[P_LOWER] = k + 1;
    return 0;
}
/* 0 where there is none */
static inline uint64_t plain_next(const plain *w)
{
    const uint64_t *r = w->record;
    uint64_t least = 0;
    for (size_t i = 0; i < r[P_COUNT]; i++) {
        uint64_t d = plain_degree(w, w->basis + i * w->q);
        if (d > r[P_DEGREE] && (least == 0 || d < least)) least = d;
    }
    for (size_t h = 0; h < r[P_ROWS]; h++)
        for (size_t k = 0; plain_value(w, plain_row(w, h)) > 0 && k < r[P_ROWS]; k++) {
            uint64_t d = plain_degree(w, plain_row(w, h)) + plain_degree(w, plain_row(w, k));
            if (plain_value(w, plain_row(w, k)) < 0 && d > r[P_DEGREE] && (least == 0 || d < least)) least = d;
        }
    return least;
}
static inline uint64_t plain_rested(const plain *w) { return w->record[P_DONE] == (UINT64_C(1) << w->p) - 1 ? 0 : P_PAUSED; }
static inline uint64_t plain_end(const plain *w)
{
    uint64_t *r = w->record;
    const size_t q = w->q, f = r[P_FRESH];
    size_t many = 0;
    for (size_t i = 0; i < r[P_ROWS]; i++) {
        int64_t v = plain_value(w, plain_row(w, i));
        if (f < q && v > P_LIMIT) return 12;
        many += f < q ? v >= 0 : v == 0;
    }
    if (many > w->most) return 31;
    many = 0;
    for (size_t i = 0; i < r[P_ROWS]; i++) {
        int64_t v = plain_value(w, plain_row(w, i));
        if (f < q ? v < 0 : v != 0) continue;
        memcpy(w->basis + many * q, plain_row(w, i), q * sizeof *w->basis);
        if (f < q) w->basis[many * q + f] = (uint32_t)v;
        many++;
    }
    const uint64_t after[P_WORDS] = {r[P_DONE] | UINT64_C(1) << r[P_EQUATION], w->p, q, many, 0, 0, 0, 0, 0, r[P_STEPS] + 1, r[P_CAP]};
    memcpy(r, after, sizeof after);
    return plain_rested(w);
}
/* one turn: false where it ends the call, with its answer */
static inline bool plain_turn(const plain *w, uint64_t *answer)
{
    uint64_t *r = w->record;
    size_t i = r[P_TAKEN], h, k;
    *answer = 14;
    if (r[P_STEPS] == P_STEP_LIMIT) return false;
    while (i < r[P_COUNT] && plain_degree(w, w->basis + i * w->q) != r[P_DEGREE]) i++;
    if (i < r[P_COUNT]) {
        *answer = plain_append(w, w->basis + i * w->q);
        if (*answer == 0) r[P_TAKEN] = i + 1;
    } else if (plain_pair(w, &h, &k)) {
        *answer = plain_look(w, h, k);
    } else {
        uint64_t next = plain_next(w);
        if (next == 0) return *answer = plain_end(w), false;
        r[P_DEGREE] = next, r[P_TAKEN] = r[P_UPPER] = r[P_LOWER] = 0, *answer = 0;
    }
    if (*answer != 0) return false;
    r[P_STEPS]++;
    return true;
}

/* ---- the calls */

static inline uint64_t plain_start(const plain *w, const int32_t *coefs, size_t coefs_len)
{
    uint64_t refused = plain_size(w->p, w->q);
    if (refused) return refused;
    if (coefs_len != w->p * w->q) return 3;
    if (w->equations_len < coefs_len || w->most < w->q) return 4;
    if (w->record_len != P_WORDS || w->record[P_DONE] > UINT32_MAX) return 6;
    for (size_t i = 0; i < coefs_len; i++)
        if (coefs[i] > 10000 || coefs[i] < -10000) return 7 + 256 * (uint64_t)(i + 1);
    memcpy(w->equations, coefs, coefs_len * sizeof *coefs);
    for (size_t i = 0; i < w->q * w->q; i++) w->basis[i] = i / w->q == i % w->q;
    const uint64_t first[P_WORDS] = {0, w->p, w->q, w->q, 0, 0, 0, 0, 0, 0, 0};
    memcpy(w->record, first, sizeof first);
    return P_STARTED;
}
/* w has the rows' length, q + 1 */
static inline uint64_t plain_start_sides(const plain *w, size_t q, const int32_t *coefs, size_t coefs_len, const int32_t *rights, size_t rights_len,
                                         const uint32_t *lower, size_t lower_len)
{
    uint64_t refused = plain_size(w->p, q);
    if (refused) return refused;
    if (q == 32) return 2;
    if (coefs_len != w->p * q || rights_len != w->p) return 3;
    if (w->equations_len < w->p * (q + 1) || w->most < q + 1) return 4;
    if (lower_len != q) return 5;
    if (w->record_len != P_WORDS || w->record[P_DONE] > UINT32_MAX) return 6;
    for (size_t i = 0; i < coefs_len; i++)
        if (coefs[i] > 10000 || coefs[i] < -10000) return 7 + 256 * (uint64_t)(i + 1);
    for (size_t j = 0; j < q; j++)
        if (lower[j] > P_LIMIT) return 8;
    for (size_t i = 0; i < w->p; i++)
        if (rights[i] > 10000 || rights[i] < -10000) return 15;
    int64_t sides[32];
    for (size_t i = 0; i < w->p; i++) {
        sides[i] = rights[i];
        for (size_t j = 0; j < q; j++) sides[i] -= (int64_t)coefs[i * q + j] * lower[j];
        if (sides[i] > P_LIMIT || sides[i] < -P_LIMIT) return 35 + 256 * (uint64_t)(i + 1);
    }
    for (size_t k = 0; k < w->p * (q + 1); k++) {
        size_t i = k / (q + 1), j = k % (q + 1);
        w->equations[k] = j == 0 ? (int32_t)-sides[i] : coefs[i * q + j - 1];
    }
    for (size_t k = 0; k < (q + 1) * (q + 1); k++) w->basis[k] = k / (q + 1) == k % (q + 1);
    const uint64_t first[P_WORDS] = {0, w->p, q + 1, q + 1, 0, 0, 0, 0, 0, 0, 1};
    memcpy(w->record, first, sizeof first);
    return P_STARTED;
}
static inline bool plain_list(const plain *w, size_t n, const uint32_t *rows, size_t rows_len)
{
    if (rows_len != n * w->q) return false;
    for (size_t i = 0; i < rows_len; i++)
        if (rows[i] > P_LIMIT) return false;
    for (size_t i = 0; i < n; i++)
        if (plain_degree(w, rows + i * w->q) == 0) return false;
    return true;
}
static inline uint64_t plain_start_from(const plain *w, const int32_t *coefs, size_t coefs_len, size_t n, const uint32_t *rows, size_t rows_len)
{
    uint64_t refused = plain_size(w->p, w->q);
    if (refused) return refused;
    if (coefs_len != w->p * w->q) return 3;
    if (w->equations_len < coefs_len || w->most < w->q || w->most < n) return 4;
    if (w->record_len != P_WORDS || w->record[P_DONE] > UINT32_MAX || !plain_list(w, n, rows, rows_len)) return 6;
    for (size_t i = 0; i < coefs_len; i++)
        if (coefs[i] > 10000 || coefs[i] < -10000) return 7 + 256 * (uint64_t)(i + 1);
    memcpy(w->equations, coefs, coefs_len * sizeof *coefs);
    memcpy(w->basis, rows, rows_len * sizeof *rows);
    const uint64_t first[P_WORDS] = {0, w->p, w->q, n, 0, 0, 0, 0, 0, 0, 0};
    memcpy(w->record, first, sizeof first);
    return P_STARTED;
}
static inline uint64_t plain_combine(const plain *w, size_t r, int32_t u, size_t s, int32_t t)
{
    uint64_t refused = plain_standing(w);
    if (refused) return refused;
    if (!plain_left(w, r) || s >= w->p) return 32;
    if (u == 0 || (r == s && t != 0)) return 34;
    int32_t *to = w->equations + r * w->q;
    for (size_t j = 0; j < w->q; j++) {
        __int128 sum = (__int128)u * to[j] + (__int128)t * w->equations[s * w->q + j];
        if (sum > P_LIMIT || sum < -P_LIMIT) return 34;
    }
    for (size_t j = 0; j < w->q; j++) to[j] = (int32_t)((__int128)u * to[j] + (__int128)t * w->equations[s * w->q + j]);
    return P_STARTED;
}
/* of the basis one row has the unknown f, and only rows of degree 1 */
static inline bool plain_alone(const plain *w, size_t f)
{
    bool has = false;
    for (size_t i = 0; i < w->record[P_COUNT]; i++) {
        uint64_t degree = 0;
        for (size_t j = 0; j < w->q; j++) degree += w->basis[i * w->q + j];
        if (w->basis[i * w->q + f] > 0 && degree != 1) return false;
        has = has || w->basis[i * w->q + f] > 0;
    }
    return has;
}
static inline uint64_t plain_take(const plain *w, size_t e, size_t f)
{
    uint64_t refused = plain_standing(w), *r = w->record;
    const size_t q = w->q;
    if (refused) return refused;
    if (!plain_left(w, e)) return 32;
    bool fresh = (r[P_CAP] == 0 || f > 0) && f < q && w->equations[e * q + f] == -1;
    for (size_t i = 0; fresh && i < w->p; i++) fresh = !(r[P_DONE] >> i & 1) || w->equations[i * q + f] == 0;
    if (f != q && !(fresh && plain_alone(w, f))) return 33;
    size_t many = 0;
    for (size_t i = 0; fresh && i < r[P_COUNT]; i++)
        if (w->basis[i * q + f] == 0) memmove(w->basis + many++ * q, w->basis + i * q, q * sizeof *w->basis);
    const uint64_t after[P_WORDS] = {r[P_DONE], e, f, fresh ? many : r[P_COUNT], 0, 0, 0, 0, 0, r[P_STEPS], r[P_CAP]};
    memcpy(r, after, sizeof after);
    return P_STARTED;
}
static inline uint64_t plain_resume(const plain *w, uint64_t budget)
{
    uint64_t answer = plain_standing(w);
    if (answer) return answer;
    if (w->record[P_EQUATION] == w->p) return plain_rested(w);
    for (; budget > 0; budget--)
        if (!plain_turn(w, &answer)) return answer;
    return P_PAUSED;
}

#endif
