/* The walk of dezgula.h in plain C, to compare with: the same steps, tables, answers and order of the list.
 *
 * Beside the stack it keeps, for each row, the inner products of the row's image with every column. They tell all that a step asks of an image: it is zero
 * if all of them are, and an unknown may be raised where its product is below zero. Raising an unknown adds its row of the Gram matrix of the columns, and 1
 * to the sum of the row's components. */
#include "baseline.h"
#include "raw.h"

#include <stdbool.h>
#include <string.h>

enum { MOST = DEZGULA_MOST_UNKNOWNS };

typedef struct {
    int64_t gram[MOST][MOST];    /* inner products of the columns */
    int64_t product[MOST][MOST]; /* row k: those of stack row k */
    uint64_t sum[MOST];          /* the sum of the components of stack row k */
} cache;

/* ---- before the walk */

#define PASS UINT64_MAX

static uint64_t check_shape(size_t p, size_t q, size_t coefs_len, size_t stack_len)
{
    if (p < 1 || p > DEZGULA_MOST_EQUATIONS) return DEZGULA_EQUATIONS;
    if (q < 1 || q > MOST) return DEZGULA_UNKNOWNS;
    if (coefs_len != p * q) return DEZGULA_COUNT;
    if (stack_len < DEZGULA_STACK_LENGTH(q)) return DEZGULA_STACK_SHORT;
    return PASS;
}

static uint64_t check_range(const int32_t *coefs, size_t n)
{
    for (size_t i = 0; i < n; i++)
        if (coefs[i] < -DEZGULA_COEFFICIENT_LIMIT || coefs[i] > DEZGULA_COEFFICIENT_LIMIT) return (uint64_t)(i + 1) << 8 | DEZGULA_COEFFICIENT;
    return PASS;
}

static bool in_order(size_t q, const uint32_t *stack, size_t height)
{
    for (size_t k = 0; k < height; k++, stack += q + 1) {
        for (size_t j = 0; j < q; j++)
            if (stack[j] > DEZGULA_COMPONENT_LIMIT) return false;
        if (stack[q] >> q != 0 || (size_t)__builtin_popcount(stack[q]) != k) return false;
    }
    return true;
}

/* The words of a run record. */
enum { HEIGHT, FOUND, STEPS, KIND, SECOND, BEFORE, DEEPEST };

uint64_t baseline_start(size_t p, size_t q, const int32_t *coefs, size_t coefs_len, uint32_t *stack, size_t stack_len, uint32_t *list, size_t list_len,
                        uint64_t *record, size_t record_len)
{
    (void)list, (void)list_len;
    uint64_t refusal = check_shape(p, q, coefs_len, stack_len);
    if (refusal == PASS && record_len != DEZGULA_RECORD_LENGTH) refusal = DEZGULA_OUT_OF_ORDER;
    if (refusal == PASS) refusal = check_range(coefs, coefs_len);
    if (refusal != PASS) return refusal;
    for (size_t k = 0; k < q; k++, stack += q + 1) {
        for (size_t j = 0; j < q; j++) stack[j] = j == k;
        stack[q] = (1u << k) - 1;
    }
    memset(record, 0, DEZGULA_RECORD_LENGTH * sizeof *record);
    record[HEIGHT] = q;
    return DEZGULA_STARTED;
}

/* ---- the walk */

/* Fills the Gram matrix, and the products and sums of the rows that are on the stack; a row is filled to its full width. */
static void fill(cache *c, size_t p, size_t q, const int32_t *coefs, const uint32_t *stack, size_t height)
{
    for (size_t i = 0; i < q; i++) {
        memset(c->gram[i], 0, sizeof c->gram[i]);
        for (size_t e = 0; e < p; e++)
            for (size_t j = 0; j < q; j++) c->gram[i][j] += (int64_t)coefs[e * q + i] * coefs[e * q + j];
    }
    for (size_t k = 0; k < height; k++, stack += q + 1) {
        memset(c->product[k], 0, sizeof c->product[k]);
        c->sum[k] = 0;
        for (size_t i = 0; i < q; i++) {
            c->sum[k] += stack[i];
            if (stack[i] != 0)
                for (size_t j = 0; j < q; j++) c->product[k][j] += (int64_t)stack[i] * c->gram[i][j];
        }
    }
}

/* Four at a time, past q with zeros, which any compiler turns into vector additions. */
static inline void add(int64_t *to, const int64_t *a, const int64_t *b, size_t q)
{
    for (size_t j = 0; j < q; j += 4)
        for (size_t l = j; l < j + 4; l++) to[l] = a[l] + b[l];
}

static inline bool vanishes(const int64_t *product, size_t q)
{
    for (size_t j = 0; j < q; j++)
        if (product[j] != 0) return false;
    return true;
}

/* The unknowns whose product is below zero, as bits. */
static inline uint32_t below_zero(const int64_t *product, size_t q)
{
    uint32_t bits = 0;
    for (size_t j = q; j-- > 0;) bits = bits << 1 | (uint32_t)((uint64_t)product[j] >> 63);
    return bits;
}

static inline bool at_or_below(const uint32_t *row, uint32_t first, const uint32_t *tuple, size_t q)
{
    if (first < row[0]) return false;
    for (size_t j = 1; j < q; j++)
        if (tuple[j] < row[j]) return false;
    return true;
}

/* Whether a listed row is at or below the tuple: the newest rows first, or, where OLDEST_FIRST is defined, the oldest. Most rows end at their first component;
 * out of line, its loops have the registers to themselves. */
static __attribute__((noinline)) bool covered(const uint32_t *list, size_t found, size_t q, const uint32_t *tuple)
{
    const uint32_t *end = list + found * q;
    uint32_t first = tuple[0];
#ifdef OLDEST_FIRST
    for (const uint32_t *row = list; row != end; row += q)
        if (at_or_below(row, first, tuple, q)) return true;
#else
    for (const uint32_t *row = end; row != list;)
        if (at_or_below(row -= q, first, tuple, q)) return true;
#endif
    return false;
}

/* The children of a row: the unknowns that make one, as bits, their number, and whether one would have a component above the limit. */
typedef struct {
    uint32_t made;
    size_t count;
    bool too_large;
} brood;

/* Tries the unknowns `open`. The top row is raised for the comparison, and stands again afterwards. */
static inline brood children(const uint32_t *list, size_t found, size_t q, uint32_t *top, uint32_t open)
{
    brood b = {0, 0, false};
    for (; open != 0; open &= open - 1) {
        unsigned j = (unsigned)__builtin_ctz(open);
        top[j]++;
        if (!covered(list, found, q, top)) {
            b.made |= 1u << j;
            b.count++;
            b.too_large |= top[j] > DEZGULA_COMPONENT_LIMIT;
        }
        top[j]--;
    }
    return b;
}

/* Writes the children from the last, on top, to the first, which takes the parent's own place and so needs no copy. */
static inline void push(cache *c, size_t level, size_t q, uint32_t *top, brood b)
{
    if (b.count == 0) return;
    uint32_t marks = top[q];
    c->sum[level]++;
    for (size_t k = b.count - 1; k > 0; k--) {
        unsigned i = 31 - (unsigned)__builtin_clz(b.made);
        uint32_t *row = top + k * (q + 1);
        b.made ^= 1u << i;
        for (size_t j = 0; j < q; j++) row[j] = top[j];
        row[i]++;
        row[q] = marks | b.made;
        add(c->product[level + k], c->product[level], c->gram[i], q);
        c->sum[level + k] = c->sum[level];
    }
    unsigned i = (unsigned)__builtin_ctz(b.made);
    top[i]++;
    add(c->product[level], c->product[level], c->gram[i], q);
}

static uint64_t walk(cache *c, size_t q, uint32_t *stack, uint32_t *list, size_t list_len, uint64_t *record, uint64_t budget)
{
    size_t h = record[HEIGHT], n = record[FOUND], room = list_len / q;
    uint64_t taken = record[STEPS], deepest = record[DEEPEST], sum = 0, answer;
    for (;; taken++, budget--, deepest = sum > deepest ? sum : deepest) {
        if (h == 0) { answer = DEZGULA_COMPLETE; break; }
        if (budget == 0) { answer = DEZGULA_PAUSED; break; }
        if (taken == DEZGULA_STEP_LIMIT) { answer = DEZGULA_STEPS_AT_LIMIT; break; }
        uint32_t *top = stack + (h - 1) * (q + 1);
        const int64_t *product = c->product[h - 1];
        sum = c->sum[h - 1];
        uint32_t open = below_zero(product, q);
        if (open == 0 && vanishes(product, q)) {
            if (n >= room) { answer = DEZGULA_LIST_FULL; break; }
            memcpy(list + n * q, top, q * sizeof *top);
            n++;
            h--;
            continue;
        }
        brood b = children(list, n, q, top, open & ~top[q]);
        if (b.too_large) { answer = DEZGULA_COMPONENT; break; }
        push(c, h - 1, q, top, b);
        h += b.count - 1;
    }
    record[HEIGHT] = h;
    record[FOUND] = n;
    record[STEPS] = taken;
    record[DEEPEST] = deepest;
    return answer;
}

uint64_t baseline_resume(size_t p, size_t q, const int32_t *coefs, size_t coefs_len, uint32_t *stack, size_t stack_len, uint32_t *list, size_t list_len,
                         uint64_t *record, size_t record_len, uint64_t budget)
{
    uint64_t refusal = check_shape(p, q, coefs_len, stack_len);
    if (refusal != PASS) return refusal;
    if (record_len != DEZGULA_RECORD_LENGTH || record[KIND] != DEZGULA_RUN_PLAIN || record[HEIGHT] > q || record[FOUND] > list_len / q ||
        record[STEPS] > DEZGULA_STEP_LIMIT || record[DEEPEST] > DEZGULA_SUM_LIMIT || !in_order(q, stack, record[HEIGHT]))
        return DEZGULA_OUT_OF_ORDER;
    refusal = check_range(coefs, coefs_len);
    if (refusal != PASS) return refusal;
    cache c;
    fill(&c, p, q, coefs, stack, record[HEIGHT]);
    return walk(&c, q, stack, list, list_len, record, budget);
}
