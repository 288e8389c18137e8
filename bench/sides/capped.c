/* The walk with right sides of dezgula.h in plain C, to compare with: that of ../baseline.c through the system with one unknown more, placed first with the
 * negated right sides as its column, which is never raised past 1; and with two lists, whose rows leave that unknown out. */
#include "../baseline.c"
#include "capped.h"
#include "raw.h"

/* The coefficients of the system with one unknown more. */
static void extend(size_t p, size_t q, const int32_t *coefs, const int32_t *rights, int32_t *wide)
{
    for (size_t i = 0; i < p; i++) {
        wide[i * (q + 1)] = -rights[i];
        memcpy(wide + i * (q + 1) + 1, coefs + i * q, q * sizeof *coefs);
    }
}

static uint64_t check_sides(size_t p, size_t q, size_t coefs_len, size_t rights_len, size_t stack_len)
{
    if (p < 1 || p > DEZGULA_MOST_EQUATIONS) return DEZGULA_EQUATIONS;
    if (q < 1 || q > DEZGULA_MOST_UNKNOWNS_WITH_RIGHTS) return DEZGULA_UNKNOWNS;
    if (coefs_len != p * q || rights_len != p) return DEZGULA_COUNT;
    if (stack_len < DEZGULA_RIGHTS_STACK_LENGTH(q)) return DEZGULA_STACK_SHORT;
    return PASS;
}

static uint64_t check_ranges(const int32_t *coefs, size_t n, const int32_t *rights, size_t p)
{
    uint64_t refusal = check_range(coefs, n);
    if (refusal != PASS) return refusal;
    return check_range(rights, p) == PASS ? PASS : DEZGULA_RIGHT_SIDE;
}

uint64_t capped_start(size_t p, size_t q, const int32_t *coefs, size_t coefs_len, const int32_t *rights, size_t rights_len, uint32_t *stack, size_t stack_len,
                      uint32_t *list, size_t list_len, uint32_t *second, size_t second_len, uint64_t *record, size_t record_len)
{
    (void)second, (void)second_len;
    uint64_t refusal = check_sides(p, q, coefs_len, rights_len, stack_len);
    if (refusal == PASS && record_len != DEZGULA_RECORD_LENGTH) refusal = DEZGULA_OUT_OF_ORDER;
    if (refusal == PASS) refusal = check_ranges(coefs, coefs_len, rights, rights_len);
    if (refusal != PASS) return refusal;
    int32_t wide[DEZGULA_MOST_EQUATIONS * MOST];
    extend(p, q, coefs, rights, wide);
    uint64_t answer = baseline_start(p, q + 1, wide, p * (q + 1), stack, stack_len, list, list_len, record, record_len);
    record[KIND] = DEZGULA_RUN_RIGHTS;
    return answer;
}

/* Tries the unknowns `open` of a tuple: a row at 0 stops it wherever it is at or below, a row at 1 only where the extra unknown is 1. */
static inline brood capped_children(const uint32_t *list, size_t found, const uint32_t *second, size_t found2, size_t q, uint32_t *top, uint32_t open)
{
    brood b = {0, 0, false};
    for (; open != 0; open &= open - 1) {
        unsigned j = (unsigned)__builtin_ctz(open);
        top[j]++;
        if (!covered(list, found, q, top + 1) && !(top[0] == 1 && covered(second, found2, q, top + 1))) {
            b.made |= 1u << j;
            b.count++;
            b.too_large |= top[j] > DEZGULA_COMPONENT_LIMIT;
        }
        top[j]--;
    }
    return b;
}

static uint64_t capped_walk(cache *c, size_t q, uint32_t *stack, uint32_t *list, size_t list_len, uint32_t *second, size_t second_len, uint64_t *record,
                            uint64_t budget)
{
    size_t h = record[HEIGHT], n[2] = {record[FOUND], record[SECOND]}, room[2] = {list_len / q, second_len / q}, w = q + 1;
    uint32_t *lists[2] = {list, second};
    uint64_t taken = record[STEPS], deepest = record[DEEPEST], sum = 0, answer;
    for (;; taken++, budget--, deepest = sum > deepest ? sum : deepest) {
        if (h == 0) { answer = DEZGULA_COMPLETE; break; }
        if (budget == 0) { answer = DEZGULA_PAUSED; break; }
        if (taken == DEZGULA_STEP_LIMIT) { answer = DEZGULA_STEPS_AT_LIMIT; break; }
        uint32_t *top = stack + (h - 1) * (w + 1), at = top[0];
        const int64_t *product = c->product[h - 1];
        sum = c->sum[h - 1];
        uint32_t open = below_zero(product, w);
        if (open == 0 && vanishes(product, w)) {
            if (n[at] >= room[at]) { answer = DEZGULA_LIST_FULL; break; }
            memcpy(lists[at] + n[at] * q, top + 1, q * sizeof *top);
            n[at]++;
            h--;
            continue;
        }
        brood b = capped_children(list, n[0], second, n[1], q, top, open & ~top[w] & ~at);
        if (b.too_large) { answer = DEZGULA_COMPONENT; break; }
        push(c, h - 1, w, top, b);
        h += b.count - 1;
    }
    record[HEIGHT] = h;
    record[FOUND] = n[0];
    record[SECOND] = n[1];
    record[STEPS] = taken;
    record[DEEPEST] = deepest;
    return answer;
}

static bool capped_rows(size_t q, const uint32_t *stack, size_t height)
{
    for (size_t k = 0; k < height; k++)
        if (stack[k * (q + 2)] > 1) return false;
    return in_order(q + 1, stack, height);
}

uint64_t capped_resume(size_t p, size_t q, const int32_t *coefs, size_t coefs_len, const int32_t *rights, size_t rights_len, uint32_t *stack, size_t stack_len,
                       uint32_t *list, size_t list_len, uint32_t *second, size_t second_len, uint64_t *record, size_t record_len, uint64_t budget)
{
    uint64_t refusal = check_sides(p, q, coefs_len, rights_len, stack_len);
    if (refusal != PASS) return refusal;
    if (record_len != DEZGULA_RECORD_LENGTH || record[KIND] != DEZGULA_RUN_RIGHTS || record[HEIGHT] > q + 1 || record[FOUND] > list_len / q ||
        record[SECOND] > second_len / q || record[STEPS] > DEZGULA_STEP_LIMIT || record[DEEPEST] > DEZGULA_SUM_LIMIT || !capped_rows(q, stack, record[HEIGHT]))
        return DEZGULA_OUT_OF_ORDER;
    refusal = check_ranges(coefs, coefs_len, rights, rights_len);
    if (refusal != PASS) return refusal;
    int32_t wide[DEZGULA_MOST_EQUATIONS * MOST];
    extend(p, q, coefs, rights, wide);
    cache c;
    fill(&c, p, q + 1, wide, stack, record[HEIGHT]);
    return capped_walk(&c, q, stack, list, list_len, second, second_len, record, budget);
}
