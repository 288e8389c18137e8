/* Holds the engine's functions against another implementation on drawn calls, word by word: the answer, the equations, the basis, the table and the record.
 *
 *   compare [CALLS [SEED]]     1,000,000 calls if not given
 *
 * The other one is plain.h, the definition as it reads; with -DTWIN it is bench/engine/engine.c, on larger maps. A run that ends is also held against its box:
 * every tuple with components up to 3 decides by itself whether it is a minimal solution. Status 1 at the first difference. */
#include "raw.h"
#ifdef TWIN
#include "engine.h"
#endif
#include "plain.h"

#include <inttypes.h>
#include <stdio.h>
#include <stdlib.h>

enum { ROOM = 400, WIDE = 32 };

/* what is lent to one of the two */
typedef struct {
    size_t p, q, equations_len, basis_len, table_len, beside[6], record_len; /* beside: sizes, values, words, degrees, marks, mothers */
    int32_t equations[WIDE * WIDE];
    uint32_t basis[ROOM * WIDE], table[ROOM * WIDE], sizes[ROOM], degrees[ROOM], mothers[ROOM];
    int64_t values[ROOM];
    uint64_t words[ROOM], marks[ROOM], record[P_WORDS];
} lent;

typedef struct {
    int kind; /* 0 start, 1 combine, 2 take, 3 resume, 4 start from a list, 5 start for right sides and a bound */
    size_t r, s;
    int32_t u, t;
    uint64_t budget;
    int32_t coefs[WIDE * WIDE];
    size_t coefs_len, n, rows_len; /* the n rows handed over are in `handed`, or the bound of rows_len numbers */
    int32_t rights[WIDE + 1];
    size_t rights_len;
} call;

static uint32_t handed[ROOM * WIDE];

static uint64_t seed, calls, boxes, ended, answers[256], lists[256], wanted[256];
static uint64_t draw(uint64_t n)
{
    seed = seed * UINT64_C(6364136223846793005) + UINT64_C(1442695040888963407);
    return (seed >> 33) % n;
}

/* ---- one call on both */

#define LENT(w) \
    (w)->p, (w)->q, (w)->equations, (w)->equations_len, (w)->basis, (w)->basis_len, (w)->sizes, (w)->beside[0], (w)->table, (w)->table_len, (w)->values, \
        (w)->beside[1], (w)->words, (w)->beside[2], (w)->degrees, (w)->beside[3], (w)->marks, (w)->beside[4], (w)->mothers, (w)->beside[5], (w)->record, \
        (w)->record_len
#define START(w, c) \
    (w)->p, (w)->q, (c)->coefs, (c)->coefs_len, (w)->equations, (w)->equations_len, (w)->basis, (w)->basis_len, (w)->sizes, (w)->beside[0], (w)->record, \
        (w)->record_len

#define FROM(w, c) \
    (w)->p, (w)->q, (c)->coefs, (c)->coefs_len, (c)->n, handed, (c)->rows_len, (w)->equations, (w)->equations_len, (w)->basis, (w)->basis_len, (w)->sizes, \
        (w)->beside[0], (w)->record, (w)->record_len

#define SIDES(w, c) \
    (w)->p, (w)->q, (c)->coefs, (c)->coefs_len, (c)->rights, (c)->rights_len, handed, (c)->rows_len, (w)->equations, (w)->equations_len, (w)->basis, \
        (w)->basis_len, (w)->sizes, (w)->beside[0], (w)->record, (w)->record_len

static uint64_t by_subject(lent *w, const call *c)
{
    switch (c->kind) {
    case 5: return dezgula_raw_engine_start_sides(SIDES(w, c));
    case 4: return dezgula_raw_engine_start_from(FROM(w, c));
    case 0: return dezgula_raw_engine_start(START(w, c));
    case 1: return dezgula_raw_engine_combine(LENT(w), c->r, c->u, c->s, c->t);
    case 2: return dezgula_raw_engine_take(LENT(w), c->r, c->s);
    default: return dezgula_raw_engine_resume(LENT(w), c->budget);
    }
}
#ifdef TWIN
static uint64_t by_other(lent *w, const call *c)
{
    switch (c->kind) {
    case 5: return twin_engine_start_sides(SIDES(w, c));
    case 4: return twin_engine_start_from(FROM(w, c));
    case 0: return twin_engine_start(START(w, c));
    case 1: return twin_engine_combine(LENT(w), c->r, c->u, c->s, c->t);
    case 2: return twin_engine_take(LENT(w), c->r, c->s);
    default: return twin_engine_resume(LENT(w), c->budget);
    }
}
#else
static size_t least(size_t a, size_t b) { return a < b ? a : b; }
static uint64_t by_other(lent *w, const call *c)
{
    const size_t *b = w->beside, wide = w->q + (c->kind == 5), q = wide > 0 ? wide : 1;
    const plain other = {w->p, wide, least(w->basis_len / q, b[0]),
                         least(least(least(w->table_len / q, b[1]), least(b[2], b[3])), least(b[4], b[5])),
                         w->equations_len, w->record_len, w->equations, w->basis, w->table, w->record};
    switch (c->kind) {
    case 5: return plain_start_sides(&other, w->q, c->coefs, c->coefs_len, c->rights, c->rights_len, handed, c->rows_len);
    case 4: return plain_start_from(&other, c->coefs, c->coefs_len, c->n, handed, c->rows_len);
    case 0: return plain_start(&other, c->coefs, c->coefs_len);
    case 1: return plain_combine(&other, c->r, c->u, c->s, c->t);
    case 2: return plain_take(&other, c->r, c->s);
    default: return plain_resume(&other, c->budget);
    }
}
#endif

static lent mine, theirs;

/* makes the call on w and on a copy of it; the two must agree */
static uint64_t both(lent *w, const call *c)
{
    theirs = *w;
    uint64_t answer = by_subject(w, c), other = by_other(&theirs, c);
    bool same = answer == other && memcmp(w->equations, theirs.equations, sizeof w->equations) == 0 && memcmp(w->basis, theirs.basis, sizeof w->basis) == 0
             && memcmp(w->table, theirs.table, sizeof w->table) == 0 && memcmp(w->record, theirs.record, sizeof w->record) == 0;
    calls++;
    (c->kind == 4 ? lists : c->kind == 5 ? wanted : answers)[dezgula_number(answer)]++;
    if (same) return answer;
    fprintf(stderr, "compare: call %" PRIu64 " of kind %d, %zu x %zu: answers %" PRIu64 " and %" PRIu64 ", or other rows\n", calls, c->kind, w->p, w->q, answer,
            other);
    exit(1);
}

/* ---- what is drawn */

static void draw_map(lent *w, call *c)
{
#ifdef TWIN
    const size_t wide = draw(4) == 0 ? WIDE : 8;
#else
    const size_t wide = draw(16) == 0 ? WIDE : 5;
#endif
    w->p = 1 + draw(wide == WIDE ? 6 : 3), w->q = 1 + draw(wide);
    const int most = draw(3) == 0 ? 5 : 2;
    const uint64_t dense = wide == WIDE ? 5 : 1 + draw(2);
    c->kind = 0, c->coefs_len = w->p * w->q;
    for (size_t i = 0; i < c->coefs_len; i++) c->coefs[i] = draw(dense) > 0 ? 0 : (int32_t)draw((uint64_t)(2 * most + 1)) - most;
    size_t room = draw(8) == 0 ? w->q + draw(10) : ROOM;
    w->equations_len = c->coefs_len, w->basis_len = w->table_len = room * w->q, w->record_len = P_WORDS;
    for (int i = 0; i < 6; i++) w->beside[i] = room;
    for (size_t i = 0; i < ROOM; i++) w->mothers[i] = (uint32_t)draw(2 * ROOM), w->words[i] = draw(UINT64_C(1) << 31), w->marks[i] = draw(9);
}
static uint64_t near(uint64_t x)
{
    const uint64_t some[6] = {x + 1, x > 0 ? x - 1 : 0, draw(9), UINT64_MAX, P_STEP_LIMIT, UINT64_C(1) << 32};
    return some[draw(6)];
}
static void damage(lent *w)
{
    static const uint32_t large[6] = {0, 1, 2, P_LIMIT, P_LIMIT + 1, UINT32_MAX};
    static const int32_t coefs[7] = {-1, 0, 1, P_LIMIT, -P_LIMIT, P_LIMIT + 1, -P_LIMIT - 1};
    size_t at = draw(P_WORDS), short_at = draw(6);
    switch (draw(10)) {
    case 0: case 1: case 2: case 3: w->record[at] = near(w->record[at]); break;
    case 4: w->table[draw(8 * w->q)] = large[draw(6)]; break;
    case 5: w->basis[draw(4 * w->q)] = large[draw(6)]; break;
    case 6: w->equations[draw(w->p * w->q)] = coefs[draw(7)]; break;
    case 7: w->beside[short_at] = draw(8); break;
    case 8: w->mothers[draw(ROOM)] = (uint32_t)draw(ROOM); break;
    default: *(draw(4) == 0 ? &w->record_len : draw(3) == 0 ? &w->equations_len : draw(2) == 0 ? &w->basis_len : &w->table_len) -= 1;
    }
}
/* a call that may be out of turn */
static void draw_call(const lent *w, call *c)
{
    static const int32_t times[8] = {0, 1, -1, 2, -3, INT32_MAX, INT32_MIN, 1000000};
    const size_t most = w->p > w->q ? w->p : w->q;
    *c = (call){.kind = 1 + (int)draw(3), .r = draw(w->p + 2), .s = draw(most + 2), .u = times[draw(8)], .t = times[draw(8)], .budget = draw(30)};
}
/* the next equation that is left, with a fresh unknown where there is one and the draw says so */
static void draw_take(const lent *w, call *c)
{
    size_t e = draw(w->p), f = draw(w->q), left = w->q;
    while (w->record[P_DONE] >> e & 1) e = (e + 1) % w->p;
    for (size_t j = 0; j < w->q && left == w->q && draw(8) > 0; j++, f = (f + 1) % w->q) {
        bool fresh = w->equations[e * w->q + f] == -1 && (w->record[P_CAP] == 0 || f > 0);
        for (size_t i = 0; i < w->p; i++) fresh = fresh && (!(w->record[P_DONE] >> i & 1) || w->equations[i * w->q + f] == 0);
        if (fresh) left = f;
    }
    *c = (call){.kind = 2, .r = e, .s = left};
}

/* ---- boxes */

static bool solves(const call *map, const lent *w, const uint32_t *x)
{
    for (size_t i = 0; i < w->p; i++) {
        int64_t sum = 0;
        for (size_t j = 0; j < w->q; j++) sum += (int64_t)map->coefs[i * w->q + j] * x[j];
        if (sum != 0) return false;
    }
    return true;
}
/* whether some solution but 0 and x itself lies at or below x */
static bool has_below(const call *map, const lent *w, const uint32_t *x)
{
    uint32_t y[WIDE] = {0};
    for (;;) {
        size_t j = 0;
        while (j < w->q && y[j] == x[j]) y[j++] = 0;
        if (j == w->q) return false;
        y[j]++;
        if (memcmp(y, x, w->q * sizeof *x) != 0 && solves(map, w, y)) return true;
    }
}
static bool listed(const lent *w, const uint32_t *x)
{
    for (size_t i = 0; i < w->record[P_COUNT]; i++)
        if (memcmp(w->basis + i * w->q, x, w->q * sizeof *x) == 0) return true;
    return false;
}
static void check_box(const call *map, const lent *w)
{
    uint32_t x[WIDE] = {0};
    const uint32_t most = w->q > 4 ? 2 : 3;
    const uint64_t cap = w->record[P_CAP]; /* the box has no tuple past it */
    for (;;) {
        size_t j = 0;
        while (j < w->q && x[j] == most) x[j++] = 0;
        if (j == w->q) break;
        x[j]++;
        if (((cap == 0 || x[0] <= cap) && solves(map, w, x) && !has_below(map, w, x)) == listed(w, x)) continue;
        fprintf(stderr, "compare: a tuple of the box of a %zu x %zu map is listed and not minimal, or minimal and not listed\n", w->p, w->q);
        exit(1);
    }
    boxes++;
}

/* ---- runs */

static void aside(const lent *w)
{
    static lent copy;
    call c;
    copy = *w;
    if (draw(2)) damage(&copy);
    if (draw(4) == 0) damage(&copy);
    draw_call(&copy, &c);
    (void)!both(&copy, &c);
}
/* stages to the end of the map, with calls aside; whether it came to its end */
static bool to_the_end(lent *w)
{
    call c;
    const uint64_t budget = draw(4) == 0 ? 1 : draw(3) == 0 ? 1 + draw(50) : 1000;
    for (size_t turns = 0; turns < 200; turns++) {
        if (draw(3) == 0) aside(w);
        if (w->record[P_EQUATION] < w->p) c = (call){.kind = 3, .budget = budget};
        else if (draw(4) == 0)
            c = (call){.kind = 1, .r = draw(w->p), .s = draw(w->p), .u = draw(2) ? -1 : 1 + (int32_t)draw(2), .t = (int32_t)draw(5) - 2};
        else draw_take(w, &c);
        uint64_t answer = both(w, &c);
        if (answer == DEZGULA_COMPLETE) return true;
        if (answer == DEZGULA_COMPONENT || answer == DEZGULA_ENGINE_FULL) return false;
    }
    return false;
}
/* a start from a list with one fault or none */
static void draw_fault(lent *w, call *c)
{
    static const size_t many[5] = {0, 1, 1000000001, SIZE_MAX / 2 + 1, SIZE_MAX};
    const size_t at = c->rows_len > 0 ? draw(c->rows_len) : 0;
    switch (draw(12)) {
    case 0: w->p = draw(2) ? 0 : 33; break;
    case 1: w->q = draw(2) ? 0 : 33; break;
    case 2: c->coefs_len -= 1; break;
    case 3: w->equations_len -= 1; break;
    case 4: w->beside[0] = draw(c->n + 2); break;
    case 5: w->basis_len = draw(c->rows_len + 2); break;
    case 6: c->n = c->n + many[draw(5)] - draw(2); break;
    case 7: c->rows_len += draw(2) ? 1 : c->rows_len > 0 ? (size_t)-1 : 0; break;
    case 8: handed[at] = draw(2) ? P_LIMIT + 1 : P_LIMIT; break;
    case 9: memset(handed + at / w->q * w->q, 0, w->q * sizeof *handed); break;
    case 10: c->coefs[draw(c->coefs_len)] = draw(2) ? 10001 : -10001; break;
    default: *(draw(2) ? &w->record_len : &w->record[P_DONE]) = draw(2) ? 9 : UINT64_C(1) << 32;
    }
    if (w->record_len > P_WORDS) w->record_len = P_WORDS - 1;
}
/* the list of the map handed over to further equations, which stand behind the map's own where they go to their end */
static void from_list(call *map)
{
    static lent copy;
    static call c, other;
    static uint32_t rows[ROOM * WIDE];
    const size_t p = mine.p, n = mine.record[P_COUNT], rows_len = n * mine.q;
    if (rows_len > ROOM * WIDE - WIDE) return;
    draw_map(&copy, &c);
    copy.q = mine.q, copy.p = 1 + draw(2), c.coefs_len = copy.p * copy.q, copy.equations_len = c.coefs_len;
    copy.basis_len = copy.table_len = ROOM * copy.q;
    for (size_t i = 0; i < c.coefs_len; i++) c.coefs[i] = (int32_t)draw(5) - 2;
    for (int i = 0; i < 6; i++) copy.beside[i] = ROOM;
    c.kind = 4, c.n = n, c.rows_len = rows_len;
    memcpy(copy.record, mine.record, sizeof copy.record);
    memcpy(rows, mine.basis, sizeof rows);
    mine = copy;
    for (int i = 0; i < 4; i++) {
        copy = mine, other = c;
        memcpy(handed, rows, sizeof handed);
        draw_fault(&copy, &other);
        (void)!both(&copy, &other);
    }
    memcpy(handed, rows, sizeof handed);
    if (both(&mine, &c) != DEZGULA_STARTED || !to_the_end(&mine)) return;
    ended++;
    if (p + mine.p > WIDE || mine.q > 5) return;
    memcpy(map->coefs + p * mine.q, c.coefs, c.coefs_len * sizeof *c.coefs);
    const size_t further = mine.p;
    mine.p += p;
    check_box(map, &mine);
    mine.p = further;
}
/* a start for right sides and a bound with one fault or none */
static void draw_misgiven(lent *w, call *c)
{
    static const int32_t far[4] = {10000, 10001, -10000, -10001};
    switch (draw(11)) {
    case 0: w->p = draw(2) ? 0 : 33; break;
    case 1: w->q = draw(3) ? 0 : draw(2) ? 32 : SIZE_MAX; break;
    case 2: c->coefs_len -= 1; break;
    case 3: c->rights_len += draw(2) ? 1 : (size_t)-1; break;
    case 4: w->equations_len -= 1; break;
    case 5: *(draw(2) ? &w->beside[0] : &w->basis_len) = w->q + draw(2); break;
    case 6: c->rows_len += draw(2) ? 1 : (size_t)-1; break;
    case 7: c->coefs[draw(c->coefs_len + 1)] = far[draw(4)]; break;
    case 8: handed[draw(c->rows_len + 1)] = draw(2) ? P_LIMIT : P_LIMIT + 1; break;
    case 9: c->rights[draw(c->rights_len + 1) % (WIDE + 1)] = far[draw(4)]; break;
    default: *(draw(2) ? &w->record_len : &w->record[P_DONE]) = draw(2) ? 9 : UINT64_C(1) << 32;
    }
    if (w->record_len > P_WORDS) w->record_len = P_WORDS - 1;
}
/* a map with right sides, a lower bound or both, to its end */
static void with_sides(void)
{
    static lent copy;
    static call c, other;
    draw_map(&mine, &c);
    if (mine.q == WIDE) return;
    const size_t wide = mine.q + 1, room = draw(8) == 0 ? wide + draw(10) : ROOM;
    c.kind = 5, c.rights_len = mine.p, c.rows_len = mine.q;
    mine.equations_len = mine.p * wide, mine.basis_len = mine.table_len = room * wide;
    for (int i = 0; i < 6; i++) mine.beside[i] = room;
    for (size_t i = 0; i < mine.p; i++) c.rights[i] = draw(2) ? 0 : (int32_t)draw(9) - 4;
    uint32_t lower[WIDE] = {0};
    for (size_t j = 0; draw(2) && j < mine.q; j++) lower[j] = (uint32_t)draw(3);
    for (int i = 0; i < 4; i++) {
        copy = mine, other = c;
        memcpy(handed, lower, sizeof lower);
        draw_misgiven(&copy, &other);
        if (draw(3) == 0 && copy.p == mine.p && copy.q == mine.q) draw_misgiven(&copy, &other);
        (void)!both(&copy, &other);
    }
    memcpy(handed, lower, sizeof lower);
    if (both(&mine, &c) != DEZGULA_STARTED) return;
    mine.q = wide;
    memcpy(c.coefs, mine.equations, sizeof c.coefs);
    if (!to_the_end(&mine)) return;
    ended++;
    if (wide <= 5) check_box(&c, &mine);
}
static void one_run(void)
{
    static call map;
    if (draw(4) == 0) with_sides();
    draw_map(&mine, &map);
    if (both(&mine, &map) != DEZGULA_STARTED || !to_the_end(&mine)) return;
    ended++;
    if (mine.q <= 5) check_box(&map, &mine);
    if (draw(2)) from_list(&map);
}

int main(int argc, char **argv)
{
    const uint64_t many = argc > 1 ? strtoull(argv[1], NULL, 10) : 1000000;
    seed = argc > 2 ? strtoull(argv[2], NULL, 10) : 1;
    while (calls < many) one_run();
    printf("%" PRIu64 " calls, the same; %" PRIu64 " runs ended, %" PRIu64 " as their box; answers", calls, ended, boxes);
    for (int i = 0; i < 256; i++)
        if (answers[i] > 0) printf(" %d: %" PRIu64, i, answers[i]);
    printf("; starts from a list");
    for (int i = 0; i < 256; i++)
        if (lists[i] > 0) printf(" %d: %" PRIu64, i, lists[i]);
    printf("; for right sides and bounds");
    for (int i = 0; i < 256; i++)
        if (wanted[i] > 0) printf(" %d: %" PRIu64, i, wanted[i]);
    puts("");
    return 0;
}
