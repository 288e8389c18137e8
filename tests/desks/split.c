/* Drawn small maps, loaded as a whole and built desk by desk, split at every equation and into single equations, and tried against every tuple of a box:
 * split [COUNT] [SEED]. Exits with 1 at the first difference. */
#include "dezgula.h"

#include <inttypes.h>
#include <stdbool.h>
#include <stdio.h>
#include <stdlib.h>
#include <string.h>

enum { MOST_P = 4, MOST_Q = 4, ROWS = 4096, BOX = 6 };

typedef struct {
    uint32_t rows[ROWS][MOST_Q];
    size_t count;
} basis;

static uint64_t state;

static int between(int low, int high)
{
    state = state * UINT64_C(6364136223846793005) + UINT64_C(1442695040888963407);
    return low + (int)((state >> 33) % (uint64_t)(high - low + 1));
}

static int by_components(const void *a, const void *b)
{
    return memcmp(a, b, MOST_Q * sizeof(uint32_t));
}

static void wrong(const dezgula_system *m, const char *what)
{
    printf("DIFFERENT: %s, of %zu %zu:", what, m->p, m->q);
    for (size_t i = 0; i < m->coefs_len; i++) printf(" %" PRId32, m->coefs[i]);
    printf("\n");
    exit(1);
}

static void gather(const dezgula_system *m, const dezgula_run *run, basis *into)
{
    memset(into, 0, sizeof *into);
    into->count = run->record.found.count;
    for (size_t k = 0; k < into->count; k++)
        if (dezgula_row(m, run, k + 1, into->rows[k], MOST_Q) != DEZGULA_ROW) wrong(m, "a row that is not there");
    qsort(into->rows, into->count, sizeof *into->rows, by_components);
}

static uint32_t stack[DEZGULA_DESK_STACK_LENGTH(MOST_Q, ROWS)], list[2][ROWS * MOST_Q];

/* The list of the equations from `from` to `to`, from the rows in the other list where there are generators; whether there is one. */
static bool solve(const dezgula_system *m, size_t from, size_t to, const dezgula_list *first, int own, dezgula_run *run)
{
    dezgula_system group = {to - from, m->q, m->coefs + from * m->q, (to - from) * m->q};
    dezgula_run lent = {stack, sizeof stack / sizeof *stack, list[own], sizeof list[own] / sizeof **list, NULL, 0, {0}};
    uint64_t answer = first == NULL ? dezgula_start(&group, &lent) : dezgula_start_desk(&group, first, &lent);
    if (answer == DEZGULA_GENERATORS) return false;
    if (answer != DEZGULA_STARTED) wrong(m, "a start that is refused");
    /* some calls pause, so that a run goes on from what it left */
    do {
        uint64_t budget = (uint64_t)between(0, 50);
        answer = first == NULL ? dezgula_resume(&group, &lent, budget) : dezgula_resume_desk(&group, first, &lent, budget);
    } while (answer == DEZGULA_PAUSED);
    if (answer != DEZGULA_COMPLETE) wrong(m, "a run that is refused");
    *run = lent;
    return true;
}

/* The map desk by desk: an equation is the first of a desk where its bit is set. */
static bool built(const dezgula_system *m, unsigned cuts, basis *into)
{
    dezgula_run run = {0};
    int own = 0;
    size_t from = 0;
    dezgula_list first = {NULL, 0, 0};
    for (size_t to = 1; to <= m->p; to++) {
        if (to < m->p && !(cuts >> to & 1)) continue;
        if (!solve(m, from, to, from == 0 ? NULL : &first, own, &run)) return false;
        first = dezgula_listed(&run);
        own = 1 - own;
        from = to;
    }
    gather(m, &run, into);
    return true;
}

static bool solves(const dezgula_system *m, const uint32_t *x)
{
    for (size_t i = 0; i < m->p; i++) {
        int64_t sum = 0;
        for (size_t j = 0; j < m->q; j++) sum += (int64_t)m->coefs[i * m->q + j] * x[j];
        if (sum != 0) return false;
    }
    return true;
}

/* The next tuple of the box, or false after the last. */
static bool next(uint32_t *x, size_t q, uint32_t most)
{
    for (size_t j = 0; j < q; j++) {
        if (x[j]++ < most) return true;
        x[j] = 0;
    }
    return false;
}

static bool below(const uint32_t *x, const uint32_t *y)
{
    for (size_t j = 0; j < MOST_Q; j++)
        if (x[j] > y[j]) return false;
    return true;
}

/* Every solution of the box has a row at or below it, and every row in the box is one that no other solution of the box lies below. */
static void in_the_box(const dezgula_system *m, const basis *b)
{
    static uint32_t solutions[2401][MOST_Q];
    size_t count = 0;
    uint32_t x[MOST_Q] = {0};
    while (next(x, m->q, BOX))
        if (solves(m, x)) memcpy(solutions[count++], x, sizeof x);
    for (size_t s = 0; s < count; s++) {
        bool covered = false, minimal = true, row = false;
        for (size_t k = 0; k < b->count; k++) {
            covered |= below(b->rows[k], solutions[s]);
            row |= memcmp(b->rows[k], solutions[s], sizeof x) == 0;
        }
        for (size_t t = 0; t < count; t++) minimal &= t == s || !below(solutions[t], solutions[s]);
        if (!covered || row != minimal) wrong(m, "a box that tries every tuple");
    }
}

int main(int words, char **word)
{
    size_t maps = words > 1 ? strtoul(word[1], NULL, 10) : 5000, splits = 0, wide = 0;
    state = words > 2 ? strtoul(word[2], NULL, 10) : 10;
    static basis whole, other;
    for (size_t n = 0; n < maps; n++) {
        int32_t coefs[MOST_P * MOST_Q];
        int size = between(1, 3);
        dezgula_system m = {(size_t)between(2, MOST_P), (size_t)between(1, MOST_Q), coefs, 0};
        m.coefs_len = m.p * m.q;
        for (size_t i = 0; i < m.coefs_len; i++) coefs[i] = between(-size, size);
        if (!built(&m, 0, &whole)) wrong(&m, "the whole map");
        in_the_box(&m, &whole);
        for (unsigned cuts = 2; cuts < 1u << m.p; cuts += 2) {
            if (!built(&m, cuts, &other)) {
                wide++;
                continue;
            }
            splits++;
            if (other.count != whole.count || memcmp(other.rows, whole.rows, whole.count * sizeof *whole.rows) != 0) wrong(&m, "a map desk by desk");
        }
    }
    printf("desks: %zu maps as a whole, against boxes, and split in %zu ways into two, three and four desks: the same rows; %zu ways refused by 25\n",
           maps, splits, wide);
    return 0;
}
