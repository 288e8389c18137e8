/* Replays vectors of calls (model.py) through the engine's functions: replay < VECTORS. Each call gets tables of exactly the lengths given, each in an
 * allocation of its own, so that a sanitizer sees a step past the end; the calls' own space is filled with what can mislead. Status 1 at the first
 * difference. */
#include "raw.h"

#include <inttypes.h>
#include <stdbool.h>
#include <stdio.h>
#include <stdlib.h>
#include <string.h>

typedef struct {
    size_t n;
    uint64_t *x; /* numbers below 0 as their two's complement */
} numbers;

/* the next line, which begins with `word` */
static bool next(const char *word, numbers *to)
{
    char found[16];
    if (scanf("%15s %zu", found, &to->n) != 2) return false;
    if (strcmp(found, word) != 0) {
        fprintf(stderr, "replay: %s where %s is due\n", found, word);
        exit(2);
    }
    to->x = malloc((to->n + 1) * sizeof *to->x);
    if (to->x == NULL) exit(2);
    for (size_t i = 0; i < to->n; i++) {
        char text[32];
        if (scanf("%31s", text) != 1) exit(2);
        to->x[i] = text[0] == '-' ? (uint64_t)strtoll(text, NULL, 10) : strtoull(text, NULL, 10);
    }
    return true;
}

/* a table of n entries, from the numbers or else filled with a byte; aligned and not NULL also where it is empty */
static void *table(size_t n, size_t size, const numbers *from, int fill)
{
    unsigned char *t = malloc(n * size > 0 ? n * size : 1);
    if (t == NULL) exit(2);
    memset(t, fill, n * size);
    for (size_t i = 0; from != NULL && i < n; i++) memcpy(t + i * size, &from->x[i], size); /* little endian */
    return t;
}

enum { EQUATIONS, BASIS, TABLE, MOTHERS, RECORD, BESIDE, LINES };
static const char *const WORDS[LINES] = {"equations", "basis", "table", "mothers", "record", "beside"};

typedef struct {
    numbers call, coefs, lent[LINES], answer, left;
} vector;

static bool read_vector(vector *v)
{
    if (!next("call", &v->call)) return false;
    bool all = next("coefs", &v->coefs);
    for (int i = 0; i < LINES; i++) all = all && next(WORDS[i], &v->lent[i]);
    return all && next("answer", &v->answer) && next("left", &v->left);
}
static void free_vector(vector *v)
{
    free(v->call.x), free(v->coefs.x), free(v->answer.x), free(v->left.x);
    for (int i = 0; i < LINES; i++) free(v->lent[i].x);
}

/* whether n entries of a table are the numbers from *at on */
static bool same(const void *t, size_t n, size_t size, const numbers *left, size_t *at)
{
    bool all = *at + n <= left->n;
    for (size_t i = 0; all && i < n; i++) all = memcmp((const unsigned char *)t + i * size, &left->x[*at + i], size) == 0;
    *at += n;
    return all;
}

static bool replay(const vector *v, int fill)
{
    const numbers *l = v->lent;
    const uint64_t *c = v->call.x, *b = l[BESIDE].x;
    int32_t *coefs = table(v->coefs.n, 4, &v->coefs, 0), *equations = table(l[EQUATIONS].n, 4, &l[EQUATIONS], 0);
    uint32_t *basis = table(l[BASIS].n, 4, &l[BASIS], 0), *rows = table(l[TABLE].n, 4, &l[TABLE], 0), *mothers = table(l[MOTHERS].n, 4, &l[MOTHERS], 0);
    uint64_t *record = table(l[RECORD].n, 8, &l[RECORD], 0);
    uint32_t *sizes = table(b[0], 4, NULL, fill), *degrees = table(b[3], 4, NULL, fill);
    int64_t *values = table(b[1], 8, NULL, fill);
    uint64_t *words = table(b[2], 8, NULL, fill), *marks = table(b[4], 8, NULL, fill), answer;
#define LENT \
    c[1], c[2], equations, l[EQUATIONS].n, basis, l[BASIS].n, sizes, b[0], rows, l[TABLE].n, values, b[1], words, b[2], degrees, b[3], marks, b[4], mothers, \
        l[MOTHERS].n, record, l[RECORD].n
    if (c[0] == 0)
        answer = dezgula_raw_engine_start(c[1], c[2], coefs, v->coefs.n, equations, l[EQUATIONS].n, basis, l[BASIS].n, sizes, b[0], record, l[RECORD].n);
    else if (c[0] == 4)
        answer = dezgula_raw_engine_start_from(c[1], c[2], coefs, v->coefs.n, c[3], rows, l[TABLE].n, equations, l[EQUATIONS].n, basis, l[BASIS].n, sizes, b[0],
                                               record, l[RECORD].n);
    else if (c[0] == 5) {
        const numbers sides = {v->call.n - 3, v->call.x + 3};
        int32_t *rights = table(sides.n, 4, &sides, 0);
        answer = dezgula_raw_engine_start_sides(c[1], c[2], coefs, v->coefs.n, rights, sides.n, rows, l[TABLE].n, equations, l[EQUATIONS].n, basis, l[BASIS].n,
                                                sizes, b[0], record, l[RECORD].n);
        free(rights);
    } else if (c[0] == 1) answer = dezgula_raw_engine_combine(LENT, c[3], (int32_t)c[4], c[5], (int32_t)c[6]);
    else if (c[0] == 2) answer = dezgula_raw_engine_take(LENT, c[3], c[4]);
    else answer = dezgula_raw_engine_resume(LENT, c[3]);
    size_t at = 0;
    bool all = answer == v->answer.x[0] && same(equations, l[EQUATIONS].n, 4, &v->left, &at) && same(basis, l[BASIS].n, 4, &v->left, &at)
            && same(rows, l[TABLE].n, 4, &v->left, &at) && same(record, l[RECORD].n, 8, &v->left, &at) && at == v->left.n;
    if (!all) fprintf(stderr, "answer %" PRIu64 ", in place of %" PRIu64 ", or other rows\n", answer, v->answer.x[0]);
    free(coefs), free(equations), free(basis), free(rows), free(mothers), free(record), free(sizes), free(degrees), free(values), free(words), free(marks);
    return all;
}

int main(void)
{
    static const int FILLS[3] = {0, 0x77, 0xff};
    size_t calls = 0, answers[256] = {0};
    for (vector v; read_vector(&v); free_vector(&v)) {
        for (int i = 0; i < 3; i++)
            if (!replay(&v, FILLS[i])) {
                fprintf(stderr, "replay: call %zu of kind %" PRIu64 " differs from the model\n", calls + 1, v.call.x[0]);
                return 1;
            }
        calls++;
        answers[dezgula_number(v.answer.x[0])]++;
    }
    printf("%zu calls as the model; answers", calls);
    for (int i = 0; i < 256; i++)
        if (answers[i] > 0) printf(" %d: %zu", i, answers[i]);
    puts("");
    return calls > 0 ? 0 : 1;
}
