/* Typed equations: a line with the number of unknowns, then an equation a line, as "2*(x1 + x3) - x2 = 3". Every equation is read by the proved reader; what
 * is here finds the lines, and says why one is refused. Unless --strict is given the first line may be left out: then the highest unknown counts. */
#include <stdlib.h>
#include <string.h>

#include "build_map.h"
#include "dezgula_text.h"
#include "limits.h"
#include "read.h"

/* the most unknowns that the proved reader knows */
enum { KNOWN = DEZGULA_MOST_UNKNOWNS };

static bool is_digit(char c)
{
    return c >= '0' && c <= '9';
}

bool is_typed(const lines *text)
{
    for (size_t i = 0; i < text->len; i++)
        if (text->text[i] == '=' || (text->text[i] == 'x' && is_digit(text->text[i + 1]))) return true;
    return false;
}

/* The highest k of the unknowns xk in the text, or one more than there may be. */
static size_t highest_unknown(const lines *text)
{
    size_t highest = 0;
    for (size_t i = 0; i + 1 < text->len; i++) {
        size_t k = 0;
        if (text->text[i] != 'x') continue;
        for (size_t j = i + 1; is_digit(text->text[j]) && k <= MOST_ACTIVITIES; j++) k = 10 * k + (size_t)(text->text[j] - '0');
        if (k > highest) highest = k;
    }
    return highest;
}

/* The number of unknowns, and at which line the equations begin. */
static bool read_unknowns(const lines *text, bool strict, size_t *q, size_t *first, fault *why)
{
    const line *own = &text->lines[0];
    const char *at = text->text + own->start, *end = at + own->len;
    int32_t x = 0;
    bool counted = read_number(at, end, &x) == end;
    if (!counted && strict) return fault_set(why, 9, "line %zu: the first line has the number of unknowns, and nothing else", own->number);
    *first = counted ? 1 : 0;
    *q = counted && x > 0 ? (size_t)x : counted ? 0 : highest_unknown(text);
    if (*q >= 1 && *q <= MOST_ACTIVITIES) return true;
    if (counted) return fault_set(why, 2, "line %zu: %d unknowns; 1 to %d", own->number, (int)x, MOST_ACTIVITIES);
    if (*q == 0) return fault_set(why, 2, "line %zu: no unknown, as x1; there are 1 to %d", own->number, MOST_ACTIVITIES);
    return fault_set(why, 2, "an unknown above x%d; there are x1 to x%d", MOST_ACTIVITIES, MOST_ACTIVITIES);
}

/* Refuses an equation outside the grammar: what stands up to the place, and what does not go on. */
static bool off_grammar(const line *own, const char *at, size_t place, size_t q, fault *why)
{
    size_t shown = place > 40 ? 40 : place - 1, from = place - 1 - shown;
    if (place > own->len)
        return fault_set(why, 16, "line %zu: the equation is not whole; after \"%.*s\" something is missing", own->number, (int)shown, at + from);
    unsigned char next = (unsigned char)at[place - 1];
    if (next < 0x20 || next > 0x7e)
        return fault_set(why, 16, "line %zu: after \"%.*s\" stands a character that no equation has", own->number, (int)shown, at + from);
    size_t before = place - 1;
    while (before > 0 && at[before - 1] == ' ') before--;
    bool product = before > 0 && is_digit(at[before - 1]) && (next == 'x' || next == '(');
    return fault_set(why, 16, "line %zu: after \"%.*s\" no equation in x1 to x%zu goes on with \"%c\"%s", own->number, (int)shown, at + from, q, next,
                     product ? "; a product has a *, as in 2*x1" : "");
}

/* Says a refusal of the proved reader for one equation. */
static bool refuse_equation(const line *own, const char *at, uint64_t answer, size_t q, fault *why)
{
    size_t place = (size_t)dezgula_place(answer);
    switch (dezgula_number(answer)) {
    case DEZGULA_GRAMMAR: return off_grammar(own, at, place, q, why);
    case DEZGULA_COEFFICIENT:
        return fault_set(why, 7, "line %zu: x%zu comes to a coefficient outside -%d to %d", own->number, place, MOST_COEFFICIENT, MOST_COEFFICIENT);
    default: return fault_set(why, dezgula_number(answer), "line %zu: %s", own->number, dezgula_sentence(answer));
    }
}

/* ---- more unknowns than the proved reader knows: it reads the equation for sixteen of them at a time, with 0 in the place of the others. An equation is
 * linear, so that the coefficients of the sixteen and the right side are the same. The 0 stands in brackets, which count. */

typedef struct {
    char *text;
    size_t *from; /* where in the line each byte stands for, from 0 */
    size_t len;
} renamed;

/* The k of the unknown xk that a text begins with, and its bytes; 0, and one byte, where it begins with none. */
static size_t unknown_at(const char *at, const char *end, size_t *len)
{
    size_t k = 0;
    for (*len = 1; *at == 'x' && at + *len < end && is_digit(at[*len]) && *len < 4; (*len)++) k = 10 * k + (size_t)(at[*len] - '0');
    if (k == 0 || at[1] == '0') *len = 1;
    return *len == 1 ? 0 : k;
}

/* Names the unknowns after `base` x1, x2 .., and those that there are not x99, which is none of sixteen. */
static void rename_unknowns(const char *at, size_t len, size_t base, size_t q, renamed *out)
{
    size_t own;
    out->len = 0;
    for (size_t i = 0; i < len; i += own) {
        char word[8] = {at[i], 0};
        size_t k = unknown_at(at + i, at + len, &own);
        if (k > q) strcpy(word, "x99");
        else if (k > base && k <= base + KNOWN) snprintf(word, sizeof word, "x%d", (int)(k - base));
        else if (k > 0) strcpy(word, "(0)");
        for (const char *s = word; *s != 0; s++) {
            out->text[out->len] = *s;
            out->from[out->len++] = i;
        }
    }
}

/* The answer of the proved reader for the unknowns after `base`, in the places and by the unknowns of the line. */
static uint64_t read_some(const char *at, size_t len, size_t base, map *m, size_t i, renamed *by)
{
    int32_t row[KNOWN];
    rename_unknowns(at, len, base, m->q, by);
    uint64_t answer = dezgula_read_equation(by->text, by->len, KNOWN, row, KNOWN, &m->rights[i]);
    size_t place = (size_t)dezgula_place(answer), some = m->q - base < KNOWN ? m->q - base : KNOWN;
    if (answer == DEZGULA_EQUATION_READ) memcpy(m->coefs + i * m->q + base, row, some * sizeof *row);
    if (dezgula_number(answer) == DEZGULA_GRAMMAR) return DEZGULA_GRAMMAR + 256 * (uint64_t)((place <= by->len ? by->from[place - 1] : len) + 1);
    return dezgula_number(answer) == DEZGULA_COEFFICIENT ? answer + 256 * (uint64_t)base : answer;
}

static uint64_t read_equation(const char *at, size_t len, map *m, size_t i, renamed *by)
{
    uint64_t answer = DEZGULA_EQUATION_READ;
    if (m->q <= KNOWN) return dezgula_read_equation(at, len, m->q, m->coefs + i * m->q, m->q, &m->rights[i]);
    for (size_t base = 0; base < m->q && answer == DEZGULA_EQUATION_READ; base += KNOWN) answer = read_some(at, len, base, m, i, by);
    return answer;
}

/* The equations one by one. */
static bool read_each(const lines *text, size_t first, map *m, fault *why)
{
    renamed by = {malloc(2 * text->len + 1), malloc((2 * text->len + 1) * sizeof *by.from), 0};
    bool read = by.text != NULL && by.from != NULL;
    if (!read) fault_set(why, 0, "there is no memory for the equations");
    for (size_t i = 0; read && i < m->p; i++) {
        const line *own = &text->lines[first + i];
        const char *at = text->text + own->start;
        uint64_t answer = read_equation(at, own->len, m, i, &by);
        if (answer != DEZGULA_EQUATION_READ) read = refuse_equation(own, at, answer, m->q, why);
    }
    free(by.text);
    free(by.from);
    return read;
}

bool read_typed(const lines *text, bool strict, map *out, fault *why)
{
    size_t q = 0, first = 0;
    if (strict && !lines_strict(text, why)) return false;
    if (!read_unknowns(text, strict, &q, &first, why)) return false;
    size_t p = text->count - first;
    if (p < 1) return fault_set(why, 1, "line %zu: missing; there is no equation", lines_number(text, first + 1));
    if (p > MOST_TRAYS) return fault_set(why, 1, "line %zu: %zu equations; at most %d", lines_number(text, first + MOST_TRAYS + 1), p, MOST_TRAYS);
    if (!map_make(out, p, q, why)) return false;
    if (read_each(text, first, out, why)) return true;
    map_free(out);
    return false;
}
