/* The text form of a map, which is 4ti2's matrix form: a line "p q", then p lines of q numbers. Maps within the limits of document 01 are read by the proved
 * reader; what is here says why one is refused, and reads those that are larger. */
#include <stdlib.h>
#include <string.h>

#include "build_map.h"
#include "dezgula_text.h"
#include "limits.h"
#include "read.h"

const char *read_number(const char *at, const char *end, int32_t *x)
{
    bool minus = at < end && *at == '-';
    const char *first = at + minus, *p = first;
    for (*x = 0; p < end && p - first < 6 && *p >= '0' && *p <= '9'; p++) *x = *x * 10 + (*p - '0');
    if (p == first || (*first == '0' && (p - first > 1 || minus))) return NULL;
    if (minus) *x = -*x;
    return p;
}

/* Refuses a word that is no number, with at most 40 of its bytes. A file that begins with one is no map. */
static bool no_number(size_t line, bool first, const char *word, const char *end, fault *why)
{
    const char *advice = first ? "a map begins with two numbers, its trays and its activities; typed equations have x1, x2 ..; a net is XML (PNML)"
                               : "a number is an optional minus and 1 to 6 digits, without leading zeros";
    size_t len = 0;
    while (word + len < end && word[len] != ' ' && len < 40) len++;
    return fault_set(why, 9, "line %zu: \"%.*s\" is no number; %s", line, (int)len, word, advice);
}

/* Reads the numbers of a line, of which there are to be n; those past `room` are counted only. */
static bool read_numbers(const lines *text, size_t k, size_t n, int32_t *out, size_t *count, fault *why)
{
    const line *own = &text->lines[k];
    const char *at = text->text + own->start, *end = at + own->len;
    for (*count = 0; at < end; (*count)++) {
        int32_t x;
        const char *after = read_number(at, end, &x);
        if (after == NULL || (after < end && *after != ' ')) return no_number(own->number, k == 0 && *count == 0, at, end, why);
        if (*count < n) out[*count] = x;
        at = after < end ? after + 1 : end;
    }
    return true;
}

static bool read_sizes(const lines *text, size_t *p, size_t *q, fault *why)
{
    int32_t sizes[2];
    size_t count = 0;
    if (text->count == 0)
        return fault_set(why, 9, "line 1: missing; a map begins with a line of two numbers, how many trays and how many activities it has");
    size_t line = text->lines[0].number;
    if (!read_numbers(text, 0, 2, sizes, &count, why)) return false;
    if (count != 2)
        return fault_set(why, 9, "line %zu: %zu number%s; the first line has two, the trays and the activities", line, count, count == 1 ? "" : "s");
    if (sizes[0] < 1 || sizes[0] > MOST_TRAYS) return fault_set(why, 1, "line %zu: %d trays; 1 to %d", line, (int)sizes[0], MOST_TRAYS);
    if (sizes[1] < 1 || sizes[1] > MOST_ACTIVITIES) return fault_set(why, 2, "line %zu: %d activities; 1 to %d", line, (int)sizes[1], MOST_ACTIVITIES);
    *p = (size_t)sizes[0];
    *q = (size_t)sizes[1];
    return true;
}

static bool read_rows(const lines *text, map *m, fault *why)
{
    for (size_t i = 0; i < m->p; i++) {
        size_t count = 0, line = lines_number(text, i + 2);
        if (i + 1 >= text->count)
            return fault_set(why, 9, "line %zu: missing; %zu line%s of numbers, the first line says %zu", line, i, i == 1 ? "" : "s", m->p);
        if (!read_numbers(text, i + 1, m->q, m->coefs + i * m->q, &count, why)) return false;
        if (count != m->q) return fault_set(why, 9, "line %zu: %zu number%s, the first line says %zu", line, count, count == 1 ? "" : "s", m->q);
    }
    if (text->count <= m->p + 1) return true;
    return fault_set(why, 9, "line %zu: a line more than the first line says, which is %zu", lines_number(text, m->p + 2), m->p);
}

static bool in_range(const lines *text, const map *m, fault *why)
{
    for (size_t i = 0; i < m->p * m->q; i++)
        if (abs(m->coefs[i]) > MOST_COEFFICIENT)
            return fault_set(why, 7, "line %zu: number %zu is %d; -%d to %d", lines_number(text, i / m->q + 2), i % m->q + 1, (int)m->coefs[i],
                             MOST_COEFFICIENT, MOST_COEFFICIENT);
    return true;
}

/* The map of a text, by code that is not proved. */
static bool read_by_hand(const lines *text, map *out, fault *why)
{
    size_t p = 0, q = 0;
    if (!read_sizes(text, &p, &q, why) || !map_make(out, p, q, why)) return false;
    if (read_rows(text, out, why) && in_range(text, out, why)) return true;
    map_free(out);
    return false;
}

bool read_matrix(const lines *text, bool strict, map *out, fault *why)
{
    int32_t coefs[DEZGULA_MAP_COEFFICIENTS];
    dezgula_system system = {0, 0, NULL, 0};
    if (strict && !lines_strict(text, why)) return false;
    bool read = read_by_hand(text, out, why);
    if (read && (out->p > DEZGULA_MOST_EQUATIONS || out->q > DEZGULA_MOST_UNKNOWNS)) return true;
    if (text->len > DEZGULA_MOST_TEXT) return read;
    uint64_t answer = dezgula_read_map(text->text, text->len, coefs, &system);
    if (answer == DEZGULA_MAP_READ) {
        if (!read && !map_make(out, system.p, system.q, why)) return false;
        memcpy(out->coefs, coefs, system.coefs_len * sizeof *coefs);
        return true;
    }
    if (!read) return false;
    map_free(out);
    return fault_set(why, dezgula_number(answer), "%s", dezgula_sentence(answer));
}
