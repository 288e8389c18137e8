#include "names.h"

#include <errno.h>
#include <stdlib.h>
#include <string.h>
#include <unistd.h>

#include "io.h"
#include "limits.h"
#include "lines.h"

/* The nodes that a name may be of. */
typedef struct {
    const node *nodes;
    size_t count;
    char letter;      /* of the names by place */
    const char *what; /* what they are called */
    const map *m;     /* where trays are named: the map, which may have left some out */
} names;

static names activities_of(const map *m)
{
    names n = {m->activities, m->q, 'x', "activity", NULL};
    return n;
}

static names trays_of(const map *m)
{
    names n = {m->trays, m->p, 't', "tray", m};
    return n;
}

/* ---- numbers */

/* The whole of a text as a number; false where it is none, or above what is read here. */
static bool number_of(const char *text, size_t len, long *x)
{
    char digits[16];
    char *end;
    if (len == 0 || len >= sizeof digits || strchr("+-0123456789", text[0]) == NULL) return false;
    memcpy(digits, text, len);
    digits[len] = 0;
    errno = 0;
    *x = strtol(digits, &end, 10);
    return *end == 0 && end != digits && errno == 0;
}

/* ---- names */

/* The k of a name by place, from 1; 0 where it is none. */
static size_t place_of(const names *n, const char *name, size_t len)
{
    size_t k = 0;
    if (len < 2 || len > 4 || name[0] != n->letter || name[1] == '0') return 0;
    for (size_t i = 1; i < len; i++) {
        if (name[i] < '0' || name[i] > '9') return 0;
        k = 10 * k + (size_t)(name[i] - '0');
    }
    return k <= n->count ? k : 0;
}

static bool same(const node *own, const char *name, size_t len)
{
    return strlen(own->name) == len && memcmp(own->name, name, len) == 0;
}

/* Refuses a name that is nobody's, with those there are, as many as fit. */
static bool unknown_name(const names *n, const char *name, size_t len, fault *why)
{
    for (size_t i = 0; n->m != NULL && i < n->m->unchanged; i++)
        if (strlen(n->m->unchanged_names[i]) == len && memcmp(n->m->unchanged_names[i], name, len) == 0)
            return fault_set(why, 0, "the tray %.*s is changed by no activity, so nothing can be delivered to it", (int)(len > 80 ? 80 : len), name);
    fault_set(why, 0, "no %s is named \"%.*s\"; there are", n->what, (int)(len > 80 ? 80 : len), name);
    for (size_t i = 0; i < n->count; i++) {
        size_t at = strlen(why->text);
        if (at + strlen(n->nodes[i].name) + 10 > sizeof why->text) {
            memcpy(why->text + at, " ..", 4);
            break;
        }
        snprintf(why->text + at, sizeof why->text - at, "%s\"%s\"", i == 0 ? " " : ", ", n->nodes[i].name);
    }
    return false;
}

/* Which node a name is of, from 0. */
static bool find_name(const names *n, const char *name, size_t len, size_t *found, fault *why)
{
    size_t first = n->count;
    for (size_t i = 0; i < n->count; i++) {
        if (!same(&n->nodes[i], name, len)) continue;
        if (first < n->count)
            return fault_set(why, 0, "more than one %s is named \"%.*s\"; say %c%zu or %c%zu", n->what, (int)len, name, n->letter, first + 1, n->letter, i + 1);
        first = i;
    }
    *found = first;
    if (first < n->count) return true;
    *found = place_of(n, name, len) - 1;
    return place_of(n, name, len) > 0 || unknown_name(n, name, len, why);
}

/* ---- NAME=N */

/* Where the last "=" of a text stands; NULL where it has none. */
static const char *last_equals(const char *text, size_t len)
{
    while (len > 0)
        if (text[--len] == '=') return text + len;
    return NULL;
}

/* Whether all before the last "=" is a name as it stands, so that no comma in it parts two. */
static bool is_one(const names *n, const char *text, size_t len)
{
    const char *equals = last_equals(text, len);
    for (size_t i = 0; equals != NULL && i < n->count; i++)
        if (same(&n->nodes[i], text, (size_t)(equals - text))) return true;
    return false;
}

/* Sets one number by its name. */
static bool set_one(const names *n, const char *text, size_t len, long *out, fault *why)
{
    size_t k = 0;
    long x = 0;
    while (len > 0 && *text == ' ') text++, len--;
    while (len > 0 && text[len - 1] == ' ') len--;
    const char *equals = last_equals(text, len);
    if (equals == NULL) return fault_set(why, 0, "\"%.*s\" is neither a number nor NAME=N", (int)(len > 80 ? 80 : len), text);
    size_t name = (size_t)(equals - text), rest = len - name - 1;
    while (name > 0 && text[name - 1] == ' ') name--;
    const char *number = equals + 1;
    while (rest > 0 && *number == ' ') number++, rest--;
    if (!find_name(n, text, name, &k, why)) return false;
    if (!number_of(number, rest, &x)) return fault_set(why, 0, "%.*s: \"%.*s\" is no number", (int)name, text, (int)(rest > 40 ? 40 : rest), number);
    out[k] = x;
    return true;
}

/* Whether a text ends with "=" and a number. */
static bool ends_with_number(const char *text, size_t len)
{
    const char *equals = last_equals(text, len);
    long x;
    return equals != NULL && number_of(equals + 1, len - (size_t)(equals - text) - 1, &x);
}

/* The first comma that stands after a NAME=N, since names may have commas too; NULL where there is none. */
static const char *comma_between(const char *text, size_t len)
{
    for (size_t i = 0; i < len; i++)
        if (text[i] == ',' && ends_with_number(text, i)) return text + i;
    return NULL;
}

/* Sets the numbers of a word, which may name several with commas between. */
static bool set_named(const names *n, const char *word, size_t len, long *out, fault *why)
{
    while (!is_one(n, word, len)) {
        const char *comma = comma_between(word, len);
        if (comma == NULL) break;
        size_t own = (size_t)(comma - word);
        if (!set_one(n, word, own, out, why)) return false;
        word = comma + 1;
        len -= own + 1;
    }
    return set_one(n, word, len, out, why);
}

/* ---- plain numbers */

/* Reads numbers with spaces or commas between; those past `room` are counted only. False: there is something else. */
static bool plain_numbers(const char *text, size_t len, long *out, size_t room, size_t *count)
{
    size_t at = 0;
    while (at < len) {
        size_t end = at;
        while (end < len && strchr(" \t\r\n,", text[end]) == NULL) end++;
        if (end > at) {
            long x;
            if (!number_of(text + at, end - at, &x)) return false;
            if (*count < room) out[*count] = x;
            (*count)++;
        }
        at = end + 1;
    }
    return true;
}

static bool all_plain(char *const *words, size_t words_len, long *out, size_t room, size_t *count)
{
    *count = 0;
    for (size_t i = 0; i < words_len; i++)
        if (!plain_numbers(words[i], strlen(words[i]), out, room, count)) return false;
    return *count > 0;
}

/* ---- counts */

static bool in_count_range(const map *m, const long *x, uint32_t *out, fault *why)
{
    for (size_t j = 0; j < m->q; j++) {
        if (x[j] < 0 || x[j] > MOST_COUNT) return fault_set(why, 8, "%s: %ld times; 0 to %d", m->activities[j].name, x[j], MOST_COUNT);
        out[j] = (uint32_t)x[j];
    }
    return true;
}

bool counts_read(const map *m, char *const *words, size_t words_len, uint32_t *out, fault *why)
{
    long x[MOST_ACTIVITIES] = {0};
    size_t count;
    names n = activities_of(m);
    if (all_plain(words, words_len, x, m->q, &count)) {
        if (count != m->q) return fault_set(why, 5, "%zu count%s; there are %zu activities", count, count == 1 ? "" : "s", m->q);
        return in_count_range(m, x, out, why);
    }
    memset(x, 0, sizeof x);
    for (size_t i = 0; i < words_len; i++)
        if (!set_named(&n, words[i], strlen(words[i]), x, why)) return false;
    return in_count_range(m, x, out, why);
}

/* ---- right sides */

/* The numbers of a file: p of them, or "1 p" and p of them as 4ti2 writes right sides, or lines NAME=N. */
static bool rights_of_text(const map *m, const lines *text, long *out, fault *why)
{
    long x[MOST_TRAYS + 2];
    size_t count = 0;
    names n = trays_of(m);
    if (plain_numbers(text->text, text->len, x, m->p + 2, &count)) {
        size_t head = count == m->p + 2 && x[0] == 1 && x[1] == (long)m->p ? 2 : 0;
        if (count - head != m->p) return fault_set(why, 3, "%zu number%s; %zu trays change", count, count == 1 ? "" : "s", m->p);
        memcpy(out, x + head, m->p * sizeof *out);
        return true;
    }
    for (size_t i = 0; i < text->count; i++) {
        fault own;
        if (!set_named(&n, text->text + text->lines[i].start, text->lines[i].len, out, &own))
            return fault_set(why, own.number, "line %zu: %.480s", text->lines[i].number, own.text);
    }
    return true;
}

static int rights_of_file(const map *m, const char *name, long *out)
{
    size_t len;
    int status;
    fault why;
    lines text;
    char *bytes = io_read(name, MOST_TEXT, &len, &status);
    if (bytes == NULL) return status;
    bool read = lines_read(bytes, len, &text, &why);
    free(bytes);
    if (!read) return io_refuse(name, &why);
    read = rights_of_text(m, &text, out, &why);
    lines_free(&text);
    return read ? STATUS_COMPLETE : io_refuse(name, &why);
}

/* Whether a word is NAME=N, or is meant to be: it has a "=", and no file is named so. */
static bool is_named(const char *word)
{
    return ends_with_number(word, strlen(word)) || (strchr(word, '=') != NULL && access(word, F_OK) != 0);
}

int rights_read(const map *m, char *const *words, size_t words_len, int32_t *out)
{
    long x[MOST_TRAYS];
    fault why = {0, ""};
    names n = trays_of(m);
    for (size_t i = 0; i < m->p; i++) x[i] = out[i];
    for (size_t i = 0; i < words_len; i++) {
        if (is_named(words[i])) {
            if (!set_named(&n, words[i], strlen(words[i]), x, &why)) return io_refuse("--deliver", &why);
            continue;
        }
        size_t k;
        fault unnamed;
        if (find_name(&n, words[i], strlen(words[i]), &k, &unnamed)) {
            fault_set(&why, 0, "by how many documents is the tray %.80s to grow? say %.80s=N", words[i], words[i]);
            return io_refuse("--deliver", &why);
        }
        int status = rights_of_file(m, words[i], x);
        if (status != STATUS_COMPLETE) return status;
    }
    for (size_t i = 0; i < m->p; i++) {
        if (x[i] < -MOST_COEFFICIENT || x[i] > MOST_COEFFICIENT) {
            fault_set(&why, 15, "the tray %s is to gain %ld; -%d to %d", m->trays[i].name, x[i], MOST_COEFFICIENT, MOST_COEFFICIENT);
            return io_refuse("--deliver", &why);
        }
        out[i] = (int32_t)x[i];
    }
    return STATUS_COMPLETE;
}
