/* A list in words: the loops with the names of the map, then whether the list is complete, what is in no loop, and the loops by size. */
#include <inttypes.h>
#include <stdlib.h>

#include "formats.h"

void row_in_words(FILE *out, const map *m, const uint32_t *row)
{
    bool any = false;
    for (size_t j = 0; j < m->q; j++) {
        if (row[j] == 0) continue;
        fprintf(out, "%s%" PRIu32 " × %s", any ? ", " : "", row[j], m->activities[j].name);
        any = true;
    }
    if (!any) fputs("nothing: all counts are 0", out);
}

void rows_in_words(FILE *out, const map *m, const uint32_t *rows, size_t len)
{
    char last[24];
    int width = snprintf(last, sizeof last, "%zu", len);
    for (size_t i = 0; i < len; i++) {
        fprintf(out, "  %*zu  ", width, i + 1);
        row_in_words(out, m, rows + i * m->q);
        fputc('\n', out);
    }
}

static const char *plural(size_t n, const char *one, const char *more)
{
    return n == 1 ? one : more;
}

static void head(FILE *out, const map *m)
{
    fprintf(out, "%zu %s, %zu %s\n", m->p, plural(m->p, "tray", "trays"), m->q, plural(m->q, "activity", "activities"));
    if (m->unchanged == 0) return;
    fprintf(out, "Left out, as no activity changes %s: ", plural(m->unchanged, "it", "them"));
    for (size_t i = 0; i < m->unchanged; i++) fprintf(out, "%s%s", i > 0 ? ", " : "", m->unchanged_names[i]);
    fputc('\n', out);
}

/* The second list, and what it means. */
static void wanted(FILE *out, const shown *what)
{
    size_t n = what->s->wanted_len;
    fprintf(out, "\n%zu %s\n", n, wanted_title(what->kind, n));
    rows_in_words(out, what->m, what->s->wanted, n);
    if (what->s->complete) fprintf(out, "%s.\n", wanted_sense(what->kind, n));
}

static void ending(FILE *out, const shown *what)
{
    const solved *s = what->s;
    fputc('\n', out);
    if (s->complete && s->loops_len == 0) {
        fputs("The list is complete: the map has no loop.\n", out);
    } else if (s->complete) {
        fputs("The list is complete: every loop is made of these, and none can be left out.\n", out);
    } else {
        fprintf(out, "The list is NOT complete: %s.\n", s->why.text);
        if (s->loops_len > 0) fputs("The loops listed are right; others may be missing.\n", out);
        else fprintf(out, "This says nothing of the map: %s.\n", s->walked ? "no loop is found so far" : "no loop is sure before the end");
    }
    if (s->walked) fprintf(out, "By Contejean and Devie's walk: %" PRIu64 " steps, greatest sum %" PRIu64 ".\n", s->last.steps, s->last.deepest);
}

static void in_no_loop(FILE *out, const map *m, const solved *s)
{
    bool any = false;
    for (size_t j = 0; j < m->q; j++) {
        bool found = false;
        for (size_t i = 0; i < s->loops_len && !found; i++) found = s->loops[i * s->q + j] > 0;
        if (found) continue;
        fprintf(out, "%s%s", any ? ", " : "In no loop: ", m->activities[j].name);
        any = true;
    }
    fputs(any ? ".\n" : "Every activity is in a loop.\n", out);
}

static int compare_sizes(const void *a, const void *b)
{
    uint64_t x = *(const uint64_t *)a, y = *(const uint64_t *)b;
    return (x > y) - (x < y);
}

static void by_size(FILE *out, const solved *s)
{
    uint64_t *sizes = malloc((s->loops_len + 1) * sizeof *sizes);
    if (sizes == NULL || s->loops_len == 0) {
        free(sizes);
        return;
    }
    for (size_t i = 0; i < s->loops_len; i++) sizes[i] = size_of_row(s->loops + i * s->q, s->q);
    qsort(sizes, s->loops_len, sizeof *sizes, compare_sizes);
    fputs("Loops by size: ", out);
    for (size_t i = 0, next; i < s->loops_len; i = next) {
        for (next = i; next < s->loops_len && sizes[next] == sizes[i]; next++) continue;
        fprintf(out, "%s%zu of %" PRIu64, i > 0 ? ", " : "", next - i, sizes[i]);
    }
    fputs(".\n", out);
    free(sizes);
}

void format_text(FILE *out, const shown *what)
{
    const solved *s = what->s;
    head(out, what->m);
    if (s->has_wanted && (s->complete || s->wanted_len > 0)) wanted(out, what);
    if (s->complete || s->loops_len > 0) {
        fprintf(out, "\n%zu %s%s\n", s->loops_len, plural(s->loops_len, "loop", "loops"), s->complete ? "" : " so far");
        rows_in_words(out, what->m, s->loops, s->loops_len);
    }
    ending(out, what);
    if (!s->complete) return;
    in_no_loop(out, what->m, s);
    by_size(out, s);
}
