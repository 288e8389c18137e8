/* Comma-separated values (RFC 4180, lines ended by a newline): a heading, then a row for each loop, and for each row of a second list before them. */
#include <inttypes.h>
#include <string.h>

#include "formats.h"

/* A field, quoted where that is needed. */
static void field(FILE *out, const char *text)
{
    if (strpbrk(text, ",\"\r\n") == NULL && text[0] != ' ') {
        fputs(text, out);
        return;
    }
    fputc('"', out);
    for (; *text != 0; text++) {
        if (*text == '"') fputc('"', out);
        fputc(*text, out);
    }
    fputc('"', out);
}

static void rows(FILE *out, const char *kind, const uint32_t *row, size_t len, size_t q)
{
    for (size_t i = 0; i < len; i++, row += q) {
        fprintf(out, "%s,%zu,%" PRIu64, kind, i + 1, size_of_row(row, q));
        for (size_t j = 0; j < q; j++) fprintf(out, ",%" PRIu32, row[j]);
        fputc('\n', out);
    }
}

void format_csv(FILE *out, const shown *what)
{
    fputs("kind,number,size", out);
    for (size_t j = 0; j < what->m->q; j++) {
        fputc(',', out);
        field(out, what->m->activities[j].name);
    }
    fputc('\n', out);
    if (what->s->has_wanted) rows(out, what->kind == DELIVERIES ? "delivery" : "plan", what->s->wanted, what->s->wanted_len, what->s->q);
    rows(out, "loop", what->s->loops, what->s->loops_len, what->s->q);
}
