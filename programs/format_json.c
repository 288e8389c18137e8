/* JSON: one object, with names, lists and how the run ended. */
#include <inttypes.h>

#include "formats.h"

/* The length of the well-formed UTF-8 sequence that a text begins with; 0 where it is none. */
static size_t sequence(const unsigned char *at)
{
    if (at[0] < 0x80) return 1;
    size_t len = at[0] >= 0xc2 && at[0] < 0xe0 ? 2 : at[0] >= 0xe0 && at[0] < 0xf0 ? 3 : at[0] >= 0xf0 && at[0] < 0xf5 ? 4 : 0;
    for (size_t i = 1; i < len; i++)
        if (at[i] < 0x80 || at[i] > 0xbf) return 0;
    bool overlong = (at[0] == 0xe0 && at[1] < 0xa0) || (at[0] == 0xf0 && at[1] < 0x90);
    bool outside = (at[0] == 0xed && at[1] > 0x9f) || (at[0] == 0xf4 && at[1] > 0x8f);
    return overlong || outside ? 0 : len;
}

static void string(FILE *out, const char *text)
{
    const unsigned char *at = (const unsigned char *)text;
    fputc('"', out);
    while (*at != 0) {
        size_t len = sequence(at);
        if (*at == '"' || *at == '\\') fprintf(out, "\\%c", *at);
        else if (*at < 0x20 || *at == 0x7f) fprintf(out, "\\u%04x", *at);
        else if (len == 0) fputs("\\ufffd", out);
        else fwrite(at, 1, len, out);
        at += len > 0 ? len : 1;
    }
    fputc('"', out);
}

static void names(FILE *out, const char *key, const node *nodes, size_t len)
{
    fprintf(out, "  \"%s\": [", key);
    for (size_t i = 0; i < len; i++) {
        if (i > 0) fputs(", ", out);
        string(out, nodes[i].name);
    }
    fputs("],\n", out);
}

static void unchanged(FILE *out, const map *m)
{
    fputs("  \"unchanged\": [", out);
    for (size_t i = 0; i < m->unchanged; i++) {
        if (i > 0) fputs(", ", out);
        string(out, m->unchanged_names[i]);
    }
    fputs("],\n", out);
}

static void rows(FILE *out, const char *key, const uint32_t *row, size_t len, size_t q)
{
    fprintf(out, ",\n  \"%s\": [", key);
    for (size_t i = 0; i < len; i++, row += q) {
        fprintf(out, "%s\n    {\"number\": %zu, \"size\": %" PRIu64 ", \"counts\": [", i > 0 ? "," : "", i + 1, size_of_row(row, q));
        for (size_t j = 0; j < q; j++) fprintf(out, "%s%" PRIu32, j > 0 ? ", " : "", row[j]);
        fputs("]}", out);
    }
    fputs(len > 0 ? "\n  ]" : "]", out);
}

void format_json(FILE *out, const shown *what)
{
    const solved *s = what->s;
    fputs("{\n", out);
    names(out, "trays", what->m->trays, what->m->p);
    names(out, "activities", what->m->activities, what->m->q);
    unchanged(out, what->m);
    if (s->walked) fprintf(out, "  \"steps\": %" PRIu64 ",\n", s->last.steps);
    fprintf(out, "  \"complete\": %s", s->complete ? "true" : "false");
    if (!s->complete) {
        fputs(",\n  \"why\": ", out);
        string(out, s->why.text);
    }
    if (s->has_wanted) rows(out, what->kind == DELIVERIES ? "deliveries" : "plans", s->wanted, s->wanted_len, s->q);
    rows(out, "loops", s->loops, s->loops_len, s->q);
    fputs("\n}\n", out);
}
