#include "formats.h"

#include <string.h>

bool format_of(const char *name, format *out)
{
    static const char *const names[] = {"text", "matrix", "csv", "json", "html"};
    for (unsigned i = 0; i < sizeof names / sizeof *names; i++)
        if (strcmp(name, names[i]) == 0) {
            *out = (format)i;
            return true;
        }
    return false;
}

void format_write(FILE *out, format how, const shown *what)
{
    /* a table with no row would read like a map with no loop */
    bool nothing_sure = !what->s->complete && what->s->loops_len == 0 && what->s->wanted_len == 0;
    if (nothing_sure && (how == FORMAT_MATRIX || how == FORMAT_CSV)) return;
    listing l = {what->s->loops_len, what->s->q, what->s->loops, what->s->complete, what->kind, what->s->wanted, what->s->wanted_len, what->name};
    switch (how) {
    case FORMAT_TEXT: format_text(out, what); break;
    case FORMAT_MATRIX: format_matrix(out, what); break;
    case FORMAT_CSV: format_csv(out, what); break;
    case FORMAT_JSON: format_json(out, what); break;
    case FORMAT_HTML: (void)report_write(out, what->m, &l); break;
    }
}
