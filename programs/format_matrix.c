/* 4ti2's matrix form: a line with rows and columns, then the rows. A second list stands first, an empty line between. */
#include <inttypes.h>

#include "formats.h"

static void matrix(FILE *out, const uint32_t *rows, size_t len, size_t q)
{
    fprintf(out, "%zu %zu\n", len, q);
    for (size_t i = 0; i < len * q; i++) fprintf(out, "%" PRIu32 "%c", rows[i], (i + 1) % q != 0 ? ' ' : '\n');
}

void format_matrix(FILE *out, const shown *what)
{
    const solved *s = what->s;
    if (s->has_wanted) {
        matrix(out, s->wanted, s->wanted_len, s->q);
        fputc('\n', out);
    }
    matrix(out, s->loops, s->loops_len, s->q);
}
