/* A list in the formats that it is shown in. What is printed goes to the buffer of `out`; whether it left is looked at once, at the end (io_end). */
#ifndef FORMATS_H
#define FORMATS_H

#include "work.h"

typedef enum { FORMAT_TEXT, FORMAT_MATRIX, FORMAT_CSV, FORMAT_JSON, FORMAT_HTML } format;

/* The format of a name; false: there is no such one. */
bool format_of(const char *name, format *out);

/* What is shown: a map, its lists, and the words for the second list. */
typedef struct {
    const map *m;
    const solved *s;
    wanted_kind kind; /* of the second list */
    const char *name; /* of the file, or NULL where it has none */
} shown;

/* In any of the formats. */
void format_write(FILE *out, format how, const shown *what);

void format_text(FILE *out, const shown *what);
void format_matrix(FILE *out, const shown *what);
void format_csv(FILE *out, const shown *what);
void format_json(FILE *out, const shown *what);

/* A row in words: "2 × write, 1 × review". */
void row_in_words(FILE *out, const map *m, const uint32_t *row);

/* The rows of a list in words, a line each, numbered from 1. */
void rows_in_words(FILE *out, const map *m, const uint32_t *rows, size_t len);

#endif
