/* A text as its lines, in the one spelling that the proved readers take: no carriage returns, byte order mark, tabs, comments or blank lines, single spaces,
 * none at either end of a line, and a newline after each. What is left of each line knows the number that the line has in the file. */
#ifndef LINES_H
#define LINES_H

#include "map.h"

typedef struct {
    size_t number;     /* in the file, from 1 */
    size_t start, len; /* where it stands in the text, and its bytes without the newline */
} line;

typedef struct {
    char *text; /* with a 0 after it */
    size_t len;
    line *lines;
    size_t count;
    size_t changed; /* the first line of the file that is spelled otherwise there, from 1; 0 where none is */
    size_t last;    /* how many lines the file has */
} lines;

/* The lines of a text. False: refused (it is no text, or there is no memory), `why` says why, and there is nothing to give back. */
bool lines_read(const char *bytes, size_t len, lines *out, fault *why);

void lines_free(lines *text);

/* The number in the file of line k of the text, from 1; past the last one, of the line that would follow. */
size_t lines_number(const lines *text, size_t k);

/* Whether a text is the spelling of its lines already. Else refuses it with 9 and the first line that is not. */
bool lines_strict(const lines *text, fault *why);

#endif
