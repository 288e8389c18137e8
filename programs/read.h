/* From a file to a map: a net (PNML), a map in 4ti2's matrix form, or typed equations, told apart by what the file has. */
#ifndef READ_H
#define READ_H

#include "lines.h"
#include "map.h"

/* Reads the map of a file, or of standard input where the name is "-". Gives STATUS_COMPLETE, and the map is the caller's to give back; or the status that the
 * command ends with, and why was said. `strict`: in the one spelling of document 01 only. */
int read_map(const char *name, bool strict, map *out);

/* The formats (read_matrix.c, read_typed.c). False: refused, `why` says why, and the map is empty. */
bool read_matrix(const lines *text, bool strict, map *out, fault *why);
bool read_typed(const lines *text, bool strict, map *out, fault *why);

/* Whether a file is a net: the first byte that is no space begins an element. */
bool is_net(const char *bytes, size_t len);

/* Whether the text is of typed equations: a line has "=", or the first has one number only. */
bool is_typed(const lines *text);

/* A number of the text form, an optional minus and 1 to 6 digits without leading zeros, from `at` on. Gives the place after it; NULL where there is none. */
const char *read_number(const char *at, const char *end, int32_t *x);

#endif
