/* Trays and activities as people name them on the command line. */
#ifndef NAMES_H
#define NAMES_H

#include "map.h"

/* Reads counts of activities, q of them, into `out`: either q numbers, in one word or in several, or words NAME=N, several of them with commas between in one
 * word if need be; an activity that is not named has 0. A name is the activity's, or x1, x2 .. by its place. */
bool counts_read(const map *m, char *const *words, size_t words_len, uint32_t *out, fault *why);

/* Reads what trays are to gain, p right sides, into `out`: words NAME=N as above (trays are t1, t2 .. by their place; N may be negative), and files, which hold
 * such words a line each, or p numbers. A tray that is not named keeps what `out` has. Gives STATUS_COMPLETE, or says why not. */
int rights_read(const map *m, char *const *words, size_t words_len, int32_t *out);

#endif
