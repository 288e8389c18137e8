/* What the readers of formats without names make a map by. */
#ifndef BUILD_MAP_H
#define BUILD_MAP_H

#include "map.h"

/* A map of p trays t1 .. and q activities x1 .., with coefficients and right sides 0. False: there is no memory, which `why` says, and the map is empty. */
bool map_make(map *m, size_t p, size_t q, fault *why);

/* Whether a right side is not zero. */
bool map_has_rights(const map *m);

#endif
