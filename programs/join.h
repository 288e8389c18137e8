/* Several maps, one for each desk, as one. */
#ifndef JOIN_H
#define JOIN_H

#include "map.h"

/* Joins n maps. Where they have names, activities of the same name are one, and so are trays, which belong to the first desk that has them; where they have
 * none, they have the same activities by place, and all trays are different. `desks` gets, for each map, how many trays it brought. False: refused, `why` says
 * why, and the joined map is empty. */
bool join_maps(const map *maps, size_t n, map *out, size_t *desks, fault *why);

#endif
