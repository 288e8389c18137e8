#include "join.h"

#include <stdlib.h>
#include <string.h>

#include "build_map.h"
#include "limits.h"

/* What the maps are joined into, at its largest; and where the columns of the map under way are in it. */
typedef struct {
    map all;
    bool named;
    size_t columns[MOST_ACTIVITIES];
} joint;

static bool name_node(node *own, const node *from, fault *why)
{
    char *name = strdup(from->name);
    if (name == NULL) return fault_set(why, 0, "there is no memory");
    free(own->name);
    own->name = name;
    return true;
}

static size_t find_node(const node *nodes, size_t len, const char *name)
{
    size_t i = 0;
    while (i < len && strcmp(nodes[i].name, name) != 0) i++;
    return i;
}

/* ---- columns */

static bool join_activities(joint *j, const map *m, size_t k, fault *why)
{
    if (!j->named && k > 0 && m->q != j->all.q)
        return fault_set(why, 3, "desk %zu: %zu activities, the desks before it have %zu; without names every desk has all activities", k + 1, m->q, j->all.q);
    for (size_t i = 0; i < m->q; i++) {
        size_t at = j->named ? find_node(j->all.activities, j->all.q, m->activities[i].name) : i;
        if (at >= MOST_ACTIVITIES) return fault_set(why, 2, "desk %zu: more than %d activities in all", k + 1, MOST_ACTIVITIES);
        if (at == j->all.q) {
            if (j->named && !name_node(&j->all.activities[at], &m->activities[i], why)) return false;
            j->all.q++;
        }
        j->columns[i] = at;
    }
    return true;
}

/* ---- rows: while they are joined, they are MOST_ACTIVITIES long */

/* Adds what one map says of a tray; two maps that both say something of the same activity say the same. */
static bool join_row(joint *j, const map *m, size_t i, size_t at, size_t k, fault *why)
{
    for (size_t c = 0; c < m->q; c++) {
        int32_t own = m->coefs[i * m->q + c], *there = &j->all.coefs[at * MOST_ACTIVITIES + j->columns[c]];
        if (own == 0) continue;
        if (*there != 0 && *there != own)
            return fault_set(why, 0, "desk %zu: %s changes the tray %s by %d, and by %d at a desk before; it has to be the same", k + 1, m->activities[c].name,
                             m->trays[i].name, (int)own, (int)*there);
        *there = own;
    }
    return true;
}

static bool join_trays(joint *j, const map *m, size_t k, size_t *brought, fault *why)
{
    *brought = 0;
    for (size_t i = 0; i < m->p; i++) {
        if (m->rights != NULL && m->rights[i] != 0)
            return fault_set(why, 0, "desk %zu: right sides; desks are compared by their loops, with right sides 0", k + 1);
        size_t at = j->named ? find_node(j->all.trays, j->all.p, m->trays[i].name) : j->all.p;
        if (at >= MOST_TRAYS) return fault_set(why, 1, "desk %zu: more than %d trays in all", k + 1, MOST_TRAYS);
        if (at == j->all.p) {
            if (j->named && !name_node(&j->all.trays[at], &m->trays[i], why)) return false;
            j->all.p++;
            (*brought)++;
        }
        if (!join_row(j, m, i, at, k, why)) return false;
    }
    return true;
}

/* Gives back the nodes that were not needed, and moves the rows together. */
static void close_up(joint *j)
{
    map *all = &j->all;
    for (size_t i = all->p; i < MOST_TRAYS; i++) free(all->trays[i].name);
    for (size_t i = all->q; i < MOST_ACTIVITIES; i++) free(all->activities[i].name);
    for (size_t i = 0; i < all->p; i++) memmove(all->coefs + i * all->q, all->coefs + i * MOST_ACTIVITIES, all->q * sizeof *all->coefs);
    all->named = j->named;
}

bool join_maps(const map *maps, size_t n, map *out, size_t *desks, fault *why)
{
    joint j;
    memset(&j, 0, sizeof j);
    memset(out, 0, sizeof *out);
    if (!map_make(&j.all, MOST_TRAYS, MOST_ACTIVITIES, why)) return false;
    j.all.p = j.all.q = 0;
    j.named = true;
    for (size_t k = 0; k < n; k++) j.named = j.named && maps[k].named;
    bool joined = true;
    for (size_t k = 0; joined && k < n; k++) joined = join_activities(&j, &maps[k], k, why) && join_trays(&j, &maps[k], k, &desks[k], why);
    close_up(&j);
    if (joined) *out = j.all;
    else map_free(&j.all);
    return joined;
}
