/* Place/transition nets in PNML (ISO/IEC 15909-2), read by libexpat into a map: map_read_pnml.
 *
 * In order, on the entries of the file: ids, references and the ends of arcs; names that are distinct; the coefficients; the map.
 *
 * A file holds one net: a second one is refused, since its loops would be missing from the list. Ids are distinct over nodes, arcs and pages; arcs and pages
 * may do without. A test arc is kept as an arc there and an arc back, so its tray is unchanged by it. A desk is the innermost page.
 *
 * Where expat's header is missing, or NO_EXPAT is set, nets are refused by a sentence that names the package. */
#include "net.h"

#include "limits.h"

#include <stdlib.h>
#include <string.h>

#ifdef NO_EXPAT

bool map_read_pnml(const char *bytes, size_t len, map *out, fault *why)
{
    (void)bytes;
    (void)len;
    memset(out, 0, sizeof *out);
    return fault_set(why, 0, "nets cannot be read: this program was built without libexpat; install it (Debian: libexpat1-dev) and build again");
}

#else

/* ---- ids, references, and the ends of arcs */

static int compare_ids(const void *a, const void *b)
{
    const entry *first = *(entry *const *)a, *second = *(entry *const *)b;
    int order = strcmp(first->id, second->id);
    return order != 0 ? order : (first > second) - (first < second);
}

static void sort_ids(reading *r)
{
    r->by_id = malloc((r->len + 1) * sizeof *r->by_id);
    if (r->by_id == NULL) {
        net_no_memory(r);
        return;
    }
    for (size_t i = 0; i < r->len; i++)
        if (r->entries[i].id != NULL) r->by_id[r->ids++] = &r->entries[i];
    qsort(r->by_id, r->ids, sizeof *r->by_id, compare_ids);
}

static void check_ids(reading *r)
{
    const entry *twice = NULL, *before = NULL;
    for (size_t i = 1; i < r->ids; i++) {
        const entry *e = r->by_id[i];
        if (strcmp(e->id, r->by_id[i - 1]->id) != 0 || (twice != NULL && twice < e)) continue;
        twice = e;
        before = r->by_id[i - 1];
    }
    if (twice == NULL) return;
    shown id = net_quote(twice->id);
    net_refuse(r, twice->line, FORM, "the id \"%s\" is taken already, on line %lu", id.text, before->line);
}

/* The node or reference with this id, or NOWHERE. */
static size_t find(const reading *r, const char *id)
{
    size_t low = 0, high = r->ids;
    while (low < high) {
        size_t middle = low + (high - low) / 2;
        if (strcmp(r->by_id[middle]->id, id) < 0) low = middle + 1;
        else high = middle;
    }
    if (low == r->ids || strcmp(r->by_id[low]->id, id) != 0 || !net_is_node(r->by_id[low]->is)) return NOWHERE;
    return (size_t)(r->by_id[low] - r->entries);
}

/* One step of a reference: what it refers to, which must be of its own sort. */
static void look_up_reference(reading *r, entry *e)
{
    shown id = net_quote(e->id), target = net_quote(e->target);
    kind sort = e->is == REFERENCE_PLACE ? PLACE : TRANSITION;
    e->to = find(r, e->target);
    if (e->to == NOWHERE) {
        net_refuse(r, e->line, FORM, "the <%s> \"%s\" refers to \"%s\", and there is no such node", net_word(e->is), id.text, target.text);
        return;
    }
    kind is = r->entries[e->to].is;
    if (is != sort && is != e->is)
        net_refuse(r, e->line, FORM, "the <%s> \"%s\" refers to \"%s\", which is a <%s>", net_word(e->is), id.text, target.text, net_word(is));
}

/* Points reference n at the place or transition that it stands for. `from` of a reference marks the walk that came by, so a ring of references is seen; each on
 * the way is pointed at the end too, so that long chains are walked once. */
static void follow(reading *r, size_t n)
{
    size_t end = n;
    while (r->entries[end].is != PLACE && r->entries[end].is != TRANSITION) {
        entry *e = &r->entries[end];
        if (e->from == n) {
            shown id = net_quote(e->id);
            net_refuse(r, e->line, FORM, "the <%s> \"%s\" refers to itself, by way of others or straight", net_word(e->is), id.text);
            return;
        }
        e->from = n;
        end = e->to;
    }
    for (size_t k = n, next; k != end; k = next) {
        next = r->entries[k].to;
        r->entries[k].to = end;
    }
}

static void link_references(reading *r)
{
    for (size_t i = 0; i < r->len && !r->refused; i++)
        if (r->entries[i].is == REFERENCE_PLACE || r->entries[i].is == REFERENCE_TRANSITION) look_up_reference(r, &r->entries[i]);
    for (size_t i = 0; i < r->len && !r->refused; i++)
        if (r->entries[i].is == REFERENCE_PLACE || r->entries[i].is == REFERENCE_TRANSITION) follow(r, i);
}

static size_t end_of_arc(reading *r, const entry *e, const char *id, const char *which)
{
    size_t n = find(r, id);
    shown name = net_arc(e), said = net_quote(id);
    if (n == NOWHERE) net_refuse(r, e->line, FORM, "%s has the %s \"%s\", and there is no such node", name.text, which, said.text);
    if (n == NOWHERE || r->entries[n].is == PLACE || r->entries[n].is == TRANSITION) return n;
    return r->entries[n].to;
}

static void link_arc(reading *r, entry *e)
{
    e->from = end_of_arc(r, e, e->source, "source");
    if (!r->refused) e->to = end_of_arc(r, e, e->target, "target");
    if (r->refused || r->entries[e->from].is != r->entries[e->to].is) return;
    shown name = net_arc(e);
    const char *sort = r->entries[e->from].is == PLACE ? "a tray (place)" : "an activity (transition)";
    net_refuse(r, e->line, FORM, "%s leads from %s to another; an arc is between a tray and an activity", name.text, sort);
}

static void link_entries(reading *r)
{
    sort_ids(r);
    if (!r->refused) check_ids(r);
    if (!r->refused) link_references(r);
    for (size_t i = 0; i < r->len && !r->refused; i++)
        if (r->entries[i].is == ARC) link_arc(r, &r->entries[i]);
}

/* ---- names: those of trays are distinct, those of activities, and those of pages */

static int compare_names(const void *a, const void *b)
{
    const entry *first = *(entry *const *)a, *second = *(entry *const *)b;
    return strcmp(first->name, second->name);
}

/* "name (id)" in the place of a name that another has too. */
static void add_id(reading *r, entry *e, size_t number)
{
    size_t len = strlen(e->name) + (e->id == NULL ? 24 : strlen(e->id)) + 4;
    char *longer = net_room(r, len);
    if (longer == NULL) return;
    if (e->id == NULL) (void)snprintf(longer, len, "%s (%zu)", e->name, number);
    else (void)snprintf(longer, len, "%s (%s)", e->name, e->id);
    e->name = longer;
}

/* One pass over the entries of a sort, in the order of their names. Whether any name was taken twice. */
static bool part_names(reading *r, entry **sorted, size_t len)
{
    bool any = false, same = false;
    qsort(sorted, len, sizeof *sorted, compare_names);
    for (size_t i = 0; i < len && !r->refused; i++) {
        bool next = i + 1 < len && strcmp(sorted[i]->name, sorted[i + 1]->name) == 0;
        if (same || next) add_id(r, sorted[i], i + 1);
        any = any || next;
        same = next;
    }
    return any;
}

/* A name may come to be another's by the id behind it; a few passes part these too. */
static void make_names(reading *r, kind sort)
{
    entry **sorted = malloc((r->len + 1) * sizeof *sorted);
    size_t len = 0;
    if (sorted == NULL) {
        net_no_memory(r);
        return;
    }
    for (size_t i = 0; i < r->len; i++) {
        entry *e = &r->entries[i];
        if (e->is != sort) continue;
        if (e->name == NULL) e->name = e->id;
        if (e->name == NULL) e->name = net_tidy(r, "page");
        if (e->name != NULL) sorted[len++] = e;
    }
    for (int pass = 0; pass < 8 && !r->refused; pass++)
        if (!part_names(r, sorted, len)) break;
    free(sorted);
}

/* ---- coefficients */

typedef struct {
    size_t places, q, changed;
    int64_t *coefs; /* of all places */
} table;

static size_t number_of(reading *r, kind sort)
{
    size_t n = 0;
    for (size_t i = 0; i < r->len; i++)
        if (r->entries[i].is == sort) r->entries[i].number = n++;
    return n;
}

static bool is_from_tray(const reading *r, const entry *e)
{
    return r->entries[e->from].is == PLACE;
}

static size_t cell(const reading *r, const table *t, const entry *e)
{
    const entry *from = &r->entries[e->from], *to = &r->entries[e->to];
    return from->is == PLACE ? from->number * t->q + to->number : to->number * t->q + from->number;
}

static void add_arcs(const reading *r, table *t)
{
    for (size_t i = 0; i < r->len; i++) {
        const entry *e = &r->entries[i];
        if (e->is != ARC || e->tests) continue;
        int64_t moves = e->moves;
        t->coefs[cell(r, t, e)] += is_from_tray(r, e) ? -moves : moves;
    }
}

static bool is_out_of_range(int64_t coefficient)
{
    return coefficient > MOST_COEFFICIENT || coefficient < -MOST_COEFFICIENT;
}

/* The first arc by which a tray changes by more than it may. */
static void check_range(reading *r, const table *t)
{
    for (size_t i = 0; i < r->len && !r->refused; i++) {
        const entry *e = &r->entries[i];
        if (e->is != ARC || e->tests) continue;
        int64_t coefficient = t->coefs[cell(r, t, e)];
        bool from = is_from_tray(r, e);
        if (!is_out_of_range(coefficient) || from != (coefficient < 0)) continue;
        shown name = net_arc(e), tray = net_quote(r->entries[from ? e->from : e->to].name), activity = net_quote(r->entries[from ? e->to : e->from].name);
        net_refuse(r, e->line, COEFFICIENT, "by %s the activity \"%s\" changes the tray \"%s\" by %lld; at most %d either way", name.text, activity.text,
               tray.text, (long long)coefficient, MOST_COEFFICIENT);
    }
}

static bool is_changed(const table *t, size_t place)
{
    for (size_t j = 0; j < t->q; j++)
        if (t->coefs[place * t->q + j] != 0) return true;
    return false;
}

static void check_size(reading *r, table *t)
{
    for (size_t i = 0; i < t->places; i++) t->changed += is_changed(t, i);
    if (t->changed > MOST_TRAYS) net_refuse_all(r, TRAYS, "%zu trays change; at most %d", t->changed, MOST_TRAYS);
    else if (t->changed == 0) net_refuse_all(r, TRAYS, "no activity changes a tray: there is nothing to solve, each activity alone is a loop");
}

static void make_table(reading *r, table *t)
{
    t->places = number_of(r, PLACE);
    t->q = number_of(r, TRANSITION);
    if (t->q > MOST_ACTIVITIES) net_refuse_all(r, ACTIVITIES, "%zu activities; at most %d", t->q, MOST_ACTIVITIES);
    else if (t->q == 0) net_refuse_all(r, ACTIVITIES, "the net has no activities (transitions)");
    if (r->refused) return;
    t->coefs = calloc(t->places * t->q + 1, sizeof *t->coefs);
    if (t->coefs == NULL) {
        net_no_memory(r);
        return;
    }
    add_arcs(r, t);
    check_range(r, t);
    if (!r->refused) check_size(r, t);
}

/* ---- the map */

static char *copy(reading *r, const char *text)
{
    char *out = text == NULL ? NULL : malloc(strlen(text) + 1);
    if (text != NULL && out == NULL) net_no_memory(r);
    return out == NULL ? NULL : memcpy(out, text, strlen(text) + 1);
}

static node node_of(reading *r, const entry *e)
{
    const char *page = e->page == NOWHERE ? NULL : r->entries[e->page].name;
    return (node){.name = copy(r, e->name), .x = e->x, .y = e->y, .placed = e->placed, .page = copy(r, page)};
}

static bool make_room(reading *r, map *m, const table *t)
{
    m->coefs = calloc(t->changed * t->q, sizeof *m->coefs);
    m->trays = calloc(t->changed, sizeof *m->trays);
    m->activities = calloc(t->q, sizeof *m->activities);
    m->unchanged_names = calloc(t->places + 1, sizeof *m->unchanged_names);
    m->all_trays = calloc(t->places, sizeof *m->all_trays);
    m->arcs = calloc(2 * r->len + 1, sizeof *m->arcs);
    bool made = m->coefs != NULL && m->trays != NULL && m->activities != NULL && m->unchanged_names != NULL && m->all_trays != NULL && m->arcs != NULL;
    if (!made) net_no_memory(r);
    return !r->refused;
}

static void put_place(reading *r, map *m, const table *t, const entry *e)
{
    m->all_trays[m->all_trays_len++] = node_of(r, e);
    if (!is_changed(t, e->number)) {
        m->unchanged_names[m->unchanged++] = copy(r, e->name);
        return;
    }
    for (size_t j = 0; j < t->q; j++) m->coefs[m->p * t->q + j] = (int32_t)t->coefs[e->number * t->q + j];
    m->trays[m->p++] = node_of(r, e);
}

static void put_arc(const reading *r, map *m, const entry *e)
{
    bool from = is_from_tray(r, e);
    arc a = {.tray = r->entries[from ? e->from : e->to].number, .activity = r->entries[from ? e->to : e->from].number, .from_tray = from, .weight = e->moves};
    m->arcs[m->arcs_len++] = a;
    if (!e->tests) return;
    a.from_tray = !from;
    m->arcs[m->arcs_len++] = a;
}

static void make_map(reading *r, map *m, const table *t)
{
    if (!make_room(r, m, t)) return;
    m->named = true;
    for (size_t i = 0; i < r->len && !r->refused; i++) {
        const entry *e = &r->entries[i];
        if (e->is == PLACE) put_place(r, m, t, e);
        else if (e->is == TRANSITION) m->activities[m->q++] = node_of(r, e);
        else if (e->is == ARC) put_arc(r, m, e);
    }
}

/* ---- the whole reading */

bool map_read_pnml(const char *bytes, size_t len, map *out, fault *why)
{
    reading r;
    table t = {0};
    memset(out, 0, sizeof *out);
    if (len > MOST_BYTES) return fault_set(why, LENGTH, "the file has more than 16 MB");
    if (net_begin(&r, why)) net_read(&r, bytes, len);
    if (!r.refused) link_entries(&r);
    if (!r.refused) make_names(&r, PLACE);
    if (!r.refused) make_names(&r, TRANSITION);
    if (!r.refused) make_names(&r, PAGE);
    if (!r.refused) make_table(&r, &t);
    if (!r.refused) make_map(&r, out, &t);
    if (r.refused) map_free(out);
    free(t.coefs);
    net_end(&r);
    return !r.refused;
}

#endif
