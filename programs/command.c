#include "command.h"

#include <stdlib.h>
#include <string.h>
#include <unistd.h>

#include "build_map.h"
#include "checkpoint.h"
#include "io.h"
#include "limits.h"
#include "names.h"
#include "read.h"

const char *file_of(const options *o)
{
    return o->words_len > 0 ? o->words[0] : "-";
}

const char *name_of(const options *o)
{
    const char *file = file_of(o), *slash = strrchr(file, '/');
    return strcmp(file, "-") == 0 ? NULL : slash != NULL ? slash + 1 : file;
}

int set_deliveries(map *m, const options *o)
{
    if (o->deliver_len == 0) return STATUS_COMPLETE;
    if (m->rights == NULL) m->rights = calloc(m->p, sizeof *m->rights);
    if (m->rights != NULL) return rights_read(m, o->deliver, o->deliver_len, m->rights);
    io_say("there is no memory");
    return STATUS_NOTHING;
}

/* ---- desks */

/* Whether two trays stand on the same page; those on none count as one. */
static bool same_page(const node *a, const node *b)
{
    if (a->page == NULL || b->page == NULL) return a->page == b->page;
    return strcmp(a->page, b->page) == 0;
}

/* Takes tray i from its place to place k before it; those between move up. */
static void move_tray(map *m, size_t i, size_t k, int32_t *row)
{
    node own = m->trays[i];
    int32_t right = m->rights != NULL ? m->rights[i] : 0;
    memcpy(row, m->coefs + i * m->q, m->q * sizeof *row);
    memmove(m->trays + k + 1, m->trays + k, (i - k) * sizeof *m->trays);
    memmove(m->coefs + (k + 1) * m->q, m->coefs + k * m->q, (i - k) * m->q * sizeof *m->coefs);
    if (m->rights != NULL) {
        memmove(m->rights + k + 1, m->rights + k, (i - k) * sizeof *m->rights);
        m->rights[k] = right;
    }
    memcpy(m->coefs + k * m->q, row, m->q * sizeof *row);
    m->trays[k] = own;
}

size_t *desks_by_page(map *m, size_t *desks_len, fault *why)
{
    size_t *desks = calloc(m->p + 1, sizeof *desks);
    int32_t *row = malloc(m->q * sizeof *row);
    *desks_len = 0;
    for (size_t k = 0; desks != NULL && row != NULL && k < m->p;) {
        size_t first = k++;
        for (size_t i = k; i < m->p; i++)
            if (same_page(&m->trays[first], &m->trays[i])) move_tray(m, i, k++, row);
        desks[(*desks_len)++] = k - first;
    }
    bool memory = desks != NULL && row != NULL;
    free(row);
    if (memory && *desks_len > 1) return desks;
    free(desks);
    if (!memory) fault_set(why, 0, "there is no memory");
    else fault_set(why, 0, "desks are the pages of a net, and this map has trays on one page only; give each desk as a file to dezgula desks");
    return NULL;
}

/* ---- from a map to its lists */

/* The problem with the parts that it points to, which have to stay until it is solved. */
typedef struct {
    map grouped; /* the map with its trays by desks; its nodes are the map's own */
    size_t *groups;
    uint32_t lower[MOST_ACTIVITIES];
    problem what;
} prepared;

static bool prepare_desks(const map *m, prepared *p, fault *why)
{
    map copy = *m;
    copy.trays = malloc(m->p * sizeof *copy.trays);
    copy.coefs = malloc(m->p * m->q * sizeof *copy.coefs);
    copy.rights = NULL;
    bool memory = copy.trays != NULL && copy.coefs != NULL;
    if (memory) {
        memcpy(copy.trays, m->trays, m->p * sizeof *copy.trays);
        memcpy(copy.coefs, m->coefs, m->p * m->q * sizeof *copy.coefs);
        p->groups = desks_by_page(&copy, &p->what.groups_len, why);
    } else {
        fault_set(why, 0, "there is no memory");
    }
    free(copy.trays);
    p->grouped = copy;
    p->what.coefs = copy.coefs;
    p->what.groups = p->groups;
    return p->groups != NULL;
}

static bool prepare(const map *m, const options *o, prepared *p, fault *why)
{
    p->what.p = m->p;
    p->what.q = m->q;
    p->what.coefs = m->coefs;
    p->what.rights = map_has_rights(m) ? m->rights : NULL;
    p->what.how = o->walk ? BY_WALK : BY_ENGINE;
    p->what.most_steps = o->steps;
    if (o->at_least_len > 0) {
        if (!counts_read(m, o->at_least, o->at_least_len, p->lower, why)) return false;
        p->what.lower = p->lower;
    }
    return !o->desks || prepare_desks(m, p, why);
}

int solve_map(const map *m, const options *o, const char *name, solved *out)
{
    fault why = {0, ""};
    prepared p;
    memset(&p, 0, sizeof p);
    memset(out, 0, sizeof *out);
    int status = prepare(m, o, &p, &why) ? work(&p.what, name, o->checkpoint, out) : io_refuse(name, &why);
    free(p.groups);
    free(p.grouped.coefs);
    if (!o->walk) solved_sort(out);
    return status;
}

bool has_lists(int status)
{
    return status == STATUS_COMPLETE || status == STATUS_CUT_SHORT;
}

bool is_terminal(const char *advice)
{
    if (isatty(STDOUT_FILENO) != 1) return false;
    io_say("standard output is a terminal; %s", advice);
    return true;
}

int show_lists(const options *o, format how)
{
    map m;
    solved s;
    if (how == FORMAT_HTML && is_terminal("send the page to a file: dezgula report FILE > page.html")) return STATUS_NOTHING;
    int status = read_map(file_of(o), o->strict, &m);
    if (status != STATUS_COMPLETE) return status;
    memset(&s, 0, sizeof s);
    status = set_deliveries(&m, o);
    if (status == STATUS_COMPLETE) status = solve_map(&m, o, file_of(o), &s);
    if (has_lists(status)) {
        wanted_kind kind = !s.has_wanted ? NO_WANTED : map_has_rights(&m) ? DELIVERIES : PLANS;
        shown what = {&m, &s, kind, name_of(o)};
        format_write(stdout, how, &what);
        status = finish(o, status);
    }
    solved_free(&s);
    map_free(&m);
    return status;
}

int finish(const options *o, int status)
{
    if (fflush(stdout) != 0 || ferror(stdout)) return STATUS_NOTHING;
    if (status == STATUS_COMPLETE && o->checkpoint != NULL) checkpoint_remove(o->checkpoint);
    return status;
}
