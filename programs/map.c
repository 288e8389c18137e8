#include "map.h"

#include <stdarg.h>
#include <stdlib.h>
#include <string.h>

#include "build_map.h"

bool fault_set(fault *why, unsigned number, const char *format, ...)
{
    va_list words;
    va_start(words, format);
    why->number = number;
    vsnprintf(why->text, sizeof why->text, format, words);
    va_end(words);
    return false;
}

static void nodes_free(node *nodes, size_t count)
{
    if (nodes == NULL) return;
    for (size_t i = 0; i < count; i++) {
        free(nodes[i].name);
        free(nodes[i].page);
    }
    free(nodes);
}

void map_free(map *m)
{
    nodes_free(m->trays, m->p);
    nodes_free(m->activities, m->q);
    nodes_free(m->all_trays, m->all_trays_len);
    if (m->unchanged_names != NULL)
        for (size_t i = 0; i < m->unchanged; i++) free(m->unchanged_names[i]);
    free(m->unchanged_names);
    free(m->coefs);
    free(m->rights);
    free(m->arcs);
    memset(m, 0, sizeof *m);
}

static node *numbered(size_t count, char letter)
{
    node *nodes = calloc(count, sizeof *nodes);
    for (size_t i = 0; nodes != NULL && i < count; i++) {
        char name[32];
        snprintf(name, sizeof name, "%c%zu", letter, i + 1);
        nodes[i].name = strdup(name);
        if (nodes[i].name == NULL) {
            nodes_free(nodes, count);
            return NULL;
        }
    }
    return nodes;
}

bool map_make(map *m, size_t p, size_t q, fault *why)
{
    memset(m, 0, sizeof *m);
    m->p = p;
    m->q = q;
    m->coefs = calloc(p * q, sizeof *m->coefs);
    m->rights = calloc(p, sizeof *m->rights);
    m->trays = numbered(p, 't');
    m->activities = numbered(q, 'x');
    if (m->coefs != NULL && m->rights != NULL && m->trays != NULL && m->activities != NULL) return true;
    map_free(m);
    return fault_set(why, 0, "there is no memory for the map");
}

const char *wanted_title(wanted_kind kind, size_t len)
{
    if (kind == DELIVERIES) return len == 1 ? "smallest way to deliver what is asked" : "smallest ways to deliver what is asked";
    return len == 1 ? "smallest plan with at least these counts" : "smallest plans with at least these counts";
}

const char *wanted_sense(wanted_kind kind, size_t len)
{
    if (len == 0) return "There is none";
    return kind == DELIVERIES ? "Every way to deliver it is one of these, and loops besides" : "Every such plan is one of these, and loops besides";
}

bool map_has_rights(const map *m)
{
    for (size_t i = 0; m->rights != NULL && i < m->p; i++)
        if (m->rights[i] != 0) return true;
    return false;
}
