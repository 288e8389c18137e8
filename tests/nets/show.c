/* What a net is read as, in plain lines: show FILE. Status 0: read; 1: refused, and the refusal is printed; 2: no file. */
#include "../../programs/map.h"

#include <stdlib.h>

static char *whole(const char *name, size_t *len)
{
    FILE *file = fopen(name, "rb");
    char *bytes = malloc(1);
    *len = 0;
    for (size_t room = 1, got = 1; file != NULL && bytes != NULL && got > 0; *len += got) {
        if (*len == room) bytes = realloc(bytes, room *= 2);
        got = bytes == NULL ? 0 : fread(bytes + *len, 1, room - *len, file);
    }
    if (file == NULL || ferror(file)) {
        free(bytes);
        bytes = NULL;
    }
    if (file != NULL) fclose(file);
    return bytes;
}

static void show_nodes(const char *sort, const node *nodes, size_t len)
{
    for (size_t i = 0; i < len; i++) {
        printf("%s %zu: %s", sort, i + 1, nodes[i].name);
        if (nodes[i].page != NULL) printf(" | page %s", nodes[i].page);
        if (nodes[i].placed) printf(" | at %g %g", nodes[i].x, nodes[i].y);
        putchar('\n');
    }
}

static void show(const map *m)
{
    printf("%zu %zu\n", m->p, m->q);
    for (size_t i = 0; i < m->p * m->q; i++) printf("%d%c", (int)m->coefs[i], (i + 1) % m->q == 0 ? '\n' : ' ');
    show_nodes("tray", m->trays, m->p);
    show_nodes("activity", m->activities, m->q);
    for (size_t i = 0; i < m->unchanged; i++) printf("unchanged: %s\n", m->unchanged_names[i]);
    for (size_t i = 0; i < m->arcs_len; i++) {
        const char *tray = m->all_trays[m->arcs[i].tray].name, *activity = m->activities[m->arcs[i].activity].name;
        printf("arc: %s -> %s, %u\n", m->arcs[i].from_tray ? tray : activity, m->arcs[i].from_tray ? activity : tray, (unsigned)m->arcs[i].weight);
    }
}

int main(int count, char **words)
{
    size_t len = 0;
    char *bytes = count == 2 ? whole(words[1], &len) : NULL;
    map m;
    fault why = {0};
    if (bytes == NULL) return 2;
    bool read = map_read_pnml(bytes, len, &m, &why);
    if (read) show(&m);
    else printf("refused %u: %s\n", why.number, why.text);
    map_free(&m);
    free(bytes);
    return read ? 0 : 1;
}
