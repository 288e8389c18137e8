/* Pictures and pages of a net, with lists from a file in place of a solver:
 *   draw picture FILE [COUNT ..]     the SVG, with a loop of these counts
 *   draw page FILE ROWS [cut]        the page; ROWS is a list in 4ti2's matrix form ("n q" and n rows), which is complete unless it is cut
 *   draw bare FILE ROWS              the page of the equations alone, as of a map in another format, with a right side
 * Status 0: written; 1: the net is refused; 2: no file, no list, or not written. */
#include "../../programs/map.h"

#include <inttypes.h>
#include <stdlib.h>
#include <string.h>

static bool read_net(const char *name, map *m)
{
    enum { ROOM = 1 << 24 };
    FILE *file = fopen(name, "rb");
    char *bytes = malloc(ROOM);
    fault why = {0};
    if (file == NULL || bytes == NULL) exit(2);
    size_t len = fread(bytes, 1, ROOM, file);
    fclose(file);
    bool read = map_read_pnml(bytes, len, m, &why);
    if (!read) fprintf(stderr, "refused %u: %s\n", why.number, why.text);
    free(bytes);
    return read;
}

static uint32_t *read_rows(const char *name, listing *l)
{
    FILE *file = fopen(name, "r");
    if (file == NULL || fscanf(file, "%zu %zu", &l->n, &l->q) != 2) exit(2);
    uint32_t *rows = calloc(l->n * l->q + 1, sizeof *rows);
    for (size_t i = 0; rows != NULL && i < l->n * l->q; i++)
        if (fscanf(file, "%" SCNu32, &rows[i]) != 1) exit(2);
    fclose(file);
    return rows;
}

static int write_picture(const map *m, char **counts, size_t len)
{
    uint32_t *loop = calloc(m->q, sizeof *loop);
    if (loop == NULL) return -1;
    for (size_t j = 0; j < m->q && j < len; j++) loop[j] = (uint32_t)strtoul(counts[j], NULL, 10);
    int status = picture_write(stdout, m, len > 0 ? loop : NULL);
    free(loop);
    return status;
}

static int write_page(const map *m, const char *name, bool complete)
{
    listing l = {.complete = complete};
    uint32_t *rows = read_rows(name, &l);
    if (rows == NULL || l.q != m->q) return -1;
    l.rows = rows;
    int status = report_write(stdout, m, &l);
    free(rows);
    return status;
}

static int write_bare(const map *m, const char *name)
{
    int32_t *rights = calloc(m->p, sizeof *rights);
    if (rights == NULL) return -1;
    rights[0] = 1;
    map bare = {.p = m->p, .q = m->q, .coefs = m->coefs, .rights = rights, .trays = m->trays, .activities = m->activities};
    int status = write_page(&bare, name, true);
    free(rights);
    return status;
}

int main(int count, char **words)
{
    map m;
    int status = -1;
    if (count < 3) return 2;
    if (!read_net(words[2], &m)) return 1;
    if (strcmp(words[1], "bare") == 0 && count > 3) status = write_bare(&m, words[3]);
    else if (strcmp(words[1], "page") == 0 && count > 3) status = write_page(&m, words[3], count == 4);
    else if (strcmp(words[1], "picture") == 0) status = write_picture(&m, words + 3, (size_t)(count - 3));
    map_free(&m);
    return status == 0 && fflush(stdout) == 0 ? 0 : 2;
}
