#include <inttypes.h>
#include <stdlib.h>
#include <string.h>

#include "checkpoint.h"
#include "command.h"
#include "io.h"
#include "join.h"
#include "limits.h"
#include "read.h"

/* The whole map, its trays by desks, and how many each desk has. */
typedef struct {
    map m;
    size_t *desks;
    size_t desks_len;
} office;

/* ---- reading */

static int read_pages(const options *o, office *of)
{
    fault why = {0, ""};
    int status = read_map(o->words[0], o->strict, &of->m);
    if (status != STATUS_COMPLETE) return status;
    of->desks = desks_by_page(&of->m, &of->desks_len, &why);
    return of->desks != NULL ? STATUS_COMPLETE : io_refuse(o->words[0], &why);
}

/* Notes for each tray which file it came from, as a net notes the page. */
static bool note_files(const options *o, office *of)
{
    size_t i = 0;
    for (size_t k = 0; k < of->desks_len; k++)
        for (size_t end = i + of->desks[k]; i < end; i++) {
            of->m.trays[i].page = strdup(o->words[k]);
            if (of->m.trays[i].page == NULL) return false;
        }
    return true;
}

/* Leaves out the desks that bring no tray of their own. */
static void drop_empty(office *of)
{
    size_t kept = 0;
    for (size_t k = 0; k < of->desks_len; k++)
        if (of->desks[k] > 0) of->desks[kept++] = of->desks[k];
    of->desks_len = kept;
}

static int read_files(const options *o, office *of)
{
    fault why = {0, ""};
    size_t n = 0;
    int status = STATUS_COMPLETE;
    map *maps = calloc(o->words_len, sizeof *maps);
    of->desks = calloc(o->words_len, sizeof *of->desks);
    of->desks_len = o->words_len;
    if (maps == NULL || of->desks == NULL) {
        io_say("there is no memory");
        status = STATUS_NOTHING;
    }
    while (status == STATUS_COMPLETE && n < o->words_len) {
        status = read_map(o->words[n], o->strict, &maps[n]);
        if (status == STATUS_COMPLETE) n++;
    }
    if (status == STATUS_COMPLETE && !join_maps(maps, n, &of->m, of->desks, &why)) status = io_refuse("desks", &why);
    if (status == STATUS_COMPLETE && !note_files(o, of)) {
        io_say("there is no memory");
        status = STATUS_NOTHING;
    }
    for (size_t k = 0; k < n; k++) map_free(&maps[k]);
    free(maps);
    drop_empty(of);
    return status;
}

/* ---- solving, both ways */

/* The name of the file in which one of the two runs is kept; NULL where none is. */
static char *kept_name(const options *o, const char *which)
{
    if (o->checkpoint == NULL) return NULL;
    size_t room = strlen(o->checkpoint) + strlen(which) + 2;
    char *name = malloc(room);
    if (name != NULL) snprintf(name, room, "%s.%s", o->checkpoint, which);
    return name;
}

static int solve_one(const options *o, const office *of, bool whole, solved *out)
{
    problem what = {.p = of->m.p, .q = of->m.q, .coefs = of->m.coefs, .how = o->walk ? BY_WALK : BY_ENGINE};
    if (!whole) {
        what.groups = of->desks;
        what.groups_len = of->desks_len;
    }
    char *kept = kept_name(o, whole ? "whole" : "desks");
    int status = work(&what, whole ? "as one map" : "one desk after the other", kept, out);
    free(kept);
    solved_sort(out);
    return status;
}

static void remove_kept(const options *o)
{
    static const char *const which[] = {"whole", "desks"};
    for (size_t k = 0; k < 2; k++) {
        char *kept = kept_name(o, which[k]);
        if (kept != NULL) checkpoint_remove(kept);
        free(kept);
    }
}

/* ---- telling */

static void tell_list(const char *how, const office *of, const solved *s)
{
    if (!s->complete && s->loops_len == 0) {
        /* none is not "no loops" */
        printf("\n%s: %s\n", how, s->q == 0 ? "not begun" : "NOT complete; no loop is sure before the end");
        return;
    }
    printf("\n%s: %zu loop%s", how, s->loops_len, s->loops_len == 1 ? "" : "s");
    if (s->walked) printf(", %" PRIu64 " steps", s->last.steps);
    puts(s->complete ? "" : ", NOT complete");
    rows_in_words(stdout, &of->m, s->loops, s->loops_len);
}

/* Says which loops are on one side only; gives how many. Both lists are sorted. */
static size_t differences(const office *of, const solved *whole, const solved *built)
{
    size_t i = 0, k = 0, count = 0, q = of->m.q;
    while (i < whole->loops_len || k < built->loops_len) {
        const uint32_t *x = whole->loops + i * q, *y = built->loops + k * q;
        int order = i == whole->loops_len ? 1 : k == built->loops_len ? -1 : compare_rows(x, y, q);
        if (order == 0) {
            i++;
            k++;
            continue;
        }
        fputs(order < 0 ? "only as one map: " : "only one desk after the other: ", stdout);
        row_in_words(stdout, &of->m, order < 0 ? x : y);
        putchar('\n');
        i += order < 0;
        k += order > 0;
        count++;
    }
    return count;
}

static void tell_desks(const office *of)
{
    const node *tray = of->m.trays;
    printf("%zu desks, %zu trays, %zu activities\n", of->desks_len, of->m.p, of->m.q);
    for (size_t k = 0; k < of->desks_len; k++) {
        printf("  desk %zu%s%s:", k + 1, tray->page != NULL ? ", " : "", tray->page != NULL ? tray->page : "");
        for (const node *end = tray + of->desks[k]; tray < end; tray++) printf(" %s%s", tray->name, tray + 1 < end ? "," : "\n");
    }
}

static int tell(const office *of, const solved *whole, const solved *built)
{
    tell_desks(of);
    tell_list("Loaded as one map", of, whole);
    tell_list("Built one desk after the other", of, built);
    putchar('\n');
    if (!whole->complete || !built->complete) {
        puts("not compared: a list is not complete");
        return STATUS_CUT_SHORT;
    }
    if (differences(of, whole, built) > 0) return STATUS_REFUSED;
    printf("the same %zu loop%s\n", whole->loops_len, whole->loops_len == 1 ? "" : "s");
    return STATUS_COMPLETE;
}

static int desks(const options *o)
{
    office of;
    solved whole, built;
    memset(&of, 0, sizeof of);
    memset(&whole, 0, sizeof whole);
    memset(&built, 0, sizeof built);
    int status = o->words_len == 1 ? read_pages(o, &of) : read_files(o, &of);
    if (status == STATUS_COMPLETE) status = solve_one(o, &of, true, &whole);
    /* an interrupt ends both */
    int second = has_lists(status) && !whole.interrupted ? solve_one(o, &of, false, &built) : status;
    if (has_lists(status) && has_lists(second)) status = tell(&of, &whole, &built);
    else status = second;
    if (has_lists(status)) status = fflush(stdout) == 0 ? status : STATUS_NOTHING;
    if (status == STATUS_COMPLETE) remove_kept(o);
    solved_free(&whole);
    solved_free(&built);
    map_free(&of.m);
    free(of.desks);
    return status;
}

const command command_desks = {
    "desks", "desks FILE FILE .. | NET", "one map, and the same map built one desk after the other: the same loops?",
    "Each FILE is a desk: its trays over the same activities (in nets, those of the same name). Or one net whose pages are the desks. Both lists are shown,\n"
    "then \"the same N loops\", or which loop is on one side only. --checkpoint FILE keeps two runs, in FILE.whole and FILE.desks.\n",
    TAKES_WALK | TAKES_CHECKPOINT | TAKES_STRICT, 1, MOST_TRAYS, desks
};
