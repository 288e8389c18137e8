#include <inttypes.h>
#include <stdlib.h>
#include <string.h>

#include "command.h"
#include "dezgula.h"
#include "io.h"
#include "read.h"

enum { BUDGET = 1000000, FIRST_ROWS = 64, MOST_ROWS = 1 << 20 };

/* Refuses a map whose activities do not move one document each. */
static int refuse(const options *o, const map *m, uint64_t answer)
{
    fault why;
    unsigned number = dezgula_number(answer);
    if (number == DEZGULA_COLUMN)
        fault_set(&why, number,
                  "activity %s (column %" PRIu64 ") does not move one document from one tray to another; dezgula loops lists the loops of any map",
                  m->activities[dezgula_place(answer) - 1].name, dezgula_place(answer));
    else fault_set(&why, number, "%s", dezgula_sentence(answer));
    return io_refuse(file_of(o), &why);
}

static bool lengthen(dezgula_run *run, size_t q)
{
    size_t rows = run->list_len == 0 ? FIRST_ROWS : 2 * (run->list_len / q);
    uint32_t *longer = rows <= MOST_ROWS ? realloc(run->list, rows * q * sizeof *longer) : NULL;
    if (longer == NULL) return false;
    run->list = longer;
    run->list_len = rows * q;
    return true;
}

static uint64_t walk(const dezgula_system *system, dezgula_run *run)
{
    uint64_t answer = dezgula_start_single_file(system, run);
    if (answer == DEZGULA_STARTED) answer = DEZGULA_PAUSED;
    while (answer == DEZGULA_PAUSED || (answer == DEZGULA_LIST_FULL && lengthen(run, system->q))) answer = dezgula_resume_single_file(system, run, BUDGET);
    return answer;
}

/* Prints what the proved listing wrote; where the map has names, the order of each line in names too. */
static void print_listing(const map *m, char *text)
{
    for (char *line = text; *line != 0;) {
        char *end = strchr(line, '\n'), *order = strstr(line, "order");
        if (end == NULL || order == NULL || order > end) return;
        printf("%.*s", (int)(end - line), line);
        if (m->named) {
            const char *between = "   ";
            for (char *at = order + strlen("order"); at < end; between = " > ") {
                unsigned long k = strtoul(at, &at, 10);
                if (k < 1 || k > m->q) break;
                printf("%s%s", between, m->activities[k - 1].name);
            }
        }
        putchar('\n');
        line = end + 1;
    }
}

static int list(const options *o, const map *m, const dezgula_system *system, const dezgula_run *run)
{
    /* a number of a line has at most two digits and a space, and stands at most twice in it */
    size_t room = (size_t)run->record.found.count * (6 * system->q + 16) + 1;
    char *out = calloc(room + 1, 1);
    dezgula_list listed = dezgula_listed(run);
    if (out == NULL) {
        io_say("there is no memory");
        return STATUS_NOTHING;
    }
    uint64_t answer = dezgula_listing(system, &listed, out, room);
    int status = STATUS_COMPLETE;
    if (dezgula_number(answer) == DEZGULA_LISTING_WRITTEN) print_listing(m, out);
    else status = refuse(o, m, answer);
    free(out);
    return status;
}

static int single(const options *o)
{
    map m;
    uint32_t stack[DEZGULA_STACK_LENGTH(DEZGULA_MOST_UNKNOWNS)];
    int status = read_map(file_of(o), o->strict, &m);
    if (status != STATUS_COMPLETE) return status;
    dezgula_system system = {m.p, m.q, m.coefs, m.p * m.q};
    dezgula_run run = {.stack = stack, .stack_len = sizeof stack / sizeof *stack};
    uint64_t answer = walk(&system, &run);
    if (answer != DEZGULA_COMPLETE && answer != DEZGULA_LIST_FULL && run.record.found.count == 0) {
        status = refuse(o, &m, answer);
    } else {
        status = list(o, &m, &system, &run);
        if (status == STATUS_COMPLETE) puts(answer == DEZGULA_COMPLETE ? "end complete" : "end paused");
        if (status == STATUS_COMPLETE && answer != DEZGULA_COMPLETE) status = STATUS_CUT_SHORT;
    }
    free(run.list);
    map_free(&m);
    return status;
}

const command command_single = {
    "single", "single FILE", "loops of a single-file map, each with the order of its activities",
    "In a single-file map each activity moves one document from one tray to another. A line a loop, as \"1 2 3 order 1 3 2\": its activities rising, then in\n"
    "the order in which each puts the document where the next takes it. At most 8 trays and 16 activities.\n",
    TAKES_STRICT, 0, 1, single
};
