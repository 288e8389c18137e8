#include <errno.h>
#include <stdlib.h>
#include <string.h>

#include "command.h"
#include "dezgula_text.h"
#include "io.h"
#include "read.h"
#include "replace.h"

/* The bytes of the file of a list; NULL: refused, and `why` says why. */
static uint8_t *file_of_list(const map *m, const solved *s, size_t *len, fault *why)
{
    dezgula_system system = {m->p, m->q, m->coefs, m->p * m->q};
    dezgula_list list = {s->loops, s->loops_len * m->q, s->loops_len};
    if (s->loops_len > DEZGULA_FILE_MOST_ROWS) {
        fault_set(why, DEZGULA_FILE_RANGE, "%zu loops; a list file has at most %d, and dezgula loops --format csv any number", s->loops_len,
                  DEZGULA_FILE_MOST_ROWS);
        return NULL;
    }
    *len = DEZGULA_FILE_LENGTH(m->p, m->q, s->loops_len);
    uint8_t *bytes = malloc(*len);
    if (bytes == NULL) {
        fault_set(why, 0, "there is no memory for the file");
        return NULL;
    }
    uint64_t answer = dezgula_write_list(&system, &list, s->complete ? DEZGULA_FILE_COMPLETE : DEZGULA_FILE_PAUSED, bytes, *len);
    if (answer == DEZGULA_LIST_WRITTEN) return bytes;
    fault_set(why, dezgula_number(answer), "no list file: %s", dezgula_sentence(answer));
    free(bytes);
    return NULL;
}

static int write_list(const options *o, const map *m, const solved *s, int status)
{
    fault why = {0, ""};
    size_t len = 0;
    if (!s->complete && !s->walked) {
        io_say("nothing is saved: no loop is sure before the end (--walk lists loops as it finds them)");
        return status;
    }
    uint8_t *bytes = file_of_list(m, s, &len, &why);
    if (bytes == NULL) return io_refuse(file_of(o), &why);
    if (o->words_len < 2) fwrite(bytes, 1, len, stdout);
    else if (!replace_file(o->words[1], bytes, len)) {
        io_say("cannot write %s: %s", o->words[1], strerror(errno));
        status = STATUS_NOTHING;
    }
    free(bytes);
    if (s->has_wanted) io_say("a list file holds loops; what meets the right sides is not in it");
    if (status == STATUS_CUT_SHORT) io_say("the list is saved as one that is cut short, with %zu loop%s", s->loops_len, s->loops_len == 1 ? "" : "s");
    return finish(o, status);
}

/* Whether a list of the map fits a list file; a map that does not is refused before it is solved. */
static bool fits(const map *m, fault *why)
{
    static const char other[] = "dezgula loops --format csv writes a table of any map";
    if (m->p > DEZGULA_MOST_EQUATIONS)
        return fault_set(why, DEZGULA_EQUATIONS, "%zu trays change; a list file has at most %d; %s", m->p, DEZGULA_MOST_EQUATIONS, other);
    if (m->q > DEZGULA_MOST_UNKNOWNS)
        return fault_set(why, DEZGULA_UNKNOWNS, "%zu activities; a list file has at most %d; %s", m->q, DEZGULA_MOST_UNKNOWNS, other);
    return true;
}

static int save(const options *o)
{
    map m;
    solved s;
    fault why = {0, ""};
    if (o->words_len < 2 && is_terminal("send the list to a file: dezgula save MAP > FILE")) return STATUS_NOTHING;
    int status = read_map(file_of(o), o->strict, &m);
    if (status != STATUS_COMPLETE) return status;
    memset(&s, 0, sizeof s);
    status = fits(&m, &why) ? solve_map(&m, o, file_of(o), &s) : io_refuse(file_of(o), &why);
    if (has_lists(status)) status = write_list(o, &m, &s, status);
    solved_free(&s);
    map_free(&m);
    return status;
}

const command command_save = {
    "save", "save MAP [LIST]", "solve a map and save its list as a file that can be sent",
    "The file goes to LIST, or to standard output; dezgula show reads it. It holds at most 8 trays, 16 activities and 4,096 loops. A list that is cut short\n"
    "(--walk --steps N, or an interrupt) is saved as such, and the status is 3.\n",
    TAKES_WALK | TAKES_STEPS | TAKES_CHECKPOINT | TAKES_STRICT, 0, 2, save
};
