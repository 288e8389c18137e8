#include <stdlib.h>
#include <string.h>

#include "build_map.h"
#include "command.h"
#include "dezgula_text.h"
#include "io.h"
#include "limits.h"

enum { COEFS = DEZGULA_MAP_COEFFICIENTS, ROWS = DEZGULA_FILE_MOST_ROWS * DEZGULA_MOST_UNKNOWNS };

/* Takes over what was read. */
static bool take(const dezgula_system *system, const dezgula_list *list, uint32_t ending, map *m, solved *s, fault *why)
{
    if (!map_make(m, system->p, system->q, why)) return false;
    memcpy(m->coefs, system->coefs, m->p * m->q * sizeof *m->coefs);
    s->q = m->q;
    s->loops_len = list->found;
    s->complete = ending == DEZGULA_FILE_COMPLETE;
    if (!s->complete) fault_set(&s->why, 0, "it was saved when it was cut short");
    s->loops = malloc((s->loops_len * s->q + 1) * sizeof *s->loops);
    if (s->loops == NULL) return fault_set(why, 0, "there is no memory for the list");
    if (s->loops_len > 0) memcpy(s->loops, list->rows, s->loops_len * s->q * sizeof *s->loops);
    return true;
}

static bool read_list(const char *bytes, size_t len, map *m, solved *s, fault *why)
{
    int32_t *coefs = malloc(COEFS * sizeof *coefs);
    uint32_t *rows = malloc(ROWS * sizeof *rows);
    dezgula_system system = {0, 0, NULL, 0};
    dezgula_list list = {NULL, 0, 0};
    uint32_t ending = 0;
    bool read = false;
    if (coefs == NULL || rows == NULL) {
        fault_set(why, 0, "there is no memory for the list");
    } else {
        uint64_t answer = dezgula_read_list((const uint8_t *)bytes, len, coefs, COEFS, rows, ROWS, &system, &list, &ending);
        if (answer == DEZGULA_LIST_READ) read = take(&system, &list, ending, m, s, why);
        else fault_set(why, dezgula_number(answer), "%s", dezgula_sentence(answer));
    }
    free(coefs);
    free(rows);
    return read;
}

static int show(const options *o)
{
    map m;
    solved s;
    fault why = {0, ""};
    size_t len = 0;
    int status;
    memset(&m, 0, sizeof m);
    memset(&s, 0, sizeof s);
    if (o->how == FORMAT_HTML && is_terminal("send the page to a file: dezgula show --format html LIST > page.html")) return STATUS_NOTHING;
    char *bytes = io_read(file_of(o), MOST_BYTES, &len, &status);
    if (bytes == NULL) return status;
    if (read_list(bytes, len, &m, &s, &why)) {
        shown what = {&m, &s, NO_WANTED, name_of(o)};
        format_write(stdout, o->how, &what);
        status = s.complete ? STATUS_COMPLETE : STATUS_CUT_SHORT;
        if (!s.complete) io_say("%s: not complete: %s", file_of(o), s.why.text);
    } else {
        status = io_refuse(file_of(o), &why);
    }
    free(bytes);
    solved_free(&s);
    map_free(&m);
    return status;
}

const command command_show = {
    "show", "show LIST", "check a saved list and show it",
    "LIST is a file that dezgula save wrote. It is refused where it is damaged; the status is 3 where the list in it is cut short.\n", TAKES_FORMAT, 0, 1, show
};
