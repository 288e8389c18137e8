#include "asked.h"

#include <inttypes.h>
#include <stdlib.h>
#include <string.h>

#include "build_map.h"
#include "io.h"
#include "names.h"
#include "read.h"

static int no_memory(void)
{
    io_say("there is no memory");
    return STATUS_NOTHING;
}

int asked_begin(const options *o, asked *out)
{
    fault why = {0, ""};
    memset(out, 0, sizeof *out);
    int status = read_map(file_of(o), o->strict, &out->m);
    if (status == STATUS_COMPLETE) status = set_deliveries(&out->m, o);
    if (status != STATUS_COMPLETE) return status;
    out->counts = calloc(out->m.q, sizeof *out->counts);
    if (out->counts == NULL) return no_memory();
    if (!counts_read(&out->m, o->words + 1, o->words_len - 1, out->counts, &why)) return io_refuse("COUNTS", &why);
    return ask_about(&out->m, out->counts, NULL, &out->q) ? STATUS_COMPLETE : no_memory();
}

int asked_trays(const asked *a, const char *before, size_t *off)
{
    fault why = {0, ""};
    for (size_t i = 0; i < a->m.p; i++) {
        int64_t amount;
        int64_t right = map_has_rights(&a->m) ? a->m.rights[i] : 0;
        if (!ask_tray(&a->q, i, &amount, &why)) return io_refuse("COUNTS", &why);
        if (amount == 0) continue;
        int64_t gain = amount + right;
        printf("%s%she tray %s would ", *off == 0 ? before : "", *off == 0 && before[0] != 0 ? "t" : "T", a->m.trays[i].name);
        if (gain == 0) fputs("stay as it is", stdout);
        else printf("%s by %" PRId64, gain > 0 ? "grow" : "shrink", gain > 0 ? gain : -gain);
        if (right != 0) printf(", and it is to %s by %" PRId64, right > 0 ? "grow" : "shrink", right > 0 ? right : -right);
        else if (map_has_rights(&a->m)) fputs(", and it is to stay as it is", stdout);
        puts(".");
        (*off)++;
    }
    return STATUS_COMPLETE;
}

int asked_solve(const options *o, asked *a)
{
    int status = solve_map(&a->m, o, file_of(o), &a->s);
    if (status != STATUS_COMPLETE && status != STATUS_CUT_SHORT) return status;
    question_free(&a->q);
    return ask_about(&a->m, a->counts, &a->s, &a->q) ? status : no_memory();
}

void asked_free(asked *a)
{
    question_free(&a->q);
    solved_free(&a->s);
    free(a->counts);
    map_free(&a->m);
}
