#include "ask.h"

#include <stdlib.h>
#include <string.h>

#include "build_map.h"
#include "dezgula_engine.h"

void question_free(question *asked)
{
    free(asked->coefs);
    free(asked->rows);
    free(asked->tuple);
    memset(asked, 0, sizeof *asked);
}

/* Copies rows of `from` numbers into rows of q, which begin with an entry more where q is greater. */
static void copy_rows(const uint32_t *rows, size_t len, size_t from, uint32_t extra, uint32_t *out, size_t q)
{
    for (size_t i = 0; i < len; i++) {
        if (q > from) out[i * q] = extra;
        memcpy(out + i * q + (q - from), rows + i * from, from * sizeof *out);
    }
}

bool ask_about(const map *m, const uint32_t *counts, const solved *s, question *out)
{
    size_t more = map_has_rights(m) ? 1 : 0, loops = s != NULL ? s->loops_len : 0, wanted = s != NULL ? s->wanted_len : 0;
    question asked = {.p = m->p, .q = m->q + more, .loops = loops, .rows_len = loops + wanted};
    asked.coefs = malloc(asked.p * asked.q * sizeof *asked.coefs);
    asked.rows = malloc((asked.rows_len * asked.q + 1) * sizeof *asked.rows);
    asked.tuple = malloc(asked.q * sizeof *asked.tuple);
    *out = asked;
    if (asked.coefs == NULL || asked.rows == NULL || asked.tuple == NULL) {
        question_free(out);
        return false;
    }
    for (size_t i = 0; i < m->p; i++) {
        if (more > 0) asked.coefs[i * asked.q] = -m->rights[i];
        memcpy(asked.coefs + i * asked.q + more, m->coefs + i * m->q, m->q * sizeof *m->coefs);
    }
    copy_rows(counts, 1, m->q, 1, asked.tuple, asked.q);
    if (loops > 0) copy_rows(s->loops, loops, m->q, 0, asked.rows, asked.q);
    if (wanted > 0) copy_rows(s->wanted, wanted, m->q, 1, asked.rows + loops * asked.q, asked.q);
    return true;
}

/* ---- the calls */

static dezgula_system system_of(const question *asked)
{
    dezgula_system system = {asked->p, asked->q, asked->coefs, asked->p * asked->q};
    return system;
}

static dezgula_list list_of(const question *asked)
{
    dezgula_list list = {asked->rows, asked->rows_len * asked->q, asked->rows_len};
    return list;
}

static reply reply_of(uint64_t answer, fault *why)
{
    size_t place = (size_t)dezgula_place(answer);
    reply r = {ANSWER_REFUSED, place > 0 ? place - 1 : 0};
    switch (dezgula_number(answer)) {
    case DEZGULA_ALL_ZERO: r.kind = ANSWER_ZERO; break;
    case DEZGULA_OFF: r.kind = ANSWER_OFF; break;
    case DEZGULA_STANDS: r.kind = ANSWER_STANDS; break;
    case DEZGULA_ABOVE: r.kind = ANSWER_ABOVE; break;
    case DEZGULA_UNLISTED: r.kind = ANSWER_UNLISTED; break;
    case DEZGULA_MADE: r.kind = ANSWER_MADE; break;
    case DEZGULA_UNKNOWNS:
        fault_set(why, dezgula_number(answer), "questions are about at most %d activities, and a delivery counts as one more", DEZGULA_ENGINE_MOST);
        break;
    default: fault_set(why, dezgula_number(answer), "%s", dezgula_sentence(answer));
    }
    return r;
}

bool ask_tray(const question *asked, size_t i, int64_t *amount, fault *why)
{
    dezgula_system tray = {1, asked->q, asked->coefs + i * asked->q, asked->q};
    dezgula_list none = {NULL, 0, 0};
    *amount = 0;
    return reply_of(dezgula_engine_reason(&tray, &none, asked->tuple, asked->q, amount), why).kind != ANSWER_REFUSED;
}

reply ask_why(const question *asked, fault *why)
{
    dezgula_system system = system_of(asked);
    dezgula_list list = list_of(asked);
    return reply_of(dezgula_engine_reason(&system, &list, asked->tuple, asked->q, NULL), why);
}

reply ask_plan(const question *asked, uint32_t *times, fault *why)
{
    dezgula_system system = system_of(asked);
    dezgula_list list = list_of(asked);
    return reply_of(dezgula_engine_decompose(&system, &list, asked->tuple, asked->q, times, asked->rows_len, NULL), why);
}
