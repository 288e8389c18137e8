/* The calls of include/dezgula_engine.h over the proved functions of raw.h, as library/dezgula.c has those of dezgula.h. */
#include "dezgula_engine.h"
#include "raw.h"

void dezgula_engine_pack(dezgula_engine_record record, uint64_t words[DEZGULA_ENGINE_RECORD_LENGTH])
{
    words[0] = record.done;
    words[1] = record.equation;
    words[2] = record.fresh;
    words[3] = record.count;
    words[4] = record.rows;
    words[5] = record.taken;
    words[6] = record.degree;
    words[7] = record.upper;
    words[8] = record.lower;
    words[9] = record.steps.count;
    words[10] = record.cap;
}

dezgula_engine_record dezgula_engine_unpack(const uint64_t words[DEZGULA_ENGINE_RECORD_LENGTH])
{
    dezgula_engine_record record;
    record.done = (uint32_t)words[0];
    record.equation = words[1];
    record.fresh = words[2];
    record.count = words[3];
    record.rows = words[4];
    record.taken = words[5];
    record.degree = words[6];
    record.upper = words[7];
    record.lower = words[8];
    record.steps.count = words[9];
    record.cap = words[10];
    return record;
}

/* A table and its length, as the proved functions take them. */
#define TABLE(of, name) dezgula_lent((of)->name), dezgula_lent_length((of)->name, (of)->name##_len)
#define LENT(table, length) dezgula_lent(table), dezgula_lent_length(table, length)
#define BASIS(run) TABLE(run, equations), TABLE(run, basis), TABLE(run, sizes)
#define STAGE(run) TABLE(run, table), TABLE(run, values), TABLE(run, words), TABLE(run, degrees), TABLE(run, marks), TABLE(run, mothers)
#define RECORD(record) (record), (size_t)DEZGULA_ENGINE_RECORD_LENGTH

/* A call on a run: its record goes in as words, and comes out of them. */
#define ON_WORDS(run, call)                            \
    do {                                               \
        uint64_t record[DEZGULA_ENGINE_RECORD_LENGTH]; \
        dezgula_engine_pack((run)->record, record);    \
        uint64_t answer = (call);                      \
        (run)->record = dezgula_engine_unpack(record); \
        return answer;                                 \
    } while (0)

uint64_t dezgula_engine_start(const dezgula_system *system, dezgula_engine_run *run)
{
    ON_WORDS(run, dezgula_raw_engine_start(system->p, system->q, TABLE(system, coefs), BASIS(run), RECORD(record)));
}

uint64_t dezgula_engine_start_sides(const dezgula_system *system, const int32_t *rights, size_t rights_len, const uint32_t *lower, size_t lower_len,
                                    dezgula_engine_run *run)
{
    ON_WORDS(run, dezgula_raw_engine_start_sides(system->p, system->q, TABLE(system, coefs), LENT(rights, rights_len), LENT(lower, lower_len), BASIS(run),
                                                 RECORD(record)));
}

uint64_t dezgula_engine_start_from(const dezgula_system *system, const dezgula_list *list, dezgula_engine_run *run)
{
    ON_WORDS(run, dezgula_raw_engine_start_from(system->p, system->q, TABLE(system, coefs), list->found, TABLE(list, rows), BASIS(run), RECORD(record)));
}

uint64_t dezgula_engine_combine(size_t p, size_t q, dezgula_engine_run *run, size_t r, int32_t u, size_t s, int32_t t)
{
    ON_WORDS(run, dezgula_raw_engine_combine(p, q, BASIS(run), STAGE(run), RECORD(record), r, u, s, t));
}

uint64_t dezgula_engine_take(size_t p, size_t q, dezgula_engine_run *run, size_t e, size_t f)
{
    ON_WORDS(run, dezgula_raw_engine_take(p, q, BASIS(run), STAGE(run), RECORD(record), e, f));
}

uint64_t dezgula_engine_resume(size_t p, size_t q, dezgula_engine_run *run, uint64_t budget)
{
    ON_WORDS(run, dezgula_raw_engine_resume(p, q, BASIS(run), STAGE(run), RECORD(record), budget));
}

/* ---- questions about a list */

#define LIST(list) LENT((list)->rows, (list)->rows_len)

uint64_t dezgula_engine_locate(const dezgula_system *system, const dezgula_list *list, const uint32_t *tuple, size_t tuple_len)
{
    return dezgula_raw_engine_locate(LIST(list), system->q, list->found, LENT(tuple, tuple_len));
}

uint64_t dezgula_engine_reason(const dezgula_system *system, const dezgula_list *list, const uint32_t *tuple, size_t tuple_len, int64_t *amount)
{
    int64_t unasked[1];
    return dezgula_raw_engine_reason(system->p, system->q, TABLE(system, coefs), LIST(list), list->found, LENT(tuple, tuple_len),
                                     amount != NULL ? amount : unasked);
}

uint64_t dezgula_engine_decompose(const dezgula_system *system, const dezgula_list *list, const uint32_t *tuple, size_t tuple_len, uint32_t *times,
                                  size_t times_len, int64_t *amount)
{
    int64_t unasked[1];
    return dezgula_raw_engine_decompose(system->p, system->q, TABLE(system, coefs), LIST(list), list->found, LENT(tuple, tuple_len), LENT(times, times_len),
                                        amount != NULL ? amount : unasked);
}

/* ---- a map in the place of another */

uint64_t dezgula_engine_reformulates(const dezgula_system *system, const dezgula_reformulation *by)
{
    return dezgula_raw_engine_reformulates(system->p, system->q, by->further, by->equations, TABLE(system, coefs), TABLE(by, extended), TABLE(by, other),
                                           TABLE(by, onto), TABLE(by, back), TABLE(by, above));
}

uint64_t dezgula_engine_project(size_t q, size_t further, const dezgula_list *list, uint32_t *out, size_t out_len)
{
    return dezgula_raw_engine_project(q, further, list->found, LIST(list), LENT(out, out_len));
}
