/* The calls of include/dezgula.h and include/dezgula_text.h over the proved functions of raw.h: structs are taken apart, NULL is handed over as an empty table,
 * and answers are said in English. What a call means is said in the headers, and what is proved of it in crates/dezgula. */
#include "dezgula.h"
#include "dezgula_text.h"
#include "raw.h"

/* ---- answers */

const char *dezgula_version(void)
{
    return DEZGULA_VERSION;
}

unsigned dezgula_number(uint64_t answer)
{
    return (unsigned)(answer & 0xff);
}

uint64_t dezgula_place(uint64_t answer)
{
    return answer >> 8;
}

/* A place in the table is the number. 31 to 36, 128 and 129 are the engine's. */
static const char *const sentences[] = {
    [DEZGULA_COMPLETE] = "The run is complete: what it lists is whole.",
    [DEZGULA_EQUATIONS] = "The number of equations is out of range: 1 to 8, for the engine 1 to 32.",
    [DEZGULA_UNKNOWNS] = "The number of unknowns is out of range: 1 to 16, with right sides 1 to 15, for the engine 1 to 32, or 1 to 31.",
    [DEZGULA_COUNT] = "There is not a coefficient for each unknown of each equation, or not a right side for each equation.",
    [DEZGULA_STACK_SHORT] = "The stack, or the table that the engine works in, is too short.",
    [DEZGULA_TUPLE_LENGTH] = "The lower bound or the tuple does not have a component for each unknown.",
    [DEZGULA_OUT_OF_ORDER] = "The record or the tables are out of order, or not those of this kind of run.",
    [DEZGULA_COEFFICIENT] = "A coefficient is outside -10,000 to 10,000.",
    [DEZGULA_TUPLE_RANGE] = "A component of the lower bound or of the tuple is above 1,000,000, at the training seat above 20.",
    [DEZGULA_TEXT_LINE] = "A line is not in the form, or not ended by a newline.",
    [DEZGULA_TEXT_LENGTH] = "The text is too long.",
    [DEZGULA_LIST_FULL] = "The list that the next solution belongs to is full.",
    [DEZGULA_COMPONENT] = "A component would pass 1,000,000.",
    [DEZGULA_STEPS_AT_LIMIT] = "The walk has taken 1,000,000,000,000 steps.",
    [DEZGULA_RIGHT_SIDE] = "A right side is outside -10,000 to 10,000.",
    [DEZGULA_GRAMMAR] = "The text is no equation, or it names an unknown that is not there.",
    [DEZGULA_DEPTH] = "Brackets stand deeper than eight.",
    [DEZGULA_MULTIPLIER] = "The multipliers around a bracket come to more than 10,000.",
    [DEZGULA_FILE_SIZE] = "The file or the space for it has not the length that its list asks for.",
    [DEZGULA_FILE_SUM] = "The words of a block do not add to zero: the file is damaged.",
    [DEZGULA_FILE_NUMBER] = "A block is not in its place: the file is damaged.",
    [DEZGULA_FILE_RANGE] = "A number in the file or for it is out of range, or a row is not whole.",
    [DEZGULA_TRAINING_WIDE] = "At the training seat a map has at most 6 unknowns.",
    [DEZGULA_TRAINING_COMPONENT] = "A component would pass 20, which is the most at the training seat.",
    [DEZGULA_GENERATORS] = "The groups before have more than 64 solutions, or one whose image is above 7,000,000 in size.",
    [DEZGULA_COLUMN] = "A column is neither one 1, one -1 and zeros, nor all zeros.",
    [DEZGULA_SCHEDULE] = "There are not 1 to 8 runs, a turn has no steps, or the dispatcher's record is out of order.",
    [DEZGULA_PARTS] = "Two parts of a table overlap, or one leaves it.",
    [DEZGULA_OUTPUT_SHORT] = "The space for what is to be written is too short.",
    [DEZGULA_NOT_MINIMAL] = "A row of the list is no minimal solution.",
    [31] = "There is no room for a row that is needed.",
    [32] = "There is no such equation to take or to change, or one is under way.",
    [33] = "The unknown cannot be left out of this stage.",
    [34] = "This is no row operation, or a coefficient would pass 1,000,000.",
    [35] = "A right side less what the lower bound makes of its equation is outside -1,000,000 to 1,000,000.",
    [36] = "The numbers do not show that both maps have the same minimal solutions.",
    [DEZGULA_STARTED] = "The run has started.",
    [DEZGULA_PAUSED] = "The run is paused, as its budget is used up.",
    [DEZGULA_ROW] = "The row was copied.",
    [DEZGULA_NO_ROW] = "There is no such row.",
    [DEZGULA_LISTING_WRITTEN] = "The listing was written.",
    [DEZGULA_LIST_WRITTEN] = "The list was written.",
    [DEZGULA_LIST_READ] = "The list was read.",
    [DEZGULA_MAP_READ] = "The map was read.",
    [DEZGULA_SERVED] = "Turns were handed out.",
    [DEZGULA_ALL_ZERO] = "The tuple is all zero.",
    [DEZGULA_OFF] = "An equation is off.",
    [DEZGULA_STANDS] = "The tuple is in the list.",
    [DEZGULA_ABOVE] = "A row of the list lies below the tuple.",
    [DEZGULA_UNLISTED] = "Nothing listed lies below the tuple, or below what is left of it.",
    [DEZGULA_MADE] = "The tuple is made of rows of the list.",
    [DEZGULA_AT_OR_BELOW] = "A row of the list is at or below the tuple.",
    [DEZGULA_NOWHERE] = "No row of the list is at or below the tuple.",
    [128] = "Both maps have the same minimal solutions.",
    [129] = "The rows were written.",
    [DEZGULA_EQUATION_READ] = "The equation was read.",
    [DEZGULA_EQUATION_WRITTEN] = "The equation was written.",
    [DEZGULA_SYSTEM_READ] = "The system was read.",
};

const char *dezgula_sentence(uint64_t answer)
{
    unsigned number = dezgula_number(answer);
    const char *sentence = number < sizeof sentences / sizeof *sentences ? sentences[number] : NULL;
    return sentence != NULL ? sentence : "This is no answer of the library.";
}

/* ---- what is handed over */

/* An empty table may stand anywhere: it is neither read nor written. */
static uint64_t nothing;

void *dezgula_lent(const void *table)
{
    return table != NULL ? (void *)(uintptr_t)table : &nothing;
}

size_t dezgula_lent_length(const void *table, size_t length)
{
    return table != NULL ? length : 0;
}

static void pack(const dezgula_record *record, uint64_t words[DEZGULA_RECORD_LENGTH])
{
    words[0] = record->height;
    words[1] = record->found.count;
    words[2] = record->steps.count;
    words[3] = record->kind;
    words[4] = record->second.count;
    words[5] = record->before.count;
    words[6] = record->deepest;
}

static void unpack(dezgula_record *record, const uint64_t words[DEZGULA_RECORD_LENGTH])
{
    record->height = words[0];
    record->found.count = words[1];
    record->steps.count = words[2];
    record->kind = words[3];
    record->second.count = words[4];
    record->before.count = words[5];
    record->deepest = words[6];
}

/* A table and its length, as the proved functions take them. */
#define TABLE(table, length) dezgula_lent(table), dezgula_lent_length(table, length)
#define SYSTEM(system) (system)->p, (system)->q, TABLE((system)->coefs, (system)->coefs_len)
#define ONE_LIST(run) TABLE((run)->stack, (run)->stack_len), TABLE((run)->list, (run)->list_len)
#define TWO_LISTS(run) ONE_LIST(run), TABLE((run)->second, (run)->second_len)
#define RECORD(words) (words), (size_t)DEZGULA_RECORD_LENGTH

/* A call on a run: its record goes in as words, and comes out of them. */
#define ON_WORDS(run, call)                   \
    do {                                      \
        uint64_t words[DEZGULA_RECORD_LENGTH]; \
        pack(&(run)->record, words);          \
        uint64_t answer = (call);             \
        unpack(&(run)->record, words);        \
        return answer;                        \
    } while (0)

/* ---- runs */

uint64_t dezgula_start(const dezgula_system *system, dezgula_run *run)
{
    ON_WORDS(run, dezgula_raw_start(SYSTEM(system), ONE_LIST(run), RECORD(words)));
}

uint64_t dezgula_resume(const dezgula_system *system, dezgula_run *run, uint64_t budget)
{
    ON_WORDS(run, dezgula_raw_resume(SYSTEM(system), ONE_LIST(run), RECORD(words), budget));
}

uint64_t dezgula_start_single_file(const dezgula_system *system, dezgula_run *run)
{
    ON_WORDS(run, dezgula_raw_start_single_file(SYSTEM(system), ONE_LIST(run), RECORD(words)));
}

uint64_t dezgula_resume_single_file(const dezgula_system *system, dezgula_run *run, uint64_t budget)
{
    ON_WORDS(run, dezgula_raw_resume_single_file(SYSTEM(system), ONE_LIST(run), RECORD(words), budget));
}

uint64_t dezgula_start_rights(const dezgula_system *system, const int32_t *rights, size_t rights_len, dezgula_run *run)
{
    ON_WORDS(run, dezgula_raw_start_rights(SYSTEM(system), TABLE(rights, rights_len), TWO_LISTS(run), RECORD(words)));
}

uint64_t dezgula_resume_rights(const dezgula_system *system, const int32_t *rights, size_t rights_len, dezgula_run *run, uint64_t budget)
{
    ON_WORDS(run, dezgula_raw_resume_rights(SYSTEM(system), TABLE(rights, rights_len), TWO_LISTS(run), RECORD(words), budget));
}

uint64_t dezgula_start_from(const dezgula_system *system, const uint32_t *lower, size_t lower_len, dezgula_run *run)
{
    ON_WORDS(run, dezgula_raw_start_from(SYSTEM(system), TABLE(lower, lower_len), TWO_LISTS(run), RECORD(words)));
}

uint64_t dezgula_resume_from(const dezgula_system *system, const uint32_t *lower, size_t lower_len, dezgula_run *run, uint64_t budget)
{
    ON_WORDS(run, dezgula_raw_resume_from(SYSTEM(system), TABLE(lower, lower_len), TWO_LISTS(run), RECORD(words), budget));
}

uint64_t dezgula_start_training(const dezgula_system *system, dezgula_run *run)
{
    ON_WORDS(run, dezgula_raw_start_training(SYSTEM(system), ONE_LIST(run), RECORD(words)));
}

uint64_t dezgula_resume_training(const dezgula_system *system, dezgula_run *run, uint64_t budget)
{
    ON_WORDS(run, dezgula_raw_resume_training(SYSTEM(system), ONE_LIST(run), RECORD(words), budget));
}

uint64_t dezgula_start_training_from(const dezgula_system *system, const uint32_t *lower, size_t lower_len, dezgula_run *run)
{
    ON_WORDS(run, dezgula_raw_start_training_from(SYSTEM(system), TABLE(lower, lower_len), TWO_LISTS(run), RECORD(words)));
}

uint64_t dezgula_resume_training_from(const dezgula_system *system, const uint32_t *lower, size_t lower_len, dezgula_run *run, uint64_t budget)
{
    ON_WORDS(run, dezgula_raw_resume_training_from(SYSTEM(system), TABLE(lower, lower_len), TWO_LISTS(run), RECORD(words), budget));
}

/* ---- lists */

dezgula_list dezgula_listed(const dezgula_run *run)
{
    return (dezgula_list){run->list, run->list_len, run->record.found.count};
}

dezgula_list dezgula_second_listed(const dezgula_run *run)
{
    return (dezgula_list){run->second, run->second_len, run->record.second.count};
}

/* Row n of a list that a run has two of; at 0 or 1. */
static uint64_t row_of_either(const dezgula_system *system, const dezgula_run *run, size_t at, size_t found, size_t n, uint32_t *out, size_t out_len)
{
    return dezgula_raw_row_of_either(TABLE(run->list, run->list_len), TABLE(run->second, run->second_len), at, system->q, found, n, TABLE(out, out_len));
}

uint64_t dezgula_row(const dezgula_system *system, const dezgula_run *run, size_t n, uint32_t *out, size_t out_len)
{
    size_t found = run->record.found.count;
    if (run->record.kind == DEZGULA_RUN_RIGHTS) return row_of_either(system, run, 0, found, n, out, out_len);
    return dezgula_raw_row(TABLE(run->list, run->list_len), system->q, found, n, TABLE(out, out_len));
}

uint64_t dezgula_second_row(const dezgula_system *system, const dezgula_run *run, size_t n, uint32_t *out, size_t out_len)
{
    size_t found = run->record.second.count;
    if (run->record.kind == DEZGULA_RUN_RIGHTS) return row_of_either(system, run, 1, found, n, out, out_len);
    return dezgula_raw_row(TABLE(run->second, run->second_len), system->q, found, n, TABLE(out, out_len));
}

/* With right sides: the list of the row on top of the stack, by its first number. */
static unsigned list_on_top(size_t q, const dezgula_run *run)
{
    uint64_t height = run->record.height;
    if (height == 0 || q == 0 || q > DEZGULA_MOST_UNKNOWNS_WITH_RIGHTS || height > q + 1) return DEZGULA_NEITHER;
    if (run->stack == NULL || run->stack_len < height * (q + 2)) return DEZGULA_NEITHER;
    return run->stack[(height - 1) * (q + 2)] == 0 ? DEZGULA_LIST : DEZGULA_SECOND;
}

unsigned dezgula_full_list(const dezgula_system *system, const dezgula_run *run)
{
    if (run->record.height == 0) return DEZGULA_NEITHER;
    switch (run->record.kind) {
    case DEZGULA_RUN_PLAIN:
    case DEZGULA_RUN_FROM_ABOVE:
    case DEZGULA_RUN_DESK: return DEZGULA_LIST;
    case DEZGULA_RUN_FROM_PLAIN: return DEZGULA_SECOND;
    case DEZGULA_RUN_RIGHTS: return list_on_top(system->q, run);
    default: return DEZGULA_NEITHER;
    }
}

/* How many rows of q numbers a list has room for. */
static size_t capacity(const dezgula_list *list, size_t q)
{
    return q == 0 ? 0 : dezgula_lent_length(list->rows, list->rows_len) / q;
}

/* ---- desks */

/* The generators are the first rows of their table. Where it has fewer than that, 6 is due after 1 to 4, as it is for a record of no words. */
static uint64_t on_desk(const dezgula_system *group, const dezgula_list *generators, dezgula_run *run, const uint64_t *budget)
{
    size_t room = capacity(generators, group->q);
    size_t length = (generators->found < room ? generators->found : room) * group->q;
    size_t record_len = generators->found <= room ? DEZGULA_RECORD_LENGTH : 0;
    uint64_t words[DEZGULA_RECORD_LENGTH];
    pack(&run->record, words);
    uint64_t answer = budget == NULL ? dezgula_raw_start_desk(SYSTEM(group), TABLE(generators->rows, length), ONE_LIST(run), words, record_len)
                                     : dezgula_raw_resume_desk(SYSTEM(group), TABLE(generators->rows, length), ONE_LIST(run), words, record_len, *budget);
    unpack(&run->record, words);
    return answer;
}

uint64_t dezgula_start_desk(const dezgula_system *group, const dezgula_list *generators, dezgula_run *run)
{
    return on_desk(group, generators, run, NULL);
}

uint64_t dezgula_resume_desk(const dezgula_system *group, const dezgula_list *generators, dezgula_run *run, uint64_t budget)
{
    return on_desk(group, generators, run, &budget);
}

/* ---- questions */

uint64_t dezgula_locate(const dezgula_system *system, const dezgula_list *list, const uint32_t *tuple, size_t tuple_len)
{
    return dezgula_raw_locate(TABLE(list->rows, list->rows_len), system->q, list->found, TABLE(tuple, tuple_len));
}

uint64_t dezgula_reason(const dezgula_system *system, const dezgula_list *list, const uint32_t *tuple, size_t tuple_len, int64_t *amount)
{
    int64_t unasked[1];
    return dezgula_raw_reason(SYSTEM(system), TABLE(list->rows, list->rows_len), list->found, TABLE(tuple, tuple_len), amount != NULL ? amount : unasked);
}

uint64_t dezgula_decompose(const dezgula_system *system, const dezgula_list *list, const uint32_t *tuple, size_t tuple_len, uint32_t *times, size_t times_len,
                           int64_t *amount)
{
    int64_t unasked[1];
    return dezgula_raw_decompose(SYSTEM(system), TABLE(list->rows, list->rows_len), list->found, TABLE(tuple, tuple_len), TABLE(times, times_len),
                                 amount != NULL ? amount : unasked);
}

uint64_t dezgula_listing(const dezgula_system *system, const dezgula_list *list, char *out, size_t out_len)
{
    return dezgula_raw_listing(SYSTEM(system), TABLE(list->rows, list->rows_len), list->found, TABLE(out, out_len));
}

/* ---- up to eight runs at a time */

static void pack_share(const dezgula_share *share, uint64_t words[DEZGULA_SHARE_LENGTH])
{
    words[0] = share->p;
    words[1] = share->q;
    words[2] = share->coefs.start;
    words[3] = share->coefs.size;
    words[4] = share->stack.start;
    words[5] = share->stack.size;
    words[6] = share->list.start;
    words[7] = share->list.size;
}

static void pack_round(const dezgula_round *round, uint64_t words[DEZGULA_ROUND_LENGTH])
{
    words[0] = round->last;
    words[1] = round->steps.count;
    for (size_t i = 0; i < DEZGULA_MOST_RUNS; i++) {
        uint64_t *own = words + 2 + i * DEZGULA_TURN_LENGTH;
        pack(&round->runs[i].record, own);
        own[DEZGULA_RECORD_LENGTH] = dezgula_number(round->runs[i].answer);
        own[DEZGULA_RECORD_LENGTH + 1] = dezgula_place(round->runs[i].answer);
    }
}

static void unpack_round(dezgula_round *round, const uint64_t words[DEZGULA_ROUND_LENGTH])
{
    round->last = words[0];
    round->steps.count = words[1];
    for (size_t i = 0; i < DEZGULA_MOST_RUNS; i++) {
        const uint64_t *own = words + 2 + i * DEZGULA_TURN_LENGTH;
        unpack(&round->runs[i].record, own);
        round->runs[i].answer = own[DEZGULA_RECORD_LENGTH] + 256 * own[DEZGULA_RECORD_LENGTH + 1];
    }
}

uint64_t dezgula_dispatch(const dezgula_share *shares, size_t count, const dezgula_tables *tables, dezgula_round *round, uint64_t quantum, uint64_t turns)
{
    uint64_t all[DEZGULA_MOST_RUNS * DEZGULA_SHARE_LENGTH] = {0}, words[DEZGULA_ROUND_LENGTH];
    if (shares == NULL) count = 0;
    for (size_t i = 0; i < count && i < DEZGULA_MOST_RUNS; i++) pack_share(&shares[i], all + i * DEZGULA_SHARE_LENGTH);
    pack_round(round, words);
    uint64_t answer = dezgula_raw_dispatch(count, quantum, turns, all, sizeof all / sizeof *all, TABLE(tables->coefs, tables->coefs_len),
                                           TABLE(tables->stack, tables->stack_len), TABLE(tables->list, tables->list_len), words, DEZGULA_ROUND_LENGTH);
    unpack_round(round, words);
    return answer;
}

/* ---- texts and files */

static void set_system(dezgula_system *system, size_t p, size_t q, const int32_t *coefs)
{
    system->p = p;
    system->q = q;
    system->coefs = coefs;
    system->coefs_len = p * q;
}

uint64_t dezgula_read_map(const char *text, size_t text_len, int32_t coefs[DEZGULA_MAP_COEFFICIENTS], dezgula_system *system)
{
    int32_t nowhere[DEZGULA_MAP_COEFFICIENTS] = {0};
    uint64_t words[2] = {0, 0};
    uint64_t answer = dezgula_raw_read_map(TABLE(text, text_len), coefs != NULL ? coefs : nowhere, words);
    if (answer != DEZGULA_MAP_READ) return answer + 256 * words[0];
    if (coefs == NULL) return DEZGULA_OUTPUT_SHORT;
    set_system(system, (size_t)words[0], (size_t)words[1], coefs);
    return answer;
}

uint64_t dezgula_read_equation(const char *text, size_t text_len, size_t q, int32_t *row, size_t row_len, int32_t *right)
{
    return dezgula_raw_read_equation(TABLE(text, text_len), q, TABLE(row, row_len), right);
}

uint64_t dezgula_write_equation(size_t q, const int32_t *row, size_t row_len, int32_t right, char *out, size_t out_len)
{
    return dezgula_raw_write_equation(q, TABLE(row, row_len), right, TABLE(out, out_len));
}

uint64_t dezgula_read_system(const char *text, size_t text_len, size_t q, int32_t *coefs, size_t coefs_len, int32_t *rights, size_t rights_len,
                             dezgula_system *system, uint64_t *within)
{
    uint64_t unasked[1];
    uint64_t answer = dezgula_raw_read_system(TABLE(text, text_len), q, TABLE(coefs, coefs_len), TABLE(rights, rights_len),
                                              within != NULL ? within : unasked);
    if (dezgula_number(answer) == DEZGULA_SYSTEM_READ) set_system(system, (size_t)dezgula_place(answer), q, coefs);
    return answer;
}

/* Where the list has fewer rows than are to be written, 22 is due, as it is for an ending that is none. */
uint64_t dezgula_write_list(const dezgula_system *system, const dezgula_list *list, uint32_t ending, uint8_t *out, size_t out_len)
{
    size_t room = capacity(list, system->q);
    size_t length = (list->found < room ? list->found : room) * system->q;
    return dezgula_raw_write_list(SYSTEM(system), TABLE(list->rows, length), list->found <= room ? ending : UINT32_MAX, TABLE(out, out_len));
}

uint64_t dezgula_read_list(const uint8_t *file, size_t file_len, int32_t *coefs, size_t coefs_len, uint32_t *rows, size_t rows_len, dezgula_system *system,
                           dezgula_list *list, uint32_t *ending)
{
    uint64_t words[4] = {0};
    uint64_t answer = dezgula_raw_read_list(TABLE(file, file_len), TABLE(coefs, coefs_len), TABLE(rows, rows_len), words);
    if (answer != DEZGULA_LIST_READ) return answer;
    set_system(system, (size_t)words[0], (size_t)words[1], coefs);
    *list = (dezgula_list){rows, rows_len, (size_t)words[2]};
    *ending = (uint32_t)words[3];
    return answer;
}
