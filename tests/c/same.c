/* The calls of the headers against the proved functions below them, on drawn calls: the same answer, and the same tables and record after it, whatever is lent,
 * NULL for an empty table included: same [COUNT] [SEED]. Exits with 1 at the first difference. */
#include "dezgula_text.h"
#include "raw.h"

#include <inttypes.h>
#include <stdbool.h>
#include <stdio.h>
#include <stdlib.h>
#include <string.h>

enum { STACK = DEZGULA_RIGHTS_STACK_LENGTH(16), LIST = 96, BYTES = 3 * 512 };

/* What a call may write; every drawn call gets two copies of it. */
typedef struct {
    uint32_t stack[STACK], list[LIST], second[LIST], out[LIST];
    int32_t coefs[DEZGULA_MAP_COEFFICIENTS], rights[DEZGULA_MAP_RIGHTS], right[1];
    uint64_t record[DEZGULA_RECORD_LENGTH], words[4];
    int64_t amount[1];
    uint8_t bytes[BYTES];
} lent;

static lent easy, raw;
static uint64_t state, calls, seen[256];

static uint32_t below(uint32_t n)
{
    state = state * UINT64_C(6364136223846793005) + UINT64_C(1442695040888963407);
    return (uint32_t)(state >> 33) % n;
}

static void compare(const char *call, uint64_t a, uint64_t b)
{
    calls++;
    seen[dezgula_number(a)]++;
    if (a == b && memcmp(&easy, &raw, sizeof easy) == 0) return;
    printf("DIFFERENT: %s, call %" PRIu64 ": %" PRIu64 " and %" PRIu64 "\n", call, calls, a, b);
    exit(1);
}

/* ---- drawn systems, tuples and lengths, most of them in order */

static int32_t coefs[DEZGULA_MAP_COEFFICIENTS], rights[10];
static uint32_t lower[20], generators[LIST];
static dezgula_system system_;
static size_t rights_len, lower_len, generator_count, stack_len, list_len, second_len;

static size_t about(size_t n)
{
    uint32_t turn = below(40);
    return turn == 0 && n > 0 ? n - 1 : turn == 1 ? n + 1 : n;
}

static void draw(void)
{
    size_t p = below(30) == 0 ? below(11) : 1 + below(2), q = below(30) == 0 ? below(19) : 1 + below(4);
    for (size_t i = 0; i < DEZGULA_MAP_COEFFICIENTS; i++) coefs[i] = below(2000) == 0 ? 10001 : (int32_t)below(7) - 3;
    for (size_t i = 0; i < 10; i++) rights[i] = below(300) == 0 ? -10001 : (int32_t)below(5) - 2;
    for (size_t i = 0; i < 20; i++) lower[i] = below(300) == 0 ? 1000001 : below(100) == 0 ? 21 : below(3);
    for (size_t i = 0; i < LIST; i++) generators[i] = below(2000) == 0 ? 1000001 : below(3);
    if (below(4) == 0) /* a single-file map: two equations, a ring */
        for (size_t i = 0; p == 2 && q <= 16 && i < q; i++) coefs[i] = i % 2 ? 1 : -1, coefs[q + i] = i % 2 ? -1 : 1;
    system_ = (dezgula_system){p, q, coefs, about(p * q)};
    if (system_.coefs_len > DEZGULA_MAP_COEFFICIENTS) system_.coefs_len = DEZGULA_MAP_COEFFICIENTS;
    rights_len = about(p) % 11;
    lower_len = about(q) % 21;
    generator_count = below(7);
    stack_len = below(20) == 0 ? below(STACK) : STACK;
    list_len = below(LIST + 1);
    second_len = below(LIST + 1);
}

static void same_numbers(void)
{
    memset(&easy, 0x5a, sizeof easy);
    for (size_t i = 0; i < LIST; i++) easy.list[i] = below(3), easy.second[i] = below(3);
    for (size_t i = 0; i < DEZGULA_RECORD_LENGTH; i++) easy.record[i] = below(3);
    raw = easy;
}

/* The record as a struct, in and out. */
static dezgula_run run_of(void)
{
    dezgula_run run = {below(50) ? easy.stack : NULL, stack_len, below(50) ? easy.list : NULL, list_len, below(50) ? easy.second : NULL, second_len, {0}};
    const uint64_t *w = easy.record;
    run.record = (dezgula_record){w[0], {w[1]}, {w[2]}, w[3], {w[4]}, {w[5]}, w[6]};
    return run;
}

static void keep(const dezgula_run *run)
{
    const dezgula_record *r = &run->record;
    const uint64_t words[] = {r->height, r->found.count, r->steps.count, r->kind, r->second.count, r->before.count, r->deepest};
    memcpy(easy.record, words, sizeof words);
}

/* ---- the calls */

#define RAW_SYSTEM system_.p, system_.q, coefs, system_.coefs_len
#define RAW_TABLE(name) raw.name, (run.name != NULL ? name##_len : 0)
#define RAW_ONE RAW_TABLE(stack), RAW_TABLE(list)
#define RAW_RUN raw.record, (size_t)DEZGULA_RECORD_LENGTH

#define ONE_LIST(name)                                                                                                       \
    do {                                                                                                                     \
        dezgula_run run = run_of();                                                                                          \
        uint64_t answer = begin ? dezgula_start##name(&system_, &run) : dezgula_resume##name(&system_, &run, budget);        \
        keep(&run);                                                                                                          \
        compare("run" #name, answer,                                                                                         \
                begin ? dezgula_raw_start##name(RAW_SYSTEM, RAW_ONE, RAW_RUN)                                                \
                      : dezgula_raw_resume##name(RAW_SYSTEM, RAW_ONE, RAW_RUN, budget));                                     \
    } while (0)

#define TWO_LISTS(name, table)                                                                                               \
    do {                                                                                                                     \
        dezgula_run run = run_of();                                                                                          \
        uint64_t answer = begin ? dezgula_start##name(&system_, table, table##_len, &run)                                    \
                                : dezgula_resume##name(&system_, table, table##_len, &run, budget);                          \
        keep(&run);                                                                                                          \
        compare("run" #name, answer,                                                                                         \
                begin ? dezgula_raw_start##name(RAW_SYSTEM, table, table##_len, RAW_ONE, RAW_TABLE(second), RAW_RUN)         \
                      : dezgula_raw_resume##name(RAW_SYSTEM, table, table##_len, RAW_ONE, RAW_TABLE(second), RAW_RUN, budget)); \
    } while (0)

static void desk(bool begin, uint64_t budget)
{
    size_t room = system_.q > 0 ? LIST / system_.q : 0;
    if (generator_count > room) generator_count = room;
    dezgula_list rows = {generators, LIST, generator_count};
    dezgula_run run = run_of();
    uint64_t answer = begin ? dezgula_start_desk(&system_, &rows, &run) : dezgula_resume_desk(&system_, &rows, &run, budget);
    keep(&run);
    size_t length = generator_count * system_.q;
    compare("_desk", answer,
            begin ? dezgula_raw_start_desk(RAW_SYSTEM, generators, length, RAW_ONE, RAW_RUN)
                  : dezgula_raw_resume_desk(RAW_SYSTEM, generators, length, RAW_ONE, RAW_RUN, budget));
}

static void on_a_run(void)
{
    uint32_t kind = below(7);
    same_numbers();
    for (uint32_t n = 0, most = 1 + below(6); n < most; n++) {
        bool begin = n == 0 ? below(10) > 0 : below(20) == 0;
        uint64_t budget = below(3) ? below(4) : below(1000);
        switch (kind) {
        case 0: ONE_LIST(); break;
        case 1: ONE_LIST(_single_file); break;
        case 2: ONE_LIST(_training); break;
        case 3: TWO_LISTS(_rights, rights); break;
        case 4: TWO_LISTS(_from, lower); break;
        case 5: TWO_LISTS(_training_from, lower); break;
        default: desk(begin, budget);
        }
        if (below(10) > 0) continue;
        easy.record[below(DEZGULA_RECORD_LENGTH)] = below(4);
        memcpy(raw.record, easy.record, sizeof raw.record);
    }
}

static void questions(void)
{
    same_numbers();
    size_t found = below(6), n = below(8), out_len = below(8);
    dezgula_list rows = {below(30) ? easy.list : NULL, list_len, found};
    size_t raw_len = rows.rows != NULL ? list_len : 0;
    dezgula_run run = run_of();
    run.record.found.count = run.record.second.count = found;
    bool both = run.record.kind == DEZGULA_RUN_RIGHTS;
    compare("row", dezgula_row(&system_, &run, n, easy.out, out_len),
            both ? dezgula_raw_row_of_either(RAW_TABLE(list), RAW_TABLE(second), 0, system_.q, found, n, raw.out, out_len)
                 : dezgula_raw_row(RAW_TABLE(list), system_.q, found, n, raw.out, out_len));
    compare("second_row", dezgula_second_row(&system_, &run, n, easy.out, out_len),
            both ? dezgula_raw_row_of_either(RAW_TABLE(list), RAW_TABLE(second), 1, system_.q, found, n, raw.out, out_len)
                 : dezgula_raw_row(RAW_TABLE(second), system_.q, found, n, raw.out, out_len));
    compare("locate", dezgula_locate(&system_, &rows, lower, lower_len), dezgula_raw_locate(raw.list, raw_len, system_.q, found, lower, lower_len));
    compare("reason", dezgula_reason(&system_, &rows, lower, lower_len, easy.amount),
            dezgula_raw_reason(RAW_SYSTEM, raw.list, raw_len, found, lower, lower_len, raw.amount));
    compare("decompose", dezgula_decompose(&system_, &rows, lower, lower_len, easy.out, out_len, easy.amount),
            dezgula_raw_decompose(RAW_SYSTEM, raw.list, raw_len, found, lower, lower_len, raw.out, out_len, raw.amount));
    compare("engine_locate", dezgula_engine_locate(&system_, &rows, lower, lower_len),
            dezgula_raw_engine_locate(raw.list, raw_len, system_.q, found, lower, lower_len));
    compare("engine_reason", dezgula_engine_reason(&system_, &rows, lower, lower_len, easy.amount),
            dezgula_raw_engine_reason(RAW_SYSTEM, raw.list, raw_len, found, lower, lower_len, raw.amount));
    compare("engine_decompose", dezgula_engine_decompose(&system_, &rows, lower, lower_len, easy.out, out_len, easy.amount),
            dezgula_raw_engine_decompose(RAW_SYSTEM, raw.list, raw_len, found, lower, lower_len, raw.out, out_len, raw.amount));
    int64_t by[2] = {below(3), (int64_t)below(3) - 1};
    dezgula_reformulation other = {below(2), coefs, below(5), below(4), rights, rights_len, by, below(3), below(20) ? by : NULL, below(3), by, below(3)};
    compare("engine_reformulates", dezgula_engine_reformulates(&system_, &other),
            dezgula_raw_engine_reformulates(system_.p, system_.q, other.further, other.equations, coefs, system_.coefs_len, coefs, other.extended_len, rights,
                                            rights_len, by, other.onto_len, by, other.back != NULL ? other.back_len : 0, by, other.above_len));
    compare("engine_project", dezgula_engine_project(system_.q, n, &rows, easy.out, out_len),
            dezgula_raw_engine_project(system_.q, n, found, raw.list, raw_len, raw.out, out_len));
    compare("listing", dezgula_listing(&system_, &rows, (char *)easy.bytes, out_len * 16),
            dezgula_raw_listing(RAW_SYSTEM, raw.list, raw_len, found, raw.bytes, out_len * 16));
}

static void texts(void)
{
    static const char letters[] = "x1 + 2*(x2-x3) = 3\nx2=0\n2 2\n1 -1\n0 3\n";
    uint8_t text[64];
    size_t from = below(sizeof letters - 1), length = below((uint32_t)(sizeof letters - from)), row_len = about(system_.q) % 20, room = below(2) ? 300 : 9;
    memcpy(text, letters + from, length);
    if (below(4) == 0 && length > 0) text[below((uint32_t)length)] = (uint8_t)below(128);
    same_numbers();
    compare("read_equation", dezgula_read_equation((char *)text, length, system_.q, easy.coefs, row_len, easy.right),
            dezgula_raw_read_equation(text, length, system_.q, raw.coefs, row_len, raw.right));
    compare("write_equation", dezgula_write_equation(system_.q, coefs, row_len, rights[0], (char *)easy.bytes, room),
            dezgula_raw_write_equation(system_.q, coefs, row_len, rights[0], raw.bytes, room));
    dezgula_system read;
    compare("read_system", dezgula_read_system((char *)text, length, system_.q, easy.coefs, 9, easy.rights, 8, &read, easy.words),
            dezgula_raw_read_system(text, length, system_.q, raw.coefs, 9, raw.rights, 8, raw.words));
    uint64_t words[2] = {0, 0};
    uint64_t answer = dezgula_raw_read_map(text, length, raw.coefs, words);
    compare("read_map", dezgula_read_map((char *)text, length, easy.coefs, &read), answer == DEZGULA_MAP_READ ? answer : answer + 256 * words[0]);
    if (answer == DEZGULA_MAP_READ && (read.p != words[0] || read.q != words[1] || read.coefs != easy.coefs)) compare("what a map has", 0, 1);
}

static void files(void)
{
    same_numbers();
    size_t found = system_.q > 0 ? below((uint32_t)(LIST / system_.q) + 1) : 0, length = about(DEZGULA_FILE_LENGTH(system_.p, system_.q, found));
    dezgula_list rows = {easy.list, LIST, found}, read;
    dezgula_system system;
    uint32_t ending = below(10) ? below(2) : 2, left = 9;
    if (length > BYTES) return;
    compare("write_list", dezgula_write_list(&system_, &rows, ending, easy.bytes, length),
            dezgula_raw_write_list(RAW_SYSTEM, raw.list, found * system_.q, ending, raw.bytes, length));
    if (below(4) == 0) easy.bytes[below(BYTES)] ^= 1, memcpy(raw.bytes, easy.bytes, BYTES);
    uint64_t words[4], answer = dezgula_read_list(easy.bytes, length, easy.coefs, 32, easy.list, LIST, &system, &read, &left);
    compare("read_list", answer, dezgula_raw_read_list(raw.bytes, length, raw.coefs, 32, raw.list, LIST, words));
    if (answer != DEZGULA_LIST_READ) return;
    if (system.p != words[0] || system.q != words[1] || read.found != words[2] || left != words[3]) compare("what a file holds", 0, 1);
}

int main(int count, char **words)
{
    uint64_t most = count > 1 ? strtoull(words[1], NULL, 10) : 100000;
    state = count > 2 ? strtoull(words[2], NULL, 10) : 2;
    while (calls < most) {
        draw();
        on_a_run();
        questions();
        texts();
        files();
    }
    printf("%" PRIu64 " calls as the proved functions answer them:", calls);
    for (unsigned n = 0; n < 256; n++)
        if (seen[n] > 0) printf(" %u", n);
    puts("");
    return 0;
}
