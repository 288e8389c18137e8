/* Lists as files: what an editor does to send a list and to take one in, and every refusal that it can meet. Prints what it did, and exits with 1 at the
 * first surprise. */
#include "dezgula_text.h"

#include <stdbool.h>
#include <stdio.h>
#include <stdlib.h>
#include <string.h>

enum { LENGTH = DEZGULA_FILE_LENGTH(2, 4, 2) };

static const int32_t coefs[] = {-1, 1, 2, -3, -1, 3, -2, -1};
static const uint32_t rows[] = {0, 1, 1, 1, 4, 2, 1, 0};
static unsigned checked;

static void expect(bool holds, const char *what)
{
    if (!holds) {
        printf("SURPRISE: %s\n", what);
        exit(1);
    }
    checked++;
}

static uint64_t answered(const char *title, uint64_t answer)
{
    printf("%s: %u, %s\n", title, dezgula_number(answer), dezgula_sentence(answer));
    return answer;
}

static const dezgula_system example = {2, 4, coefs, 8};
static const dezgula_list both = {rows, 8, 2};

/* The word k of a file. */
static uint32_t word(const uint8_t *file, size_t k)
{
    return file[4 * k] | (uint32_t)file[4 * k + 1] << 8 | (uint32_t)file[4 * k + 2] << 16 | (uint32_t)file[4 * k + 3] << 24;
}

static void send_and_take_in(void)
{
    uint8_t file[LENGTH];
    expect(answered("written", dezgula_write_list(&example, &both, DEZGULA_FILE_COMPLETE, file, sizeof file)) == DEZGULA_LIST_WRITTEN, "the list is written");
    expect(word(file, 1) == 2 && word(file, 2) == 4 && word(file, 3) == 2 && word(file, 4) == 0, "p, q, rows and ending");
    expect(word(file, 128) == 1 && word(file, 129) == UINT32_MAX && word(file, 141) == 4, "the stream");
    for (size_t b = 0; b < 2; b++) {
        uint32_t sum = 0;
        for (size_t j = 0; j < 128; j++) sum += word(file, 128 * b + j);
        expect(sum == 0, "the words of a block add to zero");
    }

    int32_t map[10] = {[8] = 77, [9] = 77};
    uint32_t list[9] = {[8] = 77}, ending = 9;
    dezgula_system system = {9, 9, NULL, 9};
    dezgula_list taken = {NULL, 9, 9};
    expect(answered("read", dezgula_read_list(file, sizeof file, map, 10, list, 9, &system, &taken, &ending)) == DEZGULA_LIST_READ, "the file is read");
    expect(system.p == 2 && system.q == 4 && system.coefs == map && system.coefs_len == 8, "its system");
    expect(taken.rows == list && taken.rows_len == 9 && taken.found == 2 && ending == DEZGULA_FILE_COMPLETE, "its rows and its ending");
    expect(memcmp(map, coefs, sizeof coefs) == 0 && memcmp(list, rows, sizeof rows) == 0, "the tables hold what was written");
    expect(map[8] == 77 && map[9] == 77 && list[8] == 77, "what stood past it stays");

    uint8_t damaged[LENGTH + 1];
    memcpy(damaged, file, sizeof file);
    damaged[700] ^= 16;
    memset(map, 9, sizeof map);
    system.p = taken.found = ending = 9;
    expect(answered("a bit turned", dezgula_read_list(damaged, LENGTH, map, 10, list, 9, &system, &taken, &ending)) == DEZGULA_FILE_SUM, "a damaged file");
    memcpy(damaged, file + 512, 512);
    memcpy(damaged + 512, file, 512);
    expect(answered("blocks exchanged", dezgula_read_list(damaged, LENGTH, map, 10, list, 9, &system, &taken, &ending)) == DEZGULA_FILE_NUMBER, "exchanged");
    expect(answered("cut short", dezgula_read_list(file, 512, map, 10, list, 9, &system, &taken, &ending)) == DEZGULA_FILE_SIZE, "a file cut short");
    expect(answered("a table too short", dezgula_read_list(file, LENGTH, map, 8, list, 7, &system, &taken, &ending)) == DEZGULA_OUTPUT_SHORT, "a short table");
    expect(answered("nothing", dezgula_read_list(NULL, LENGTH, map, 10, list, 9, &system, &taken, &ending)) == DEZGULA_FILE_SIZE, "no file");
    expect(map[0] == 0x09090909 && list[0] == 0 && system.p == 9 && taken.found == 9 && ending == 9, "none of these wrote anything");
}

static void meet_refusals_of_writing(void)
{
    uint8_t out[LENGTH + 512], before[LENGTH + 512];
    memset(out, 0xa5, sizeof out);
    memcpy(before, out, sizeof out);
    static const uint32_t large[] = {0, 1, 1, 1000001};
    static const int32_t wide[] = {-1, 1, 2, -3, -1, 3, -2, 10001};
    dezgula_system m = example;
    dezgula_list one = {large, 4, 1}, part = {rows, 7, 2}, other = {rows, 8, SIZE_MAX};
    m.p = 0;
    expect(answered("no equation", dezgula_write_list(&m, &both, 0, out, LENGTH)) == DEZGULA_EQUATIONS, "no equation");
    m = example, m.q = 17;
    expect(answered("seventeen unknowns", dezgula_write_list(&m, &both, 0, out, LENGTH)) == DEZGULA_UNKNOWNS, "seventeen unknowns");
    m = example, m.coefs_len = 7;
    expect(answered("a coefficient missing", dezgula_write_list(&m, &both, 0, out, LENGTH)) == DEZGULA_COUNT, "a coefficient missing");
    m = example, m.coefs = wide;
    expect(answered("a coefficient of 10,001", dezgula_write_list(&m, &both, 0, out, LENGTH)) == (8 << 8 | DEZGULA_COEFFICIENT), "a coefficient of 10,001");
    expect(answered("a row not whole", dezgula_write_list(&example, &part, 0, out, LENGTH)) == DEZGULA_FILE_RANGE, "a row not whole");
    expect(answered("more rows than there are", dezgula_write_list(&example, &other, 0, out, LENGTH)) == DEZGULA_FILE_RANGE, "more rows than there are");
    expect(answered("a component of 1,000,001", dezgula_write_list(&example, &one, 0, out, LENGTH)) == DEZGULA_FILE_RANGE, "a large component");
    expect(answered("ending 2", dezgula_write_list(&example, &both, 2, out, LENGTH)) == DEZGULA_FILE_RANGE, "ending 2");
    expect(answered("too much space", dezgula_write_list(&example, &both, 0, out, sizeof out)) == DEZGULA_FILE_SIZE, "too much space");
    expect(memcmp(out, before, sizeof out) == 0, "none of these wrote anything");
}

int main(void)
{
    send_and_take_in();
    meet_refusals_of_writing();
    printf("%u checks, no surprise\n", checked);
    return 0;
}
