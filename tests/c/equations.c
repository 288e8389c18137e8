/* Equations as people write them, from C: read, written and refused. */
#include "dezgula_text.h"

#include <stdio.h>
#include <stdlib.h>
#include <string.h>

static unsigned checked;

static void expect(int holds, const char *what)
{
    checked++;
    if (!holds) {
        fprintf(stderr, "not so: %s\n", what);
        exit(1);
    }
}

static int32_t right;

static uint64_t read_text(const char *text, size_t q, int32_t *row, size_t row_len)
{
    return dezgula_read_equation(text, strlen(text), q, row, row_len, &right);
}

/* The text is read with this answer, and the sentence says so; the row stays as it was. */
static void refused(const char *text, size_t q, unsigned number, uint64_t place)
{
    int32_t row[16], before[16];
    size_t i;
    for (i = 0; i < 16; i++) row[i] = before[i] = 77;
    right = 77;
    uint64_t answer = read_text(text, q, row, q <= 16 ? q : 16);
    printf("%-28s refused %u place %u: %s\n", text, dezgula_number(answer), (unsigned)dezgula_place(answer), dezgula_sentence(answer));
    expect(dezgula_number(answer) == number && dezgula_place(answer) == place, text);
    expect(memcmp(row, before, sizeof row) == 0 && right == 77, "nothing was written");
}

/* Systems of several lines. */
static dezgula_system read_to;
static uint64_t within;

static uint64_t read_lines(const char *text, size_t q, int32_t *coefs, size_t coefs_len, int32_t *rights, size_t rights_len)
{
    uint64_t answer = dezgula_read_system(text, strlen(text), q, coefs, coefs_len, rights, rights_len, &read_to, &within);
    printf("%u place %u, %u in the line: %s\n", dezgula_number(answer), (unsigned)dezgula_place(answer), (unsigned)within, dezgula_sentence(answer));
    return answer;
}

static void systems(void)
{
    int32_t coefs[DEZGULA_MAP_COEFFICIENTS], rights[DEZGULA_MAP_RIGHTS];
    memset(coefs, 0x55, sizeof coefs);
    memset(rights, 0x55, sizeof rights);
    expect(read_lines("x1 = x2\nx1 + 2*(x3 - 2 = 0\n", 3, coefs, 128, rights, 8) == (16 | 2 << 8) && within == 16, "line 2, byte 16");
    expect(read_lines("x1 = x2\n\n", 3, coefs, 128, rights, 8) == (16 | 2 << 8) && within == 1, "an empty line");
    expect(read_lines("x1 = x2\nx3 = 0", 3, coefs, 128, rights, 8) == (9 | 2 << 8) && within == 0, "no newline at the end");
    expect(read_lines("x1 = 0\n0 = 10001\n", 3, coefs, 128, rights, 8) == (15 | 2 << 8), "a right side of 10,001");
    expect(read_lines("", 3, coefs, 128, rights, 8) == DEZGULA_EQUATIONS, "no line");
    expect(read_lines("?\n?\n?\n?\n?\n?\n?\n?\n?\n", 3, coefs, 128, rights, 8) == DEZGULA_EQUATIONS, "nine lines");
    expect(read_lines("?\n", 17, coefs, 128, rights, 8) == DEZGULA_UNKNOWNS, "seventeen unknowns");
    expect(read_lines("x1 = 0\nx2 = 0\n", 3, coefs, 5, rights, 8) == DEZGULA_OUTPUT_SHORT, "an entry too few");
    expect(read_lines("x1 = 0\nx2 = 0\n", 3, coefs, 128, rights, 1) == DEZGULA_OUTPUT_SHORT, "a right side too few");
    expect(coefs[0] == 0x55555555 && rights[0] == 0x55555555 && read_to.p == 0, "none of these wrote anything");
    expect(dezgula_read_system("x1", 2, 1, coefs, 128, rights, 8, &read_to, NULL) == (9 | 1 << 8), "nobody asks where in the line");
    within = 77;
    uint64_t answer = read_lines("x1 = x2\n2*(x1 - x3) = -5\n", 3, coefs, 128, rights, 8);
    static const int32_t expected[7] = {1, -1, 0, 2, 0, -2, 0x55555555};
    expect(dezgula_number(answer) == DEZGULA_SYSTEM_READ && dezgula_place(answer) == 2 && within == 77, "two equations");
    expect(read_to.p == 2 && read_to.q == 3 && read_to.coefs == coefs && read_to.coefs_len == 6, "and their system");
    expect(memcmp(coefs, expected, sizeof expected) == 0, "their rows, and what stood past them");
    expect(rights[0] == 0 && rights[1] == -5 && rights[2] == 0x55555555, "their right sides");
}

/* The text form of a map. */
static void maps(void)
{
    static const char text[] = "2 3\n1 -1 0\n0 10000 -3\n";
    static const int32_t expected[] = {1, -1, 0, 0, 10000, -3, 77};
    int32_t coefs[DEZGULA_MAP_COEFFICIENTS];
    dezgula_system map = {0, 0, NULL, 0};
    for (size_t i = 0; i < DEZGULA_MAP_COEFFICIENTS; i++) coefs[i] = 77;
    expect(dezgula_read_map("2 3\n1 -1 0\n0 10000\n", 19, coefs, &map) == (3 << 8 | DEZGULA_TEXT_LINE), "line 3 is short");
    expect(dezgula_read_map("1 1\n10001\n", 10, coefs, &map) == (1 << 8 | DEZGULA_COEFFICIENT), "a coefficient of 10,001");
    expect(dezgula_read_map("9 1\n", 4, coefs, &map) == DEZGULA_EQUATIONS, "nine equations");
    expect(dezgula_read_map(NULL, 4, coefs, &map) == (1 << 8 | DEZGULA_TEXT_LINE), "no text");
    expect(dezgula_read_map(text, sizeof text - 1, NULL, &map) == DEZGULA_OUTPUT_SHORT, "no table");
    expect(coefs[0] == 77 && map.p == 0, "none of these wrote anything");
    expect(dezgula_read_map(text, sizeof text - 1, coefs, &map) == DEZGULA_MAP_READ, "the map is read");
    expect(map.p == 2 && map.q == 3 && map.coefs == coefs && map.coefs_len == 6, "its system");
    expect(memcmp(coefs, expected, sizeof expected) == 0, "its coefficients, and what stood past them");
}

int main(void)
{
    systems();
    maps();
    int32_t row[3], wide[1] = {10001};
    char out[DEZGULA_MOST_EQUATION_WRITTEN];
    uint64_t answer = read_text("2*(x1 + x3) - x2 = 3", 3, row, 3);
    expect(answer == DEZGULA_EQUATION_READ && right == 3, "it was read");
    expect(row[0] == 2 && row[1] == -1 && row[2] == 2, "its row");
    answer = read_text("3 = -x1 + 2*(x1 - 5)", 3, row, 3);
    expect(answer == DEZGULA_EQUATION_READ && right == -13 && row[0] == -1, "a right side below zero");

    row[0] = -2, row[1] = 0, row[2] = 1;
    memset(out, '#', sizeof out);
    answer = dezgula_write_equation(3, row, 3, -3, out, sizeof out);
    expect(dezgula_number(answer) == DEZGULA_EQUATION_WRITTEN && dezgula_place(answer) == 15, "it was written");
    expect(memcmp(out, "-2*x1 + x3 = -3#", 16) == 0, "its text, and what stood past it");
    printf("%.15s\n", out);

    refused("x12 = 0", 3, 16, 3);
    refused("x4", 3, 16, 2);
    refused("123456", 3, 16, 6);
    refused("01", 3, 16, 2);
    refused("x1=3 ", 3, 16, 6);
    refused("(((((((((x1)))))))))=0", 1, 17, 0);
    refused("99999*(0)=0", 1, 18, 0);
    refused("x1 + 10001*x2 = 0", 2, 7, 2);
    refused("x1 = 10001", 1, 15, 0);
    refused("x1 = 0", 17, 2, 0);
    expect(read_text("x1 = 0", 2, row, 3) == DEZGULA_COUNT, "a row of another length");

    memset(out, '#', sizeof out);
    expect(dezgula_write_equation(0, row, 0, 0, out, sizeof out) == DEZGULA_UNKNOWNS, "no unknown");
    expect(dezgula_write_equation(2, row, 3, 0, out, sizeof out) == DEZGULA_COUNT, "a row of another length");
    expect(dezgula_write_equation(1, wide, 1, 0, out, sizeof out) == (1 << 8 | DEZGULA_COEFFICIENT), "a coefficient of 10,001");
    expect(dezgula_write_equation(3, row, 3, 10001, out, sizeof out) == DEZGULA_RIGHT_SIDE, "a right side of 10,001");
    expect(dezgula_write_equation(3, row, 3, -3, out, 14) == DEZGULA_OUTPUT_SHORT, "a byte too few");
    expect(out[0] == '#' && out[sizeof out - 1] == '#', "none of these wrote anything");
    printf("%u checks, no surprise\n", checked);
    return 0;
}
