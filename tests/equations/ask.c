/* Reads texts that the model wrote (model.py drawn), each with what it expects, asks the library, and compares answers, places and tables. A line is
 *   equation Q ENTRIES TEXT WORDS..     refused NUMBER PLACE, or read RIGHT and the coefficients
 *   system Q TEXT WORDS..               refused NUMBER LINE PLACE, or read P, the coefficients and the right sides
 * with TEXT in hexadecimal digits, or "-" where it is empty. */
#include "dezgula_text.h"

#include <stdio.h>
#include <stdlib.h>
#include <string.h>

#define MOST 5000
#define UNTOUCHED 0x5a5a5a5a

static char line[4 * MOST], kind[16], hex[2 * MOST + 2], said[16];
static char text[MOST];
static int32_t coefs[160], rights[10];
static unsigned long answers[256], lines;

static void surprise(const char *what)
{
    fprintf(stderr, "line %lu: %s: %s\n", lines, what, line);
    exit(1);
}

static size_t decoded(void)
{
    size_t n = 0;
    unsigned byte;
    if (hex[0] == '-') return 0;
    while (sscanf(hex + 2 * n, "%2x", &byte) == 1) text[n++] = (char)byte;
    return n;
}

/* The next word of the line as a number. */
static long word(char **at)
{
    char *end;
    long value = strtol(*at, &end, 10);
    if (end == *at) surprise("a word is missing");
    *at = end;
    return value;
}

static void untouched(const int32_t *table, size_t from, size_t to)
{
    for (size_t i = from; i < to; i++)
        if (table[i] != UNTOUCHED) surprise("an entry was written");
}

static void numbers(char **at, const int32_t *table, size_t n)
{
    for (size_t i = 0; i < n; i++)
        if (table[i] != word(at)) surprise("another number was expected");
}

static void equation(size_t q, size_t entries, size_t length, int is_read, char *at)
{
    int32_t right = UNTOUCHED, right_again = UNTOUCHED;
    uint64_t answer = dezgula_read_equation(text, length, q, coefs, entries, &right);
    answers[dezgula_number(answer)]++;
    if (is_read) {
        if (answer != DEZGULA_EQUATION_READ || right != word(&at)) surprise("another answer was expected");
        numbers(&at, coefs, q);
        untouched(coefs, q, 160);
        char out[DEZGULA_MOST_EQUATION_WRITTEN];
        int32_t again[16];
        uint64_t wrote = dezgula_write_equation(q, coefs, q, right, out, sizeof out);
        if (dezgula_number(wrote) != DEZGULA_EQUATION_WRITTEN) surprise("what was read is not written");
        if (dezgula_read_equation(out, dezgula_place(wrote), q, again, q, &right_again) != answer || right_again != right || memcmp(again, coefs, 4 * q))
            surprise("what was written is not read again");
    } else {
        if (dezgula_number(answer) != word(&at) || (long)dezgula_place(answer) != word(&at)) surprise("another refusal was expected");
        untouched(coefs, 0, 160);
        untouched(&right, 0, 1);
    }
}

static void system_of(size_t q, size_t length, int is_read, char *at)
{
    dezgula_system system = {0, 0, NULL, 0};
    uint64_t within = 0, answer = dezgula_read_system(text, length, q, coefs, 128, rights, 8, &system, &within);
    answers[dezgula_number(answer)]++;
    if (is_read) {
        size_t p = dezgula_place(answer);
        if (dezgula_number(answer) != DEZGULA_SYSTEM_READ || (long)p != word(&at)) surprise("another answer was expected");
        if (system.p != p || system.q != q || system.coefs != coefs || system.coefs_len != p * q) surprise("another system was expected");
        numbers(&at, coefs, p * q);
        numbers(&at, rights, p);
        untouched(coefs, p * q, 160);
        untouched(rights, p, 10);
    } else {
        if (dezgula_number(answer) != word(&at) || (long)dezgula_place(answer) != word(&at) || (long)within != word(&at))
            surprise("another refusal was expected");
        untouched(coefs, 0, 160);
        untouched(rights, 0, 10);
    }
}

int main(void)
{
    while (fgets(line, sizeof line, stdin)) {
        size_t q, entries = 0;
        int next;
        lines++;
        for (size_t i = 0; i < 160; i++) coefs[i] = UNTOUCHED;
        for (size_t i = 0; i < 10; i++) rights[i] = UNTOUCHED;
        if (line[0] == 'e') {
            if (sscanf(line, "%15s %zu %zu %10001s %15s%n", kind, &q, &entries, hex, said, &next) != 5) surprise("not in the form");
            equation(q, entries, decoded(), said[2] == 'a', line + next);
        } else {
            if (sscanf(line, "%15s %zu %10001s %15s%n", kind, &q, hex, said, &next) != 4) surprise("not in the form");
            system_of(q, decoded(), said[2] == 'a', line + next);
        }
    }
    printf("%lu texts, no surprise:", lines);
    for (unsigned n = 0; n < 256; n++)
        if (answers[n]) printf(" %u %lux", n, answers[n]);
    printf("\n");
    return lines == 0;
}
