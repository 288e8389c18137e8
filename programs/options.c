#include <errno.h>
#include <stdlib.h>
#include <string.h>
#include <unistd.h>

#include "command.h"
#include "io.h"

typedef struct {
    const char *name, *value; /* value: what follows it, or NULL */
    unsigned bit;
    const char *help;
} option;

static const option OPTIONS[] = {
    {"--format", "FORMAT", TAKES_FORMAT, "text (the default), matrix (4ti2's form), csv, json or html (the page of dezgula report)"},
    {"--walk", NULL, TAKES_WALK, "by Contejean and Devie's walk, in the order found and with its steps; at most 8 trays and 16 activities"},
    {"--steps", "N", TAKES_STEPS, "with --walk: pause after N steps"},
    {"--at-least", "COUNTS", TAKES_AT_LEAST, "also the smallest plans with at least these counts: a number for each activity, or NAME=N, .."},
    {"--deliver", "NAME=N", TAKES_DELIVER, "also the smallest ways in which the tray NAME gains N documents (-N: loses them); or a FILE of such lines,"},
    {"", NULL, TAKES_DELIVER, "or of a number for each tray"},
    {"--desks", NULL, TAKES_DESKS, "one desk after the other, each page of the net being a desk"},
    {"--checkpoint", "FILE", TAKES_CHECKPOINT, "keep the run in FILE, at least once a minute and when interrupted; the same command goes on from there"},
    {"--strict", NULL, TAKES_STRICT, "take a map only in the spelling of the documents: no tabs, comments, blank lines, Windows line ends"},
};
enum { OPTIONS_LEN = sizeof OPTIONS / sizeof *OPTIONS };

void options_print(FILE *out, unsigned takes)
{
    for (size_t i = 0; i < OPTIONS_LEN; i++) {
        char left[40];
        if ((OPTIONS[i].bit & takes) == 0) continue;
        snprintf(left, sizeof left, "%s%s%s", OPTIONS[i].name, OPTIONS[i].value != NULL ? " " : "", OPTIONS[i].value != NULL ? OPTIONS[i].value : "");
        fprintf(out, "  %-18s  %s\n", left, OPTIONS[i].help);
    }
    fputs("  --help              this page\n", out);
}

void options_free(options *o)
{
    free(o->at_least);
    free(o->deliver);
    free(o->words);
    memset(o, 0, sizeof *o);
}

/* The option that a word begins with, and what follows a "=" in the word; NULL: there is no such option. */
static const option *option_of(const char *word, const char **value)
{
    size_t len = strcspn(word, "=");
    *value = word[len] == '=' ? word + len + 1 : NULL;
    for (size_t i = 0; i < OPTIONS_LEN; i++)
        if (strlen(OPTIONS[i].name) == len && len > 0 && memcmp(OPTIONS[i].name, word, len) == 0) return &OPTIONS[i];
    return NULL;
}

static bool set_steps(const char *value, options *o)
{
    char *end;
    errno = 0;
    unsigned long long n = strtoull(value, &end, 10);
    if (value[0] < '0' || value[0] > '9' || *end != 0 || errno != 0 || n == 0) {
        io_say("--steps %s: how many steps, from 1 on", value);
        return false;
    }
    o->steps = n;
    return true;
}

static bool set_option(const option *own, char *value, options *o)
{
    switch (own->bit) {
    case TAKES_WALK: o->walk = true; return true;
    case TAKES_DESKS: o->desks = true; return true;
    case TAKES_STRICT: o->strict = true; return true;
    case TAKES_AT_LEAST: o->at_least[o->at_least_len++] = value; return true;
    case TAKES_DELIVER: o->deliver[o->deliver_len++] = value; return true;
    case TAKES_STEPS: return set_steps(value, o);
    case TAKES_CHECKPOINT:
        o->checkpoint = value;
        if (value[0] != 0 && strcmp(value, "-") != 0) return true;
        io_say("--checkpoint: the name of a file");
        return false;
    default:
        if (format_of(value, &o->how)) return true;
        io_say("--format %s: text, matrix, csv, json or html", value);
        return false;
    }
}

/* Reads the option at a place; gives how many words it took, and 0 where it is not in order. */
static size_t take_option(const command *own, char **words, size_t left, options *o)
{
    const char *value;
    const option *found = option_of(words[0], &value);
    if (found == NULL || (found->bit & own->takes) == 0) {
        io_say("%s takes no %s; dezgula %s --help says what it takes", own->name, words[0], own->name);
        return 0;
    }
    if (found->value == NULL && value != NULL) {
        io_say("%s stands alone", found->name);
        return 0;
    }
    bool next = found->value != NULL && value == NULL;
    if (next && left < 2) {
        io_say("%s needs %s after it", found->name, found->value);
        return 0;
    }
    char *own_value = next ? words[1] : words[0] + (value != NULL ? value - words[0] : 0);
    return set_option(found, own_value, o) ? (next ? 2 : 1) : 0;
}

/* Whether the options go together, and there are as many words as there have to be; without a file standard input is read, but not from a terminal. */
static bool together(const command *own, const options *o)
{
    bool waits = own->least_words == 0 && o->words_len == 0 && isatty(STDIN_FILENO) == 1;
    if (o->steps != 0 && !o->walk) io_say("--steps goes with --walk");
    else if (waits || o->words_len < own->least_words || o->words_len > own->most_words)
        io_say("usage: dezgula %s; dezgula %s --help says more", own->usage, own->name);
    else return true;
    return false;
}

bool options_read(const command *own, char **words, size_t words_len, options *out)
{
    bool only_words = false;
    memset(out, 0, sizeof *out);
    out->at_least = malloc((words_len + 1) * sizeof *out->at_least);
    out->deliver = malloc((words_len + 1) * sizeof *out->deliver);
    out->words = malloc((words_len + 1) * sizeof *out->words);
    if (out->at_least == NULL || out->deliver == NULL || out->words == NULL) {
        io_say("there is no memory");
        return false;
    }
    for (size_t i = 0; i < words_len;) {
        if (only_words || words[i][0] != '-' || words[i][1] == 0) {
            out->words[out->words_len++] = words[i++];
        } else if (strcmp(words[i], "--") == 0) {
            only_words = true;
            i++;
        } else {
            size_t taken = take_option(own, words + i, words_len - i, out);
            if (taken == 0) return false;
            i += taken;
        }
    }
    return together(own, out);
}
