/* Up to eight maps at a time, in turns, by the proved dispatcher. */
#include <inttypes.h>
#include <stdlib.h>
#include <string.h>

#include "command.h"
#include "dezgula_text.h"
#include "io.h"
#include "limits.h"
#include "read.h"

enum { MOST = DEZGULA_MOST_RUNS, COEFS = DEZGULA_MAP_COEFFICIENTS, STACK = DEZGULA_STACK_LENGTH(DEZGULA_MOST_UNKNOWNS), LIST = 8192 };
/* the steps of a turn, and how many turns a map has: 1,000,000 steps, as in `basis` */
enum { QUANTUM = 10000, TURNS = 100 };

typedef struct {
    int32_t coefs[MOST * COEFS];
    uint32_t stack[MOST * STACK], list[MOST * LIST];
    dezgula_share shares[MOST];
    dezgula_round round;
    uint64_t refusals[MOST]; /* the reader's answer for a map that is refused, else 0 */
    fault why[MOST];
    size_t count;
} office;

/* ---- reading */

/* The answer of the proved reader for a text, with the number of its line in the file; the map where it was read. */
static uint64_t read_one(const lines *text, bool strict, int32_t *coefs, dezgula_system *system, fault *why)
{
    map m;
    if (strict && text->changed != 0) {
        lines_strict(text, why);
        return DEZGULA_TEXT_LINE + 256 * text->changed;
    }
    uint64_t answer = dezgula_read_map(text->text, text->len, coefs, system);
    if (answer == DEZGULA_MAP_READ) return 0;
    if (read_matrix(text, strict, &m, why)) {
        /* a map beyond the dispatcher's limits */
        fault_set(why, dezgula_number(answer), "%s", dezgula_sentence(answer));
        map_free(&m);
    }
    if (dezgula_number(answer) == DEZGULA_TEXT_LINE) answer = DEZGULA_TEXT_LINE + 256 * (uint64_t)lines_number(text, (size_t)dezgula_place(answer));
    return answer;
}

/* Reads a map and starts its run; a map that is refused has a run that is at its end. */
static bool begin(office *of, const char *bytes, size_t len, bool strict)
{
    size_t i = of->count++;
    lines text;
    dezgula_system system = {0, 0, NULL, 0};
    dezgula_share share = {0, 0, {i * COEFS, 0}, {i * STACK, STACK}, {i * LIST, LIST}};
    of->shares[i] = share;
    of->refusals[i] = DEZGULA_TEXT_LINE;
    if (!lines_read(bytes, len, &text, &of->why[i])) return true;
    of->refusals[i] = read_one(&text, strict, of->coefs + i * COEFS, &system, &of->why[i]);
    lines_free(&text);
    if (of->refusals[i] != 0) return true;
    of->shares[i].p = system.p;
    of->shares[i].q = system.q;
    of->shares[i].coefs.size = system.coefs_len;
    dezgula_run run = {.stack = of->stack + i * STACK, .stack_len = STACK, .list = of->list + i * LIST, .list_len = LIST};
    bool started = dezgula_start(&system, &run) == DEZGULA_STARTED;
    of->round.runs[i].record = run.record;
    return started;
}

/* Where the line from `at` on ends, after its newline; and whether nothing but spaces is in it. */
static size_t next_line(const char *bytes, size_t at, size_t len, bool *blank)
{
    *blank = true;
    for (; at < len && bytes[at] != '\n'; at++)
        if (strchr(" \t\r", bytes[at]) == NULL || bytes[at] == 0) *blank = false;
    return at < len ? at + 1 : len;
}

/* Reads the maps of a text, blank lines between two. False: there are more than eight, or a run cannot start. */
static bool begin_all(office *of, const char *bytes, size_t len, bool strict)
{
    size_t at = 0;
    while (at < len) {
        bool blank = false;
        size_t start = at, end = at;
        while (at < len && !blank) {
            at = next_line(bytes, at, len, &blank);
            if (!blank) end = at;
        }
        if (end == start) continue;
        if (of->count == MOST || !begin(of, bytes + start, end - start, strict)) return false;
    }
    return true;
}

/* ---- working and telling */

/* One turn for each unfinished run, again and again: no run has more than its number of turns. */
static bool work_in_turns(office *of)
{
    dezgula_tables tables = {of->coefs, MOST * COEFS, of->stack, MOST * STACK, of->list, MOST * LIST};
    for (unsigned k = 0; k < TURNS; k++) {
        uint64_t unfinished = 0;
        for (size_t i = 0; i < of->count; i++) unfinished += of->round.runs[i].record.height > 0;
        if (dezgula_dispatch(of->shares, of->count, &tables, &of->round, QUANTUM, unfinished) != DEZGULA_SERVED) return false;
    }
    return true;
}

static int tell_refusal(const office *of, size_t i)
{
    unsigned number = dezgula_number(of->refusals[i]);
    printf("refused %u", number);
    if (dezgula_place(of->refusals[i]) != 0) printf(" %s %" PRIu64, number == DEZGULA_COEFFICIENT ? "place" : "line", dezgula_place(of->refusals[i]));
    putchar('\n');
    io_say("map %zu: refused %u: %s", i + 1, number, of->why[i].text);
    return STATUS_REFUSED;
}

static int tell(const office *of, size_t i)
{
    const dezgula_turn *run = &of->round.runs[i];
    size_t q = of->shares[i].q;
    if (of->refusals[i] != 0) return tell_refusal(of, i);
    printf("equations %zu\nunknowns %zu\nsteps %" PRIu64 "\nsolutions %" PRIu64 "\n", of->shares[i].p, q, run->record.steps.count, run->record.found.count);
    for (size_t n = 0; n < run->record.found.count * q; n++) printf("%" PRIu32 "%c", of->list[i * LIST + n], (n + 1) % q ? ' ' : '\n');
    io_say("map %zu: %" PRIu64 " steps, %" PRIu64 " solutions, greatest sum %" PRIu64, i + 1, run->record.steps.count, run->record.found.count,
           run->record.deepest);
    if (run->answer == DEZGULA_COMPLETE) puts("end complete");
    else if (run->answer == DEZGULA_PAUSED) puts("end paused");
    else printf("end refused %u\n", dezgula_number(run->answer));
    if (run->answer != DEZGULA_COMPLETE) io_say("map %zu: not complete: dezgula loops goes on", i + 1);
    return run->answer == DEZGULA_COMPLETE ? STATUS_COMPLETE : STATUS_CUT_SHORT;
}

static int tell_all(const office *of)
{
    int status = STATUS_COMPLETE;
    for (size_t i = 0; i < of->count; i++) {
        if (i > 0) putchar('\n');
        int own = tell(of, i);
        if (own == STATUS_REFUSED || status == STATUS_COMPLETE) status = own;
    }
    return status;
}

static int read_files(const options *o, office *of)
{
    fault why;
    for (size_t k = 0; k < (o->words_len > 0 ? o->words_len : 1); k++) {
        size_t len = 0;
        int status;
        const char *name = o->words_len > 0 ? o->words[k] : "-";
        char *bytes = io_read(name, MOST_TEXT, &len, &status);
        if (bytes == NULL) return status;
        bool net = is_net(bytes, len), begun = !net && begin_all(of, bytes, len, o->strict);
        free(bytes);
        if (net) fault_set(&why, DEZGULA_TEXT_LINE, "a net; several takes maps, as lines of numbers, and dezgula loops lists the loops of a net");
        else if (!begun) fault_set(&why, DEZGULA_SCHEDULE, "more than %d maps; give them in two goes", MOST);
        if (!begun) return io_refuse(name, &why);
    }
    if (of->count > 0) return STATUS_COMPLETE;
    fault_set(&why, DEZGULA_TEXT_LINE, "line 1: missing; there is no map");
    return io_refuse(file_of(o), &why);
}

static int several(const options *o)
{
    office *of = calloc(1, sizeof *of);
    if (of == NULL) {
        io_say("there is no memory");
        return STATUS_NOTHING;
    }
    int status = read_files(o, of);
    if (status == STATUS_COMPLETE) status = work_in_turns(of) ? tell_all(of) : STATUS_NOTHING;
    free(of);
    return status;
}

const command command_several = {
    "several", "several FILE ..", "up to eight maps at a time, in fair turns of the walk",
    "A file has one map or more, blank lines between two; each has at most 8 trays and 16 activities. Each is allowed 1,000,000 steps, and told of as ./basis\n"
    "tells of it.\n",
    TAKES_STRICT, 0, MOST, several
};
