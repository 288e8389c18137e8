#include "work.h"

#include <inttypes.h>
#include <signal.h>
#include <stdlib.h>
#include <string.h>
#include <time.h>
#include <unistd.h>

#include "checkpoint.h"
#include "io.h"

/* how often progress is told, on a terminal and else; when a run is kept: so often that it costs a twentieth of the time, and at least once a minute */
static const double TERMINAL_SECONDS = 0.2, LINE_SECONDS = 10, LEAST_KEPT = 0.25, MOST_KEPT = 50, KEPT_SHARE = 20;

/* ---- interrupts: the first one ends the run in order, a second one at once */

static volatile sig_atomic_t interrupted;
static const int INTERRUPTS[] = {SIGINT, SIGTERM, SIGHUP};

static void interrupt(int number)
{
    (void)number;
    interrupted = 1;
}

static void set_interrupts(void (*handler)(int))
{
    struct sigaction action = {.sa_handler = handler, .sa_flags = (int)SA_RESETHAND}, before;
    for (size_t i = 0; i < sizeof INTERRUPTS / sizeof *INTERRUPTS; i++)
        if (sigaction(INTERRUPTS[i], NULL, &before) == 0 && before.sa_handler != SIG_IGN) (void)sigaction(INTERRUPTS[i], &action, NULL);
}

/* ---- progress */

static double now(void)
{
    struct timespec t;
    clock_gettime(CLOCK_MONOTONIC, &t);
    return (double)t.tv_sec + 1e-9 * (double)t.tv_nsec;
}

/* Where a run is: "equation 3 of 8, 1200 rows". */
static void place_line(const run *r, char *line, size_t room)
{
    progress p = solve_progress(r);
    int n = p.desks > 1 ? snprintf(line, room, "desk %zu of %zu, ", p.desk, p.desks) : 0;
    size_t at = n > 0 ? (size_t)n : 0;
    if (p.walking) snprintf(line + at, room - at, "%" PRIu64 " steps, %" PRIu64 " rows", p.steps, p.rows);
    else snprintf(line + at, room - at, "equation %zu of %zu, %" PRIu64 " rows", p.done < p.of ? p.done + 1 : p.of, p.of, p.rows);
}

static void say_goes_on(const run *r, const char *name, const char *kept)
{
    char line[128];
    place_line(r, line, sizeof line);
    io_say("%s: goes on from %s: %s", name, kept, line);
}

/* Nobody waits for progress. */
static void tell(const char *text)
{
    io_tell(text, strlen(text), 0);
}

static void tell_progress(const run *r, double seconds, bool terminal)
{
    char line[128], text[192];
    place_line(r, line, sizeof line);
    snprintf(text, sizeof text, terminal ? "\r%s, %.0f s\033[K" : "dezgula: %s, %.0f s\n", line, seconds);
    tell(text);
}

/* ---- the work */

typedef struct {
    double begun, told, kept, cost; /* when the run began, was told of and was kept last, and what keeping it took */
    bool terminal, shown;
} clocks;

/* Keeps the run where that is due; a failure is said, and the run goes on. */
static void keep(const problem *what, const run *r, const char *file, clocks *c)
{
    double least = KEPT_SHARE * c->cost, before = now();
    if (least < LEAST_KEPT) least = LEAST_KEPT;
    if (least > MOST_KEPT) least = MOST_KEPT;
    if (before - c->kept < least) return;
    fault why;
    bool written = checkpoint_write(file, what, r, &why);
    if (!written) io_say("%s", why.text);
    c->kept = now();
    /* what cannot be written is tried again later */
    c->cost = written ? c->kept - before : MOST_KEPT;
}

static void look_up(const problem *what, const run *r, const char *file, clocks *c)
{
    double at = now();
    if (file != NULL) keep(what, r, file, c);
    if (at - c->told < (c->terminal ? TERMINAL_SECONDS : LINE_SECONDS)) return;
    c->told = at;
    c->shown = c->terminal;
    tell_progress(r, at - c->begun, c->terminal);
}

static state go_through(const problem *what, run *r, const char *file, fault *why)
{
    double at = now();
    clocks c = {at, at, at, 0, isatty(STDERR_FILENO) == 1, false};
    state s = RUN_GOES_ON;
    while (s == RUN_GOES_ON && !interrupted) {
        s = solve_go_on(r, why);
        if (s == RUN_GOES_ON) look_up(what, r, file, &c);
    }
    if (c.shown) tell("\r\033[K");
    return s;
}

/* ---- the lists */

void solved_free(solved *s)
{
    free(s->loops);
    free(s->wanted);
    memset(s, 0, sizeof *s);
}

static bool copy_rows(const uint32_t *rows, size_t len, size_t q, uint32_t **out)
{
    *out = malloc((len * q + 1) * sizeof **out);
    if (*out != NULL && len > 0) memcpy(*out, rows, len * q * sizeof **out);
    return *out != NULL;
}

static bool take_lists(const run *r, solved *out)
{
    lists l = solve_lists(r);
    out->loops_len = l.loops_len;
    out->wanted_len = l.wanted_len;
    return copy_rows(l.loops, l.loops_len, out->q, &out->loops) && copy_rows(l.wanted, l.wanted_len, out->q, &out->wanted);
}

uint64_t size_of_row(const uint32_t *row, size_t q)
{
    uint64_t sum = 0;
    for (size_t j = 0; j < q; j++) sum += row[j];
    return sum;
}

int compare_rows(const uint32_t *x, const uint32_t *y, size_t q)
{
    uint64_t m = size_of_row(x, q), n = size_of_row(y, q);
    if (m != n) return m < n ? -1 : 1;
    for (size_t j = 0; j < q; j++)
        if (x[j] != y[j]) return x[j] > y[j] ? -1 : 1;
    return 0;
}

/* the width of the rows that are sorted, as qsort hands nothing over */
static size_t sorted_q;

static int compare_sorted(const void *x, const void *y)
{
    return compare_rows(x, y, sorted_q);
}

void solved_sort(solved *s)
{
    sorted_q = s->q;
    if (s->loops_len > 1) qsort(s->loops, s->loops_len, s->q * sizeof *s->loops, compare_sorted);
    if (s->wanted_len > 1) qsort(s->wanted, s->wanted_len, s->q * sizeof *s->wanted, compare_sorted);
}

/* ---- from a problem to its lists */

/* Says why a run was cut short, and what became of it; keeps it where that is asked for. */
static void say_cut_short(const problem *what, const run *r, const char *name, const char *kept, solved *out)
{
    fault why;
    if (interrupted) fault_set(&out->why, 0, "interrupted");
    const char *number = out->why.number != 0 ? "refused " : "";
    char told[32] = "";
    if (out->why.number != 0) snprintf(told, sizeof told, "%s%u: ", number, out->why.number);
    if (kept == NULL) {
        io_say("%s: not complete: %s%s%s", name, told, out->why.text, interrupted ? "; --checkpoint FILE would keep the run" : "");
    } else if (checkpoint_write(kept, what, r, &why)) {
        io_say("%s: not complete: %s%s; kept in %s: the same command goes on", name, told, out->why.text, kept);
    } else {
        io_say("%s: not complete: %s%s; %s", name, told, out->why.text, why.text);
    }
}

static run *begin(const problem *what, const char *name, const char *kept, int *status)
{
    fault why = {0, ""};
    run *r = NULL;
    *status = STATUS_COMPLETE;
    if (kept != NULL) {
        if (!checkpoint_possible(kept)) *status = STATUS_NOTHING;
        else r = checkpoint_read(kept, what, status);
        if (r != NULL) say_goes_on(r, name, kept);
        if (r != NULL || *status != STATUS_COMPLETE) return r;
    }
    r = solve_begin(what, &why);
    if (r == NULL) *status = io_refuse(name, &why);
    return r;
}

int work(const problem *what, const char *name, const char *kept, solved *out)
{
    int status;
    memset(out, 0, sizeof *out);
    if (strcmp(name, "-") == 0) name = "standard input";
    run *r = begin(what, name, kept, &status);
    if (r == NULL) return status;
    interrupted = 0;
    set_interrupts(interrupt);
    state s = go_through(what, r, kept, &out->why);
    if (s == RUN_COMPLETE && kept != NULL) {
        fault why;
        if (!checkpoint_write(kept, what, r, &why)) io_say("%s", why.text);
    }
    if (s != RUN_COMPLETE) say_cut_short(what, r, name, kept, out);
    set_interrupts(SIG_DFL);
    out->q = what->q;
    out->complete = s == RUN_COMPLETE;
    out->interrupted = !out->complete && interrupted;
    out->has_wanted = what->rights != NULL || what->lower != NULL;
    out->last = solve_progress(r);
    out->walked = what->how == BY_WALK;
    bool taken = take_lists(r, out);
    solve_end(r);
    if (taken) return s == RUN_COMPLETE ? STATUS_COMPLETE : STATUS_CUT_SHORT;
    io_say("%s: there is no memory for the list", name);
    solved_free(out);
    return STATUS_NOTHING;
}
