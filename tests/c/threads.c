/* Two threads, each with runs and solvers of its own on the same system: the calls keep nothing between them, so that each gets what it gets alone. Both ask one
 * solver that none works with. tests/run builds it with ThreadSanitizer. Exits with 1 at the first surprise. */
#include "dezgula_engine.h"
#include "dezgula_text.h"

#include <pthread.h>
#include <stdio.h>
#include <string.h>

enum { ROUNDS = 200, ROWS = 64 };

static const int32_t coefs[] = {-1, 1, 2, -3, -1, 3, -2, -1}, rights[] = {4, -1};
static const dezgula_system example = {2, 4, coefs, 8};

/* A plain run, one with right sides, and questions about its list. NULL, or what surprised. */
static const char *rounds(uint64_t budget)
{
    uint32_t stack[DEZGULA_RIGHTS_STACK_LENGTH(4)], list[ROWS * 4], second[ROWS * 4], times[ROWS];
    dezgula_run run = {stack, sizeof stack / sizeof *stack, list, ROWS * 4, second, ROWS * 4, {0}};
    for (unsigned i = 0; i < ROUNDS; i++) {
        uint64_t answer = dezgula_start(&example, &run);
        while (answer == DEZGULA_STARTED || answer == DEZGULA_PAUSED) answer = dezgula_resume(&example, &run, budget);
        if (answer != DEZGULA_COMPLETE || run.record.found.count != 2 || run.record.steps.count != 16) return dezgula_sentence(answer);
        dezgula_list rows = dezgula_listed(&run);
        if (dezgula_decompose(&example, &rows, (uint32_t[]){8, 7, 5, 3}, 4, times, ROWS, NULL) != DEZGULA_MADE) return "a plan is not made of the rows";
        if (times[0] != 3 || times[1] != 2) return "a plan is made of other rows";
        answer = dezgula_start_rights(&example, rights, 2, &run);
        while (answer == DEZGULA_STARTED || answer == DEZGULA_PAUSED) answer = dezgula_resume_rights(&example, rights, 2, &run, budget);
        if (answer != DEZGULA_COMPLETE) return dezgula_sentence(answer);
        int32_t row[4], right;
        if (dezgula_read_equation("x1 = x2 + 3", 11, 4, row, 4, &right) != DEZGULA_EQUATION_READ || right != 3) return "an equation is read otherwise";
    }
    return NULL;
}

/* a complete solver, which is only asked */
static dezgula_solver *shared;

static const char *asked(const dezgula_solver *solver)
{
    uint32_t words[1000];
    size_t count;
    const uint32_t *rows = dezgula_solver_rows(solver, &count);
    if (rows == NULL || count != 2 || dezgula_solver_system(solver).q != 4 || dezgula_solver_told(solver).done != 2) return "a solver tells otherwise";
    if (dezgula_solver_saved_length(solver) > 1000) return "a solver is longer";
    dezgula_solver_save(solver, words);
    return NULL;
}

/* A solver of its own to the end, and the one that both ask. */
static const char *solved(uint64_t budget)
{
    const char *said = NULL;
    for (unsigned i = 0; said == NULL && i < ROUNDS; i++) {
        uint64_t answer;
        dezgula_solver *solver = dezgula_solver_new(&example, &answer);
        while (solver != NULL && (answer == DEZGULA_STARTED || answer == DEZGULA_PAUSED)) answer = dezgula_solver_work(solver, budget);
        said = answer != DEZGULA_COMPLETE ? dezgula_sentence(answer) : asked(solver);
        if (said == NULL) said = asked(shared);
        dezgula_solver_free(solver);
    }
    return said;
}

static void *thread(void *budget)
{
    const char *said = rounds(*(uint64_t *)budget);
    return (void *)(uintptr_t)(said != NULL ? said : solved(*(uint64_t *)budget));
}

int main(void)
{
    pthread_t threads[2];
    uint64_t budgets[2] = {3, 1000};
    void *said[2];
    uint64_t answer;
    shared = dezgula_solver_new(&example, &answer);
    if (shared == NULL || dezgula_solver_work(shared, 1000000) != DEZGULA_COMPLETE) return fprintf(stderr, "no solver\n"), 1;
    for (size_t i = 0; i < 2; i++)
        if (pthread_create(&threads[i], NULL, thread, &budgets[i]) != 0) return fprintf(stderr, "no thread\n"), 1;
    for (size_t i = 0; i < 2; i++) pthread_join(threads[i], &said[i]);
    dezgula_solver_free(shared);
    for (size_t i = 0; i < 2; i++)
        if (said[i] != NULL) return printf("SURPRISE: %s\n", (const char *)said[i]), 1;
    printf("two threads, %d rounds each: as alone\n", ROUNDS);
    return 0;
}
