/* A reformulation of a map for the solver: another map with the same minimal solutions, and the numbers that show it. See reformulate.c. */
#ifndef DEZGULA_REFORMULATE_H
#define DEZGULA_REFORMULATE_H

#include "dezgula_engine.h"

#include <stdbool.h>

/* row `row` and `times` row `by` in its place */
typedef struct {
    uint64_t row, by;
    int64_t times;
} row_operation;

enum { REFORMULATED_UNKNOWNS = 16, REFORMULATED_FURTHER = 8, REFORMULATED_OPERATIONS = 64 }; /* one more of the first two with right sides */

/* The other map has one equation for each unknown of the map, and `further` unknowns more than it. When the operations are undone, each equation is the only
 * one to have its unknown, with the coefficient -1. */
typedef struct {
    size_t further, operations;
    int32_t extended[2 * DEZGULA_ENGINE_COEFFICIENTS], other[DEZGULA_ENGINE_COEFFICIENTS];
    int64_t onto[DEZGULA_ENGINE_MOST * (1 + 2 * DEZGULA_ENGINE_MOST)], back[2 * DEZGULA_ENGINE_MOST * (1 + DEZGULA_ENGINE_MOST)];
    int64_t above[DEZGULA_ENGINE_MOST * (1 + DEZGULA_ENGINE_MOST)];
    row_operation undo[REFORMULATED_OPERATIONS];
} reformulation;

/* Looks for one; false where there is none. That both maps have the same minimal solutions is then shown: the engine's call has said so. Where `capped`, only
 * those with at most 1 in the first unknown are wanted. *beyond tells whether some wanted minimal solution is seen to have a component above the limit. */
bool reformulation_find(const dezgula_system *system, bool capped, reformulation *found, bool *beyond);

/* Its words, how many, and back; the two sizes are set by whoever loads it, within their limits. False where the words do not show it. */
size_t reformulation_length(const dezgula_system *system, const reformulation *r);
void reformulation_save(const dezgula_system *system, const reformulation *r, uint32_t *words);
bool reformulation_load(const dezgula_system *system, const uint32_t *words, reformulation *r);

#endif
