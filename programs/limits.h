/* The limits that every reader and the solver go by: the only place where a number of trays or activities is written down. */
#ifndef LIMITS_H
#define LIMITS_H

#include "dezgula_engine.h"

/* The most trays (equations) and activities (unknowns) of a map that the command takes. */
#define MOST_TRAYS DEZGULA_ENGINE_MOST
#define MOST_ACTIVITIES DEZGULA_ENGINE_MOST

/* What a tray may gain or lose by one activity, and a right side, in size. */
#define MOST_COEFFICIENT DEZGULA_COEFFICIENT_LIMIT

/* How often a loop may have an activity. */
#define MOST_COUNT DEZGULA_COMPONENT_LIMIT

/* The longest file that is read, and the longest text of numbers or equations with its comments, in bytes. */
#define MOST_BYTES ((size_t)16 << 20)
#define MOST_TEXT ((size_t)1 << 20)

#endif
