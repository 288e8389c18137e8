/* A run kept in a file: magic, version, the problem, the state, a check sum. It is written to a temporary file beside, which is renamed once it is on the disk,
 * so that at any moment the file is either the one before or the new one, whole. */
#ifndef CHECKPOINT_H
#define CHECKPOINT_H

#include "solve.h"

/* Whether runs can be kept there: the temporary file can be made, and what stands there, if anything does, is a regular file. Else says why. */
bool checkpoint_possible(const char *file);

/* Keeps the run. False: it could not be written, and `why` says why; what was there before stays. */
bool checkpoint_write(const char *file, const problem *what, const run *r, fault *why);

/* The run of this problem that is kept there. NULL with STATUS_COMPLETE in `status`: there is no such file, so a run begins anew. NULL with another status:
 * the file cannot be read, is damaged, or is of another problem, which was said. */
run *checkpoint_read(const char *file, const problem *what, int *status);

/* Takes the file away, once its run has ended and its list is written. */
void checkpoint_remove(const char *file);

#endif
