/* Reading and writing in which every result is looked at. */
#ifndef IO_H
#define IO_H

#include "map.h"

/* What the command ends with. */
enum { STATUS_COMPLETE = 0, STATUS_REFUSED = 1, STATUS_NOTHING = 2, STATUS_CUT_SHORT = 3 };

/* To be called first: a standard descriptor that is closed is held by one on which reading and writing fail, so that no file that is opened later takes its
 * place; a write into a closed pipe, or past the size that a file may have, is an error and no signal. */
bool io_begin(void);

/* Writes a short text to standard error where that takes it within so many milliseconds: nobody is waited for who does not read. */
void io_tell(const char *text, size_t len, int milliseconds);

/* Says a sentence on standard error, after "dezgula: ". */
void io_say(const char *format, ...)
#if defined(__GNUC__)
    __attribute__((format(printf, 1, 2)))
#endif
    ;

/* Says a refusal of what was read from `name`, and gives STATUS_REFUSED. */
int io_refuse(const char *name, const fault *why);

/* Reads all of a file, or of standard input where the name is "-", to a text that ends with a 0 which `len` does not count; at most `most` bytes. NULL: it
 * could not be read, and that was said; `status` is then STATUS_NOTHING, or STATUS_REFUSED for a longer file. */
char *io_read(const char *name, size_t most, size_t *len, int *status);

/* Writes all bytes to a descriptor, as often as it takes. False: that is not possible, and errno says why. */
bool io_write(int descriptor, const void *bytes, size_t len);

/* Whether all that was printed has left for standard output. To be called last: else it says so, and the status becomes STATUS_NOTHING. */
int io_end(int status);

#endif
