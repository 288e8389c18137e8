/* Files that are replaced whole: at any moment there is either the one before or the new one. */
#ifndef REPLACE_H
#define REPLACE_H

#include <stdbool.h>
#include <stddef.h>

enum { MOST_NAME = 4096 };

/* Where a file is, through links; and the temporary file beside it, NAME.new. False: the name is too long, and errno says so. */
bool replace_places(const char *name, char place[MOST_NAME], char temporary[MOST_NAME]);

/* Writes a file: to the temporary one, on the disk, and then in its place. What is there and is no regular file, as a pipe, is written as it is. False: it
 * could not be written, errno says why, and a file that was there before is as it was. */
bool replace_file(const char *name, const void *bytes, size_t len);

#endif
