#include "replace.h"

#include <errno.h>
#include <fcntl.h>
#include <stdio.h>
#include <stdlib.h>
#include <string.h>
#include <sys/stat.h>
#include <unistd.h>

#include "io.h"

bool replace_places(const char *name, char place[MOST_NAME], char temporary[MOST_NAME])
{
    char *through = realpath(name, NULL);
    int n = snprintf(place, MOST_NAME, "%s", through != NULL ? through : name);
    free(through);
    int beside = n >= 0 && n < MOST_NAME ? snprintf(temporary, MOST_NAME, "%s.new", place) : -1;
    errno = ENAMETOOLONG;
    return beside >= 0 && beside < MOST_NAME;
}

/* Puts a rename on the disk, where the file system can. */
static void sync_directory(const char *place)
{
    char directory[MOST_NAME];
    snprintf(directory, sizeof directory, "%s", place);
    char *slash = strrchr(directory, '/');
    if (slash == NULL) strcpy(directory, ".");
    else if (slash == directory) slash[1] = 0;
    else *slash = 0;
    int descriptor = open(directory, O_RDONLY | O_DIRECTORY | O_CLOEXEC);
    if (descriptor < 0) return;
    (void)fsync(descriptor);
    close(descriptor);
}

/* Writes all to a file that is opened so; `lasting`: it is on the disk when this returns. */
static bool write_all(const char *name, int flags, const void *bytes, size_t len, bool lasting)
{
    int descriptor = open(name, O_WRONLY | O_CLOEXEC | flags, 0666);
    if (descriptor < 0) return false;
    bool written = io_write(descriptor, bytes, len) && (!lasting || fsync(descriptor) == 0);
    int why = errno;
    if (close(descriptor) != 0 && written) return false;
    errno = why;
    return written;
}

bool replace_file(const char *name, const void *bytes, size_t len)
{
    char place[MOST_NAME], temporary[MOST_NAME];
    struct stat about;
    if (stat(name, &about) == 0 && !S_ISREG(about.st_mode)) return write_all(name, 0, bytes, len, false);
    if (!replace_places(name, place, temporary)) return false;
    if (write_all(temporary, O_CREAT | O_TRUNC, bytes, len, true) && rename(temporary, place) == 0) {
        sync_directory(place);
        return true;
    }
    int why = errno;
    unlink(temporary);
    errno = why;
    return false;
}
