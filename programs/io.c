#include "io.h"

#include <errno.h>
#include <fcntl.h>
#include <poll.h>
#include <signal.h>
#include <stdarg.h>
#include <stdlib.h>
#include <string.h>
#include <sys/stat.h>
#include <unistd.h>

/* how long a sentence waits for its reader, in milliseconds */
enum { PATIENCE = 2000 };

bool io_begin(void)
{
    for (int descriptor = 0; descriptor <= 2; descriptor++) {
        if (fcntl(descriptor, F_GETFD) >= 0 || errno != EBADF) continue;
        /* standard input is held for writing and the others for reading, so that their use fails as it would on a closed descriptor */
        if (open("/dev/null", descriptor == 0 ? O_WRONLY : O_RDONLY) != descriptor) return false;
    }
    struct sigaction ignore = {.sa_handler = SIG_IGN};
    return sigaction(SIGPIPE, &ignore, NULL) == 0 && sigaction(SIGXFSZ, &ignore, NULL) == 0;
}

void io_tell(const char *text, size_t len, int milliseconds)
{
    struct pollfd to = {.fd = STDERR_FILENO, .events = POLLOUT};
    if (poll(&to, 1, milliseconds) != 1 || (to.revents & POLLOUT) == 0) return;
    /* where it cannot be written there is nobody left to tell */
    ssize_t n = write(STDERR_FILENO, text, len);
    (void)n;
}

void io_say(const char *format, ...)
{
    char text[1024] = "dezgula: ";
    size_t begun = strlen(text);
    va_list words;
    va_start(words, format);
    vsnprintf(text + begun, sizeof text - begun - 1, format, words);
    va_end(words);
    size_t len = strlen(text);
    text[len++] = '\n';
    io_tell(text, len, PATIENCE);
}

int io_refuse(const char *name, const fault *why)
{
    if (strcmp(name, "-") == 0) name = "standard input";
    if (why->number != 0) io_say("%s: refused %u: %s", name, why->number, why->text);
    else io_say("%s: refused: %s", name, why->text);
    return STATUS_REFUSED;
}

bool io_write(int descriptor, const void *bytes, size_t len)
{
    const char *at = bytes;
    while (len > 0) {
        ssize_t n = write(descriptor, at, len);
        if (n < 0 && errno == EINTR) continue;
        if (n <= 0) return false;
        at += n;
        len -= (size_t)n;
    }
    return true;
}

/* Reads to the end, one byte more than there may be at most, which tells a longer file. False: errno says why. */
static bool read_to_end(int descriptor, size_t most, char **text, size_t *len)
{
    size_t room = 1 << 12;
    *len = 0;
    *text = malloc(room + 1);
    while (*text != NULL && *len <= most) {
        if (*len == room) {
            room *= 2;
            char *longer = realloc(*text, room + 1);
            if (longer == NULL) break;
            *text = longer;
        }
        ssize_t n = read(descriptor, *text + *len, room - *len);
        if (n < 0 && errno == EINTR) continue;
        if (n < 0) return false;
        *len += (size_t)n;
        (*text)[*len] = 0;
        if (n == 0) return true;
    }
    if (*text != NULL && *len > most) return true;
    errno = ENOMEM;
    return false;
}

static int opened(const char *name)
{
    struct stat about;
    int descriptor = strcmp(name, "-") == 0 ? STDIN_FILENO : open(name, O_RDONLY | O_CLOEXEC);
    if (descriptor < 0) return -1;
    if (fstat(descriptor, &about) == 0 && !S_ISDIR(about.st_mode)) return descriptor;
    if (descriptor != STDIN_FILENO) close(descriptor);
    errno = EISDIR;
    return -1;
}

char *io_read(const char *name, size_t most, size_t *len, int *status)
{
    const char *shown = strcmp(name, "-") == 0 ? "standard input" : name;
    char *text = NULL;
    *status = STATUS_NOTHING;
    if (*name == 0) {
        io_say("a file has the empty name; give a file, or - for standard input");
        return NULL;
    }
    int descriptor = opened(name);
    bool whole = descriptor >= 0 && read_to_end(descriptor, most, &text, len);
    int why = errno;
    if (descriptor > STDIN_FILENO) close(descriptor);
    if (whole && *len <= most) return text;
    free(text);
    if (whole) {
        fault longer;
        fault_set(&longer, 10, "longer than %zu bytes, which is the most that is read", most);
        *status = io_refuse(name, &longer);
    } else {
        io_say("cannot read %s: %s", shown, strerror(why));
    }
    return NULL;
}

int io_end(int status)
{
    bool written = ferror(stdout) == 0;
    if (fflush(stdout) != 0) written = false;
    int why = errno;
    if (close(STDOUT_FILENO) != 0 && errno != EBADF) {
        if (written) why = errno;
        written = false;
    }
    if (written) return status;
    io_say("standard output cannot be written: %s", why != 0 ? strerror(why) : "not all was taken");
    return STATUS_NOTHING;
}
