#include "read.h"

#include <stdlib.h>
#include <string.h>

#include "io.h"
#include "limits.h"

bool is_net(const char *bytes, size_t len)
{
    size_t at = len >= 3 && memcmp(bytes, "\xef\xbb\xbf", 3) == 0 ? 3 : 0;
    /* XML may come as UTF-16, which the reader of nets knows */
    if (len >= 4 && (memcmp(bytes, "\xff\xfe<\0", 4) == 0 || memcmp(bytes, "\xfe\xff\0<", 4) == 0 || memcmp(bytes, "\0<\0", 3) == 0)) return true;
    while (at < len && memchr(" \t\r\n", bytes[at], 4) != NULL) at++;
    return at < len && bytes[at] == '<';
}

static bool read_text(const char *bytes, size_t len, bool strict, map *out, fault *why)
{
    lines text;
    if (len > MOST_TEXT) return fault_set(why, 10, "%zu bytes; a text has at most %zu with its comments", len, MOST_TEXT);
    if (!lines_read(bytes, len, &text, why)) return false;
    bool read = is_typed(&text) ? read_typed(&text, strict, out, why) : read_matrix(&text, strict, out, why);
    lines_free(&text);
    return read;
}

int read_map(const char *name, bool strict, map *out)
{
    size_t len = 0;
    int status;
    fault why = {0, ""};
    char *bytes = io_read(name, MOST_BYTES, &len, &status);
    memset(out, 0, sizeof *out);
    if (bytes == NULL) return status;
    bool read = is_net(bytes, len) ? map_read_pnml(bytes, len, out, &why) : read_text(bytes, len, strict, out, &why);
    free(bytes);
    return read ? STATUS_COMPLETE : io_refuse(name, &why);
}
