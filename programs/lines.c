#include "lines.h"

#include <stdlib.h>
#include <string.h>

void lines_free(lines *text)
{
    free(text->text);
    free(text->lines);
    memset(text, 0, sizeof *text);
}

size_t lines_number(const lines *text, size_t k)
{
    if (k >= 1 && k <= text->count) return text->lines[k - 1].number;
    return text->count == 0 ? 1 : text->lines[text->count - 1].number + 1;
}

bool lines_strict(const lines *text, fault *why)
{
    if (text->changed == 0) return true;
    return fault_set(why, 9,
                     "line %zu: --strict takes single spaces, a newline after each line, and no tab, carriage return, byte order mark, comment or blank line",
                     text->changed);
}

/* Where a line of the file ends: at a newline, a carriage return or the end. */
static size_t end_of_line(const char *bytes, size_t at, size_t len)
{
    while (at < len && bytes[at] != '\n' && bytes[at] != '\r') at++;
    return at;
}

/* Appends the words between two places, up to a comment, with single spaces. */
static void append_words(lines *out, const char *bytes, size_t at, size_t end)
{
    size_t start = out->len;
    for (; at < end && bytes[at] != '#'; at++) {
        bool space = bytes[at] == ' ' || bytes[at] == '\t' || bytes[at] == '\v' || bytes[at] == '\f';
        if (!space) out->text[out->len++] = bytes[at];
        else if (out->len > start && out->text[out->len - 1] != ' ') out->text[out->len++] = ' ';
    }
    if (out->len > start && out->text[out->len - 1] == ' ') out->len--;
}

/* Takes over one line of the file, from one place to another, unless it is blank. */
static void append_line(lines *out, const char *bytes, size_t at, size_t end, bool newline)
{
    size_t start = out->len;
    append_words(out, bytes, at, end);
    size_t len = out->len - start;
    bool same = len > 0 && newline && len == end - at && memcmp(out->text + start, bytes + at, len) == 0;
    if (!same && out->changed == 0) out->changed = out->last;
    if (len == 0) return;
    out->text[out->len++] = '\n';
    out->lines[out->count].number = out->last;
    out->lines[out->count].start = start;
    out->lines[out->count++].len = len;
}

/* Refuses what is no text: another encoding, or a byte 0. */
static bool is_text(const char *bytes, size_t len, fault *why)
{
    const unsigned char *head = (const unsigned char *)bytes;
    if (len >= 2 && ((head[0] == 0xff && head[1] == 0xfe) || (head[0] == 0xfe && head[1] == 0xff)))
        return fault_set(why, 9, "line 1: the file is saved as UTF-16; save it as plain text or UTF-8");
    const char *zero = memchr(bytes, 0, len);
    if (zero == NULL) return true;
    size_t line = 1;
    for (const char *at = bytes; at < zero; at++) line += *at == '\n';
    return fault_set(why, 9, "line %zu: a byte 0, so this is no text (list files are read by dezgula show)", line);
}

static size_t count_ends(const char *bytes, size_t len)
{
    size_t count = 1;
    for (size_t i = 0; i < len; i++) count += bytes[i] == '\n' || bytes[i] == '\r';
    return count;
}

bool lines_read(const char *bytes, size_t len, lines *out, fault *why)
{
    memset(out, 0, sizeof *out);
    if (!is_text(bytes, len, why)) return false;
    out->text = malloc(len + 2);
    out->lines = malloc((count_ends(bytes, len) + 1) * sizeof *out->lines);
    if (out->text == NULL || out->lines == NULL) {
        lines_free(out);
        return fault_set(why, 0, "there is no memory for the text");
    }
    size_t at = 0;
    if (len >= 3 && memcmp(bytes, "\xef\xbb\xbf", 3) == 0) {
        at = 3;
        out->changed = 1;
    }
    while (at < len) {
        size_t end = end_of_line(bytes, at, len);
        bool newline = end < len && bytes[end] == '\n';
        out->last++;
        append_line(out, bytes, at, end, newline);
        at = end + 1;
        if (end + 1 < len && bytes[end] == '\r' && bytes[end + 1] == '\n') at++;
    }
    out->text[out->len] = 0;
    return true;
}
