/* Strings, entries and sentences of a net that is read: net.h says what each call is. */
#include "net.h"

#ifndef NO_EXPAT

#include <ctype.h>
#include <stdarg.h>
#include <stdlib.h>
#include <string.h>

/* ---- strings and entries */

static void stop(reading *r)
{
    r->refused = true;
    if (r->parser != NULL) (void)XML_StopParser(r->parser, XML_FALSE);
}

void net_no_memory(reading *r)
{
    if (!r->refused) (void)fault_set(r->why, NO_NUMBER, "there is no memory to read this net");
    stop(r);
}

char *net_room(reading *r, size_t len)
{
    piece *p = malloc(sizeof *p + len + 1);
    if (p == NULL) {
        net_no_memory(r);
        return NULL;
    }
    p->next = r->pieces;
    r->pieces = p;
    return p->text;
}

unsigned long net_line(const reading *r)
{
    return r->blank + XML_GetCurrentLineNumber(r->parser);
}

entry *net_add(reading *r, kind is)
{
    if (r->len == r->room) {
        size_t room = r->room == 0 ? 64 : 2 * r->room;
        entry *longer = realloc(r->entries, room * sizeof *longer);
        if (longer == NULL) {
            net_no_memory(r);
            return NULL;
        }
        r->entries = longer;
        r->room = room;
    }
    entry *e = &r->entries[r->len++];
    *e = (entry){.is = is, .line = net_line(r), .page = r->page, .from = NOWHERE, .to = NOWHERE};
    return e;
}

bool net_begin(reading *r, fault *why)
{
    *r = (reading){.why = why, .page = NOWHERE, .current = NOWHERE};
    r->parser = XML_ParserCreateNS(NULL, BETWEEN);
    if (r->parser == NULL) net_no_memory(r);
    return !r->refused;
}

void net_end(reading *r)
{
    while (r->pieces != NULL) {
        piece *next = r->pieces->next;
        free(r->pieces);
        r->pieces = next;
    }
    free(r->entries);
    free(r->by_id);
    free(r->words);
    if (r->parser != NULL) XML_ParserFree(r->parser);
}

/* ---- text as people are shown it: trimmed, white space folded to one space, control characters and those that turn the direction of writing dropped */

/* The character at s, which is UTF-8 by expat's word, and how many bytes it has. */
static uint32_t character(const char *s, size_t *width)
{
    const unsigned char *b = (const unsigned char *)s;
    if (b[0] < 0x80) return *width = 1, b[0];
    if (b[0] < 0xE0) return *width = 2, (uint32_t)(b[0] & 0x1F) << 6 | (b[1] & 0x3F);
    if (b[0] < 0xF0) return *width = 3, (uint32_t)(b[0] & 0x0F) << 12 | (uint32_t)(b[1] & 0x3F) << 6 | (b[2] & 0x3F);
    return *width = 4, (uint32_t)(b[0] & 0x07) << 18 | (uint32_t)(b[1] & 0x3F) << 12 | (uint32_t)(b[2] & 0x3F) << 6 | (b[3] & 0x3F);
}

static bool is_space(uint32_t c)
{
    return c == ' ' || (c >= 9 && c <= 13) || c == 0x85 || c == 0xA0 || c == 0x2028 || c == 0x2029;
}

static bool is_dropped(uint32_t c)
{
    return c < 32 || (c >= 127 && c <= 159) || (c >= 0x202A && c <= 0x202E) || (c >= 0x2066 && c <= 0x2069) || c == 0xFEFF || (c >= 0xFFF9 && c <= 0xFFFB);
}

char *net_tidy(reading *r, const char *text)
{
    if (text == NULL) return NULL;
    char *out = net_room(r, strlen(text)), *to = out;
    if (out == NULL) return NULL;
    bool space = false;
    size_t width = 0;
    for (const char *s = text; *s != 0; s += width) {
        uint32_t c = character(s, &width);
        if (is_space(c)) space = true;
        else if (!is_dropped(c)) {
            if (space && to != out) *to++ = ' ';
            space = false;
            memcpy(to, s, width);
            to += width;
        }
    }
    *to = 0;
    return to == out ? NULL : out;
}

shown net_quote(const char *name)
{
    shown out;
    if (name == NULL) name = "";
    size_t len = strlen(name);
    if (len <= SHOWN) {
        memcpy(out.text, name, len + 1);
        return out;
    }
    len = SHOWN;
    while (len > 0 && ((unsigned char)name[len] & 0xC0) == 0x80) len--;
    memcpy(out.text, name, len);
    memcpy(out.text + len, "...", 4);
    return out;
}

bool net_begins_with(const char *text, const char *word)
{
    while (*word != 0 && tolower((unsigned char)*text) == *word) text++, word++;
    return *word == 0;
}

bool net_is_node(kind is)
{
    return is == PLACE || is == TRANSITION || is == REFERENCE_PLACE || is == REFERENCE_TRANSITION;
}

const char *net_word(kind is)
{
    return is == PLACE ? "place" : is == TRANSITION ? "transition" : is == REFERENCE_PLACE ? "referencePlace" : "referenceTransition";
}

shown net_arc(const entry *e)
{
    shown out, id = net_quote(e->id), from = net_quote(e->source), to = net_quote(e->target);
    if (e->id != NULL) (void)snprintf(out.text, sizeof out.text, "the arc \"%.*s\"", SHOWN + 3, id.text);
    else (void)snprintf(out.text, sizeof out.text, "the arc from \"%.*s\" to \"%.*s\"", SHOWN + 3, from.text, SHOWN + 3, to.text);
    return out;
}

/* ---- refusals */

void net_refuse(reading *r, unsigned long line, unsigned number, const char *format, ...)
{
    char sentence[400];
    va_list rest;
    va_start(rest, format);
    (void)vsnprintf(sentence, sizeof sentence, format, rest);
    va_end(rest);
    if (!r->refused) (void)fault_set(r->why, number, "line %lu: %s", line, sentence);
    stop(r);
}

void net_refuse_all(reading *r, unsigned number, const char *format, ...)
{
    char sentence[400];
    va_list rest;
    va_start(rest, format);
    (void)vsnprintf(sentence, sizeof sentence, format, rest);
    va_end(rest);
    if (!r->refused) (void)fault_set(r->why, number, "%s", sentence);
    stop(r);
}

#endif
