/* The file of a net, by expat's events: its pages, nodes, references and arcs as entries (net_read).
 *
 * In order: the grammar, as a table of which element stands in which; elements that begin; text and elements that end; the parse.
 *
 * An element counts where its namespace is that of the net, has "pnml" in it, or is none; all else is a tool's own and is passed over, and so is what stands in
 * <toolspecific>. */
#include "net.h"

#ifndef NO_EXPAT

#include <iconv.h>
#include <math.h>
#include <stdlib.h>
#include <string.h>

/* ---- the grammar: which element stands in which */

typedef struct {
    kind in;
    const char *name;
    kind is;
} production;

/* A page has what a net has, and every kind of node what a place has. */
static const production GRAMMAR[] = {
    {NOTHING, "pnml", PNML},
    {PNML, "net", NET},
    {NET, "page", PAGE},
    {NET, "place", PLACE},
    {NET, "transition", TRANSITION},
    {NET, "referencePlace", REFERENCE_PLACE},
    {NET, "referenceTransition", REFERENCE_TRANSITION},
    {NET, "arc", ARC},
    {NET, "name", NAME},
    {NET, "declaration", DECLARATION},
    {PLACE, "name", NAME},
    {PLACE, "graphics", GRAPHICS},
    {GRAPHICS, "position", POSITION},
    {ARC, "inscription", INSCRIPTION},
    {ARC, "type", ARC_TYPE},
    {ARC, "arctype", ARC_TYPE},
    {ARC, "arcType", ARC_TYPE},
    {ARC, "hlinscription", COLOURS},
    {PLACE, "hlinitialMarking", COLOURS},
    {NAME, "text", WORDS},
    {NAME, "value", WORDS},
};

/* Elements that make a net another kind of net. */
static const struct {
    kind in;
    const char *name, *why;
} REFUSED[] = {
    {NET, "net", "a net inside a page (a subprocess); put its activities on the page itself"},
    {PLACE, "condition", "an activity with a condition: a coloured net; only place/transition nets are read"},
    {DECLARATION, "structure", "a declaration of colours: a coloured net; only place/transition nets are read"},
};

enum { PRODUCTIONS = sizeof GRAMMAR / sizeof *GRAMMAR, REFUSALS = sizeof REFUSED / sizeof *REFUSED };

static bool is_label(kind is)
{
    return is == NAME || is == INSCRIPTION || is == ARC_TYPE || is == DECLARATION || is == COLOURS;
}

/* The kind under whose name the table has what stands in `is`. */
static kind family(kind is)
{
    return is == PAGE ? NET : net_is_node(is) ? PLACE : is_label(is) ? NAME : is;
}

static kind innermost(const reading *r)
{
    return r->depth == 0 ? NOTHING : r->open[r->depth - 1];
}

static const char *local_name(const char *full)
{
    const char *between = strrchr(full, BETWEEN);
    return between == NULL ? full : between + 1;
}

static bool is_pnml(const reading *r, const char *full)
{
    const char *local = local_name(full);
    if (local == full || r->depth == 0 || (innermost(r) == PNML && strcmp(local, "net") == 0)) return true;
    size_t len = (size_t)(local - full) - 1;
    if (r->grammar != NULL && strlen(r->grammar) == len && memcmp(r->grammar, full, len) == 0) return true;
    const char *word = strstr(full, "pnml");
    return word != NULL && word < local;
}

static kind kind_of(reading *r, const char *full)
{
    const char *local = local_name(full);
    kind in = innermost(r);
    if (!is_pnml(r, full)) return IGNORED;
    for (size_t i = 0; i < REFUSALS; i++)
        if ((REFUSED[i].in == in || REFUSED[i].in == family(in)) && strcmp(REFUSED[i].name, local) == 0) net_refuse(r, net_line(r), FORM, "%s", REFUSED[i].why);
    for (size_t i = 0; i < PRODUCTIONS; i++)
        if (GRAMMAR[i].in == family(in) && strcmp(GRAMMAR[i].name, local) == 0) return GRAMMAR[i].is;
    return IGNORED;
}

/* ---- elements that begin */

static const char *attribute(const char **attributes, const char *name)
{
    for (; attributes[0] != NULL; attributes += 2)
        if (strcmp(local_name(attributes[0]), name) == 0) return attributes[1];
    return NULL;
}

/* The namespace of an element is the grammar's. */
static void take_grammar(reading *r, const char *full)
{
    const char *local = local_name(full);
    if (local == full) return;
    size_t len = (size_t)(local - full) - 1;
    r->grammar = net_room(r, len);
    if (r->grammar == NULL) return;
    memcpy(r->grammar, full, len);
    r->grammar[len] = 0;
}

static void begin_file(reading *r, const char *full)
{
    const char *local = local_name(full);
    shown said = net_quote(local);
    if (strcmp(local, "pnml") == 0) take_grammar(r, full);
    else net_refuse(r, net_line(r), FORM, "the file begins with <%s>, not with <pnml>: it is no PNML file; export the net as PNML", said.text);
}

static void begin_net(reading *r, const char *full, const char **attributes)
{
    shown id = net_quote(attribute(attributes, "id"));
    take_grammar(r, full);
    if (r->net) net_refuse(r, net_line(r), FORM, "a second net (\"%s\") in the file; save each net in a file of its own", id.text);
    else net_check_type(r, attribute(attributes, "type"));
    r->net = true;
}

static void begin_page(reading *r, const char **attributes)
{
    entry *e = net_add(r, PAGE);
    if (e == NULL) return;
    e->id = net_tidy(r, attribute(attributes, "id"));
    r->page = (size_t)(e - r->entries);
}

static bool coordinate(const char *text, double *value)
{
    char *end = NULL;
    if (text == NULL) return false;
    *value = strtod(text, &end);
    return end != text && isfinite(*value) && fabs(*value) <= 1e6;
}

/* The first place that is given counts. */
static void place(entry *e, const char *across, const char *down)
{
    double x = 0, y = 0;
    if (e->placed || !coordinate(across, &x) || !coordinate(down, &y)) return;
    e->placed = true;
    e->x = x;
    e->y = y;
}

static void begin_node(reading *r, kind is, const char **attributes)
{
    entry *e = net_add(r, is);
    if (e == NULL) return;
    r->current = (size_t)(e - r->entries);
    e->id = net_tidy(r, attribute(attributes, "id"));
    e->name = net_tidy(r, attribute(attributes, "name"));
    e->target = net_tidy(r, attribute(attributes, "ref"));
    place(e, attribute(attributes, "positionX"), attribute(attributes, "positionY"));
    shown id = net_quote(e->id);
    if (e->id == NULL) net_refuse(r, e->line, FORM, "a <%s> without an id", net_word(is));
    else if (is != PLACE && is != TRANSITION && e->target == NULL)
        net_refuse(r, e->line, FORM, "the <%s> \"%s\" has no ref: it stands for nothing", net_word(is), id.text);
}

/* TAPAAL writes an arc's kind and weight as attributes, and an interval of time, which counts nothing, as its inscription. */
static void begin_arc(reading *r, const char **attributes)
{
    entry *e = net_add(r, ARC);
    if (e == NULL) return;
    r->current = (size_t)(e - r->entries);
    e->id = net_tidy(r, attribute(attributes, "id"));
    e->source = net_tidy(r, attribute(attributes, "source"));
    e->target = net_tidy(r, attribute(attributes, "target"));
    e->type = net_tidy(r, attribute(attributes, "type"));
    e->weight = net_tidy(r, attribute(attributes, "weight"));
    if (e->weight == NULL) e->weight = net_tidy(r, attribute(attributes, "inscription"));
    if (e->weight != NULL && (e->weight[0] == '[' || e->weight[0] == '(')) e->weight = NULL;
    shown id = net_quote(e->id);
    if (e->source == NULL) net_refuse(r, e->line, FORM, "the arc \"%s\" has no source", id.text);
    else if (e->target == NULL) net_refuse(r, e->line, FORM, "the arc \"%s\" has no target", id.text);
}

static void begin_label(reading *r, kind is, const char **attributes)
{
    r->words_len = 0;
    r->worded = false;
    r->label = net_line(r);
    if (is == ARC_TYPE && attribute(attributes, "value") != NULL) r->entries[r->current].type = net_tidy(r, attribute(attributes, "value"));
}

static void begin_kind(reading *r, kind is, const char *full, const char **attributes)
{
    if (is == PNML) begin_file(r, full);
    else if (is == NET) begin_net(r, full, attributes);
    else if (is == PAGE) begin_page(r, attributes);
    else if (is == ARC) begin_arc(r, attributes);
    else if (is == POSITION) place(&r->entries[r->current], attribute(attributes, "x"), attribute(attributes, "y"));
    else if (net_is_node(is)) begin_node(r, is, attributes);
    else if (is_label(is)) begin_label(r, is, attributes);
}

static void XMLCALL on_begin(void *data, const XML_Char *full, const XML_Char **attributes)
{
    reading *r = data;
    if (r->refused) return;
    if (r->depth + r->ignored >= MOST_OPEN) {
        net_refuse(r, net_line(r), FORM, "elements nested deeper than %d", MOST_OPEN);
        return;
    }
    kind is = r->ignored > 0 ? IGNORED : kind_of(r, full);
    if (is == WORDS && r->worded) is = IGNORED;
    if (r->depth == 0) is = PNML;
    if (is == IGNORED) {
        r->ignored++;
        return;
    }
    r->open[r->depth++] = is;
    begin_kind(r, is, full, attributes);
}

/* ---- text, and elements that end */

static void XMLCALL on_text(void *data, const XML_Char *text, int len)
{
    reading *r = data;
    kind in = innermost(r);
    if (r->refused || r->ignored > 0 || (in != WORDS && !is_label(in))) return;
    size_t need = r->words_len + (size_t)len + 1;
    if (need > r->words_room) {
        char *longer = realloc(r->words, 2 * need);
        if (longer == NULL) {
            net_no_memory(r);
            return;
        }
        r->words = longer;
        r->words_room = 2 * need;
    }
    memcpy(r->words + r->words_len, text, (size_t)len);
    r->words_len += (size_t)len;
    r->words[r->words_len] = 0;
}

/* The text of the label that ends, or NULL. */
static char *label(reading *r)
{
    return r->words_len == 0 ? NULL : net_tidy(r, r->words);
}

/* Documents of one kind are no colours. */
static void end_colours(reading *r, kind owner, const char *text)
{
    entry *e = &r->entries[r->current];
    uint32_t dots = text == NULL ? 0 : net_dots(text);
    shown by = net_arc(e), tray = net_quote(e->id), said = net_quote(text);
    const char *colon = text == NULL ? "" : ": ";
    if (owner == ARC && dots > 0) e->dots = dots;
    else if (owner == ARC)
        net_refuse(r, r->label, FORM, "%s is a coloured arc (hlinscription%s%s); only place/transition nets are read", by.text, colon, said.text);
    else if (dots == 0)
        net_refuse(r, r->label, FORM, "\"%s\" is a coloured tray (hlinitialMarking%s%s); only place/transition nets are read", tray.text, colon, said.text);
}

static void end_label(reading *r, kind is)
{
    kind owner = innermost(r);
    char *text = label(r);
    if (!r->refused && is == COLOURS) end_colours(r, owner, text);
    if (r->refused || text == NULL) return;
    shown said = net_quote(text);
    if (is == DECLARATION) net_refuse(r, net_line(r), FORM, "a declaration (\"%s\"): a coloured net; only place/transition nets are read", said.text);
    else if (is == INSCRIPTION) r->entries[r->current].weight = text;
    else if (is == ARC_TYPE) r->entries[r->current].type = text;
    else if (is == NAME && owner == PAGE) r->entries[r->page].name = text;
    else if (is == NAME && net_is_node(owner)) r->entries[r->current].name = text;
}

static void XMLCALL on_end(void *data, const XML_Char *full)
{
    reading *r = data;
    (void)full;
    if (r->refused) return;
    if (r->ignored > 0) {
        r->ignored--;
        return;
    }
    kind is = r->open[--r->depth];
    if (is == PAGE) r->page = r->entries[r->page].page;
    else if (is == WORDS) r->worded = r->worded || label(r) != NULL;
    else if (is == ARC) net_check_arc(r, &r->entries[r->current]);
    else if (is_label(is)) end_label(r, is);
}

static void XMLCALL on_doctype(void *data, const XML_Char *name, const XML_Char *system, const XML_Char *public, int internal)
{
    reading *r = data;
    (void)name, (void)system, (void)public, (void)internal;
    net_refuse(r, net_line(r), FORM, "a document type (<!DOCTYPE>); a net needs none: take it out");
}

static void XMLCALL on_entity(void *data, const XML_Char *name, int parameter, const XML_Char *value, int len, const XML_Char *base, const XML_Char *system,
                              const XML_Char *public, const XML_Char *notation)
{
    reading *r = data;
    (void)parameter, (void)value, (void)len, (void)base, (void)system, (void)public, (void)notation;
    shown said = net_quote(name);
    net_refuse(r, net_line(r), FORM, "an entity declaration (\"%s\"); a net needs none: take it out", said.text);
}

/* ---- the parse */

/* Encodings of one byte a character that expat does not know itself, and the C library does. */
static const char *const ONE_BYTE[] = {"windows-", "cp", "iso-8859-", "koi8-", "macintosh"};

enum { ONE_BYTES = sizeof ONE_BYTE / sizeof *ONE_BYTE };

static bool is_one_byte(const char *encoding)
{
    for (size_t i = 0; i < ONE_BYTES; i++)
        if (net_begins_with(encoding, ONE_BYTE[i])) return true;
    return false;
}

/* The character that a byte stands for, or -1. */
static int character_of(iconv_t encoding, char byte)
{
    unsigned char out[8] = {0};
    char *from = &byte, *to = (char *)out;
    size_t left = 1, room = sizeof out;
    (void)iconv(encoding, NULL, NULL, NULL, NULL);
    if (iconv(encoding, &from, &left, &to, &room) == (size_t)-1 || left != 0 || room != sizeof out - 4) return -1;
    return (int)out[0] | (int)out[1] << 8 | (int)out[2] << 16;
}

static int XMLCALL on_encoding(void *data, const XML_Char *name, XML_Encoding *info)
{
    (void)data;
    iconv_t encoding = is_one_byte(name) ? iconv_open("UTF-32LE", name) : (iconv_t)-1;
    if (encoding == (iconv_t)-1) return XML_STATUS_ERROR;
    for (int i = 0; i < 256; i++) info->map[i] = character_of(encoding, (char)i);
    info->data = NULL;
    info->convert = NULL;
    info->release = NULL;
    (void)iconv_close(encoding);
    return XML_STATUS_OK;
}

/* How many bytes stand ahead of the XML declaration and are blank, which XML does not allow and a person does not see. */
static size_t blanks(reading *r, const char *bytes, size_t len)
{
    size_t mark = len >= 3 && memcmp(bytes, "\xef\xbb\xbf", 3) == 0 ? 3 : 0, at = mark;
    for (; at < len && memchr(" \t\r\n", bytes[at], 4) != NULL; at++) r->blank += bytes[at] == '\n';
    return at == mark ? 0 : at;
}

static void refuse_xml(reading *r)
{
    enum XML_Error error = XML_GetErrorCode(r->parser);
    if (error == XML_ERROR_NO_MEMORY) net_no_memory(r);
    else if (error == XML_ERROR_UNKNOWN_ENCODING || error == XML_ERROR_INCORRECT_ENCODING)
        net_refuse(r, net_line(r), FORM, "the file's encoding is not what is said, or is not known; save the net as UTF-8");
    else if (error == XML_ERROR_INVALID_TOKEN)
        net_refuse(r, net_line(r), FORM, "a character that XML does not allow here, or one that is not in the file's encoding; save the net as UTF-8");
    else if (error == XML_ERROR_NO_ELEMENTS) net_refuse(r, net_line(r), FORM, "the file ends before its net does, or holds none");
    else net_refuse(r, net_line(r), FORM, "this is not well-formed XML (%s)", XML_ErrorString(error));
}

void net_read(reading *r, const char *bytes, size_t len)
{
    XML_SetUserData(r->parser, r);
    XML_SetElementHandler(r->parser, on_begin, on_end);
    XML_SetCharacterDataHandler(r->parser, on_text);
    XML_SetStartDoctypeDeclHandler(r->parser, on_doctype);
    XML_SetEntityDeclHandler(r->parser, on_entity);
    XML_SetUnknownEncodingHandler(r->parser, on_encoding, NULL);
    size_t at = blanks(r, bytes, len);
    if (XML_Parse(r->parser, bytes + at, (int)(len - at), XML_TRUE) != XML_STATUS_OK && !r->refused) refuse_xml(r);
    if (!r->refused && !r->net) net_refuse(r, net_line(r), FORM, "there is no <net> in the file");
}

#endif
