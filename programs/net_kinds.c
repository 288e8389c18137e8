/* Which kinds of net and of arc are taken, and how many documents an arc moves: net_check_type, net_check_arc. */
#include "net.h"

#ifndef NO_EXPAT

#include <ctype.h>
#include <string.h>

/* The most digits of a weight, so that sums of weights are small. */
enum { MOST_DIGITS = 9, MOST_WEIGHT = 999999999 };

/* ---- words, in letters of any size */

static bool is_same_word(const char *a, const char *b)
{
    while (*a != 0 && tolower((unsigned char)*a) == tolower((unsigned char)*b)) a++, b++;
    return tolower((unsigned char)*a) == tolower((unsigned char)*b);
}

static bool is_among(const char *word, const char *const *words, size_t len)
{
    for (size_t i = 0; i < len; i++)
        if (is_same_word(word, words[i])) return true;
    return false;
}

/* Whether `word`, in small letters, is somewhere in `text`. */
static bool has_word(const char *text, const char *word)
{
    for (; *text != 0; text++)
        if (net_begins_with(text, word)) return true;
    return false;
}

/* ---- types of net */

/* What a type of net is called, after the last slash and without the ending of a schema's file: ISO's P/T nets and core model, and what the standard's older
 * forms, WoPeD, PIPE, TAPAAL, Yasper and TINA write. The delays of TINA's time nets change no count and are passed over. */
static const char *const PLACE_TRANSITION_TYPES[] = {
    "ptnet", "ptnetb", "pnmlcoremodel", "basicpnml", "pnml", "pt", "pt-net", "pt net", "p/t net", "p/t-net", "p/t nets", "petri net", "petrinet",
    "place/transition net", "place/transition-net", "pnml_1.1", "epnml", "epnml-1.1", "tpn",
};

static const char *const SCHEMA_ENDINGS[] = {".pntd", ".rng", ".dtd", ".rnc", ".xsd"};

enum { TYPES = sizeof PLACE_TRANSITION_TYPES / sizeof *PLACE_TRANSITION_TYPES, ENDINGS = sizeof SCHEMA_ENDINGS / sizeof *SCHEMA_ENDINGS };

static bool is_listed(const char *type)
{
    return is_among(type, PLACE_TRANSITION_TYPES, TYPES);
}

static void cut_ending(char *type)
{
    size_t len = strlen(type);
    for (size_t i = 0; i < ENDINGS; i++) {
        size_t ending = strlen(SCHEMA_ENDINGS[i]);
        if (len > ending && is_same_word(type + len - ending, SCHEMA_ENDINGS[i])) type[len - ending] = 0;
    }
}

void net_check_type(reading *r, const char *written)
{
    char *type = net_tidy(r, written);
    if (r->refused || type == NULL || is_listed(type)) return;
    shown said = net_quote(type);
    while (type[strlen(type) - 1] == '/' && type[1] != 0) type[strlen(type) - 1] = 0;
    cut_ending(type);
    const char *slash = strrchr(type, '/'), *hash = strrchr(type, '#');
    const char *last = slash == NULL ? type : slash + 1;
    if (hash != NULL && hash >= last) last = hash + 1;
    if (!is_listed(last)) net_refuse(r, net_line(r), FORM, "a net of the type \"%s\"; only place/transition nets (ptnet) are read", said.text);
}

/* ---- kinds of arc */

static const char *const NORMAL_ARCS[] = {"normal", "ordinary", "regular", "standard", "default", "arc", "timed", "transport", "weighted"};
static const char *const TEST_ARCS[] = {"test", "testarc", "test-arc", "test arc", "read", "readarc", "read-arc", "read arc", "both", "double", "biflow",
                                          "bidirectional"};

enum { NORMAL_WORDS = sizeof NORMAL_ARCS / sizeof *NORMAL_ARCS, TEST_WORDS = sizeof TEST_ARCS / sizeof *TEST_ARCS };

static void check_arc_type(reading *r, entry *e)
{
    if (e->type == NULL || is_among(e->type, NORMAL_ARCS, NORMAL_WORDS)) return;
    if (is_among(e->type, TEST_ARCS, TEST_WORDS)) {
        e->tests = true;
        return;
    }
    shown name = net_arc(e), type = net_quote(e->type);
    const char *advice = "the loops of a net go by normal arcs alone; take it out or make it a normal arc";
    if (has_word(e->type, "inhib")) net_refuse(r, e->line, FORM, "%s is an inhibitor arc (%s); %s", name.text, type.text, advice);
    else if (has_word(e->type, "reset") || has_word(e->type, "clear") || has_word(e->type, "flush"))
        net_refuse(r, e->line, FORM, "%s is a reset arc (%s); %s", name.text, type.text, advice);
    else if (has_word(e->type, "colo")) net_refuse(r, e->line, FORM, "%s is a coloured arc (%s); %s", name.text, type.text, advice);
    else net_refuse(r, e->line, FORM, "%s is of the type \"%s\"; %s", name.text, type.text, advice);
}

/* ---- how many documents an arc moves */

/* The whole number that `text` is, up to the comma or the end, and where it ends; NULL where it is none, or is longer than MOST_DIGITS. */
static const char *whole_number(const char *text, uint32_t *number)
{
    while (*text == ' ') text++;
    const char *s = text;
    *number = 0;
    while (*s == '0' && isdigit((unsigned char)s[1])) s++, text++;
    for (; isdigit((unsigned char)*s) && s - text < MOST_DIGITS; s++) *number = 10 * *number + (uint32_t)(*s - '0');
    bool any = s != text;
    while (*s == ' ') s++;
    return any && (*s == 0 || *s == ',') ? s : NULL;
}

/* Whether `colour`, of `len` letters, is the colour that the net's documents have; the first one named is. */
static bool is_the_colour(reading *r, const char *colour, size_t len)
{
    while (len > 0 && *colour == ' ') colour++, len--;
    while (len > 0 && colour[len - 1] == ' ') len--;
    if (r->colour == NULL) {
        r->colour = net_room(r, len);
        if (r->colour == NULL) return false;
        memcpy(r->colour, colour, len);
        r->colour[len] = 0;
    }
    return strlen(r->colour) == len && memcmp(r->colour, colour, len) == 0;
}

/* Refuses a weight that is no number, or one that is out of range. */
static void refuse_weight(reading *r, const entry *e, bool number)
{
    shown name = net_arc(e), weight = net_quote(e->weight);
    if (number) net_refuse(r, e->line, COEFFICIENT, "%s has the weight %s; a weight is from 1 and has at most %d digits", name.text, weight.text, MOST_DIGITS);
    else net_refuse(r, e->line, FORM, "%s has the inscription \"%s\", which is no whole number: a coloured arc, or a slip", name.text, weight.text);
}

/* PIPE's form, "Default,1" or "Default,1,Red,0": a colour and its number, again and again. Documents of two colours are a coloured net. */
static void weigh_colours(reading *r, entry *e)
{
    for (const char *s = e->weight; *s != 0 && !r->refused; s += *s == ',') {
        const char *comma = strchr(s, ',');
        uint32_t number = 0;
        const char *after = comma == NULL ? NULL : whole_number(comma + 1, &number);
        if (after == NULL || number > MOST_WEIGHT - e->moves) {
            refuse_weight(r, e, after != NULL);
            return;
        }
        if (number > 0 && !is_the_colour(r, s, (size_t)(comma - s))) {
            shown name = net_arc(e), first = net_quote(r->colour), weight = net_quote(e->weight);
            net_refuse(r, e->line, FORM, "%s is a coloured arc: \"%s\" beside documents of the colour %s", name.text, weight.text, first.text);
        }
        e->moves += number;
        s = after;
    }
}

static void weigh(reading *r, entry *e)
{
    e->moves = e->weight == NULL;
    if (e->weight == NULL) return;
    if (strchr(e->weight, ',') != NULL) weigh_colours(r, e);
    else if (whole_number(e->weight, &e->moves) == NULL) refuse_weight(r, e, e->weight[strspn(e->weight, "0123456789")] == 0);
    if (!r->refused && e->moves == 0) refuse_weight(r, e, true);
}

/* ---- the colour of documents that have none: ISO's dot, in the places where a coloured net would have others. TAPAAL writes it in every net. */

/* A term of a sum of dots, "2'dot" or "dot", and where it ends; NULL where it is none. */
static const char *take_dots(const char *s, uint32_t *count)
{
    uint32_t number = 0;
    size_t digits = strspn(s, "0123456789");
    if (digits > MOST_DIGITS) return NULL;
    for (size_t i = 0; i < digits; i++) number = 10 * number + (uint32_t)(s[i] - '0');
    s += digits;
    if (digits > 0 && *s != '\'' && *s != '`') return NULL;
    s += digits > 0;
    if (strncmp(s, "dot", 3) != 0) return NULL;
    number = digits > 0 ? number : 1;
    if (number > MOST_WEIGHT - *count) return NULL;
    *count += number;
    s += 3;
    return strncmp(s, ".all", 4) == 0 ? s + 4 : s;
}

uint32_t net_dots(const char *text)
{
    uint32_t count = 0;
    const char *s = text + strspn(text, " (");
    for (;;) {
        s = take_dots(s, &count);
        if (s == NULL) return 0;
        s += strspn(s, " )");
        if (*s == 0) return count;
        if (*s++ != '+') return 0;
        s += strspn(s, " (");
    }
}

static void weigh_dots(reading *r, entry *e)
{
    if (e->dots == 0 || r->refused) return;
    shown name = net_arc(e);
    if (e->weight == NULL) e->moves = e->dots;
    else if (e->moves != e->dots)
        net_refuse(r, e->line, FORM, "%s has the weight %u in one place and %u in another (hlinscription)", name.text, (unsigned)e->moves, (unsigned)e->dots);
}

void net_check_arc(reading *r, entry *e)
{
    check_arc_type(r, e);
    if (!r->refused) weigh(r, e);
    if (!r->refused) weigh_dots(r, e);
}

#endif
