/* A PNML file as it is read: what net_text.c (strings, sentences), net_kinds.c (nets and arcs that are taken), net_file.c (expat's events) and net.c (the map)
 * share. */
#ifndef NET_H
#define NET_H

#include "map.h"

#if !defined(NO_EXPAT) && defined(__has_include)
#if !__has_include(<expat.h>)
#define NO_EXPAT
#endif
#endif

#ifndef NO_EXPAT

#include <expat.h>

/* Numbers of the documents' refusals that a net can get. */
enum { NO_NUMBER = 0, TRAYS = 1, ACTIVITIES = 2, COEFFICIENT = 7, FORM = 9, LENGTH = 10 };

enum { MOST_OPEN = 256, SHOWN = 60 };

/* What separates namespace and name in expat's names: a byte that neither can have. */
#define BETWEEN '\n'
#define NOWHERE ((size_t)-1)

typedef enum {
    NOTHING, PNML, NET, PAGE, PLACE, TRANSITION, REFERENCE_PLACE, REFERENCE_TRANSITION, ARC,
    NAME, INSCRIPTION, ARC_TYPE, DECLARATION, COLOURS, WORDS, GRAPHICS, POSITION, IGNORED
} kind;

/* A page, a node, a reference or an arc of the file. Strings are the reading's; NULL is one that the file has not. */
typedef struct {
    kind is;
    unsigned long line;
    size_t page;   /* the entry of the page it stands on, or NOWHERE */
    char *id, *name;
    char *source, *target; /* of an arc; a reference has in `target` what it refers to */
    char *weight, *type;   /* of an arc, as written */
    size_t from, to;       /* the same as entries, references followed */
    uint32_t moves;        /* of an arc, how many documents */
    uint32_t dots;         /* the same where they are written as ISO's dots; 0 where they are not */
    bool tests;            /* of an arc, whether it only looks */
    bool placed;
    double x, y;
    size_t number;         /* of a place or a transition, its number among its kind */
} entry;

typedef struct piece {
    struct piece *next;
    char text[];
} piece;

typedef struct {
    XML_Parser parser;
    unsigned long blank; /* lines ahead of the parsed text */
    fault *why;
    bool refused;
    piece *pieces;
    entry *entries;
    size_t len, room;
    entry **by_id; /* those with an id, in the order of the ids */
    size_t ids;
    kind open[MOST_OPEN]; /* the elements that are open and count */
    size_t depth;
    size_t ignored; /* how many are open inside one that does not count, itself included */
    char *grammar;  /* the namespace of the net, or until it begins of the file, or NULL */
    bool net;       /* whether a net has begun */
    size_t page, current;
    char *words; /* the text of the label that is open */
    size_t words_len, words_room;
    bool worded;
    unsigned long label; /* the line on which it begins */
    char *colour; /* the one colour of the documents, where arcs name it */
} reading;

/* A name as a sentence shows it. */
typedef struct {
    char text[2 * SHOWN + 60];
} shown;

/* ---- net_text.c */

/* False: there is no memory. What begins is ended, whatever the answer. */
bool net_begin(reading *r, fault *why);
void net_end(reading *r);

/* A new entry on the open page and the line under way, or NULL where there is no memory. */
entry *net_add(reading *r, kind is);

/* Room for `len` bytes and a zero that lasts as long as the reading, or NULL. */
char *net_room(reading *r, size_t len);

/* `text` as people are shown it: trimmed, white space folded to one space, control characters and those that turn the direction of writing dropped. NULL where
 * there is none or nothing is left of it. */
char *net_tidy(reading *r, const char *text);

/* A name whole, or its beginning. */
shown net_quote(const char *name);

/* An arc by its id, or by its ends where it has none. */
shown net_arc(const entry *e);

/* What the standard calls a node or a reference. */
const char *net_word(kind is);
bool net_is_node(kind is);

/* The line under way, from 1. */
unsigned long net_line(const reading *r);

void net_no_memory(reading *r);

/* Refuses in the words "line k: ..", unless something is refused already, and ends the reading. */
void net_refuse(reading *r, unsigned long line, unsigned number, const char *format, ...) __attribute__((format(printf, 4, 5)));

/* The same without a line. */
void net_refuse_all(reading *r, unsigned number, const char *format, ...) __attribute__((format(printf, 3, 4)));

/* Whether `text` begins with `word`, which is in small letters; those of the text are of any size. */
bool net_begins_with(const char *text, const char *word);

/* ---- net_kinds.c */

/* Refuses a net of a type that is not read. */
void net_check_type(reading *r, const char *written);

/* Finds how many documents an arc moves, and whether it only looks; refuses one of a kind that is not taken. */
void net_check_arc(reading *r, entry *e);

/* How many documents a sum of ISO's dots is, as "2'dot"; 0 where the text is no such sum. */
uint32_t net_dots(const char *text);

/* ---- net_file.c */

/* Reads the file's entries as they stand: ids are not looked up. */
void net_read(reading *r, const char *bytes, size_t len);

#endif
#endif
