/* What every format is read into: a map with the names, places and arcs that its file has.
 *
 * A map is a system of equations: a tray is an equation and an activity an unknown; a coefficient is what the activity, done once, adds to the tray. A tray
 * that no activity changes has no equation. A net has such trays; they are kept for pictures and said by name, and are left out of the equations. */
#ifndef MAP_H
#define MAP_H

#include <stdbool.h>
#include <stddef.h>
#include <stdint.h>
#include <stdio.h>

/* A tray or an activity. The name is never NULL: it is the id, or t1.. and x1.., where the file has none. */
typedef struct {
    char *name;
    double x, y; /* where the file draws it, if placed */
    bool placed;
    char *page; /* the desk (page) it stands on, or NULL */
} node;

/* An arc of a net, for pictures. `tray` counts in all_trays, from 0, and `activity` in activities. */
typedef struct {
    size_t tray, activity;
    bool from_tray;
    uint32_t weight;
} arc;

typedef struct {
    size_t p, q;         /* the trays that change, and the activities */
    int32_t *coefs;      /* p * q of them, row by row */
    int32_t *rights;     /* p right sides; NULL where the file cannot have any */
    node *trays;         /* p of them, in the order of the rows */
    node *activities;    /* q of them, in the order of the columns */
    bool named;          /* whether the file has names: else trays are t1, t2 .. and activities x1, x2 .. */
    size_t unchanged;    /* trays that no activity changes, which are left out */
    char **unchanged_names;
    arc *arcs;           /* of a net, each as the file has it; of another file none */
    size_t arcs_len;
    node *all_trays;     /* all trays of a net, in the order of the file, those left out among them; of another file none */
    size_t all_trays_len;
} map;

/* Why something is refused: the number that the documents give the refusal (0: none of theirs) and a sentence that says what to change, and where. */
typedef struct {
    unsigned number;
    char text[512];
} fault;

/* Sets a refusal, the sentence as printf writes it, and gives false. */
bool fault_set(fault *why, unsigned number, const char *format, ...)
#if defined(__GNUC__)
    __attribute__((format(printf, 3, 4)))
#endif
    ;

/* What a second list is of: nothing was asked for; the smallest ways to meet right sides; the smallest plans with at least some counts. */
typedef enum { NO_WANTED, DELIVERIES, PLANS } wanted_kind;

/* The minimal solutions of a map, in rows of q numbers, in the order in which they are shown, and the second list. */
typedef struct {
    size_t n, q;
    const uint32_t *rows;
    bool complete;
    wanted_kind kind;
    const uint32_t *wanted;
    size_t wanted_len;
    const char *name; /* of the file that the map is from, or NULL */
} listing;

/* What the second list is, after its length: "ways to deliver what is asked"; and what it is for. Both without a stop. */
const char *wanted_title(wanted_kind kind, size_t len);
const char *wanted_sense(wanted_kind kind, size_t len);

/* Gives back all that a map holds and leaves an empty one; an empty map (all zero) may be handed over too. */
void map_free(map *m);

/* ---- nets (programs/net.c) */

/* Reads a place/transition net in PNML. False: refused, `why` says why, and `out` is empty. Else `out` is the caller's to give back. */
bool map_read_pnml(const char *bytes, size_t len, map *out, fault *why);

/* ---- pictures and pages (programs/picture.c, programs/report.c) */

/* Writes the map as an SVG picture, with the counts of a loop (q numbers) where one is handed over. 0: written; else nothing more can be written to `out`.
 * What is still in the buffer of `out` is looked at by the caller. */
int picture_write(FILE *out, const map *m, const uint32_t *loop_or_null);

/* Writes the page of a map and its list: the net, the loops, the staffing table. The answer is that of picture_write. */
int report_write(FILE *out, const map *m, const listing *l);

#endif
