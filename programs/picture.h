/* A map as it is drawn: what picture.c writes as SVG and picture_layout.c finds places for, and what the page shares with both. Lengths are in pixels, from the
 * left and from above. */
#ifndef PICTURE_H
#define PICTURE_H

#include "map.h"

enum { LABEL_LINES = 3, LABEL_BYTES = 128 };

#define NO_DESK ((size_t)-1)

typedef struct {
    double x, y;
} point;

/* An activity, which is a box, or a tray, which has round ends. */
typedef struct {
    const node *of;
    bool tray;
    bool unchanged; /* of a tray: no activity changes it */
    size_t desk;    /* its number among the desks, or NO_DESK */
    point at;       /* its middle */
    double width, height;
    char label[LABEL_LINES][LABEL_BYTES];
    size_t lines;
} drawn_node;

/* All arcs from one node to another: Bezier curves by 4, 7, 10 .. points. */
typedef struct {
    size_t from, to; /* numbers of nodes */
    uint64_t weight;
    point *points;
    size_t len;
    point mark; /* where a weight above 1 is written */
} drawn_arc;

typedef struct {
    const char *name;
    double left, top, right, bottom;
} drawn_desk;

typedef struct {
    const map *of;
    drawn_node *nodes; /* the activities, and then the trays */
    size_t nodes_len;
    drawn_arc *arcs;
    size_t arcs_len;
    drawn_desk *desks; /* pages that have nodes; none where there is one page or none */
    size_t desks_len;
    double width, height;
} drawing;

/* Finds places for a drawing's nodes, arcs and desks: those of the file where it has them all and they can be told apart, else those of Graphviz' dot, else a
 * grid. False: there is no memory. */
bool drawing_place(drawing *d);

/* Writes text with what XML and HTML take for their own put into other words. */
void escaped_write(FILE *out, const char *text);

#endif
