/* Where the nodes, arcs and desks of a drawing go: drawing_place.
 *
 * In order: arcs between nodes that have places; the places of the file, page beside page; Graphviz' dot, which runs as a child with its input and output
 * in temporary files and with ten seconds to end; a grid; desks around their nodes, and the sheet around it all. */
#include "picture.h"

#include <errno.h>
#include <fcntl.h>
#include <signal.h>
#include <stdlib.h>
#include <string.h>
#include <sys/wait.h>
#include <unistd.h>

enum { MARGIN = 26, GAP_ACROSS = 46, GAP_DOWN = 34, DESK_PAD = 14, DESK_HEAD = 26, DESK_GAP = 44, ROW_WIDTH = 1500 };

/* Up to FEW nodes go from left to right, more from above. Beyond MOST_FOR_DOT arcs no layout is readable, and dot takes long. */
enum { FEW = 18, MOST_FOR_DOT = 300 };

/* How long dot may take. */
#ifndef DOT_SECONDS
#define DOT_SECONDS 10
#endif

/* How much the file's distances are stretched at most; nodes that are on top of each other then still are not told apart by them. */
static const double MOST_SCALE = 6.0;

static double larger(double a, double b)
{
    return a > b ? a : b;
}

static double size_of(double x)
{
    return x < 0 ? -x : x;
}

/* ---- arcs between nodes that have places: straight, or in a bow where a node is in the way or another arc leads back */

/* Where the line from the middle of n to `towards` leaves n. */
static point border(const drawn_node *n, point towards)
{
    double dx = towards.x - n->at.x, dy = towards.y - n->at.y;
    double across = size_of(dx) / (n->width / 2), down = size_of(dy) / (n->height / 2), most = larger(across, down);
    if (most <= 1e-9) return n->at;
    return (point){n->at.x + dx / most, n->at.y + dy / most};
}

static bool has_return(const drawing *d, const drawn_arc *a)
{
    for (size_t i = 0; i < d->arcs_len; i++)
        if (d->arcs[i].from == a->to && d->arcs[i].to == a->from) return true;
    return false;
}

/* The curve by four points, at t from 0 to 1. */
static point on_curve(const point c[4], double t)
{
    double s = 1 - t, a = s * s * s, b = 3 * s * s * t, e = 3 * s * t * t, f = t * t * t;
    return (point){a * c[0].x + b * c[1].x + e * c[2].x + f * c[3].x, a * c[0].y + b * c[1].y + e * c[2].y + f * c[3].y};
}

static bool is_within(const drawn_node *n, point p)
{
    return size_of(p.x - n->at.x) < n->width / 2 + 5 && size_of(p.y - n->at.y) < n->height / 2 + 5;
}

/* Through how many points of other nodes a curve goes. */
static size_t hits(const drawing *d, const drawn_arc *a, const point c[4])
{
    size_t n = 0;
    for (size_t i = 0; i < d->nodes_len; i++) {
        if (i == a->from || i == a->to) continue;
        for (int k = 1; k < 32; k++) n += is_within(&d->nodes[i], on_curve(c, k / 32.0));
    }
    return n;
}

/* The curve from one node to another that goes `side` pixels aside of the line between them. */
static void bow(const drawn_node *from, const drawn_node *to, double side, point c[4])
{
    double dx = to->at.x - from->at.x, dy = to->at.y - from->at.y, most = larger(size_of(dx), size_of(dy));
    double by = most > 0 ? 1.4 * side / most : 0;
    point aside = {(from->at.x + to->at.x) / 2 + by * dy, (from->at.y + to->at.y) / 2 - by * dx};
    c[0] = border(from, aside);
    c[3] = border(to, aside);
    c[1] = (point){(c[0].x + 2 * aside.x) / 3, (c[0].y + 2 * aside.y) / 3};
    c[2] = (point){(c[3].x + 2 * aside.x) / 3, (c[3].y + 2 * aside.y) / 3};
}

/* The first of some bows that no node is in the way of, else the one with the fewest in it. */
static bool draw_arc(const drawing *d, drawn_arc *a)
{
    static const double SIDES[] = {0, 26, -26, 60, -60, 100, -100, 150, -150, 220, -220, 300, -300};
    size_t fewest = (size_t)-1, tries = sizeof SIDES / sizeof *SIDES;
    a->points = calloc(4, sizeof *a->points);
    if (a->points == NULL) return false;
    for (size_t i = has_return(d, a) ? 1 : 0; i < tries && fewest > 0; i++) {
        point c[4];
        bow(&d->nodes[a->from], &d->nodes[a->to], SIDES[i], c);
        size_t n = hits(d, a, c);
        if (n >= fewest) continue;
        fewest = n;
        memcpy(a->points, c, sizeof c);
    }
    a->len = 4;
    a->mark = on_curve(a->points, 0.5);
    return true;
}

static bool draw_arcs(drawing *d)
{
    for (size_t i = 0; i < d->arcs_len; i++)
        if (!draw_arc(d, &d->arcs[i])) return false;
    return true;
}

/* ---- the places of the file */

/* By how much the file's distances are stretched so that two nodes of a desk do not touch. */
static double scale_for(const drawn_node *a, const drawn_node *b)
{
    double dx = size_of(a->of->x - b->of->x), dy = size_of(a->of->y - b->of->y);
    double across = dx > 0 ? ((a->width + b->width) / 2 + GAP_ACROSS) / dx : MOST_SCALE + 1;
    double down = dy > 0 ? ((a->height + b->height) / 2 + GAP_DOWN) / dy : MOST_SCALE + 1;
    return across < down ? across : down;
}

/* The scale for all; above MOST_SCALE where the file's places are no use. */
static double scale_of_file(const drawing *d)
{
    double scale = 0.5;
    for (size_t i = 0; i < d->nodes_len; i++) {
        const drawn_node *a = &d->nodes[i];
        if (!a->of->placed) return MOST_SCALE + 1;
        for (size_t k = 0; k < i; k++)
            if (d->nodes[k].desk == a->desk) scale = larger(scale, scale_for(a, &d->nodes[k]));
    }
    return scale;
}

/* A desk's frame around its nodes; without a node left and right stay turned. */
static void frame(const drawing *d, size_t desk, drawn_desk *f)
{
    f->left = f->top = 1e9;
    f->right = f->bottom = -1e9;
    for (size_t i = 0; i < d->nodes_len; i++) {
        const drawn_node *n = &d->nodes[i];
        if (n->desk != desk) continue;
        f->left = -larger(-f->left, -(n->at.x - n->width / 2 - DESK_PAD));
        f->right = larger(f->right, n->at.x + n->width / 2 + DESK_PAD);
        f->top = -larger(-f->top, -(n->at.y - n->height / 2 - DESK_HEAD));
        f->bottom = larger(f->bottom, n->at.y + n->height / 2 + DESK_PAD);
    }
}

static void shift_desk(drawing *d, size_t desk, double x, double y)
{
    for (size_t i = 0; i < d->nodes_len; i++) {
        if (d->nodes[i].desk != desk) continue;
        d->nodes[i].at.x += x;
        d->nodes[i].at.y += y;
    }
}

/* Puts the desks, each with places of its own, into rows; nodes on no page come first. */
static void part_desks(drawing *d)
{
    double x = 0, y = 0, below = 0;
    for (size_t k = 0; k <= d->desks_len; k++) {
        size_t desk = k == 0 ? NO_DESK : k - 1;
        drawn_desk f;
        frame(d, desk, &f);
        if (f.right < f.left) continue;
        if (x > 0 && x + f.right - f.left > ROW_WIDTH) {
            x = 0;
            y = below + DESK_GAP;
        }
        shift_desk(d, desk, x - f.left, y - f.top);
        x += f.right - f.left + DESK_GAP;
        below = larger(below, y + f.bottom - f.top);
    }
}

static bool place_by_file(drawing *d)
{
    double scale = scale_of_file(d);
    if (scale > MOST_SCALE) return false;
    for (size_t i = 0; i < d->nodes_len; i++) d->nodes[i].at = (point){d->nodes[i].of->x * scale, d->nodes[i].of->y * scale};
    if (d->desks_len > 0) part_desks(d);
    return true;
}

/* ---- dot */

static void write_dot_nodes(FILE *to, const drawing *d, size_t desk)
{
    for (size_t i = 0; i < d->nodes_len; i++)
        if (d->nodes[i].desk == desk) fprintf(to, "n%zu [width=%.3f,height=%.3f];\n", i, d->nodes[i].width / 72, d->nodes[i].height / 72);
}

static void write_dot(FILE *to, const drawing *d)
{
    fprintf(to, "digraph net {\ngraph [rankdir=%s,nodesep=0.3,ranksep=%s];\n", d->nodes_len <= FEW ? "LR" : "TB", d->nodes_len <= FEW ? "0.45" : "0.4");
    fputs("node [shape=box,fixedsize=true,label=\"\"];\nedge [dir=none,fontsize=12];\n", to);
    for (size_t k = 0; k < d->desks_len; k++) {
        fprintf(to, "subgraph cluster_%zu {\nmargin=%d;\n", k, DESK_HEAD);
        write_dot_nodes(to, d, k);
        fputs("}\n", to);
    }
    write_dot_nodes(to, d, NO_DESK);
    for (size_t i = 0; i < d->arcs_len; i++) {
        fprintf(to, "n%zu -> n%zu", d->arcs[i].from, d->arcs[i].to);
        if (d->arcs[i].weight > 1) fprintf(to, " [label=\"%llu\"]", (unsigned long long)d->arcs[i].weight);
        fputs(";\n", to);
    }
    fputs("}\n", to);
}

/* The child: dot, from one file to the other, for so many seconds. An alarm outlasts the change of program. */
static void become_dot(int in, int out)
{
    int nowhere = open("/dev/null", O_WRONLY);
    sigset_t none;
    sigemptyset(&none);
    (void)signal(SIGALRM, SIG_DFL);
    (void)sigprocmask(SIG_SETMASK, &none, NULL);
    (void)alarm(DOT_SECONDS);
    if (dup2(in, 0) == 0 && dup2(out, 1) == 1 && (nowhere < 0 || dup2(nowhere, 2) == 2)) (void)execlp("dot", "dot", "-Tplain", (char *)NULL);
    _exit(127);
}

/* Whether dot ran to its end. Where the caller ignores its children's ends there is no status: what dot wrote is then judged alone, which ends with "stop". */
static bool run_dot(FILE *in, FILE *out)
{
    int status = 0;
    pid_t gone, child = fork();
    if (child < 0) return false;
    if (child == 0) become_dot(fileno(in), fileno(out));
    do gone = waitpid(child, &status, 0);
    while (gone < 0 && errno == EINTR);
    return gone < 0 ? errno == ECHILD : WIFEXITED(status) && WEXITSTATUS(status) == 0;
}

/* The next number of a line, or NULL where there is none. */
static char *take_number(char *s, double *x)
{
    char *end = NULL;
    if (s == NULL) return NULL;
    *x = strtod(s, &end);
    return end == s || !(size_of(*x) < 1e6) ? NULL : end;
}

/* A node's number, "n12", or NULL. */
static char *take_node(char *s, const drawing *d, size_t *n)
{
    char *end = NULL;
    while (s != NULL && *s == ' ') s++;
    if (s == NULL || *s != 'n' || s[1] < '0' || s[1] > '9') return NULL;
    *n = (size_t)strtoul(s + 1, &end, 10);
    return *n < d->nodes_len ? end : NULL;
}

static char *take_point(char *s, point *p)
{
    s = take_number(s, &p->x);
    s = take_number(s, &p->y);
    p->x *= 72;
    p->y *= -72; /* dot counts from below */
    return s;
}

static bool read_dot_node(drawing *d, char *s)
{
    size_t n = 0;
    s = take_node(s, d, &n);
    point at;
    if (s == NULL || take_point(s, &at) == NULL) return false;
    d->nodes[n].at = at;
    return true;
}

static drawn_arc *arc_between(drawing *d, size_t from, size_t to)
{
    for (size_t i = 0; i < d->arcs_len; i++)
        if (d->arcs[i].from == from && d->arcs[i].to == to && d->arcs[i].points == NULL) return &d->arcs[i];
    return NULL;
}

/* "edge n1 n2 4 x y x y x y x y", and for an arc with a weight the weight and its place. */
static bool read_dot_edge(drawing *d, char *s)
{
    size_t from = 0, to = 0;
    double len = 0, weight = 0;
    s = take_node(s, d, &from);
    s = take_node(s, d, &to);
    s = take_number(s, &len);
    drawn_arc *a = s == NULL ? NULL : arc_between(d, from, to);
    if (a == NULL || len < 4 || len > 10000) return false;
    a->len = (size_t)len;
    a->points = calloc(a->len, sizeof *a->points);
    if (a->points == NULL || a->len % 3 != 1) return false;
    for (size_t i = 0; i < a->len; i++) s = take_point(s, &a->points[i]);
    if (s != NULL && a->weight > 1) s = take_point(take_number(s, &weight), &a->mark);
    return s != NULL;
}

/* Reads dot's plain form. False: it is not all there. */
static bool read_dot(drawing *d, FILE *from)
{
    char *line = NULL;
    size_t room = 0, nodes = 0, arcs = 0;
    bool good = true, stopped = false;
    while (good && !stopped && getline(&line, &room, from) > 0) {
        if (strncmp(line, "node ", 5) == 0) good = read_dot_node(d, line + 5), nodes++;
        else if (strncmp(line, "edge ", 5) == 0) good = read_dot_edge(d, line + 5), arcs++;
        else stopped = strncmp(line, "stop", 4) == 0;
    }
    free(line);
    return good && stopped && nodes == d->nodes_len && arcs == d->arcs_len;
}

static void forget_points(drawing *d)
{
    for (size_t i = 0; i < d->arcs_len; i++) {
        free(d->arcs[i].points);
        d->arcs[i].points = NULL;
    }
}

static bool place_by_dot(drawing *d)
{
    FILE *in = tmpfile(), *out = tmpfile();
    bool good = in != NULL && out != NULL;
    if (good) {
        write_dot(in, d);
        good = fflush(in) == 0 && lseek(fileno(in), 0, SEEK_SET) == 0 && run_dot(in, out) && lseek(fileno(out), 0, SEEK_SET) == 0;
    }
    good = good && read_dot(d, out);
    if (!good) forget_points(d);
    if (in != NULL) (void)fclose(in);
    if (out != NULL) (void)fclose(out);
    return good;
}

/* ---- a grid */

/* Activities in the outer columns, trays between them: with few activities there is one column each. */
static void place_in_grid(drawing *d)
{
    size_t q = d->of->q, p = d->nodes_len - q, sides = q > 8 ? 2 : 1, columns = p > 12 ? 2 : 1;
    size_t high = (q + sides - 1) / sides, deep = (p + columns - 1) / columns, rows = high > deep ? high : deep;
    for (size_t i = 0; i < d->nodes_len; i++) {
        size_t k = i < q ? i : i - q, in = i < q ? high : deep;
        double column = i < q ? (k < high ? 0 : (double)columns + 1) : 1 + (double)(k / in);
        d->nodes[i].at = (point){230 * column, 84 * ((double)(k % in) + (double)(rows - in) / 2)};
    }
}

/* ---- desks and sheet */

static void include(drawn_desk *sheet, double left, double top, double right, double bottom)
{
    sheet->left = -larger(-sheet->left, -left);
    sheet->top = -larger(-sheet->top, -top);
    sheet->right = larger(sheet->right, right);
    sheet->bottom = larger(sheet->bottom, bottom);
}

static drawn_desk sheet_of(const drawing *d)
{
    drawn_desk sheet = {.left = 1e9, .top = 1e9, .right = -1e9, .bottom = -1e9};
    for (size_t i = 0; i < d->nodes_len; i++) {
        const drawn_node *n = &d->nodes[i];
        include(&sheet, n->at.x - n->width / 2, n->at.y - n->height / 2, n->at.x + n->width / 2, n->at.y + n->height / 2);
    }
    for (size_t i = 0; i < d->desks_len; i++) include(&sheet, d->desks[i].left, d->desks[i].top, d->desks[i].right, d->desks[i].bottom);
    return sheet;
}

static void include_arcs(const drawing *d, drawn_desk *sheet)
{
    for (size_t i = 0; i < d->arcs_len; i++) {
        const drawn_arc *a = &d->arcs[i];
        for (size_t k = 0; k < a->len; k++) include(sheet, a->points[k].x, a->points[k].y, a->points[k].x, a->points[k].y);
        if (a->weight > 1) include(sheet, a->mark.x - 10, a->mark.y - 8, a->mark.x + 10, a->mark.y + 8);
    }
}

static void shift_arc(drawn_arc *a, double x, double y)
{
    for (size_t k = 0; k < a->len; k++) {
        a->points[k].x += x;
        a->points[k].y += y;
    }
    a->mark.x += x;
    a->mark.y += y;
}

/* Moves all so that the sheet begins at 0, with a margin in which counts have room. */
static void fit_sheet(drawing *d)
{
    drawn_desk sheet = sheet_of(d);
    include_arcs(d, &sheet);
    double x = MARGIN - sheet.left, y = MARGIN - sheet.top;
    for (size_t i = 0; i < d->nodes_len; i++) {
        d->nodes[i].at.x += x;
        d->nodes[i].at.y += y;
    }
    for (size_t i = 0; i < d->arcs_len; i++) shift_arc(&d->arcs[i], x, y);
    for (size_t i = 0; i < d->desks_len; i++) {
        drawn_desk *k = &d->desks[i];
        *k = (drawn_desk){k->name, k->left + x, k->top + y, k->right + x, k->bottom + y};
    }
    d->width = sheet.right - sheet.left + 2 * MARGIN;
    d->height = sheet.bottom - sheet.top + 2 * MARGIN;
}

bool drawing_place(drawing *d)
{
    bool by_file = place_by_file(d), by_dot = !by_file && d->arcs_len <= MOST_FOR_DOT && place_by_dot(d);
    if (!by_file && !by_dot) {
        d->desks_len = 0;
        place_in_grid(d);
    }
    if (!by_dot && !draw_arcs(d)) return false;
    for (size_t k = 0; k < d->desks_len; k++) frame(d, k, &d->desks[k]);
    fit_sheet(d);
    return true;
}
