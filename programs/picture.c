/* The picture of a map, as SVG: picture_write.
 *
 * In order: text escaped and broken into lines; what is drawn of a map; the SVG. Activities are boxes, trays have round ends, a page is a frame with its
 * name. A loop is shown by counts at its activities. The page (report.c) has the same picture and shows loops in it by the classes "shows" and "on" and by
 * the texts of the counts, so these are there, hidden, without a loop too. */
#include "picture.h"

#include <inttypes.h>
#include <stdlib.h>
#include <string.h>

enum { COLUMNS = 17, MOST_UNCHANGED = 40 };

/* ---- text */

void escaped_write(FILE *out, const char *text)
{
    for (; *text != 0; text++) {
        switch (*text) {
        case '&': fputs("&amp;", out); break;
        case '<': fputs("&lt;", out); break;
        case '>': fputs("&gt;", out); break;
        case '"': fputs("&quot;", out); break;
        case '\'': fputs("&#39;", out); break;
        default:
            if ((unsigned char)*text >= 32 && *text != 127) fputc(*text, out);
        }
    }
}

/* How many bytes the character at s has; text that is no UTF-8 goes byte by byte. */
static size_t bytes_of(const char *s)
{
    unsigned char first = (unsigned char)*s;
    size_t len = first < 0xC0 ? 1 : first < 0xE0 ? 2 : first < 0xF0 ? 3 : 4;
    for (size_t i = 1; i < len; i++)
        if (((unsigned char)s[i] & 0xC0) != 0x80) return 1;
    return len;
}

/* How many columns a character of so many bytes takes: those of three or four bytes are mostly wide. */
static size_t columns_of(const char *s)
{
    size_t len = bytes_of(s);
    return len < 3 ? 1 : (unsigned char)*s == 0xE2 ? 1 : 2;
}

static size_t columns_in(const char *s, size_t bytes)
{
    size_t columns = 0;
    for (size_t i = 0; i < bytes; i += bytes_of(s + i)) columns += columns_of(s + i);
    return columns;
}

/* How many bytes of s go on one line: up to the last space that fits, else as many characters as fit. */
static size_t line_bytes(const char *s)
{
    size_t columns = 0, i = 0, space = 0;
    while (s[i] != 0 && i + 4 < LABEL_BYTES - 4) {
        columns += columns_of(s + i);
        if (columns > COLUMNS) break;
        if (s[i] == ' ') space = i;
        i += bytes_of(s + i);
    }
    if (s[i] == 0 || s[i] == ' ') return i;
    return space > 0 ? space : i;
}

/* Breaks a name into the lines of a label; one that is too long ends with an ellipsis, and is whole in the picture's tooltip. */
static void break_name(drawn_node *n)
{
    const char *s = n->of->name;
    size_t widest = 1;
    for (n->lines = 0; *s != 0 && n->lines < LABEL_LINES; n->lines++) {
        size_t len = line_bytes(s);
        char *line = n->label[n->lines];
        memcpy(line, s, len);
        line[len] = 0;
        s += len;
        while (*s == ' ') s++;
        if (*s != 0 && n->lines + 1 == LABEL_LINES) strcpy(line + len, "\xE2\x80\xA6");
        if (columns_in(line, strlen(line)) > widest) widest = columns_in(line, strlen(line));
    }
    n->width = 7.0 * (double)widest + (n->tray ? 32 : 24);
    n->height = 16.0 * (double)(n->lines == 0 ? 1 : n->lines) + 16;
    if (n->width < 64) n->width = 64;
}

/* ---- what is drawn of a map */

static const node *trays_of(const map *m, size_t *len)
{
    *len = m->all_trays_len > 0 ? m->all_trays_len : m->p;
    return m->all_trays_len > 0 ? m->all_trays : m->trays;
}

/* The desk of that name; a new one where there is none yet. */
static size_t desk_of(drawing *d, const char *page)
{
    if (page == NULL) return NO_DESK;
    for (size_t i = 0; i < d->desks_len; i++)
        if (strcmp(d->desks[i].name, page) == 0) return i;
    d->desks[d->desks_len].name = page;
    return d->desks_len++;
}

static void add_node(drawing *d, const node *of, bool tray, bool unchanged)
{
    drawn_node *n = &d->nodes[d->nodes_len++];
    *n = (drawn_node){.of = of, .tray = tray, .unchanged = unchanged, .desk = desk_of(d, of->page)};
    break_name(n);
}

/* Adds activities and trays; `drawn` gets the node of each tray, or 0 for one that is left out. Trays that nothing changes are drawn while they are few. */
static void add_nodes(drawing *d, size_t *drawn)
{
    const map *m = d->of;
    size_t len, next = 0;
    const node *trays = trays_of(m, &len);
    for (size_t i = 0; i < m->q; i++) add_node(d, &m->activities[i], false, false);
    for (size_t i = 0; i < len; i++) {
        bool unchanged = next < m->unchanged && trays != m->trays && strcmp(trays[i].name, m->unchanged_names[next]) == 0;
        next += unchanged;
        if (unchanged && m->unchanged > MOST_UNCHANGED) continue;
        drawn[i] = d->nodes_len;
        add_node(d, &trays[i], true, unchanged);
    }
}

/* How many documents go from node q + i to activity j (2 * (i * q + j)), and back (one more). */
static void add_weights(const map *m, const size_t *drawn, uint64_t *weights)
{
    for (size_t k = 0; k < m->arcs_len; k++) {
        const arc *a = &m->arcs[k];
        if (drawn[a->tray] != 0) weights[2 * ((drawn[a->tray] - m->q) * m->q + a->activity) + !a->from_tray] += a->weight;
    }
    for (size_t k = 0; m->all_trays_len == 0 && k < m->p * m->q; k++) {
        int32_t c = m->coefs[k];
        if (c != 0) weights[2 * k + (c > 0)] = (uint64_t)(c > 0 ? c : -(int64_t)c);
    }
}

static void add_drawn_arcs(drawing *d, const uint64_t *weights, size_t len)
{
    size_t q = d->of->q;
    for (size_t k = 0; k < len; k++) {
        size_t tray = q + k / 2 / q, activity = k / 2 % q;
        if (weights[k] == 0) continue;
        drawn_arc *a = &d->arcs[d->arcs_len++];
        *a = (drawn_arc){.from = k % 2 == 0 ? tray : activity, .to = k % 2 == 0 ? activity : tray, .weight = weights[k]};
    }
}

static size_t count_weights(const uint64_t *weights, size_t len)
{
    size_t n = 0;
    for (size_t k = 0; k < len; k++) n += weights[k] != 0;
    return n;
}

static void drawing_free(drawing *d)
{
    for (size_t i = 0; i < d->arcs_len; i++) free(d->arcs[i].points);
    free(d->arcs);
    free(d->nodes);
    free(d->desks);
}

/* One desk for all is no desk. */
static void forget_one_desk(drawing *d)
{
    if (d->desks_len != 1) return;
    d->desks_len = 0;
    for (size_t i = 0; i < d->nodes_len; i++) d->nodes[i].desk = NO_DESK;
}

/* False: there is no memory. */
static bool drawing_make(drawing *d, const map *m)
{
    size_t trays = 0;
    (void)trays_of(m, &trays);
    size_t drawn_trays = m->unchanged > MOST_UNCHANGED ? m->p : trays, len = 2 * drawn_trays * m->q;
    *d = (drawing){.of = m};
    size_t *drawn = calloc(trays + 1, sizeof *drawn);
    uint64_t *weights = calloc(len + 1, sizeof *weights);
    d->nodes = calloc(m->q + drawn_trays + 1, sizeof *d->nodes);
    d->desks = calloc(m->q + drawn_trays + 1, sizeof *d->desks);
    bool made = drawn != NULL && weights != NULL && d->nodes != NULL && d->desks != NULL;
    if (made) {
        add_nodes(d, drawn);
        add_weights(m, drawn, weights);
        forget_one_desk(d);
        d->arcs = calloc(count_weights(weights, len) + 1, sizeof *d->arcs);
        made = d->arcs != NULL;
    }
    if (made) add_drawn_arcs(d, weights, len);
    free(drawn);
    free(weights);
    return made;
}

/* ---- the SVG */

static const char STYLE[] =
    ".net{font:13px 'Segoe UI',Roboto,'Helvetica Neue',Arial,sans-serif;background:#fff}"
    ".net text{text-anchor:middle;fill:#22303c}"
    ".net .desk{fill:#f6f8fa;stroke:#d5dce3}"
    ".net .of-desk{text-anchor:start;fill:#5a6875;font-size:12px;stroke:#f6f8fa;stroke-width:4px;paint-order:stroke}"
    ".net .activity>rect{fill:#eaf0f6;stroke:#5b7690;stroke-width:1.3}"
    ".net .tray>rect{fill:#fff;stroke:#8b939c;stroke-width:1.3}"
    ".net .unchanged>rect{stroke-dasharray:4 3}"
    ".net .arc path{fill:none;stroke:#7d8791;stroke-width:1.3}"
    ".net .arc .head{fill:#7d8791;stroke:none}"
    ".net .arc text{font-size:12px;fill:#22303c;stroke:#fff;stroke-width:4px;paint-order:stroke}"
    ".net .count{display:none}"
    ".net .count rect{fill:#14588f;stroke:#fff;stroke-width:1.5}"
    ".net .count text{fill:#fff;font-weight:600;font-size:13px}"
    ".net.shows .activity,.net.shows .tray,.net.shows .arc{opacity:.33}"
    ".net.shows .on{opacity:1}"
    ".net .activity.on>rect{fill:#d3e6f5;stroke:#14588f;stroke-width:2.2}"
    ".net .tray.on>rect{stroke:#14588f}"
    ".net .arc.on path{stroke:#14588f;stroke-width:2.2}"
    ".net .arc.on .head{fill:#14588f}"
    ".net .on .count{display:inline}";

static void write_desks(FILE *out, const drawing *d)
{
    for (size_t i = 0; i < d->desks_len; i++) {
        const drawn_desk *k = &d->desks[i];
        fprintf(out, "<rect class=\"desk\" x=\"%.1f\" y=\"%.1f\" width=\"%.1f\" height=\"%.1f\" rx=\"8\"/>\n", k->left, k->top, k->right - k->left,
                k->bottom - k->top);
    }
}

/* Above the arcs, which may cross a desk's upper edge. */
static void write_desk_names(FILE *out, const drawing *d)
{
    for (size_t i = 0; i < d->desks_len; i++) {
        fprintf(out, "<text class=\"of-desk\" x=\"%.1f\" y=\"%.1f\">", d->desks[i].left + 10, d->desks[i].top + 17);
        escaped_write(out, d->desks[i].name);
        fputs("</text>\n", out);
    }
}

/* The root of a number above 0, by Newton's steps from above. */
static double root_of(double square)
{
    double root = square > 1 ? square : 1;
    for (int i = 0; i < 60; i++) root = (root + square / root) / 2;
    return root;
}

/* The head of an arc, which comes to `tip` from the direction of `before`. */
static void write_head(FILE *out, point tip, point before)
{
    double dx = tip.x - before.x, dy = tip.y - before.y, square = dx * dx + dy * dy;
    double length = square > 0 ? root_of(square) : 1;
    dx /= length;
    dy /= length;
    fprintf(out, "<path class=\"head\" d=\"M%.1f %.1fL%.1f %.1fL%.1f %.1fZ\"/>", tip.x, tip.y, tip.x - 9 * dx - 4 * dy, tip.y - 9 * dy + 4 * dx,
            tip.x - 9 * dx + 4 * dy, tip.y - 9 * dy - 4 * dx);
}

/* The point before the last that is not the last itself. */
static point before_last(const drawn_arc *a)
{
    size_t i = a->len - 1;
    while (i > 0 && a->points[i].x == a->points[a->len - 1].x && a->points[i].y == a->points[a->len - 1].y) i--;
    return a->points[i];
}

static void write_arc(FILE *out, const drawing *d, const drawn_arc *a, bool on)
{
    bool from_tray = d->nodes[a->from].tray;
    size_t tray = (from_tray ? a->from : a->to) - d->of->q, activity = from_tray ? a->to : a->from;
    fprintf(out, "<g class=\"arc%s\" data-activity=\"%zu\" data-tray=\"%zu\"><path d=\"M%.1f %.1f", on ? " on" : "", activity + 1, tray + 1, a->points[0].x,
            a->points[0].y);
    for (size_t i = 1; i < a->len; i++) fprintf(out, "%s%.1f %.1f", i % 3 == 1 ? "C" : " ", a->points[i].x, a->points[i].y);
    fputs("\"/>", out);
    write_head(out, a->points[a->len - 1], before_last(a));
    if (a->weight > 1) fprintf(out, "<text x=\"%.1f\" y=\"%.1f\">%" PRIu64 "</text>", a->mark.x, a->mark.y + 4, a->weight);
    fputs("</g>\n", out);
}

static point end_at(const drawn_arc *a, size_t n)
{
    return a->from == n ? a->points[0] : a->points[a->len - 1];
}

/* How near an arc's end on node n comes to a point, squared. */
static double nearest_end(const drawing *d, size_t n, point p)
{
    double nearest = 1e9;
    for (size_t i = 0; i < d->arcs_len; i++) {
        if (d->arcs[i].from != n && d->arcs[i].to != n) continue;
        point end = end_at(&d->arcs[i], n);
        double square = (end.x - p.x) * (end.x - p.x) + (end.y - p.y) * (end.y - p.y);
        if (square < nearest) nearest = square;
    }
    return nearest;
}

/* The corner of an activity that is farthest from its arcs' ends, the upper right one before others. */
static point free_corner(const drawing *d, size_t n)
{
    static const double SIDES[4][2] = {{1, -1}, {-1, -1}, {1, 1}, {-1, 1}};
    const drawn_node *of = &d->nodes[n];
    point best = of->at;
    double most = -1;
    for (size_t i = 0; i < 4; i++) {
        point corner = {of->at.x + SIDES[i][0] * (of->width / 2 - 4), of->at.y + SIDES[i][1] * of->height / 2};
        double near = nearest_end(d, n, corner);
        if (near <= 1.2 * most) continue;
        most = near;
        best = corner;
    }
    return best;
}

/* The count at a corner of an activity. Its box is as wide as its digits. */
static void write_count(FILE *out, const drawing *d, size_t n, uint32_t count)
{
    char digits[24];
    (void)snprintf(digits, sizeof digits, "%" PRIu32 " \xC3\x97", count);
    double width = 10 + 7.5 * (double)columns_in(digits, strlen(digits));
    point at = free_corner(d, n);
    fprintf(out, "<g class=\"count\" data-x=\"%.1f\"><rect x=\"%.1f\" y=\"%.1f\" width=\"%.1f\" height=\"20\" rx=\"10\"/>", at.x, at.x - width / 2,
            at.y - 10, width);
    fprintf(out, "<text x=\"%.1f\" y=\"%.1f\">%s</text></g>", at.x, at.y + 4.5, digits);
}

static void write_node(FILE *out, const drawing *d, size_t i, uint32_t count, bool on)
{
    const drawn_node *n = &d->nodes[i];
    const char *sort = n->tray ? "tray" : "activity";
    size_t number = n->tray ? i - d->of->q + 1 : i + 1;
    double left = n->at.x - n->width / 2, top = n->at.y - n->height / 2;
    fprintf(out, "<g class=\"%s%s%s\" data-%s=\"%zu\"><title>", sort, n->unchanged ? " unchanged" : "", on ? " on" : "", sort, number);
    escaped_write(out, n->of->name);
    fprintf(out, "%s</title><rect x=\"%.1f\" y=\"%.1f\" width=\"%.1f\" height=\"%.1f\" rx=\"%.1f\"/>",
            n->unchanged ? " (a tray that stays as it is)" : n->tray ? " (a tray)" : " (an activity)", left, top, n->width, n->height,
            n->tray ? 16.0 : 3.0);
    for (size_t k = 0; k < n->lines; k++) {
        fprintf(out, "<text x=\"%.1f\" y=\"%.1f\">", n->at.x, top + 20.5 + 16 * (double)k);
        escaped_write(out, n->label[k]);
        fputs("</text>", out);
    }
    if (!n->tray) write_count(out, d, i, count);
    fputs("</g>\n", out);
}

/* The activity of an arc. */
static size_t activity_of(const drawing *d, const drawn_arc *a)
{
    return d->nodes[a->from].tray ? a->to : a->from;
}

/* Whether a loop has an activity, or one that puts into a tray or takes from it. */
static bool is_on(const drawing *d, const uint32_t *loop, size_t n)
{
    if (loop == NULL) return false;
    if (!d->nodes[n].tray) return loop[n] > 0;
    for (size_t i = 0; i < d->arcs_len; i++)
        if ((d->arcs[i].from == n || d->arcs[i].to == n) && loop[activity_of(d, &d->arcs[i])] > 0) return true;
    return false;
}

/* What a reader of the screen says of the picture. */
static void write_title(FILE *out, const map *m, const uint32_t *loop)
{
    const char *between = ": ";
    fputs(loop == NULL ? "<title>The net" : "<title>A loop in the net", out);
    for (size_t j = 0; loop != NULL && j < m->q; j++) {
        if (loop[j] == 0) continue;
        fprintf(out, "%s%" PRIu32 " \xC3\x97 ", between, loop[j]);
        escaped_write(out, m->activities[j].name);
        between = ", ";
    }
    fputs("</title>\n", out);
}

static void write_svg(FILE *out, const drawing *d, const uint32_t *loop)
{
    fprintf(out, "<svg xmlns=\"http://www.w3.org/2000/svg\" class=\"net%s\" viewBox=\"0 0 %.0f %.0f\" width=\"%.0f\" height=\"%.0f\" role=\"img\">\n",
            loop == NULL ? "" : " shows", d->width, d->height, d->width, d->height);
    write_title(out, d->of, loop);
    fprintf(out, "<style>%s</style>\n", STYLE);
    write_desks(out, d);
    for (size_t i = 0; i < d->arcs_len; i++) write_arc(out, d, &d->arcs[i], is_on(d, loop, activity_of(d, &d->arcs[i])));
    write_desk_names(out, d);
    for (size_t i = d->nodes_len; i-- > 0;) write_node(out, d, i, loop == NULL || d->nodes[i].tray ? 0 : loop[i], is_on(d, loop, i));
    fputs("</svg>\n", out);
}

int picture_write(FILE *out, const map *m, const uint32_t *loop_or_null)
{
    drawing d;
    bool made = drawing_make(&d, m) && drawing_place(&d);
    if (made) write_svg(out, &d, loop_or_null);
    drawing_free(&d);
    return made && !ferror(out) ? 0 : -1;
}
