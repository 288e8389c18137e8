/* Finds a reformulation of a map with few more unknowns than equations and with large coefficients, whose stages in the map's own form have very many rows.
 *
 * Its whole solutions are a lattice: x = B y, with whole coordinates y = U x. They are chosen so that each is at or above 0 on every natural solution; then the
 * other map, -x + B y = 0, has the same minimal solutions, with y beside x. Each of its stages has a fresh unknown, and the first begins with as many rows
 * as there are coordinates.
 *
 * Where only solutions with at most 1 in the first unknown are wanted, that unknown is itself the first coordinate, if whole coordinates can have it: then no
 * row has more than 1 in it from the beginning.
 *
 * Nothing here is trusted: the numbers that show it are looked at by dezgula_engine_reformulates, and where that does not say yes, or a number gets too large
 * on the way, there is no reformulation. So lattices are reduced in floating point. */
#include "reformulate.h"

#include <math.h>
#include <stdlib.h>
#include <string.h>

enum { MOST = DEZGULA_ENGINE_MOST, WIDE = 2 * MOST, MOST_RAYS = 1024, MOST_CHOICES = 2000000, TURNS = 500 };
enum { COORDINATES = REFORMULATED_FURTHER + 1 }; /* at most */
static const int64_t LARGE = INT64_C(1) << 29; /* numbers of a lattice stay below it, so that 17 products of them add up within 64 bits */
static const int64_t MULTIPLIER_LIMIT = INT64_C(1000000000000), WORKING_LIMIT = INT64_C(1000000); /* of the engine's calls */
static const double SLIGHT = 1e-3; /* the weight of a coordinate's own numbers beside its values on the rays */

typedef struct {
    size_t rows, width;
    int64_t at[WIDE][WIDE];
} matrix;

/* points that the rows of a lattice are measured at */
typedef struct {
    size_t count;
    double at[MOST_RAYS + MOST][MOST];
} points;

typedef struct {
    size_t p, q, n; /* n coordinates */
    bool capped;
    const int32_t *coefs;
    size_t rank, equations[MOST]; /* as many equations, of which all others are sums */
    matrix lattice;               /* n rows of q: the whole solutions, at first in any coordinates */
    bool beyond; /* one of the rays that are wanted has a component above the limit */
    size_t rays;
    int64_t ray[MOST_RAYS][COORDINATES]; /* of the natural solutions, in these coordinates */
    points measure, units;                    /* the rays, each by its degree; and the unknowns */
    matrix inverse;                           /* column i as row i, of the matrix whose rows are the coordinates chosen */
    matrix by, back;                          /* B, q rows of n, and U, n rows of q */
} search;

/* ---- whole numbers */

static int64_t gcd(int64_t a, int64_t b)
{
    while (b != 0) {
        int64_t t = a % b;
        a = b, b = t;
    }
    return a < 0 ? -a : a;
}
static int64_t dot(const int64_t *a, const int64_t *b, size_t n)
{
    int64_t sum = 0;
    for (size_t j = 0; j < n; j++) sum += a[j] * b[j];
    return sum;
}
static int64_t nearest(double x) { return fabs(x) >= (double)LARGE ? LARGE : (int64_t)(x + (x < 0 ? -0.5 : 0.5)); }
/* row `to` and `times` row `from` in its place; false where a number gets too large */
static bool add_row(matrix *m, size_t to, size_t from, int64_t times)
{
    bool small = times > -LARGE && times < LARGE;
    for (size_t j = 0; small && j < m->width; j++) {
        m->at[to][j] += times * m->at[from][j];
        small = llabs(m->at[to][j]) < LARGE;
    }
    return small;
}
static void swap_rows(matrix *m, size_t a, size_t b)
{
    int64_t row[WIDE];
    memcpy(row, m->at[a], sizeof row);
    memcpy(m->at[a], m->at[b], sizeof row);
    memcpy(m->at[b], row, sizeof row);
}
static void negate_row(matrix *m, size_t i)
{
    for (size_t j = 0; j < m->width; j++) m->at[i][j] = -m->at[i][j];
}
/* the row from `first` on with the least number in column j that is not 0; m->rows where there is none */
static size_t least_row(const matrix *m, size_t first, size_t j)
{
    size_t least = m->rows;
    for (size_t i = first; i < m->rows; i++)
        if (m->at[i][j] != 0 && (least == m->rows || llabs(m->at[i][j]) < llabs(m->at[least][j]))) least = i;
    return least;
}
/* by Euclid's steps column j gets one number above 0 in row `first`, and 0 in those after it; it is all 0 from there on where *any is false */
static bool clear_column(matrix *m, size_t first, size_t j, bool *any)
{
    bool more = true;
    *any = least_row(m, first, j) < m->rows;
    while (*any && more) {
        swap_rows(m, first, least_row(m, first, j));
        more = false;
        for (size_t i = first + 1; i < m->rows; i++) {
            if (!add_row(m, i, first, -(m->at[i][j] / m->at[first][j]))) return false;
            more |= m->at[i][j] != 0;
        }
    }
    if (*any && m->at[first][j] < 0) negate_row(m, first);
    return true;
}
/* row i := (pivot's own number * row i - row i's number * pivot row) / before, where column j has these numbers; false where one does not fit */
static bool eliminate(matrix *m, size_t i, size_t pivot, size_t j, int64_t before)
{
    const int64_t a = m->at[pivot][j], b = m->at[i][j];
    for (size_t k = 0; k < m->width; k++) {
        const int64_t x = m->at[i][k], y = m->at[pivot][k];
        if (fabs((double)a * (double)x) + fabs((double)b * (double)y) > 4e18) return false;
        m->at[i][k] = (a * x - b * y) / before;
    }
    return true;
}
/* the one tuple v without a common factor, up to its sign, that all rows have the product 0 with; false where there is none, or more than one */
static bool null_vector(matrix *m, int64_t *v)
{
    size_t pivots = 0, pivot[WIDE], left = m->width;
    int64_t before = 1, common = 0;
    for (size_t j = 0; j < m->width; j++) {
        const size_t i = least_row(m, pivots, j);
        if (i == m->rows && left < m->width) return false;
        if (i == m->rows) {
            left = j;
            continue;
        }
        swap_rows(m, pivots, i);
        for (size_t k = 0; k < m->rows; k++)
            if (k != pivots && !eliminate(m, k, pivots, j, before)) return false;
        before = m->at[pivots][j], pivot[pivots++] = j;
    }
    if (left == m->width) return false;
    for (size_t i = 0; i < pivots; i++) v[pivot[i]] = -m->at[i][left];
    v[left] = before;
    for (size_t j = 0; j < m->width; j++) common = gcd(common, v[j]);
    for (size_t j = 0; j < m->width; j++) v[j] /= common;
    return true;
}

/* ---- reduced lattices */

typedef struct {
    double part[MOST][MOST], size[MOST];
} orthogonal;

static double product(const matrix *m, const points *by, size_t a, size_t b)
{
    double sum = 0;
    for (size_t k = 0; k < by->count; k++) {
        double x = 0, y = 0;
        for (size_t j = 0; j < m->width; j++) x += (double)m->at[a][j] * by->at[k][j], y += (double)m->at[b][j] * by->at[k][j];
        sum += x * y;
    }
    return sum;
}
/* the part of each of the first rows along those before it, and the size of what is left */
static void orthogonalize(const matrix *m, const points *by, size_t rows, orthogonal *o)
{
    double along[MOST][MOST];
    for (size_t i = 0; i < rows; i++)
        for (size_t j = 0; j <= i; j++) {
            along[i][j] = product(m, by, i, j);
            for (size_t k = 0; k < j; k++) along[i][j] -= o->part[j][k] * along[i][k];
            if (j < i) o->part[i][j] = o->size[j] > 0 ? along[i][j] / o->size[j] : 0;
            else o->size[i] = along[i][i] > 0 ? along[i][i] : 0;
        }
}
/* row k less whole multiples of those before it, so that its parts along them are at most a half */
static bool reduce_row(matrix *m, const points *by, size_t k, orthogonal *o)
{
    bool small = true;
    for (size_t j = k; small && j-- > 0;) {
        orthogonalize(m, by, k + 1, o);
        small = add_row(m, k, j, -nearest(o->part[k][j]));
    }
    orthogonalize(m, by, k + 1, o);
    return small;
}
/* by the method of Lenstra, Lenstra and Lovász */
static bool reduce_lattice(matrix *m, const points *by)
{
    orthogonal o;
    size_t k = 1, turn = 0;
    for (; k < m->rows && turn < TURNS; turn++) {
        if (!reduce_row(m, by, k, &o)) return false;
        if (o.size[k] >= (0.75 - o.part[k][k - 1] * o.part[k][k - 1]) * o.size[k - 1]) k++;
        else swap_rows(m, k, k - 1), k = k > 1 ? k - 1 : 1;
    }
    return turn < TURNS;
}
static void unit_points(points *by, size_t width, double weight)
{
    memset(by->at + by->count, 0, width * sizeof *by->at);
    for (size_t j = 0; j < width; j++) by->at[by->count++][j] = weight;
}

/* ---- the lattice of whole solutions, and the rays of the natural ones */

/* whether they may be coefficients of a map */
static bool in_range(const int64_t *row, size_t n)
{
    for (size_t i = 0; i < n; i++)
        if (llabs(row[i]) > DEZGULA_COEFFICIENT_LIMIT) return false;
    return true;
}
static bool find_lattice(search *s)
{
    matrix m = {s->q, s->p + s->q, {{0}}};
    for (size_t k = 0; k < s->p * s->q; k++) {
        m.at[k % s->q][k / s->q] = s->coefs[k];
        if (!in_range(&m.at[k % s->q][k / s->q], 1)) return false;
    }
    for (size_t j = 0; j < s->q; j++) m.at[j][s->p + j] = 1;
    s->rank = 0;
    for (size_t e = 0; e < s->p; e++) {
        bool any;
        if (!clear_column(&m, s->rank, e, &any)) return false;
        if (any) s->equations[s->rank++] = e;
    }
    s->n = s->lattice.rows = s->q - s->rank, s->lattice.width = s->q;
    for (size_t i = 0; i < s->n; i++) memcpy(s->lattice.at[i], m.at[s->rank + i] + s->p, s->q * sizeof *m.at[i]);
    unit_points(&s->units, s->q, 1);
    return s->n >= 1 && s->n <= REFORMULATED_FURTHER + (size_t)s->capped && reduce_lattice(&s->lattice, &s->units);
}
static size_t members(uint32_t set)
{
    size_t n = 0;
    for (; set != 0; set &= set - 1) n++;
    return n;
}
/* the solution with these coordinates is at or above 0 in every unknown; its degree, its first component and its largest one */
static bool is_natural(const search *s, const int64_t *y, double *degree, int64_t *first, int64_t *most)
{
    *degree = 0, *most = 0;
    for (size_t j = 0; j < s->q; j++) {
        int64_t x = 0;
        for (size_t i = 0; i < s->n; i++) x += y[i] * s->lattice.at[i][j];
        if (x < 0) return false;
        if (j == 0) *first = x;
        *degree += (double)x;
        if (x > *most) *most = x;
    }
    return true;
}
static bool are_small(const int64_t *t, size_t n)
{
    for (size_t i = 0; i < n; i++)
        if (llabs(t[i]) >= LARGE) return false;
    return true;
}
/* a ray that is not there yet is added, with its values by degree to the measure; false where there are too many, or a number is too large */
static bool add_ray(search *s, const int64_t *y)
{
    double degree;
    int64_t first, most;
    if (!are_small(y, s->n)) return false;
    if (!is_natural(s, y, &degree, &first, &most)) return true;
    s->beyond |= most > DEZGULA_COMPONENT_LIMIT && (!s->capped || first <= 1);
    for (size_t k = 0; k < s->rays; k++)
        if (memcmp(s->ray[k], y, s->n * sizeof *y) == 0) return true;
    if (s->rays == MOST_RAYS) return false;
    memcpy(s->ray[s->rays], y, s->n * sizeof *y);
    for (size_t i = 0; i < s->n; i++) s->measure.at[s->rays][i] = (double)y[i] / degree;
    s->measure.count = ++s->rays;
    return true;
}
/* every ray is 0 in so many unknowns as there are coordinates, less one, and those tell it */
static bool find_rays(search *s)
{
    bool all = true;
    for (uint32_t set = 0; all && set >> s->q == 0; set++) {
        if (members(set) != s->n - 1) continue;
        matrix m = {0, s->n, {{0}}};
        int64_t y[WIDE];
        for (size_t j = 0; j < s->q; j++) {
            if (!(set >> j & 1)) continue;
            for (size_t i = 0; i < s->n; i++) m.at[m.rows][i] = s->lattice.at[i][j];
            m.rows++;
        }
        if (!null_vector(&m, y)) continue;
        all = add_ray(s, y);
        for (size_t i = 0; i < s->n; i++) y[i] = -y[i];
        all = all && add_ray(s, y);
    }
    return all;
}

/* ---- coordinates that are natural on every ray */

/* its values on the rays by degree, all together; below 0 where one is, which is then the first to be looked at again, or a number is too large */
static double size_on_rays(const search *s, const int64_t *t, size_t *first)
{
    double size = 0;
    if (!are_small(t, s->n) || (*first < s->rays && dot(t, s->ray[*first], s->n) < 0)) return -1;
    for (size_t k = 0; k < s->rays; k++) {
        double value = 0;
        if (dot(t, s->ray[k], s->n) < 0) return *first = k, -1;
        for (size_t i = 0; i < s->n; i++) value += (double)t[i] * s->measure.at[k][i];
        size += value;
    }
    for (size_t i = 0; i < s->n; i++) size += SLIGHT * fabs((double)t[i]);
    return size;
}
/* with those chosen before it can be among whole coordinates of the lattice: what is left of it beside them has no common factor */
static bool extends(const search *s, size_t chosen, const int64_t *t)
{
    int64_t common = 0;
    for (size_t i = chosen; i < s->n; i++) common = gcd(common, dot(t, s->inverse.at[i], s->n));
    return common == 1;
}
static bool take_coordinate(search *s, size_t chosen, const int64_t *t)
{
    matrix *m = &s->inverse;
    bool any, small;
    for (size_t i = 0; i < s->n; i++) {
        m->at[i][s->n] = dot(t, m->at[i], s->n);
        if (!are_small(&m->at[i][s->n], 1)) return false;
    }
    small = clear_column(m, chosen, s->n, &any);
    for (size_t i = 0; small && i < chosen; i++) small = add_row(m, i, chosen, -m->at[i][s->n]);
    return small;
}
/* a sum of multiples of the reduced ones, each from -reach to reach */
typedef struct {
    int64_t multiple[COORDINATES], sum[COORDINATES];
} choice;

/* the next one; false after the last, where it is the first again */
static bool next_choice(const search *s, const matrix *reduced, int64_t reach, choice *c)
{
    for (size_t i = 0; i < s->n; i++) {
        const int64_t step = c->multiple[i] < reach ? 1 : -2 * reach;
        c->multiple[i] += step;
        for (size_t j = 0; j < s->n; j++) c->sum[j] += step * reduced->at[i][j];
        if (step == 1) return true;
    }
    return false;
}
/* the least that can be taken; false where there is none */
static bool choose_among(const search *s, const matrix *reduced, size_t chosen, int64_t reach, choice *best)
{
    choice c = {{0}, {0}};
    double least = -1;
    size_t ray = 0;
    for (size_t i = 0; i < s->n; i++)
        for (size_t j = 0; j < s->n; j++) c.multiple[i] = -reach, c.sum[j] -= reach * reduced->at[i][j];
    do {
        const double size = size_on_rays(s, c.sum, &ray);
        if (size < 0 || (least >= 0 && size >= least) || !extends(s, chosen, c.sum)) continue;
        least = size, *best = c;
    } while (next_choice(s, reduced, reach, &c));
    return least >= 0;
}
/* whether there are not too many */
static bool is_short(const search *s, int64_t reach)
{
    int64_t choices = 1;
    for (size_t i = 0; i < s->n; i++) choices *= 2 * reach + 1;
    return choices <= MOST_CHOICES;
}
/* with a longer reach where there is none */
static bool choose_coordinate(search *s, const matrix *reduced, size_t chosen)
{
    choice best;
    int64_t reach = s->n <= 3 ? 3 : s->n == 4 ? 2 : 1;
    while (!choose_among(s, reduced, chosen, reach, &best)) {
        reach *= 2;
        if (!is_short(s, reach)) return false;
    }
    return take_coordinate(s, chosen, best.sum);
}
static void set_unit(matrix *m, size_t n, size_t width)
{
    memset(m, 0, sizeof *m);
    m->rows = n, m->width = width;
    for (size_t i = 0; i < n; i++) m->at[i][i] = 1;
}
/* the unknown with the cap is the first coordinate, where it can be; false where a number gets too large */
static bool take_first(search *s, size_t *chosen)
{
    int64_t first[COORDINATES];
    for (size_t i = 0; i < s->n; i++) first[i] = s->lattice.at[i][0];
    if (!s->capped || !extends(s, 0, first)) return true;
    *chosen = 1;
    return take_coordinate(s, 0, first);
}
/* x by the coordinates chosen */
static bool find_coordinates(search *s)
{
    matrix reduced;
    set_unit(&reduced, s->n, s->n);
    set_unit(&s->inverse, s->n, s->n + 1);
    unit_points(&s->measure, s->n, SLIGHT);
    if (!reduce_lattice(&reduced, &s->measure)) return false;
    size_t chosen = 0;
    if (!take_first(s, &chosen)) return false;
    for (; chosen < s->n; chosen++)
        if (!choose_coordinate(s, &reduced, chosen)) return false;
    s->by.rows = s->q, s->by.width = s->n;
    for (size_t k = 0; k < s->q * s->n; k++) {
        int64_t sum = 0;
        for (size_t i = 0; i < s->n; i++) sum += s->lattice.at[i][k / s->n] * s->inverse.at[k % s->n][i];
        s->by.at[k / s->n][k % s->n] = sum;
        if (!are_small(&sum, 1)) return false;
    }
    return true;
}
/* the rows of B to steps with 1, beside the sums of x that each row then is: first those that tell the coordinates, then those that are 0 on every solution */
static bool invert(const search *s, matrix *m)
{
    memset(m, 0, sizeof *m);
    m->rows = s->q, m->width = s->n + s->q;
    for (size_t j = 0; j < s->q; j++) memcpy(m->at[j], s->by.at[j], s->n * sizeof *m->at[j]), m->at[j][s->n + j] = 1;
    for (size_t i = 0; i < s->n; i++) {
        bool any;
        if (!clear_column(m, i, i, &any) || m->at[i][i] != 1) return false;
    }
    return true;
}
/* the coordinates by x, in small numbers, as sums that are 0 on every solution can be added */
static bool find_back(search *s)
{
    matrix m, zero = {s->q - s->n, s->q, {{0}}};
    orthogonal o;
    if (!invert(s, &m)) return false;
    for (size_t i = 0; i < zero.rows; i++) memcpy(zero.at[i], m.at[s->n + i] + s->n, s->q * sizeof *m.at[i]);
    if (!reduce_lattice(&zero, &s->units)) return false;
    for (size_t i = s->n; i-- > 0;) {
        for (size_t k = i + 1; k < s->n; k++)
            if (!add_row(&m, i, k, -m.at[i][k])) return false;
        int64_t *row = m.at[i] + s->n, *last = zero.at[zero.rows];
        memcpy(last, row, s->q * sizeof *row);
        if (!reduce_row(&zero, &s->units, zero.rows, &o) || !in_range(last, s->q)) return false;
        memcpy(row, last, s->q * sizeof *row);
        memcpy(s->back.at[i], last, s->q * sizeof *row);
    }
    return true;
}

/* ---- the numbers that show it */

/* whole c and d above 0 so that d * row and the sum of c[i] * equation i is 0 in these columns; c[0] is d */
static bool find_multipliers(const search *s, const int64_t *row, uint32_t columns, int64_t *c)
{
    matrix m = {0, s->rank + 1, {{0}}};
    int64_t v[WIDE];
    for (size_t j = 0; j < s->q; j++) {
        if (!(columns >> j & 1)) continue;
        for (size_t i = 0; i < s->rank; i++) m.at[m.rows][i] = s->coefs[s->equations[i] * s->q + j];
        m.at[m.rows++][s->rank] = row[j];
    }
    if (!null_vector(&m, v) || v[s->rank] == 0) return false;
    memset(c, 0, (1 + s->p) * sizeof *c);
    const int64_t sign = v[s->rank] < 0 ? -1 : 1;
    c[0] = sign * v[s->rank];
    for (size_t i = 0; i < s->rank; i++) c[1 + s->equations[i]] = sign * v[i];
    return true;
}
static bool fits(const int64_t *c, size_t n)
{
    for (size_t i = 0; i < n; i++)
        if (llabs(c[i]) > MULTIPLIER_LIMIT) return false;
    return true;
}
/* c[0] * row and the sum of c[1 + i] * equation i is at or above 0 in all columns */
static bool is_above(const search *s, const int64_t *row, const int64_t *c)
{
    for (size_t j = 0; j < s->q; j++) {
        int64_t sum = c[0] * row[j];
        for (size_t i = 0; i < s->p; i++) sum += c[1 + i] * s->coefs[i * s->q + j];
        if (sum < 0) return false;
    }
    return true;
}
/* such multipliers are there with 0 in as many columns as the rank, by which they are told */
static bool find_above(const search *s, size_t coordinate, int64_t *c)
{
    const int64_t *row = s->back.at[coordinate];
    for (uint32_t set = 0; set >> s->q == 0; set++)
        if (members(set) == s->rank && find_multipliers(s, row, set, c) && fits(c, 1 + s->p) && is_above(s, row, c)) return true;
    return false;
}
/* that equation j of the other map is a sum of those of the extended one */
static bool find_onto(const search *s, size_t j, int64_t *c)
{
    int64_t row[MOST];
    for (size_t x = 0; x < s->q; x++) {
        row[x] = x == j ? -1 : 0;
        for (size_t l = 0; l < s->n; l++) row[x] += s->by.at[j][l] * s->back.at[l][x];
    }
    if (!find_multipliers(s, row, (UINT32_C(1) << s->q) - 1, c)) return false;
    for (size_t l = 0; l < s->n; l++) {
        if (c[0] > MULTIPLIER_LIMIT || llabs(s->by.at[j][l]) > LARGE || (double)c[0] * fabs((double)s->by.at[j][l]) > 4e18) return false;
        c[1 + s->p + l] = c[0] * s->by.at[j][l];
    }
    return fits(c, 1 + s->p + s->n);
}
/* the rows get the least common first number */
static bool share_first(int64_t *c, size_t rows, size_t width)
{
    int64_t all = 1;
    for (size_t i = 0; i < rows; i++) {
        if (c[i * width] > LARGE) return false;
        all = all / gcd(all, c[i * width]) * c[i * width];
        if (all > LARGE) return false;
    }
    for (size_t i = 0; i < rows; i++) {
        const int64_t times = all / c[i * width];
        for (size_t k = 0; k < width; k++) {
            if (fabs((double)times * (double)c[i * width + k]) > (double)MULTIPLIER_LIMIT) return false;
            c[i * width + k] *= times;
        }
    }
    return true;
}

/* ---- the other map */

/* the largest coefficient */
static int64_t largest(const matrix *m)
{
    int64_t most = 0;
    for (size_t k = 0; k < m->rows * m->width; k++) {
        const int64_t size = llabs(m->at[k / m->width][k % m->width]);
        if (size > most) most = size;
    }
    return most;
}
/* equation `row` and `times` equation `by` in its place: with its multipliers, and those of the equations that are sums of it; the operation is to be undone */
static bool add_equation(const search *s, matrix *other, reformulation *r, row_operation o)
{
    const size_t onto = 1 + s->p + s->n, back = 1 + s->q;
    if (r->operations == REFORMULATED_OPERATIONS || llabs(o.times) > WORKING_LIMIT || !add_row(other, o.row, o.by, o.times)) return false;
    for (size_t k = 1; k < onto; k++) r->onto[o.row * onto + k] += o.times * r->onto[o.by * onto + k];
    for (size_t i = 0; i < s->p + s->n; i++) r->back[i * back + 1 + o.by] -= o.times * r->back[i * back + 1 + o.row];
    memmove(r->undo + 1, r->undo, r->operations++ * sizeof *r->undo);
    r->undo[0] = (row_operation){o.row, o.by, -o.times};
    return largest(other) <= WORKING_LIMIT && fits(r->onto, s->q * onto) && fits(r->back, (s->p + s->n) * back);
}
/* multiples of one equation are added to another while a coefficient is above the limit of a map */
static bool shorten(const search *s, matrix *other, reformulation *r)
{
    bool any = true;
    while (any && largest(other) > DEZGULA_COEFFICIENT_LIMIT) {
        any = false;
        for (size_t k = 0; k < s->q * s->q; k++) {
            const size_t e = k / s->q, by = k % s->q;
            const int64_t *a = other->at[e], *b = other->at[by];
            const int64_t times = e == by ? 0 : nearest((double)dot(a, b, other->width) / (double)dot(b, b, other->width));
            if (times == 0) continue;
            if (!add_equation(s, other, r, (row_operation){e, by, -times})) return false;
            any = true;
        }
    }
    return any || largest(other) <= DEZGULA_COEFFICIENT_LIMIT;
}
static bool write_map(int32_t *to, const matrix *m)
{
    if (largest(m) > DEZGULA_COEFFICIENT_LIMIT) return false;
    for (size_t k = 0; k < m->rows * m->width; k++) to[k] = (int32_t)m->at[k / m->width][k % m->width];
    return true;
}
/* the map with the equations that tell the coordinates */
static void extend(const search *s, matrix *m)
{
    memset(m, 0, sizeof *m);
    m->rows = s->p + s->n, m->width = s->q + s->n;
    for (size_t k = 0; k < s->p * s->q; k++) m->at[k / s->q][k % s->q] = s->coefs[k];
    for (size_t l = 0; l < s->n; l++) memcpy(m->at[s->p + l], s->back.at[l], s->q * sizeof *m->at[l]), m->at[s->p + l][s->q + l] = -1;
}
/* -x + B y = 0, and the multipliers of each equation of the extended map: those of x */
static void set_other(const search *s, const matrix *extended, matrix *other, reformulation *r)
{
    const size_t back = 1 + s->q;
    set_unit(other, s->q, s->q + s->n);
    for (size_t j = 0; j < s->q; j++) other->at[j][j] = -1, memcpy(other->at[j] + s->q, s->by.at[j], s->n * sizeof *s->by.at[j]);
    for (size_t i = 0; i < extended->rows; i++) r->back[i * back] = 1, memcpy(r->back + i * back + 1, extended->at[i], s->q * sizeof *extended->at[i]);
}
static bool show(const search *s, reformulation *r)
{
    matrix extended, other;
    const size_t onto = 1 + s->p + s->n;
    extend(s, &extended);
    set_other(s, &extended, &other, r);
    for (size_t j = 0; j < s->q; j++)
        if (!find_onto(s, j, r->onto + j * onto)) return false;
    for (size_t l = 0; l < s->n; l++)
        if (!find_above(s, l, r->above + l * (1 + s->p))) return false;
    if (largest(&other) > WORKING_LIMIT) return false;
    return share_first(r->onto, s->q, onto) && shorten(s, &other, r) && write_map(r->extended, &extended) && write_map(r->other, &other);
}
/* what is looked at by the engine's call */
static dezgula_reformulation numbers_of(const dezgula_system *system, const reformulation *r)
{
    const size_t p = system->p, q = system->q, n = r->further;
    return (dezgula_reformulation){n, r->extended, (p + n) * (q + n), q, r->other, q * (q + n), r->onto, q * (1 + p + n),
                                   r->back, (p + n) * (1 + q), r->above, n * (1 + p)};
}
static bool is_shown(const dezgula_system *system, const reformulation *r)
{
    const dezgula_reformulation by = numbers_of(system, r);
    return dezgula_engine_reformulates(system, &by) == DEZGULA_ENGINE_SAME_LOOPS;
}
bool reformulation_find(const dezgula_system *system, bool capped, reformulation *r, bool *beyond)
{
    search *s = calloc(1, sizeof *s);
    if (s == NULL) return false;
    s->p = system->p, s->q = system->q, s->coefs = system->coefs, s->capped = capped;
    memset(r, 0, sizeof *r);
    const bool all = s->q <= REFORMULATED_UNKNOWNS + (size_t)capped && find_lattice(s) && find_rays(s) && find_coordinates(s) && find_back(s) && show(s, r);
    r->further = s->n, *beyond = s->beyond;
    free(s);
    return all && is_shown(system, r);
}

/* ---- as words */

size_t reformulation_length(const dezgula_system *system, const reformulation *r)
{
    const dezgula_reformulation by = numbers_of(system, r);
    return by.extended_len + by.other_len + 2 * (by.onto_len + by.back_len + by.above_len + 3 * r->operations);
}
static uint32_t *put_words(uint32_t *to, const void *from, size_t bytes) { return (uint32_t *)memcpy(to, from, bytes) + bytes / sizeof *to; }
static const uint32_t *get_words(const uint32_t *from, void *to, size_t bytes) { return memcpy(to, from, bytes), from + bytes / sizeof *from; }
void reformulation_save(const dezgula_system *system, const reformulation *r, uint32_t *words)
{
    const dezgula_reformulation by = numbers_of(system, r);
    words = put_words(words, r->extended, by.extended_len * sizeof *r->extended);
    words = put_words(words, r->other, by.other_len * sizeof *r->other);
    words = put_words(words, r->onto, by.onto_len * sizeof *r->onto);
    words = put_words(words, r->back, by.back_len * sizeof *r->back);
    words = put_words(words, r->above, by.above_len * sizeof *r->above);
    put_words(words, r->undo, r->operations * sizeof *r->undo);
}
bool reformulation_load(const dezgula_system *system, const uint32_t *words, reformulation *r)
{
    const dezgula_reformulation by = numbers_of(system, r);
    words = get_words(words, r->extended, by.extended_len * sizeof *r->extended);
    words = get_words(words, r->other, by.other_len * sizeof *r->other);
    words = get_words(words, r->onto, by.onto_len * sizeof *r->onto);
    words = get_words(words, r->back, by.back_len * sizeof *r->back);
    words = get_words(words, r->above, by.above_len * sizeof *r->above);
    get_words(words, r->undo, r->operations * sizeof *r->undo);
    for (size_t i = 0; i < r->operations; i++)
        if (r->undo[i].row >= system->q || r->undo[i].by >= system->q) return false;
    return is_shown(system, r);
}
