/* The page of a map and its list, as HTML that needs nothing from elsewhere: report_write.
 *
 * In order: the page's style and script; small words; the head, which says whether the list is complete; what was asked for besides; the net; the loops; the
 * staffing table; the map in words; what is proved. Everything is in the page's text, so it can be read, printed and searched with scripts off; the script
 * shows a loop in the net. Which loop is shown stands in the page's address: page.html#loop=2 shows loop 2, so it can be sent to somebody. */
#include "picture.h"

#include <inttypes.h>
#include <stdlib.h>
#include <string.h>

/* Up to FEW_LOOPS the staffing table has a column for each loop, and beyond a line; it ends after MOST_LINES loops, which it says. Of more than MANY_LOOPS the
 * browser lays out only those of the list that are to be seen. */
enum { FEW_LOOPS = 24, MOST_LINES = 2000, MANY_LOOPS = 400 };

/* ---- style and script */

static const char *const STYLE[] = {
    ":root{--ink:#22303c;--soft:#5a6875;--line:#d5dce3;--wash:#f6f8fa;--mark:#14588f;--glow:#d3e6f5}",
    "*{box-sizing:border-box}",
    "html{-webkit-text-size-adjust:100%}",
    "body{margin:0;background:#fff;color:var(--ink);font:15px/1.5 'Segoe UI',Roboto,'Helvetica Neue',Arial,sans-serif}",
    "header,main,footer{max-width:1500px;margin:0 auto;padding:0 1.5rem}",
    "h1{font-size:1.6rem;font-weight:600;margin:1.4rem 0 .2rem}",
    "h2{font-size:1.1rem;font-weight:600;margin:0 0 .5rem}",
    "p{margin:.2rem 0 .6rem;max-width:75em}",
    "a{color:var(--mark)}",
    ":focus-visible{outline:3px solid #f0a93b;outline-offset:1px}",
    ".soft{color:var(--soft)}",
    ".cut{border-left:5px solid #b3541e;background:#fdf3ec;padding:.5rem .9rem;font-weight:600}",
    ".both{display:grid;grid-template-columns:minmax(0,1fr) 23rem;gap:1.2rem;align-items:start}",
    ".pane{border:1px solid var(--line);border-radius:8px;background:#fff}",
    ".bar{display:flex;flex-wrap:wrap;gap:.4rem .8rem;align-items:baseline;padding:.6rem .9rem;border-bottom:1px solid var(--line);background:var(--wash);"
    "border-radius:8px 8px 0 0}",
    ".bar h2{margin:0}",
    ".bar .right{margin-left:auto}",
    "#said{margin:0;padding:.5rem .9rem;min-height:3.9em;max-height:7.5em;overflow:auto;border-bottom:1px solid var(--line);max-width:none}",
    ".sheet{border-radius:0 0 8px 8px;overflow:auto;max-height:max(20rem,calc(100vh - 9rem))}",
    ".sheet svg{display:block;margin:0 auto;max-width:100%;height:auto}",
    ".sheet.whole svg{max-width:none}",
    ".net .activity{cursor:pointer}",
    "button,select{font:inherit;color:inherit;background:#fff;border:1px solid #9aa7b3;border-radius:5px;padding:.1rem .5rem;max-width:100%}",
    "button{cursor:pointer}",
    "#loops ol{list-style:none;margin:0;padding:.3rem;overflow:auto;max-height:max(20rem,calc(100vh - 9rem))}",
    "#loops .long li{content-visibility:auto;contain-intrinsic-size:auto 3rem}",
    "#loops li a{display:grid;grid-template-columns:2.6rem 1fr;padding:.35rem .5rem;border-radius:5px;color:inherit;text-decoration:none}",
    "#loops li a:hover{background:var(--wash)}",
    "#loops li a[aria-current]{background:var(--glow);box-shadow:inset 4px 0 var(--mark)}",
    "#loops li span span{display:inline-block;max-width:100%}",
    "#loops li,#said,header p,th[scope=row],td.words,thead span{overflow-wrap:anywhere}",
    "#loops li b{color:var(--mark);font-variant-numeric:tabular-nums}",
    "section{margin:1.2rem 0}",
    ".scroll{width:fit-content;max-width:100%;overflow:auto;max-height:90vh;border:1px solid var(--line);border-radius:8px}",
    "table{border-collapse:separate;border-spacing:0;font-variant-numeric:tabular-nums}",
    "th,td{padding:.2rem .55rem;border-bottom:1px solid var(--line);text-align:right;font-weight:400;background:#fff}",
    "td.zero{color:#6b7681}",
    "td.some{font-weight:600}",
    "thead th{background:var(--wash);position:sticky;top:0;z-index:1;vertical-align:bottom}",
    "th[scope=row],th.words,td.words{text-align:left;min-width:9rem;max-width:26rem}",
    "tbody th[scope=row]{position:sticky;left:0;background:#fff}",
    "thead th:first-child{left:0;z-index:2}",
    "th a{text-decoration:none}",
    "table.deep th[scope=row]{min-width:0;text-align:right}",
    "table.deep th,table.deep td{padding:.2rem .4rem}",
    "table.deep thead th span{display:inline-block;writing-mode:vertical-rl;transform:rotate(180deg);text-align:left;max-height:13em;line-height:1.15;"
    "padding:.2rem 0}",
    "td.total,th.total{border-left:2px solid var(--line);color:var(--soft)}",
    "tr.total th,tr.total td{border-top:2px solid var(--line);color:var(--soft)}",
    "tr.on th,tr.on td,td.on,thead th.on,tr.on th[scope=row]{background:var(--glow)}",
    "summary{cursor:pointer;font-weight:600;font-size:1.1rem;margin-bottom:.5rem}",
    "footer{color:var(--soft);padding-bottom:2rem}footer p{max-width:none}",
    "@media(max-width:900px){.both{grid-template-columns:1fr}.sheet,#loops ol{max-height:70vh}}",
    "@media print{body{font-size:10.5pt}header,main,footer{max-width:none;padding:0}.both{display:block}"
    ".pane,.scroll{border:0;overflow:visible;max-height:none}.sheet,#loops ol,#said{overflow:visible;max-height:none;min-height:0}"
    ".sheet svg{min-width:0!important;max-width:100%;max-height:20cm}.bar{background:none}"
    ".bar .right,button,select,label{display:none}thead th,tbody th[scope=row]{position:static}#loops .long li{content-visibility:visible}"
    "h2,#staffing>p{break-after:avoid}#said.idle{display:none}#loops li,tr{break-inside:avoid}"
    "th,td{padding:.1rem .3rem}*{-webkit-print-color-adjust:exact;print-color-adjust:exact}}",
    NULL,
};

static const char *const SCRIPT[] = {
    "(function () {",
    "  'use strict';",
    "  function all(what, where) { return Array.prototype.slice.call((where || document).querySelectorAll(what)); }",
    "  function one(id) { return document.getElementById(id); }",
    "  var net = document.querySelector('svg.net'), links = all('#loops li a'), only = one('only'), sheet = one('sheet'), whole = one('whole');",
    "  function counts(link) { return link.getAttribute('data-counts').split(' ').map(Number); }",
    "  function asked() {",
    "    var found = /^#loop=(\\d+)$/.exec(location.hash), k = found ? Number(found[1]) : 0;",
    "    return k <= links.length ? k : 0;",
    "  }",
    "  function put(activity, count) {",
    "    var badge = activity.querySelector('.count'), box = badge.querySelector('rect'), text = badge.querySelector('text');",
    "    var words = count + ' \\u00d7', width = 10 + 7.5 * words.length, x = Number(badge.getAttribute('data-x'));",
    "    text.textContent = words;",
    "    box.setAttribute('x', x - width / 2);",
    "    box.setAttribute('width', width);",
    "    activity.classList.toggle('on', count > 0);",
    "  }",
    "  function draw(row) {",
    "    var trays = {};",
    "    all('.activity', net).forEach(function (a) { put(a, row[a.getAttribute('data-activity') - 1] || 0); });",
    "    all('.arc', net).forEach(function (a) {",
    "      var on = row[a.getAttribute('data-activity') - 1] > 0;",
    "      a.classList.toggle('on', on);",
    "      if (on) trays[a.getAttribute('data-tray')] = true;",
    "    });",
    "    all('.tray', net).forEach(function (t) { t.classList.toggle('on', trays[t.getAttribute('data-tray')] === true); });",
    "    net.classList.toggle('shows', row.length > 0);",
    "  }",
    "  function bring(link, list) {",
    "    var a = link.getBoundingClientRect(), b = list.getBoundingClientRect();",
    "    if (a.top < b.top) list.scrollTop -= b.top - a.top;",
    "    else if (a.bottom > b.bottom) list.scrollTop += Math.min(a.bottom - b.bottom, a.top - b.top);",
    "  }",
    "  function show() {",
    "    var k = asked(), link = k > 0 ? links[k - 1] : null;",
    "    draw(link ? counts(link) : []);",
    "    all('#loops a[aria-current]').forEach(function (a) { a.removeAttribute('aria-current'); });",
    "    all('#staffing .on').forEach(function (c) { c.classList.remove('on'); });",
    "    all('#staffing [data-loop=\"' + k + '\"]').forEach(function (c) { c.classList.add('on'); });",
    "    one('none').hidden = !link;",
    "    one('said').classList.toggle('idle', !link);",
    "    if (!link) { one('said').textContent = 'No loop is shown. Choose one from the list to see it in the net, with its counts.'; return; }",
    "    link.setAttribute('aria-current', 'true');",
    "    bring(link, link.parentNode.parentNode);",
    "    one('said').textContent = 'Loop ' + k + ': ' + link.querySelector('.words').textContent;",
    "  }",
    "  function filter() {",
    "    var j = Number(only.value), n = 0;",
    "    links.forEach(function (link) {",
    "      var keep = j === 0 || counts(link)[j - 1] > 0;",
    "      link.parentNode.hidden = !keep;",
    "      n += keep ? 1 : 0;",
    "    });",
    "    one('kept').textContent = j === 0 ? '' : n + ' of ' + links.length;",
    "  }",
    "  function step(by) {",
    "    var seen = links.filter(function (a) { return !a.parentNode.hidden; }), at = seen.indexOf(document.activeElement);",
    "    var next = seen[at < 0 ? 0 : Math.min(Math.max(at + by, 0), seen.length - 1)];",
    "    if (next) { next.focus(); location.hash = next.getAttribute('href'); }",
    "  }",
    "  document.addEventListener('keydown', function (e) {",
    "    var within = document.activeElement && document.activeElement.closest('#loops li');",
    "    if (e.altKey || e.ctrlKey || e.metaKey) return;",
    "    if (e.key === 'Escape') location.hash = '#loop=0';",
    "    else if (within && e.key === 'ArrowDown') { e.preventDefault(); step(1); }",
    "    else if (within && e.key === 'ArrowUp') { e.preventDefault(); step(-1); }",
    "  });",
    "  all('.activity', net).forEach(function (a) {",
    "    a.addEventListener('click', function () {",
    "      var j = a.getAttribute('data-activity');",
    "      only.value = only.value === j ? '0' : j;",
    "      filter();",
    "    });",
    "  });",
    "  only.addEventListener('change', filter);",
    "  whole.addEventListener('click', function () {",
    "    whole.setAttribute('aria-pressed', String(sheet.classList.toggle('whole')));",
    "  });",
    "  net.style.minWidth = Math.round(0.5 * net.viewBox.baseVal.width) + 'px';",
    "  all('.script').forEach(function (e) { e.hidden = false; });",
    "  window.addEventListener('hashchange', show);",
    "  show();",
    "}());",
    NULL,
};

static void write_lines(FILE *out, const char *const *lines)
{
    for (; *lines != NULL; lines++) fprintf(out, "%s\n", *lines);
}

/* ---- small words */

static const char *plural(size_t n, const char *one, const char *more)
{
    return n == 1 ? one : more;
}

static const uint32_t *row_of(const listing *l, size_t k)
{
    return l->rows + k * l->q;
}

static const char *sort_of(const map *m)
{
    return m->all_trays_len > 0 ? "net" : "map";
}

/* "2 × write a draft, 1 × review", each in a part of its own, so that lines are broken between them. */
static void write_words(FILE *out, const map *m, const uint32_t *row)
{
    const char *before = "<span>";
    for (size_t j = 0; j < m->q; j++) {
        if (row[j] == 0) continue;
        fprintf(out, "%s%" PRIu32 " \xC3\x97 ", before, row[j]);
        escaped_write(out, m->activities[j].name);
        before = ",</span> <span>";
    }
    fputs(before[0] == ',' ? "</span>" : "nothing: all counts are 0", out);
}

static size_t loops_with(const listing *l, size_t j)
{
    size_t n = 0;
    for (size_t k = 0; k < l->n; k++) n += row_of(l, k)[j] > 0;
    return n;
}

static bool has_desks(const map *m)
{
    const char *first = m->activities[0].page;
    for (size_t j = 0; j < m->q; j++) {
        const char *page = m->activities[j].page;
        if ((page == NULL) != (first == NULL) || (page != NULL && strcmp(page, first) != 0)) return true;
    }
    return false;
}

/* ---- the head */

static void write_start(FILE *out, const map *m, const listing *l)
{
    fputs("<!DOCTYPE html>\n<html lang=\"en\">\n<head>\n<meta charset=\"utf-8\">\n<meta name=\"viewport\" content=\"width=device-width, initial-scale=1\">\n"
          "<meta http-equiv=\"Content-Security-Policy\" content=\"default-src 'none'; style-src 'unsafe-inline'; script-src 'unsafe-inline'; img-src data:\">\n"
          "<link rel=\"icon\" href=\"data:,\">\n",
          out);
    fprintf(out, "<title>%zu %s of ", l->n, plural(l->n, "loop", "loops"));
    if (l->name != NULL) escaped_write(out, l->name);
    else fprintf(out, "a %s of %zu activities", sort_of(m), m->q);
    fputs("</title>\n<style>\n", out);
    write_lines(out, STYLE);
    fputs("</style>\n</head>\n<body>\n", out);
}

/* Whether the list is complete, in a sentence. */
static void write_completeness(FILE *out, const map *m, const listing *l)
{
    fprintf(out, "<p id=\"complete\"%s>The list is %s: ", l->complete ? "" : " class=\"cut\"", l->complete ? "complete" : "not complete");
    if (!l->complete && l->n == 0) fputs("it was cut short before a first loop was sure, and says nothing of the loops there are.", out);
    else if (!l->complete) fputs("it was cut short. The loops listed are right; others may be missing.", out);
    else if (l->n == 0) fprintf(out, "the %s has no loop. However often its activities are done, some tray does not hold what it held before.", sort_of(m));
    else fputs("every plan after which each tray holds what it held before is made of these loops, and none can be left out.", out);
    fputs("</p>\n", out);
}

static void write_unchanged(FILE *out, const map *m)
{
    if (m->unchanged == 0) return;
    fprintf(out, "<p class=\"soft\">Left out, as no activity changes %s: ", plural(m->unchanged, "it", "them"));
    for (size_t i = 0; i < m->unchanged; i++) {
        fputs(i > 0 ? ", " : "", out);
        escaped_write(out, m->unchanged_names[i]);
    }
    fputs(".</p>\n", out);
}

static void write_in_no_loop(FILE *out, const map *m, const listing *l)
{
    const char *before = "<p id=\"in-no-loop\">In no loop: ";
    for (size_t j = 0; l->complete && l->n > 0 && j < m->q; j++) {
        if (loops_with(l, j) > 0) continue;
        fputs(before, out);
        escaped_write(out, m->activities[j].name);
        before = ", ";
    }
    if (before[0] == ',') fputs(".</p>\n", out);
}

static bool has_right_sides(const map *m)
{
    for (size_t i = 0; m->rights != NULL && i < m->p; i++)
        if (m->rights[i] != 0) return true;
    return false;
}

static void write_head(FILE *out, const map *m, const listing *l)
{
    fprintf(out, "<header>\n<h1>%zu %s</h1>\n", l->n, l->complete ? plural(l->n, "loop", "loops") : plural(l->n, "loop so far", "loops so far"));
    fputs("<p class=\"soft\">Of ", out);
    if (l->name != NULL) {
        escaped_write(out, l->name);
        fputs(", ", out);
    }
    fprintf(out, "a %s of %zu %s and %zu %s.</p>\n", sort_of(m), m->q, plural(m->q, "activity", "activities"), m->p, plural(m->p, "tray", "trays"));
    write_completeness(out, m, l);
    if (has_right_sides(m)) fputs("<p>Loops are counted without the map's deliveries: after a loop each tray holds what it held before.</p>\n", out);
    write_in_no_loop(out, m, l);
    write_unchanged(out, m);
    fputs("</header>\n", out);
}

/* ---- the net and the loops */

static void write_choice(FILE *out, const map *m)
{
    fputs("<label class=\"right script\" hidden>with <select id=\"only\"><option value=\"0\">any activity</option>", out);
    for (size_t j = 0; j < m->q; j++) {
        fprintf(out, "<option value=\"%zu\">", j + 1);
        escaped_write(out, m->activities[j].name);
        fputs("</option>", out);
    }
    fputs("</select></label>", out);
}

static void write_loop(FILE *out, const map *m, const uint32_t *row, size_t number)
{
    fprintf(out, "<li><a href=\"#loop=%zu\" data-counts=\"", number);
    for (size_t j = 0; j < m->q; j++) fprintf(out, "%s%" PRIu32, j > 0 ? " " : "", row[j]);
    fprintf(out, "\"><b>%zu</b><span class=\"words\">", number);
    write_words(out, m, row);
    fputs("</span></a></li>\n", out);
}

static void write_loops(FILE *out, const map *m, const listing *l)
{
    fputs("<section class=\"pane\" id=\"loops\" aria-labelledby=\"loops-head\">\n"
          "<div class=\"bar\"><h2 id=\"loops-head\">Loops</h2><span id=\"kept\" class=\"soft\" role=\"status\"></span>",
          out);
    write_choice(out, m);
    fprintf(out, "</div>\n<ol%s>\n", l->n > MANY_LOOPS ? " class=\"long\"" : "");
    for (size_t k = 0; k < l->n; k++) write_loop(out, m, row_of(l, k), k + 1);
    fputs("</ol>\n", out);
    if (l->n == 0) fputs("<p class=\"bar\">There is no loop in the list.</p>\n", out);
    fputs("</section>\n", out);
}

static int write_net(FILE *out, const map *m)
{
    const char *sort = sort_of(m);
    fprintf(out, "<section class=\"pane\" aria-labelledby=\"net-head\">\n<div class=\"bar\"><h2 id=\"net-head\">The %s</h2>", sort);
    fputs("<span class=\"soft\">boxes are activities, round ends are trays</span><span class=\"right script\" hidden>"
          "<a id=\"none\" href=\"#loop=0\" hidden>show no loop</a> "
          "<button id=\"whole\" type=\"button\" aria-pressed=\"false\">full size</button></span></div>\n"
          "<p id=\"said\" role=\"status\" aria-live=\"polite\">The loops are listed beside the picture; with scripts on, a click on one shows it here.</p>\n",
          out);
    fprintf(out, "<div class=\"sheet\" id=\"sheet\" tabindex=\"0\" role=\"region\" aria-label=\"The %s, drawn\">\n", sort);
    int status = picture_write(out, m, NULL);
    fputs("</div>\n</section>\n", out);
    return status;
}

/* ---- what was asked for besides */

static void write_wanted(FILE *out, const map *m, const listing *l)
{
    if (l->kind == NO_WANTED || (!l->complete && l->wanted_len == 0)) return;
    fprintf(out, "<section id=\"wanted\">\n<h2>%zu %s</h2>\n<ol>\n", l->wanted_len, wanted_title(l->kind, l->wanted_len));
    for (size_t k = 0; k < l->wanted_len; k++) {
        fputs("<li>", out);
        write_words(out, m, l->wanted + k * l->q);
        fputs("</li>\n", out);
    }
    fputs("</ol>\n", out);
    if (l->complete) fprintf(out, "<p class=\"soft\">%s.</p>\n", wanted_sense(l->kind, l->wanted_len));
    fputs("</section>\n", out);
}

/* ---- the staffing table: how often each activity is done in each loop */

static void write_cell(FILE *out, uint32_t count, size_t loop)
{
    fprintf(out, "<td class=\"%s\"", count == 0 ? "zero" : "some");
    if (loop > 0) fprintf(out, " data-loop=\"%zu\"", loop);
    fprintf(out, ">%" PRIu32 "</td>", count);
}

static void write_loop_head(FILE *out, size_t loop, const char *scope, bool marked)
{
    fprintf(out, "<th scope=\"%s\"", scope);
    if (marked) fprintf(out, " data-loop=\"%zu\"", loop);
    fprintf(out, "><a href=\"#loop=%zu\">%zu</a></th>", loop, loop);
}

static void write_activity_line(FILE *out, const map *m, const listing *l, size_t j)
{
    fputs("<tr><th scope=\"row\">", out);
    escaped_write(out, m->activities[j].name);
    fputs("</th>", out);
    if (has_desks(m)) {
        fputs("<td class=\"words\">", out);
        if (m->activities[j].page != NULL) escaped_write(out, m->activities[j].page);
        fputs("</td>", out);
    }
    for (size_t k = 0; k < l->n; k++) write_cell(out, row_of(l, k)[j], k + 1);
    fprintf(out, "<td class=\"total\">%zu</td></tr>\n", loops_with(l, j));
}

/* Few loops: a line for each activity, a column for each loop. */
static void write_wide(FILE *out, const map *m, const listing *l)
{
    fprintf(out, "<table>\n<thead><tr><th scope=\"col\" class=\"words\">Activity</th>%s", has_desks(m) ? "<th scope=\"col\" class=\"words\">Desk</th>" : "");
    for (size_t k = 0; k < l->n; k++) write_loop_head(out, k + 1, "col", true);
    fputs("<th scope=\"col\" class=\"total\">in loops</th></tr></thead>\n<tbody>\n", out);
    for (size_t j = 0; j < m->q; j++) write_activity_line(out, m, l, j);
    fputs("</tbody>\n</table>\n", out);
}

static void write_loop_line(FILE *out, const listing *l, size_t k)
{
    fprintf(out, "<tr data-loop=\"%zu\">", k + 1);
    write_loop_head(out, k + 1, "row", false);
    for (size_t j = 0; j < l->q; j++) write_cell(out, row_of(l, k)[j], 0);
    fputs("</tr>\n", out);
}

/* Many loops: a line for each loop, a column for each activity. */
static void write_deep(FILE *out, const map *m, const listing *l)
{
    fputs("<table class=\"deep\">\n<thead><tr><th scope=\"col\">Loop</th>", out);
    for (size_t j = 0; j < m->q; j++) {
        fputs("<th scope=\"col\"><span>", out);
        escaped_write(out, m->activities[j].name);
        fputs("</span></th>", out);
    }
    fputs("</tr></thead>\n<tbody>\n", out);
    for (size_t k = 0; k < l->n && k < MOST_LINES; k++) write_loop_line(out, l, k);
    fputs("</tbody>\n<tfoot><tr class=\"total\"><th scope=\"row\">in loops</th>", out);
    for (size_t j = 0; j < m->q; j++) fprintf(out, "<td>%zu</td>", loops_with(l, j));
    fputs("</tr></tfoot>\n</table>\n", out);
}

static void write_staffing(FILE *out, const map *m, const listing *l)
{
    if (l->n == 0) return;
    fputs("<section id=\"staffing\" aria-labelledby=\"staffing-head\">\n<h2 id=\"staffing-head\">Staffing table</h2>\n"
          "<p class=\"soft\">How often each activity is done in one round of each loop; \"in loops\" is the number of loops that have the activity.</p>\n",
          out);
    if (l->n > MOST_LINES) fprintf(out, "<p class=\"cut\">The table has the first %d loops of %zu; the list above has all.</p>\n", MOST_LINES, l->n);
    fputs("<div class=\"scroll\" tabindex=\"0\" role=\"region\" aria-labelledby=\"staffing-head\">\n", out);
    if (l->n <= FEW_LOOPS) write_wide(out, m, l);
    else write_deep(out, m, l);
    fputs("</div>\n</section>\n", out);
}

/* ---- the map in words */

/* What an activity takes (sign -1) or puts (1): "2 from drafts" is "2 × drafts" in the column of what is taken. */
static void write_moved(FILE *out, const map *m, size_t j, int32_t sign)
{
    const char *between = "";
    fputs("<td class=\"words\">", out);
    for (size_t i = 0; i < m->p; i++) {
        int32_t moved = sign * m->coefs[i * m->q + j];
        if (moved <= 0) continue;
        fprintf(out, "%s%" PRId32 " \xC3\x97 ", between, moved);
        escaped_write(out, m->trays[i].name);
        between = ", ";
    }
    fputs("</td>", out);
}

static void write_map(FILE *out, const map *m)
{
    const char *sort = sort_of(m);
    fprintf(out, "<section>\n<details>\n<summary>The %s in words</summary>\n", sort);
    fprintf(out, "<div class=\"scroll\" tabindex=\"0\" role=\"region\" aria-label=\"The %s in words\">\n", sort);
    fputs("<table>\n<thead><tr><th scope=\"col\" class=\"words\">Activity</th><th scope=\"col\" class=\"words\">takes from</th>"
          "<th scope=\"col\" class=\"words\">puts into</th></tr></thead>\n<tbody>\n",
          out);
    for (size_t j = 0; j < m->q; j++) {
        fputs("<tr><th scope=\"row\">", out);
        escaped_write(out, m->activities[j].name);
        fputs("</th>", out);
        write_moved(out, m, j, -1);
        write_moved(out, m, j, 1);
        fputs("</tr>\n", out);
    }
    fputs("</tbody>\n</table>\n</div>\n</details>\n</section>\n", out);
}

static void write_end(FILE *out)
{
    fputs("<footer>\n<p id=\"proved\">Proved: each loop in the list is one and holds no smaller one, none is in it twice, "
          "and in a complete list none is missing. Reading the file and making this page are tested, not proved.</p>\n</footer>\n<script>\n",
          out);
    write_lines(out, SCRIPT);
    fputs("</script>\n</body>\n</html>\n", out);
}

int report_write(FILE *out, const map *m, const listing *l)
{
    write_start(out, m, l);
    write_head(out, m, l);
    fputs("<main>\n", out);
    write_wanted(out, m, l);
    fputs("<div class=\"both\">\n", out);
    int status = write_net(out, m);
    write_loops(out, m, l);
    fputs("</div>\n", out);
    write_staffing(out, m, l);
    write_map(out, m);
    fputs("</main>\n", out);
    write_end(out);
    return status == 0 && !ferror(out) ? 0 : -1;
}
