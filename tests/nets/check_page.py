#!/usr/bin/env python3
"""Holds a page, as a browser shows it, against the list it was made of: check_page.py DOM ROWS LOOP
DOM is what the browser has after the page's script ran at #loop=LOOP. With loop 0 no activity is marked; else those of the loop are, each with its count, the
line of the list and the cells of the staffing table too. The table holds the list. Prints nothing where all is well."""
import sys
from html.parser import HTMLParser


class Page(HTMLParser):
    """Collects what is asked below, by the elements that are open."""

    def __init__(self):
        super().__init__(convert_charrefs=True)
        self.open, self.counts, self.marked, self.current, self.said, self.scripts, self.cells, self.shows = [], {}, set(), [], '', 0, [], False
        self.outside, self.table, self.deep = [], [], False

    def handle_starttag(self, tag, attributes):
        a = dict(attributes)
        classes = (a.get('class') or '').split()
        self.scripts += tag == 'script'
        self.outside += [a[k] for k in ('src', 'href') if (a.get(k) or '').split(':')[0] in ('http', 'https', 'file', 'ftp')]
        if tag == 'svg' and 'shows' in classes:
            self.shows = True
        if 'activity' in classes and 'on' in classes:
            self.marked.add(int(a['data-activity']))
        if tag == 'a' and 'aria-current' in a:
            self.current.append(a['href'])
        if 'on' in classes and 'data-loop' in a:
            self.cells.append(int(a['data-loop']))
        self.deep = self.deep or (tag == 'table' and 'deep' in classes)
        if tag not in ('meta', 'link', 'br', 'input'):
            self.open.append((tag, classes, a))

    def handle_endtag(self, tag):
        while self.open and self.open.pop()[0] != tag:
            pass

    def handle_data(self, data):
        if self.open and self.open[-1][0] == 'td' and {'zero', 'some'} & set(self.open[-1][1]):
            self.table.append(int(data))
        if any('id' in a and a['id'] == 'said' for _, _, a in self.open):
            self.said += data
        if any('count' in classes for _, classes, _ in self.open) and self.open[-1][0] == 'text':
            activity = [a['data-activity'] for _, classes, a in self.open if 'activity' in classes]
            self.counts[int(activity[0])] = data


def main():
    page, loop = Page(), int(sys.argv[3])
    page.feed(open(sys.argv[1], encoding='utf-8').read())
    rows = [[int(x) for x in line.split()] for line in open(sys.argv[2])][1:]
    row = rows[loop - 1] if loop else []
    shown = rows[:2000]
    table = [c for line in (shown if page.deep else zip(*rows)) for c in line]
    wanted = {j + 1: f'{c} \u00d7' for j, c in enumerate(row) if c}
    assert page.table == table, 'the staffing table is another list'
    assert page.scripts == 1, f'{page.scripts} scripts'
    assert page.outside == [], f'from elsewhere: {page.outside}'
    assert page.marked == set(wanted), f'marked {page.marked}, not {set(wanted)}'
    assert {j: page.counts[j] for j in wanted} == wanted, f'counts {page.counts}, not {wanted}'
    assert page.shows == (loop > 0), 'the net is dimmed, or not'
    assert page.current == ([f'#loop={loop}'] if loop else []), f'current {page.current}'
    assert page.said.startswith(f'Loop {loop}: ' if loop else 'No loop is shown'), page.said
    assert page.said.count('\u00d7') == len(wanted), page.said
    assert set(page.cells) == ({loop} if loop else set()), f'cells of {set(page.cells)}'


main()
