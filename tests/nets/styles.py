#!/usr/bin/env python3
"""Nets drawn by chance, of 8 to 32 activities, with pages and names, each written as a dozen editors would save it: what is read must be the net.

  tests/nets/styles.py FOLDER SHOW [COUNT]     COUNT nets, 12 unless said; they are left in FOLDER; SHOW is the program of show.c"""
import random
import subprocess
import sys
from xml.sax.saxutils import escape, quoteattr

DOING = ["write", "review", "sign", "send", "stamp", "file", "print", "bind", "check", "copy", "scan", "sort", "weigh", "pay", "ask", "call"]
THINGS = ["draft", "letter", "permit", "plan", "invoice", "order", "minutes", "map", "form", "appeal"]
AFTER = ["", "", "", " & return", " <urgent>", ' "again"', " für Müller", " – § 9", ", twice", " (2)", " 100 %", " l'été", "\n with remarks", "\ttwo\n  lines "]


class Net:
    """Places and transitions have an id, a name, a page (a number) and a position; an arc has two ids and a weight; ids are those of an editor."""

    def __init__(self, r, activities):
        self.pages = [f"{thing} desk" for thing in r.sample(THINGS, r.randint(2, 4))]
        self.activities = [(f"t{j}", self.name(r, j), r.randrange(len(self.pages)), 120 * (j % 6), 160 * (j // 6)) for j in range(activities)]
        trays = r.randint(activities // 3, min(activities - 2, 24))
        self.trays = [(f"p{i}", f"{r.choice(THINGS)} tray {i}{r.choice(AFTER)}", r.randrange(len(self.pages)), 60 + 120 * (i % 6), 80 + 160 * (i // 6))
                      for i in range(trays)]
        self.arcs = []
        for j in range(activities):
            for i in r.sample(range(trays), min(trays, r.choice([1, 2, 2, 3]))):
                ends = (f"p{i}", f"t{j}")
                self.arcs.append((ends if r.random() < 0.5 else ends[::-1]) + (r.choice([1, 1, 1, 2, 3]),))

    @staticmethod
    def name(r, j):
        return f"{DOING[j % len(DOING)]} the {r.choice(THINGS)} {j}{r.choice(AFTER)}"

    def nodes(self):
        return [("place", *n) for n in self.trays] + [("transition", *n) for n in self.activities]

    def page_of(self):
        return {n[0]: n[2] for n in self.trays + self.activities}

    def read(self):
        """By how much each activity, done once, changes each tray, by their names as people are shown them; and the names of all activities."""
        named = {i: " ".join(name.split()) for i, name, *_ in self.trays + self.activities}
        changes = {}
        for source, target, weight in self.arcs:
            tray, activity, sign = (source, target, -1) if source[0] == "p" else (target, source, 1)
            key = named[tray], named[activity]
            changes[key] = changes.get(key, 0) + sign * weight
        return {key: by for key, by in changes.items() if by != 0}, {named[i] for i, *_ in self.activities}


def shown(said):
    """The same of what show.c says."""
    lines = said.split("\n")
    p, q = map(int, lines[0].split())
    rows = [list(map(int, line.split())) for line in lines[1:p + 1]]
    names = [line.split(": ", 1)[1].split(" | page")[0].split(" | at")[0] for line in lines[p + 1:p + q + p + 1]]
    trays, activities = names[:p], names[p:]
    return {(trays[i], activities[j]): rows[i][j] for i in range(p) for j in range(q) if rows[i][j] != 0}, set(activities)


# ---- parts that several styles have

ISO = "http://www.pnml.org/version-2009/grammar/"


def text(tag, words, inside="text"):
    return f"<{tag}><{inside}>{escape(words)}</{inside}></{tag}>"


def place_at(x, y):
    return f'<graphics><position x="{x}" y="{y}"/><dimension x="40" y="40"/><fill color="#ffffff"/><line style="solid" width="1"/></graphics>'


def arc(k, source, target, inside):
    return f'<arc id="a{k}" source={quoteattr(source)} target={quoteattr(target)}>{inside}</arc>'


def weight_as(tag, weight):
    return "" if weight == 1 else text("inscription", str(weight), tag)


def tool(name, inside=""):
    return f'<toolspecific tool="{name}" version="1.0">{inside}<place id="p0"/><name><text>no name</text></name></toolspecific>'


def whole(kind, inside, namespace=None, head='<?xml version="1.0" encoding="UTF-8"?>\n', encoding="utf-8"):
    space = f' xmlns="{namespace}"' if namespace else ""
    return f'{head}<pnml{space}><net id="office" type="{kind}">{inside}</net></pnml>'.encode(encoding)


# ---- styles: from a net to the bytes of a file

def plain(n):
    nodes = "".join(f"<{kind} id=\"{i}\">{text('name', name)}{place_at(x, y)}</{kind}>\n" for kind, i, name, _, x, y in n.nodes())
    return nodes + "".join(arc(k, s, t, weight_as("text", w)) + "\n" for k, (s, t, w) in enumerate(n.arcs))


def iso(n):
    """Pages, and a reference place where an arc leads to a tray of another page; arcs stand on the page of their activity."""
    on, inside, references = n.page_of(), [[] for _ in n.pages], set()
    for kind, i, name, page, x, y in n.nodes():
        marking = text("initialMarking", "3") if kind == "place" else ""
        inside[page].append(f"<{kind} id=\"{i}\">{text('name', name)}{marking}{place_at(x, y)}{tool('ePNK')}</{kind}>")
    for k, (source, target, weight) in enumerate(n.arcs):
        tray, activity = (source, target) if source[0] == "p" else (target, source)
        page = on[activity]
        seen = tray if on[tray] == page else f"r{page}{tray}"
        if seen != tray and seen not in references:
            references.add(seen)
            inside[page].insert(0, f'<referencePlace id="{seen}" ref="{tray}"><graphics/></referencePlace>')
        ends = (seen, activity) if source[0] == "p" else (activity, seen)
        inside[page].append(arc(k, *ends, weight_as("text", weight)))
    pages = "".join(f"<page id=\"page{k}\">{text('name', name)}{''.join(inside[k])}</page>" for k, name in enumerate(n.pages))
    return whole(ISO + "ptnet", text("name", "office") + pages, ISO + "pnml")


def nested(n):
    """Pages in pages, and a reference transition, to a transition that comes later, for each arc."""
    activities = "".join(f"<transition id=\"{i}\">{text('name', name)}</transition>" for i, name, *_ in n.activities)
    trays = "".join(f"<place id=\"{i}\">{text('name', name)}</place>" for i, name, *_ in n.trays)
    arcs = "".join(f'<referenceTransition id="q{k}" ref="{s if s[0] == "t" else t}"/>' +
                   arc(k, *(f"q{k}" if end[0] == "t" else end for end in (s, t)), weight_as("text", w)) for k, (s, t, w) in enumerate(n.arcs))
    inside = f'<page id="top"><page id="in">{arcs}</page><page id="out">{trays}<page id="last">{activities}</page></page></page>'
    return whole(ISO + "ptnet", inside, ISO + "pnml")


def woped(n):
    head = '<?xml version="1.0" encoding="UTF-8"?>\n<!--PLEASE DO NOT EDIT THIS FILE\nCreated with Workflow PetriNet Designer Version 3.8.0 (woped.org)-->\n'
    bounds = tool("WoPeD", "<bounds><position x='1' y='2'/></bounds>")
    return whole("http://www.informatik.hu-berlin.de/top/pntd/ptNetb", plain(n) + bounds, "pnml.woped.org", head)


def pipe(n):
    nodes = "".join(f"<{kind} id=\"{i}\">{place_at(x, y)}{text('name', name, 'value')}</{kind}>\n" for kind, i, name, _, x, y in n.nodes())
    arcs = "".join(arc(k, s, t, f"<graphics/>{text('inscription', f'Default,{w}', 'value')}<tagged><value>false</value></tagged>"
                       '<arcpath id="000" x="56" y="176" curvePoint="false"/><type value="normal"/>') for k, (s, t, w) in enumerate(n.arcs))
    return whole("P/T net", '<token id="Default" enabled="true" red="0" green="0" blue="0"/>' + nodes + arcs)


def dots(tag, count):
    """As TAPAAL 4 writes a weight besides, of a net that has no colours."""
    return (f"<{tag}><text>{count}'dot</text><structure><numberof><subterm><numberconstant value=\"{count}\"><positive/></numberconstant></subterm>"
            f'<subterm><useroperator declaration="dot"/></subterm></numberof></structure></{tag}>')


def tapaal(n):
    sort = '<type><text>dot</text><structure><usersort declaration="dot"/></structure></type>'
    nodes = "".join(f'<{kind} id="{i}" name={quoteattr(name)} positionX="{x}" positionY="{y}"' + (
        f" initialMarking=\"1\">{sort}{dots('hlinitialMarking', 1)}</place>" if kind == "place" else ' urgent="false"/>') for kind, i, name, _, x, y in n.nodes())
    arcs = "".join(f'<arc id="A{k}" source="{s}" target="{t}" weight="{w}" ' + (
        'inscription="[0,inf)" type="timed">' if s[0] == "p" else 'inscription="1" type="normal">') + dots("hlinscription", w) +
        '<arcpath arcPointType="false" id="0" xCoord="117" yCoord="105"/></arc>' for k, (s, t, w) in enumerate(n.arcs))
    declared = '<declaration><structure><declarations><namedsort id="dot" name="dot"><dot/></namedsort></declarations></structure></declaration>'
    return (f'<?xml version="1.0" encoding="UTF-8" standalone="no"?>\n<pnml xmlns="http://www.informatik.hu-berlin.de/top/pnml/ptNetb">{declared}'
            f'<net active="true" id="TAPN1" type="P/T net">{nodes}{arcs}</net><k-bound bound="3"/>'
            '<feature isGame="false" isTimed="true" isColored="false"/></pnml>').encode()


def yasper(n):
    arcs = "".join(arc(k, s, t, "<type><text>normal</text></type>" + weight_as("text", w)) for k, (s, t, w) in enumerate(n.arcs))
    nodes = "".join(f"<{kind} id=\"{i}\">{text('name', name)}{tool('Yasper', '<roles/>')}</{kind}>" for kind, i, name, *_ in n.nodes())
    return whole("http://www.yasper.org/specs/epnml-1.1", arcs + nodes, head="")


def tina(n):
    delay = '<delay><interval xmlns="http://www.w3.org/1998/Math/MathML" closure="closed"><cn>4</cn><cn>9</cn></interval></delay>'
    nodes = "".join(f"<{kind} id=\"{i}\">\n{text('name', name)}{delay if kind == 'transition' else ''}{place_at(x, y)}</{kind}>"
                    for kind, i, name, _, x, y in n.nodes())
    arcs = "".join(arc(k, s, t, weight_as("text", w)) for k, (s, t, w) in enumerate(n.arcs))
    return whole("http://www.laas.fr/tina/tpn", f'<page id="g-1">{nodes}{arcs}</page>', ISO + "pnml")


def prom(n):
    """As ProM and pm4py: ids of their own, one page without a name, kinds of arcs, final markings."""
    nodes = "".join(f"<{kind} id=\"{i}\">{text('name', name)}{tool('ProM')}</{kind}>\n" for kind, i, name, *_ in n.nodes())
    arcs = "".join(arc(k, s, t, text("name", str(w)) + weight_as("text", w) + text("arctype", "normal")) for k, (s, t, w) in enumerate(n.arcs))
    last = '<finalmarkings><marking><place idref="p0"><text>1</text></place></marking></finalmarkings>'
    return whole(ISO + "pnmlcoremodel", f'<page id="n0"><name><text/></name>{nodes}{arcs}</page>{last}')


def utf16(n):
    return whole(ISO + "ptnet", plain(n), head='<?xml version="1.0" encoding="UTF-16"?>', encoding="utf-16")


def big_endian(n):
    """UTF-16 that begins with no mark."""
    return whole(ISO + "ptnet", plain(n), head='<?xml version="1.0" encoding="UTF-16"?>', encoding="utf-16-be")


def latin1(n):
    return whole("PTNet", plain(n).replace("–", "&#8211;"), head="<?xml version='1.0' encoding='ISO-8859-1'?>", encoding="iso-8859-1")


def windows(n):
    return b"\xef\xbb\xbf" + whole(ISO + "ptnet", plain(n)).replace(b"\n", b"\r\n")


def prefixed(n):
    """Every element with a prefix, names in CDATA, numbers in comments."""
    inside = "".join(f'<p:{kind} id="{i}"><p:name><p:text><![CDATA[{name}]]></p:text></p:name></p:{kind}>' for kind, i, name, *_ in n.nodes())
    inside += "".join(f'<p:arc id="a{k}" source="{s}" target="{t}"><p:inscription><p:text> {w}<!-- 7 --> </p:text></p:inscription></p:arc>'
                      for k, (s, t, w) in enumerate(n.arcs))
    return f'<p:pnml xmlns:p="{ISO}pnml"><p:net id="n" type="{ISO}ptnet"><p:page id="top">{inside}</p:page></p:net></p:pnml>'.encode()


STYLES = [iso, nested, woped, pipe, tapaal, yasper, tina, prom, utf16, big_endian, latin1, windows, prefixed]


def main():
    folder, show, count = sys.argv[1], sys.argv[2], int(sys.argv[3]) if len(sys.argv) > 3 else 12
    r, tried = random.Random(35), 0
    for k in range(count):
        net = Net(r, r.randint(8, 32))
        for style in STYLES:
            path = f"{folder}/{k:02}-{style.__name__}.pnml"
            with open(path, "wb") as file:
                file.write(style(net))
            done = subprocess.run([show, path], capture_output=True, timeout=20)
            assert done.returncode == 0 and shown(done.stdout.decode()) == net.read(), (path, done.stdout.decode(), done.stderr, net.read())
            tried += 1
    print(f"{tried} nets of {count} offices, as {len(STYLES)} editors save them, read as they were drawn")


main()
