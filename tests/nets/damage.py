#!/usr/bin/env python3
"""Damaged nets: damage.py FOLDER COUNT NET ..
Writes COUNT files into FOLDER, each one of the nets with one to four damages, drawn by a fixed seed: cut short, bytes changed, left out, doubled or exchanged,
a word put in, an attribute's value emptied, or a line dropped."""
import random
import re
import sys

WORDS = [b'<', b'>', b'/>', b'&', b'&#0;', b'&#xD800;', b'&a;', b'"', b"'", b'<![CDATA[', b']]>', b'<!--', b'-->', b'<?xml?>', b'\x00', b'\xff\xfe',
         b'\xef\xbb\xbf', b'\xc3', b'<!DOCTYPE a [<!ENTITY b "c">]>', b'<page id="q">', b'</page>', b'<place id="p1"/>', b'<net>', b'</net>',
         b'<arc source="a" target="a"/>', b'<toolspecific>', b'<text>', b'<inscription><text>99999999999999999999</text></inscription>',
         b'<referencePlace id="z" ref="z"/>', b' type="x"', b'999999999']


def cut(r, b):
    return b[:r.randrange(len(b) + 1)]


def change(r, b):
    b = bytearray(b)
    for _ in range(r.randrange(1, 8)):
        if b:
            b[r.randrange(len(b))] = r.randrange(256)
    return bytes(b)


def leave_out(r, b):
    i = r.randrange(len(b) + 1)
    return b[:i] + b[i + r.randrange(1, 200):]


def double(r, b):
    i = r.randrange(len(b) + 1)
    j = i + r.randrange(1, 400)
    return b[:j] + b[i:j] + b[j:]


def exchange(r, b):
    i, j = sorted((r.randrange(len(b) + 1), r.randrange(len(b) + 1)))
    k = min(r.randrange(1, 100), j - i)
    return b[:i] + b[j:j + k] + b[i + k:j] + b[i:i + k] + b[j + k:]


def put(r, b):
    i = r.randrange(len(b) + 1)
    return b[:i] + r.choice(WORDS) + b[i:]


def empty(r, b):
    found = list(re.finditer(rb'"[^"]*"', b))
    if not found:
        return b
    m = r.choice(found)
    return b[:m.start()] + b'""' + b[m.end():]


def drop_line(r, b):
    lines = b.split(b'\n')
    del lines[r.randrange(len(lines))]
    return b'\n'.join(lines)


def main():
    folder, count, nets = sys.argv[1], int(sys.argv[2]), [open(name, 'rb').read() for name in sys.argv[3:]]
    r = random.Random(35)
    for k in range(count):
        b = nets[k % len(nets)]
        for _ in range(r.randrange(1, 5)):
            b = r.choice([cut, change, leave_out, double, exchange, put, empty, drop_line])(r, b)
        with open(f'{folder}/{k:05}.pnml', 'wb') as file:
            file.write(b)


main()
