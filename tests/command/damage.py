#!/usr/bin/env python3
"""Gives the command damaged files: of each format, copies of a good file in which bytes, lines or numbers were changed, lost, doubled or added. No run may
crash or hang; each that is not complete says a sentence; list files and kept runs that are not as they were written are refused. A kept run is also damaged so
that its check sum is right all the same: it may be taken or refused, and does no harm.

  tests/command/damage.py PROGRAM MAP [COUNT]     COUNT damaged files of each format, 100 if not given; MAP is one that takes long"""
import glob
import os
import random
import re
import signal
import struct
import subprocess
import sys
import tempfile
import time

HERE = os.path.dirname(os.path.abspath(__file__))
ROOT = os.path.dirname(os.path.dirname(HERE))
SECONDS = 20
SENTENCE = re.compile(r"^dezgula: \S.*\S \S.*$", re.M)


def flip(r, b):
    at = r.randrange(len(b))
    return b[:at] + bytes([b[at] ^ 1 << r.randrange(8)]) + b[at + 1:]


def cut(r, b):
    return b[:r.randrange(len(b))]


def lose(r, b):
    at, n = r.randrange(len(b)), r.choice([1, 1, 2, 8, 64])
    return b[:at] + b[at + n:]


def add(r, b):
    at = r.randrange(len(b) + 1)
    junk = r.choice([b"\0", b"-", b" ", b"\n", b"9" * 40, b"<", b"&x;", b"]]>", b"\xff\xfe", b"\xe2\x88\x92", b"(" * 50, b"=",
                     b"<!DOCTYPE a [<!ENTITY x 'y'>]>", bytes(r.randrange(256) for _ in range(8))])
    return b[:at] + junk + b[at:]


def double(r, b):
    at, n = r.randrange(len(b)), r.choice([1, 16, 256])
    return b[:at] + b[at:at + n] * r.choice([2, 3, 20]) + b[at + n:]


def lines(r, b):
    parts = b.split(b"\n")
    i, k = r.randrange(len(parts)), r.randrange(len(parts))
    parts[i], parts[k] = parts[k], parts[i]
    if r.random() < 0.5:
        del parts[r.randrange(len(parts))]
    return b"\n".join(parts)


def number(r, b):
    found = list(re.finditer(rb"\d+", b))
    if not found:
        return flip(r, b)
    m = r.choice(found)
    return b[:m.start()] + r.choice([b"0", b"33", b"10001", b"99999999999999999999", b"-1", b"1e9", b"0x10", b""]) + b[m.end():]


HARMS = [flip, cut, lose, add, double, lines, number]


def damaged(r, good):
    bad = good
    for _ in range(r.choice([1, 1, 1, 2, 5])):
        if bad:
            bad = r.choice(HARMS)(r, bad)
    return bad


def crc64(b):
    """The check sum of a kept run."""
    table = []
    for k in range(256):
        for _ in range(8):
            k = k >> 1 ^ (0xC96C5795D7870F42 if k & 1 else 0)
        table.append(k)
    crc = 2**64 - 1
    for byte in b:
        crc = table[(crc ^ byte) & 255] ^ crc >> 8
    return crc ^ 2**64 - 1


def resealed(r, good):
    """Words of the state changed, in its first part more often, and the sum made anew."""
    body = bytearray(good[:-8])
    for _ in range(r.choice([1, 1, 2, 5])):
        at = 4 * r.randrange(min(len(body), r.choice([400, 4000, len(body)])) // 4)
        body[at:at + 4] = struct.pack("<I", r.choice([0, 1, 7, 31, 32, 33, 1000, 2**31, 2**32 - 1, r.randrange(2**32)]))
    return bytes(body) + struct.pack("<Q", crc64(body))


def try_one(program, words, bad, good, must_refuse, what, seconds=SECONDS):
    process = subprocess.Popen([program] + words, stdin=subprocess.DEVNULL, stdout=subprocess.PIPE, stderr=subprocess.PIPE)
    try:
        out, err = process.communicate(timeout=seconds)
    except subprocess.TimeoutExpired:
        # a damaged map can be a hard one: then an interrupt ends it in order
        process.terminate()
        out, err = process.communicate(timeout=SECONDS)
        assert process.returncode == 3, (what, process.returncode)
    status, said = process.returncode, err.decode("utf-8", "replace")
    assert status in (0, 1, 2, 3), (what, words, status, said)
    assert "Sanitizer" not in said and "runtime error" not in said, (what, words, said)
    assert status == 0 or SENTENCE.search(said), (what, words, status, said)
    assert not must_refuse or bad == good or status == 1, (what, words, status, said)
    return status


def kept_by_engine(program, path, kept):
    """The run of a map that takes long, kept when it is interrupted."""
    process = subprocess.Popen([program, "loops", "--checkpoint", kept, path], stdout=subprocess.DEVNULL, stderr=subprocess.DEVNULL)
    time.sleep(0.3)
    process.send_signal(signal.SIGINT)
    assert process.wait(timeout=SECONDS) == 3


def samples(program, long, tmp):
    """Of each format: its name, good files, the words of a run, and whether every change has to be refused."""
    kept = os.path.join(tmp, "kept")
    saved = os.path.join(tmp, "saved")
    subprocess.run([program, "save", os.path.join(ROOT, "maps", "review.map"), saved], check=True)
    subprocess.run([program, "loops", "--walk", "--steps", "1000", "--checkpoint", kept, os.path.join(ROOT, "maps", "pauses.map")],
                   stdout=subprocess.DEVNULL, stderr=subprocess.DEVNULL)
    maps = sorted(glob.glob(os.path.join(ROOT, "maps", "*.map")))
    typed = sorted(glob.glob(os.path.join(ROOT, "maps", "*.eqs")))
    nets = sorted(glob.glob(os.path.join(ROOT, "nets", "*.pnml")) + glob.glob(os.path.join(ROOT, "tests", "nets", "**", "*.pnml"), recursive=True))
    walk = ["loops", "--walk", "--steps", "1000", "--checkpoint", "FILE", os.path.join(ROOT, "maps", "pauses.map")]
    yield "map", maps, ["loops", "FILE"], False
    yield "several maps", [os.path.join(ROOT, "tests", "several.in")], ["several", "FILE"], False
    yield "typed equations", typed, ["loops", "FILE"], False
    if nets and os.environ.get("NETS") != "0":
        yield "net", nets, ["loops", "FILE"], False
    yield "list file", [saved], ["show", "FILE"], True
    yield "kept run of the walk", [kept], walk, True
    kept_by_engine(program, long, kept + ".engine")
    yield "kept run of the engine", [kept + ".engine"], ["loops", "--checkpoint", "FILE", long], True
    yield "deliveries", [os.path.join(HERE, "deliver.txt")], ["loops", "--deliver", "FILE", os.path.join(ROOT, "maps", "review.map")], False


def try_resealed(program, long, tmp, r, count):
    """Kept runs whose sum is right."""
    path, statuses = os.path.join(tmp, "bad"), [0, 0, 0, 0]
    for n in range(count):
        kept, words = ("kept", ["--walk", "--steps", "1000"]) if n % 2 else ("kept.engine", [])
        with open(os.path.join(tmp, kept), "rb") as file:
            good = file.read()
        bad = resealed(r, good)
        with open(path, "wb") as file:
            file.write(bad)
        words = ["loops", *words, "--checkpoint", path, long if n % 2 == 0 else os.path.join(ROOT, "maps", "pauses.map")]
        statuses[try_one(program, words, bad, good, False, f"resealed {n}", 0.5)] += 1
    print(f"damaged, kept runs with a check sum that is right: {statuses[1]} refused, {statuses[0] + statuses[3]} taken")


def main():
    program, long, count = os.path.abspath(sys.argv[1]), sys.argv[2], int(sys.argv[3]) if len(sys.argv) > 3 else 100
    r = random.Random(35)
    with tempfile.TemporaryDirectory() as tmp:
        for what, files, words, must_refuse in samples(program, long, tmp):
            statuses = [0, 0, 0, 0]
            for n in range(count):
                with open(files[n % len(files)], "rb") as file:
                    good = file.read()
                bad, path = damaged(r, good), os.path.join(tmp, "bad")
                with open(path, "wb") as file:
                    file.write(bad)
                statuses[try_one(program, [path if w == "FILE" else w for w in words], bad, good, must_refuse, f"{what} {n}: {bad[:200]!r}")] += 1
            print(f"damaged, {what}: {statuses[0]} read all the same, {statuses[1]} refused, {statuses[2]} not read, {statuses[3]} cut short")
        try_resealed(program, long, tmp, r, count)


main()
