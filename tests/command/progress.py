#!/usr/bin/env python3
"""What a run tells of itself while it works: on a terminal one line that is written anew, and wiped at the end; else a line every ten seconds. And what is for a
browser or a program is not sent to a terminal.

  tests/command/progress.py PROGRAM MAP     MAP takes more than ten seconds"""
import os
import pty
import re
import select
import signal
import subprocess
import sys
import time

LINE = rb"(desk \d+ of \d+, )?(equation \d+ of \d+|\d+ steps), \d+ rows, \d+ s"


def on_terminal(words, seconds):
    """Runs words with standard error on a terminal, interrupted after so many seconds; gives the status, the output and what the terminal got."""
    own, theirs = pty.openpty()
    process = subprocess.Popen(words, stdin=subprocess.DEVNULL, stdout=subprocess.PIPE, stderr=theirs)
    os.close(theirs)
    got, until, interrupted = b"", time.monotonic() + seconds, False
    while True:
        if select.select([own], [], [], 0.1)[0]:
            try:
                got += os.read(own, 65536)
            except OSError:
                break
        elif process.poll() is not None:
            break
        if not interrupted and time.monotonic() > until:
            process.send_signal(signal.SIGINT)
            interrupted = True
    out = process.stdout.read()
    os.close(own)
    return process.wait(), out, got


def try_terminal(words):
    status, out, got = on_terminal(words, 2.5)
    shown = re.findall(rb"\r(" + LINE + rb")\x1b\[K", got)
    assert status == 3 and len(shown) >= 5, (words, status, got)
    assert b"\n" not in got[:got.index(b"\r\x1b[K")], "one line, until it is wiped"
    assert re.search(rb"\r\x1b\[Kdezgula: [^\r]*not complete: interrupted", got), got
    assert b"\r" not in out and b"NOT complete" in out, out


def try_pipe(words):
    start = time.monotonic()
    process = subprocess.Popen(words, stdin=subprocess.DEVNULL, stdout=subprocess.PIPE, stderr=subprocess.PIPE)
    told = process.stderr.readline()
    took = time.monotonic() - start
    process.send_signal(signal.SIGINT)
    out, err = process.communicate(timeout=20)
    assert re.fullmatch(rb"dezgula: " + LINE + rb"\n", told) and 9 < took < 14, (told, took)
    assert process.returncode == 3 and b"interrupted" in err and b"\r" not in err, (process.returncode, err)


def try_refused(program, words):
    """The page, a picture and a list file do not go to a terminal."""
    own, theirs = pty.openpty()
    done = subprocess.run([program, *words], stdin=subprocess.DEVNULL, stdout=theirs, stderr=subprocess.PIPE, timeout=20)
    os.close(theirs)
    os.close(own)
    assert done.returncode == 2 and b"standard output is a terminal; send the" in done.stderr, (words, done)


def main():
    program, path = os.path.abspath(sys.argv[1]), sys.argv[2]
    try_terminal([program, "loops", path])
    try_pipe([program, "loops", path])
    for words in (["report", path], ["loops", "--format", "html", path], ["picture", path], ["save", path], ["show", "--format", "html", path]):
        try_refused(program, words)
    print("progress on a terminal and else")


main()
