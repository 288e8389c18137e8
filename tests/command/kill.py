#!/usr/bin/env python3
"""Kills a run that is kept in a file, by SIGKILL, and begins it again, until it ends by itself: its list must be that of a run which nobody killed. This is done
again and again until there were so many kills, half of them at random moments and half as soon as the file beside the kept one, which takes its place once it
is written, has bytes: where it is left behind, the kill came in the middle of a write. At each kill the work since the run was kept last is lost, which is never
more than a minute.

  tests/command/kill.py PROGRAM MAP KILLS [WORD ..]     WORDs go before MAP"""
import os
import pathlib
import random
import subprocess
import sys
import tempfile
import time


def lost(begun, kept):
    """The seconds that a kill now costs: since the file was written, or since the run began where that was later."""
    try:
        return time.time() - max(begun, os.stat(kept).st_mtime)
    except FileNotFoundError:
        return time.time() - begun


def begun_to_write(temporary):
    try:
        return os.stat(temporary).st_size > 0
    except FileNotFoundError:
        return False


def ended_by_itself(process, temporary, seconds, in_a_write):
    """Whether the process ended within so many seconds, and before a write where it is to be killed in one."""
    until = time.time() + seconds
    while process.poll() is None:
        if time.time() > until or (in_a_write and begun_to_write(temporary)):
            return False
        time.sleep(0.0005)
    return True


def main():
    program, path, kills, words = os.path.abspath(sys.argv[1]), sys.argv[2], int(sys.argv[3]), sys.argv[4:]
    command = [program, "loops", "--format", "matrix", *words]
    want = subprocess.run(command + [path], capture_output=True, check=True).stdout
    r, killed, ended, written, most = random.Random(7), 0, 0, 0, 0
    with tempfile.TemporaryDirectory() as tmp:
        kept, temporary, printed = (os.path.join(tmp, name) for name in ("kept", "kept.new", "printed"))
        while killed < kills or ended == 0:
            pathlib.Path(temporary).unlink(missing_ok=True)  # so that the next one is seen as it comes
            begun, in_a_write = time.time(), killed % 2 == 1
            seconds = (5 if in_a_write else r.uniform(0, 0.8)) if killed < kills else 600
            with open(printed, "wb") as out:
                process = subprocess.Popen(command + ["--checkpoint", kept, path], stdout=out, stderr=subprocess.DEVNULL)
            if ended_by_itself(process, temporary, seconds, in_a_write and killed < kills):
                assert process.returncode == 0 and open(printed, "rb").read() == want, process.returncode
                assert not os.path.exists(kept), "a run that has ended is not kept"
                ended += 1
            else:
                most = max(most, lost(begun, kept))
                process.kill()
                process.wait()
                killed, written = killed + 1, written + begun_to_write(temporary)
    assert most < 60, f"{most} s of work lost"
    assert written > 0 or kills < 10, "no kill came in the middle of a write"
    loops = len(want.splitlines()) - 1
    print(f"killed {killed} times, {written} of them in a write; ended {ended} times with the same list of {loops} loops; at most {most:.1f} s of work lost")


main()
