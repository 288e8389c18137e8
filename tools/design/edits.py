#!/usr/bin/env python3
"""Lists the must-fail edits whose text differs between two trees, as docs/DESIGN-PASS.md has them: what each put in the place of what, then and now.

usage: tools/design/edits.py OLD NEW        folders with crates/
"""
import glob
import os
import re
import sys
import textwrap


def pairs(path):
    with open(path, encoding="utf-8") as file:
        text = file.read()
    olds, news = re.findall(r"(?m)^old: *(.*)$", text), re.findall(r"(?m)^new: *(.*)$", text)
    return " and ".join(f"`{before.strip()}` → `{after.strip()}`" for before, after in zip(olds, news))


def main(old, new):
    for path in sorted(glob.glob(f"{old}/crates/*/must-fail/*.edit")):
        crate, name = path.split("/")[-3], os.path.basename(path)[:-5]
        now = f"{new}/crates/{crate}/must-fail/{name}.edit"
        if not os.path.exists(now):
            print(f"- {crate}/{name}: GONE")
        elif pairs(path) != pairs(now):
            text = f"- {crate}/{name}: {pairs(path)}; now {pairs(now)}"
            print(textwrap.fill(text, 156, subsequent_indent="  ", break_long_words=False, break_on_hyphens=False))
    for path in sorted(glob.glob(f"{new}/crates/*/must-fail/*.edit")):
        if not os.path.exists(path.replace(new, old, 1)):
            print(f"- {path.split('/')[-3]}/{os.path.basename(path)[:-5]}: new: {pairs(path)}")


main(*sys.argv[1:3])
