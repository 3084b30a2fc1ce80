#!/usr/bin/env python3
"""Spells the repository's own definitions and lemmas as today's Rattle does: words in snake case, types and modules in camel case.

usage: python3 tools/port/respell.py        at the top, once, on the tree that port.py leaves

A name that begins with a small letter and has a capital in it, as readMbi, gets underscores, as read_mbi. Names of Rattle source have no such
form, so functions, fields and C names keep theirs. Four names would fall together with such a one in their file and make way first.
"""

import re
import subprocess

# file, the name that makes way, its new name
MADE_WAY = [
    ("crates/quantize/proofs/MachineSteps.antt", "byte_step", "byte_step-is"),
    ("crates/header/proofs/read/parse_after_fix/Proof.antt", "fields_read", "fields_read-is"),
    ("crates/rules/proofs/PlaneWritten.antt", "masked_row", "masked_row-is"),
    ("crates/rules/proofs/plane/wide_rows/Proof.antt", "masked_row", "masked_row-is"),
    ("crates/replay/proofs/RunPlace.antt", "room_in", "room_on"),
]
WORD = re.compile(r"(?<![\w.'-])[a-z]\w*|(?<=[.'-])[a-z]\w*")
CAMEL = re.compile(r"(?<=[a-z0-9])([A-Z])")


def spelled(match):
    return CAMEL.sub(lambda m: "_" + m.group(1).lower(), match.group(0))


def rewrite(path, change):
    with open(path, encoding="utf-8") as f:
        old = f.read()
    new = change(old)
    if new != old:
        with open(path, "w", encoding="utf-8") as f:
            f.write(new)


def listed(*patterns):
    out = subprocess.run(["git", "ls-files", "--", *patterns], capture_output=True, text=True, check=True).stdout
    return out.splitlines()


def main():
    for path, old, new in MADE_WAY:
        rewrite(path, lambda text: re.sub(rf"(?<![\w'-]){old}(?![\w'-])", new, text))
    names = set()
    for path in listed("crates/*.antt"):
        with open(path, encoding="utf-8") as f:
            names |= {w for w in WORD.findall(f.read()) if CAMEL.search(w) and "_" not in w}
    word = re.compile(r"(?<![\w])(?:" + "|".join(sorted(names, key=len, reverse=True)) + r")(?!\w)")
    for path in listed("crates/*.antt", "crates/*.rt", "crates/*.edit", "README.md", "docs/*.md"):
        rewrite(path, lambda text: word.sub(spelled, text))
    print(len(names), "names")


if __name__ == "__main__":
    main()
