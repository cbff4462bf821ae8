#!/usr/bin/env python3
"""Turns the names of goals and of steps in the answers of proofs/ to the toolchain's newer spelling.

usage: python3 tools/goalnames.py NAME..      at the top: the crates NAME

A name of the source keeps its underscores, and words of the toolchain's own are in snake case. Other lines stay as they are.
"""

import glob
import os
import re
import sys

OWN = [
    "in-err", "in-ok", "in-default", "overflow-add", "overflow-sub", "overflow-mul", "overflow-cast", "overflow-step", "invariant-of",
    "nonzero-div", "nonzero-rem", "slice-bounds", "offset-bounds",
]
WORD = re.compile(r"[^\s(){}\[\].,;:|«»\"`]+")


def sourced(crate):
    words = set()
    for path in glob.glob(f"crates/{crate}/src/**/*.rt", recursive=True):
        with open(path, encoding="utf-8") as f:
            words |= set(re.findall(r"\b[A-Za-z]\w*_\w+", f.read()))
    return sorted(words, key=len, reverse=True)


def turned(word, names):
    if "-" not in word:
        return word
    for name in names:
        dashed = name.replace("_", "-")
        word = re.sub(rf"(?<![^-]){re.escape(dashed)}(?![^-\d])", name, word)
    for name in OWN:
        capital = name[0].upper() + name[1:]
        for dashed in (name, capital):
            word = re.sub(rf"(?<![^-]){dashed}(?![^-])", dashed.replace("-", "_"), word)
    return word


def main():
    for crate in sys.argv[1:]:
        names = sourced(crate)
        for path in glob.glob(f"crates/{crate}/proofs/**/*.antt", recursive=True):
            if os.path.basename(path) not in ("Answers.antt", "Invariants.antt"):
                continue
            with open(path, encoding="utf-8") as f:
                old = f.read()
            new = WORD.sub(lambda m: turned(m.group(), names), old)
            if new != old:
                with open(path, "w", encoding="utf-8") as f:
                    f.write(new)


main()
