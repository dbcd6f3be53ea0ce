#!/usr/bin/env python3
"""Counts the ways down crates.txt, along each of which the toolchain sums up the texts below a library. They double with each crate that names all
crates below it, and eight million of them cost more than all proofs: a crate takes what is far down from one in between."""
import functools
import os
import sys

MOST = 270_000
HERE = os.path.dirname(os.path.abspath(__file__))

needs = {}
with open(os.path.join(HERE, "..", "crates.txt"), encoding="utf-8") as lines:
    for line in lines:
        name, _, names = line.partition("#")[0].partition(":")
        if name.strip():
            needs[name.split()[0]] = names.split()


@functools.lru_cache(None)
def ways(name):
    return 1 + sum(ways(it) for it in needs[name] if it in needs)


found = sum(map(ways, needs))
print(f"{found} ways down crates.txt")
if found > MOST:
    sys.exit(f"there are to be at most {MOST}: docs/DECISIONS.md says why")
