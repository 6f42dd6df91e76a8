#!/usr/bin/env python3
"""Prints p, root, n and k of every accepted record of kind 1 with p up to 31, by p, then by the root, then by k.

Every byte is tried as the root and as n, with k = 1, which no n from 2 on turns away; where that is accepted, every byte is tried as k.
"""
from itertools import product
from balanced import read

BYTES = range(256)


def accepted(*record):
    return not isinstance(read(list(record)), int)


found = [(p, root, n, k) for p, root, n in product(range(32), BYTES, BYTES) if accepted(1, p, root, n, 1) for k in BYTES if accepted(1, p, root, n, k)]
for p, root, n, k in sorted(found, key=lambda line: (line[0], line[1], line[3])):
    print(p, root, n, k)
