#!/usr/bin/env python3
"""Prints histories of rosters, in the words of cases.py: events that are mostly accepted, and after each the query and some jobs.

The data are pseudo-random and the same at each run.
"""
from balanced import read
from data import fill

EVENTS = 24


def histories():
    for seed, record in enumerate(([1, 7, 3, 6, 3], [1, 3, 2, 2, 1], [1, 5, 2, 4, 4], [1, 13, 2, 12, 4], [2, 11, 15, 6])):
        n, k = read(record)[2:]
        words = " ".join(map(str, record))
        yield f"# A history of the record {words}."
        yield f"roster {words}"
        nodes, kinds = fill(seed + 1, n + 1, EVENTS), fill(seed + 50, 3, EVENTS)
        for node, kind in zip(nodes, kinds):
            yield f"{'rejoin' if kind == 0 else 'leave'} {words} node {node}"
            yield f"lowest {words} room {k}"
            for _ in range(node % 4):
                yield f"job {words} room {k}"


print("\n".join(histories()))
