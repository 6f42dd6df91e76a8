#!/usr/bin/env python3
"""Prints, as JSON, what the reference says of the generators that no stored output has: plain ones, and broken ones with the sets of k nodes that do
not fix the message, found by going through all of them.
"""
import json
import os
import sys
from itertools import combinations

sys.path.insert(0, os.path.join(os.path.dirname(os.path.abspath(__file__)), "..", "reference"))
from balanced import build_plan, null_vector  # noqa: E402
from compare import plain_generator  # noqa: E402

RECORDS = ([1, 7, 3, 6, 4], [1, 7, 3, 6, 3], [1, 7, 3, 6, 5], [1, 7, 3, 6, 6], [1, 7, 3, 6, 1], [1, 11, 3, 5, 3], [1, 31, 3, 30, 7], [1, 251, 20, 5, 2], [2, 11, 15, 10])


def plan_of(record):
    return build_plan(record)[1]


def turned(word, shift):
    return [word[(j + shift) % len(word)] for j in range(len(word))]


def failing(field, rows):
    """The sets of k nodes for which some message other than zero is zero."""
    k, n = len(rows), len(rows[0])
    return [list(nodes) for nodes in combinations(range(n), k) if null_vector(field, [[row[j] for row in rows] for j in nodes], k)]


def mistyped(plan, row, node, value):
    rows = [list(entries) for entries in plan.entries]
    rows[row][node] = value
    return rows


def broken():
    """Shifts of all kinds, every value of a mistyped entry, and a root of smaller order."""
    first, second, byte = plan_of([1, 7, 3, 6, 4]), plan_of([1, 7, 3, 6, 3]), plan_of([2, 214, 3, 2])
    for shifts in ([0, 0, 3, 4], [0, 1, 3, 4], [0, 5, 3, 2], [0, 2, 3, 5], [4, 1, 4, 1]):
        yield 7, [turned(first.entries[0], shift) for shift in shifts]
    for value in range(7):
        yield 7, mistyped(second, 0, 0, value)
    yield 7, [[pow(2, j * r, 7) for j in range(6)] for r in range(3)]
    yield 0, mistyped(byte, 1, 2, 7)


def main():
    plain = [{"record": record, "rows": [list(row) for row in plain_generator(plan_of(record))]} for record in RECORDS]
    fields = {7: plan_of([1, 7, 3, 6, 4]).field, 0: plan_of([2, 214, 3, 2]).field}
    found = [{"p": p, "rows": rows, "failing": failing(fields[p], rows)} for p, rows in broken()]
    print(json.dumps({"plain": plain, "broken": found}))


if __name__ == "__main__":
    main()
