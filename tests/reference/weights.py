#!/usr/bin/env python3
"""weights.py RECORD..: prints the weight distribution of each record, in the order given.

A record is one argument, as for sheet.py. There is a line `w count` for each w from 0 to n.
"""
import sys
from balanced import build_plan, weights


def distribution(record):
    number, plan = build_plan(record)
    number, counts = (number, None) if number else weights(record, plan.n + 1)
    return [f"refused {number}"] if number else [f"{w} {count}" for w, count in enumerate(counts)]


if __name__ == "__main__":
    for argument in sys.argv[1:]:
        print("\n".join(distribution([int(b) for b in argument.split()])))
