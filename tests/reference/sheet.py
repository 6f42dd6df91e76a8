#!/usr/bin/env python3
"""sheet.py RECORD..: prints the plan sheet of each record, in the order given.

A record is one argument, its bytes in base ten parted by spaces ("1 7 3 6 4"; "" is the empty record).
"""
import sys
from balanced import build_plan


def sheet(record):
    number, plan = build_plan(record)
    if number:
        return [f"refused {number}"]
    reads = [plan.low] if plan.low == plan.high else [plan.low, plan.high]
    lines = [" ".join(map(str, ["plan", plan.n, plan.k, plan.d, *reads]))]
    for r, (shift, first, entries) in enumerate(zip(plan.shifts, plan.firsts, plan.entries)):
        lines.append(" ".join(map(str, ["row", r, shift, first, *entries])))
    return lines


if __name__ == "__main__":
    for argument in sys.argv[1:]:
        print("\n".join(sheet([int(b) for b in argument.split()])))
