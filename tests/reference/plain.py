#!/usr/bin/env python3
"""plain.py RECORD..: prints the plain layout of each record's code, in the order given.

A record is one argument, as for sheet.py. A line for each node has its entries, one for each symbol of the message.
"""
import sys
from balanced import build_plan
from compare import plain_generator


def plain(record):
    number, plan = build_plan(record)
    if number:
        return [f"refused {number}"]
    lines = [f"plain {plan.n} {plan.k}"]
    for node, entries in enumerate(zip(*plain_generator(plan))):
        lines.append(" ".join(map(str, ["node", node, *entries])))
    return lines


if __name__ == "__main__":
    for argument in sys.argv[1:]:
        print("\n".join(plain([int(b) for b in argument.split()])))
