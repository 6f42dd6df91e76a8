#!/usr/bin/env python3
"""compare.py RECORD..: prints the comparison of the plain and the balanced layout of each record, in the order given.

A record is one argument, as for sheet.py. The figures of the layouts are counted in their generators: a changed symbol writes
the nodes where its row is not zero, and a node reads the symbols where its column is not zero. The last line, where k is below n, has
the bits that are moved for a symbol of a lost node.
"""
import sys
from balanced import build_plan, combine
from traces import bits


def plain_generator(plan):
    """Row r holds the values of the polynomial that is 1 at node r and 0 at the other nodes below k."""
    columns = [combine(plan.field, plan.monomials(j), plan.interpolation()) for j in range(plan.n)]
    return list(zip(*columns))


def counts(lines):
    """How many entries of each line are not zero."""
    return [sum(x != 0 for x in line) for line in lines]


def one(numbers):
    """The number that all are; where they differ, their range, which no program prints."""
    least, greatest = min(numbers), max(numbers)
    return f"{least}" if least == greatest else f"{least}..{greatest}"


def costs(name, generator):
    reads = counts(zip(*generator))
    return f"{name} writes {one(counts(generator))} reads {min(reads)} {max(reads)}"


def bound(n, k):
    """d = n - k + 1 writes, and k·d/n reads rounded up."""
    d = n - k + 1
    return f"bound writes {d} reads {-(-k * d // n)}"


def least_bits(d, k):
    """The fewest bits of d nodes that are worth 255·k, where bit c of a node, from 0 on, is worth 2^(7 - c)."""
    owed, total = 255 * k, 0
    for worth in (128, 64, 32, 16, 8, 4, 2, 1):
        taken = min(d, -(-owed // worth))
        owed, total = max(0, owed - taken * worth), total + taken
    return total


def rebuild(plan):
    """k whole symbols; by traces, where there is such a repair; the least, which is known of bytes."""
    if plan.k == plan.n:
        return []
    parts = [f"rebuild bits {(8 if plan.field.size <= 256 else 16) * plan.k}"]
    if bits(plan, 0):
        parts.append(f"traces {bits(plan, 0) * (plan.n - 1)}")
    if plan.field.size == 256:
        parts.append(f"least {least_bits(plan.n - 1, plan.k)}")
    return [" ".join(parts)]


def comparison(record):
    number, plan = build_plan(record)
    if number:
        return [f"refused {number}"]
    return [
        f"compare {plan.n} {plan.k}",
        costs("plain", plain_generator(plan)),
        costs("balanced", plan.entries),
        bound(plan.n, plan.k),
        *rebuild(plan),
    ]


if __name__ == "__main__":
    for argument in sys.argv[1:]:
        print("\n".join(comparison([int(b) for b in argument.split()])))
