#!/usr/bin/env python3
"""Prints what tests/large_changes.c must: one symbol of large blocks changes in every lane, and in a run of lanes.

What a node adds is what its share of the changed message is more than the one before; so is what Update writes.
"""
from balanced import encode, plan_of, read, shares_of
from data import LARGE_BLOCKS, checksum, fill
from differences import difference, differences


def encoded(record, plan, lanes, message):
    """(number, the shares)"""
    return encode(record, lanes, plan.bytes(message), plan.size(plan.n * lanes))


def with_row(message, at, row):
    return [*message[:at], *row, *message[at + len(row):]]


def print_run(plan, first, old, new, after):
    altered = (plan.n - plan.k + 1) * sum(x != y for x, y in zip(old, new))
    print(f"lanes {first} and {len(new) - 1} more: altered {altered}, sum {checksum(after)}")


def changed_row(record, plan, lanes, message, shares, symbol, up):
    """(message, shares) where a row has moved up in every lane"""
    row = message[symbol * lanes:(symbol + 1) * lanes]
    moved = [(x + up) % plan.field.size for x in row]
    number, added = differences(record, lanes, symbol, plan.bytes(row), plan.bytes(moved), plan.size(plan.n * lanes))
    if number:
        print(f"row {symbol} by {up}: refused {number} and {number}")
        print(f"lanes 0 and {lanes - 1} more: refused {number}")
        return message, shares
    message = with_row(message, symbol * lanes, moved)
    after = encoded(record, plan, lanes, message)[1]
    by_node = [[plan.bytes(share) for share in shares_of(plan, each, plan.n)] for each in (shares, after)]
    more = [plan.bytes(difference(plan, plan.symbols(x), plan.symbols(y))) for x, y in zip(*by_node)]
    assert b"".join(more) == added
    print(f"row {symbol} by {up}: differences sum {checksum(added)}, added sum {checksum(b''.join(by_node[1]))}")
    print_run(plan, 0, row, moved, after)
    return message, after


def changed_run(record, plan, lanes, message, symbol, first, run):
    old, new = message[symbol * lanes + first:symbol * lanes + first + run], [t % 2 for t in range(first, first + run)]
    number, after = encoded(record, plan, lanes, with_row(message, symbol * lanes + first, new))
    if number:
        print(f"lanes {first} and {run - 1} more: refused {number}")
    else:
        print_run(plan, first, old, new, after)


def block(record, lanes):
    plan = plan_of(*read(record))
    message = fill(1, plan.field.size, plan.k * lanes)
    print("block", *record, "lanes", lanes, "message sum", checksum(plan.bytes(message)))
    shares = encoded(record, plan, lanes, message)[1]
    for symbol, up in ((0, 1), (plan.k - 1, 3)):
        message, shares = changed_row(record, plan, lanes, message, shares, symbol, up)
    changed_run(record, plan, lanes, message, plan.k // 2, lanes // 3, lanes // 3 + 1)


for record, lanes in LARGE_BLOCKS:
    block(record, lanes)
