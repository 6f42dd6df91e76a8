#!/usr/bin/env python3
"""Prints what tests/large_listed.c must: large blocks of listed nodes, some of which are wrong. Lanes that are as they were encoded are not decoded."""
from balanced import encode, plan_of, read
from data import LARGE_BLOCKS, checksum, fill
from listed import near_word


def print_message(plan, lanes, nodes, message, right, held, most):
    """What the call gives for the symbols that are held, where `right` is what the nodes hold for the message."""
    s, words = len(nodes), f"from {len(nodes)} nodes, {most} wrong:"
    rows, counts = [message[r * lanes:(r + 1) * lanes] for r in range(plan.k)], [0] * s
    for t in (t for t in range(lanes) if held[t * s:(t + 1) * s] != right[t * s:(t + 1) * s]):
        lane = held[t * s:(t + 1) * s]
        found = near_word(plan, nodes, lane)
        if found is None:
            print(f"{words} refused 14, sum {checksum(bytes(plan.size(plan.k * lanes)))}")
            return
        for row, symbol in zip(rows, found[0]):
            row[t] = symbol
        counts = [count + (x != y) for count, x, y in zip(counts, found[1], lane)]
    places = "".join(f" {i}:{count}" for i, count in enumerate(counts) if count)
    print(f"{words} altered {sum(counts)}, sum {checksum(b''.join(map(plan.bytes, rows)))}, places{places}")


def block(record, lanes):
    plan = plan_of(*read(record))
    n, k, size = plan.n, plan.k, plan.field.size
    message = fill(1, size, k * lanes)
    print("block", *record, "lanes", lanes, "message sum", checksum(plan.bytes(message)))
    s = n - (n - k) // 3
    nodes, most = [n - 1 - i for i in range(s)], (s - k) // 2
    number, shares = encode(record, lanes, plan.bytes(message), plan.size(n * lanes))
    if number:
        for wrong in (0, most, most + 1):
            print(f"from {s} nodes, {wrong} wrong: refused {number}, sum {checksum(bytes(plan.size(k * lanes)))}")
        return
    symbols = plan.symbols(shares)
    right = [symbols[t * n + j] for t in range(lanes) for j in nodes]
    held, last = list(right), (lanes - 1) * s
    print_message(plan, lanes, nodes, message, right, held, 0)
    for at in [place for i in range(most) for place in (2 * i % s, last + (2 * i + 1) % s)]:
        held[at] = 0 if held[at] else 1
    print_message(plan, lanes, nodes, message, right, held, most)
    at = last + (2 * most + 1) % s
    held[at] = 0 if held[at] else 1
    print_message(plan, lanes, nodes, message, right, held, most + 1)


for record, lanes in LARGE_BLOCKS:
    block(record, lanes)
