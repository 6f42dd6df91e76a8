#!/usr/bin/env python3
"""Prints what tests/large_repairs.c must: one node of large blocks from a few bits of the others."""
from balanced import encode, plan_of, read
from data import LARGE_BLOCKS, checksum, fill
from traces import repair_bits, repair_plan, repair_share, senders


def print_repaired(record, plan, lanes, shares, target, count):
    missing = bytes((target + 3 + 2 * i) % plan.n for i in range(count))
    number, found = repair_plan(record, count)
    if number:
        print(f"node {target} without {count}: refused {number}")
        return
    size = found[0] * ((lanes + 7) // 8)
    rows = b"".join(repair_bits(record, lanes, j, target, missing, shares[j::plan.n], size)[1] for j in senders(plan, target, missing))
    share = repair_share(record, lanes, target, missing, rows, lanes)[1]
    assert share == shares[target::plan.n]
    print(f"node {target} without {count}: {found[0]} bits, {found[1]} spare, sent sum {checksum(rows)}, share sum {checksum(share)}")


def block(record, lanes):
    plan = plan_of(*read(record))
    message = fill(1, plan.field.size, plan.k * lanes)
    print("block", *record, "lanes", lanes, "message sum", checksum(plan.bytes(message)))
    # only bytes have such a repair
    shares = encode(record, lanes, plan.bytes(message), plan.n * lanes)[1] if record[0] == 2 else None
    for target, count in ((plan.n - 2, 0), (1, (plan.n - plan.k) // 20), (0, (plan.n - plan.k) // 3)):
        print_repaired(record, plan, lanes, shares, target, count)


for record, lanes in LARGE_BLOCKS:
    block(record, lanes)
