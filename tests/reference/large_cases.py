#!/usr/bin/env python3
"""Prints what tests/large_cases.c must: which k are even with n = 255, and large blocks by checksums."""
from balanced import belongs, build_plan, correct, encode, listed_shares, plan_of, read, rebuild, recover, to_lanes, to_nodes, update
from data import LARGE_BLOCKS, checksum, fill, refused


def even():
    line = "even 2 2 255:"
    for k in range(1, 256):
        number, plan = build_plan([2, 2, 255, k])
        line += f" refused {number}" if number else f" k {plan.k} d {plan.d} b {plan.low}" if plan.low == plan.high else ""
    print(line)


# (symbol, lane, step), (first node, step) and (node, lane); lane -1 is the last, node -1 the first of the last k
CHANGES = ((0, 0, 1), (17, -1, 100), (9, 500, 7), (9, 500, 0))
LISTS = ((-1, 1), (0, 7))
DAMAGE = ((1, -1), (49, 500), (0, 17), (30, 800))


def print_belongs(record, lanes, shares):
    number, lane = belongs(record, lanes, shares)
    print("belongs:", f"refused {number}" if number else "yes" if lane is None else f"no, lane {lane}")


def print_restored(record, plan, lanes, shares):
    n, k = plan.n, plan.k
    for first, step in LISTS:
        first = n - k if first < 0 else first
        nodes = bytes((first + i * step) % n for i in range(k))
        held = listed_shares(plan, shares, nodes)
        one, message = recover(record, lanes, nodes, held, plan.size(k * lanes))
        two, share = rebuild(record, lanes, nodes, held, 0, plan.size(lanes))
        print(f"from node {first} by {step}:",
              f"refused {one}" if one else f"message sum {checksum(message)}",
              f"refused {two}" if two else f"node 0 sum {checksum(share)}")


def print_rearranged(record, lanes, shares):
    one, by_node = to_nodes(record, lanes, shares, len(shares))
    print("node after node:", refused(one) if one else f"done, sum {checksum(by_node)}")
    two, by_lane = to_lanes(record, lanes, shares if one else by_node, len(shares))
    print("lane after lane:", refused(two) if two else f"done, sum {checksum(by_lane)}")


def spoiled(plan, shares, *places):
    symbols = list(plan.symbols(shares))
    for at in places:
        symbols[at] = 0 if symbols[at] else 1
    return plan.bytes(symbols)


def spoiled_lane(plan, shares, wrong, lane):
    print(f"spoiled {wrong} nodes of lane {lane}")
    return spoiled(plan, shares, *range(lane * plan.n, lane * plan.n + wrong))


def print_corrected(record, plan, lanes, shares):
    most = (plan.n - plan.k) // 2
    for damage in [[], [(most, 0), (most, lanes // 2)], [(most, 0), (most + 1, lanes - 1)]]:
        for wrong, lane in damage:
            shares = spoiled_lane(plan, shares, wrong, lane)
        number, result = correct(record, lanes, shares)
        count, shares = (0, shares) if number else result
        print("correct:", refused(number) if number else f"altered {count}, sum {checksum(shares)}")


def block(record, lanes):
    """A block of pseudo-random symbols."""
    plan = plan_of(*read(record))
    n, k, size = plan.n, plan.k, plan.field.size
    message, shares_size = fill(1, size, k * lanes), plan.size(n * lanes)
    print("block", *record, "lanes", lanes, "message sum", checksum(plan.bytes(message)))
    number, encoded = encode(record, lanes, plan.bytes(message), shares_size)
    print("encode:", refused(number) if number else f"done, sum {checksum(encoded)}")
    shares = bytes(shares_size) if number else encoded
    print_belongs(record, lanes, shares)
    for symbol, lane, step in CHANGES:
        lane %= lanes
        at = symbol * lanes + lane
        old = message[at] if at < len(message) else 0
        new = (old + step) % size
        if at < len(message):
            message[at] = new
        number, result = update(record, lanes, symbol, lane, old, new, shares)
        count, shares = (0, shares) if number else result
        answer = refused(number) if number else f"altered {count}, sum {checksum(shares)}"
        print(f"update symbol {symbol} lane {lane} old {old} new {new}: {answer}")
    assert encode(record, lanes, plan.bytes(message), shares_size)[1] in (None, shares), "not the encoding of the changed message"
    print_belongs(record, lanes, shares)
    print_restored(record, plan, lanes, shares)
    print_rearranged(record, lanes, shares)
    for node, lane in DAMAGE:
        lane %= lanes
        at = lane * n + node
        if node < n:
            shares = spoiled(plan, shares, at)
        print(f"spoiled node {node} lane {lane}")
        print_belongs(record, lanes, shares)
    print_corrected(record, plan, lanes, shares)


even()
for record, lanes in LARGE_BLOCKS:
    block(record, lanes)
