#!/usr/bin/env python3
"""Prints calls over every accepted record of some small fields, in the words of cases.py.

For each record a message is encoded, one symbol updated, the update found again from the lane before and after it and not found where a node
is changed besides, the single changes listed that mend the lane as it is, with that node changed and with a second,
the result tested as it is and with one symbol changed, the new message recovered from k nodes in some order, and a node
rebuilt from them; where k = n, the shares are rearranged both ways. Last the block is set right with as many wrong
symbols in a lane as can be borne, and with one more. The data are pseudo-random and the same at each run.
"""
from balanced import encode, listed_shares, plan_of, read, to_nodes, update
from data import fill

LANES = 2


def accepted(record):
    return not isinstance(read(record), int)


def records():
    """Every accepted record with n up to 12 over some fields, with the smallest root of its order."""
    for start in ([1, 3], [1, 5], [1, 7], [1, 11], [1, 13], [2]):
        for n in range(2, 13):
            roots = [a for a in range(256) if accepted([*start, a, n, 1])]
            yield from ([*start, a, n, k] for a in roots[:1] for k in range(1, n + 1))


def wide_records():
    """Every k over 257 and 65,521 elements, for some n and the smallest root of that order."""
    for start in ([3, 1, 1, 1, 0, 2], [3, 1, 1, 0, 16, 4], [3, 1, 1, 0, 4, 8], [3, 255, 241, 65, 33, 3]):
        yield from ([*start, k] for k in range(1, start[-1] + 1))


def words(name, record, **arguments):
    line = [name, *record]
    for word, numbers in arguments.items():
        line += [word, *(numbers if isinstance(numbers, (bytes, list)) else [numbers])]
    return " ".join(map(str, line))


def mends(record, plan, lane):
    return words("mends", record, symbols=plan.bytes(lane)) + f" room {plan.n} room {plan.size(plan.n)}"


def lane_of(plan, shares, lane):
    return plan.symbols(shares)[lane * plan.n : (lane + 1) * plan.n]


def spoiled(plan, shares, start, first, wrong):
    """So many nodes in a row, from some node on and going round, hold other symbols in the lane that starts there."""
    damaged, size = list(plan.symbols(shares)), plan.field.size
    for i in range(wrong):
        at = start + (first + i) % plan.n
        damaged[at] = (damaged[at] + 1 + (first + i) % (size - 1)) % size
    return plan.bytes(damaged)


def calls(record, seed):
    plan = plan_of(*read(record))
    n, k, size = plan.n, plan.k, plan.field.size
    message_size, shares_size = plan.size(k * LANES), plan.size(n * LANES)
    draw = iter(fill(seed + 1, 256, 64))
    symbols = fill(seed, size, k * LANES)
    message = plan.bytes(symbols)
    _, shares = encode(record, LANES, message, shares_size)
    yield words("encode", record, lanes=LANES, message=message, room=shares_size)
    symbol, lane = next(draw) % k, next(draw) % LANES
    old, new = symbols[symbol * LANES + lane], next(draw) % size
    yield words("update", record, lanes=LANES, symbol=symbol, lane=lane, old=old, new=new, shares=shares)
    before = lane_of(plan, shares, lane)
    _, (_, shares) = update(record, LANES, symbol, lane, old, new, shares)
    after = lane_of(plan, shares, lane)
    yield words("find", record, before=plan.bytes(before), after=plan.bytes(after))
    changed, node = list(after), next(draw) % n
    changed[node] = (changed[node] + 1) % size
    yield words("find", record, before=plan.bytes(before), after=plan.bytes(changed))
    yield mends(record, plan, after)
    yield mends(record, plan, changed)
    node = (node + 1 + changed[node] % (n - 1)) % n
    changed[node] = (changed[node] + 1) % size
    yield mends(record, plan, changed)
    yield words("belongs", record, lanes=LANES, shares=shares)
    damaged, (node, lane) = list(plan.symbols(shares)), divmod(next(draw) % (n * LANES), LANES)
    at = lane * n + node
    damaged[at] = (damaged[at] + 1) % size
    yield words("belongs", record, lanes=LANES, shares=plan.bytes(damaged))
    nodes = sorted(range(n), key=lambda j: (next(draw), j))[:k]
    held = listed_shares(plan, shares, nodes)
    yield words("recover", record, lanes=LANES, nodes=nodes, shares=held, room=message_size)
    yield words("rebuild", record, lanes=LANES, nodes=nodes, shares=held, target=next(draw) % n, room=plan.size(LANES))
    if k == n:
        yield words("to_nodes", record, lanes=LANES, shares=shares, room=shares_size)
        _, by_node = to_nodes(record, LANES, shares, shares_size)
        yield words("to_lanes", record, lanes=LANES, shares=by_node, room=shares_size)
    for wrong in ((n - k) // 2, (n - k) // 2 + 1):
        yield words("correct", record, lanes=LANES, shares=spoiled(plan, shares, lane * n, next(draw), wrong))


def print_calls(records):
    for record in records:
        for line in calls(record, sum(b * 31**i for i, b in enumerate(record))):
            print(line)


print("# Every n up to 12 and every k, over the fields of 3, 5, 7, 11, 13 and 256 elements.")
print_calls(records())
print("# Some n and every k, over the fields of 257 and 65,521 elements.")
print_calls(wide_records())
