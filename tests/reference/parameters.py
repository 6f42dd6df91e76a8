#!/usr/bin/env python3
"""Prints what tests/parameters.c must: each call of the C interface once, on arguments of its own, and that every two arguments of one type are told apart."""
import os
import re
from collections import Counter

from balanced import belongs, build_plan, correct, encode, find_update, rebuild, recover, single_mends, to_lanes, to_nodes, update, weights
from carry import carried_len, carry_change, carry_in, carry_out
from choose import choose
from differences import add_share, differences, update_lanes
from listed import correct_listed
from rearranged import listed_to_lanes, listed_to_nodes
from roster import History
from traces import repair_bits, repair_plan, repair_share

P, ROOT, N, K, LANES, SYMBOL, LANE, TARGET, NEW, WRONG, RUN = 271, 268, 15, 10, 6, 4, 2, 12, 200, 77, 3
RECORD = [3, P // 256, P % 256, ROOT // 256, ROOT % 256, N, K]
W = 2
HEADER = os.path.join(os.path.dirname(os.path.abspath(__file__)), "..", "..", "include", "balanced.h")
with open(HEADER, encoding="utf-8") as file:
    CALLS = dict(re.findall(r"^uint8_t balanced_(\w+)\(([^;]*)\);", file.read(), re.M))
FINDINGS = {"unchanged": (0, 0, 0), None: (2, 0, 0)}


def symbol(i):
    return (17 * i * i + 5 * i + 1) % P


def symbols(count):
    return b"".join(symbol(i).to_bytes(W, "big") for i in range(count))


def damaged(shares, place):
    return shares[:W * place] + WRONG.to_bytes(W, "big") + shares[W * (place + 1):]


def padded(numbers, size):
    return [*numbers, *[0] * (size - len(numbers))]


def show(name, number, *written):
    """A call of the header."""
    if name not in CALLS:
        return
    print(name, number)
    for what, numbers in written:
        print(" ", what, *numbers)


def show_plan():
    number, plan = build_plan(RECORD)
    base = [plan.base_polynomial(plan.powers[(j - plan.d) % N]) for j in range(N)]
    figures = [plan.n, plan.k, plan.d, plan.low, plan.high]
    show("plan", number, ("numbers", figures), ("shifts", padded(plan.shifts, 255)), ("firsts", padded(plan.firsts, 255)), ("base", padded(base, 255)))


def show_blocks():
    number, shares = encode(RECORD, LANES, symbols(K * LANES), W * N * LANES)
    show("encode", number, ("shares", shares))
    number, (count, after) = update(RECORD, LANES, SYMBOL, LANE, symbol(SYMBOL * LANES + LANE), NEW, shares)
    show("update", number, ("shares", after), ("altered", [count]))
    nodes = [(7 * i + 3) % N for i in range(K)]
    number, message = recover(RECORD, LANES, nodes, symbols(K * LANES), W * K * LANES)
    show("recover", number, ("message", message))
    number, share = rebuild(RECORD, LANES, nodes, symbols(K * LANES), TARGET, W * LANES)
    show("rebuild", number, ("share", share))
    wrong = damaged(shares, LANE * N + 3)
    show_repair()
    number, lane = belongs(RECORD, LANES, wrong)
    show("belongs", number, ("first_wrong", [LANES if lane is None else lane]))
    show_lanes(shares)
    number, (count, after) = correct(RECORD, LANES, wrong)
    show("correct", number, ("shares", after), ("altered", [count]))
    show_listed(shares)
    number, (nodes, new) = single_mends(RECORD, damaged(shares, 3)[:W * N], N, W * N)
    show("mends", number, ("nodes", padded(nodes, N)), ("symbols", padded(new, W * N)), ("count", [len(nodes)]))


def show_repair():
    record, missing, lanes, sent = [2, 32, 51, 18], [7, 44], 20, 12
    data = bytes((13 * i * i + 7 * i + 1) % 256 for i in range(48 * sent))
    number, (bits, spare) = repair_plan(record, len(missing))
    show("repair_plan", number, ("bits", [bits]), ("spare", [spare]))
    number, row = repair_bits(record, lanes, 5, TARGET, missing, data[:lanes], sent)
    show("repair_bits", number, ("bits", row))
    number, share = repair_share(record, lanes, TARGET, missing, data, lanes)
    show("repair_share", number, ("share", share))


def show_listed(shares):
    nodes = [(7 * i + 3) % N for i in range(K + 2)]
    held = [[shares[W * (t * N + j):W * (t * N + j + 1)] for j in nodes] for t in range(LANES)]
    for t, place in [*((t, 5) for t in range(0, LANES, 2)), (1, 8)]:
        held[t][place] = bytes([held[t][place][0], held[t][place][1] ^ 1])
    number, (count, message, wrong) = correct_listed(RECORD, LANES, nodes, b"".join(map(b"".join, held)), W * K * LANES, K + 2)
    show("correct_listed", number, ("message", message), ("wrong", wrong), ("altered", [count]))


def show_lanes(shares):
    _, (_, after) = update(RECORD, LANES, SYMBOL, 0, symbol(SYMBOL * LANES), NEW, shares)
    number, found = find_update(RECORD, shares[:W * N], after[:W * N])
    answer, which, amount = FINDINGS[found] if found in FINDINGS else (1, *found)
    show("find_update", number, ("answer", [answer]), ("symbol", [which]), ("amount", [amount]))


def show_others():
    number, by_lane = to_lanes(RECORD, LANES, symbols(N * LANES), W * N * LANES)
    show("to_lanes", number, ("by_lane", by_lane))
    number, by_node = to_nodes(RECORD, LANES, symbols(N * LANES), W * N * LANES)
    show("to_nodes", number, ("by_node", by_node))
    show_changes(symbols(K * LANES))
    number, counts = weights([*RECORD[:-1], 1], N + 1)
    show("weights", number, ("counts", counts))
    show_carried()


def show_changes(message):
    number, by_lane = listed_to_lanes(RECORD, LANES, message, W * K * LANES)
    show("listed_to_lanes", number, ("by_lane", by_lane))
    number, by_node = listed_to_nodes(RECORD, LANES, message, W * K * LANES)
    show("listed_to_nodes", number, ("by_node", by_node))
    row, first = message[W * SYMBOL * LANES:W * (SYMBOL + 1) * LANES], message[:W * LANES]
    number, added = differences(RECORD, LANES, SYMBOL, row, first, W * N * LANES)
    show("differences", number, ("differences", added))
    number, share = add_share(RECORD, LANES, row, first)
    show("add_share", number, ("share", share))
    _, shares = encode(RECORD, LANES, message, W * N * LANES)
    number, (count, after) = update_lanes(RECORD, LANES, SYMBOL, LANE, row[W * LANE:W * (LANE + RUN)], first[:W * RUN], shares)
    show("update_lanes", number, ("shares", after), ("altered", [count]))


def show_carried():
    record = [3, 255, 241, 15, 41, 16, 8]
    data = bytes(255 if i % 7 < 2 else (37 * i + 5) % 256 for i in range(41))
    number, size = carried_len(record, len(data))
    show("carried_len", number, ("carried_len", [size]))
    number, symbols = carry_in(record, data, size)
    show("carry_in", number, ("symbols", symbols))
    number, back = carry_out(record, symbols, len(data))
    show("carry_out", number, ("bytes", back))
    number, symbols = carry_change(record, len(data), 9, bytes(range(3)), symbols)
    show("carry_change", number, ("symbols", symbols))
    number, record = choose(N + 1, K, 7)
    show("choose", number, ("record", padded(record, 7)), ("record_len", [len(record)]))


def roster_bytes(history):
    """The roster as the caller's 256 bytes: a mark for each node, and the number of the next job."""
    return [*padded([int(history.is_present(j)) for j in range(N)], 255), history.next_job()]


def absent(*nodes):
    history = History()
    history.start(RECORD)
    for node in nodes:
        history.event(RECORD, node, False)
    return history


def show_rosters():
    show("roster_start", 0, ("roster", roster_bytes(absent())))
    left = absent(1, TARGET)
    show("roster_leave", left.event(RECORD, LANE, False), ("roster", roster_bytes(left)))
    back = absent(1, TARGET)
    show("roster_rejoin", back.event(RECORD, TARGET, True), ("roster", roster_bytes(back)))
    asked = absent(1, TARGET)
    number, nodes = asked.lowest(RECORD, K)
    show("roster_lowest", number, ("list", nodes), ("enough", [1]))
    worked = absent(1, TARGET)
    for _ in range(3):
        number, nodes = worked.job(RECORD, K)
    show("roster_job", number, ("roster", roster_bytes(worked)), ("list", nodes), ("enough", [1]))


def pairs_of_one_type():
    """Over all calls of the header."""
    types = [Counter(re.findall(r"(\w+ \*?)\w+(?:,|$)", words)) for words in CALLS.values()]
    return sum(count * (count - 1) // 2 for counts in types for count in counts.values())


show_plan()
show_blocks()
show_others()
show_rosters()
print(pairs_of_one_type(), "pairs of one type, 0 not told apart")
