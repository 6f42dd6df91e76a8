#!/usr/bin/env python3
"""cases.py FILE: prints each line of FILE, a call in words (words.py), with the call's answer after a colon, or with what makes it no call.

An empty line or a comment, which starts with #, is printed as it is.
"""
import sys
from balanced import (
    belongs, build_plan, correct, encode, find_update, rebuild, recover, single_mends, to_lanes, to_nodes, update, weights,
)
from carry import carried_len, carry_change, carry_in, carry_out
from choose import choose
from data import block, refused
from differences import add_share, differences, update_lanes
from listed import correct_listed
from rearranged import listed_to_lanes, listed_to_nodes
from roster import History
from traces import repair_bits, repair_plan, repair_share
from words import NotRead, is_comment, read_line

CALLS = {
    "plan": [],
    "encode": ["lanes", "message", "room"],
    "update": ["lanes", "symbol", "lane", "old", "new", "shares"],
    "update_lanes": ["lanes", "symbol", "lane", "before", "after", "shares"],
    "belongs": ["lanes", "shares"],
    "correct": ["lanes", "shares"],
    "correct_listed": ["lanes", "nodes", "shares", "room", "room"],
    "recover": ["lanes", "nodes", "shares", "room"],
    "rebuild": ["lanes", "nodes", "shares", "target", "room"],
    "roster": [],
    "leave": ["node"],
    "rejoin": ["node"],
    "lowest": ["room"],
    "job": ["room"],
    "find": ["before", "after"],
    "mends": ["symbols", "room", "room"],
    "weights": ["room"],
    "to_lanes": ["lanes", "shares", "room"],
    "to_nodes": ["lanes", "shares", "room"],
    "listed_to_lanes": ["lanes", "shares", "room"],
    "listed_to_nodes": ["lanes", "shares", "room"],
    "repair_bits": ["lanes", "node", "target", "missing", "share", "room"],
    "repair_share": ["lanes", "target", "missing", "rows", "room"],
    "repair_plan": ["count"],
    "differences": ["lanes", "symbol", "before", "after", "room"],
    "add_share": ["lanes", "symbols", "shares"],
    "carried_len": ["count"],
    "carry_in": ["bytes", "room"],
    "carry_out": ["symbols", "room"],
    "carry_change": ["count", "at", "bytes", "symbols"],
    "choose": ["n", "k", "room"],
}
NO_RECORD = {"choose"}
ALTERERS = {"update": update, "update_lanes": update_lanes, "correct": correct}
WRITERS = {
    "encode": encode, "recover": recover, "rebuild": rebuild, "to_lanes": to_lanes, "to_nodes": to_nodes,
    "listed_to_lanes": listed_to_lanes, "listed_to_nodes": listed_to_nodes, "repair_bits": repair_bits, "repair_share": repair_share,
    "differences": differences, "add_share": add_share, "carry_in": carry_in, "carry_out": carry_out,
    "carry_change": carry_change,
}
HISTORY = History()  # of the roster that the calls on a roster share


def stepped(number):
    """The number, where there is one, and the nodes that are present afterwards."""
    return (f"refused {number}, " if number else "") + "present" + "".join(f" {node}" for node in HISTORY.present(HISTORY.n))


def on_roster(name, record, arguments):
    if name == "roster":
        return stepped(HISTORY.start(record))
    if name in ("leave", "rejoin"):
        return stepped(HISTORY.event(record, *arguments, name == "rejoin"))
    number, nodes = HISTORY.lowest(record, *arguments) if name == "lowest" else HISTORY.job(record, *arguments)
    listed = refused(number) if number else "too few, unchanged" if nodes is None else f"done{block(bytes(nodes))}"
    return listed if name == "lowest" else f"{listed}, next job {HISTORY.next_job()}"


def listed(mends, *rooms):
    """How many changes there are, and both lists, with 170 at every place after them."""
    nodes, symbols = (written.ljust(room, bytes([170])) for written, room in zip(mends, rooms))
    return f"count {len(mends[0])} nodes{block(nodes)} symbols{block(symbols)}"


def answer(name, record, arguments):
    if name in ("roster", "leave", "rejoin", "lowest", "job"):
        return on_roster(name, record, arguments)
    if name == "plan":
        number, plan = build_plan(record)
        if number:
            return f"refused {number}, all places 0"
        numbers = f"n {plan.n} k {plan.k} d {plan.d} reads {plan.low} {plan.high}"
        rows = f"shifts{block(bytes(plan.shifts))} then 0 firsts{block(bytes(plan.firsts))} then 0"
        return f"{numbers} {rows} base{block(plan.bytes(plan.entries[0]))} then 0"
    if name in ALTERERS:
        number, result = ALTERERS[name](record, *arguments)
        return refused(number) if number else f"altered {result[0]} shares{block(result[1])}"
    if name == "correct_listed":
        number, result = correct_listed(record, *arguments)
        return refused(number) if number else f"altered {result[0]} message{block(result[1])} wrong" + "".join(f" {x}" for x in result[2])
    if name == "belongs":
        number, lane = belongs(record, *arguments)
        return f"refused {number}" if number else "yes" if lane is None else f"no, lane {lane}"
    if name == "find":
        number, found = find_update(record, *arguments)
        if number or found == "unchanged":
            return f"refused {number}" if number else found
        return f"symbol {found[0]} amount {found[1]}" if found else "no single update"
    if name == "mends":
        number, mends = single_mends(record, *arguments)
        return refused(number) if number else listed(mends, *arguments[1:])
    if name == "repair_plan":
        number, plan = repair_plan(record, *arguments)
        return f"refused {number}" if number else f"bits {plan[0]} spare {plan[1]}"
    if name == "carried_len":
        number, length = carried_len(record, *arguments)
        return f"refused {number}" if number else f"length {length}"
    if name == "choose":
        number, chosen = choose(*arguments)
        return refused(number) if number else f"length {len(chosen)} record{block(chosen.ljust(arguments[2], bytes([170])))}"
    if name == "weights":
        number, counts = weights(record, *arguments)
        return refused(number) if number else "done" + "".join(f" {count}" for count in counts)
    number, result = WRITERS[name](record, *arguments)
    return refused(number) if number else f"done{block(result)}"


def answered(line):
    if is_comment(line):
        return line
    try:
        return f"{line}: {answer(*read_line(line, CALLS, NO_RECORD))}"
    except NotRead as fault:
        return f"{line}: no call, {fault}"


with open(sys.argv[1]) as lines:
    for line in lines:
        print(answered(line.rstrip("\n")))
