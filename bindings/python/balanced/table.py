"""Every function of include/balanced.h: its parameters, in the header's order and by the header's names.

A buffer is one parameter here and two in the header: the pointer and its length. Every function returns a number, 0
where the call was accepted. A new call is one entry here and one method of `Plan` or `Roster`.
"""
from __future__ import annotations

from ctypes import c_size_t, c_uint8, c_uint16, c_uint32
from typing import Any, NamedTuple, Union


class Number(NamedTuple):
    """A number that is handed to the call."""

    name: str
    kind: Any = c_uint32


class Result(NamedTuple):
    """A number that the call hands over."""

    name: str
    kind: Any = c_uint32


class Buffer(NamedTuple):
    """A buffer that is lent to the call. Its length counts items of the kind."""

    name: str
    written: bool
    kind: Any = c_uint8


Parameter = Union[Number, Result, Buffer]


def read(name: str) -> Buffer:
    return Buffer(name, False)


def written(name: str, kind: Any = c_uint8) -> Buffer:
    return Buffer(name, True, kind)


RECORD, LANES, NODES = read("record"), Number("lanes"), read("nodes")
ROSTER, LIST, ENOUGH = written("roster"), written("list"), Result("enough")

CALLS: dict[str, tuple[Parameter, ...]] = {
    "plan": (RECORD, written("numbers"), written("shifts"), written("firsts"), written("base", c_uint16)),
    "encode": (RECORD, LANES, read("message"), written("shares")),
    "update": (
        RECORD, LANES, Number("symbol"), Number("lane"), Number("old_symbol"), Number("new_symbol"), written("shares"),
        Result("altered"),
    ),
    "update_lanes": (
        RECORD, LANES, Number("symbol"), Number("first"), read("old_symbols"), read("new_symbols"), written("shares"),
        Result("altered"),
    ),
    "recover": (RECORD, LANES, NODES, read("shares"), written("message")),
    "rebuild": (RECORD, LANES, NODES, read("shares"), Number("target"), written("share")),
    "belongs": (RECORD, LANES, read("shares"), Result("first_wrong")),
    "correct": (RECORD, LANES, written("shares"), Result("altered")),
    "correct_listed": (
        RECORD, LANES, NODES, read("shares"), written("message"), written("wrong", c_uint32), Result("altered"),
    ),
    "find_update": (RECORD, read("before"), read("after"), Result("answer"), Result("symbol"), Result("amount")),
    "mends": (RECORD, read("lane"), written("nodes"), written("symbols"), Result("count")),
    "to_lanes": (RECORD, LANES, read("by_node"), written("by_lane")),
    "to_nodes": (RECORD, LANES, read("by_lane"), written("by_node")),
    "listed_to_lanes": (RECORD, LANES, read("by_node"), written("by_lane")),
    "listed_to_nodes": (RECORD, LANES, read("by_lane"), written("by_node")),
    "differences": (RECORD, LANES, Number("symbol"), read("old_symbols"), read("new_symbols"), written("differences")),
    "add_share": (RECORD, LANES, read("difference"), written("share")),
    "carried_len": (RECORD, Number("bytes_len", c_size_t), Result("carried_len", c_size_t)),
    "carry_in": (RECORD, read("bytes"), written("symbols")),
    "carry_out": (RECORD, read("symbols"), written("bytes")),
    "carry_change": (RECORD, Number("bytes_len", c_size_t), Number("at", c_size_t), read("new_bytes"), written("symbols")),
    "choose": (Number("n"), Number("k"), written("record"), Result("record_len")),
    "weights": (RECORD, written("counts", c_uint32)),
    "repair_plan": (RECORD, Number("missing"), Result("bits"), Result("spare")),
    "repair_bits": (RECORD, LANES, Number("node"), Number("target"), read("missing"), read("share"), written("bits")),
    "repair_share": (RECORD, LANES, Number("target"), read("missing"), read("rows"), written("share")),
    "roster_start": (RECORD, ROSTER),
    "roster_leave": (RECORD, ROSTER, Number("node")),
    "roster_rejoin": (RECORD, ROSTER, Number("node")),
    "roster_lowest": (RECORD, read("roster"), LIST, ENOUGH),
    "roster_job": (RECORD, ROSTER, LIST, ENOUGH),
}
