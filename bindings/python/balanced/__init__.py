"""The balanced image store: any k of n nodes give a block back, a changed symbol writes n-k+1 nodes, every node carries the same load.

The calls are those of include/balanced.h, on anything with the buffer protocol. The library behind them is written in
Rattle and proved to do what its contracts say; this package lends it buffers, and turns its numbers into errors.

>>> import balanced
>>> plan = balanced.Plan([2, 11, 15, 10])  # bytes, 15 nodes, any 10 return the block
>>> shares = plan.encode(1, b"ten bytes.")
>>> nodes = [14, 13, 12, 11, 10, 9, 8, 7, 6, 5]
>>> plan.recover(1, nodes, bytes(shares[node] for node in nodes))
bytearray(b'ten bytes.')

Each symbol of a message goes into d nodes, and an update of one writes these alone:

>>> plan.d, plan.update(1, 3, 0, ord(" "), ord("-"), shares)
(6, 6)
>>> plan.belongs(1, shares) is None
True

What turns a call away is an error with a number, a name and a text, and changes nothing:

>>> plan.recover(1, [5] * 10, bytes(10))
Traceback (most recent call last):
balanced.errors.TwiceError: twice (10): a node stands twice in a list

A record of kind 3 has symbols of two bytes, high byte first:

>>> plan = balanced.Plan([3, 1, 1, 0, 16, 4, 2])  # 257 elements, 4 nodes, any 2 return the block
>>> balanced.symbols_from_bytes(plan.encode(1, balanced.symbols_to_bytes([1, 256])))
[17, 15, 240, 242]
"""
from .carrying import choose
from .errors import (
    ERRORS,
    AlreadyError,
    BodyError,
    CarryError,
    Error,
    FarError,
    FieldError,
    KindError,
    LanesError,
    LengthError,
    ManyError,
    RangeError,
    RootError,
    SizeError,
    StaleError,
    SymbolError,
    TracesError,
    TwiceError,
    UnevenError,
    WordError,
)
from .findings import Added, Finding, NoSingleUpdate, Unchanged
from .library import library_path
from .plan import Plan
from .roster import ROSTER_LEN, Roster
from .sizes import MAX_LANES, MAX_NODES
from .symbols import symbols_from_bytes, symbols_to_bytes

__version__ = "1.0.0"

__all__ = [
    "ERRORS", "MAX_LANES", "MAX_NODES", "ROSTER_LEN", "Added", "AlreadyError", "BodyError", "CarryError", "Error", "FarError",
    "FieldError", "Finding", "KindError", "LanesError", "LengthError", "ManyError", "NoSingleUpdate", "Plan", "RangeError", "RootError",
    "Roster", "SizeError", "StaleError", "SymbolError", "TracesError", "TwiceError", "Unchanged", "UnevenError", "WordError",
    "choose", "library_path", "symbols_from_bytes", "symbols_to_bytes",
]
