"""What `Plan.find_update` finds."""
from __future__ import annotations

from dataclasses import dataclass
from typing import Union


@dataclass(frozen=True)
class Unchanged:
    """The two lanes are equal."""


@dataclass(frozen=True)
class Added:
    """The amount that was added to a symbol of the message: a symbol of the field, in kind 2 the exclusive or of old and new."""

    symbol: int
    amount: int


@dataclass(frozen=True)
class NoSingleUpdate:
    """The lanes differ, and no symbol and amount lead from the first to the second."""


Finding = Union[Unchanged, Added, NoSingleUpdate]


def finding(answer: int, symbol: int, amount: int) -> Finding:
    """What the numbers of the header say (enum balanced_finding)."""
    return (Unchanged(), Added(symbol, amount), NoSingleUpdate())[answer]
