"""The lengths of a plan's buffers, and the room that its calls write to."""
from __future__ import annotations

from collections.abc import Iterable
from operator import index
from typing import TYPE_CHECKING, TypeVar

if TYPE_CHECKING:
    from _typeshed import WriteableBuffer

Into = TypeVar("Into", bound="WriteableBuffer")

MAX_LANES = 4096
MAX_NODES = 255


def node_list(nodes: Iterable[int]) -> bytes:
    """A list of nodes as bytes. A number that no byte holds becomes 255, which is no node either, for n is at most 255."""
    if isinstance(nodes, (list, tuple)):
        try:
            return bytes(nodes)
        except ValueError:
            pass  # one of them no byte holds
    return bytes(node if 0 <= node <= MAX_NODES else MAX_NODES for node in map(index, nodes))


class Sizes:
    """What the calls of a plan know of it: the record, n, k and the bytes of a symbol."""

    record: bytes
    n: int
    k: int
    symbol_len: int

    def message_len(self, lanes: int) -> int:
        """The length of a message of so many lanes, in bytes."""
        return self.k * lanes * self.symbol_len

    def shares_len(self, lanes: int) -> int:
        """The length of the shares of a block of so many lanes, in bytes."""
        return self.n * lanes * self.symbol_len

    def share_len(self, lanes: int) -> int:
        """The length of one node's share of a block of so many lanes, in bytes."""
        return lanes * self.symbol_len

    def _room(self, symbols: int, lanes: int, into: Into | None) -> Into | bytearray:
        """What a call writes so many symbols of each lane to. Nothing is made for lanes with which every call is turned away."""
        if into is not None:
            return into
        lanes = index(lanes)
        return bytearray(symbols * lanes * self.symbol_len if 0 < lanes <= MAX_LANES else 0)
