"""The shares of listed nodes rearranged."""
from __future__ import annotations

from typing import TYPE_CHECKING

from .calls import call
from .sizes import Into, Sizes

if TYPE_CHECKING:
    from _typeshed import ReadableBuffer


class Rearranged(Sizes):
    """These calls of a plan."""

    def listed_to_lanes(self, lanes: int, by_node: ReadableBuffer, into: Into | None = None) -> Into | bytearray:
        """Puts the shares of k listed nodes, node after node, lane after lane, as `recover` and `rebuild` take them.

        >>> from balanced import Plan
        >>> Plan([1, 7, 3, 6, 2]).listed_to_lanes(3, b"abcABC")
        bytearray(b'aAbBcC')
        """
        by_lane = self._room(self.k, lanes, into)
        call("listed_to_lanes", self.record, lanes, by_node, by_lane)
        return by_lane

    def listed_to_nodes(self, lanes: int, by_lane: ReadableBuffer, into: Into | None = None) -> Into | bytearray:
        """Puts the shares of k listed nodes, lane after lane, node after node: undoes `listed_to_lanes`.

        >>> from balanced import Plan
        >>> Plan([1, 7, 3, 6, 2]).listed_to_nodes(3, b"aAbBcC")
        bytearray(b'abcABC')
        """
        by_node = self._room(self.k, lanes, into)
        call("listed_to_nodes", self.record, lanes, by_lane, by_node)
        return by_node
