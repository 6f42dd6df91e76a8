"""Changes of rows: what each node has to add, and the node's side of it."""
from __future__ import annotations

from typing import TYPE_CHECKING

from .calls import call
from .sizes import Into, Sizes

if TYPE_CHECKING:
    from _typeshed import ReadableBuffer, WriteableBuffer


class Changes(Sizes):
    """These calls of a plan."""

    def differences(
        self, lanes: int, symbol: int, old: ReadableBuffer, new: ReadableBuffer, into: Into | None = None
    ) -> Into | bytearray:
        """What each node has to add where row `symbol` of a message changes, node after node.

        `old` and `new` are the row's symbols, one for each lane. Nodes outside the row's d get zeros: they need not be told.

        >>> from balanced import Plan
        >>> Plan([1, 7, 3, 6, 3]).differences(2, 1, bytes([0, 3]), bytes([5, 3])).hex(" ", 2)
        '0100 0500 0000 0000 0200 0500'
        """
        differences = self._room(self.n, lanes, into)
        call("differences", self.record, lanes, symbol, old, new, differences)
        return differences

    def add_share(self, lanes: int, difference: ReadableBuffer, share: WriteableBuffer) -> None:
        """Adds to one node's share what it has to add.

        >>> from balanced import Plan
        >>> plan, share = Plan([1, 7, 3, 6, 3]), bytearray([6, 0])
        >>> plan.add_share(2, bytes([1, 0]), share)
        >>> share.hex(" ")
        '00 00'
        """
        call("add_share", self.record, lanes, difference, share)
