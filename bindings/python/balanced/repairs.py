"""Repair of one node by traces: every other node sends a few bits of each of its symbols."""
from __future__ import annotations

from collections.abc import Iterable
from typing import TYPE_CHECKING

from .calls import call
from .errors import TracesError
from .sizes import MAX_LANES, Into, Sizes, node_list

if TYPE_CHECKING:
    from _typeshed import ReadableBuffer


class Repairs(Sizes):
    """These calls of a plan. They are for records of kind 2 with n-k at least 16, and 16 more than the nodes that are missing
    besides; any other meets `TracesError`."""

    def repair_plan(self, missing: int = 0) -> tuple[int, int]:
        """How many bits of a symbol a node sends where so many nodes are missing beside the target, and how many more may be.

        Nodes that may be missing may as well be left out: then fewer bits are moved.

        >>> from balanced import Plan
        >>> Plan([2, 2, 255, 120]).repair_plan(), Plan([2, 2, 255, 120]).repair_plan(8)
        ((1, 7), (2, 63))
        """
        bits, spare = call("repair_plan", self.record, missing)
        return bits, spare

    def _planes(self, missing: int, lanes: int) -> int:
        """The bytes that a node sends; none where there is no repair by traces."""
        try:
            bits, _ = self.repair_plan(missing)
        except TracesError:
            return 0
        return bits * ((lanes + 7) // 8) if 0 < lanes <= MAX_LANES else 0

    def repair_bits(
        self, lanes: int, node: int, target: int, missing: Iterable[int], share: ReadableBuffer, into: Into | None = None
    ) -> Into | bytearray:
        """What `node` sends of its share for the repair of `target`: b planes of a bit for each lane, 8 lanes to a byte.

        >>> from balanced import Plan
        >>> plan = Plan([2, 15, 17, 1])
        >>> shares = plan.encode(8, b"a block.")
        >>> plan.repair_bits(8, 1, 0, [], shares[1::17]).hex(" ")
        'b8 3d 51 f4'
        """
        gone = node_list(missing)
        bits = bytearray(self._planes(len(gone), lanes)) if into is None else into
        call("repair_bits", self.record, lanes, node, target, gone, share, bits)
        return bits

    def repair_share(
        self, lanes: int, target: int, missing: Iterable[int], rows: ReadableBuffer, into: Into | None = None
    ) -> Into | bytearray:
        """The target's share from what all others sent that are not missing, in the order of the nodes.

        From what nodes of one encoding send it is that encoding's share.

        >>> from balanced import Plan
        >>> plan = Plan([2, 15, 17, 1])
        >>> shares = plan.encode(8, b"a block.")
        >>> rows = b"".join(plan.repair_bits(8, node, 0, [], shares[node::17]) for node in range(1, 17))
        >>> plan.repair_share(8, 0, [], rows) == shares[0::17]
        True
        """
        share = self._room(1, lanes, into)
        call("repair_share", self.record, lanes, target, node_list(missing), rows, share)
        return share
