"""Lost and wrong together: the message of listed nodes, some of which are wrong."""
from __future__ import annotations

from collections.abc import Iterable
from ctypes import c_uint32
from typing import TYPE_CHECKING

from .calls import call
from .sizes import Into, Sizes, node_list

if TYPE_CHECKING:
    from _typeshed import ReadableBuffer


class Listed(Sizes):
    """This call of a plan."""

    def correct_listed(
        self, lanes: int, nodes: Iterable[int], shares: ReadableBuffer, into: Into | None = None
    ) -> tuple[Into | bytearray, list[int]]:
        """The message of s listed nodes, k ≤ s ≤ n, of which up to (s-k)/2 are wrong in each lane, and which those are.

        `shares` is as in `recover`, with s symbols in each lane. Gives the message, and for each place of the list in how many
        lanes it was wrong. If some lane has no message that near, the call meets `FarError`.

        >>> from balanced import Plan
        >>> message, wrong = Plan([1, 7, 3, 6, 3]).correct_listed(1, [0, 1, 2, 3, 5], bytes([6, 1, 4, 3, 2]))
        >>> message.hex(" "), wrong
        ('01 00 02', [0, 0, 1, 0, 0])
        """
        listed = node_list(nodes)
        message, wrong = self._room(self.k, lanes, into), (c_uint32 * len(listed))()
        call("correct_listed", self.record, lanes, listed, shares, message, wrong)
        return message, list(wrong)
