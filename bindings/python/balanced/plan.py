"""Plans of records, and the calls on blocks and lanes."""
from __future__ import annotations

from collections.abc import Iterable
from ctypes import c_uint16, c_uint32
from dataclasses import dataclass, field
from operator import index
from typing import TYPE_CHECKING

from .calls import call
from .carrying import Carrying
from .changes import Changes
from .findings import Finding, finding
from .listed import Listed
from .rearranged import Rearranged
from .repairs import Repairs
from .sizes import MAX_NODES, Into, node_list
from .symbols import symbols_from_bytes

if TYPE_CHECKING:
    from _typeshed import ReadableBuffer, WriteableBuffer


@dataclass(frozen=True, init=False)
class Plan(Changes, Carrying, Listed, Rearranged, Repairs):
    """A record that was accepted, the plan that it stands for, and the calls on its blocks.

    A record is a buffer of bytes or a list of them; one that is not accepted raises an error from `KindError` to `RootError`.

    >>> plan = Plan([1, 7, 3, 6, 3])
    >>> plan
    Plan(record=b'\\x01\\x07\\x03\\x06\\x03', n=6, k=3, d=4, low_reads=2, high_reads=2, symbol_len=1)
    >>> plan.shifts, plan.firsts, plan.base_word
    ((0, 2, 4), (0, 4, 2), (6, 1, 3, 1, 0, 0))

    A block has 1 to 4,096 lanes. What a call reads is any buffer, in one piece or with strides. What it writes is a new
    bytearray, or `into`, any buffer that can be written to, and that is given back. Buffers may overlap: what is read is
    read first (memory that is mapped at two addresses is two buffers). A wrong type or a buffer that is read-only is a
    TypeError. Whatever is raised, nothing lent was changed.

    Other threads run while a call does; none of them may write to what the call was lent.

    Attributes: the `record` as bytes; `n`, the number of nodes; `k`, the symbols of a message in each lane; `d` = n-k+1,
    the nodes that a change of one symbol writes; `low_reads` and `high_reads`, the least and the greatest number of
    symbols that a node depends on, k·d/n rounded down and up; `symbol_len`, the bytes of a symbol; the k `shifts` of the
    rows, the nodes at which they begin (`firsts`), and the n entries of the `base_word`, which is row 0 of the generator.
    """

    record: bytes
    n: int
    k: int
    d: int
    low_reads: int
    high_reads: int
    symbol_len: int
    shifts: tuple[int, ...] = field(repr=False)
    firsts: tuple[int, ...] = field(repr=False)
    base_word: tuple[int, ...] = field(repr=False)

    def __init__(self, record: Iterable[int]) -> None:
        record = bytes(map(index, record))
        numbers, shifts, firsts, base = bytearray(5), bytearray(MAX_NODES), bytearray(MAX_NODES), (c_uint16 * MAX_NODES)()
        call("plan", record, numbers, shifts, firsts, base)
        n, k, d, low_reads, high_reads = numbers
        self.__dict__.update(
            record=record, n=n, k=k, d=d, low_reads=low_reads, high_reads=high_reads,
            symbol_len=2 if record[0] == 3 else 1,
            shifts=tuple(shifts[:k]), firsts=tuple(firsts[:k]), base_word=tuple(base[:n]),
        )

    def entry(self, row: int, node: int) -> int:
        """Entry (row, node) of the generator, by which symbol `row` of a message goes into `node`.

        >>> [Plan([1, 7, 3, 6, 3]).entry(1, node) for node in range(6)]
        [3, 1, 0, 0, 6, 1]
        """
        if not (0 <= row < self.k and 0 <= node < self.n):
            raise IndexError(f"there is no entry ({row}, {node}): rows are below {self.k}, nodes below {self.n}")
        return self.base_word[(node + self.shifts[row]) % self.n]

    def encode(self, lanes: int, message: ReadableBuffer, into: Into | None = None) -> Into | bytearray:
        """Encodes a message: gives the shares of all n nodes, lane after lane.

        `message` has k·lanes symbols: symbol r of lane t stands at r·lanes + t. The shares have n·lanes: what node j holds
        of lane t stands at t·n + j.

        >>> Plan([1, 7, 3, 6, 3]).encode(1, bytes([1, 0, 2])).hex(" ")
        '06 01 01 03 06 02'
        """
        shares = self._room(self.n, lanes, into)
        call("encode", self.record, lanes, message, shares)
        return shares

    def update(self, lanes: int, symbol: int, lane: int, old: int, new: int, shares: WriteableBuffer) -> int:
        """Changes one symbol of one lane in shares that are in place, and gives the number of nodes that it altered.

        The lane must encode a message, else the update meets `WordError`, and this message must hold `old` there, else it
        meets `StaleError`. Afterwards the lane encodes the message with `new` in its place. Other lanes are not looked at.

        >>> plan, shares = Plan([1, 7, 3, 6, 3]), bytearray([6, 1, 1, 3, 6, 2])
        >>> plan.update(1, 1, 0, 0, 5, shares), shares.hex(" ")
        (4, '00 06 01 03 01 00')
        """
        (altered,) = call("update", self.record, lanes, symbol, lane, old, new, shares)
        return altered

    def update_lanes(
        self, lanes: int, symbol: int, first: int, old: ReadableBuffer, new: ReadableBuffer, shares: WriteableBuffer
    ) -> int:
        """`update` for the lanes from `first` on at once, one for each symbol of `old` and `new`: gives the number of symbols altered.

        Every lane is judged before one changes, in their order; the first that does not encode a message, or whose message
        does not hold the old symbol, raises the error that `update` raises.

        >>> plan, shares = Plan([1, 7, 3, 6, 3]), bytearray([6, 1, 1, 3, 6, 2, 0, 6, 1, 3, 1, 0])
        >>> plan.update_lanes(2, 1, 0, bytes([0, 5]), bytes([5, 5]), shares), shares.hex(" ", 6)
        (4, '000601030100 000601030100')
        """
        (altered,) = call("update_lanes", self.record, lanes, symbol, first, old, new, shares)
        return altered

    def recover(
        self, lanes: int, nodes: Iterable[int], shares: ReadableBuffer, into: Into | None = None
    ) -> Into | bytearray:
        """Recovers a message from the shares of any k nodes.

        `nodes` lists k different nodes in any order, and `shares` has k·lanes symbols: in each lane what these nodes hold,
        in the order of the list. The message is the only one whose encoding holds these shares at these nodes.

        >>> Plan([1, 7, 3, 6, 3]).recover(1, [2, 3, 4], bytes([1, 3, 1])).hex(" ")
        '01 05 02'
        """
        message = self._room(self.k, lanes, into)
        call("recover", self.record, lanes, node_list(nodes), shares, message)
        return message

    def rebuild(
        self, lanes: int, nodes: Iterable[int], shares: ReadableBuffer, target: int, into: Into | None = None
    ) -> Into | bytearray:
        """Rebuilds what one node holds, a symbol for each lane, from the shares of any k nodes.

        `nodes` and `shares` are as in `recover`; the target may be in the list.

        >>> Plan([1, 7, 3, 6, 3]).rebuild(1, [2, 3, 4], bytes([1, 3, 1]), 0).hex(" ")
        '00'
        """
        share = self._room(1, lanes, into)
        call("rebuild", self.record, lanes, node_list(nodes), shares, target, share)
        return share

    def belongs(self, lanes: int, shares: ReadableBuffer) -> int | None:
        """Tests whether every lane of a block is a word of the code: None, or the smallest lane that is none.

        >>> plan = Plan([1, 7, 3, 6, 3])
        >>> plan.belongs(1, bytes([0, 6, 1, 3, 1, 0])), plan.belongs(1, bytes([0, 6, 1, 3, 1, 1]))
        (None, 0)
        """
        (first_wrong,) = call("belongs", self.record, lanes, shares)
        return None if first_wrong == lanes else first_wrong

    def correct(self, lanes: int, shares: WriteableBuffer) -> int:
        """Sets wrong symbols right: each lane becomes the word of the code that differs from it at no more than (n-k)/2 nodes.

        Gives the number of symbols that it altered. If some lane has no word that near, the call meets `FarError`, and no
        lane is touched. A lane with more wrong symbols may be near to another word than the one it was, and becomes that.

        >>> plan, shares = Plan([1, 7, 3, 6, 3]), bytearray([0, 6, 1, 3, 1, 1])
        >>> plan.correct(1, shares), shares.hex(" ")
        (1, '00 06 01 03 01 00')
        """
        (altered,) = call("correct", self.record, lanes, shares)
        return altered

    def find_update(self, before: ReadableBuffer, after: ReadableBuffer) -> Finding:
        """Finds the update that leads from one lane to another: `Unchanged`, `Added` or `NoSingleUpdate`.

        The lanes have n symbols each, and need not be words of the code.

        >>> Plan([1, 7, 3, 6, 3]).find_update(bytes([6, 1, 1, 3, 6, 2]), bytes([0, 6, 1, 3, 1, 0]))
        Added(symbol=1, amount=5)
        """
        return finding(*call("find_update", self.record, before, after))

    def mends(self, lane: ReadableBuffer) -> list[tuple[int, int]]:
        """Lists the single changes that make a lane a word of the code: nodes, lowest first, each with its new symbol.

        A lane that is a word has none. Another has one at most where k is below n-1, and one for each node where k is n-1.

        >>> Plan([1, 7, 3, 6, 3]).mends(bytes([6, 1, 4, 3, 6, 2]))
        [(2, 1)]
        """
        nodes, symbols = bytearray(self.n), bytearray(self.n * self.symbol_len)
        (count,) = call("mends", self.record, lane, nodes, symbols)
        return list(zip(nodes, symbols if self.symbol_len == 1 else symbols_from_bytes(symbols)))[:count]

    def to_lanes(self, lanes: int, by_node: ReadableBuffer, into: Into | None = None) -> Into | bytearray:
        """Puts shares that stand node after node lane after lane: what stands at j·lanes + t goes to t·n + j.

        >>> Plan([2, 214, 3, 1]).to_lanes(2, b"aAbBcC")
        bytearray(b'abcABC')
        """
        by_lane = self._room(self.n, lanes, into)
        call("to_lanes", self.record, lanes, by_node, by_lane)
        return by_lane

    def to_nodes(self, lanes: int, by_lane: ReadableBuffer, into: Into | None = None) -> Into | bytearray:
        """Puts shares that stand lane after lane node after node: undoes `to_lanes`.

        >>> Plan([2, 214, 3, 1]).to_nodes(2, b"abcABC")
        bytearray(b'aAbBcC')
        """
        by_node = self._room(self.n, lanes, into)
        call("to_nodes", self.record, lanes, by_lane, by_node)
        return by_node

    def weights(self) -> list[int]:
        """Counts the messages by the nodes that hold something other than zero: a count for each w from 0 to n.

        There are at most 65,536 messages, or the call meets `ManyError`.

        >>> Plan([1, 7, 3, 6, 3]).weights()
        [1, 0, 0, 0, 90, 108, 144]
        """
        counts = (c_uint32 * (self.n + 1))()
        call("weights", self.record, counts)
        return list(counts)
