"""Bytes in the symbols of a record, and a record for n nodes that carries them."""
from __future__ import annotations

from typing import TYPE_CHECKING

from .calls import call
from .sizes import Into, Sizes

if TYPE_CHECKING:
    from _typeshed import ReadableBuffer, WriteableBuffer

RECORD_LEN = 7


def choose(n: int, k: int) -> bytes:
    """A record for n nodes, any k of which give a message back, that carries bytes: kind 2 where n divides 255, else kind 3.

    >>> list(choose(15, 10))
    [2, 11, 15, 10]
    >>> from balanced import Plan
    >>> plan = Plan(choose(6, 5))
    >>> plan.n, plan.k, plan.symbol_len
    (6, 5, 2)
    """
    record = bytearray(RECORD_LEN)
    (length,) = call("choose", n, k, record)
    return bytes(record[:length])


class Carrying(Sizes):
    """The calls of a plan that carry bytes. In kind 2 symbols are bytes, and are carried as they are; in kind 3 with p from
    34,816 on two bytes are a word, an odd one at the end with a zero behind it, and a mask goes before each group of words. Any
    other record meets `CarryError`."""

    def carried_len(self, count: int) -> int:
        """The length of the symbols that carry so many bytes, in bytes.

        >>> from balanced import Plan
        >>> Plan([2, 11, 15, 10]).carried_len(1000), Plan(choose(6, 5)).carried_len(1000)
        (1000, 1004)
        """
        (length,) = call("carried_len", self.record, count)
        return length

    def carry_in(self, data: ReadableBuffer, into: Into | None = None) -> Into | bytearray:
        """The symbols that carry these bytes: each is one of the field.

        >>> from balanced import Plan
        >>> plan = Plan(choose(6, 5))
        >>> plan.carry_in(b"any \\xff\\xff").hex(" ", 2)
        '4000 216e 3920 bfff'
        """
        symbols = bytearray(self.carried_len(memoryview(data).nbytes)) if into is None else into
        call("carry_in", self.record, data, symbols)
        return symbols

    def carry_out(self, symbols: ReadableBuffer, count: int, into: Into | None = None) -> Into | bytearray:
        """The bytes that these symbols carry, so many of them.

        >>> from balanced import Plan
        >>> plan = Plan(choose(6, 5))
        >>> plan.carry_out(plan.carry_in(b"any \\xff\\xff"), 6)
        bytearray(b'any \\xff\\xff')
        """
        data = bytearray(count) if into is None else into
        call("carry_out", self.record, symbols, data)
        return data

    def carry_change(self, symbols: WriteableBuffer, count: int, at: int, data: ReadableBuffer) -> None:
        """Changes bytes where symbols carry them: of `count` bytes those from `at` on become these.

        A group of words keeps its mask while all its words are symbols under it, so that one byte changes one symbol; else it
        is carried anew.

        >>> from balanced import Plan
        >>> plan = Plan(choose(6, 5))
        >>> symbols = plan.carry_in(b"any \\xff\\xff")
        >>> plan.carry_change(symbols, 6, 4, b"!")
        >>> symbols.hex(" ", 2), bytes(plan.carry_out(symbols, 6))
        ('4000 216e 3920 61ff', b'any !\\xff')
        """
        call("carry_change", self.record, count, at, data, symbols)
