"""Symbols of two bytes, as the buffers of a record of kind 3 hold them: high byte first."""
from __future__ import annotations

from collections.abc import Iterable
from typing import TYPE_CHECKING

if TYPE_CHECKING:
    from _typeshed import ReadableBuffer


def symbols_to_bytes(symbols: Iterable[int]) -> bytes:
    """The buffer that holds these symbols.

    >>> symbols_to_bytes([1, 256])
    b'\\x00\\x01\\x01\\x00'
    """
    return b"".join(symbol.to_bytes(2, "big") for symbol in symbols)


def symbols_from_bytes(buffer: ReadableBuffer) -> list[int]:
    """The symbols that a buffer holds. A last byte with none after it is left out.

    >>> symbols_from_bytes(b"\\x00\\x01\\x01\\x00")
    [1, 256]
    """
    data = memoryview(buffer).tobytes()
    return [high * 256 + low for high, low in zip(data[0::2], data[1::2])]
