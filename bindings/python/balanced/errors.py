"""What turns a call away: one class for each number, below `Error`.

The conditions are tested in the order of the numbers, and the lowest that holds is raised. The call has then changed
nothing that it was lent.

>>> from balanced import Plan
>>> try:
...     Plan([1, 7, 2, 6, 3])
... except Error as error:
...     print(error.number, error.name, "-", error.text)
5 root - the root is not a symbol of order exactly n
>>> issubclass(RootError, Error)
True
"""
from __future__ import annotations

from typing import ClassVar


class Error(Exception):
    """What turns a call away. `number` and `name` are those of the manual's table, `text` says what is wrong."""

    number: ClassVar[int]
    name: ClassVar[str]
    text: ClassVar[str]

    def __str__(self) -> str:
        return f"{self.name} ({self.number}): {self.text}"


class KindError(Error):
    number, name, text = 1, "kind", "the record is empty or its first byte is none of 1, 2 and 3"


class BodyError(Error):
    number, name, text = 2, "body", "the record's body has another length than its kind's"


class FieldError(Error):
    number, name, text = 3, "field", "p is not a prime from 3 to 251 in kind 1, from 257 to 65,521 in kind 3"


class SizeError(Error):
    number, name, text = 4, "size", "n is below 2, k is 0, or k is above n"


class RootError(Error):
    number, name, text = 5, "root", "the root is not a symbol of order exactly n"


class UnevenError(Error):
    number, name, text = 6, "uneven", "reserved: no longer given"


class LanesError(Error):
    number, name, text = 7, "lanes", "lanes is 0 or above 4,096"


class LengthError(Error):
    number, name, text = 8, "length", "a buffer or a list of nodes has another length than stated"


class RangeError(Error):
    number, name, text = 9, "range", "a node, symbol or lane number is outside its range"


class TwiceError(Error):
    number, name, text = 10, "twice", "a node stands twice in a list"


class SymbolError(Error):
    number, name, text = 11, "symbol", "a number that the call reads as a symbol is p or more, in kind 2 above 255"


class WordError(Error):
    number, name, text = 12, "word", "the lane that an update is to change is no word of the code"


class StaleError(Error):
    number, name, text = 13, "stale", "the message of that lane holds another symbol than the old one"


class FarError(Error):
    number, name, text = 14, "far", "some lane has no word of the code within (n-k)/2 nodes, or (s-k)/2 of s listed ones"


class AlreadyError(Error):
    number, name, text = 15, "already", "the node already is what the event says: absent, or present"


class ManyError(Error):
    number, name, text = 16, "many", "there are more than 65,536 messages"


class TracesError(Error):
    number, name, text = 17, "traces", "the record has no repair by traces with so many nodes missing"


class CarryError(Error):
    number, name, text = 18, "carry", "the record's symbols do not carry bytes"


ERRORS: dict[int, type[Error]] = {error.number: error for error in Error.__subclasses__()}
