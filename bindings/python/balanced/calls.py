"""Makes the calls of the table: looks at what is given, lends it, and turns a number into its error."""
from __future__ import annotations

from ctypes import CDLL, byref, c_size_t, c_uint8, c_void_p, sizeof
from operator import index
from typing import Any

from .errors import ERRORS
from .library import library
from .loans import Loans
from .table import CALLS, Buffer, Number, Parameter


def kinds_of(parameter: Parameter) -> list[Any]:
    """The types of C that a parameter stands for."""
    if isinstance(parameter, Number):
        return [parameter.kind]
    return [c_void_p, c_size_t] if isinstance(parameter, Buffer) else [c_void_p]


def declared(library: CDLL, name: str) -> Any:
    function = library[f"balanced_{name}"]
    function.argtypes = [kind for parameter in CALLS[name] for kind in kinds_of(parameter)]
    function.restype = c_uint8
    return function


FUNCTIONS = {name: declared(library, name) for name in CALLS}
# for each call its parameters, and of each the bytes of an item, as a number of this kind has them
STEPS = {name: [(type(parameter), parameter, sizeof(parameter.kind)) for parameter in CALLS[name]] for name in CALLS}


def number_of(parameter: Number, size: int, given: Any) -> int:
    """A number for the call. One that its type does not hold becomes the greatest that it holds: neither is in a range."""
    try:
        number = index(given)
    except TypeError:
        raise TypeError(f"{parameter.name} is a number, not {type(given).__name__}") from None
    return number if 0 <= number < 1 << 8 * size else (1 << 8 * size) - 1


def call(name: str, *given: Any) -> tuple[int, ...]:
    """Makes a call with what is given for its parameters, and gives the numbers that it hands over; or raises its error.

    >>> call("roster_leave", bytes([1, 7, 3, 6, 3]), bytearray(256), 6)
    Traceback (most recent call last):
    balanced.errors.RangeError: range (9): a node, symbol or lane number is outside its range
    """
    values = iter(given)
    words: list[Any] = []
    results: list[Any] = []
    with Loans() as loans:
        for sort, parameter, size in STEPS[name]:
            if sort is Buffer:
                start, length = loans.lend(parameter.name, next(values), parameter.written)
                words += start, length // size
            elif sort is Number:
                words.append(number_of(parameter, size, next(values)))
            else:
                results.append(parameter.kind())
                words.append(byref(results[-1]))
        loans.set_apart()
        number = FUNCTIONS[name](*words)
        if number:
            raise ERRORS[number]()
        loans.settle()
    return tuple(result.value for result in results)
