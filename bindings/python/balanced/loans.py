"""What a call is lent: the bytes of a Python object, which stay where they are until the call has ended.

Of what the header leaves to the caller, this sees to pointers that are not null, to lengths that are those of the
buffers, and to written buffers that overlap nothing. An object is asked for its bytes by CPython's buffer protocol, the
only way to the address of a buffer that is read-only. While a loan lasts, no thread can resize or free the buffer.
"""
from __future__ import annotations

from ctypes import Structure, addressof, byref, c_char, c_char_p, c_int, c_ssize_t, c_uint8, c_void_p, py_object, pythonapi
from typing import Any


class View(Structure):
    """Py_buffer of CPython's stable interface."""

    _fields_ = [
        ("buf", c_void_p), ("obj", c_void_p), ("len", c_ssize_t), ("itemsize", c_ssize_t), ("readonly", c_int), ("ndim", c_int),
        ("format", c_char_p), ("shape", c_void_p), ("strides", c_void_p), ("suboffsets", c_void_p), ("internal", c_void_p),
    ]


def declared(name: str, result: Any, *arguments: Any) -> Any:
    function = getattr(pythonapi, name)
    function.restype, function.argtypes = result, arguments
    return function


IN_ONE_PIECE, WITH_GAPS = 0, 0x11C  # PyBUF_SIMPLE and PyBUF_FULL_RO: read-only or not, as bytes in a row, or as they stand
ROWS = b"C"  # the order of items in which the last index moves first
get = declared("PyObject_GetBuffer", c_int, py_object, c_void_p, c_int)
copy_from = declared("PyBuffer_ToContiguous", c_int, c_void_p, c_void_p, c_ssize_t, c_char)
copy_to = declared("PyBuffer_FromContiguous", c_int, c_void_p, c_void_p, c_ssize_t, c_char)
release = declared("PyBuffer_Release", None, c_void_p)

NO_BYTES = c_uint8()  # stands where a buffer has no bytes


class Loan:
    """The bytes of an object: so many as `length`, from `address` on, until `end`. As a word of a call it is the address.

    Bytes that can be written and stand in one piece are held by an object of ctypes, which is quicker; others by a view.
    """

    __slots__ = ("_as_parameter_", "length", "written", "has_gaps", "_owner", "_held", "_view", "_copy")

    _as_parameter_: int  # what ctypes takes for the object
    length: int
    _copy: Any

    def __init__(self, name: str, owner: object, written: bool) -> None:
        self.written, self.has_gaps, self._owner, self._view, self._copy = written, False, owner, None, None
        try:
            self._held: Any = c_char.from_buffer(owner)  # type: ignore[arg-type]
        except (TypeError, ValueError, BufferError):
            self._held = None
            self._see(name)
            return
        self._as_parameter_, self.length = addressof(self._held), memoryview(owner).nbytes  # type: ignore[arg-type]

    @property
    def address(self) -> int:
        return self._as_parameter_

    def _see(self, name: str) -> None:
        """Holds the bytes by a view, whatever they are."""
        self._view = View()
        try:
            self.has_gaps = self._hold()
        except TypeError:
            raise TypeError(f"{name} is a buffer of bytes, not {type(self._owner).__name__}") from None
        if self.written and self._view.readonly:
            self.end()
            raise TypeError(f"{name} is written to, and this {type(self._owner).__name__} is read-only")
        self.length = self._view.len
        self._as_parameter_ = self._view.buf if self.length else addressof(NO_BYTES)

    def _hold(self) -> bool:
        """Holds the object's bytes, and says whether there are gaps between them."""
        try:
            get(self._owner, byref(self._view), IN_ONE_PIECE)
            return False
        except BufferError:
            get(self._owner, byref(self._view), WITH_GAPS)
            return True

    def overlaps_one_of(self, others: list[Loan]) -> bool:
        start, end = self._as_parameter_, self._as_parameter_ + self.length
        for other in others:
            if other is not self and start < other._as_parameter_ + other.length and other._as_parameter_ < end:
                return True
        return False

    def copy(self) -> None:
        """Lends a copy in the object's place."""
        if self._view is None:
            self._view = View()
            self._hold()
        self._copy = (c_uint8 * max(self.length, 1))()
        copy_from(self._copy, byref(self._view), self.length, ROWS)
        self._as_parameter_ = addressof(self._copy)

    def settle(self) -> None:
        """Puts what was written to a copy into the object."""
        if self.written and self._copy is not None:
            copy_to(byref(self._view), self._copy, self.length, ROWS)

    def end(self) -> None:
        self._held = None
        if self._view is not None:
            release(byref(self._view))


class Loans(list[Loan]):
    """The loans of one call, which end with the block."""

    def __enter__(self) -> Loans:
        return self

    def __exit__(self, *_: object) -> None:
        for loan in self:
            loan.end()

    def lend(self, name: str, owner: object, written: bool) -> tuple[object, int]:
        """The words of a call for an object: where its bytes stand, and how many they are."""
        if type(owner) is bytes and not written:
            return owner, len(owner)  # they never move or change, and nothing that is written overlaps them
        loan = Loan(name, owner, written)
        self.append(loan)
        return loan, loan.length

    def set_apart(self) -> None:
        """Copies what has gaps between its bytes, and what is written and overlaps something else."""
        for loan in self:
            if loan.has_gaps or loan.written and loan.overlaps_one_of(self):
                loan.copy()

    def settle(self) -> None:
        """After an accepted call: what it wrote stands in the objects."""
        for loan in self:
            loan.settle()
