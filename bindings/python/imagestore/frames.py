"""Requests and answers as frames on a pipe. Every frame begins with the number of bytes that follow, which is bounded.

    request: length (4), op (1), length of the name (1), name, place (8), count (4), data
    answer:  length (4), status (1), data; a status other than 0 has a sentence as its data
"""
import struct
from typing import NamedTuple

from .errors import Broken

PROTOCOL = 2
GREETING = b"imagestore"
MAX_DATA = 1 << 22

(HELLO, LOCK, LIST, STAT, READ, BITS, BEGIN, WRITE, PATCH, ADD, SEAL, COMMIT, DROP, PURGE) = range(1, 15)
DONE, REFUSED, BUSY, BROKEN = range(4)

LENGTH = struct.Struct(">I")
HEAD = struct.Struct(">BB")
NUMBERS = struct.Struct(">QI")
MAX_REQUEST = HEAD.size + 255 + NUMBERS.size + MAX_DATA
MAX_ANSWER = 1 + MAX_DATA


class Request(NamedTuple):
    """`data` is bytes, or to write a list of them that stand one after the other."""
    op: int
    name: str = ""
    place: int = 0
    count: int = 0
    data: bytes = b""


def data_len(request):
    return sum(map(len, request.data)) if isinstance(request.data, list) else len(request.data)


def request_len(request, size):
    """The bytes of a request on the pipe, so many of them data."""
    return LENGTH.size + HEAD.size + len(request.name) + NUMBERS.size + size


def answer_len(data):
    return LENGTH.size + 1 + len(data)


def write_request(pipe, request):
    name = request.name.encode("ascii")
    head = LENGTH.pack(request_len(request, data_len(request)) - LENGTH.size) + HEAD.pack(request.op, len(name)) + name
    pipe.write(head + NUMBERS.pack(request.place, request.count))
    pipe.writelines(request.data if isinstance(request.data, list) else [request.data])
    pipe.flush()


def write_answer(pipe, status, data):
    pipe.write(LENGTH.pack(1 + len(data)) + bytes([status]))
    pipe.write(data)
    pipe.flush()


def read_exactly(pipe, count):
    data = pipe.read(count)
    if len(data) != count:
        raise Broken("the connection ended in the middle of a frame")
    return data


def read_frame(pipe, bound):
    """The bytes of a frame, or None where the pipe has ended before it."""
    start = pipe.read(LENGTH.size)
    if not start:
        return None
    if len(start) != LENGTH.size:
        raise Broken("the connection ended in the middle of a frame")
    (length,) = LENGTH.unpack(start)
    if not 0 < length <= bound:
        raise Broken(f"a frame of {length} bytes: at most {bound} are taken")
    return read_exactly(pipe, length)


def read_request(pipe):
    """The next request, or None at the end."""
    frame = read_frame(pipe, MAX_REQUEST)
    if frame is None:
        return None
    if len(frame) < HEAD.size:
        raise Broken("a request is cut")
    op, count = HEAD.unpack_from(frame)
    at = HEAD.size + count
    if len(frame) < at + NUMBERS.size:
        raise Broken("a request is cut")
    place, number = NUMBERS.unpack_from(frame, at)
    return Request(op, frame[HEAD.size:at].decode("ascii", "backslashreplace"), place, number, memoryview(frame)[at + NUMBERS.size:])


def read_answer(pipe):
    """The status and the data of an answer."""
    frame = read_frame(pipe, MAX_ANSWER)
    if frame is None:
        raise Broken("the connection ended")
    return frame[0], memoryview(frame)[1:]
