"""What is left to be done to a share file: the ranges that an update rewrites, and its new header.

The bytes, all numbers big-endian: "BALREDO1"; for each range its place in the share file (8), its length (4) and its bytes;
the new header; the length of the header (4); the CRC-32 of all before (4). A redo is applied as often as need be: each time
the result is the same.
"""
import os
import struct
import zlib

from . import files, share
from .share import BadShare

MAGIC = b"BALREDO1"
RANGE = struct.Struct(">QI")
END = struct.Struct(">II")
PIECE = 1 << 20


class Draft:
    """A redo that is being written."""

    def __init__(self, file):
        self.file, self.place, self.sum = file, 0, 0

    def _write(self, data):
        files.write(self.file, self.place, data)
        self.place, self.sum = self.place + len(data), zlib.crc32(data, self.sum)

    def _begun(self):
        """What stands first, where nothing was written yet."""
        return MAGIC if self.place == 0 else b""

    def add(self, place, data):
        self._write(self._begun() + RANGE.pack(place, len(data)) + data)

    def end(self, header):
        tail = self._begun() + header + struct.pack(">I", len(header))
        self._write(tail + struct.pack(">I", zlib.crc32(tail, self.sum)))


def is_redo(start):
    return start[:len(MAGIC)] == MAGIC


def end_of(file):
    """Where the ranges end, and the length of the header and the checksum that stand behind."""
    size = os.fstat(file).st_size
    end = files.read(file, max(0, size - END.size), END.size)
    if len(end) == END.size:
        length, checksum = END.unpack(end)
        if 0 < length <= min(share.MAX_HEADER, size - END.size - len(MAGIC)):
            return size - END.size - length, length, checksum
    raise BadShare("what was prepared is damaged: its end is missing")


def verify(file):
    """Sees that a redo is whole: where its ranges end, and the length of its header."""
    end, length, checksum = end_of(file)
    total, size = 0, end + length + 4
    for place in range(0, size, PIECE):
        total = zlib.crc32(files.read(file, place, min(PIECE, size - place)), total)
    if total != checksum:
        raise BadShare("what was prepared is damaged: its checksum is wrong")
    return end, length


def verified_header(file):
    """The new header of a whole redo, as bytes."""
    return files.read(file, *verify(file))


def apply(file, shared):
    """Writes the ranges and the header of a whole redo to the share file, and has them kept."""
    end, length = verify(file)
    at = len(MAGIC)
    while at < end:
        place, count = RANGE.unpack(files.read(file, at, RANGE.size))
        files.write(shared, place, files.read(file, at + RANGE.size, count))
        at += RANGE.size + count
    files.write(shared, 0, files.read(file, end, length))
    files.sync(shared)
