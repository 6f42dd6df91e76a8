"""A node's next share of an image while it is written: a whole share file, or the ranges of one that is there."""
import os
import struct

from . import arithmetic, blocks, files, redo, share
from .errors import Refused

BLOCK = struct.Struct(">QI")
RANGE = struct.Struct(">HH")


class WholeDraft:
    """A share file whose blocks are written in any order, and its header last."""

    def __init__(self, file):
        self.file = file

    def write(self, place, data):
        files.write(self.file, place, data)

    def patch(self, data, adding):
        raise Refused("the draft is of a whole share: it has no ranges")

    def end(self, header):
        files.write(self.file, 0, header)

    def close(self):
        os.close(self.file)


class PatchDraft:
    """Ranges of the blocks of a share file that is there, and the checksums that the blocks then have."""

    def __init__(self, file, shared, header):
        self.file, self.shared, self.header, self.redo = file, shared, header, redo.Draft(file)

    def write(self, place, data):
        raise Refused("the draft is of ranges: it takes no share")

    def block(self, number):
        """The place of a block and its symbols, if its checksum is right: a wrong one must not get a right checksum."""
        place, held = blocks.read(self.shared, self.header, number)
        if held is None:
            raise Refused(f"block {number} is damaged: its checksum is wrong, or the share ends before it")
        return place, bytearray(held)

    def patch(self, data, adding):
        """Blocks, for each its number (8), the length of its ranges (4) and these."""
        at = 0
        while at < len(data):
            if len(data) - at < BLOCK.size:
                raise Refused("a block is cut")
            number, count = BLOCK.unpack_from(data, at)
            at += BLOCK.size
            if len(data) - at < count:
                raise Refused("a block is cut")
            self.patch_block(number, data[at:at + count], adding)
            at += count

    def patch_block(self, number, data, adding):
        """Ranges of one block: for each its first byte (2), its length (2) and its bytes, which are the new ones, or are to be added."""
        place, symbols = self.block(number)
        at = 0
        while at < len(data):
            if len(data) - at < RANGE.size:
                raise Refused("a range is cut")
            first, count = RANGE.unpack_from(data, at)
            part = bytes(data[at + RANGE.size:at + RANGE.size + count])
            if len(part) != count or first + count > len(symbols) or first % share.symbol_len(self.header.record):
                raise Refused("a range lies outside its block, or between its symbols")
            if adding:
                arithmetic.add(self.header.record, part, memoryview(symbols)[first:first + count])
            else:
                symbols[first:first + count] = part
            self.redo.add(place + first, symbols[first:first + count])
            at += RANGE.size + count
        self.redo.add(place + len(symbols), share.checksum(share.seed(number), symbols))

    def end(self, header):
        self.redo.end(header)

    def close(self):
        os.close(self.file)
        os.close(self.shared)
