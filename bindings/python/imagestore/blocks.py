"""One block of a share file, as its node reads it."""
import os

from . import files, share


def read(file, header, number):
    """The place of a block, and its symbols, None where its checksum is wrong or the file ends before it."""
    place = share.block_place(header.record, header.name, header.lanes, number)
    room = os.fstat(file).st_size - place - share.CHECKSUM.size
    count = min(header.lanes * share.symbol_len(header.record), room)
    if count <= 0:
        return place, None
    held = files.read(file, place, count + share.CHECKSUM.size)
    right = share.checksum(share.seed(number), held[:count]) == held[count:]
    return place, held[:count] if right else None
