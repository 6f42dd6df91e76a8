"""How an image is cut into blocks, and where their shares stand.

Each block holds as many bytes as a message of `lanes` lanes carries; the last has as few lanes as hold the rest.
"""
from dataclasses import dataclass

from . import carrier, share


@dataclass(frozen=True)
class Layout:
    """The blocks of an image of `length` bytes."""
    plan: object
    lanes: int
    length: int
    name: str

    def __post_init__(self):
        object.__setattr__(self, "capacity", carrier.capacity(self.plan, self.lanes))
        object.__setattr__(self, "blocks", -(-self.length // self.capacity))

    def start(self, block):
        """The first byte of the image that the block holds."""
        return block * self.capacity

    def size(self, block):
        """How many bytes of the image the block holds."""
        return min(self.capacity, self.length - self.start(block))

    def lanes_of(self, block):
        size = self.size(block)
        return self.lanes if size == self.capacity else carrier.fewest_lanes(self.plan, size)

    def share_len(self, block):
        """The bytes of one node's share of the block, without the checksum."""
        return self.lanes_of(block) * self.plan.symbol_len

    def place(self, block):
        """Where the block begins in a share file; for the number of blocks, where the file ends."""
        whole = share.block_place(self.plan.record, self.name, self.lanes, block)
        if block < self.blocks or block == 0:
            return whole
        short = self.lanes * self.plan.symbol_len - self.share_len(block - 1)
        return whole - short

    @property
    def file_len(self):
        return self.place(self.blocks)

    def batches(self, count):
        """The blocks in runs of so many, the last perhaps shorter."""
        for first in range(0, self.blocks, count):
            yield range(first, min(first + count, self.blocks))
