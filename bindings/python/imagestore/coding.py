"""Blocks through the library's calls: from an image's bytes to shares with checksums, and back. Symbols are moved here, and
computed by the library alone."""
import threading

from balanced import MAX_LANES, SymbolError

from . import carrier, digest, share


class Room(threading.local):
    """Buffers that a thread uses again, batch after batch: memory that was just used is fast, and new memory is not."""

    def __init__(self):
        self.buffers = {}

    def buffer(self, name, size):
        """A buffer of so many bytes. What was in it is gone."""
        if len(self.buffers.get(name, b"")) != size:
            self.buffers[name] = memoryview(bytearray(size))
        return self.buffers[name]


def encode(plan, lanes, message, room=None, name=None):
    """The shares of a block, node after node: in a new buffer, or in one of a room."""
    if room is None:
        return memoryview(plan.to_nodes(lanes, plan.encode(lanes, message)))
    size = plan.shares_len(lanes)
    return plan.to_nodes(lanes, plan.encode(lanes, message, room.buffer("lanes", size)), room.buffer(name, size))


def shares_of(plan, layout, batch, data, room):
    """For each node the shares of some blocks with their checksums, piece after piece, and the blocks' part of the digest.

    The pieces stand in buffers of the room, and are good until the thread's next batch.
    """
    pieces, total, data, start = [[] for _ in range(plan.n)], 0, memoryview(data), layout.start(batch[0])
    for block in batch:
        at, size, lanes, count = layout.start(block) - start, layout.size(block), layout.lanes_of(block), layout.share_len(block)
        part = data[at:at + size]
        total += digest.of_block(block, part)
        shares = encode(plan, lanes, carrier.carry(plan, lanes, part), room, block - batch[0])
        rows = [shares[place:place + count] for place in range(0, plan.n * count, count)]
        for piece, row, checksum in zip(pieces, rows, share.checksums(share.seed(block), rows)):
            piece += (row, checksum)
    return pieces, total


def listed(plan, lanes, parts, room=None):
    """The shares of listed nodes lane after lane, as the library takes them: its calls move k of them, or all n."""
    count = len(parts)
    if count == plan.k:
        return plan.listed_to_lanes(lanes, b"".join(parts), room and room.buffer("lanes", plan.message_len(lanes)))
    if count == plan.n:
        return plan.to_lanes(lanes, b"".join(parts))
    width, step = plan.symbol_len, count * plan.symbol_len
    by_lane = bytearray(step * lanes)
    for i, part in enumerate(parts):
        for byte in range(width):
            by_lane[i * width + byte::step] = part[byte::width] if width > 1 else part
    return by_lane


def add(plan, difference, symbols):
    """Adds symbols to others, in place: as many as there are, 4,096 at a time."""
    difference, step = memoryview(difference), MAX_LANES * plan.symbol_len
    for at in range(0, len(symbols), step):
        part = symbols[at:at + step]
        plan.add_share(len(part) // plan.symbol_len, difference[at:at + step], part)


def recover(plan, lanes, held, room=None, name=None):
    """The message from the shares of k nodes, by node: in a new buffer, or in one of a room."""
    into = room and room.buffer(name, plan.message_len(lanes))
    return plan.recover(lanes, list(held), listed(plan, lanes, held.values(), room), into)


def recover_and_rebuild(plan, lanes, held, target):
    """The message, and one node's share, from those of k nodes."""
    nodes, by_lane = list(held), listed(plan, lanes, held.values())
    return plan.recover(lanes, nodes, by_lane), plan.rebuild(lanes, nodes, by_lane, target)


def spans(layout, batch):
    """For each block of a batch where its share begins and ends in what a node sends of them, and the seed of its checksum."""
    start = layout.place(batch[0])
    places = [(block, layout.place(block) - start) for block in batch]
    return [(block, at, at + layout.share_len(block), share.seed(block)) for block, at in places]


def are_symbols(plan, symbols):
    """Whether a row of a share holds symbols: each byte is one, but a number of two bytes may be none. The library judges them."""
    if plan.symbol_len == 1:
        return True
    try:
        plan.add_share(len(symbols) // plan.symbol_len, symbols, bytearray(len(symbols)))
    except SymbolError:
        return False
    return True


def blocks_in(plan, data, cuts):
    """Cuts what a node has sent of some blocks: the symbols of those whose checksums are right, and that hold symbols."""
    data, right = memoryview(data), {}
    for block, at, end, block_seed in cuts:
        symbols = data[at:end]
        if share.checksum(block_seed, symbols) == data[end:end + share.CHECKSUM.size] and are_symbols(plan, symbols):
            right[block] = symbols
    return right


def bits_sizes(layout, batch, missing):
    """For each block of a batch how many bytes a node sends of it for a repair, where so many nodes are missing."""
    bits, _ = layout.plan.repair_plan(missing)
    return [bits * ((layout.lanes_of(block) + 7) // 8) for block in batch]


def bits_in(data, sizes):
    """Cuts what a node has sent of some blocks for a repair: the bits of each, None for one that is damaged. None if it cannot be cut."""
    data, at, found = memoryview(data), 0, []
    for size in sizes:
        right = data[at:at + 1] == b"\1"
        found.append(data[at + 1:at + 1 + size] if right else None)
        at += 1 + size if right else 1
    return found if at == len(data) else None
