"""What an update changes: for each node the ranges of its share that hold other symbols then, and the figures.

Where few rows of a block change, each node of these rows is sent what it has to add, and no other node anything. Where many
change, nearly every node is concerned, and is sent its new symbols.
"""
from dataclasses import dataclass, field

from . import carrier, coding, digest, drafts, frames, ranges

FEW_ROWS = 16


@dataclass
class Changes:
    """What an update comes to: for each request, PATCH or ADD, and each node the ranges of its blocks, and the figures."""
    patches: dict = field(default_factory=dict)
    nodes: set = field(default_factory=set)
    digest: int = 0
    bytes: int = 0
    symbols: int = 0
    plain: int = 0
    plain_nodes: set = field(default_factory=set)

    def add(self, other):
        for op, parts in other.patches.items():
            mine = self.patches.setdefault(op, {})
            for node, data in parts.items():
                mine[node] = mine.get(node, b"") + data
        self.nodes |= other.nodes
        self.plain_nodes |= other.plain_nodes
        for figure in ("digest", "bytes", "symbols", "plain"):
            setattr(self, figure, getattr(self, figure) + getattr(other, figure))


def changed_rows(plan, lanes, old, new):
    """The rows of a message that change: for each the ranges, whole symbols, that do."""
    count, found = lanes * plan.symbol_len, {}
    for row in range(plan.k):
        start = row * count
        if old[start:start + count] != new[start:start + count]:
            found[row] = ranges.changed(old[start:start + count], new[start:start + count], plan.symbol_len)
    return found


def added_by_nodes(plan, lanes, old, new, rows):
    """What each node has to add: ranges of its share, and what is to be added there."""
    count, found = lanes * plan.symbol_len, {}
    for first, end in ranges.joined(part for parts in rows.values() for part in parts):
        size = end - first
        sums = memoryview(bytearray(plan.n * size))
        for row, parts in rows.items():
            if any(first <= part[0] < end for part in parts):
                before, after = (message[row * count + first:row * count + end] for message in (old, new))
                coding.add(plan, plan.differences(size // plan.symbol_len, row, before, after), sums)
        for node in range(plan.n):
            part = bytes(sums[node * size:(node + 1) * size])
            if any(part):
                found.setdefault(node, []).append((first, part))
    return found


def new_symbols(plan, lanes, old, new):
    """The symbols that each node holds then: ranges of its share."""
    before, after, count, found = coding.encode(plan, lanes, old), coding.encode(plan, lanes, new), lanes * plan.symbol_len, {}
    for node in range(plan.n):
        share_then = after[node * count:(node + 1) * count]
        parts = ranges.changed(before[node * count:(node + 1) * count], share_then, plan.symbol_len)
        if parts:
            found[node] = [(first, bytes(share_then[first:end])) for first, end in parts]
    return found


def for_nodes(plan, lanes, old, new):
    """The request, and what goes to each node with it, where a block's message changes."""
    rows = changed_rows(plan, lanes, old, new)
    if len(rows) <= FEW_ROWS:
        return frames.ADD, added_by_nodes(plan, lanes, old, new, rows)
    return frames.PATCH, new_symbols(plan, lanes, old, new)


def in_plain_layout(plan, lanes, old, new):
    """What the plain layout would be sent, with k nodes that hold the rows of the message and n-k sums: bytes, and which nodes."""
    rows = changed_rows(plan, lanes, old, new)
    sums = ranges.total(ranges.joined(part for parts in rows.values() for part in parts))
    return sum(map(ranges.total, rows.values())) + (plan.n - plan.k) * sums, {*rows, *range(plan.k, plan.n)}


def packed(block, parts):
    """The ranges of one block as a request takes them."""
    data = b"".join(drafts.RANGE.pack(first, len(symbols)) + symbols for first, symbols in parts)
    return drafts.BLOCK.pack(block, len(data)) + data


def change_block(store, layout, block, held, place, source):
    """The changes of one block: from `place` of the image on it becomes what the source holds."""
    plan, lanes, start, size = store.plan, layout.lanes_of(block), layout.start(block), layout.size(block)
    old = coding.recover(plan, lanes, held)
    before = bytes(carrier.uncarry(plan, old, size))
    first, end = max(start, place), min(start + size, place + source.length)
    part = source.read(first - place, bytearray(end - first))
    after = before[:first - start] + part + before[end - start:]
    if after == before:
        return Changes()
    new = carrier.change(plan, old, size, first - start, part)
    op, found = for_nodes(plan, lanes, old, new)
    plain, nodes = in_plain_layout(plan, lanes, old, new)
    return Changes(
        {op: {node: packed(block, parts) for node, parts in found.items()}}, set(found),
        digest.of_block(block, after) - digest.of_block(block, before), ranges.total(ranges.changed(before, after)),
        sum(len(symbols) for parts in found.values() for _, symbols in parts), plain, nodes)
