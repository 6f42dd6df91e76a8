"""What is wrong with an image, from all blocks of all nodes that are here."""
from . import carrier, compare, digest, pipeline
from .family import Family
from .reader import Reader


class Findings:
    """What is wrong: a sentence for each wrong node, and `doubts` where it cannot be told which node is wrong.

    `untold` are the wrong nodes whose checksums are right, each with the blocks, and `lost` are blocks that too few nodes have.
    `total` is the sum of the blocks' digests, None where a block is unknown.
    """

    def __init__(self, wrong=()):
        self.wrong, self.untold, self.doubts, self.lost, self.total = dict(wrong), {}, [], [], 0

    def doubt(self, sentence):
        self.doubts.append(sentence)
        self.total = None

    def lose(self, sentence):
        self.lost.append(sentence)
        self.total = None

    def add(self, other):
        for node, why in other.wrong.items():
            self.wrong.setdefault(node, why)
        for node, blocks in other.untold.items():
            self.untold.setdefault(node, set()).update(blocks)
        self.doubts += other.doubts
        self.lost += other.lost
        self.total = None if self.total is None or other.total is None else self.total + other.total

    def __bool__(self):
        return bool(self.wrong or self.doubts or self.lost)


def examine_block(store, layout, block, held, found):
    """Compares the shares of one block that have a right checksum."""
    plan, lanes = store.plan, layout.lanes_of(block)
    if len(held) < plan.k:
        return found.lose(f"block {block} is right at {len(held)} nodes, and {plan.k} are needed")
    settled = compare.settled(plan, lanes, held)
    if settled is None:
        return found.doubt(f"the shares of block {block} do not agree, and which are wrong cannot be told")
    message, nodes = settled
    for node in nodes:
        found.untold.setdefault(node, set()).add(block)
        found.wrong.setdefault(node, f"block {block} is not that of the others, and its checksum is right")
    if found.total is not None:
        found.total += digest.of_block(block, carrier.uncarry(plan, message, layout.size(block)))
    return None


def examine_batch(store, reader, batch):
    found, held = Findings(), reader.fetch(batch, reader.order())
    for block in batch:
        examine_block(store, reader.layout, block, held[block], found)
    return found


def examine(store, session, seen):
    """What is wrong with an image: every block of every node is read and compared."""
    reader, found, done = Reader(store, session, seen), Findings(seen.faults), 0
    batches = list(seen.layout.batches(pipeline.batch_blocks(seen.layout)))
    parts = pipeline.in_order(lambda batch: examine_batch(store, reader, batch), batches, store.threads, Family(session, reader))
    for batch, part in zip(batches, parts):
        found.add(part)
        done += len(batch)
        store.progress(f"check {seen.name}", done, seen.layout.blocks)
    for node in reader.faults:
        found.wrong.setdefault(node, reader.said(node))
    if found.total is not None and digest.to_bytes(found.total) != seen.header.digest:
        found.doubt("the nodes agree, and the digest is not that of the image")
    return found
