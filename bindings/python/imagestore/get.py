"""get: an image from k nodes, those that answer first and whose checksums are right."""
from . import carrier, coding, digest, lock, pipeline
from .errors import StoreError
from .examine import examine
from .family import Family
from .names import check_name
from .reader import Reader
from .target import open_target


def blocks_of(store, reader, batch, room):
    """The bytes of a batch of blocks, and their part of the digest. With a room they stand in its buffers, until the thread's next batch."""
    layout, parts, total = reader.layout, [], 0
    for block, held in reader.read(batch):
        message = coding.recover(store.plan, layout.lanes_of(block), held, room, block - batch[0])
        data = carrier.uncarry(store.plan, message, layout.size(block))
        total += digest.of_block(block, data)
        parts.append(data)
    return parts, total


def copy_out(store, session, seen, target, untold=None):
    """Writes the image to a target; gives the reader, and whether the digest is that of the header."""
    reader, layout, total, done = Reader(store, session, seen, untold=untold), seen.layout, 0, 0
    room = coding.Room() if target.anywhere else None

    def work(batch):
        parts, part = blocks_of(store, reader, batch, room)
        size = sum(map(len, parts))
        if target.anywhere:
            target.write(layout.start(batch[0]), parts)
            parts = []
        return parts, part, size

    family = Family(session, reader) if target.anywhere else None
    for parts, part, size in pipeline.in_order(work, layout.batches(pipeline.batch_blocks(layout)), store.threads, family):
        if parts:
            target.write(done, parts)
        total, done = total + part, done + size
        store.progress("read", done, layout.length)
    return reader, digest.to_bytes(total) == seen.header.digest


def read_right(store, session, seen, target):
    """Reads the image; where every checksum is right and the image is not, once more without the blocks that are found wrong."""
    reader, right = copy_out(store, session, seen, target)
    wrong = {node: reader.said(node) for node in reader.faults}
    if right:
        return wrong
    target.again()
    found = examine(store, session, seen)
    if found.untold and not found.doubts and not found.lost:
        _, right = copy_out(store, session, seen, target, found.untold)
    if not right:
        reasons = "".join(f"; {why}" for why in found.doubts + found.lost)
        raise StoreError(f"{seen.name}: the checksums are right, and the image is not{reasons}")
    return found.wrong


def get(store, name, path):
    check_name(name)
    with store.session(lock.SHARED, f"get {name}") as session:
        seen = store.readable(session, name)
        target = open_target(path)
        try:
            wrong = {**seen.faults, **read_right(store, session, seen, target)}
            target.keep()
        finally:
            target.close()
        return {"image": name, "length": seen.layout.length, "generation": seen.header.generation,
                "digest": seen.header.digest.hex(), "wrong": wrong, "absent": dict(session.down), "traffic": session.traffic()}
