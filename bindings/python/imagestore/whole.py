"""A write of a whole image: new share files at every node that is here, in two steps."""
import secrets

from . import coding, digest, frames, pipeline, share, twophase
from .errors import NodesFailed
from .family import Family
from .frames import Request
from .layout import Layout


def fresh_write():
    """The number of a new write; no two writes have the same."""
    return secrets.randbits(63) + 1


def send(store, session, nodes, layout, source):
    """Encodes the image and sends each node its share; gives the image's digest."""
    room = coding.Room()

    def work(batch):
        start, end = layout.start(batch[0]), layout.start(batch[-1]) + layout.size(batch[-1])
        data = source.read(start, room.buffer("image", end - start))
        shares, part = coding.shares_of(store.plan, layout, batch, data, room)
        session.ask(nodes, lambda node: Request(frames.WRITE, layout.name, layout.place(batch[0]), data=shares[node]))
        return part, end

    total = 0
    for part, done in pipeline.in_order(work, layout.batches(pipeline.batch_blocks(layout)), store.threads, Family(session)):
        total += part
        store.progress("sent", done, layout.length)
    return digest.to_bytes(total)


def attempt(store, session, seen, source, nodes):
    """Prepares the image at these nodes: the header that they then have."""
    layout = Layout(store.plan, store.settings.lanes, source.length if source else 0, seen.name)
    write = fresh_write()
    with twophase.dropped_on_failure(session, seen.name, nodes):
        session.ask(nodes, lambda node: Request(frames.BEGIN, seen.name))
        total = send(store, session, nodes, layout, source) if source else bytes(32)
        if source:
            source.check_unchanged()
        header = store.header_of(
            seen, length=layout.length, generation=seen.next_generation(), write=write, digest=total,
            participants=frozenset(nodes), writes=(write,) * store.plan.n, removed=source is None)
        session.ask(nodes, lambda node: Request(frames.SEAL, seen.name, data=share.pack_header(header.of(node))))
    return header


def write_whole(store, session, seen, source):
    """Writes an image, or without a source its removal. A node that fails on the way is left out, and the others begin anew."""
    while True:
        session.need(store.plan.k, seen.name)
        try:
            header = attempt(store, session, seen, source, session.up())
        except NodesFailed:
            continue
        done = twophase.commit(session, seen.name, dict.fromkeys(header.participants, header.write))
        return header, done
