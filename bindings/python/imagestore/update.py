"""update: bytes of an image are changed, and the nodes that hold other symbols then are sent what they have to add, and no others.

The nodes that are sent something are told of the new generation with it. They are n-k+1 or more, so any k nodes have one of
them among them; where one of them is away, all others are told.
"""
from . import compare, digest, frames, lock, pipeline, share, twophase
from .changes import Changes, change_block
from .errors import NodesFailed, StoreError, TooFewNodes, UsageError, for_nodes
from .frames import Request
from .names import check_name
from .put import absent
from .reader import Reader
from .source import Source
from .whole import fresh_write, write_whole


def begin(session, name, nodes):
    session.ask(sorted(nodes), lambda node: Request(frames.BEGIN, name, count=1))


def see_agreement(store, session, reader, block, held, able):
    """Sees that all nodes agree on a block before it is changed: what is made from a wrong share would be wrong at other nodes too."""
    held = {**held, **reader.fetch([block], [node for node in able if node not in held])[block]}
    settled = compare.settled(store.plan, reader.layout.lanes_of(block), held)
    if settled is None:
        raise StoreError(f"{reader.layout.name}: the shares of block {block} do not agree, and which are wrong cannot be told")
    why = {node: f"block {block} is not that of the others, and its checksum is right" for node in settled[1]}
    for node, sentence in why.items():
        session.fail(node, sentence)
    if why:
        raise NodesFailed(why)


def send_changes(store, session, seen, reader, place, source, able):
    """Finds the changes and sends each node its own; gives them all, and the nodes that a write was begun at."""
    layout, all_changes, begun = seen.layout, Changes(), set()
    touched = range(place // layout.capacity, -(-(place + source.length) // layout.capacity))
    count = pipeline.batch_blocks(layout)
    batches = [touched[at:at + count] for at in range(0, len(touched), count)]

    def work(batch):
        changes = Changes()
        for block, held in reader.read(batch):
            change = change_block(store, layout, block, held, place, source)
            if change.nodes:
                see_agreement(store, session, reader, block, held, able)
            changes.add(change)
        return changes

    for done, changes in enumerate(pipeline.in_order(work, batches, store.threads), 1):
        concerned = changes.nodes & set(able)
        begin(session, seen.name, concerned - begun)
        begun |= concerned
        for op, patches in changes.patches.items():
            session.ask(sorted(concerned & set(patches)), lambda node: Request(op, seen.name, data=patches[node]))
        changes.patches = {}  # who was changed is kept, and not what was sent
        all_changes.add(changes)
        store.progress("changed", done, len(batches))
    return all_changes, begun


def attempt(store, session, seen, place, source):
    """Prepares an update; gives its header, None where nothing changes, and the changes."""
    able = [node for node in seen.right() if node in session.links]
    if len(able) < store.plan.k:
        why = for_nodes({**seen.faults, **session.down})
        raise TooFewNodes(f"{seen.name}: {len(able)} nodes are here that hold it right, and {store.plan.k} are needed{why}")
    reader = Reader(store, session, seen)
    with twophase.dropped_on_failure(session, seen.name, able):
        changes, begun = send_changes(store, session, seen, reader, place, source, able)
        source.check_unchanged()
        changed = changes.nodes
        if not changed:
            return None, changes
        if not changed <= set(able):
            begin(session, seen.name, set(able) - begun)
            begun = set(able)
        write = fresh_write()
        header = store.header_of(
            seen, length=seen.header.length, generation=seen.next_generation(), write=write,
            digest=digest.to_bytes(digest.from_bytes(seen.header.digest) + changes.digest), participants=frozenset(begun),
            writes=tuple(write if node in changed else seen.header.writes[node] for node in range(store.plan.n)))
        session.ask(sorted(begun), lambda node: Request(frames.SEAL, seen.name, data=share.pack_header(header.of(node))))
    return header, changes


def change(store, session, seen, place, source):
    """Makes an update; a node that fails on the way is left out, and the others begin anew."""
    while True:
        try:
            header, changes = attempt(store, session, seen, place, source)
        except NodesFailed:
            continue
        if header is None:
            return seen.header, [], changes
        done = twophase.commit(session, seen.name, dict.fromkeys(header.participants, header.write))
        return header, done, changes


def update(store, name, path, place=None):
    """Changes an image from `place` on to what the file holds, or all of it where no place is given."""
    check_name(name)
    with Source(path) as source, store.session(lock.EXCLUSIVE, f"update {name}") as session:
        seen = store.existing(session, name)
        length = seen.header.length
        if place is not None and not 0 <= place <= length - source.length:
            raise UsageError(f"{name} has {length} bytes: {source.length} bytes from {place} on are not within it")
        if place is None and source.length != length:
            header, done = write_whole(store, session, seen, source)
            changes = Changes(nodes=set(range(store.plan.n)), bytes=None)
        else:
            header, done, changes = change(store, session, seen, place or 0, source)
        return result(store, session, seen, header, done, changes)


def result(store, session, seen, header, done, changes):
    """What the command says. With `bytes` None the image was written anew, for its length is another."""
    written = [node for node in done if node in changes.nodes]
    missed = {node: why for node, why in absent(store, session, done).items() if node in changes.nodes}
    return {
        "image": seen.name, "generation": header.generation, "length": header.length, "digest": header.digest.hex(),
        "changed": changes.bytes, "nodes": written, "told": [node for node in done if node not in changes.nodes],
        "absent": missed, "symbols_sent": changes.symbols, "plain_sent": changes.plain, "plain_nodes": sorted(changes.plain_nodes),
        "sums": store.plan.n - store.plan.k, "whole_sent": store.plan.n * seen.layout.file_len, "traffic": session.traffic()}
