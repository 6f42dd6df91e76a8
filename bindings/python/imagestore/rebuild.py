"""rebuild: a node's shares made anew from those of others, by the roster's fair jobs: from k whole shares, or by traces."""
from . import carrier, coding, digest, frames, image, lock, pipeline, repair, roster, share, twophase
from .errors import NodesFailed, StoreError, TooFewNodes, UsageError
from .examine import examine
from .family import Family
from .frames import Request
from .reader import Reader


def job_roster(store, without):
    """The roster that names the nodes of each job: the kept one, without some nodes."""
    jobs = roster.load(store.settings)
    for node in jobs.present():
        if node in without:
            jobs.leave(node)
    return jobs


def keep_turn(store, jobs):
    """The next rebuild goes on where this one ended, if it is among the same nodes."""
    with store.changed_roster() as kept:
        if kept.present() == jobs.present():
            while kept.job != jobs.job:
                kept.next_job()


def share_of(store, reader, batch, nodes, target):
    """The target's share of some blocks, with checksums, from k nodes, and the blocks' part of the image's digest."""
    parts, total, layout = [], 0, reader.layout
    for block, held in reader.read(batch, nodes):
        message, symbols = coding.recover_and_rebuild(store.plan, layout.lanes_of(block), held, target)
        total += digest.of_block(block, carrier.uncarry(store.plan, message, layout.size(block)))
        parts += (symbols, share.checksum(share.seed(block), symbols))
    return parts, total


def send(store, session, reader, target, jobs, whole):
    """Makes the share of one image and sends it to the target, each batch by a job of its own: by traces where that moves less, or
    from whole shares. Gives the image's digest, None where it was not seen."""
    layout, total = reader.layout, 0

    def batches():
        for batch in layout.batches(pipeline.batch_blocks(layout)):
            yield batch, jobs.job, jobs.next_job()

    def work(item):
        batch, job, nodes = item
        parts, part = None if whole else repair.share_of(store, reader, batch, target, job), None
        if parts is None:
            parts, part = share_of(store, reader, batch, nodes, target)
        session.ask([target], lambda node: Request(frames.WRITE, layout.name, layout.place(batch[0]), data=parts))
        return batch[-1] + 1, part

    for done, part in pipeline.in_order(work, batches(), store.threads, Family(session, reader)):
        total = None if part is None or total is None else total + part
        store.progress(f"node {target}, {layout.name}", done, layout.blocks)
    return None if total is None else digest.to_bytes(total)


def attempt(store, session, seen, target, jobs, untold, whole):
    """Makes the target's share of an image anew, without blocks that are wrong; gives the reader, None where the image was not right."""
    reader = Reader(store, session, seen, exclude={target}, untold=untold)
    with twophase.dropped_on_failure(session, seen.name, [target]):
        session.ask([target], lambda node: Request(frames.BEGIN, seen.name))
        if seen.exists and send(store, session, reader, target, jobs, whole) not in (None, seen.header.digest):
            twophase.drop(session, seen.name, [target])
            return None
        session.ask([target], lambda node: Request(frames.SEAL, seen.name, data=share.pack_header(seen.header.of(target))))
    twophase.commit(session, seen.name, {target: seen.header.write})
    return reader


def rebuild_image(store, session, seen, target, jobs, untold=None, whole=False):
    """As `attempt`; where a node's checksums are right and its content is not, once more without the blocks that are found wrong."""
    reader = attempt(store, session, seen, target, jobs, untold, whole)
    if reader is None:
        found = examine(store, session, seen)
        reader = attempt(store, session, seen, target, jobs, found.untold, whole) if found.untold and not found.doubts else None
    if reader is None:
        raise StoreError(f"{seen.name}: the checksums are right, and the image is not: nothing is made from it")
    return reader


def purge(store, session, seen):
    """Forgets an image that was removed, once every node knows of it."""
    knowing = [node for node in session.up() if node in seen.view.current]
    if seen.header and seen.header.removed and not seen.view.silent and not seen.ruling.wrong and knowing:
        session.lock(lock.EXCLUSIVE, store.wait)
        session.try_ask(knowing, lambda node: Request(frames.PURGE, seen.name))


def received(session):
    """The bytes of shares, or of bits of them, that came from nodes so far."""
    return sum(node["shares_received"] for node in session.traffic().values())


def rebuild_node(store, session, target, outcome, whole):
    """Every image at one node."""
    jobs = job_roster(store, {target, *session.down})
    for name in image.look_at_all(session):
        try:
            seen = store.look(session, name)
            if seen.header is None:
                continue
            before = received(session)
            reader = rebuild_image(store, session, seen, target, jobs, whole=whole)
        except TooFewNodes as error:
            outcome["lost"][name] = str(error)
            continue
        except NodesFailed:
            raise
        except StoreError as error:
            outcome["failed"][name] = str(error)
            continue
        if seen.header.removed:
            purge(store, session, image.look(session, store.plan, name))
            continue
        outcome["rebuilt"].append(
            {"node": target, "image": name, "share": seen.layout.file_len, "read": received(session) - before,
             "whole": store.plan.k * (seen.layout.file_len - seen.layout.place(0))})
        outcome["wrong"].update({node: f"{name}: {reader.said(node)}" for node in reader.faults})
    keep_turn(store, jobs)


def rebuild(store, targets, whole=False):
    """Rebuilds nodes one after the other, with `whole` from whole shares alone, by which the images' digests are seen.

    An image that too few nodes hold does not keep the others from being rebuilt.
    """
    for target in targets:
        if not 0 <= target < store.plan.n:
            raise UsageError(f"there is no node {target}: the nodes are 0 to {store.plan.n - 1}")
    with store.session(lock.EXCLUSIVE, "rebuild", also=targets, make=targets) as session:
        outcome = {"rebuilt": [], "lost": {}, "failed": {}, "wrong": {}}
        for target in dict.fromkeys(targets):
            if target not in session.links:
                raise StoreError(f"node {target}: {session.down[target]}")
            try:
                rebuild_node(store, session, target, outcome, whole)
            except NodesFailed as error:
                raise StoreError(str(error)) from None
        return {**outcome, "nodes": list(dict.fromkeys(targets)), "needed": store.plan.k, "absent": dict(session.down), "traffic": session.traffic()}
