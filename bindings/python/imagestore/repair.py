"""A node's share from a few bits of each symbol of the others, by traces, where that moves less than k whole shares.

Nodes that may be missing are left out, by turns, so that fewer bits are moved. Every node that sends has seen that its blocks have
right checksums. The image's digest is not seen in this way: only whole shares of k nodes tell it.
"""
import balanced

from . import share


def moved(plan, lanes, senders, bits):
    """The bytes that so many nodes send of a block."""
    return senders * bits * ((lanes + 7) // 8)


def spare(plan, lanes, gone):
    """How many nodes are left out where so many are gone beside the target; None where k whole shares move less."""
    try:
        bits, count = plan.repair_plan(gone)
    except balanced.TracesError:
        return None
    return count if moved(plan, lanes, plan.n - 1 - gone - count, bits) < plan.k * plan.share_len(lanes) else None


def turned(nodes, first):
    """The nodes in order from a place on, going round."""
    first %= len(nodes)
    return nodes[first:] + nodes[:first]


def share_of(store, reader, batch, target, job):
    """The target's share of some blocks, with checksums, as parts; None where k whole shares move less.

    The nodes that are left out by the job are those after the ones that the job before left out.
    """
    plan, layout, able = store.plan, reader.layout, reader.sound(batch)
    while True:
        gone = [node for node in range(plan.n) if node != target and node not in able]
        count = spare(plan, layout.lanes, len(gone))
        if count is None:
            return None
        missing = sorted([*gone, *turned(able, job * count)[:count]])
        rows = reader.bits(batch, [node for node in able if node not in missing], target, missing)
        if len(rows) == plan.n - 1 - len(missing):
            break
        able = [node for node in able if node in rows or node in missing]
    parts = []
    for i, block in enumerate(batch):
        sent = b"".join(rows[node][i] for node in sorted(rows))
        symbols = plan.repair_share(layout.lanes_of(block), target, missing, sent)
        parts += (symbols, share.checksum(share.seed(block), symbols))
    return parts
