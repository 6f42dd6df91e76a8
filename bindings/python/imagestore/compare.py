"""Every block of every node, compared: which nodes hold something else than the others, where no checksum says so.

The library finds the one message that all nodes that are here but a few hold, and which those few are: of s nodes up to
(s-k)/2 may be wrong in each lane.
"""
import balanced

from . import coding
from .errors import TooFewNodes


def settled(plan, lanes, held):
    """The message of a block and the nodes whose share of it, with a right checksum, is wrong; or None where it cannot be told."""
    if len(held) < plan.k:
        raise TooFewNodes(f"{len(held)} nodes have the block, and {plan.k} are needed")
    nodes = list(held)
    try:
        message, counts = plan.correct_listed(lanes, nodes, coding.listed(plan, lanes, held.values()))
    except balanced.FarError:
        return None
    return message, {node for node, count in zip(nodes, counts) if count}
