"""init and plan: a new store, and what a store of n nodes would cost."""
import os

import balanced

from . import carrier, repair, settings
from .errors import StoreError, for_nodes
from .node import FREE, MAKE
from .session import Session


def figures(record):
    """What a record means for who runs a store by it."""
    plan = balanced.Plan(record)
    storage = plan.n * plan.share_len(balanced.MAX_LANES) / carrier.capacity(plan, balanced.MAX_LANES)
    return {
        "record": list(plan.record), "nodes": plan.n, "needed": plan.k, "may_be_lost": plan.n - plan.k,
        "wrong_set_right": (plan.n - plan.k) // 2, "storage": storage, "nodes_written_by_a_change": plan.d,
        "symbols_a_node_depends_on": [plan.low_reads, plan.high_reads], **reading(plan)}


def reading(plan):
    """What a rebuild reads: of whole shares, or by traces where that is less."""
    left_out = repair.spare(plan, balanced.MAX_LANES, 0)
    if left_out is None:
        return {"shares_read_by_a_rebuild": plan.k, "bits_read_by_a_rebuild": None, "nodes_read_by_a_rebuild": plan.k}
    bits, nodes = plan.repair_plan()[0], plan.n - 1 - left_out
    return {"shares_read_by_a_rebuild": nodes * bits / 8, "bits_read_by_a_rebuild": bits, "nodes_read_by_a_rebuild": nodes}


def plan(n, k):
    return figures(carrier.choose(n, k))


def greet(wanted, how):
    """What the nodes of a new store say that cannot be, or become, its nodes."""
    every = range(len(wanted.nodes))
    with Session(wanted, every, make=every, how=how) as session:
        return for_nodes(session.down)


def init(path, needed, nodes, lanes, ssh=None, program=None):
    """Makes a new store: every folder must be free, then its file is written, then the folders become its nodes."""
    if os.path.exists(path):
        raise StoreError(f"there is a file {path} already")
    wanted = settings.fresh(path, needed, nodes, lanes, ssh, program)
    faults = greet(wanted, FREE)
    if faults:
        raise StoreError(f"no store was made{faults}")
    settings.save(wanted)
    faults = greet(wanted, MAKE)
    if faults:
        raise StoreError(f"the store was made without these nodes; `rebuild` adds them{faults}")
    return {"store": wanted.path, "places": list(wanted.nodes), "lanes": lanes, **figures(wanted.record)}
