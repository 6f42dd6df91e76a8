"""What a node computes: it adds to its symbols what it is told to, and takes bits of them for the repair of another node.

The library does both. It is loaded when it is first needed, so a node that only keeps shares runs without it.
"""
import functools

from .errors import Refused


@functools.cache
def plan_of(record):
    import balanced
    return balanced.Plan(record)


def add(record, difference, symbols):
    """Adds a difference to symbols, in place."""
    from balanced import Error
    plan = plan_of(record)
    try:
        plan.add_share(len(symbols) // plan.symbol_len, difference, symbols)
    except Error as error:
        raise Refused(f"what is to be added is no difference of symbols: {error}") from None


def repair_bits(record, node, target, missing, symbols):
    """What a node sends of a block's symbols for the repair of another node."""
    from balanced import Error
    plan = plan_of(record)
    try:
        return plan.repair_bits(len(symbols) // plan.symbol_len, node, target, missing, symbols)
    except Error as error:
        raise Refused(f"there is no such repair: {error}") from None
