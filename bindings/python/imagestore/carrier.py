"""How the bytes of an image become the symbols of messages, and which record a store of n nodes has.

The library does both: `choose` has a record for every n from 2 to 255, `carry_in` and `carry_out` take bytes to symbols and back,
and `carry_change` changes bytes where they are carried. Where n divides 255 symbols are bytes. Else two bytes are a word, and a mask
goes before each group of words (docs/SHARE-FILE.md).
"""
import balanced

from .errors import UsageError


def choose(n, k):
    """A record for n nodes, any k of which give an image back."""
    if not (2 <= n <= 255 and 1 <= k <= n):
        raise UsageError(f"a store has 2 to 255 nodes, and from 1 to all of them are needed; not {n} and {k}")
    return balanced.choose(n, k)


def check(plan):
    """The plan, if images can be carried by it."""
    try:
        plan.carried_len(0)
    except balanced.CarryError:
        raise UsageError("the symbols of this record do not carry bytes") from None
    return plan


def capacity(plan, lanes):
    """How many bytes of an image a block of so many lanes holds: as many whole symbols as its message carries."""
    low, high = 0, plan.k * lanes
    while low < high:
        middle = (low + high + 1) // 2
        fits = plan.carried_len(middle * plan.symbol_len) <= plan.message_len(lanes)
        low, high = (middle, high) if fits else (low, middle - 1)
    return low * plan.symbol_len


def fewest_lanes(plan, size):
    """The lanes of the smallest block that holds so many bytes, at least one."""
    return -(-plan.carried_len(size) // plan.message_len(1))


def carry(plan, lanes, data):
    """The message of a block that holds these bytes: zeros stand behind them."""
    symbols = data if plan.symbol_len == 1 else plan.carry_in(data)
    missing = plan.message_len(lanes) - len(symbols)
    return symbols if missing == 0 else bytes(symbols) + bytes(missing)


def uncarry(plan, message, size):
    """The bytes that a message holds, so many of them."""
    symbols = memoryview(message)
    return symbols[:size] if plan.symbol_len == 1 else memoryview(plan.carry_out(symbols[:plan.carried_len(size)], size))


def change(plan, message, size, at, data):
    """The message with the bytes from `at` on changed, of so many that it holds.

    A group of words keeps its mask while all of them are symbols under it: a byte that changes changes one symbol then.
    """
    changed = bytearray(message)
    plan.carry_change(memoryview(changed)[:plan.carried_len(size)], size, at, data)
    return changed
