"""Repair of one node by traces, over the field of 256 elements: every other node sends b bits of each of its symbols, b = 1, 2 or 4.

With u = root^(j - t) for node j and target t, E(u) the product of (u - v)/(1 - v) over the v of the missing nodes, and Tr the trace
onto the subfield of 2^b elements, node j sends Tr(u/(u - 1)·E(u)·s) of its symbol s, and the target's symbol is the sum of
(u - 1)·Tr(..). An element of a subfield is named by its lowest b bits, and the elements are found by trying every byte.
"""
from functools import lru_cache

from balanced import call, field_of, inverse, lanes_bad

F = field_of(0)


def frobenius(a, b):
    """a^(2^b)"""
    for _ in range(b):
        a = F.times(a, a)
    return a


@lru_cache(maxsize=None)
def trace(a, b):
    """a + a^(2^b) + a^(2^(2b)) + .., 8/b terms"""
    total = 0
    for _ in range(8 // b):
        total, a = total ^ a, frobenius(a, b)
    return total


@lru_cache(maxsize=None)
def elements(b):
    """The elements of the subfield, by their lowest b bits."""
    return {a % 2**b: a for a in range(256) if frobenius(a, b) == a}


def bits(plan, missing):
    """The bits of a symbol that a node sends with so many nodes missing beside the target, 0 where there is no repair by traces."""
    if plan.field.size != 256:
        return 0
    return next((b for b in (1, 2, 4) if plan.n - plan.k >= 2 ** (8 - b) + missing), 0)


def senders(plan, target, missing):
    return [j for j in range(plan.n) if j != target and j not in missing]


def ratio(plan, target, j):
    return plan.powers[(j - target) % plan.n]


@lru_cache(maxsize=4096)
def factor(plan, target, missing, j):
    """u/(u - 1)·E(u)"""
    u = ratio(plan, target, j)
    product = F.times(u, inverse(F, u ^ 1))
    for m in missing:
        v = ratio(plan, target, m)
        product = F.times(product, F.times(u ^ v, inverse(F, 1 ^ v)))
    return product


def packed(digits, b):
    """b planes of bits, the lowest bits of the digits first: bit i of a plane is bit i mod 8 of byte i/8."""
    planes = bytearray()
    for bit in range(b):
        number = sum((digit >> bit & 1) << i for i, digit in enumerate(digits))
        planes += number.to_bytes((len(digits) + 7) // 8, "little")
    return bytes(planes)


def unpacked(planes, b, lanes):
    """The digits of b planes; bits behind the last lane are not looked at."""
    size = (lanes + 7) // 8
    numbers = [int.from_bytes(planes[e * size:(e + 1) * size], "little") for e in range(b)]
    return [sum((number >> i & 1) << e for e, number in enumerate(numbers)) for i in range(lanes)]


def packed_size(plan, lanes, missing):
    return bits(plan, len(missing)) * ((lanes + 7) // 8)


def target_faults(plan, target, missing):
    yield 9, target >= plan.n or any(j >= plan.n for j in missing) or target in missing
    yield 10, len(set(missing)) < len(missing)
    yield 17, bits(plan, len(missing)) == 0


def repair_plan(record, missing):
    """(number, (the bits that a node sends, how many nodes may be missing besides with no more bits))"""

    def work(plan):
        b = bits(plan, missing)
        return b, plan.n - plan.k - 2 ** (8 - b) - missing

    return call(record, lambda plan: [(17, bits(plan, missing) == 0)], work)


def repair_bits(record, lanes, node, target, missing, share, room):
    """(number, what the node sends)"""

    def faults(plan):
        yield 7, lanes_bad(lanes)
        yield 8, len(share) != plan.size(lanes) or room != packed_size(plan, lanes, missing)
        yield 9, node >= plan.n or node == target or node in missing
        yield from target_faults(plan, target, missing)

    def work(plan):
        b, c = bits(plan, len(missing)), factor(plan, target, bytes(missing), node)
        return packed([trace(F.times(c, symbol), b) % 2**b for symbol in share], b)

    return call(record, faults, work)


def repair_share(record, lanes, target, missing, rows, room):
    """(number, the target's share)"""

    def faults(plan):
        yield 7, lanes_bad(lanes)
        yield 8, len(rows) != (plan.n - 1 - len(missing)) * packed_size(plan, lanes, missing) or room != plan.size(lanes)
        yield from target_faults(plan, target, missing)

    def work(plan):
        b, size, share = bits(plan, len(missing)), packed_size(plan, lanes, missing), [0] * lanes
        for i, j in enumerate(senders(plan, target, missing)):
            weight = ratio(plan, target, j) ^ 1
            digits = unpacked(rows[i * size:(i + 1) * size], b, lanes)
            share = [x ^ F.times(weight, elements(b)[digit]) for x, digit in zip(share, digits)]
        return bytes(share)

    return call(record, faults, work)
