"""Random records, symbols and faults. Every test has a seed of its own, so that it is the same at each run."""
from functools import lru_cache

from .reference import code

# Fields, 0 for that of 256 elements: the bytes that a record of one begins with, and some numbers of nodes.
FIELDS = {
    0: ((2,), (3, 5, 15, 17)),
    3: ((1, 3), (2,)),
    7: ((1, 7), (2, 3, 6)),
    13: ((1, 13), (4, 6, 12)),
    31: ((1, 31), (5, 10, 15)),
    251: ((1, 251), (5, 10, 25)),
    257: ((3, 1, 1), (2, 4, 8, 16)),
    401: ((3, 1, 145), (5, 8, 10)),
    1021: ((3, 3, 253), (4, 6, 15)),
    65521: ((3, 255, 241), (3, 5)),
}


@lru_cache(maxsize=None)
def root_of(p, n):
    """Some symbol of order n: over a prime a power whose order divides n."""
    field = code.field_of(p)
    tried = (pow(a, (p - 1) // n, p) if p else a for a in range(2, field.size))
    return next(a for a in tried if code.order(field, a) == n)


def record_with(p, n, k):
    root = root_of(p, n)
    return bytes([*FIELDS[p][0], *([root] if p < 256 else divmod(root, 256)), n, k])


def some_record(random, fields=FIELDS, most=255):
    """A record of one of the fields with at most so many nodes."""
    p = random.choice(list(fields))
    n = random.choice([n for n in FIELDS[p][1] if n <= most])
    return record_with(p, n, random.randint(1, n))


def plan_of(record):
    """The reference's plan."""
    return code.build_plan(record)[1]


def symbols(random, plan, count):
    """A buffer of so many symbols of the plan's field."""
    return plan.bytes([random.randrange(plan.field.size) for _ in range(count)])


def some_lanes(random):
    return random.choice([1, 1, 2, 3, 7, 16, 64, 65])


def sometimes(random, other, usual):
    return other if random.random() < 0.1 else usual


def spoilt(random, plan, buffer):
    """The buffer, or one in four times one with a fault: too short, too long, or with a number that is no symbol."""
    fault = random.randrange(12)
    if fault == 0:
        return buffer[:-1]
    if fault == 1:
        return buffer + b"\0"
    if fault == 2 and plan.field.size != 256 and buffer:
        at = plan.size(random.randrange(len(buffer) // plan.size(1)))
        return buffer[:at] + plan.bytes([plan.field.size]) + buffer[at + plan.size(1):]
    return buffer


def altered(random, plan, shares, most):
    """The shares with up to so many symbols replaced."""
    out = bytearray(shares)
    for _ in range(random.randint(0, most)):
        at = plan.size(random.randrange(len(out) // plan.size(1)))
        out[at:at + plan.size(1)] = symbols(random, plan, 1)
    return bytes(out)


def room(random, length):
    """A buffer to write to, of so many bytes, or sometimes of one more or fewer."""
    return bytearray(random.randbytes(max(0, length + sometimes(random, random.choice([-1, 1]), 0))))
