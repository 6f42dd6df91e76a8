"""A record for n nodes, any k of which give a message back, that carries bytes.

Kind 2 where n divides 255, else kind 3 with the greatest prime p below 65,536 that n divides p - 1. The root is the least symbol of
order n.
"""
from functools import lru_cache

from balanced import field_of, is_prime

RECORD_ROOM = 7


def powers(field, a):
    """a, a^2, .. up to the first that is 1."""
    found = [a]
    while found[-1] != 1:
        found.append(field.times(found[-1], a))
    return found


@lru_cache(maxsize=None)
def prime_for(n):
    return next(p for p in range(65535, 256, -1) if (p - 1) % n == 0 and is_prime(p))


@lru_cache(maxsize=None)
def root_of(p, n):
    """The least symbol of order n in the field of p elements, or of 256 for 0."""
    field = field_of(p)
    if p == 0:
        return next(a for a in range(1, 256) if len(powers(field, a)) == n)
    # the symbols whose n-th power is 1 are the powers of any one of order n
    one = next(root for root in (pow(a, (p - 1) // n, p) for a in range(2, p)) if len(powers(field, root)) == n)
    return min(root for root in powers(field, one) if len(powers(field, root)) == n)


def record_for(n, k):
    if 255 % n == 0:
        return bytes([2, root_of(0, n), n, k])
    p = prime_for(n)
    return bytes([3, *divmod(p, 256), *divmod(root_of(p, n), 256), n, k])


def choose(n, k, room):
    """(number, record)"""
    if not 2 <= n <= 255 or not 1 <= k <= n:
        return 4, None
    if room != RECORD_ROOM:
        return 8, None
    return 0, record_for(n, k)
