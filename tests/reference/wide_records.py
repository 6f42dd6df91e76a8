#!/usr/bin/env python3
"""wide_records.py: prints for each n from 2 to 255 the least prime p from 257 on with n dividing p - 1, and the least root of order n, as `n p root`.

wide_records.py --bytes: prints the bytes of the record of kind 3 with these and k = n/2, a line for each, as printf takes them.
"""
import sys
from itertools import count
from balanced import is_prime

COLUMNS = 6


def has_order(p, a, n):
    """Whether n is the least exponent from 1 on whose power of a is 1."""
    powers = [1]
    while len(powers) <= n:
        powers.append(powers[-1] * a % p)
    return powers[n] == 1 and 1 not in powers[1:n]


def row(n):
    p = next(p for p in count(257) if (p - 1) % n == 0 and is_prime(p))
    return n, p, next(a for a in range(2, p) if pow(a, n, p) == 1 and has_order(p, a, n))


def record(n, p, root):
    return bytes([3, *divmod(p, 256), *divmod(root, 256), n, n // 2])


rows = [row(n) for n in range(2, 256)]
if sys.argv[1:] == ["--bytes"]:
    for numbers in rows:
        print("".join(f"\\{byte:03o}" for byte in record(*numbers)))
else:
    for at in range(0, len(rows), COLUMNS):
        print("".join("{:5}{:6}{:6}".format(*numbers) for numbers in rows[at:at + COLUMNS]))
