#!/usr/bin/env python3
"""Prints what tests/large_bytes.c must: many bytes carried in symbols and encoded in blocks, by checksums."""
from balanced import encode, plan_of, read
from carry import carried_len, carry_in, carry_out
from choose import choose
from data import checksum

BYTES = 100001
MOST_LANES = 4096
MODULUS = 4294967291


def generated():
    x = 1
    while True:
        x = (x * 1103515245 + 12345) % 2147483648
        yield x // 65536 % 256


def bytes_of(sort, gap, count):
    """Bytes of a generator, bytes that are all alike, and words that rule out as many masks as they can."""
    if sort == 0:
        return bytes(x for x, _ in zip(generated(), range(count)))
    if sort == 1:
        return bytes([255]) * count
    return b"".join((i * gap % 65536).to_bytes(2, "big") for i in range(count // 2 + 1))[:count]


def shares_sum(record, plan, symbols):
    """The checksums of all blocks' shares, added."""
    whole, total = plan.size(plan.k), 0
    for at in range(0, len(symbols), whole * MOST_LANES):
        part = symbols[at:at + whole * MOST_LANES]
        lanes = -(-len(part) // whole)
        number, shares = encode(record, lanes, part.ljust(lanes * whole, b"\0"), plan.size(plan.n * lanes))
        assert number == 0
        total = (total + checksum(shares)) % MODULUS
    return total


def carry(record, plan, count, sort):
    data = bytes_of(sort, 1 if plan.field.size == 256 else 65536 - plan.field.size, count)
    size = carried_len(record, count)[1]
    symbols = carry_in(record, data, size)[1]
    assert carry_out(record, symbols, count) == (0, data)
    print(f"sort {sort}: {count} bytes in {size}, symbols sum {checksum(symbols)}, shares sum {shares_sum(record, plan, symbols)}, the same bytes")


for n, k in ((6, 5), (15, 10), (12, 8), (255, 120), (254, 127), (240, 200), (2, 1)):
    record = choose(n, k, 7)[1]
    print("record", *record)
    for sort in range(3):
        carry(record, plan_of(*read(record)), BYTES - sort, sort)
